//! Answers Mangerknot's vectors by the crate that this file is put into: a full checkout of sparkl, whose functions are as they are there.
//! `README.md` beside this file's original says how it is put in. What it stands on besides, `scene` and `given`, is the oracle's own, and
//! is compiled and tested there on stand-ins, as all of this file is but for the part below.

// ---- From crates that were not handed over, with which this was never compiled.
//
// Of nalgebra, behind `crate::math`, `scene` takes: `Vector::from([x, y])`, `Point::from([x, y])`, their fields `x` and `y`,
// `Matrix::new(m11, m12, m21, m22)` by rows, `matrix[(row, column)]` and `Matrix::identity()`; of bitflags `empty` and `set`. This part
// takes `MmapMut::map_mut` of memmap2, and, only where the compiler is told `--cfg mangerknot_shapes`, a shape of parry's and a collider of
// rapier's: which methods a shape has to have changes with parry's version.
#[cfg(not(feature = "stand-ins"))]
mod glue {
    use crate::math::{Point, Real};
    pub use memmap2::MmapMut as Memory;
    use rapier::geometry::ColliderSet;
    use std::fs::{remove_file, OpenOptions};
    use std::sync::atomic::{AtomicUsize, Ordering};

    /// A node lies at its cell's id. Beyond this no program's memory reaches.
    const LARGEST: u64 = 1 << 46;

    /// As much as a region takes.
    const REGION: u64 = 1 << 12;

    fn length(ids: &[u64]) -> Option<u64> {
        ids.iter().max().map_or(Some(REGION), |last| last.checked_add(REGION)).filter(|length| *length <= LARGEST)
    }

    /// Whether memory can reach the nodes of these regions.
    pub fn reaches(ids: &[u64]) -> bool {
        length(ids).is_some()
    }

    /// Memory for the nodes of these regions: a file with holes, since a plain map of some terabytes is refused by the system.
    pub fn memory(ids: &[u64]) -> Memory {
        static COUNT: AtomicUsize = AtomicUsize::new(0);
        let name = format!("mangerknot-{}-{}", std::process::id(), COUNT.fetch_add(1, Ordering::Relaxed));
        let path = std::env::temp_dir().join(name);
        let file = OpenOptions::new().read(true).write(true).create_new(true).open(&path).expect("a file of its own");
        file.set_len(length(ids).expect("within reach")).expect("a file with holes");
        let memory = unsafe { Memory::map_mut(&file) }.expect("a map of it");
        remove_file(path).expect("its own file");
        memory
    }

    pub const HAS_SHAPES: bool = cfg!(mangerknot_shapes);

    /// No collider, where no shape can be had that has given projections: such questions are left.
    #[cfg(not(mangerknot_shapes))]
    pub fn colliders(frictions: &[Real], _: &[Point<Real>], _: &[Vec<(bool, Point<Real>)>]) -> ColliderSet {
        assert!(frictions.is_empty());
        ColliderSet::new()
    }

    /// A collider for each friction, which has these projections for the cells of these centres.
    #[cfg(mangerknot_shapes)]
    pub fn colliders(frictions: &[Real], centres: &[Point<Real>], projections: &[Vec<(bool, Point<Real>)>]) -> ColliderSet {
        let mut set = ColliderSet::new();
        for (friction, own) in frictions.iter().zip(projections) {
            let shape = shapes::Given::new(centres, own);
            let shared = crate::parry::shape::SharedShape(std::sync::Arc::new(shape));
            set.insert(rapier::geometry::ColliderBuilder::new(shared).friction(*friction).build());
        }
        set
    }

    /// A ball in all that an update does not ask. Names are parry's of about 0.13 to 0.16: later ones have `clone_dyn` for `clone_box`.
    #[cfg(mangerknot_shapes)]
    mod shapes {
        use crate::math::{Isometry, Point, Real};
        use crate::parry::bounding_volume::{Aabb, BoundingSphere};
        use crate::parry::mass_properties::MassProperties;
        use crate::parry::query::{PointProjection, PointQuery, Ray, RayCast, RayIntersection};
        use crate::parry::shape::{Ball, FeatureId, Shape, ShapeType, TypedShape};
        use std::collections::HashMap;

        #[derive(Clone)]
        pub struct Given {
            ball: Ball,
            projections: HashMap<[u32; 2], (bool, Point<Real>)>,
        }

        impl Given {
            pub fn new(centres: &[Point<Real>], own: &[(bool, Point<Real>)]) -> Self {
                let projections = centres.iter().map(key).zip(own.iter().copied()).collect();
                Given { ball: Ball::new(1.0), projections }
            }
        }

        fn key(point: &Point<Real>) -> [u32; 2] {
            [point.x.to_bits(), point.y.to_bits()]
        }

        impl PointQuery for Given {
            fn project_local_point(&self, point: &Point<Real>, _: bool) -> PointProjection {
                let (is_inside, point) = self.projections[&key(point)];
                PointProjection::new(is_inside, point)
            }

            fn project_local_point_and_get_feature(&self, point: &Point<Real>) -> (PointProjection, FeatureId) {
                (self.project_local_point(point, false), FeatureId::Unknown)
            }

            /// Without a way there and back, which could change the sign of a zero.
            fn project_point(&self, _: &Isometry<Real>, point: &Point<Real>, solid: bool) -> PointProjection {
                self.project_local_point(point, solid)
            }
        }

        impl RayCast for Given {
            fn cast_local_ray_and_get_normal(&self, ray: &Ray, longest: Real, solid: bool) -> Option<RayIntersection> {
                self.ball.cast_local_ray_and_get_normal(ray, longest, solid)
            }
        }

        impl Shape for Given {
            fn compute_local_aabb(&self) -> Aabb {
                Shape::compute_local_aabb(&self.ball)
            }

            fn compute_local_bounding_sphere(&self) -> BoundingSphere {
                Shape::compute_local_bounding_sphere(&self.ball)
            }

            fn clone_box(&self) -> Box<dyn Shape> {
                Box::new(self.clone())
            }

            fn mass_properties(&self, density: Real) -> MassProperties {
                Shape::mass_properties(&self.ball, density)
            }

            fn shape_type(&self) -> ShapeType {
                ShapeType::Ball
            }

            fn as_typed_shape(&self) -> TypedShape {
                TypedShape::Ball(&self.ball)
            }

            fn ccd_thickness(&self) -> Real {
                self.ball.radius
            }

            fn ccd_angular_thickness(&self) -> Real {
                0.0
            }
        }
    }
}

// ---- From here on all is compiled and tested on the stand-ins too.

#[cfg(not(feature = "stand-ins"))]
#[path = "../sparkl/given.rs"]
mod given;
#[cfg(not(feature = "stand-ins"))]
#[path = "../sparkl/scene.rs"]
mod scene;

use self::scene::Scene;
use crate::geometry::{way_in, SpGrid};
use crate::math::{Kernel, Point, Real, Vector};
use crate::utils::inv_exact;
#[cfg(feature = "stand-ins")]
use crate::{glue, scene};
use samples::lines::{folded, Edit};
use samples::substeps::{self, Answer, Substep};
use samples::{canonical, Call, Records};
use std::path::Path;
use std::{fs, io};

/// The vectors by their names, and where questions and answers lie in Mangerknot's repository.
const SHEETS: [[&str; 3]; 7] = [
    ["packing", "crates/packing_runs/stdin", "crates/packing_runs/stdout"],
    ["numeric", "crates/numeric_runs/stdin", "crates/numeric_runs/stdout"],
    ["grid", "host/vectors/grid.questions", "host/vectors/grid.answers"],
    ["scatter", "host/vectors/scatter.questions", "host/vectors/scatter.answers"],
    ["update", "host/vectors/update.questions", "host/vectors/update.answers"],
    ["gather", "host/vectors/gather.questions", "host/vectors/gather.answers"],
    ["fluids", "host/vectors/fluids.questions", "host/vectors/fluids.answers"],
];

/// A sheet's answers: this crate's where it has one, else those that were handed in.
pub struct Written {
    pub name: &'static str,
    pub answers: String,
    /// How many are this crate's, how many of these are not as handed in, and how many were left.
    pub own: usize,
    pub differ: usize,
    pub left: usize,
}

impl Written {
    /// Whether all of this crate's answers are as handed in, and whether there are as many as there have to be.
    pub fn is_right(&self) -> bool {
        self.differ == 0 && self.own >= least(self.name)
    }
}

/// How many answers of a sheet have to be this crate's at the least, which is few less than are; without shapes some are left.
fn least(name: &str) -> usize {
    let [with_shapes, without] = match name {
        "packing" => [3_200; 2],
        "numeric" => [19_050; 2],
        "grid" => [5_900; 2],
        "scatter" => [950; 2],
        "update" => [4_590, 65],
        "gather" => [2_150, 2_110],
        _ => [1_450, 1_410],
    };
    if glue::HAS_SHAPES {
        with_shapes
    } else {
        without
    }
}

/// Answers every sheet of the repository.
pub fn written(repository: &Path) -> io::Result<Vec<Written>> {
    let read = |name: &str| fs::read_to_string(repository.join(name));
    SHEETS.iter().map(|[name, questions, answers]| Ok(sheet(name, &read(questions)?, &read(answers)?))).collect()
}

fn sheet(name: &'static str, questions: &str, answers: &str) -> Written {
    let mut written = Written { name, answers: String::new(), own: 0, differ: 0, left: 0 };
    let mut calls = vec![];
    for (question, handed) in questions.lines().zip(answers.lines()) {
        let fields: Vec<&str> = question.split('\t').collect();
        let own = if question.starts_with('#') { None } else { answer(name, &fields, handed, &mut calls) };
        match &own {
            Some(own) => {
                written.own += 1;
                written.differ += usize::from(own != handed);
            }
            None => written.left += usize::from(!question.starts_with('#')),
        }
        written.answers += own.as_deref().unwrap_or(handed);
        written.answers.push('\n');
    }
    written
}

/// This crate's answer, where it has one. What was refused was so by a rule that it does not have.
fn answer(name: &str, question: &[&str], handed: &str, calls: &mut Vec<Call>) -> Option<String> {
    let is_done = handed.starts_with("0\t0");
    match (name, question) {
        ("packing", _) => packing(question),
        ("numeric", [letter, numbers @ ..]) => {
            Some(floats(&numeric(letter, &numbers.iter().map(|bits| word(bits)).collect::<Vec<_>>())?))
        }
        ("grid", [letter, fields @ ..]) => cells(letter, fields),
        (_, ["b", _, fields @ ..]) => {
            let read = [("update", Call::from_bounded_fields as fn(&[&str]) -> Call), ("gather", Call::from_gather_fields)];
            let read =
                read.iter().find(|(other, _)| *other == name).map_or(Call::from_fields as fn(&[&str]) -> Call, |(_, read)| *read);
            calls.push(read(fields));
            None
        }
        (_, ["w", number, seed, count]) if is_done && !is_refused_at_last(handed) => {
            substeps_in_a_row(&calls[decimal(number)], name == "fluids", decimal(seed) as u64, decimal(count))
        }
        (_, ["w", ..]) => None,
        (_, [letter, number, more @ ..]) if is_done => stage(name, letter, &calls[decimal(number)], more),
        _ => None,
    }
}

fn decimal(field: &str) -> usize {
    field.parse().expect("a decimal")
}

fn number(field: &str) -> u64 {
    u64::from_str_radix(field, 16).expect("16 hex digits")
}

fn word(field: &str) -> u32 {
    u32::from_str_radix(field, 16).expect("8 hex digits")
}

fn hex(numbers: &[u64]) -> String {
    numbers.iter().map(|number| format!("{:016X}", number)).collect::<Vec<_>>().join("\t")
}

fn floats(numbers: &[u32]) -> String {
    numbers.iter().map(|bits| format!("{:08X}", bits)).collect::<Vec<_>>().join("\t")
}

// Ids of the plane. Those in space are left.

fn packing(question: &[&str]) -> Option<String> {
    let grid = || SpGrid::<()>::new(1.0).expect("a map of 28 bytes");
    let pair = |fields: &[&str]| [0, 1].map(|axis| fields[axis].parse::<u32>().expect("a coordinate"));
    let ids = match *question {
        ["p2", ref cell @ ..] => vec![way_in::pack(pair(cell))],
        ["i2", x, y] => vec![way_in::packi([x, y].map(|bits| word(bits) as i32))],
        ["a2", i, j] => vec![way_in::packed_add(number(i), number(j))],
        ["o2", id] => vec![grid().shift_cell_neg_one(number(id))],
        ["w2", id] => vec![grid().shift_cell_neg_two(number(id))],
        ["f2", id] => vec![way_in::packed_add(number(id), SpGrid::<()>::PACKED_PLUS_FIVE)],
        ["n2", id] => SpGrid::<()>::region_neighbors(number(id)).to_vec(),
        ["t2"] => way_in::nbh_shifts(),
        ["g2"] => way_in::nbh_region_shifts(),
        ["s2", id] => way_in::PACKED_NBH_SHIFTS.iter().map(|shift| way_in::packed_add(number(id), *shift)).collect(),
        ["u2", id] => return Some(way_in::unpack(number(id)).map(|part| part.to_string()).join("\t")),
        ["c2", id, color] => {
            return Some(
                u32::from(SpGrid::<()>::is_in_region_with_color(number(id), color.parse().expect("a colour"))).to_string(),
            )
        }
        _ => return None,
    };
    Some(hex(&ids))
}

// Floats and the kernel.

fn numeric(letter: &str, bits: &[u32]) -> Option<Vec<u32>> {
    let pair = |place: usize| [bits[place], bits[place + 1]].map(Real::from_bits);
    let vector = |place: usize| -> Vector<Real> { Vector::from(pair(place)) };
    let point = |place: usize| -> Point<Real> { Point::from(pair(place)) };
    let numbers: Vec<Real> = bits.iter().map(|bits| Real::from_bits(*bits)).collect();
    let parts = |vector: Vector<Real>| vec![vector.x, vector.y];
    let found = match (letter, &numbers[..]) {
        ("i", &[e]) => vec![inv_exact(e)],
        ("d", &[h]) => vec![Kernel::inv_d(h)],
        ("e", &[x]) => Kernel::eval_all(x).to_vec(),
        ("k", &[x]) => vec![Kernel::eval(x)],
        ("v", &[x]) => vec![Kernel::eval_derivative(x)],
        ("p", &[_, _, h]) => Kernel::precompute_weights(vector(0), h).concat(),
        ("s", &[_, _, h]) => vec![Kernel::stencil_with_dir(vector(0), h)],
        ("t", &[_, _, _, _, h]) => vec![Kernel::stencil(point(0), point(2), h)],
        ("x", &[_, _, h]) => parts(Kernel::stencil_gradient_with_dir(vector(0), h)),
        ("y", &[_, _, _, _, h]) => parts(Kernel::stencil_gradient(point(0), point(2), h)),
        _ => return None,
    };
    Some(found.into_iter().map(|part| canonical(part.to_bits())).collect())
}

// Cells of points, and centres of cells.

fn cells(letter: &str, fields: &[&str]) -> Option<String> {
    let grid = || SpGrid::<()>::new(Real::from_bits(word(fields[0]))).expect("a map of 28 bytes");
    let point = || -> Point<Real> { Point::from([fields[1], fields[2]].map(|bits| Real::from_bits(word(bits)))) };
    let parts = |point: Point<Real>| floats(&[point.x, point.y].map(|part| canonical(part.to_bits())));
    match letter {
        "c" => Some(parts(grid().cell_pos_closest_to_point(&point()))),
        "a" => Some(hex(&[grid().cell_at_point(&point())])),
        "s" => Some(hex(&[grid().cell_associated_to_point(&point())])),
        "r" => Some(hex(&[grid().region_associated_to_point(&point())])),
        "m" => Some(parts(grid().cell_center(number(fields[1])))),
        _ => None,
    }
}

// Stages.

/// What a stage leaves of a call with changes, where memory reaches its nodes and colliders can have what they are given.
fn stage(name: &str, letter: &str, call: &Call, more: &[&str]) -> Option<String> {
    let changed =
        |edits: &[&str]| call.edited(&edits.iter().map(|edit| edit.parse::<Edit>().expect("a change")).collect::<Vec<_>>());
    let (place, call) = match (letter, more) {
        ("o", [place, edits @ ..]) => (Some(decimal(place)), changed(edits)),
        // The crate has no order of regions; whatever it is, the nodes are the same.
        ("q", [count, rest @ ..]) => (None, changed(&rest[decimal(count)..])),
        _ => (None, changed(more)),
    };
    if !can_be_asked(&call, name == "update") {
        return None;
    }
    let fields = match (name, letter) {
        ("scatter", _) => scattered(&call, place),
        ("update", "u") => updated(&call, false),
        ("update", "a") => updated(&call, true),
        ("gather", "g") => particles(&call, &Scene::first_half(&call)),
        ("gather", "s") => particles(&call, &Scene::second_half(&call)),
        ("fluids", _) => recomputed(&call),
        _ => return None,
    };
    Some([vec!["0".to_string(), "0".to_string()], fields].concat().join("\t"))
}

fn can_be_asked(call: &Call, has_colliders: bool) -> bool {
    glue::reaches(&call.ids) && (glue::HAS_SHAPES || !has_colliders || call.boundary.frictions.is_empty())
}

fn scattered(call: &Call, place: Option<usize>) -> Vec<String> {
    let mut scene = Scene::new(&Call { boundary: Default::default(), ..call.clone() }, glue::memory(&call.ids));
    place.into_iter().for_each(|place| scene.only(place));
    scene.scatter();
    let (floats, words) = scene.nodes();
    call.answered((&floats, &words), &call.hits(place))
}

fn updated(call: &Call, from_particles: bool) -> Vec<String> {
    let mut scene = Scene::new(call, glue::memory(&call.ids));
    if from_particles {
        scene.clear();
        scene.scatter();
    }
    scene.update();
    let (floats, words) = scene.nodes();
    call.all_answered((&floats, &words))
}

fn particles(call: &Call, (floats, words): &Records) -> Vec<String> {
    folded(&call.particles_answered((floats, words)))
}

fn recomputed(call: &Call) -> Vec<String> {
    let [left, (floats, words)] = Scene::recomputed(call);
    [particles(call, &left), vec!["|".to_string()], folded(&call.masses_answered((&floats, &words)))].concat()
}

// Substeps in a row.

/// The last of the fields is a particle's, or else the index of what was refused.
fn is_refused_at_last(handed: &str) -> bool {
    let last = handed.rsplit('\t').next().unwrap_or("");
    last.len() < 20 && last.bytes().all(|byte| byte.is_ascii_digit())
}

/// Substeps of which none is refused; nothing where one of them cannot be asked.
fn substeps_in_a_row(call: &Call, recomputes: bool, seed: u64, count: usize) -> Option<String> {
    let mut can_all_be_asked = true;
    let stages = |substep: &Substep| -> Vec<Answer> {
        can_all_be_asked &= can_be_asked(&substep.call, true);
        if can_all_be_asked {
            substep.judged(|_, _| None, Scene::substep)
        } else {
            vec![Err((0, 0))]
        }
    };
    let fields = substeps::run(call, recomputes, seed, count, stages);
    can_all_be_asked.then(|| fields.join("\t"))
}

/// In a full checkout: writes the answers of all sheets, says how many are this crate's, and then holds them to what was handed in.
#[cfg(all(test, not(feature = "stand-ins")))]
#[test]
fn vectors() {
    let folder =
        |name: &str| std::path::PathBuf::from(std::env::var_os(name).unwrap_or_else(|| panic!("{} names a folder", name)));
    let (repository, out) = (folder("MANGERKNOT"), folder("MANGERKNOT_OUT"));
    fs::create_dir_all(&out).expect("a folder for the answers");
    let sheets = written(&repository).expect("the vectors");
    for Written { name, answers, own, differ, left } in &sheets {
        fs::write(out.join(format!("{}.answers", name)), answers).expect("a file of answers");
        println!("{}: {} answers of this crate, {} of them not as handed in, {} left as they were", name, own, differ, left);
    }
    let wrong: Vec<&str> = sheets.iter().filter(|sheet| !sheet.is_right()).map(|sheet| sheet.name).collect();
    assert!(wrong.is_empty(), "not as handed in, or too few of this crate's: {:?}", wrong);
}
