//! The powder column of `host/examples` through the archive and through the handed-over Rust, under the same law of the host.

use examples::cup::{column, CELL, DT, GRAVITY, POWDER, WALLS};
use examples::port::{Port, POWDER_SAYS};
use examples::run::{in_order_of, Moment, Solver};
use mangerknot::{Matrix, Particle, Projection};
use samples::{plane, Call, Gather, Records, FRICTION, NODE_FLOATS, PARTICLE_FLOATS, PARTICLE_WORDS, REGION_NODES};
use sparkl2d::scene::Scene;
use sparkl2d::MmapMut;
use std::convert::Infallible;

/// A line is printed after every so many substeps.
const EVERY: usize = 100;

/// Runs both sides so many substeps; says whether every grain has the same bits after each of them.
pub fn run(substeps: usize) -> bool {
    println!("machine: {}", crate::machine());
    let mut port = Port::new(column()).expect("nothing is refused");
    let mut rust = Rust::new(column());
    for substep in 1..=substeps {
        let masses = [port.substep().expect("nothing is refused"), rust.substep().expect("the Rust refuses nothing")];
        let (ports, rusts) = (port.grains(), rust.grains());
        if let Some(grain) = first_difference(&ports, &rusts) {
            println!("differs after substep {}: grain {}, {:?} and not {:?}", substep, grain, ports[grain], rusts[grain]);
            return false;
        }
        if masses[0].to_bits() != masses[1].to_bits() {
            println!("differs after substep {}: nodes of {} mg and not of {}", substep, masses[0], masses[1]);
            return false;
        }
        if substep % EVERY == 0 || substep == substeps {
            let Moment { front, energy, .. } = Moment::of(substep, &rusts, masses[1]);
            println!("substep {}: front {:.1} mm, kinetic energy {:.3} uJ, every grain the same", substep, front, energy);
        }
    }
    println!("{} grains, {} substeps: the same to the bit after each", rust.grains.len(), substeps);
    true
}

/// The first grain that is not the same to the bit.
fn first_difference(grains: &[Particle], others: &[Particle]) -> Option<usize> {
    let bits = |grain: &Particle| (grain.floats().map(f32::to_bits), grain.words());
    (0..grains.len().max(others.len())).find(|place| grains.get(*place).map(bits) != others.get(*place).map(bits))
}

/// The handed-over Rust, with a sort of its own.
struct Rust {
    /// By regions, and of each the place in the column.
    grains: Vec<Particle>,
    origins: Vec<usize>,
}

impl Rust {
    fn new(grains: Vec<Particle>) -> Rust {
        Rust { origins: (0..grains.len()).collect(), grains }
    }

    /// The grains by regions, with their stress, as a call of every stage; those of a region stay in their order.
    fn sorted(&mut self) -> Call {
        let first = |grain: &Particle| plane::first_cell(grain.position, CELL).expect("a grain on the grid");
        let mut placed: Vec<(usize, Particle)> = self.origins.iter().copied().zip(self.grains.iter().copied()).collect();
        placed.sort_by_key(|(_, grain)| plane::region(first(grain)));
        (self.origins, self.grains) = placed.into_iter().unzip();
        self.grains.iter_mut().for_each(|grain| grain.stress = POWDER.stress(grain.deformation_gradient));
        let mut ids: Vec<u64> = self.grains.iter().flat_map(|grain| plane::regions(first(grain))).collect();
        ids.sort_unstable();
        ids.dedup();
        let mut call = Call { cell_width: CELL, dt: DT, gravity: GRAVITY, ..Call::on(ids) };
        let regions: Vec<u64> = self.grains.iter().map(|grain| plane::region(first(grain))).collect();
        for (range, id) in call.ranges.chunks_exact_mut(2).zip(&call.ids) {
            let start = regions.partition_point(|region| region < id);
            range.copy_from_slice(&[start as u64, regions.iter().filter(|region| *region == id).count() as u64]);
        }
        call.particles = self.grains.len() as u64;
        (call.particle_floats, call.particle_words) = records(&self.grains);
        call
    }
}

impl Solver for Rust {
    type Refusal = Infallible;

    /// The Rust's gather is one call. So it is made twice, with a host in its midst who changes nothing and sees what the first half
    /// leaves, and with one who has the law's F for that.
    fn substep(&mut self) -> Result<f64, Infallible> {
        let call = given(walled(self.sorted()));
        let mut scene = Scene::new(&call, MmapMut::sparse());
        scene.clear();
        scene.scatter();
        scene.update();
        let (nodes, _) = scene.nodes();
        scene.host(&vec![None; self.grains.len()]);
        scene.gather();
        let left = scene.left();
        let rewritten: Vec<_> = grains(&left).map(|grain| Some(bits(POWDER.yielded(grain.deformation_gradient)))).collect();
        scene.put_back();
        scene.host(&rewritten);
        scene.gather();
        assert!(scene.left() == left, "the first half left something else");
        self.grains = grains(&scene.particles()).collect();
        Ok(nodes.iter().step_by(NODE_FLOATS).map(|mass| f64::from(f32::from_bits(*mass))).sum())
    }

    fn grains(&self) -> Vec<Particle> {
        in_order_of(&self.origins, self.grains.iter().copied())
    }
}

/// The call with the cup's walls.
fn walled(call: Call) -> Call {
    let mut call = call.bounded(FRICTION, &WALLS.map(|wall| wall.friction));
    let cells = call.ids.iter().flat_map(|id| (0..REGION_NODES).map(move |number| plane::cell_of(*id, number)));
    let projections = cells.flat_map(|cell| WALLS.map(|wall| wall.projection(plane::centre(cell, CELL))));
    let (points, insides): (Vec<_>, Vec<_>) = projections.map(Projection::flat).unzip();
    (call.boundary.points, call.boundary.insides) = (points.concat().into_iter().map(f32::to_bits).collect(), insides);
    call
}

/// The call with what the law says of every grain.
fn given(call: Call) -> Call {
    let count = call.particles as usize;
    let floats = [POWDER_SAYS.density, POWDER_SAYS.energy].map(f32::to_bits);
    let gather =
        Gather { eigenerosion: 0, given_floats: floats.repeat(count), given_words: vec![u32::from(POWDER_SAYS.failed); count] };
    Call { gather, ..call }
}

fn bits([[f00, f01], [f10, f11]]: Matrix) -> [u32; 4] {
    [f00, f01, f10, f11].map(f32::to_bits)
}

fn records(grains: &[Particle]) -> Records {
    let floats = grains.iter().flat_map(|grain| grain.floats().map(f32::to_bits));
    (floats.collect(), grains.iter().flat_map(Particle::words).collect())
}

fn grains<'a>((floats, words): &'a Records) -> impl Iterator<Item = Particle> + 'a {
    floats.chunks_exact(PARTICLE_FLOATS).zip(words.chunks_exact(PARTICLE_WORDS)).map(|(floats, words)| {
        let floats: [u32; PARTICLE_FLOATS] = floats.try_into().expect("a grain's floats");
        Particle::from_flat(&floats.map(f32::from_bits), words.try_into().expect("its words")).expect("flags")
    })
}

#[cfg(test)]
mod tests {
    use super::*;

    #[test]
    fn both_sides_leave_the_same_and_a_bit_is_told() {
        let (mut port, mut rust) = (Port::new(column()).expect("nothing is refused"), Rust::new(column()));
        for _ in 0..3 {
            port.substep().expect("nothing is refused");
            rust.substep().expect("the Rust refuses nothing");
        }
        let (ports, mut rusts) = (port.grains(), rust.grains());
        assert_eq!(first_difference(&ports, &rusts), None);
        assert_eq!(first_difference(&ports, &column()), Some(0));
        rusts[7].deformation_gradient[1][0] = -rusts[7].deformation_gradient[1][0];
        assert_eq!(first_difference(&ports, &rusts), Some(7));
        assert_eq!(first_difference(&ports, &ports[..9]), Some(9));
    }
}
