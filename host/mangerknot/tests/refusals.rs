//! What each refusal says: every number, record and field, of every call that looks for it. A call that does not is done.

#[path = "../../mangerknot-sys/tests/archive/mod.rs"]
mod archive;
mod safe;

use archive::Which;
use mangerknot::mls_solver::{min_dt, step_lengths, substep, Step};
use safe::answer_as_raw;
use samples::{Call, FRICTION, PARTICLE_FLOATS, PARTICLE_WORDS};

/// Three particles: two of region 0, one of region 4096, beside two colliders.
fn good() -> Call {
    let mut call = Call::on(vec![0, 4096]).bounded(FRICTION, &[0.5, 0.25]);
    call.particles = 3;
    call.ranges = vec![0, 2, 2, 1];
    call.particle_words = vec![0; 3 * PARTICLE_WORDS];
    call.particle_floats = vec![1f32.to_bits(); 3 * PARTICLE_FLOATS];
    place(&mut call, 1, [2.0, 2.0]);
    place(&mut call, 2, [5.0, 1.0]);
    call.gather.given_floats = vec![1f32.to_bits(); 6];
    call.gather.given_words = vec![0; 3];
    call
}

fn place(call: &mut Call, particle: usize, position: [f32; 2]) {
    call.particle_floats[particle * PARTICLE_FLOATS..][..2].copy_from_slice(&position.map(f32::to_bits));
}

/// The calls by a letter each: c clear, s, r and o the scatters, u update, q clear, scatter and update in one, 1 and 2 the halves of
/// gather, f fluids.
const CALLS: &str = "csrouq12f";

/// Those that are given regions with ranges, and particles in them.
const WITH_PARTICLES: &str = "sroq1f";

/// A change, the calls that are refused for it, and what they say.
type Fault<'a> = (Box<dyn Fn(&mut Call) + 'a>, String, (u32, usize, String));

fn fault<'a>(calls: &str, number: u32, index: usize, sentence: impl Into<String>, change: impl Fn(&mut Call) + 'a) -> Fault<'a> {
    (Box::new(change), calls.to_string(), (number, index, sentence.into()))
}

fn which(letter: char) -> Which<'static> {
    match letter {
        'c' => Which::Clear,
        's' => Which::All,
        'r' => Which::Region(1),
        'o' => Which::Order(&[0, 1]),
        'u' => Which::Update,
        'q' => Which::Sequence,
        '1' => Which::FirstHalf,
        '2' => Which::SecondHalf,
        _ => Which::Fluids,
    }
}

fn check(faults: Vec<Fault>) {
    for (change, calls, (number, index, sentence)) in faults {
        let mut call = good();
        change(&mut call);
        for letter in CALLS.chars() {
            let (answer, _) = answer_as_raw(&which(letter), &call);
            let said = answer.map_err(|refused| (refused.number, refused.index, refused.sentence));
            let right = if calls.contains(letter) { Err((number, index, sentence.clone())) } else { Ok(()) };
            assert_eq!(said, right, "call {}", letter);
        }
    }
}

#[test]
fn the_call_is_good() {
    check(vec![fault("", 0, 0, "", |_| {})]);
}

#[test]
fn lengths() {
    let refused = |calls: &str, list: &str, are: usize, should_be: usize, change: fn(&mut Call)| {
        fault(calls, 1, 0, format!("{} are {}, and have to be {}", list, are, should_be), change)
    };
    check(vec![
        refused(WITH_PARTICLES, "the regions' starts and counts", 5, 4, |call| call.ranges.push(0)),
        refused("sroq12f", "the particles' floats", 77, 78, |call| call.particle_floats.truncate(77)),
        refused("sroq12f", "the particles' words", 13, 12, |call| call.particle_words.push(0)),
        refused("2", "the given floats", 7, 6, |call| call.gather.given_floats.push(0)),
        refused("2", "the given words", 2, 3, |call| call.gather.given_words.truncate(2)),
        refused("uq", "the projections' floats", 127, 128, |call| call.boundary.points.truncate(127)),
        refused("uq", "the projections' words", 65, 64, |call| call.boundary.insides.push(0)),
        refused("csrouq1f", "the nodes' floats", 225, 224, |call| call.node_floats.push(0)),
        refused("csrouq1f", "the nodes' words", 31, 32, |call| call.node_words.truncate(31)),
    ]);
    let short = answer_as_raw(&Which::Order(&[0]), &good()).0.unwrap_err();
    assert_eq!(short.to_string(), "the order's entries are 1, and have to be 2 (number 1, index 0)");
}

/// A record more in one list is refused from either side.
#[test]
fn a_record_more() {
    check(vec![
        fault("sroq12f", 1, 0, "the particles' floats are 78, and have to be 104", |call| call.particle_words.extend([0; 4])),
        fault("sroq12f", 1, 0, "the particles' floats are 104, and have to be 78", |call| call.particle_floats.extend([0; 26])),
        fault("uq", 1, 0, "the projections' floats are 128, and have to be 192", |call| call.boundary.frictions.push(0)),
    ]);
    let mut call = good();
    call.ids.push(8192);
    for letter in "csrouq1f".chars() {
        let sentence = answer_as_raw(&which(letter), &call).0.unwrap_err().to_string();
        assert_eq!(
            sentence,
            match letter {
                'c' => "the nodes' floats are 224, and have to be 336 (number 1, index 0)",
                'o' => "the order's entries are 2, and have to be 3 (number 1, index 0)",
                'u' => "the projections' floats are 128, and have to be 192 (number 1, index 0)",
                _ => "the regions' starts and counts are 4, and have to be 6 (number 1, index 0)",
            }
        );
    }
}

#[test]
fn limits() {
    let mut call = Call::on((0..513).map(|place| place << 12).collect()).bounded(FRICTION, &[]);
    for letter in "cuq".chars().chain(WITH_PARTICLES.chars()) {
        let sentence = answer_as_raw(&which(letter), &call).0.unwrap_err().to_string();
        assert_eq!(
            sentence,
            match letter {
                'o' => "the order's entries are 2, and have to be 513 (number 1, index 0)",
                _ => "there are 513 regions, and at most 512 are taken (number 2, index 0)",
            }
        );
    }
    call = good();
    let count = 65_537;
    call.particle_floats.resize(count * PARTICLE_FLOATS, 0);
    call.particle_words.resize(count * PARTICLE_WORDS, 0);
    call.gather.given_floats.resize(2 * count, 0);
    call.gather.given_words.resize(count, 0);
    for letter in "sroq12f".chars() {
        let sentence = answer_as_raw(&which(letter), &call).0.unwrap_err().to_string();
        assert_eq!(sentence, "there are 65537 particles, and at most 65536 are taken (number 2, index 0)");
    }
    let call = good().bounded(FRICTION, &[0.0; 17]);
    for letter in "uq".chars() {
        let sentence = answer_as_raw(&which(letter), &call).0.unwrap_err().to_string();
        assert_eq!(sentence, "there are 17 colliders, and at most 16 are taken (number 2, index 0)");
    }
}

#[test]
fn settings() {
    let refused = |calls: &str, sentence: &str, change: fn(&mut Call)| fault(calls, 3, 0, sentence, change);
    check(vec![
        refused("srouq1f", "the cell width is not finite", |call| call.cell_width = f32::NAN),
        refused("srouq1f", "the cell width is not from 2^-20 to 2^20", |call| call.cell_width = 1048577.0),
        refused("srouq1f", "the cell width is not from 2^-20 to 2^20", |call| call.cell_width = -1.0),
        refused("srouq1", "dt is not finite", |call| call.dt = f32::INFINITY),
        refused("srouq1", "dt is not above 0", |call| call.dt = -0.0),
        refused("sroq", "gravity's x is not finite", |call| call.gravity = [f32::NAN, f32::NAN]),
        refused("sroq", "gravity's y is not finite", |call| call.gravity[1] = f32::NEG_INFINITY),
    ]);
}

#[test]
fn codes_places_and_orders() {
    let refused = |calls: &str, sentence: &str, change: fn(&mut Call)| fault(calls, 4, 0, sentence, change);
    check(vec![
        refused("uq", "boundary handling is 4, and may be at most 3", |call| call.boundary.handling = 4),
        refused("uq", "the code of locks is 7, and may be at most 3", |call| call.boundary.locks = 7),
        refused("1", "modified eigenerosion is 2, and may be at most 1", |call| call.gather.eigenerosion = 2),
    ]);
    let said = |which: &Which| answer_as_raw(which, &good()).0.unwrap_err().to_string();
    assert_eq!(said(&Which::Region(2)), "place 2 is no region's, of which there are 2 (number 4, index 0)");
    let orders: [(&[u64], &str); 4] = [
        (&[0, 2], "entry 1 of the order, 2, is no region's place (number 4, index 1)"),
        (&[u64::MAX, 1], "entry 0 of the order, 18446744073709551615, is no region's place (number 4, index 0)"),
        (&[0, 0], "entry 1 of the order, 0, names a region again (number 4, index 1)"),
        (&[1, 0], "entry 1 of the order, 0, has a lower colour than the one before it (number 4, index 1)"),
    ];
    for (order, sentence) in orders {
        assert_eq!(said(&Which::Order(order)), sentence);
    }
}

#[test]
fn flags() {
    let mut faults = vec![];
    for (place, flag) in ["failed", "kinematic", "fluid", "is_static"].iter().enumerate() {
        let change = move |call: &mut Call| call.particle_words[2 * PARTICLE_WORDS + place] = 2;
        faults.push(fault("sroq12f", 4, 2, format!("particle 2's flag `{}` is 2", flag), change));
    }
    let given = "what is given of particle 1: its flag `failed` is 9";
    faults.push(fault("2", 4, 1, given, |call| call.gather.given_words[1] = 9));
    // Behind 16 cells of region 0 with two colliders each comes region 1: its cell 4, its second collider.
    let inside = "projection 41 (region 1, cell 4, collider 1): its flag `inside` is 2";
    faults.push(fault("uq", 4, 41, inside, |call| call.boundary.insides[41] = 2));
    check(faults);
}

/// The fields of a particle's floats, once more by hand.
const FIELDS: [&str; PARTICLE_FLOATS] = [
    "position",
    "position",
    "velocity",
    "velocity",
    "velocity gradient",
    "velocity gradient",
    "velocity gradient",
    "velocity gradient",
    "stress",
    "stress",
    "stress",
    "stress",
    "mass",
    "initial volume",
    "phase",
    "crack propagation factor",
    "psi",
    "deformation gradient",
    "deformation gradient",
    "deformation gradient",
    "deformation gradient",
    "crack threshold",
    "parameter1",
    "parameter2",
    "kinematic velocity",
    "kinematic velocity",
];

#[test]
fn numbers_that_are_not_finite() {
    let mut faults = vec![];
    for (place, field) in FIELDS.iter().enumerate() {
        let change = move |call: &mut Call| call.particle_floats[PARTICLE_FLOATS + place] = f32::NAN.to_bits();
        faults.push(fault("sroq12f", 5, 1, format!("particle 1's {} is not finite", field), change));
    }
    for (place, field) in ["density", "energy"].iter().enumerate() {
        let change = move |call: &mut Call| call.gather.given_floats[2 + place] = f32::INFINITY.to_bits();
        faults.push(fault("2", 5, 1, format!("what is given of particle 1: its {} is not finite", field), change));
    }
    let friction = |call: &mut Call| call.boundary.frictions[1] = f32::NAN.to_bits();
    faults.push(fault("uq", 5, 1, "collider 1's friction is not finite", friction));
    for (place, part) in ["x", "y"].iter().enumerate() {
        let change = move |call: &mut Call| call.boundary.points[2 * 6 + place] = f32::NEG_INFINITY.to_bits();
        let sentence = format!("projection 6 (region 0, cell 3, collider 0): its point's {} is not finite", part);
        faults.push(fault("uq", 5, 6, sentence, change));
    }
    check(faults);
}

/// Of one number a particle comes before what is given of one, and a collider before a projection, whatever the index.
#[test]
fn what_comes_first_of_a_number() {
    let (psi, flag) = (2 * PARTICLE_FLOATS + 16, 2 * PARTICLE_WORDS);
    check(vec![
        fault("sroq12f", 5, 2, "particle 2's psi is not finite", move |call| {
            call.particle_floats[psi] = f32::NAN.to_bits();
            call.gather.given_floats[0] = f32::NAN.to_bits();
        }),
        fault("sroq12f", 4, 2, "particle 2's flag `failed` is 3", move |call| {
            call.particle_words[flag] = 3;
            call.gather.given_words[0] = 3;
        }),
        fault("uq", 5, 1, "collider 1's friction is not finite", |call| {
            call.boundary.frictions[1] = f32::NAN.to_bits();
            call.boundary.points[0] = f32::NAN.to_bits();
        }),
    ]);
}

#[test]
fn regions() {
    let refused = |number: u32, index: usize, sentence: &str, change: fn(&mut Call)| {
        fault(if number == 6 { "csrouq1f" } else { WITH_PARTICLES }, number, index, sentence, change)
    };
    check(vec![
        refused(6, 1, "region 1's id does not ascend: 0 behind 0", |call| call.ids[1] = 0),
        refused(6, 1, "region 1's id does not ascend: 4096 behind 16384", |call| call.ids[0] = 16384),
        refused(6, 0, "region 0's id, 1, is no region's: its low 12 bits are not zero", |call| call.ids[0] = 1),
        refused(7, 0, "region 0's particles start at 1, and those before end at 0", |call| call.ranges[0] = 1),
        refused(7, 1, "region 1's particles start at 3, and those before end at 2", |call| call.ranges[2] = 3),
        refused(7, 1, "region 1's 2 particles go beyond the last: from 2 on there are 1", |call| call.ranges[3] = 2),
        refused(7, 2, "particles are left over: the regions have 2 of 3", |call| call.ranges[3] = 0),
    ]);
}

#[test]
fn places_of_particles() {
    let refused = |number: u32, index: usize, sentence: &str, position: [f32; 2]| {
        fault(WITH_PARTICLES, number, index, sentence, move |call| place(call, index, position))
    };
    check(vec![
        refused(8, 1, "particle 1 lies off the grid on x", [0.49999997, 1.0]),
        refused(8, 2, "particle 2 lies off the grid on y", [5.0, 65535.5]),
        refused(8, 0, "particle 0 lies off the grid on x and y", [-3.0, 1e9]),
        refused(
            9,
            1,
            "particle 1's cell is of the region with id 4096, and it stands among those of region 0 (id 0)",
            [5.0, 1.0],
        ),
        refused(10, 2, "particle 2's stencil reaches the region with id 16384, which is not listed", [7.0, 1.0]),
    ]);
}

#[test]
fn steps_and_substeps() {
    let step = Step { total: 1.0, max_substep_dt: 0.5, max_num_substeps: 4, stop_after_one_substep: false };
    let said = |step: &Step, dts: &[f32]| step_lengths(step, dts).unwrap_err().to_string();
    assert_eq!(said(&Step { total: f32::NAN, ..step }, &[]), "the total is not finite (number 3, index 0)");
    assert_eq!(said(&Step { max_substep_dt: f32::INFINITY, ..step }, &[]), "max_substep_dt is not finite (number 3, index 0)");
    assert_eq!(said(&Step { max_num_substeps: 0, ..step }, &[]), "max_num_substeps is 0 (number 4, index 0)");
    assert_eq!(said(&step, &[0.5, 0.0]), "proposal 1 is not above 0 (number 4, index 1)");
    assert_eq!(said(&step, &[f32::NAN]), "proposal 0 is not above 0 (number 4, index 0)");
    assert_eq!(said(&step, &[0.5, 0.25, 0.5]), "proposal 2 is above what it may be at most, 0.25 (number 4, index 2)");
    let said = |total, count| min_dt(total, count).unwrap_err().to_string();
    assert_eq!(said(f32::INFINITY, 4), "the total is not finite (number 3, index 0)");
    assert_eq!(said(f32::NAN, 0), "the total is not finite (number 3, index 0)");
    assert_eq!(said(-1.0, 0), "max_num_substeps is 0 (number 4, index 0)");
    let said = |remains, least, most, dt| substep(remains, least, most, dt).unwrap_err().to_string();
    assert_eq!(said(f32::NAN, 0.1, 1.0, 0.5), "what remains is not finite (number 3, index 0)");
    assert_eq!(said(1.0, f32::NAN, 1.0, 0.5), "the least length is not finite (number 3, index 0)");
    assert_eq!(said(1.0, 0.1, f32::NAN, 0.5), "max_substep_dt is not finite (number 3, index 0)");
    assert_eq!(said(1.0, 0.1, 1.0, -0.5), "the proposal is not above 0 (number 4, index 0)");
    assert_eq!(said(0.25, 0.1, 1.0, 0.5), "the proposal is above what it may be at most, 0.25 (number 4, index 0)");
    assert_eq!(said(0.0, 0.1, 1.0, 0.5), "the proposal is above what it may be at most, 0 (number 4, index 0)");
}
