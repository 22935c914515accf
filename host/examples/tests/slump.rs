//! The column slumps as it should, through the library.

use examples::cup::{column, place, COLUMN, GRAVITY, SUBSTEPS, WIDTH};
use examples::pictures::pictures;
use examples::port::Port;
use examples::run::{mass, slump, Course};
use mangerknot::Particle;
use std::path::Path;
use std::sync::{Arc, Mutex};

/// How far the front has to come at least, in mm, and how high the powder has to stand at the end: it came 26.5 and stood at 15.3 when
/// this was written. Water would stand at 7.
const FRONT_COMES: f32 = 25.0;
const TOP_STANDS: f32 = 14.0;

/// A run, and what it takes a look at every substep for.
struct Run {
    course: Course,
    /// The farthest that a grain was from the cup's inside, in mm.
    outside: f32,
    /// Potential and kinetic energy together, in millionths of a joule, substep by substep.
    energies: Vec<f64>,
}

fn run() -> Run {
    let (mut outside, mut energies) = (0f32, vec![]);
    let course = slump(&mut Port::new(column()).expect("nothing is refused"), |moment, grains| {
        outside = grains.iter().map(beyond).fold(outside, f32::max);
        energies.push(moment.energy + grains.iter().map(potential).sum::<f64>());
    });
    Run { course: course.expect("nothing is refused"), outside, energies }
}

fn beyond(grain: &Particle) -> f32 {
    let [x, y] = place(grain);
    (-x).max(x - WIDTH).max(-y)
}

fn potential(grain: &Particle) -> f64 {
    f64::from(grain.mass) * f64::from(-GRAVITY[1]) * f64::from(place(grain)[1]) * 1e-6
}

/// The run that the tests share.
fn shared() -> Arc<Run> {
    static RUN: Mutex<Option<Arc<Run>>> = Mutex::new(None);
    RUN.lock().expect("nothing is refused").get_or_insert_with(|| Arc::new(run())).clone()
}

fn bits(grains: &[Particle]) -> Vec<([u32; 26], [u32; 4])> {
    grains.iter().map(|grain| (grain.floats().map(f32::to_bits), grain.words())).collect()
}

#[test]
fn the_front_comes_far_and_a_slope_stays() {
    let moments = &shared().course.moments;
    let (first, last) = (moments[0], moments[SUBSTEPS]);
    assert!(last.front - first.front >= FRONT_COMES, "from {} to {}", first.front, last.front);
    assert!(last.top >= TOP_STANDS && last.top < COLUMN[1] as f32, "{}", last.top);
}

#[test]
fn it_comes_to_rest_and_energy_comes_from_nowhere() {
    let run = shared();
    let largest = run.course.moments.iter().map(|moment| moment.energy).fold(0.0, f64::max);
    assert!(largest > 1.0 && run.course.moments[SUBSTEPS].energy < 0.03 * largest, "of {}", largest);
    let first = run.energies[0];
    assert!(run.energies.iter().all(|energy| *energy <= first), "more than {}", first);
}

#[test]
fn no_grain_leaves_the_cup() {
    assert_eq!(shared().outside, 0.0);
}

/// A rounding is at most 2^-24 of a number, and a node's mass has one for each grain that it takes; but they go to both sides. It was 2^-23
/// at the most when this was written.
#[test]
fn the_nodes_have_the_grains_mass_within_rounding() {
    let whole = mass(&column());
    for moment in &shared().course.moments[1..] {
        let off = (moment.mass - whole).abs() / whole;
        assert!(off <= 2f64.powi(-22), "{} of the mass in substep {}", off, moment.substep);
    }
}

#[test]
fn the_same_run_has_the_same_bits() {
    let (other, one) = (run(), shared());
    assert_eq!(one.course.moments, other.course.moments);
    for ((_, grains), (_, others)) in one.course.frames.iter().zip(&other.course.frames) {
        assert_eq!(bits(grains), bits(others));
    }
}

#[test]
fn the_pictures_in_the_docs_are_these() {
    let folder = Path::new(env!("CARGO_MANIFEST_DIR")).join("../../docs/pictures");
    for (name, picture) in pictures(&shared().course) {
        let kept = std::fs::read_to_string(folder.join(name)).expect("a picture");
        assert!(kept == picture, "{} is another; `slump docs/pictures` writes it", name);
        assert!(kept.len() < 300_000);
    }
}
