//! The run: substep after substep through a solver, and what is written down of it.

use crate::cup::{place, DT, SUBSTEPS};
use mangerknot::Particle;

/// What carries the powder through a substep. The library is one, in `port`; the handed-over Rust is another, which judges it.
pub trait Solver {
    /// What a substep can be refused with.
    type Refusal;

    /// One substep: the grains by regions, their stress by the law, clear, scatter, update, the first half of gather, the law again, and
    /// the second half. Answers the sum of the nodes' masses.
    fn substep(&mut self) -> Result<f64, Self::Refusal>;

    /// The grains, in the order of the column.
    fn grains(&self) -> Vec<Particle>;
}

/// What is seen of the powder after so many substeps.
#[derive(Clone, Copy, Debug, PartialEq)]
pub struct Moment {
    pub substep: usize,
    /// How far from the left wall the powder has come, in mm: of 100 grains, 99 are behind this.
    pub front: f32,
    /// The highest grain, in mm above the floor.
    pub top: f32,
    /// Kinetic energy, in millionths of a joule.
    pub energy: f64,
    /// The sum of the nodes' masses, in mg; 0 before the first substep.
    pub mass: f64,
}

impl Moment {
    pub fn of(substep: usize, grains: &[Particle], mass: f64) -> Moment {
        let mut across: Vec<f32> = grains.iter().map(|grain| place(grain)[0]).collect();
        across.sort_by(f32::total_cmp);
        let front = across[across.len() * 99 / 100];
        let top = grains.iter().map(|grain| place(grain)[1]).fold(0.0, f32::max);
        Moment { substep, front, top, energy: grains.iter().map(energy).sum::<f64>() * 1e-6, mass }
    }

    /// In thousandths of a second.
    pub fn time(&self) -> f32 {
        self.substep as f32 * DT * 1e3
    }
}

/// Grains in the order of the column, of which each has an origin: its place there.
pub fn in_order_of(origins: &[usize], grains: impl Iterator<Item = Particle>) -> Vec<Particle> {
    let mut ordered = vec![Particle::default(); origins.len()];
    origins.iter().zip(grains).for_each(|(origin, grain)| ordered[*origin] = grain);
    ordered
}

/// The sum of the grains' masses, in mg.
pub fn mass(grains: &[Particle]) -> f64 {
    grains.iter().map(|grain| f64::from(grain.mass)).sum()
}

fn energy(grain: &Particle) -> f64 {
    let [x, y] = grain.velocity.map(f64::from);
    f64::from(grain.mass) * (x * x + y * y) * 0.5
}

/// All that the pictures need of a run: a moment of every substep and of the start, and the grains at some of them.
pub struct Course {
    pub moments: Vec<Moment>,
    pub frames: Vec<(Moment, Vec<Particle>)>,
}

/// The substeps whose grains are kept.
pub const FRAMES: [usize; 3] = [0, SUBSTEPS * 3 / 8, SUBSTEPS];

/// Lets the powder go. Every moment is told as it comes, with its grains.
pub fn slump<S: Solver>(solver: &mut S, mut tell: impl FnMut(&Moment, &[Particle])) -> Result<Course, S::Refusal> {
    let mut course = Course { moments: vec![], frames: vec![] };
    for substep in 0..=SUBSTEPS {
        let mass = if substep == 0 { 0.0 } else { solver.substep()? };
        let grains = solver.grains();
        let moment = Moment::of(substep, &grains, mass);
        tell(&moment, &grains);
        course.moments.push(moment);
        if FRAMES.contains(&substep) {
            course.frames.push((moment, grains));
        }
    }
    Ok(course)
}
