//! For the models, which were not handed over: what the port is given of them, by a particle's place in the list. And for a host between
//! the halves of gather: the Rust has both in one call, and asks a plastic model just where document 01 parts them.

use crate::core::prelude::{ActiveTimestepBounds, CoreConstitutiveModel, CoreFailureModel, CorePlasticModel};
use crate::dynamics::models::{ConstitutiveModel, FailureModel, PlasticModel};
use crate::dynamics::{Particle, ParticleModel};
use crate::math::{Matrix, Real};
use std::sync::{Arc, Mutex};

/// What is said of each particle: the stress of the port's record, and what the second half is given.
pub struct Numbers {
    pub stresses: Vec<Matrix<Real>>,
    pub densities: Vec<Real>,
    pub energies: Vec<Real>,
    pub failures: Vec<bool>,
}

/// A model of solids or of fluids that answers these numbers; nothing else of it is asked.
struct Given {
    is_fluid: bool,
    numbers: Arc<Numbers>,
}

/// Such a model, with nobody between the halves.
pub fn model(is_fluid: bool, numbers: &Arc<Numbers>) -> ParticleModel {
    let given = Arc::new(Given { is_fluid, numbers: numbers.clone() });
    ParticleModel { constitutive_model: given.clone(), plastic_model: None, failure_model: Some(given) }
}

fn place(particle: &Particle) -> usize {
    particle.user_data as usize
}

impl ConstitutiveModel for Given {
    fn is_fluid(&self) -> bool {
        self.is_fluid
    }

    fn pos_energy(&self, particle: &Particle) -> Real {
        self.numbers.energies[place(particle)]
    }

    fn update_particle_stress(&self, particle: &Particle) -> Matrix<Real> {
        self.numbers.stresses[place(particle)]
    }

    fn active_timestep_bounds(&self) -> ActiveTimestepBounds {
        unimplemented!()
    }

    fn timestep_bound(&self, _: &Particle, _: Real) -> Real {
        unimplemented!()
    }

    fn to_core_model(&self) -> Option<CoreConstitutiveModel> {
        None
    }
}

impl FailureModel for Given {
    fn particle_failed(&self, particle: &Particle, _: &ParticleModel) -> bool {
        self.numbers.failures[place(particle)]
    }

    fn to_core_model(&self) -> Option<CoreFailureModel> {
        None
    }
}

/// What a host makes of the particles between the halves.
pub enum Host {
    /// F of its own, of those that it has one for.
    Rewrites(Vec<Option<Matrix<Real>>>),
    /// Other particles altogether, so that the second half is asked by itself.
    Replaces(Vec<Particle>),
}

/// A host who writes down what the first half left, does what he does, and sees to it that the Rust finds the given density.
pub struct Between {
    host: Host,
    numbers: Arc<Numbers>,
    left: Mutex<Vec<Particle>>,
}

impl Between {
    /// `before` has a particle for each place, which is overwritten.
    pub fn new(host: Host, numbers: &Arc<Numbers>, before: &[Particle]) -> Self {
        Between { host, numbers: numbers.clone(), left: Mutex::new(before.to_vec()) }
    }

    /// The particles as the first half left them.
    pub fn left(&self) -> Vec<Particle> {
        self.left.lock().expect("nobody panicked").clone()
    }
}

impl PlasticModel for Between {
    fn update_particle(&self, particle: &mut Particle) {
        let place = place(particle);
        self.left.lock().expect("nobody panicked")[place] = *particle;
        match &self.host {
            Host::Rewrites(rewritten) => rewritten[place].iter().for_each(|matrix| particle.deformation_gradient = *matrix),
            Host::Replaces(particles) => *particle = particles[place],
        }
        give_density(particle, self.numbers.densities[place]);
    }

    fn to_core_model(&self) -> Option<CorePlasticModel> {
        None
    }
}

/// The Rust works a density out of mass, volume and F, and asks only whether it is zero. Where that is not as the given one is, the volume
/// is another, which nothing asks after this: a NaN, by which no density is zero, or an infinity, by which every one is, but for a
/// determinant of zero or NaN. There the identity stands for F, which the Rust is about to put in its place.
fn give_density(particle: &mut Particle, given: Real) {
    let is_as_given = |particle: &Particle| (particle.density_def_grad() == 0.0) == (given == 0.0);
    if !is_as_given(particle) {
        particle.volume0 = if given == 0.0 { Real::INFINITY } else { Real::NAN };
    }
    if !is_as_given(particle) {
        particle.deformation_gradient = Matrix::identity();
    }
    assert!(is_as_given(particle));
}
