pub use self::grid_node::{GridNode, GridNodeCgPhase, GridNodeFlags};
pub use self::particle::Particle;
pub use self::particle_model::{ParticleModel, ParticleModelHandle, ParticleModelSet};
pub use self::particle_set::ParticleSet;
pub(crate) use crate::lengths::phase_field;

mod grid_node;
pub mod models;
mod particle;
mod particle_model;
mod particle_set;
pub mod solver;
