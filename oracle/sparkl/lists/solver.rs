pub use self::mls_solver::{MlsSolver, RigidWorld};
pub use self::mpm_hooks::MpmHooks;
pub use crate::core::dynamics::solver::{BoundaryHandling, DamageModel, SimulationDofs, SolverParameters};

mod fluids_volume;
mod grid_to_particle;
mod grid_update;
mod mls_solver;
mod mpm_hooks;
mod particle_to_grid;
