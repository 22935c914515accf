//! Mangerknot's archive for safe Rust: the core of a material point solver. What the archive answers is proved; what this crate does
//! beside asking it, that is sorting particles into regions and putting refusals into words, is tested.
//!
//! There are two ways in. [`Sample`] owns particles, regions and nodes, and its types keep the stages of a substep in order. The modules
//! have every function of the archive on slices of your own. [`ids`], [`floats`], [`sp_grid`], [`particle_to_grid`], [`grid_update`],
//! [`grid_to_particle`], [`fluids_volume`] and [`mls_solver`] are named as the archive's source files; [`listing`] is its `bench`, a
//! whole listing as a text. [`lists`] has the small structs that these slices go over in, and says how lengths and counts belong
//! together; [`records`] has what they hold, with named fields. [`Refused`] is what both answer where a rule is broken.
//!
//! A whole substep of document 01's one particle, of mass 64 at (1, 1), in cells of width 1:
//!
//! ```
//! use mangerknot::{Boundary, ModelAnswer, Particle, Sample};
//!
//! let particle = Particle { position: [1.0, 1.0], velocity: [1.0, 0.0], mass: 64.0, volume0: 1.0, ..Particle::default() };
//! let mut sample = Sample::new(1.0, [particle])?;
//!
//! let scattered = sample.clear()?.scatter(1.0, [0.0, 0.0])?;
//! let mass = |x, y| scattered.node([x, y]).map(|node| node.mass);
//! assert_eq!([mass(0, 0), mass(1, 0), mass(2, 0)], [Some(1.0), Some(6.0), Some(1.0)]);
//! assert_eq!([mass(0, 1), mass(1, 1), mass(2, 1)], [Some(6.0), Some(36.0), Some(6.0)]);
//! assert_eq!([mass(0, 2), mass(1, 2), mass(2, 2)], [Some(1.0), Some(6.0), Some(1.0)]);
//! assert_eq!((mass(3, 3), mass(4, 0)), (Some(0.0), None)); // not reached, and not listed
//!
//! let updated = scattered.update(&Boundary::none())?;
//! let moved = updated.gather_first_half(false)?;
//! let moved = moved.rewrite_deformation_gradients(|_, particle| particle.deformation_gradient); // a plastic model's place
//! let given = [ModelAnswer { density: 1.0, energy: 5.0, failed: false }];
//! moved.gather_second_half(&given)?;
//! sample.sort()?; // it may be in another region now
//!
//! let particle = sample.particle(0).expect("the one there is");
//! assert_eq!(particle.position, [2.0, 1.0]);
//! assert_eq!((particle.psi_pos, particle.parameter1, particle.parameter2), (5.0, 320.0, 64.0));
//! # Ok::<(), mangerknot::Refused>(())
//! ```
//!
//! All numbers are f32, and each operation is rounded once, in document 01's order. The archive is x86-64 code for Linux.
#![deny(unsafe_code)]
#![warn(missing_docs)]

#[macro_use]
mod archive;

pub mod floats;
pub mod fluids_volume;
pub mod grid_to_particle;
pub mod grid_update;
pub mod ids;
pub mod listing;
pub mod lists;
pub mod mls_solver;
pub mod particle_to_grid;
pub mod records;
mod refused;
mod sample;
pub mod sp_grid;

pub use records::{Handling, Matrix, ModelAnswer, Node, Particle, Projection, IDENTITY};
pub use refused::{Refused, Rule};
pub use sample::{color2, Boundary, ByRegions, Cleared, Moved, Sample, Scattered, Updated};

/// The most regions that a call takes.
pub const MAX_REGIONS: usize = 512;
/// The most particles that a call takes.
pub const MAX_PARTICLES: usize = 65_536;
/// The most colliders that a call takes.
pub const MAX_COLLIDERS: usize = 16;
/// The first cell, on each axis, that may be nearest to a particle.
pub const FIRST_CELL: u32 = 1;
/// The last cell, on each axis, that may be nearest to a particle.
pub const LAST_CELL: u32 = 65_535;
/// The least cell width: 2^-20.
pub const MIN_CELL_WIDTH: f32 = 1.0 / MAX_CELL_WIDTH;
/// The largest cell width: 2^20.
pub const MAX_CELL_WIDTH: f32 = 1_048_576.0;
