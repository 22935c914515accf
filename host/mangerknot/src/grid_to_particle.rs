//! Gather: from nodes to particles, in two halves, between which the host may rewrite deformation gradients.
//!
//! A whole substep on slices, of one particle and without a boundary; [`crate::Sample`] has the same with less to write:
//!
//! ```
//! use mangerknot::grid_to_particle::{grid_to_particle_first_half2, grid_to_particle_second_half2};
//! use mangerknot::grid_update::clear_scatter_update2;
//! use mangerknot::lists::{Colliders, Given, Nodes, NodesMut, Particles, ParticlesMut, Regions};
//! use mangerknot::particle_to_grid::Scatter;
//! use mangerknot::Particle;
//!
//! let particle = Particle { position: [1.0, 1.0], velocity: [1.0, 0.0], mass: 64.0, volume0: 1.0, ..Particle::default() };
//! let (mut floats, mut words) = (particle.floats(), particle.words());
//! let (mut node_floats, mut node_words) = ([7.0; 112], [0; 16]);
//! let regions = Regions { ids: &[0], ranges: &[0, 1] };
//! let (cell_width, dt, gravity) = (1.0, 1.0, [0.0, 0.0]);
//!
//! let particles = Particles { floats: &floats, words: &words };
//! let nodes = NodesMut { floats: &mut node_floats, words: &mut node_words };
//! clear_scatter_update2(&Scatter { cell_width, dt, gravity, regions, particles }, Colliders::default(), nodes)?;
//!
//! let nodes = Nodes { floats: &node_floats, words: &node_words };
//! let particles = ParticlesMut { floats: &mut floats, words: &mut words };
//! grid_to_particle_first_half2(cell_width, dt, 0, regions, particles, nodes)?;
//!
//! let particles = ParticlesMut { floats: &mut floats, words: &mut words };
//! grid_to_particle_second_half2(particles, Given { floats: &[1.0, 5.0], words: &[0] })?;
//! let particle = Particle::from_flat(&floats, &words).expect("flags of 0 and 1");
//! assert_eq!((particle.position, particle.psi_pos, particle.parameter1), ([2.0, 1.0], 5.0, 320.0));
//! # Ok::<(), mangerknot::Refused>(())
//! ```

use crate::lists::{Given, Nodes, ParticlesMut, Regions};
use crate::refused::{judged, Asked, Refused};

/// Every particle gets a new velocity and velocity gradient from the nodes of its stencil, moves, and is deformed.
/// `modified_eigenerosion` is 0 or 1. Refuses 1 to 10.
pub fn grid_to_particle_first_half2(
    cell_width: f32,
    dt: f32,
    modified_eigenerosion: u32,
    regions: Regions<'_>,
    particles: ParticlesMut<'_>,
    nodes: Nodes<'_>,
) -> Result<(), Refused> {
    let answer = archive!(
        mk_grid_to_particle_first_half2: cell_width dt modified_eigenerosion (regions.ids.len()) [regions.ids] [regions.ranges]
        (particles.as_read().count()) [mut particles.floats] [mut particles.words] [nodes.floats] [nodes.words]
    );
    judged(answer, || Asked {
        cell_width: Some(cell_width),
        dt: Some(dt),
        eigenerosion: Some(modified_eigenerosion),
        ids: Some(regions.ids),
        ranges: Some(regions.ranges),
        particles: Some(particles.as_read()),
        nodes: Some(nodes),
        ..Asked::default()
    })
}

/// What the models say of each particle is settled: static and failed ones, psi, the parameters and the phase. Refuses 1, 2, 4 and 5.
pub fn grid_to_particle_second_half2(particles: ParticlesMut<'_>, given: Given<'_>) -> Result<(), Refused> {
    let answer = archive!(
        mk_grid_to_particle_second_half2: (particles.as_read().count()) [mut particles.floats] [mut particles.words]
        [given.floats] [given.words]
    );
    judged(answer, || Asked { particles: Some(particles.as_read()), given: Some(given), ..Asked::default() })
}
