//! Scatter: from particles to nodes. Each call refuses 1 to 10.
//!
//! Every particle adds to mass, momentum and psi of the nine nodes of its stencil, and each of these gets a new velocity. Nodes are read
//! as they are, so a host clears them first; one that no particle reaches keeps every bit.

use crate::floats::vector;
use crate::lists::{NodesMut, Particles, Regions};
use crate::refused::{judged, Asked, Refused};

/// What a scatter is given, but for the nodes.
#[derive(Clone, Copy, Debug)]
pub struct Scatter<'a> {
    /// The width of a cell, from 2^-20 to 2^20.
    pub cell_width: f32,
    /// The length of the substep, above 0.
    pub dt: f32,
    /// Gravity's x and y.
    pub gravity: [f32; 2],
    /// The regions, and which particles each has.
    pub regions: Regions<'a>,
    /// The particles, region by region.
    pub particles: Particles<'a>,
}

/// Calls a scatter: in front what it is given beside `Scatter`, then this, then the nodes.
macro_rules! scatter {
    ($function:ident: $($first:tt)*) => {
        |asked: &Scatter<'_>, nodes: &mut NodesMut<'_>| {
            let Scatter { cell_width, dt, gravity, regions, particles } = *asked;
            archive!(
                $function: $($first)* cell_width dt (vector(gravity)) (regions.ids.len()) [regions.ids] [regions.ranges]
                (particles.count()) [particles.floats] [particles.words] [mut nodes.floats] [mut nodes.words]
            )
        }
    };
}

impl<'a> Scatter<'a> {
    /// What was asked, in a refusal's terms.
    pub(crate) fn asked(&self, nodes: &'a NodesMut<'_>) -> Asked<'a> {
        Asked {
            cell_width: Some(self.cell_width),
            dt: Some(self.dt),
            gravity: Some(self.gravity),
            ids: Some(self.regions.ids),
            ranges: Some(self.regions.ranges),
            particles: Some(self.particles),
            nodes: Some(nodes.as_read()),
            ..Asked::default()
        }
    }
}

/// All particles: by colours 0 to 3, in each by regions as listed, in each by particles.
///
/// ```
/// use mangerknot::lists::{NodesMut, Particles, Regions};
/// use mangerknot::particle_to_grid::{particle_to_grid_scatter2, Scatter};
/// use mangerknot::Particle;
///
/// let particle = Particle { position: [1.0, 1.0], mass: 64.0, volume0: 1.0, ..Particle::default() };
/// let scatter = Scatter {
///     cell_width: 1.0,
///     dt: 1.0,
///     gravity: [0.0, 0.0],
///     regions: Regions { ids: &[0], ranges: &[0, 1] },
///     particles: Particles { floats: &particle.floats(), words: &particle.words() },
/// };
/// let (mut floats, mut words) = ([0.0; 112], [0; 16]);
/// particle_to_grid_scatter2(&scatter, NodesMut { floats: &mut floats, words: &mut words })?;
/// assert_eq!(floats[5 * 7], 36.0);
///
/// let refused = particle_to_grid_scatter2(&scatter, NodesMut { floats: &mut floats[1..], words: &mut words }).unwrap_err();
/// assert_eq!(refused.number, 1);
/// # Ok::<(), mangerknot::Refused>(())
/// ```
pub fn particle_to_grid_scatter2(scatter: &Scatter<'_>, mut nodes: NodesMut<'_>) -> Result<(), Refused> {
    let answer = scatter!(mk_particle_to_grid_scatter2:)(scatter, &mut nodes);
    judged(answer, || scatter.asked(&nodes))
}

/// The particles of one region, by its place in the list, on every listed node that they reach.
pub fn particle_to_grid_scatter_region2(place: usize, scatter: &Scatter<'_>, mut nodes: NodesMut<'_>) -> Result<(), Refused> {
    let answer = scatter!(mk_particle_to_grid_scatter_region2: place)(scatter, &mut nodes);
    judged(answer, || Asked { place: Some(place), ..scatter.asked(&nodes) })
}

/// All regions in another order, given by their places: each once, no colour before a lower one. Whatever order that is, the nodes are
/// those of [`particle_to_grid_scatter2`].
pub fn scatter_in_order2(order: &[u64], scatter: &Scatter<'_>, mut nodes: NodesMut<'_>) -> Result<(), Refused> {
    let answer = scatter!(mk_scatter_in_order2: [order])(scatter, &mut nodes);
    judged(answer, || Asked { order: Some(order), ..scatter.asked(&nodes) })
}
