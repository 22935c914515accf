//! Fluids: volumes from masses.

use crate::lists::{NodesMut, ParticlesMut, Regions};
use crate::refused::{judged, Asked, Refused};

/// Every fluid's volume from the mass around it, over its initial volume, becomes the first entry of its deformation gradient. What mass
/// the nodes hold counts, so a host clears them first; afterwards they have none. Refuses 1 to 10.
pub fn recompute_fluids_volumes2(
    cell_width: f32,
    regions: Regions<'_>,
    particles: ParticlesMut<'_>,
    nodes: NodesMut<'_>,
) -> Result<(), Refused> {
    let answer = archive!(
        mk_recompute_fluids_volumes2: cell_width (regions.ids.len()) [regions.ids] [regions.ranges] (particles.as_read().count())
        [mut particles.floats] [mut particles.words] [mut nodes.floats] [mut nodes.words]
    );
    judged(answer, || Asked {
        cell_width: Some(cell_width),
        ids: Some(regions.ids),
        ranges: Some(regions.ranges),
        particles: Some(particles.as_read()),
        nodes: Some(nodes.as_read()),
        ..Asked::default()
    })
}
