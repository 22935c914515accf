//! Update: locks and boundaries on every node; and clear, scatter and update in one.

use crate::floats::vector;
use crate::lists::{Colliders, NodesMut};
use crate::particle_to_grid::Scatter;
use crate::refused::{judged, Asked, Refused};

/// Every node of every listed region: locked axes of momentum and velocity become 0; then, collider by collider, the flag is set where
/// the centre is inside, and the velocity is handled. Refuses 1 to 6.
pub fn grid_update2(cell_width: f32, dt: f32, ids: &[u64], colliders: Colliders<'_>, nodes: NodesMut<'_>) -> Result<(), Refused> {
    let Colliders { handling, locks, frictions, points, insides } = colliders;
    let answer = archive!(
        mk_grid_update2: cell_width dt handling locks (ids.len()) [ids] (frictions.len()) [frictions] [points] [insides]
        [mut nodes.floats] [mut nodes.words]
    );
    judged(answer, || Asked {
        cell_width: Some(cell_width),
        dt: Some(dt),
        ids: Some(ids),
        colliders: Some(colliders),
        nodes: Some(nodes.as_read()),
        ..Asked::default()
    })
}

/// Clear, scatter and update in one: the nodes are those of the three calls one after the other. Refuses 1 to 10, of all that it is
/// given; so it is done just where the three are, and where it is not, none of them is begun.
pub fn clear_scatter_update2(scatter: &Scatter<'_>, colliders: Colliders<'_>, nodes: NodesMut<'_>) -> Result<(), Refused> {
    let Scatter { cell_width, dt, gravity, regions, particles } = *scatter;
    let Colliders { handling, locks, frictions, points, insides } = colliders;
    let answer = archive!(
        mk_clear_scatter_update2: cell_width dt (vector(gravity)) handling locks (regions.ids.len()) [regions.ids] [regions.ranges]
        (particles.count()) [particles.floats] [particles.words] (frictions.len()) [frictions] [points] [insides]
        [mut nodes.floats] [mut nodes.words]
    );
    judged(answer, || Asked { colliders: Some(colliders), ..scatter.asked(&nodes) })
}
