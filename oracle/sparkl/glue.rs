//! What `scene` and the harness of `../full` take from memmap2, rapier and parry, on the stand-ins. `../full/mangerknot_vectors.rs` has the
//! same for the crates themselves.

use crate::colliders::{Collider, ColliderSet};
use crate::math::{Point, Real};
use crate::query::PointProjection;
pub use crate::MmapMut as Memory;

/// Whether memory can reach the nodes of these regions, and colliders can have given projections.
pub fn reaches(_: &[u64]) -> bool {
    true
}

pub const HAS_SHAPES: bool = true;

/// Memory for the nodes of these regions.
pub fn memory(_: &[u64]) -> Memory {
    Memory::sparse()
}

/// A collider for each friction, which has these projections, whether inside and where, for the cells of these centres: here for one after
/// the other, as they are asked.
pub fn colliders(frictions: &[Real], _: &[Point<Real>], projections: &[Vec<(bool, Point<Real>)>]) -> ColliderSet {
    let mut set = ColliderSet::new();
    for (friction, own) in frictions.iter().zip(projections) {
        set.insert(Collider::new(*friction, own.iter().map(|(inside, point)| PointProjection::new(*inside, *point)).collect()));
    }
    set
}
