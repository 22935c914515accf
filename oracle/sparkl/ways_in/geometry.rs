pub use self::sp_grid::way_in;

/// Of rapier's `geometry`, which has this module's name.
#[cfg(feature = "dim2")]
pub use crate::colliders::ColliderSet;
