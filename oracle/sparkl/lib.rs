//! The handed-over Rust, compiled for one dimension: `sparkl2d` and `sparkl3d` both build this file.

// The handed-over files import from crates that are not here; each of those names leads to this crate's own stand-ins.
extern crate self as anyhow;
extern crate self as bitflags;
extern crate self as bytemuck;
extern crate self as instant;
extern crate self as memmap2;
extern crate self as na;
extern crate self as parry;
extern crate self as rapier;
extern crate self as rayon;

#[macro_use]
mod stand_ins;
#[cfg(feature = "dim2")]
pub mod colliders;
#[cfg(feature = "dim2")]
#[path = "../full/mangerknot_vectors.rs"]
pub mod full;
#[cfg(feature = "dim2")]
mod given;
#[cfg(feature = "dim2")]
mod glue;
#[cfg(feature = "dim2")]
pub mod lengths;
pub mod math;

#[cfg(feature = "dim2")]
pub use colliders::query;
#[cfg(feature = "dim2")]
pub use math::{distance, Unit};
pub use math::{zero, SMatrix};
#[cfg(feature = "dim2")]
pub(crate) use stand_ins::flags as bitflags;
pub(crate) use stand_ins::vector;
pub use stand_ins::{core, data, from_bytes, from_bytes_mut, now, prelude, MmapMut, Pod, Result, Zeroable};

// The handed-over text is not ours to tidy.
#[cfg(feature = "dim2")]
#[allow(warnings, clippy::all)]
pub mod dynamics {
    include!(concat!(env!("OUT_DIR"), "/src/dynamics/mod.rs"));
}

#[allow(warnings, clippy::all)]
pub mod geometry {
    include!(concat!(env!("OUT_DIR"), "/src/geometry/mod.rs"));
}

#[allow(warnings, clippy::all)]
pub mod kernel {
    include!(concat!(env!("OUT_DIR"), "/src_core/dynamics/solver/kernel.rs"));
}

#[allow(warnings, clippy::all)]
pub mod utils {
    include!(concat!(env!("OUT_DIR"), "/src/utils/mod.rs"));
}

#[cfg(feature = "dim2")]
pub mod scene;

/// Every handed-over file of this build: its path, and its bytes as they stand in the very copy that is compiled.
pub fn sources() -> Vec<(&'static str, &'static [u8])> {
    include!(concat!(env!("OUT_DIR"), "/sources.rs"))
}
