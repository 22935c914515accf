//! A fixed generator, so that the same questions come out every time.

pub use samples::Rng;

/// Where every vectors file starts; it stands in the files' headers.
pub const SEED: u64 = 0x4D61_6E67_6572_6B6E;
