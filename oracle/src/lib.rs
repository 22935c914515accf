//! What the vectors are made of, and what the judge asks beside the archive: the answers of the handed-over Rust, and those of `reading`
//! where the Rust has none.

pub mod listing;
pub mod reading;
pub mod rng;
mod sha256;
pub mod vectors;
