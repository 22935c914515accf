//! A host of the library: a powder column that slumps in a cup. The host has the law of its powder (`law`), the scene (`cup`) and the loop
//! (`run`); the substeps are the library's (`port`). `pictures` draws what came of it, with `svg`.
//!
//! ```text
//! host/run cargo run --release --manifest-path host/Cargo.toml -p examples --bin slump -- FOLDER
//! ```

pub mod cup;
pub mod law;
pub mod pictures;
pub mod port;
pub mod run;
pub mod svg;
