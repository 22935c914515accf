//! Brings the handed-over Rust into the build: every file of `FILES` is copied into the build's own folder, unchanged up to
//! its last byte, with text of ours after it that lets `oracle` call what is private there.

use std::path::{Path, PathBuf};
use std::{env, fs};

/// Where the handed-over folder lies, seen from the repository's root, unless `SPARKL_SRC` says otherwise.
const USUAL_PLACE: &str = "../shared/docs/src";

/// The handed-over files, and for each the file in `ways_in` that is put after it (none: it is public enough).
const FILES: &[(&str, Option<&str>)] = &[
    ("src/dynamics/grid_node.rs", None),
    ("src/dynamics/models/constitutive_model.rs", None),
    ("src/dynamics/models/failure_model.rs", None),
    ("src/dynamics/models/plastic_model.rs", None),
    ("src/dynamics/particle.rs", None),
    ("src/dynamics/particle_model.rs", None),
    ("src/dynamics/particle_set.rs", None),
    ("src/dynamics/solver/fluids_volume.rs", None),
    ("src/dynamics/solver/grid_to_particle.rs", None),
    ("src/dynamics/solver/grid_update.rs", None),
    ("src/dynamics/solver/mls_solver.rs", None),
    ("src/dynamics/solver/mpm_hooks.rs", None),
    ("src/dynamics/solver/particle_to_grid.rs", None),
    ("src/geometry/mod.rs", Some("geometry.rs")),
    ("src/geometry/sp_grid.rs", Some("sp_grid.rs")),
    ("src/utils/morton2.rs", None),
    ("src/utils/morton3.rs", None),
    ("src/utils/physics.rs", None),
    ("src_core/dynamics/solver/kernel.rs", None),
];

/// Handed-over lists of modules name files that are not built here, so ours stand in their places.
const OUR_LISTS: &[(&str, &str)] = &[
    ("src/dynamics/mod.rs", "dynamics.rs"),
    ("src/dynamics/models/mod.rs", "models.rs"),
    ("src/dynamics/solver/mod.rs", "solver.rs"),
    ("src/utils/mod.rs", "utils.rs"),
];

fn main() {
    println!("cargo:rerun-if-env-changed=SPARKL_SRC");
    let manifest = PathBuf::from(variable("CARGO_MANIFEST_DIR"));
    let shared_source = manifest.join("../sparkl");
    let source = handed_over(&manifest);
    let out = PathBuf::from(variable("OUT_DIR"));

    for (name, ours) in OUR_LISTS {
        write(&out.join(name), &read(&shared_source.join("lists").join(ours)));
    }
    let mut rows = String::new();
    for (name, way_in) in FILES {
        let text = read(&source.join(name));
        let copy = out.join(name);
        write(&copy, &(text.clone() + &opened(&shared_source, *way_in)));
        rows += &format!("({:?}, &include_bytes!({:?})[..{}]),\n", name, copy, text.len());
    }
    write(&out.join("sources.rs"), &format!("vec![\n{}]\n", rows));
}

/// The handed-over folder; a relative `SPARKL_SRC` is read from the repository's root, as the usual place is.
fn handed_over(manifest: &Path) -> PathBuf {
    let root = manifest.join("../..");
    let place = env::var("SPARKL_SRC").unwrap_or_else(|_| USUAL_PLACE.to_string());
    root.join(place)
}

/// What is put after a file: a line feed of its own first, since the file may end without one.
fn opened(shared_source: &Path, way_in: Option<&str>) -> String {
    match way_in {
        Some(name) => "\n".to_string() + &read(&shared_source.join("ways_in").join(name)),
        None => String::new(),
    }
}

fn read(path: &Path) -> String {
    println!("cargo:rerun-if-changed={}", path.display());
    fs::read_to_string(path).unwrap_or_else(|error| {
        panic!("{}: {} (the environment variable SPARKL_SRC names the handed-over folder)", path.display(), error)
    })
}

fn write(path: &Path, text: &str) {
    let folder = path.parent().expect("a file lies in a folder");
    fs::create_dir_all(folder).and_then(|_| fs::write(path, text)).unwrap_or_else(|error| panic!("{}: {}", path.display(), error))
}

fn variable(name: &str) -> String {
    env::var(name).unwrap_or_else(|_| panic!("cargo sets {}", name))
}
