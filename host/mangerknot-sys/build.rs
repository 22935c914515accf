//! Says where the archive lies: in the folder that MANGERKNOT_ARCHIVE_DIR names, else where `rt lib` leaves it.

use std::env;
use std::path::PathBuf;
use std::process::exit;

const VARIABLE: &str = "MANGERKNOT_ARCHIVE_DIR";

fn main() {
    let repository = PathBuf::from(env::var_os("CARGO_MANIFEST_DIR").expect("cargo names the package's folder")).join("../..");
    // An empty variable names nothing, as host/run has it.
    let named = env::var_os(VARIABLE).filter(|name| !name.is_empty()).map(PathBuf::from);
    if let Some(relative) = named.as_ref().filter(|folder| folder.is_relative()) {
        eprintln!("The variable {} names {}, and the folder has to be absolute:", VARIABLE, relative.display());
        eprintln!("a build script runs in another folder than whoever set it. `host/run cargo ..` makes it so.");
        exit(1);
    }
    let about = match named {
        Some(_) => "names that folder; without it, crates/boundary/out of the repository is taken",
        None => "can name another folder, where libboundary.a lies already",
    };
    let folder = named.unwrap_or_else(|| repository.join("crates/boundary/out"));
    let archive = folder.join("libboundary.a");
    println!("cargo:rerun-if-env-changed={}", VARIABLE);
    println!("cargo:rerun-if-changed={}", archive.display());
    if !archive.is_file() {
        eprintln!("Mangerknot's archive is missing: {}", archive.display());
        eprintln!("`rt lib`, in the repository's crates/boundary, proves it and leaves crates/boundary/out/libboundary.a.");
        eprintln!("The variable {} {}.", VARIABLE, about);
        exit(1);
    }
    let target = env::var("TARGET").expect("cargo names the target");
    if !target.starts_with("x86_64-") || !target.contains("-linux-") {
        eprintln!("Mangerknot's archive is x86-64 code for Linux, and the target is {}.", target);
        eprintln!("`host/run cargo ..` builds for x86-64 on Arm too, and runs that under an emulator.");
        exit(1);
    }
    println!("cargo:rustc-link-search=native={}", folder.display());
    println!("cargo:rustc-link-lib=static=boundary");
}
