//! For build scripts: finds an archive of proved functions and links it.

use std::env;
use std::path::{Path, PathBuf};
use std::process;

const FOLDER: &str = "GYODAEBEUN_LIBRARY";

/// Links `libNAME.a`. Where there is none, the build ends with how to make it.
pub fn link(name: &str) {
    println!("cargo::rerun-if-env-changed={FOLDER}");
    let folder = env::var_os(FOLDER).map_or_else(|| built_here(name), PathBuf::from);
    let archive = folder.join(format!("lib{name}.a"));
    println!("cargo::rerun-if-changed={}", archive.display());
    if !archive.is_file() {
        eprintln!("there is no {}", archive.display());
        eprintln!("build it with `rt lib` in crates/{name}, or name its folder in {FOLDER}");
        process::exit(1);
    }
    println!("cargo::rustc-link-search=native={}", folder.display());
    println!("cargo::rustc-link-lib=static={name}");
}

/// Where the repository's own build leaves the archive.
fn built_here(name: &str) -> PathBuf {
    let package = env::var("CARGO_MANIFEST_DIR").expect("cargo names the crate's folder");
    let repository = Path::new(&package).ancestors().nth(2);
    repository
        .expect("rust/ and its crates lie in the repository")
        .join("crates")
        .join(name)
        .join("out")
}
