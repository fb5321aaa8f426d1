//! Links the proved library, unless the feature `proved` is off.

use std::path::{Path, PathBuf};

/// Where the proved library is built, seen from this folder.
const ARCHIVES: &str = "../target/staticlib";
/// Where Rattle is installed, unless `RATTLE_HOME` says otherwise. Its `lib` holds the C code through which the proved
/// library asks for memory.
const RATTLE: &str = "/opt/rattle";

fn main() {
    println!("cargo:rerun-if-changed=build.rs");
    if std::env::var_os("CARGO_FEATURE_PROVED").is_none() {
        return;
    }
    println!("cargo:rerun-if-env-changed=RATTLE_HOME");
    let here = PathBuf::from(std::env::var_os("CARGO_MANIFEST_DIR").expect("cargo names the folder"));
    let rattle = std::env::var_os("RATTLE_HOME").map_or_else(|| PathBuf::from(RATTLE), PathBuf::from);
    // The order matters: the proved library needs what stands in the other one.
    link(&here.join(ARCHIVES), "jovtelany");
    link(&rattle.join("lib"), "rattle_c");
}

fn link(folder: &Path, name: &str) {
    let archive = folder.join(format!("lib{name}.a"));
    assert!(archive.is_file(), "{} is missing; see README.md", archive.display());
    println!("cargo:rerun-if-changed={}", archive.display());
    println!("cargo:rustc-link-search=native={}", folder.display());
    println!("cargo:rustc-link-lib=static={name}");
}
