//! Finds libswarmtempo.a: in the folder that `SWARMTEMPO_LIB_DIR` names, else in the repository's
//! target/staticlib, where `host/archive` puts it. Writes nothing.

use std::path::{Path, PathBuf};

const ARCHIVE: &str = "libswarmtempo.a";

fn main() {
    println!("cargo:rerun-if-changed=build.rs");
    println!("cargo:rerun-if-env-changed=SWARMTEMPO_LIB_DIR");
    let folder = std::env::var_os("SWARMTEMPO_LIB_DIR").map_or_else(in_repository, PathBuf::from);
    let archive = folder.join(ARCHIVE);
    println!("cargo:rerun-if-changed={}", archive.display());
    if !archive.is_file() {
        eprintln!("{} is not there.", archive.display());
        eprintln!("Run `host/archive` in the repository's root, which proves and writes it,");
        eprintln!("or name the folder of the archive by SWARMTEMPO_LIB_DIR.");
        std::process::exit(1);
    }
    let target = std::env::var("TARGET").unwrap_or_default();
    if !(target.starts_with("x86_64-") && target.contains("linux")) {
        println!("cargo:warning=the archive is for x86-64 Linux, not for {target}");
    }
    println!("cargo:rustc-link-search=native={}", folder.display());
    println!("cargo:rustc-link-lib=static=swarmtempo");
}

fn in_repository() -> PathBuf {
    Path::new(env!("CARGO_MANIFEST_DIR")).join("../../target/staticlib")
}
