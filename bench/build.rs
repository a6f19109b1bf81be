//! Links the static library of the crate `boundary_c`, and the C library of the Rattle kit that it calls.
//! `BOUNDARY_LIB` may name another file for the first; `RATTLE_C_LIB` names the second, `c/liblibc_c.a` of the kit.

use std::env;
use std::path::{Path, PathBuf};

fn main() {
    println!("cargo::rerun-if-env-changed=BOUNDARY_LIB");
    println!("cargo::rerun-if-env-changed=RATTLE_C_LIB");
    if env::var_os("CARGO_FEATURE_BOUNDARY").is_none() {
        return;
    }
    link(&library(), "run bench/run.sh, or build with --no-default-features for the plain parts alone");
    if let Some(kit) = env::var_os("RATTLE_C_LIB") {
        link(&PathBuf::from(kit), "RATTLE_C_LIB is to name c/liblibc_c.a of the Rattle kit");
    }
}

fn link(library: &Path, help: &str) {
    println!("cargo::rerun-if-changed={}", library.display());
    let name = library.file_stem().and_then(|stem| stem.to_str()).and_then(|stem| stem.strip_prefix("lib"));
    match (library.is_file(), library.parent(), name) {
        (true, Some(directory), Some(name)) => {
            println!("cargo::rustc-link-search=native={}", directory.display());
            println!("cargo::rustc-link-lib=static={name}");
        }
        _ => println!("cargo::error={} is not there: {help}", library.display()),
    }
}

fn library() -> PathBuf {
    match env::var_os("BOUNDARY_LIB") {
        Some(path) => PathBuf::from(path),
        None => Path::new(env!("CARGO_MANIFEST_DIR")).join("../target/staticlib/libboundary.a"),
    }
}
