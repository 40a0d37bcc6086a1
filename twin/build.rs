//! Links the product's static library into the integration tests and the
//! benchmark, and into nothing else: the library of this package and its unit
//! tests build without it, while a test that needs it and does not find it
//! fails to link.

use std::env;
use std::path::{Path, PathBuf};

fn main() {
    let here = PathBuf::from(env::var_os("CARGO_MANIFEST_DIR").expect("cargo sets it"));
    let repo = folder("RATTLE_REPO", &here, "..");
    link(&repo.join("target/staticlib/libcapi.a"));
    println!("cargo:rerun-if-changed=build.rs");
}

/// The folder that an environment variable names, seen from `base`.
fn folder(variable: &str, base: &Path, otherwise: &str) -> PathBuf {
    println!("cargo:rerun-if-env-changed={variable}");
    base.join(env::var_os(variable).unwrap_or_else(|| otherwise.into()))
}

fn link(archive: &Path) {
    println!("cargo:rustc-link-arg-tests={}", archive.display());
    println!("cargo:rustc-link-arg-examples={}", archive.display());
    println!("cargo:rerun-if-changed={}", archive.display());
}
