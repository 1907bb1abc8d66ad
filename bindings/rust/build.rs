//! Finds the archive of the library.

use std::env;
use std::path::{Path, PathBuf};

/// The environment variable that names the folder of the archive.
const FOLDER: &str = "TIMESLICES_LIB_DIR";

/// Tells cargo to link the archive, or prints what is missing.
fn main() {
    println!("cargo:rerun-if-changed=build.rs");
    println!("cargo:rerun-if-env-changed={FOLDER}");
    let folder = folder();
    let archive = folder.join("libtimeslices.a");
    println!("cargo:rerun-if-changed={}", archive.display());
    if !archive.is_file() {
        eprintln!(
            "there is no {}: run `make lib` in the repository, or set {FOLDER} to the folder of \
             an archive for the processor that this is built for",
            archive.display()
        );
        std::process::exit(1);
    }
    println!("cargo:rustc-link-search=native={}", folder.display());
    println!("cargo:rustc-link-lib=static=timeslices");
}

/// Returns the folder of the archive: the one that the variable names (a relative path begins at this crate's
/// folder), or the one that `make lib` writes to.
fn folder() -> PathBuf {
    let here = env::var_os("CARGO_MANIFEST_DIR").unwrap_or_default();
    let here = Path::new(&here);
    if let Some(named) = env::var_os(FOLDER) {
        return here.join(named);
    }
    here.join("../../target/staticlib")
}
