//! Tells the linker where the library is, when this program is built to link it.

use std::path::{Path, PathBuf};

/// The variable that names the folder of the archive, if it is not the one of `make lib`.
const FOLDER: &str = "TIMESLICES_LIB_DIR";

/// Writes the link lines if the feature `linked` is on, and nothing otherwise.
fn main() {
    println!("cargo::rerun-if-changed=build.rs");
    println!("cargo::rerun-if-env-changed={FOLDER}");
    if std::env::var_os("CARGO_FEATURE_LINKED").is_none() {
        return;
    }
    let folder = folder();
    let archive = folder.join("libtimeslices.a");
    println!("cargo::rerun-if-changed={}", archive.display());
    if !archive.is_file() {
        let named = archive.display();
        println!("cargo::error=there is no archive {named}: run `make lib` first, or set {FOLDER} to the folder of one");
        return;
    }
    println!("cargo::rustc-link-search=native={}", folder.display());
    println!("cargo::rustc-link-lib=static=timeslices");
    if std::env::var_os("CARGO_FEATURE_FUZZ").is_some() {
        // The fuzzer is written in C++; ../tools/fuzz puts its archive beside the library's.
        println!("cargo::rustc-link-lib=static=fuzzer");
        println!("cargo::rustc-link-lib=stdc++");
    }
}

/// Returns the folder of the archive: the one that is named, or that of `make lib`.
fn folder() -> PathBuf {
    let variable = |name| std::env::var_os(name).filter(|value| !value.is_empty());
    if let Some(folder) = variable(FOLDER) {
        return folder.into();
    }
    let here = variable("CARGO_MANIFEST_DIR").expect("cargo names the folder of the manifest");
    Path::new(&here).join("../target/staticlib")
}
