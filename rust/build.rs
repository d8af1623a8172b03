//! Makes the static library with `build-library` and links it. With TILUSORGU_LIB_DIR set, the library there is linked as it is.
use std::path::{Path, PathBuf};
use std::process::Command;

fn main() {
    let here = PathBuf::from(std::env::var("CARGO_MANIFEST_DIR").expect("cargo sets it"));
    let top = here.parent().expect("the crate stands in the repository").to_path_buf();
    println!("cargo:rerun-if-env-changed=TILUSORGU_LIB_DIR");
    println!("cargo:rerun-if-changed=build-library");
    let folder = match std::env::var_os("TILUSORGU_LIB_DIR").filter(|folder| !folder.is_empty()) {
        Some(folder) => given(PathBuf::from(folder)),
        None => built(&here, &top),
    };
    println!("cargo:rerun-if-changed={}", folder.join("liblister_c.a").display());
    println!("cargo:rustc-link-search=native={}", folder.display());
    println!("cargo:rustc-link-lib=static=lister_c");
}

/// A line for whoever builds, without a panic's noise.
fn fail(what: &str) -> ! {
    eprintln!("tilusorgu: {what}");
    std::process::exit(1)
}

/// The folder that TILUSORGU_LIB_DIR names, if it has the library.
fn given(folder: PathBuf) -> PathBuf {
    let named = format!("TILUSORGU_LIB_DIR is {}", folder.display());
    if folder.is_relative() {
        fail(&format!("{named}, which leads elsewhere from each folder: give the whole path, from / on"));
    }
    if !folder.join("liblister_c.a").is_file() {
        fail(&format!("{named}, and liblister_c.a is not there: put it there, or unset the variable, and rust/build-library makes it"));
    }
    folder
}

/// The folder of the library, made anew if its sources have changed.
fn built(here: &Path, top: &Path) -> PathBuf {
    println!("cargo:rerun-if-changed={}", top.join("crates").display());
    println!("cargo:rerun-if-changed={}", top.join("crates.txt").display());
    let done = Command::new(here.join("build-library")).status();
    if !done.as_ref().is_ok_and(|s| s.success()) {
        fail(&format!("rust/build-library did not make the static library ({done:?}); TILUSORGU_LIB_DIR can name a folder that has liblister_c.a"));
    }
    top.join("target/staticlib")
}
