//! Finds the static library that `tools/library` writes, and has it linked.
use std::path::PathBuf;
use std::{env, fs};

/// The folder that has the library, where it is not `../target/staticlib`.
const FOLDER_VARIABLE: &str = "BULONKERI_STATICLIB";
const LIBRARY: &str = "libcapi.a";

fn main() {
    println!("cargo::rerun-if-changed=build.rs");
    println!("cargo::rerun-if-env-changed={FOLDER_VARIABLE}");
    let folder = match env::var_os(FOLDER_VARIABLE) {
        Some(folder) => PathBuf::from(folder),
        None => PathBuf::from(env::var_os("CARGO_MANIFEST_DIR").expect("cargo sets it")).join("../target/staticlib"),
    };
    let library = folder.join(LIBRARY);
    println!("cargo::rerun-if-changed={}", library.display());
    // this runs in the crate's folder, the linker perhaps elsewhere: no relative path for it
    match fs::canonicalize(&library) {
        Ok(found) => {
            println!("cargo::rustc-link-search=native={}", found.parent().expect("a file has a folder").display());
            println!("cargo::rustc-link-lib=static=capi");
        }
        Err(fault) => println!(
            "cargo::error=no {} ({fault}): run `tools/library` at the project's root, or set {FOLDER_VARIABLE} to the folder that has {LIBRARY}",
            library.display()
        ),
    }
}
