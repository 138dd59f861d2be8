//! Finds libpramolyt.a: in the folder that PRAMOLYT_LIB names, else in the project's target/staticlib.

use std::env;
use std::path::{Path, PathBuf};
use std::process::exit;

fn main() {
    println!("cargo::rerun-if-env-changed=PRAMOLYT_LIB");
    let folder = folder();
    let archive = folder.join("libpramolyt.a");
    println!("cargo::rerun-if-changed={}", archive.display());
    if !archive.is_file() {
        eprintln!(
            "There is no {}.\nProve and build it first: run `make` in the project's root,\n\
             or name the folder that has it in PRAMOLYT_LIB.",
            archive.display()
        );
        exit(1);
    }
    let folder = folder.canonicalize().expect("the folder is there");
    println!("cargo::rustc-link-search=native={}", folder.display());
    println!("cargo::rustc-link-lib=static=pramolyt");
}

fn folder() -> PathBuf {
    let manifest = env::var_os("CARGO_MANIFEST_DIR").expect("cargo names the manifest's folder");
    let manifest = Path::new(&manifest);
    match env::var_os("PRAMOLYT_LIB") {
        Some(named) => PathBuf::from(named),
        None => manifest.join("../../target/staticlib"),
    }
}
