//! Finds the library for those who call it. Without the feature `library` nothing is looked for.

use std::env;
use std::path::PathBuf;
use std::process::exit;

/// Names another folder than target/staticlib.
const FOLDER: &str = "FULMARINVAR_LIB";

fn main() {
    println!("cargo:rerun-if-changed=build.rs");
    println!("cargo:rerun-if-env-changed={FOLDER}");
    if env::var_os("CARGO_FEATURE_LIBRARY").is_none() {
        return;
    }
    let here = PathBuf::from(env!("CARGO_MANIFEST_DIR"));
    let folder = match env::var_os(FOLDER) {
        Some(folder) => PathBuf::from(folder),
        None => here.join("../target/staticlib"),
    };
    let archive = folder.join("libfulmarinvar.a");
    println!("cargo:rerun-if-changed={}", archive.display());
    if !archive.exists() {
        eprintln!("{} is missing: run 'make archive', or name its folder in {FOLDER}", archive.display());
        exit(1);
    }
    println!("cargo:rustc-link-search=native={}", folder.display());
    println!("cargo:rustc-link-lib=static=fulmarinvar");
}
