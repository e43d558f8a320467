//! Links a second build of the library beside the first, if one is named. The library itself is found by the build of the
//! model.

use std::env;
use std::path::{Path, PathBuf};
use std::process::{exit, Command};

/// Names the archive of the second build; without it there is none.
const OTHER: &str = "FULMARINVAR_OTHER";

/// The calls, and what they are called in the second build.
const CALLS: [(&str, &str); 2] = [("fulmarinvar_crew", "other_crew"), ("fulmarinvar_spare", "other_spare")];

fn run(command: &mut Command) {
    match command.status() {
        Ok(status) if status.success() => return,
        Ok(status) => eprintln!("{command:?}: {status}"),
        Err(error) => eprintln!("{command:?}: {error}"),
    }
    exit(1);
}

/// An archive that has the calls under their other names and shows nothing else: whatever names both builds share do not
/// meet.
fn renamed(archive: &Path, out: &Path) {
    let (whole, shown) = (out.join("whole.o"), out.join("shown.o"));
    run(Command::new("ld").args(["-r", "--whole-archive"]).arg(archive).arg("-o").arg(&whole));
    let mut hide = Command::new("objcopy");
    hide.args(CALLS.map(|(name, _)| format!("--keep-global-symbol={name}"))).arg(&whole).arg(&shown);
    run(&mut hide);
    let mut rename = Command::new("objcopy");
    rename.args(CALLS.map(|(name, other)| format!("--redefine-sym={name}={other}"))).arg(&shown);
    run(&mut rename);
    let library = out.join("libother.a");
    // Members of an earlier build would stay.
    let _ = std::fs::remove_file(&library);
    run(Command::new("ar").arg("crs").arg(&library).arg(&shown));
}

fn main() {
    println!("cargo:rerun-if-changed=build.rs");
    println!("cargo:rerun-if-env-changed={OTHER}");
    println!("cargo:rustc-check-cfg=cfg(other)");
    let Some(archive) = env::var_os(OTHER).filter(|name| !name.is_empty()).map(PathBuf::from) else {
        return;
    };
    println!("cargo:rerun-if-changed={}", archive.display());
    if !archive.exists() {
        eprintln!("{} is missing: {OTHER} has to name an archive of the library", archive.display());
        exit(1);
    }
    let out = PathBuf::from(env::var_os("OUT_DIR").expect("cargo names a folder"));
    renamed(&archive, &out);
    println!("cargo:rustc-link-search=native={}", out.display());
    println!("cargo:rustc-link-lib=static=other");
    println!("cargo:rustc-cfg=other");
}
