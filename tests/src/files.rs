//! Files of the repository that the model writes, by their names from its top.

use std::fs;
use std::path::PathBuf;

pub fn path(name: &str) -> PathBuf {
    PathBuf::from(env!("CARGO_MANIFEST_DIR")).join("..").join(name)
}

fn write(name: &str, bytes: &[u8]) -> bool {
    let written = fs::write(path(name), bytes);
    if let Err(error) = &written {
        eprintln!("{name}: {error}");
    }
    written.is_ok()
}

fn check(name: &str, bytes: &[u8]) -> bool {
    let same = fs::read(path(name)).is_ok_and(|found| found == bytes);
    if !same {
        eprintln!("{name} is not what the model gives: run this program with 'write'");
    }
    same
}

/// What is done with a file and the bytes that the model gives for it: whether it has succeeded.
pub type Action = fn(&str, &[u8]) -> bool;

/// What a word asks for, where it is one of the two.
pub fn action(word: Option<&String>) -> Option<Action> {
    match word.map(String::as_str) {
        Some("write") => Some(write),
        Some("check") => Some(check),
        _ => None,
    }
}
