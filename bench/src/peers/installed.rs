//! Which solvers there are on this machine.

use super::clingo::{self, Clingo};
use super::minisat::{self, Minisat};
use super::process::is_there;
use super::sat4j::{self, Sat4j};
use super::solver::Solver;
use std::path::{Path, PathBuf};
use std::{env, fs, io, process};

/// A folder for the solvers' files that is gone afterwards.
pub struct Scratch {
    pub folder: PathBuf,
}

impl Scratch {
    pub fn new() -> io::Result<Scratch> {
        let folder = env::temp_dir().join(format!("fulmarinvar-peers-{}", process::id()));
        fs::create_dir_all(&folder)?;
        Ok(Scratch { folder })
    }
}

impl Drop for Scratch {
    fn drop(&mut self) {
        let _ = fs::remove_dir_all(&self.folder);
    }
}

pub struct Installed {
    pub solvers: Vec<Box<dyn Solver>>,
    /// What is not there, with the packages where the name does not say it.
    pub missing: Vec<&'static str>,
}

impl Installed {
    pub fn look(folder: &Path) -> io::Result<Installed> {
        let mut found = Installed { solvers: vec![], missing: vec![] };
        let folder = || folder.to_path_buf();
        match is_there(minisat::PROGRAM) {
            true => found.solvers.push(Box::new(Minisat { folder: folder() })),
            false => found.missing.push("minisat"),
        }
        match is_there(clingo::PROGRAM) {
            true => found.solvers.push(Box::new(Clingo { folder: folder() })),
            false => found.missing.push("clingo (package gringo)"),
        }
        match sat4j::is_installed() {
            true => found.solvers.push(Box::new(Sat4j::start(folder())?)),
            false => found.missing.push("sat4j (packages sat4j and default-jdk-headless)"),
        }
        Ok(found)
    }
}
