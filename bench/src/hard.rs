//! The hard sheets that are kept, as the companion's text: lines that begin with # say how each was found.

use model::job::Job;
use sheet::{pack, show};
use std::fs;
use std::io;
use std::path::{Path, PathBuf};

const ENDING: &str = "txt";

/// The folder in the repository.
pub fn folder() -> PathBuf {
    Path::new(env!("CARGO_MANIFEST_DIR")).join("hard")
}

/// Names and jobs of a folder, by name. A file that does not read stops the run: it would be left out unseen.
fn of(folder: &Path) -> Vec<(String, Job)> {
    let Ok(entries) = fs::read_dir(folder) else {
        return vec![];
    };
    let mut paths: Vec<PathBuf> = entries.flatten().map(|entry| entry.path()).collect();
    paths.retain(|path| path.extension().is_some_and(|ending| ending == ENDING));
    paths.sort();
    let read = |path: PathBuf| {
        let text = fs::read_to_string(&path).unwrap_or_else(|error| panic!("{}: {error}", path.display()));
        let job = pack::job(&text).unwrap_or_else(|fault| panic!("{}: {fault}", path.display()));
        (path.file_stem().unwrap_or_default().to_string_lossy().into_owned(), job)
    };
    paths.into_iter().map(read).collect()
}

pub fn kept() -> Vec<(String, Job)> {
    of(&folder())
}

fn path(folder: &Path, name: &str) -> PathBuf {
    folder.join(name).with_extension(ENDING)
}

pub fn text(job: &Job, story: &[String]) -> String {
    let story: String = story.iter().map(|line| format!("# {line}\n")).collect();
    story + &show::text(job)
}

pub fn store(folder: &Path, name: &str, job: &Job, story: &[String]) -> io::Result<()> {
    fs::create_dir_all(folder)?;
    fs::write(path(folder, name), text(job, story))
}

pub fn remove(folder: &Path, name: &str) -> io::Result<()> {
    fs::remove_file(path(folder, name))
}

#[cfg(test)]
mod tests {
    use super::*;
    use model::jobs::good_job;
    use model::random::Random;

    #[test]
    fn what_is_stored_reads_back() {
        let mut random = Random::new(12);
        for _ in 0..500 {
            let job = good_job(&mut random);
            assert_eq!(pack::job(&text(&job, &["found by the climb".to_string()])), Ok(job));
        }
    }

    #[test]
    fn what_is_kept_is_written_as_the_companion_writes_it() {
        for (name, job) in kept() {
            let text = fs::read_to_string(path(&folder(), &name)).unwrap();
            let spoken: String =
                text.lines().filter(|line| !line.starts_with('#')).map(|line| format!("{line}\n")).collect();
            assert_eq!(spoken, show::text(&job), "{name}");
        }
    }
}
