//! SAT4J on sums, in one Java machine that is kept warm.

use super::needs::{Needs, Var};
use super::opb::text;
use super::process::is_there;
use super::solver::{Question, Solved, Solver};
use model::job::Job;
use std::io::{self, BufRead, BufReader, Write};
use std::path::{Path, PathBuf};
use std::process::{Child, ChildStdin, ChildStdout, Command, Stdio};
use std::time::Duration;
use std::{env, fs};

/// Names another folder for the jars than Debian's.
const FOLDER: &str = "SAT4J_JARS";
const DEBIAN: &str = "/usr/share/java";
const JARS: [&str; 2] = ["org.sat4j.core.jar", "org.sat4j.pb.jar"];

fn jars() -> Vec<PathBuf> {
    let folder = env::var_os(FOLDER).map_or(DEBIAN.into(), PathBuf::from);
    JARS.iter().map(|jar| folder.join(jar)).collect()
}

/// The compiler is needed for the small program that keeps it warm.
pub fn is_installed() -> bool {
    is_there("java") && is_there("javac") && jars().iter().all(|jar| jar.is_file())
}

pub struct Sat4j {
    folder: PathBuf,
    child: Child,
    files: Option<ChildStdin>,
    answers: BufReader<ChildStdout>,
}

impl Sat4j {
    pub fn start(folder: PathBuf) -> io::Result<Sat4j> {
        let program = Path::new(env!("CARGO_MANIFEST_DIR")).join("java/Warm.java");
        let path = env::join_paths(jars()).map_err(io::Error::other)?;
        let mut child = Command::new("java")
            .arg("-cp")
            .arg(path)
            .arg(program)
            .stdin(Stdio::piped())
            .stdout(Stdio::piped())
            .stderr(Stdio::null())
            .spawn()?;
        let files = child.stdin.take();
        let answers = BufReader::new(child.stdout.take().expect("a pipe was asked for"));
        Ok(Sat4j { folder, child, files, answers })
    }

    fn ask(&mut self, line: &str) -> io::Result<String> {
        let files = self.files.as_mut().expect("open until the end");
        files.write_all(line.as_bytes())?;
        files.flush()?;
        let mut answer = String::new();
        self.answers.read_line(&mut answer)?;
        Ok(answer)
    }
}

impl Drop for Sat4j {
    fn drop(&mut self) {
        // Without input it ends by itself.
        self.files = None;
        let _ = self.child.wait();
    }
}

/// What the machine prints for a file.
#[derive(Debug, PartialEq, Eq)]
struct Printed {
    word: String,
    reading: Duration,
    solving: Duration,
    /// The variables of the first plan, where it was asked for.
    plan: Vec<Var>,
}

fn read(answer: &str) -> Option<Printed> {
    let mut words = answer.split_whitespace();
    let word = words.next()?.to_string();
    let mut time = || words.next()?.parse().ok().map(Duration::from_nanos);
    let (reading, solving) = (time()?, time()?);
    let plan = words.map(|var| var.parse().ok()).collect::<Option<Vec<Var>>>()?;
    Some(Printed { word, reading, solving, plan })
}

/// The variables of each step in crew order. Where nobody is permitted a step there is no plan to ask for.
fn steps(needs: &Needs) -> Option<String> {
    let vars = |does: &Vec<(usize, Var)>| does.iter().map(|(_, var)| var.to_string()).collect::<Vec<_>>().join(",");
    let all: Vec<String> = needs.does.iter().map(vars).collect();
    (!all.contains(&String::new())).then(|| all.join(";"))
}

impl Solver for Sat4j {
    fn name(&self) -> &'static str {
        "sat4j"
    }

    /// The wall time is that of reading the file and solving: its repeats are no part of it.
    fn solve(&mut self, job: &Job, question: Question, limit: Duration) -> io::Result<Option<Solved>> {
        let needs = Needs::new(job);
        let input = self.folder.join("job.opb");
        fs::write(&input, text(&needs))?;
        let wanted = if question == Question::First { steps(&needs) } else { None };
        let line = format!("{} {} {}\n", limit.as_millis(), input.display(), wanted.unwrap_or_default());
        let answer = self.ask(&line)?;
        let Some(printed) = read(&answer) else {
            return Err(io::Error::other(format!("SAT4J gave no answer: {answer}")));
        };
        if printed.word == "LATE" {
            return Ok(None);
        }
        let plan = needs.plan(|var| printed.plan.contains(&var));
        let wall = printed.reading + printed.solving;
        Ok(Some(Solved { plan, has_plan: printed.word == "SAT", calls: 1, wall, own: printed.solving }))
    }
}

#[cfg(test)]
mod tests {
    use super::*;
    use model::builder::{job_w, plain_job};

    #[test]
    fn an_answer_has_a_word_two_times_and_perhaps_a_plan() {
        let (reading, solving) = (Duration::from_micros(1), Duration::from_nanos(20));
        let printed = |plan| Some(Printed { word: "SAT".to_string(), reading, solving, plan });
        assert_eq!(read("SAT 1000 20\n"), printed(vec![]));
        assert_eq!(read("SAT 1000 20 4 9\n"), printed(vec![4, 9]));
        assert_eq!(read(""), None);
    }

    #[test]
    fn steps_are_asked_for_by_their_variables() {
        assert_eq!(steps(&Needs::new(&job_w())), Some("1,2;3,4;5,6,7,8".to_string()));
        let mut idle = plain_job(1, 2, 0);
        idle.people[0].permitted = 1;
        assert_eq!(steps(&Needs::new(&idle)), None);
    }
}
