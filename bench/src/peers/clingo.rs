//! clingo on a logic program. For the first plan its decisions are put in plan order.

use super::asp::text;
use super::process::{run, seconds};
use super::solver::{Question, Solved, Solver};
use model::job::Job;
use std::path::PathBuf;
use std::process::Command;
use std::time::Duration;
use std::{fs, io};

pub const PROGRAM: &str = "clingo";

pub struct Clingo {
    /// A folder for what it reads.
    pub folder: PathBuf,
}

/// The plan in the line that follows "Answer: 1".
fn plan_of(printed: &str, steps: usize) -> Option<Vec<usize>> {
    let answer = printed.lines().skip_while(|line| !line.starts_with("Answer:")).nth(1)?;
    let mut plan = vec![None; steps];
    for atom in answer.split_whitespace() {
        let (step, person) = atom.strip_prefix("do(")?.strip_suffix(')')?.split_once(',')?;
        *plan.get_mut(step.parse::<usize>().ok()?)? = Some(person.parse().ok()?);
    }
    plan.into_iter().collect()
}

impl Solver for Clingo {
    fn name(&self) -> &'static str {
        "clingo"
    }

    fn solve(&mut self, job: &Job, question: Question, limit: Duration) -> io::Result<Option<Solved>> {
        let input = self.folder.join("job.lp");
        fs::write(&input, text(job, question == Question::First))?;
        let mut command = Command::new(PROGRAM);
        command.arg(&input);
        if question == Question::First {
            command.arg("--heuristic=Domain");
        }
        let Some((printed, wall)) = run(&mut command, limit)? else {
            return Ok(None);
        };
        let has_plan = printed.lines().any(|line| line == "SATISFIABLE");
        if !has_plan && !printed.lines().any(|line| line == "UNSATISFIABLE") {
            return Err(io::Error::other(format!("clingo gave no answer: {printed}")));
        }
        let own = seconds(&printed, "CPU Time").unwrap_or_default();
        Ok(Some(Solved { plan: plan_of(&printed, job.steps.len()), has_plan, calls: 1, wall, own }))
    }
}

#[cfg(test)]
mod tests {
    use super::*;

    #[test]
    fn a_plan_is_read_from_the_answer() {
        let printed = "Solving...\nAnswer: 1\ndo(1,4) do(0,63)\nSATISFIABLE\n";
        assert_eq!(plan_of(printed, 2), Some(vec![63, 4]));
        assert_eq!(plan_of(printed, 3), None);
        assert_eq!(plan_of("UNSATISFIABLE\n", 2), None);
    }
}
