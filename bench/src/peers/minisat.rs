//! MiniSat on clauses. The first plan takes several calls: a step after the other is given somebody earlier.

use super::cnf::{text, Clause, Clauses, Lit};
use super::needs::{Needs, Var};
use super::process::{run, seconds};
use super::solver::{Question, Solved, Solver};
use model::job::Job;
use std::collections::HashSet;
use std::path::PathBuf;
use std::process::Command;
use std::time::{Duration, Instant};
use std::{fs, io};

pub const PROGRAM: &str = "minisat";

pub struct Minisat {
    /// A folder for what it reads and writes.
    pub folder: PathBuf,
}

/// One call: the plan, if there is one. Times are added up.
struct Asked<'a> {
    minisat: &'a Minisat,
    needs: Needs,
    clauses: Clauses,
    until: Instant,
    solved: Solved,
}

fn plan_of(needs: &Needs, model: &str) -> Option<Vec<usize>> {
    let is_true: HashSet<Var> = model.split_whitespace().filter_map(|word| word.parse().ok()).collect();
    needs.plan(|var| is_true.contains(&var))
}

impl Asked<'_> {
    /// Nothing where the time is up, `Some(None)` where there is no plan.
    fn plan(&mut self, more: &[Clause]) -> io::Result<Option<Option<Vec<usize>>>> {
        let (input, output) = (self.minisat.folder.join("job.cnf"), self.minisat.folder.join("model.txt"));
        fs::write(&input, text(&self.clauses, more))?;
        let left = self.until.saturating_duration_since(Instant::now());
        let Some((printed, wall)) = run(Command::new(PROGRAM).arg(&input).arg(&output), left)? else {
            return Ok(None);
        };
        self.solved.calls += 1;
        self.solved.wall += wall;
        self.solved.own += seconds(&printed, "CPU time").unwrap_or_default();
        let written = fs::read_to_string(&output)?;
        let Some(model) = written.strip_prefix("SAT") else {
            return Ok(Some(None));
        };
        let plan = plan_of(&self.needs, model);
        Ok(Some(Some(plan.ok_or_else(|| io::Error::other("MiniSat's model is no plan"))?)))
    }

    /// The first plan, from any; nothing where the time is up.
    fn first(&mut self, mut plan: Vec<usize>) -> io::Result<Option<Vec<usize>>> {
        let mut fixed: Vec<Clause> = vec![];
        for step in 0..plan.len() {
            loop {
                let does = &self.needs.does[step];
                let earlier: Clause =
                    does.iter().filter(|(person, _)| *person < plan[step]).map(|(_, var)| Lit::from(*var)).collect();
                if earlier.is_empty() {
                    break;
                }
                match self.plan(&[&fixed[..], &[earlier]].concat())? {
                    None => return Ok(None),
                    Some(None) => break,
                    Some(Some(better)) => plan = better,
                }
            }
            let var = self.needs.does[step].iter().find(|(person, _)| *person == plan[step]).map(|(_, var)| *var);
            fixed.push(var.map(Lit::from).into_iter().collect());
        }
        Ok(Some(plan))
    }
}

impl Solver for Minisat {
    fn name(&self) -> &'static str {
        "minisat"
    }

    fn solve(&mut self, job: &Job, question: Question, limit: Duration) -> io::Result<Option<Solved>> {
        let needs = Needs::new(job);
        let clauses = Clauses::new(&needs);
        let until = Instant::now() + limit;
        let mut asked = Asked { minisat: self, needs, clauses, until, solved: Solved::default() };
        let Some(mut plan) = asked.plan(&[])? else {
            return Ok(None);
        };
        if let (Some(any), Question::First) = (plan.clone(), question) {
            let Some(first) = asked.first(any)? else {
                return Ok(None);
            };
            plan = Some(first);
        }
        Ok(Some(Solved { has_plan: plan.is_some(), plan, ..asked.solved }))
    }
}
