//! What is asked of a solver, and what it answers.

use model::job::Job;
use std::io;
use std::time::Duration;

#[derive(Clone, Copy, Debug, PartialEq, Eq)]
pub enum Question {
    /// Is there a plan?
    Exists,
    /// Which plan is the first?
    First,
}

impl Question {
    /// In the order in which they are asked.
    pub const ALL: [Question; 2] = [Question::Exists, Question::First];

    pub fn word(self) -> &'static str {
        match self {
            Question::Exists => "exists",
            Question::First => "first",
        }
    }
}

/// `wall` is from the start of the solver's process to its end, or from handing a running one the file to its answer;
/// `own` is what the solver itself gives for its work.
#[derive(Clone, Debug, Default)]
pub struct Solved {
    pub plan: Option<Vec<usize>>,
    pub has_plan: bool,
    pub calls: usize,
    pub wall: Duration,
    pub own: Duration,
}

pub trait Solver {
    fn name(&self) -> &'static str;
    /// Nothing where the limit has passed.
    fn solve(&mut self, job: &Job, question: Question, limit: Duration) -> io::Result<Option<Solved>>;
}
