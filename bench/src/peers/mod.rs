//! Solvers that know nothing of crews, on the same sheets: MiniSat, clingo and SAT4J, as far as they are installed. They are given
//! jobs without skipped steps.

mod asp;
mod clingo;
mod cnf;
mod installed;
mod minisat;
mod needs;
mod opb;
mod process;
mod sat4j;
mod solver;
mod table;

use crate::groups;
use crate::measure::{called, people_of, Answer};
use crate::options::{self, option, Run};
use crate::record;
use crate::worker::Worker;
use installed::{Installed, Scratch};
use model::answers::Call;
use model::builder::plain_job;
use model::job::Job;
use model::plans::{is_valid, plan_by};
use solver::{Question, Solved, Solver};
use std::io::{self, Write};
use std::time::Duration;
use table::Line;

pub const USAGE: &str = "bench peers CSV [--sheets N] [--limit-ms N] [--late-ms N] [GROUP...]
  CSV         the file for a line a sheet, solver and question
  --sheets    sheets in each group, 10 unless given; of 'hard' all
  --limit-ms  time for one answer of a solver, 1000 unless given; what is late for existence is not asked for a first plan
  --late-ms   time for one call of the library, 1000 unless given
  GROUP       only these; 'practice' stands for all that begin with 'practice-'
MiniSat and clingo are processes of their own: 'wall' has their start and their reading, 'own' is the CPU time that they
print. SAT4J is kept warm in one Java machine: 'wall' is reading and solving, 'own' solving alone. The group 'start' is one
person and one step: what a solver costs before it works. MiniSat needs several calls for a first plan, which are added up.
'library' is the call for the same question: crew for the first plan, spare with cap 0 for existence.";

/// SAT4J solves so many sheets before anything is measured.
const WARM_UP: u32 = 40;

pub struct Order {
    run: Run,
    /// The longest that a solver may take for one answer.
    limit: Duration,
}

pub fn order(mut args: Vec<String>) -> Option<Order> {
    let limit = Duration::from_millis(option(&mut args, "--limit-ms", 1_000)?);
    Some(Order { run: options::run(args, 10)?, limit })
}

/// What the library says of the job: the first plan, or that there is none. It may be late itself.
type Ours = Option<Option<Vec<usize>>>;

fn ours(job: &Job, answer: &Answer) -> Ours {
    let (number, crew) = answer.as_ref()?;
    Some((*number == 0).then(|| people_of(job, crew)).flatten())
}

/// Whether the spare call with cap 0, which asks for existence alone, says the same as the crew call, as far as both ended.
fn says_the_same(ours: &Ours, existence: &Answer) -> bool {
    match (ours, existence) {
        (Some(plan), Some((number, _))) => plan.is_some() == (*number == 0),
        _ => true,
    }
}

/// A late answer agrees with any. A plan is looked at also where only existence was asked for.
fn agrees(job: &Job, ours: &Ours, solved: &Option<Solved>, question: Question) -> bool {
    let Some(solved) = solved else {
        return true;
    };
    if solved.plan.clone().is_some_and(|people| !is_valid(job, &plan_by(job, people))) {
        return false;
    }
    let Some(ours) = ours else {
        return true;
    };
    solved.has_plan == ours.is_some() && (question == Question::Exists || solved.plan == *ours)
}

/// The sheets to be asked about: first the smallest, then the groups'.
fn sheets(run: &Run) -> Vec<(String, u32, Job)> {
    let mut sheets: Vec<_> = (1..=5).map(|sheet| ("start".to_string(), sheet, plain_job(1, 1, 0))).collect();
    for group in groups::meant(&run.groups) {
        let numbers = 1..=if group.name == groups::HARD { group.sheets } else { run.sheets.min(group.sheets) };
        sheets.extend(numbers.map(|sheet| (group.name.clone(), sheet, (group.job)(sheet))));
    }
    sheets
}

fn warm_up(solvers: &mut [Box<dyn Solver>], limit: Duration) -> io::Result<()> {
    let group = groups::meant(&["four-kinds-few".to_string()]).remove(0);
    for solver in solvers.iter_mut().filter(|solver| solver.name() == "sat4j") {
        for sheet in 1..=WARM_UP {
            solver.solve(&(group.job)(sheet), Question::Exists, limit)?;
        }
    }
    Ok(())
}

/// The solver's answers to both questions; what is late for the first is so for the second.
fn answers(solver: &mut dyn Solver, job: &Job, limit: Duration) -> io::Result<Vec<(Question, Option<Solved>)>> {
    let mut answers = vec![];
    let mut late = false;
    for question in Question::ALL {
        let solved = if late { None } else { solver.solve(job, question, limit)? };
        late = solved.is_none();
        answers.push((question, solved));
    }
    Ok(answers)
}

/// How many answers differ.
pub fn run(order: &Order) -> io::Result<usize> {
    let scratch = Scratch::new()?;
    let Installed { mut solvers, missing } = Installed::look(&scratch.folder)?;
    let notes: Vec<String> = missing.iter().map(|name| format!("not installed: {name}")).collect();
    for note in &notes {
        println!("{note}");
    }
    let mut csv = record::create(&order.run.csv, &notes)?;
    writeln!(csv, "{}", table::CSV_HEADING)?;
    warm_up(&mut solvers, order.limit)?;
    let mut worker = Worker::new();
    let mut lines: Vec<Line> = vec![];
    for (group, sheet, job) in sheets(&order.run) {
        let (answer, crew) = called(&mut worker, Call::Crew, &job, order.run.late)?;
        let (existence, exists) = called(&mut worker, Call::Spare { cap: 0 }, &job, order.run.late)?;
        let ours = ours(&job, &answer);
        let one_mind = says_the_same(&ours, &existence);
        for solver in &mut solvers {
            for (question, solved) in answers(solver.as_mut(), &job, order.limit)? {
                let line = Line {
                    group: group.clone(),
                    sheet,
                    size: [job.steps.len(), job.people.len(), job.rules.len()],
                    has_plan: ours.as_ref().map(Option::is_some),
                    crew,
                    exists,
                    solver: solver.name(),
                    question,
                    agrees: one_mind && agrees(&job, &ours, &solved, question),
                    solved,
                };
                writeln!(csv, "{}", table::csv_line(&line))?;
                lines.push(line);
            }
        }
    }
    csv.flush()?;
    println!("{}", table::text(&lines));
    Ok(lines.iter().filter(|line| !line.agrees).count())
}

#[cfg(test)]
mod tests {
    use super::*;
    use model::jobs::small_job;
    use model::plans::first_plan;
    use model::random::Random;
    use model::shortened::shortened;

    #[test]
    #[ignore = "asks the solvers that are installed: cargo test -- --ignored"]
    fn small_jobs_are_solved_as_by_the_brute_force() {
        let scratch = Scratch::new().unwrap();
        let solvers = Installed::look(&scratch.folder).unwrap().solvers;
        assert!(!solvers.is_empty(), "no solver is installed");
        let limit = Duration::from_secs(30);
        for mut solver in solvers {
            let mut random = Random::new(31);
            for _ in 0..60 {
                let job = shortened(&small_job(&mut random));
                if job.steps.is_empty() {
                    continue;
                }
                let first = first_plan(&job, &[]).map(|plan| plan.into_iter().flatten().collect());
                for question in Question::ALL {
                    let solved = solver.solve(&job, question, limit).unwrap().expect("a small job");
                    assert!(agrees(&job, &Some(first.clone()), &Some(solved), question), "{} {job:?}", solver.name());
                }
            }
        }
    }
}
