//! One job opened and signed to its end, each call timed.

use crate::clock::{timed, timed_on};
use model::answers::{Call, MOST_CREW_BYTES};
use model::builder::lay;
use model::job::Job;
use model::library;
use model::plans::{is_valid, plan_by};
use model::random::Random;
use model::signing::Work;
use std::time::Duration;

/// The order in which steps are signed.
#[derive(Clone, Copy, Debug, PartialEq, Eq)]
pub enum Order {
    Chain,
    Random,
}

/// Times in nanoseconds.
#[derive(Debug)]
pub struct Worked {
    pub order: Order,
    pub crew: u64,
    pub open: u64,
    /// Whether a plan exists: the spare call with cap 0.
    pub exists: u64,
    /// A time for each step, in the order in which they were signed.
    pub granted: Vec<u64>,
    pub refused: Vec<u64>,
    /// What is not as promised.
    pub differences: Vec<&'static str>,
}

fn nanos(time: Duration) -> u64 {
    time.as_nanos() as u64
}

pub fn has_plan(job: &Job) -> bool {
    let mut work = Work::NEW;
    library::open(&mut work, &lay(job).bytes) == 0
}

/// The numbers below `n` in some order.
fn shuffled(random: &mut Random, n: usize) -> Vec<usize> {
    random.order(n).into_iter().map(|k| k - 1).collect()
}

/// Whether every step that remains is signed, and the signers are a valid plan.
fn is_signed(job: &Job, work: &Work) -> bool {
    let signers = &work.signer[..job.remaining().count()];
    let people: Option<Vec<usize>> = signers.iter().map(|&signer| usize::from(signer).checked_sub(1)).collect();
    people.is_some_and(|people| is_valid(job, &plan_by(job, people)))
}

/// Those who are permitted the step are tried until one is granted.
fn sign(job: &Job, step: usize, random: &mut Random, work: &mut Work, worked: &mut Worked) {
    let permitted: Vec<usize> = job.permitted(step).collect();
    for at in shuffled(random, permitted.len()) {
        let (tag, person) = (job.steps[step].tag, job.people[permitted[at]].tag);
        let (after, (number, time)) = timed_on(work, |work| library::sign(work, tag, person));
        *work = after;
        if number == 0 {
            worked.granted.push(nanos(time));
            return;
        }
        worked.refused.push(nanos(time));
    }
    worked.differences.push("nobody is granted a step");
}

/// The sheet has a plan.
pub fn worked(job: &Job, order: Order, random: &mut Random) -> Worked {
    let sheet = lay(job).bytes;
    let mut area = [0; MOST_CREW_BYTES];
    let mut ask = |call| timed(|| library::run(call, &sheet, &mut area));
    let ((crew, crew_time), (exists, exists_time)) = (ask(Call::Crew), ask(Call::Spare { cap: 0 }));
    let (mut work, (open, open_time)) = timed_on(&Work::NEW, |work| library::open(work, &sheet));
    let mut worked = Worked {
        order,
        crew: nanos(crew_time),
        open: nanos(open_time),
        exists: nanos(exists_time),
        granted: vec![],
        refused: vec![],
        differences: vec![],
    };
    if [crew, exists, open] != [0; 3] {
        worked.differences.push("existence");
    }
    let steps: Vec<usize> = job.remaining().collect();
    let turns = if order == Order::Chain { (0..steps.len()).collect() } else { shuffled(random, steps.len()) };
    for turn in turns {
        sign(job, steps[turn], random, &mut work, &mut worked);
    }
    if !is_signed(job, &work) {
        worked.differences.push("valid plan");
    }
    worked
}

#[cfg(test)]
mod tests {
    use super::*;
    use model::builder::{job_w, plain_job, skipping};
    use model::job::MOST_STEPS;

    #[test]
    fn a_job_is_signed_to_its_end_in_both_orders() {
        for job in [job_w(), plain_job(3, MOST_STEPS, 2), skipping(plain_job(3, MOST_STEPS, 2), [0, 5])] {
            assert!(has_plan(&job));
            for order in [Order::Chain, Order::Random] {
                let worked = worked(&job, order, &mut Random::new(3));
                assert_eq!((worked.granted.len(), worked.differences), (job.remaining().count(), vec![]));
            }
        }
    }
}
