//! One sheet by trial, through the crew call and by hand, each call timed.

use super::hand::{try_every, Tried};
use crate::clock::timed;
use crate::measure::crew_of;
use crate::problem::Problem;
use model::answers::{room, Call, MOST_CREW_BYTES};
use model::builder::lay;
use model::job::Job;
use model::library;
use model::refusal::is_no_plan;

/// Times in nanoseconds.
#[derive(Debug)]
pub struct Measured {
    pub steps: usize,
    pub people: usize,
    pub rules: usize,
    pub has_plan: bool,
    /// How many plans were tried, by hand.
    pub tried: u64,
    pub crew: u64,
    pub by_trial: u64,
    pub hand: u64,
    /// What they do not agree on.
    pub differences: Vec<&'static str>,
}

/// What is returned, the whole area afterwards, and the time.
fn asked(call: Call, sheet: &[u8]) -> ((u32, [u8; MOST_CREW_BYTES]), u64) {
    let mut area = [0xA5; MOST_CREW_BYTES];
    let (number, time) = timed(|| library::run(call, sheet, &mut area));
    ((number, area), time.as_nanos() as u64)
}

pub fn measured(job: &Job) -> Measured {
    let sheet = lay(job).bytes;
    let (crew_answer, crew) = asked(Call::Crew, &sheet);
    let (answer, by_trial) = asked(Call::CrewByTrial, &sheet);
    let problem = Problem::new(job);
    let (Tried { plans, plan }, hand) = timed(|| try_every(&problem));

    let mut differences = vec![];
    if answer != crew_answer {
        differences.push("crew");
    }
    let agrees = match &plan {
        Some(plan) => answer.0 == 0 && answer.1[..room(Call::CrewByTrial, job)] == crew_of(job, plan),
        None => is_no_plan(answer.0),
    };
    if !agrees {
        differences.push("first plan");
    }
    Measured {
        steps: job.steps.len(),
        people: job.people.len(),
        rules: job.rules.len(),
        has_plan: plan.is_some(),
        tried: plans,
        crew,
        by_trial,
        hand: hand.as_nanos() as u64,
        differences,
    }
}

#[cfg(test)]
mod tests {
    use super::*;
    use model::builder::{job_w, rule, skipping};
    use model::job::{AT_MOST, BY_PERSON};

    #[test]
    fn w_is_tried_twice_and_without_a_plan_to_the_end() {
        let mut job = job_w();
        let w = measured(&job);
        assert_eq!((w.has_plan, w.tried, w.differences), (true, 2, vec![]));
        job.rules.push(rule(AT_MOST, BY_PERSON, 1, 7));
        let none = measured(&job);
        assert_eq!((none.has_plan, none.tried, none.differences), (false, 64, vec![]));
        let left = measured(&skipping(job, [0]));
        assert_eq!((left.has_plan, left.tried, left.differences), (false, 16, vec![]));
    }
}
