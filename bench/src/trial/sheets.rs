//! Sheets of a shop of five: people, permissions and rules at random.

use crate::sign::has_plan;
use model::job::{Form, Job, MOST_RULES};
use model::jobs::{planned_job, random_rule};
use model::random::Random;
use std::ops::RangeInclusive;

const PEOPLE: usize = 5;
pub const STEPS: RangeInclusive<usize> = 3..=8;

/// Different for each number of a sheet and of steps.
fn random_of(number: u64, steps: usize) -> Random {
    Random::new(100 * number + steps as u64)
}

/// A few rules of any kind, all of which some plan meets.
fn planned(random: &mut Random, steps: usize) -> Job {
    let rules = random.within(2, 6);
    planned_job(random, Form::First, PEOPLE, steps, rules)
}

pub fn with_a_plan(number: u64, steps: usize) -> Job {
    planned(&mut random_of(number, steps), steps)
}

/// The same, with rules added until no plan meets all.
pub fn without_a_plan(number: u64, steps: usize) -> Job {
    let random = &mut random_of(number, steps);
    loop {
        let mut job = planned(random, steps);
        while job.rules.len() < MOST_RULES {
            job.rules.push(random_rule(random, job.form, steps));
            if !has_plan(&job) {
                return job;
            }
        }
    }
}

#[cfg(test)]
mod tests {
    use super::*;

    #[test]
    fn sheets_have_a_plan_or_none_as_meant() {
        for steps in STEPS {
            for number in 1..=5 {
                let (one, other) = (with_a_plan(number, steps), without_a_plan(number, steps));
                assert_eq!((one.people.len(), one.steps.len()), (PEOPLE, steps));
                assert_eq!((has_plan(&one), has_plan(&other)), (true, false));
            }
        }
    }
}
