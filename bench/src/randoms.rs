//! Random jobs: practice sheets of any size, and rules of kinds 1 to 4 over people permitted much or little. These groups were
//! recorded before there was kind 5, and keep their sheets; those with kind 5 are in `loads`.

use model::builder::{person, step};
use model::job::{Form, Job, Rule, AT_LEAST, MOST_PEOPLE, MOST_RULES, MOST_STEPS};
use model::jobs::{job_of, rule_up_to};
use model::random::Random;
use model::recipe::practice_job;

const FEWEST_STEPS: usize = 2;

/// Practice sheets over the whole range of the recipe: its eight corners first, then any size.
pub fn practice_of_any_size(number: u32) -> Job {
    let corner = number as usize - 1;
    let end = |bit: usize, low: usize, high: usize| if corner >> bit & 1 == 0 { low } else { high };
    if corner < 8 {
        return practice_job(number, end(0, FEWEST_STEPS, MOST_STEPS), end(1, 1, MOST_PEOPLE), end(2, 0, MOST_RULES));
    }
    let random = &mut Random::new(number.into());
    let start = random.below(1 << 31) as u32;
    let steps = random.within(FEWEST_STEPS, MOST_STEPS);
    practice_job(start, steps, random.within(1, MOST_PEOPLE), random.within(0, MOST_RULES))
}

/// So many rules of kinds 1 to 4.
fn four_kinds(random: &mut Random, rules: usize) -> Vec<Rule> {
    (0..rules).map(|_| rule_up_to(random, AT_LEAST, Form::First, MOST_STEPS)).collect()
}

/// Rules of kinds 1 to 4 for the people of a practice sheet.
pub fn practice_people(random: &mut Random, least: usize, most: usize) -> Job {
    let job = practice_job(random.below(1 << 31) as u32, MOST_STEPS, MOST_PEOPLE, 0);
    let rules = random.within(least, most);
    Job { rules: four_kinds(random, rules), ..job }
}

/// Any people with any permissions, and rules of kinds 1 to 4.
pub fn any_job(random: &mut Random) -> Job {
    let rules = random.within(0, MOST_RULES);
    let job = job_of(random, Form::First, MOST_PEOPLE, MOST_STEPS, 0);
    Job { rules: four_kinds(random, rules), ..job }
}

/// Each permission is given `ease` times in sixteen; 4 to 24 benches in 2 to 6 shops.
fn permitted_job(random: &mut Random, ease: usize, rules: usize) -> Job {
    let (shops, benches) = (random.within(2, 6), random.within(4, 24));
    let people = (0..MOST_PEOPLE)
        .map(|i| {
            let bench = random.below(benches);
            let permitted = (0..MOST_STEPS).filter(|_| random.below(16) < ease).map(|step| 1 << step).sum();
            person(100 + i as u32, 1 + (bench % shops) as u16, 1 + bench as u16, permitted)
        })
        .collect();
    Job {
        people,
        steps: (0..MOST_STEPS).map(|j| step(1 + j as u32)).collect(),
        rules: four_kinds(random, rules),
        ..Job::default()
    }
}

/// Everybody permitted nearly everything.
pub fn loose(random: &mut Random, least: usize, most: usize) -> Job {
    let rules = random.within(least, most);
    permitted_job(random, 15, rules)
}

/// Some eight people for a step.
pub fn tight(random: &mut Random, least: usize, most: usize) -> Job {
    let rules = random.within(least, most);
    permitted_job(random, 2, rules)
}

#[cfg(test)]
mod tests {
    use super::*;
    use std::collections::BTreeSet;

    #[test]
    fn practice_sheets_reach_every_end_of_the_range() {
        let jobs: Vec<Job> = (1..=400).map(practice_of_any_size).collect();
        let met = |size: fn(&Job) -> usize| jobs.iter().map(size).collect::<BTreeSet<_>>();
        assert_eq!(met(|job| job.steps.len()), (FEWEST_STEPS..=MOST_STEPS).collect());
        for (sizes, least, most) in
            [(met(|job| job.people.len()), 1, MOST_PEOPLE), (met(|job| job.rules.len()), 0, MOST_RULES)]
        {
            assert_eq!((sizes.first(), sizes.last()), (Some(&least), Some(&most)));
            assert!(sizes.len() > 60);
        }
    }

    #[test]
    fn loose_and_tight_are_far_apart() {
        let given = |job: Job| job.people.iter().map(|person| person.permitted.count_ones()).sum::<u32>();
        let random = &mut Random::new(3);
        let all = (MOST_PEOPLE * MOST_STEPS) as u32;
        assert!(given(loose(random, 1, 8)) > all * 7 / 8);
        assert!(given(tight(random, 1, 8)) < all / 5);
    }
}
