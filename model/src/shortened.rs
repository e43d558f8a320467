//! The job without its skipped steps: a shorter sheet with the same crews, spare counts and signings. It is for comparisons; the
//! brute force keeps a job as its sheet has it.

use crate::job::{Job, Person, Rule};

/// The steps of a mask that remain, each at its place among them.
fn moved(job: &Job, mask: u16) -> u16 {
    job.remaining().enumerate().map(|(to, from)| (mask >> from & 1) << to).sum()
}

/// A rule left with fewer than two steps is met, whatever its kind, and has no card. Of the others no limit is above the steps
/// left: so an at-least rule asks for what it did, and an at-most rule is met as before; so is a load, since no class holds more
/// than all steps left.
fn shorter(job: &Job, rule: &Rule) -> Option<Rule> {
    let scope = moved(job, rule.scope);
    let left = scope.count_ones() as u8;
    (left >= 2).then(|| Rule { limit: rule.limit.min(left), scope, ..rule.clone() })
}

/// With all steps skipped it has none, and its sheet is not readable.
pub fn shortened(job: &Job) -> Job {
    let permitted = |person: &Person| Person { permitted: moved(job, person.permitted), ..person.clone() };
    Job {
        form: job.form,
        people: job.people.iter().map(permitted).collect(),
        steps: job.remaining().map(|step| job.steps[step].clone()).collect(),
        rules: job.rules.iter().filter_map(|rule| shorter(job, rule)).collect(),
    }
}

#[cfg(test)]
mod tests {
    use super::*;
    use crate::answers::{answer, Call, MOST_CREW_BYTES};
    use crate::builder::{job_w, lay, rule, skipping};
    use crate::job::{BY_PERSON, DIFFERENT, LIMITED};
    use crate::jobs::{small_job, tried_job};
    use crate::plans::first_plan;
    use crate::random::Random;
    use crate::reader::read;
    use crate::signing::{sign, Work};

    #[test]
    fn permissions_and_scopes_move_with_their_steps() {
        let mut job = skipping(job_w(), [0]);
        job.rules.extend(LIMITED.map(|kind| rule(kind, BY_PERSON, 3, 7)));
        let short = shortened(&job);
        assert_eq!(short.people.iter().map(|person| person.permitted).collect::<Vec<_>>(), [3, 3, 2, 2]);
        assert_eq!(short.steps, job.steps[1..]);
        let [_, different, limited @ ..] = &short.rules[..] else { panic!("{short:?}") };
        assert_eq!(*different, rule(DIFFERENT, BY_PERSON, 0, 3));
        assert_eq!(limited, LIMITED.map(|kind| rule(kind, BY_PERSON, 2, 3)));
    }

    #[test]
    fn a_job_without_skipped_steps_stays_as_it_is() {
        assert_eq!(shortened(&job_w()), job_w());
    }

    #[test]
    fn crews_and_spare_counts_are_those_of_the_job() {
        let mut random = Random::new(14);
        let mut met = 0;
        for round in 0..2_000 {
            let job = if round % 10 == 0 { tried_job(&mut random) } else { small_job(&mut random) };
            if job.remaining().next().is_none() {
                continue;
            }
            let short = shortened(&job);
            assert_eq!(read(&lay(&short).bytes).as_ref(), Ok(&short));
            let mut calls = vec![Call::Crew];
            calls.extend((job.people.len() <= 6).then_some(Call::Spare { cap: 3 }));
            for call in calls {
                let answers = [&job, &short].map(|job| answer(call, &lay(job).bytes, &[9; MOST_CREW_BYTES]));
                assert_eq!(answers[0], answers[1], "{job:?}");
            }
            met += usize::from(short.steps.len() < job.steps.len());
        }
        assert!(met > 200, "{met}");
    }

    #[test]
    fn signings_are_those_of_the_job() {
        let mut random = Random::new(15);
        for _ in 0..500 {
            let job = small_job(&mut random);
            if job.remaining().next().is_none() || first_plan(&job, &[]).is_none() {
                continue;
            }
            let mut works = [lay(&job), lay(&shortened(&job))].map(|sheet| Work::holding(&sheet.bytes));
            for _ in 0..10 {
                let step = job.steps[random.below(job.steps.len())].tag;
                let person = job.people[random.below(job.people.len())].tag;
                let numbers = works.each_mut().map(|work| sign(work, step, person));
                assert_eq!(numbers[0], numbers[1], "{job:?}");
            }
            assert_eq!(works[0].signer, works[1].signer, "{job:?}");
        }
    }
}
