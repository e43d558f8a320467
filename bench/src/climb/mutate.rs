//! Small changes of a job. Each leaves a job that the reader takes.

use model::classes::Classes;
use model::job::{has_limit, Job, Rule, DIFFERENT, LIMITED, MOST_PEOPLE, MOST_RULES, SAME};
use model::jobs::{any_count, any_level, random_rule};
use model::random::Random;

/// What a change does; one that cannot be made leaves the job as it is.
type Change = fn(&mut Random, &mut Job);

/// Rules stand more than once, since most of what is hard lies in them.
const CHANGES: [Change; 16] = [
    add_rule,
    add_rule,
    drop_rule,
    copy_rule,
    change_kind,
    change_level,
    change_scope,
    change_scope,
    change_limit,
    change_limit,
    turn_permission,
    copy_permissions,
    turn_step,
    move_person,
    move_class,
    swap_people,
];

/// A limit within the bounds of the rule's kind and scope.
fn fit_limit(rule: &mut Rule) {
    let size = rule.scope.count_ones() as u8;
    rule.limit = if has_limit(rule.kind) { rule.limit.clamp(1, size) } else { 0 };
}

/// Some rule, to be changed.
fn any_rule<'a>(random: &mut Random, job: &'a mut Job) -> Option<&'a mut Rule> {
    if job.rules.is_empty() {
        return None;
    }
    let at = random.below(job.rules.len());
    Some(&mut job.rules[at])
}

fn add_rule(random: &mut Random, job: &mut Job) {
    if job.rules.len() < MOST_RULES && job.steps.len() > 1 {
        job.rules.push(random_rule(random, job.form, job.steps.len()));
    }
}

fn drop_rule(random: &mut Random, job: &mut Job) {
    if !job.rules.is_empty() {
        job.rules.remove(random.below(job.rules.len()));
    }
}

/// A rule again, some steps further along the chain.
fn copy_rule(random: &mut Random, job: &mut Job) {
    let steps = job.steps.len();
    if job.rules.is_empty() || job.rules.len() == MOST_RULES {
        return;
    }
    let mut rule = job.rules[random.below(job.rules.len())].clone();
    let by = random.below(steps);
    let all = (1u32 << steps) - 1;
    let wide = u32::from(rule.scope);
    rule.scope = ((wide << by | wide >> (steps - by)) & all) as u16;
    job.rules.push(rule);
}

/// Between same and different, or among the kinds that have a limit. A pair may become one of these.
fn change_kind(random: &mut Random, job: &mut Job) {
    let Some(rule) = any_rule(random, job) else {
        return;
    };
    rule.kind = match rule.kind {
        SAME | DIFFERENT if random.once_in(3) => any_count(random),
        SAME | DIFFERENT => SAME + DIFFERENT - rule.kind,
        kind => other_count(random, kind),
    };
    fit_limit(rule);
}

/// Another kind that has a limit.
fn other_count(random: &mut Random, kind: u8) -> u8 {
    let others: Vec<u8> = LIMITED.into_iter().filter(|other| *other != kind).collect();
    others[random.below(others.len())]
}

fn change_level(random: &mut Random, job: &mut Job) {
    let form = job.form;
    if let Some(rule) = any_rule(random, job) {
        rule.level = any_level(random, form);
    }
}

/// A rule with a limit gains or loses a step; of a pair one step is put in place of another.
fn change_scope(random: &mut Random, job: &mut Job) {
    let steps = job.steps.len();
    let bit = 1u16 << random.below(steps);
    let Some(rule) = any_rule(random, job) else {
        return;
    };
    if !has_limit(rule.kind) {
        let kept =
            if random.once_in(2) { rule.scope & rule.scope.wrapping_neg() } else { rule.scope & (rule.scope - 1) };
        if kept != bit {
            rule.scope = kept | bit;
        }
        return;
    }
    if (rule.scope ^ bit).count_ones() >= 2 {
        rule.scope ^= bit;
    }
    fit_limit(rule);
}

fn change_limit(random: &mut Random, job: &mut Job) {
    let up = random.once_in(2);
    let Some(rule) = any_rule(random, job) else {
        return;
    };
    rule.limit = if up { rule.limit + 1 } else { rule.limit.saturating_sub(1) };
    fit_limit(rule);
}

fn turn_permission(random: &mut Random, job: &mut Job) {
    let person = random.below(job.people.len());
    job.people[person].permitted ^= 1 << random.below(job.steps.len());
}

fn copy_permissions(random: &mut Random, job: &mut Job) {
    let (from, to) = (random.below(job.people.len()), random.below(job.people.len()));
    job.people[to].permitted = job.people[from].permitted;
}

/// The place of the last class level among somebody's classes.
fn last_level(job: &Job) -> usize {
    usize::from(job.form.class_levels()) - 1
}

/// Everybody of some class of the last level, by their places in crew order.
fn any_class(random: &mut Random, job: &Job) -> Vec<usize> {
    let last = last_level(job);
    let class = job.people[random.below(job.people.len())].class[last];
    (0..job.people.len()).filter(|&person| job.people[person].class[last] == class).collect()
}

/// One step more, or one less, for everybody of a class.
fn turn_step(random: &mut Random, job: &mut Job) {
    let members = any_class(random, job);
    let bit = 1 << random.below(job.steps.len());
    let give = random.once_in(2);
    for person in members {
        let permitted = &mut job.people[person].permitted;
        *permitted = if give { *permitted | bit } else { *permitted & !bit };
    }
}

/// A number that no class of the level has.
fn new_class(job: &Job, at: usize) -> u16 {
    let is_free = |class: &u16| job.people.iter().all(|person| person.class[at] != *class);
    (1..=MOST_PEOPLE as u16 + 1).find(is_free).expect("more numbers than people")
}

/// Classes above the last level that are there, or now and then new ones from some level on.
fn any_above(random: &mut Random, job: &Job) -> Classes {
    let last = last_level(job);
    let from = match (random.once_in(4), last) {
        (false, _) => last,
        (true, ..=1) => 0,
        (true, _) => random.below(last),
    };
    let mut class = if from == 0 { Classes::default() } else { job.people[random.below(job.people.len())].class };
    (from..last).for_each(|at| class[at] = new_class(job, at));
    class
}

/// Somebody to the class of another, and so to those above it, or to a class of their own.
fn move_person(random: &mut Random, job: &mut Job) {
    let mut class = job.people[random.below(job.people.len())].class;
    if random.once_in(3) {
        class = any_above(random, job);
        class[last_level(job)] = new_class(job, last_level(job));
    }
    let person = random.below(job.people.len());
    job.people[person].class = class;
}

/// A whole class of the last level to other classes above it.
fn move_class(random: &mut Random, job: &mut Job) {
    let members = any_class(random, job);
    let (above, last) = (any_above(random, job), last_level(job));
    for person in members {
        job.people[person].class[..last].copy_from_slice(&above[..last]);
    }
}

/// Two people change places in crew order: the first plan depends on it.
fn swap_people(random: &mut Random, job: &mut Job) {
    let (a, b) = (random.below(job.people.len()), random.below(job.people.len()));
    job.people.swap(a, b);
}

/// The job with one to three changes.
pub fn mutated(random: &mut Random, job: &Job) -> Job {
    let mut changed = job.clone();
    for _ in 0..random.within(1, 3) {
        CHANGES[random.below(CHANGES.len())](random, &mut changed);
    }
    changed
}

#[cfg(test)]
mod tests {
    use super::*;
    use model::builder::lay;
    use model::job::{Form, MAX_LOAD};
    use model::jobs::{good_job, job_of, small_job};
    use model::reader::read;
    use std::collections::BTreeSet;

    #[test]
    fn changes_keep_a_sheet_readable() {
        for seed in 0..100 {
            let mut random = Random::new(seed);
            let mut job = if random.once_in(2) { small_job(&mut random) } else { good_job(&mut random) };
            for _ in 0..200 {
                job = mutated(&mut random, &job);
                assert_eq!(read(&lay(&job).bytes).as_ref(), Ok(&job));
            }
        }
    }

    #[test]
    fn every_kind_comes_up_at_every_level() {
        let mut random = Random::new(9);
        for form in Form::ALL {
            let mut met = BTreeSet::new();
            let mut job = job_of(&mut random, form, 8, 6, 4);
            for _ in 0..3_000 {
                job = mutated(&mut random, &job);
                met.extend(job.rules.iter().map(|rule| (rule.kind, rule.level)));
            }
            let all = (SAME..=MAX_LOAD).flat_map(|kind| (1..=form.person_level()).map(move |level| (kind, level)));
            assert!(met.into_iter().eq(all), "{form}");
        }
    }

    #[test]
    fn a_kind_with_a_limit_becomes_any_other() {
        let mut random = Random::new(10);
        for kind in LIMITED {
            let met: BTreeSet<u8> = (0..100).map(|_| other_count(&mut random, kind)).collect();
            assert!(met.into_iter().eq(LIMITED.into_iter().filter(|other| *other != kind)), "{kind}");
        }
    }

    #[test]
    fn each_change_changes_something_some_time() {
        let mut random = Random::new(8);
        let job = job_of(&mut random, Form::Second { class_levels: 3 }, 20, 8, 12);
        for change in CHANGES {
            let changes = |_| {
                let mut changed = job.clone();
                change(&mut random, &mut changed);
                changed != job
            };
            assert!((0..50).any(changes));
        }
    }
}
