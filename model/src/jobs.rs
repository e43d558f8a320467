//! Random jobs that keep every bound of the paper, and their sheets.

use crate::builder::{lay, lay_at, rule, skipping, step, Draft};
use crate::classes::{any_form, Scattered, Shared};
use crate::job::{
    has_limit, Form, Job, Person, Rule, AT_LEAST, AT_MOST, LIMITED, MAX_LOAD, MOST_PEOPLE, MOST_RULES, MOST_STEPS, SAME,
};
use crate::plans::{is_met, plan_by, plans_of, Plan, MOST_PLANS};
use crate::random::Random;
use std::collections::HashSet;
use std::iter::repeat_with;

/// A size up to `most`, mostly small, sometimes the largest.
fn size(random: &mut Random, least: usize, most: usize) -> usize {
    match random.below(8) {
        0 => most,
        1 => random.within(least, most),
        _ => random.within(least, most.min(6)),
    }
}

/// Different tags, small ones or any.
fn tags(random: &mut Random, count: usize) -> Vec<u32> {
    let small = random.once_in(2);
    let mut met = HashSet::new();
    let mut tags = vec![];
    while tags.len() < count {
        let tag = if small { random.within(1, 200) as u32 } else { random.bits() as u32 };
        if tag != 0 && met.insert(tag) {
            tags.push(tag);
        }
    }
    tags
}

/// The mask of `size` of `steps` steps.
pub fn scope(random: &mut Random, steps: usize, size: usize) -> u16 {
    let chosen = random.order(steps);
    chosen[..size].iter().map(|s| 1 << (s - 1)).sum()
}

/// A level that a rule may name.
pub fn any_level(random: &mut Random, form: Form) -> u8 {
    random.within(1, form.person_level().into()) as u8
}

/// One of the kinds that have a limit.
pub fn any_count(random: &mut Random) -> u8 {
    LIMITED[random.below(LIMITED.len())]
}

/// A rule of any kind and level over some of the steps, at least two.
pub fn random_rule(random: &mut Random, form: Form, steps: usize) -> Rule {
    rule_up_to(random, MAX_LOAD, form, steps)
}

/// The same of a kind up to the given one.
pub fn rule_up_to(random: &mut Random, most: u8, form: Form, steps: usize) -> Rule {
    let kind = random.within(SAME.into(), most.into()) as u8;
    let level = any_level(random, form);
    if !has_limit(kind) {
        return rule(kind, level, 0, scope(random, steps, 2));
    }
    let wide = random.within(2, steps);
    rule(kind, level, random.within(1, wide) as u8, scope(random, steps, wide))
}

/// A job of the given size that keeps every field's bounds where the size does.
pub fn job_of(random: &mut Random, form: Form, people: usize, steps: usize, rules: usize) -> Job {
    let known = steps.min(MOST_STEPS);
    let mut classes = Scattered::new(random, form);
    let person_tags = tags(random, people);
    let people = person_tags
        .into_iter()
        .map(|tag| Person { tag, class: classes.next(random), permitted: random.below(1 << known) as u16 })
        .collect();
    let rules = if known < 2 { 0 } else { rules };
    Job {
        form,
        people,
        steps: tags(random, steps).into_iter().map(step).collect(),
        rules: (0..rules).map(|_| random_rule(random, form, known)).collect(),
    }
}

/// The job with some of its steps skipped; two times in three with none.
pub fn with_skipped(random: &mut Random, job: Job) -> Job {
    let steps = job.steps.len();
    let (kind, one) = (random.below(15), random.below(steps));
    let is_skipped = |step: &usize| match kind {
        0 => true,
        1 => *step == one,
        2 => *step != one,
        3..=4 => random.once_in(2),
        _ => false,
    };
    let skipped: Vec<usize> = (0..steps).filter(is_skipped).collect();
    skipping(job, skipped)
}

pub fn good_job(random: &mut Random) -> Job {
    let people = size(random, 1, MOST_PEOPLE);
    let steps = size(random, 1, MOST_STEPS);
    let rules = size(random, 0, MOST_RULES);
    let form = any_form(random);
    let job = job_of(random, form, people, steps, rules);
    with_skipped(random, job)
}

/// A job of the given size: classes that several people share, permissions tight or loose, few rules, no step skipped.
fn mixed_job(random: &mut Random, form: Form, people: usize, steps: usize) -> Job {
    let classes = Shared::new(random, form);
    // Each permission is given so many times in four.
    let ease = random.within(1, 4);
    let people = tags(random, people)
        .into_iter()
        .map(|tag| {
            let class = classes.next(random);
            let permitted = (0..steps).filter(|_| random.below(4) < ease).map(|step| 1 << step).sum();
            Person { tag, class, permitted }
        })
        .collect();
    let rules = if steps < 2 { 0 } else { random.below(7) };
    Job {
        form,
        people,
        steps: tags(random, steps).into_iter().map(step).collect(),
        rules: (0..rules).map(|_| random_rule(random, form, steps)).collect(),
    }
}

/// The same in any form, with some of its steps skipped.
fn skipping_job(random: &mut Random, people: usize, steps: usize) -> Job {
    let form = any_form(random);
    let job = mixed_job(random, form, people, steps);
    with_skipped(random, job)
}

/// A job of the given size, in any form, with so many steps that remain, whichever they are.
fn remaining_job(random: &mut Random, people: usize, steps: usize, remaining: usize) -> Job {
    let form = any_form(random);
    let job = mixed_job(random, form, people, steps);
    let order = random.order(steps);
    skipping(job, order[remaining..].iter().map(|step| step - 1))
}

/// A job of which every plan can be tried.
pub fn small_job(random: &mut Random) -> Job {
    let (steps, people) = (random.within(1, 5), random.within(1, 6));
    skipping_job(random, people, steps)
}

/// A job with as many people or as many steps as there may be, and so few of the others that every plan can be tried, or so few
/// steps that remain.
pub fn lopsided_job(random: &mut Random) -> Job {
    let (people, steps) = match random.below(5) {
        0 => (MOST_PEOPLE, 1),
        1 => (MOST_PEOPLE, 2),
        2 => (1, MOST_STEPS),
        3 => (2, MOST_STEPS),
        _ => {
            let remaining = random.within(1, 2);
            return remaining_job(random, MOST_PEOPLE, MOST_STEPS, remaining);
        }
    };
    skipping_job(random, people, steps)
}

/// A job of the given size, two steps or more and none skipped, that has a plan.
pub fn planned_job(random: &mut Random, form: Form, people: usize, steps: usize, rules: usize) -> Job {
    let job = mixed_job(random, form, people, steps);
    planned(random, job, rules)
}

/// The same in any form, with some of its steps skipped.
pub fn planned_skipping_job(random: &mut Random, people: usize, steps: usize, rules: usize) -> Job {
    let job = skipping_job(random, people, steps);
    planned(random, job, rules)
}

/// The job with so many other rules, and with a plan: one is drawn first, and each rule is met by it.
fn planned(random: &mut Random, mut job: Job, rules: usize) -> Job {
    let (people, steps) = (job.people.len(), job.steps.len());
    let plan: Plan = plan_by(&job, (0..steps).map(|_| random.below(people)));
    for (step, &person) in plan.iter().enumerate() {
        if let Some(person) = person {
            job.people[person].permitted |= 1 << step;
        }
    }
    // The draw ends: there are no more classes in a scope than steps, and none holds more than all of them, so an "at most" or a
    // load whose limit is all its steps is always met, and at least one rule in 30 is such: two kinds of five, one limit of at
    // most twelve.
    let any_rule = repeat_with(|| random_rule(random, job.form, steps));
    let rules = any_rule.filter(|rule| is_met(&job, rule, &plan)).take(rules).collect();
    Job { rules, ..job }
}

/// Up to so many, often just so many.
fn up_to(random: &mut Random, least: usize, most: usize) -> usize {
    if random.once_in(2) {
        return most;
    }
    random.within(least, most)
}

/// A job with a plan, few people and few steps, and up to so many rules.
pub fn with_rules(random: &mut Random, most: usize) -> Job {
    let (people, steps) = (random.within(1, 6), random.within(2, 6));
    let rules = up_to(random, 1, most);
    planned_skipping_job(random, people, steps, rules)
}

/// A job with few people and few steps, and up to 64 rules: the last is any, and all before it are met by every plan.
pub fn last_rule_job(random: &mut Random) -> Job {
    let (people, steps) = (random.within(1, 6), random.within(2, 4));
    let all = (1 << steps) - 1;
    let before = up_to(random, 1, MOST_RULES) - 1;
    let job = skipping_job(random, people, steps);
    let met = |random: &mut Random| rule(AT_MOST, any_level(random, job.form), steps as u8, all);
    let mut rules: Vec<Rule> = (0..before).map(|_| met(random)).collect();
    rules.push(random_rule(random, job.form, steps));
    Job { rules, ..job }
}

/// A job with few people and few steps, and at each level a rule of each kind that has a limit: people are in many classes and
/// permitted much, so that figures lie on both sides of limits.
pub fn counting_job(random: &mut Random) -> Job {
    let (form, people, steps) = (any_form(random), random.within(3, 6), random.within(3, 5));
    let mut job = job_of(random, form, people, steps, 0);
    job.people.iter_mut().for_each(|person| person.permitted |= random.below(1 << steps) as u16);
    for (level, kind) in (1..=form.person_level()).flat_map(|level| LIMITED.map(|kind| (level, kind))) {
        let wide = random.within(2, steps);
        // A low one for at least and a high one for the others leave plans.
        let limit = match kind {
            _ if random.once_in(3) => random.within(1, wide),
            AT_LEAST => 1,
            _ => wide - 1,
        };
        job.rules.push(rule(kind, level, limit as u8, scope(random, steps, wide)));
    }
    let order = random.order(steps);
    let skipped = random.below(3);
    skipping(job, order[..skipped].iter().map(|step| step - 1))
}

/// Up to as many people as leave all plans for so many steps to be tried.
fn tried_people(random: &mut Random, remaining: usize) -> usize {
    let is_tried = |people: &usize| plans_of(*people, remaining) <= MOST_PLANS;
    let most = (1..=MOST_PEOPLE).rev().find(is_tried).expect("one plan can be");
    up_to(random, 1, most)
}

/// A job of any size of which every plan can be tried, up to 64 rules among it.
pub fn tried_job(random: &mut Random) -> Job {
    let steps = random.within(2, MOST_STEPS);
    let remaining = if random.once_in(2) { steps } else { random.within(0, steps) };
    let people = tried_people(random, remaining);
    let job = remaining_job(random, people, steps, remaining);
    if random.once_in(2) {
        return job;
    }
    let rules = size(random, 0, MOST_RULES);
    planned(random, job, rules)
}

/// The same where no plan but the last can be valid: one person does all steps, and some step is permitted to the last person
/// alone, or to nobody.
pub fn last_plan_job(random: &mut Random) -> Job {
    let steps = random.within(2, MOST_STEPS);
    let people = tried_people(random, steps);
    let all = (1 << steps) - 1;
    let kept = random.below(steps);
    let mut job = skipping_job(random, people, steps);
    job.steps[kept].skipped = false;
    job.people.iter_mut().for_each(|person| person.permitted &= !(1 << kept));
    job.people[people - 1].permitted = if random.once_in(2) { all } else { all & !(1 << kept) };
    job.rules = vec![rule(AT_MOST, job.form.person_level(), 1, all)];
    job
}

/// The job's sheet, its cards in some order; now and then in that of the chains.
pub fn laid(random: &mut Random, job: &Job) -> Draft {
    if random.once_in(4) {
        return lay(job);
    }
    let cards = job.people.len() + job.steps.len() + job.rules.len();
    lay_at(job, &random.order(cards))
}

#[cfg(test)]
mod tests {
    use super::*;
    use crate::plans::{all_plans, figure, first_plan, is_small, spare};
    use crate::reader::read;
    use std::collections::BTreeSet;
    use std::iter::repeat;

    #[test]
    fn small_jobs_are_small_and_readable() {
        let mut random = Random::new(2);
        let jobs = [small_job, lopsided_job, last_rule_job, tried_job, last_plan_job, counting_job];
        for draw in jobs.into_iter().cycle().take(3_000) {
            let job = draw(&mut random);
            assert!(is_small(&job));
            assert_eq!(read(&laid(&mut random, &job).bytes), Ok(job));
        }
    }

    #[test]
    fn rules_that_are_always_met_are_drawn() {
        let mut random = Random::new(7);
        let is_met_by_all = |rule: &Rule| rule.kind != AT_LEAST && u32::from(rule.limit) == rule.scope.count_ones();
        for (form, steps) in Form::ALL.into_iter().flat_map(|form| (2..=MOST_STEPS).map(move |steps| (form, steps))) {
            let rules = (0..1_000).map(|_| random_rule(&mut random, form, steps));
            let kinds: BTreeSet<u8> = rules.filter(is_met_by_all).map(|rule| rule.kind).collect();
            assert!(kinds.into_iter().eq([AT_MOST, MAX_LOAD]), "{form}, {steps} steps");
        }
    }

    #[test]
    fn each_kind_is_drawn_as_often_as_the_others() {
        let mut random = Random::new(16);
        let rules: Vec<Rule> = (0..10_000).map(|_| random_rule(&mut random, Form::First, MOST_STEPS)).collect();
        for kind in SAME..=MAX_LOAD {
            let drawn = rules.iter().filter(|rule| rule.kind == kind).count();
            assert!((1_850..=2_150).contains(&drawn), "{drawn} of kind {kind}");
        }
        let limited: Vec<u8> = (0..3_000).map(|_| any_count(&mut random)).collect();
        assert!(limited.iter().all(|kind| has_limit(*kind)));
        for kind in LIMITED {
            let drawn = limited.iter().filter(|limited| **limited == kind).count();
            assert!((900..=1_100).contains(&drawn), "{drawn} of kind {kind}");
        }
    }

    #[test]
    fn planned_jobs_have_loads_that_are_full_and_loads_that_are_not() {
        let mut random = Random::new(17);
        let mut met = BTreeSet::new();
        for _ in 0..200 {
            let job = planned_job(&mut random, Form::First, 4, 4, 7);
            let plan = first_plan(&job, &[]).expect("has a plan");
            let loads = job.rules.iter().filter(|rule| rule.kind == MAX_LOAD);
            met.extend(loads.map(|rule| (rule.level, figure(&job, rule, &plan) < rule.limit.into())));
        }
        assert_eq!(met.len(), 6, "{met:?}");
    }

    #[test]
    fn planned_jobs_have_a_plan_however_many_rules() {
        let mut random = Random::new(6);
        for rules in [0, 1, 7, MOST_RULES] {
            for (people, steps) in [(1, 2), (6, 5), (MOST_PEOPLE, 2), (2, MOST_STEPS)] {
                let jobs = Form::ALL.map(|form| planned_job(&mut random, form, people, steps, rules));
                for job in [planned_skipping_job(&mut random, people, steps, rules)].into_iter().chain(jobs) {
                    assert_eq!((job.people.len(), job.steps.len(), job.rules.len()), (people, steps, rules));
                    assert_eq!(read(&lay(&job).bytes).as_ref(), Ok(&job));
                    assert!(first_plan(&job, &[]).is_some());
                }
            }
        }
    }

    #[test]
    fn the_last_rule_alone_can_be_broken() {
        let mut random = Random::new(3);
        for _ in 0..200 {
            let job = last_rule_job(&mut random);
            let (_, before) = job.rules.split_last().expect("there is a rule");
            let free = Job { rules: vec![], ..job.clone() };
            assert!(all_plans(&free).iter().all(|plan| before.iter().all(|rule| is_met(&job, rule, plan))));
        }
    }

    #[test]
    fn no_plan_but_the_last_can_be_valid() {
        let mut random = Random::new(5);
        let jobs: Vec<Job> = (0..50).map(|_| last_plan_job(&mut random)).collect();
        let last = |job: &Job| plan_by(job, repeat(job.people.len() - 1));
        let (with, without): (Vec<_>, Vec<_>) =
            jobs.iter().map(|job| (job, all_plans(job))).partition(|(_, plans)| !plans.is_empty());
        assert!(with.iter().all(|(job, plans)| *plans == [last(job)]));
        assert!(!with.is_empty() && !without.is_empty());
    }

    /// How many of its steps are skipped, in a word.
    fn skipped(job: &Job) -> &'static str {
        match (job.steps.len() - job.remaining().count(), job.steps.len()) {
            (0, _) => "none",
            (skipped, steps) if skipped == steps => "all",
            (1, _) => "one",
            _ => "several",
        }
    }

    #[test]
    fn steps_are_skipped_in_a_part_of_the_jobs() {
        let mut random = Random::new(10);
        let jobs: [fn(&mut Random) -> Job; 5] =
            [good_job, small_job, lopsided_job, tried_job, |random| with_rules(random, 3)];
        for draw in jobs {
            let met: Vec<&str> = (0..600).map(|_| skipped(&draw(&mut random))).collect();
            let times = |word| met.iter().filter(|&&found| found == word).count();
            assert!(["one", "several", "all"].iter().all(|&word| times(word) > 10), "{met:?}");
            assert!(times("none") > 200, "{met:?}");
        }
    }

    #[test]
    fn every_level_of_every_form_is_named_by_a_rule() {
        let mut random = Random::new(13);
        let jobs: [fn(&mut Random) -> Job; 6] =
            [good_job, small_job, lopsided_job, tried_job, last_rule_job, |random| with_rules(random, 3)];
        for draw in jobs {
            let drawn: Vec<Job> = (0..1_000).map(|_| draw(&mut random)).collect();
            let named = drawn.iter().flat_map(|job| job.rules.iter().map(|rule| (job.form.to_string(), rule.level)));
            let expected = Form::ALL
                .into_iter()
                .flat_map(|form| (1..=form.person_level()).map(move |level| (form.to_string(), level)));
            assert_eq!(named.collect::<BTreeSet<_>>(), expected.collect());
        }
    }

    #[test]
    fn small_jobs_have_every_spare_count() {
        let mut random = Random::new(4);
        let counts: BTreeSet<_> = (0..2_000).map(|_| spare(&small_job(&mut random), 3).map(|s| s.count)).collect();
        assert_eq!(counts.into_iter().collect::<Vec<_>>(), [None, Some(0), Some(1), Some(2), Some(3)]);
    }
}
