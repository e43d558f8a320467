//! "No class of the level holds more than the limit of the steps in scope": kind 5, worked out by hand.

use model::builder::{job_w, lay, person, person_in, plain_job, rule, skipping, step};
use model::job::{Form, Job, Rule, BY_BENCH, BY_PERSON, BY_SHOP, DIFFERENT, MAX_LOAD};
use model::plans::{all_plans, count, figure, first_plan, is_met, is_valid, largest_load, plan_by, spare, Spare};
use model::reader::read;
use model::refusal::{refuse, BAD_FIELD};
use model::trial::{verdict, Verdict};

/// Four steps that all may do. 1 and 2 share a bench, 3 is at another of the same shop, 4 is in another shop.
fn house(rules: Vec<Rule>) -> Job {
    let people = vec![person(1, 1, 1, 15), person(2, 1, 1, 15), person(3, 1, 2, 15), person(4, 2, 3, 15)];
    Job { people, steps: [10, 20, 30, 40].map(step).into(), rules, ..Job::default() }
}

fn load(level: u8, limit: u8) -> Rule {
    rule(MAX_LOAD, level, limit, 0b1111)
}

/// The figures of one rule by shop, bench and person.
fn figures(job: &Job, people: &[usize]) -> [usize; 3] {
    let plan = plan_by(job, people.iter().copied());
    [BY_SHOP, BY_BENCH, BY_PERSON].map(|level| figure(job, &load(level, 4), &plan))
}

#[test]
fn three_and_one_are_too_many_for_two_and_two_and_two_are_not() {
    let job = house(vec![load(BY_BENCH, 2)]);
    for (people, held) in [([0, 1, 0, 3], 3), ([0, 2, 0, 1], 3), ([3, 3, 3, 0], 3), ([1, 1, 1, 1], 4)] {
        let plan = plan_by(&job, people);
        assert_eq!((figure(&job, &job.rules[0], &plan), is_valid(&job, &plan)), (held, false), "{people:?}");
    }
    for people in [[0, 1, 2, 3], [0, 0, 2, 2], [0, 1, 3, 3], [0, 2, 1, 2]] {
        let plan = plan_by(&job, people);
        assert_eq!((figure(&job, &job.rules[0], &plan), is_valid(&job, &plan)), (2, true), "{people:?}");
    }
    assert_eq!(first_plan(&job, &[]), Some(plan_by(&job, [0, 0, 2, 2])));
}

#[test]
fn a_load_is_of_a_class_of_the_level() {
    let job = house(vec![]);
    assert_eq!(figures(&job, &[0, 1, 2, 3]), [3, 2, 1]);
    assert_eq!(figures(&job, &[0, 0, 0, 0]), [4, 4, 4]);
    assert_eq!(figures(&job, &[3, 3, 0, 1]), [2, 2, 2]);
    assert_eq!(figures(&job, &[2, 0, 2, 1]), [4, 2, 2]);
    // The number of classes, beside the largest load.
    let plan = plan_by(&job, [2, 0, 2, 1]);
    assert_eq!((count(&job, &load(BY_BENCH, 4), &plan), largest_load(&job, &load(BY_BENCH, 4), &plan)), (2, 2));
    assert_eq!((count(&job, &load(BY_SHOP, 4), &plan), largest_load(&job, &load(BY_SHOP, 4), &plan)), (1, 4));
}

#[test]
fn only_the_steps_in_scope_count() {
    let job = house(vec![rule(MAX_LOAD, BY_PERSON, 1, 0b0101)]);
    assert!(is_valid(&job, &plan_by(&job, [0, 1, 1, 1])));
    assert!(is_valid(&job, &plan_by(&job, [0, 0, 1, 0])));
    assert!(!is_valid(&job, &plan_by(&job, [0, 1, 0, 2])));
}

#[test]
fn skipped_steps_do_not_count_and_the_limit_stays() {
    let job = skipping(house(vec![load(BY_BENCH, 2)]), [1]);
    assert_eq!(figures(&job, &[0, 1, 0]), [3, 3, 2]);
    assert!(!is_valid(&job, &plan_by(&job, [0, 1, 0])));
    assert_eq!(first_plan(&job, &[]), Some(plan_by(&job, [0, 0, 2])));
    // Two steps are left, and one bench may hold both.
    let two = skipping(job, [3]);
    assert_eq!(figures(&two, &[0, 1]), [2, 2, 1]);
    assert_eq!(first_plan(&two, &[]), Some(plan_by(&two, [0, 0])));
}

#[test]
fn the_figure_is_0_where_no_step_is_left() {
    let job = skipping(house(vec![load(BY_BENCH, 1), rule(MAX_LOAD, BY_PERSON, 1, 0b0011)]), [0, 1]);
    let plan = plan_by(&job, [0, 2]);
    assert_eq!([0, 1].map(|at| figure(&job, &job.rules[at], &plan)), [1, 0]);
    assert!(is_valid(&job, &plan));
    let none = skipping(job, 0..4);
    assert_eq!(figures(&none, &[]), [0, 0, 0]);
    assert_eq!(spare(&none, 3), Some(Spare { count: 3, away: vec![] }));
}

#[test]
fn with_limit_1_all_are_different() {
    for level in [BY_SHOP, BY_BENCH, BY_PERSON] {
        let pairs = (0..4).flat_map(|b| (0..b).map(move |a| rule(DIFFERENT, level, 0, 1 << a | 1 << b)));
        let (apart, one) = (house(pairs.collect()), house(vec![load(level, 1)]));
        assert_eq!(all_plans(&one), all_plans(&apart), "level {level}");
    }
    assert_eq!(all_plans(&house(vec![load(BY_PERSON, 1)])).len(), 24);
    assert_eq!(first_plan(&house(vec![load(BY_BENCH, 1)]), &[]), None);
}

#[test]
fn with_all_steps_for_a_limit_every_plan_meets_it() {
    let job = house(vec![load(BY_SHOP, 4)]);
    assert_eq!(all_plans(&job), all_plans(&house(vec![])));
    assert_ne!(all_plans(&house(vec![load(BY_SHOP, 3)])), all_plans(&job));
}

#[test]
fn whoever_stays_away_leaves_their_load_to_the_others() {
    // Two shops, two steps each: the only one of the second shop cannot be missed.
    let job = house(vec![load(BY_SHOP, 2)]);
    assert_eq!(spare(&job, 2), Some(Spare { count: 0, away: vec![3] }));
    let job = house(vec![load(BY_PERSON, 2)]);
    assert_eq!(spare(&job, 3), Some(Spare { count: 2, away: vec![0, 1, 2] }));
}

#[test]
fn the_levels_are_those_of_the_sheet() {
    // Two shops, three benches, four pairs, five people; where levels are missing, the last of them are.
    let classes: [[u16; 3]; 5] = [[1, 1, 1], [1, 1, 1], [1, 1, 2], [1, 2, 3], [2, 3, 4]];
    for (class_levels, expected) in [(1, vec![4, 1]), (2, vec![4, 3, 1]), (3, vec![4, 3, 2, 1])] {
        let form = Form::Second { class_levels };
        let held = |(class, tag): (&[u16; 3], u32)| person_in(tag, &class[..class_levels.into()], 31);
        let people: Vec<_> = classes.iter().zip(1..).map(held).collect();
        let mut job = Job { form, people, ..plain_job(1, 5, 0) };
        let plan = plan_by(&job, 0..5);
        for (level, &largest) in (1..=form.person_level()).zip(&expected) {
            let load = |limit| rule(MAX_LOAD, level, limit, 31);
            assert_eq!(figure(&job, &load(5), &plan), largest, "{form}, level {level}");
            assert!(is_met(&job, &load(largest as u8), &plan), "{form}, level {level}");
            assert!(largest == 1 || !is_met(&job, &load(largest as u8 - 1), &plan), "{form}, level {level}");
            job.rules = vec![load(1)];
            let has_five = level == form.person_level();
            assert_eq!(first_plan(&job, &[]), has_five.then(|| plan.clone()), "{form}, level {level}");
        }
    }
}

#[test]
fn a_load_is_named_by_the_plan_that_breaks_it() {
    let job = house(vec![load(BY_SHOP, 4), load(BY_BENCH, 2)]);
    assert_eq!(verdict(&job, &plan_by(&job, [0, 1, 0, 3])), Verdict::Breaks { rule: 1 });
    assert_eq!(verdict(&job, &plan_by(&job, [0, 1, 2, 3])), Verdict::Valid);
}

#[test]
fn limits_are_checked_against_the_scope_on_the_card() {
    let with = |kind, limit, scope| {
        let mut job = skipping(job_w(), [0, 1]);
        job.rules[1] = rule(kind, BY_BENCH, limit, scope);
        job
    };
    let answer = |job: &Job| read(&lay(job).bytes);
    for (limit, scope) in [(1, 3), (2, 3), (1, 7), (3, 7)] {
        let job = with(MAX_LOAD, limit, scope);
        assert_eq!(answer(&job), Ok(job.clone()), "{limit} of {scope}");
    }
    for (limit, scope) in [(0, 3), (3, 3), (4, 7), (255, 7), (0, 0), (1, 0), (1, 4), (1, 9)] {
        assert_eq!(answer(&with(MAX_LOAD, limit, scope)), refuse(BAD_FIELD, 9), "{limit} of {scope}");
    }
    for (kind, limit) in (6..=255).chain([0]).flat_map(|kind| [0, 1, 2].map(|limit| (kind, limit))) {
        assert_eq!(answer(&with(kind, limit, 6)), refuse(BAD_FIELD, 9), "kind {kind}, limit {limit}");
    }
}
