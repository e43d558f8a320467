//! Sheets of version 2, and what was worked out for them by hand: W with one, two and three class levels, a rule at each level of
//! each, and those with skipped steps and with rules of kind 5 in every form that has the same plans.

use crate::by_hand::{planned, Planned, Sheet};
use crate::{loads, skipped};
use model::builder::{job_w_in, person_in, rule, skipping, step};
use model::forms::in_version_2;
use model::job::{Form, Job, Rule, AT_LEAST, DIFFERENT, MOST_CLASS_LEVELS, SAME};

/// Version 2 with so many class levels.
pub fn second(class_levels: u8) -> Form {
    Form::Second { class_levels }
}

/// Each number of class levels that there may be.
pub fn each_number() -> impl Iterator<Item = u8> {
    1..=MOST_CLASS_LEVELS as u8
}

pub fn all() -> Vec<Sheet> {
    let mut sheets: Vec<Sheet> = each_number().flat_map(of_w).collect();
    sheets.extend(of_pairs());
    sheets.extend(each_number().flat_map(of_each_level));
    sheets
}

fn sheet(name: &str, job: Job, planned: Option<Planned>) -> Sheet {
    let levels = job.form.class_levels();
    Sheet { name: format!("levels {levels}, {name}"), remaining: job.remaining().count(), job, planned }
}

/// W whole, with a step skipped and with all.
fn of_w(levels: u8) -> Vec<Sheet> {
    let w = || job_w_in(second(levels));
    let whole = planned(&[(10, 101), (20, 101), (30, 102)], 1, &[101, 102], &[1, 1, 2]);
    let first = planned(&[(20, 101), (30, 102)], 1, &[101, 102], &[1, 1, 2]);
    vec![
        sheet("W", w(), whole),
        sheet("W, step 10 skipped", skipping(w(), [0]), first),
        sheet("W, all steps skipped", skipping(w(), 0..3), planned(&[], 2, &[], &[0, 0, 0])),
    ]
}

/// W with pairs: 101 and 102 are of one bench and of two pairs.
fn of_pairs() -> Vec<Sheet> {
    let w = |name: &str, more: Rule, planned| {
        let mut job = job_w_in(second(3));
        job.rules.push(more);
        sheet(&format!("W and {name}"), job, planned)
    };
    let two = planned(&[(10, 101), (20, 102), (30, 101)], 0, &[101], &[1, 1, 2, 2]);
    let three = planned(&[(10, 101), (20, 102), (30, 103)], 0, &[101], &[1, 1, 2, 3]);
    let one_bench = planned(&[(10, 101), (20, 101), (30, 102)], 0, &[101], &[1, 1, 2, 1]);
    vec![
        w("10 and 20 by different pairs", rule(DIFFERENT, 3, 0, 3), two),
        w("all by three pairs", rule(AT_LEAST, 3, 3, 7), three),
        w("20 and 30 by one pair", rule(SAME, 3, 0, 6), None),
        w("20 and 30 at one bench", rule(SAME, 2, 0, 6), one_bench),
    ]
}

/// Five people, each farther from the first than the one before: in one pair with them, at one bench, in one shop, in another.
const CLASSES: [[u16; MOST_CLASS_LEVELS]; 5] = [[1, 1, 1], [1, 1, 1], [1, 1, 2], [1, 2, 3], [2, 3, 4]];

/// These people with as many class levels as there are, in this order, and steps 10 and 20.
fn five(levels: u8, order: [usize; 5], rule: Rule) -> Job {
    let held = |at: usize| person_in(101 + at as u32, &CLASSES[at][..levels.into()], 3);
    Job { form: second(levels), people: order.map(held).into(), steps: [10, 20].map(step).into(), rules: vec![rule] }
}

/// Two steps by different classes of a level, and by one class of it: at each level somebody else is the first who will do.
fn of_each_level(levels: u8) -> Vec<Sheet> {
    let person_level = levels + 1;
    let mut sheets = vec![];
    for level in 1..=person_level {
        // Where the sheet has fewer class levels, the person comes sooner.
        let depth = if level == person_level { 4 } else { level };
        let apart = five(levels, [0, 1, 2, 3, 4], rule(DIFFERENT, level, 0, 3));
        let second = [105, 104, 103, 102][usize::from(depth) - 1];
        let (count, away): (usize, &[u32]) = match depth {
            1 => (0, &[105]),
            2 => (1, &[104, 105]),
            _ => (2, &[]),
        };
        let two = planned(&[(10, 101), (20, second)], count, away, &[2]);
        sheets.push(sheet(&format!("two classes of level {level}"), apart, two));

        // The farthest come first, and 102 alone may do step 10.
        let mut together = five(levels, [4, 3, 2, 0, 1], rule(SAME, level, 0, 3));
        together.people[..4].iter_mut().for_each(|person| person.permitted = 2);
        let second = [104, 103, 101, 102][usize::from(depth) - 1];
        let one = planned(&[(10, 102), (20, second)], 0, &[102], &[1]);
        sheets.push(sheet(&format!("one class of level {level}"), together, one));
    }
    sheets
}

/// The version 1 sheet in every form of version 2 that has the same plans.
fn variants(held: Sheet) -> impl Iterator<Item = Sheet> {
    let Sheet { name, job, remaining, planned } = held;
    let named = move |variant: &str| format!("{name}, {variant}");
    in_version_2(&job).into_iter().map(move |variant| Sheet {
        name: named(variant.name),
        job: variant.job,
        remaining,
        planned: planned.clone(),
    })
}

pub fn of_skipped() -> Vec<Sheet> {
    skipped::all().into_iter().flat_map(variants).collect()
}

pub fn of_loads() -> Vec<Sheet> {
    loads::of_version_1().into_iter().flat_map(variants).collect()
}

#[cfg(test)]
mod tests {
    use super::*;

    #[test]
    fn every_form_of_version_2_is_among_those_with_skipped_steps_and_those_with_loads() {
        for (sheets, least) in [(of_skipped(), 15), (of_loads(), 10)] {
            let of_form = |levels| sheets.iter().filter(move |sheet| sheet.job.form == second(levels)).count();
            assert!(each_number().all(|levels| of_form(levels) > least));
        }
    }
}
