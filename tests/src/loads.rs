//! Sheets with rules of kind 5, and what was worked out for them by hand: W with such a rule at each level, four and twelve steps
//! that have to be spread, and each level of each number of class levels.

use crate::by_hand::{planned, Planned, Sheet};
use crate::levels::{each_number, second};
use model::builder::{job_w, person, person_in, plain_job, rule, step};
use model::job::{Job, Rule, BY_BENCH, BY_PERSON, BY_SHOP, MAX_LOAD, MOST_STEPS, SAME};

/// The job without its rules of kind 5 at a level.
pub fn without_loads(job: &Job, level: u8) -> Job {
    let is_kept = |rule: &&Rule| (rule.kind, rule.level) != (MAX_LOAD, level);
    Job { rules: job.rules.iter().filter(is_kept).cloned().collect(), ..job.clone() }
}

/// The levels at which the job has a rule of kind 5.
pub fn load_levels(job: &Job) -> impl Iterator<Item = u8> + '_ {
    let has_load = |level: u8| job.rules.iter().any(|rule| (rule.kind, rule.level) == (MAX_LOAD, level));
    (1..=job.form.person_level()).filter(move |level| has_load(*level))
}

pub fn all() -> Vec<Sheet> {
    let mut sheets = of_version_1();
    sheets.extend(each_number().flat_map(of_each_level));
    sheets
}

pub fn of_version_1() -> Vec<Sheet> {
    let mut sheets = of_w();
    sheets.extend(of_four_steps());
    sheets.extend(of_twelve_steps());
    sheets
}

fn sheet(name: &str, job: Job, planned: Option<Planned>) -> Sheet {
    Sheet { name: format!("loads, {name}"), remaining: job.remaining().count(), job, planned }
}

/// In W 10 and 20 are done at one bench, 20 and 30 in one shop: 101 and 102 are at bench 1 of shop 1, 103 at bench 2 of it.
fn of_w() -> Vec<Sheet> {
    let w = |level, limit, planned| {
        let mut job = job_w();
        job.rules.push(rule(MAX_LOAD, level, limit, 7));
        sheet(&format!("W and {MAX_LOAD},{level},{limit},7"), job, planned)
    };
    let crew = |second, third| [(10, 101), (20, second), (30, third)];
    vec![
        w(BY_PERSON, 1, planned(&crew(102, 103), 0, &[101], &[1, 1, 2, 1])),
        w(BY_PERSON, 2, planned(&crew(101, 102), 1, &[101, 102], &[1, 1, 2, 2])),
        w(BY_BENCH, 1, None),
        w(BY_BENCH, 2, planned(&crew(101, 103), 0, &[103], &[1, 1, 2, 2])),
        w(BY_BENCH, 3, planned(&crew(101, 102), 1, &[101, 102], &[1, 1, 2, 3])),
        w(BY_SHOP, 2, None),
        w(BY_SHOP, 3, planned(&crew(101, 102), 1, &[101, 102], &[1, 1, 2, 3])),
    ]
}

const TAGS: [u32; 4] = [10, 20, 30, 40];

/// Four steps that all may do. 101 and 102 share a bench, 103 is at another of the same shop, 104 is in another shop.
fn of_four_steps() -> Vec<Sheet> {
    let house = |name: &str, rules: &[Rule], planned| {
        let people = vec![person(101, 1, 1, 15), person(102, 1, 1, 15), person(103, 1, 2, 15), person(104, 2, 3, 15)];
        sheet(name, Job { people, steps: TAGS.map(step).into(), rules: rules.to_vec(), ..Job::default() }, planned)
    };
    let load = |level, limit| rule(MAX_LOAD, level, limit, 0b1111);
    let crew = |people: [u32; 4]| Vec::from_iter(TAGS.into_iter().zip(people));
    let ends = [rule(SAME, BY_PERSON, 0, 0b1001), load(BY_BENCH, 2)];
    let shops_too = [load(BY_BENCH, 2), load(BY_SHOP, 3)];
    vec![
        house("one a bench", &[load(BY_BENCH, 1)], None),
        house("two a bench", &[load(BY_BENCH, 2)], planned(&crew([101, 101, 103, 103]), 1, &[103, 104], &[2])),
        house("three a bench", &[load(BY_BENCH, 3)], planned(&crew([101, 101, 101, 103]), 1, &[103, 104], &[3])),
        house("two a shop", &[load(BY_SHOP, 2)], planned(&crew([101, 101, 104, 104]), 0, &[104], &[2])),
        house("four a shop", &[load(BY_SHOP, 4)], planned(&crew([101; 4]), 2, &[], &[4])),
        house("one a person", &[load(BY_PERSON, 1)], planned(&crew([101, 102, 103, 104]), 0, &[101], &[1])),
        house("two a person", &[load(BY_PERSON, 2)], planned(&crew([101, 101, 102, 102]), 2, &[], &[2])),
        house("two a bench, three a shop", &shops_too, planned(&crew([101, 101, 103, 104]), 0, &[104], &[2, 3])),
        house("two a bench, ends by one", &ends, planned(&crew([101, 103, 103, 101]), 1, &[103, 104], &[1, 2])),
        house(
            "two steps in scope",
            &[rule(MAX_LOAD, BY_PERSON, 1, 0b0101)],
            planned(&crew([101, 101, 102, 101]), 2, &[], &[1]),
        ),
    ]
}

/// Twelve steps for two people at two benches.
fn of_twelve_steps() -> Vec<Sheet> {
    let twelve = |name: &str, limit, planned| {
        let rules = vec![rule(MAX_LOAD, BY_BENCH, limit, (1 << MOST_STEPS) - 1)];
        sheet(name, Job { rules, ..plain_job(2, MOST_STEPS, 0) }, planned)
    };
    let crew = |first: usize| {
        let given = |at: usize| (2_001 + at as u32, if at < first { 1_001 } else { 1_002 });
        Vec::from_iter((0..MOST_STEPS).map(given))
    };
    vec![
        twelve("five of 12 steps a bench", 5, None),
        twelve("six of 12 steps a bench", 6, planned(&crew(6), 0, &[1_001], &[6])),
        twelve("eleven of 12 steps a bench", 11, planned(&crew(11), 0, &[1_001], &[11])),
        twelve("12 of 12 steps a bench", 12, planned(&crew(12), 1, &[1_001, 1_002], &[12])),
    ]
}

/// Five people, 101 to 105: 101 and 102 are a pair, 103 is at their bench, 104 in their shop, 105 in another. Four steps, one and
/// two of them for each class of a level.
fn of_each_level(levels: u8) -> Vec<Sheet> {
    let classes: [[u16; 3]; 5] = [[1, 1, 1], [1, 1, 1], [1, 1, 2], [1, 2, 3], [2, 3, 4]];
    let person_level = levels + 1;
    let mut sheets = vec![];
    for level in 1..=person_level {
        let five = |limit: u8, planned| {
            let held = |(tag, class): (u32, &[u16; 3])| person_in(tag, &class[..levels.into()], 15);
            let job = Job {
                form: second(levels),
                people: (101..).zip(&classes).map(held).collect(),
                steps: TAGS.map(step).into(),
                rules: vec![rule(MAX_LOAD, level, limit, 15)],
            };
            sheet(&format!("{levels} levels, {limit} for a class of level {level}"), job, planned)
        };
        // Where the sheet has fewer class levels, the person comes sooner.
        let depth = if level == person_level { 4 } else { level };
        let crew = |people: [u32; 4]| Vec::from_iter(TAGS.into_iter().zip(people));
        sheets.push(match depth {
            1 => five(2, planned(&crew([101, 101, 105, 105]), 0, &[105], &[2])),
            2 => five(2, planned(&crew([101, 101, 104, 104]), 1, &[104, 105], &[2])),
            3 => five(1, planned(&crew([101, 103, 104, 105]), 0, &[103], &[1])),
            _ => five(1, planned(&crew([101, 102, 103, 104]), 1, &[101, 102], &[1])),
        });
    }
    sheets
}

#[cfg(test)]
mod tests {
    use super::*;

    #[test]
    fn rules_of_kind_5_are_left_out_level_by_level() {
        let mut job = job_w();
        job.rules.extend([(BY_BENCH, 2), (BY_PERSON, 3)].map(|(level, limit)| rule(MAX_LOAD, level, limit, 7)));
        assert_eq!(load_levels(&job).collect::<Vec<_>>(), [BY_BENCH, BY_PERSON]);
        assert_eq!(load_levels(&job_w()).next(), None);
        let without = |job: &Job, level| without_loads(job, level);
        assert_eq!(without(&job, BY_SHOP), job);
        assert_eq!(without(&job, BY_BENCH).rules[..], [&job_w().rules[..], &job.rules[4..]].concat());
        assert_eq!(without(&without(&job, BY_BENCH), BY_PERSON), job_w());
    }
}
