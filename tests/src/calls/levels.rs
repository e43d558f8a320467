//! Sheets of version 2 through the calls that plan: each refusal, areas and caps, with one, two and three class levels.

use super::{by_one, crew, refused, spare, trial, Trial, SPARE_ROOM, W_CREW};
use crate::levels::{each_number, second};
use model::answers::{crew_bytes, spare_bytes, Call, MOST_CAP};
use model::builder::{job_w_in, lay, plain_in, rule, sheet_w_in, Draft};
use model::job::AT_MOST;

pub fn trials() -> Vec<Trial> {
    let of_number = |levels| [refusals(levels), areas(levels), caps(levels), sizes(levels)].concat();
    each_number().flat_map(of_number).collect()
}

fn w(levels: u8) -> Draft {
    sheet_w_in(second(levels))
}

fn name(levels: u8, what: &str) -> String {
    format!("levels {levels}, {what}")
}

/// W and a rule that asks for one person in all.
fn without_a_plan(levels: u8) -> Draft {
    let mut job = job_w_in(second(levels));
    job.rules.push(rule(AT_MOST, levels + 1, 1, 7));
    lay(&job)
}

fn refusals(levels: u8) -> Vec<Trial> {
    let w = || w(levels);
    let mut faults = vec![
        ("length 24", w().cut(24), 3, 0),
        ("no class levels", w().byte(0, 12, 0), 4, 0),
        ("four class levels", w().byte(0, 12, 4), 4, 0),
        ("version 1 with class levels", w().byte(0, 1, 1), 4, 0),
        ("version 3", w().byte(0, 1, 3), 4, 0),
        ("header byte 13", w().byte(0, 13, 1), 4, 0),
        ("next of card 3 is 11", w().next(3, 11), 5, 3),
        ("card 3 is next to itself", w().next(3, 3), 6, 3),
        ("people run into step card 5", w().next(4, 5), 7, 5),
        ("a class that is 0", w().class(3, levels, 0), 8, 3),
        ("a rule beyond the person", w().byte(9, 4, levels + 2), 8, 9),
        ("65 people", plain_in(second(levels), 65, 1, 0), 9, 65),
        ("a tag on two people", w().long(4, 4, 101), 10, 4),
        ("a loose card", w().first_rule(9), 12, 8),
        ("no plan", without_a_plan(levels), 13, 0),
    ];
    if levels > 1 {
        faults.push(("a class of the last level in two", w().class(2, levels, 1).class(2, levels - 1, 9), 11, 2));
    }
    if levels < 3 {
        faults.push(("a class too many", w().class(3, levels + 1, 1), 8, 3));
    }
    faults
        .into_iter()
        .flat_map(|(what, sheet, number, card)| refused(&name(levels, what), &sheet, number, card))
        .collect()
}

fn areas(levels: u8) -> Vec<Trial> {
    let (w, none, two) = (w(levels), without_a_plan(levels), Call::Spare { cap: 2 });
    let asked = |what: &str, call, sheet: &Draft, room, outcome| trial(&name(levels, what), call, sheet, room, outcome);
    vec![
        asked("W with 23 bytes", Call::Crew, &w, 23, Err(256)),
        asked("W with 24 bytes", Call::Crew, &w, 24, Ok(crew_bytes(&W_CREW))),
        asked("W with 15 bytes", two, &w, 15, Err(256)),
        asked("W with 16 bytes", two, &w, 16, Ok(spare_bytes(1, &[101, 102]))),
        asked("room before no plan", Call::Crew, &none, 23, Err(256)),
        asked("room before no plan", two, &none, 15, Err(256)),
    ]
}

fn caps(levels: u8) -> Vec<Trial> {
    let what = name(levels, "caps");
    let mut trials: Vec<Trial> = (2..=MOST_CAP).map(|cap| spare(&what, &w(levels), cap, 1, &[101, 102])).collect();
    trials.extend([spare(&what, &w(levels), 0, 0, &[]), spare(&what, &w(levels), 1, 1, &[])]);
    trials.push(trial(&what, Call::Spare { cap: 4 }, &w(levels).byte(0, 12, 0), SPARE_ROOM, Err(2 * 256)));
    trials
}

fn sizes(levels: u8) -> Vec<Trial> {
    let plain = |people, steps, rules| plain_in(second(levels), people, steps, rules);
    vec![
        crew(&name(levels, "64 people"), &plain(64, 1, 0), &by_one(1)),
        spare(&name(levels, "64 people"), &plain(64, 1, 0), 3, 3, &[]),
        crew(&name(levels, "12 steps"), &plain(1, 12, 0), &by_one(12)),
        crew(&name(levels, "64 rules"), &plain(1, 2, 64), &by_one(2)),
    ]
}
