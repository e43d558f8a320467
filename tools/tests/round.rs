//! Text and cards, there and back.

use model::builder::{job_w_in, lay, one_by_one, person, rule, sheet_w, shorter_w, skipped_w, step, w_and, Draft};
use model::garble::sample;
use model::job::{Form, Job, BY_BENCH, DIFFERENT, MAX_LOAD};
use model::jobs::{good_job, laid};
use model::listing::listing;
use model::random::Random;
use model::reader::read;
use sheet::pack::pack;
use sheet::show::{show, text};

fn w_with(class_levels: u8) -> Job {
    job_w_in(Form::Second { class_levels })
}

/// The first two steps by different pairs of one bench.
fn w_with_pairs() -> Job {
    let mut job = w_with(3);
    job.rules.push(rule(DIFFERENT, 3, 0, 3));
    job
}

/// Four steps that all may do, at most two of them at one bench.
fn spread() -> Job {
    let people = vec![person(101, 1, 1, 15), person(102, 1, 1, 15), person(103, 1, 2, 15), person(104, 2, 3, 15)];
    let rules = vec![rule(MAX_LOAD, BY_BENCH, 2, 15)];
    Job { people, steps: [10, 20, 30, 40].map(step).into(), rules, ..Job::default() }
}

fn examples() -> [(&'static str, Draft); 13] {
    [
        (include_str!("../examples/w.txt"), sheet_w()),
        (include_str!("../examples/trial-3.txt"), sheet_w().word(3, 12, 0)),
        (include_str!("../examples/trial-4.txt"), w_and(2, 1, 0, 6)),
        (include_str!("../examples/trial-5.txt"), w_and(4, 3, 3, 7)),
        (include_str!("../examples/trial-6.txt"), w_and(3, 3, 1, 7)),
        (include_str!("../examples/trial-7.txt"), one_by_one(1)),
        (include_str!("../examples/trial-8.txt"), one_by_one(0)),
        (include_str!("../examples/trial-9.txt"), shorter_w()),
        (include_str!("../examples/skipped.txt"), sheet_w().skip(5)),
        (include_str!("../examples/all-skipped.txt"), skipped_w()),
        (include_str!("../examples/shops.txt"), lay(&w_with(1))),
        (include_str!("../examples/pairs.txt"), lay(&w_with_pairs())),
        (include_str!("../examples/spread.txt"), lay(&spread())),
    ]
}

#[test]
fn the_examples_pack_to_their_sheets() {
    for (text, sheet) in examples() {
        assert_eq!(pack(text), Ok(sheet.bytes), "{text}");
    }
}

#[test]
fn the_examples_are_shown_as_they_are_written() {
    for (text, sheet) in examples() {
        let spoken: String =
            text.lines().filter(|line| !line.starts_with('#')).map(|line| format!("{line}\n")).collect();
        assert_eq!(show(&sheet.bytes), Ok(spoken));
    }
}

#[test]
fn what_is_shown_packs_to_the_same_job() {
    let mut random = Random::new(9);
    let (mut skipped, mut loads) = (0, 0);
    let mut met = vec![];
    for _ in 0..2_000 {
        let job = good_job(&mut random);
        met.push(job.form);
        skipped += job.steps.iter().filter(|step| step.skipped).count();
        loads += job.rules.iter().filter(|rule| rule.kind == MAX_LOAD).count();
        let shown = show(&laid(&mut random, &job).bytes).expect("a good sheet");
        assert_eq!(shown, text(&job));
        assert_eq!(pack(&shown), Ok(lay(&job).bytes));
    }
    assert!(skipped > 0 && loads > 0);
    assert!(Form::ALL.iter().all(|form| met.contains(form)));
}

#[test]
fn the_spread_crew_is_the_one_that_its_comment_names() {
    let lines = listing(&lay(&spread()).bytes).expect("a small job");
    assert_eq!(lines, "PLAN 4\n10 101\n20 101\n30 103\n40 103\nSPARE 1 OF 2\nAWAY 103 104\nRULE 5 2 2 2\n");
}

#[test]
fn damaged_sheets_are_refused_as_by_the_reader() {
    assert_eq!(show(&sheet_w().byte(6, 15, 1).bytes).map_err(|r| (r.number, r.card)), Err((8, 6)));
    let mut random = Random::new(10);
    for _ in 0..5_000 {
        let sheet = sample(&mut random).sheet;
        assert_eq!(show(&sheet).err(), read(&sheet).err());
    }
}
