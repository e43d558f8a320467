//! The library on jobs under work, by sheet W: a day, skipped steps, other levels, openings, damaged memory, copies and threads.

use model::answers::{Call, MOST_CREW_BYTES};
use model::builder::{job_w_in, lay, plain, rule, sheet_w, sheet_w_in, shorter_w, skipped_w, Draft};
use model::card::MOST_BYTES;
use model::job::{Form, DIFFERENT, MOST_STEPS};
use model::library::{open, refusals, run, sign};
use model::signing::{self, Work};
use sheet_tests::calls;
use sheet_tests::numbers::{GRANTED, REFUSED, SIGNED, UNKNOWN};
use std::thread;

fn opened(sheet: Draft) -> Work {
    let mut work = Work::NEW;
    assert_eq!(open(&mut work, &sheet.bytes), 0);
    work
}

fn w() -> Work {
    opened(sheet_w())
}

/// With a signing and a refusal.
fn used(sheet: Draft) -> Work {
    let mut work = opened(sheet);
    assert_eq!(sign(&mut work, 20, 101), GRANTED);
    assert_eq!(sign(&mut work, 20, 101), SIGNED);
    work
}

/// Signings, each with what it returns.
fn go_through(work: &mut Work, day: &[(u32, u32, u32)]) {
    for &(step, person, number) in day {
        assert_eq!(sign(work, step, person), number, "step {step}, person {person}");
    }
}

fn used_w() -> Work {
    used(sheet_w())
}

/// Memory that no call has made.
fn noise() -> Work {
    Work { refusals: 77, sheet_len: u32::MAX, sheet: [0xA5; MOST_BYTES], signer: [0x5A; MOST_STEPS] }
}

#[test]
fn a_day_on_w_goes_as_stated() {
    let mut work = w();
    let day = [
        (30, 104, REFUSED),
        (30, 102, GRANTED),
        (20, 102, REFUSED),
        (20, 103, REFUSED),
        (30, 102, SIGNED),
        (30, 103, SIGNED),
        (30, 104, SIGNED),
        (30, 105, UNKNOWN),
        (30, 0, UNKNOWN),
        (40, 101, UNKNOWN),
        (0, 101, UNKNOWN),
        (101, 10, UNKNOWN),
        (20, 101, GRANTED),
        (20, 103, SIGNED),
        (10, 103, REFUSED),
        (10, 102, GRANTED),
        (10, 101, SIGNED),
    ];
    go_through(&mut work, &day);
    assert_eq!(work, Work { refusals: 14, signer: [2, 1, 2, 0, 0, 0, 0, 0, 0, 0, 0, 0], ..w() });
    assert_eq!(refusals(&work), 14);
}

#[test]
fn a_day_on_w_with_a_skipped_step_goes_as_stated() {
    let sheet = sheet_w().skip(5);
    let mut work = opened(sheet.clone());
    assert_eq!(work, Work::holding(&sheet.bytes));
    let day = [
        (10, 101, UNKNOWN),
        (10, 103, UNKNOWN),
        (10, 105, UNKNOWN),
        (30, 104, REFUSED),
        (30, 102, GRANTED),
        (10, 102, UNKNOWN),
        (20, 102, REFUSED),
        (30, 103, SIGNED),
        (20, 101, GRANTED),
        (20, 101, SIGNED),
        (10, 101, UNKNOWN),
    ];
    go_through(&mut work, &day);
    // The steps that remain stand one after the other.
    assert_eq!(work, Work { refusals: 9, signer: [1, 2, 0, 0, 0, 0, 0, 0, 0, 0, 0, 0], ..Work::holding(&sheet.bytes) });
}

#[test]
fn on_w_with_all_steps_skipped_every_step_is_unknown() {
    let sheet = skipped_w().bytes;
    let mut work = used_w();
    assert_eq!(open(&mut work, &sheet), 0);
    for (step, person) in [(10, 101), (20, 102), (30, 103), (40, 101), (0, 0)] {
        assert_eq!(sign(&mut work, step, person), UNKNOWN, "step {step}, person {person}");
    }
    assert_eq!(work, Work { refusals: 5, ..Work::holding(&sheet) });
}

/// 101 and 102 are of one bench and of two pairs; 10 and 20 are to be by different pairs.
#[test]
fn a_day_on_w_with_pairs_goes_as_stated() {
    let mut job = job_w_in(Form::Second { class_levels: 3 });
    job.rules.push(rule(DIFFERENT, 3, 0, 3));
    let sheet = lay(&job);
    let mut work = opened(sheet.clone());
    assert_eq!(work, Work::holding(&sheet.bytes));
    let day = [
        (30, 104, REFUSED),
        (30, 101, GRANTED),
        (20, 101, REFUSED),
        (10, 102, REFUSED),
        (10, 103, REFUSED),
        (20, 102, GRANTED),
        (10, 102, REFUSED),
        (10, 101, GRANTED),
        (10, 101, SIGNED),
        (10, 105, UNKNOWN),
    ];
    go_through(&mut work, &day);
    assert_eq!(work, Work { refusals: 7, signer: [1, 2, 1, 0, 0, 0, 0, 0, 0, 0, 0, 0], ..Work::holding(&sheet.bytes) });
}

/// In every form 10 and 20 are by people of one class, 20 and 30 by different people of one shop.
#[test]
fn w_is_signed_alike_in_every_form() {
    for form in Form::ALL {
        let sheet = sheet_w_in(form);
        let mut work = opened(sheet.clone());
        let day = [
            (30, 104, REFUSED),
            (30, 102, GRANTED),
            (20, 102, REFUSED),
            (20, 103, REFUSED),
            (20, 101, GRANTED),
            (10, 103, REFUSED),
            (10, 102, GRANTED),
        ];
        go_through(&mut work, &day);
        assert_eq!((work.refusals, &work.signer[..3]), (4, &[2, 1, 2][..]), "{form}");
    }
}

#[test]
fn an_opening_gives_the_same_job_whatever_was_there() {
    let mut longer = Work::NEW;
    assert_eq!(open(&mut longer, &plain(64, 12, 64).bytes), 0);
    let shorter = shorter_w().bytes;
    for mut work in [Work::NEW, noise(), used_w(), longer] {
        assert_eq!(open(&mut work, &shorter), 0);
        assert_eq!(work, Work::holding(&shorter));
    }
}

#[test]
fn an_opening_refuses_as_the_crew_call_does_and_leaves_every_byte() {
    for trial in calls::all().into_iter().filter(|trial| trial.call == Call::Crew) {
        let mut area = [0; MOST_CREW_BYTES];
        let number = run(Call::Crew, &trial.sheet, &mut area);
        for before in [Work::NEW, noise(), used_w()] {
            let mut work = before.clone();
            assert_eq!(open(&mut work, &trial.sheet), number, "{}", trial.name);
            let expected = if number == 0 { Work::holding(&trial.sheet) } else { before };
            assert!(work == expected, "{}", trial.name);
        }
    }
}

#[test]
fn every_damage_to_one_byte_of_w_is_opened_as_by_the_model() {
    for w in Form::ALL.map(sheet_w_in).into_iter().chain([sheet_w().skip(6)]) {
        every_damage_is_opened(&w.bytes);
    }
}

fn every_damage_is_opened(w: &[u8]) {
    for (at, value) in (0..w.len()).flat_map(|at| (0..=255).map(move |value| (at, value))) {
        let mut sheet = w.to_vec();
        sheet[at] = value;
        let (mut found, mut expected) = (noise(), noise());
        let number = signing::open(&mut expected, &sheet).expect("W and its like are small");
        assert_eq!(open(&mut found, &sheet), number, "byte {at} is {value}");
        assert!(found == expected, "byte {at} is {value}");
    }
}

#[test]
fn every_damage_to_one_byte_held_is_signed_as_by_the_model() {
    for work in Form::ALL.map(|form| used(sheet_w_in(form))).into_iter().chain([used(sheet_w().skip(5))]) {
        every_damage_is_signed(&work);
    }
}

fn every_damage_is_signed(work: &Work) {
    let length = work.sheet_len as usize;
    for (at, value) in (0..length).flat_map(|at| (0..=255).map(move |value| (at, value))) {
        let mut found = work.clone();
        found.sheet[at] = value;
        let mut expected = found.clone();
        let number = signing::sign(&mut expected, 30, 103).expect("W and its like are small");
        assert_eq!(sign(&mut found, 30, 103), number, "byte {at} is {value}");
        assert!(found == expected, "byte {at} is {value}");
    }
}

#[test]
fn a_copy_is_independent() {
    let mut work = w();
    assert_eq!(sign(&mut work, 20, 101), GRANTED);
    let mut copy = work.clone();
    assert_eq!(sign(&mut work, 30, 102), GRANTED);
    assert_eq!(sign(&mut copy, 30, 101), REFUSED);
    assert_eq!(sign(&mut copy, 30, 103), GRANTED);
    assert_eq!((work.signer[2], copy.signer[2]), (2, 3));
    assert_eq!((refusals(&work), refusals(&copy)), (0, 1));
}

#[test]
fn jobs_on_several_threads_are_independent() {
    let run = |k: u32| {
        for round in 0..2_000 {
            let mut work = w();
            // 101 and 102 by turns, so that the threads sign differently.
            let (one, other) = if (k + round).is_multiple_of(2) { (101, 102) } else { (102, 101) };
            assert_eq!(sign(&mut work, 30, one), GRANTED);
            assert_eq!(sign(&mut work, 20, one), REFUSED);
            assert_eq!(sign(&mut work, 20, other), GRANTED);
            assert_eq!(sign(&mut work, 10, other), GRANTED);
            assert_eq!(refusals(&work), 1);
        }
    };
    thread::scope(|scope| {
        for k in 0..4 {
            scope.spawn(move || run(k));
        }
    });
}
