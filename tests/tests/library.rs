//! The library on the paper's sheets, on those with skipped steps and of version 2, and on every damage to one byte of W.

use model::answers::{answer, Call, SPARE_BYTES};
use model::builder::{sheet_w, sheet_w_in, skipped_w};
use model::job::Form;
use model::library;
use sheet_tests::calls;
use std::thread;

/// What an area holds before a call.
fn filled(room: usize) -> Vec<u8> {
    (0..room).map(|k| 0xA5 ^ k as u8).collect()
}

#[test]
fn the_papers_sheets_are_answered_as_stated() {
    for trial in calls::all() {
        let before = filled(trial.room);
        let mut area = before.clone();
        assert_eq!(library::run(trial.call, &trial.sheet, &mut area), trial.number, "{}", trial.name);
        assert_eq!(area, [&trial.written, &before[trial.written.len()..]].concat(), "{}", trial.name);
    }
}

/// W in every form, with a skipped step, and with all steps skipped.
#[test]
fn every_damage_to_one_byte_of_w_is_answered_as_by_the_brute_force() {
    for w in Form::ALL.map(sheet_w_in).into_iter().chain([sheet_w().skip(6), skipped_w()]) {
        every_damage_is_answered(&w.bytes);
    }
}

fn every_damage_is_answered(w: &[u8]) {
    for (at, value) in (0..w.len()).flat_map(|at| (0..=255).map(move |value| (at, value))) {
        let mut sheet = w.to_vec();
        sheet[at] = value;
        for (call, room) in [(Call::Crew, 24), (Call::CrewByTrial, 24), (Call::Spare { cap: 3 }, SPARE_BYTES)] {
            let mut area = filled(room);
            let expected = answer(call, &sheet, &area).expect("W and its like are small");
            let number = library::run(call, &sheet, &mut area);
            assert_eq!((number, area), (expected.number, expected.area), "byte {at} is {value}, {call:?}");
        }
    }
}

#[test]
fn calls_on_several_threads_are_independent() {
    let run = |k: usize| {
        let trials = calls::all();
        for trial in trials.iter().cycle().skip(k).take(20 * trials.len()) {
            let mut area = filled(trial.room);
            assert_eq!(library::run(trial.call, &trial.sheet, &mut area), trial.number, "{}", trial.name);
            assert_eq!(area[..trial.written.len()], trial.written, "{}", trial.name);
        }
    };
    thread::scope(|scope| {
        for k in 0..4 {
            scope.spawn(move || run(7 * k));
        }
    });
}
