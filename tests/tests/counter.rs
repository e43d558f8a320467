//! The count of refused signings up to its stop, driven there by calls.

use model::builder::{sheet_w, w_and};
use model::library::{open, refusals, sign};
use model::signing::{Work, MOST_REFUSALS};
use sheet_tests::numbers::{GRANTED, REFUSED, SIGNED, UNKNOWN};

fn w() -> Work {
    let mut work = Work::NEW;
    assert_eq!(open(&mut work, &sheet_w().bytes), 0);
    work
}

#[test]
fn a_job_never_opened_counts_up_to_the_stop() {
    let mut work = Work::NEW;
    for count in 1..=MOST_REFUSALS {
        assert_eq!(sign(&mut work, 10, 101), UNKNOWN);
        assert_eq!(refusals(&work), count);
    }
    for _ in 0..2 {
        assert_eq!(sign(&mut work, 10, 101), UNKNOWN);
        assert_eq!(work, Work { refusals: MOST_REFUSALS, ..Work::NEW });
    }
    assert_eq!(open(&mut work, &sheet_w().bytes), 0);
    assert_eq!(work, w());
}

#[test]
fn grants_go_on_behind_the_stop() {
    let mut work = w();
    let mut by_turns = [(30, 105, UNKNOWN), (40, 101, UNKNOWN)].into_iter().cycle();
    assert_eq!(sign(&mut work, 20, 101), GRANTED);
    assert_eq!(sign(&mut work, 20, 101), SIGNED);
    assert_eq!(sign(&mut work, 30, 101), REFUSED);
    for count in 3..=MOST_REFUSALS {
        assert_eq!(refusals(&work), count - 1);
        let (step, person, number) = by_turns.next().expect("there is no end");
        assert_eq!(sign(&mut work, step, person), number);
    }
    let stopped = work.clone();
    assert_eq!(stopped, Work { refusals: MOST_REFUSALS, signer: [0, 1, 0, 0, 0, 0, 0, 0, 0, 0, 0, 0], ..w() });
    for (step, person, number) in [(30, 105, UNKNOWN), (20, 101, SIGNED), (30, 101, REFUSED)] {
        assert_eq!(sign(&mut work, step, person), number);
        assert_eq!(work, stopped);
    }
    assert_eq!(open(&mut work, &w_and(3, 3, 1, 7).bytes), 13 * 256);
    assert_eq!(work, stopped);
    assert_eq!(sign(&mut work, 30, 103), GRANTED);
    assert_eq!(sign(&mut work, 10, 102), GRANTED);
    let signer = [2, 1, 3, 0, 0, 0, 0, 0, 0, 0, 0, 0];
    assert_eq!(work, Work { signer, ..stopped });
}
