//! Sheet W, and those of the paper's sheets to try that concern the reader.

use super::{reads, refused, trial, Trial};
use model::builder::{job_w, lay, lay_at, one_by_one, plain, sheet_w, shorter_w, w_and, Draft};
use model::job::Job;

pub fn trials() -> Vec<Trial> {
    let mut trials = starred();
    trials.extend(lengths());
    trials.extend(sizes());
    trials.extend(chains_and_benches());
    trials
}

fn starred() -> Vec<Trial> {
    let backwards: Vec<usize> = (1..=10).rev().collect();
    let mixed = [7, 3, 10, 1, 9, 2, 6, 4, 8, 5];
    vec![
        trial("sheet 1, W", sheet_w(), reads(4, 3, 3)),
        trial("sheet 1, W with its cards backwards", lay_at(&job_w(), &backwards), reads(4, 3, 3)),
        trial("sheet 1, W with its cards mixed", lay_at(&job_w(), &mixed), reads(4, 3, 3)),
        trial("sheet 3, W with 103 permitted nothing", sheet_w().word(3, 12, 0), reads(4, 3, 3)),
        trial("sheet 4, W and a rule 2,1,0,6", w_and(2, 1, 0, 6), reads(4, 3, 4)),
        trial("sheet 5, W and a rule 4,3,3,7", w_and(4, 3, 3, 7), reads(4, 3, 4)),
        trial("sheet 6, W and a rule 3,3,1,7", w_and(3, 3, 1, 7), reads(4, 3, 4)),
        trial("sheet 7, one person, one step, permitted", one_by_one(1), reads(1, 1, 0)),
        trial("sheet 8, one person, one step, not permitted", one_by_one(0), reads(1, 1, 0)),
        trial("sheet 9, W without its last rule", shorter_w(), reads(4, 3, 2)),
    ]
}

fn lengths() -> Vec<Trial> {
    let lone = || lay(&Job::default());
    vec![
        trial("sheet 10, length 0", Draft::of(vec![]), refused(3, 0)),
        trial("sheet 10, length 24", sheet_w().cut(24), refused(3, 0)),
        trial("sheet 10, length 2,272, zeros", Draft::of(vec![0; 2_272]), refused(3, 0)),
        trial("sheet 10, length 2,272, header says 142", plain(65, 12, 64), refused(3, 0)),
        trial("sheet 10, length 2,256, good, and 16 bytes", plain(64, 12, 64).and(&[0; 16]), refused(3, 0)),
        trial("sheet 10, a lone good header", lone(), refused(9, 0)),
    ]
}

fn sizes() -> Vec<Trial> {
    vec![
        trial("sheet 11, 64 people", plain(64, 1, 0), reads(64, 1, 0)),
        trial("sheet 11, 65 people", plain(65, 1, 0), refused(9, 65)),
        trial("sheet 11, 65 people in a sheet of 141 cards", plain(65, 12, 63), refused(9, 65)),
        trial("sheet 11, 12 steps", plain(1, 12, 0), reads(1, 12, 0)),
        trial("sheet 11, 13 steps", plain(1, 13, 0), refused(9, 14)),
        trial("sheet 11, 13 steps in a sheet of 141 cards", plain(64, 13, 63), refused(9, 77)),
        trial("sheet 11, 64 rules", plain(1, 2, 64), reads(1, 2, 64)),
        trial("sheet 11, 65 rules", plain(1, 2, 65), refused(9, 68)),
        trial("sheet 11, 65 rules in a sheet of 141 cards", plain(63, 12, 65), refused(9, 140)),
    ]
}

fn chains_and_benches() -> Vec<Trial> {
    vec![
        trial("sheet 13, person card 1 is next to itself", sheet_w().next(1, 1), refused(6, 1)),
        trial("sheet 13, step card 6 is next to itself", sheet_w().next(6, 6), refused(6, 6)),
        trial("sheet 13, rule card 10 is next to itself", sheet_w().next(10, 10), refused(6, 10)),
        trial("sheet 13, first rule names person card 1", sheet_w().first_rule(1), refused(6, 1)),
        trial("sheet 13, people chain runs into step card 5", sheet_w().next(4, 5), refused(7, 5)),
        trial("sheet 14, bench 1 in shops 1 and 2", sheet_w().word(2, 8, 2), refused(11, 2)),
        trial("sheet 14, bench 1 in shops 1 and 2, last person", sheet_w().word(4, 10, 1), refused(11, 4)),
    ]
}
