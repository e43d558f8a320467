//! Several faults in one sheet: the first in the paper's order is given.

use super::{refused, trial, Trial};
use model::builder::{plain, sheet_w, Draft};

pub fn trials() -> Vec<Trial> {
    let mut trials = before_the_chains();
    trials.extend(at_a_card());
    trials.extend(between_chains());
    trials.extend(after_the_chains());
    trials
}

fn before_the_chains() -> Vec<Trial> {
    let w = sheet_w;
    vec![
        trial("together, length before header", w().cut(40).byte(0, 0, 9), refused(3, 0)),
        trial("together, header before first person", w().byte(0, 1, 9).first_person(99), refused(4, 0)),
        trial("together, card number before a loose card", w().and(&[0; 16]), refused(4, 0)),
        trial("together, header's next before no people", plain(0, 0, 0).next(0, 1), refused(4, 0)),
        trial("together, every byte 255", Draft::of(vec![255; 176]), refused(4, 0)),
        trial("together, a good header, then all 255", headed(255), refused(7, 1)),
        trial("together, a good header, then all zero", headed(0), refused(7, 1)),
        trial("together, a good header, then all 2", headed(2), refused(8, 1)),
    ]
}

/// W's header, and ten cards of one value.
fn headed(value: u8) -> Draft {
    sheet_w().cut(16).and(&[value; 160])
}

fn at_a_card() -> Vec<Trial> {
    let w = sheet_w;
    vec![
        trial("together, 7 before 8 on a person", w().byte(2, 0, 3).long(2, 4, 0), refused(7, 2)),
        trial("together, 7 before 8 on a step", w().byte(6, 0, 2).byte(6, 9, 1), refused(7, 6)),
        trial("together, 7 before 8 on a rule", w().byte(9, 0, 5).byte(9, 1, 0), refused(7, 9)),
        trial("together, 8 before 6 of its next", w().word(3, 10, 0).next(3, 1), refused(8, 3)),
        trial("together, 6 before the card's own 7", w().next(7, 2).byte(10, 0, 9), refused(6, 2)),
        trial("together, 9 before 7", plain(65, 1, 0).byte(65, 0, 9), refused(9, 65)),
        trial("together, 9 before 8", plain(1, 13, 0).long(14, 4, 0), refused(9, 14)),
        trial("together, 9 before 5 of its next", plain(65, 1, 0).next(65, 999), refused(9, 65)),
        trial("together, earlier person first, lower card", w().long(1, 4, 0).word(3, 8, 0), refused(8, 1)),
        trial("together, earlier person first, higher card", crossed().long(2, 4, 0).word(3, 8, 0), refused(8, 3)),
    ]
}

/// W with its second and third person the other way round on the chain.
fn crossed() -> Draft {
    sheet_w().next(1, 3).next(3, 2).next(2, 4)
}

fn between_chains() -> Vec<Trial> {
    let w = sheet_w;
    vec![
        trial("together, people before steps", w().next(4, 99).long(5, 4, 0), refused(5, 4)),
        trial("together, steps before rules", w().byte(7, 15, 1).byte(8, 4, 0), refused(8, 7)),
        trial("together, people before rules", w().next(4, 4).next(8, 8), refused(6, 4)),
        trial("together, steps before late bits", w().word(1, 12, 8).next(7, 7), refused(6, 7)),
        trial("together, late bits before rules", w().word(4, 12, 8).next(8, 8), refused(8, 4)),
        trial("together, bit 12 before late bits", w().word(1, 12, 8).word(3, 12, 1 << 12), refused(8, 3)),
        trial(
            "together, no steps before late bits and rules",
            w().first_step(0).word(1, 12, 8).first_rule(99),
            refused(9, 0),
        ),
        trial("together, no people before all that follows", w().first_person(0).next(7, 99), refused(9, 0)),
        trial("together, fewer steps make bits late", w().next(5, 0), refused(8, 1)),
        trial(
            "together, fewer steps make a scope bad",
            w().next(6, 0).word(1, 12, 3).word(2, 12, 3).word(3, 12, 3).word(4, 12, 3),
            refused(8, 9),
        ),
    ]
}

fn after_the_chains() -> Vec<Trial> {
    let w = sheet_w;
    vec![
        trial("together, rules before tags", w().long(2, 4, 101).byte(10, 4, 9), refused(8, 10)),
        trial("together, people's tags before steps'", w().long(6, 4, 10).long(4, 4, 101), refused(10, 4)),
        trial("together, steps' tags before benches", w().long(6, 4, 10).word(2, 8, 2), refused(10, 6)),
        trial("together, people's tags before benches", w().long(3, 4, 101).word(2, 8, 2), refused(10, 3)),
        trial("together, benches before loose cards", w().word(4, 10, 1).first_rule(9), refused(11, 4)),
        trial("together, tags before loose cards", w().long(7, 4, 10).first_rule(9), refused(10, 7)),
        trial("together, rules before loose cards", w().first_person(2).byte(10, 8, 1), refused(8, 10)),
        trial("together, lowest loose card of several", w().first_rule(10).first_person(3), refused(12, 1)),
        trial("together, tag, bench and loose card", w().long(4, 4, 101).word(2, 8, 2).next(9, 0), refused(10, 4)),
        trial("together, first bench in crew order", w().word(2, 8, 2).word(4, 10, 1), refused(11, 2)),
    ]
}
