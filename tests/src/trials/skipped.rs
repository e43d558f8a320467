//! Skipped steps: byte 1 of a step card, and what is checked of the cards whether their steps are skipped or not.

use super::{planned, reads, refused, trial, Trial};
use crate::skipped;
use model::builder::{lay, one_by_one, plain, plain_job, sheet_w, skipping, spread_w, Draft};
use model::job::MOST_STEPS;

pub fn trials() -> Vec<Trial> {
    let mut trials = marks();
    trials.extend(skipped::all().iter().map(planned));
    trials.extend(fields());
    trials.extend(rules());
    trials.extend(counts());
    trials
}

fn marks() -> Vec<Trial> {
    let mut trials = vec![];
    for card in 5..=7 {
        let marked = |byte: u8, answer| {
            trial(format!("skipped, step card {card}, byte 1 is {byte}"), sheet_w().byte(card, 1, byte), answer)
        };
        trials.push(marked(1, reads(4, 2, 3)));
        trials.extend([2, 3, 128, 129, 254, 255].map(|byte| marked(byte, refused(8, card))));
    }
    let spread = spread_w;
    trials.extend([
        trial("skipped, mixed cards, second step", spread().skip(10), reads(4, 2, 3)),
        trial("skipped, mixed cards, last step's byte 1 is 2", spread().byte(5, 1, 2), refused(8, 5)),
    ]);
    trials
}

fn fields() -> Vec<Trial> {
    let w = || sheet_w().skip(6);
    vec![
        trial("skipped, tag 0", w().long(6, 4, 0), refused(8, 6)),
        trial("skipped, unnamed byte 8 is 1", w().byte(6, 8, 1), refused(8, 6)),
        trial("skipped, unnamed byte 15 is 1", w().byte(6, 15, 1), refused(8, 6)),
        trial("skipped, kind 2", w().byte(6, 0, 2), refused(7, 6)),
        trial("skipped, next is the number of cards", w().next(6, 11), refused(5, 6)),
        trial("skipped, next is itself", w().next(6, 6), refused(6, 6)),
        trial("skipped, bad mark before bad next", w().byte(6, 1, 2).next(6, 99), refused(8, 6)),
        trial("skipped, bad mark before a later one", w().byte(5, 1, 2).byte(7, 1, 3), refused(8, 5)),
        trial("skipped, bad mark after bad kind", w().byte(6, 1, 2).byte(6, 0, 4), refused(7, 6)),
        trial("skipped, bad mark before late bits", w().byte(7, 1, 2).word(1, 12, 8), refused(8, 7)),
        trial("skipped, permitted step 3 of 3", w().word(2, 12, 8), refused(8, 2)),
        trial("skipped, permitted a skipped step alone", w().word(1, 12, 2), reads(4, 2, 3)),
        trial("skipped, tag of an earlier step", w().long(6, 4, 10), refused(10, 6)),
        trial("skipped, tag of a later step", w().long(6, 4, 30), refused(10, 7)),
        trial("skipped, tag of another that is skipped", w().skip(7).long(7, 4, 20), refused(10, 7)),
        trial("skipped, tag of a person", w().long(6, 4, 101), reads(4, 2, 3)),
    ]
}

fn rules() -> Vec<Trial> {
    let w = || sheet_w().skip(6).skip(7);
    // The middle rule, over steps 20 and 30, as another kind over all three.
    let wide = |limit| w().byte(9, 1, 4).byte(9, 5, limit).word(9, 6, 7);
    vec![
        trial("skipped, scope of two skipped steps", w(), reads(4, 1, 3)),
        trial("skipped, scope bit 3 of 3", w().word(9, 6, 9), refused(8, 9)),
        trial("skipped, kind 1 over three, one left", w().word(9, 6, 7), refused(8, 9)),
        trial("skipped, kind 1 over one", w().word(9, 6, 1), refused(8, 9)),
        trial("skipped, kind 4 over three, one left, limit 3", wide(3), reads(4, 1, 3)),
        trial("skipped, kind 4 over three, one left, limit 4", wide(4), refused(8, 9)),
        trial("skipped, kind 4 over three, one left, limit 0", wide(0), refused(8, 9)),
        trial("skipped, kind 3 over three, one left, limit 3", wide(3).byte(9, 1, 3), reads(4, 1, 3)),
        trial("skipped, kind 3 over three, one left, limit 4", wide(4).byte(9, 1, 3), refused(8, 9)),
        trial("skipped, kind 5 over three, one left, limit 1", wide(1).byte(9, 1, 5), reads(4, 1, 3)),
        trial("skipped, kind 5 over three, one left, limit 3", wide(3).byte(9, 1, 5), reads(4, 1, 3)),
        trial("skipped, kind 5 over three, one left, limit 4", wide(4).byte(9, 1, 5), refused(8, 9)),
        trial("skipped, kind 5 over three, one left, limit 0", wide(0).byte(9, 1, 5), refused(8, 9)),
        trial("skipped, kind 6 over three, one left, limit 3", wide(3).byte(9, 1, 6), refused(8, 9)),
    ]
}

/// One person and so many steps, those from `first` on skipped.
fn skipped_from(first: usize, steps: usize) -> Draft {
    lay(&skipping(plain_job(1, steps, 0), first..steps))
}

fn counts() -> Vec<Trial> {
    let loose = plain(1, 2, 0).word(1, 12, 1).next(2, 0).skip(3);
    vec![
        trial("skipped, one person, one step", one_by_one(1).skip(2), reads(1, 0, 0)),
        trial("skipped, 12 steps of 12", skipped_from(0, MOST_STEPS), reads(1, 0, 0)),
        trial("skipped, the last of 12 steps", skipped_from(11, MOST_STEPS), reads(1, 11, 0)),
        trial("skipped, 13 steps of 13", skipped_from(0, 13), refused(9, 14)),
        trial("skipped, the last of 13 steps", skipped_from(12, 13), refused(9, 14)),
        trial("skipped, 13th step has a bad mark", plain(1, 13, 0).byte(14, 1, 2), refused(9, 14)),
        trial("skipped, step on no chain", loose, refused(12, 3)),
    ]
}
