//! Every byte of each kind of card damaged, in W.

use super::{reads, refused, trial, Trial};
use model::builder::sheet_w;

pub fn trials() -> Vec<Trial> {
    let mut trials = each_byte();
    trials.extend(each_unnamed_byte());
    trials.extend(each_field_zero());
    trials
}

/// The refusal of W when a byte of the card is 255, 0 where W stays readable.
const HEADER_255: [u32; 16] = [4, 4, 4, 4, 5, 5, 5, 5, 5, 5, 4, 4, 4, 4, 4, 4];
const PERSON_255: [u32; 16] = [7, 8, 5, 5, 0, 0, 0, 0, 11, 11, 0, 0, 8, 8, 8, 8];
const STEP_255: [u32; 16] = [7, 8, 5, 5, 0, 0, 0, 0, 8, 8, 8, 8, 8, 8, 8, 8];
const RULE_255: [u32; 16] = [7, 8, 5, 5, 8, 8, 8, 8, 8, 8, 8, 8, 8, 8, 8, 8];

fn answer(number: u32, card: usize) -> String {
    if number == 0 {
        return reads(4, 3, 3);
    }
    refused(number, card)
}

fn each_byte() -> Vec<Trial> {
    let cards = [(0, HEADER_255), (2, PERSON_255), (6, STEP_255), (9, RULE_255)];
    let mut trials = vec![];
    for (card, numbers) in cards {
        for (at, number) in numbers.into_iter().enumerate() {
            let name = format!("damage, card {card}, byte {at} is 255");
            trials.push(trial(name, sheet_w().byte(card, at, 255), answer(number, card)));
        }
    }
    trials
}

/// The bytes of a person, step or rule card of W that the paper does not name.
fn unnamed(card: usize) -> Vec<usize> {
    match card {
        1..=4 => vec![1, 14, 15],
        _ => (8..16).collect(),
    }
}

fn each_unnamed_byte() -> Vec<Trial> {
    let mut trials = vec![];
    for card in [1, 4, 5, 7, 8, 10] {
        for at in unnamed(card) {
            for value in [1, 128] {
                let name = format!("damage, card {card}, unnamed byte {at} is {value}");
                trials.push(trial(name, sheet_w().byte(card, at, value), refused(8, card)));
            }
        }
    }
    trials
}

/// Each field set to zero, of the header and of the second card of each chain. W's chains end where a next is zero.
fn each_field_zero() -> Vec<Trial> {
    let w = sheet_w;
    vec![
        trial("damage, header, kind 0", w().byte(0, 0, 0), refused(4, 0)),
        trial("damage, header, version 0", w().byte(0, 1, 0), refused(4, 0)),
        trial("damage, header, first person 0", w().first_person(0), refused(9, 0)),
        trial("damage, header, first step 0", w().first_step(0), refused(9, 0)),
        trial("damage, header, first rule 0", w().first_rule(0), refused(12, 8)),
        trial("damage, header, number 0", w().number(0), refused(4, 0)),
        trial("damage, person card 2, kind 0", w().byte(2, 0, 0), refused(7, 2)),
        trial("damage, person card 2, next 0", w().next(2, 0), refused(12, 3)),
        trial("damage, person card 2, tag 0", w().long(2, 4, 0), refused(8, 2)),
        trial("damage, person card 2, shop 0", w().word(2, 8, 0), refused(8, 2)),
        trial("damage, person card 2, bench 0", w().word(2, 10, 0), refused(8, 2)),
        trial("damage, person card 2, permitted 0", w().word(2, 12, 0), reads(4, 3, 3)),
        trial("damage, step card 6, kind 0", w().byte(6, 0, 0), refused(7, 6)),
        trial("damage, step card 6, next 0", w().next(6, 0), refused(8, 1)),
        trial("damage, step card 6, tag 0", w().long(6, 4, 0), refused(8, 6)),
        trial("damage, rule card 9, kind 0", w().byte(9, 0, 0), refused(7, 9)),
        trial("damage, rule card 9, rule kind 0", w().byte(9, 1, 0), refused(8, 9)),
        trial("damage, rule card 9, next 0", w().next(9, 0), refused(12, 10)),
        trial("damage, rule card 9, level 0", w().byte(9, 4, 0), refused(8, 9)),
        trial("damage, rule card 9, limit 0 as it was", w().byte(9, 5, 0), reads(4, 3, 3)),
        trial("damage, rule card 9, scope 0", w().word(9, 6, 0), refused(8, 9)),
    ]
}
