//! Where the paper leaves room, the reading taken: a trial for each point, numbered as the readings are.

use super::{reads, refused, trial, Trial};
use model::builder::{plain, sheet_w, Draft};

pub fn trials() -> Vec<Trial> {
    let mut trials = indices();
    trials.extend(counts());
    trials.extend(values());
    trials.extend(loads());
    trials
}

/// Points 1 to 6: the header's bytes, and how 5, 6 and 7 divide.
fn indices() -> Vec<Trial> {
    let w = sheet_w;
    vec![
        trial("point 1, header byte 12 gets 4, not 8", w().byte(0, 12, 1), refused(4, 0)),
        trial("point 1, header byte 15 gets 4, not 8", w().byte(0, 15, 1), refused(4, 0)),
        trial("point 2, first person too high gets 5, not 4", w().first_person(12), refused(5, 0)),
        trial("point 2, first step too high waits for the people", w().first_step(99).long(4, 4, 0), refused(8, 4)),
        trial("point 2, first rule too high waits for the steps", w().first_rule(99).long(7, 4, 0), refused(8, 7)),
        trial("point 2, first rule too high waits for late bits", w().first_rule(99).word(2, 12, 8), refused(8, 2)),
        trial("point 2, first rule too high comes before tags", w().first_rule(99).long(2, 4, 101), refused(5, 0)),
        trial("point 3, bad next goes to its holder", w().next(3, 99), refused(5, 3)),
        trial("point 3, bad field before bad next", w().next(3, 99).word(3, 8, 0), refused(8, 3)),
        trial("point 3, bad kind before bad next", w().next(3, 99).byte(3, 0, 9), refused(7, 3)),
        trial("point 3, bad next before a later card's field", w().next(3, 99).long(4, 4, 0), refused(5, 3)),
        trial("point 4, 6 gives the card come to", w().next(4, 2), refused(6, 2)),
        trial("point 4, self loop", w().next(3, 3), refused(6, 3)),
        trial("point 5, index 0 ends a chain", w().next(4, 0), reads(4, 3, 3)),
        trial("point 5, a second header on the people chain", w().byte(4, 0, 1), refused(7, 4)),
        trial("point 5, a second header on no chain", w().and_card(second_header()), refused(12, 11)),
        trial("point 6, step chain into a person", w().next(5, 2), refused(6, 2)),
        trial("point 6, rules chain into a person", w().next(8, 3), refused(6, 3)),
        trial("point 6, rules chain into a step", w().next(8, 7), refused(6, 7)),
        trial("point 6, people chain into a step", w().next(2, 6), refused(7, 6)),
        trial("point 6, people chain into a rule", w().next(2, 9), refused(7, 9)),
        trial("point 6, step chain into a rule", w().next(5, 9), refused(7, 9)),
    ]
}

fn second_header() -> [u8; 16] {
    let mut card = [0; 16];
    card[0] = 1;
    card[1] = 1;
    card
}

/// Points 7, 8 and 12: too many, and none.
fn counts() -> Vec<Trial> {
    let w = sheet_w;
    let crowd = || plain(64, 2, 0);
    let lone_person = || plain(1, 0, 0);
    vec![
        trial("point 7, 65th person is a step card", crowd().next(64, 65), refused(9, 65)),
        trial("point 7, 65th person is an earlier person", crowd().next(64, 7), refused(6, 7)),
        trial("point 7, 65th person is beyond the file", crowd().next(64, 67), refused(5, 64)),
        trial("point 7, 65th person has bad fields", plain(65, 1, 0).long(65, 4, 0), refused(9, 65)),
        trial("point 7, 13th step is a rule card", plain(1, 12, 1).next(13, 14), refused(9, 14)),
        trial("point 7, 13th step is an earlier step", plain(1, 12, 1).next(13, 5), refused(6, 5)),
        trial("point 7, 13th step is beyond the file", plain(1, 12, 1).next(13, 15), refused(5, 13)),
        trial("point 7, 65th rule is a loose step card", plain(1, 2, 65).byte(68, 0, 3), refused(9, 68)),
        trial("point 7, 65th rule is an earlier rule", plain(1, 2, 64).next(67, 40), refused(6, 40)),
        trial("point 7, 65th rule is a person", plain(1, 2, 64).next(67, 1), refused(6, 1)),
        trial("point 7, 65th rule is beyond the file", plain(1, 2, 64).next(67, 68), refused(5, 67)),
        trial("point 8, no people before a bad step index", w().first_person(0).first_step(99), refused(9, 0)),
        trial("point 8, bit 12 before no steps", lone_person().word(1, 12, 1 << 12), refused(8, 1)),
        trial("point 8, no steps before a bad rule index", lone_person().first_rule(99), refused(9, 0)),
        trial("point 8, no steps, bit 0 is not tested", lone_person().word(1, 12, 1), refused(9, 0)),
        trial("point 8, no steps, bit 11 is not tested", lone_person().word(1, 12, 1 << 11), refused(9, 0)),
        trial("point 8, bad step index is 5 and not no steps", lone_person().first_step(2), refused(5, 0)),
        trial("point 12, 64 + 12 + 64 fill 141 cards", plain(64, 12, 64), reads(64, 12, 64)),
        trial("point 12, 65 + 12 + 63 in 141 cards", plain(65, 12, 63), refused(9, 65)),
        trial("point 12, 65 + 12 + 64 are 142 cards", plain(65, 12, 64), refused(3, 0)),
    ]
}

/// Points 9, 10, 11 and 13: values of fields, clashes, loose cards and the longest sheet.
fn values() -> Vec<Trial> {
    let w = sheet_w;
    let one_step = || plain(1, 1, 1);
    vec![
        trial("point 9, bit 12 before 5 of its next", w().word(2, 12, 1 << 12).next(2, 99), refused(8, 2)),
        trial("point 9, bit 3 after 5 of its next", w().word(2, 12, 8).next(2, 99), refused(5, 2)),
        trial("point 9, bit 3 after a step's field", w().word(2, 12, 8).long(7, 4, 0), refused(8, 7)),
        trial("point 9, bit 3 before a rule's field", w().word(2, 12, 8).byte(8, 4, 0), refused(8, 2)),
        trial("point 9, two late bits in crew order", crew_against_cards(), refused(8, 3)),
        trial("point 9, 13 steps before bit 11", plain(1, 13, 0), refused(9, 14)),
        trial("point 9, bit 12 before 13 steps", plain(1, 13, 0).word(1, 12, 1 << 12), refused(8, 1)),
        trial("point 10, one step, rule over one bit", one_step().word(3, 6, 1).byte(3, 5, 1), refused(8, 3)),
        trial("point 10, one step, rule over two bits", one_step(), refused(8, 3)),
        trial("point 10, two bits, one beyond the steps", w().word(9, 6, 9), refused(8, 9)),
        trial("point 10, kind 1 with limit 1", w().byte(9, 5, 1), refused(8, 9)),
        trial("point 10, kind 4, limit is the scope's size", w().byte(9, 1, 4).byte(9, 5, 2), reads(4, 3, 3)),
        trial("point 10, kind 4, limit above the scope's size", w().byte(9, 1, 4).byte(9, 5, 3), refused(8, 9)),
        trial("point 11, 10 goes to the later on the chain", later_is_lower(), refused(10, 1)),
        trial("point 11, a person's tag may be a step's", w().long(1, 4, 10), reads(4, 3, 3)),
        trial("point 11, a person's tag may be a later step's", w().long(4, 4, 30), reads(4, 3, 3)),
        trial("point 11, a shop's number may be a bench's", w().word(3, 8, 2), reads(4, 3, 3)),
        trial("point 11, 11 against any earlier person", second_of_three(), refused(11, 4)),
        trial("point 11, a loose card's bytes are not tested", w().and_card([255; 16]), refused(12, 11)),
        trial("point 11, a loose person card is not counted", w().next(3, 0).long(4, 4, 101), refused(12, 4)),
        trial("point 13, 2,272 bytes, a good sheet in front", plain(64, 12, 64).and(&[0; 16]), refused(3, 0)),
        trial("point 13, 4,112 bytes, a good sheet in front", plain(64, 12, 64).and(&[0; 1_856]), refused(3, 0)),
    ]
}

/// Point 27: kind 5 and its limit.
fn loads() -> Vec<Trial> {
    let kind_5 = |limit| sheet_w().byte(9, 1, 5).byte(9, 5, limit);
    let skipped = |limit| kind_5(limit).skip(6).skip(7);
    vec![
        trial("point 27, kind 5 with limit 1", kind_5(1), reads(4, 3, 3)),
        trial("point 27, kind 5, limit is the scope's size", kind_5(2), reads(4, 3, 3)),
        trial("point 27, kind 5, limit above the scope's size", kind_5(3), refused(8, 9)),
        trial("point 27, kind 5 with limit 0", kind_5(0), refused(8, 9)),
        trial("point 27, kind 5, the scope's size as on the card", skipped(2), reads(4, 1, 3)),
        trial("point 27, kind 5 with both steps skipped, limit 3", skipped(3), refused(8, 9)),
        trial("point 27, kind 5 in version 2", kind_5(2).byte(0, 1, 2).byte(0, 12, 2), reads(4, 3, 3)),
        trial("point 27, kind 6", kind_5(1).byte(9, 1, 6), refused(8, 9)),
        trial("point 27, version 2, step byte 8", kind_5(2).byte(0, 1, 2).byte(0, 12, 2).byte(6, 8, 1), refused(8, 6)),
    ]
}

/// Card 3 comes before card 2 on the people chain, and both have a late bit.
fn crew_against_cards() -> Draft {
    let crossed = sheet_w().next(1, 3).next(3, 2).next(2, 4);
    crossed.word(2, 12, 8).word(3, 12, 16)
}

/// The people chain backwards: card 1 comes last, with the tag of card 4.
fn later_is_lower() -> Draft {
    let backwards = sheet_w().first_person(4).next(4, 3).next(3, 2).next(2, 1).next(1, 0);
    backwards.long(1, 4, 104)
}

/// Bench 1 in shop 1 twice, then at the last person in shop 2.
fn second_of_three() -> Draft {
    sheet_w().word(4, 10, 1)
}
