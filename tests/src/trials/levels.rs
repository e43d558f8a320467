//! Version 2: the header's version and number of class levels, the classes of people, the levels of rules, and classes that lie
//! in two.

use super::{planned, reads, refused, trial, Trial};
use crate::levels::{self, each_number, second};
use model::builder::{job_w_in, lay_at, plain_in, sheet_w, sheet_w_in, Draft};
use model::card::{CLASSES, CLASS_LEVELS, MOST_BYTES};
use model::job::{AT_LEAST, AT_MOST, DIFFERENT, MAX_LOAD, SAME};

pub fn trials() -> Vec<Trial> {
    let mut trials: Vec<Trial> = levels::all().iter().map(planned).collect();
    trials.extend(levels::of_skipped().iter().map(planned));
    trials.extend(levels::of_loads().iter().map(planned));
    trials.extend(versions());
    trials.extend(headers());
    trials.extend(each_number().flat_map(each_refusal));
    trials.extend(each_number().flat_map(fields));
    trials.extend(each_number().flat_map(rules));
    trials.extend(one_level());
    trials.extend(two_levels());
    trials.extend(three_levels());
    trials
}

/// W with so many class levels: its cards lie as in version 1.
fn w(levels: u8) -> Draft {
    sheet_w_in(second(levels))
}

fn header(draft: Draft, version: u8, levels: u8) -> Draft {
    draft.byte(0, 1, version).byte(0, CLASS_LEVELS, levels)
}

/// The cards of W with each number of class levels under every header that is near a good one.
fn versions() -> Vec<Trial> {
    let mut trials = vec![];
    for own in each_number() {
        for (version, levels) in [0, 1, 2, 3, 255].into_iter().flat_map(|v| [0, 1, 2, 3, 4, 255].map(|n| (v, n))) {
            let answer = match given(version, levels) {
                Some(given) if given == own => reads(4, 3, 3),
                // The first person has a class too few or too many.
                Some(_) => refused(8, 1),
                None => refused(4, 0),
            };
            let name = format!("levels {own}, under version {version}, byte 12 is {levels}");
            trials.push(trial(name, header(w(own), version, levels), answer));
        }
    }
    trials
}

/// How many class levels a header gives, where it is good.
fn given(version: u8, levels: u8) -> Option<u8> {
    match (version, levels) {
        (1, 0) => Some(2),
        (2, 1..=3) => Some(levels),
        _ => None,
    }
}

fn headers() -> Vec<Trial> {
    let mut trials = vec![];
    for levels in each_number() {
        for at in 13..=15 {
            for value in [1, 128] {
                let name = format!("levels {levels}, header byte {at} is {value}");
                trials.push(trial(name, w(levels).byte(0, at, value), refused(4, 0)));
            }
        }
        let wrong = |what: &str| format!("levels {levels}, header, {what}");
        trials.extend([
            trial(wrong("kind 2"), w(levels).byte(0, 0, 2), refused(4, 0)),
            trial(wrong("next 1"), w(levels).next(0, 1), refused(4, 0)),
            trial(wrong("card number 12"), w(levels).number(12), refused(4, 0)),
            trial(wrong("before the first person"), w(levels).byte(0, 14, 1).first_person(99), refused(4, 0)),
            trial(wrong("after the length"), w(levels).byte(0, 14, 1).cut(168), refused(3, 0)),
        ]);
    }
    trials
}

/// Each refusal of the reader, and just enough to get none.
fn each_refusal(levels: u8) -> Vec<Trial> {
    let w = || w(levels);
    let plain = |people, steps, rules| plain_in(second(levels), people, steps, rules);
    let name = |what: &str| format!("levels {levels}, {what}");
    let mut trials = vec![
        trial(name("length 175"), w().cut(175), refused(3, 0)),
        trial(name("142 cards"), plain(65, 12, 64), refused(3, 0)),
        trial(name("a full sheet and 16 bytes"), plain(64, 12, 64).and(&[0; 16]), refused(3, 0)),
        trial(name("a card without its number"), w().and(&[0; 16]), refused(4, 0)),
        trial(name("first person 11"), w().first_person(11), refused(5, 0)),
        trial(name("third person's next 11"), w().next(3, 11), refused(5, 3)),
        trial(name("last rule's next 256"), w().next(10, 256), refused(5, 10)),
        trial(name("last person back to the second"), w().next(4, 2), refused(6, 2)),
        trial(name("rules run into a person"), w().next(10, 3), refused(6, 3)),
        trial(name("people run into a step"), w().next(4, 5), refused(7, 5)),
        trial(name("a rule of kind 3"), w().byte(9, 0, 3), refused(7, 9)),
        trial(name("step card, unnamed byte 15"), w().byte(6, 15, 1), refused(8, 6)),
        trial(name("rule card, unnamed byte 14"), w().byte(9, 14, 1), refused(8, 9)),
        trial(name("step 20 skipped"), w().skip(6), reads(4, 2, 3)),
        trial(name("a step with mark 2"), w().byte(6, 1, 2), refused(8, 6)),
        trial(name("no people"), plain(0, 3, 0), refused(9, 0)),
        trial(name("no steps"), plain(3, 0, 0), refused(9, 0)),
        trial(name("65 people"), plain(65, 1, 0), refused(9, 65)),
        trial(name("13 steps"), plain(1, 13, 0), refused(9, 14)),
        trial(name("65 rules"), plain(1, 2, 65), refused(9, 68)),
        trial(name("64 people, 12 steps, 64 rules"), plain(64, 12, 64), reads(64, 12, 64)),
        trial(name("a tag on two people"), w().long(4, 4, 102), refused(10, 4)),
        trial(name("a tag on two steps"), w().long(7, 4, 10), refused(10, 7)),
        trial(name("a card on no chain"), w().next(3, 0), refused(12, 4)),
        trial(name("the first rule on no chain"), w().first_rule(9), refused(12, 8)),
    ];
    assert_eq!(plain(64, 12, 64).bytes.len(), MOST_BYTES);
    if levels > 1 {
        let split = w().class(2, 1, 9);
        trials.extend([
            trial(name("bench 1 in two shops"), split.clone(), refused(11, 2)),
            trial(name("a tag twice before a class in two"), split.clone().long(7, 4, 10), refused(10, 7)),
            trial(name("a class in two before a loose card"), split.first_rule(9), refused(11, 2)),
        ]);
    }
    trials
}

/// The classes of each person, at levels that are used and at others, and the fields beside them.
fn fields(levels: u8) -> Vec<Trial> {
    let mut trials = vec![];
    for card in 1..=4 {
        for (level, at) in (1..).zip(CLASSES) {
            let name = |what: &str| format!("levels {levels}, person card {card}, class {level} {what}");
            if level <= levels {
                trials.push(trial(name("is 0"), w(levels).class(card, level, 0), refused(8, card)));
                continue;
            }
            trials.extend([
                trial(name("is 1"), w(levels).byte(card, at, 1), refused(8, card)),
                trial(name("is 256"), w(levels).byte(card, at + 1, 1), refused(8, card)),
            ]);
        }
    }
    let name = |what: &str| format!("levels {levels}, {what}");
    let largest = |draft: Draft, level| draft.class(3, level, u16::MAX);
    trials.extend([
        trial(name("classes at their largest"), (1..=levels).fold(w(levels), largest), reads(4, 3, 3)),
        trial(name("permitted nothing"), w(levels).word(3, 12, 0), reads(4, 3, 3)),
        trial(name("permitted step 3 of 3"), w(levels).word(2, 12, 8), refused(8, 2)),
        trial(name("permitted step 12"), w(levels).word(2, 12, 1 << 12), refused(8, 2)),
        trial(name("person's tag 0"), w(levels).long(2, 4, 0), refused(8, 2)),
        trial(name("person's byte 1"), w(levels).byte(2, 1, 1), refused(8, 2)),
        trial(name("class 0 before a bad next"), w(levels).class(2, 1, 0).next(2, 99), refused(8, 2)),
        trial(name("bad kind before class 0"), w(levels).class(2, 1, 0).byte(2, 0, 3), refused(7, 2)),
    ]);
    trials
}

/// A rule of each kind at each level, the person's and those beyond it.
fn rules(levels: u8) -> Vec<Trial> {
    let mut trials = vec![];
    for (kind, limit) in [(SAME, 0), (DIFFERENT, 0), (AT_MOST, 2), (AT_LEAST, 1), (MAX_LOAD, 2)] {
        for level in [0, 1, 2, 3, 4, 5, 255] {
            let good = (1..=levels + 1).contains(&level);
            let answer = if good { reads(4, 3, 3) } else { refused(8, 9) };
            let sheet = w(levels).byte(9, 1, kind).byte(9, 4, level).byte(9, 5, limit);
            trials.push(trial(format!("levels {levels}, rule of kind {kind} and level {level}"), sheet, answer));
        }
    }
    for (kind, limit) in [(MAX_LOAD, 0), (MAX_LOAD, 3), (MAX_LOAD + 1, 0), (MAX_LOAD + 1, 1)] {
        let sheet = w(levels).byte(9, 1, kind).byte(9, 5, limit);
        trials.push(trial(format!("levels {levels}, rule of kind {kind} and limit {limit}"), sheet, refused(8, 9)));
    }
    trials
}

fn one_level() -> Vec<Trial> {
    let shops = |shops: [u16; 4]| (1..).zip(shops).fold(w(1), |draft, (card, shop)| draft.class(card, 1, shop));
    vec![
        trial("levels 1, all in one shop", shops([1, 1, 1, 1]), reads(4, 3, 3)),
        trial("levels 1, each in a shop", shops([1, 2, 3, 4]), reads(4, 3, 3)),
        trial("levels 1, shops by turns", shops([1, 2, 1, 2]), reads(4, 3, 3)),
        trial("levels 1, a shop with the number of a tag", shops([101, 102, 101, 104]), reads(4, 3, 3)),
    ]
}

fn two_levels() -> Vec<Trial> {
    let cards_of_w = header(sheet_w(), 2, 2);
    vec![
        trial("levels 2, the cards of W", cards_of_w, reads(4, 3, 3)),
        trial("levels 2, bench 2 in shops 1 and 2", w(2).class(4, 2, 2), refused(11, 4)),
        trial("levels 2, bench and shop of one number", w(2).class(3, 2, 9).class(4, 1, 9), reads(4, 3, 3)),
        trial("levels 2, shops differ in the high byte only", w(2).class(2, 1, 257), refused(11, 2)),
    ]
}

/// In W with pairs the people are of shops 1, 1, 1, 2, benches 1, 1, 2, 3 and pairs 1, 2, 3, 4.
fn three_levels() -> Vec<Trial> {
    let w = || w(3);
    let backwards = || lay_at(&job_w_in(second(3)), &[4, 3, 2, 1, 5, 6, 7, 8, 9, 10]);
    let crowd = || plain_in(second(3), 64, 1, 0);
    vec![
        trial("levels 3, a pair of two at one bench", w().class(2, 3, 1), reads(4, 3, 3)),
        trial("levels 3, a pair on two benches of one shop", w().class(3, 3, 1), refused(11, 3)),
        trial("levels 3, a pair on benches of two shops", w().class(4, 3, 1), refused(11, 4)),
        trial("levels 3, a bench in two shops, four pairs", w().class(4, 2, 1), refused(11, 4)),
        trial("levels 3, a pair in two shops, at one bench", w().class(2, 3, 1).class(2, 1, 2), refused(11, 2)),
        trial("levels 3, pair and shop agree, bench does not", w().class(2, 3, 1).class(2, 2, 9), refused(11, 2)),
        trial("levels 3, pair at the third, bench at the last", w().class(3, 3, 1).class(4, 2, 2), refused(11, 3)),
        trial(
            "levels 3, bench at the third, pair at the last",
            w().class(3, 1, 9).class(3, 2, 1).class(4, 3, 1),
            refused(11, 3),
        ),
        trial(
            "levels 3, pair at the second, bench at the third",
            w().class(2, 3, 1).class(2, 2, 9).class(3, 2, 1).class(3, 1, 5),
            refused(11, 2),
        ),
        trial("levels 3, bench at the second, pair at the third", w().class(2, 1, 9).class(3, 3, 1), refused(11, 2)),
        trial("levels 3, both at the last", w().class(4, 2, 1).class(4, 3, 1), refused(11, 4)),
        trial("levels 3, pair and bench of one number", w().class(3, 3, 9).class(4, 2, 9), reads(4, 3, 3)),
        trial("levels 3, pair and shop of one number", w().class(3, 3, 9).class(4, 1, 9), reads(4, 3, 3)),
        trial("levels 3, pairs that differ in the high byte only", w().class(3, 3, 257), reads(4, 3, 3)),
        trial(
            "levels 3, benches that differ in the high byte only",
            w().class(2, 3, 1).class(2, 2, 257),
            refused(11, 2),
        ),
        trial("levels 3, a high byte alone, at every level", high_bytes(), reads(4, 3, 3)),
        trial("levels 3, cards backwards, in crew order", backwards().class(2, 3, 1).class(1, 2, 2), refused(11, 2)),
        trial("levels 3, cards backwards, last in crew order", backwards().class(1, 3, 2), refused(11, 1)),
        trial(
            "levels 3, 64 people, last in the first's pair",
            crowd().class(64, 3, 1).class(64, 2, 2),
            refused(11, 64),
        ),
        trial("levels 3, 64 people, last at bench 1 of shop 2", crowd().class(64, 1, 2), refused(11, 64)),
        trial(
            "levels 3, 64 people, 63rd before the last",
            crowd().class(63, 3, 7).class(63, 2, 2).class(64, 1, 2),
            refused(11, 63),
        ),
    ]
}

/// Classes whose low bytes are zero: bench and pair of 101 and 102 are shared, those of the others are not.
fn high_bytes() -> Draft {
    let classes = [[1, 1, 1], [1, 1, 1], [1, 2, 2], [2, 3, 3]];
    (1..).zip(classes).fold(w(3), |draft, (card, class)| {
        (1..).zip(class).fold(draft, |draft, (level, number)| draft.class(card, level, number << 8))
    })
}

#[cfg(test)]
mod tests {
    use super::*;
    use model::job::Form;
    use model::reader::{read, stated_form, text};
    use std::collections::BTreeSet;

    #[test]
    fn every_refusal_is_tried_with_each_number_of_levels() {
        for levels in each_number() {
            let met: BTreeSet<u32> = trials()
                .iter()
                .filter(|trial| stated_form(&trial.sheet) == Some(second(levels)))
                .filter_map(|trial| read(&trial.sheet).err())
                .map(|refusal| refusal.number)
                .collect();
            let expected = (3..=12).filter(|number| *number != 11 || levels > 1);
            assert_eq!(met, expected.collect(), "{levels} levels");
        }
    }

    /// The header as the first paper has it, without the second: "byte 1 is 1", and bytes 12 to 15 are zero.
    fn is_first_editions(header: &[u8]) -> bool {
        header[1] == 1 && header[12..16] == [0; 4]
    }

    /// "A planner of the first edition answers 4 to new sheets that pass 2 and 3."
    #[test]
    fn the_first_edition_answers_4_to_what_is_readable_in_version_2() {
        let mut readable = 0;
        for trial in trials() {
            let is_new = read(&trial.sheet).is_ok_and(|job| job.form != Form::First);
            assert!(!is_new || !is_first_editions(&trial.sheet), "{}", trial.name);
            readable += usize::from(is_new);
        }
        assert!(readable > 50, "{readable}");
        let stored = trials().into_iter().find(|trial| trial.name == "levels 2, the cards of W").expect("is stored");
        assert_eq!((text(&read(&stored.sheet)), is_first_editions(&stored.sheet)), (reads(4, 3, 3), false));
        assert!(is_first_editions(&sheet_w().bytes));
    }
}
