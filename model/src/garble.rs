//! Random sheets: good ones, good ones that are damaged, and garbage.

use crate::builder::Draft;
use crate::card::{CARD, CLASSES, CLASS_LEVELS, HEADER, MOST_CARDS, PERSON, RULE, STEP};
use crate::classes::any_form;
use crate::job::{Job, MAX_LOAD, MOST_PEOPLE, MOST_RULES, MOST_STEPS};
use crate::jobs::{good_job, job_of, laid, with_skipped};
use crate::random::Random;

/// The longest noise: a length that two bytes can hold.
const LONGEST: usize = u16::MAX as usize;

/// A sheet, and the job that it was made from where nothing was damaged.
pub struct Sample {
    pub sheet: Vec<u8>,
    pub job: Option<Job>,
}

/// Where the jobs come from.
type Jobs = fn(&mut Random) -> Job;

/// One sheet in four is good.
pub fn sample(random: &mut Random) -> Sample {
    sample_of(random, good_job)
}

/// The same with jobs of another source.
pub fn sample_of(random: &mut Random, jobs: Jobs) -> Sample {
    match random.below(20) {
        0..=4 => good(random, jobs),
        5..=15 => bad(damaged(random, jobs)),
        16 => bad(crowded(random)),
        17 => bad(tangled(random, jobs)),
        18 => bad(headed(random)),
        _ => bad(noise(random)),
    }
}

fn bad(draft: Draft) -> Sample {
    Sample { sheet: draft.bytes, job: None }
}

fn good(random: &mut Random, jobs: Jobs) -> Sample {
    let job = jobs(random);
    Sample { sheet: laid(random, &job).bytes, job: Some(job) }
}

fn damaged(random: &mut Random, jobs: Jobs) -> Draft {
    let job = jobs(random);
    let mut draft = laid(random, &job);
    for _ in 0..random.within(1, 3) {
        draft = damage(random, draft);
    }
    draft
}

/// A card of the draft, the header among them.
fn any_card(random: &mut Random, draft: &Draft) -> usize {
    random.below(draft.cards())
}

/// A number near those that an index of the draft may have.
fn any_index(random: &mut Random, draft: &Draft) -> u16 {
    random.below(draft.cards() + 2) as u16
}

/// The field of a card that holds an index: its next, or one of the header's three.
fn any_link(random: &mut Random, draft: &Draft) -> (usize, usize) {
    if random.once_in(5) {
        return (0, 4 + 2 * random.below(3));
    }
    (any_card(random, draft), 2)
}

fn word_at(draft: &Draft, card: usize, at: usize) -> u16 {
    let start = card * CARD + at;
    u16::from_le_bytes([draft.bytes[start], draft.bytes[start + 1]])
}

/// One damage. A draft of less than a card stays as it is.
fn damage(random: &mut Random, draft: Draft) -> Draft {
    if draft.cards() == 0 {
        return draft;
    }
    match random.below(22) {
        0..=4 => changed_byte(random, draft),
        5..=6 => redirected(random, draft),
        7 => swapped_links(random, draft),
        8 => repeated_link(random, draft),
        9..=11 => copied_field(random, draft),
        12 => cut_short(random, draft),
        13 => grown(random, draft),
        14 => swapped_cards(random, draft),
        15 => marked_step(random, draft),
        16..=17 => other_header(random, draft),
        18..=19 => other_class(random, draft),
        20 => other_rule(random, draft),
        _ => small_field(random, draft),
    }
}

fn changed_byte(random: &mut Random, mut draft: Draft) -> Draft {
    let at = random.below(draft.bytes.len());
    let old = draft.bytes[at];
    draft.bytes[at] = match random.below(4) {
        0 => random.byte(),
        1 => old ^ 1 << random.below(8),
        2 => old.wrapping_add(1),
        _ => old.wrapping_sub(1),
    };
    draft
}

fn redirected(random: &mut Random, draft: Draft) -> Draft {
    let (card, at) = any_link(random, &draft);
    let to = if random.once_in(8) { random.bits() as u16 } else { any_index(random, &draft) };
    draft.word(card, at, to)
}

fn swapped_links(random: &mut Random, draft: Draft) -> Draft {
    let (card, at) = any_link(random, &draft);
    let (other, place) = any_link(random, &draft);
    let (one, two) = (word_at(&draft, card, at), word_at(&draft, other, place));
    draft.word(card, at, two).word(other, place, one)
}

fn repeated_link(random: &mut Random, draft: Draft) -> Draft {
    let (card, at) = any_link(random, &draft);
    let (other, place) = any_link(random, &draft);
    let index = word_at(&draft, other, place);
    draft.word(card, at, index)
}

/// A card of the same kind as a random one, and that one.
fn two_alike(random: &mut Random, draft: &Draft) -> (usize, usize) {
    let one = any_card(random, draft);
    let kind = draft.bytes[one * CARD];
    let alike: Vec<usize> = (0..draft.cards()).filter(|c| draft.bytes[c * CARD] == kind).collect();
    (one, alike[random.below(alike.len())])
}

/// A word of a card as another card of its kind has it: equal tags, equal classes.
fn copied_field(random: &mut Random, draft: Draft) -> Draft {
    let (from, to) = two_alike(random, &draft);
    if random.once_in(2) {
        let (low, high) = (word_at(&draft, from, 4), word_at(&draft, from, 6));
        return draft.word(to, 4, low).word(to, 6, high);
    }
    let at = CLASSES[random.below(CLASSES.len())];
    let value = word_at(&draft, from, at);
    draft.word(to, at, value)
}

/// Fewer bytes, or fewer cards with or without the number that says so.
fn cut_short(random: &mut Random, draft: Draft) -> Draft {
    if random.once_in(3) {
        let length = random.below(draft.bytes.len() + 1);
        return draft.cut(length);
    }
    let cards = random.within(1, draft.cards());
    let shorter = draft.cut(cards * CARD);
    if random.once_in(3) {
        return shorter;
    }
    shorter.number(cards as u16)
}

/// More bytes, or more cards: zeros, noise, or a card that is there already.
fn grown(random: &mut Random, draft: Draft) -> Draft {
    if random.once_in(4) {
        let more = random.within(1, 40);
        return draft.and(&vec![0; more]);
    }
    let mut card = [0; CARD];
    match random.below(3) {
        0 => {}
        1 => card.iter_mut().for_each(|byte| *byte = random.byte()),
        _ => {
            let from = any_card(random, &draft) * CARD;
            card.copy_from_slice(&draft.bytes[from..from + CARD]);
        }
    }
    draft.and_card(card)
}

fn swapped_cards(random: &mut Random, mut draft: Draft) -> Draft {
    let (one, two) = (any_card(random, &draft), any_card(random, &draft));
    for at in 0..CARD {
        draft.bytes.swap(one * CARD + at, two * CARD + at);
    }
    draft
}

/// A byte that a rule or a permitted set may have, in its place.
fn small_field(random: &mut Random, draft: Draft) -> Draft {
    let card = any_card(random, &draft);
    let at = [1, 4, 5, 6, 7, 8, 10, 12, 13, 14][random.below(10)];
    let value = random.below(16) as u8;
    draft.byte(card, at, value)
}

/// A card of the kind, where there is one.
fn any_of_kind(random: &mut Random, draft: &Draft, kind: u8) -> Option<usize> {
    let cards: Vec<usize> = (0..draft.cards()).filter(|card| draft.bytes[card * CARD] == kind).collect();
    (!cards.is_empty()).then(|| cards[random.below(cards.len())])
}

/// A step that is skipped or is not, or has neither mark.
fn marked_step(random: &mut Random, draft: Draft) -> Draft {
    let Some(card) = any_of_kind(random, &draft, STEP) else {
        return draft;
    };
    let mark = [0, 1, 1, 2, 3, 255][random.below(6)];
    draft.byte(card, 1, mark)
}

/// A rule of another kind, one that there is or one beyond, or with a limit at an end of its range or outside.
fn other_rule(random: &mut Random, draft: Draft) -> Draft {
    let Some(card) = any_of_kind(random, &draft, RULE) else {
        return draft;
    };
    if random.once_in(2) {
        return draft.byte(card, 1, random.within(0, usize::from(MAX_LOAD) + 2) as u8);
    }
    let size = word_at(&draft, card, 6).count_ones() as u8;
    draft.byte(card, 5, [0, 1, size, size + 1][random.below(4)])
}

/// Another version, another number of class levels, both, or something after them.
fn other_header(random: &mut Random, draft: Draft) -> Draft {
    let (version, levels) = ([0, 1, 1, 2, 2, 3, 255][random.below(7)], [0, 1, 2, 3, 4, 255][random.below(6)]);
    match random.below(4) {
        0 => draft.byte(0, 1, version),
        1 => draft.byte(0, CLASS_LEVELS, levels),
        2 => draft.byte(0, 1, version).byte(0, CLASS_LEVELS, levels),
        _ => draft.byte(0, random.within(CLASS_LEVELS + 1, CARD - 1), random.byte()),
    }
}

/// Somebody's class at a level that the sheet has or has not: zero, a small number, or one with a high byte.
fn other_class(random: &mut Random, draft: Draft) -> Draft {
    let Some(card) = any_of_kind(random, &draft, PERSON) else {
        return draft;
    };
    let at = CLASSES[random.below(CLASSES.len())];
    let old = word_at(&draft, card, at);
    let class = match random.below(4) {
        0 => 0,
        1 => old ^ 1 << random.within(8, 15),
        _ => random.within(1, 7) as u16,
    };
    draft.word(card, at, class)
}

/// One of the three chains too long, in a sheet that is short elsewhere.
fn crowded(random: &mut Random) -> Draft {
    let over = random.within(1, 3);
    let (people, steps, rules) = match random.below(3) {
        0 => (MOST_PEOPLE + over, random.within(1, 6), random.below(6)),
        1 => (random.within(1, 6), MOST_STEPS + over, random.below(6)),
        _ => (random.within(1, 6), random.within(2, 6), MOST_RULES + over),
    };
    let form = any_form(random);
    let job = job_of(random, form, people, steps, rules);
    let job = with_skipped(random, job);
    let draft = laid(random, &job);
    if random.once_in(2) {
        return draft;
    }
    damage(random, draft)
}

/// Good fields on every card, and indices at random.
fn tangled(random: &mut Random, jobs: Jobs) -> Draft {
    let job = jobs(random);
    let mut draft = laid(random, &job);
    for card in 1..draft.cards() {
        if random.once_in(3) {
            let to = any_index(random, &draft);
            draft = draft.next(card, to);
        }
    }
    draft
}

/// A good header, and cards of noise with small bytes.
fn headed(random: &mut Random) -> Draft {
    let cards = random.within(1, MOST_CARDS);
    let bytes = (0..cards * CARD).map(|_| random.below(5) as u8).collect();
    let index = |random: &mut Random| random.below(cards + 1) as u16;
    let (people, steps, rules) = (index(random), index(random), index(random));
    let form = any_form(random);
    Draft::of(bytes)
        .byte(0, 0, HEADER)
        .next(0, 0)
        .first_person(people)
        .first_step(steps)
        .first_rule(rules)
        .number(cards as u16)
        .long(0, CLASS_LEVELS, 0)
        .form(form)
}

fn noise(random: &mut Random) -> Draft {
    let length = match random.below(20) {
        0..=5 => random.below(64),
        6..=12 => CARD * random.below(MOST_CARDS + 1),
        13..=18 => random.below(5_000),
        _ => random.below(LONGEST + 1),
    };
    Draft::of((0..length).map(|_| random.byte()).collect())
}

#[cfg(test)]
mod tests {
    use super::*;
    use crate::job::Form;
    use crate::reader::{read, stated_form};
    use crate::refusal::{BAD_LENGTH, CLASS_IN_TWO_CLASSES, LOOSE_CARD};
    use std::collections::BTreeSet;

    #[test]
    fn good_sheets_are_read_as_they_were_made() {
        let mut random = Random::new(11);
        for _ in 0..2_000 {
            let made = good(&mut random, good_job);
            assert_eq!(read(&made.sheet).ok(), made.job);
        }
    }

    #[test]
    fn every_refusal_comes_up_in_every_form() {
        let mut random = Random::new(12);
        let sheets: Vec<Vec<u8>> = (0..40_000).map(|_| sample(&mut random).sheet).collect();
        for form in Form::ALL {
            let answers = sheets.iter().filter(|sheet| stated_form(sheet) == Some(form)).map(|sheet| read(sheet));
            let numbers: BTreeSet<u32> = answers.filter_map(|answer| answer.err()).map(|r| r.number).collect();
            // With one level no class lies in another.
            let given = |number: &u32| *number != CLASS_IN_TWO_CLASSES || form.class_levels() > 1;
            assert_eq!(numbers, (BAD_LENGTH..=LOOSE_CARD).filter(given).collect(), "{form}");
        }
    }
}
