//! The card reader as the paper on the job sheet describes it, in the paper's order.

use crate::card::{CARD, CLASSES, CLASS_LEVELS, HEADER, MOST_BYTES, PERSON, RULE, SKIPPED, STEP, VERSION_1, VERSION_2};
use crate::job::{
    Form, Job, Person, Rule, Step, AT_LEAST, AT_MOST, DIFFERENT, MAX_LOAD, MOST_CLASS_LEVELS, MOST_PEOPLE, MOST_RULES,
    MOST_STEPS, SAME,
};
use crate::refusal::{
    refuse, Refusal, BAD_FIELD, BAD_HEADER, BAD_INDEX, BAD_LENGTH, CARD_AGAIN, CLASS_IN_TWO_CLASSES, LOOSE_CARD,
    NONE_OR_TOO_MANY, TAG_TWICE, WRONG_KIND,
};
use std::collections::HashSet;

fn word(card: &[u8], at: usize) -> u16 {
    u16::from_le_bytes([card[at], card[at + 1]])
}

fn long(card: &[u8], at: usize) -> u32 {
    u32::from_le_bytes([card[at], card[at + 1], card[at + 2], card[at + 3]])
}

fn zero(bytes: &[u8]) -> bool {
    bytes.iter().all(|&byte| byte == 0)
}

/// The form that the first card states, whatever else is wrong with it: in version 1 byte 12 is zero, and "in a version 2 sheet
/// (header byte 1 is 2) header byte 12 gives the number of class levels above the person, 1 to 3".
pub fn stated_form(sheet: &[u8]) -> Option<Form> {
    let levels = *sheet.get(CLASS_LEVELS)?;
    match (sheet[1], levels) {
        (VERSION_1, 0) => Some(Form::First),
        (VERSION_2, 1..) if usize::from(levels) <= MOST_CLASS_LEVELS => Some(Form::Second { class_levels: levels }),
        _ => None,
    }
}

/// "Header, card 0: next is 0; bytes 10-11 the number of cards in the file."
fn header(card: &[u8], cards: usize) -> Option<Form> {
    let good = card[0] == HEADER && word(card, 2) == 0 && word(card, 10) as usize == cards && zero(&card[13..]);
    stated_form(card).filter(|_| good)
}

/// "Bytes 8-9, 10-11 and 14-15 of a person card, not zero where used, zero where not." Permitted bits 12 to 15 are tested here,
/// lower ones when the steps are known.
fn person(card: &[u8], form: Form) -> Option<Person> {
    let found = Person { tag: long(card, 4), class: CLASSES.map(|at| word(card, at)), permitted: word(card, 12) };
    let (used, unused) = found.class.split_at(form.class_levels().into());
    let named = found.tag != 0 && used.iter().all(|&class| class != 0);
    let unnamed = card[1] == 0 && unused.iter().all(|&class| class == 0);
    (named && unnamed && found.permitted < 1 << MOST_STEPS).then_some(found)
}

/// "Step: bytes 4-7 tag, not zero." "Byte 1 of a step card may be 1, skipped."
fn step(card: &[u8]) -> Option<Step> {
    let found = Step { tag: long(card, 4), skipped: card[1] == SKIPPED };
    let marked = card[1] == 0 || card[1] == SKIPPED;
    (found.tag != 0 && marked && zero(&card[8..])).then_some(found)
}

/// Rule kinds 1 and 2 have two steps in scope and limit 0; 3, 4 and 5 two or more, and limit 1 to their number. The person is
/// "the highest a rule may name".
fn rule(card: &[u8], form: Form, steps: usize) -> Option<Rule> {
    let found = Rule { kind: card[1], level: card[4], limit: card[5], scope: word(card, 6) };
    let size = found.scope.count_ones();
    let sized = match found.kind {
        SAME | DIFFERENT => size == 2 && found.limit == 0,
        AT_MOST | AT_LEAST | MAX_LOAD => size >= 2 && found.limit >= 1 && u32::from(found.limit) <= size,
        _ => false,
    };
    let leveled = (1..=form.person_level()).contains(&found.level);
    let within = usize::from(found.scope) < 1 << steps;
    (sized && leveled && within && zero(&card[8..])).then_some(found)
}

/// What a chain may hold.
struct Link {
    kind: u8,
    most: usize,
}

/// The cards of one chain with what they hold. "At each card 5 (for the index leading to it), 6, 9, 7, 8."
fn chain<T>(
    cards: &[&[u8]],
    reached: &mut HashSet<usize>,
    first: u16,
    link: Link,
    fields: impl Fn(&[u8]) -> Option<T>,
) -> Result<Vec<(usize, T)>, Refusal> {
    let mut found = Vec::new();
    let mut holder = 0;
    let mut index = first as usize;
    while index != 0 {
        let Some(card) = cards.get(index) else {
            return refuse(BAD_INDEX, holder);
        };
        if !reached.insert(index) {
            return refuse(CARD_AGAIN, index);
        }
        if found.len() == link.most {
            return refuse(NONE_OR_TOO_MANY, index);
        }
        if card[0] != link.kind {
            return refuse(WRONG_KIND, index);
        }
        let Some(held) = fields(card) else {
            return refuse(BAD_FIELD, index);
        };
        found.push((index, held));
        holder = index;
        index = word(card, 2) as usize;
    }
    Ok(found)
}

/// The first card along a chain of which `clashes` is true with an earlier one.
fn clash<T>(chain: &[(usize, T)], clashes: impl Fn(&T, &T) -> bool) -> Option<usize> {
    let later = (0..chain.len()).find(|&k| chain[..k].iter().any(|(_, e)| clashes(e, &chain[k].1)));
    later.map(|k| chain[k].0)
}

fn held<T>(chain: Vec<(usize, T)>) -> Vec<T> {
    chain.into_iter().map(|(_, held)| held).collect()
}

/// Reads a sheet: the job, or the first refusal found.
pub fn read(sheet: &[u8]) -> Result<Job, Refusal> {
    if sheet.is_empty() || !sheet.len().is_multiple_of(CARD) || sheet.len() > MOST_BYTES {
        return refuse(BAD_LENGTH, 0);
    }
    let cards: Vec<&[u8]> = sheet.chunks(CARD).collect();
    let first = cards[0];
    let Some(form) = header(first, cards.len()) else {
        return refuse(BAD_HEADER, 0);
    };
    let mut reached = HashSet::new();

    let link = Link { kind: PERSON, most: MOST_PEOPLE };
    let people = chain(&cards, &mut reached, word(first, 4), link, |card| person(card, form))?;
    if people.is_empty() {
        return refuse(NONE_OR_TOO_MANY, 0);
    }

    let link = Link { kind: STEP, most: MOST_STEPS };
    let steps = chain(&cards, &mut reached, word(first, 6), link, step)?;
    if steps.is_empty() {
        return refuse(NONE_OR_TOO_MANY, 0);
    }

    let late = |p: &Person| usize::from(p.permitted) >= 1 << steps.len();
    if let Some((card, _)) = people.iter().find(|(_, p)| late(p)) {
        return refuse(BAD_FIELD, *card);
    }

    let link = Link { kind: RULE, most: MOST_RULES };
    let fields = |card: &[u8]| rule(card, form, steps.len());
    let rules = chain(&cards, &mut reached, word(first, 8), link, fields)?;

    if let Some(card) = clash(&people, |e, p| e.tag == p.tag) {
        return refuse(TAG_TWICE, card);
    }
    if let Some(card) = clash(&steps, |e, s| e.tag == s.tag) {
        return refuse(TAG_TWICE, card);
    }
    // "The first person in crew order to show it", whatever the level.
    if let Some(card) = clash(&people, |e, p| form.nested_levels().any(|level| p.puts_in_two(e, level))) {
        return refuse(CLASS_IN_TWO_CLASSES, card);
    }
    if let Some(card) = (1..cards.len()).find(|card| !reached.contains(card)) {
        return refuse(LOOSE_CARD, card);
    }
    Ok(Job { form, people: held(people), steps: held(steps), rules: held(rules) })
}

/// The answer as the program under test writes it: of the steps those that remain.
pub fn text(answer: &Result<Job, Refusal>) -> String {
    match answer {
        Ok(job) => format!("READ {} {} {}", job.people.len(), job.remaining().count(), job.rules.len()),
        Err(refusal) => refusal.to_string(),
    }
}

#[cfg(test)]
mod tests {
    use super::*;
    use crate::builder::{job_w_in, lay, sheet_w_in, Draft};

    /// Sheet W, byte by byte.
    const W: [u8; 176] = [
        1, 1, 0, 0, 1, 0, 5, 0, 8, 0, 11, 0, 0, 0, 0, 0, //
        2, 0, 2, 0, 101, 0, 0, 0, 1, 0, 1, 0, 7, 0, 0, 0, //
        2, 0, 3, 0, 102, 0, 0, 0, 1, 0, 1, 0, 7, 0, 0, 0, //
        2, 0, 4, 0, 103, 0, 0, 0, 1, 0, 2, 0, 4, 0, 0, 0, //
        2, 0, 0, 0, 104, 0, 0, 0, 2, 0, 3, 0, 4, 0, 0, 0, //
        3, 0, 6, 0, 10, 0, 0, 0, 0, 0, 0, 0, 0, 0, 0, 0, //
        3, 0, 7, 0, 20, 0, 0, 0, 0, 0, 0, 0, 0, 0, 0, 0, //
        3, 0, 0, 0, 30, 0, 0, 0, 0, 0, 0, 0, 0, 0, 0, 0, //
        4, 1, 9, 0, 2, 0, 3, 0, 0, 0, 0, 0, 0, 0, 0, 0, //
        4, 1, 10, 0, 1, 0, 6, 0, 0, 0, 0, 0, 0, 0, 0, 0, //
        4, 2, 0, 0, 3, 0, 6, 0, 0, 0, 0, 0, 0, 0, 0, 0, //
    ];

    fn at(tag: u32, shop: u16, bench: u16, permitted: u16) -> Person {
        Person { tag, class: [shop, bench, 0], permitted }
    }

    fn over(kind: u8, level: u8, limit: u8, scope: u16) -> Rule {
        Rule { kind, level, limit, scope }
    }

    #[test]
    fn reads_sheet_w() {
        let job = read(&W).expect("sheet W is readable");
        let people = vec![at(101, 1, 1, 7), at(102, 1, 1, 7), at(103, 1, 2, 4), at(104, 2, 3, 4)];
        assert_eq!(job.people, people);
        assert_eq!(job.steps, [10, 20, 30].map(|tag| Step { tag, skipped: false }));
        assert_eq!(job.rules, vec![over(1, 2, 0, 3), over(1, 1, 0, 6), over(2, 3, 0, 6)]);
        assert_eq!(text(&Ok(job)), "READ 4 3 3");
    }

    #[test]
    fn sheet_w_is_what_the_builder_makes() {
        assert_eq!(crate::builder::sheet_w().bytes, W);
    }

    #[test]
    fn low_byte_comes_first() {
        let mut sheet = W;
        sheet[16 + 5] = 2;
        assert_eq!(read(&sheet).unwrap().people[0].tag, 101 + 2 * 256);
    }

    #[test]
    fn a_step_is_skipped_by_its_byte_1_alone() {
        let marked = |byte: u8| {
            let mut sheet = W;
            sheet[16 * 6 + 1] = byte;
            read(&sheet)
        };
        let skipped = |job: Job| job.steps.iter().map(|step| step.skipped).collect::<Vec<_>>();
        assert_eq!(marked(0).map(skipped), Ok(vec![false; 3]));
        assert_eq!(marked(1).map(skipped), Ok(vec![false, true, false]));
        assert_eq!(text(&marked(1)), "READ 4 2 3");
        for byte in 2..=255 {
            assert_eq!(marked(byte), Err(Refusal { number: 8, card: 6 }));
        }
    }

    #[test]
    fn fields_are_checked_as_the_card_has_them() {
        let all_skipped = [5, 6, 7].iter().fold(W, |mut sheet, step| {
            sheet[16 * step + 1] = 1;
            sheet
        });
        assert_eq!(text(&read(&all_skipped)), "READ 4 0 3");
        // Permitted step 3 of three; three steps in scope; the tag of a step that is skipped too.
        for (at, value, answer) in [
            (16 * 2 + 12, 8, "REFUSED 8 CARD 2"),
            (16 * 9 + 6, 7, "REFUSED 8 CARD 9"),
            (16 * 7 + 4, 10, "REFUSED 10 CARD 7"),
        ] {
            let mut sheet = all_skipped;
            sheet[at] = value;
            assert_eq!(text(&read(&sheet)), answer);
        }
    }

    fn answer(sheet: Draft) -> String {
        text(&read(&sheet.bytes))
    }

    #[test]
    fn a_header_states_its_version_and_in_version_2_its_class_levels() {
        for (version, levels) in (0..=255).flat_map(|version| (0..=255).map(move |levels| (version, levels))) {
            let form = match (version, levels) {
                (1, 0) => Some(Form::First),
                (2, 1..=3) => Some(Form::Second { class_levels: levels }),
                _ => None,
            };
            let sheet = sheet_w_in(form.unwrap_or_default()).byte(0, 1, version).byte(0, 12, levels);
            let expected = form.map_or(refuse(BAD_HEADER, 0), |form| Ok(job_w_in(form)));
            assert_eq!(read(&sheet.bytes), expected, "version {version}, {levels} levels");
        }
        for (form, at) in Form::ALL.into_iter().flat_map(|form| [13, 14, 15].map(|at| (form, at))) {
            assert_eq!(answer(sheet_w_in(form).byte(0, at, 1)), "REFUSED 4 CARD 0", "{form}, byte {at}");
        }
    }

    #[test]
    fn a_class_is_not_zero_where_its_level_is_used_and_zero_where_not() {
        for (form, level) in Form::ALL.into_iter().flat_map(|form| [1, 2, 3].map(|level| (form, level))) {
            let is_used = level <= form.class_levels();
            for class in [1, 256, u16::MAX] {
                let sheet = sheet_w_in(form).class(3, level, if is_used { 0 } else { class });
                assert_eq!(answer(sheet), "REFUSED 8 CARD 3", "{form}, level {level}, class {class}");
            }
        }
    }

    #[test]
    fn the_person_is_the_highest_level_that_a_rule_may_name() {
        for (form, level) in Form::ALL.into_iter().flat_map(|form| [0, 1, 2, 3, 4, 5, 255].map(|level| (form, level))) {
            let is_named = (1..=form.class_levels() + 1).contains(&level);
            let expected = if is_named { "READ 4 3 3" } else { "REFUSED 8 CARD 9" };
            assert_eq!(answer(sheet_w_in(form).byte(9, 4, level)), expected, "{form}, level {level}");
        }
    }

    #[test]
    fn the_first_person_to_put_a_class_in_two_is_named_whatever_the_level() {
        let three = sheet_w_in(Form::Second { class_levels: 3 });
        // 103, who comes before 104, is of a pair of another bench; 104 is at a bench of another shop.
        assert_eq!(answer(three.clone().class(3, 3, 1).class(4, 2, 2)), "REFUSED 11 CARD 3");
        assert_eq!(answer(three.clone().class(3, 2, 1).class(3, 1, 2).class(4, 3, 1)), "REFUSED 11 CARD 3");
        assert_eq!(answer(three.class(4, 3, 3)), "REFUSED 11 CARD 4");
    }

    #[test]
    fn with_one_level_no_class_is_in_two() {
        let job = job_w_in(Form::Second { class_levels: 1 });
        for shops in [[1, 1, 1, 1], [1, 2, 1, 2], [4, 3, 2, 1]] {
            let mut job = job.clone();
            job.people.iter_mut().zip(shops).for_each(|(person, shop)| person.class[0] = shop);
            assert_eq!(read(&lay(&job).bytes), Ok(job));
        }
    }

    #[test]
    fn a_refusal_names_number_and_card() {
        let mut sheet = W;
        sheet[16 * 6 + 15] = 1;
        let answer = read(&sheet);
        assert_eq!(answer, Err(Refusal { number: 8, card: 6 }));
        assert_eq!(text(&answer), "REFUSED 8 CARD 6");
    }
}
