//! Refusals 8, 10 and 11: what stands on the cards.

use super::{reads, refused, trial, Trial};
use model::builder::{job_w, lay, plain, rule, sheet_w, spread_w, Draft};

pub fn trials() -> Vec<Trial> {
    let mut trials = field();
    trials.extend(rule_field());
    trials.extend(tag());
    trials.extend(bench());
    trials
}

fn field() -> Vec<Trial> {
    let w = sheet_w;
    let mut trials = vec![];
    for card in 1..=4 {
        let wrong = |what| format!("8, person card {card}, {what}");
        trials.extend([
            trial(wrong("tag 0"), w().long(card, 4, 0), refused(8, card)),
            trial(wrong("shop 0"), w().word(card, 8, 0), refused(8, card)),
            trial(wrong("bench 0"), w().word(card, 10, 0), refused(8, card)),
            trial(wrong("permitted step 3 of 3"), w().word(card, 12, 8), refused(8, card)),
            trial(wrong("permitted step 11 of 3"), w().word(card, 12, 1 << 11), refused(8, card)),
            trial(wrong("permitted step 12"), w().word(card, 12, 1 << 12), refused(8, card)),
            trial(wrong("permitted step 15"), w().word(card, 12, 1 << 15), refused(8, card)),
        ]);
    }
    for card in 5..=7 {
        let name = format!("8, step card {card}, tag 0");
        trials.push(trial(name, w().long(card, 4, 0), refused(8, card)));
    }
    trials.extend([
        trial("8, all 12 steps permitted, all 12 there", plain(2, 12, 0), reads(2, 12, 0)),
        trial("8, step 11 permitted, 11 steps there", plain(2, 11, 0).word(2, 12, 1 << 11), refused(8, 2)),
        trial("8, tag, shop and bench at their largest", largest(), reads(4, 3, 3)),
        trial("8, mixed cards, second person's tag 0", spread_w().long(2, 4, 0), refused(8, 2)),
    ]);
    trials
}

fn largest() -> Draft {
    sheet_w().long(3, 4, u32::MAX).word(3, 8, u16::MAX).word(3, 10, u16::MAX)
}

/// W with its middle rule, card 9, as given.
fn with_rule(kind: u8, level: u8, limit: u8, scope: u16) -> Draft {
    let mut job = job_w();
    job.rules[1] = rule(kind, level, limit, scope);
    lay(&job)
}

fn rule_field() -> Vec<Trial> {
    let good = [
        (1, 1, 0, 5),
        (1, 3, 0, 3),
        (2, 2, 0, 6),
        (2, 1, 0, 3),
        (3, 1, 1, 3),
        (3, 2, 2, 6),
        (3, 3, 3, 7),
        (4, 1, 1, 5),
        (4, 2, 3, 7),
        (4, 3, 2, 3),
        (5, 1, 1, 3),
        (5, 2, 2, 6),
        (5, 3, 1, 7),
        (5, 1, 3, 7),
    ];
    let bad = [
        (0, 1, 0, 6),
        (6, 1, 1, 6),
        (6, 1, 0, 6),
        (7, 1, 2, 7),
        (255, 1, 0, 6),
        (1, 0, 0, 6),
        (1, 4, 0, 6),
        (3, 0, 1, 6),
        (3, 255, 1, 6),
        (1, 1, 1, 6),
        (1, 1, 2, 6),
        (2, 1, 1, 6),
        (2, 1, 2, 6),
        (1, 1, 0, 0),
        (1, 1, 0, 2),
        (1, 1, 0, 7),
        (2, 1, 0, 4),
        (2, 1, 0, 7),
        (3, 1, 0, 6),
        (3, 1, 3, 6),
        (3, 1, 4, 7),
        (3, 1, 1, 4),
        (3, 1, 0, 0),
        (4, 1, 0, 7),
        (4, 1, 3, 3),
        (4, 1, 255, 7),
        (4, 1, 1, 1),
        (5, 1, 0, 6),
        (5, 1, 3, 6),
        (5, 1, 4, 7),
        (5, 1, 255, 7),
        (5, 1, 1, 4),
        (5, 1, 1, 0),
        (5, 0, 1, 6),
        (5, 4, 1, 6),
        (5, 1, 2, 11),
        (5, 1, 1, 0x0107),
        (1, 1, 0, 9),
        (1, 1, 0, 12),
        (2, 1, 0, 0x8001),
        (3, 1, 2, 11),
        (4, 1, 1, 0x0107),
        (4, 1, 1, 0x1003),
    ];
    let name = |(kind, level, limit, scope): (u8, u8, u8, u16)| format!("8, rule {kind},{level},{limit},{scope} in W");
    let sheet = |(kind, level, limit, scope)| with_rule(kind, level, limit, scope);
    let mut trials: Vec<Trial> = good.map(|r| trial(name(r), sheet(r), reads(4, 3, 3))).into();
    trials.extend(bad.map(|r| trial(name(r), sheet(r), refused(8, 9))));
    trials.extend([
        trial("8, first rule of level 0", sheet_w().byte(8, 4, 0), refused(8, 8)),
        trial("8, last rule of kind 9", sheet_w().byte(10, 1, 9), refused(8, 10)),
        trial("8, 12 steps in scope, limit 12", plain(1, 12, 1).byte(14, 5, 12).word(14, 6, 4_095), reads(1, 12, 1)),
        trial("8, 12 steps in scope, limit 13", plain(1, 12, 1).byte(14, 5, 13).word(14, 6, 4_095), refused(8, 14)),
        trial("8, kind 5 over 12 steps, limit 12", of_kind_5(12), reads(1, 12, 1)),
        trial("8, kind 5 over 12 steps, limit 13", of_kind_5(13), refused(8, 14)),
        trial("8, kind 5 over 12 steps, limit 0", of_kind_5(0), refused(8, 14)),
        trial("8, kind 5, unnamed byte 8 is 1", of_kind_5(1).byte(14, 8, 1), refused(8, 14)),
        trial("8, last rule of kind 6", sheet_w().byte(10, 1, 6), refused(8, 10)),
        trial("8, 12 steps there, scope bit 12", plain(1, 12, 1).word(14, 6, 4_097), refused(8, 14)),
        trial("8, rule 64 of 64 with limit 0", plain(1, 2, 64).byte(67, 5, 0), refused(8, 67)),
        trial("8, mixed cards, second rule's scope empty", spread_w().word(3, 6, 0), refused(8, 3)),
    ]);
    trials
}

/// One person and 12 steps, with a rule of kind 5 over all of them, card 14.
fn of_kind_5(limit: u8) -> Draft {
    plain(1, 12, 1).byte(14, 1, 5).byte(14, 5, limit).word(14, 6, 4_095)
}

fn tag() -> Vec<Trial> {
    let w = sheet_w;
    vec![
        trial("10, second person has the first's tag", w().long(2, 4, 101), refused(10, 2)),
        trial("10, first person has the second's tag", w().long(1, 4, 102), refused(10, 2)),
        trial("10, last person has the first's tag", w().long(4, 4, 101), refused(10, 4)),
        trial("10, third person has the last's tag", w().long(3, 4, 104), refused(10, 4)),
        trial("10, three people with one tag", w().long(3, 4, 101).long(4, 4, 101), refused(10, 3)),
        trial("10, two pairs of people", w().long(3, 4, 102).long(4, 4, 101), refused(10, 3)),
        trial("10, second step has the first's tag", w().long(6, 4, 10), refused(10, 6)),
        trial("10, last step has the first's tag", w().long(7, 4, 10), refused(10, 7)),
        trial("10, last step has the second's tag", w().long(7, 4, 20), refused(10, 7)),
        trial("10, three steps with one tag", w().long(6, 4, 10).long(7, 4, 10), refused(10, 6)),
        trial("10, tags that differ in the top byte only", w().long(2, 4, 101 + (1 << 24)), reads(4, 3, 3)),
        trial("10, tags that differ in the low byte only", far_tags(0x0102_0304), reads(4, 3, 3)),
        trial("10, large tags that are equal", far_tags(0x0102_0305), refused(10, 2)),
        trial("10, 64 people, last has the first's tag", plain(64, 1, 0).long(64, 4, 1_001), refused(10, 64)),
        trial("10, 12 steps, last has the 11th's tag", plain(1, 12, 0).long(13, 4, 2_011), refused(10, 13)),
        trial("10, mixed cards, later on the chain, lower card", spread_w().long(2, 4, 101), refused(10, 2)),
        trial("10, mixed cards, earlier on the chain, higher card", spread_w().long(9, 4, 104), refused(10, 4)),
        trial("10, mixed cards, steps", spread_w().long(1, 4, 30), refused(10, 5)),
    ]
}

fn far_tags(second: u32) -> Draft {
    sheet_w().long(1, 4, 0x0102_0305).long(2, 4, second)
}

fn bench() -> Vec<Trial> {
    let w = sheet_w;
    vec![
        trial("11, second person in another shop", w().word(2, 8, 3), refused(11, 2)),
        trial("11, first person in another shop", w().word(1, 8, 3), refused(11, 2)),
        trial("11, third person at bench 3", w().word(3, 10, 3), refused(11, 4)),
        trial("11, last person at bench 2", w().word(4, 10, 2), refused(11, 4)),
        trial("11, third person at bench 1, shop 2", w().word(3, 10, 1).word(3, 8, 2), refused(11, 3)),
        trial("11, shops differ in the high byte only", w().word(2, 8, 257), refused(11, 2)),
        trial("11, benches differ in the high byte only", w().word(2, 10, 257).word(2, 8, 9), reads(4, 3, 3)),
        trial("11, four people on one bench in one shop", one_bench(1), reads(4, 3, 3)),
        trial("11, four people on one bench, last elsewhere", one_bench(2), refused(11, 4)),
        trial("11, 64 people, last on the first's bench", last_of_64(), refused(11, 64)),
        trial("11, mixed cards, later on the chain, lower card", spread_w().word(2, 8, 5), refused(11, 2)),
        trial("11, mixed cards, last person", spread_w().word(4, 10, 2), refused(11, 4)),
    ]
}

fn one_bench(shop: u16) -> Draft {
    sheet_w().word(3, 10, 1).word(4, 10, 1).word(4, 8, shop)
}

fn last_of_64() -> Draft {
    plain(64, 1, 0).word(64, 10, 1).word(64, 8, 2)
}
