//! Refusals 5, 6, 7, 9 and 12: where the chains lead.

use super::{reads, refused, trial, Trial};
use model::builder::{job_w, lay, lay_at, plain, plain_job, sheet_w, spread_w, Draft};
use model::job::Job;

pub fn trials() -> Vec<Trial> {
    let mut trials = index();
    trials.extend(again());
    trials.extend(kind());
    trials.extend(count());
    trials.extend(loose());
    trials
}

fn index() -> Vec<Trial> {
    let w = sheet_w;
    let mut trials = vec![
        trial("5, first person is the number of cards", w().first_person(11), refused(5, 0)),
        trial("5, first person is 65,535", w().first_person(65_535), refused(5, 0)),
        trial("5, first person is 256 too high", w().first_person(257), refused(5, 0)),
        trial("5, first step is the number of cards", w().first_step(11), refused(5, 0)),
        trial("5, first step is 256 too high", w().first_step(261), refused(5, 0)),
        trial("5, first rule is the number of cards", w().first_rule(11), refused(5, 0)),
        trial("5, first rule is 256 too high", w().first_rule(264), refused(5, 0)),
        trial("5, a lone header with first person 1", lone().first_person(1), refused(5, 0)),
        trial("5, a full sheet, first person 141", plain(64, 12, 64).first_person(141), refused(5, 0)),
        trial("5, a full sheet, last rule's next 141", plain(64, 12, 64).next(140, 141), refused(5, 140)),
        trial("5, next is 65,535", w().next(2, 65_535), refused(5, 2)),
        trial("5, next is 256", w().next(4, 256), refused(5, 4)),
        trial("5, mixed cards, third person", spread_w().next(7, 11), refused(5, 7)),
        trial("5, mixed cards, last step", spread_w().next(5, 12), refused(5, 5)),
    ];
    for card in 1..=10 {
        let name = format!("5, next of card {card} is the number of cards");
        trials.push(trial(name, w().next(card, 11), refused(5, card)));
    }
    trials
}

fn lone() -> Draft {
    lay(&Job::default())
}

fn again() -> Vec<Trial> {
    let w = sheet_w;
    let mut trials = vec![
        trial("6, last person back to the first", w().next(4, 1), refused(6, 1)),
        trial("6, last person back to the second", w().next(4, 2), refused(6, 2)),
        trial("6, last person back to the one before", w().next(4, 3), refused(6, 3)),
        trial("6, last step back to the first", w().next(7, 5), refused(6, 5)),
        trial("6, last rule back to the first", w().next(10, 8), refused(6, 8)),
        trial("6, second rule back to the first", w().next(9, 8), refused(6, 8)),
        trial("6, step chain runs into a person card", w().next(7, 4), refused(6, 4)),
        trial("6, rules chain runs into a person card", w().next(10, 2), refused(6, 2)),
        trial("6, rules chain runs into a step card", w().next(10, 6), refused(6, 6)),
        trial("6, first step names a person card", w().first_step(3), refused(6, 3)),
        trial("6, first rule names a step card", w().first_rule(5), refused(6, 5)),
        trial("6, mixed cards, last person back to the first", spread_w().next(4, 9), refused(6, 9)),
        trial("6, mixed cards, rules run into a step", spread_w().next(6, 10), refused(6, 10)),
    ];
    for card in 2..=9 {
        let name = format!("6, card {card} is its own next");
        if card != 6 {
            trials.push(trial(name, w().next(card, card as u16), refused(6, card)));
        }
    }
    trials
}

fn kind() -> Vec<Trial> {
    let w = sheet_w;
    let mut trials = vec![
        trial("7, people chain runs into a rule card", w().next(4, 8), refused(7, 8)),
        trial("7, people chain jumps to a step card", w().next(1, 6), refused(7, 6)),
        trial("7, step chain runs into a rule card", w().next(7, 8), refused(7, 8)),
        trial("7, first person names a step card", w().first_person(5), refused(7, 5)),
        trial("7, first person names a rule card", w().first_person(10), refused(7, 10)),
        trial("7, first step names a rule card", w().first_step(9), refused(7, 9)),
        trial("7, mixed cards, people run into a rule", spread_w().next(4, 6), refused(7, 6)),
    ];
    for card in 1..=10 {
        let right = if card < 5 { 2 } else { 3 + u8::from(card > 7) };
        for kind in [0, 1, 2, 3, 4, 5, 255] {
            if kind != right {
                let name = format!("7, card {card} of kind {kind}");
                trials.push(trial(name, w().byte(card, 0, kind), refused(7, card)));
            }
        }
    }
    trials
}

fn count() -> Vec<Trial> {
    let mixed = |job: &Job, first: usize| {
        let cards = job.people.len() + job.steps.len() + job.rules.len();
        let places: Vec<usize> = (0..cards).map(|k| (k + first - 1) % cards + 1).collect();
        lay_at(job, &places)
    };
    let job = plain_job;
    vec![
        trial("9, no people", plain(0, 3, 0), refused(9, 0)),
        trial("9, no steps", plain(3, 0, 0), refused(9, 0)),
        trial("9, rules alone", plain(0, 0, 3), refused(9, 0)),
        trial("9, people and rules, no steps", plain(2, 0, 2), refused(9, 0)),
        trial("9, W with its people cut off", sheet_w().first_person(0), refused(9, 0)),
        trial("9, W with its steps cut off", sheet_w().first_step(0), refused(9, 0)),
        trial("9, W with its rules cut off is no 9", sheet_w().first_rule(0), refused(12, 8)),
        trial("9, no rules is no fault", plain(2, 2, 0), reads(2, 2, 0)),
        trial("9, 64 people, 12 steps, 64 rules", plain(64, 12, 64), reads(64, 12, 64)),
        trial("9, 66 people", plain(66, 1, 0), refused(9, 65)),
        trial("9, 139 people", plain(139, 1, 0), refused(9, 65)),
        trial("9, 20 steps", plain(3, 20, 0), refused(9, 16)),
        trial("9, 137 rules", plain(1, 2, 137), refused(9, 68)),
        trial("9, 65 people, cards from 30 on and round", mixed(&job(65, 1, 0), 30), refused(9, 28)),
        trial("9, 13 steps, cards from 5 on and round", mixed(&job(4, 13, 0), 5), refused(9, 4)),
        trial("9, 65 rules, cards from 50 on and round", mixed(&job(2, 2, 65), 50), refused(9, 49)),
    ]
}

fn loose() -> Vec<Trial> {
    let w = sheet_w;
    vec![
        trial("12, a card of zeros at the end", w().and_card([0; 16]), refused(12, 11)),
        trial("12, two cards of zeros at the end", w().and_card([0; 16]).and_card([0; 16]), refused(12, 11)),
        trial("12, people chain cut after the first", w().next(1, 0), refused(12, 2)),
        trial("12, people chain cut after the third", w().next(3, 0), refused(12, 4)),
        trial("12, second person left out", w().next(1, 3), refused(12, 2)),
        trial("12, first person left out", w().first_person(2), refused(12, 1)),
        trial("12, second step left out", no_late_bits().next(5, 7), refused(12, 6)),
        trial("12, first rule left out", w().first_rule(9), refused(12, 8)),
        trial("12, last rule left out", w().next(9, 0), refused(12, 10)),
        trial("12, one of each chain left out", one_of_each_out(), refused(12, 4)),
        trial("12, a full sheet without its last rule", plain(64, 12, 64).next(139, 0), refused(12, 140)),
        trial("12, mixed cards, last person left out", spread_w().next(7, 0), refused(12, 4)),
        trial("12, mixed cards, rules left out", spread_w().first_rule(0), refused(12, 3)),
    ]
}

/// W with nobody permitted the last step, and rules over the first two.
fn no_late_bits() -> Draft {
    let mut job = job_w();
    job.people.iter_mut().for_each(|person| person.permitted = 3);
    job.rules.iter_mut().for_each(|rule| rule.scope = 3);
    lay(&job)
}

fn one_of_each_out() -> Draft {
    no_late_bits().next(3, 0).next(6, 0).next(9, 0)
}
