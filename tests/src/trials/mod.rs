//! The sheets to try, each with a name that says what is tried and the answer that the paper gives it.

mod chains;
mod contents;
mod damage;
mod file;
mod levels;
pub mod papers;
mod points;
mod skipped;
mod together;

use crate::by_hand::Sheet;
use crate::{loads, records};
use model::builder::{lay, Draft};
use model::reader::{read, text};

pub struct Trial {
    pub name: String,
    pub sheet: Vec<u8>,
    pub answer: String,
}

fn trial(name: impl Into<String>, sheet: Draft, answer: String) -> Trial {
    Trial { name: name.into(), sheet: sheet.bytes, answer }
}

fn reads(people: usize, steps: usize, rules: usize) -> String {
    format!("READ {people} {steps} {rules}")
}

fn refused(number: u32, card: usize) -> String {
    format!("REFUSED {number} CARD {card}")
}

/// A sheet that is planned as well.
fn planned(sheet: &Sheet) -> Trial {
    let job = &sheet.job;
    trial(&sheet.name, lay(job), reads(job.people.len(), sheet.remaining, job.rules.len()))
}

/// Every trial, in the order of the file.
pub fn all() -> Vec<Trial> {
    let mut trials = papers::trials();
    trials.extend(file::trials());
    trials.extend(chains::trials());
    trials.extend(contents::trials());
    trials.extend(points::trials());
    trials.extend(damage::trials());
    trials.extend(together::trials());
    trials.extend(skipped::trials());
    trials.extend(levels::trials());
    trials.extend(loads::all().iter().map(planned));
    trials
}

/// What the program reads, and what it has to write by the model.
pub fn files() -> (Vec<u8>, String) {
    let mut input = Vec::new();
    let mut output = String::new();
    for trial in all() {
        records::add(&mut input, &trial.name, &trial.sheet);
        let answer = text(&read(&trial.sheet));
        output += &format!("{}: {}\n", trial.name, answer);
    }
    (input, output)
}

#[cfg(test)]
mod tests {
    use super::*;
    use std::collections::HashSet;

    #[test]
    fn the_model_gives_each_answer() {
        for trial in all() {
            let answer = text(&read(&trial.sheet));
            assert_eq!(answer, trial.answer, "{}", trial.name);
        }
    }

    #[test]
    fn names_are_short_plain_and_different() {
        let mut met = HashSet::new();
        for trial in all() {
            let plain = |b: u8| b == b' ' || b.is_ascii_graphic();
            assert!(trial.name.len() <= 60, "{}", trial.name);
            assert!(trial.name.bytes().all(plain), "{}", trial.name);
            assert!(met.insert(trial.name.clone()), "{}", trial.name);
        }
    }

    #[test]
    fn every_refusal_is_tried_at_more_than_one_card() {
        for number in 3..=12 {
            let start = format!("REFUSED {number} CARD ");
            let answers = all().into_iter().map(|trial| trial.answer);
            let cards: HashSet<String> = answers.filter(|a| a.starts_with(&start)).collect();
            assert_eq!(cards.len() > 1, number > 4, "refusal {number}");
            assert!(!cards.is_empty(), "refusal {number}");
        }
    }
}
