//! The words for rule kinds and levels, and for a step that is skipped.

use model::job::{Form, AT_LEAST, AT_MOST, DIFFERENT, MAX_LOAD, MOST_CLASS_LEVELS, SAME};

type Named = (u8, &'static str);

pub const KINDS: [Named; 5] =
    [(SAME, "same"), (DIFFERENT, "different"), (AT_MOST, "at-most"), (AT_LEAST, "at-least"), (MAX_LOAD, "max-load")];

/// The class levels, topmost first. A sheet has the first of them.
pub const CLASSES: [&str; MOST_CLASS_LEVELS] = ["shop", "bench", "pair"];

/// The level after the last class level.
pub const PERSON: &str = "person";

pub const SKIPPED: &str = "skipped";

/// A level by its word, before it is known how many the sheet has.
#[derive(Clone, Copy, Debug, PartialEq, Eq)]
pub enum Level {
    Class(u8),
    Person,
}

pub fn kind(word: &str) -> Option<u8> {
    KINDS.iter().find(|(_, known)| *known == word).map(|(number, _)| *number)
}

pub fn level(word: &str) -> Option<Level> {
    if word == PERSON {
        return Some(Level::Person);
    }
    CLASSES.iter().position(|known| *known == word).map(|at| Level::Class(at as u8 + 1))
}

/// The word for a kind that a job may have.
pub fn kind_word(kind: u8) -> &'static str {
    KINDS.iter().find(|(known, _)| *known == kind).expect("a kind of a job").1
}

/// The word for a class level.
pub fn class_word(level: u8) -> &'static str {
    CLASSES[usize::from(level) - 1]
}

/// The word for a level that a rule of such a sheet may name.
pub fn level_word(form: Form, level: u8) -> &'static str {
    if level == form.person_level() {
        return PERSON;
    }
    class_word(level)
}
