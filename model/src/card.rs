//! The cards of a sheet: their length, their number and their kinds.

use crate::job::{MOST_CLASS_LEVELS, MOST_PEOPLE, MOST_RULES, MOST_STEPS};

/// The bytes of a card.
pub const CARD: usize = 16;

/// A header, and a card for each person, step and rule.
pub const MOST_CARDS: usize = 1 + MOST_PEOPLE + MOST_STEPS + MOST_RULES;
pub const MOST_BYTES: usize = CARD * MOST_CARDS;

pub const HEADER: u8 = 1;
pub const PERSON: u8 = 2;
pub const STEP: u8 = 3;
pub const RULE: u8 = 4;

/// Byte 1 of a header: the version. In version 2 its byte 12 is the number of class levels, in version 1 it is zero.
pub const VERSION_1: u8 = 1;
pub const VERSION_2: u8 = 2;
pub const CLASS_LEVELS: usize = 12;

/// Where the two bytes of a person's class at each level begin.
pub const CLASSES: [usize; MOST_CLASS_LEVELS] = [8, 10, 14];

/// Byte 1 of a step card that is skipped; of any other it is zero.
pub const SKIPPED: u8 = 1;
