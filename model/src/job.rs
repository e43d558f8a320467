//! A job: people, steps and rules, with the numbers that a sheet has for kinds and levels.

use std::fmt;
use std::ops::RangeInclusive;

pub const MOST_PEOPLE: usize = 64;
pub const MOST_STEPS: usize = 12;
pub const MOST_RULES: usize = 64;

/// The kinds of rules.
pub const SAME: u8 = 1;
pub const DIFFERENT: u8 = 2;
pub const AT_MOST: u8 = 3;
pub const AT_LEAST: u8 = 4;
pub const MAX_LOAD: u8 = 5;

/// The kinds that have a limit; the others are over two steps, and their limit is zero.
pub const LIMITED: [u8; 3] = [AT_MOST, AT_LEAST, MAX_LOAD];

/// The levels of a version 1 sheet.
pub const BY_SHOP: u8 = 1;
pub const BY_BENCH: u8 = 2;
pub const BY_PERSON: u8 = 3;

/// How many levels of classes there may be above the person.
pub const MOST_CLASS_LEVELS: usize = 3;

/// The version of a sheet, and how many levels of classes it has above the person.
#[derive(Clone, Copy, Debug, Default, PartialEq, Eq)]
pub enum Form {
    /// Version 1: shop and bench.
    #[default]
    First,
    /// Version 2: one to three levels.
    Second { class_levels: u8 },
}

#[derive(Clone, Debug, PartialEq, Eq)]
pub struct Person {
    pub tag: u32,
    /// The class at each level, topmost first; zero where the sheet has no such level.
    pub class: [u16; MOST_CLASS_LEVELS],
    pub permitted: u16,
}

#[derive(Clone, Debug, PartialEq, Eq)]
pub struct Step {
    pub tag: u32,
    /// The instrument does not need it: nobody does it.
    pub skipped: bool,
}

#[derive(Clone, Debug, PartialEq, Eq)]
pub struct Rule {
    pub kind: u8,
    pub level: u8,
    pub limit: u8,
    pub scope: u16,
}

#[derive(Clone, Debug, Default, PartialEq, Eq)]
pub struct Job {
    pub form: Form,
    pub people: Vec<Person>,
    pub steps: Vec<Step>,
    pub rules: Vec<Rule>,
}

pub fn has_limit(kind: u8) -> bool {
    LIMITED.contains(&kind)
}

/// The steps of a mask: of a scope, or of what somebody is permitted.
pub fn steps_of(mask: u16) -> impl Iterator<Item = usize> {
    (0..MOST_STEPS).filter(move |step| mask >> step & 1 == 1)
}

impl Form {
    /// Every form that a sheet may have.
    pub const ALL: [Form; 4] = [
        Form::First,
        Form::Second { class_levels: 1 },
        Form::Second { class_levels: 2 },
        Form::Second { class_levels: 3 },
    ];

    pub fn class_levels(self) -> u8 {
        match self {
            Form::First => BY_BENCH,
            Form::Second { class_levels } => class_levels,
        }
    }

    /// "The person is the level after the last, and the highest a rule may name."
    pub fn person_level(self) -> u8 {
        self.class_levels() + 1
    }

    /// The levels whose classes lie in classes of the level above.
    pub fn nested_levels(self) -> RangeInclusive<u8> {
        2..=self.class_levels()
    }
}

/// In words, as in the names of tests and tables.
impl fmt::Display for Form {
    fn fmt(&self, out: &mut fmt::Formatter) -> fmt::Result {
        match self {
            Form::First => write!(out, "version 1"),
            Form::Second { class_levels: 1 } => write!(out, "version 2, 1 class level"),
            Form::Second { class_levels } => write!(out, "version 2, {class_levels} class levels"),
        }
    }
}

impl Person {
    pub fn may(&self, step: usize) -> bool {
        self.permitted >> step & 1 == 1
    }

    /// Whether the two put one class of a nested level in two classes of the level above.
    pub fn puts_in_two(&self, other: &Person, level: u8) -> bool {
        let at = usize::from(level) - 1;
        self.class[at] == other.class[at] && self.class[at - 1] != other.class[at - 1]
    }
}

impl Job {
    /// The class of somebody, by the place in crew order, at a level. In version 1 "level 1 is the shop, 2 the bench, 3 the
    /// person".
    pub fn class(&self, person: usize, level: u8) -> u32 {
        let held = &self.people[person];
        if level == self.form.person_level() {
            return held.tag;
        }
        held.class[usize::from(level) - 1].into()
    }

    /// The steps that remain, by their places on the chain.
    pub fn remaining(&self) -> impl DoubleEndedIterator<Item = usize> + '_ {
        (0..self.steps.len()).filter(|&step| !self.steps[step].skipped)
    }

    /// "Scopes lose their skipped steps": the steps of a scope that are left.
    pub fn left(&self, scope: u16) -> impl Iterator<Item = usize> + '_ {
        steps_of(scope).filter(|&step| !self.steps[step].skipped)
    }

    /// The people who may do a step, by their places in crew order.
    pub fn permitted(&self, step: usize) -> impl Iterator<Item = usize> + '_ {
        (0..self.people.len()).filter(move |person| self.people[*person].may(step))
    }
}
