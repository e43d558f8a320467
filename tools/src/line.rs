//! One line of the text, by itself.

use crate::words::{self, Level};
use model::job::{has_limit, MOST_CLASS_LEVELS};
use std::str::SplitWhitespace;

#[derive(Debug, PartialEq, Eq)]
pub enum Line {
    Levels(u8),
    /// The classes from the topmost level on, at least one.
    Person {
        tag: u32,
        classes: Vec<u16>,
        may: Vec<u32>,
    },
    Step {
        tag: u32,
        skipped: bool,
    },
    Rule {
        kind: u8,
        level: Level,
        limit: u8,
        steps: Vec<u32>,
    },
}

/// Stands before the steps that somebody is permitted.
const MAY: &str = "may";

/// The words of a line that are not yet read. Each reason says what was looked for.
struct Words<'a> {
    rest: SplitWhitespace<'a>,
}

impl<'a> Words<'a> {
    fn next(&mut self, wanted: &str) -> Result<&'a str, String> {
        self.rest.next().ok_or_else(|| format!("{wanted} is missing"))
    }

    fn exact(&mut self, wanted: &str) -> Result<(), String> {
        let word = self.next(&format!("'{wanted}'"))?;
        if word != wanted {
            return Err(format!("'{wanted}' is wanted where '{word}' stands"));
        }
        Ok(())
    }

    /// A number from 1 to `most`.
    fn number(&mut self, wanted: &str, most: u32) -> Result<u32, String> {
        let word = self.next(wanted)?;
        match word.parse() {
            Ok(number) if (1..=most).contains(&number) => Ok(number),
            _ => Err(format!("{wanted} is a number from 1 to {most}, not '{word}'")),
        }
    }

    fn short(&mut self, wanted: &str) -> Result<u16, String> {
        Ok(self.number(wanted, u16::MAX.into())? as u16)
    }

    fn tag(&mut self, wanted: &str) -> Result<u32, String> {
        self.number(wanted, u32::MAX)
    }

    fn peek(&self) -> Option<&'a str> {
        self.rest.clone().next()
    }

    fn is_empty(&self) -> bool {
        self.peek().is_none()
    }

    /// Step tags up to the end of the line.
    fn steps(&mut self) -> Result<Vec<u32>, String> {
        let mut steps = vec![];
        while !self.is_empty() {
            steps.push(self.tag("a step's tag")?);
        }
        Ok(steps)
    }

    fn end(&self) -> Result<(), String> {
        match self.peek() {
            Some(word) => Err(format!("nothing is wanted where '{word}' stands")),
            None => Ok(()),
        }
    }
}

fn levels(words: &mut Words) -> Result<Line, String> {
    let class_levels = words.number("the number of class levels", MOST_CLASS_LEVELS as u32)?;
    words.end()?;
    Ok(Line::Levels(class_levels as u8))
}

/// Whether the sheet has just these levels is not known here.
fn person(words: &mut Words) -> Result<Line, String> {
    let tag = words.tag("the person's tag")?;
    let mut classes = vec![];
    for word in words::CLASSES {
        if !classes.is_empty() && matches!(words.peek(), None | Some(MAY)) {
            break;
        }
        words.exact(word)?;
        classes.push(words.short(&format!("the {word}"))?);
    }
    if words.is_empty() {
        return Ok(Line::Person { tag, classes, may: vec![] });
    }
    words.exact(MAY)?;
    Ok(Line::Person { tag, classes, may: words.steps()? })
}

fn step(words: &mut Words) -> Result<Line, String> {
    let tag = words.tag("the step's tag")?;
    let skipped = !words.is_empty();
    if skipped {
        words.exact(words::SKIPPED)?;
    }
    words.end()?;
    Ok(Line::Step { tag, skipped })
}

fn rule(words: &mut Words) -> Result<Line, String> {
    let word = words.next("the rule's kind")?;
    let unknown = || format!("a rule is same, different, at-most, at-least or max-load, not '{word}'");
    let kind = words::kind(word).ok_or_else(unknown)?;
    let limit = if has_limit(kind) { words.number("the limit", u8::MAX.into())? as u8 } else { 0 };
    let word = words.next("the level")?;
    let level = words::level(word).ok_or_else(|| format!("a level is shop, bench, pair or person, not '{word}'"))?;
    Ok(Line::Rule { kind, level, limit, steps: words.steps()? })
}

/// What a line says; nothing where it is empty or a comment.
pub fn read(text: &str) -> Result<Option<Line>, String> {
    let spoken = text.split('#').next().unwrap_or("");
    let mut words = Words { rest: spoken.split_whitespace() };
    match words.rest.next() {
        None => Ok(None),
        Some("levels") => levels(&mut words).map(Some),
        Some("person") => person(&mut words).map(Some),
        Some("step") => step(&mut words).map(Some),
        Some("rule") => rule(&mut words).map(Some),
        Some(word) => Err(format!("a line begins with levels, person, step or rule, not '{word}'")),
    }
}

#[cfg(test)]
mod tests {
    use super::*;
    use model::job::{AT_MOST, MAX_LOAD};

    #[test]
    fn lines_are_read() {
        let person = Line::Person { tag: 101, classes: vec![1, 2], may: vec![10, 20] };
        assert_eq!(read("person 101 shop 1 bench 2 may 10 20 # first"), Ok(Some(person)));
        let idle = Line::Person { tag: 103, classes: vec![1, 2], may: vec![] };
        assert_eq!(read("person 103 shop 1 bench 2"), Ok(Some(idle)));
        assert_eq!(read("  step 4294967295"), Ok(Some(Line::Step { tag: u32::MAX, skipped: false })));
        assert_eq!(read("step 20 skipped # no crack"), Ok(Some(Line::Step { tag: 20, skipped: true })));
        assert_eq!(read("step 20 # skipped"), Ok(Some(Line::Step { tag: 20, skipped: false })));
        let rule = Line::Rule { kind: AT_MOST, level: Level::Person, limit: 2, steps: vec![10, 20, 30] };
        assert_eq!(read("rule at-most 2 person 10 20 30"), Ok(Some(rule)));
        let load = Line::Rule { kind: MAX_LOAD, level: Level::Class(2), limit: 2, steps: vec![10, 20, 30] };
        assert_eq!(read("rule max-load 2 bench 10 20 30"), Ok(Some(load)));
        assert_eq!(read("# nothing"), Ok(None));
    }

    #[test]
    fn classes_are_read_as_far_as_they_go() {
        for (text, classes, may) in [
            ("person 1 shop 4", vec![4], vec![]),
            ("person 1 shop 4 may 10", vec![4], vec![10]),
            ("person 1 shop 4 bench 5 may 10", vec![4, 5], vec![10]),
            ("person 1 shop 4 bench 5 pair 6", vec![4, 5, 6], vec![]),
            ("person 1 shop 4 bench 5 pair 6 may 10 20", vec![4, 5, 6], vec![10, 20]),
        ] {
            assert_eq!(read(text), Ok(Some(Line::Person { tag: 1, classes, may })), "{text}");
        }
        assert_eq!(read("levels 3"), Ok(Some(Line::Levels(3))));
        let rule = |level| Line::Rule { kind: AT_MOST, level, limit: 2, steps: vec![10, 20] };
        for (word, level) in [("shop", Level::Class(1)), ("bench", Level::Class(2)), ("pair", Level::Class(3))] {
            assert_eq!(read(&format!("rule at-most 2 {word} 10 20")), Ok(Some(rule(level))));
        }
    }

    #[test]
    fn a_reason_says_what_was_wanted() {
        let reason = |text| read(text).unwrap_err();
        assert_eq!(reason("worker 1"), "a line begins with levels, person, step or rule, not 'worker'");
        assert_eq!(reason("step"), "the step's tag is missing");
        assert_eq!(reason("step 0"), "the step's tag is a number from 1 to 4294967295, not '0'");
        assert_eq!(reason("step 1 2"), "'skipped' is wanted where '2' stands");
        assert_eq!(reason("step skipped"), "the step's tag is a number from 1 to 4294967295, not 'skipped'");
        assert_eq!(reason("step 1 skipped 2"), "nothing is wanted where '2' stands");
        assert_eq!(reason("person 1 shop 65536 bench 1"), "the shop is a number from 1 to 65535, not '65536'");
        assert_eq!(reason("person 1 bench 1 shop 1"), "'shop' is wanted where 'bench' stands");
        assert_eq!(reason("person 1 may 10"), "'shop' is wanted where 'may' stands");
        assert_eq!(reason("person 1"), "'shop' is missing");
        assert_eq!(reason("person 1 shop 1 pair 1"), "'bench' is wanted where 'pair' stands");
        assert_eq!(reason("person 1 shop 1 bench 1 pair 0"), "the pair is a number from 1 to 65535, not '0'");
        assert_eq!(reason("person 1 shop 1 bench 1 pair 1 pair 2"), "'may' is wanted where 'pair' stands");
        assert_eq!(reason("levels"), "the number of class levels is missing");
        assert_eq!(reason("levels 0"), "the number of class levels is a number from 1 to 3, not '0'");
        assert_eq!(reason("levels 4"), "the number of class levels is a number from 1 to 3, not '4'");
        assert_eq!(reason("levels 2 2"), "nothing is wanted where '2' stands");
        assert_eq!(reason("rule same floor 1 2"), "a level is shop, bench, pair or person, not 'floor'");
        assert_eq!(
            reason("rule load 2 bench 1 2"),
            "a rule is same, different, at-most, at-least or max-load, not 'load'"
        );
        assert_eq!(reason("rule max-load bench 1 2"), "the limit is a number from 1 to 255, not 'bench'");
        assert_eq!(reason("rule at-least shop 1 2"), "the limit is a number from 1 to 255, not 'shop'");
    }
}
