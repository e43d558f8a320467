//! From text to cards. What is packed is readable: every fault that the reader knows is found here, with its line.

use crate::line::{self, Line};
use crate::words::{self, Level};
use model::builder;
use model::job::{has_limit, Form, Job, Person, Rule, Step, MOST_PEOPLE, MOST_RULES, MOST_STEPS};
use std::fmt;

#[derive(Debug, PartialEq, Eq)]
pub struct Fault {
    pub line: usize,
    pub reason: String,
}

impl fmt::Display for Fault {
    fn fmt(&self, out: &mut fmt::Formatter) -> fmt::Result {
        write!(out, "line {}: {}", self.line, self.reason)
    }
}

/// Whether there is room for one more.
fn room(found: usize, most: usize, what: &str) -> Result<(), String> {
    if found == most {
        return Err(format!("there are more than {most} {what}"));
    }
    Ok(())
}

/// The steps with these tags as a mask.
fn mask(steps: &[Step], tags: &[u32]) -> Result<u16, String> {
    let mut mask = 0;
    for tag in tags {
        let Some(at) = steps.iter().position(|step| step.tag == *tag) else {
            return Err(format!("there is no step {tag}"));
        };
        if mask >> at & 1 == 1 {
            return Err(format!("step {tag} is named twice"));
        }
        mask |= 1 << at;
    }
    Ok(mask)
}

fn add_step(job: &mut Job, step: Step) -> Result<(), String> {
    room(job.steps.len(), MOST_STEPS, "steps")?;
    if job.steps.iter().any(|other| other.tag == step.tag) {
        return Err(format!("step {} is there already", step.tag));
    }
    job.steps.push(step);
    Ok(())
}

fn add_person(job: &mut Job, person: Person) -> Result<(), String> {
    room(job.people.len(), MOST_PEOPLE, "people")?;
    if job.people.iter().any(|other| other.tag == person.tag) {
        return Err(format!("person {} is there already", person.tag));
    }
    for level in job.form.nested_levels() {
        if let Some(other) = job.people.iter().find(|other| person.puts_in_two(other, level)) {
            let class = |level: u8| format!("{} {}", words::class_word(level), other.class[usize::from(level) - 1]);
            return Err(format!("{} is in {} already", class(level), class(level - 1)));
        }
    }
    job.people.push(person);
    Ok(())
}

fn add_levels(job: &mut Job, class_levels: u8) -> Result<(), String> {
    if job.form != Form::First {
        return Err("the levels are stated already".to_string());
    }
    job.form = Form::Second { class_levels };
    Ok(())
}

fn no_level(level: u8) -> String {
    format!("the sheet has no level '{}'", words::class_word(level))
}

/// A person has a class at each level of the sheet, and at no other.
fn has_classes(form: Form, classes: &[u16]) -> Result<(), String> {
    let (wanted, found) = (form.class_levels(), classes.len() as u8);
    if found < wanted {
        return Err(format!("'{}' is missing", words::class_word(found + 1)));
    }
    if found > wanted {
        return Err(no_level(wanted + 1));
    }
    Ok(())
}

/// The number that a level has on the sheet.
fn level_of(form: Form, level: Level) -> Result<u8, String> {
    match level {
        Level::Person => Ok(form.person_level()),
        Level::Class(level) if level > form.class_levels() => Err(no_level(level)),
        Level::Class(level) => Ok(level),
    }
}

fn add_rule(job: &mut Job, rule: Rule) -> Result<(), String> {
    room(job.rules.len(), MOST_RULES, "rules")?;
    let size = rule.scope.count_ones();
    if !has_limit(rule.kind) && size != 2 {
        return Err(format!("a rule '{}' names two steps, not {size}", words::kind_word(rule.kind)));
    }
    if size < 2 {
        return Err(format!("a rule names two steps or more, not {size}"));
    }
    if u32::from(rule.limit) > size {
        return Err(format!("the limit {} is above the {size} steps named", rule.limit));
    }
    job.rules.push(rule);
    Ok(())
}

/// Adds what others may be told by: the levels and the steps.
fn add_first(job: &mut Job, line: &Line) -> Result<(), String> {
    match *line {
        Line::Levels(class_levels) => add_levels(job, class_levels),
        Line::Step { tag, skipped } => add_step(job, Step { tag, skipped }),
        _ => Ok(()),
    }
}

/// Adds the others; all levels and steps are known.
fn add(job: &mut Job, line: &Line) -> Result<(), String> {
    match line {
        Line::Levels(_) | Line::Step { .. } => Ok(()),
        Line::Person { tag, classes, may } => {
            has_classes(job.form, classes)?;
            let permitted = mask(&job.steps, may)?;
            add_person(job, builder::person_in(*tag, classes, permitted))
        }
        Line::Rule { kind, level, limit, steps } => {
            let level = level_of(job.form, *level)?;
            let scope = mask(&job.steps, steps)?;
            add_rule(job, Rule { kind: *kind, level, limit: *limit, scope })
        }
    }
}

/// The job that the text describes. Levels and steps are taken in first, since lines above may need them.
pub fn job(text: &str) -> Result<Job, Fault> {
    let mut job = Job::default();
    let mut lines = vec![];
    for (number, text) in (1..).zip(text.lines()) {
        let at = |reason| Fault { line: number, reason };
        let Some(line) = line::read(text).map_err(at)? else {
            continue;
        };
        add_first(&mut job, &line).map_err(at)?;
        lines.push((number, line));
    }
    for (number, line) in &lines {
        add(&mut job, line).map_err(|reason| Fault { line: *number, reason })?;
    }
    let last = text.lines().count().max(1);
    for (none, what) in [(job.people.is_empty(), "person"), (job.steps.is_empty(), "step")] {
        if none {
            return Err(Fault { line: last, reason: format!("the text ends without a {what}") });
        }
    }
    Ok(job)
}

/// The cards, in the order header, people, steps, rules.
pub fn pack(text: &str) -> Result<Vec<u8>, Fault> {
    Ok(builder::lay(&job(text)?).bytes)
}

#[cfg(test)]
mod tests {
    use super::*;

    fn fault(text: &str) -> String {
        pack(text).unwrap_err().to_string()
    }

    const PEOPLE: &str = "person 1 shop 1 bench 1 may 10\nstep 10\nstep 20\n";

    #[test]
    fn faults_are_found_with_their_line() {
        assert_eq!(fault(""), "line 1: the text ends without a person");
        assert_eq!(fault("person 1 shop 1 bench 1\n\n"), "line 2: the text ends without a step");
        assert_eq!(fault("person 1 shop 1 bench 1 may 5\nstep 10"), "line 1: there is no step 5");
        assert_eq!(fault("step 10\n# more\nstep 10"), "line 3: step 10 is there already");
        assert_eq!(fault("step 10 skipped\nstep 10"), "line 2: step 10 is there already");
        let more = |line: &str| fault(&format!("{PEOPLE}{line}"));
        assert_eq!(more("person 1 shop 1 bench 1"), "line 4: person 1 is there already");
        assert_eq!(more("person 2 shop 2 bench 1"), "line 4: bench 1 is in shop 1 already");
        assert_eq!(more("rule same shop 10"), "line 4: a rule 'same' names two steps, not 1");
        assert_eq!(more("rule same shop 10 10"), "line 4: step 10 is named twice");
        assert_eq!(more("rule at-most 1 shop 10"), "line 4: a rule names two steps or more, not 1");
        assert_eq!(more("rule at-most 3 shop 10 20"), "line 4: the limit 3 is above the 2 steps named");
    }

    #[test]
    fn faults_of_levels_are_found_with_their_line() {
        let first = |line: &str| fault(&format!("{line}\nstep 10\nstep 20\n"));
        assert_eq!(first("levels 2\nlevels 2"), "line 2: the levels are stated already");
        assert_eq!(first("levels 4"), "line 1: the number of class levels is a number from 1 to 3, not '4'");
        assert_eq!(first("person 1 shop 1"), "line 1: 'bench' is missing");
        assert_eq!(first("person 1 shop 1 bench 1 pair 1"), "line 1: the sheet has no level 'pair'");
        assert_eq!(first("levels 1\nperson 1 shop 1 bench 1"), "line 2: the sheet has no level 'bench'");
        assert_eq!(first("levels 3\nperson 1 shop 1 bench 1 may 10"), "line 2: 'pair' is missing");
        assert_eq!(first("person 1 shop 1 bench 1\nlevels 3"), "line 1: 'pair' is missing");
        assert_eq!(first("rule same pair 10 20"), "line 1: the sheet has no level 'pair'");
        assert_eq!(first("levels 1\nrule same bench 10 20"), "line 2: the sheet has no level 'bench'");
        let three = |line: &str| first(&format!("levels 3\nperson 1 shop 1 bench 2 pair 5\n{line}"));
        assert_eq!(three("person 2 shop 1 bench 3 pair 5"), "line 3: pair 5 is in bench 2 already");
        assert_eq!(three("person 2 shop 3 bench 2 pair 6"), "line 3: bench 2 is in shop 1 already");
        assert_eq!(three("person 2 shop 3 bench 2 pair 5"), "line 3: bench 2 is in shop 1 already");
    }

    #[test]
    fn levels_may_be_stated_anywhere() {
        let lines = ["person 1 shop 1 may 10", "step 10", "step 20", "rule same person 10 20"];
        let packed = |at: usize| pack(&[&lines[..at], &["levels 1"], &lines[at..]].concat().join("\n"));
        let sheet = packed(0).expect("a good text");
        assert_eq!((sheet[1], sheet[12], sheet[16 * 4 + 4]), (2, 1, 2));
        assert!((1..=4).all(|at| packed(at).as_ref() == Ok(&sheet)));
    }

    #[test]
    fn a_rule_is_measured_with_its_skipped_steps() {
        let more = |line: &str| pack(&format!("{PEOPLE}step 30 skipped\n{line}")).map_err(|fault| fault.reason);
        assert!(more("rule same shop 10 30").is_ok());
        assert!(more("rule at-least 3 person 10 20 30").is_ok());
        assert_eq!(more("rule same shop 10 20 30").unwrap_err(), "a rule 'same' names two steps, not 3");
        assert_eq!(more("rule at-least 4 shop 10 20 30").unwrap_err(), "the limit 4 is above the 3 steps named");
    }

    #[test]
    fn the_first_line_too_many_is_named() {
        let steps: String = (1..=13).map(|tag| format!("step {tag}\n")).collect();
        assert_eq!(fault(&steps), "line 13: there are more than 12 steps");
        let people: String = (1..=65).map(|tag| format!("person {tag} shop 1 bench 1\n")).collect();
        assert_eq!(fault(&format!("step 1\n{people}")), "line 66: there are more than 64 people");
        let rules = "rule same shop 10 20\n".repeat(65);
        assert_eq!(fault(&format!("{PEOPLE}{rules}")), "line 68: there are more than 64 rules");
    }
}
