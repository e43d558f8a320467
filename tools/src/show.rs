//! From cards to text.

use crate::words;
use model::job::{has_limit, steps_of, Form, Job, Person, Rule, Step};
use model::reader::read;
use model::refusal::Refusal;

/// The tags of the steps of a mask, each with a space in front.
fn tags(job: &Job, mask: u16) -> String {
    steps_of(mask).map(|step| format!(" {}", job.steps[step].tag)).collect()
}

/// Version 1 has no line for its levels.
fn levels(job: &Job) -> String {
    match job.form {
        Form::First => String::new(),
        Form::Second { class_levels } => format!("levels {class_levels}\n"),
    }
}

fn person(job: &Job, person: &Person) -> String {
    let Person { tag, class, permitted } = person;
    let used = words::CLASSES.iter().zip(class).take(job.form.class_levels().into());
    let classes: String = used.map(|(word, class)| format!(" {word} {class}")).collect();
    let may = if *permitted == 0 { "" } else { " may" };
    format!("person {tag}{classes}{may}{}\n", tags(job, *permitted))
}

fn step(step: &Step) -> String {
    let mark = if step.skipped { format!(" {}", words::SKIPPED) } else { String::new() };
    format!("step {}{mark}\n", step.tag)
}

fn rule(job: &Job, rule: &Rule) -> String {
    let limit = if has_limit(rule.kind) { format!(" {}", rule.limit) } else { String::new() };
    let (kind, level) = (words::kind_word(rule.kind), words::level_word(job.form, rule.level));
    format!("rule {kind}{limit} {level}{}\n", tags(job, rule.scope))
}

pub fn text(job: &Job) -> String {
    let people = job.people.iter().map(|one| person(job, one));
    let steps = job.steps.iter().map(step);
    let rules = job.rules.iter().map(|one| rule(job, one));
    [levels(job)].into_iter().chain(people).chain(steps).chain(rules).collect()
}

/// The text of a sheet, or what the reader refuses it with.
pub fn show(sheet: &[u8]) -> Result<String, Refusal> {
    read(sheet).map(|job| text(&job))
}
