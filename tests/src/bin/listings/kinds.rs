//! What the listings of both programs show.

use model::job::{Form, Job, MOST_RULES};
use sheet_tests::skipped::skips_some;

/// A listing that is no refusal.
pub const PLAN: &str = "a plan";

/// How many of these there have to be on sheets of a form.
pub fn least_plans(form: Form) -> u64 {
    match form {
        Form::First => 200,
        Form::Second { .. } => 100,
    }
}

const NO_RULE: &str = "a plan, no RULE line";
const ALL_RULES: &str = "a plan, 64 RULE lines";

/// What is wanted of the RULE lines of both.
pub const RULES: [&str; 2] = [NO_RULE, ALL_RULES];

/// What is wanted of skipped steps of both.
pub const SKIPPED: [&str; 3] =
    ["a plan, some steps skipped", "a plan, all steps skipped", "a plan, all steps skipped, one person"];

pub fn refusal(number: u32) -> String {
    format!("refusal {number:2}")
}

/// The lines of the listing that begin with a word.
pub fn lines<'a>(listing: &'a str, word: &'static str) -> impl Iterator<Item = &'a str> {
    listing.lines().filter(move |line| line.split(' ').next() == Some(word))
}

/// The first kinds of a listing that is no refusal.
pub fn of_plan(job: &Job, listing: &str) -> Vec<String> {
    let none_left = job.remaining().next().is_none();
    let met = [skips_some(job), none_left, none_left && job.people.len() == 1];
    let skipped = SKIPPED.into_iter().zip(met).filter(|(_, met)| *met).map(|(kind, _)| kind);
    let rules = match lines(listing, "RULE").count() {
        0 => Some(NO_RULE),
        MOST_RULES => Some(ALL_RULES),
        _ => None,
    };
    [PLAN].into_iter().chain(rules).chain(skipped).map(String::from).collect()
}
