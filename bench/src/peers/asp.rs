//! A job as a logic program: facts about the sheet, and the rules as counts, of classes or of the steps of a class. No step of the
//! job is skipped.

use model::job::{steps_of, Job, MOST_PEOPLE, MOST_STEPS};

/// Kinds and levels have their numbers on the sheet.
const PLANS: &str = "\
1 { do(S, P) : may(S, P) } 1 :- step(S).
in(L, S, C) :- do(S, P), class(L, P, C), named(L, S).
named(L, S) :- rule(R, _, L, _), scope(R, S).
pair(R, S, T) :- scope(R, S), scope(R, T), S < T.
:- rule(R, 1, L, _), pair(R, S, T), in(L, S, C), not in(L, T, C).
:- rule(R, 2, L, _), pair(R, S, T), in(L, S, C), in(L, T, C).
:- rule(R, 3, L, K), #count { C : in(L, S, C), scope(R, S) } > K.
:- rule(R, 4, L, K), #count { C : in(L, S, C), scope(R, S) } < K.
:- rule(R, 5, L, K), class(L, _, C), #count { S : in(L, S, C), scope(R, S) } > K.
#show do/2.
";

/// Decisions go along the steps and, for each, along the crew, "does it" first: the first plan found is then the first.
fn plan_order() -> String {
    format!("#heuristic do(S, P) : may(S, P). [{MOST_PEOPLE} * ({MOST_STEPS} - S) + {MOST_PEOPLE} - P, true]\n")
}

fn facts(job: &Job) -> String {
    let mut facts = String::new();
    for step in 0..job.steps.len() {
        facts += &format!("step({step}).\n");
        facts.extend(job.permitted(step).map(|person| format!("may({step}, {person}).\n")));
    }
    for at in 0..job.people.len() {
        for level in 1..=job.form.class_levels() {
            facts += &format!("class({level}, {at}, {}).\n", job.class(at, level));
        }
        // A tag may be above clingo's numbers: the class of a person is the place.
        facts += &format!("class({}, {at}, {at}).\n", job.form.person_level());
    }
    for (at, rule) in job.rules.iter().enumerate() {
        facts += &format!("rule({at}, {}, {}, {}).\n", rule.kind, rule.level, rule.limit);
        facts.extend(steps_of(rule.scope).map(|step| format!("scope({at}, {step}).\n")));
    }
    facts
}

pub fn text(job: &Job, first: bool) -> String {
    let order = if first { plan_order() } else { String::new() };
    facts(job) + PLANS + &order
}
