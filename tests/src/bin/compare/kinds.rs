//! How a call has ended. A run in which one of these was never met has failed.

use model::answers::{Answer, Call, MOST_CAP, STEP_BYTES};
use model::job::{Form, Job, MOST_PEOPLE, MOST_RULES, MOST_STEPS};
use model::plans::{first_plan, plans, spare as spare_of};
use model::reader::read;
use model::refusal::{Refusal, BAD_LENGTH, CAP_TOO_HIGH, NO_PLAN, SHORT_ANSWER};
use model::trial::SHOWN;
use sheet_tests::forms::{can_refuse, on_sheet, wanted};
use sheet_tests::loads::{load_levels, without_loads};
use sheet_tests::skipped::skips_some;

const CREWS: [Call; 2] = [Call::Crew, Call::CrewByTrial];

/// Where the crew stands among the plans of its job. With all steps skipped there is one, the empty plan.
const EMPTY: &str = "the empty plan";
const ONLY: &str = "the only plan";
const FIRST: &str = "the first plan";
const LATER: &str = "a later plan";
const LAST: &str = "the last plan";

type Has = fn(&Job) -> bool;

/// What a job has much of, or lacks. Each end of a crew call is wanted with each of these.
const MUCH: [(&str, Has); 6] = [
    ("64 people", |job| job.people.len() == MOST_PEOPLE && job.remaining().count() > 1),
    ("12 steps", |job| job.remaining().count() == MOST_STEPS && job.people.len() > 1),
    ("64 rules", |job| job.rules.len() == MOST_RULES),
    ("more than 1,000 plans", |job| plans(job) > SHOWN),
    ("some steps skipped", |job| skips_some(job) && job.remaining().count() > 1),
    ("some of 12 steps skipped", |job| skips_some(job) && job.steps.len() == MOST_STEPS && job.people.len() > 1),
];

/// An area that would be too short for all steps, and is not for those that remain.
const SHORT_FOR_ALL: &str = "an area too short for the skipped steps";

/// Of the spare count where no step remains.
const FEWER_PEOPLE: &str = "all steps skipped, fewer people than the cap";

/// What rules of kind 5 at a level have changed: without them it would be otherwise.
fn moved_by_load(level: u8) -> String {
    format!("another plan for kind 5 at level {level}")
}

fn none_by_load(level: u8) -> String {
    format!("no plan for kind 5 at level {level} alone")
}

fn lowered_by_load(level: u8) -> String {
    format!("a lower count for kind 5 at level {level}")
}

fn spare(count: u32, cap: u32) -> String {
    format!("{count} of {cap}")
}

fn all_skipped(cap: u32) -> String {
    format!("all steps skipped, {}", spare(cap, cap))
}

fn refusal(number: u32) -> String {
    format!("refusal {number:2}")
}

fn with_much(much: &str, end: &str) -> String {
    format!("{much}, {end}")
}

/// The place of the crew in the area.
fn place(job: &Job, area: &[u8]) -> &'static str {
    let steps = job.remaining().count();
    if steps == 0 {
        return EMPTY;
    }
    let crew = || area.chunks_exact(STEP_BYTES).take(steps);
    let all_by = |person: usize| crew().all(|pair| pair[4..] == job.people[person].tag.to_le_bytes());
    match (all_by(0), all_by(job.people.len() - 1)) {
        (true, true) => ONLY,
        (true, false) => FIRST,
        (false, true) => LAST,
        (false, false) => LATER,
    }
}

/// What the rules of kind 5 have done to the crew, level by level.
fn of_loads(job: &Job) -> Vec<String> {
    if load_levels(job).next().is_none() {
        return vec![];
    }
    let plan = first_plan(job, &[]);
    let moved = load_levels(job).filter(|&level| first_plan(&without_loads(job, level), &[]) != plan);
    moved.map(if plan.is_some() { moved_by_load } else { none_by_load }).collect()
}

/// The ends of a crew call that has found a plan, or none after all were tried.
fn of_crew(job: &Job, answer: &Answer) -> Vec<String> {
    let end = match answer.number {
        0 => place(job, &answer.area).to_string(),
        _ => refusal(NO_PLAN),
    };
    let much = MUCH.iter().filter(|(_, has)| has(job)).map(|(much, _)| with_much(much, &end));
    let short = answer.number == 0 && answer.area.len() < STEP_BYTES * job.steps.len();
    let short = short.then(|| SHORT_FOR_ALL.to_string());
    much.chain([end.clone()]).chain(short).chain(of_loads(job)).collect()
}

/// The ends of a spare call that has found a count.
fn of_spare(job: &Job, answer: &Answer, cap: u32) -> Vec<String> {
    let mut ends = vec![spare(answer.area[0].into(), cap)];
    if job.remaining().next().is_none() {
        ends.push(all_skipped(cap));
        ends.extend((job.people.len() < cap as usize).then(|| FEWER_PEOPLE.to_string()));
    }
    let lowers = |level: &u8| {
        let without = spare_of(&without_loads(job, *level), cap as usize);
        without.is_some_and(|spare| spare.count > answer.area[0].into())
    };
    ends.extend(load_levels(job).filter(lowers).map(lowered_by_load));
    ends
}

fn ends(call: Call, sheet: &[u8], answer: &Answer) -> Vec<String> {
    match (call, Refusal::of(answer.number)) {
        (Call::Spare { cap }, None) => of_spare(&read(sheet).expect("a job was planned"), answer, cap),
        (Call::Spare { .. }, Some(known)) => vec![refusal(known.number)],
        (_, Some(known)) if known.number != NO_PLAN => vec![refusal(known.number)],
        _ => of_crew(&read(sheet).expect("a job was planned"), answer),
    }
}

fn of_call(call: Call, ends: Vec<String>) -> impl Iterator<Item = String> {
    ends.into_iter().map(move |end| format!("{}, {end}", call.name()))
}

/// The kinds of an answer that is the model's.
pub fn of(call: Call, sheet: &[u8], answer: &Answer) -> Vec<String> {
    of_call(call, ends(call, sheet, answer)).map(|kind| on_sheet(sheet, &kind)).collect()
}

/// Every kind: each refusal of each call, the short area among them, every spare count, crews by their place and by the size
/// of their job, what skipped steps change and what rules of kind 5 do; all of it on sheets of every form.
pub fn all() -> Vec<String> {
    wanted(in_one_form)
}

fn in_one_form(form: Form) -> Vec<String> {
    let of_reader = Vec::from_iter((BAD_LENGTH..=NO_PLAN).filter(|&number| can_refuse(form, number)));
    let refusals = |more: &[u32]| [more, &of_reader].concat().into_iter().map(refusal);
    let tried = [FIRST.to_string(), LATER.to_string(), LAST.to_string(), refusal(NO_PLAN)];
    let mut crews: Vec<String> = refusals(&[SHORT_ANSWER]).collect();
    crews.extend([EMPTY, ONLY, FIRST, LATER, LAST, SHORT_FOR_ALL].map(String::from));
    crews.extend(tried.iter().flat_map(|end| MUCH.map(|(much, _)| with_much(much, end))));
    let levels = 1..=form.person_level();
    crews.extend(levels.clone().flat_map(|level| [moved_by_load(level), none_by_load(level)]));
    let mut spares: Vec<String> = refusals(&[SHORT_ANSWER, CAP_TOO_HIGH]).collect();
    spares.extend(levels.map(lowered_by_load));
    spares.extend((0..=MOST_CAP).flat_map(|cap| (0..=cap).map(move |count| spare(count, cap))));
    spares.extend((0..=MOST_CAP).map(all_skipped).chain([FEWER_PEOPLE.to_string()]));
    let kinds = CREWS.into_iter().flat_map(|call| of_call(call, crews.clone()));
    kinds.chain(of_call(Call::Spare { cap: 0 }, spares)).collect()
}

#[cfg(test)]
mod tests {
    use super::*;
    use model::answers::answer;
    use model::builder::{
        last_alone, lay, one_by_one, plain, plain_job, sheet_w, sheet_w_in, skipped_w, skipping, w_and, Draft,
    };
    use std::collections::BTreeSet;

    fn kinds(call: Call, sheet: &Draft, room: usize) -> Vec<String> {
        of(call, &sheet.bytes, &answer(call, &sheet.bytes, &vec![0; room]).expect("a small job"))
    }

    #[test]
    fn an_answer_has_the_kind_of_its_call_and_its_end() {
        let (w, none) = (sheet_w(), w_and(3, 3, 1, 7));
        assert_eq!(kinds(Call::Crew, &w, 24), ["crew, a later plan"]);
        assert_eq!(kinds(Call::CrewByTrial, &w, 24), ["crew by trial, a later plan"]);
        assert_eq!(kinds(Call::CrewByTrial, &w, 23), ["crew by trial, refusal  1"]);
        assert_eq!(kinds(Call::CrewByTrial, &none, 24), ["crew by trial, refusal 13"]);
        assert_eq!(kinds(Call::Spare { cap: 2 }, &w, 16), ["spare, 1 of 2"]);
        assert_eq!(kinds(Call::Spare { cap: 2 }, &none, 16), ["spare, refusal 13"]);
        assert_eq!(kinds(Call::Spare { cap: 4 }, &w, 16), ["spare, refusal  2"]);
    }

    #[test]
    fn a_crew_has_its_place_and_what_its_job_has_much_of() {
        let crew = |sheet: Draft| kinds(Call::Crew, &sheet, 100);
        assert_eq!(crew(plain(1, 2, 64)), ["crew, 64 rules, the only plan", "crew, the only plan"]);
        assert_eq!(crew(plain(64, 1, 0)), ["crew, the first plan"]);
        assert_eq!(
            crew(lay(&last_alone(64, 2))),
            ["crew, 64 people, the last plan", "crew, more than 1,000 plans, the last plan", "crew, the last plan"]
        );
        assert_eq!(
            crew(plain(2, 12, 0)),
            ["crew, 12 steps, the first plan", "crew, more than 1,000 plans, the first plan", "crew, the first plan"]
        );
    }

    #[test]
    fn skipped_steps_have_kinds_of_their_own() {
        let crew = |sheet: &Draft, room| kinds(Call::Crew, sheet, room);
        let one = sheet_w().skip(6);
        assert_eq!(crew(&one, 24), ["crew, some steps skipped, the first plan", "crew, the first plan"]);
        assert_eq!(crew(&one, 16).last().unwrap(), "crew, an area too short for the skipped steps");
        assert_eq!(crew(&one, 15), ["crew, refusal  1"]);
        assert_eq!(crew(&skipped_w(), 24), ["crew, the empty plan"]);
        let large = lay(&skipping(plain_job(64, 12, 0), 1..12));
        assert_eq!(crew(&large, 96), ["crew, some of 12 steps skipped, the first plan", "crew, the first plan"]);
        let lone = one_by_one(1).skip(2);
        assert_eq!(kinds(Call::Spare { cap: 1 }, &lone, 16), ["spare, 1 of 1", "spare, all steps skipped, 1 of 1"]);
        assert_eq!(
            kinds(Call::Spare { cap: 2 }, &lone, 16).last().unwrap(),
            "spare, all steps skipped, fewer people than the cap"
        );
    }

    #[test]
    fn what_rules_of_kind_5_change_is_told_level_by_level() {
        let (crew, spare) = (Call::Crew, Call::Spare { cap: 2 });
        let moved = ["crew, a later plan", "crew, another plan for kind 5 at level 2"];
        assert_eq!(kinds(crew, &w_and(5, 2, 2, 7), 24), moved);
        assert_eq!(
            kinds(spare, &w_and(5, 2, 2, 7), 16),
            ["spare, 0 of 2", "spare, a lower count for kind 5 at level 2"]
        );
        let none = ["crew, refusal 13", "crew, no plan for kind 5 at level 1 alone"];
        assert_eq!(kinds(crew, &w_and(5, 1, 2, 7), 24), none);
        assert_eq!(kinds(crew, &w_and(5, 2, 3, 7), 24), ["crew, a later plan"]);
        assert_eq!(kinds(spare, &w_and(5, 2, 3, 7), 16), ["spare, 1 of 2"]);
    }

    #[test]
    fn ends_are_told_apart_by_the_form_of_the_sheet() {
        for (class_levels, form) in [(1, "1 class level"), (2, "2 class levels"), (3, "3 class levels")] {
            let w = sheet_w_in(Form::Second { class_levels });
            assert_eq!(kinds(Call::Crew, &w, 24), [format!("version 2, {form}: crew, a later plan")]);
            assert_eq!(kinds(Call::Crew, &w.clone().cut(24), 24), [format!("version 2, {form}: crew, refusal  3")]);
            assert_eq!(kinds(Call::Spare { cap: 2 }, &w, 16), [format!("version 2, {form}: spare, 1 of 2")]);
            assert_eq!(kinds(Call::Crew, &w.byte(0, 15, 1), 24), [format!("version 2, {form}: crew, refusal  4")]);
        }
    }

    #[test]
    fn what_is_wanted_is_different_and_what_answers_show() {
        let wanted: BTreeSet<String> = all().into_iter().collect();
        assert_eq!(wanted.len(), all().len());
        for call in [Call::Crew, Call::CrewByTrial, Call::Spare { cap: 2 }] {
            let sheets = [sheet_w(), sheet_w().cut(24), lay(&last_alone(2, 12)), w_and(3, 3, 1, 7)];
            let others = [sheet_w().skip(5), one_by_one(1).skip(2)].into_iter().chain(Form::ALL.map(sheet_w_in));
            let loads = [w_and(5, 2, 2, 7), w_and(5, 1, 2, 7)];
            for sheet in sheets.into_iter().chain(others).chain(loads) {
                assert!(kinds(call, &sheet, 100).iter().all(|kind| wanted.contains(kind)));
            }
        }
    }
}
