//! What kind of case a call is, by the model alone. A run in which a kind never came up has failed.

use model::job::{Form, Job, MOST_PEOPLE, MOST_STEPS};
use model::reader::read;
use model::refusal::{Refusal, BAD_LENGTH, NOT_GRANTED, NO_PLAN, STEP_SIGNED, UNKNOWN};
use model::signing::{has_plan, Signers, Work, MOST_REFUSALS};
use sheet_tests::forms::{can_refuse, on_sheet, wanted};
use sheet_tests::loads::{load_levels, without_loads};

/// What is known before a call.
pub struct Before<'a> {
    pub work: &'a Work,
    /// Whether calls alone have made the job.
    pub made: bool,
    /// Tags of sheets that were held before.
    pub old: &'a [u32],
    /// Whether an opening was refused since the job was opened.
    pub refused_before: bool,
}

const NAMED: [&str; 53] = [
    "opened, never opened before",
    "opened, over memory that no call has made",
    "opened again, another sheet, over signings and a count",
    "opened again, the same sheet, over signings and a count",
    "opened again, a shorter sheet",
    "opened, some steps skipped",
    "opened, all steps skipped",
    "opening refused, never opened",
    "opening refused, over signings and a count",
    "opening refused, no plan, over signings and a count",
    "opening refused, over memory that no call has made",
    "granted, the first",
    "granted, the last",
    "granted, before an earlier step",
    "granted, after a refused opening",
    "granted, the twelfth step",
    "granted, the 64th person",
    "granted, one tag for step and person",
    "granted, with the count at its stop",
    "granted, on memory that no call has made",
    "granted, behind a skipped step",
    "granted, the last, before a skipped step",
    "14, never opened",
    "14, a sheet longer than any",
    "14, no readable sheet held",
    "14, step unknown",
    "14, person unknown at an open step",
    "14, person unknown at a signed step",
    "14, both unknown",
    "14, step 0",
    "14, person 0",
    "14, a person's tag for the step",
    "14, a step's tag for the person",
    "14, a step of an earlier sheet",
    "14, a person of an earlier sheet",
    "14, a skipped step, by somebody permitted it",
    "14, a skipped step, all others signed",
    "14, a skipped step, all steps skipped",
    "15, by the signer",
    "15, by another who is permitted",
    "15, by somebody not permitted",
    "15, with no step open",
    "15, a signer who is not on the sheet",
    "15, behind a skipped step",
    "16, not permitted",
    "16, permitted, in no plan at all",
    "16, permitted, for what was granted before",
    "16, for signers that no call has written",
    "16, behind a skipped step, for what was granted before",
    "16, permitted, for kind 5 alone",
    "counted, to the stop",
    "not counted, at the stop",
    "not counted, above the stop",
];

/// Every kind, and all that a call may return on sheets of every form.
pub fn all() -> impl Iterator<Item = String> {
    NAMED.into_iter().map(String::from).chain(wanted(all_returned))
}

/// What openings with sheets of a form may return, and signings of jobs that hold one.
fn all_returned(form: Form) -> Vec<String> {
    let refusals = (BAD_LENGTH..=NO_PLAN).filter(|&number| can_refuse(form, number));
    let openings = [0].into_iter().chain(refusals).map(|refusal| returned("opening", refusal));
    let signings = [0, UNKNOWN, STEP_SIGNED, NOT_GRANTED].into_iter().map(|refusal| returned("signing", refusal));
    openings.chain(signings).collect()
}

/// The refusal that a call gives, 0 where it gives none.
fn returned(call: &str, refusal: u32) -> String {
    format!("{call} returns {refusal:2}")
}

/// The names whose case is given.
fn given(cases: &[(bool, &str)]) -> Vec<String> {
    cases.iter().filter(|(given, _)| *given).map(|(_, name)| name.to_string()).collect()
}

fn is_new(work: &Work) -> bool {
    Work { refusals: 0, ..work.clone() } == Work::NEW
}

/// Whether somebody has signed and somebody was refused.
fn is_used(work: &Work) -> bool {
    work.refusals > 0 && work.signer.iter().any(|&signer| signer != 0)
}

pub fn of_opening(before: &Before, sheet: &[u8], number: u32) -> Vec<String> {
    let refusal = Refusal::of(number).map_or(0, |refusal| refusal.number);
    let (work, made) = (before.work, before.made);
    let (new, used) = (is_new(work), made && is_used(work));
    let same = work.held() == Some(sheet);
    let (opened, refused) = (refusal == 0, refusal != 0);
    let (left, steps) = read(sheet).map_or((0, 0), |job| (job.remaining().count(), job.steps.len()));
    let mut kinds = given(&[
        (opened && new, "opened, never opened before"),
        (opened && !made, "opened, over memory that no call has made"),
        (opened && used && !same, "opened again, another sheet, over signings and a count"),
        (opened && used && same, "opened again, the same sheet, over signings and a count"),
        (opened && made && sheet.len() < work.sheet_len as usize, "opened again, a shorter sheet"),
        (opened && 0 < left && left < steps, "opened, some steps skipped"),
        (opened && left == 0, "opened, all steps skipped"),
        (refused && new, "opening refused, never opened"),
        (refused && used, "opening refused, over signings and a count"),
        (refusal == NO_PLAN && used, "opening refused, no plan, over signings and a count"),
        (refused && !made, "opening refused, over memory that no call has made"),
    ]);
    kinds.push(on_sheet(sheet, &returned("opening", refusal)));
    kinds
}

pub fn of_signing(before: &Before, step: u32, person: u32, number: u32) -> Vec<String> {
    let refusal = Refusal::of(number).map_or(0, |refusal| refusal.number);
    let (refused, count) = (refusal != 0, before.work.refusals);
    let mut kinds = given(&[
        (refused && count == MOST_REFUSALS - 1, "counted, to the stop"),
        (refused && count == MOST_REFUSALS, "not counted, at the stop"),
        (refused && count > MOST_REFUSALS, "not counted, above the stop"),
    ]);
    kinds.push(on_sheet(before.work.held().unwrap_or_default(), &returned("signing", refusal)));
    kinds.extend(match (before.work.job(), refusal) {
        (None, _) => of_nothing_held(before.work),
        (Some(job), UNKNOWN) => of_unknown(before, &job, step, person),
        (Some(job), STEP_SIGNED) => of_signed(before.work, &job, step, person),
        (Some(job), NOT_GRANTED) => of_refused(before, &job, step, person),
        (Some(job), _) => of_grant(before, &job, step, person),
    });
    kinds
}

fn of_nothing_held(work: &Work) -> Vec<String> {
    let (new, long) = (is_new(work), work.held().is_none());
    given(&[
        (new, "14, never opened"),
        (long, "14, a sheet longer than any"),
        (!new && !long, "14, no readable sheet held"),
    ])
}

/// A step that remains: its place among those, which is that of its signer, and its place on the chain.
struct Place {
    entry: usize,
    step: usize,
}

impl Place {
    /// Whether an earlier step is skipped.
    fn is_behind_skipped(&self) -> bool {
        self.entry < self.step
    }
}

fn step_at(job: &Job, tag: u32) -> Option<Place> {
    let mut places = job.remaining().enumerate().map(|(entry, step)| Place { entry, step });
    places.find(|place| job.steps[place.step].tag == tag)
}

fn person_at(job: &Job, tag: u32) -> Option<usize> {
    job.people.iter().position(|person| person.tag == tag)
}

fn is_open(work: &Work) -> impl Fn(usize) -> bool + '_ {
    |entry| work.signer[entry] == 0
}

fn of_grant(before: &Before, job: &Job, step: u32, person: u32) -> Vec<String> {
    let place = step_at(job, step).expect("a step that is granted is known");
    let steps = job.remaining().count();
    let open = (0..steps).filter(|&entry| is_open(before.work)(entry)).count();
    given(&[
        (open == steps, "granted, the first"),
        (open == 1, "granted, the last"),
        (
            open == 1 && job.steps[place.step..].iter().any(|step| step.skipped),
            "granted, the last, before a skipped step",
        ),
        (place.is_behind_skipped(), "granted, behind a skipped step"),
        ((0..place.entry).any(is_open(before.work)), "granted, before an earlier step"),
        (before.refused_before, "granted, after a refused opening"),
        (place.entry + 1 == MOST_STEPS, "granted, the twelfth step"),
        (person_at(job, person) == Some(MOST_PEOPLE - 1), "granted, the 64th person"),
        (step == person, "granted, one tag for step and person"),
        (before.work.refusals == MOST_REFUSALS, "granted, with the count at its stop"),
        (!before.made, "granted, on memory that no call has made"),
    ])
}

fn of_unknown(before: &Before, job: &Job, step: u32, person: u32) -> Vec<String> {
    let (place, by) = (step_at(job, step), person_at(job, person));
    let known = by.is_some();
    let signed = place.as_ref().is_some_and(|place| !is_open(before.work)(place.entry));
    let old = |tag: u32| before.made && before.old.contains(&tag);
    if let Some(skipped) = job.steps.iter().position(|known| known.skipped && known.tag == step) {
        let steps = job.remaining().count();
        let none_open = before.made && !(0..steps).any(is_open(before.work));
        return given(&[
            (by.is_some_and(|by| job.people[by].may(skipped)), "14, a skipped step, by somebody permitted it"),
            (known && steps > 0 && none_open, "14, a skipped step, all others signed"),
            (known && steps == 0, "14, a skipped step, all steps skipped"),
        ]);
    }
    given(&[
        (place.is_none() && known, "14, step unknown"),
        (place.is_some() && !signed, "14, person unknown at an open step"),
        (signed, "14, person unknown at a signed step"),
        (place.is_none() && !known, "14, both unknown"),
        (step == 0, "14, step 0"),
        (person == 0, "14, person 0"),
        (place.is_none() && person_at(job, step).is_some(), "14, a person's tag for the step"),
        (!known && step_at(job, person).is_some(), "14, a step's tag for the person"),
        (place.is_none() && known && old(step), "14, a step of an earlier sheet"),
        (place.is_some() && old(person), "14, a person of an earlier sheet"),
    ])
}

fn of_signed(work: &Work, job: &Job, step: u32, person: u32) -> Vec<String> {
    let place = step_at(job, step).expect("14 comes first");
    let person = person_at(job, person).expect("14 comes first");
    let signer = usize::from(work.signer[place.entry]) - 1;
    let may = job.people[person].may(place.step);
    given(&[
        (person == signer, "15, by the signer"),
        (person != signer && may, "15, by another who is permitted"),
        (person != signer && !may, "15, by somebody not permitted"),
        (!(0..job.remaining().count()).any(is_open(work)), "15, with no step open"),
        (signer >= job.people.len(), "15, a signer who is not on the sheet"),
        (place.is_behind_skipped(), "15, behind a skipped step"),
    ])
}

fn of_refused(before: &Before, job: &Job, step: u32, person: u32) -> Vec<String> {
    let place = step_at(job, step).expect("14 comes first");
    let person = person_at(job, person).expect("14 comes first");
    let mut alone: Signers = [0; MOST_STEPS];
    alone[place.entry] = person as u8 + 1;
    let (may, planned) = (job.people[person].may(place.step), has_plan(job, &alone));
    let bound = before.made && planned;
    let mut with = before.work.signer;
    with[place.entry] = person as u8 + 1;
    let for_load = before.made && load_levels(job).any(|level| has_plan(&without_loads(job, level), &with));
    given(&[
        (!may, "16, not permitted"),
        (may && !planned, "16, permitted, in no plan at all"),
        (bound, "16, permitted, for what was granted before"),
        (bound && place.is_behind_skipped(), "16, behind a skipped step, for what was granted before"),
        (!before.made && planned, "16, for signers that no call has written"),
        (for_load, "16, permitted, for kind 5 alone"),
    ])
}
