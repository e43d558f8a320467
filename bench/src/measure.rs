//! One sheet through the library and through the hand-written search.

use crate::absences::spare;
use crate::asked::Asked;
use crate::baseline::{plan, Found, Order, Plan};
use crate::builds::Which;
use crate::clock::{timed, Nanos};
use crate::problem::Problem;
use crate::worker::Worker;
use model::answers::{crew_bytes, room, spare_bytes, Call, MOST_CAP, STEP_BYTES};
use model::builder::lay;
use model::job::Job;
use model::plans::{crew, is_valid, plan_by};
use model::refusal::is_no_plan;
use std::io;
use std::time::{Duration, Instant};

/// The cap of every spare count that is measured.
pub const CAP: usize = MOST_CAP as usize;

/// The longest that one call may take.
#[derive(Clone, Copy)]
pub struct Limits {
    pub library: Duration,
    pub hand: Duration,
}

pub struct Measured {
    pub steps: usize,
    pub people: usize,
    pub rules: usize,
    /// Nothing where no search has ended.
    pub has_plan: Option<bool>,
    pub crew: Nanos,
    pub first: Nanos,
    pub exists: Nanos,
    pub spare: Nanos,
    pub hand_spare: Nanos,
    /// What the two do not agree on.
    pub differences: Vec<&'static str>,
}

/// A search with its time, which is none where the search did not finish.
fn searched<T: Copy>(limit: Duration, run: impl Fn(Instant) -> Found<T>) -> (Found<T>, Nanos) {
    let (found, time) = timed(|| run(Instant::now() + limit));
    let finished = !matches!(found, Found::Unfinished);
    (found, finished.then_some(time.as_nanos() as u64))
}

/// What the library returned and wrote: nothing written where it refused, and nothing at all where it was late.
pub type Answer = Option<(u32, Vec<u8>)>;

pub fn called(worker: &mut Worker, call: Call, job: &Job, limit: Duration) -> io::Result<(Answer, Nanos)> {
    let Some(called) = worker.call(Which::This, Asked::whole(call), &lay(job).bytes, limit)? else {
        return Ok((None, None));
    };
    let written = if called.number == 0 { called.area[..room(call, job)].to_vec() } else { vec![] };
    Ok((Some((called.number, written)), Some(called.nanos)))
}

/// The people of a crew that was written, by their places in crew order: one for each step that remains.
pub fn people_of(job: &Job, crew: &[u8]) -> Option<Vec<usize>> {
    let tag = |pair: &[u8]| u32::from_le_bytes([pair[4], pair[5], pair[6], pair[7]]);
    let person = |pair| job.people.iter().position(|person| person.tag == tag(pair));
    crew.chunks(STEP_BYTES).map(person).collect()
}

/// The bytes of a plan by hand.
pub fn crew_of(job: &Job, plan: &Plan) -> Vec<u8> {
    crew_bytes(&crew(job, &plan_by(job, *plan)))
}

fn spare_of(job: &Job, (count, away): (usize, u64)) -> Vec<u8> {
    let tags: Vec<u32> =
        (0..job.people.len()).filter(|p| away >> p & 1 == 1).map(|person| job.people[person].tag).collect();
    spare_bytes(count, &tags)
}

/// An unfinished search agrees with a plan and with none, and a late call with all.
fn agrees<T>(answer: &Answer, found: Found<T>, bytes: impl Fn(T) -> Vec<u8>) -> bool {
    let Some(answer) = answer else {
        return true;
    };
    match found {
        Found::Some(found) => *answer == (0, bytes(found)),
        Found::None => is_no_plan(answer.0),
        Found::Unfinished => answer.0 == 0 || is_no_plan(answer.0),
    }
}

/// Whether a crew that was written is valid; what no search finished is known to be right so far.
fn is_sound(answer: &Answer, job: &Job) -> bool {
    let Some((0, crew)) = answer else {
        return true;
    };
    people_of(job, crew).is_some_and(|people| is_valid(job, &plan_by(job, people)))
}

fn has_plan(answer: &Answer, found: Found<Plan>) -> Option<bool> {
    match (answer, found) {
        (Some((number, _)), _) => Some(*number == 0),
        (None, Found::Some(_)) => Some(true),
        (None, Found::None) => Some(false),
        (None, Found::Unfinished) => None,
    }
}

pub fn measure(worker: &mut Worker, job: &Job, limits: Limits) -> io::Result<Measured> {
    let (crew_answer, crew) = called(worker, Call::Crew, job, limits.library)?;
    let (spare_answer, spare_time) = called(worker, Call::Spare { cap: MOST_CAP }, job, limits.library)?;

    let limit = limits.hand;
    let (found_first, first) = searched(limit, |until| plan(&Problem::new(job), 0, Order::Chain, until));
    let (found_any, exists) = searched(limit, |until| plan(&Problem::new(job), 0, Order::Fewest, until));
    let (found_spare, hand_spare) = searched(limit, |until| spare(&Problem::new(job), CAP, until));

    // A wrong plan by hand would make every comparison worthless.
    for found in [found_first, found_any] {
        assert!(!matches!(found, Found::Some(plan) if !is_valid(job, &plan_by(job, plan))), "{job:?}");
    }

    let mut differences = vec![];
    if !is_sound(&crew_answer, job) {
        differences.push("valid plan");
    }
    if !agrees(&crew_answer, found_first, |plan| crew_of(job, &plan)) {
        differences.push("first plan");
    }
    if !agrees(&crew_answer, found_any, |_| crew_answer.clone().map_or(vec![], |answer| answer.1)) {
        differences.push("existence");
    }
    if !agrees(&spare_answer, found_spare, |found| spare_of(job, found)) {
        differences.push("spare count");
    }
    Ok(Measured {
        steps: job.steps.len(),
        people: job.people.len(),
        rules: job.rules.len(),
        has_plan: has_plan(&crew_answer, found_any),
        crew,
        first,
        exists,
        spare: spare_time,
        hand_spare,
        differences,
    })
}
