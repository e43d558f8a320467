//! The next call of a history: mostly such as bring the job on, among them every kind that is refused.

use model::garble::sample_of;
use model::job::Job;
use model::jobs::{laid, lopsided_job, small_job};
use model::plans::first_plan;
use model::random::Random;
use model::signing::{open, Work};

pub enum Move {
    Open(Vec<u8>),
    Sign { step: u32, person: u32 },
}

/// `old` are tags of sheets that were held before.
pub fn any(random: &mut Random, work: &Work, old: &[u32]) -> Move {
    let job = work.job();
    let done = job.as_ref().is_some_and(|job| signers(work, job).all(|(_, signer)| signer != 0));
    let often = if job.is_none() || done { 2 } else { 12 };
    if random.once_in(often) {
        return Move::Open(any_sheet(random, work));
    }
    let job = job.unwrap_or_default();
    let step = any_step(random, work, &job, old);
    Move::Sign { step, person: any_person(random, work, &job, step, old) }
}

/// A job with a plan or without one.
fn job_of(random: &mut Random, planned: bool) -> Job {
    loop {
        let job = if random.once_in(8) { lopsided_job(random) } else { small_job(random) };
        if first_plan(&job, &[]).is_some() == planned {
            return job;
        }
    }
}

/// Of some jobs that have a plan the one with the most rules, where more is refused.
fn ruled_job(random: &mut Random) -> Job {
    let jobs = [(); 3].map(|()| job_of(random, true));
    jobs.into_iter().max_by_key(|job| job.rules.len()).expect("there are three")
}

/// The brute force has to be able to tell what comes of the sheet.
fn any_sheet(random: &mut Random, work: &Work) -> Vec<u8> {
    loop {
        let sheet = match random.below(12) {
            0..=4 => {
                let job = ruled_job(random);
                laid(random, &job).bytes
            }
            5 => work.held().unwrap_or_default().to_vec(),
            6 => {
                let job = job_of(random, false);
                laid(random, &job).bytes
            }
            _ => sample_of(random, small_job).sheet,
        };
        if open(&mut work.clone(), &sheet).is_some() {
            return sheet;
        }
    }
}

/// One of them, or any number where there is none.
fn one_of(random: &mut Random, tags: &[u32]) -> u32 {
    if tags.is_empty() {
        return random.bits() as u32;
    }
    tags[random.below(tags.len())]
}

fn any_number(random: &mut Random) -> u32 {
    match random.below(3) {
        0 => 0,
        1 => random.below(200) as u32,
        _ => random.bits() as u32,
    }
}

/// The steps that remain, by their places on the chain, with their signers.
fn signers<'a>(work: &'a Work, job: &'a Job) -> impl Iterator<Item = (usize, u8)> + 'a {
    job.remaining().zip(work.signer)
}

fn people(job: &Job) -> Vec<u32> {
    job.people.iter().map(|person| person.tag).collect()
}

fn steps(job: &Job) -> Vec<u32> {
    job.steps.iter().map(|step| step.tag).collect()
}

fn any_step(random: &mut Random, work: &Work, job: &Job, old: &[u32]) -> u32 {
    let all = steps(job);
    let (signed, open): (Vec<_>, Vec<_>) = signers(work, job).partition(|(_, signer)| *signer != 0);
    let skipped: Vec<u32> = job.steps.iter().filter(|step| step.skipped).map(|step| step.tag).collect();
    let tags = |known: Vec<(usize, u8)>| known.into_iter().map(|(step, _)| all[step]).collect::<Vec<u32>>();
    let chosen = match random.below(20) {
        0 => return any_number(random),
        1 => people(job),
        2 => old.to_vec(),
        3..=6 if !signed.is_empty() => tags(signed),
        7..=8 if !skipped.is_empty() => skipped,
        _ if !open.is_empty() => tags(open),
        _ => all,
    };
    one_of(random, &chosen)
}

/// Mostly somebody who is permitted the step; of a signed one also the signer.
fn any_person(random: &mut Random, work: &Work, job: &Job, step: u32, old: &[u32]) -> u32 {
    let all = people(job);
    let place = job.steps.iter().position(|known| known.tag == step);
    let (_, signer) = signers(work, job).find(|(known, _)| Some(*known) == place).unwrap_or_default();
    let signer = all.get(usize::from(signer).wrapping_sub(1)).copied();
    let chosen = match random.below(20) {
        0 => return any_number(random),
        1 => steps(job),
        2 => old.to_vec(),
        3..=6 => all,
        7..=10 if signer.is_some() => signer.into_iter().collect(),
        _ => place.map_or(all.clone(), |place| job.permitted(place).map(|person| all[person]).collect()),
    };
    one_of(random, &chosen)
}
