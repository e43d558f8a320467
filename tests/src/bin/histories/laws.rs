//! What is promised of a job that its calls alone have changed, seen from outside: the library is asked on copies of the job, and
//! every valid plan of the sheet is known from the brute force.

use model::job::Job;
use model::library;
use model::plans::{is_valid, plan_by, Plan};
use model::signing::Work;

/// The people whom the library would grant a step, by their places in crew order.
fn granted(work: &Work, job: &Job, step: usize) -> Vec<usize> {
    let grants = |&person: &usize| library::sign(&mut work.clone(), job.steps[step].tag, job.people[person].tag) == 0;
    (0..job.people.len()).filter(grants).collect()
}

/// "As long as a step is open, somebody would be granted it", and exactly those to whom a valid plan that agrees with all
/// granted before gives it.
fn open_step(work: &Work, job: &Job, agreeing: &[Plan], step: usize) -> Option<String> {
    let found = granted(work, job, step);
    if found.is_empty() {
        return Some(format!("step {step} is open, and nobody would be granted it"));
    }
    let planned = |&person: &usize| agreeing.iter().any(|plan| plan[step] == Some(person));
    let expected: Vec<usize> = (0..job.people.len()).filter(planned).collect();
    (found != expected).then(|| format!("step {step} would be granted to {found:?}, expected {expected:?}"))
}

/// What is broken; `agreeing` are the valid plans that agree with all granted so far.
pub fn fault(work: &Work, job: &Job, agreeing: &[Plan]) -> Option<String> {
    let mut open = job.remaining().zip(work.signer).filter(|(_, signer)| *signer == 0).map(|(step, _)| step).peekable();
    if open.peek().is_none() {
        let plan = plan_by(job, work.signer.map(|signer| usize::from(signer).wrapping_sub(1)));
        let good = plan.iter().flatten().all(|&person| person < job.people.len()) && is_valid(job, &plan);
        return (!good).then(|| format!("no step is open, and {plan:?} is no valid plan"));
    }
    open.find_map(|step| open_step(work, job, agreeing, step))
}
