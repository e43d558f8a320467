//! One history: after each call the number, every byte of the job, those around it and the count shown are the model's.

use crate::kinds::{of_opening, of_signing, Before};
use crate::laws;
use crate::moves::{self, Move};
use crate::starts;
use model::job::Job;
use model::library;
use model::plans::{all_plans, Plan};
use model::random::Random;
use model::signing::{self, Work};
use sheet_tests::tally::Tally;

const MOST_CALLS: usize = 40;

/// Bytes on each side of the job that nobody may touch.
const MARGIN: usize = 32;
const UNTOUCHED: [u8; MARGIN] = [0xA5; MARGIN];

/// The library's job between its margins.
#[repr(C)]
struct Lent {
    ahead: [u8; MARGIN],
    work: Work,
    behind: [u8; MARGIN],
}

pub struct History {
    lent: Lent,
    model: Work,
    /// Whether calls alone have made the job: what is promised holds of it.
    made: bool,
    /// Tags of sheets that were held before.
    old: Vec<u32>,
    /// Whether an opening was refused since the job was opened.
    refused_before: bool,
    /// The job held and the valid plans that agree with all granted so far, where a call has opened it.
    open: Option<(Job, Vec<Plan>)>,
}

impl History {
    pub fn begin(random: &mut Random) -> History {
        let start = starts::any(random);
        let lent = Lent { ahead: UNTOUCHED, work: start.work.clone(), behind: UNTOUCHED };
        History { lent, model: start.work, made: start.made, old: vec![], refused_before: false, open: None }
    }

    /// The bytes held at last, to be kept where something failed.
    pub fn sheet(&self) -> &[u8] {
        self.model.held().unwrap_or_default()
    }

    /// Makes calls until one is answered wrongly; what is wrong.
    pub fn go_on(&mut self, random: &mut Random, tally: &mut Tally) -> Vec<String> {
        for call in 0..random.within(4, MOST_CALLS) {
            tally.count("calls".to_string());
            let (name, fault) = match moves::any(random, &self.model, &self.old) {
                Move::Open(sheet) => (format!("opening of {} bytes", sheet.len()), self.open(&sheet, tally)),
                Move::Sign { step, person } => {
                    (format!("signing of {step} by {person}"), self.sign(step, person, tally))
                }
            };
            if let Some(fault) = fault {
                return vec![format!("call {call}, {name}: {fault}")];
            }
        }
        vec![]
    }

    fn before<'a>(&'a self, work: &'a Work) -> Before<'a> {
        Before { work, made: self.made, old: &self.old, refused_before: self.refused_before }
    }

    fn open(&mut self, sheet: &[u8], tally: &mut Tally) -> Option<String> {
        let before = self.model.clone();
        let lent = sheet.to_vec();
        let number = library::open(&mut self.lent.work, &lent);
        let expected = signing::open(&mut self.model, sheet).expect("a small job");
        let known = self.before(&before);
        of_opening(&known, sheet, expected).into_iter().for_each(|kind| tally.count(kind));
        if lent != sheet {
            return Some("the sheet was written to".to_string());
        }
        let fault = self.fault(number, expected);
        self.refused_before = expected != 0;
        if fault.is_some() || expected != 0 {
            return fault;
        }
        if let Some((job, _)) = self.open.take() {
            self.old = job.steps.iter().map(|step| step.tag).chain(job.people.iter().map(|p| p.tag)).collect();
        }
        let job = self.model.job().expect("an opened job is readable");
        let plans = all_plans(&job);
        self.made = true;
        self.open = Some((job, plans));
        self.law()
    }

    fn sign(&mut self, step: u32, person: u32, tally: &mut Tally) -> Option<String> {
        let before = self.model.clone();
        let number = library::sign(&mut self.lent.work, step, person);
        let expected = signing::sign(&mut self.model, step, person).expect("a small job");
        let known = self.before(&before);
        of_signing(&known, step, person, expected).into_iter().for_each(|kind| tally.count(kind));
        let fault = self.fault(number, expected);
        if fault.is_some() || expected != 0 {
            return fault;
        }
        if let Some((job, plans)) = &mut self.open {
            let place = job.steps.iter().position(|known| known.tag == step).expect("a granted step is known");
            plans.retain(|plan| plan[place].is_some_and(|given| job.people[given].tag == person));
        }
        self.law()
    }

    /// What differs after a call.
    fn fault(&self, number: u32, expected: u32) -> Option<String> {
        let shown = library::refusals(&self.lent.work);
        let found = &self.lent.work;
        if number != expected {
            return Some(format!("number {number}, expected {expected}"));
        }
        if *found != self.model {
            let heads = |work: &Work| (work.refusals, work.sheet_len, work.signer);
            return Some(format!(
                "the job is {:?}, expected {:?}, or its sheet differs",
                heads(found),
                heads(&self.model)
            ));
        }
        if shown != signing::refusals(&self.model) {
            return Some(format!("{shown} refusals are shown, expected {}", self.model.refusals));
        }
        let kept = self.lent.ahead == UNTOUCHED && self.lent.behind == UNTOUCHED;
        (!kept).then(|| "bytes around the job were written".to_string())
    }

    /// What is promised of a job opened by a call, wherever the job has changed.
    fn law(&self) -> Option<String> {
        let (job, agreeing) = self.open.as_ref()?;
        laws::fault(&self.lent.work, job, agreeing)
    }
}
