//! A job under work: opened, signed step by step, its refusals counted. Every plan is tried, so that a grant of a large job is
//! not answered. The bytes of such a job are all that is known of it, whoever has made them.

use crate::card::MOST_BYTES;
use crate::job::{Job, MOST_STEPS};
use crate::plans::{first_plan, first_suiting, is_small};
use crate::reader::read;
use crate::refusal::{Refusal, NOT_GRANTED, NO_PLAN, STEP_SIGNED, UNKNOWN};

/// "The job also counts refused signings from 0, stopping at 1,000,000."
pub const MOST_REFUSALS: u32 = 1_000_000;

/// For each step that remains, one after the other, who signed it, counted from 1 in crew order; 0 where it is open, and after
/// the last.
pub type Signers = [u8; MOST_STEPS];

/// The job in the host's memory, laid out as in the C header.
#[repr(C)]
#[derive(Clone, Debug, PartialEq, Eq)]
pub struct Work {
    pub refusals: u32,
    pub sheet_len: u32,
    pub sheet: [u8; MOST_BYTES],
    pub signer: Signers,
}

impl Work {
    /// "A job never opened": all bytes are zero.
    pub const NEW: Work = Work { refusals: 0, sheet_len: 0, sheet: [0; MOST_BYTES], signer: [0; MOST_STEPS] };

    /// A job that holds the sheet, with all steps open. The sheet is not too long.
    pub fn holding(sheet: &[u8]) -> Work {
        let mut work = Work { sheet_len: sheet.len() as u32, ..Work::NEW };
        work.sheet[..sheet.len()].copy_from_slice(sheet);
        work
    }

    /// The bytes held; nothing where there are fewer than stated.
    pub fn held(&self) -> Option<&[u8]> {
        self.sheet.get(..self.sheet_len as usize)
    }

    /// What the sheet held says; nothing where none is held that can be read, as in a job never opened.
    pub fn job(&self) -> Option<Job> {
        read(self.held()?).ok()
    }
}

/// Whether some valid plan gives each signed step to its signer.
pub fn has_plan(job: &Job, signer: &Signers) -> bool {
    let before = |step| job.remaining().take_while(|&other| other < step).count();
    let suits = |signer: u8, person| signer == 0 || usize::from(signer) == person + 1;
    first_suiting(job, |step, person| suits(signer[before(step)], person)).is_some()
}

/// "Opening, the first time too, clears signings and count"; refused, it "leaves the job untouched". Nothing is returned where
/// the job is too large to try every plan.
pub fn open(work: &mut Work, sheet: &[u8]) -> Option<u32> {
    let job = match read(sheet) {
        Err(refusal) => return Some(refusal.returned()),
        Ok(job) if is_small(&job) => job,
        Ok(_) => return None,
    };
    if first_plan(&job, &[]).is_none() {
        return Some(Refusal { number: NO_PLAN, card: 0 }.returned());
    }
    *work = Work::holding(sheet);
    Some(0)
}

/// The places of step and person where they may sign, else the refusal's number: "with 14 an unknown step or person, with 15 a
/// signed step, with 16 any other signing not granted, tested in that order". The place of a step is that among those that
/// remain: "for signing, a skipped step is unknown".
fn judged(work: &Work, step: u32, person: u32) -> Option<Result<(usize, usize), u32>> {
    let Some(job) = work.job() else {
        return Some(Err(UNKNOWN));
    };
    let place = job.remaining().position(|known| job.steps[known].tag == step);
    let signer = job.people.iter().position(|known| known.tag == person);
    let (Some(place), Some(signer)) = (place, signer) else {
        return Some(Err(UNKNOWN));
    };
    if work.signer[place] != 0 {
        return Some(Err(STEP_SIGNED));
    }
    if !is_small(&job) {
        return None;
    }
    let mut signers = work.signer;
    signers[place] = signer as u8 + 1;
    Some(if has_plan(&job, &signers) { Ok((place, signer)) } else { Err(NOT_GRANTED) })
}

/// "The job then changed in its counter only"; a grant changes the signer alone. Nothing is returned where the job is too large
/// to try every plan.
pub fn sign(work: &mut Work, step: u32, person: u32) -> Option<u32> {
    match judged(work, step, person)? {
        Ok((place, signer)) => {
            work.signer[place] = signer as u8 + 1;
            Some(0)
        }
        Err(number) => {
            if work.refusals < MOST_REFUSALS {
                work.refusals += 1;
            }
            Some(Refusal { number, card: 0 }.returned())
        }
    }
}

/// The figure shown for the job.
pub fn refusals(work: &Work) -> u32 {
    work.refusals
}

#[cfg(test)]
mod tests {
    use super::*;
    use crate::builder::{job_w, lay, plain, sheet_w, skipping, w_and};
    use crate::job::Job;

    const GRANTED: u32 = 0;
    const UNKNOWN_NUMBER: u32 = 14 * 256;
    const SIGNED: u32 = 15 * 256;
    const REFUSED: u32 = 16 * 256;

    fn opened(job: &Job) -> Work {
        let mut work = Work::NEW;
        assert_eq!(open(&mut work, &lay(job).bytes), Some(0));
        work
    }

    fn w() -> Work {
        opened(&job_w())
    }

    fn signed(work: &mut Work, step: u32, person: u32) -> u32 {
        sign(work, step, person).expect("a small job")
    }

    #[test]
    fn a_grant_agrees_with_a_plan_and_all_granted_before() {
        let mut work = w();
        // 104 is of shop 2, where nobody may do step 20.
        assert_eq!(signed(&mut work, 30, 104), REFUSED);
        assert_eq!(signed(&mut work, 30, 102), GRANTED);
        assert_eq!(signed(&mut work, 20, 102), REFUSED);
        assert_eq!(signed(&mut work, 20, 101), GRANTED);
        assert_eq!(signed(&mut work, 10, 102), GRANTED);
        assert_eq!((work.signer[..4].to_vec(), refusals(&work)), (vec![2, 1, 2, 0], 2));
    }

    #[test]
    fn unknown_comes_before_signed_and_signed_before_not_granted() {
        let mut work = w();
        assert_eq!(signed(&mut work, 20, 101), GRANTED);
        assert_eq!(signed(&mut work, 20, 105), UNKNOWN_NUMBER);
        assert_eq!(signed(&mut work, 20, 103), SIGNED);
        assert_eq!(signed(&mut work, 20, 101), SIGNED);
        assert_eq!(signed(&mut work, 10, 103), REFUSED);
        assert_eq!(signed(&mut work, 101, 10), UNKNOWN_NUMBER);
        assert_eq!(signed(&mut work, 0, 101), UNKNOWN_NUMBER);
        assert_eq!(signed(&mut work, 10, 0), UNKNOWN_NUMBER);
        assert_eq!(refusals(&work), 7);
    }

    #[test]
    fn a_skipped_step_is_unknown_and_the_others_are_signed_one_after_the_other() {
        let mut work = opened(&skipping(job_w(), [0]));
        assert_eq!(signed(&mut work, 10, 101), UNKNOWN_NUMBER);
        assert_eq!(signed(&mut work, 30, 103), GRANTED);
        assert_eq!(work.signer[..3], [0, 3, 0]);
        assert_eq!(signed(&mut work, 30, 101), SIGNED);
        // 104 may do step 30 alone.
        assert_eq!(signed(&mut work, 20, 104), REFUSED);
        assert_eq!(signed(&mut work, 20, 102), GRANTED);
        assert_eq!((work.signer[..3].to_vec(), refusals(&work)), (vec![2, 3, 0], 3));
    }

    #[test]
    fn signers_bind_the_steps_that_remain() {
        // Steps 10 and 30 by different people: who signs one, signs not the other.
        let mut job = skipping(job_w(), [1]);
        job.rules[2].scope = 0b101;
        let mut work = opened(&job);
        assert_eq!(signed(&mut work, 30, 102), GRANTED);
        assert_eq!(signed(&mut work, 10, 102), REFUSED);
        assert_eq!(signed(&mut work, 10, 101), GRANTED);
        assert_eq!(work.signer[..3], [1, 2, 0]);
    }

    #[test]
    fn with_all_steps_skipped_a_job_opens_and_every_step_is_unknown() {
        let mut work = opened(&skipping(job_w(), 0..3));
        for step in [10, 20, 30, 0] {
            assert_eq!(signed(&mut work, step, 101), UNKNOWN_NUMBER);
        }
        assert_eq!((work.signer, refusals(&work)), ([0; MOST_STEPS], 4));
    }

    #[test]
    fn in_a_job_never_opened_every_step_is_unknown() {
        let mut work = Work::NEW;
        assert_eq!(signed(&mut work, 10, 101), UNKNOWN_NUMBER);
        assert_eq!(work, Work { refusals: 1, ..Work::NEW });
    }

    #[test]
    fn an_opening_makes_the_job_anew_or_leaves_every_byte() {
        let mut work = Work { refusals: 7, sheet_len: u32::MAX, sheet: [9; MOST_BYTES], signer: [9; MOST_STEPS] };
        for (sheet, number) in [(sheet_w().cut(24), 3 * 256), (w_and(3, 3, 1, 7), 13 * 256)] {
            let before = work.clone();
            assert_eq!(open(&mut work, &sheet.bytes), Some(number));
            assert_eq!(work, before);
        }
        assert_eq!(open(&mut work, &sheet_w().bytes), Some(0));
        assert_eq!(work, w());
    }

    #[test]
    fn the_counter_stops() {
        for (before, after) in [(999_999, 1_000_000), (1_000_000, 1_000_000), (u32::MAX, u32::MAX)] {
            let mut work = Work { refusals: before, ..w() };
            assert_eq!(signed(&mut work, 1, 1), UNKNOWN_NUMBER);
            assert_eq!(signed(&mut work, 20, 101), GRANTED);
            assert_eq!(work.refusals, after);
        }
    }

    #[test]
    fn signers_that_no_call_has_written_are_taken_as_they_are() {
        let late = |place: usize, signer: u8| {
            let mut work = w();
            work.signer[place] = signer;
            work
        };
        assert_eq!(signed(&mut late(0, 5), 20, 101), REFUSED);
        assert_eq!(signed(&mut late(0, 5), 10, 101), SIGNED);
        assert_eq!(signed(&mut late(3, 255), 20, 101), GRANTED);
    }

    #[test]
    fn a_large_job_is_refused_but_not_granted() {
        let large = plain(64, 12, 0).bytes;
        let mut work = Work::holding(&large);
        assert_eq!(open(&mut work, &large), None);
        assert_eq!(sign(&mut work, 2_001, 1_001), None);
        assert_eq!(sign(&mut work, 1, 1_001), Some(UNKNOWN_NUMBER));
    }
}
