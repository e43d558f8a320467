//! What each call has to return and to leave in the answer area, for any sheet, area and cap.

use crate::job::{Job, MOST_STEPS};
use crate::plans::{crew, first_plan, is_small, spare};
use crate::reader::read;
use crate::refusal::{refuse, Refusal, CAP_TOO_HIGH, NO_PLAN, SHORT_ANSWER};

pub const STEP_BYTES: usize = 8;
pub const MOST_CREW_BYTES: usize = STEP_BYTES * MOST_STEPS;
pub const SPARE_BYTES: usize = 16;
pub const MOST_CAP: u32 = 3;

#[derive(Clone, Copy, Debug, PartialEq, Eq)]
pub enum Call {
    Crew,
    /// Another way to ask for the crew: it is answered alike.
    CrewByTrial,
    Spare {
        cap: u32,
    },
}

impl Call {
    /// The word for it, whatever the cap.
    pub fn name(self) -> &'static str {
        match self {
            Call::Crew => "crew",
            Call::CrewByTrial => "crew by trial",
            Call::Spare { .. } => "spare",
        }
    }
}

/// The returned number, and the whole area after the call.
#[derive(Clone, Debug, PartialEq, Eq)]
pub struct Answer {
    pub number: u32,
    pub area: Vec<u8>,
}

/// The bytes of a crew: step tag, then person tag, for each step that remains.
pub fn crew_bytes(pairs: &[(u32, u32)]) -> Vec<u8> {
    pairs.iter().flat_map(|(step, person)| [step.to_le_bytes(), person.to_le_bytes()].concat()).collect()
}

/// The bytes of a spare count: the count, three zeros, three tags.
pub fn spare_bytes(count: usize, away: &[u32]) -> Vec<u8> {
    let mut bytes = vec![count as u8, 0, 0, 0];
    bytes.extend(away.iter().flat_map(|tag| tag.to_le_bytes()));
    bytes.resize(SPARE_BYTES, 0);
    bytes
}

/// How many bytes the call writes for the job.
pub fn room(call: Call, job: &Job) -> usize {
    match call {
        Call::Crew | Call::CrewByTrial => STEP_BYTES * job.remaining().count(),
        Call::Spare { .. } => SPARE_BYTES,
    }
}

/// The job that the call has to plan. "Order: 2, 3, 4; ... 12, 1, 13."
pub fn job(call: Call, sheet: &[u8], area: usize) -> Result<Job, Refusal> {
    if matches!(call, Call::Spare { cap } if cap > MOST_CAP) {
        return refuse(CAP_TOO_HIGH, 0);
    }
    let job = read(sheet)?;
    if area < room(call, &job) {
        return refuse(SHORT_ANSWER, 0);
    }
    Ok(job)
}

/// The bytes that the call writes for a job, or 13.
fn planned(call: Call, job: &Job) -> Result<Vec<u8>, Refusal> {
    match call {
        Call::Crew | Call::CrewByTrial => {
            let Some(plan) = first_plan(job, &[]) else {
                return refuse(NO_PLAN, 0);
            };
            Ok(crew_bytes(&crew(job, &plan)))
        }
        Call::Spare { cap } => {
            let Some(found) = spare(job, cap as usize) else {
                return refuse(NO_PLAN, 0);
            };
            let away: Vec<u32> = found.away.iter().map(|&person| job.people[person].tag).collect();
            Ok(spare_bytes(found.count, &away))
        }
    }
}

/// "Later bytes of the buffer keep their values"; a refusal leaves all of them.
pub fn settle(written: Result<Vec<u8>, Refusal>, area: &[u8]) -> Answer {
    let mut area = area.to_vec();
    match written {
        Err(refusal) => Answer { number: refusal.returned(), area },
        Ok(bytes) => {
            area[..bytes.len()].copy_from_slice(&bytes);
            Answer { number: 0, area }
        }
    }
}

/// The answer of a call; nothing where the job is too large to try every plan.
pub fn answer(call: Call, sheet: &[u8], area: &[u8]) -> Option<Answer> {
    let written = match job(call, sheet, area.len()) {
        Err(refusal) => Err(refusal),
        Ok(job) if is_small(&job) => planned(call, &job),
        Ok(_) => return None,
    };
    Some(settle(written, area))
}

#[cfg(test)]
mod tests {
    use super::*;
    use crate::builder::{job_w, lay, plain, sheet_w, skipping};

    fn numbers(call: Call, sheet: &[u8], area: &[u8]) -> u32 {
        answer(call, sheet, area).expect("a small job").number
    }

    #[test]
    fn later_bytes_keep_their_values() {
        let answer = answer(Call::Spare { cap: 0 }, &sheet_w().bytes, &[9; 18]).unwrap();
        assert_eq!(answer, Answer { number: 0, area: [[0; 16].as_slice(), &[9, 9]].concat() });
    }

    #[test]
    fn the_cap_comes_before_all_else() {
        assert_eq!(numbers(Call::Spare { cap: 258 }, &[], &[]), 2 * 256);
        assert_eq!(numbers(Call::Spare { cap: 3 }, &[], &[]), 3 * 256);
    }

    #[test]
    fn a_short_area_comes_between_the_reader_and_no_plan() {
        let loose = sheet_w().first_rule(9).bytes;
        assert_eq!(numbers(Call::Crew, &loose, &[]), 12 * 256 + 8);
        let idle = plain(2, 2, 0).word(1, 12, 0).word(2, 12, 0).bytes;
        assert_eq!(numbers(Call::Crew, &idle, &[0; 15]), 256);
        assert_eq!(numbers(Call::Crew, &idle, &[0; 16]), 13 * 256);
    }

    #[test]
    fn crew_bytes_and_area_cover_the_steps_that_remain() {
        let sheet = lay(&skipping(job_w(), [1])).bytes;
        assert_eq!(numbers(Call::Crew, &sheet, &[9; 15]), 256);
        let crew = answer(Call::Crew, &sheet, &[9; 17]).unwrap();
        assert_eq!(crew, Answer { number: 0, area: [crew_bytes(&[(10, 101), (30, 101)]), vec![9]].concat() });
    }

    #[test]
    fn with_all_steps_skipped_any_area_will_do_for_a_crew() {
        let sheet = lay(&skipping(job_w(), 0..3)).bytes;
        for call in [Call::Crew, Call::CrewByTrial] {
            assert_eq!(answer(call, &sheet, &[]), Some(Answer { number: 0, area: vec![] }));
            assert_eq!(answer(call, &sheet, &[9; 8]), Some(Answer { number: 0, area: vec![9; 8] }));
        }
        assert_eq!(numbers(Call::Spare { cap: 2 }, &sheet, &[0; 15]), 256);
        let spare = answer(Call::Spare { cap: 2 }, &sheet, &[9; 16]).unwrap();
        assert_eq!(spare, Answer { number: 0, area: spare_bytes(2, &[]) });
    }

    #[test]
    fn a_large_job_is_not_answered_but_its_short_area_is() {
        let large = plain(64, 12, 0).bytes;
        assert_eq!(answer(Call::Crew, &large, &[0; 96]), None);
        assert_eq!(numbers(Call::Crew, &large, &[0; 95]), 256);
    }
}
