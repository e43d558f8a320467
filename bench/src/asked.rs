//! What is asked of a build on a sheet: a call, and how much room it is lent for its answer.

use model::answers::{Call, MOST_CREW_BYTES};
use model::refusal::{Refusal, SHORT_ANSWER};

#[derive(Clone, Copy, Debug, PartialEq, Eq)]
pub struct Asked {
    pub call: Call,
    /// The bytes of the answer area, at most those of the longest crew.
    pub room: usize,
}

impl Asked {
    /// With room for any answer.
    pub fn whole(call: Call) -> Asked {
        Asked { call, room: MOST_CREW_BYTES }
    }

    /// With room for none: where a step remains, the call reads the whole sheet and refuses before it plans.
    pub fn reading(call: Call) -> Asked {
        Asked { call, room: 0 }
    }
}

/// Whether a call has returned that its area is too short.
pub fn is_short_answer(returned: u32) -> bool {
    Refusal::of(returned) == Some(Refusal { number: SHORT_ANSWER, card: 0 })
}

#[cfg(test)]
mod tests {
    use super::*;
    use model::answers::MOST_CAP;
    use model::builder::{job_w, lay, sheet_w, skipping};
    use model::library;

    fn numbers(sheet: &[u8], room: fn(Call) -> Asked) -> [u32; 2] {
        [Call::Crew, Call::Spare { cap: MOST_CAP }].map(|call| {
            let Asked { call, room } = room(call);
            library::run(call, sheet, &mut [0; MOST_CREW_BYTES][..room])
        })
    }

    #[test]
    fn without_room_both_calls_refuse_for_that() {
        for sheet in [sheet_w().bytes, lay(&skipping(job_w(), [1])).bytes] {
            assert_eq!(numbers(&sheet, Asked::whole), [0, 0]);
            assert_eq!(numbers(&sheet, Asked::reading).map(is_short_answer), [true, true]);
        }
    }

    #[test]
    fn without_room_a_sheet_is_still_read_to_its_end() {
        let loose = sheet_w().first_rule(9).bytes;
        assert_eq!(numbers(&loose, Asked::reading), [12 * 256 + 8; 2]);
    }

    #[test]
    fn a_crew_without_steps_needs_no_room() {
        let sheet = lay(&skipping(job_w(), 0..3)).bytes;
        assert_eq!(numbers(&sheet, Asked::reading).map(is_short_answer), [false, true]);
    }
}
