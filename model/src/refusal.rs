//! What is refused, by number, and at which card. The names are those of the C header.

use std::fmt;

pub const SHORT_ANSWER: u32 = 1;
pub const CAP_TOO_HIGH: u32 = 2;
pub const BAD_LENGTH: u32 = 3;
pub const BAD_HEADER: u32 = 4;
pub const BAD_INDEX: u32 = 5;
pub const CARD_AGAIN: u32 = 6;
pub const WRONG_KIND: u32 = 7;
pub const BAD_FIELD: u32 = 8;
pub const NONE_OR_TOO_MANY: u32 = 9;
pub const TAG_TWICE: u32 = 10;
pub const CLASS_IN_TWO_CLASSES: u32 = 11;
pub const LOOSE_CARD: u32 = 12;
pub const NO_PLAN: u32 = 13;
pub const UNKNOWN: u32 = 14;
pub const STEP_SIGNED: u32 = 15;
pub const NOT_GRANTED: u32 = 16;

#[derive(Clone, Copy, Debug, PartialEq, Eq)]
pub struct Refusal {
    pub number: u32,
    pub card: usize,
}

pub fn refuse<T>(number: u32, card: usize) -> Result<T, Refusal> {
    Err(Refusal { number, card })
}

impl Refusal {
    /// "The returned number is 0, or refusal × 256 + card."
    pub fn returned(self) -> u32 {
        self.number * 256 + self.card as u32
    }

    /// The refusal that a call has returned, if it is one.
    pub fn of(returned: u32) -> Option<Refusal> {
        (returned != 0).then_some(Refusal { number: returned / 256, card: returned as usize % 256 })
    }
}

/// As the programs print it.
impl fmt::Display for Refusal {
    fn fmt(&self, out: &mut fmt::Formatter) -> fmt::Result {
        write!(out, "REFUSED {} CARD {}", self.number, self.card)
    }
}

/// Whether a call has returned that there is no plan.
pub fn is_no_plan(returned: u32) -> bool {
    Refusal::of(returned) == Some(Refusal { number: NO_PLAN, card: 0 })
}

#[cfg(test)]
mod tests {
    use super::*;

    #[test]
    fn a_refusal_is_known_by_what_is_returned() {
        assert_eq!(Refusal { number: LOOSE_CARD, card: 8 }.returned(), 12 * 256 + 8);
        assert_eq!(Refusal::of(12 * 256 + 8), Some(Refusal { number: LOOSE_CARD, card: 8 }));
        assert_eq!(Refusal::of(0), None);
        assert!(is_no_plan(13 * 256));
        assert!(!is_no_plan(0) && !is_no_plan(13 * 256 + 1) && !is_no_plan(12 * 256));
    }
}
