//! Calls in several ways, by turns: another build of the library, another sheet, or the reader alone. What each answers, and the
//! best time of each.

use crate::asked::Asked;
use crate::builds::Which;
use crate::clock::Nanos;
use crate::worker::{Called, Worker};
use std::io;
use std::time::Duration;

/// A build, what it is asked, and the sheet that it is given.
pub type Way<'a> = (Which, Asked, &'a [u8]);

/// How often the ways take turns, and the longest that one call may take.
#[derive(Clone, Copy)]
pub struct Turns {
    pub rounds: u32,
    pub late: Duration,
}

/// The quicker one; a call that has ended once is not late.
fn better(one: Option<Called>, other: Option<Called>) -> Option<Called> {
    one.into_iter().chain(other).min_by_key(|called| called.nanos)
}

/// The best call of each way. They take turns, another one first in every round; one that is late is not asked again.
pub fn in_turn<const N: usize>(worker: &mut Worker, ways: [Way; N], turns: Turns) -> io::Result<[Option<Called>; N]> {
    let mut best = [const { None }; N];
    for round in 0..turns.rounds as usize {
        for at in (round..round + N).map(|turn| turn % N) {
            let (which, asked, sheet) = ways[at];
            if round == 0 || best[at].is_some() {
                best[at] = better(best[at].take(), worker.call(which, asked, sheet, turns.late)?);
            }
        }
    }
    Ok(best)
}

/// A late call agrees with any.
pub fn agree([this, other]: &[Option<Called>; 2]) -> bool {
    match (this, other) {
        (Some(this), Some(other)) => (this.number, this.area) == (other.number, other.area),
        _ => true,
    }
}

/// The times of one call in both ways; one that is missing was late.
#[derive(Clone, Copy)]
pub struct Times {
    pub this: Nanos,
    pub other: Nanos,
}

impl Times {
    pub fn of([this, other]: &[Option<Called>; 2]) -> Times {
        let time = |called: &Option<Called>| called.as_ref().map(|called| called.nanos);
        Times { this: time(this), other: time(other) }
    }

    /// Nothing where both were late.
    pub fn ratio(self) -> Option<f64> {
        match (self.this, self.other) {
            (Some(this), Some(other)) => Some(this as f64 / other as f64),
            (None, Some(_)) => Some(f64::INFINITY),
            (Some(_), None) => Some(0.0),
            (None, None) => None,
        }
    }
}

/// The geometric mean of what ended in both ways.
pub fn mean(ratios: &[f64]) -> Option<f64> {
    let logs: Vec<f64> = ratios.iter().filter(|ratio| ratio.is_normal()).map(|ratio| ratio.ln()).collect();
    (!logs.is_empty()).then(|| (logs.iter().sum::<f64>() / logs.len() as f64).exp())
}

/// A ratio in a table.
pub fn text(ratio: Option<f64>) -> String {
    match ratio {
        None => "-".to_string(),
        Some(value) if value.is_infinite() => "late".to_string(),
        Some(value) => format!("{value:.2}"),
    }
}

#[cfg(test)]
mod tests {
    use super::*;
    use model::answers::MOST_CREW_BYTES;

    fn called(number: u32, byte: u8, nanos: u64) -> Option<Called> {
        Some(Called { number, area: [byte; MOST_CREW_BYTES], nanos })
    }

    #[test]
    fn number_and_bytes_are_compared() {
        assert!(agree(&[called(0, 7, 1), called(0, 7, 2)]));
        assert!(!agree(&[called(0, 7, 1), called(0, 8, 1)]));
        assert!(!agree(&[called(0, 7, 1), called(13 * 256, 7, 1)]));
        assert!(agree(&[called(0, 7, 1), None]));
    }

    #[test]
    fn the_best_time_counts() {
        assert_eq!(better(called(0, 7, 3), called(0, 7, 2)), called(0, 7, 2));
        assert_eq!(better(called(0, 7, 3), None), called(0, 7, 3));
        assert_eq!(better(None, None), None);
    }

    #[test]
    fn what_is_late_alone_is_slower_than_all() {
        let ratio = |this, other| Times { this, other }.ratio();
        assert_eq!(ratio(Some(30), Some(20)), Some(1.5));
        assert_eq!(ratio(None, Some(20)), Some(f64::INFINITY));
        assert_eq!(ratio(Some(30), None), Some(0.0));
        assert_eq!(ratio(None, None), None);
    }

    #[test]
    fn a_late_call_is_not_in_the_mean() {
        assert_eq!(mean(&[0.5, 2.0, 0.0, f64::INFINITY]), Some(1.0));
        assert_eq!(mean(&[0.0]), None);
    }
}
