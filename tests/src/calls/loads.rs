//! Rules of kind 5 through the calls that plan: bad limits, areas and caps.

use super::{refused, spare, trial, Trial};
use model::answers::{crew_bytes, Call, MOST_CAP};
use model::builder::w_and;

/// "Two or more steps, limit 1 to that number": of W's rules kind 5 is the fourth, card 11. "Crews and spare counts take kind 5 in
/// like any other rule."
pub fn trials() -> Vec<Trial> {
    let mut trials = vec![];
    for (kind, limit, scope) in [(5, 0, 7), (5, 4, 7), (5, 3, 6), (5, 1, 4), (5, 1, 15), (6, 0, 6), (6, 1, 7)] {
        let name = format!("loads, W and a bad rule {kind},3,{limit},{scope}");
        trials.extend(refused(&name, &w_and(kind, 3, limit, scope), 8, 11));
    }
    let two_a_bench = w_and(5, 2, 2, 7);
    let none = w_and(5, 1, 2, 7);
    trials.extend((1..=MOST_CAP).map(|cap| spare("loads, caps", &two_a_bench, cap, 0, &[103])));
    trials.extend([
        spare("loads, caps", &two_a_bench, 0, 0, &[]),
        trial("loads, 23 bytes", Call::Crew, &two_a_bench, 23, Err(256)),
        trial("loads, 24 bytes", Call::Crew, &two_a_bench, 24, Ok(crew_bytes(&[(10, 101), (20, 101), (30, 103)]))),
        trial("loads, room before no plan", Call::Crew, &none, 23, Err(256)),
        trial("loads, no plan last", Call::Crew, &none, 24, Err(13 * 256)),
        trial("loads, room before no plan", Call::Spare { cap: 2 }, &none, 15, Err(256)),
        trial("loads, no plan last", Call::Spare { cap: 2 }, &none, 16, Err(13 * 256)),
    ]);
    trials
}
