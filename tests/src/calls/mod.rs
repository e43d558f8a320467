//! The paper's sheets to try through the calls that plan, each with the number and the bytes that the paper gives it; then caps,
//! the order of refusals, skipped steps, rules of kind 5, and sheets of version 2.

mod levels;
mod loads;

use crate::by_hand::{self, Sheet};
use model::answers::{crew_bytes, spare_bytes, Call, MOST_CAP, SPARE_BYTES, STEP_BYTES};
use model::builder::{lay, one_by_one, plain, sheet_w, shorter_w, skipped_w, w_and, Draft};
use model::job::MOST_STEPS;

/// A call, and what is stated of it. `written` are the first bytes of the area afterwards; the others are kept.
#[derive(Clone, Debug)]
pub struct Trial {
    pub name: String,
    pub call: Call,
    pub sheet: Vec<u8>,
    /// The length of the answer area.
    pub room: usize,
    pub number: u32,
    pub written: Vec<u8>,
}

/// What the names of the call's trials end with.
fn part(call: Call) -> String {
    match call {
        Call::Spare { cap } => format!("{}, cap {cap}", call.name()),
        _ => call.name().to_string(),
    }
}

fn trial(name: &str, call: Call, sheet: &Draft, room: usize, outcome: Result<Vec<u8>, u32>) -> Trial {
    let (number, written) = match outcome {
        Ok(bytes) => (0, bytes),
        Err(number) => (number, vec![]),
    };
    Trial { name: format!("{name}: {}", part(call)), call, sheet: sheet.bytes.clone(), room, number, written }
}

/// Areas that hold every answer, with bytes to spare.
const CREW_ROOM: usize = 100;
const SPARE_ROOM: usize = 20;

fn crew(name: &str, sheet: &Draft, pairs: &[(u32, u32)]) -> Trial {
    trial(name, Call::Crew, sheet, CREW_ROOM, Ok(crew_bytes(pairs)))
}

fn spare(name: &str, sheet: &Draft, cap: u32, count: usize, away: &[u32]) -> Trial {
    trial(name, Call::Spare { cap }, sheet, SPARE_ROOM, Ok(spare_bytes(count, away)))
}

/// "It gives the same number and bytes": the crew call's trial, asked of the engine that tries every plan.
fn by_trial(trial: &Trial) -> Trial {
    let name = trial.name.replace(&part(Call::Crew), &part(Call::CrewByTrial));
    Trial { name, call: Call::CrewByTrial, ..trial.clone() }
}

/// Both calls refuse alike.
fn refused(name: &str, sheet: &Draft, number: u32, card: u32) -> [Trial; 2] {
    let returned = number * 256 + card;
    [
        trial(name, Call::Crew, sheet, CREW_ROOM, Err(returned)),
        trial(name, Call::Spare { cap: 2 }, sheet, SPARE_ROOM, Err(returned)),
    ]
}

pub fn all() -> Vec<Trial> {
    let mut trials = with_a_plan();
    trials.extend(without_a_plan());
    trials.extend(lengths());
    trials.extend(sizes());
    trials.extend(damaged());
    trials.extend(rooms());
    trials.extend(caps());
    trials.extend(refusals_in_order());
    trials.extend(by_hand::in_every_form().iter().flat_map(worked_out));
    trials.extend(rooms_of_skipped());
    trials.extend(all_skipped());
    trials.extend(loads::trials());
    trials.extend(levels::trials());
    let crews: Vec<Trial> = trials.iter().filter(|trial| trial.call == Call::Crew).cloned().collect();
    trials.extend(crews.iter().map(by_trial));
    trials
}

const W_CREW: [(u32, u32); 3] = [(10, 101), (20, 101), (30, 102)];

fn with_a_plan() -> Vec<Trial> {
    let w = sheet_w();
    let idle = sheet_w().word(3, 12, 0);
    let three = w_and(4, 3, 3, 7);
    let one = one_by_one(1);
    let shorter = shorter_w();
    vec![
        crew("sheet 1, W", &w, &W_CREW),
        spare("sheet 1, W", &w, 2, 1, &[101, 102]),
        crew("sheet 2, W", &w, &W_CREW),
        spare("sheet 2, W", &w, 0, 0, &[]),
        crew("sheet 3, 103 permitted nothing", &idle, &W_CREW),
        spare("sheet 3, 103 permitted nothing", &idle, 2, 0, &[101]),
        crew("sheet 5, W and 4,3,3,7", &three, &[(10, 101), (20, 102), (30, 103)]),
        spare("sheet 5, W and 4,3,3,7", &three, 2, 0, &[101]),
        crew("sheet 7, one person, one step", &one, &[(1, 1)]),
        spare("sheet 7, one person, one step", &one, 3, 0, &[1]),
        crew("sheet 9, W without its last rule", &shorter, &[(10, 101), (20, 101), (30, 101)]),
        spare("sheet 9, W without its last rule", &shorter, 2, 1, &[101, 102]),
    ]
}

fn without_a_plan() -> Vec<Trial> {
    let mut trials = vec![];
    trials.extend(refused("sheet 4, W and 2,1,0,6", &w_and(2, 1, 0, 6), 13, 0));
    trials.extend(refused("sheet 6, W and 3,3,1,7", &w_and(3, 3, 1, 7), 13, 0));
    trials.extend(refused("sheet 8, not permitted", &one_by_one(0), 13, 0));
    trials
}

fn lengths() -> Vec<Trial> {
    let mut trials = vec![];
    trials.extend(refused("sheet 10, length 0", &Draft::of(vec![]), 3, 0));
    trials.extend(refused("sheet 10, length 24", &sheet_w().cut(24), 3, 0));
    trials.extend(refused("sheet 10, length 2,272", &plain(65, 12, 64), 3, 0));
    trials.extend(refused("sheet 10, a lone good header", &plain(0, 0, 0), 9, 0));
    trials
}

/// The steps of a plain sheet, all done by the first person.
fn by_one(steps: u32) -> Vec<(u32, u32)> {
    (0..steps).map(|step| (2_001 + step, 1_001)).collect()
}

fn sizes() -> Vec<Trial> {
    let mut trials = vec![
        crew("sheet 11, 64 people", &plain(64, 1, 0), &by_one(1)),
        spare("sheet 11, 64 people", &plain(64, 1, 0), 3, 3, &[]),
        crew("sheet 11, 12 steps", &plain(1, 12, 0), &by_one(12)),
        spare("sheet 11, 12 steps", &plain(1, 12, 0), 3, 0, &[1_001]),
        crew("sheet 11, 64 rules", &plain(1, 2, 64), &by_one(2)),
        spare("sheet 11, 64 rules", &plain(1, 2, 64), 3, 0, &[1_001]),
    ];
    trials.extend(refused("sheet 11, 65 people", &plain(65, 1, 0), 9, 65));
    trials.extend(refused("sheet 11, 13 steps", &plain(1, 13, 0), 9, 14));
    trials.extend(refused("sheet 11, 65 rules", &plain(1, 2, 65), 9, 68));
    trials
}

fn damaged() -> Vec<Trial> {
    let broken = sheet_w().byte(0, 0, 9);
    let mut trials = vec![
        trial("sheet 12, a damaged sheet", Call::Spare { cap: 4 }, &broken, SPARE_ROOM, Err(2 * 256)),
        trial("sheet 12, a damaged sheet", Call::Spare { cap: 3 }, &broken, SPARE_ROOM, Err(4 * 256)),
        trial("sheet 12, a damaged sheet", Call::Crew, &broken, CREW_ROOM, Err(4 * 256)),
    ];
    trials.extend(refused("sheet 13, card 3 is next to itself", &sheet_w().next(3, 3), 6, 3));
    trials.extend(refused("sheet 13, first rule names person card 1", &sheet_w().first_rule(1), 6, 1));
    trials.extend(refused("sheet 13, people run into step card 5", &sheet_w().next(4, 5), 7, 5));
    trials.extend(refused("sheet 14, bench 1 in shops 1 and 2", &sheet_w().word(2, 8, 2), 11, 2));
    trials
}

fn rooms() -> Vec<Trial> {
    let w = sheet_w();
    let two = Call::Spare { cap: 2 };
    vec![
        trial("sheet 15, W with 23 bytes", Call::Crew, &w, 23, Err(256)),
        trial("sheet 15, W with 24 bytes", Call::Crew, &w, 24, Ok(crew_bytes(&W_CREW))),
        trial("sheet 15, W with 15 bytes", two, &w, 15, Err(256)),
        trial("sheet 15, W with 16 bytes", two, &w, 16, Ok(spare_bytes(1, &[101, 102]))),
    ]
}

/// Every cap of W, and caps that are within only by their low bytes. The last sheet has two people for each step, and
/// yet nobody to spare.
fn caps() -> Vec<Trial> {
    let w = sheet_w();
    let above = |cap: u32| trial("caps, W", Call::Spare { cap }, &w, SPARE_ROOM, Err(2 * 256));
    let mut trials = vec![
        spare("caps, W", &w, 0, 0, &[]),
        spare("caps, W", &w, 1, 1, &[]),
        spare("caps, W", &w, 2, 1, &[101, 102]),
        spare("caps, W", &w, 3, 1, &[101, 102]),
        spare("caps, W and 4,3,3,7", &w_and(4, 3, 3, 7), 1, 0, &[101]),
    ];
    trials.extend([4, 256, 258, 1 << 16, 1 << 31, u32::MAX].map(above));
    trials
}

/// "Order: 2, 3, 4; ... 12, 1, 13."
fn refusals_in_order() -> Vec<Trial> {
    let loose = sheet_w().first_rule(9);
    let none = w_and(3, 3, 1, 7);
    let (two, four) = (Call::Spare { cap: 2 }, Call::Spare { cap: 4 });
    vec![
        trial("order, cap before length and room", four, &Draft::of(vec![]), 0, Err(2 * 256)),
        trial("order, length before room", two, &Draft::of(vec![]), 0, Err(3 * 256)),
        trial("order, length before room", Call::Crew, &Draft::of(vec![]), 0, Err(3 * 256)),
        trial("order, loose card before room", two, &loose, 15, Err(12 * 256 + 8)),
        trial("order, loose card before room", Call::Crew, &loose, 23, Err(12 * 256 + 8)),
        trial("order, room before no plan", two, &none, 15, Err(256)),
        trial("order, room before no plan", Call::Crew, &none, 23, Err(256)),
        trial("order, no plan last", two, &none, 16, Err(13 * 256)),
        trial("order, no plan last", Call::Crew, &none, 24, Err(13 * 256)),
    ]
}

/// "Plan, crew bytes, PLAN line and buffer length cover the steps that remain."
fn worked_out(sheet: &Sheet) -> [Trial; 2] {
    let Sheet { name, job, planned, .. } = sheet;
    let draft = lay(job);
    match planned {
        Some(planned) => [crew(name, &draft, &planned.crew), spare(name, &draft, 2, planned.count, &planned.away)],
        None => refused(name, &draft, 13, 0),
    }
}

/// Areas that are just long enough for the steps that remain, and one byte less.
fn rooms_of_skipped() -> Vec<Trial> {
    let one = sheet_w().skip(5);
    let two = sheet_w().skip(5).skip(7);
    let none = w_and(3, 3, 1, 7).skip(5);
    let eleven = plain(1, 12, 0).skip(13);
    let crew = |name: &str, sheet: &Draft, room, outcome| trial(name, Call::Crew, sheet, room, outcome);
    vec![
        crew("skipped, two steps left, 16 bytes", &one, 16, Ok(crew_bytes(&[(20, 101), (30, 102)]))),
        crew("skipped, two steps left, 15 bytes", &one, 15, Err(256)),
        crew("skipped, two steps left, 23 bytes", &one, 23, Ok(crew_bytes(&[(20, 101), (30, 102)]))),
        crew("skipped, one step left, 8 bytes", &two, 8, Ok(crew_bytes(&[(20, 101)]))),
        crew("skipped, one step left, 7 bytes", &two, 7, Err(256)),
        crew("skipped, one step left, no bytes", &two, 0, Err(256)),
        crew("skipped, two steps left, room before no plan", &none, 15, Err(256)),
        crew("skipped, two steps left, no plan last", &none, 16, Err(13 * 256)),
        crew("skipped, 11 steps left, 88 bytes", &eleven, 88, Ok(crew_bytes(&by_one(11)))),
        crew("skipped, 11 steps left, 87 bytes", &eleven, 87, Err(256)),
    ]
}

/// "With all skipped the crew is empty and the spare count equals the cap", whatever the area of the crew, and also where there
/// are fewer people than the cap.
fn all_skipped() -> Vec<Trial> {
    let (w, lone) = (skipped_w(), one_by_one(1).skip(2));
    let twelve = (2..=13).fold(plain(1, MOST_STEPS, 0), Draft::skip);
    let mut trials: Vec<Trial> = [0, 1, STEP_BYTES, 24]
        .map(|room| trial(&format!("skipped, all of W, {room} bytes"), Call::Crew, &w, room, Ok(vec![])))
        .into();
    trials.push(trial("skipped, all of 12, no bytes", Call::Crew, &twelve, 0, Ok(vec![])));
    for cap in 0..=MOST_CAP {
        for (name, sheet) in
            [("skipped, all of W", &w), ("skipped, all of one", &lone), ("skipped, all of 12", &twelve)]
        {
            trials.push(spare(name, sheet, cap, cap as usize, &[]));
        }
    }
    let (two, four) = (Call::Spare { cap: 2 }, Call::Spare { cap: 4 });
    trials.extend([
        trial("skipped, all of W, 15 bytes", two, &w, SPARE_BYTES - 1, Err(256)),
        trial("skipped, all of W", four, &w, SPARE_ROOM, Err(2 * 256)),
    ]);
    trials
}

#[cfg(test)]
mod tests {
    use super::*;
    use crate::levels::{each_number, second};
    use model::answers::answer;
    use model::reader::stated_form;
    use model::refusal::Refusal;
    use std::collections::BTreeSet;

    #[test]
    fn the_brute_force_gives_each_answer() {
        for trial in all() {
            let area = vec![0xA5; trial.room];
            let found = answer(trial.call, &trial.sheet, &area).expect("a small job");
            assert_eq!(found.number, trial.number, "{}", trial.name);
            assert_eq!(found.area, [&trial.written, &area[trial.written.len()..]].concat(), "{}", trial.name);
        }
    }

    #[test]
    fn each_of_the_fifteen_is_tried_in_every_call() {
        let calls: [fn(Call) -> bool; 3] =
            [|call| call == Call::Crew, |call| call == Call::CrewByTrial, |call| matches!(call, Call::Spare { .. })];
        for is_meant in calls {
            let called = all().into_iter().filter(|trial| is_meant(trial.call));
            let names: Vec<String> = called.map(|trial| trial.name).collect();
            let tried = |k: &i32| names.iter().any(|name| name.starts_with(&format!("sheet {k},")));
            assert!((1..=15).all(|k| tried(&k)));
        }
    }

    #[test]
    fn each_refusal_is_tried_in_every_call_with_each_number_of_levels() {
        for levels in each_number() {
            for call in [Call::Crew, Call::CrewByTrial, Call::Spare { cap: 2 }] {
                let is_meant = |trial: &Trial| trial.call == call && stated_form(&trial.sheet) == Some(second(levels));
                let refusals = all().into_iter().filter(is_meant).filter_map(|trial| Refusal::of(trial.number));
                let met: BTreeSet<u32> = refusals.map(|refusal| refusal.number).collect();
                let expected = [1].into_iter().chain(3..=13).filter(|number| *number != 11 || levels > 1);
                assert_eq!(met, expected.collect(), "{levels} levels, {call:?}");
            }
        }
    }

    #[test]
    fn names_are_different() {
        let names: BTreeSet<String> = all().into_iter().map(|trial| trial.name).collect();
        assert_eq!(names.len(), all().len());
    }
}
