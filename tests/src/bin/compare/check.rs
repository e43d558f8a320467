//! One sheet through the calls that plan: the number, every byte of the area and those around it, and the sheet itself.

use crate::kinds;
use model::answers::{answer, room, Answer, Call};
use model::garble::Sample;
use model::library;
use model::random::Random;
use model::reader::read;
use sheet_tests::tally::Tally;

/// Bytes on each side of the answer area that nobody may touch.
const MARGIN: usize = 32;

/// How many people there may be for the spare count to be asked for: every three of them stay away in turn.
const MOST_SPARED: usize = 8;

/// Mostly a cap that the paper allows; now and then one above, also such as have a low byte within.
fn any_cap(random: &mut Random) -> u32 {
    match random.below(20) {
        0 => 4,
        1 => [5, 255, 256, 258, 1 << 16, 1 << 31, u32::MAX][random.below(7)],
        2 => random.bits() as u32,
        _ => random.below(4) as u32,
    }
}

/// The length of the answer area: what the call needs, one less, more, or none. An empty crew needs none.
fn any_room(random: &mut Random, need: usize) -> usize {
    match random.below(12) {
        0 => need.saturating_sub(1),
        1 => 0,
        2 => random.below(need),
        3..=5 => need + random.within(1, 40),
        _ => need,
    }
}

/// What the library does, with the bytes around the area still to be looked at.
fn called(call: Call, sheet: &[u8], around: &mut [u8]) -> u32 {
    let end = around.len() - MARGIN;
    library::run(call, sheet, &mut around[MARGIN..end])
}

fn fault(call: Call, found: &Answer, expected: &Answer) -> Option<String> {
    let room = found.area.len();
    (found != expected).then(|| format!("{call:?}, area of {room}: expected {expected:?}, found {found:?}"))
}

/// "It gives the same number and bytes": the crew call, lent the same, has to leave what the engine that tries every plan left.
fn differs_from_crew(sheet: &[u8], before: &[u8], number: u32, after: &[u8]) -> Option<String> {
    let mut crews = before.to_vec();
    let crew = called(Call::Crew, sheet, &mut crews);
    ((number, after) != (crew, &crews[..])).then(|| format!("by trial {number} {after:?}, crew {crew} {crews:?}"))
}

fn check_call(random: &mut Random, call: Call, sheet: &[u8], tally: &mut Tally) -> Vec<String> {
    let need = read(sheet).map_or(24, |job| room(call, &job));
    let length = any_room(random, need) + 2 * MARGIN;
    let before: Vec<u8> = (0..length).map(|_| random.byte()).collect();
    let inner = MARGIN..length - MARGIN;
    let expected = answer(call, sheet, &before[inner.clone()]).expect("every plan can be tried");
    kinds::of(call, sheet, &expected).into_iter().for_each(|kind| tally.count(kind));
    let (mut after, lent) = (before.clone(), sheet.to_vec());
    let number = called(call, &lent, &mut after);

    let found = Answer { number, area: after[inner.clone()].to_vec() };
    let mut faults: Vec<String> = fault(call, &found, &expected).into_iter().collect();
    if after[..MARGIN] != before[..MARGIN] || after[inner.end..] != before[inner.end..] {
        faults.push(format!("{call:?}: bytes outside the area were written"));
    }
    if lent != sheet {
        faults.push(format!("{call:?}: the sheet was written to"));
    }
    if call == Call::CrewByTrial {
        faults.extend(differs_from_crew(sheet, &before, number, &after));
    }
    faults
}

/// All that is wrong with the answers to a sheet.
pub fn check(random: &mut Random, sample: &Sample, tally: &mut Tally) -> Vec<String> {
    let mut faults = vec![];
    if sample.job.is_some() && read(&sample.sheet).ok() != sample.job {
        faults.push("the model does not read a good sheet".to_string());
    }
    let mut calls = vec![Call::Crew, Call::CrewByTrial];
    if read(&sample.sheet).map_or(true, |job| job.people.len() <= MOST_SPARED) {
        calls.push(Call::Spare { cap: any_cap(random) });
    }
    for call in calls {
        faults.extend(check_call(random, call, &sample.sheet, tally));
    }
    faults
}
