//! The memory of a job before its first call: never opened, noise, or nearly a job.

use model::card::MOST_BYTES;
use model::garble::sample_of;
use model::job::MOST_STEPS;
use model::jobs::{laid, small_job};
use model::plans::is_small;
use model::random::Random;
use model::signing::{Work, MOST_REFUSALS};

/// A job, and whether calls alone can have made it.
pub struct Start {
    pub work: Work,
    pub made: bool,
}

pub fn any(random: &mut Random) -> Start {
    match random.below(20) {
        0..=9 => Start { work: Work::NEW, made: true },
        10..=12 => Start { work: noise(random), made: false },
        _ => Start { work: nearly(random), made: false },
    }
}

fn noise(random: &mut Random) -> Work {
    Work {
        refusals: random.bits() as u32,
        sheet_len: random.bits() as u32,
        sheet: std::array::from_fn(|_| random.byte()),
        signer: std::array::from_fn(|_| random.byte()),
    }
}

/// A count before the stop, at it or behind it.
fn any_count(random: &mut Random) -> u32 {
    match random.below(6) {
        0 => random.below(5) as u32,
        1 => random.bits() as u32,
        2 => u32::MAX,
        _ => MOST_REFUSALS - 3 + random.below(5) as u32,
    }
}

/// A length that is that of the sheet, or not.
fn any_length(random: &mut Random, length: u32) -> u32 {
    match random.below(12) {
        0 => [MOST_BYTES as u32, MOST_BYTES as u32 + 16, 1 << 31, u32::MAX][random.below(4)],
        1 => length.wrapping_sub(16),
        2 => length + random.below(20) as u32,
        // The same in its low bytes alone.
        3 => length + (1 << 16),
        _ => length,
    }
}

fn any_signer(random: &mut Random) -> u8 {
    match random.below(12) {
        0 => random.byte(),
        1..=3 => random.within(1, 7) as u8,
        _ => 0,
    }
}

fn any_sheet(random: &mut Random) -> Vec<u8> {
    if random.once_in(4) {
        return sample_of(random, small_job).sheet;
    }
    let job = small_job(random);
    laid(random, &job).bytes
}

/// A small job's sheet, whole or damaged, with noise where a job made by calls has zeros, any count and any signers. The brute
/// force has to be able to tell what it grants.
fn nearly(random: &mut Random) -> Work {
    loop {
        let sheet = any_sheet(random);
        if sheet.len() > MOST_BYTES {
            continue;
        }
        let mut work = Work::holding(&sheet);
        if random.once_in(2) {
            work.sheet[sheet.len()..].iter_mut().for_each(|byte| *byte = random.byte());
        }
        work.sheet_len = any_length(random, sheet.len() as u32);
        work.refusals = any_count(random);
        work.signer = std::array::from_fn::<u8, MOST_STEPS, _>(|_| any_signer(random));
        if work.job().is_none_or(|job| is_small(&job)) {
            return work;
        }
    }
}
