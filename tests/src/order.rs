//! How long a comparison with the brute force runs: so many rounds from a seed, or as long as one likes.

use crate::tally::Tally;
use model::random::Random;
use std::time::{Duration, Instant, SystemTime, UNIX_EPOCH};

/// How often a soak says how far it is.
const REPORT: Duration = Duration::from_secs(30);

pub struct Order {
    count: Option<u64>,
    pub seed: u64,
    seconds: Option<u64>,
}

fn seed_of_the_hour() -> u64 {
    SystemTime::now().duration_since(UNIX_EPOCH).map_or(1, |time| time.as_micros() as u64)
}

pub fn usage(program: &str) -> String {
    format!("usage: {program} COUNT SEED [--seconds N]\n       {program} soak [SEED] [--seconds N]")
}

impl Order {
    pub fn of(mut args: Vec<String>) -> Option<Order> {
        let mut seconds = None;
        if let Some(at) = args.iter().position(|arg| arg == "--seconds") {
            seconds = Some(args.get(at + 1)?.parse().ok()?);
            args.drain(at..at + 2);
        }
        match args.as_slice() {
            [soak] if soak == "soak" => Some(Order { count: None, seed: seed_of_the_hour(), seconds }),
            [soak, seed] if soak == "soak" => Some(Order { count: None, seed: seed.parse().ok()?, seconds }),
            [count, seed] => Some(Order { count: Some(count.parse().ok()?), seed: seed.parse().ok()?, seconds }),
            _ => None,
        }
    }

    /// Round after round, each with its number, until the order is carried out.
    pub fn run(&self, program: &str, mut round: impl FnMut(u64, &mut Random, &mut Tally)) -> Tally {
        let mut random = Random::new(self.seed);
        let mut tally = Tally::new(program, self.seed);
        let limit = self.seconds.map(Duration::from_secs);
        let started = Instant::now();
        let mut reported = started;
        for number in 0..self.count.unwrap_or(u64::MAX) {
            if limit.is_some_and(|limit| started.elapsed() >= limit) {
                break;
            }
            round(number, &mut random, &mut tally);
            if self.count.is_none() && reported.elapsed() >= REPORT {
                println!("{} passed, {} failed so far", tally.passed, tally.failed);
                reported = Instant::now();
            }
        }
        tally
    }
}
