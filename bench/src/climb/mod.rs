//! A search for hard sheets: a sheet is changed a little, and a change that makes the planner slower stays.

mod kept;
mod mutate;
mod shape;

use crate::asked::Asked;
use crate::builds::Which;
use crate::groups::{self, Group};
use crate::hard;
use crate::options::{has_option, option};
use crate::worker::Worker;
use kept::{Kept, Place};
use model::answers::{Call, MOST_CAP};
use model::builder::lay;
use model::job::Job;
use model::random::Random;
use mutate::mutated;
use std::io;
use std::path::PathBuf;
use std::time::{Duration, Instant};

pub const USAGE: &str =
    "bench climb DIR [--seconds N] [--seed N] [--keep N] [--limit-ms N] [--call crew|spare] [GROUP...]
  DIR         where the worst are kept, as text; bench/hard is what 'bench measure .. hard' reads
  --seconds   how long to go on, 300 unless given
  --seed      of the first start, 1 unless given; each start after it has the next one
  --keep      how many are kept, 10 unless given
  --limit-ms  a call of more than this is ended and its sheet kept, 10000 unless given
  --call      which call is to be slow, crew unless given; spare is with cap 3
  GROUP       where to start from, some of each style unless given; 'hard' goes on from what is kept
A climb follows times, so that the same seed may end on another sheet.";

/// Where to start from unless something is named: of the practice sheets only some, since there are so many of them.
const STARTS: [&str; 12] = [
    "practice-4",
    "practice-8",
    "practice-14",
    "four-kinds",
    "loose",
    "tight",
    "any-people",
    "fifth-shop",
    "eleven-benches",
    "last-part",
    "mixed",
    "spread",
];

/// So many changes in a row that make nothing slower end a climb.
const PATIENCE: usize = 120;

/// A climb has this part of the time at most, so that there are several.
const CLIMBS: u32 = 8;

/// A change has to make the call slower by more than what the clock is off.
const SLOWER: f64 = 1.01;

pub struct Order {
    folder: PathBuf,
    time: Duration,
    seed: u64,
    keep: usize,
    limit: Duration,
    call: Call,
    groups: Vec<String>,
}

fn call(name: &str) -> Option<Call> {
    match name {
        "crew" => Some(Call::Crew),
        "spare" => Some(Call::Spare { cap: MOST_CAP }),
        _ => None,
    }
}

pub fn order(mut args: Vec<String>) -> Option<Order> {
    let time = Duration::from_secs(option(&mut args, "--seconds", 300)?);
    let seed = option(&mut args, "--seed", 1)?;
    let keep = option(&mut args, "--keep", 10)?;
    let limit = Duration::from_millis(option(&mut args, "--limit-ms", 10_000)?);
    let call = call(&option(&mut args, "--call", "crew".to_string())?)?;
    if args.is_empty() || keep == 0 || has_option(&args) {
        return None;
    }
    let folder = args.remove(0).into();
    Some(Order { folder, time, seed, keep, limit, call, groups: args })
}

struct Climb<'a> {
    order: &'a Order,
    worker: Worker,
}

impl Climb<'_> {
    /// A call that is ended counts as its limit: nothing is slower.
    fn time(&mut self, call: Call, job: &Job) -> io::Result<Duration> {
        let called = self.worker.call(Which::This, Asked::whole(call), &lay(job).bytes, self.order.limit)?;
        Ok(called.map_or(self.order.limit, |called| Duration::from_nanos(called.nanos)))
    }

    /// The time of a job that is slower. It is so twice: what else runs on the machine is slow only once.
    fn slower(&mut self, job: &Job, than: Duration) -> io::Result<Option<Duration>> {
        let first = self.time(self.order.call, job)?;
        if first <= than || first == self.order.limit {
            return Ok((first > than).then_some(first));
        }
        let best = first.min(self.time(self.order.call, job)?);
        Ok((best > than).then_some(best))
    }

    /// From a start to a sheet that no change made slower, or until the time is up.
    fn run(&mut self, random: &mut Random, start: Job, until: Instant) -> io::Result<Place> {
        let mut best = start;
        let mut time = self.time(self.order.call, &best)?;
        let (mut changes, mut idle) = (0, 0);
        while idle < PATIENCE && time < self.order.limit && Instant::now() < until {
            let next = mutated(random, &best);
            idle += 1;
            let Some(took) = self.slower(&next, time.mul_f64(SLOWER))? else {
                continue;
            };
            (best, time) = (next, took);
            changes += 1;
            idle = 0;
        }
        Ok(Place { job: best, time, changes })
    }

    /// The other call too: what is hard for one need not be so for the other.
    fn both_times(&mut self, job: &Job) -> io::Result<String> {
        let crew = self.time(Call::Crew, job)?;
        let spare = self.time(Call::Spare { cap: MOST_CAP }, job)?;
        let word = |time: Duration| match time < self.order.limit {
            true => format!("{:.3} ms", time.as_secs_f64() * 1_000.0),
            false => format!("over {} ms", self.order.limit.as_millis()),
        };
        Ok(format!("crew {}, spare with cap 3 {}", word(crew), word(spare)))
    }
}

/// The groups to start from.
fn starts(order: &Order) -> Vec<Group> {
    let usual = || STARTS.map(String::from).to_vec();
    let names = if order.groups.is_empty() { usual() } else { order.groups.clone() };
    groups::meant(&names).into_iter().filter(|group| group.sheets > 0).collect()
}

/// Climbs from one sheet after the other until the time is up.
pub fn run(order: &Order) -> io::Result<()> {
    let starts = starts(order);
    if starts.is_empty() {
        return Err(io::Error::other("there is no such group"));
    }
    let end = Instant::now() + order.time;
    let mut climb = Climb { order, worker: Worker::new() };
    let mut kept = Kept::new(order.keep);
    for seed in order.seed.. {
        if Instant::now() >= end {
            break;
        }
        let mut random = Random::new(seed);
        let group = &starts[random.below(starts.len())];
        let number = 1 + random.below(group.sheets.min(1 << 30) as usize) as u32;
        let until = end.min(Instant::now() + order.time / CLIMBS);
        let place = climb.run(&mut random, (group.job)(number), until)?;
        let name = format!("{}-{seed}", order.call.name());
        println!("{name} from {} {number}: {:?} after {} changes", group.name, place.time, place.changes);
        if let Some(out) = kept.offer(&name, &place) {
            if out == name {
                continue;
            }
            hard::remove(&order.folder, &out)?;
        }
        let times = climb.both_times(&place.job)?;
        let story = [
            format!("bench climb --call {} --seed {seed}, from {} {number}", order.call.name(), group.name),
            format!("when found: {times}"),
            shape::line(&place.job),
        ];
        hard::store(&order.folder, &name, &place.job, &story)?;
    }
    println!("\nkept, worst first:");
    for (name, place) in kept.worst_first() {
        println!("{name}: {}\n  {}", climb.both_times(&place.job)?, shape::line(&place.job));
    }
    Ok(())
}

#[cfg(test)]
mod tests {
    use super::*;
    use crate::options::words;

    #[test]
    fn an_order_names_folder_and_call() {
        let order = order(words("out --call spare --seed 7 loose")).unwrap();
        assert_eq!((order.folder, order.seed, order.call), ("out".into(), 7, Call::Spare { cap: MOST_CAP }));
        assert_eq!(order.groups, ["loose"]);
    }

    #[test]
    fn every_usual_start_is_a_group() {
        for name in STARTS {
            assert!(!groups::meant(&[name.to_string()]).is_empty(), "{name}");
        }
    }

    #[test]
    fn an_unknown_call_or_option_is_not_taken() {
        assert!(order(words("out --call plan")).is_none());
        assert!(order(words("out --second 3")).is_none());
    }
}
