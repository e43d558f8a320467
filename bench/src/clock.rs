//! The time of a call. What else runs on the machine is left out, as far as that can be done.

use std::time::{Duration, Instant};

/// Calls are made again for so long, and at most so many times, and the best time counts: a call finds code and guesses of the
/// processor in place only after some others.
const REPEATS: usize = 50;
const LONG_ENOUGH: Duration = Duration::from_millis(20);

/// A time in nanoseconds; nothing where the search was out of time.
pub type Nanos = Option<u64>;

/// As in C on 64-bit Linux.
#[repr(C)]
struct Reading {
    seconds: i64,
    nanos: i64,
}

extern "C" {
    fn clock_gettime(clock: i32, reading: *mut Reading) -> i32;
}

/// CLOCK_THREAD_CPUTIME_ID: stands still while the thread waits for a core.
const WORK_OF_THE_THREAD: i32 = 3;

fn worked() -> Duration {
    let mut reading = Reading { seconds: 0, nanos: 0 };
    // The reading is a real one and as large as C's.
    let failed = unsafe { clock_gettime(WORK_OF_THE_THREAD, &mut reading) } != 0;
    assert!(!failed, "there is no clock for the work of a thread");
    Duration::new(reading.seconds as u64, reading.nanos as u32)
}

/// By the wall or by the work of the thread, whichever is less: asking for the latter takes longer than a quick call.
fn once<T>(run: &mut impl FnMut() -> T) -> (T, Duration) {
    let before = worked();
    let start = Instant::now();
    let result = run();
    let wall = start.elapsed();
    (result, wall.min(worked() - before))
}

pub fn timed<T>(mut run: impl FnMut() -> T) -> (T, Duration) {
    timed_on(&(), |()| run()).1
}

/// Of a call that changes what it is lent: each time it gets a copy, made outside the clock. The changed one, the result and
/// the time.
pub fn timed_on<S: Clone, T>(lent: &S, mut run: impl FnMut(&mut S) -> T) -> (S, (T, Duration)) {
    let start = Instant::now();
    let mut best: Option<Duration> = None;
    for repeat in 1.. {
        let mut changed = lent.clone();
        let (result, time) = once(&mut || run(&mut changed));
        let time = best.map_or(time, |best| best.min(time));
        if repeat == REPEATS || start.elapsed() > LONG_ENOUGH {
            return (changed, (result, time));
        }
        best = Some(time);
    }
    unreachable!("the repeats have an end")
}

#[cfg(test)]
mod tests {
    use super::*;
    use std::thread::sleep;

    #[test]
    fn waiting_is_no_work() {
        let (_, time) = timed(|| sleep(Duration::from_millis(5)));
        assert!(time < Duration::from_millis(4), "{time:?}");
    }

    #[test]
    fn every_repeat_starts_from_what_is_lent() {
        let (changed, (result, _)) = timed_on(&vec![7], |list| list.pop());
        assert_eq!((changed, result), (vec![], Some(7)));
    }
}
