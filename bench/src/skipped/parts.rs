//! A call on both sheets, its reader alone, and what is left of the call beyond its reader.

use crate::turns::Times;

/// Nanoseconds on the sheet with skipped steps and on the one without them; nothing where a call was late. A difference has its
/// sign.
pub type Pair = [Option<i64>; 2];

#[derive(Clone, Copy)]
pub struct Parts {
    pub whole: Times,
    pub reading: Times,
}

fn pair(times: Times) -> Pair {
    [times.this, times.other].map(|nanos| nanos.map(|nanos| nanos as i64))
}

impl Parts {
    pub fn whole(self) -> Pair {
        pair(self.whole)
    }

    pub fn reading(self) -> Pair {
        pair(self.reading)
    }

    /// What is left beyond the reader.
    pub fn beyond(self) -> Pair {
        let (whole, reading) = (self.whole(), self.reading());
        [0, 1].map(|at| Some(whole[at]? - reading[at]?))
    }
}

/// For figures and ratios of single sheets. A difference that is not positive is less than the clock can tell: it is taken for
/// one nanosecond, so that no sheet is left out and none is divided by zero. How many there are is in the table.
pub fn times(pair: Pair) -> Times {
    let [this, other] = pair.map(|nanos| nanos.map(|nanos| nanos.max(1) as u64));
    Times { this, other }
}

/// How many differences are not positive.
pub fn unclear(pairs: &[Pair]) -> usize {
    pairs.iter().flatten().flatten().filter(|nanos| **nanos <= 0).count()
}

/// The ratio of the sums over all sheets. Differences that are not positive keep their sign here: what the clock adds to some
/// sheets it takes from others. A sheet with a late call is in neither sum; it is counted as late. Nothing where the sum of the
/// sheets without the steps is not positive.
pub fn of_sums(pairs: &[Pair]) -> Option<f64> {
    let ended = || pairs.iter().filter_map(|[this, other]| this.zip(*other));
    let (this, other) = (ended().map(|pair| pair.0).sum::<i64>(), ended().map(|pair| pair.1).sum::<i64>());
    (other > 0).then(|| this as f64 / other as f64)
}

#[cfg(test)]
mod tests {
    use super::*;
    use crate::clock::Nanos;

    fn parts(whole: [Nanos; 2], reading: [Nanos; 2]) -> Parts {
        let times = |[this, other]: [Nanos; 2]| Times { this, other };
        Parts { whole: times(whole), reading: times(reading) }
    }

    #[test]
    fn what_is_left_is_the_call_without_its_reader() {
        let parts = parts([Some(700), Some(500)], [Some(400), Some(350)]);
        assert_eq!(parts.beyond(), [Some(300), Some(150)]);
        assert_eq!(times(parts.beyond()).ratio(), Some(2.0));
    }

    #[test]
    fn nothing_is_left_of_a_late_call() {
        assert_eq!(parts([None, Some(500)], [Some(400), Some(350)]).beyond(), [None, Some(150)]);
        assert_eq!(parts([Some(700), Some(500)], [Some(400), None]).beyond(), [Some(300), None]);
    }

    #[test]
    fn a_difference_that_is_not_positive_is_counted_and_has_a_ratio() {
        let pairs = [[Some(0), Some(200)], [Some(200), Some(-30)], [Some(-5), Some(0)], [Some(7), None]];
        assert_eq!(unclear(&pairs), 4);
        assert_eq!(pairs.map(|pair| times(pair).ratio()), [Some(0.005), Some(200.0), Some(1.0), Some(0.0)]);
    }

    #[test]
    fn sums_keep_the_sign_and_leave_out_what_was_late() {
        assert_eq!(of_sums(&[[Some(300), Some(250)], [Some(100), Some(-50)]]), Some(2.0));
        assert_eq!(of_sums(&[[Some(300), Some(200)], [None, Some(900)], [Some(900), None]]), Some(1.5));
        assert_eq!(of_sums(&[[Some(300), Some(20)], [Some(300), Some(-20)]]), None);
        assert_eq!(of_sums(&[[None, Some(20)]]), None);
    }
}
