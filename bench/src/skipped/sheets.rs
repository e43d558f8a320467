//! A sheet with skipped steps, and the one without these steps.

use model::builder::skipping;
use model::job::Job;
use model::random::Random;
use model::shortened::shortened;

/// A third of the steps is skipped, rounded up.
const SHARE: usize = 3;

pub struct Sheets {
    /// With its skipped steps.
    pub marked: Job,
    /// The same job over the steps that remain, which gets the same answers.
    pub short: Job,
}

/// The number of the sheet says which steps are skipped.
pub fn sheets(job: Job, number: u32) -> Sheets {
    let steps = job.steps.len();
    let order = Random::new(number.into()).order(steps);
    let marked = skipping(job, order[..steps.div_ceil(SHARE)].iter().map(|step| step - 1));
    Sheets { short: shortened(&marked), marked }
}

#[cfg(test)]
mod tests {
    use super::*;
    use crate::groups::{meant, PRACTICE};
    use model::builder::lay;
    use model::reader::read;

    #[test]
    fn a_third_of_the_steps_is_skipped_and_both_sheets_are_readable() {
        for group in meant(&[PRACTICE.to_string()]) {
            for number in 1..=20 {
                let job = (group.job)(number);
                let Sheets { marked, short } = sheets(job.clone(), number);
                let skipped = marked.steps.iter().filter(|step| step.skipped).count();
                assert_eq!(skipped, job.steps.len().div_ceil(3));
                assert_eq!(short.steps.len(), job.steps.len() - skipped);
                for one in [marked, short] {
                    assert_eq!(read(&lay(&one).bytes), Ok(one));
                }
            }
        }
    }

    #[test]
    fn sheets_differ_in_what_is_skipped() {
        let practice = &meant(&["practice-8".to_string()])[0];
        let skipped = |number| sheets((practice.job)(1), number).short.steps;
        assert_ne!(skipped(1), skipped(2));
        assert_eq!(skipped(1), skipped(1));
    }
}
