//! Random sheets, more of them garbled than good: most of them small, and some with all the people, steps or rules that there
//! may be.

use model::garble::{sample_of, Sample};
use model::job::{Job, MOST_RULES};
use model::jobs::{last_plan_job, last_rule_job, lopsided_job, small_job, tried_job, with_rules};
use model::plans::is_small;
use model::random::Random;
use model::reader::read;

/// The brute force has to be able to answer.
pub fn any(random: &mut Random) -> Sample {
    loop {
        let sample = sample_of(random, any_job);
        if read(&sample.sheet).map_or(true, |job| is_small(&job)) {
            return sample;
        }
    }
}

fn any_job(random: &mut Random) -> Job {
    match random.below(400) {
        // Few of these: of some every plan has to be tried, up to 100,000.
        0..=15 => tried_job(random),
        16..=47 => last_plan_job(random),
        48..=71 => lopsided_job(random),
        72..=91 => last_rule_job(random),
        92..=111 => with_rules(random, MOST_RULES),
        _ => small_job(random),
    }
}
