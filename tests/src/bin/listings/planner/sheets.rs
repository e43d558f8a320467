//! Random sheets: most of them with a plan and with rules of every kind, the others garbled.

use crate::Drawn;
use model::garble::sample_of;
use model::job::{Job, MOST_PEOPLE, MOST_RULES, MOST_STEPS};
use model::jobs::{counting_job, laid, planned_skipping_job, small_job, with_rules};
use model::random::Random;

pub fn any(random: &mut Random) -> Drawn {
    let (job, planned) = match random.below(50) {
        0..=11 => return Drawn { sheet: sample_of(random, small_job).sheet, planned: false },
        12..=16 => (small_job(random), false),
        17..=21 => (counting_job(random), false),
        22..=24 => (Job { rules: vec![], ..small_job(random) }, false),
        25..=36 => (with_rules(random, 10), true),
        37..=42 => (with_rules(random, MOST_RULES), true),
        43..=45 => (planned_skipping_job(random, MOST_PEOPLE, 2, MOST_RULES), true),
        46..=48 => (planned_skipping_job(random, 2, MOST_STEPS, MOST_RULES), true),
        // Few of these: the brute force cannot tell the crew of most, and the program takes long.
        _ => (planned_skipping_job(random, MOST_PEOPLE, MOST_STEPS, MOST_RULES), true),
    };
    Drawn { sheet: laid(random, &job).bytes, planned }
}

#[cfg(test)]
mod tests {
    use super::*;
    use model::listing::listing;

    #[test]
    fn what_is_said_to_have_a_plan_has_one_and_the_large_are_among_it() {
        let mut random = Random::new(8);
        let (planned, others): (Vec<Drawn>, Vec<Drawn>) = (0..300).map(|_| any(&mut random)).partition(|d| d.planned);
        let listings: Vec<Option<String>> = planned.iter().map(|drawn| listing(&drawn.sheet)).collect();
        assert!(listings.iter().flatten().all(|lines| lines.starts_with("PLAN")));
        assert!(listings.contains(&None));
        assert!(others.iter().all(|drawn| listing(&drawn.sheet).is_some()));
    }
}
