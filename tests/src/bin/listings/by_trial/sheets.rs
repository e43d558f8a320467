//! Random sheets of which every plan can be tried: with a plan and without, with few people, steps and rules and with many, just
//! as many plans as are printed, the next number of them, and garbled ones.

use crate::Drawn;
use model::builder::skipping;
use model::classes::any_form;
use model::garble::sample_of;
use model::job::{Job, MOST_RULES, MOST_STEPS};
use model::jobs::{
    counting_job, job_of, laid, last_plan_job, last_rule_job, lopsided_job, small_job, tried_job, with_rules,
};
use model::random::Random;

/// People and steps that remain of sheets with as many plans as are printed, and with the next number of them.
const EDGES: [(usize, usize); 2] = [(10, 3), (4, 5)];

pub fn any(random: &mut Random) -> Drawn {
    let job = match random.below(50) {
        0..=7 => return Drawn { sheet: sample_of(random, small_job).sheet, planned: false },
        8..=11 => small_job(random),
        12..=14 => counting_job(random),
        15..=17 => Job { rules: vec![], ..small_job(random) },
        18..=24 => with_rules(random, 10),
        25..=26 => with_rules(random, MOST_RULES),
        27..=32 => last_rule_job(random),
        33..=37 => at_edge(random),
        38..=39 => lopsided_job(random),
        40..=44 => last_plan_job(random),
        _ => tried_job(random),
    };
    Drawn { sheet: laid(random, &job).bytes, planned: false }
}

fn at_edge(random: &mut Random) -> Job {
    let (people, left) = EDGES[random.below(EDGES.len())];
    let steps = if random.once_in(2) { left } else { random.within(left, MOST_STEPS) };
    let rules = random.below(8);
    let form = any_form(random);
    let job = job_of(random, form, people, steps, rules);
    let order = random.order(steps);
    skipping(job, order[left..].iter().map(|step| step - 1))
}

#[cfg(test)]
mod tests {
    use super::*;
    use crate::by_trial::kinds::NOT_SHOWN;
    use model::job::MOST_PEOPLE;
    use model::plans::plans_of;
    use model::trial::{listing, SHOWN};

    #[test]
    fn every_plan_can_be_tried() {
        let mut random = Random::new(8);
        assert!((0..300).all(|_| listing(&any(&mut random).sheet).is_some()));
    }

    #[test]
    fn no_number_of_plans_lies_between_the_edges() {
        assert_eq!(EDGES.map(|(people, steps)| plans_of(people, steps)), [SHOWN, NOT_SHOWN]);
        let mut sizes = (1..=MOST_PEOPLE).flat_map(|people| (1..=MOST_STEPS).map(move |steps| plans_of(people, steps)));
        assert!(!sizes.any(|plans| SHOWN < plans && plans < NOT_SHOWN));
    }
}
