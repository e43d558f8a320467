//! A brute force written by hand: every plan in plan order, as the engine of the library tries them. It is given the job already
//! read.

use crate::baseline::Plan;
use crate::problem::{Count, Load, Pair, Problem};
use model::job::MOST_STEPS;

/// How many plans were tried, and the first valid one.
#[derive(Debug, PartialEq, Eq)]
pub struct Tried {
    pub plans: u64,
    pub plan: Option<Plan>,
}

fn is_valid(problem: &Problem, plan: &Plan) -> bool {
    let may = |step: usize| problem.may[step] >> plan[step] & 1 == 1;
    let keeps = |pair: &Pair| {
        let [one, other] = pair.steps.map(|step| plan[step]);
        (problem.class[pair.level][one] >> other & 1 == 1) == pair.same
    };
    let counts = |count: &Count| {
        let (mut met, mut classes) = (0u64, 0);
        for &step in &count.scope {
            classes += usize::from(met >> plan[step] & 1 == 0);
            met |= problem.class[count.level][plan[step]];
        }
        (count.low..=count.high).contains(&classes)
    };
    let spreads = |load: &Load| {
        let class = |step: usize| problem.class[load.level][plan[step]];
        let held = |by: u64| load.scope.iter().filter(|&&step| by >> plan[step] & 1 == 1).count();
        load.scope.iter().all(|&step| held(class(step)) <= load.most)
    };
    (0..problem.steps).all(may)
        && problem.pairs.iter().all(keeps)
        && problem.counts.iter().all(counts)
        && problem.loads.iter().all(spreads)
}

/// The plan after this one, if there is one.
fn advance(plan: &mut [usize], people: usize) -> bool {
    for person in plan.iter_mut().rev() {
        if *person + 1 < people {
            *person += 1;
            return true;
        }
        *person = 0;
    }
    false
}

pub fn try_every(problem: &Problem) -> Tried {
    let mut plan = [0; MOST_STEPS];
    for plans in 1.. {
        if is_valid(problem, &plan) {
            return Tried { plans, plan: Some(plan) };
        }
        if !advance(&mut plan[..problem.steps], problem.people) {
            return Tried { plans, plan: None };
        }
    }
    unreachable!("the plans have an end")
}

#[cfg(test)]
mod tests {
    use super::*;
    use model::jobs::{lopsided_job, small_job};
    use model::plans::plan_by;
    use model::random::Random;
    use model::trial;

    #[test]
    fn plans_are_tried_as_by_the_model() {
        let mut random = Random::new(6);
        for k in 0..2_000 {
            let job = if k % 8 == 0 { lopsided_job(&mut random) } else { small_job(&mut random) };
            let (found, wanted) = (try_every(&Problem::new(&job)), trial::try_every(&job).expect("a small job"));
            assert_eq!(u128::from(found.plans), wanted.plans);
            assert_eq!(found.plan.map(|plan| plan_by(&job, plan)), wanted.crew);
        }
    }
}
