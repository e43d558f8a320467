//! A hand-written backtracking search, to set the library against. It is given the job already read.

use crate::narrow::narrow;
use crate::problem::{Domains, Problem};
use model::job::MOST_STEPS;
use std::time::Instant;

/// For each step the person, by the place in crew order.
pub type Plan = [usize; MOST_STEPS];

#[derive(Clone, Copy, Debug, PartialEq, Eq)]
pub enum Found<T> {
    Some(T),
    None,
    /// Out of time.
    Unfinished,
}

/// Which step is given somebody next.
#[derive(Clone, Copy, PartialEq, Eq)]
pub enum Order {
    /// Along the step chain: the plan found is the first.
    Chain,
    /// The step with the fewest people left.
    Fewest,
}

/// How many nodes pass between two looks at the clock.
const NODES_A_LOOK: u64 = 64;

struct Search<'a> {
    problem: &'a Problem,
    order: Order,
    until: Instant,
    nodes: u64,
}

impl Search<'_> {
    fn late(&mut self) -> bool {
        self.nodes += 1;
        self.nodes.is_multiple_of(NODES_A_LOOK) && Instant::now() >= self.until
    }

    fn choose(&self, domains: &Domains, open: u16) -> usize {
        let steps = (0..self.problem.steps).filter(|step| open >> step & 1 == 1);
        match self.order {
            Order::Chain => steps.min(),
            Order::Fewest => steps.min_by_key(|&step| domains[step].count_ones()),
        }
        .expect("a step is open")
    }

    fn run(&mut self, domains: &Domains, open: u16) -> Found<Plan> {
        if open == 0 {
            return Found::Some(domains.map(|domain| domain.trailing_zeros() as usize));
        }
        if self.late() {
            return Found::Unfinished;
        }
        let step = self.choose(domains, open);
        let mut left = domains[step];
        while left != 0 {
            let mut next = *domains;
            next[step] = left & left.wrapping_neg();
            left &= left - 1;
            if !narrow(self.problem, &mut next) {
                continue;
            }
            match self.run(&next, open & !(1 << step)) {
                Found::None => {}
                ended => return ended,
            }
        }
        Found::None
    }
}

/// A valid plan without the people away; with `Order::Chain` the first.
pub fn plan(problem: &Problem, away: u64, order: Order, until: Instant) -> Found<Plan> {
    let mut domains = problem.may.map(|may| may & !away);
    if domains[..problem.steps].contains(&0) || !narrow(problem, &mut domains) {
        return Found::None;
    }
    let open = ((1u32 << problem.steps) - 1) as u16;
    Search { problem, order, until, nodes: 0 }.run(&domains, open)
}

#[cfg(test)]
mod tests {
    use super::*;
    use crate::absences::spare;
    use crate::measure::CAP;
    use model::job::MOST_PEOPLE;
    use model::jobs::small_job;
    use model::plans;
    use model::random::Random;
    use std::time::Duration;

    #[test]
    fn small_jobs_are_planned_as_by_the_brute_force() {
        let mut random = Random::new(6);
        let until = Instant::now() + Duration::from_secs(60);
        for _ in 0..5_000 {
            let job = small_job(&mut random);
            let problem = Problem::new(&job);
            let steps = problem.steps;
            let first = match plan(&problem, 0, Order::Chain, until) {
                Found::Some(plan) => Some(plans::plan_by(&job, plan[..steps].iter().copied())),
                _ => None,
            };
            assert_eq!(first, plans::first_plan(&job, &[]));
            assert_eq!(matches!(plan(&problem, 0, Order::Fewest, until), Found::Some(_)), first.is_some());
            let counted = match spare(&problem, CAP, until) {
                Found::Some((count, away)) => Some(plans::Spare {
                    count,
                    away: (0..MOST_PEOPLE).filter(|person| away >> person & 1 == 1).collect(),
                }),
                _ => None,
            };
            assert_eq!(counted, plans::spare(&job, CAP));
        }
    }
}
