//! The spare count by the hand-written search.

use crate::baseline::{plan, Found, Order};
use crate::problem::Problem;
use model::job::MOST_PEOPLE;
use std::time::Instant;

/// How many plans are kept.
const MOST_KEPT: usize = 64;

struct Walk<'a> {
    problem: &'a Problem,
    until: Instant,
    kept: usize,
    /// For each person the kept plans that do without that person.
    without: [u64; MOST_PEOPLE],
}

impl Walk<'_> {
    fn keep(&mut self, people: &[usize]) {
        if self.kept == MOST_KEPT {
            return;
        }
        for (person, without) in self.without.iter_mut().enumerate() {
            *without |= u64::from(!people.contains(&person)) << self.kept;
        }
        self.kept += 1;
    }

    /// The kept plans that do without everybody of the set.
    fn left_by(&self, set: u64) -> u64 {
        let members = (0..self.problem.people).filter(|person| set >> person & 1 == 1);
        let all = if self.kept == 0 { 0 } else { u64::MAX >> (MOST_KEPT - self.kept) };
        members.fold(all, |left, person| left & self.without[person])
    }

    /// `Found::Some(set)` where the set leaves no plan.
    fn breaks(&mut self, set: u64) -> Found<u64> {
        if self.left_by(set) != 0 {
            return Found::None;
        }
        match plan(self.problem, set, Order::Fewest, self.until) {
            Found::Some(plan) => {
                self.keep(&plan[..self.problem.steps]);
                Found::None
            }
            Found::None => Found::Some(set),
            Found::Unfinished => Found::Unfinished,
        }
    }

    /// The first breaking set, of those that add `more` people from `start` on to the set. `left` are kept plans that
    /// do without the set; plans kept since are looked at only where none of these is left.
    fn first_break(&mut self, start: usize, more: usize, set: u64, left: u64) -> Found<u64> {
        if more == 0 {
            return if left != 0 { Found::None } else { self.breaks(set) };
        }
        for person in start..self.problem.people {
            match self.first_break(person + 1, more - 1, set | 1 << person, left & self.without[person]) {
                Found::None => {}
                ended => return ended,
            }
        }
        Found::None
    }
}

/// The spare count and, below the cap, the first set that leaves no plan.
pub fn spare(problem: &Problem, cap: usize, until: Instant) -> Found<(usize, u64)> {
    let mut walk = Walk { problem, until, kept: 0, without: [0; MOST_PEOPLE] };
    for size in 0..=cap {
        let left = walk.left_by(0);
        match walk.first_break(0, size, 0, left) {
            Found::None => {}
            Found::Some(_) if size == 0 => return Found::None,
            Found::Some(set) => return Found::Some((size - 1, set)),
            Found::Unfinished => return Found::Unfinished,
        }
    }
    Found::Some((cap, 0))
}
