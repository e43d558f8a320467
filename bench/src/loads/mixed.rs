//! Rules of all five kinds for the people of practice sheets, with limits that leave plans on many.

use crate::groups::Group;
use model::builder::rule;
use model::job::{has_limit, Form, Job, Rule, AT_LEAST, MAX_LOAD, MOST_PEOPLE, MOST_STEPS, SAME};
use model::jobs::{any_level, scope};
use model::random::Random;
use model::recipe::practice_job;

pub const NAME: &str = "mixed";

/// The numbers of rules, a group for each.
const RULES: [usize; 6] = [2, 4, 8, 12, 20, 32];

/// The widest scope of a rule with a limit.
const WIDEST: usize = 8;

/// A limit from the middle on: most plans of few rules meet it, and it is no matter of course.
fn of_kind(random: &mut Random, kind: u8) -> Rule {
    let level = any_level(random, Form::First);
    if !has_limit(kind) {
        return rule(kind, level, 0, scope(random, MOST_STEPS, 2));
    }
    let wide = random.within(3, WIDEST);
    let half = wide.div_ceil(2);
    let limit = if kind == AT_LEAST { random.within(2, half) } else { random.within(half, wide - 1) };
    rule(kind, level, limit as u8, scope(random, MOST_STEPS, wide))
}

/// The first rule is of kind 5, the others of any.
fn job(random: &mut Random, rules: usize) -> Job {
    let job = practice_job(random.below(1 << 31) as u32, MOST_STEPS, MOST_PEOPLE, 0);
    let mut drawn = vec![of_kind(random, MAX_LOAD)];
    while drawn.len() < rules {
        let kind = random.within(SAME.into(), MAX_LOAD.into()) as u8;
        drawn.push(of_kind(random, kind));
    }
    Job { rules: drawn, ..job }
}

pub fn groups() -> Vec<Group> {
    let group = |rules: usize| {
        let name = format!("{NAME}-{rules}");
        Group::made(&name, move |number| job(&mut Random::new(number.into()), rules))
    };
    RULES.map(group).into()
}
