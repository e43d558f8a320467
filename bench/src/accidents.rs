//! Jobs such as a slip on the sheet makes: impossible, and hard to see so for a search that tries people.

use model::builder::{person, rule, step};
use model::job::{
    Form, Job, Rule, AT_LEAST, AT_MOST, BY_BENCH, BY_PERSON, BY_SHOP, DIFFERENT, MOST_PEOPLE, MOST_STEPS, SAME,
};
use model::jobs::any_level;
use model::random::Random;

const EVERY_STEP: u16 = (1 << MOST_STEPS) - 1;

/// Everybody permitted everything, on so many benches in so many shops.
fn open_job(shops: usize, benches: usize, rules: Vec<Rule>) -> Job {
    let at = |i: usize| (1 + (i % benches % shops) as u16, 1 + (i % benches) as u16);
    Job {
        people: (0..MOST_PEOPLE).map(|i| person(100 + i as u32, at(i).0, at(i).1, EVERY_STEP)).collect(),
        steps: (0..MOST_STEPS).map(|j| step(1 + j as u32)).collect(),
        rules,
        ..Job::default()
    }
}

fn pair(kind: u8, level: u8, a: usize, b: usize) -> Rule {
    rule(kind, level, 0, 1 << a | 1 << b)
}

/// Two different steps below `most`.
fn two(random: &mut Random, most: usize) -> (usize, usize) {
    let order = random.order(most);
    (order[0] - 1, order[1] - 1)
}

/// Rules over the first `most` steps that leave plans: only "different" for people.
fn easy(random: &mut Random, most: usize, count: usize) -> Vec<Rule> {
    (0..count)
        .map(|_| {
            let (a, b) = two(random, most);
            pair(DIFFERENT, BY_PERSON, a, b)
        })
        .collect()
}

/// Same at a level and different at that level or a coarser one, on the last two steps.
pub fn contradiction(random: &mut Random) -> Job {
    let fine = any_level(random, Form::First);
    let coarse = random.within(BY_SHOP.into(), fine.into()) as u8;
    let count = random.within(3, 20);
    let mut rules = easy(random, MOST_STEPS - 2, count);
    rules.push(pair(SAME, fine, MOST_STEPS - 2, MOST_STEPS - 1));
    rules.push(pair(DIFFERENT, coarse, MOST_STEPS - 2, MOST_STEPS - 1));
    open_job(4, 8, rules)
}

/// At least five shops where there are four.
pub fn fifth_shop(random: &mut Random) -> Job {
    let size = random.within(5, MOST_STEPS);
    let scope = random.order(MOST_STEPS)[..size].iter().map(|s| 1 << (s - 1)).sum();
    let count = random.below(12);
    let mut rules = easy(random, MOST_STEPS, count);
    rules.push(rule(AT_LEAST, BY_SHOP, 5, scope));
    open_job(4, random.within(4, 16), rules)
}

/// Twelve steps pairwise on different benches, of which there are eleven. A sheet holds 64 of the 66 pairs, so that one
/// rule over three steps stands for three of them.
pub fn eleven_benches(random: &mut Random) -> Job {
    let order: Vec<usize> = random.order(MOST_STEPS).into_iter().map(|s| s - 1).collect();
    let mut rules = vec![rule(AT_LEAST, BY_BENCH, 3, 1 << order[0] | 1 << order[1] | 1 << order[2])];
    for b in 3..MOST_STEPS {
        rules.extend((0..b).map(|a| pair(DIFFERENT, BY_BENCH, order[a], order[b])));
    }
    open_job(random.within(1, 4), 11, rules)
}

/// The same in one rule.
pub fn eleven_benches_at_once(random: &mut Random) -> Job {
    let count = random.below(12);
    let mut rules = easy(random, MOST_STEPS, count);
    rules.push(rule(AT_LEAST, BY_BENCH, MOST_STEPS as u8, EVERY_STEP));
    open_job(random.within(1, 4), 11, rules)
}

/// Three parts of four steps that share no rule; the last asks for four shops of the three there are.
pub fn last_part(random: &mut Random) -> Job {
    let mut rules = vec![];
    for part in [0, 4] {
        let level = random.within(BY_BENCH.into(), BY_PERSON.into()) as u8;
        rules.push(rule(AT_LEAST, level, 3, 0b1111 << part));
        rules.push(rule(AT_MOST, BY_SHOP, 2, 0b1111 << part));
    }
    for (a, b) in [(0, 1), (0, 2), (0, 3), (1, 2), (1, 3), (2, 3)] {
        rules.push(pair(DIFFERENT, BY_SHOP, 8 + a, 8 + b));
    }
    open_job(3, 9, rules)
}
