//! Twelve steps that have to be spread over few benches: no bench does more than its part of them.

use crate::groups::{random_group, Group};
use model::builder::{person, rule, step};
use model::job::{Form, Job, Rule, BY_BENCH, BY_SHOP, DIFFERENT, MAX_LOAD, MOST_PEOPLE, MOST_STEPS, SAME};
use model::jobs::{any_level, scope};
use model::random::Random;

pub const NAME: &str = "spread";
pub const NESTED: &str = "nested";

/// Where the people sit.
struct House {
    shops: usize,
    benches: usize,
}

impl House {
    fn any(random: &mut Random) -> House {
        let benches = random.within(3, 8);
        House { shops: random.within(2, benches.min(4)), benches }
    }

    /// Each permission is given `ease` times in sixteen.
    fn job(&self, random: &mut Random, ease: usize, rules: Vec<Rule>) -> Job {
        let people = (0..MOST_PEOPLE).map(|i| {
            let bench = i % self.benches;
            let permitted = (0..MOST_STEPS).filter(|_| random.below(16) < ease).map(|step| 1 << step).sum();
            person(100 + i as u32, 1 + (bench % self.shops) as u16, 1 + bench as u16, permitted)
        });
        Job {
            people: people.collect(),
            steps: (0..MOST_STEPS).map(|j| step(1 + j as u32)).collect(),
            rules,
            ..Job::default()
        }
    }

    /// The least limit that all benches together can keep over so many steps.
    fn part(&self, steps: usize) -> usize {
        steps.div_ceil(self.benches)
    }

    /// No bench does more than its part of all or most steps.
    fn load(&self, random: &mut Random) -> Rule {
        let wide = random.within(MOST_STEPS - 2, MOST_STEPS);
        rule(MAX_LOAD, BY_BENCH, self.part(wide) as u8, scope(random, MOST_STEPS, wide))
    }

    /// The same of the shops, over all steps.
    fn load_of_shops(&self) -> Rule {
        rule(MAX_LOAD, BY_SHOP, MOST_STEPS.div_ceil(self.shops) as u8, EVERY_STEP)
    }
}

const EVERY_STEP: u16 = (1 << MOST_STEPS) - 1;

/// So many pairs of steps that are done by the same or by different classes of some level.
fn pairs(random: &mut Random, count: usize) -> Vec<Rule> {
    let pair = |_| {
        let kind = if random.once_in(3) { SAME } else { DIFFERENT };
        rule(kind, any_level(random, Form::First), 0, scope(random, MOST_STEPS, 2))
    };
    (0..count).map(pair).collect()
}

/// Everybody may do nearly everything; pair rules.
fn with_pairs(random: &mut Random) -> Job {
    let house = House::any(random);
    let mut rules = vec![house.load(random)];
    let count = random.within(2, 12);
    rules.extend(pairs(random, count));
    house.job(random, 14, rules)
}

/// Some eight people for a step.
fn with_few(random: &mut Random) -> Job {
    let house = House::any(random);
    let mut rules = vec![house.load(random)];
    let count = random.within(0, 4);
    rules.extend(pairs(random, count));
    house.job(random, 2, rules)
}

/// Benches and shops both do no more than their part, with some eight people for a step or nearly everybody. Shops have different
/// numbers of benches: what all shops may do and what all benches may do can be enough, and both together too little.
fn with_shops(random: &mut Random) -> Job {
    let house = House::any(random);
    let mut rules = vec![house.load(random), house.load_of_shops()];
    let count = random.within(0, 4);
    rules.extend(pairs(random, count));
    let ease = if random.once_in(2) { 2 } else { 14 };
    house.job(random, ease, rules)
}

/// Steps that follow each other in some order are held together at one bench, up to four of them: so many steps a bench can be
/// enough by number, and the blocks may yet not fit.
fn with_blocks(random: &mut Random) -> Job {
    let house = House { shops: 2, benches: random.within(3, 4) };
    let order = random.order(MOST_STEPS);
    let mut rules = vec![];
    let mut from = 0;
    while from < MOST_STEPS {
        let to = (from + random.within(1, 4)).min(MOST_STEPS);
        let together = order[from..to].windows(2).map(|two| 1 << (two[0] - 1) | 1 << (two[1] - 1));
        rules.extend(together.map(|scope| rule(SAME, BY_BENCH, 0, scope)));
        from = to;
    }
    let limit = house.part(MOST_STEPS) + random.below(2);
    rules.push(rule(MAX_LOAD, BY_BENCH, limit as u8, EVERY_STEP));
    house.job(random, 12, rules)
}

/// The limit is one too low for the benches that there are.
fn too_short(random: &mut Random) -> Job {
    let house = House::any(random);
    let wide = random.within(MOST_STEPS - 2, MOST_STEPS);
    let mut rules = vec![rule(MAX_LOAD, BY_BENCH, house.part(wide) as u8 - 1, scope(random, MOST_STEPS, wide))];
    let count = random.within(0, 12);
    rules.extend(pairs(random, count));
    house.job(random, 14, rules)
}

pub fn groups() -> Vec<Group> {
    let group = |what: &str, job: fn(&mut Random) -> Job| random_group(&format!("{NAME}-{what}"), job);
    vec![group("pairs", with_pairs), group("few", with_few), group("blocks", with_blocks), group("short", too_short)]
}

/// The same with a limit on each shop as well.
pub fn nested() -> Vec<Group> {
    vec![random_group(&format!("{NESTED}-shops"), with_shops)]
}
