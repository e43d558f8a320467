//! The job as the hand-written search holds it: people as bits of a word, and rules as pairs, as counts or as loads. Its steps are
//! those that remain.

use model::job::{Job, Rule, AT_LEAST, AT_MOST, DIFFERENT, MAX_LOAD, MOST_CLASS_LEVELS, MOST_PEOPLE, MOST_STEPS, SAME};

/// The class levels and the person.
const MOST_LEVELS: usize = MOST_CLASS_LEVELS + 1;

/// The people who may still do each step.
pub type Domains = [u64; MOST_STEPS];

/// Two steps whose people share a class, or do not.
pub struct Pair {
    pub level: usize,
    pub same: bool,
    pub steps: [usize; 2],
}

/// The number of classes over the scope is from `low` to `high`.
pub struct Count {
    pub level: usize,
    pub scope: Vec<usize>,
    pub low: usize,
    pub high: usize,
}

/// No class holds more than `most` steps of the scope, which has more.
pub struct Load {
    pub level: usize,
    pub scope: Vec<usize>,
    pub most: usize,
}

pub struct Problem {
    pub steps: usize,
    pub people: usize,
    pub may: Domains,
    /// For each level of the sheet and each person everybody of that person's class.
    pub class: [[u64; MOST_PEOPLE]; MOST_LEVELS],
    pub pairs: Vec<Pair>,
    pub counts: Vec<Count>,
    pub loads: Vec<Load>,
}

/// The place of a level in the arrays.
fn place(level: u8) -> usize {
    usize::from(level) - 1
}

/// The number of classes that a rule of kinds 1 to 4 asks for, left with so many steps, two or more.
fn bounds(rule: &Rule, size: usize) -> (usize, usize) {
    let limit = size.min(rule.limit.into());
    match rule.kind {
        SAME => (1, 1),
        DIFFERENT => (2, 2),
        AT_MOST => (1, limit),
        AT_LEAST => (limit, size),
        kind => panic!("kind {kind} does not ask for a number of classes"),
    }
}

/// For each person everybody of the same class at a class level.
fn classes(job: &Job, level: u8) -> [u64; MOST_PEOPLE] {
    let mut met: Vec<(u16, u64)> = Vec::with_capacity(MOST_PEOPLE);
    let mut at = [0; MOST_PEOPLE];
    for (p, person) in job.people.iter().enumerate() {
        let number = person.class[place(level)];
        let known = met.iter().position(|(met, _)| *met == number);
        at[p] = known.unwrap_or(met.len());
        match known {
            Some(at) => met[at].1 |= 1 << p,
            None => met.push((number, 1 << p)),
        }
    }
    std::array::from_fn(|p| met[at[p]].1)
}

impl Problem {
    pub fn new(job: &Job) -> Problem {
        let remaining: Vec<usize> = job.remaining().collect();
        let mut problem = Problem {
            steps: remaining.len(),
            people: job.people.len(),
            may: [0; MOST_STEPS],
            class: [[0; MOST_PEOPLE]; MOST_LEVELS],
            pairs: vec![],
            counts: vec![],
            loads: vec![],
        };
        for (p, person) in job.people.iter().enumerate() {
            for (may, step) in problem.may.iter_mut().zip(&remaining) {
                *may |= u64::from(person.permitted >> step & 1) << p;
            }
            problem.class[place(job.form.person_level())][p] = 1 << p;
        }
        for level in 1..=job.form.class_levels() {
            problem.class[place(level)] = classes(job, level);
        }
        for rule in &job.rules {
            let scope = (0..remaining.len()).filter(|&step| rule.scope >> remaining[step] & 1 == 1);
            problem.add(rule, scope.collect());
        }
        problem
    }

    /// A rule over two steps is a pair whatever its kind; one that every plan meets is left out.
    fn add(&mut self, rule: &Rule, scope: Vec<usize>) {
        match (rule.kind, scope.len()) {
            (_, ..2) => {}
            (MAX_LOAD, _) => self.add_load(rule, scope),
            _ => self.add_count(rule, scope),
        }
    }

    fn add_count(&mut self, rule: &Rule, scope: Vec<usize>) {
        let level = place(rule.level);
        let size = scope.len();
        match (bounds(rule, size), size) {
            ((1, high), _) if high == size => {}
            ((low, _), 2) => self.pairs.push(Pair { level, same: low == 1, steps: [scope[0], scope[1]] }),
            ((low, high), _) => self.counts.push(Count { level, scope, low, high }),
        }
    }

    fn add_load(&mut self, rule: &Rule, scope: Vec<usize>) {
        let (level, most) = (place(rule.level), rule.limit.into());
        match scope[..] {
            _ if most >= scope.len() => {}
            [one, other] => self.pairs.push(Pair { level, same: false, steps: [one, other] }),
            _ => self.loads.push(Load { level, scope, most }),
        }
    }
}
