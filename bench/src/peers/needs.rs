//! A job as needs on variables that are true or false, after the appendix of document 004 on pseudo-Boolean problems.
//!
//! There is a variable for each step and person permitted, one for each step and class of a level that a rule names, and
//! for each rule that counts classes one for each class. The appendix has at-most rules for people only; here they are for any
//! level, and at-least rules are done alike. A load is a bound on the steps of each class. No step of the job is skipped.

use model::job::{steps_of, Job, Rule, AT_LEAST, AT_MOST, DIFFERENT, MAX_LOAD, SAME};
use std::collections::BTreeMap;

/// Variables are numbered from 1.
pub type Var = u32;

#[derive(Clone, Debug, PartialEq, Eq)]
pub enum Need {
    /// So many of them are true.
    Between {
        of: Vec<Var>,
        low: usize,
        high: usize,
    },
    /// At most one of them is true, and `whole` is true when one is: the class of a step.
    Join {
        of: Vec<Var>,
        whole: Var,
    },
    /// When `whole` is true, one of them is.
    Backed {
        of: Vec<Var>,
        whole: Var,
    },
    Same(Var, Var),
    NotBoth(Var, Var),
    Then(Var, Var),
    Never(Var),
}

pub struct Needs {
    /// For each step the people permitted, in crew order, with their variables.
    pub does: Vec<Vec<(usize, Var)>>,
    pub vars: Var,
    pub all: Vec<Need>,
    /// For each level and step the variables of the classes that have somebody permitted.
    classes: BTreeMap<(u8, usize), BTreeMap<u32, Var>>,
}

impl Needs {
    pub fn new(job: &Job) -> Needs {
        let mut needs = Needs { does: vec![], vars: 0, all: vec![], classes: BTreeMap::new() };
        for step in 0..job.steps.len() {
            let does: Vec<(usize, Var)> = job.permitted(step).map(|person| (person, needs.new_var())).collect();
            let of = does.iter().map(|(_, var)| *var).collect();
            needs.all.push(Need::Between { of, low: 1, high: 1 });
            needs.does.push(does);
        }
        for rule in &job.rules {
            for step in steps_of(rule.scope) {
                needs.know_classes(job, rule.level, step);
            }
            match rule.kind {
                SAME | DIFFERENT => needs.pair(rule),
                AT_MOST | AT_LEAST => needs.count(rule),
                MAX_LOAD => needs.load(rule),
                kind => panic!("no rule has kind {kind}"),
            }
        }
        needs
    }

    fn new_var(&mut self) -> Var {
        self.vars += 1;
        self.vars
    }

    /// Makes the variables of a step's classes, once. A person's is the one that is there.
    fn know_classes(&mut self, job: &Job, level: u8, step: usize) {
        if self.classes.contains_key(&(level, step)) {
            return;
        }
        let mut members: BTreeMap<u32, Vec<Var>> = BTreeMap::new();
        for (person, var) in &self.does[step] {
            members.entry(job.class(*person, level)).or_default().push(*var);
        }
        let mut vars = BTreeMap::new();
        for (class, of) in members {
            if level == job.form.person_level() {
                vars.insert(class, of[0]);
                continue;
            }
            let whole = self.new_var();
            self.all.push(Need::Join { of, whole });
            vars.insert(class, whole);
        }
        self.classes.insert((level, step), vars);
    }

    fn pair(&mut self, rule: &Rule) {
        let steps: Vec<usize> = steps_of(rule.scope).collect();
        let [first, second] = [steps[0], steps[1]].map(|step| &self.classes[&(rule.level, step)]);
        for (class, a) in first {
            match (second.get(class), rule.kind) {
                (Some(b), SAME) => self.all.push(Need::Same(*a, *b)),
                (None, SAME) => self.all.push(Need::Never(*a)),
                (Some(b), _) => self.all.push(Need::NotBoth(*a, *b)),
                (None, _) => {}
            }
        }
        if rule.kind == SAME {
            let alone = second.iter().filter(|(class, _)| !first.contains_key(class));
            self.all.extend(alone.map(|(_, b)| Need::Never(*b)));
        }
    }

    /// For each class the variables of the steps of the scope that somebody of it can do.
    fn within(&self, rule: &Rule) -> BTreeMap<u32, Vec<Var>> {
        let mut within: BTreeMap<u32, Vec<Var>> = BTreeMap::new();
        for step in steps_of(rule.scope) {
            for (class, var) in &self.classes[&(rule.level, step)] {
                within.entry(*class).or_default().push(*var);
            }
        }
        within
    }

    /// Of each class that can do more steps of the scope than the limit at most so many are true.
    fn load(&mut self, rule: &Rule) {
        let high = rule.limit.into();
        let crowded = self.within(rule).into_values().filter(|of| of.len() > high);
        self.all.extend(crowded.map(|of| Need::Between { of, low: 0, high }));
    }

    /// For each class a variable: for at most it is true when the class does a step of the scope, for at least only then.
    fn count(&mut self, rule: &Rule) {
        let mut counted = vec![];
        for of in self.within(rule).into_values() {
            let whole = self.new_var();
            counted.push(whole);
            if rule.kind == AT_MOST {
                self.all.extend(of.into_iter().map(|one| Need::Then(one, whole)));
            } else {
                self.all.push(Need::Backed { of, whole });
            }
        }
        let (limit, most) = (rule.limit.into(), counted.len());
        let (low, high) = if rule.kind == AT_MOST { (0, limit) } else { (limit, most.max(limit)) };
        self.all.push(Need::Between { of: counted, low, high });
    }

    /// The plan that a solver's true variables stand for; nothing where a step has nobody or several.
    pub fn plan(&self, is_true: impl Fn(Var) -> bool) -> Option<Vec<usize>> {
        let person = |does: &Vec<(usize, Var)>| {
            let mut found = does.iter().filter(|(_, var)| is_true(*var));
            let (person, _) = found.next()?;
            found.next().is_none().then_some(*person)
        };
        self.does.iter().map(person).collect()
    }
}

#[cfg(test)]
mod tests {
    use super::*;
    use model::builder::{job_w, rule};
    use model::job::BY_BENCH;
    use model::jobs::small_job;
    use model::plans::{first_plan, is_valid, plan_by, Plan};
    use model::random::Random;
    use model::shortened::shortened;

    /// How many of them are true.
    fn sum(of: &[Var], set: u64) -> usize {
        of.iter().filter(|var| set >> **var & 1 == 1).count()
    }

    fn is_met(need: &Need, set: u64) -> bool {
        let is = |var: &Var| set >> var & 1 == 1;
        match need {
            Need::Between { of, low, high } => (*low..=*high).contains(&sum(of, set)),
            Need::Join { of, whole } => sum(of, set) == usize::from(is(whole)),
            Need::Backed { of, whole } => usize::from(is(whole)) <= sum(of, set),
            Need::Same(a, b) => is(a) == is(b),
            Need::NotBoth(a, b) => !(is(a) && is(b)),
            Need::Then(a, b) => !is(a) || is(b),
            Need::Never(a) => !is(a),
        }
    }

    #[test]
    fn needs_can_be_met_when_there_is_a_plan() {
        let mut random = Random::new(21);
        let (mut both, mut loads) = ([0, 0], 0);
        for _ in 0..20_000 {
            let needs_of = shortened(&small_job(&mut random));
            let needs = Needs::new(&needs_of);
            if needs.vars > 16 {
                continue;
            }
            let met: Vec<u64> = (0..1u64 << needs.vars).map(|set| set << 1).collect();
            let met = met.into_iter().filter(|set| needs.all.iter().all(|need| is_met(need, *set)));
            let plan = |set: u64| plan_by(&needs_of, needs.plan(|var| set >> var & 1 == 1).unwrap());
            let plans: Vec<Plan> = met.map(plan).collect();
            assert!(plans.iter().all(|plan| is_valid(&needs_of, plan)), "{needs_of:?}");
            assert_eq!(plans.iter().min().cloned(), first_plan(&needs_of, &[]), "{needs_of:?}");
            both[usize::from(plans.is_empty())] += 1;
            loads += usize::from(needs_of.rules.iter().any(|rule| rule.kind == MAX_LOAD));
            if both.iter().sum::<usize>() == 300 {
                break;
            }
        }
        assert!(both[0] > 20 && both[1] > 20 && loads > 20, "{both:?} {loads}");
    }

    #[test]
    fn a_load_bounds_the_steps_of_a_class_that_could_do_more() {
        let mut job = job_w();
        job.rules = vec![rule(MAX_LOAD, BY_BENCH, 2, 7)];
        let needs = Needs::new(&job);
        let bench = |step| needs.classes[&(BY_BENCH, step)][&1];
        // Of the three benches the first alone can do more than one step.
        let bound = Need::Between { of: [0, 1, 2].map(bench).into(), low: 0, high: 2 };
        let bounds: Vec<&Need> = needs.all.iter().filter(|need| matches!(need, Need::Between { low: 0, .. })).collect();
        assert_eq!(bounds, [&bound]);
    }

    #[test]
    fn w_has_a_variable_for_each_permission_and_class() {
        let needs = Needs::new(&job_w());
        let permitted: usize = needs.does.iter().map(Vec::len).sum();
        assert_eq!(permitted, 2 + 2 + 4);
        // Benches of steps 10 and 20, one each, then shops of 20 and 30, one and two.
        assert_eq!(needs.vars as usize, permitted + 2 + 3);
    }
}
