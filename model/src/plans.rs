//! Valid plans and the spare count, straight from the papers: every plan is tried. For small jobs only.

use crate::job::{Job, Rule, AT_LEAST, AT_MOST, DIFFERENT, MAX_LOAD, SAME};

/// For each step of the chain the person who does it, by the place in crew order; nobody for a skipped step.
pub type Plan = Vec<Option<usize>>;

/// How many plans may have to be tried.
pub const MOST_PLANS: u128 = 100_000;

/// How many plans so many people have for so many steps that remain, valid or not.
pub fn plans_of(people: usize, remaining: usize) -> u128 {
    (people as u128).pow(remaining as u32)
}

/// How many plans the job has, valid or not.
pub fn plans(job: &Job) -> u128 {
    plans_of(job.people.len(), job.remaining().count())
}

/// Whether every plan of the job can be tried.
pub fn is_small(job: &Job) -> bool {
    plans(job) <= MOST_PLANS
}

/// The plan that gives the steps that remain, one after the other, to these people.
pub fn plan_by(job: &Job, people: impl IntoIterator<Item = usize>) -> Plan {
    let mut people = people.into_iter();
    job.steps.iter().map(|step| if step.skipped { None } else { people.next() }).collect()
}

/// "Step tag then person tag, steps in chain order", of the steps that remain.
pub fn crew(job: &Job, plan: &[Option<usize>]) -> Vec<(u32, u32)> {
    let given = job.steps.iter().zip(plan).filter_map(|(step, person)| Some((step, (*person)?)));
    given.map(|(step, person)| (step.tag, job.people[person].tag)).collect()
}

/// The load of each class of the rule's level: how many steps of the scope it holds. Classes that hold none are left out.
fn loads(job: &Job, rule: &Rule, plan: &[Option<usize>]) -> Vec<usize> {
    let given = job.left(rule.scope).filter_map(|step| plan[step]);
    let mut classes: Vec<u32> = given.map(|person| job.class(person, rule.level)).collect();
    classes.sort_unstable();
    classes.chunk_by(|a, b| a == b).map(|held| held.len()).collect()
}

/// "The number of different classes of its level among the people given to the steps of its scope."
pub fn count(job: &Job, rule: &Rule, plan: &[Option<usize>]) -> usize {
    loads(job, rule, plan).len()
}

/// "The largest number held by one class, 0 if none remain."
pub fn largest_load(job: &Job, rule: &Rule, plan: &[Option<usize>]) -> usize {
    loads(job, rule, plan).into_iter().max().unwrap_or(0)
}

/// What a rule's kind asks about, and what its RULE line ends with.
pub fn figure(job: &Job, rule: &Rule, plan: &[Option<usize>]) -> usize {
    match rule.kind {
        SAME | DIFFERENT | AT_MOST | AT_LEAST => count(job, rule, plan),
        MAX_LOAD => largest_load(job, rule, plan),
        kind => panic!("no rule has kind {kind}"),
    }
}

/// What a rule asks for is asked of its figure, and of how many steps are left to it.
pub fn is_met(job: &Job, rule: &Rule, plan: &[Option<usize>]) -> bool {
    let (figure, left) = (figure(job, rule, plan), job.left(rule.scope).count());
    match rule.kind {
        // "A same or different rule left with fewer than two steps is met."
        SAME | DIFFERENT if left < 2 => true,
        SAME => figure == 1,
        DIFFERENT => figure == 2,
        // "An at-least limit becomes the smaller of itself and the steps left."
        AT_LEAST => figure >= left.min(rule.limit.into()),
        // "No class of the level holds more than the limit of the steps in scope."
        AT_MOST | MAX_LOAD => figure <= rule.limit.into(),
        kind => panic!("no rule has kind {kind}"),
    }
}

/// "Valid when each person is permitted the step and all rules are met." A plan gives each step that remains one person, and
/// each skipped one nobody.
pub fn is_valid(job: &Job, plan: &[Option<usize>]) -> bool {
    let is_given = |step: usize| match plan[step] {
        Some(person) => !job.steps[step].skipped && job.people[person].may(step),
        None => job.steps[step].skipped,
    };
    (0..job.steps.len()).all(is_given) && job.rules.iter().all(|rule| is_met(job, rule, plan))
}

/// To whom a step may be given: to those permitted it, in crew order, or to nobody where it is skipped.
fn choices(job: &Job, step: usize) -> impl Iterator<Item = Option<usize>> + '_ {
    let skipped = job.steps[step].skipped;
    let permitted = job.permitted(step).filter(move |_| !skipped).map(Some);
    skipped.then_some(None).into_iter().chain(permitted)
}

/// Completes the plan in the first way that is valid and suits; where there is none, the plan is as it was.
fn complete(job: &Job, suits: &impl Fn(usize, usize) -> bool, plan: &mut Plan) -> bool {
    let step = plan.len();
    if step == job.steps.len() {
        return is_valid(job, plan);
    }
    for choice in choices(job, step).filter(|choice| choice.is_none_or(|person| suits(step, person))) {
        plan.push(choice);
        if complete(job, suits, plan) {
            return true;
        }
        plan.pop();
    }
    false
}

/// The first valid plan, in plan order, whose every step suits the person given to it.
pub fn first_suiting(job: &Job, suits: impl Fn(usize, usize) -> bool) -> Option<Plan> {
    let mut plan = vec![];
    complete(job, &suits, &mut plan).then_some(plan)
}

/// The first valid plan, in plan order, that does without the people away.
pub fn first_plan(job: &Job, away: &[usize]) -> Option<Plan> {
    first_suiting(job, |_, person| !away.contains(&person))
}

/// Every valid plan, in plan order.
pub fn all_plans(job: &Job) -> Vec<Plan> {
    let mut plans = vec![vec![]];
    for step in 0..job.steps.len() {
        let longer = |plan: Plan| choices(job, step).map(move |choice| [&plan[..], &[choice]].concat());
        plans = plans.into_iter().flat_map(longer).collect();
    }
    plans.retain(|plan| is_valid(job, plan));
    plans
}

/// The sets of `size` people: members in crew order, and the set with the earlier person where two first differ first.
pub fn away_sets(people: usize, size: usize) -> Vec<Vec<usize>> {
    let mut sets = vec![vec![]];
    for _ in 0..size {
        let longer = |set: Vec<usize>| {
            let from = set.last().map_or(0, |last| last + 1);
            (from..people).map(move |person| [&set[..], &[person]].concat())
        };
        sets = sets.into_iter().flat_map(longer).collect();
    }
    sets
}

#[derive(Debug, PartialEq, Eq)]
pub struct Spare {
    pub count: usize,
    /// The first set that leaves no valid plan; empty where the count is the cap.
    pub away: Vec<usize>,
}

/// The largest count, at most the cap, such that every set of at most so many people away leaves a valid plan.
pub fn spare(job: &Job, cap: usize) -> Option<Spare> {
    let people = job.people.len();
    let breaks = |set: &Vec<usize>| first_plan(job, set).is_none();
    let survived = |size: &usize| !away_sets(people, *size).iter().any(breaks);
    let count = (0..=cap).take_while(survived).last()?;
    if count == cap {
        return Some(Spare { count, away: vec![] });
    }
    let away = away_sets(people, count + 1).into_iter().find(breaks)?;
    Some(Spare { count, away })
}

#[cfg(test)]
mod tests {
    use super::*;
    use crate::builder::{job_w, job_w_in, person, person_in, plain_job, rule, skipping, step};
    use crate::job::{Form, BY_BENCH, BY_PERSON, BY_SHOP};

    #[test]
    fn w_is_planned_as_printed() {
        assert_eq!(first_plan(&job_w(), &[]), Some(vec![Some(0), Some(0), Some(1)]));
        assert_eq!(spare(&job_w(), 2), Some(Spare { count: 1, away: vec![0, 1] }));
        assert_eq!(spare(&job_w(), 1), Some(Spare { count: 1, away: vec![] }));
    }

    #[test]
    fn w_is_planned_alike_in_every_form() {
        for job in Form::ALL.map(job_w_in) {
            assert_eq!(first_plan(&job, &[]), first_plan(&job_w(), &[]), "{}", job.form);
            assert_eq!(spare(&job, 2), spare(&job_w(), 2), "{}", job.form);
        }
    }

    #[test]
    fn no_earlier_plan_is_valid() {
        let job = job_w();
        let plans = (0..64).map(|k| plan_by(&job, [k / 16, k / 4 % 4, k % 4]));
        let valid: Vec<Plan> = plans.filter(|plan| is_valid(&job, plan)).collect();
        assert_eq!(valid.first(), first_plan(&job, &[]).as_ref());
        assert_eq!(valid, all_plans(&job));
    }

    #[test]
    fn away_sets_come_in_crew_order() {
        assert_eq!(away_sets(4, 0), [[]]);
        assert_eq!(away_sets(4, 2), [[0, 1], [0, 2], [0, 3], [1, 2], [1, 3], [2, 3]]);
        assert_eq!(away_sets(64, 3).len(), 41_664);
        assert!(away_sets(2, 3).is_empty());
    }

    #[test]
    fn a_count_is_of_classes_at_the_level() {
        let mut job = plain_job(3, 3, 1);
        job.people[2] = person(7, 2, 1, 7);
        let counts = |job: &Job, people: &[usize]| {
            let plan = plan_by(job, people.iter().copied());
            [BY_SHOP, BY_BENCH, BY_PERSON].map(|level| count(job, &rule(AT_MOST, level, 1, 7), &plan))
        };
        assert_eq!(counts(&job, &[0, 1, 2]), [2, 2, 3]);
        assert_eq!(counts(&skipping(job.clone(), [0]), &[1, 2]), [2, 2, 2]);
        assert_eq!(counts(&skipping(job.clone(), [2]), &[0, 1]), [1, 2, 2]);
        assert_eq!(counts(&skipping(job.clone(), [0, 2]), &[1]), [1, 1, 1]);
        assert_eq!(counts(&skipping(job, 0..3), &[]), [0, 0, 0]);
    }

    #[test]
    fn the_person_is_the_level_after_the_last() {
        // Two shops, three benches, four pairs, five people; where levels are missing, the last of them are.
        let classes: [[u16; 3]; 5] = [[1, 1, 1], [1, 1, 1], [1, 1, 2], [1, 2, 3], [2, 3, 4]];
        for (class_levels, expected) in [(1, vec![2, 5]), (2, vec![2, 3, 5]), (3, vec![2, 3, 4, 5])] {
            let form = Form::Second { class_levels };
            let held = |class: &[u16; 3]| person_in(class[2].into(), &class[..class_levels.into()], 31);
            let mut job = Job { form, people: classes.iter().map(held).collect(), ..plain_job(1, 5, 0) };
            job.people.iter_mut().zip(1..).for_each(|(person, tag)| person.tag = tag);
            let plan = plan_by(&job, 0..5);
            let counts = (1..=form.person_level()).map(|level| count(&job, &rule(AT_MOST, level, 1, 31), &plan));
            assert_eq!(counts.collect::<Vec<_>>(), expected, "{form}");
        }
    }

    #[test]
    fn a_rule_by_pair_is_met_by_a_pair_alone() {
        // 101 and 102 are at one bench, each in a pair of their own; both may do all.
        let mut job = job_w_in(Form::Second { class_levels: 3 });
        job.rules = vec![rule(DIFFERENT, 3, 0, 3), rule(SAME, 2, 0, 3)];
        assert_eq!(first_plan(&job, &[]), Some(plan_by(&job, [0, 1, 0])));
        job.people[1].class[2] = 1;
        assert_eq!(first_plan(&job, &[]), None);
    }

    #[test]
    fn a_job_is_small_while_its_plans_can_be_tried() {
        assert!(is_small(&plain_job(5, 4, 6)));
        assert!(is_small(&plain_job(1, 12, 0)));
        // Just as many as may be, and the next number that there is.
        assert!(is_small(&plain_job(10, 5, 0)));
        assert!(!is_small(&plain_job(47, 3, 0)));
        assert!(!is_small(&plain_job(64, 12, 0)));
    }

    #[test]
    fn skipped_steps_make_a_job_smaller() {
        assert_eq!(plans(&skipping(plain_job(64, 12, 0), 1..12)), 64);
        assert_eq!(plans(&skipping(plain_job(64, 12, 0), 0..12)), 1);
        assert!(is_small(&skipping(plain_job(47, 3, 0), [1])));
    }

    #[test]
    fn a_plan_gives_skipped_steps_nobody() {
        let job = skipping(plain_job(2, 3, 0), [1]);
        assert_eq!(plan_by(&job, [1, 0]), [Some(1), None, Some(0)]);
        assert!(is_valid(&job, &[Some(1), None, Some(0)]));
        assert!(!is_valid(&job, &[Some(1), Some(0), Some(0)]));
        assert!(!is_valid(&job, &[Some(1), None, None]));
        assert_eq!(all_plans(&job).len(), 4);
    }

    /// Four steps: A may do the first and the last, B all, C all but the first.
    fn uneven_job(rules: Vec<Rule>) -> Job {
        let people = vec![person(1, 1, 1, 0b1001), person(2, 1, 2, 0b1111), person(3, 2, 3, 0b1110)];
        Job { people, steps: [10, 20, 30, 40].map(step).into(), rules, ..Job::default() }
    }

    /// The people of the first plan, by their places.
    fn first_people(job: &Job) -> Option<Vec<usize>> {
        Some(first_plan(job, &[])?.into_iter().flatten().collect())
    }

    #[test]
    fn a_rule_asks_for_what_is_left_of_it() {
        let same = rule(SAME, BY_PERSON, 0, 0b0011);
        let different = rule(DIFFERENT, BY_PERSON, 0, 0b0110);
        let at_most = rule(AT_MOST, BY_PERSON, 1, 0b0111);
        let at_least = rule(AT_LEAST, BY_PERSON, 3, 0b0111);
        let max_load = rule(MAX_LOAD, BY_PERSON, 1, 0b0111);
        // The steps skipped, then the first plan, and the figure of the rule in it.
        let stated: [(&Rule, &[usize], &[usize], usize); 20] = [
            (&same, &[], &[1, 1, 1, 0], 1),
            (&same, &[3], &[1, 1, 1], 1),
            (&same, &[0], &[1, 1, 0], 1),
            (&same, &[0, 1], &[1, 0], 0),
            (&different, &[0], &[1, 2, 0], 2),
            (&different, &[2], &[0, 1, 0], 1),
            (&different, &[1, 2], &[0, 0], 0),
            (&at_most, &[2], &[1, 1, 0], 1),
            (&at_most, &[0, 1], &[1, 0], 1),
            (&at_most, &[0, 1, 2], &[0], 0),
            (&at_least, &[], &[0, 1, 2, 0], 3),
            (&at_least, &[3], &[0, 1, 2], 3),
            (&at_least, &[0], &[1, 2, 0], 2),
            (&at_least, &[0, 1], &[1, 0], 1),
            (&at_least, &[0, 1, 2], &[0], 0),
            (&max_load, &[], &[0, 1, 2, 0], 1),
            (&max_load, &[3], &[0, 1, 2], 1),
            (&max_load, &[0], &[1, 2, 0], 1),
            (&max_load, &[0, 1], &[1, 0], 1),
            (&max_load, &[0, 1, 2], &[0], 0),
        ];
        for (rule, skipped, people, shown) in stated {
            let job = skipping(uneven_job(vec![rule.clone()]), skipped.iter().copied());
            assert_eq!(first_people(&job).as_deref(), Some(people), "{job:?}");
            let plan = plan_by(&job, people.iter().copied());
            assert_eq!(figure(&job, rule, &plan), shown, "{job:?}");
        }
    }

    #[test]
    fn an_at_least_limit_below_the_steps_left_stays() {
        let job = uneven_job(vec![rule(AT_LEAST, BY_PERSON, 2, 0b0111)]);
        assert_eq!(first_people(&skipping(job.clone(), [3])), Some(vec![0, 1, 1]));
        assert_eq!(first_people(&skipping(job, [0])), Some(vec![1, 2, 0]));
    }

    #[test]
    fn rules_that_cannot_be_met_together_can_where_a_step_is_skipped() {
        let job = uneven_job(vec![rule(SAME, BY_SHOP, 0, 0b0110), rule(DIFFERENT, BY_SHOP, 0, 0b0110)]);
        assert_eq!(first_people(&job), None);
        assert_eq!(first_people(&skipping(job.clone(), [3])), None);
        assert_eq!(first_people(&skipping(job, [2])), Some(vec![0, 1, 0]));
    }

    #[test]
    fn a_step_that_nobody_may_do_is_missed_only_where_it_remains() {
        let mut job = uneven_job(vec![]);
        job.people.iter_mut().for_each(|person| person.permitted &= !0b0100);
        assert_eq!(first_people(&job), None);
        assert_eq!(first_people(&skipping(job, [2])), Some(vec![0, 1, 0]));
    }

    #[test]
    fn with_all_steps_skipped_the_crew_is_empty_and_the_spare_count_is_the_cap() {
        let mut job = skipping(uneven_job(vec![rule(AT_LEAST, BY_SHOP, 2, 0b1111)]), 0..4);
        job.people.truncate(1);
        assert_eq!(all_plans(&job), [vec![None; 4]]);
        assert_eq!(first_people(&job), Some(vec![]));
        for cap in 0..=3 {
            assert_eq!(spare(&job, cap), Some(Spare { count: cap, away: vec![] }));
        }
    }

    #[test]
    fn only_those_who_do_a_remaining_step_are_missed() {
        let job = skipping(job_w(), [0, 1]);
        assert_eq!(spare(&job, 3), Some(Spare { count: 3, away: vec![] }));
        assert_eq!(spare(&skipping(job_w(), [2]), 3), Some(Spare { count: 1, away: vec![0, 1] }));
    }
}
