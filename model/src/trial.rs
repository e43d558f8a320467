//! What the program that tries every plan prints for a sheet: how many plans it has tried, each of them where the sheet has few,
//! then the crew and the figure of each rule, or a refusal.

use crate::job::Job;
use crate::listing::{crew_lines, refusal_line, rule_lines};
use crate::plans::{crew, is_met, plan_by, plans, Plan, MOST_PLANS};
use crate::reader::read;
use crate::refusal::{Refusal, NO_PLAN};

/// How many plans a sheet may have for each of them to be printed.
pub const SHOWN: u128 = 1_000;

/// The plan at a place in plan order, from 0 on: its people are the digits of the place, the first step that remains has the
/// highest.
pub fn plan_at(job: &Job, place: u128) -> Plan {
    let people = job.people.len() as u128;
    let digit = |after: usize| place / people.pow(after as u32) % people;
    plan_by(job, (0..job.remaining().count()).rev().map(|after| digit(after) as usize))
}

/// What trying a plan shows.
#[derive(Clone, Copy, Debug, PartialEq, Eq)]
pub enum Verdict {
    /// The first step that its person is not permitted.
    Denied {
        step: usize,
    },
    /// The first rule that is not met, where all are permitted.
    Breaks {
        rule: usize,
    },
    Valid,
}

pub fn verdict(job: &Job, plan: &[Option<usize>]) -> Verdict {
    let is_denied = |step: usize| plan[step].is_some_and(|person| !job.people[person].may(step));
    if let Some(step) = (0..plan.len()).find(|&step| is_denied(step)) {
        return Verdict::Denied { step };
    }
    match job.rules.iter().position(|rule| !is_met(job, rule, plan)) {
        Some(rule) => Verdict::Breaks { rule },
        None => Verdict::Valid,
    }
}

/// The plans tried, up to the first valid one or to the last.
#[derive(Debug, PartialEq, Eq)]
pub struct Tried {
    pub plans: u128,
    pub crew: Option<Plan>,
}

/// "It goes through all plans in plan order and takes the first valid one." Nothing where that takes too many.
pub fn try_every(job: &Job) -> Option<Tried> {
    let all = plans(job);
    for place in 0..all.min(MOST_PLANS) {
        let plan = plan_at(job, place);
        if verdict(job, &plan) == Verdict::Valid {
            return Some(Tried { plans: place + 1, crew: Some(plan) });
        }
    }
    (all <= MOST_PLANS).then_some(Tried { plans: all, crew: None })
}

/// The person tags of a plan in the order of the steps, and what trying it has shown; rules are counted from 1.
fn trial_line(job: &Job, plan: &[Option<usize>]) -> String {
    let tags: String = crew(job, plan).iter().map(|(_, person)| format!(" {person}")).collect();
    let shown = match verdict(job, plan) {
        Verdict::Denied { step } => format!("DENIED {}", job.steps[step].tag),
        Verdict::Breaks { rule } => format!("BREAKS {}", rule + 1),
        Verdict::Valid => "VALID".to_string(),
    };
    format!("TRY{tags} {shown}\n")
}

fn text(job: &Job, tried: &Tried) -> String {
    let shown = if plans(job) <= SHOWN { tried.plans } else { 0 };
    let trials: String = (0..shown).map(|place| trial_line(job, &plan_at(job, place))).collect();
    let end = match &tried.crew {
        Some(plan) => crew_lines(job, plan) + &rule_lines(job, plan),
        None => refusal_line(Refusal { number: NO_PLAN, card: 0 }),
    };
    format!("TRIED {}\n{trials}{end}", tried.plans)
}

/// The whole listing; nothing where too many plans would have to be tried.
pub fn listing(sheet: &[u8]) -> Option<String> {
    match read(sheet) {
        Err(refusal) => Some(refusal_line(refusal)),
        Ok(job) => try_every(&job).map(|tried| text(&job, &tried)),
    }
}

#[cfg(test)]
mod tests {
    use super::*;
    use crate::builder::{job_w, lay, one_by_one, person, plain, plain_job, rule, sheet_w, skipping, w_and};
    use crate::job::{AT_LEAST, AT_MOST, BY_PERSON, DIFFERENT, MOST_PEOPLE, MOST_RULES, MOST_STEPS, SAME};
    use crate::jobs::small_job;
    use crate::plans::{first_plan, is_valid};
    use crate::random::Random;

    fn listed(job: &Job) -> String {
        listing(&lay(job).bytes).expect("few plans are tried")
    }

    /// At least so many people at work on all steps.
    fn at_work(least: u8, people: usize, steps: usize) -> Job {
        let all = (1 << steps) - 1;
        Job { rules: vec![rule(AT_LEAST, BY_PERSON, least, all)], ..plain_job(people, steps, 0) }
    }

    /// Nobody is permitted a step.
    fn idle(people: usize, steps: usize) -> Job {
        let mut job = plain_job(people, steps, 0);
        job.people.iter_mut().for_each(|person| person.permitted = 0);
        job
    }

    #[test]
    fn w_is_listed_as_the_program_has_it_stored() {
        assert_eq!(listing(&sheet_w().bytes).as_deref(), Some(include_str!("../../crates/by_trial/stdout")));
    }

    #[test]
    fn plans_come_in_plan_order_up_to_the_last() {
        let job = job_w();
        let found: Vec<Plan> = (0..plans(&job)).map(|place| plan_at(&job, place)).collect();
        let (mut sorted, last) = (found.clone(), [Some(3); 3]);
        sorted.sort();
        sorted.dedup();
        assert_eq!((found.len(), found.last().map(Vec::as_slice)), (64, Some(&last[..])));
        assert_eq!(found, sorted);
    }

    #[test]
    fn the_first_valid_plan_is_the_one_of_the_brute_force() {
        let mut random = Random::new(9);
        for _ in 0..500 {
            let job = small_job(&mut random);
            let tried = try_every(&job).expect("a small job");
            assert_eq!(tried.crew, first_plan(&job, &[]));
            // None before the last tried is valid.
            assert!((0..tried.plans - 1).all(|place| !is_valid(&job, &plan_at(&job, place))));
            assert!(tried.crew.is_some() || tried.plans == plans(&job));
        }
    }

    #[test]
    fn the_first_denied_step_comes_before_the_first_broken_rule() {
        let mut job = plain_job(2, 3, 0);
        job.rules = vec![rule(AT_MOST, BY_PERSON, 3, 7), rule(SAME, BY_PERSON, 0, 3), rule(DIFFERENT, BY_PERSON, 0, 6)];
        job.people[1] = person(7, 1, 2, 0b001);
        for (plan, shown) in [
            ([1, 1, 1], Verdict::Denied { step: 1 }),
            ([0, 0, 1], Verdict::Denied { step: 2 }),
            ([1, 0, 0], Verdict::Breaks { rule: 1 }),
            ([0, 0, 0], Verdict::Breaks { rule: 2 }),
        ] {
            assert_eq!(verdict(&job, &plan_by(&job, plan)), shown, "{plan:?}");
        }
        job.rules.pop();
        assert_eq!(verdict(&job, &[Some(0); 3]), Verdict::Valid);
        let lines =
            "TRIED 1\nTRY 1001 1001 1001 VALID\nPLAN 3\n2001 1001\n2002 1001\n2003 1001\nRULE 3 3 3 1\nRULE 1 3 0 1\n";
        assert_eq!(listed(&job), lines);
    }

    #[test]
    fn the_steps_that_remain_are_tried() {
        let job = skipping(job_w(), [0]);
        assert_eq!(plans(&job), 16);
        assert_eq!(plan_at(&job, 7), [None, Some(1), Some(3)]);
        let trials = "TRIED 2\nTRY 101 101 BREAKS 3\nTRY 101 102 VALID\n";
        let rules = "RULE 1 2 0 1\nRULE 1 1 0 1\nRULE 2 3 0 2\n";
        assert_eq!(listed(&job), format!("{trials}PLAN 2\n20 101\n30 102\n{rules}"));
        // Only the skipped step is permitted.
        let mut idle = skipping(plain_job(1, 2, 0), [0]);
        idle.people[0].permitted = 0b01;
        assert_eq!(listed(&idle), "TRIED 1\nTRY 1001 DENIED 2002\nREFUSED 13 CARD 0\n");
    }

    #[test]
    fn with_all_steps_skipped_the_empty_plan_is_tried() {
        let rules = "RULE 1 2 0 0\nRULE 1 1 0 0\nRULE 2 3 0 0\n";
        assert_eq!(listed(&skipping(job_w(), 0..3)), format!("TRIED 1\nTRY VALID\nPLAN 0\n{rules}"));
        let large = skipping(plain_job(MOST_PEOPLE, MOST_STEPS, 0), 0..MOST_STEPS);
        assert_eq!(listed(&large), "TRIED 1\nTRY VALID\nPLAN 0\n");
    }

    #[test]
    fn a_job_without_a_plan_has_all_its_trials_and_a_refusal() {
        assert_eq!(listing(&one_by_one(0).bytes).as_deref(), Some("TRIED 1\nTRY 1 DENIED 1\nREFUSED 13 CARD 0\n"));
        let lines = listing(&w_and(AT_MOST, BY_PERSON, 1, 7).bytes).expect("W is small");
        assert!(lines.starts_with("TRIED 64\nTRY 101 101 101 BREAKS 3\nTRY 101 101 102 BREAKS 4\n"));
        assert!(lines.ends_with("\nTRY 104 104 104 DENIED 10\nREFUSED 13 CARD 0\n"));
        assert_eq!(lines.lines().count(), 1 + 64 + 1);
    }

    #[test]
    fn trials_are_printed_up_to_1000_plans() {
        // 1,024 is the next number of plans that there is.
        let (most, more) = (at_work(3, 10, 3), at_work(4, 4, 5));
        assert_eq!((plans(&most), plans(&more)), (1_000, 1_024));
        let (most, more) = (listed(&most), listed(&more));
        let trials = |lines: &str| lines.lines().filter(|line| line.starts_with("TRY")).count();
        assert!(most.starts_with("TRIED 13\nTRY 1001 1001 1001 BREAKS 1\n"));
        assert!(most.contains("\nTRY 1001 1002 1003 VALID\nPLAN 3\n"));
        // 00123 in base four is 27.
        assert!(more.starts_with("TRIED 28\nPLAN 5\n"));
        assert_eq!((trials(&most), trials(&more)), (13, 0));
    }

    #[test]
    fn a_job_without_a_plan_is_told_up_to_as_many_plans_as_may_be_tried() {
        assert_eq!(try_every(&idle(10, 5)), Some(Tried { plans: MOST_PLANS, crew: None }));
        assert_eq!(try_every(&idle(47, 3)), None);
    }

    #[test]
    fn a_refused_sheet_has_its_one_line() {
        assert_eq!(listing(&sheet_w().byte(6, 15, 1).bytes).as_deref(), Some("REFUSED 8 CARD 6\n"));
        assert_eq!(listing(&[]).as_deref(), Some("REFUSED 3 CARD 0\n"));
    }

    #[test]
    fn a_large_job_is_listed_where_a_plan_comes_soon() {
        let full = listed(&plain_job(MOST_PEOPLE, MOST_STEPS, MOST_RULES));
        assert!(full.starts_with("TRIED 1\nPLAN 12\n"));
        assert_eq!(full.lines().count(), 2 + MOST_STEPS + MOST_RULES);
        assert_eq!(listing(&plain(MOST_PEOPLE, MOST_STEPS, 0).word(1, 12, 0).bytes), None);
    }
}
