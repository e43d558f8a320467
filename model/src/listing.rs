//! What the planning program prints for a sheet: its crew, its spare count and the figure of each rule, or a refusal.

use crate::job::{Job, Rule};
use crate::plans::{crew, figure, first_plan, is_small, spare, Spare};
use crate::reader::read;
use crate::refusal::{refuse, Refusal, NO_PLAN};

/// The cap with which the program asks for the spare count.
pub const CAP: usize = 2;

/// "Line one: number of steps. Then step tag and person tag." Both cover the steps that remain.
pub fn crew_lines(job: &Job, plan: &[Option<usize>]) -> String {
    let crew = crew(job, plan);
    let given: String = crew.iter().map(|(step, person)| format!("{step} {person}\n")).collect();
    format!("PLAN {}\n{given}", crew.len())
}

/// "Then the count and the cap. AWAY stands only when the count is below the cap."
fn spare_lines(job: &Job, spare: &Spare) -> String {
    let counted = format!("SPARE {} OF {CAP}\n", spare.count);
    if spare.count == CAP {
        return counted;
    }
    let tags: String = spare.away.iter().map(|&person| format!(" {}", job.people[person].tag)).collect();
    format!("{counted}AWAY{tags}\n")
}

/// "A line for each rule, in chain order: `RULE`, its kind, level, limit and count", the limit "as the card has" it; of kind 5
/// "the RULE figure is the largest number held by one class".
pub fn rule_lines(job: &Job, plan: &[Option<usize>]) -> String {
    let line = |rule: &Rule| {
        let Rule { kind, level, limit, .. } = rule;
        format!("RULE {kind} {level} {limit} {}\n", figure(job, rule, plan))
    };
    job.rules.iter().map(line).collect()
}

/// "A refusal prints one line."
pub fn refusal_line(refusal: Refusal) -> String {
    format!("{refusal}\n")
}

/// All lines for a job with this crew and this spare count.
pub fn text(job: &Job, plan: &[Option<usize>], spare: &Spare) -> String {
    crew_lines(job, plan) + &spare_lines(job, spare) + &rule_lines(job, plan)
}

fn planned(job: &Job) -> Result<String, Refusal> {
    match (first_plan(job, &[]), spare(job, CAP)) {
        (Some(plan), Some(spare)) => Ok(text(job, &plan, &spare)),
        _ => refuse(NO_PLAN, 0),
    }
}

/// The whole listing, "this and no more"; nothing where the job is too large to try every plan.
pub fn listing(sheet: &[u8]) -> Option<String> {
    let lines = match read(sheet) {
        Ok(job) if !is_small(&job) => return None,
        Ok(job) => planned(&job),
        Err(refusal) => Err(refusal),
    };
    Some(lines.unwrap_or_else(refusal_line))
}

#[cfg(test)]
mod tests {
    use super::*;
    use crate::builder::{job_w, lay, one_by_one, person, plain, plain_job, rule, sheet_w, skipping, w_and};
    use crate::job::{AT_LEAST, AT_MOST, BY_BENCH, BY_PERSON, BY_SHOP, MAX_LOAD, MOST_RULES};

    fn listed(job: &Job) -> String {
        listing(&lay(job).bytes).expect("a small job")
    }

    /// The figures of the RULE lines, one after the other.
    fn rules(job: &Job) -> Vec<String> {
        listed(job).lines().filter_map(|line| line.strip_prefix("RULE ")).map(String::from).collect()
    }

    #[test]
    fn w_is_listed_as_the_papers_print_it() {
        let lines = [
            "PLAN 3",
            "10 101",
            "20 101",
            "30 102",
            "SPARE 1 OF 2",
            "AWAY 101 102",
            "RULE 1 2 0 1",
            "RULE 1 1 0 1",
            "RULE 2 3 0 2",
        ];
        assert_eq!(listing(&sheet_w().bytes), Some(lines.map(|line| format!("{line}\n")).concat()));
    }

    #[test]
    fn a_job_without_rules_has_no_line_for_them() {
        let expected = "PLAN 1\n1 1\nSPARE 0 OF 2\nAWAY 1\n";
        assert_eq!(listing(&one_by_one(1).bytes), Some(expected.to_string()));
    }

    #[test]
    fn nobody_is_away_where_the_count_is_the_cap() {
        assert_eq!(listed(&plain_job(3, 1, 0)), "PLAN 1\n2001 1001\nSPARE 2 OF 2\n");
    }

    #[test]
    fn a_refused_sheet_has_its_one_line() {
        assert_eq!(listing(&sheet_w().byte(6, 15, 1).bytes), Some("REFUSED 8 CARD 6\n".to_string()));
        assert_eq!(listing(&plain(64, 13, 0).bytes), Some("REFUSED 9 CARD 77\n".to_string()));
        assert_eq!(listing(&[]), Some("REFUSED 3 CARD 0\n".to_string()));
    }

    #[test]
    fn a_job_without_a_plan_has_its_one_line() {
        assert_eq!(listing(&w_and(AT_MOST, BY_PERSON, 1, 7).bytes), Some("REFUSED 13 CARD 0\n".to_string()));
    }

    #[test]
    fn a_figure_is_the_crews_and_not_the_limit() {
        // Each step has one person: two share a bench, and the third sits in the same shop.
        let mut job = plain_job(3, 3, 0);
        job.people = vec![person(1, 1, 1, 1), person(2, 1, 1, 2), person(3, 1, 2, 4)];
        let levels = [BY_SHOP, BY_BENCH, BY_PERSON];
        job.rules = levels.map(|level| rule(AT_MOST, level, 3, 7)).into();
        assert_eq!(rules(&job), ["3 1 3 1", "3 2 3 2", "3 3 3 3"]);
        job.rules = levels.map(|level| rule(AT_LEAST, level, 1, 6)).into();
        assert_eq!(rules(&job), ["4 1 1 1", "4 2 1 2", "4 3 1 2"]);
        job.rules = levels.map(|level| rule(MAX_LOAD, level, 3, 7)).into();
        assert_eq!(rules(&job), ["5 1 3 3", "5 2 3 2", "5 3 3 1"]);
    }

    #[test]
    fn rules_stand_in_chain_order_up_to_the_last() {
        let figures = |k: usize| (1 + k as u8 % 3, 1 + k as u8 % 2);
        let mut job = job_w();
        job.rules = (0..MOST_RULES).map(figures).map(|(level, limit)| rule(AT_MOST, level, limit, 6)).collect();
        let expected = (0..MOST_RULES).map(figures).map(|(level, limit)| format!("3 {level} {limit} 1"));
        assert_eq!(rules(&job), expected.collect::<Vec<_>>());
    }

    #[test]
    fn the_steps_that_remain_are_listed_and_limits_as_the_cards_have_them() {
        let mut job = job_w();
        job.rules.extend([AT_LEAST, MAX_LOAD].map(|kind| rule(kind, BY_PERSON, 3, 7)));
        let crew = "PLAN 2\n20 101\n30 102\nSPARE 1 OF 2\nAWAY 101 102\n";
        let rules = "RULE 1 2 0 1\nRULE 1 1 0 1\nRULE 2 3 0 2\nRULE 4 3 3 2\nRULE 5 3 3 1\n";
        assert_eq!(listed(&skipping(job.clone(), [0])), format!("{crew}{rules}"));
        let crew = "PLAN 1\n10 101\nSPARE 1 OF 2\nAWAY 101 102\n";
        let rules = "RULE 1 2 0 1\nRULE 1 1 0 0\nRULE 2 3 0 0\nRULE 4 3 3 1\nRULE 5 3 3 1\n";
        assert_eq!(listed(&skipping(job, [1, 2])), format!("{crew}{rules}"));
    }

    #[test]
    fn with_all_steps_skipped_the_crew_is_empty() {
        let none = "PLAN 0\nSPARE 2 OF 2\n";
        assert_eq!(listed(&skipping(job_w(), 0..3)), format!("{none}RULE 1 2 0 0\nRULE 1 1 0 0\nRULE 2 3 0 0\n"));
        // Nobody is permitted the step, and there are fewer people than the cap.
        assert_eq!(listing(&one_by_one(0).skip(2).bytes).as_deref(), Some(none));
    }

    #[test]
    fn a_large_job_is_not_listed() {
        assert_eq!(listing(&plain(64, 12, 0).bytes), None);
    }
}
