//! The stored listings: what a program prints for each of some sheets, under the sheet's name.

use crate::by_hand;
use crate::trials::papers;
use model::builder::{last_alone, lay, plain_job, rule, skipping};
use model::job::{Job, Rule, AT_LEAST, AT_MOST, BY_PERSON, BY_SHOP, DIFFERENT, MOST_PEOPLE, MOST_RULES, MOST_STEPS};

/// A file of listings, who gives them, and the sheets with their names.
pub struct Stored {
    pub file: &'static str,
    pub listing: fn(&[u8]) -> Option<String>,
    pub sheets: fn() -> Vec<Named>,
}

pub type Named = (String, Vec<u8>);

/// The planning program on the paper's sheets, and on sheets with skipped steps, with other levels and with rules of kind 5.
pub const PLANNER: Stored = Stored { file: "tests/listings.txt", listing: model::listing::listing, sheets: to_plan };

/// The program that tries every plan on the paper's sheets, which have few, on sheets with more, with skipped steps, with other
/// levels and with rules of kind 5.
pub const BY_TRIAL: Stored = Stored { file: "tests/by_trial.txt", listing: model::trial::listing, sheets: to_try };

impl Stored {
    /// The whole file: for each sheet its name, its listing and an empty line.
    pub fn text(&self) -> String {
        let block = |(name, sheet): &Named| {
            let lines = (self.listing)(sheet).expect("the model knows the listing");
            format!("{name}:\n{lines}\n")
        };
        (self.sheets)().iter().map(block).collect()
    }
}

fn of_papers() -> Vec<Named> {
    papers::trials().into_iter().map(|trial| (trial.name, trial.sheet)).collect()
}

fn by_hand() -> impl Iterator<Item = Named> {
    by_hand::all().into_iter().map(|sheet| named(&sheet.name, &sheet.job))
}

fn to_plan() -> Vec<Named> {
    let mut sheets = of_papers();
    sheets.extend(by_hand());
    sheets
}

fn to_try() -> Vec<Named> {
    let mut sheets = of_papers();
    sheets.extend(by_plans());
    sheets.extend(by_size());
    sheets.extend(by_hand());
    sheets.extend(by_plans_left());
    sheets
}

fn named(name: &str, job: &Job) -> Named {
    (name.to_string(), lay(job).bytes)
}

/// A plain job with these rules.
fn ruled(people: usize, steps: usize, rules: Vec<Rule>) -> Job {
    Job { rules, ..plain_job(people, steps, 0) }
}

/// Sheets by how many plans they have: as many as are printed, the next number of them, and more than two bytes can count.
fn by_plans() -> [Named; 5] {
    let at_work =
        |people, steps, level, least| ruled(people, steps, vec![rule(AT_LEAST, level, least, (1 << steps) - 1)]);
    [
        named("1,000 plans, ten people, three of them at work", &at_work(10, 3, BY_PERSON, 3)),
        named("1,024 plans, four people, all of them at work", &at_work(4, 5, BY_PERSON, 4)),
        named("3,125 plans, a shop of five, all of them at work", &at_work(5, 5, BY_PERSON, 5)),
        named("3,125 plans, a shop of five, two shops at work", &at_work(5, 5, BY_SHOP, 2)),
        named("78,125 plans, a shop of five, two shops at work", &at_work(5, 7, BY_SHOP, 2)),
    ]
}

/// Sheets with as many people, steps or rules as there may be, on which the last of them matters.
fn by_size() -> [Named; 6] {
    let last_barred = |people, steps: usize| {
        let mut job = plain_job(people, steps, 0);
        job.people.iter_mut().for_each(|person| person.permitted ^= 1 << (steps - 1));
        job
    };
    let last_two = rule(DIFFERENT, BY_PERSON, 0, 3 << (MOST_STEPS - 2));
    let mut rules = vec![rule(AT_MOST, BY_PERSON, 2, 3); MOST_RULES - 1];
    rules.push(rule(DIFFERENT, BY_PERSON, 0, 3));
    [
        named("64 people, two steps, the last person alone permitted", &last_alone(MOST_PEOPLE, 2)),
        named("64 people, two steps, nobody permitted the last", &last_barred(MOST_PEOPLE, 2)),
        named("two people, 12 steps, nobody permitted the last", &last_barred(2, MOST_STEPS)),
        named("two people, 12 steps, the last two by different people", &ruled(2, MOST_STEPS, vec![last_two])),
        named("two people, two steps, 64 rules, the last alone not always met", &ruled(2, 2, rules)),
        named("64 people, 12 steps, 64 rules", &plain_job(MOST_PEOPLE, MOST_STEPS, MOST_RULES)),
    ]
}

/// Sheets by how many plans they have over the steps that remain: as many as are printed, and the next number of them.
fn by_plans_left() -> [Named; 2] {
    let at_work = |people, left: usize, least| {
        let job = ruled(people, MOST_STEPS, vec![rule(AT_LEAST, BY_PERSON, least, (1 << MOST_STEPS) - 1)]);
        skipping(job, left..MOST_STEPS)
    };
    [
        named("1,000 plans, ten people, three of 12 steps left", &at_work(10, 3, MOST_STEPS as u8)),
        named("1,024 plans, four people, five of 12 steps left", &at_work(4, 5, 4)),
    ]
}

/// The listing under a name of the file.
pub fn under<'a>(file: &'a str, name: &str) -> Option<&'a str> {
    let heading = format!("{name}:\n");
    file.split_inclusive("\n\n").find_map(|block| block.strip_prefix(&heading)?.strip_suffix('\n'))
}

#[cfg(test)]
mod tests {
    use super::*;
    use model::builder::sheet_w;

    #[test]
    fn each_listing_is_found_under_its_whole_name() {
        for stored in [PLANNER, BY_TRIAL] {
            let file = stored.text();
            for (name, sheet) in (stored.sheets)() {
                assert_eq!(under(&file, &name), (stored.listing)(&sheet).as_deref(), "{name}");
            }
            assert_eq!(under(&file, "sheet 1"), None);
            assert_eq!(under(&file, "PLAN 3"), None);
        }
    }

    #[test]
    fn the_starred_sheets_have_the_counts_that_were_worked_out_by_hand() {
        let w = ["RULE 1 2 0 1", "RULE 1 1 0 1", "RULE 2 3 0 2"];
        let stated: [(&str, &[&str]); 10] = [
            ("sheet 1, W", &w),
            ("sheet 1, W with its cards backwards", &w),
            ("sheet 1, W with its cards mixed", &w),
            ("sheet 3, W with 103 permitted nothing", &w),
            ("sheet 4, W and a rule 2,1,0,6", &["REFUSED 13 CARD 0"]),
            ("sheet 5, W and a rule 4,3,3,7", &[w[0], w[1], w[2], "RULE 4 3 3 3"]),
            ("sheet 6, W and a rule 3,3,1,7", &["REFUSED 13 CARD 0"]),
            ("sheet 7, one person, one step, permitted", &["AWAY 1"]),
            ("sheet 8, one person, one step, not permitted", &["REFUSED 13 CARD 0"]),
            ("sheet 9, W without its last rule", &w[..2]),
        ];
        let file = PLANNER.text();
        for (name, last) in stated {
            let lines: Vec<&str> = under(&file, name).expect("a starred sheet").lines().collect();
            assert!(lines.ends_with(last), "{name}");
            assert_eq!(rule_lines(&lines), rule_lines(last), "{name}");
        }
    }

    #[test]
    fn sheets_that_were_worked_out_by_hand_are_listed_so() {
        let file = PLANNER.text();
        for sheet in by_hand::all() {
            let Some(planned) = sheet.planned else {
                assert_eq!(under(&file, &sheet.name), Some("REFUSED 13 CARD 0\n"), "{}", sheet.name);
                continue;
            };
            let mut lines = format!("PLAN {}\n", sheet.remaining);
            lines.extend(planned.crew.iter().map(|(step, person)| format!("{step} {person}\n")));
            lines += &format!("SPARE {} OF 2\n", planned.count);
            if planned.count < 2 {
                let away: String = planned.away.iter().map(|tag| format!(" {tag}")).collect();
                lines += &format!("AWAY{away}\n");
            }
            for (Rule { kind, level, limit, .. }, figure) in sheet.job.rules.iter().zip(planned.figures) {
                lines += &format!("RULE {kind} {level} {limit} {figure}\n");
            }
            assert_eq!(under(&file, &sheet.name), Some(lines.as_str()), "{}", sheet.name);
        }
    }

    fn rule_lines(lines: &[&str]) -> usize {
        lines.iter().filter(|line| line.starts_with("RULE")).count()
    }

    #[test]
    fn trials_are_those_that_were_worked_out_by_hand() {
        // The first lines, and how many TRY lines there are.
        let stated: [(&str, &[&str], usize); 25] = [
            ("sheet 1, W", &["TRIED 2", "TRY 101 101 101 BREAKS 3", "TRY 101 101 102 VALID"], 2),
            (
                "sheet 4, W and a rule 2,1,0,6",
                &["TRIED 64", "TRY 101 101 101 BREAKS 3", "TRY 101 101 102 BREAKS 4"],
                64,
            ),
            ("sheet 5, W and a rule 4,3,3,7", &["TRIED 7", "TRY 101 101 101 BREAKS 3", "TRY 101 101 102 BREAKS 4"], 7),
            ("sheet 7, one person, one step, permitted", &["TRIED 1", "TRY 1 VALID", "PLAN 1"], 1),
            ("sheet 8, one person, one step, not permitted", &["TRIED 1", "TRY 1 DENIED 1", "REFUSED 13 CARD 0"], 1),
            ("sheet 9, W without its last rule", &["TRIED 1", "TRY 101 101 101 VALID", "PLAN 3"], 1),
            ("1,000 plans, ten people, three of them at work", &["TRIED 13", "TRY 1001 1001 1001 BREAKS 1"], 13),
            // 00123 in base four is 27.
            ("1,024 plans, four people, all of them at work", &["TRIED 28", "PLAN 5"], 0),
            // 01234 in base five is 194.
            ("3,125 plans, a shop of five, all of them at work", &["TRIED 195", "PLAN 5"], 0),
            (
                "64 people, two steps, the last person alone permitted",
                &["TRIED 4096", "PLAN 2", "2001 1064", "2002 1064"],
                0,
            ),
            ("two people, 12 steps, the last two by different people", &["TRIED 2", "PLAN 12"], 0),
            (
                "two people, two steps, 64 rules, the last alone not always met",
                &["TRIED 2", "TRY 1001 1001 BREAKS 64", "TRY 1001 1002 VALID", "PLAN 2"],
                2,
            ),
            ("64 people, 12 steps, 64 rules", &["TRIED 1", "PLAN 12"], 0),
            ("skipped, W, step 10", &["TRIED 2", "TRY 101 101 BREAKS 3", "TRY 101 102 VALID", "PLAN 2"], 2),
            ("skipped, W, steps 10 and 20", &["TRIED 1", "TRY 101 VALID", "PLAN 1", "30 101"], 1),
            ("skipped, W, all steps", &["TRIED 1", "TRY VALID", "PLAN 0", "RULE 1 2 0 0"], 1),
            ("skipped, W and 3,3,1,7, step 10", &["TRIED 16", "TRY 101 101 BREAKS 3", "TRY 101 102 BREAKS 4"], 16),
            (
                "skipped, rule 4,3,3,7 left with two",
                &["TRIED 16", "TRY 101 101 101 DENIED 20", "TRY 101 101 102 DENIED 20"],
                16,
            ),
            ("skipped, a full sheet, all steps", &["TRIED 1", "TRY VALID", "PLAN 0", "RULE 3 3 2 0"], 1),
            ("skipped, all of 12 steps but the last", &["TRIED 1", "TRY 1001 VALID", "PLAN 1", "2012 1001"], 1),
            ("1,000 plans, ten people, three of 12 steps left", &["TRIED 13", "TRY 1001 1001 1001 BREAKS 1"], 13),
            ("1,024 plans, four people, five of 12 steps left", &["TRIED 28", "PLAN 5"], 0),
            (
                "loads, W and 5,2,2,7",
                &["TRIED 3", "TRY 101 101 101 BREAKS 3", "TRY 101 101 102 BREAKS 4", "TRY 101 101 103 VALID"],
                3,
            ),
            // 0022 in base four is 10.
            ("loads, two a bench", &["TRIED 11", "TRY 101 101 101 101 BREAKS 1", "TRY 101 101 101 102 BREAKS 1"], 11),
            // 000000111111 in base two is 63.
            ("loads, six of 12 steps a bench", &["TRIED 64", "PLAN 12"], 0),
        ];
        let file = BY_TRIAL.text();
        for (name, first, trials) in stated {
            let lines: Vec<&str> = under(&file, name).expect("a stored sheet").lines().collect();
            assert!(lines.starts_with(first), "{name}");
            assert_eq!(lines.iter().filter(|line| line.starts_with("TRY")).count(), trials, "{name}");
        }
        for (name, plans) in [
            ("3,125 plans, a shop of five, two shops at work", 3_125),
            ("78,125 plans, a shop of five, two shops at work", 78_125),
            ("64 people, two steps, nobody permitted the last", 4_096),
            ("two people, 12 steps, nobody permitted the last", 4_096),
            ("loads, five of 12 steps a bench", 4_096),
        ] {
            let lines = format!("TRIED {plans}\nREFUSED 13 CARD 0\n");
            assert_eq!(under(&file, name), Some(lines.as_str()), "{name}");
        }
    }

    #[test]
    fn the_readme_shows_w_as_it_is_listed() {
        for Stored { listing, .. } in [PLANNER, BY_TRIAL] {
            let shown = format!("\n{}", listing(&sheet_w().bytes).expect("W is small"));
            // No line of its own comes after the last: an empty one does, or the end of the block.
            let mut after = include_str!("../../README.md").split(&shown).skip(1);
            assert!(after.any(|rest| rest.starts_with('\n') || rest.starts_with("```")), "{shown}");
        }
    }
}
