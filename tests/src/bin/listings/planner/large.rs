//! Listings of jobs that are too large for the brute force. Crew and spare count are taken as they are printed: the crew has to
//! be a valid plan, and the whole listing that of this crew and this count.

use model::job::Job;
use model::listing::{text, CAP};
use model::plans::{is_valid, plan_by, Plan, Spare};
use model::reader::read;
use model::refusal::{Refusal, NO_PLAN};

/// The rest of the line that begins so.
fn after<'a>(printed: &'a str, beginning: &str) -> Option<&'a str> {
    printed.lines().find_map(|line| line.strip_prefix(beginning))
}

/// The place in crew order of a person with this tag.
fn place(job: &Job, tag: &str) -> Option<usize> {
    let tag: u32 = tag.parse().ok()?;
    job.people.iter().position(|person| person.tag == tag)
}

fn printed_plan(job: &Job, printed: &str) -> Option<Plan> {
    let steps = job.remaining().count();
    let given = printed.lines().skip(1).take(steps);
    let people: Vec<usize> = given.map(|line| place(job, line.split_once(' ')?.1)).collect::<Option<_>>()?;
    (people.len() == steps).then(|| plan_by(job, people))
}

fn printed_spare(job: &Job, printed: &str) -> Option<Spare> {
    let (count, _) = after(printed, "SPARE ")?.split_once(' ')?;
    let count: usize = count.parse().ok()?;
    let tags = after(printed, "AWAY ").unwrap_or("");
    let away: Vec<usize> = tags.split_terminator(' ').map(|tag| place(job, tag)).collect::<Option<_>>()?;
    let members = if count < CAP { count + 1 } else { 0 };
    (count <= CAP && away.len() == members).then_some(Spare { count, away })
}

/// What is wrong with the lines printed for a readable sheet, if anything. A refusal 13 is taken only where no plan is known
/// to exist.
pub fn fault(sheet: &[u8], planned: bool, printed: &str) -> Option<String> {
    let job = read(sheet).expect("a refused sheet is not large");
    if !planned && printed == format!("{}\n", Refusal { number: NO_PLAN, card: 0 }) {
        return None;
    }
    let (Some(plan), Some(spare)) = (printed_plan(&job, printed), printed_spare(&job, printed)) else {
        return Some(format!("no crew and spare count in {printed:?}"));
    };
    if !is_valid(&job, &plan) {
        return Some(format!("no valid plan in {printed:?}"));
    }
    let expected = text(&job, &plan, &spare);
    (printed != expected).then(|| format!("for this crew {expected:?}, program {printed:?}"))
}

#[cfg(test)]
mod tests {
    use super::*;
    use model::builder::sheet_w;
    use model::listing::listing;

    /// W judged as a large job, with parts of its listing changed.
    fn fault_of_w(changes: &[(&str, &str)]) -> Option<String> {
        let sheet = sheet_w().bytes;
        let mut printed = listing(&sheet).expect("W is small");
        for (part, instead) in changes {
            assert!(printed.contains(part), "{part:?}");
            printed = printed.replacen(part, instead, 1);
        }
        fault(&sheet, true, &printed)
    }

    #[test]
    fn another_crew_or_group_is_taken_with_its_own_counts() {
        assert_eq!(fault_of_w(&[]), None);
        assert_eq!(fault_of_w(&[("30 102", "30 103")]), None);
        assert_eq!(fault_of_w(&[("AWAY 101 102", "AWAY 101 103")]), None);
    }

    #[test]
    fn a_13_is_taken_only_where_no_plan_is_known() {
        assert_eq!(fault(&sheet_w().bytes, false, "REFUSED 13 CARD 0\n"), None);
        assert!(fault(&sheet_w().bytes, true, "REFUSED 13 CARD 0\n").is_some());
    }

    #[test]
    fn skipped_steps_are_left_out() {
        let sheet = sheet_w().skip(5).bytes;
        let printed = listing(&sheet).expect("W is small");
        assert_eq!(fault(&sheet, true, &printed), None);
        assert_eq!(fault(&sheet, true, &printed.replacen("30 102", "30 103", 1)), None);
        for (part, instead) in
            [("PLAN 2\n", "PLAN 3\n10 101\n"), ("20 101", "10 101"), ("RULE 1 2 0 1", "RULE 1 2 0 0")]
        {
            assert!(fault(&sheet, true, &printed.replacen(part, instead, 1)).is_some(), "{part}");
        }
    }

    #[test]
    fn a_crew_that_breaks_a_rule_is_found_though_its_counts_are_right() {
        assert!(fault_of_w(&[("30 102", "30 101"), ("RULE 2 3 0 2", "RULE 2 3 0 1")]).is_some());
    }

    #[test]
    fn a_wrong_line_is_found() {
        for change in [
            ("PLAN 3", "PLAN 2"),
            ("20 101", "20 101 "),
            ("20 101", "21 101"),
            ("30 102", "30 105"),
            ("1 OF 2", "0 OF 2"),
            ("1 OF 2", "2 OF 2"),
            ("SPARE 1 OF 2\nAWAY 101 102\n", "SPARE 3 OF 2\nAWAY\n"),
            ("AWAY 101 102\n", ""),
            ("AWAY 101 102\n", "AWAY 101 102 103\n"),
            ("RULE 1 2 0 1", "RULE 1 2 0 2"),
            ("RULE 1 1 0 1\n", ""),
            ("RULE 2 3 0 2\n", ""),
            ("RULE 2 3 0 2\n", "RULE 2 3 0 2"),
            ("RULE 2 3 0 2\n", "RULE 2 3 0 2\nRULE 2 3 0 2\n"),
        ] {
            assert!(fault_of_w(&[change]).is_some(), "{change:?}");
        }
        for printed in ["", "REFUSED 12 CARD 1\n", "SPARE 2 OF 2\n10 101\n"] {
            assert!(fault(&sheet_w().bytes, false, printed).is_some(), "{printed:?}");
        }
    }
}
