//! What a listing shows. A run in which one of these was never met has failed.

use crate::kinds::{lines, of_plan, refusal, PLAN, RULES, SKIPPED};
use model::card::{CARD, STEP};
use model::job::{Form, Job, Rule, AT_LEAST, AT_MOST, DIFFERENT, MAX_LOAD, SAME};
use model::listing::CAP;
use model::reader::read;
use model::refusal::{BAD_FIELD, BAD_LENGTH, NO_PLAN};
use sheet_tests::forms::can_refuse;
use sheet_tests::skipped::skips_some;
use std::cmp::Ordering::{self, Equal, Greater, Less};

/// A right listing, however it was judged, that a program without its last RULE line cannot print.
const RULE_LAST: &str = "a RULE line last";

/// Where the figure of a rule that is met may stand to its limit, which is 0 for kinds 1 and 2.
const FIGURES: [(u8, &[Ordering]); 5] = [
    (SAME, &[Greater]),
    (DIFFERENT, &[Greater]),
    (AT_MOST, &[Less, Equal]),
    (AT_LEAST, &[Equal, Greater]),
    (MAX_LOAD, &[Less, Equal]),
];

/// The same of a rule that has lost steps and is left with two or more: an at-least limit may have become smaller.
const FIGURES_LEFT: [(u8, &[Ordering]); 3] =
    [(AT_MOST, &[Less, Equal]), (AT_LEAST, &[Less, Equal, Greater]), (MAX_LOAD, &[Less, Equal])];

const NO_PLAN_SKIPPED: &str = "refusal 13, some steps skipped";
const BAD_MARK: &str = "refusal  8, a step that is neither skipped nor not";

fn large(shown: &str) -> String {
    format!("too large for the brute force, {shown}")
}

fn spare(count: usize) -> String {
    format!("SPARE {count} OF {CAP}")
}

fn rule(kind: u8, level: u8, figure: Ordering) -> String {
    let place = match figure {
        Less => "below",
        Equal => "at",
        Greater => "above",
    };
    format!("RULE {kind} {level}, the figure {place} the limit")
}

/// Of a rule that has lost steps.
fn rule_left(kind: u8, level: u8, left: usize, figure: Ordering) -> String {
    match left {
        0 => format!("RULE {kind} {level}, left with no step"),
        1 => format!("RULE {kind} {level}, left with one step"),
        _ => format!("{}, left with fewer steps", rule(kind, level, figure)),
    }
}

/// Every kind on sheets of a form but the plan, which is wanted more than once.
pub fn all(form: Form) -> Vec<String> {
    let mut kinds = RULES.map(String::from).to_vec();
    kinds.extend(SKIPPED.map(String::from));
    kinds.extend([NO_PLAN_SKIPPED, BAD_MARK].map(String::from));
    kinds.push(large(PLAN));
    kinds.extend((BAD_LENGTH..=NO_PLAN).filter(|&number| can_refuse(form, number)).map(refusal));
    kinds.extend((0..=CAP).map(spare));
    for level in 1..=form.person_level() {
        for (kind, figures) in FIGURES {
            kinds.extend(figures.iter().map(|&figure| rule(kind, level, figure)));
            kinds.extend([0, 1].map(|left| rule_left(kind, level, left, Equal)));
        }
        for (kind, figures) in FIGURES_LEFT {
            kinds.extend(figures.iter().map(|&figure| rule_left(kind, level, 2, figure)));
        }
    }
    kinds
}

/// The figures of a line, without its words.
fn figures(line: &str) -> Vec<u32> {
    line.split(' ').filter_map(|field| field.parse().ok()).collect()
}

fn of_rule(job: &Job, held: &Rule, line: &str) -> String {
    let figures = figures(line);
    let (kind, level, figure) = (figures[0] as u8, figures[1] as u8, figures[3].cmp(&figures[2]));
    match job.left(held.scope).count() {
        left if left == held.scope.count_ones() as usize => rule(kind, level, figure),
        left => rule_left(kind, level, left, figure),
    }
}

fn of_refusal(sheet: &[u8], number: u32, card: usize) -> Vec<String> {
    let more = match number {
        NO_PLAN => read(sheet).is_ok_and(|job| skips_some(&job)).then_some(NO_PLAN_SKIPPED),
        BAD_FIELD => {
            let held = &sheet[card * CARD..];
            (held[0] == STEP && held[1] > 1).then_some(BAD_MARK)
        }
        _ => None,
    };
    [refusal(number)].into_iter().chain(more.map(String::from)).collect()
}

/// The kinds of a listing that is the model's.
pub fn of(sheet: &[u8], listing: &str) -> Vec<String> {
    if let Some(line) = lines(listing, "REFUSED").next() {
        let figures = figures(line);
        return of_refusal(sheet, figures[0], figures[1] as usize);
    }
    let job = read(sheet).expect("the sheet was planned");
    let mut kinds = of_plan(&job, listing);
    kinds.extend(lines(listing, "SPARE").map(String::from));
    kinds.extend(job.rules.iter().zip(lines(listing, "RULE")).map(|(held, line)| of_rule(&job, held, line)));
    kinds
}

/// The kind of a right listing that ends in a rule.
pub fn of_end(listing: &str) -> Option<String> {
    listing.lines().last().filter(|line| line.starts_with("RULE")).map(|_| RULE_LAST.to_string())
}

/// Of a listing with the program's own crew only the first kind counts.
pub fn of_large(sheet: &[u8], listing: &str) -> Vec<String> {
    of(sheet, listing).iter().take(1).map(|kind| large(kind)).collect()
}

#[cfg(test)]
mod tests {
    use super::*;
    use model::builder::{one_by_one, plain, sheet_w, w_and, Draft};
    use model::listing::listing;
    use std::collections::BTreeSet;

    fn listed(sheet: &Draft) -> String {
        listing(&sheet.bytes).expect("a small job")
    }

    fn kinds(sheet: Draft) -> Vec<String> {
        of(&sheet.bytes, &listed(&sheet))
    }

    #[test]
    fn a_listing_has_the_kinds_of_its_lines() {
        let w = [
            "a plan",
            "SPARE 1 OF 2",
            "RULE 1 2, the figure above the limit",
            "RULE 1 1, the figure above the limit",
            "RULE 2 3, the figure above the limit",
        ];
        assert_eq!(kinds(sheet_w()), w);
        assert_eq!(kinds(w_and(4, 3, 3, 7)).last().unwrap(), "RULE 4 3, the figure at the limit");
        assert_eq!(kinds(w_and(3, 1, 2, 3)).last().unwrap(), "RULE 3 1, the figure below the limit");
        assert_eq!(kinds(w_and(5, 2, 2, 7)).last().unwrap(), "RULE 5 2, the figure at the limit");
        assert_eq!(kinds(w_and(5, 3, 3, 7)).last().unwrap(), "RULE 5 3, the figure below the limit");
        assert_eq!(kinds(w_and(5, 1, 2, 7)), ["refusal 13"]);
        assert_eq!(kinds(one_by_one(1)), ["a plan", "a plan, no RULE line", "SPARE 0 OF 2"]);
        assert_eq!(kinds(plain(1, 2, 64))[..3], ["a plan", "a plan, 64 RULE lines", "SPARE 0 OF 2"]);
        assert_eq!(kinds(plain(1, 2, 65)), ["refusal  9"]);
        assert_eq!(kinds(w_and(3, 3, 1, 7)), ["refusal 13"]);
    }

    #[test]
    fn skipped_steps_have_kinds_of_their_own() {
        let some = [
            "a plan",
            "a plan, some steps skipped",
            "SPARE 1 OF 2",
            "RULE 1 2, left with one step",
            "RULE 1 1, the figure above the limit",
            "RULE 2 3, the figure above the limit",
            "RULE 4 3, the figure below the limit, left with fewer steps",
        ];
        assert_eq!(kinds(w_and(4, 3, 3, 7).skip(5)), some);
        let load = kinds(w_and(5, 1, 2, 7).skip(5));
        assert_eq!(load.last().unwrap(), "RULE 5 1, the figure at the limit, left with fewer steps");
        let all = kinds(w_and(4, 3, 3, 7).skip(5).skip(6).skip(7));
        assert_eq!(all[..3], ["a plan", "a plan, all steps skipped", "SPARE 2 OF 2"]);
        assert_eq!(all[3..].last().unwrap(), "RULE 4 3, left with no step");
        assert_eq!(kinds(one_by_one(1).skip(2))[3], "a plan, all steps skipped, one person");
        assert_eq!(kinds(w_and(3, 3, 1, 7).skip(5)), ["refusal 13", NO_PLAN_SKIPPED]);
        assert_eq!(kinds(sheet_w().byte(6, 1, 2)), ["refusal  8", BAD_MARK]);
        assert_eq!(kinds(sheet_w().byte(6, 15, 2)), ["refusal  8"]);
    }

    #[test]
    fn a_large_listing_shows_none_of_the_others() {
        let w = sheet_w();
        assert_eq!(of_large(&w.bytes, &listed(&w)), ["too large for the brute force, a plan"]);
        assert_eq!(of_large(&w.bytes, "REFUSED 13 CARD 0\n"), ["too large for the brute force, refusal 13"]);
    }

    #[test]
    fn a_listing_ends_in_a_rule_where_its_job_has_one_and_a_plan() {
        assert_eq!(of_end(&listed(&sheet_w())).as_deref(), Some("a RULE line last"));
        assert_eq!(of_end(&listed(&one_by_one(1))), None);
        assert_eq!(of_end(&listed(&w_and(3, 3, 1, 7))), None);
        assert_eq!(of_end(""), None);
    }

    #[test]
    fn every_kind_of_rule_is_wanted_at_every_level() {
        for (form, levels) in Form::ALL.into_iter().zip([3, 2, 3, 4]) {
            let wanted: BTreeSet<String> = all(form).into_iter().collect();
            let pairs: BTreeSet<&str> = wanted.iter().filter_map(|kind| kind.strip_prefix("RULE ")?.get(..3)).collect();
            let expected = (1..=5).flat_map(|kind| (1..=levels).map(move |level| format!("{kind} {level}")));
            assert_eq!(pairs, expected.collect::<Vec<_>>().iter().map(String::as_str).collect(), "{form}");
        }
    }

    #[test]
    fn what_is_wanted_is_what_listings_show() {
        let wanted = all(Form::First);
        let skipped = [w_and(4, 3, 3, 7).skip(5), one_by_one(1).skip(2), sheet_w().byte(6, 1, 2)];
        let sheets = [sheet_w(), w_and(4, 3, 3, 7), w_and(3, 1, 2, 3), one_by_one(0), one_by_one(1), plain(1, 2, 64)];
        let loads = [w_and(5, 2, 2, 7), w_and(5, 3, 3, 7), w_and(5, 1, 2, 7).skip(5), w_and(5, 1, 3, 7).skip(5)];
        for sheet in sheets.into_iter().chain(skipped).chain(loads) {
            let shown = kinds(sheet);
            assert!(shown.iter().filter(|kind| *kind != PLAN).all(|kind| wanted.contains(kind)), "{shown:?}");
        }
    }
}
