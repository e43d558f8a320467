//! What a listing shows. A run in which one of these was never met has failed.

use crate::kinds::{lines, of_plan, refusal, PLAN, RULES, SKIPPED};
use model::job::{Form, Job, LIMITED, MAX_LOAD, MOST_RULES, SAME};
use model::plans::plans;
use model::reader::read;
use model::refusal::{BAD_LENGTH, LOOSE_CARD};
use model::trial::{plan_at, verdict, Verdict, SHOWN};
use sheet_tests::forms::can_refuse;
use sheet_tests::skipped::skips_some;
use std::collections::BTreeSet;

/// The next number of plans that a sheet can have.
pub const NOT_SHOWN: u128 = 1_024;

const NONE_VALID: &str = "no plan";

/// A right listing that a program without its last TRY line cannot print.
const TRIALS: &str = "a TRY line";

const DENIED_FIRST: &str = "a TRY line, DENIED the first step";
const DENIED_LATER: &str = "a TRY line, DENIED a later step";
const DENIED_LAST: &str = "a TRY line, DENIED the last step";
const BREAKS_FIRST: &str = "a TRY line, BREAKS 1";
const BREAKS_LATER: &str = "a TRY line, BREAKS a later rule";
const BREAKS_LAST: &str = "a TRY line, BREAKS 64";
const VALID_FIRST: &str = "a TRY line, VALID at the first plan";
const VALID_LATER: &str = "a TRY line, VALID at a later plan";
const VALID_LAST: &str = "a TRY line, VALID at the last plan";
const CARRY: &str = "a TRY line after a carry over all steps but the first";

const LONG: &str = "TRIED more than two bytes can count";

const DENIED_BEHIND: &str = "a TRY line, DENIED a step behind a skipped one";
const NOBODY: &str = "a TRY line without people";
const NONE_VALID_SKIPPED: &str = "no plan, some steps skipped";

/// The end of a listing on a sheet that has just so many plans because steps are skipped.
const LEFT: &str = "some steps skipped";

fn breaks(kind: u8, level: u8) -> String {
    format!("a TRY line, BREAKS a rule of kind {kind} and level {level}")
}

/// Of a rule that has lost steps: kinds 1 and 2 are met then.
fn breaks_left(kind: u8) -> String {
    format!("a TRY line, BREAKS a rule of kind {kind} left with fewer steps")
}

fn just(plans: u128, end: &str) -> String {
    format!("{plans} plans, {end}")
}

/// Every kind on sheets of a form but the plan, which is wanted more than once, and the TRY line, whose kinds are wanted.
pub fn all(form: Form) -> Vec<String> {
    let mut kinds = RULES.map(String::from).to_vec();
    kinds.extend([DENIED_FIRST, DENIED_LATER, DENIED_LAST].map(String::from));
    kinds.extend([BREAKS_FIRST, BREAKS_LATER, BREAKS_LAST].map(String::from));
    kinds.extend([VALID_FIRST, VALID_LATER, VALID_LAST].map(String::from));
    kinds.extend([NONE_VALID, CARRY, LONG].map(String::from));
    kinds.extend(SKIPPED.map(String::from));
    kinds.extend([DENIED_BEHIND, NOBODY, NONE_VALID_SKIPPED].map(String::from));
    kinds.extend(LIMITED.map(breaks_left));
    let levels = 1..=form.person_level();
    kinds.extend((SAME..=MAX_LOAD).flat_map(|kind| levels.clone().map(move |level| breaks(kind, level))));
    kinds.extend([PLAN, NONE_VALID, LEFT].into_iter().flat_map(|end| [SHOWN, NOT_SHOWN].map(|plans| just(plans, end))));
    kinds.extend((BAD_LENGTH..=LOOSE_CARD).filter(|&number| can_refuse(form, number)).map(refusal));
    kinds
}

/// The first and the last are those of the steps that remain.
fn of_denied(job: &Job, step: usize) -> Vec<String> {
    let at = match (job.remaining().next(), job.remaining().last()) {
        (Some(first), _) if step == first => DENIED_FIRST,
        (_, Some(last)) if step == last => DENIED_LAST,
        _ => DENIED_LATER,
    };
    let behind = job.steps[..step].iter().any(|step| step.skipped).then_some(DENIED_BEHIND);
    [at].into_iter().chain(behind).map(String::from).collect()
}

fn of_broken(job: &Job, rule: usize) -> Vec<String> {
    let broken = &job.rules[rule];
    let at = match rule + 1 {
        1 => BREAKS_FIRST,
        MOST_RULES => BREAKS_LAST,
        _ => BREAKS_LATER,
    };
    let has_lost = job.left(broken.scope).count() < broken.scope.count_ones() as usize;
    let left = has_lost.then(|| breaks_left(broken.kind));
    [at.to_string(), breaks(broken.kind, broken.level)].into_iter().chain(left).collect()
}

/// The kinds of the TRY line at a place, from 0 on.
fn of_trial(job: &Job, place: u128) -> Vec<String> {
    let valid = match verdict(job, &plan_at(job, place)) {
        Verdict::Denied { step } => return of_denied(job, step),
        Verdict::Breaks { rule } => return of_broken(job, rule),
        Verdict::Valid if job.remaining().next().is_none() => NOBODY,
        Verdict::Valid if place == 0 => VALID_FIRST,
        Verdict::Valid if place + 1 == plans(job) => VALID_LAST,
        Verdict::Valid => VALID_LATER,
    };
    vec![valid.to_string()]
}

/// The kinds of all TRY lines, each once.
fn of_shown(job: &Job, shown: u128) -> BTreeSet<String> {
    let mut kinds: BTreeSet<String> = (0..shown).flat_map(|place| of_trial(job, place)).collect();
    // So many plans have the same person at the first step; the next begins with all others anew.
    let alike = plans(job) / job.people.len() as u128;
    if job.remaining().count() > 2 && alike > 1 && shown > alike {
        kinds.insert(CARRY.to_string());
    }
    kinds
}

fn tried(listing: &str) -> u128 {
    let figure = lines(listing, "TRIED").next().and_then(|line| line.split(' ').nth(1));
    figure.and_then(|figure| figure.parse().ok()).expect("the sheet was read")
}

/// The kinds of a listing that is the model's.
pub fn of(sheet: &[u8], listing: &str) -> Vec<String> {
    let job = match read(sheet) {
        Err(refused) => return vec![refusal(refused.number)],
        Ok(job) => job,
    };
    let mut ends = match lines(listing, "PLAN").next() {
        Some(_) => of_plan(&job, listing),
        None => vec![NONE_VALID.to_string()],
    };
    if ends[0] == NONE_VALID && skips_some(&job) {
        ends.push(NONE_VALID_SKIPPED.to_string());
    }
    let mut kinds: Vec<String> = of_shown(&job, lines(listing, "TRY").count() as u128).into_iter().collect();
    if [SHOWN, NOT_SHOWN].contains(&plans(&job)) {
        kinds.push(just(plans(&job), &ends[0]));
        kinds.extend(skips_some(&job).then(|| just(plans(&job), LEFT)));
    }
    if tried(listing) > u16::MAX.into() {
        kinds.push(LONG.to_string());
    }
    kinds.extend(ends);
    kinds
}

/// The kind of a right listing that has a TRY line.
pub fn of_trials(listing: &str) -> Option<String> {
    lines(listing, "TRY").next().map(|_| TRIALS.to_string())
}

#[cfg(test)]
mod tests {
    use super::*;
    use model::builder::{
        last_alone, lay, one_by_one, plain, plain_job, rule, sheet_w, skipped_w, skipping, w_and, Draft,
    };
    use model::job::{AT_MOST, BY_PERSON, BY_SHOP, DIFFERENT};
    use model::trial::listing;

    fn listed(sheet: &Draft) -> String {
        listing(&sheet.bytes).expect("few plans are tried")
    }

    fn kinds(sheet: Draft) -> Vec<String> {
        of(&sheet.bytes, &listed(&sheet))
    }

    /// The 64th rule alone can be broken.
    fn by_the_last_rule() -> Draft {
        let mut rules = vec![rule(AT_MOST, BY_PERSON, 2, 3); MOST_RULES - 1];
        rules.push(rule(DIFFERENT, BY_SHOP, 0, 3));
        lay(&Job { rules, ..plain_job(2, 2, 0) })
    }

    #[test]
    fn a_listing_has_the_kinds_of_its_trials_and_its_end() {
        assert_eq!(kinds(sheet_w()), [BREAKS_LATER, &breaks(2, 3), VALID_LATER, "a plan"]);
        let mut none = vec![CARRY.to_string(), BREAKS_LATER.to_string()];
        none.extend([(1, 1), (2, 3), (3, 3)].map(|(kind, level)| breaks(kind, level)));
        none.extend([DENIED_LATER, DENIED_FIRST, "no plan"].map(String::from));
        assert_eq!(kinds(w_and(3, 3, 1, 7)), none);
        assert_eq!(kinds(w_and(5, 2, 2, 7)), [BREAKS_LATER, &breaks(2, 3), &breaks(5, 2), VALID_LATER, "a plan"]);
        assert_eq!(kinds(one_by_one(1)), [VALID_FIRST, "a plan", "a plan, no RULE line"]);
        assert_eq!(kinds(plain(2, 2, 64)), [VALID_FIRST, "a plan", "a plan, 64 RULE lines"]);
        assert_eq!(kinds(by_the_last_rule()), [BREAKS_LAST, &breaks(2, 1), "no plan"]);
        assert_eq!(
            kinds(lay(&last_alone(2, 3))),
            [CARRY, DENIED_LATER, DENIED_FIRST, DENIED_LAST, VALID_LAST, "a plan", "a plan, no RULE line"]
        );
        assert_eq!(kinds(plain(10, 3, 1)), [VALID_FIRST, "1000 plans, a plan", "a plan"]);
        assert_eq!(kinds(plain(4, 5, 1)), ["1024 plans, a plan", "a plan"]);
        assert_eq!(kinds(plain(5, 5, 1)), ["a plan"]);
        assert_eq!(kinds(lay(&last_alone(17, 4))), [LONG, "a plan", "a plan, no RULE line"]);
        assert_eq!(kinds(plain(1, 2, 65)), ["refusal  9"]);
    }

    #[test]
    fn skipped_steps_have_kinds_of_their_own() {
        assert_eq!(
            kinds(sheet_w().skip(5)),
            [BREAKS_LATER, &breaks(2, 3), VALID_LATER, "a plan", "a plan, some steps skipped"]
        );
        let mut none = vec![BREAKS_LATER.to_string()];
        none.extend([(1, 1), (2, 3), (3, 3)].map(|(kind, level)| breaks(kind, level)));
        none.push(breaks_left(3));
        none.extend([DENIED_BEHIND, DENIED_FIRST, "no plan", NONE_VALID_SKIPPED].map(String::from));
        assert_eq!(kinds(w_and(3, 3, 1, 7).skip(5)), none);
        let load = kinds(w_and(5, 2, 1, 7).skip(5));
        assert!([breaks(5, 2), breaks_left(5)].iter().all(|kind| load.contains(kind)), "{load:?}");
        assert_eq!(kinds(skipped_w()), [NOBODY, "a plan", "a plan, all steps skipped"]);
        assert_eq!(kinds(one_by_one(0).skip(2))[4], "a plan, all steps skipped, one person");
        let left = lay(&skipping(plain_job(10, 5, 1), [0, 3]));
        assert_eq!(
            kinds(left),
            [
                VALID_FIRST,
                "1000 plans, a plan",
                "1000 plans, some steps skipped",
                "a plan",
                "a plan, some steps skipped"
            ]
        );
    }

    #[test]
    fn a_trial_is_lost_where_there_is_one() {
        assert_eq!(of_trials(&listed(&sheet_w())).as_deref(), Some("a TRY line"));
        assert_eq!(of_trials(&listed(&plain(4, 5, 0))), None);
        assert_eq!(of_trials(&listed(&plain(1, 2, 65))), None);
    }

    #[test]
    fn what_is_wanted_is_what_listings_show() {
        let wanted = all(Form::First);
        let sheets =
            [sheet_w(), w_and(3, 3, 1, 7), one_by_one(1), by_the_last_rule(), plain(10, 3, 0), plain(4, 5, 64)];
        let skipped = [sheet_w().skip(5), one_by_one(1).skip(2), w_and(3, 3, 1, 7).skip(5), w_and(5, 2, 1, 7).skip(5)];
        let alone = [lay(&last_alone(2, 3)), lay(&last_alone(17, 4)), sheet_w().cut(24)];
        for sheet in sheets.into_iter().chain(alone).chain(skipped) {
            let shown = kinds(sheet);
            assert!(shown.iter().filter(|kind| *kind != PLAN).all(|kind| wanted.contains(kind)), "{shown:?}");
        }
    }
}
