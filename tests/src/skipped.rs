//! Sheets with skipped steps, and what was worked out for them by hand: W with one, several and all of its steps skipped, a rule
//! of each kind left with two steps, one and none, and sheets of full size.

use crate::by_hand::{planned, Planned, Sheet};
use model::builder::{job_w, one_by_one, person, plain_job, rule, skipping, step};
use model::job::{
    Job, Rule, AT_LEAST, AT_MOST, BY_BENCH, BY_PERSON, BY_SHOP, DIFFERENT, MAX_LOAD, MOST_PEOPLE, MOST_RULES,
    MOST_STEPS, SAME,
};
use model::reader::read;

/// Whether some steps are skipped and some remain.
pub fn skips_some(job: &Job) -> bool {
    let left = job.remaining().count();
    0 < left && left < job.steps.len()
}

pub fn all() -> Vec<Sheet> {
    let mut sheets = of_w();
    sheets.extend(of_w_and_a_rule());
    sheets.extend(of_one_rule());
    sheets.extend(of_full_size());
    sheets
}

/// The job with the steps of these places skipped.
fn sheet(name: &str, job: Job, skipped: &[usize], planned: Option<Planned>) -> Sheet {
    let remaining = job.steps.len() - skipped.len();
    Sheet { name: format!("skipped, {name}"), job: skipping(job, skipped.iter().copied()), remaining, planned }
}

fn of_w() -> Vec<Sheet> {
    let w = |steps: &str, skipped: &[usize], planned| sheet(&format!("W, {steps}"), job_w(), skipped, planned);
    vec![
        w("step 10", &[0], planned(&[(20, 101), (30, 102)], 1, &[101, 102], &[1, 1, 2])),
        w("step 20", &[1], planned(&[(10, 101), (30, 101)], 1, &[101, 102], &[1, 1, 1])),
        w("step 30", &[2], planned(&[(10, 101), (20, 101)], 1, &[101, 102], &[1, 1, 1])),
        w("steps 10 and 20", &[0, 1], planned(&[(30, 101)], 2, &[], &[0, 1, 1])),
        w("steps 10 and 30", &[0, 2], planned(&[(20, 101)], 1, &[101, 102], &[1, 1, 1])),
        w("steps 20 and 30", &[1, 2], planned(&[(10, 101)], 1, &[101, 102], &[1, 0, 0])),
        w("all steps", &[0, 1, 2], planned(&[], 2, &[], &[0, 0, 0])),
    ]
}

/// An at-least limit that is lowered, and rules that leave no plan as long as enough of their steps remain.
fn of_w_and_a_rule() -> Vec<Sheet> {
    let w = |name: &str, more: Rule, skipped: &[usize], planned| {
        let mut job = job_w();
        job.rules.push(more);
        sheet(&format!("W and {name}"), job, skipped, planned)
    };
    let three = || rule(AT_LEAST, BY_PERSON, 3, 7);
    let two_shops = || rule(DIFFERENT, BY_SHOP, 0, 6);
    let one = || rule(AT_MOST, BY_PERSON, 1, 7);
    let two_a_shop = || rule(MAX_LOAD, BY_SHOP, 2, 7);
    let first_two = [(10, 101), (20, 101)];
    vec![
        w("4,3,3,7, step 10", three(), &[0], planned(&[(20, 101), (30, 102)], 1, &[101, 102], &[1, 1, 2, 2])),
        w("4,3,3,7, step 20", three(), &[1], planned(&[(10, 101), (30, 102)], 1, &[101, 102], &[1, 1, 1, 2])),
        w("4,3,3,7, all steps", three(), &[0, 1, 2], planned(&[], 2, &[], &[0, 0, 0, 0])),
        w("2,1,0,6, step 10", two_shops(), &[0], None),
        w("2,1,0,6, step 30", two_shops(), &[2], planned(&first_two, 1, &[101, 102], &[1, 1, 1, 1])),
        w("3,3,1,7, step 10", one(), &[0], None),
        w("3,3,1,7, step 30", one(), &[2], planned(&first_two, 1, &[101, 102], &[1, 1, 1, 1])),
        w("5,1,2,7, step 10", two_a_shop(), &[0], planned(&[(20, 101), (30, 102)], 1, &[101, 102], &[1, 1, 2, 2])),
        w("5,1,2,7, steps 10 and 30", two_a_shop(), &[0, 2], planned(&[(20, 101)], 1, &[101, 102], &[1, 1, 1, 1])),
        w("5,1,2,7, all steps", two_a_shop(), &[0, 1, 2], planned(&[], 2, &[], &[0, 0, 0, 0])),
    ]
}

/// Four steps, of which 101 may do the first and the last, 102 all, 103 all but the first. Steps are skipped until the rule is
/// left with two of them, one and none: where it asks for nothing, those come first who come first in the crew.
fn of_one_rule() -> Vec<Sheet> {
    let left = |name: &str, rule: &Rule, skipped: &[usize], planned| {
        let people = vec![person(101, 1, 1, 0b1001), person(102, 1, 2, 0b1111), person(103, 2, 3, 0b1110)];
        let job = Job { people, steps: [10, 20, 30, 40].map(step).into(), rules: vec![rule.clone()], ..Job::default() };
        let Rule { kind, level, limit, scope } = rule;
        sheet(&format!("rule {kind},{level},{limit},{scope} left with {name}"), job, skipped, planned)
    };
    let same = rule(SAME, BY_PERSON, 0, 0b0011);
    let different = rule(DIFFERENT, BY_PERSON, 0, 0b0110);
    let at_most = rule(AT_MOST, BY_PERSON, 1, 0b0111);
    let at_least = rule(AT_LEAST, BY_PERSON, 3, 0b0111);
    let benches = rule(AT_LEAST, BY_BENCH, 3, 0b0111);
    let shops = rule(AT_LEAST, BY_SHOP, 3, 0b0111);
    let apart = rule(MAX_LOAD, BY_PERSON, 1, 0b0111);
    let a_shop = rule(MAX_LOAD, BY_SHOP, 2, 0b0111);
    let last_two = [(30, 102), (40, 101)];
    vec![
        left("two", &same, &[3], planned(&[(10, 102), (20, 102), (30, 102)], 0, &[102], &[1])),
        left("its second", &same, &[0], planned(&[(20, 102), (30, 102), (40, 101)], 1, &[102, 103], &[1])),
        left("its first", &same, &[1], planned(&[(10, 101), (30, 102), (40, 101)], 1, &[101, 102], &[1])),
        left("none", &same, &[0, 1], planned(&last_two, 1, &[102, 103], &[0])),
        left("two", &different, &[0], planned(&[(20, 102), (30, 103), (40, 101)], 0, &[102], &[2])),
        left("its first", &different, &[2], planned(&[(10, 101), (20, 102), (40, 101)], 1, &[101, 102], &[1])),
        left("its second", &different, &[1], planned(&[(10, 101), (30, 102), (40, 101)], 1, &[101, 102], &[1])),
        left("none", &different, &[1, 2], planned(&[(10, 101), (40, 101)], 1, &[101, 102], &[0])),
        left("two", &at_most, &[2], planned(&[(10, 102), (20, 102), (40, 101)], 0, &[102], &[1])),
        left("one", &at_most, &[0, 1], planned(&last_two, 1, &[102, 103], &[1])),
        left("none", &at_most, &[0, 1, 2], planned(&[(40, 101)], 2, &[], &[0])),
        left("three", &at_least, &[3], planned(&[(10, 101), (20, 102), (30, 103)], 0, &[101], &[3])),
        left("two", &at_least, &[0], planned(&[(20, 102), (30, 103), (40, 101)], 0, &[102], &[2])),
        left("one", &at_least, &[0, 1], planned(&last_two, 1, &[102, 103], &[1])),
        left("none", &at_least, &[0, 1, 2], planned(&[(40, 101)], 2, &[], &[0])),
        left("two", &benches, &[2], planned(&[(10, 101), (20, 102), (40, 101)], 1, &[101, 102], &[2])),
        left("two", &shops, &[2], planned(&[(10, 101), (20, 103), (40, 101)], 0, &[103], &[2])),
        left("three", &apart, &[3], planned(&[(10, 101), (20, 102), (30, 103)], 0, &[101], &[1])),
        left("two", &apart, &[0], planned(&[(20, 102), (30, 103), (40, 101)], 0, &[102], &[1])),
        left("one", &apart, &[0, 1], planned(&last_two, 1, &[102, 103], &[1])),
        left("none", &apart, &[0, 1, 2], planned(&[(40, 101)], 2, &[], &[0])),
        left("three", &a_shop, &[3], planned(&[(10, 101), (20, 102), (30, 103)], 0, &[103], &[2])),
        left("two", &a_shop, &[2], planned(&[(10, 101), (20, 102), (40, 101)], 1, &[101, 102], &[2])),
    ]
}

/// As many people, steps and rules as there may be, then one rule, over the first two steps.
fn of_full_size() -> Vec<Sheet> {
    let job = |rules| plain_job(MOST_PEOPLE, MOST_STEPS, rules);
    let every: Vec<usize> = (0..MOST_STEPS).collect();
    let barred = read(&one_by_one(0).bytes).expect("a good sheet");
    vec![
        sheet("a full sheet, all steps", job(MOST_RULES), &every, planned(&[], 2, &[], &[0; MOST_RULES])),
        sheet("all of 12 steps but the first", job(1), &every[1..], planned(&[(2_001, 1_001)], 2, &[], &[1])),
        sheet("all of 12 steps but the last", job(1), &every[..11], planned(&[(2_012, 1_001)], 2, &[], &[0])),
        sheet("one person, one step, not permitted", barred, &[0], planned(&[], 2, &[], &[])),
    ]
}
