//! What a job looks like, in a line.

use model::job::Job;
use sheet::words::{level_word, KINDS};
use std::collections::BTreeSet;

fn different<T: Ord>(of: impl Iterator<Item = T>) -> usize {
    of.collect::<BTreeSet<T>>().len()
}

/// How many rules there are of each kind and level that has any.
fn rules(job: &Job) -> String {
    let mut parts = vec![];
    for (kind, kind_word) in KINDS {
        for level in 1..=job.form.person_level() {
            let count = job.rules.iter().filter(|rule| (rule.kind, rule.level) == (kind, level)).count();
            if count > 0 {
                parts.push(format!("{count} {kind_word} {}", level_word(job.form, level)));
            }
        }
    }
    parts.join(", ")
}

/// How many classes there are at each level, the last first.
fn classes(job: &Job) -> String {
    let part = |at: usize| {
        let (place, class) = [("in", "shops"), ("on", "benches"), ("in", "pairs")][at];
        format!(" {place} {} {class}", different(job.people.iter().map(|person| person.class[at])))
    };
    (0..usize::from(job.form.class_levels())).rev().map(part).collect()
}

pub fn line(job: &Job) -> String {
    let (people, steps) = (job.people.len(), job.steps.len());
    let given: u32 = job.people.iter().map(|person| person.permitted.count_ones()).sum();
    let share = 100 * given as usize / (people * steps);
    format!(
        "{steps} steps, {people} people{}, {share} % permitted, {} rules: {}",
        classes(job),
        job.rules.len(),
        rules(job)
    )
}

#[cfg(test)]
mod tests {
    use super::*;
    use model::builder::{job_w, job_w_in, rule};
    use model::job::{Form, BY_BENCH, BY_PERSON, MAX_LOAD};

    #[test]
    fn w_has_its_shape() {
        let line = line(&job_w());
        assert!(line.starts_with("3 steps, 4 people on 3 benches in 2 shops, 66 % permitted, 3 rules: "));
        assert!(line.ends_with("1 same shop, 1 same bench, 1 different person"));
        let mut spread = job_w();
        spread.rules = vec![rule(MAX_LOAD, BY_BENCH, 2, 7), rule(MAX_LOAD, BY_PERSON, 1, 7)];
        assert!(super::line(&spread).ends_with(" 2 rules: 1 max-load bench, 1 max-load person"));
    }

    #[test]
    fn every_level_is_in_the_shape() {
        let line = |class_levels| line(&job_w_in(Form::Second { class_levels }));
        assert!(line(3).starts_with("3 steps, 4 people in 4 pairs on 3 benches in 2 shops, 66 % permitted, 3 rules: "));
        assert!(line(1).starts_with("3 steps, 4 people in 2 shops, 66 % permitted, 3 rules: 2 same shop"));
    }
}
