//! Sheets of version 2 with the same plans as a version 1 sheet: with its two class levels, with one more that no rule names, or
//! without one that no rule names. For comparisons; the brute force takes a job as its sheet has it.

use crate::job::{Form, Job, BY_BENCH, BY_PERSON, BY_SHOP};

/// The job with these classes for its people, from shop, bench and place in crew order, and these levels for its rules.
fn with(job: &Job, class_levels: u8, classes: impl Fn(u16, u16, usize) -> [u16; 3], level: impl Fn(u8) -> u8) -> Job {
    let mut found = Job { form: Form::Second { class_levels }, ..job.clone() };
    for (place, person) in found.people.iter_mut().enumerate() {
        let [shop, bench, _] = person.class;
        person.class = classes(shop, bench, place);
    }
    found.rules.iter_mut().for_each(|rule| rule.level = level(rule.level));
    found
}

/// For each place in crew order a pair: the first two people of a bench are one, the next two another.
fn pairs(job: &Job) -> Vec<u16> {
    let bench = |place: usize| job.people[place].class[1];
    let mates = |place: usize| (0..place).filter(move |&earlier| bench(earlier) == bench(place));
    let first = |place: usize| if mates(place).count() % 2 == 0 { place } else { mates(place).last().unwrap_or(place) };
    (0..job.people.len()).map(|place| 1 + first(place) as u16).collect()
}

fn names(job: &Job, level: u8) -> bool {
    job.rules.iter().any(|rule| rule.level == level)
}

/// A sheet of version 2, and in what it differs.
pub struct Variant {
    pub name: &'static str,
    pub job: Job,
}

/// The same cards under a version 2 header.
pub fn with_two(job: &Job) -> Job {
    with(job, 2, |shop, bench, _| [shop, bench, 0], |level| level)
}

/// All that there are for a version 1 job; a rule by person is one by person in each.
pub fn in_version_2(job: &Job) -> Vec<Variant> {
    assert_eq!(job.form, Form::First);
    let pairs = pairs(job);
    let below = |shop, bench, place: usize| [shop, bench, pairs[place]];
    let mut found = vec![
        ("two levels", with_two(job)),
        ("pairs below", with(job, 3, below, |level| level + u8::from(level == BY_PERSON))),
        ("a level above", with(job, 3, |shop, bench, _| [1, shop, bench], |level| level + 1)),
    ];
    if !names(job, BY_BENCH) {
        let level = |level| if level == BY_SHOP { 1 } else { 2 };
        found.push(("shops alone", with(job, 1, |shop, _, _| [shop, 0, 0], level)));
    }
    if !names(job, BY_SHOP) {
        found.push(("benches alone", with(job, 1, |_, bench, _| [bench, 0, 0], |level| level - 1)));
    }
    found.into_iter().map(|(name, job)| Variant { name, job }).collect()
}

#[cfg(test)]
mod tests {
    use super::*;
    use crate::builder::{job_w, lay, person};
    use crate::jobs::small_job;
    use crate::plans::all_plans;
    use crate::random::Random;
    use crate::reader::read;

    #[test]
    fn two_of_a_bench_are_a_pair() {
        let at = |bench| person(1, 1, bench, 0);
        let people = [1, 1, 2, 1, 2, 1, 2].map(at).into();
        assert_eq!(pairs(&Job { people, ..job_w() }), [1, 1, 3, 4, 3, 4, 7]);
    }

    #[test]
    fn the_plans_are_the_same_in_every_form() {
        let mut random = Random::new(16);
        let mut met = [0; 4];
        for _ in 0..1_000 {
            let job = small_job(&mut random);
            if job.form != Form::First {
                continue;
            }
            for Variant { name, job: other } in in_version_2(&job) {
                assert_eq!(read(&lay(&other).bytes).as_ref(), Ok(&other));
                assert_eq!(all_plans(&other), all_plans(&job), "{name}: {other:?}");
                met[usize::from(other.form.class_levels())] += 1;
            }
        }
        assert!(met[1..].iter().all(|&times| times > 50), "{met:?}");
    }
}
