//! The groups of sheets that are measured.

use crate::{accidents, hard, loads, randoms};
use model::job::{Form, Job, MOST_PEOPLE, MOST_STEPS};
use model::random::Random;
use model::recipe::practice_job_in;

/// The rules of practice sheets of full size, a group for each.
const PRACTICE_RULES: [usize; 12] = [0, 2, 4, 6, 8, 10, 12, 14, 20, 32, 48, 64];

/// What the names of practice groups begin with.
pub const PRACTICE: &str = "practice";

/// The group of kept sheets.
pub const HARD: &str = "hard";

/// A job from its number within the group, from 1 on.
type Jobs = Box<dyn Fn(u32) -> Job>;

pub struct Group {
    pub name: String,
    /// How many sheets there are; where they are made from their numbers there is no end.
    pub sheets: u32,
    pub job: Jobs,
    /// Of kept sheets, in their order; those that are made have none.
    names: Vec<String>,
}

impl Group {
    /// Sheets that are made from their numbers.
    pub fn made(name: &str, job: impl Fn(u32) -> Job + 'static) -> Group {
        Group { name: name.to_string(), sheets: u32::MAX, job: Box::new(job), names: vec![] }
    }

    /// What a sheet is called.
    pub fn title(&self, number: u32) -> String {
        let own = self.names.get(number as usize - 1).cloned();
        format!("{} {}", self.name, own.unwrap_or(number.to_string()))
    }

    /// Whether a name given for the group means it: its own, or the beginning that it shares with others.
    pub fn is_meant_by(&self, name: &str) -> bool {
        self.name == name || self.name.starts_with(&format!("{name}-"))
    }
}

fn practice_group(form: Form, rules: usize) -> Group {
    let job = move |start| practice_job_in(form, start, MOST_STEPS, MOST_PEOPLE, rules);
    Group::made(&format!("{PRACTICE}-{rules}"), job)
}

pub fn random_group(name: &str, job: fn(&mut Random) -> Job) -> Group {
    Group::made(name, move |number| job(&mut Random::new(number.into())))
}

/// What was found by the climb and kept.
fn hard_group() -> Group {
    let (names, jobs): (Vec<String>, Vec<Job>) = hard::kept().into_iter().unzip();
    let sheets = jobs.len() as u32;
    Group { name: HARD.to_string(), sheets, job: Box::new(move |number| jobs[number as usize - 1].clone()), names }
}

/// The practice sheets of full size.
pub fn full_practice() -> Vec<Group> {
    full_practice_in(Form::First)
}

/// The same people and steps in another form.
pub fn full_practice_in(form: Form) -> Vec<Group> {
    PRACTICE_RULES.into_iter().map(|rules| practice_group(form, rules)).collect()
}

pub fn all() -> Vec<Group> {
    let mut groups = full_practice();
    groups.push(Group::made(&format!("{PRACTICE}-range"), randoms::practice_of_any_size));
    groups.extend([
        random_group("four-kinds-few", |random| randoms::practice_people(random, 1, 8)),
        random_group("four-kinds-many", |random| randoms::practice_people(random, 9, 64)),
        random_group("loose-few", |random| randoms::loose(random, 1, 8)),
        random_group("loose-many", |random| randoms::loose(random, 9, 32)),
        random_group("tight-few", |random| randoms::tight(random, 1, 8)),
        random_group("tight-many", |random| randoms::tight(random, 9, 32)),
        random_group("any-people", randoms::any_job),
        random_group("contradiction", accidents::contradiction),
        random_group("fifth-shop", accidents::fifth_shop),
        random_group("eleven-benches", accidents::eleven_benches),
        random_group("eleven-benches-at-once", accidents::eleven_benches_at_once),
        random_group("last-part", accidents::last_part),
        hard_group(),
    ]);
    groups
}

/// The groups that are meant, those with rules of kind 5 among them; all but these where none is named.
pub fn meant(names: &[String]) -> Vec<Group> {
    let mut groups = all();
    if !names.is_empty() {
        groups.extend(loads::groups());
    }
    meant_of(groups, names)
}

/// Those of these groups that are meant.
pub fn meant_of(groups: Vec<Group>, names: &[String]) -> Vec<Group> {
    let is_meant = |group: &Group| names.is_empty() || names.iter().any(|name| group.is_meant_by(name));
    groups.into_iter().filter(is_meant).collect()
}

#[cfg(test)]
mod tests {
    use super::*;
    use model::builder::lay;
    use model::reader::read;
    use std::collections::HashSet;

    #[test]
    fn every_sheet_is_readable() {
        for group in all() {
            for number in 1..=group.sheets.min(50) {
                let job = (group.job)(number);
                assert_eq!(read(&lay(&job).bytes), Ok(job), "{} {number}", group.name);
            }
        }
    }

    #[test]
    fn sheets_are_of_full_size_but_for_the_range_and_what_the_climb_found() {
        for group in all().into_iter().filter(|group| group.name != "practice-range" && group.name != HARD) {
            let job = (group.job)(1);
            assert_eq!((job.steps.len(), job.people.len()), (MOST_STEPS, MOST_PEOPLE), "{}", group.name);
        }
    }

    #[test]
    fn kept_sheets_are_called_by_their_names() {
        let titles = |name: &str| meant(&[name.to_string()])[0].title(2);
        assert_eq!(titles("practice-8"), "practice-8 2");
        assert_eq!(titles(HARD), format!("hard {}", hard::kept()[1].0));
    }

    #[test]
    fn groups_have_names_of_their_own() {
        let every = || all().into_iter().chain(loads::groups());
        let names: HashSet<String> = every().map(|group| group.name).collect();
        assert_eq!(names.len(), every().count());
    }

    #[test]
    fn a_shared_beginning_means_all_that_have_it() {
        let names = |name: &str| meant(&[name.to_string()]).into_iter().map(|group| group.name).collect::<Vec<_>>();
        assert_eq!(names("tight"), ["tight-few", "tight-many"]);
        assert_eq!(names("practice").len(), PRACTICE_RULES.len() + 1);
        assert_eq!(names("eleven-benches"), ["eleven-benches", "eleven-benches-at-once"]);
        assert!(names("tigh").is_empty());
        assert_eq!(names("spread"), ["spread-pairs", "spread-few", "spread-blocks", "spread-short"]);
        assert_eq!(meant(&[]).len(), all().len());
    }
}
