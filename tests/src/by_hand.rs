//! Sheets whose crew, spare count and rule figures were worked out by hand: with skipped steps, with other levels, and with rules
//! of kind 5.

use crate::{levels, loads, skipped};
use model::job::Job;

pub struct Sheet {
    pub name: String,
    pub job: Job,
    /// How many of its steps remain.
    pub remaining: usize,
    /// Nothing where no plan is valid.
    pub planned: Option<Planned>,
}

#[derive(Clone)]
pub struct Planned {
    /// Step tag and person tag.
    pub crew: Vec<(u32, u32)>,
    /// The spare count with cap 2, and who is away where it is below the cap.
    pub count: usize,
    pub away: Vec<u32>,
    /// For each rule its figure.
    pub figures: Vec<usize>,
}

pub fn all() -> Vec<Sheet> {
    let mut sheets = skipped::all();
    sheets.extend(levels::all());
    sheets.extend(loads::all());
    sheets
}

/// The same, and those of version 1 in version 2 as well: more than one wants to read.
pub fn in_every_form() -> Vec<Sheet> {
    let mut sheets = all();
    sheets.extend(levels::of_skipped());
    sheets.extend(levels::of_loads());
    sheets
}

pub fn planned(crew: &[(u32, u32)], count: usize, away: &[u32], figures: &[usize]) -> Option<Planned> {
    Some(Planned { crew: crew.to_vec(), count, away: away.to_vec(), figures: figures.to_vec() })
}

#[cfg(test)]
mod tests {
    use super::*;
    use model::plans::{crew, figure, first_plan, is_small, spare};

    #[test]
    fn the_brute_force_finds_what_was_worked_out() {
        for Sheet { name, job, remaining, planned } in in_every_form() {
            assert!(is_small(&job), "{name}");
            assert_eq!(job.remaining().count(), remaining, "{name}");
            let plan = first_plan(&job, &[]);
            assert_eq!(plan.is_some(), planned.is_some(), "{name}");
            let (Some(plan), Some(planned)) = (plan, planned) else {
                continue;
            };
            assert_eq!(crew(&job, &plan), planned.crew, "{name}");
            let figures: Vec<usize> = job.rules.iter().map(|rule| figure(&job, rule, &plan)).collect();
            assert_eq!(figures, planned.figures, "{name}");
            let found = spare(&job, 2).expect("there is a plan");
            let away: Vec<u32> = found.away.iter().map(|&person| job.people[person].tag).collect();
            assert_eq!((found.count, away), (planned.count, planned.away), "{name}");
        }
    }
}
