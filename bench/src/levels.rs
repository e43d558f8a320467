//! Practice sheets as sheets of version 2, with each number of class levels, through the library and through the hand-written
//! search.

use crate::against::{self, Column, Part};
use crate::compare::{self, Order};
use crate::groups::full_practice_in;
use model::job::{Form, MOST_CLASS_LEVELS};
use std::io;

pub const USAGE: &str = "bench levels CSV [--sheets N] [--limit-ms N] [--late-ms N] [GROUP...]
  CSV         the file for a line a sheet
  --sheets    sheets in each group with each number of levels, 60 unless given
  --limit-ms  time for one hand-written search, 100 unless given
  --late-ms   time for one call of the library, 1000 unless given
  GROUP       only these; all are practice sheets of full size
The people and steps of practice sheets with shops alone, with shops and benches, and with pairs within benches, and rules from the
same draws over one level more, the person's. 'crew' stands beside the hand-written search for the first plan, 'spare' (cap 3)
beside its spare count; the library reads the sheet, the search is given the job already read. A ratio is that of the library
to the search on one sheet: above 1 it takes longer. 'late' counts what ran out of time.";

pub fn order(args: Vec<String>) -> Option<Order> {
    compare::order(args)
}

const COLUMN: Column = Column { shown: "levels", in_file: "class_levels" };

fn parts() -> impl Iterator<Item = Part> {
    let form = |class_levels| Form::Second { class_levels };
    let part = move |levels: u8| Part { name: levels.to_string(), groups: full_practice_in(form(levels)) };
    (1..=MOST_CLASS_LEVELS as u8).map(part)
}

/// How many sheets got different answers.
pub fn run(order: &Order) -> io::Result<usize> {
    against::run(order, &COLUMN, parts())
}

#[cfg(test)]
mod tests {
    use super::*;
    use model::builder::lay;
    use model::reader::read;

    #[test]
    fn sheets_of_each_number_of_levels_are_readable_and_name_every_level() {
        for class_levels in 1..=MOST_CLASS_LEVELS as u8 {
            let form = Form::Second { class_levels };
            for group in full_practice_in(form) {
                let jobs: Vec<_> = (1..=20).map(|number| (group.job)(number)).collect();
                assert!(jobs.iter().all(|job| read(&lay(job).bytes).as_ref() == Ok(job)), "{}", group.name);
                let names = |level| jobs.iter().any(|job| job.rules.iter().any(|rule| rule.level == level));
                assert_eq!((1..=form.person_level()).all(names), jobs.iter().any(|job| !job.rules.is_empty()));
            }
        }
    }
}
