//! Sheets with rules of kind 5 through the library and through the hand-written search: among rules of the other kinds, and where
//! twelve steps have to be spread over few benches.

mod mixed;
mod spread;

use crate::against::{self, Column, Part};
use crate::compare::{self, Order};
use crate::groups::Group;
use std::io;

pub const USAGE: &str = "bench loads CSV [--sheets N] [--limit-ms N] [--late-ms N] [GROUP...]
  CSV         the file for a line a sheet
  --sheets    sheets in each group, 60 unless given
  --limit-ms  time for one hand-written search, 100 unless given
  --late-ms   time for one call of the library, 1000 unless given
  GROUP       only these; 'mixed' stands for all that begin with 'mixed-', 'spread' and 'nested' likewise
All sheets have 12 steps and 64 people. Those of 'mixed' have the people of practice sheets and so many rules of kinds 1 to 5, one
of kind 5 among them. On those of 'spread' the people sit at 3 to 8 benches in 2 to 4 shops, and rules of kind 5 ask that no bench
does more than its part of all or most steps: with pair rules beside them ('pairs'), with few people for each step ('few'), with
steps that have to be done at one bench ('blocks'), and with a limit that is too low by one ('short'), so that no plan is valid.
'nested' has a rule of kind 5 by shop as well.
'crew' stands beside the hand-written search for the first plan, 'spare' (cap 3) beside its spare count; the library reads the
sheet, the search is given the job already read. A ratio is that of the library to the search on one sheet: above 1 it takes longer.
'late' counts what ran out of time.";

const COLUMN: Column = Column { shown: "part", in_file: "part" };

pub fn order(args: Vec<String>) -> Option<Order> {
    compare::order(args)
}

fn parts() -> [Part; 3] {
    [
        Part { name: mixed::NAME.to_string(), groups: mixed::groups() },
        Part { name: spread::NAME.to_string(), groups: spread::groups() },
        Part { name: spread::NESTED.to_string(), groups: spread::nested() },
    ]
}

/// The groups of all parts.
pub fn groups() -> Vec<Group> {
    parts().into_iter().flat_map(|part| part.groups).collect()
}

/// How many sheets got different answers.
pub fn run(order: &Order) -> io::Result<usize> {
    against::run(order, &COLUMN, parts().into_iter())
}

#[cfg(test)]
mod tests {
    use super::*;
    use crate::baseline::{plan, Found, Order};
    use crate::problem::Problem;
    use model::builder::lay;
    use model::job::{Job, MAX_LOAD, MOST_PEOPLE, MOST_STEPS};
    use model::reader::read;
    use std::time::{Duration, Instant};

    /// Of the first sheets of a group: how many have a plan, and how many have none.
    fn ends(group: &Group) -> [usize; 2] {
        let mut ends = [0, 0];
        for number in 1..=60 {
            let problem = Problem::new(&(group.job)(number));
            match plan(&problem, 0, Order::Fewest, Instant::now() + Duration::from_millis(100)) {
                Found::Some(_) => ends[0] += 1,
                Found::None => ends[1] += 1,
                Found::Unfinished => {}
            }
        }
        ends
    }

    #[test]
    fn every_sheet_is_readable_of_full_size_and_has_a_rule_of_kind_5() {
        for group in groups() {
            for number in 1..=50 {
                let job = (group.job)(number);
                assert_eq!((job.steps.len(), job.people.len()), (MOST_STEPS, MOST_PEOPLE), "{} {number}", group.name);
                assert!(job.rules.iter().any(|rule| rule.kind == MAX_LOAD), "{} {number}", group.name);
                assert_eq!(read(&lay(&job).bytes).as_ref(), Ok(&job), "{} {number}", group.name);
            }
        }
    }

    #[test]
    fn there_are_sheets_with_a_plan_and_without_one() {
        for group in groups() {
            let [with, without] = ends(&group);
            match group.name.as_str() {
                "spread-short" => assert_eq!(with, 0),
                name => assert!(with >= 6, "{name}: {with} and {without}"),
            }
        }
        let all = groups().iter().map(ends).fold([0, 0], |all, one| [all[0] + one[0], all[1] + one[1]]);
        assert!(all[0] > 150 && all[1] > 100, "{all:?}");
    }

    #[test]
    fn loads_matter_on_sheets_that_have_to_be_spread() {
        for group in spread::groups().into_iter().chain(spread::nested()) {
            let is_broken = |job: &Job| {
                let without = Job {
                    rules: job.rules.iter().filter(|rule| rule.kind != MAX_LOAD).cloned().collect(),
                    ..job.clone()
                };
                let [with, without] = [job, &without]
                    .map(|job| plan(&Problem::new(job), 0, Order::Chain, Instant::now() + Duration::from_millis(100)));
                with != without
            };
            let changed = (1..=20).filter(|&number| is_broken(&(group.job)(number))).count();
            assert!(changed >= 12, "{}: {changed}", group.name);
        }
    }
}
