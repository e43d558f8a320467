//! Jobs under work on practice sheets that have a plan: openings beside the crew call, signings beside the question whether a
//! plan exists.

mod table;
mod work;

use crate::groups::{full_practice, meant};
use crate::options::{has_option, option};
use crate::record;
use model::random::Random;
use std::io::{self, Write};
use work::{worked, Order as Steps};

pub use work::has_plan;

pub const USAGE: &str = "bench sign CSV [--sheets N] [GROUP...]
  CSV         the file for a line a job
  --sheets    sheets in each group, 60 unless given; those without a plan are left out
  GROUP       only these, the practice sheets of full size unless given
Each sheet is opened and signed to its end twice, along the chain of steps and in a random order of them. For each step those
who are permitted it are tried in a random order until one is granted; 'refused' are the tries before. A ratio is that of an
opening to the crew call, and of a signing to the spare call with cap 0, on the same sheet and in the same run.";

pub struct Order {
    csv: String,
    sheets: u32,
    groups: Vec<String>,
}

pub fn order(mut args: Vec<String>) -> Option<Order> {
    let sheets = option(&mut args, "--sheets", 60)?;
    if args.is_empty() || sheets == 0 || has_option(&args) {
        return None;
    }
    Some(Order { csv: args.remove(0), sheets, groups: args })
}

/// How many jobs were answered in different ways.
pub fn run(order: &Order) -> io::Result<usize> {
    let mut csv = record::create(&order.csv, &[])?;
    writeln!(csv, "{}", table::CSV_HEADING)?;
    let groups = if order.groups.is_empty() { full_practice() } else { meant(&order.groups) };
    let mut all = vec![];
    for group in groups {
        for number in 1..=order.sheets.min(group.sheets) {
            let job = (group.job)(number);
            if !has_plan(&job) {
                continue;
            }
            for steps in [Steps::Chain, Steps::Random] {
                let one = worked(&job, steps, &mut Random::new(number.into()));
                writeln!(csv, "{}", table::csv_line(&group.name, number, &job, &one))?;
                if !one.differences.is_empty() {
                    println!("DIFFERENT {}: {}", group.title(number), one.differences.join(" and "));
                }
                all.push(one);
            }
        }
    }
    csv.flush()?;
    println!("{}", table::text(&all));
    Ok(all.iter().filter(|one| !one.differences.is_empty()).count())
}

#[cfg(test)]
mod tests {
    use super::order;
    use crate::options::words;

    #[test]
    fn a_run_names_its_file() {
        let order_of = |line| order(words(line));
        let order = order_of("out.csv --sheets 7 practice-8").unwrap();
        assert_eq!((order.csv.as_str(), order.sheets, order.groups), ("out.csv", 7, words("practice-8")));
        for line in ["--sheets 7", "out.csv --sheets 0", "out.csv --late-ms 7"] {
            assert!(order_of(line).is_none(), "{line}");
        }
    }
}
