//! Crews by trial on sheets of a shop of five: beside the crew call, and beside a brute force written by hand.

mod hand;
mod sheets;
mod table;
mod work;

use crate::options::{has_option, option};
use crate::record;
use sheets::{with_a_plan, without_a_plan};
use std::io::{self, Write};
use work::measured;

pub const USAGE: &str = "bench trial CSV [--sheets N]
  CSV         the file for a line a sheet
  --sheets    sheets of each number of steps, with a plan and as many without one, 40 unless given
Sheets of five people, 3 to 8 steps and random rules. 'tried' is how many plans are gone through. Times are in us. A ratio is
that of the crew by trial to the crew call, and to a brute force written by hand, which gets the job already read, on the
same sheet and in the same run.";

pub struct Order {
    csv: String,
    sheets: u64,
}

pub fn order(mut args: Vec<String>) -> Option<Order> {
    let sheets = option(&mut args, "--sheets", 40)?;
    if args.len() != 1 || sheets == 0 || has_option(&args) {
        return None;
    }
    Some(Order { csv: args.remove(0), sheets })
}

/// How many sheets got different answers.
pub fn run(order: &Order) -> io::Result<usize> {
    let mut csv = record::create(&order.csv, &[])?;
    writeln!(csv, "{}", table::CSV_HEADING)?;
    println!("{}", table::heading());
    let mut differing = 0;
    for steps in sheets::STEPS {
        for jobs in [with_a_plan, without_a_plan] {
            let mut all = vec![];
            for number in 1..=order.sheets {
                let one = measured(&jobs(number, steps));
                writeln!(csv, "{}", table::csv_line(number, &one))?;
                if !one.differences.is_empty() {
                    println!("DIFFERENT {steps} steps, sheet {number}: {}", one.differences.join(" and "));
                    differing += 1;
                }
                all.push(one);
            }
            println!("{}", table::line(&all));
        }
    }
    csv.flush()?;
    Ok(differing)
}

#[cfg(test)]
mod tests {
    use super::order;
    use crate::options::words;

    #[test]
    fn a_run_names_its_file() {
        let order_of = |line| order(words(line));
        let order = order_of("out.csv --sheets 7").unwrap();
        assert_eq!((order.csv.as_str(), order.sheets), ("out.csv", 7));
        for line in ["--sheets 7", "out.csv --sheets 0", "out.csv --late-ms 7", "out.csv practice-8"] {
            assert!(order_of(line).is_none(), "{line}");
        }
    }
}
