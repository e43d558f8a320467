//! The library beside the hand-written search, over all groups.

use crate::groups::{self, Group};
use crate::measure::{measure, Limits, Measured};
use crate::options::{self, option, Run};
use crate::worker::Worker;
use crate::{record, table};
use std::io::{self, Write};
use std::time::Duration;

pub const USAGE: &str = "bench measure CSV [--sheets N] [--limit-ms N] [--late-ms N] [GROUP...]
  CSV         the file for a line a sheet
  --sheets    sheets in each group, 60 unless given
  --limit-ms  time for one hand-written search, 100 unless given
  --late-ms   time for one call of the library, 1000 unless given
  GROUP       only these; 'practice' stands for all that begin with 'practice-'
In the table 'crew' and 'spare' (cap 3) are the library, reading included; 'first' and 'any' are the hand-written search
for the first plan and for any plan, and 'hand' is its spare count, the job already read. 'late' counts what ran out of
time.";

pub struct Order {
    pub run: Run,
    /// The longest that a hand-written search may take.
    hand: Duration,
}

pub fn order(mut args: Vec<String>) -> Option<Order> {
    let hand = Duration::from_millis(option(&mut args, "--limit-ms", 100)?);
    Some(Order { run: options::run(args, 60)?, hand })
}

/// The sheets of a group, each with a line of the file that begins as told.
pub fn measured(
    worker: &mut Worker,
    order: &Order,
    group: &Group,
    csv: &mut impl Write,
    begin: &str,
) -> io::Result<Vec<Measured>> {
    let limits = Limits { library: order.run.late, hand: order.hand };
    let mut all = vec![];
    for sheet in 1..=order.run.sheets.min(group.sheets) {
        let one = measure(worker, &(group.job)(sheet), limits)?;
        writeln!(csv, "{begin}{}", table::csv_line(&group.name, sheet, &one))?;
        if !one.differences.is_empty() {
            println!("DIFFERENT {begin}{} {sheet}: {}", group.name, one.differences.join(" and "));
        }
        all.push(one);
    }
    Ok(all)
}

/// How many sheets got different answers.
pub fn differing(all: &[Measured]) -> usize {
    all.iter().filter(|one| !one.differences.is_empty()).count()
}

/// How many sheets got different answers.
pub fn run(order: &Order) -> io::Result<usize> {
    let mut csv = record::create(&order.run.csv, &[])?;
    writeln!(csv, "{}", table::CSV_HEADING)?;
    println!("{}", table::heading());
    let mut worker = Worker::new();
    let mut different = 0;
    for group in groups::meant(&order.run.groups) {
        let all = measured(&mut worker, order, &group, &mut csv, "")?;
        if !all.is_empty() {
            println!("{}", table::lines(&group.name, &all));
        }
        different += differing(&all);
    }
    csv.flush()?;
    Ok(different)
}
