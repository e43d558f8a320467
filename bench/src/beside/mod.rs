//! Two builds of the library on the same sheets, in turn: their answers, which have to be the same, and their times.

mod table;

use crate::asked::Asked;
use crate::builds::{linked, Which};
use crate::groups::{self, Group};
use crate::options::{self, option, Run};
use crate::record;
use crate::turns::{agree, in_turn, Times, Turns};
use crate::worker::Worker;
use model::answers::{Call, MOST_CAP};
use model::builder::lay;
use std::io::{self, Write};

pub const USAGE: &str = "bench beside CSV [--sheets N] [--late-ms N] [--rounds N] [GROUP...]
  CSV         the file for a line a sheet
  --sheets    sheets in each group, 60 unless given
  --late-ms   time for one call of either build, 1000 unless given
  --rounds    how often the builds take turns at a call, 5 unless given; of each the best time counts
  GROUP       only these, 'practice' and 'hard' unless given; 'practice' stands for all that begin with 'practice-'
Both calls, spare with cap 3. 'other' is the archive that FULMARINVAR_OTHER named when this program was built. A ratio is
that of this library to the other: above 1 this one takes longer. 'late' counts what ran out of time; a call that only one
build ends counts in the median as slower or faster than all others, and not in the mean.";

pub struct Order {
    run: Run,
    rounds: u32,
}

pub fn order(mut args: Vec<String>) -> Option<Order> {
    let rounds = option(&mut args, "--rounds", 5)?;
    let mut run = options::run(args, 60)?;
    if run.groups.is_empty() {
        run.groups = [groups::PRACTICE, groups::HARD].map(String::from).to_vec();
    }
    (rounds > 0).then_some(Order { run, rounds })
}

/// A sheet that both builds were given.
pub struct Beside {
    group: String,
    number: u32,
    title: String,
    /// Steps, people, rules.
    size: [usize; 3],
    has_plan: Option<bool>,
    crew: Times,
    spare: Times,
    /// The calls whose answers differ.
    differences: Vec<&'static str>,
}

fn beside(worker: &mut Worker, order: &Order, group: &Group, number: u32) -> io::Result<Beside> {
    let job = (group.job)(number);
    let sheet = lay(&job).bytes;
    let mut both = |call| {
        let ways = [Which::This, Which::Other].map(|which| (which, Asked::whole(call), &sheet[..]));
        in_turn(worker, ways, Turns { rounds: order.rounds, late: order.run.late })
    };
    let crew = both(Call::Crew)?;
    let spare = both(Call::Spare { cap: MOST_CAP })?;
    let named = [("crew", &crew), ("spare", &spare)];
    Ok(Beside {
        group: group.name.clone(),
        number,
        title: group.title(number),
        size: [job.steps.len(), job.people.len(), job.rules.len()],
        has_plan: crew.iter().flatten().next().map(|called| called.number == 0),
        crew: Times::of(&crew),
        spare: Times::of(&spare),
        differences: named.into_iter().filter(|(_, calls)| !agree(calls)).map(|(name, _)| name).collect(),
    })
}

/// How many sheets got different answers.
pub fn run(order: &Order) -> io::Result<usize> {
    if linked(Which::Other).is_none() {
        return Err(io::Error::other("build this program with FULMARINVAR_OTHER naming the archive to be set beside"));
    }
    let mut csv = record::create(&order.run.csv, &[])?;
    writeln!(csv, "{}", table::CSV_HEADING)?;
    let mut worker = Worker::new();
    let mut all = vec![];
    for group in groups::meant(&order.run.groups) {
        for number in 1..=order.run.sheets.min(group.sheets) {
            let one = beside(&mut worker, order, &group, number)?;
            writeln!(csv, "{}", table::csv_line(&one))?;
            if !one.differences.is_empty() {
                println!("DIFFERENT {}: {}", one.title, one.differences.join(" and "));
            }
            all.push(one);
        }
    }
    csv.flush()?;
    println!("{}", table::text(&all));
    Ok(all.iter().filter(|one| !one.differences.is_empty()).count())
}

#[cfg(test)]
mod tests {
    use super::*;
    use crate::options::words;

    #[test]
    fn practice_and_hard_sheets_are_usual() {
        assert_eq!(order(words("out.csv")).unwrap().run.groups, ["practice", "hard"]);
        assert_eq!(order(words("out.csv loose")).unwrap().run.groups, ["loose"]);
        assert!(order(words("out.csv --rounds 0")).is_none());
    }
}
