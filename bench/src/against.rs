//! The library's calls beside the search by hand, on the groups of several parts: a plain table, and a line a sheet for the file.

use crate::clock::Nanos;
use crate::compare::{differing, measured, Order};
use crate::groups::{meant_of, Group};
use crate::measure::Measured;
use crate::record;
use crate::table::{self, figures, spread, time};
use crate::turns::{self, Times};
use crate::worker::Worker;
use std::fmt::Display;
use std::io::{self, Write};

/// Groups that are told apart from those of other parts, also where they have the same names.
pub struct Part {
    pub name: String,
    pub groups: Vec<Group>,
}

/// What the names of parts stand under, in the table and in the file.
pub struct Column {
    pub shown: &'static str,
    pub in_file: &'static str,
}

/// Which two times of a sheet stand beside each other.
type Beside = fn(&Measured) -> Times;

/// The library's call beside the search by hand, a line for each.
const LINES: [(&str, Beside); 2] = [
    ("crew", |one| Times { this: one.crew, other: one.first }),
    ("spare", |one| Times { this: one.spare, other: one.hand_spare }),
];

/// Cells as wide as the names of their columns.
fn cells<W: Display>(head: [W; 5], times: [W; 4], ratios: [W; 3], late: W) -> String {
    let [part, group, call, sheets, plans] = head;
    let [median, worst, hand, hand_worst] = times;
    let [ratio, p90, most] = ratios;
    let head = format!("{part:6} {group:14} {call:5} {sheets:>6} {plans:>5}");
    let times = format!("{median:>10} {worst:>10} {hand:>11} {hand_worst:>10}");
    format!("{head} {times} {ratio:>12} {p90:>8} {most:>8} {late:>5}")
}

fn heading(column: &Column) -> String {
    let head = [column.shown, "times in us", "call", "sheets", "plans"];
    cells(head, ["median", "worst", "hand median", "worst"], ["ratio median", "p90", "worst"], "late")
}

fn line(part: &str, name: &str, (call, beside): (&str, Beside), all: &[Measured]) -> String {
    let times: Vec<Times> = all.iter().map(beside).collect();
    let of = |which: fn(&Times) -> Nanos| figures(times.iter().map(which));
    let (this, other) = (of(|times| times.this), of(|times| times.other));
    let ratios: Vec<f64> = times.iter().filter_map(|times| times.ratio()).collect();
    let [median, p90, worst] = match ratios.is_empty() {
        true => [None; 3],
        false => {
            let found = spread(ratios.into_iter());
            [found.median, found.p90, found.worst].map(Some)
        }
    };
    let plans = all.iter().filter(|one| one.has_plan == Some(true)).count();
    cells(
        [part, name, call, &all.len().to_string(), &plans.to_string()].map(String::from),
        [this.median, this.worst, other.median, other.worst].map(time),
        [median, p90, worst].map(turns::text),
        (this.unfinished + other.unfinished).to_string(),
    )
}

/// The lines of a group of a part, which has a sheet at least.
fn lines(part: &str, name: &str, all: &[Measured]) -> String {
    LINES.map(|of| line(part, name, of, all)).join("\n")
}

/// The groups of a part that are meant, one after the other and then altogether.
fn run_part(worker: &mut Worker, order: &Order, part: Part, csv: &mut impl Write) -> io::Result<Vec<Measured>> {
    let mut all = vec![];
    for group in meant_of(part.groups, &order.run.groups) {
        let found = measured(worker, order, &group, csv, &format!("{},", part.name))?;
        println!("{}", lines(&part.name, &group.name, &found));
        all.extend(found);
    }
    if !all.is_empty() {
        println!("{}", lines(&part.name, "all of these", &all));
    }
    Ok(all)
}

fn csv_heading(column: &Column) -> String {
    format!("{},{}", column.in_file, table::CSV_HEADING)
}

/// How many sheets got different answers.
pub fn run(order: &Order, column: &Column, parts: impl Iterator<Item = Part>) -> io::Result<usize> {
    let mut csv = record::create(&order.run.csv, &[])?;
    writeln!(csv, "{}", csv_heading(column))?;
    println!("{}", heading(column));
    let mut worker = Worker::new();
    let mut all = vec![];
    for part in parts {
        all.extend(run_part(&mut worker, order, part, &mut csv)?);
    }
    if !all.is_empty() {
        println!("{}", lines("all", "", &all));
    }
    csv.flush()?;
    Ok(differing(&all))
}

#[cfg(test)]
mod tests {
    use super::*;

    fn one(crew: Nanos, first: Nanos) -> Measured {
        Measured {
            steps: 12,
            people: 64,
            rules: 8,
            has_plan: Some(true),
            crew,
            first,
            exists: Some(900),
            spare: Some(6_000),
            hand_spare: Some(4_000),
            differences: vec![],
        }
    }

    fn words(all: &[Measured]) -> Vec<String> {
        let text = lines("3", "practice-8", all);
        text.lines().map(|line| line.split_whitespace().collect::<Vec<_>>().join(" ")).collect()
    }

    #[test]
    fn a_call_is_set_beside_the_search_by_hand() {
        let all = [one(Some(3_000), Some(2_000)), one(Some(2_000), Some(4_000)), one(Some(4_000), Some(4_000))];
        let expected = [
            "3 practice-8 crew 3 3 3.0 4.0 4.0 4.0 1.00 1.50 1.50 0",
            "3 practice-8 spare 3 3 6.0 6.0 4.0 4.0 1.50 1.50 1.50 0",
        ];
        assert_eq!(words(&all), expected);
    }

    #[test]
    fn what_is_late_is_counted() {
        let late = words(&[one(None, Some(2_000)), one(Some(3_000), None), one(None, None)]);
        assert_eq!(late[0], "3 practice-8 crew 3 3 late late late late 0.00 late late 4");
    }

    #[test]
    fn a_line_has_a_field_for_each_column() {
        let line = format!("3,{}", table::csv_line("practice-8", 1, &one(Some(1), None)));
        let column = Column { shown: "levels", in_file: "class_levels" };
        assert_eq!(line.split(',').count(), csv_heading(&column).split(',').count());
    }
}
