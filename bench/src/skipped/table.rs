//! The figures of sheets with skipped steps: the plain table, and a line a sheet for the file.

use super::parts::{of_sums, times, unclear, Pair, Parts};
use super::Skipped;
use crate::table::{field, figures, plan_word, spread, time};
use crate::turns::{self, mean, Times};
use std::fmt::Display;

/// Which of the calls of a sheet.
type Column = fn(&Skipped) -> Parts;

/// Which part of a call.
type Part = fn(Parts) -> Pair;

/// The parts of each call, a line for each.
const LINES: [(&str, Column, Part); 6] = [
    ("crew", |one| one.crew, Parts::whole),
    ("crew reading", |one| one.crew, Parts::reading),
    ("crew beyond", |one| one.crew, Parts::beyond),
    ("spare", |one| one.spare, Parts::whole),
    ("spare reading", |one| one.spare, Parts::reading),
    ("spare beyond", |one| one.spare, Parts::beyond),
];

/// Cells as wide as the names of their columns: head, times, ratios and counts.
fn cells<W: Display>(head: [W; 4], times: [W; 2], ratios: [W; 5], counts: [W; 2]) -> String {
    let [group, call, sheets, plans] = head;
    let [median, without] = times;
    let [ratio, p90, worst, mean, sums] = ratios;
    let [unclear, late] = counts;
    let times = format!("{median:>10} {without:>10}");
    let ratios = format!("{ratio:>12} {p90:>8} {worst:>8} {mean:>8} {sums:>8}");
    format!("{group:16} {call:13} {sheets:>6} {plans:>5} {times} {ratios} {unclear:>7} {late:>5}")
}

pub fn heading() -> String {
    let ratios = ["ratio median", "p90", "worst", "mean", "sums"];
    cells(["times in us", "call", "sheets", "plans"], ["median", "without"], ratios, ["unclear", "late"])
}

fn line(name: &str, (call, column, part): (&str, Column, Part), all: &[Skipped]) -> String {
    let pairs: Vec<Pair> = all.iter().map(|one| part(column(one))).collect();
    let times: Vec<Times> = pairs.iter().copied().map(times).collect();
    let ratios: Vec<f64> = times.iter().filter_map(|times| times.ratio()).collect();
    let (this, other) = (figures(times.iter().map(|times| times.this)), figures(times.iter().map(|times| times.other)));
    let found = (!ratios.is_empty()).then(|| spread(ratios.iter().copied()));
    let [median, p90, worst] = match found {
        Some(found) => [found.median, found.p90, found.worst].map(Some),
        None => [None; 3],
    };
    let plans = all.iter().filter(|one| one.has_plan == Some(true)).count();
    cells(
        [name.to_string(), call.to_string(), all.len().to_string(), plans.to_string()],
        [this.median, other.median].map(time),
        [median, p90, worst, mean(&ratios), of_sums(&pairs)].map(turns::text),
        [unclear(&pairs), this.unfinished + other.unfinished].map(|count| count.to_string()),
    )
}

/// The lines of a group, which has a sheet at least: for each call the whole, its reading, and what is left beyond that.
pub fn lines(name: &str, all: &[Skipped]) -> String {
    LINES.map(|of| line(name, of, all)).join("\n")
}

/// `short` is the sheet without the skipped steps.
pub const CSV_HEADING: &str = "group,sheet,steps,people,rules,steps_left,rules_left,plan,\
    crew_ns,short_crew_ns,crew_reading_ns,short_crew_reading_ns,\
    spare_ns,short_spare_ns,spare_reading_ns,short_spare_reading_ns,differences";

pub fn csv_line(one: &Skipped) -> String {
    let size = one.size.iter().chain(&one.left).map(|size| size.to_string()).collect::<Vec<_>>().join(",");
    let parts = [one.crew.whole, one.crew.reading, one.spare.whole, one.spare.reading];
    let times = parts.map(|times| [times.this, times.other].map(field).join(",")).join(",");
    let (plan, differences) = (plan_word(one.has_plan), one.differences.join(" and "));
    format!("{},{},{size},{plan},{times},{differences}", one.group, one.number)
}

#[cfg(test)]
mod tests {
    use super::*;
    use crate::clock::Nanos;

    fn one(number: u32, this: Nanos, other: Nanos) -> Skipped {
        Skipped {
            group: "practice-8".to_string(),
            number,
            title: format!("practice-8 {number}"),
            size: [12, 64, 8],
            left: [8, 5],
            has_plan: Some(true),
            crew: Parts { whole: Times { this, other }, reading: Times { this: Some(900), other: Some(800) } },
            spare: Parts {
                whole: Times { this: Some(4_000), other: Some(5_000) },
                reading: Times { this: Some(1_000), other: Some(800) },
            },
            differences: vec![],
        }
    }

    fn words(all: &[Skipped]) -> Vec<String> {
        let text = lines("practice-8", all);
        text.lines().map(|line| line.split_whitespace().collect::<Vec<_>>().join(" ")).collect()
    }

    #[test]
    fn a_sheet_is_set_beside_the_one_without_its_skipped_steps() {
        let all =
            [one(1, Some(3_000), Some(2_000)), one(2, Some(2_000), Some(2_000)), one(3, Some(1_000), Some(2_000))];
        let expected = [
            "practice-8 crew 3 3 2.0 2.0 1.00 1.50 1.50 0.91 1.00 0 0",
            "practice-8 crew reading 3 3 0.9 0.8 1.12 1.12 1.12 1.12 1.12 0 0",
            "practice-8 crew beyond 3 3 1.1 1.2 0.92 1.75 1.75 0.51 0.92 0 0",
            "practice-8 spare 3 3 4.0 5.0 0.80 0.80 0.80 0.80 0.80 0 0",
            "practice-8 spare reading 3 3 1.0 0.8 1.25 1.25 1.25 1.25 1.25 0 0",
            "practice-8 spare beyond 3 3 3.0 4.2 0.71 0.71 0.71 0.71 0.71 0 0",
        ];
        assert_eq!(words(&all), expected);
    }

    #[test]
    fn what_is_late_or_unclear_is_counted() {
        let late = words(&[one(1, None, Some(2_000))]);
        assert_eq!(late[0], "practice-8 crew 1 1 late 2.0 late late late - - 0 1");
        assert_eq!(late[2], "practice-8 crew beyond 1 1 late 1.2 late late late - - 0 1");
        let unclear = words(&[one(1, Some(2_900), Some(800)), one(2, Some(2_900), Some(1_800))]);
        assert_eq!(unclear[2], "practice-8 crew beyond 2 2 2.0 0.0 2.00 2000.00 2000.00 63.25 4.00 1 0");
    }

    #[test]
    fn a_line_has_a_field_for_each_column() {
        let line = csv_line(&one(3, None, Some(9_000)));
        assert_eq!(line, "practice-8,3,12,64,8,8,5,yes,,9000,900,800,4000,5000,1000,800,");
        assert_eq!(line.split(',').count(), CSV_HEADING.split(',').count());
    }
}
