//! The figures of jobs under work: the plain table, and a line a job for the file.

use super::work::{Order, Worked};
use crate::table::{spread, Figures};
use model::job::Job;

/// A time, and that of the call which it is set beside.
type Pair = (u64, u64);

/// Which of the times of a job.
type Column = fn(&Worked) -> Vec<Pair>;

const CALLS: [(&str, Column); 3] = [
    ("opening, beside crew", |one| vec![(one.open, one.crew)]),
    ("granted, beside existence", |one| beside(&one.granted, one.exists)),
    ("refused, beside existence", |one| beside(&one.refused, one.exists)),
];

fn beside(times: &[u64], other: u64) -> Vec<Pair> {
    times.iter().map(|&time| (time, other)).collect()
}

/// What a job takes from its opening to its last signing, refused ones included.
fn whole(one: &Worked) -> u64 {
    one.open + one.granted.iter().chain(&one.refused).sum::<u64>()
}

fn cells(figures: &Figures) -> String {
    [figures.median, figures.p90, figures.worst].map(|value| format!("{value:>8.2}")).join(" ")
}

fn micros(times: impl Iterator<Item = u64>) -> Figures {
    spread(times.map(|time| time as f64 / 1_000.0))
}

fn line(name: &str, order: &str, pairs: &[Pair]) -> String {
    let head = format!("{name:26} {order:8} {:>6}", pairs.len());
    if pairs.is_empty() {
        return head;
    }
    let times = micros(pairs.iter().map(|pair| pair.0));
    let ratios = spread(pairs.iter().map(|(time, other)| *time as f64 / *other as f64));
    format!("{head} {}   {}", cells(&times), cells(&ratios))
}

fn of(all: &[Worked], order: Order) -> impl Iterator<Item = &Worked> + '_ {
    all.iter().filter(move |one| one.order == order)
}

fn word(order: Order) -> &'static str {
    match order {
        Order::Chain => "chain",
        Order::Random => "random",
    }
}

pub fn text(all: &[Worked]) -> String {
    let figures = ["median", "p90", "worst"].map(|name| format!("{name:>8}")).join(" ");
    let mut lines =
        vec![format!("{:26} {:8} {:>6} {figures}   {figures}", "times in us, then ratios", "order", "calls")];
    for (name, column) in CALLS {
        for order in [Order::Chain, Order::Random] {
            lines.push(line(name, word(order), &of(all, order).flat_map(column).collect::<Vec<_>>()));
        }
        lines.push(line(name, "both", &all.iter().flat_map(column).collect::<Vec<_>>()));
    }
    for order in [Order::Chain, Order::Random] {
        let times: Vec<u64> = of(all, order).map(whole).collect();
        if !times.is_empty() {
            let figures = cells(&micros(times.iter().copied()));
            lines.push(format!("{:26} {:8} {:>6} {figures}", "whole job", word(order), times.len()));
        }
    }
    lines.join("\n")
}

/// The times of single signings stand in one field, in the order in which they were made.
pub const CSV_HEADING: &str =
    "group,sheet,steps,people,rules,order,crew_ns,open_ns,exists_ns,granted_ns,refused_ns,differences";

fn field(times: &[u64]) -> String {
    times.iter().map(u64::to_string).collect::<Vec<_>>().join(" ")
}

pub fn csv_line(group: &str, number: u32, job: &Job, one: &Worked) -> String {
    let size = [job.steps.len(), job.people.len(), job.rules.len()].map(|size| size.to_string()).join(",");
    let times = [one.crew, one.open, one.exists].map(|time| time.to_string()).join(",");
    let (granted, refused, order) = (field(&one.granted), field(&one.refused), word(one.order));
    format!("{group},{number},{size},{order},{times},{granted},{refused},{}", one.differences.join(" and "))
}

#[cfg(test)]
mod tests {
    use super::*;
    use model::builder::job_w;

    fn one(order: Order, granted: Vec<u64>, refused: Vec<u64>) -> Worked {
        Worked { order, crew: 2_000, open: 3_000, exists: 1_000, granted, refused, differences: vec![] }
    }

    #[test]
    fn signings_are_set_beside_existence_and_openings_beside_the_crew() {
        let text =
            text(&[one(Order::Chain, vec![2_000, 1_000, 500], vec![]), one(Order::Random, vec![4_000], vec![8_000])]);
        let words: Vec<Vec<&str>> = text.lines().map(|line| line.split_whitespace().collect()).collect();
        assert_eq!(words[1][3..], ["chain", "1", "3.00", "3.00", "3.00", "1.50", "1.50", "1.50"]);
        assert_eq!(words[6][3..], ["both", "4", "1.00", "4.00", "4.00", "1.00", "4.00", "4.00"]);
        assert_eq!(words[7][3..], ["chain", "0"]);
        assert_eq!(words[8][3..], ["random", "1", "8.00", "8.00", "8.00", "8.00", "8.00", "8.00"]);
        assert_eq!(words[11], ["whole", "job", "random", "1", "15.00", "15.00", "15.00"]);
    }

    #[test]
    fn a_line_has_a_field_for_each_column() {
        let line = csv_line("w", 1, &job_w(), &one(Order::Chain, vec![700, 800, 900], vec![]));
        assert_eq!(line, "w,1,3,4,3,chain,2000,3000,1000,700 800 900,,");
        assert_eq!(line.split(',').count(), CSV_HEADING.split(',').count());
    }
}
