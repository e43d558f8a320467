//! The figures of a group: the plain table, and a line a sheet for the file.

use crate::clock::Nanos;
use crate::measure::Measured;

/// Which of the times of a sheet.
type Column = fn(&Measured) -> Nanos;

/// Median, 90th and 99th percentile and worst, and how many did not finish.
pub struct Figures {
    pub median: f64,
    pub p90: f64,
    pub p99: f64,
    pub worst: f64,
    pub unfinished: usize,
}

/// The figures of one value or more; what did not finish is infinite.
pub fn spread(values: impl Iterator<Item = f64>) -> Figures {
    let mut sorted: Vec<f64> = values.collect();
    sorted.sort_by(f64::total_cmp);
    let at = |share: f64| sorted[((sorted.len() as f64 * share).ceil() as usize).clamp(1, sorted.len()) - 1];
    Figures {
        median: at(0.5),
        p90: at(0.9),
        p99: at(0.99),
        worst: at(1.0),
        unfinished: sorted.iter().filter(|value| value.is_infinite()).count(),
    }
}

/// The figures of times, in microseconds. What is missing did not finish: it counts as worse than all others, so that no
/// figure looks better for it.
pub fn figures(times: impl Iterator<Item = Nanos>) -> Figures {
    spread(times.map(|time| time.map_or(f64::INFINITY, |nanos| nanos as f64 / 1_000.0)))
}

pub fn time(micros: f64) -> String {
    if micros.is_infinite() {
        return "late".to_string();
    }
    format!("{micros:.1}")
}

pub fn heading() -> String {
    let times = format!("{:>10} {:>10} {:>10} {:>5}", "median", "p99", "worst", "late");
    format!("{:24} {:6} {:>6} {:>5} {times}", "group, times in us", "search", "sheets", "plans")
}

fn line(name: &str, search: &str, all: &[Measured], of: Column) -> String {
    let found = figures(all.iter().map(of));
    let plans = all.iter().filter(|one| one.has_plan == Some(true)).count();
    let times = [found.median, found.p99, found.worst].map(|micros| format!("{:>10}", time(micros))).join(" ");
    format!("{name:24} {search:6} {:>6} {plans:>5} {times} {:>5}", all.len(), found.unfinished)
}

/// The lines of a group: the library's crew beside the first plan and any plan by hand, then the spare counts.
pub fn lines(name: &str, all: &[Measured]) -> String {
    let rows: [(&str, Column); 5] = [
        ("crew", |one| one.crew),
        ("first", |one| one.first),
        ("any", |one| one.exists),
        ("spare", |one| one.spare),
        ("hand", |one| one.hand_spare),
    ];
    rows.map(|(search, of)| line(name, search, all, of)).join("\n")
}

pub const CSV_HEADING: &str =
    "group,sheet,steps,people,rules,plan,crew_ns,first_ns,any_ns,spare_ns,hand_spare_ns,differences";

pub fn plan_word(has_plan: Option<bool>) -> &'static str {
    match has_plan {
        Some(true) => "yes",
        Some(false) => "no",
        None => "",
    }
}

/// A time in the file; one that is missing stands for a search that did not finish.
pub fn field(time: Nanos) -> String {
    time.map_or(String::new(), |nanos| nanos.to_string())
}

pub fn csv_line(name: &str, sheet: u32, one: &Measured) -> String {
    let times = [one.crew, one.first, one.exists, one.spare, one.hand_spare].map(field).join(",");
    let plan = plan_word(one.has_plan);
    let size = format!("{},{},{}", one.steps, one.people, one.rules);
    format!("{name},{sheet},{size},{plan},{times},{}", one.differences.join(" and "))
}
