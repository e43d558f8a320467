//! The figures of two builds: the plain table, the highest ratios, and a line a sheet for the file.

use super::Beside;
use crate::groups::PRACTICE;
use crate::table::{field, figures, plan_word, spread, time};
use crate::turns::{self, mean, Times};

/// How many sheets of a family are named for their ratios.
const MOST_NAMED: usize = 5;

/// Which of the calls of a sheet.
type Column = fn(&Beside) -> Times;

const CALLS: [(&str, Column); 2] = [("crew", |one| one.crew), ("spare", |one| one.spare)];

/// Practice sheets are one family, each other group is one of its own.
fn family(one: &Beside) -> &str {
    if one.group.starts_with(PRACTICE) {
        return PRACTICE;
    }
    &one.group
}

/// Cells as wide as the names of their columns.
fn cells(words: [String; 9]) -> String {
    let [family, call, sheets, this, other, median, mean, late, other_late] = words;
    let times = format!("{this:>12} {other:>12}");
    format!("{family:22} {call:5} {sheets:>6} {times} {median:>12} {mean:>8} {late:>5} {other_late:>10}")
}

fn row(family: &str, (call, of): (&str, Column), all: &[&Beside]) -> String {
    let times: Vec<Times> = all.iter().map(|one| of(one)).collect();
    let ratios: Vec<f64> = times.iter().filter_map(|times| times.ratio()).collect();
    let (this, other) = (figures(times.iter().map(|times| times.this)), figures(times.iter().map(|times| times.other)));
    let median = (!ratios.is_empty()).then(|| spread(ratios.iter().copied()).median);
    cells([
        family.to_string(),
        call.to_string(),
        all.len().to_string(),
        time(this.median),
        time(other.median),
        turns::text(median),
        turns::text(mean(&ratios)),
        this.unfinished.to_string(),
        other.unfinished.to_string(),
    ])
}

/// The sheets on which this build does worst beside the other.
fn highest(all: &[&Beside]) -> Vec<String> {
    let mut named: Vec<(f64, String)> = vec![];
    for one in all {
        for (call, of) in CALLS {
            let (this, other) = (figures([of(one).this].into_iter()), figures([of(one).other].into_iter()));
            if let Some(found) = of(one).ratio() {
                let times = format!("{} to {} us", time(this.median), time(other.median));
                named.push((found, format!("{} of {call}, {}: {times}", turns::text(Some(found)), one.title)));
            }
        }
    }
    named.sort_by(|(a, _), (b, _)| b.total_cmp(a));
    named.into_iter().take(MOST_NAMED).map(|(_, line)| line).collect()
}

pub fn text(all: &[Beside]) -> String {
    let columns = ["times in us", "call", "sheets", "median", "other", "ratio median", "mean", "late", "other late"];
    let mut lines = vec![cells(columns.map(String::from))];
    let mut worst = vec!["highest ratios:".to_string()];
    let mut families: Vec<&str> = all.iter().map(family).collect();
    families.dedup();
    for name in families {
        let own: Vec<&Beside> = all.iter().filter(|one| family(one) == name).collect();
        lines.extend(CALLS.map(|call| row(name, call, &own)));
        worst.extend(highest(&own));
    }
    [lines, worst].concat().join("\n")
}

pub const CSV_HEADING: &str =
    "group,sheet,steps,people,rules,plan,crew_ns,other_crew_ns,spare_ns,other_spare_ns,differences";

pub fn csv_line(one: &Beside) -> String {
    let size = one.size.map(|size| size.to_string()).join(",");
    let times = [one.crew.this, one.crew.other, one.spare.this, one.spare.other].map(field).join(",");
    let (plan, differences) = (plan_word(one.has_plan), one.differences.join(" and "));
    format!("{},{},{size},{plan},{times},{differences}", one.group, one.number)
}

#[cfg(test)]
mod tests {
    use super::*;
    use crate::clock::Nanos;

    fn one(group: &str, number: u32, this: Nanos, other: Nanos) -> Beside {
        Beside {
            group: group.to_string(),
            number,
            title: format!("{group} {number}"),
            size: [12, 64, 8],
            has_plan: Some(true),
            crew: Times { this, other },
            spare: Times { this: Some(4_000), other: Some(4_000) },
            differences: vec![],
        }
    }

    #[test]
    fn practice_sheets_are_one_family() {
        let all = [
            one("practice-8", 1, Some(3_000), Some(2_000)),
            one("practice-range", 1, Some(2_000), Some(4_000)),
            one("hard", 1, None, Some(9_000)),
        ];
        let text = text(&all);
        let words: Vec<Vec<&str>> = text.lines().map(|line| line.split_whitespace().collect()).collect();
        assert_eq!(words[1], ["practice", "crew", "2", "2.0", "2.0", "0.50", "0.87", "0", "0"]);
        assert_eq!(words[3], ["hard", "crew", "1", "late", "9.0", "late", "-", "1", "0"]);
        assert!(text.contains("\n1.50 of crew, practice-8 1: 3.0 to 2.0 us\n"));
        assert!(text.contains("\nlate of crew, hard 1: late to 9.0 us\n"));
    }

    #[test]
    fn a_line_has_a_field_for_each_column() {
        let line = csv_line(&one("hard", 3, None, Some(9_000)));
        assert_eq!(line, "hard,3,12,64,8,yes,,9000,4000,4000,");
        assert_eq!(line.split(',').count(), CSV_HEADING.split(',').count());
    }
}
