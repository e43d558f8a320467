//! The figures of crews by trial: the plain table, and a line a sheet for the file.

use super::work::Measured;
use crate::table::{plan_word, spread};

const RATIOS: [&str; 2] = ["to crew", "to hand"];

pub fn heading() -> String {
    let ratios = RATIOS.map(|name| format!("{:>9} {:>9}", name, "worst")).join(" ");
    let times = format!("{:>9} {:>9} {:>9}", "tried", "median", "worst");
    format!("{:5} {:4} {:>6} {times} {ratios} {:>12}", "steps", "plan", "sheets", "plans a s")
}

/// Of sheets that have as many steps, all with a plan or all without: medians of plans tried and times in us, then of ratios.
pub fn line(all: &[Measured]) -> String {
    let first = &all[0];
    let figures = |of: &dyn Fn(&Measured) -> f64| spread(all.iter().map(of));
    let times = figures(&|one| one.by_trial as f64 / 1_000.0);
    let ratios = [|one: &Measured| one.crew, |one: &Measured| one.hand].map(|of| {
        let ratio = figures(&|one| one.by_trial as f64 / of(one) as f64);
        format!("{:>9.2} {:>9.2}", ratio.median, ratio.worst)
    });
    let tried = figures(&|one| one.tried as f64).median;
    let speed = figures(&|one| one.tried as f64 * 1e9 / one.by_trial as f64).median;
    let head = format!("{:<5} {:4} {:>6}", first.steps, plan_word(Some(first.has_plan)), all.len());
    format!("{head} {tried:>9.0} {:>9.2} {:>9.2} {} {speed:>12.0}", times.median, times.worst, ratios.join(" "))
}

pub const CSV_HEADING: &str = "sheet,steps,people,rules,plan,tried,crew_ns,by_trial_ns,hand_ns,differences";

pub fn csv_line(number: u64, one: &Measured) -> String {
    let size = format!("{},{},{}", one.steps, one.people, one.rules);
    let times = [one.tried, one.crew, one.by_trial, one.hand].map(|figure| figure.to_string()).join(",");
    format!("{number},{size},{},{times},{}", plan_word(Some(one.has_plan)), one.differences.join(" and "))
}

#[cfg(test)]
mod tests {
    use super::*;

    fn one(tried: u64, by_trial: u64) -> Measured {
        Measured {
            steps: 3,
            people: 5,
            rules: 2,
            has_plan: false,
            tried,
            crew: 2_000,
            by_trial,
            hand: 4_000,
            differences: vec![],
        }
    }

    #[test]
    fn a_line_has_times_ratios_and_plans_a_second() {
        let line = line(&[one(100, 8_000), one(125, 5_000), one(125, 2_000)]);
        let words: Vec<&str> = line.split_whitespace().collect();
        let expected = ["3", "no", "3", "125", "5.00", "8.00", "2.50", "4.00", "1.25", "2.00", "25000000"];
        assert_eq!(words, expected);
    }

    #[test]
    fn a_line_has_a_field_for_each_column() {
        let line = csv_line(7, &one(125, 5_000));
        assert_eq!(line, "7,3,5,2,no,125,2000,5000,4000,");
        assert_eq!(line.split(',').count(), CSV_HEADING.split(',').count());
    }
}
