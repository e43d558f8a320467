//! What has come up in a run over random sheets, and the failing ones.

use std::collections::BTreeMap;
use std::fs;
use std::path::PathBuf;
use std::process::ExitCode;

/// How many failing sheets are named and saved.
const MOST_SAVED: u64 = 10;

pub struct Tally {
    /// The beginning of the names of saved sheets.
    run: String,
    met: BTreeMap<String, u64>,
    pub passed: u64,
    pub failed: u64,
}

impl Tally {
    pub fn new(program: &str, seed: u64) -> Tally {
        Tally { run: format!("{program}-{seed}"), met: BTreeMap::new(), passed: 0, failed: 0 }
    }

    pub fn count(&mut self, outcome: String) {
        *self.met.entry(outcome).or_default() += 1;
    }

    /// What never came up was not tried: each of these outcomes that is missing is a failure.
    pub fn want(&mut self, outcomes: impl IntoIterator<Item = String>) {
        for outcome in outcomes {
            self.want_times(1, &outcome);
        }
    }

    /// The same of an outcome that came up less often than this.
    pub fn want_times(&mut self, least: u64, outcome: &str) {
        let times = self.met.get(outcome).copied().unwrap_or(0);
        if times < least {
            println!("FAILED, met {times} of {least} times: {outcome}");
            self.failed += 1;
        }
    }

    /// How many sheets were counted.
    pub fn entered(&self) -> u64 {
        self.passed + self.failed
    }

    /// Counts a sheet as passed or failed; the first failing ones are saved.
    pub fn enter(&mut self, number: u64, sheet: &[u8], faults: &[String]) {
        if faults.is_empty() {
            self.passed += 1;
            return;
        }
        self.failed += 1;
        if self.failed > MOST_SAVED {
            return;
        }
        let name = format!("{}-{number}.sheet", self.run);
        let path = PathBuf::from(env!("CARGO_MANIFEST_DIR")).join("target").join(&name);
        let saved = match fs::write(path, sheet) {
            Ok(()) => format!("saved as tests/target/{name}"),
            Err(error) => format!("not saved: {error}"),
        };
        println!("FAILED {}; {saved}", faults.join("; "));
    }

    /// Prints how often each outcome was met, and what the run ends with. A run over nothing has not passed.
    pub fn end(&self) -> ExitCode {
        for (outcome, times) in &self.met {
            println!("{outcome}: {times}");
        }
        println!("{} passed, {} failed", self.passed, self.failed);
        if self.failed > 0 || self.passed == 0 {
            return ExitCode::FAILURE;
        }
        ExitCode::SUCCESS
    }
}

#[cfg(test)]
mod tests {
    use super::*;

    #[test]
    fn what_came_up_too_seldom_is_a_failure() {
        let mut tally = Tally::new("tally", 1);
        (0..3).for_each(|_| tally.count("seen".to_string()));
        tally.want(["seen".to_string()]);
        tally.want_times(3, "seen");
        assert_eq!(tally.failed, 0);
        tally.want_times(4, "seen");
        tally.want(["never seen".to_string()]);
        assert_eq!(tally.failed, 2);
    }
}
