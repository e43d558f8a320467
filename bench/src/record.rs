//! The lines at the head of a recorded file: where, when and how it was made.

use std::fs::{read_to_string, File};
use std::io::{self, BufWriter, Write};
use std::time::{SystemTime, UNIX_EPOCH};
use std::{env, thread};

const SECONDS_A_DAY: u64 = 86_400;

fn processor() -> String {
    let known = read_to_string("/proc/cpuinfo").unwrap_or_default();
    let name = known.lines().find_map(|line| line.strip_prefix("model name")?.split(':').nth(1));
    name.map_or("unknown processor".to_string(), |name| name.trim().to_string())
}

fn machine() -> String {
    let cores = thread::available_parallelism().map_or(1, usize::from);
    format!("{}, {cores} cores, {} {}", processor(), env::consts::OS, env::consts::ARCH)
}

fn days_of_year(year: u64) -> u64 {
    let leap = year.is_multiple_of(4) && (!year.is_multiple_of(100) || year.is_multiple_of(400));
    365 + u64::from(leap)
}

/// The date, as 2026-11-15, of a day counted from the first of 1970.
fn date(mut days: u64) -> String {
    let mut year = 1970;
    while days >= days_of_year(year) {
        days -= days_of_year(year);
        year += 1;
    }
    let february = days_of_year(year) - 337;
    let mut month = 1;
    for length in [31, february, 31, 30, 31, 30, 31, 31, 30, 31, 30, 31] {
        if days < length {
            break;
        }
        days -= length;
        month += 1;
    }
    format!("{year}-{month:02}-{:02}", days + 1)
}

fn today() -> String {
    let seconds = SystemTime::now().duration_since(UNIX_EPOCH).map_or(0, |past| past.as_secs());
    date(seconds / SECONDS_A_DAY)
}

/// A new file that begins with machine, date and command, and whatever else is to be known of the run.
pub fn create(path: &str, more: &[String]) -> io::Result<BufWriter<File>> {
    let mut file = BufWriter::new(File::create(path)?);
    let command = env::args().skip(1).collect::<Vec<_>>().join(" ");
    writeln!(file, "# machine: {}", machine())?;
    writeln!(file, "# date: {}", today())?;
    writeln!(file, "# command: bench {command}")?;
    for line in more {
        writeln!(file, "# {line}")?;
    }
    Ok(file)
}

#[cfg(test)]
mod tests {
    use super::*;

    #[test]
    fn days_are_dates() {
        assert_eq!(date(0), "1970-01-01");
        assert_eq!(date(59), "1970-03-01");
        assert_eq!(date(19_782), "2024-02-29");
        assert_eq!(date(20_453), "2025-12-31");
        assert_eq!(date(20_772), "2026-11-15");
    }
}
