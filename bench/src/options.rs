//! Options with a value, taken out of the arguments of a command.

use std::str::FromStr;
use std::time::Duration;

/// Takes an option with its value out of the arguments; nothing where the value is missing or of the wrong form.
pub fn option<T: FromStr>(args: &mut Vec<String>, name: &str, usual: T) -> Option<T> {
    let Some(at) = args.iter().position(|arg| arg == name) else {
        return Some(usual);
    };
    let value = args.get(at + 1)?.parse().ok();
    args.drain(at..at + 2);
    value
}

/// What begins like an option and was not taken out is none that is known.
pub fn has_option(args: &[String]) -> bool {
    args.iter().any(|arg| arg.starts_with("--"))
}

/// What every command that measures is told.
pub struct Run {
    /// The file for its lines.
    pub csv: String,
    /// How many sheets of each group.
    pub sheets: u32,
    /// The longest that a call of the library may take.
    pub late: Duration,
    /// Which groups; all of them where none is named.
    pub groups: Vec<String>,
}

/// The run that is told by the arguments; those that only one command knows are taken out already.
pub fn run(mut args: Vec<String>, usual_sheets: u32) -> Option<Run> {
    let sheets = option(&mut args, "--sheets", usual_sheets)?;
    let late = Duration::from_millis(option(&mut args, "--late-ms", 1_000)?);
    if args.is_empty() || sheets == 0 || has_option(&args) {
        return None;
    }
    Some(Run { csv: args.remove(0), sheets, late, groups: args })
}

#[cfg(test)]
pub fn words(line: &str) -> Vec<String> {
    line.split(' ').map(String::from).collect()
}

#[cfg(test)]
mod tests {
    use super::*;

    #[test]
    fn an_option_is_taken_out_with_its_value() {
        let mut args = words("out.csv --sheets 7 practice");
        assert_eq!(option(&mut args, "--sheets", 200), Some(7));
        assert_eq!(args, words("out.csv practice"));
        assert_eq!(option(&mut args, "--sheets", 200), Some(200));
    }

    #[test]
    fn a_value_is_wanted() {
        assert_eq!(option(&mut words("out.csv --sheets"), "--sheets", 200), None);
        assert_eq!(option(&mut words("--sheets many"), "--sheets", 200), None);
        assert!(has_option(&words("out.csv --sheet 7")));
    }

    #[test]
    fn a_run_names_its_file() {
        let run = super::run(words("out.csv --late-ms 20 practice hard"), 60).unwrap();
        assert_eq!((run.csv.as_str(), run.sheets, run.late), ("out.csv", 60, Duration::from_millis(20)));
        assert_eq!(run.groups, ["practice", "hard"]);
        for line in ["--sheets 7", "out.csv --sheets 0", "out.csv --sheet 7"] {
            assert!(super::run(words(line), 60).is_none(), "{line}");
        }
    }
}
