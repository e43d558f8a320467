//! Writes the input and the expected output of the crate `trials`, or checks that they are up to date.

use model::reader::{read, text};
use sheet_tests::{files, trials};
use std::env;
use std::process::ExitCode;

const USAGE: &str = "usage: trials write | check";

/// Trials whose stated answer is not the model's.
fn disagreements() -> usize {
    let mut count = 0;
    for trial in trials::all() {
        let answer = text(&read(&trial.sheet));
        if answer != trial.answer {
            eprintln!("{}: stated {}, model {}", trial.name, trial.answer, answer);
            count += 1;
        }
    }
    count
}

fn main() -> ExitCode {
    let Some(action) = files::action(env::args().nth(1).as_ref()) else {
        eprintln!("{USAGE}");
        return ExitCode::from(2);
    };
    if disagreements() > 0 {
        return ExitCode::FAILURE;
    }
    let (input, output) = trials::files();
    if !action("crates/trials/stdin", &input) | !action("crates/trials/stdout", output.as_bytes()) {
        return ExitCode::FAILURE;
    }
    println!("{} trials, {} bytes of input", trials::all().len(), input.len());
    ExitCode::SUCCESS
}
