//! Writes the cases of the trials in C, tests/c/expected.bin, or checks that they are up to date.

use sheet_tests::{cases, files};
use std::env;
use std::process::ExitCode;

const USAGE: &str = "usage: expect write | check";

fn main() -> ExitCode {
    let Some(action) = files::action(env::args().nth(1).as_ref()) else {
        eprintln!("{USAGE}");
        return ExitCode::from(2);
    };
    if !action("tests/c/expected.bin", &cases::file()) {
        return ExitCode::FAILURE;
    }
    ExitCode::SUCCESS
}
