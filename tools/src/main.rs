//! sheet pack < text > cards; sheet show < cards > text.

use std::env;
use std::io::{self, Read, Write};
use std::process::ExitCode;

const USAGE: &str = "usage: sheet pack < TEXT > CARDS
       sheet show < CARDS > TEXT
Lines of the text, in the order of the chains; # begins a comment:
  levels NUMBER
  person TAG shop NUMBER bench NUMBER pair NUMBER may STEP...
  step TAG [skipped]
  rule same | different LEVEL STEP STEP
  rule at-most | at-least | max-load LIMIT LEVEL STEP...
With a line 'levels', anywhere and once, the sheet is of version 2: it has so many class levels, 1 to 3, the first of shop,
bench and pair, and each person has a class at these. Without it the sheet is of version 1, with shop and bench.
A LEVEL is one of these or person, a STEP is a step's tag.";

fn pack(input: Vec<u8>) -> Result<Vec<u8>, String> {
    let text = String::from_utf8(input).map_err(|_| "the text is not UTF-8".to_string())?;
    sheet::pack::pack(&text).map_err(|fault| fault.to_string())
}

fn show(input: Vec<u8>) -> Result<Vec<u8>, String> {
    sheet::show::show(&input).map(String::into_bytes).map_err(|refusal| refusal.to_string())
}

fn run(turn: fn(Vec<u8>) -> Result<Vec<u8>, String>) -> Result<(), String> {
    let mut input = vec![];
    io::stdin().read_to_end(&mut input).map_err(|error| error.to_string())?;
    let output = turn(input)?;
    io::stdout().write_all(&output).map_err(|error| error.to_string())
}

fn main() -> ExitCode {
    let done = match env::args().nth(1).as_deref() {
        Some("pack") => run(pack),
        Some("show") => run(show),
        _ => {
            eprintln!("{USAGE}");
            return ExitCode::from(2);
        }
    };
    match done {
        Ok(()) => ExitCode::SUCCESS,
        Err(reason) => {
            eprintln!("{reason}");
            ExitCode::FAILURE
        }
    }
}
