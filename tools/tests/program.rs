//! The program itself, from its input to its output.

use model::builder::{one_by_one, sheet_w, sheet_w_in, shorter_w};
use model::job::Form;
use std::io::Write;
use std::process::{Command, Output, Stdio};

fn run(word: &str, input: &[u8]) -> Output {
    let mut program = Command::new(env!("CARGO_BIN_EXE_sheet"));
    program.arg(word).stdin(Stdio::piped()).stdout(Stdio::piped()).stderr(Stdio::piped());
    let mut child = program.spawn().expect("the program starts");
    child.stdin.take().expect("stdin is piped").write_all(input).expect("the program reads its input");
    child.wait_with_output().expect("the program ends")
}

/// Whether every line is ended, the last among them, and none is empty.
fn is_in_lines(text: &[u8]) -> bool {
    text.ends_with(b"\n") && text.split_inclusive(|byte| *byte == b'\n').all(|line| line.len() > 1)
}

#[test]
fn what_is_shown_ends_its_last_line() {
    // The last line is a rule's, a step's, a skipped step's, and a rule's again.
    let sheets = [sheet_w(), one_by_one(1), one_by_one(1).skip(2), shorter_w()];
    for sheet in sheets.into_iter().chain(Form::ALL.map(sheet_w_in)) {
        let shown = run("show", &sheet.bytes);
        assert!(shown.status.success() && shown.stderr.is_empty(), "{shown:?}");
        assert!(is_in_lines(&shown.stdout), "{shown:?}");
        assert_eq!(run("pack", &shown.stdout).stdout, sheet.bytes);
    }
}

#[test]
fn a_refusal_ends_its_line_and_shows_nothing() {
    let refused = run("show", &sheet_w().byte(0, 0, 9).bytes);
    assert!(!refused.status.success() && refused.stdout.is_empty(), "{refused:?}");
    assert_eq!(refused.stderr, b"REFUSED 4 CARD 0\n");
}
