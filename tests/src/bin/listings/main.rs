//! Compares what the programs print with the model, byte for byte: on random sheets, on the sheets to try, and with the stored
//! listings. Also writes these, or checks that they are up to date.

mod by_trial;
mod kinds;
mod planner;
mod program;

use model::job::Form;
use model::random::Random;
use program::Program;
use sheet_tests::files::{self, Action};
use sheet_tests::forms::{in_form, on_sheet, wanted};
use sheet_tests::listings::{under, Stored};
use sheet_tests::order::Order;
use sheet_tests::tally::Tally;
use sheet_tests::trials::{self, Trial};
use std::process::ExitCode;
use std::{env, fs};

const USAGE: &str = "usage: listings write | check
       listings [--by-trial] COUNT SEED [--seconds N] PROGRAM
The program is the planning program, or with --by-trial the one that tries every plan.";

/// The kinds of a listing that is right, whatever the form of its sheet, or what is wrong with it.
type Verdict = Result<Vec<String>, String>;

struct Drawn {
    sheet: Vec<u8>,
    /// Whether it was made to have a plan. Of the others it is not known.
    planned: bool,
}

/// Which program is compared, and what its listings show.
struct Subject {
    stored: Stored,
    draw: fn(&mut Random) -> Drawn,
    /// The kinds of a listing that is the model's.
    kinds: fn(&[u8], &str) -> Vec<String>,
    /// Of a listing that the model cannot give. Without it the program is not run on such sheets, for it would take too long
    /// itself, and the run has failed.
    large: Option<fn(&Drawn, &str) -> Verdict>,
    /// The kind of a right listing, however it was judged, that the wrong program of tests/wrong cannot print.
    lost: fn(&str) -> Option<String>,
    /// The kinds that have to be met on sheets of a form, beside enough plans.
    wanted: fn(Form) -> Vec<String>,
}

/// Has the sheet listed, and enters what the judge says of it.
fn enter(subject: &Subject, program: &Program, sheet: &[u8], judge: impl Fn(&str) -> Verdict, tally: &mut Tally) {
    let number = tally.entered();
    let judged = |printed: String| Ok((judge(&printed)?, (subject.lost)(&printed)));
    match program.listing(sheet).and_then(judged) {
        Ok((kinds, lost)) => {
            kinds.iter().map(|kind| on_sheet(sheet, kind)).chain(lost).for_each(|kind| tally.count(kind));
            tally.enter(number, sheet, &[]);
        }
        Err(fault) => tally.enter(number, sheet, &[fault]),
    }
}

/// By the model, or where it does not know the listing by what can be said of a large one.
fn enter_by_model(subject: &Subject, program: &Program, name: &str, drawn: &Drawn, tally: &mut Tally) {
    let sheet = &drawn.sheet;
    let judge: Box<dyn Fn(&str) -> Verdict> = match ((subject.stored.listing)(sheet), subject.large) {
        (Some(expected), _) => Box::new(move |printed| {
            if printed == expected {
                return Ok((subject.kinds)(sheet, printed));
            }
            Err(format!("model {expected:?}, program {printed:?}"))
        }),
        (None, Some(large)) => Box::new(move |printed| large(drawn, printed)),
        (None, None) => return tally.enter(tally.entered(), sheet, &[format!("{name}not run: too many plans")]),
    };
    enter(subject, program, sheet, |printed| judge(printed).map_err(|fault| format!("{name}{fault}")), tally);
}

fn by_file(stored: &str, file: &str, name: &str, printed: &str) -> Verdict {
    match under(stored, name) {
        Some(expected) if printed == expected => Ok(vec![format!("as in {file}")]),
        expected => Err(format!("{name}: {file} {expected:?}, program {printed:?}")),
    }
}

fn run(order: &Order, subject: &Subject, program: &Program, stored: &str) -> Tally {
    let mut tally = order.run(&format!("listings-{}", program.name()), |_, random, tally| {
        enter_by_model(subject, program, "", &(subject.draw)(random), tally);
    });
    for Trial { name, sheet, .. } in trials::all() {
        let drawn = Drawn { sheet, planned: false };
        enter_by_model(subject, program, &format!("{name}: "), &drawn, &mut tally);
    }
    for (name, sheet) in (subject.stored.sheets)() {
        let judge = |printed: &str| by_file(stored, subject.stored.file, &name, printed);
        enter(subject, program, &sheet, judge, &mut tally);
    }
    for form in Form::ALL {
        tally.want_times(kinds::least_plans(form), &in_form(form, kinds::PLAN));
    }
    tally.want(wanted(subject.wanted));
    tally
}

/// The subject that the arguments name, which they do no longer then.
fn subject(args: &mut Vec<String>) -> Subject {
    let Some(at) = args.iter().position(|arg| arg == "--by-trial") else {
        return planner::SUBJECT;
    };
    args.remove(at);
    by_trial::SUBJECT
}

fn act(action: Action) -> ExitCode {
    let done = [planner::SUBJECT, by_trial::SUBJECT]
        .map(|Subject { stored, .. }| action(stored.file, stored.text().as_bytes()));
    if done == [true; 2] {
        return ExitCode::SUCCESS;
    }
    ExitCode::FAILURE
}

fn main() -> ExitCode {
    let mut args: Vec<String> = env::args().skip(1).collect();
    if let Some(action) = files::action(args.first()) {
        return act(action);
    }
    let subject = subject(&mut args);
    let (Some(path), Some(order)) = (args.pop(), Order::of(args)) else {
        eprintln!("{USAGE}");
        return ExitCode::from(2);
    };
    let file = subject.stored.file;
    let stored = match fs::read_to_string(files::path(file)) {
        Ok(stored) => stored,
        Err(error) => {
            eprintln!("{file}: {error}");
            return ExitCode::FAILURE;
        }
    };
    println!("seed {}", order.seed);
    run(&order, &subject, &Program { path }, &stored).end()
}

#[cfg(test)]
mod tests {
    use super::*;
    use model::builder::{last_alone, lay};
    use model::job::{MOST_PEOPLE, MOST_STEPS};

    #[test]
    fn a_sheet_that_is_not_run_is_a_failure() {
        let drawn = Drawn { sheet: lay(&last_alone(MOST_PEOPLE, MOST_STEPS)).bytes, planned: true };
        let mut tally = Tally::new("not-run", 1);
        enter_by_model(&by_trial::SUBJECT, &Program { path: String::new() }, "", &drawn, &mut tally);
        assert_eq!((tally.passed, tally.failed), (0, 1));
    }
}
