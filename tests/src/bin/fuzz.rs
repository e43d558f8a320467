//! Compares the program `trials` with the model on random sheets.

use model::card::{CARD, RULE};
use model::garble::{sample, Sample};
use model::job::{Form, Job, MAX_LOAD, SAME};
use model::random::Random;
use model::reader::{read, text};
use model::refusal::{Refusal, BAD_FIELD, BAD_LENGTH, LOOSE_CARD};
use sheet_tests::forms::{can_refuse, on_sheet, wanted};
use sheet_tests::records;
use sheet_tests::tally::Tally;
use std::collections::BTreeSet;
use std::io::{BufRead, BufReader, Write};
use std::process::{Command, ExitCode, Stdio};
use std::{env, thread};

const USAGE: &str = "usage: fuzz COUNT SEED PROGRAM";

/// How many sheets one run of the program is given.
const BATCH: usize = 1_000;

/// The program's lines for these samples, named by numbers from `start`. A last record has only `cut` bytes, and gets
/// no line.
fn answers(program: &str, start: usize, samples: &[Sample], cut: usize) -> std::io::Result<Vec<String>> {
    let mut stream = Vec::new();
    for (k, sample) in samples.iter().enumerate() {
        records::add(&mut stream, &(start + k).to_string(), &sample.sheet);
    }
    let whole = stream.len();
    records::add(&mut stream, "cut short", &[1; CARD]);
    stream.truncate(whole + cut);
    let mut child = Command::new(program).stdin(Stdio::piped()).stdout(Stdio::piped()).spawn()?;
    let mut input = child.stdin.take().expect("stdin is piped");
    let output = child.stdout.take().expect("stdout is piped");
    // A program that stops early closes its input; the missing lines then say so.
    let writer = thread::spawn(move || drop(input.write_all(&stream)));
    let lines = BufReader::new(output).lines().collect();
    writer.join().expect("the writer ends");
    child.wait()?;
    lines
}

/// What is wrong with the answer to a sample, if anything.
fn fault(name: usize, sample: &Sample, line: Option<&String>) -> Option<String> {
    let model = read(&sample.sheet);
    if sample.job.is_some() && model.as_ref().ok() != sample.job.as_ref() {
        return Some(format!("the model does not read a good sheet: {}", text(&model)));
    }
    let expected = format!("{name}: {}", text(&model));
    match line {
        Some(line) if *line == expected => None,
        Some(line) => Some(format!("model '{expected}', program '{line}'")),
        None => Some(format!("model '{expected}', program nothing")),
    }
}

/// By how many steps a readable sheet skips. A run in which one of these, a refusal, or a rule of some kind was never met on
/// sheets of a form has failed.
const READABLE: [&str; 3] = ["readable", "readable, some steps skipped", "readable, all steps skipped"];

fn refusal(number: u32) -> String {
    format!("refusal {number:2}")
}

fn has_kind(kind: u8) -> String {
    format!("readable, a rule of kind {kind}")
}

/// Kinds that there are, and those just beyond them.
fn bad_rule(kind: u8) -> String {
    let more = if kind > MAX_LOAD + 1 { " or more" } else { "" };
    format!("refusal  8, a rule of kind {}{more}", kind.min(MAX_LOAD + 2))
}

/// What has to be met on sheets of a form.
fn outcomes(form: Form) -> Vec<String> {
    let refusals = (BAD_LENGTH..=LOOSE_CARD).filter(|&number| can_refuse(form, number)).map(refusal);
    let rules = (SAME..=MAX_LOAD).map(has_kind);
    let bad_rules = (SAME - 1..=MAX_LOAD + 2).map(bad_rule);
    READABLE.map(String::from).into_iter().chain(refusals).chain(rules).chain(bad_rules).collect()
}

fn of_job(job: &Job) -> Vec<String> {
    let left = job.remaining().count();
    let skipped = if left == job.steps.len() { 0 } else { 1 + usize::from(left == 0) };
    let kinds: BTreeSet<u8> = job.rules.iter().map(|rule| rule.kind).collect();
    [READABLE[skipped].to_string()].into_iter().chain(kinds.into_iter().map(has_kind)).collect()
}

fn of_refusal(sheet: &[u8], refused: Refusal) -> Vec<String> {
    let is_field = refused.number == BAD_FIELD;
    let held = if is_field { &sheet[refused.card * CARD..] } else { &[] };
    let more = held.first().filter(|kind| **kind == RULE).map(|_| bad_rule(held[1]));
    [refusal(refused.number)].into_iter().chain(more).collect()
}

fn met(sample: &Sample) -> Vec<String> {
    match read(&sample.sheet) {
        Ok(job) => of_job(&job),
        Err(refused) => of_refusal(&sample.sheet, refused),
    }
}

fn run(count: usize, seed: u64, program: &str) -> std::io::Result<Tally> {
    let mut random = Random::new(seed);
    let mut tally = Tally::new("fuzz", seed);
    let mut done = 0;
    while done < count {
        let size = BATCH.min(count - done);
        let samples: Vec<Sample> = (0..size).map(|_| sample(&mut random)).collect();
        let lines = answers(program, done, &samples, random.below(3 + 9 + CARD))?;
        for (k, sample) in samples.iter().enumerate() {
            met(sample).iter().for_each(|outcome| tally.count(on_sheet(&sample.sheet, outcome)));
            let faults: Vec<String> = fault(done + k, sample, lines.get(k)).into_iter().collect();
            tally.enter((done + k) as u64, &sample.sheet, &faults);
        }
        if lines.len() > size {
            return Err(std::io::Error::other("the program wrote too many lines"));
        }
        done += size;
    }
    tally.want(wanted(outcomes));
    Ok(tally)
}

fn main() -> ExitCode {
    let args: Vec<String> = env::args().skip(1).collect();
    let (Some(count), Some(seed), Some(program)) =
        (args.first().and_then(|a| a.parse().ok()), args.get(1).and_then(|a| a.parse().ok()), args.get(2))
    else {
        eprintln!("{USAGE}");
        return ExitCode::from(2);
    };
    println!("seed {seed}");
    match run(count, seed, program) {
        Ok(tally) => tally.end(),
        Err(error) => {
            eprintln!("{program}: {error}");
            ExitCode::from(2)
        }
    }
}
