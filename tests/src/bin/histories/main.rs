//! Compares the library with the brute force on random histories of jobs under work: opened, signed, opened again, and memory
//! that no call has made. COUNT is the number of histories; each has up to forty calls.

mod history;
mod kinds;
mod laws;
mod moves;
mod starts;

use history::History;
use sheet_tests::order::{usage, Order};
use std::env;
use std::process::ExitCode;

fn main() -> ExitCode {
    let Some(order) = Order::of(env::args().skip(1).collect()) else {
        eprintln!("{}", usage("histories"));
        return ExitCode::from(2);
    };
    println!("seed {}", order.seed);
    let mut tally = order.run("histories", |number, random, tally| {
        let mut history = History::begin(random);
        let faults = history.go_on(random, tally);
        tally.enter(number, history.sheet(), &faults);
    });
    tally.want(kinds::all());
    tally.end()
}
