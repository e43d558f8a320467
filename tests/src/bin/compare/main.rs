//! Compares the library with the brute force on random sheets of which every plan can be tried, more of them garbled than good.

mod check;
mod kinds;
mod sheets;

use check::check;
use sheet_tests::order::{usage, Order};
use std::env;
use std::process::ExitCode;

fn main() -> ExitCode {
    let Some(order) = Order::of(env::args().skip(1).collect()) else {
        eprintln!("{}", usage("compare"));
        return ExitCode::from(2);
    };
    println!("seed {}", order.seed);
    let mut tally = order.run("compare", |number, random, tally| {
        let sample = sheets::any(random);
        let faults = check(random, &sample, tally);
        tally.enter(number, &sample.sheet, &faults);
    });
    tally.want(kinds::all());
    tally.end()
}
