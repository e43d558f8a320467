//! Measures the library beside other searches on the same sheets, compares their answers, and looks for hard sheets.

mod absences;
mod accidents;
mod against;
mod asked;
mod baseline;
mod beside;
mod builds;
mod climb;
mod clock;
mod compare;
mod groups;
mod hard;
mod levels;
mod loads;
mod measure;
mod narrow;
mod options;
mod peers;
mod problem;
mod randoms;
mod record;
mod sign;
mod skipped;
mod table;
mod trial;
mod turns;
mod worker;

use std::env;
use std::io;
use std::process::ExitCode;

/// What a command ends with.
enum End {
    Done,
    /// So many answers differ.
    Different(usize),
    Misused,
}

fn differences(count: usize) -> End {
    if count == 0 {
        End::Done
    } else {
        End::Different(count)
    }
}

fn run(mut args: Vec<String>) -> io::Result<End> {
    if args.is_empty() {
        return Ok(End::Misused);
    }
    match args.remove(0).as_str() {
        "measure" => compare::order(args).map_or(Ok(End::Misused), |order| compare::run(&order).map(differences)),
        "beside" => beside::order(args).map_or(Ok(End::Misused), |order| beside::run(&order).map(differences)),
        "climb" => climb::order(args).map_or(Ok(End::Misused), |order| climb::run(&order).map(|()| End::Done)),
        "levels" => levels::order(args).map_or(Ok(End::Misused), |order| levels::run(&order).map(differences)),
        "loads" => loads::order(args).map_or(Ok(End::Misused), |order| loads::run(&order).map(differences)),
        "peers" => peers::order(args).map_or(Ok(End::Misused), |order| peers::run(&order).map(differences)),
        "sign" => sign::order(args).map_or(Ok(End::Misused), |order| sign::run(&order).map(differences)),
        "skipped" => skipped::order(args).map_or(Ok(End::Misused), |order| skipped::run(&order).map(differences)),
        "trial" => trial::order(args).map_or(Ok(End::Misused), |order| trial::run(&order).map(differences)),
        worker::COMMAND => worker::serve().map(|()| End::Done),
        _ => Ok(End::Misused),
    }
}

fn main() -> ExitCode {
    match run(env::args().skip(1).collect()) {
        Ok(End::Done) => ExitCode::SUCCESS,
        Ok(End::Different(count)) => {
            println!("{count} different answers");
            ExitCode::FAILURE
        }
        Ok(End::Misused) => {
            let usages = [
                compare::USAGE,
                levels::USAGE,
                loads::USAGE,
                peers::USAGE,
                beside::USAGE,
                sign::USAGE,
                skipped::USAGE,
                trial::USAGE,
                climb::USAGE,
            ];
            eprintln!("usage: {}", usages.join("\n\n"));
            ExitCode::from(2)
        }
        Err(error) => {
            eprintln!("bench: {error}");
            ExitCode::from(2)
        }
    }
}
