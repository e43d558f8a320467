//! A solver as a process of its own.

use std::env;
use std::io::{self, Read};
use std::process::{Command, Stdio};
use std::sync::mpsc::channel;
use std::thread;
use std::time::{Duration, Instant};

/// Whether there is such a program on the PATH.
pub fn is_there(program: &str) -> bool {
    let folders = env::var_os("PATH").unwrap_or_default();
    env::split_paths(&folders).any(|folder| folder.join(program).is_file())
}

/// What the program printed, and the time from its start to its end; nothing where it was ended at the limit.
pub fn run(command: &mut Command, limit: Duration) -> io::Result<Option<(String, Duration)>> {
    let start = Instant::now();
    let mut child = command.stdin(Stdio::null()).stdout(Stdio::piped()).stderr(Stdio::null()).spawn()?;
    let mut output = child.stdout.take().expect("a pipe was asked for");
    let (sender, printed) = channel();
    thread::spawn(move || {
        let mut text = String::new();
        let read = output.read_to_string(&mut text);
        // Nobody waits any more where the limit has passed.
        let _ = sender.send(read.map(|_| text));
    });
    let Ok(text) = printed.recv_timeout(limit) else {
        child.kill()?;
        child.wait()?;
        return Ok(None);
    };
    child.wait()?;
    Ok(Some((text?, start.elapsed())))
}

/// The number of seconds that stands after a word at the beginning of a line.
pub fn seconds(text: &str, word: &str) -> Option<Duration> {
    let line = text.lines().find(|line| line.trim_start().starts_with(word))?;
    let figure = line.split(':').nth(1)?.split_whitespace().next()?;
    figure.trim_end_matches('s').parse().ok().map(Duration::from_secs_f64)
}

#[cfg(test)]
mod tests {
    use super::*;

    #[test]
    fn times_are_found_in_what_solvers_print() {
        let minisat = "Memory used           : 12.00 MB\nCPU time              : 0.001998 s\n\nSATISFIABLE";
        assert_eq!(seconds(minisat, "CPU time"), Some(Duration::from_nanos(1_998_000)));
        let clingo = "Time         : 0.005s (Solving: 0.00s)\nCPU Time     : 0.001s";
        assert_eq!(seconds(clingo, "CPU Time"), Some(Duration::from_millis(1)));
        assert_eq!(seconds("nothing", "CPU Time"), None);
    }
}
