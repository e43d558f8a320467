//! Calls of the library in a child process, so that an endless call can be ended. The clock runs inside the child, around
//! the call alone: what goes through the pipes is not in the times.

use crate::asked::Asked;
use crate::builds::{linked, Which};
use crate::clock::timed;
use model::answers::{Call, MOST_CREW_BYTES};
use model::card::MOST_BYTES;
use std::env;
use std::io::{self, Read, Write};
use std::process::{Child, ChildStdin, Command, Stdio};
use std::sync::mpsc::{channel, Receiver};
use std::thread;
use std::time::Duration;

/// The command under which the program is the child.
pub const COMMAND: &str = "calls";

/// The bytes for what is called, and for the build of which it is called.
const CREW: u8 = 0;
const SPARE: u8 = 1;
const CREW_BY_TRIAL: u8 = 2;
const THIS: u8 = 0;
const OTHER: u8 = 1;

/// What was returned and written, and the time of the call.
#[derive(Clone, Debug, PartialEq, Eq)]
pub struct Called {
    pub number: u32,
    pub area: [u8; MOST_CREW_BYTES],
    pub nanos: u64,
}

/// What a call is sent as: the bytes of the build and of the call, its cap, its room, the length of the sheet, the sheet.
fn question(which: Which, asked: Asked, sheet: &[u8]) -> Vec<u8> {
    let build = if which == Which::This { THIS } else { OTHER };
    let (byte, cap) = match asked.call {
        Call::Crew => (CREW, 0),
        Call::CrewByTrial => (CREW_BY_TRIAL, 0),
        Call::Spare { cap } => (SPARE, cap),
    };
    [&[build, byte, cap as u8, asked.room as u8], &(sheet.len() as u16).to_le_bytes()[..], sheet].concat()
}

fn read_question(input: &mut impl Read) -> io::Result<(Which, Asked, Vec<u8>)> {
    let mut head = [0; 6];
    input.read_exact(&mut head)?;
    let [build, byte, cap, room, low, high] = head;
    let mut sheet = vec![0; usize::from(u16::from_le_bytes([low, high])).min(MOST_BYTES)];
    input.read_exact(&mut sheet)?;
    let which = if build == THIS { Which::This } else { Which::Other };
    let call = match byte {
        CREW => Call::Crew,
        CREW_BY_TRIAL => Call::CrewByTrial,
        _ => Call::Spare { cap: cap.into() },
    };
    Ok((which, Asked { call, room: usize::from(room).min(MOST_CREW_BYTES) }, sheet))
}

/// What it is answered by: the returned number, the nanoseconds, the area.
fn answer(called: &Called) -> Vec<u8> {
    [&called.number.to_le_bytes()[..], &called.nanos.to_le_bytes(), &called.area].concat()
}

fn read_answer(input: &mut impl Read) -> io::Result<Called> {
    let (mut number, mut nanos, mut area) = ([0; 4], [0; 8], [0; MOST_CREW_BYTES]);
    input.read_exact(&mut number)?;
    input.read_exact(&mut nanos)?;
    input.read_exact(&mut area)?;
    Ok(Called { number: u32::from_le_bytes(number), area, nanos: u64::from_le_bytes(nanos) })
}

extern "C" {
    fn prctl(option: i32, value: u64, ...) -> i32;
}

const PR_SET_PDEATHSIG: i32 = 1;
const SIGKILL: u64 = 9;

/// The child: answers until its input ends. In an endless call it would not see that nobody listens any more, so that it
/// is ended with its parent.
pub fn serve() -> io::Result<()> {
    // Takes a number and nothing that is lent.
    unsafe { prctl(PR_SET_PDEATHSIG, SIGKILL) };
    let (mut input, mut output) = (io::stdin().lock(), io::stdout().lock());
    while let Ok((which, Asked { call, room }, sheet)) = read_question(&mut input) {
        let build = linked(which).ok_or_else(|| io::Error::other("there is no second build"))?;
        let mut area = [0; MOST_CREW_BYTES];
        let (number, time) = timed(|| build.run(call, &sheet, &mut area[..room]));
        output.write_all(&answer(&Called { number, area, nanos: time.as_nanos() as u64 }))?;
        output.flush()?;
    }
    Ok(())
}

struct Running {
    child: Child,
    questions: ChildStdin,
    answers: Receiver<Called>,
}

impl Running {
    fn start() -> io::Result<Running> {
        let mut child =
            Command::new(env::current_exe()?).arg(COMMAND).stdin(Stdio::piped()).stdout(Stdio::piped()).spawn()?;
        let questions = child.stdin.take().expect("a pipe was asked for");
        let mut output = child.stdout.take().expect("a pipe was asked for");
        let (sender, answers) = channel();
        thread::spawn(move || {
            while let Ok(called) = read_answer(&mut output) {
                if sender.send(called).is_err() {
                    break;
                }
            }
        });
        Ok(Running { child, questions, answers })
    }
}

impl Drop for Running {
    fn drop(&mut self) {
        // It may have ended by itself already.
        let _ = self.child.kill();
        let _ = self.child.wait();
    }
}

/// A child for calls, started again after one that was ended.
pub struct Worker {
    running: Option<Running>,
}

impl Worker {
    pub fn new() -> Worker {
        Worker { running: None }
    }

    /// Nothing where the call takes longer than the limit. A child that ends by itself is an error: the library failed.
    pub fn call(&mut self, which: Which, asked: Asked, sheet: &[u8], limit: Duration) -> io::Result<Option<Called>> {
        let running = match &mut self.running {
            Some(running) => running,
            none => none.insert(Running::start()?),
        };
        running.questions.write_all(&question(which, asked, sheet))?;
        running.questions.flush()?;
        if let Ok(called) = running.answers.recv_timeout(limit) {
            return Ok(Some(called));
        }
        let ended = running.child.try_wait()?;
        self.running = None;
        match ended {
            Some(status) => Err(io::Error::other(format!("a call of the library ended its process: {status}"))),
            None => Ok(None),
        }
    }
}

#[cfg(test)]
mod tests {
    use super::*;
    use model::builder::sheet_w;

    #[test]
    fn a_question_is_read_as_it_was_sent() {
        for which in [Which::This, Which::Other] {
            for call in [Call::Crew, Call::CrewByTrial, Call::Spare { cap: 0 }, Call::Spare { cap: 3 }] {
                for asked in [Asked::whole(call), Asked::reading(call)] {
                    let sheet = sheet_w().bytes;
                    let sent = question(which, asked, &sheet);
                    assert_eq!(read_question(&mut &sent[..]).unwrap(), (which, asked, sheet));
                }
            }
        }
    }

    #[test]
    fn an_answer_is_read_as_it_was_sent() {
        let called = Called { number: 13 * 256, area: [7; MOST_CREW_BYTES], nanos: 1 << 40 };
        assert_eq!(read_answer(&mut &answer(&called)[..]).unwrap(), called);
    }
}
