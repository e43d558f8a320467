//! Practice sheets with a third of their steps skipped, beside the same sheets without these steps: the answers, which have to
//! be the same, and the times, with those of the reader told apart.

mod parts;
mod sheets;
mod table;

use crate::asked::{is_short_answer, Asked};
use crate::builds::Which;
use crate::groups::{self, Group};
use crate::options::{self, option, Run};
use crate::record;
use crate::turns::{agree, in_turn, Times, Turns};
use crate::worker::{Called, Worker};
use model::answers::{Call, MOST_CAP};
use model::builder::lay;
use parts::Parts;
use sheets::{sheets, Sheets};
use std::io::{self, Write};

pub const USAGE: &str = "bench skipped CSV [--sheets N] [--late-ms N] [--rounds N] [GROUP...]
  CSV         the file for a line a sheet
  --sheets    sheets in each group, 60 unless given
  --late-ms   time for one call, 1000 unless given
  --rounds    how often the two sheets take turns at a call and at its reading, 5 unless given; of each the best time counts
  GROUP       only these, 'practice' unless given, which stands for all that begin with 'practice-'
Of each sheet a third of the steps is skipped, rounded up, whichever they are. The other is the same job without the cards of
these steps, and without those of the rules that are left with fewer than two. Both calls, spare with cap 3, reading
included. 'reading' is the same call with an answer area of 0 bytes, which reads the whole sheet and refuses before it plans;
'beyond' is the call less its reading. A ratio is that of the sheet with skipped steps to the one without: above 1 it takes
longer; 'sums' is that of the sums over the sheets. 'unclear' counts differences that are not above zero: in the ratio of a
sheet they are taken for 1 ns, in sums they keep their sign. 'late' counts what ran out of time.";

pub struct Order {
    run: Run,
    rounds: u32,
}

pub fn order(mut args: Vec<String>) -> Option<Order> {
    let rounds = option(&mut args, "--rounds", 5)?;
    let mut run = options::run(args, 60)?;
    if run.groups.is_empty() {
        run.groups = vec![groups::PRACTICE.to_string()];
    }
    (rounds > 0).then_some(Order { run, rounds })
}

/// A sheet that was asked with its skipped steps and without them; the times without them are the other ones.
pub struct Skipped {
    group: String,
    number: u32,
    title: String,
    /// Steps, people, rules.
    size: [usize; 3],
    /// Steps and rules of the sheet without the skipped steps.
    left: [usize; 2],
    has_plan: Option<bool>,
    crew: Parts,
    spare: Parts,
    /// The calls whose answers differ, and the readings that were more than that.
    differences: Vec<&'static str>,
}

/// What a call answered on both sheets, and what its reader alone did.
struct Answers {
    whole: [Option<Called>; 2],
    reading: [Option<Called>; 2],
}

impl Answers {
    fn parts(&self) -> Parts {
        Parts { whole: Times::of(&self.whole), reading: Times::of(&self.reading) }
    }

    /// A call that does not refuse for its short area has not been the reader alone.
    fn are_readings(&self) -> bool {
        self.reading.iter().flatten().all(|called| is_short_answer(called.number))
    }
}

/// Both sheets take turns at the call and at its reading, all four in every round.
fn answers(worker: &mut Worker, order: &Order, call: Call, [marked, short]: [&[u8]; 2]) -> io::Result<Answers> {
    let (whole, reading) = (Asked::whole(call), Asked::reading(call));
    let asked = [(whole, marked), (whole, short), (reading, marked), (reading, short)];
    let ways = asked.map(|(asked, sheet)| (Which::This, asked, sheet));
    let [marked, short, marked_reading, short_reading] =
        in_turn(worker, ways, Turns { rounds: order.rounds, late: order.run.late })?;
    Ok(Answers { whole: [marked, short], reading: [marked_reading, short_reading] })
}

fn skipped(worker: &mut Worker, order: &Order, group: &Group, number: u32) -> io::Result<Skipped> {
    let Sheets { marked, short } = sheets((group.job)(number), number);
    let bytes = [&marked, &short].map(|job| lay(job).bytes);
    let both = bytes.each_ref().map(|bytes| &bytes[..]);
    let crew = answers(worker, order, Call::Crew, both)?;
    let spare = answers(worker, order, Call::Spare { cap: MOST_CAP }, both)?;
    let agreed = [
        ("crew", agree(&crew.whole)),
        ("crew reading", crew.are_readings()),
        ("spare", agree(&spare.whole)),
        ("spare reading", spare.are_readings()),
    ];
    Ok(Skipped {
        group: group.name.clone(),
        number,
        title: group.title(number),
        size: [marked.steps.len(), marked.people.len(), marked.rules.len()],
        left: [short.steps.len(), short.rules.len()],
        has_plan: crew.whole.iter().flatten().next().map(|called| called.number == 0),
        crew: crew.parts(),
        spare: spare.parts(),
        differences: agreed.into_iter().filter(|(_, agree)| !agree).map(|(name, _)| name).collect(),
    })
}

/// How many sheets got different answers.
pub fn run(order: &Order) -> io::Result<usize> {
    let mut csv = record::create(&order.run.csv, &[])?;
    writeln!(csv, "{}", table::CSV_HEADING)?;
    println!("{}", table::heading());
    let mut worker = Worker::new();
    let mut all = vec![];
    for group in groups::meant(&order.run.groups) {
        let start = all.len();
        for number in 1..=order.run.sheets.min(group.sheets) {
            let one = skipped(&mut worker, order, &group, number)?;
            writeln!(csv, "{}", table::csv_line(&one))?;
            if !one.differences.is_empty() {
                println!("DIFFERENT {}: {}", one.title, one.differences.join(" and "));
            }
            all.push(one);
        }
        println!("{}", table::lines(&group.name, &all[start..]));
    }
    csv.flush()?;
    println!("{}", table::lines("all of these", &all));
    Ok(all.iter().filter(|one| !one.differences.is_empty()).count())
}

#[cfg(test)]
mod tests {
    use super::*;
    use crate::options::words;
    use model::answers::MOST_CREW_BYTES;

    #[test]
    fn practice_sheets_are_usual() {
        assert_eq!(order(words("out.csv")).unwrap().run.groups, ["practice"]);
        assert_eq!(order(words("out.csv loose --rounds 3")).unwrap().run.groups, ["loose"]);
        for line in ["--sheets 7", "out.csv --rounds 0", "out.csv --limit-ms 7"] {
            assert!(order(words(line)).is_none(), "{line}");
        }
    }

    #[test]
    fn a_call_that_answers_is_no_reading() {
        let called = |number| Some(Called { number, area: [0; MOST_CREW_BYTES], nanos: 1 });
        let are_readings = |reading| Answers { whole: [None, None], reading }.are_readings();
        assert!(are_readings([called(256), called(256)]));
        assert!(are_readings([called(256), None]));
        assert!(!are_readings([called(0), called(256)]));
        assert!(!are_readings([called(256), called(9 * 256)]));
    }
}
