//! The figures of the solvers: the plain table, and a line an answer for the file.

use super::solver::{Question, Solved};
use crate::clock::Nanos;
use crate::table::{field, figures, plan_word, time};

pub struct Line {
    pub group: String,
    pub sheet: u32,
    /// Steps, people, rules.
    pub size: [usize; 3],
    pub has_plan: Option<bool>,
    /// The library's time for the first plan, by the crew call.
    pub crew: Nanos,
    /// The library's time for existence alone, by the spare call with cap 0.
    pub exists: Nanos,
    pub solver: &'static str,
    pub question: Question,
    /// Nothing where it was late.
    pub solved: Option<Solved>,
    pub agrees: bool,
}

impl Line {
    /// The library's time for the same question.
    fn library(&self) -> Nanos {
        match self.question {
            Question::Exists => self.exists,
            Question::First => self.crew,
        }
    }

    fn wall(&self) -> Nanos {
        self.solved.as_ref().map(|solved| solved.wall.as_nanos() as u64)
    }

    fn own(&self) -> Nanos {
        self.solved.as_ref().map(|solved| solved.own.as_nanos() as u64)
    }
}

pub const CSV_HEADING: &str =
    "group,sheet,steps,people,rules,plan,crew_ns,exists_ns,solver,question,calls,wall_ns,own_ns,agrees";

pub fn csv_line(line: &Line) -> String {
    let size = line.size.map(|size| size.to_string()).join(",");
    let calls = line.solved.as_ref().map_or(String::new(), |solved| solved.calls.to_string());
    let (solver, question) = (line.solver, line.question.word());
    let ours = format!("{},{},{}", plan_word(line.has_plan), field(line.crew), field(line.exists));
    let head = format!("{},{},{size},{ours}", line.group, line.sheet);
    let agrees = if line.agrees { "yes" } else { "no" };
    format!("{head},{solver},{question},{calls},{},{},{agrees}", field(line.wall()), field(line.own()))
}

fn row(group: &str, name: &str, lines: &[&Line]) -> String {
    let of = |times: fn(&Line) -> Nanos| figures(lines.iter().map(|line| times(line)));
    let (ours, wall, own) = (of(Line::library), of(Line::wall), of(Line::own));
    let shown = [ours.median, ours.worst, wall.median, wall.worst, own.median, own.worst];
    let times: String = shown.iter().map(|micros| format!(" {:>14}", time(*micros))).collect();
    let differing = lines.iter().filter(|line| !line.agrees).count();
    format!("{group:24} {name:14} {:>6}{times} {:>5} {differing:>9}", lines.len(), own.unfinished)
}

/// A row for each group, solver and question, in the order in which they were asked.
pub fn text(lines: &[Line]) -> String {
    let key = |line: &Line| (line.group.clone(), format!("{} {}", line.solver, line.question.word()));
    let mut keys = vec![];
    for line in lines {
        if !keys.contains(&key(line)) {
            keys.push(key(line));
        }
    }
    let columns = ["library median", "worst", "wall median", "worst", "own median", "worst"];
    let heading: String = columns.iter().map(|column| format!(" {column:>14}")).collect();
    let mut text = vec![format!(
        "{:24} {:14} {:>6}{heading} {:>5} {:>9}",
        "group, times in us", "solver", "sheets", "late", "different"
    )];
    for wanted in keys {
        let own: Vec<&Line> = lines.iter().filter(|line| key(line) == wanted).collect();
        text.push(row(&wanted.0, &wanted.1, &own));
    }
    text.join("\n")
}
