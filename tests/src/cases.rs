//! The file from which the trials in C take their cases: the paper's sheets, those with skipped steps, with rules of kind 5 and of
//! version 2, W with every area up to that of its crew, also with steps skipped, then W cut short and W damaged, in every form.
//!
//! All numbers have their low byte first. First the sheets: how many (u16), and for each its length (u16) and bytes.
//! Then the cases: how many (u32), and for each
//!   sheet (u16), bytes kept of it (u16), damaged byte (u16, 65,535 for none), its new value (u8),
//!   call (u8: 0 crew, 1 spare, 2 crew by trial), cap (u32), length of the answer area (u16), returned number (u32),
//!   length of the name (u8), name, number of bytes written (u8), these bytes.

use crate::calls;
use model::answers::{self, answer, Call, SPARE_BYTES};
use model::builder::{sheet_w, sheet_w_in, skipped_w, Draft};
use model::card::CARD;
use model::job::Form;
use model::reader::read;

const UNDAMAGED: u16 = u16::MAX;
const W_ROOM: usize = 24;

/// A sheet of the file, how much of it is kept, and the damage to it.
struct Source {
    sheet: usize,
    kept: usize,
    damage: Option<(usize, u8)>,
}

fn add(file: &mut Vec<u8>, source: &Source, trial: &calls::Trial) {
    let (at, value) = source.damage.map_or((UNDAMAGED, 0), |(at, value)| (at as u16, value));
    let (call, cap) = match trial.call {
        Call::Crew => (0, 0),
        Call::Spare { cap } => (1, cap),
        Call::CrewByTrial => (2, 0),
    };
    file.extend((source.sheet as u16).to_le_bytes());
    file.extend((source.kept as u16).to_le_bytes());
    file.extend(at.to_le_bytes());
    file.extend([value, call]);
    file.extend(cap.to_le_bytes());
    file.extend((trial.room as u16).to_le_bytes());
    file.extend(trial.number.to_le_bytes());
    file.push(trial.name.len() as u8);
    file.extend(trial.name.as_bytes());
    file.push(trial.written.len() as u8);
    file.extend(&trial.written);
}

/// The calls, with areas as long as W's answers.
const CALLS: [(Call, usize); 3] =
    [(Call::Crew, W_ROOM), (Call::Spare { cap: 2 }, SPARE_BYTES), (Call::CrewByTrial, W_ROOM)];

/// The call on the sheet, with what the brute force says of it.
fn asked(name: String, call: Call, sheet: &[u8], room: usize) -> calls::Trial {
    let found = answer(call, sheet, &vec![0; room]).expect("W and its like are small");
    let written = match read(sheet) {
        Ok(job) if found.number == 0 => found.area[..answers::room(call, &job)].to_vec(),
        _ => vec![],
    };
    calls::Trial { name, call, sheet: sheet.to_vec(), room, number: found.number, written }
}

/// Each call with an area of each length, none among them.
fn rooms(name: &str, sheet: &Draft) -> Vec<calls::Trial> {
    let each = CALLS.into_iter().flat_map(|(call, _)| (0..=W_ROOM).map(move |room| (call, room)));
    let name = |call: Call, room: usize| format!("{name}, an area of {room}: {}", call.name());
    each.map(|(call, room)| asked(name(call, room), call, &sheet.bytes, room)).collect()
}

/// W, W with one and with all of its steps skipped, and W in version 2.
fn rooms_of_w() -> Vec<calls::Trial> {
    let (one, all) = (sheet_w().skip(6), skipped_w());
    let pairs = sheet_w_in(Form::Second { class_levels: 3 });
    [
        rooms("W", &sheet_w()),
        rooms("W, step 20 skipped", &one),
        rooms("W, all steps skipped", &all),
        rooms("W with pairs", &pairs),
    ]
    .concat()
}

/// W cut to each length.
fn cuts() -> Vec<(Source, Draft)> {
    let cut = |kept| (Source { sheet: 0, kept, damage: None }, sheet_w().cut(kept));
    (0..=sheet_w().bytes.len()).map(cut).collect()
}

/// A sheet of the file with each bit of its first bytes changed.
fn flips(sheet: usize, draft: &Draft, bytes: usize) -> Vec<(Source, Draft)> {
    let flip = |at: usize, bit: usize| {
        let mut flipped = draft.clone();
        flipped.bytes[at] ^= 1 << bit;
        let damage = Some((at, flipped.bytes[at]));
        (Source { sheet, kept: draft.bytes.len(), damage }, flipped)
    };
    (0..bytes).flat_map(|at| (0..8).map(move |bit| (at, bit))).map(|(at, bit)| flip(at, bit)).collect()
}

/// W in each form; of version 2 its header and its people, in which it differs from version 1.
fn damages() -> Vec<(Source, Draft)> {
    let mut found = cuts();
    for (sheet, form) in Form::ALL.into_iter().enumerate() {
        let w = sheet_w_in(form);
        let bytes = if form == Form::First { w.bytes.len() } else { CARD * (1 + 4) };
        found.extend(flips(sheet, &w, bytes));
    }
    found
}

/// The whole file.
pub fn file() -> Vec<u8> {
    let mut sheets: Vec<Vec<u8>> = Form::ALL.map(|form| sheet_w_in(form).bytes).into();
    let mut cases = vec![];
    let mut count: u32 = 0;
    for trial in calls::all().into_iter().chain(rooms_of_w()) {
        let sheet = sheets.iter().position(|sheet| *sheet == trial.sheet).unwrap_or(sheets.len());
        if sheet == sheets.len() {
            sheets.push(trial.sheet.clone());
        }
        add(&mut cases, &Source { sheet, kept: trial.sheet.len(), damage: None }, &trial);
        count += 1;
    }
    for (source, draft) in damages() {
        for (call, room) in CALLS {
            add(&mut cases, &source, &asked(String::new(), call, &draft.bytes, room));
            count += 1;
        }
    }
    let mut file = (sheets.len() as u16).to_le_bytes().to_vec();
    for sheet in sheets {
        file.extend((sheet.len() as u16).to_le_bytes());
        file.extend(sheet);
    }
    file.extend(count.to_le_bytes());
    file.extend(cases);
    file
}
