//! The calls of the library.

use crate::answers::Call;
use crate::signing::Work;

pub type Crew = unsafe extern "C" fn(*const u8, usize, *mut u8, usize) -> u32;
pub type Spare = unsafe extern "C" fn(*const u8, usize, *mut u8, usize, u32) -> u32;

extern "C" {
    fn fulmarinvar_crew(sheet: *const u8, sheet_len: usize, answer: *mut u8, answer_len: usize) -> u32;
    fn fulmarinvar_crew_by_trial(sheet: *const u8, sheet_len: usize, answer: *mut u8, answer_len: usize) -> u32;
    fn fulmarinvar_spare(sheet: *const u8, sheet_len: usize, answer: *mut u8, answer_len: usize, cap: u32) -> u32;
    fn fulmarinvar_open(job: *mut Work, sheet: *const u8, sheet_len: usize) -> u32;
    fn fulmarinvar_sign(job: *mut Work, step: u32, person: u32) -> u32;
    fn fulmarinvar_refusals(job: *const Work) -> u32;
}

/// A build of the library: its calls for a sheet alone, which keep what the C header says of them.
#[derive(Clone, Copy)]
pub struct Build {
    pub crew: Crew,
    /// Nothing where the build may be older than this call.
    pub crew_by_trial: Option<Crew>,
    pub spare: Spare,
}

pub const THIS: Build =
    Build { crew: fulmarinvar_crew, crew_by_trial: Some(fulmarinvar_crew_by_trial), spare: fulmarinvar_spare };

/// A crew by one of the calls for it.
fn crew(call: Crew, sheet: &[u8], answer: &mut [u8]) -> u32 {
    // Slices are real areas, and a shared one does not overlap with a lent one.
    unsafe { call(sheet.as_ptr(), sheet.len(), answer.as_mut_ptr(), answer.len()) }
}

fn spare(call: Spare, sheet: &[u8], answer: &mut [u8], cap: u32) -> u32 {
    // As above.
    unsafe { call(sheet.as_ptr(), sheet.len(), answer.as_mut_ptr(), answer.len(), cap) }
}

impl Build {
    /// What the call returns; its answer is written to `answer`.
    pub fn run(&self, call: Call, sheet: &[u8], answer: &mut [u8]) -> u32 {
        match call {
            Call::Crew => crew(self.crew, sheet, answer),
            Call::CrewByTrial => crew(self.crew_by_trial.expect("the build has the call"), sheet, answer),
            Call::Spare { cap } => spare(self.spare, sheet, answer, cap),
        }
    }
}

pub fn run(call: Call, sheet: &[u8], answer: &mut [u8]) -> u32 {
    THIS.run(call, sheet, answer)
}

pub fn open(job: &mut Work, sheet: &[u8]) -> u32 {
    // The job is laid out as in C, and what is lent to write to overlaps with nothing.
    unsafe { fulmarinvar_open(job, sheet.as_ptr(), sheet.len()) }
}

pub fn sign(job: &mut Work, step: u32, person: u32) -> u32 {
    // As above.
    unsafe { fulmarinvar_sign(job, step, person) }
}

pub fn refusals(job: &Work) -> u32 {
    // As above.
    unsafe { fulmarinvar_refusals(job) }
}
