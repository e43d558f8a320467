//! The listings of the program that tries every plan.

mod kinds;
mod sheets;

use crate::Subject;
use sheet_tests::listings::BY_TRIAL;

pub const SUBJECT: Subject = Subject {
    stored: BY_TRIAL,
    draw: sheets::any,
    kinds: kinds::of,
    large: None,
    lost: kinds::of_trials,
    wanted: kinds::all,
};
