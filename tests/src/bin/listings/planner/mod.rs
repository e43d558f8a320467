//! The listings of the planning program.

mod kinds;
mod large;
mod sheets;

use crate::{Drawn, Subject, Verdict};
use sheet_tests::listings::PLANNER;

pub const SUBJECT: Subject = Subject {
    stored: PLANNER,
    draw: sheets::any,
    kinds: kinds::of,
    large: Some(by_itself),
    lost: kinds::of_end,
    wanted: kinds::all,
};

/// Of a sheet that is too large for the model it matters whether a plan is known to exist.
fn by_itself(drawn: &Drawn, printed: &str) -> Verdict {
    let fault = large::fault(&drawn.sheet, drawn.planned, printed);
    fault.map_or_else(|| Ok(kinds::of_large(&drawn.sheet, printed)), Err)
}
