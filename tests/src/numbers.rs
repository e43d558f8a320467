//! What a signing returns, by name.

use model::refusal::{NOT_GRANTED, STEP_SIGNED};

pub const GRANTED: u32 = 0;
pub const UNKNOWN: u32 = model::refusal::UNKNOWN * 256;
pub const SIGNED: u32 = STEP_SIGNED * 256;
pub const REFUSED: u32 = NOT_GRANTED * 256;
