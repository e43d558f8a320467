//! Tests of the reader, of the calls and of the programs: sheets to try with what the paper says of them, random sheets,
//! and random histories of jobs under work.

pub mod by_hand;
pub mod calls;
pub mod cases;
pub mod files;
pub mod forms;
pub mod levels;
pub mod listings;
pub mod loads;
pub mod numbers;
pub mod order;
pub mod records;
pub mod skipped;
pub mod tally;
pub mod trials;
