//! Job sheets as text: one line a person, step or rule, in the order of its chain.
//!
//!   person 101 shop 1 bench 1 may 10 20 30
//!   step 10
//!   step 20 skipped
//!   rule same bench 10 20
//!   rule at-most 2 person 10 20 30
//!
//! Steps are named by their tags, skipped ones too, levels are shop, bench and person, and # begins a comment. So is a sheet of
//! version 1; one of version 2 has a line `levels N` for the first N of shop, bench and pair:
//!
//!   levels 3
//!   person 101 shop 1 bench 1 pair 5 may 10 20 30
//!   rule different pair 10 20

pub mod line;
pub mod pack;
pub mod show;
pub mod words;
