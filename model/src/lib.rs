//! What the papers say, in Rust: a model of the card reader, a brute force for crews, spare counts and signings, the listings of
//! the programs, sheets built from jobs, jobs by recipe or at random, jobs without their skipped steps, and in other forms. Nothing here is taken
//! from the library; its calls are bound under the feature `library`.

pub mod answers;
pub mod builder;
pub mod card;
pub mod classes;
pub mod forms;
pub mod garble;
pub mod job;
pub mod jobs;
#[cfg(feature = "library")]
pub mod library;
pub mod listing;
pub mod plans;
pub mod random;
pub mod reader;
pub mod recipe;
pub mod refusal;
pub mod shortened;
pub mod signing;
pub mod trial;
