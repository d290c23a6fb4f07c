//! The watch list of 01 ("Monitor", Watching): what it does by 01 and 02, and scripts for the program that
//! tries the product's (tests/watch_runs).

pub mod list;
pub mod names;
pub mod orders;
pub mod runs;
pub mod script;
pub mod seen;
pub mod standings;
