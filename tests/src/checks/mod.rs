//! The groups of checks that `compare` runs, each of which says what it tried.

pub mod added_cases;
pub mod areas;
pub mod cases;
pub mod damage;
pub mod files;
pub mod first_cases;
pub mod laws;
pub mod moves;
pub mod refusals;
pub mod rounds;
pub mod run_cases;
pub mod run_refusals;
pub mod runs;
pub mod searches;
pub mod sequences;
pub mod short_runs;
pub mod stack;
pub mod subnormals;
pub mod threads;
pub mod tie_cases;
pub mod ties;
