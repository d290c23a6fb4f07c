//! An independent implementation of 01, as amended by 02 (M-100, M-102 to M-104), and the checks that
//! hold the product to it. Nothing here shares code or tables with the product: it is called
//! through its C entries alone, and for the benchmark through that of tests/watch_timing.

pub mod careful;
pub mod checks;
pub mod comparison;
pub mod expected;
pub mod first_sequence;
pub mod float_mode;
pub mod joint;
pub mod library;
pub mod meaning;
pub mod memory;
pub mod monitor;
pub mod product;
pub mod random;
pub mod random_files;
pub mod random_runs;
pub mod reference;
pub mod rule_file;
pub mod search_files;
pub mod showing;
pub mod spread;
pub mod stack;
pub mod tally;
pub mod template;
pub mod watching;
pub mod work;
pub mod wrong_ranks;
