//! Calls in several threads at once, each with areas of its own: the library keeps nothing between
//! calls that one could find changed by another.

use crate::checks::damage::small_size;
use crate::comparison::{Checked, Comparison};
use crate::random_files::random_file;
use crate::random_runs::random_run;
use std::thread;

/// The files of each thread: two have the same, and two have their own.
const FILES: [u64; 4] = [0, 0, 1, 2];

/// So many files in each thread.
pub fn check(files: usize, comparison: &mut Comparison) -> Checked<String> {
    let first = comparison.random.bits();
    let seeds = FILES.map(|which| first.wrapping_add(which));
    let calls = thread::scope(|scope| {
        // All are begun before the first one is waited for.
        let threads = seeds.map(|seed| scope.spawn(move || compare_files(seed, files)));
        let results = threads.into_iter().map(|thread| thread.join());
        results
            .map(|result| result.unwrap_or_else(|_| Err("a thread has ended early".to_string())))
            .sum::<Checked<usize>>()
    })?;
    Ok(format!("threads: {calls} calls in {} at once", FILES.len()))
}

/// Compares the product with the reference on files of this seed; gives the number of calls.
fn compare_files(seed: u64, files: usize) -> Checked<usize> {
    let mut comparison = Comparison::new(seed);
    for _ in 0..files {
        let file = random_file(small_size(&mut comparison.random), &mut comparison.random);
        comparison.compare_valid(&file)?;
        let bytes = file.bytes();
        for (place, rule) in file.rules.iter().enumerate() {
            let length = comparison.random.below(100);
            let run = random_run(rule, file.steps.len(), length, &mut comparison.random);
            comparison.compare_run(&bytes, place as u32 + 1, &run)?;
        }
    }
    Ok(comparison.tally.calls())
}
