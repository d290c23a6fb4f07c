//! The stack that a call takes is no more than the header says.

use crate::checks::rounds::file_of_rounds;
use crate::comparison::{ensure, Checked, Comparison};
use crate::product::Entry;
use crate::reference::{self, Decided};

const SAMPLES: [&[u8]; 4] = [
    include_bytes!("../../../samples/typical.rules"),
    include_bytes!("../../../samples/heavy.rules"),
    include_bytes!("../../../samples/worst.rules"),
    include_bytes!("../../../samples/counting.rules"),
];

/// Pruning takes less than the first and monitoring less than the second; showing takes as pruning
/// and so much more for each step that it writes.
const MOST: usize = 32 * 1024;
const MOST_MONITORING: usize = 8 * 1024;
const MOST_A_STEP: usize = 64;

/// The longest run, and the fewest steps of the longest sequence shown.
const RUN: [u8; 10_000] = [0; 10_000];
const LONG_SEQUENCE: usize = 2_000;

/// What was seen.
#[derive(Default)]
struct Taken {
    pruning: usize,
    monitoring: usize,
    /// By showing, beside that for each step; and the length of the longest sequence.
    showing: usize,
    steps: usize,
}

/// The samples, and a file with a long sequence.
pub fn check(comparison: &mut Comparison) -> Checked<String> {
    let mut taken = Taken::default();
    for bytes in SAMPLES {
        check_file(bytes, comparison, &mut taken)?;
    }
    check_file(&file_of_rounds(9).bytes(), comparison, &mut taken)?;
    ensure(taken.steps > LONG_SEQUENCE, || {
        format!("the longest sequence has only {} steps", taken.steps)
    })?;
    Ok(format!(
        "stack: {} bytes for pruning, {} for monitoring, {} for showing beside {MOST_A_STEP} for each of {} steps",
        taken.pruning, taken.monitoring, taken.showing, taken.steps
    ))
}

fn check_file(bytes: &[u8], comparison: &mut Comparison, taken: &mut Taken) -> Checked<()> {
    let decided = reference::decide(bytes).map_err(|number| format!("refused {number}"))?;
    let pruning = check_call(Entry::Prune, bytes, MOST, comparison)?;
    taken.pruning = taken.pruning.max(pruning);
    for rule in 0..decided.file.rules.len() {
        let number = rule as u32 + 1;
        let monitoring = check_call(
            Entry::State(number, &RUN),
            bytes,
            MOST_MONITORING,
            comparison,
        )?;
        taken.monitoring = taken.monitoring.max(monitoring);
        let steps = longest_shown(&decided, rule);
        let most = MOST + MOST_A_STEP * steps;
        let showing = check_call(Entry::Show(number), bytes, most, comparison)?;
        taken.showing = taken
            .showing
            .max(showing.saturating_sub(MOST_A_STEP * steps));
        taken.steps = taken.steps.max(steps);
    }
    Ok(())
}

/// The length of the longer one of the two sequences of a rule.
fn longest_shown(decided: &Decided, rule: usize) -> usize {
    let sequences = decided.shown(rule).into_iter().flatten();
    sequences.map(|shown| shown.steps.len()).max().unwrap_or(0)
}

/// The stack that a call takes, which is to be less than `most`.
fn check_call(
    entry: Entry,
    bytes: &[u8],
    most: usize,
    comparison: &mut Comparison,
) -> Checked<usize> {
    let taken = comparison.stack_of(entry, bytes)?;
    ensure(taken < most, || {
        format!("{taken} bytes of stack, not less than {most}: {entry:?}")
    })?;
    Ok(taken)
}
