//! Files with subnormal weights, every entry in every mode of the processor: of two weights the
//! larger is the one with the larger bits (01, "Rule file"), whatever the processor takes them for.

use crate::checks::cases::{file, INIT};
use crate::checks::damage::small_size;
use crate::comparison::{ensure, Checked, Comparison};
use crate::expected::Expected;
use crate::float_mode::{in_mode, observed, FLOAT_MODES};
use crate::memory::CONTENTS;
use crate::product::{Entry, Lending, EXACT};
use crate::random::Random;
use crate::random_files::random_file;
use crate::random_runs::random_run;
use crate::reference::{self, Decided, Verdict};
use crate::rule_file::{refusal, RuleFile, LARGEST_WEIGHT, LEAST_NORMAL, WITHOUT_Y};

/// The incident read backwards, whose weights are subnormal.
const INCIDENT_REVERSED: &[u8] = include_bytes!("../../../samples/incident_reversed.rules");

/// 0, subnormal weights, and the least and the largest normal ones.
const WEIGHTS: [u32; 9] = [
    0,
    1,
    2,
    0x0000_403F,
    0x0040_0000,
    LEAST_NORMAL - 1,
    LEAST_NORMAL,
    LEAST_NORMAL + 1,
    LARGEST_WEIGHT,
];

/// Not weights: 0 and subnormal floats below it, as a processor may compare them, and one over 1.0.
const NO_WEIGHTS: [u32; 4] = [
    0x8000_0000,
    0x8000_0001,
    0x8000_0000 | (LEAST_NORMAL - 1),
    LARGEST_WEIGHT + 1,
];

/// What was tried.
#[derive(Default)]
struct Tried {
    files: usize,
    /// Files whose verdicts would be others if subnormal weights were 0.
    decided_by_them: usize,
}

/// The modes themselves, pairs of weights in all three places, the incident and random files.
pub fn check(files: usize, comparison: &mut Comparison) -> Checked<String> {
    check_modes()?;
    let before = comparison.tally.calls();
    let mut tried = Tried::default();
    check_two_rules(comparison, &mut tried)?;
    check_no_weights(comparison)?;
    check_file(INCIDENT_REVERSED, comparison, &mut tried)?;
    ensure(tried.decided_by_them > 0, || {
        "the incident and the pairs do not depend on subnormal weights".to_string()
    })?;
    let random_ones = comparison.spread(files, |_, comparison| {
        let mut tried = Tried::default();
        let file = subnormal_file(&mut comparison.random);
        check_file(&file.bytes(), comparison, &mut tried)?;
        Ok(tried.decided_by_them)
    })?;
    let random_decided: usize = random_ones.iter().sum();
    ensure(10 * random_decided > files, || {
        "too few random files depend on subnormal weights".to_string()
    })?;
    Ok(format!(
        "subnormal weights: {} calls in {} modes, {} and {} random files; {} and {} depend on them",
        comparison.tally.calls() - before,
        FLOAT_MODES.len(),
        tried.files,
        random_ones.len(),
        tried.decided_by_them,
        random_decided
    ))
}

/// Each mode is what the processor is seen to do in it, and is left again. Comparing a subnormal
/// float raises an exception where it is not taken for 0, and that is noticed.
fn check_modes() -> Checked<()> {
    let usual = observed();
    for mode in FLOAT_MODES {
        let (seen, raised) = in_mode(mode, observed);
        ensure(seen == mode && observed() == usual, || {
            format!("{mode:?} is not set or not left: {seen:?}")
        })?;
        ensure(raised || mode.denormals_are_zero, || {
            format!("{mode:?}: an exception is not noticed")
        })?;
    }
    Ok(())
}

/// Init(a) and Init(b), of which only one can be kept: that of the larger weight or, where both are
/// the same, the one with the smaller x, the first (02, M-104).
fn check_two_rules(comparison: &mut Comparison, tried: &mut Tried) -> Checked<()> {
    for place in 0..3 {
        for first in WEIGHTS {
            for second in WEIGHTS {
                let two = two_rules(place, [first, second]);
                let decided = check_file(&two.bytes(), comparison, tried)?;
                let verdict = |fate, first, second| Verdict {
                    fate,
                    first,
                    second,
                };
                let mut expected = [verdict(0, 3, 3), verdict(1, 2, 0)];
                if second > first {
                    expected.reverse();
                }
                ensure(decided.verdicts == expected, || {
                    format!("place {place}, {first:08X} and {second:08X}: not the larger is kept")
                })?;
            }
        }
    }
    Ok(())
}

/// Both rules have these weights in one place, and equal ones in the others.
fn two_rules(place: usize, weights: [u32; 2]) -> RuleFile {
    let mut two = file("ab", &[(INIT, 0, WITHOUT_Y), (INIT, 1, WITHOUT_Y)]);
    for (rule, weight) in two.rules.iter_mut().zip(weights) {
        rule.weights = [1; 3];
        rule.weights[place] = weight;
    }
    two
}

/// Bits over those of 1.0 are refused in every mode, by every entry.
fn check_no_weights(comparison: &mut Comparison) -> Checked<()> {
    for place in 0..3 {
        for weight in NO_WEIGHTS {
            let bytes = two_rules(place, [0, weight]).bytes();
            let expected = Expected::Refused(refusal::WEIGHT_OUTSIDE);
            for entry in [Entry::Prune, Entry::Show(1), Entry::State(1, &[0])] {
                call_in_all(entry, &bytes, &expected, comparison)?;
            }
        }
    }
    Ok(())
}

/// Every entry on a valid file: pruning, showing all rules, the state of all after a run.
fn check_file(bytes: &[u8], comparison: &mut Comparison, tried: &mut Tried) -> Checked<Decided> {
    let decision = reference::decide(bytes);
    comparison.tally.note_file(&decision);
    comparison.tally.valid_files += 1;
    let decided = decision.map_err(|number| format!("valid, but refused {number}"))?;
    let flushed = reference::prune(&decided.file.without_subnormals().bytes());
    tried.files += 1;
    tried.decided_by_them += usize::from(flushed.as_ref() != Ok(&decided.verdicts));
    let expected = Expected::of_accepted(Entry::Prune, &decided);
    call_in_all(Entry::Prune, bytes, &expected, comparison)?;
    for (place, rule) in decided.file.rules.iter().enumerate() {
        let (number, declared) = (place as u32 + 1, decided.file.steps.len());
        let length = comparison.random.below(8);
        let run = random_run(rule, declared, length, &mut comparison.random);
        for entry in [Entry::Show(number), Entry::State(number, &run)] {
            let expected = Expected::of_accepted(entry, &decided);
            call_in_all(entry, bytes, &expected, comparison)?;
        }
    }
    Ok(decided)
}

/// One call in each mode, with areas exactly long enough.
fn call_in_all(
    entry: Entry,
    bytes: &[u8],
    expected: &Expected,
    comparison: &mut Comparison,
) -> Checked<()> {
    for mode in FLOAT_MODES {
        let lending = Lending {
            lengths: EXACT,
            content: *comparison.random.choose(&CONTENTS),
        };
        comparison.call_in(mode, entry, bytes, lending, expected)?;
    }
    Ok(())
}

/// A small random file with weights that are subnormal, or nearly, or one of those above.
fn subnormal_file(random: &mut Random) -> RuleFile {
    let mut file = random_file(small_size(random), random);
    let weights = file.rules.iter_mut().flat_map(|rule| &mut rule.weights);
    weights.for_each(|bits| {
        *bits = match random.below(3) {
            0 => *random.choose(&WEIGHTS),
            _ => random.below(LEAST_NORMAL as usize + 0x10_0000) as u32,
        }
    });
    file
}
