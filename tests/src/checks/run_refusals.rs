//! The refusals of the monitor (01, "Refused inputs"): which number goes first, and what stays.

use crate::checks::damage::{damaged_files, small_size};
use crate::checks::refusals::{
    examples, good_rules, steps, Expectation, NUMBERS_OF_RULES, RULE_NUMBERS,
};
use crate::comparison::{ensure, Checked, Comparison};
use crate::expected::Expected;
use crate::memory::CONTENTS;
use crate::monitor;
use crate::product::{Entry, Lending, Lent, EXACT};
use crate::random_files::{random_file, Size};
use crate::random_runs::random_run;
use crate::rule_file::{refusal, UNDECLARED};

/// The numbers lent for the answer, of which two are asked for.
const ANSWER_LENGTHS: [usize; 5] = [0, 1, 2, 3, 6];

/// Runs of the good files, which declare one step, and whether all steps of the run are declared.
const RUNS: [(&[u8], bool); 5] = [
    (&[], true),
    (&[0, 0, 0], true),
    (&[1], false),
    (&[0, UNDECLARED, 0], false),
    (&[24, 0], false),
];

/// Each example of a refused file and good files, with areas that are long enough or not, rules
/// that are there or not and runs of declared steps or not.
pub fn check_orders(comparison: &mut Comparison) -> Checked<String> {
    let before = comparison.tally.monitoring.all;
    let refused = examples().into_iter().map(|file| (file, 0));
    let good = |rules: usize| ((0, [steps(1), good_rules(rules)].concat()), rules);
    for (file, rules) in refused.chain(NUMBERS_OF_RULES.map(good)) {
        for rule in RULE_NUMBERS {
            let has_rule = (1..=rules).contains(&(rule as usize));
            check_call(&file, rule, has_rule, comparison)?;
        }
    }
    let calls = comparison.tally.monitoring.all - before;
    Ok(format!(
        "refusals of the monitor: {calls} calls with refused and good files, rules, runs and areas"
    ))
}

/// One file and rule with all runs and areas: 1, the file's number, 14, 15, in this order.
fn check_call(
    (file_number, bytes): &Expectation,
    rule: u32,
    has_rule: bool,
    comparison: &mut Comparison,
) -> Checked<()> {
    for (run, declared) in RUNS {
        let number = match (file_number, has_rule, declared) {
            (0, true, true) => 0,
            (0, true, false) => refusal::UNDECLARED_STEP,
            (0, false, _) => refusal::NO_SUCH_RULE,
            (number, _, _) => *number,
        };
        let expected = Expected::of_state(monitor::state(bytes, rule, run));
        let given = expected.number();
        ensure(given == number, || {
            format!("rule {rule} and run {run:?}: refused {given}, 01 says {number}")
        })?;
        check_areas(bytes, rule, run, &expected, comparison)?;
    }
    Ok(())
}

/// An area that is too short gives 1 before all else.
fn check_areas(
    bytes: &[u8],
    rule: u32,
    run: &[u8],
    expected: &Expected,
    comparison: &mut Comparison,
) -> Checked<()> {
    let too_short = Expected::Refused(refusal::AREA_TOO_SHORT);
    for answer in ANSWER_LENGTHS {
        let expected = if answer < 2 { &too_short } else { expected };
        let lengths = EXACT.changed(&[Lent::State], |_| answer);
        for content in CONTENTS {
            let lending = Lending { lengths, content };
            comparison.call(Entry::State(rule, run), bytes, lending, expected)?;
        }
    }
    Ok(())
}

/// Random files with each field damaged, with rules and runs that the valid file has, and without.
pub fn check_damaged(files: usize, comparison: &mut Comparison) -> Checked<String> {
    let before = comparison.tally.monitoring.all;
    comparison.spread(files, |_, comparison| {
        let Size { steps, rules } = small_size(&mut comparison.random);
        let size = Size {
            steps,
            rules: rules + 1,
        };
        let file = random_file(size, &mut comparison.random);
        for damaged in damaged_files(&file, &mut comparison.random) {
            let random = &mut comparison.random;
            let mut run = random_run(&file.rules[0], steps, random.below(8), random);
            if random.once_in(4) {
                run.push(random.byte());
            }
            let rule = random.below(size.rules + 2) as u32;
            comparison.compare_run(&damaged, rule, &run)?;
        }
        Ok(())
    })?;
    let tried = comparison.tally.monitoring.all - before;
    Ok(format!(
        "damaged fields: the monitor on {tried} files from {files} valid ones"
    ))
}
