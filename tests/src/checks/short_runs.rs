//! All short runs of each template: the product and the classes of `monitor` against the direct way.

use crate::comparison::{ensure, Checked, Comparison};
use crate::meaning::{all_sequences, counted_sequences};
use crate::monitor::{
    continuations, settling_continuations, settling_length, state_directly, state_in,
};
use crate::random_files::step_names;
use crate::rule_file::{rules_of_every_form, Rule, RuleFile};

/// The longest runs, by the number of declared steps from 1 on.
const LONGEST: [usize; 4] = [8, 7, 5, 4];

/// Runs up to this length are also judged by more continuations than are needed, where the longest
/// of these is at most so long.
const LONGEST_JUDGED_TWICE: usize = 2;
const LONGEST_CONTINUATION: usize = 7;

/// Each template with each count and each x and y of 1 to 4 declared steps.
pub fn check(comparison: &mut Comparison) -> Checked<String> {
    let before = comparison.tally.monitoring.all;
    for (place, longest) in LONGEST.into_iter().enumerate() {
        let declared = place as u8 + 1;
        let runs = all_sequences(declared, longest);
        let rules = all_rules(declared);
        comparison.spread(rules.len(), |place, comparison| {
            let rule = rules[place].clone();
            check_rule(rule, usize::from(declared), &runs, comparison)
        })?;
    }
    let runs = comparison.tally.monitoring.all - before;
    Ok(format!(
        "short runs: {runs}, all of 23 templates with 1 to {} steps, as the meanings say",
        LONGEST.len()
    ))
}

/// All rules over so many steps.
fn all_rules(declared: u8) -> Vec<Rule> {
    let with_x = |x: u8| {
        let of_one_step = |rule: &Rule| rule.second_step().is_none();
        let without_y = rules_of_every_form(x, x).into_iter().filter(of_one_step);
        let others = (0..declared).filter(move |&y| y != x);
        let with_y = others.flat_map(move |y| rules_of_every_form(x, y));
        without_y.chain(with_y.filter(move |rule| !of_one_step(rule)))
    };
    (0..declared).flat_map(with_x).collect()
}

fn check_rule(
    rule: Rule,
    declared: usize,
    runs: &[Vec<u8>],
    comparison: &mut Comparison,
) -> Checked<()> {
    let file = RuleFile {
        steps: step_names()[..declared].to_vec(),
        rules: vec![rule],
    };
    let bytes = file.bytes();
    let rule = &file.rules[0];
    let settling = settling_continuations(rule, declared);
    let longest = settling_length(rule) + 2;
    let more = (longest <= LONGEST_CONTINUATION).then(|| continuations(rule, declared, longest));
    for run in runs.iter().chain(&counted_runs(rule, declared)) {
        check_directly(&file, 0, run, &settling)?;
        if let Some(more) = &more {
            if run.len() <= LONGEST_JUDGED_TWICE {
                check_directly(&file, 0, run, more)?;
            }
        }
        comparison.compare_run(&bytes, 1, run)?;
    }
    Ok(())
}

/// Runs in which x occurs more often than a rule counts, with the step that its count would be if it
/// were one; none where the rule does not count.
fn counted_runs(rule: &Rule, declared: usize) -> Vec<Vec<u8>> {
    match rule.count() {
        Some(count) => counted_sequences(rule.x, count % declared as u8, usize::from(count) + 2),
        None => Vec::new(),
    }
}

/// The classes give for the rule at this place what the direct way gives with these continuations.
pub(super) fn check_directly(
    file: &RuleFile,
    rule: usize,
    run: &[u8],
    continuations: &[Vec<u8>],
) -> Checked<()> {
    let by_classes = state_in(file, rule as u32 + 1, run);
    let rule = &file.rules[rule];
    let directly = state_directly(rule, file.steps.len(), run, continuations);
    ensure(by_classes == Ok(directly), || {
        format!("{rule:?} after {run:?}: {by_classes:?} by classes, {directly:?} by the direct way")
    })
}
