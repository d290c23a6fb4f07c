//! What 01 ("Shown sequences") and 02 (M-100, M-102) ask of the sequences of a rule, judged on what the
//! product gives: by the meanings, that it fits, and by the reference, that it is the first that does.

use crate::meaning::{satisfies, satisfies_all};
use crate::reference::{Decided, Packed};
use std::cmp::Ordering;

/// Whether a sequence is the one to show of two that fit (02, M-102): the shorter one, and of two as
/// long as one another the one whose first differing step has the smaller number.
pub fn comes_before(one: &[u8], other: &[u8]) -> bool {
    match one.len().cmp(&other.len()) {
        Ordering::Less => true,
        Ordering::Greater => false,
        Ordering::Equal => {
            let differing = one.iter().zip(other).find(|(step, other)| step != other);
            differing.is_some_and(|(step, other)| step < other)
        }
    }
}

/// What is wrong with the satisfying or the violating sequence of a rule, given by its four numbers
/// (presence, length, the two of the standing) and its area.
pub fn mistake(
    decided: &Decided,
    rule: usize,
    satisfied: bool,
    (numbers, area): ([u64; 4], &[u8]),
) -> Option<String> {
    let present = decided.verdicts[rule].presence()[usize::from(!satisfied)];
    let what = match (present, numbers) {
        (false, [0, 0, 0, 0]) => None,
        (false, _) => Some(format!("has to be absent, but its numbers are {numbers:?}")),
        (true, [1, length, first, second]) => {
            let steps = usize::try_from(length).ok().and_then(|end| area.get(..end));
            match steps {
                None => Some(format!("is longer than its area: {length}")),
                Some(steps) => fault_of(decided, rule, satisfied, steps)
                    .or_else(|| fault_of_standing(decided, rule, steps, [first, second]))
                    .or_else(|| fault_of_choice(decided, rule, satisfied, steps)),
            }
        }
        (true, _) => Some(format!(
            "has to be present, but its numbers are {numbers:?}"
        )),
    };
    let which = if satisfied { "satisfying" } else { "violating" };
    what.map(|what| format!("the {which} sequence of rule {} {what}", rule + 1))
}

/// What is wrong with the steps of a sequence that is present.
fn fault_of(decided: &Decided, rule: usize, satisfied: bool, steps: &[u8]) -> Option<String> {
    let file = &decided.file;
    let first_count = usize::from(decided.verdicts[rule].first);
    let declared = |step: &u8| usize::from(*step) < file.steps.len();
    if steps.len() >= first_count {
        Some(format!("is not shorter than {first_count}: {steps:?}"))
    } else if !steps.iter().all(declared) {
        Some(format!("has an undeclared step: {steps:?}"))
    } else if !satisfies_all(file, &decided.kept_before(rule), steps) {
        Some(format!("does not satisfy the rules kept before: {steps:?}"))
    } else if satisfies(&file.rules[rule], steps) != satisfied {
        let does = if satisfied { "violates" } else { "satisfies" };
        Some(format!("{does} it: {steps:?}"))
    } else {
        None
    }
}

/// What is wrong with the joint standing after a sequence.
fn fault_of_standing(
    decided: &Decided,
    rule: usize,
    steps: &[u8],
    standing: Packed,
) -> Option<String> {
    let expected = decided.standing_after(rule, steps);
    (standing != expected)
        .then(|| format!("{steps:?} leads to standing {expected:X?}, not {standing:X?}"))
}

/// What is wrong with the choice of a sequence that fits: 02 (M-102) wants the first one.
fn fault_of_choice(
    decided: &Decided,
    rule: usize,
    satisfied: bool,
    steps: &[u8],
) -> Option<String> {
    let first = decided.shown(rule)[usize::from(!satisfied)].take();
    let Some(first) = first.map(|sequence| sequence.steps) else {
        return Some(format!("fits, but the reference has none: {steps:?}"));
    };
    if steps == first {
        return None;
    }
    let place = match comes_before(steps, &first) {
        true => "before",
        false => "after",
    };
    Some(format!(
        "fits, but comes {place} the reference's first one, {first:?}: {steps:?}"
    ))
}
