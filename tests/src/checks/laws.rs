//! Laws of 02 (M-100): AtLeast 1 is Participation and AtMost 1 is AtMostOne, in what they mean and in
//! all that is said of a file with the one in place of the other.

use crate::checks::damage::small_size;
use crate::comparison::{ensure, hexadecimal, Checked, Comparison};
use crate::meaning::{all_sequences, satisfies};
use crate::monitor;
use crate::random::Random;
use crate::random_files::{random_file, random_rule, set_falling_weights};
use crate::random_runs::random_run;
use crate::rule_file::{Rule, RuleFile, WITHOUT_Y};

/// Templates of one step, each with the counting one that is the same where the count is 1.
const SAME: [(u8, u8); 2] = [(1, 19), (2, 20)];

/// Short sequences, and random files with some of these templates.
pub fn check(files: usize, comparison: &mut Comparison) -> Checked<String> {
    let sequences = all_sequences(2, 7);
    check_meanings(&sequences)?;
    comparison.spread(files, |_, comparison| {
        let file = file_with_ones(&mut comparison.random);
        check_file(&file, comparison)
    })?;
    Ok(format!(
        "AtLeast 1 as Participation, AtMost 1 as AtMostOne: {} sequences, {files} files",
        sequences.len()
    ))
}

fn check_meanings(sequences: &[Vec<u8>]) -> Checked<()> {
    for (template, _) in SAME {
        let rule = Rule {
            template,
            x: 0,
            y: WITHOUT_Y,
            weights: [0; 3],
        };
        let differs = |sequence: &&Vec<u8>| {
            satisfies(&rule, sequence) != satisfies(&counted(&rule), sequence)
        };
        let differing = sequences.iter().find(differs);
        ensure(differing.is_none(), || {
            format!("template {template} is another one with a count: {differing:?}")
        })?;
    }
    Ok(())
}

/// The rule with the counting template where it has one that is the same.
fn counted(rule: &Rule) -> Rule {
    let same = SAME.iter().find(|(plain, _)| *plain == rule.template);
    same.map_or(rule.clone(), |&(_, template)| Rule {
        template,
        y: 1,
        ..rule.clone()
    })
}

/// A small random file with one rule or more of these templates. No two rules tie: there the number
/// of the template would decide (02, M-104), which is not the same with counts.
fn file_with_ones(random: &mut Random) -> RuleFile {
    let mut file = random_file(small_size(random), random);
    for _ in 0..random.between(1, 3) {
        let (template, _) = *random.choose(&SAME);
        let rule = random_rule(template, file.steps.len(), false, random);
        let place = random.below(file.rules.len() + 1);
        file.rules.insert(place, rule);
    }
    set_falling_weights(&mut file.rules);
    random.shuffle(&mut file.rules);
    file
}

/// Both files have the same verdicts, sequences, standings and states.
fn check_file(file: &RuleFile, comparison: &mut Comparison) -> Checked<()> {
    let other = RuleFile {
        steps: file.steps.clone(),
        rules: file.rules.iter().map(counted).collect(),
    };
    let [one, two] = [
        comparison.compare_valid(file)?,
        comparison.compare_valid(&other)?,
    ];
    let mut same = one.verdicts == two.verdicts;
    for (place, rule) in file.rules.iter().enumerate() {
        same &= one.shown(place) == two.shown(place);
        let number = place as u32 + 1;
        let run = random_run(rule, file.steps.len(), 5, &mut comparison.random);
        for bytes in [file.bytes(), other.bytes()] {
            comparison.compare_run(&bytes, number, &run)?;
        }
        let said = |file| {
            let state = monitor::state_in(file, number, &run);
            state.map(|state| state.numbers())
        };
        same &= said(file) == said(&other);
    }
    ensure(same, || {
        format!("not the same with counts: {}", hexadecimal(&file.bytes()))
    })
}
