//! Random files and random runs of any length, and runs with undeclared steps.

use crate::checks::short_runs::check_directly;
use crate::comparison::{ensure, Checked, Comparison};
use crate::monitor::settling_continuations;
use crate::random::Random;
use crate::random_files::{random_file, Size};
use crate::random_runs::{random_run, LONGEST_RUN};
use crate::rule_file::{refusal, RuleFile, MOST_RULES};

/// Files of up to so many steps and rules, with so many runs each, the longest of this length.
pub struct Group {
    pub files: usize,
    pub most: Size,
    pub runs: usize,
    pub longest: usize,
}

/// Bytes that are no step of any file; the number of declared steps is tried beside them.
const NO_STEPS: [u8; 5] = [24, 127, 128, 254, 255];

/// Runs up to this length are sometimes judged by the direct way as well.
const LONGEST_JUDGED: usize = 30;

/// Random runs of the rules of random files.
pub fn check_random(groups: &[Group], comparison: &mut Comparison) -> Checked<String> {
    let mut parts = Vec::new();
    for group in groups {
        comparison.spread(group.files, |_, comparison| check_file(group, comparison))?;
        let (runs, longest) = (group.files * group.runs, group.longest);
        parts.push(format!("{runs} up to {longest} steps"));
    }
    Ok(format!("random runs: {}", parts.join(", ")))
}

fn check_file(group: &Group, comparison: &mut Comparison) -> Checked<()> {
    let random = &mut comparison.random;
    let size = Size {
        steps: random.between(1, group.most.steps),
        rules: random.between(1, group.most.rules),
    };
    let file = random_file(size, random);
    let bytes = file.bytes();
    for _ in 0..group.runs {
        let random = &mut comparison.random;
        let rule = random.below(size.rules);
        let length = random_length(group.longest, random);
        let mut run = random_run(&file.rules[rule], size.steps, length, random);
        if run.len() <= LONGEST_JUDGED && random.once_in(100) {
            let settling = settling_continuations(&file.rules[rule], size.steps);
            check_directly(&file, rule, &run, &settling)?;
        }
        if random.once_in(12) {
            put_undeclared(&mut run, size.steps, random);
        }
        let number = random_number(rule, size.rules, comparison);
        comparison.compare_run(&bytes, number, &run)?;
        comparison.tally.random_runs += 1;
    }
    match comparison.random.once_in(20) {
        true => check_numbers(&file, comparison),
        false => Ok(()),
    }
}

/// Every rule number with one short run.
fn check_numbers(file: &RuleFile, comparison: &mut Comparison) -> Checked<()> {
    let run = random_run(&file.rules[0], file.steps.len(), 9, &mut comparison.random);
    let bytes = file.bytes();
    let numbers = comparison.every_number(MOST_RULES);
    numbers.into_iter().try_for_each(|number| {
        comparison.compare_run(&bytes, number, &run)?;
        Ok(())
    })
}

/// Any length up to the longest, often this one or a short one.
fn random_length(longest: usize, random: &mut Random) -> usize {
    match random.below(8) {
        0 => longest,
        1 => random.below(4),
        _ => random.between(0, longest),
    }
}

/// The number of the rule at this place; sometimes one that the file lacks.
fn random_number(rule: usize, rules: usize, comparison: &mut Comparison) -> u32 {
    let [last, high_bit] = comparison.far_numbers();
    let lacking = comparison.random.between(rules + 1, MOST_RULES + 1) as u32;
    match comparison.random.below(60) {
        0 => 0,
        1 => lacking,
        2 => last,
        3 => high_bit,
        _ => rule as u32 + 1,
    }
}

/// Replaces a step by a byte that is none.
fn put_undeclared(run: &mut [u8], declared: usize, random: &mut Random) {
    if !run.is_empty() {
        let place = random.below(run.len());
        let least = random.between(declared, 255);
        run[place] = *random.choose(&[declared as u8, least as u8, 24, 255]);
    }
}

/// Runs of up to so many steps with one undeclared step at every place, and with two; long runs
/// with one.
pub fn check_undeclared(longest: usize, comparison: &mut Comparison) -> Checked<String> {
    let before = comparison.tally.monitoring.all;
    for declared in [1, 2, 3, 23, 24] {
        let size = Size {
            steps: declared,
            rules: 12,
        };
        let file = random_file(size, &mut comparison.random);
        for length in 1..=longest {
            check_every_place(&file, length, comparison)?;
        }
        check_long(&file, comparison)?;
    }
    let calls = comparison.tally.monitoring.all - before;
    Ok(format!(
        "undeclared steps: {calls} runs, at every place of up to {longest} steps and in long ones"
    ))
}

fn check_every_place(file: &RuleFile, length: usize, comparison: &mut Comparison) -> Checked<()> {
    let declared = file.steps.len();
    for rule in 0..file.rules.len() {
        let run = random_run(&file.rules[rule], declared, length, &mut comparison.random);
        for place in 0..length {
            let mut changed = run.clone();
            // The last declared step is still one.
            changed[place] = declared as u8 - 1;
            expect(file, rule, &changed, 0, comparison)?;
            for byte in NO_STEPS.into_iter().chain([declared as u8]) {
                changed[place] = byte;
                expect(file, rule, &changed, refusal::UNDECLARED_STEP, comparison)?;
            }
            changed[length - 1 - place] = declared as u8;
            expect(file, rule, &changed, refusal::UNDECLARED_STEP, comparison)?;
        }
    }
    Ok(())
}

/// One undeclared step in a long run, also at places whose number needs more than one or two bytes.
fn check_long(file: &RuleFile, comparison: &mut Comparison) -> Checked<()> {
    let mut run = vec![0; LONGEST_RUN];
    expect(file, 0, &run, 0, comparison)?;
    for place in [0, 255, 256, 65_535, 65_536, LONGEST_RUN - 1] {
        run[place] = file.steps.len() as u8;
        expect(file, 0, &run, refusal::UNDECLARED_STEP, comparison)?;
        run[place] = 0;
    }
    Ok(())
}

/// Both sides answer with this number.
fn expect(
    file: &RuleFile,
    rule: usize,
    run: &[u8],
    number: u32,
    comparison: &mut Comparison,
) -> Checked<()> {
    let given = comparison.compare_run(&file.bytes(), rule as u32 + 1, run)?;
    ensure(given == number, || {
        format!("run {run:?}: refused {given}, 01 says {number}")
    })
}
