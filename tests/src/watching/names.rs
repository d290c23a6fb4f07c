//! The names of steps (01, "Rule file"): of every step of a file and of numbers that are none, in
//! files that are refused or not.

use crate::checks::refusals::examples;
use crate::comparison::Checked;
use crate::random::Random;
use crate::random_files::{random_file, Size};
use crate::rule_file::{refusal, RuleFile, LONGEST_NAME, MOST_STEPS};
use crate::watching::script::{expect, Script};

/// Numbers over those of all steps, of which some end in the bits of a step's.
const FAR_STEPS: [u64; 8] = [
    25,
    255,
    256,
    0x1_0000,
    0xFFFF_FFFF,
    0x1_0000_0000,
    1 << 63,
    u64::MAX,
];

/// The examples of files that are refused by these numbers.
pub fn try_refused(numbers: &[u32], script: &mut Script) -> Checked<()> {
    let mut refused = examples().into_iter();
    refused.try_for_each(|(number, bytes)| {
        if !numbers.contains(&number) {
            return Ok(());
        }
        script.set_bytes(&bytes);
        let mut steps = [0, 1, 24].into_iter().chain(FAR_STEPS);
        steps.try_for_each(|step| expect("name", script.name(step), number))
    })
}

/// A file with a name of every length, each of letters that follow one another.
pub fn try_lengths(script: &mut Script) -> Checked<()> {
    let name = |length: u8| (b'A' + length..).take(length.into()).collect();
    let file = RuleFile {
        steps: (1..=LONGEST_NAME as u8).map(name).collect(),
        rules: Vec::new(),
    };
    try_file(&file, &[0, 15, 16, 24], script)
}

/// Random files up to a size, the first of this size, and every number from 0 to 24 in each.
pub fn try_random(
    files: usize,
    size: Size,
    random: &mut Random,
    script: &mut Script,
) -> Checked<()> {
    let every_number: Vec<u64> = (0..=MOST_STEPS as u64).collect();
    for number in 0..files {
        let mut size = size;
        if number > 0 {
            size.steps = random.between(1, size.steps);
            size.rules = random.between(0, size.rules);
        }
        try_file(&random_file(size, random), &every_number, script)?;
    }
    Ok(())
}

/// Each step of a file and these numbers.
fn try_file(file: &RuleFile, numbers: &[u64], script: &mut Script) -> Checked<()> {
    script.set_file(file);
    let declared = file.steps.len() as u64;
    let steps = (0..declared).chain(numbers.iter().copied());
    steps.chain(FAR_STEPS).try_for_each(|step| {
        let undeclared = step >= declared;
        let number = u32::from(undeclared) * refusal::UNDECLARED_STEP;
        expect("name", script.name(step), number)
    })
}
