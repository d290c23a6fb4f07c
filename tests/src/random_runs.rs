//! Random runs for the checks and the benchmark, made for a rule so that its value changes.

use crate::monitor::{is_temporary, Watch};
use crate::random::Random;
use crate::rule_file::Rule;

/// The length of the longest runs that are tried.
pub const LONGEST_RUN: usize = 100_000;

/// A run of so many of the declared steps, made for a rule in one of four ways.
pub fn random_run(rule: &Rule, declared: usize, length: usize, random: &mut Random) -> Vec<u8> {
    let all: Vec<u8> = (0..declared as u8).collect();
    let noted = noted_steps(rule, declared, random);
    match random.below(4) {
        0 => steps_of(&all, length, random),
        1 => steps_of(&noted, length, random),
        2 => mostly_one(&noted, length, random),
        _ => {
            let open = random.between(0, length);
            let mut run = open_run(rule, declared, open, random);
            run.extend(steps_of(&noted, length - open, random));
            run
        }
    }
}

/// The steps that the rule names and any declared one.
fn noted_steps(rule: &Rule, declared: usize, random: &mut Random) -> Vec<u8> {
    let mut steps = rule.own_steps();
    steps.push(random.below(declared) as u8);
    steps
}

fn steps_of(steps: &[u8], length: usize, random: &mut Random) -> Vec<u8> {
    (0..length).map(|_| *random.choose(steps)).collect()
}

/// One step again and again, with another one now and then.
fn mostly_one(steps: &[u8], length: usize, random: &mut Random) -> Vec<u8> {
    let one = *random.choose(steps);
    let seldom = random.between(2, 40);
    let step = |_| match random.once_in(seldom) {
        true => *random.choose(steps),
        false => one,
    };
    (0..length).map(step).collect()
}

/// A run whose value stays temporary as long as some step leaves it so: the rule is neither
/// fulfilled nor broken for good, and its value can change to the last step.
pub fn open_run(rule: &Rule, declared: usize, length: usize, random: &mut Random) -> Vec<u8> {
    let mut watch = Watch::new(rule, declared);
    let mut steps = noted_steps(rule, declared, random);
    let mut run = Vec::new();
    while run.len() < length {
        random.shuffle(&mut steps);
        let step = *steps
            .iter()
            .find(|&&step| stays_open(&watch, step))
            .unwrap_or(&steps[0]);
        watch.take(step);
        run.push(step);
    }
    run
}

fn stays_open(watch: &Watch, step: u8) -> bool {
    let mut after = watch.clone();
    after.take(step);
    is_temporary(after.value())
}
