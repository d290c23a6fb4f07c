//! Random rule files for the checks and the benchmark.

use crate::random::Random;
use crate::rule_file::{
    Rule, RuleFile, ADDED_TEMPLATES, LARGEST_WEIGHT, LONGEST_NAME, MOST_RULES, MOST_STEPS,
    TEMPLATES, WITHOUT_Y,
};

/// Real steps of observing blocks, as many as a file can declare.
pub const STEP_NAMES: [&str; 24] = [
    "acquire", "guide", "expose", "arc", "flat", "dither", "readout", "focus", "slew", "bias",
    "dark", "sky", "standard", "offset", "nod", "filter", "grating", "slit", "rotate", "shutter",
    "twilight", "dome", "mirror", "park",
];

/// All of these as the names of a file's steps.
pub fn step_names() -> Vec<Vec<u8>> {
    STEP_NAMES.map(|name| name.as_bytes().to_vec()).to_vec()
}

/// Weights at the edges, and some that often tie.
const NOTED_WEIGHTS: [u32; 7] = [
    0,
    1,
    0x007F_FFFF,
    0x3E80_0000,
    0x3F00_0000,
    LARGEST_WEIGHT - 1,
    LARGEST_WEIGHT,
];

/// So many steps and rules.
#[derive(Clone, Copy)]
pub struct Size {
    pub steps: usize,
    pub rules: usize,
}

/// A valid file of this size with random names, rules and weights.
pub fn random_file(size: Size, random: &mut Random) -> RuleFile {
    let steps = random_names(size.steps, random);
    let templates = random_templates(random);
    let ties = random.once_in(3);
    let rules = (0..size.rules)
        .map(|_| {
            let template = *random.choose(&templates);
            random_rule(template, size.steps, ties, random)
        })
        .collect();
    RuleFile { steps, rules }
}

/// A valid file of this size, with one rule or more, of which many tie: each has the one or the
/// other three weights, which differ in one place at most, and often some rules are equal.
pub fn tied_file(size: Size, random: &mut Random) -> RuleFile {
    let mut file = random_file(size, random);
    let usual = std::array::from_fn(|_| random_weight(true, random));
    let mut changed: [u32; 3] = usual;
    changed[random.below(3)] = random_weight(true, random);
    for rule in &mut file.rules {
        rule.weights = *random.choose(&[usual, changed]);
    }
    for _ in 0..random.below(3) {
        let place = random.below(size.rules);
        file.rules[place] = random.choose(&file.rules).clone();
    }
    file
}

/// Distinct names, many of which are nearly alike.
fn random_names(count: usize, random: &mut Random) -> Vec<Vec<u8>> {
    let mut names: Vec<Vec<u8>> = Vec::new();
    while names.len() < count {
        let name = match names.last() {
            Some(earlier) if random.once_in(2) => nearly_alike(earlier.clone(), random),
            _ => random_name(random),
        };
        if !names.contains(&name) {
            names.push(name);
        }
    }
    names
}

fn random_name(random: &mut Random) -> Vec<u8> {
    let length = random.between(1, LONGEST_NAME);
    (0..length).map(|_| random_letter(random)).collect()
}

/// A byte of a name, often one at the edge of those allowed.
fn random_letter(random: &mut Random) -> u8 {
    match random.below(4) {
        0 => 0x21,
        1 => 0x7E,
        _ => random.between(0x21, 0x7E) as u8,
    }
}

/// One byte replaced, put at the end or taken from it.
fn nearly_alike(mut name: Vec<u8>, random: &mut Random) -> Vec<u8> {
    let place = random.below(name.len() + 1);
    if place < name.len() {
        name[place] = random_letter(random);
    } else if name.len() < LONGEST_NAME {
        name.push(random_letter(random));
    } else {
        name.pop();
    }
    name
}

/// All templates, those that 02 adds four times, or a few so that the rules meet more often.
fn random_templates(random: &mut Random) -> Vec<u8> {
    let mut templates: Vec<u8> = TEMPLATES.collect();
    templates.extend(ADDED_TEMPLATES.cycle().take(15));
    random.shuffle(&mut templates);
    let few = random.between(1, 6);
    if random.once_in(2) {
        templates.truncate(few);
    }
    templates
}

/// The templates that name one step.
const OF_ONE_STEP: [u8; 7] = [1, 2, 3, 4, 19, 20, 21];

/// A valid rule of the template; where one step is declared, of one that names no other.
pub fn random_rule(template: u8, steps: usize, ties: bool, random: &mut Random) -> Rule {
    let template = match steps == 1 && !OF_ONE_STEP.contains(&template) {
        true => *random.choose(&OF_ONE_STEP),
        false => template,
    };
    let x = random.below(steps);
    let y = match template {
        1..=4 => WITHOUT_Y,
        19..=21 => random_count(random),
        _ => ((x + random.between(1, steps - 1)) % steps) as u8,
    };
    Rule {
        template,
        x: x as u8,
        y,
        weights: std::array::from_fn(|_| random_weight(ties, random)),
    }
}

/// A count of x, more often a small one, so that rules meet.
fn random_count(random: &mut Random) -> u8 {
    let most = *random.choose(&[2, 4, 14]);
    random.between(1, most) as u8
}

fn random_weight(ties: bool, random: &mut Random) -> u32 {
    if ties || random.once_in(8) {
        *random.choose(&NOTED_WEIGHTS)
    } else {
        random.below(LARGEST_WEIGHT as usize + 1) as u32
    }
}

/// A file with the most steps and rules, in which all templates stand side by side, in turn.
pub fn file_of_all_templates(random: &mut Random) -> RuleFile {
    let templates = TEMPLATES.cycle().take(MOST_RULES);
    let rule = |template| random_rule(template, MOST_STEPS, false, random);
    RuleFile {
        steps: step_names(),
        rules: templates.map(rule).collect(),
    }
}

/// Templates for heavy files, each with its count where it has one and the number of its standings
/// that are not broken.
const UNBROKEN_STANDINGS: [(u8, Option<u8>, usize); 16] = [
    (1, None, 2),
    (4, None, 2),
    (5, None, 3),
    (6, None, 2),
    (9, None, 2),
    (12, None, 4),
    (13, None, 3),
    (18, None, 3),
    (19, Some(3), 4),
    (19, Some(7), 8),
    (20, Some(3), 4),
    (20, Some(14), 15),
    (21, Some(7), 8),
    (21, Some(13), 14),
    (22, None, 2),
    (23, None, 3),
];

/// A file whose best rules are over steps of their own, so that their joint standings multiply to
/// near 4,096, and whose further rules are random.
pub fn heavy_file(rules: usize, random: &mut Random) -> RuleFile {
    let mut file = RuleFile {
        steps: step_names(),
        rules: independent_rules(random),
    };
    if random.once_in(3) {
        // Init best: once it is the candidate, its broken standing doubles the count.
        file.rules.insert(0, random_rule(3, 24, false, random));
    }
    let further = rules.saturating_sub(file.rules.len());
    file.rules.extend((0..further).map(|_| {
        let template = random.between(1, 23) as u8;
        random_rule(template, 24, false, random)
    }));
    set_falling_weights(&mut file.rules);
    if random.once_in(2) {
        random.shuffle(&mut file.rules);
    }
    file
}

/// Rules over steps of their own whose standings multiply to about 4,096, often to just this.
fn independent_rules(random: &mut Random) -> Vec<Rule> {
    let mut steps: Vec<u8> = (0..24).collect();
    random.shuffle(&mut steps);
    let mut forms = UNBROKEN_STANDINGS.to_vec();
    if random.once_in(2) {
        forms.retain(|(.., standings)| standings.is_power_of_two());
    }
    let mut rules = Vec::new();
    let mut product = 1;
    while product < 4096 && steps.len() >= 2 {
        let (template, count, standings) = *random.choose(&forms);
        let x = steps.pop().unwrap_or(0);
        let y = match (template, count) {
            (1..=4, _) => WITHOUT_Y,
            (_, Some(count)) => count,
            _ => steps.pop().unwrap_or(0),
        };
        rules.push(Rule {
            template,
            x,
            y,
            weights: [0; 3],
        });
        product *= standings;
    }
    rules
}

/// Supports that fall from rule to rule.
pub fn set_falling_weights(rules: &mut [Rule]) {
    for (place, rule) in rules.iter_mut().enumerate() {
        rule.weights = [0x3F00_0000 - 0x1_0000 * place as u32, 0x3E80_0000, 0];
    }
}
