//! Random files aimed at the search and at the second pass: steps that move all rules alike, many
//! second tests of rules that can break, of which some drop rules and some have too many joint
//! standings, and rules that never break.

use crate::joint::MOST_STANDINGS;
use crate::random::Random;
use crate::random_files::{random_rule, set_falling_weights, step_names};
use crate::rule_file::{Form, Rule, RuleFile, MOST_RULES, MOST_STEPS, TEMPLATES, WITHOUT_Y};

const INIT: u8 = 3;
const CHOICE: u8 = 22;

/// The templates without a broken standing.
const NEVER_BREAKING: [u8; 7] = [1, 4, 5, 6, 12, 19, 22];

/// A rule of this form over x and, where it names two steps, y.
fn rule_of((template, count): Form, x: u8, y: u8) -> Rule {
    let y = match template {
        1..=4 => WITHOUT_Y,
        _ => count.unwrap_or(y),
    };
    Rule {
        template,
        x,
        y,
        weights: [0; 3],
    }
}

/// A random rule over these steps, two or more.
fn rule_over(steps: &[u8], template: u8, random: &mut Random) -> Rule {
    let mut rule = random_rule(template, steps.len(), false, random);
    rename(&mut rule, steps);
    rule
}

/// Takes the numbers of a rule's steps for places in this list of steps.
fn rename(rule: &mut Rule, steps: &[u8]) {
    let second = rule.second_step();
    rule.x = steps[usize::from(rule.x)];
    rule.y = second.map_or(rule.y, |y| steps[usize::from(y)]);
}

/// So many different steps of so many declared ones.
fn some_steps(count: usize, declared: usize, random: &mut Random) -> Vec<u8> {
    let mut steps: Vec<u8> = (0..declared as u8).collect();
    random.shuffle(&mut steps);
    steps.truncate(count);
    steps
}

/// A file of so many steps with these rules, at most 32 of them, the best first. They stand in this
/// order or in another one. Sometimes more rules that equal them follow, so that any of them may
/// stand after the sixteenth.
fn ranked_file(steps: usize, mut rules: Vec<Rule>, random: &mut Random) -> RuleFile {
    rules.truncate(MOST_RULES);
    if random.once_in(8) {
        for _ in rules.len()..random.between(17, MOST_RULES) {
            rules.push(random.choose(&rules).clone());
        }
    }
    set_falling_weights(&mut rules);
    if random.once_in(2) {
        random.shuffle(&mut rules);
    }
    RuleFile {
        steps: step_names()[..steps].to_vec(),
        rules,
    }
}

/// A file with the most steps, of which most rules name a few. Often the worst rules may name any: a
/// step that the kept rules do not name is then named by the rule that is tested.
pub fn unnamed_file(random: &mut Random) -> RuleFile {
    let count = random.between(2, 5);
    let named = some_steps(count, MOST_STEPS, random);
    let all: Vec<u8> = (0..MOST_STEPS as u8).collect();
    let (over_named, over_all) = (random.between(2, 12), random.below(4));
    let mut rules = Vec::new();
    for (count, steps) in [(over_named, &named), (over_all, &all)] {
        let template = |random: &mut Random| random.between(1, TEMPLATES.count()) as u8;
        rules.extend((0..count).map(|_| rule_over(steps, template(random), random)));
    }
    ranked_file(MOST_STEPS, rules, random)
}

/// A file with pairs of steps that only Choice names, in which both move alike, and with rules over
/// other steps. Often some rule names one step of a pair and tells it from the other.
pub fn alike_file(random: &mut Random) -> RuleFile {
    let (pairs, others) = (random.between(1, 3), random.between(2, 4));
    let declared = random.between(2 * pairs + others, MOST_STEPS);
    let steps = some_steps(2 * pairs + others, declared, random);
    let (paired, others) = steps.split_at(2 * pairs);
    let mut rules: Vec<Rule> = paired
        .chunks(2)
        .map(|pair| rule_over(pair, CHOICE, random))
        .collect();
    for _ in 0..random.between(1, 10) {
        let template = random.between(1, TEMPLATES.count()) as u8;
        rules.push(rule_over(others, template, random));
    }
    random.shuffle(&mut rules);
    for _ in 0..random.below(3) {
        let template = random.between(1, TEMPLATES.count()) as u8;
        let place = random.between(rules.len() / 2, rules.len());
        rules.insert(place, rule_over(&steps, template, random));
    }
    ranked_file(declared, rules, random)
}

/// Rules over the same steps, each of which follows from a later one, but for the last.
const LADDERS: [&[Form]; 8] = [
    &[(5, None), (6, None), (7, None), (8, None)],
    &[(9, None), (10, None), (11, None)],
    &[(12, None), (13, None), (14, None), (15, None)],
    &[(16, None), (17, None), (18, None)],
    &[(20, Some(7)), (20, Some(4)), (2, None)],
    &[(1, None), (19, Some(2)), (19, Some(5))],
    &[(20, Some(6)), (19, Some(2)), (21, Some(4))],
    &[(22, None), (23, None)],
];

/// A file in which many rules follow from worse ones, so that the second pass drops them, often
/// several in turn and those next to the worst kept rule.
pub fn ladder_file(random: &mut Random) -> RuleFile {
    let declared = random.between(4, 10);
    let mut rules = Vec::new();
    for _ in 0..random.between(2, 5) {
        let steps = some_steps(2, declared, random);
        let ladder = random.choose(&LADDERS).iter();
        let ladder = ladder.map(|&form| rule_of(form, steps[0], steps[1]));
        merge(&mut rules, ladder.collect(), random);
    }
    let all: Vec<u8> = (0..declared as u8).collect();
    for _ in 0..random.below(4) {
        let template = random.between(1, TEMPLATES.count()) as u8;
        let rule = rule_over(&all, template, random);
        rules.insert(random.below(rules.len() + 1), rule);
    }
    ranked_file(declared, rules, random)
}

/// Puts rules after others, or among them in their own order.
fn merge(rules: &mut Vec<Rule>, further: Vec<Rule>, random: &mut Random) {
    let mut place = match random.once_in(2) {
        true => rules.len(),
        false => 0,
    };
    for rule in further {
        place = random.between(place, rules.len());
        rules.insert(place, rule);
        place += 1;
    }
}

/// A file of rules that never break.
pub fn unbreakable_file(random: &mut Random) -> RuleFile {
    let declared = random.between(2, 8);
    let count = random.between(2, declared.min(5));
    let steps = some_steps(count, declared, random);
    let rules = (0..random.between(2, 16)).map(|_| {
        let template = *random.choose(&NEVER_BREAKING);
        rule_over(&steps, template, random)
    });
    let rules = rules.collect();
    ranked_file(declared, rules, random)
}

/// A form with the number of its standings that are not broken, and one that follows from it. The
/// standing of that one is told by its own, until this is broken.
type Counted = (Form, usize, Option<Form>);

/// Forms that can break, with 3, 7 or 15 standings that are not broken: tested, they have 4, 8 or 16.
const ODD: [Counted; 8] = [
    ((13, None), 3, None),
    ((18, None), 3, Some((17, None))),
    ((23, None), 3, Some((22, None))),
    ((20, Some(2)), 3, Some((20, Some(5)))),
    ((21, Some(2)), 3, Some((20, Some(3)))),
    ((20, Some(6)), 7, Some((20, Some(9)))),
    ((21, Some(6)), 7, Some((19, Some(4)))),
    ((20, Some(14)), 15, None),
];

/// Forms that can break, with 2, 4 or 8 such standings.
const EVEN: [Counted; 7] = [
    ((2, None), 2, Some((20, Some(3)))),
    ((7, None), 2, None),
    ((9, None), 2, None),
    ((10, None), 2, None),
    ((17, None), 2, None),
    ((20, Some(3)), 4, Some((20, Some(4)))),
    ((21, Some(7)), 8, Some((19, Some(3)))),
];

/// Forms that never break, with 2, 4 or 8 standings.
const UNBREAKABLE: [Counted; 7] = [
    ((1, None), 2, None),
    ((4, None), 2, None),
    ((6, None), 2, None),
    ((22, None), 2, None),
    ((12, None), 4, Some((5, None))),
    ((19, Some(3)), 4, Some((19, Some(2)))),
    ((19, Some(7)), 8, Some((19, Some(4)))),
];

/// A file of rules over steps of their own, so that standings multiply. The second test of one of
/// them, which is odd, often has just 4,096 joint standings, or one more where Init is the best rule.
/// Those of others that can break have fewer or more. These rank before rules that never break, so
/// that their first tests are small. Among them stand rules that follow from worse ones.
pub fn edge_file(random: &mut Random) -> RuleFile {
    let odd = *random.choose(&ODD);
    let mut product = odd.1 + 1;
    let mut forms = vec![odd];
    for _ in 0..random.below(4) {
        add_form(&mut forms, &mut product, &EVEN, random);
    }
    random.shuffle(&mut forms);
    while product < MOST_STANDINGS {
        add_form(&mut forms, &mut product, &UNBREAKABLE, random);
    }
    let (mut rules, mut declared) = rules_of(&forms, random);
    if random.once_in(3) {
        rules.insert(0, rule_of((INIT, None), random.below(declared) as u8, 0));
    }
    declared = random.between(declared, MOST_STEPS.min(declared + 2));
    let names = some_steps(declared, declared, random);
    rules.iter_mut().for_each(|rule| rename(rule, &names));
    ranked_file(declared, rules, random)
}

/// Adds a form unless the standings then multiply to more than 4,096.
fn add_form(forms: &mut Vec<Counted>, product: &mut usize, from: &[Counted], random: &mut Random) {
    let form = *random.choose(from);
    if *product * form.1 <= MOST_STANDINGS {
        *product *= form.1;
        forms.push(form);
    }
}

/// A rule of each form over steps of its own, and of many a rule before it that follows from it; and
/// how many steps they name.
fn rules_of(forms: &[Counted], random: &mut Random) -> (Vec<Rule>, usize) {
    let mut rules: Vec<Rule> = Vec::new();
    let mut next = 0;
    for &(form, _, following) in forms {
        let (x, y) = (next, next + 1);
        let rule = rule_of(form, x, y);
        next += rule.own_steps().len() as u8;
        if let Some(following) = following.filter(|_| random.once_in(2)) {
            let place = random.between(0, rules.len());
            rules.insert(place, rule_of(following, x, y));
        }
        rules.push(rule);
    }
    (rules, usize::from(next))
}
