//! Standings and counts put in by hand: every template in every standing, and in some that it lacks.

use crate::comparison::Checked;
use crate::random::Random;
use crate::random_files::step_names;
use crate::rule_file::{refusal, rules_of_every_form, Rule, RuleFile};
use crate::watching::list::Entry;
use crate::watching::script::{expect, Script, ENTRIES};

/// The last standing of templates 1 to 18, 22 and 23 (01, "Templates"; 02, M-100).
const LAST_OF_ONE_STEP: [u8; 4] = [1, 2, 2, 1];
const LAST_OF_TWO_STEPS: [u8; 14] = [2, 1, 2, 2, 2, 2, 2, 3, 3, 2, 2, 2, 2, 3];
const LAST_OF_CHOICES: [u8; 2] = [1, 3];

/// Counts of x that are tried.
const TRIED_COUNTS: [u8; 4] = [1, 3, 13, 14];

/// Counts of relevant steps before a step: the last but one goes up for the last time, the last is
/// held.
const COUNTS: [u32; 6] = [0, 255, 65_535, 0x7FFF_FFFF, u32::MAX - 1, u32::MAX];

/// An entry by hand for the only rule of a file, and the step after it.
struct Case<'a> {
    rule: &'a Rule,
    /// How many steps are declared.
    declared: usize,
    entry: Entry,
    step: u8,
}

/// Every template and standing once, with any step, count and file.
pub fn try_once(random: &mut Random, script: &mut Script) -> Checked<()> {
    for rule in &tried_rules() {
        for standing in tried_standings(rule) {
            let declared = rule.own_steps().len() + random.below(2);
            let case = Case {
                rule,
                declared,
                entry: Entry {
                    standing,
                    relevant: *random.choose(&COUNTS),
                },
                step: random.below(declared) as u8,
            };
            try_case(&case, script)?;
        }
    }
    Ok(())
}

/// Every template and standing with every step and count, in files with and without a step that
/// the rule does not name.
pub fn try_all(script: &mut Script) -> Checked<()> {
    for rule in &tried_rules() {
        let own = rule.own_steps().len();
        for declared in [own, own + 1] {
            try_file(rule, declared, script)?;
        }
    }
    Ok(())
}

fn try_file(rule: &Rule, declared: usize, script: &mut Script) -> Checked<()> {
    for standing in tried_standings(rule) {
        for relevant in COUNTS {
            for step in 0..declared as u8 {
                let case = Case {
                    rule,
                    declared,
                    entry: Entry { standing, relevant },
                    step,
                };
                try_case(&case, script)?;
            }
        }
    }
    Ok(())
}

/// One rule of each template and tried count, whose x is the last step that it names.
fn tried_rules() -> Vec<Rule> {
    let with_x = |x| rules_of_every_form(x, 0).into_iter();
    let of_one_step = with_x(0).filter(|rule| rule.second_step().is_none());
    let of_two_steps = with_x(1).filter(|rule| rule.second_step().is_some());
    let rules = of_one_step.chain(of_two_steps);
    let is_tried = |count: u8| TRIED_COUNTS.contains(&count);
    rules
        .filter(|rule| rule.count().is_none_or(is_tried))
        .collect()
}

/// The first standings of a rule, those about its last one, and two that no template has.
fn tried_standings(rule: &Rule) -> Vec<u8> {
    let last = last_standing(rule);
    let mut standings = vec![0, 1, 2, last - 1, last, last + 1, last + 2, 16, 255];
    standings.sort();
    standings.dedup();
    standings
}

/// The last standing that a rule has.
fn last_standing(rule: &Rule) -> u8 {
    let place = |first: u8| usize::from(rule.template - first);
    match rule.template {
        1..=4 => LAST_OF_ONE_STEP[place(1)],
        5..=18 => LAST_OF_TWO_STEPS[place(5)],
        19 => rule.y,
        20 | 21 => rule.y + 1,
        _ => LAST_OF_CHOICES[place(22)],
    }
}

/// The step moves the entry or is refused for it. Every other entry would be refused if it were
/// looked at.
fn try_case(case: &Case, script: &mut Script) -> Checked<()> {
    script.set_file(&file_of(case));
    script.lend(ENTRIES);
    script.fill(Entry {
        standing: 255,
        relevant: 3,
    });
    script.put(0, case.entry);
    let known = case.entry.standing <= last_standing(case.rule);
    let expected = if known { 0 } else { refusal::UNKNOWN_STANDING };
    expect("step", script.step(case.step)?, expected)?;
    if known {
        script.show_entries();
    }
    script.read(1);
    Ok(())
}

/// The rule alone.
fn file_of(case: &Case) -> RuleFile {
    let mut steps = step_names();
    steps.truncate(case.declared);
    RuleFile {
        steps,
        rules: vec![case.rule.clone()],
    }
}
