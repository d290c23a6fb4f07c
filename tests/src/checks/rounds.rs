//! Files of rounds within rounds, so that a shown sequence is long: over 255 steps, and over 1,023.

use crate::checks::cases::packed;
use crate::comparison::{ensure, Checked, Comparison};
use crate::product::Entry;
use crate::random_files::{set_falling_weights, step_names};
use crate::reference::Sequence;
use crate::rule_file::{Rule, RuleFile, WITHOUT_Y};

const PARTICIPATION: u8 = 1;
const CHAIN_PRECEDENCE: u8 = 11;
const ALTERNATE_SUCCESSION: u8 = 14;

/// The two steps of a level.
fn odd(level: u8) -> u8 {
    2 * level
}

fn even(level: u8) -> u8 {
    2 * level + 1
}

/// On each level the two steps come in turn, and from level 1 on each of them right after the
/// second one of the level below. The last rule asks for the second step of the last level.
pub fn file_of_rounds(last_level: u8) -> RuleFile {
    let rule = |template, x, y| Rule {
        template,
        x,
        y,
        weights: [0; 3],
    };
    let mut rules = vec![rule(ALTERNATE_SUCCESSION, odd(0), even(0))];
    for level in 1..=last_level {
        let below = even(level - 1);
        rules.push(rule(CHAIN_PRECEDENCE, below, odd(level)));
        rules.push(rule(CHAIN_PRECEDENCE, below, even(level)));
        rules.push(rule(ALTERNATE_SUCCESSION, odd(level), even(level)));
    }
    rules.push(rule(PARTICIPATION, even(last_level), WITHOUT_Y));
    set_falling_weights(&mut rules);
    RuleFile {
        steps: step_names()[..=usize::from(even(last_level))].to_vec(),
        rules,
    }
}

/// The only shortest sequence that satisfies the last rule and all others: both steps of a level
/// need a whole round of the level below right before them.
fn round(level: u8) -> Vec<u8> {
    let below = level.checked_sub(1).map_or(Vec::new(), round);
    let (first, second) = ([odd(level)], [even(level)]);
    [&below[..], &first, &below, &second].concat()
}

/// Files whose last level is 0, 1, and so on.
pub fn check(last_level: u8, comparison: &mut Comparison) -> Checked<String> {
    for level in 0..=last_level {
        let file = file_of_rounds(level);
        let decided = comparison.compare_valid(&file)?;
        let last_rule = file.rules.len() - 1;
        let show_last = Entry::Show(file.rules.len() as u32);
        comparison.call_with_every_content(show_last, &decided)?;
        // Every level is through with its round, so that only the last rule has left standing 0.
        let expected = Sequence {
            steps: round(level),
            standing: packed(1 << (4 * last_rule)),
        };
        let [satisfying, _] = decided.shown(last_rule);
        ensure(satisfying.as_ref() == Some(&expected), || {
            format!("level {level}: shown is {satisfying:?}, by hand {expected:?}")
        })?;
    }
    Ok(format!(
        "rounds: {} files, the longest sequence of {} steps",
        last_level + 1,
        round(last_level).len()
    ))
}
