//! Which refusal of the watch list goes first (01, "Refused inputs"): files, lengths of the list,
//! steps, standings and rule numbers that are refused or not, in all combinations.

use crate::checks::refusals::{examples, good_rules, steps, Expectation, RULE_NUMBERS};
use crate::comparison::Checked;
use crate::rule_file::{refusal, UNDECLARED};
use crate::watching::list::Entry;
use crate::watching::script::{expect, Script, ENTRIES};

const LENGTHS: [usize; 6] = [0, 31, 32, 33, 40, ENTRIES];

/// A standing that every template has, and one that none has.
const STANDINGS: [(u8, bool); 2] = [(1, true), (255, false)];

/// The good files declare one step.
const STEPS: [(u8, bool); 4] = [(0, true), (1, false), (24, false), (UNDECLARED, false)];

/// A file with its number and its rules, lent so many entries.
struct Lent<'a> {
    file: &'a Expectation,
    rules: usize,
    length: usize,
}

/// The examples of files that are refused by these numbers, and good files with so many rules.
pub fn try_files(refused: &[u32], good: &[usize], script: &mut Script) -> Checked<()> {
    let examples = examples().into_iter().map(|file| (file, 0));
    let refused = examples.filter(|((number, _), _)| refused.contains(number));
    let good = good.iter().map(|&rules| (good_file(rules), rules));
    let mut files = refused.chain(good);
    files.try_for_each(|(file, rules)| try_lengths(&file, rules, script))
}

fn good_file(rules: usize) -> Expectation {
    (0, [steps(1), good_rules(rules)].concat())
}

/// Every length, with entries whose standings are known or not.
fn try_lengths(file: &Expectation, rules: usize, script: &mut Script) -> Checked<()> {
    for length in LENGTHS {
        let lent = Lent {
            file,
            rules,
            length,
        };
        script.set_bytes(&file.1);
        script.lend(length);
        for (standing, known) in STANDINGS {
            let relevant = 7;
            script.fill(Entry { standing, relevant });
            try_calls(&lent, known, script)?;
        }
    }
    Ok(())
}

/// Every step, then every rule number, then beginning, over standings that are known or not.
fn try_calls(lent: &Lent, known: bool, script: &mut Script) -> Checked<()> {
    try_steps(lent, known, script)?;
    try_readings(lent, script)?;
    expect("beginning", script.begin(), lent.refusal_or(0))?;
    script.show_entries();
    Ok(())
}

fn try_steps(lent: &Lent, known: bool, script: &mut Script) -> Checked<()> {
    for (step, declared) in STEPS {
        let last = match (declared, known || lent.rules == 0) {
            (false, _) => refusal::UNDECLARED_STEP,
            (true, false) => refusal::UNKNOWN_STANDING,
            (true, true) => 0,
        };
        expect("step", script.step(step)?, lent.refusal_or(last))?;
    }
    Ok(())
}

fn try_readings(lent: &Lent, script: &mut Script) -> Checked<()> {
    for rule in RULE_NUMBERS {
        let has_rule = (1..=lent.rules).contains(&(rule as usize));
        let last = if has_rule { 0 } else { refusal::NO_SUCH_RULE };
        expect("reading", script.read(rule), lent.refusal_or(last))?;
    }
    Ok(())
}

impl Lent<'_> {
    /// 1, the file's number, or what comes last.
    fn refusal_or(&self, last: u32) -> u32 {
        match (self.length < 32, self.file.0) {
            (true, _) => refusal::AREA_TOO_SHORT,
            (false, 0) => last,
            (false, number) => number,
        }
    }
}
