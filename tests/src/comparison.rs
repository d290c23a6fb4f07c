//! One run of comparisons: product against reference, with what was seen on the way.

use crate::expected::Expected;
use crate::float_mode::{FloatMode, FLOAT_MODES};
use crate::joint::MOST_STANDINGS;
use crate::memory::{Content, CONTENTS};
use crate::monitor;
use crate::product::{
    Areas, Entry, Lending, Lengths, Lent, Part, Written, BYTES_A_RULE, EXACT, SEARCH_AREAS,
};
use crate::random::Random;
use crate::reference::{self, Answer, Decided, Decision, Verdict};
use crate::rule_file::{RuleFile, MOST_RULES};
use crate::showing;
use crate::stack::stack_taken;
use crate::tally::Tally;

/// A check that fails says why.
pub type Checked<T> = Result<T, String>;

/// Fails with the message unless the condition holds.
pub fn ensure(condition: bool, message: impl FnOnce() -> String) -> Checked<()> {
    if condition {
        Ok(())
    } else {
        Err(message())
    }
}

/// A run: random numbers, the areas lent to the product, and what was seen.
pub struct Comparison {
    pub random: Random,
    pub tally: Tally,
    /// Bytes that lie behind every file in memory, before random ones.
    pub behind: Vec<u8>,
    areas: Areas,
}

/// So many steps of a run are printed.
const LAST_STEPS: usize = 100;

/// All rules of a file are shown where the moves this takes are at most so many.
const MOST_MOVES: usize = 100_000;

impl Comparison {
    pub fn new(seed: u64) -> Comparison {
        Comparison {
            random: Random::new(seed),
            tally: Tally::default(),
            behind: Vec::new(),
            areas: Areas::default(),
        }
    }

    /// Compares the two on a file: pruning, and showing all rule numbers or, more often, two. Gives
    /// the number with which both accept or refuse the file.
    pub fn compare(&mut self, file: &[u8]) -> Checked<u32> {
        let decision = self.compare_pruning(file)?;
        let mut numbers = self.rule_numbers(&decision);
        if !self.random.once_in(4) {
            self.random.shuffle(&mut numbers);
            numbers.truncate(2);
        }
        self.compare_showing(file, &numbers, &decision)?;
        Ok(decision.err().unwrap_or(0))
    }

    /// Compares the two on a valid file: pruning, and showing all rule numbers unless that takes too
    /// long. Gives what both agree on.
    pub fn compare_valid(&mut self, file: &RuleFile) -> Checked<Decided> {
        self.compare_accepted(file, Comparison::rule_numbers)
    }

    /// The same, and all rules are shown however long it takes.
    pub fn compare_whole(&mut self, file: &RuleFile) -> Checked<Decided> {
        let rules = file.rules.len();
        self.compare_accepted(file, |comparison, _| comparison.every_number(rules))
    }

    /// The same, and no rule is shown.
    pub fn compare_verdicts(&mut self, file: &RuleFile) -> Checked<Decided> {
        self.compare_accepted(file, |_, _| Vec::new())
    }

    /// The same, showing the numbers that are chosen.
    fn compare_accepted(
        &mut self,
        file: &RuleFile,
        choose: impl FnOnce(&mut Comparison, &Decision) -> Vec<u32>,
    ) -> Checked<Decided> {
        let bytes = file.bytes();
        let decision = self.compare_pruning(&bytes)?;
        let numbers = choose(self, &decision);
        self.compare_showing(&bytes, &numbers, &decision)?;
        self.tally.note_valid_file(file.rules.len(), &numbers);
        decision.map_err(|number| format!("valid, but refused {number}: {}", hexadecimal(&bytes)))
    }

    /// The verdict area as the last pruning left it.
    pub fn verdict_area(&self) -> &[u8] {
        self.areas.verdicts()
    }

    /// With areas of any content.
    fn compare_pruning(&mut self, file: &[u8]) -> Checked<Decision> {
        let decision = reference::decide(file);
        self.tally.note_file(&decision);
        let content = *self.random.choose(&CONTENTS);
        let lending = self.random_lending(content);
        let expected = Expected::new(Entry::Prune, &decision);
        self.call(Entry::Prune, file, lending, &expected)?;
        Ok(decision)
    }

    /// With areas that are mostly as the call before left them: filling them takes longer than most
    /// calls.
    fn compare_showing(
        &mut self,
        file: &[u8],
        numbers: &[u32],
        decision: &Decision,
    ) -> Checked<()> {
        for entry in numbers.iter().copied().map(Entry::Show) {
            let content = if self.random.once_in(8) {
                *self.random.choose(&CONTENTS)
            } else {
                Content::Left
            };
            let lending = self.random_lending(content);
            self.call(entry, file, lending, &Expected::new(entry, decision))?;
        }
        Ok(())
    }

    /// The rule numbers to show of a file: all that it has, 0, the one after the last and two far
    /// ones, and sometimes all up to 33; if that takes too long, one rule of each fate and two numbers
    /// that the file lacks.
    fn rule_numbers(&mut self, decision: &Decision) -> Vec<u32> {
        match decision {
            Ok(decided) if moves_to_show_all(decided) > MOST_MOVES => {
                let [_, high_bit] = self.far_numbers();
                let mut numbers = self.one_rule_of_each_fate(decided);
                numbers.extend([decided.file.rules.len() as u32 + 1, high_bit]);
                numbers
            }
            _ if self.random.once_in(8) => self.every_number(MOST_RULES),
            Ok(decided) => self.every_number(decided.file.rules.len()),
            Err(_) => self.every_number(1),
        }
    }

    /// The numbers from 0 to one more than that of the last rule, and two far ones.
    pub fn every_number(&mut self, rules: usize) -> Vec<u32> {
        let near = 0..=rules as u32 + 1;
        near.chain(self.far_numbers()).collect()
    }

    /// The greatest number, and one of 1 to 32 with a higher bit: nothing of it may be cut off.
    pub fn far_numbers(&mut self) -> [u32; 2] {
        let low = self.random.between(1, MOST_RULES) as u32;
        [u32::MAX, low | 1 << self.random.between(6, 31)]
    }

    /// The numbers of rules chosen at random, one of each fate that the file has, and of all rules
    /// whose first count is 4,096.
    fn one_rule_of_each_fate(&mut self, decided: &Decided) -> Vec<u32> {
        let mut rules: Vec<usize> = (0..decided.verdicts.len()).collect();
        self.random.shuffle(&mut rules);
        let mut fates = Vec::new();
        rules.retain(|&rule| {
            let Verdict { fate, first, .. } = decided.verdicts[rule];
            let seen = fates.contains(&fate);
            fates.push(fate);
            !seen || usize::from(first) == MOST_STANDINGS
        });
        rules.iter().map(|&rule| rule as u32 + 1).collect()
    }

    /// Compares the two on the state of a rule after a run, with an area of any content that is
    /// sometimes longer than needed. Gives the number with which both accept or refuse the call.
    pub fn compare_run(&mut self, file: &[u8], rule: u32, run: &[u8]) -> Checked<u32> {
        let expected = Expected::of_state(monitor::state(file, rule, run));
        let longer = self.random.below(5);
        let lending = Lending {
            lengths: EXACT.changed(&[Lent::State], |length| length + longer),
            content: *self.random.choose(&CONTENTS),
        };
        self.call(Entry::State(rule, run), file, lending, &expected)?;
        Ok(expected.number())
    }

    /// Areas of this content that are sometimes longer than needed.
    fn random_lending(&mut self, content: Content) -> Lending {
        let mut lengths = EXACT;
        if self.random.once_in(4) {
            lengths = self.longer_lengths();
        }
        Lending { lengths, content }
    }

    /// Lengths that are each longer than needed.
    pub fn longer_lengths(&mut self) -> Lengths {
        EXACT.changed(&SEARCH_AREAS, |length| length + self.random.between(1, 40))
    }

    /// Calls the product on an accepted file, once with each content of areas exactly long enough.
    pub fn call_with_every_content(&mut self, entry: Entry, decided: &Decided) -> Checked<()> {
        let file = decided.file.bytes();
        let expected = Expected::of_accepted(entry, decided);
        let lengths = EXACT;
        for content in CONTENTS {
            self.call(entry, &file, Lending { lengths, content }, &expected)?;
        }
        Ok(())
    }

    /// The bytes of stack that an accepted call takes, with areas exactly long enough.
    pub fn stack_of(&mut self, entry: Entry, file: &[u8]) -> Checked<usize> {
        let lending = Lending {
            lengths: EXACT,
            content: Content::Random,
        };
        self.areas
            .prepare(entry, file, &self.behind, lending, &mut self.random);
        let mode = *self.random.choose(&FLOAT_MODES);
        let ((number, _), taken) = stack_taken(|| self.areas.call(entry, mode));
        ensure(number == 0, || {
            format!("{}: refused {number}", describe_entry(entry))
        })?;
        Ok(taken)
    }

    /// Calls the product in any mode of the processor, with all that is lent at any address, and
    /// holds it to what is expected, in result and in all areas.
    pub fn call(
        &mut self,
        entry: Entry,
        file: &[u8],
        lending: Lending,
        expected: &Expected,
    ) -> Checked<()> {
        let mode = *self.random.choose(&FLOAT_MODES);
        self.call_in(mode, entry, file, lending, expected)
    }

    /// The same in this mode.
    pub fn call_in(
        &mut self,
        mode: FloatMode,
        entry: Entry,
        file: &[u8],
        lending: Lending,
        expected: &Expected,
    ) -> Checked<()> {
        self.areas
            .prepare(entry, file, &self.behind, lending, &mut self.random);
        let addresses = self.areas.addresses(entry);
        self.tally.note_call(entry, expected, mode, &addresses);
        let (number, raised) = self.areas.call(entry, mode);
        let mistake = self.mistake(entry, number, expected);
        let mistake = mistake.or_else(|| {
            let what = "the call raised a floating-point exception";
            raised.then(|| what.to_string())
        });
        mistake.map_or(Ok(()), |mistake| {
            Err(format!(
                "{}: {mistake}\nfile: {}\nreference: {}\nareas: {lending:?}\nat {addresses:X?}\n{mode:?}",
                describe_entry(entry),
                hexadecimal(file),
                expected.describe()
            ))
        })
    }

    /// What is wrong after a call that returned this number.
    fn mistake(&mut self, entry: Entry, number: u32, expected: &Expected) -> Option<String> {
        let expected_number = expected.number();
        if number != expected_number {
            return Some(format!(
                "the product returns {number}, not {expected_number}"
            ));
        }
        let written = expected.written();
        self.mistake_in_sequences(expected)
            .or_else(|| self.mistake_in_place_of(written.as_ref()?))
            .or_else(|| {
                let part = self.areas.wrongly_changed(entry, written.as_ref())?;
                let what = name_of(part);
                Some(format!("the product changes {what} that must stay"))
            })
    }

    /// Where sequences are shown: what 01 and 02 do not allow of them.
    fn mistake_in_sequences(&self, expected: &Expected) -> Option<String> {
        let Expected::Sequences(decided, rule) = *expected else {
            return None;
        };
        let [satisfying, violating] = self.areas.shown();
        showing::mistake(decided, rule, true, satisfying)
            .or_else(|| showing::mistake(decided, rule, false, violating))
    }

    /// What the product wrote otherwise than it has to.
    fn mistake_in_place_of(&self, expected: &Written) -> Option<String> {
        let written = self.areas.in_place_of(expected);
        if written.verdicts != expected.verdicts {
            let verdicts = describe_bytes(&written.verdicts);
            Some(format!("the product's verdicts differ: {verdicts}"))
        } else if written.state != expected.state {
            let state = written.state;
            Some(format!("the product's value and relevant steps: {state:?}"))
        } else if written != *expected {
            Some(format!(
                "the product does not show the first sequences, but {:?}, {:?} with {:?}",
                written.satisfying, written.violating, written.answer
            ))
        } else {
            None
        }
    }
}

/// About how many moves a showing of all rules takes: each search again for each rule.
fn moves_to_show_all(decided: &Decided) -> usize {
    let counts = decided.verdicts.iter();
    let found: usize = counts.map(|verdict| usize::from(verdict.first)).sum();
    found * decided.file.steps.len() * decided.file.rules.len()
}

/// What is in a part of what is lent.
fn name_of(part: Part) -> &'static str {
    match part {
        Part::File => "bytes at the file",
        Part::Run => "bytes at the run",
        Part::Area(Lent::Found) => "numbers at the first work area",
        Part::Area(Lent::Links) => "numbers at the second work area",
        Part::Area(Lent::Verdicts) => "bytes of the verdict area",
        Part::Area(Lent::Satisfying) => "bytes of the area of the satisfying sequence",
        Part::Area(Lent::Violating) => "bytes of the area of the violating sequence",
        Part::Area(Lent::Answer) => "numbers at the answer",
        Part::Area(Lent::State) => "numbers at the state",
    }
}

/// An entry with its arguments, of a long run only the last steps.
fn describe_entry(entry: Entry) -> String {
    match entry {
        Entry::State(rule, run) => {
            let last = &run[run.len().saturating_sub(LAST_STEPS)..];
            let length = run.len();
            format!("State of rule {rule}, {length} steps that end in {last:?}")
        }
        _ => format!("{entry:?}"),
    }
}

/// Bytes in hexadecimal, with a space between.
pub fn hexadecimal(bytes: &[u8]) -> String {
    let each: Vec<String> = bytes.iter().map(|byte| format!("{byte:02X}")).collect();
    each.join(" ")
}

/// An answer in one line: `rule fate first second` of each rule, or the refusal.
pub fn describe(answer: &Answer) -> String {
    match answer {
        Err(number) => format!("refused {number}"),
        Ok(verdicts) => lines(verdicts).join(", "),
    }
}

/// The lines that 01 ("Cases") wants printed for an accepted file.
pub fn lines(verdicts: &[Verdict]) -> Vec<String> {
    let line = |(place, verdict): (usize, &Verdict)| {
        let Verdict {
            fate,
            first,
            second,
        } = verdict;
        format!("{} {fate} {first} {second}", place + 1)
    };
    verdicts.iter().enumerate().map(line).collect()
}

/// Verdict bytes in the same form.
fn describe_bytes(bytes: &[u8]) -> String {
    let number = |pair: &[u8]| u16::from_be_bytes([pair[0], pair[1]]);
    let verdict = |five: &[u8]| Verdict {
        fate: five[0],
        first: number(&five[1..3]),
        second: number(&five[3..5]),
    };
    let verdicts = bytes.chunks(BYTES_A_RULE).map(verdict).collect();
    describe(&Ok(verdicts))
}
