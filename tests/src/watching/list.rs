//! The watch list by 01 and 02 (M-100, M-103): entries that are begun, moved by steps and read.
//! Their standings come from the moves, the values and permitted steps in them from the meanings.

use crate::comparison::{ensure, Checked};
use crate::monitor::{self, activation_after, Activation};
use crate::rule_file::{self, refusal, Rule, RuleFile, MOST_RULES};
use crate::template::template;

/// The fewest entries that are lent.
pub const LEAST_ENTRIES: usize = MOST_RULES;

/// A step that no rule names.
const OTHER_STEP: u8 = 254;

#[derive(Clone, Copy, Debug, PartialEq, Eq)]
pub struct Entry {
    pub standing: u8,
    pub relevant: u32,
}

/// An entry as beginning sets it.
pub const BEGUN: Entry = Entry {
    standing: 0,
    relevant: 0,
};

/// What an entry says of its rule.
#[derive(Clone, Copy, Debug, PartialEq, Eq)]
pub enum Said {
    /// The rule's template lacks the entry's standing.
    NoStanding,
    State {
        value: u8,
        relevant: u32,
    },
}

/// A list of entries, of which the first are lent, and the rule file or its refusal.
#[derive(Clone)]
pub struct WatchList {
    pub entries: Vec<Entry>,
    pub lent: usize,
    file: Result<RuleFile, u32>,
    /// The steps since the last beginning; none where anything but these changed the entries.
    run: Option<Vec<u8>>,
}

impl WatchList {
    /// So many entries, none of them lent, and the empty file.
    pub fn new(entries: usize) -> WatchList {
        WatchList {
            entries: vec![BEGUN; entries],
            lent: 0,
            file: rule_file::read(&[]),
            run: None,
        }
    }

    pub fn set_file(&mut self, bytes: &[u8]) {
        self.file = rule_file::read(bytes);
        self.run = None;
    }

    pub fn put(&mut self, place: usize, entry: Entry) {
        self.entries[place] = entry;
        self.run = None;
    }

    pub fn fill(&mut self, entry: Entry) {
        self.entries.fill(entry);
        self.run = None;
    }

    /// How many steps are followed since the last beginning.
    pub fn run_length(&self) -> usize {
        self.run.as_ref().map_or(0, Vec::len)
    }

    /// The rules of an accepted file.
    pub fn rules(&self) -> &[Rule] {
        self.file.as_ref().map_or(&[], |file| &file.rules)
    }

    /// The rules whose count a step would raise if it were not at the greatest number.
    pub fn held_by(&self, step: u8) -> usize {
        let declared = self.file.as_ref().map_or(0, |file| file.steps.len());
        let watched = self.rules().iter().zip(&self.entries);
        let is_held = |(rule, entry): &(&Rule, &Entry)| {
            entry.relevant == u32::MAX && is_relevant(rule, declared, entry.standing, step)
        };
        watched.filter(is_held).count()
    }

    /// The file, or refusal 1 of the list, or that of the file.
    fn accepted_file(&self) -> Result<&RuleFile, u32> {
        if self.lent < LEAST_ENTRIES {
            return Err(refusal::AREA_TOO_SHORT);
        }
        self.file.as_ref().map_err(|&number| number)
    }

    pub fn begin(&mut self) -> Result<(), u32> {
        let rules = self.accepted_file()?.rules.len();
        self.entries[..rules].fill(BEGUN);
        self.run = Some(Vec::new());
        Ok(())
    }

    pub fn step(&mut self, step: u8) -> Result<(), u32> {
        let file = self.accepted_file()?;
        let declared = file.steps.len();
        if usize::from(step) >= declared {
            return Err(refusal::UNDECLARED_STEP);
        }
        let mut watched = file.rules.iter().zip(&self.entries);
        if !watched.all(|(rule, entry)| has_standing(rule, entry.standing)) {
            return Err(refusal::UNKNOWN_STANDING);
        }
        let watched = file.rules.iter().zip(&self.entries);
        let moved: Vec<Entry> = watched
            .map(|(rule, entry)| moved(rule, declared, *entry, step))
            .collect();
        self.entries[..moved.len()].copy_from_slice(&moved);
        if let Some(run) = &mut self.run {
            run.push(step);
        }
        Ok(())
    }

    /// What the entry of the rule of this number says.
    pub fn read(&self, number: u32) -> Result<Said, u32> {
        let file = self.accepted_file()?;
        let place = file.rule_of(number)?;
        let (rule, entry) = (&file.rules[place], self.entries[place]);
        if !has_standing(rule, entry.standing) {
            return Ok(Said::NoStanding);
        }
        Ok(Said::State {
            value: activation_in(rule, file.steps.len(), entry.standing).value,
            relevant: entry.relevant,
        })
    }

    /// The name of a step of the file, whatever is lent.
    pub fn name(&self, step: u64) -> Result<&[u8], u32> {
        let file = self.file.as_ref().map_err(|&number| number)?;
        let mut steps = (0..).zip(&file.steps);
        let found = steps.find(|&(number, _)| number == step);
        found.map_or(Err(refusal::UNDECLARED_STEP), |(_, name)| Ok(name))
    }

    /// Where the entries come from a run, they say what the meanings alone say of it.
    pub fn check_run(&self) -> Checked<()> {
        let (Ok(file), Some(run)) = (&self.file, &self.run) else {
            return Ok(());
        };
        (1..=file.rules.len() as u32).try_for_each(|number| {
            let expected = monitor::state_in(file, number, run).map(|state| Said::State {
                value: state.value,
                relevant: state.relevant,
            });
            let said = self.read(number);
            ensure(said == expected, || {
                format!("rule {number} after {run:?}: {said:?} by the moves, {expected:?} by the meanings")
            })
        })
    }
}

/// Whether the rule's template has the standing.
fn has_standing(rule: &Rule, standing: u8) -> bool {
    usize::from(standing) < template(rule).moves.len()
}

/// The entry of a rule after a step; its count is held at the greatest number.
fn moved(rule: &Rule, declared: usize, entry: Entry, step: u8) -> Entry {
    let more = is_relevant(rule, declared, entry.standing, step);
    Entry {
        standing: template(rule).after(rule, entry.standing, step),
        relevant: entry.relevant.saturating_add(u32::from(more)),
    }
}

/// Whether a step changes the activation state that a rule has in a standing.
fn is_relevant(rule: &Rule, declared: usize, standing: u8, step: u8) -> bool {
    let after = template(rule).after(rule, standing, step);
    activation_in(rule, declared, after) != activation_in(rule, declared, standing)
}

/// The activation state of a rule in a standing: that of a sequence which leads to the standing.
fn activation_in(rule: &Rule, declared: usize, standing: u8) -> Activation {
    activation_after(rule, declared, &sequence_to(rule, standing))
}

/// A shortest sequence that leads a rule from standing 0 to this one.
fn sequence_to(rule: &Rule, standing: u8) -> Vec<u8> {
    let mut steps = rule.own_steps();
    steps.push(OTHER_STEP);
    // Each standing once, with the sequence that led to it first.
    let mut found: Vec<(u8, Vec<u8>)> = vec![(0, Vec::new())];
    let mut place = 0;
    while let Some((from, sequence)) = found.get(place).cloned() {
        if from == standing {
            return sequence;
        }
        for &step in &steps {
            let after = template(rule).after(rule, from, step);
            if found.iter().all(|&(known, _)| known != after) {
                found.push((after, [&sequence[..], &[step]].concat()));
            }
        }
        place += 1;
    }
    panic!("{rule:?} is never led to standing {standing}")
}
