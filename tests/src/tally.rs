//! What was seen in a run of comparisons.

use crate::expected::Expected;
use crate::float_mode::{FloatMode, FLOAT_MODES};
use crate::joint::MOST_STANDINGS;
use crate::monitor::State;
use crate::product::{Entry, Part};
use crate::reference::{Decided, Decision, Verdict};
use std::collections::BTreeMap;

/// Adds each count to the one at its place.
fn add_each(counts: &mut [usize], others: &[usize]) {
    for (count, other) in counts.iter_mut().zip(others) {
        *count += other;
    }
}

/// The calls of one entry.
#[derive(Default)]
pub struct Calls {
    pub all: usize,
    /// Calls by the number expected, from 0 (accepted) to 17.
    pub refusals: [usize; 18],
    /// Accepted calls by the mode of the processor.
    pub modes: [usize; FLOAT_MODES.len()],
    pub parts: BTreeMap<Part, Addresses>,
}

/// Where one thing was lent to an entry.
#[derive(Debug, Default)]
pub struct Addresses {
    /// How many bytes a number has.
    pub size: usize,
    /// How often an accepted call found it so many bytes after a multiple of 16.
    pub places: [usize; 16],
    /// How often the pointer was null, with no number lent.
    pub nulls: usize,
}

impl Addresses {
    /// Whether it was found at every place that its numbers may have, and null.
    pub fn all_seen(&self) -> bool {
        let mut places = self.places.iter().step_by(self.size);
        self.nulls > 0 && places.all(|&times| times > 0)
    }
}

impl Calls {
    fn add(&mut self, other: &Calls) {
        self.all += other.all;
        add_each(&mut self.refusals, &other.refusals);
        add_each(&mut self.modes, &other.modes);
        for (part, addresses) in &other.parts {
            let seen = self.parts.entry(*part).or_default();
            seen.size = addresses.size;
            seen.nulls += addresses.nulls;
            add_each(&mut seen.places, &addresses.places);
        }
    }

    fn note(&mut self, number: u32, mode: FloatMode, addresses: &[(Part, usize, usize)]) {
        self.all += 1;
        self.refusals[number as usize] += 1;
        self.modes[mode.index()] += usize::from(number == 0);
        for &(part, address, size) in addresses {
            let seen = self.parts.entry(part).or_default();
            seen.size = size;
            match address {
                0 => seen.nulls += 1,
                _ => seen.places[address % 16] += usize::from(number == 0),
            }
        }
    }
}

/// Rules with what was seen of them.
#[derive(Default)]
pub struct Rules {
    /// Rules by fate.
    pub fates: [usize; 6],
    /// Counts of exactly 4,096.
    pub at_most: usize,
    /// Counts over 4,096.
    pub over: usize,
}

impl Rules {
    fn add(&mut self, other: &Rules) {
        add_each(&mut self.fates, &other.fates);
        self.at_most += other.at_most;
        self.over += other.over;
    }

    fn note(&mut self, verdict: &Verdict, counts: &[u16]) {
        let of = |wanted| {
            let counts = counts.iter().map(|&count| usize::from(count));
            counts.filter(|&count| count == wanted).count()
        };
        self.fates[usize::from(verdict.fate)] += 1;
        self.at_most += of(MOST_STANDINGS);
        self.over += of(MOST_STANDINGS + 1);
    }
}

/// States of rules after runs with what was seen of them, once a call.
#[derive(Default)]
pub struct States {
    /// States by value.
    pub values: [usize; 4],
    /// States by template, from 1 on.
    pub templates: [usize; 23],
    /// The same of those with a relevant step that keeps the value.
    pub keeping_value: [usize; 23],
    pub longest_run: usize,
    pub most_relevant: u32,
}

impl States {
    fn add(&mut self, other: &States) {
        add_each(&mut self.values, &other.values);
        add_each(&mut self.templates, &other.templates);
        add_each(&mut self.keeping_value, &other.keeping_value);
        self.longest_run = self.longest_run.max(other.longest_run);
        self.most_relevant = self.most_relevant.max(other.most_relevant);
    }

    fn note(&mut self, state: &State, run: &[u8]) {
        let place = usize::from(state.template) - 1;
        self.values[usize::from(state.value)] += 1;
        self.templates[place] += 1;
        self.keeping_value[place] += usize::from(state.keeping_value > 0);
        self.longest_run = self.longest_run.max(run.len());
        self.most_relevant = self.most_relevant.max(state.relevant);
    }
}

/// How often something was seen.
#[derive(Default)]
pub struct Tally {
    pub files: usize,
    /// Accepted files with a template that 02 (M-100) adds.
    pub added_templates: usize,
    /// Files made to be valid.
    pub valid_files: usize,
    /// Those of them with one rule or more of which every rule was shown.
    pub whole_files: usize,
    /// Files whose order of decision would be another one if subnormal weights were 0.
    pub subnormal_orders: usize,
    pub pruning: Calls,
    pub showing: Calls,
    pub monitoring: Calls,
    /// The rules of all files with both counts, once a file.
    pub pruned: Rules,
    /// The rules shown with their first counts, once a call.
    pub shown: Rules,
    pub longest_sequence: usize,
    pub states: States,
    /// Calls of the monitor with random runs.
    pub random_runs: usize,
}

impl Tally {
    pub fn calls(&self) -> usize {
        self.pruning.all + self.showing.all + self.monitoring.all
    }

    /// Adds what another one has seen.
    pub fn add(&mut self, other: &Tally) {
        self.files += other.files;
        self.added_templates += other.added_templates;
        self.valid_files += other.valid_files;
        self.whole_files += other.whole_files;
        self.subnormal_orders += other.subnormal_orders;
        self.pruning.add(&other.pruning);
        self.showing.add(&other.showing);
        self.monitoring.add(&other.monitoring);
        self.pruned.add(&other.pruned);
        self.shown.add(&other.shown);
        self.longest_sequence = self.longest_sequence.max(other.longest_sequence);
        self.states.add(&other.states);
        self.random_runs += other.random_runs;
    }

    pub fn note_file(&mut self, decision: &Decision) {
        self.files += 1;
        let other_order = |decided: &Decided| {
            decided.file.without_subnormals().order_of_decision() != decided.order
        };
        self.subnormal_orders += usize::from(decision.as_ref().is_ok_and(other_order));
        let added = |decided: &Decided| decided.file.has_added_template();
        self.added_templates += usize::from(decision.as_ref().is_ok_and(added));
        let verdicts = decision.iter().flat_map(|decided| &decided.verdicts);
        for verdict in verdicts {
            self.pruned.note(verdict, &[verdict.first, verdict.second]);
        }
    }

    /// A file made to be valid with so many rules, of which these numbers were shown.
    pub fn note_valid_file(&mut self, rules: usize, shown: &[u32]) {
        let mut numbers = 1..=rules as u32;
        let whole = rules > 0 && numbers.all(|number| shown.contains(&number));
        self.valid_files += 1;
        self.whole_files += usize::from(whole);
    }

    /// A call in a mode, with the address of each part that is lent and the size of its numbers.
    pub fn note_call(
        &mut self,
        entry: Entry,
        expected: &Expected,
        mode: FloatMode,
        addresses: &[(Part, usize, usize)],
    ) {
        let calls = match entry {
            Entry::Prune => &mut self.pruning,
            Entry::Show(_) => &mut self.showing,
            Entry::State(..) => &mut self.monitoring,
        };
        calls.note(expected.number(), mode, addresses);
        match expected {
            Expected::Sequences(decided, rule) => self.note_sequences(decided, *rule),
            Expected::State(state) => self.states.note(state, entry.run()),
            _ => (),
        }
    }

    fn note_sequences(&mut self, decided: &Decided, rule: usize) {
        let verdict = &decided.verdicts[rule];
        self.shown.note(verdict, &[verdict.first]);
        let lengths = decided.shown(rule).into_iter().flatten();
        let longest = lengths.map(|sequence| sequence.steps.len()).max();
        self.longest_sequence = self.longest_sequence.max(longest.unwrap_or(0));
    }
}
