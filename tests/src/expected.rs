//! What a call of the product has to give, by the reference.

use crate::comparison::lines;
use crate::monitor::{self, State};
use crate::product::{Entry, Written};
use crate::reference::{Decided, Decision, Sequence, Verdict};

/// What a call has to give.
pub enum Expected<'a> {
    Refused(u32),
    /// The verdicts of pruning.
    Verdicts(&'a [Verdict]),
    /// The sequences of the rule of this index.
    Sequences(&'a Decided, usize),
    /// The state of a rule after a run.
    State(State),
}

impl Expected<'_> {
    /// What the reference gives, where the areas are long enough.
    pub fn new<'a>(entry: Entry, decision: &'a Decision) -> Expected<'a> {
        match decision {
            Err(number) => Expected::Refused(*number),
            Ok(decided) => Expected::of_accepted(entry, decided),
        }
    }

    /// The same for an accepted file.
    pub fn of_accepted<'a>(entry: Entry, decided: &'a Decided) -> Expected<'a> {
        match entry {
            Entry::Prune => Expected::Verdicts(&decided.verdicts),
            Entry::Show(number) => match decided.file.rule_of(number) {
                Err(number) => Expected::Refused(number),
                Ok(rule) => Expected::Sequences(decided, rule),
            },
            Entry::State(number, run) => {
                Expected::of_state(monitor::state_in(&decided.file, number, run))
            }
        }
    }

    /// The state of a rule after a run, or the refusal.
    pub fn of_state(state: Result<State, u32>) -> Expected<'static> {
        match state {
            Err(number) => Expected::Refused(number),
            Ok(state) => Expected::State(state),
        }
    }

    /// The number that the entry returns.
    pub fn number(&self) -> u32 {
        match self {
            Expected::Refused(number) => *number,
            _ => 0,
        }
    }

    /// What an accepted call writes.
    pub fn written(&self) -> Option<Written> {
        match self {
            Expected::Refused(_) => None,
            Expected::Verdicts(verdicts) => Some(Written {
                verdicts: verdicts.iter().flat_map(Verdict::bytes).collect(),
                ..Written::default()
            }),
            Expected::Sequences(decided, rule) => Some(written_sequences(decided.shown(*rule))),
            Expected::State(state) => Some(Written {
                state: state.numbers().to_vec(),
                ..Written::default()
            }),
        }
    }

    pub fn describe(&self) -> String {
        match self {
            Expected::Refused(number) => format!("refused {number}"),
            Expected::Verdicts(verdicts) => lines(verdicts).join(", "),
            Expected::Sequences(decided, rule) => format!(
                "{}; rule {} shows {:?}",
                lines(&decided.verdicts).join(", "),
                rule + 1,
                decided.shown(*rule)
            ),
            Expected::State(state) => format!("{state:?}"),
        }
    }
}

/// The eight numbers and both sequences, nothing for one that is absent.
fn written_sequences(shown: [Option<Sequence>; 2]) -> Written {
    let numbers = |sequence: &Option<Sequence>| match sequence {
        None => [0; 4],
        Some(Sequence {
            steps,
            standing: [first, second],
        }) => [1, steps.len() as u64, *first, *second],
    };
    let answer = shown.iter().flat_map(numbers).collect();
    let steps = |sequence: Option<Sequence>| sequence.map_or(Vec::new(), |shown| shown.steps);
    let [satisfying, violating] = shown.map(steps);
    Written {
        satisfying,
        violating,
        answer,
        ..Written::default()
    }
}
