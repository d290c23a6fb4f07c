//! What occurs in a script.

use crate::comparison::{ensure, Checked};
use crate::rule_file::{refusal, LONGEST_NAME};

/// Calls by the number expected, from 0 (accepted) to 17.
pub type Calls = [usize; 18];

/// How often something occurs.
#[derive(Default)]
pub struct Seen {
    pub begins: Calls,
    pub steps: Calls,
    pub reads: Calls,
    pub names: Calls,
    /// Names by their length, that of a refused one being 0.
    pub name_lengths: [usize; LONGEST_NAME + 1],
    /// What is read, by value.
    pub values: [usize; 4],
    /// What is read has no value.
    pub no_standing: usize,
    /// Rules moved by a step, by template from 1 on.
    pub templates: [usize; 23],
    /// Entries that a step leaves in the last standing of all, 15: x too often for a count of 14.
    pub last_standing: usize,
    /// Relevant steps whose count is held.
    pub held: usize,
    /// Beginnings where the entry of some rule was not as a beginning leaves it.
    pub begun_anew: usize,
    /// Beginnings of files with 32 rules.
    pub most_rules: usize,
    /// Beginnings in lists longer than asked for.
    pub longer_lists: usize,
    pub longest_run: usize,
}

impl Seen {
    /// Adds what occurs in another script.
    pub fn add(&mut self, other: &Seen) {
        add_each(&mut self.begins, &other.begins);
        add_each(&mut self.steps, &other.steps);
        add_each(&mut self.reads, &other.reads);
        add_each(&mut self.names, &other.names);
        add_each(&mut self.name_lengths, &other.name_lengths);
        add_each(&mut self.values, &other.values);
        add_each(&mut self.templates, &other.templates);
        self.last_standing += other.last_standing;
        self.no_standing += other.no_standing;
        self.held += other.held;
        self.begun_anew += other.begun_anew;
        self.most_rules += other.most_rules;
        self.longer_lists += other.longer_lists;
        self.longest_run = self.longest_run.max(other.longest_run);
    }

    /// All calls of beginning, of a step, of reading and of names.
    pub fn calls(&self) -> [usize; 4] {
        let calls = [&self.begins, &self.steps, &self.reads, &self.names];
        calls.map(|calls| calls.iter().sum())
    }

    /// Fails if something never occurs, as a file that is refused by one of these numbers.
    pub fn check(&self, of_files: &[u32]) -> Checked<()> {
        let meets_all = |calls: &Calls, own: &[u32]| {
            let mut numbers = [0].iter().chain(of_files).chain(own);
            numbers.all(|&number| calls[number as usize] > 0)
        };
        let meets = |calls: &Calls, own: &[u32]| {
            calls[refusal::AREA_TOO_SHORT as usize] > 0 && meets_all(calls, own)
        };
        let of_a_step = [refusal::UNDECLARED_STEP, refusal::UNKNOWN_STANDING];
        let all = |seen: &[usize]| seen.iter().all(|&times| times > 0);
        let demands = [
            (meets(&self.begins, &[]), "some refusal of beginning"),
            (meets(&self.steps, &of_a_step), "some refusal of a step"),
            (
                meets(&self.reads, &[refusal::NO_SUCH_RULE]),
                "some refusal of reading",
            ),
            (
                meets_all(&self.names, &[refusal::UNDECLARED_STEP]),
                "some refusal of a name",
            ),
            (all(&self.name_lengths), "some length of a name"),
            (all(&self.values), "some value"),
            (all(&self.templates), "some template"),
            (self.last_standing > 0, "standing 15"),
            (self.no_standing > 0, "reading an unknown standing"),
            (self.held > 0, "a count that is held"),
            (self.begun_anew > 0, "beginning over other entries"),
            (self.most_rules > 0, "a file with 32 rules"),
            (self.longer_lists > 0, "a longer list"),
        ];
        let mut demands = demands.into_iter();
        demands.try_for_each(|(occurs, what)| ensure(occurs, || format!("{what} never occurs")))
    }
}

fn add_each(sums: &mut [usize], others: &[usize]) {
    for (sum, other) in sums.iter_mut().zip(others) {
        *sum += other;
    }
}
