//! A script for the program that watches runs, written together with what 01 and 02 have it print. That
//! program, tests/watch_runs, says how each operation is written.

use crate::comparison::{ensure, Checked};
use crate::rule_file::{RuleFile, MOST_RULES};
use crate::watching::list::{Entry, Said, WatchList, BEGUN, LEAST_ENTRIES};
use crate::watching::seen::Seen;

/// What the program has room for.
pub const ENTRIES: usize = 48;
const LONGEST_RUN: usize = 512;
const LONGEST_SCRIPT: usize = 1_048_576;

/// The most bytes that `rt try` takes from a program.
const LONGEST_OUTPUT: usize = 1_048_576;

pub struct Script {
    pub bytes: Vec<u8>,
    pub printed: String,
    pub seen: Seen,
    list: WatchList,
}

impl Default for Script {
    fn default() -> Script {
        Script {
            bytes: Vec::new(),
            printed: String::new(),
            seen: Seen::default(),
            list: WatchList::new(ENTRIES),
        }
    }
}

impl Script {
    /// Writes an operation: its letter and what it needs.
    fn write(&mut self, letter: u8, parts: &[&[u8]]) {
        self.bytes.push(letter);
        self.bytes.extend(parts.concat());
    }

    fn print(&mut self, line: &str) {
        self.printed.push_str(line);
        self.printed.push('\n');
    }

    pub fn set_bytes(&mut self, bytes: &[u8]) {
        let length = u16::try_from(bytes.len()).expect("a file whose length takes two bytes");
        self.write(b'F', &[&length.to_be_bytes(), bytes]);
        self.list.set_file(bytes);
    }

    pub fn set_file(&mut self, file: &RuleFile) {
        self.set_bytes(&file.bytes());
    }

    pub fn lend(&mut self, entries: usize) {
        self.write(b'L', &[&[entries as u8]]);
        self.list.lent = entries;
    }

    pub fn fill(&mut self, entry: Entry) {
        self.write(b'R', &[&[entry.standing], &entry.relevant.to_be_bytes()]);
        self.list.fill(entry);
    }

    pub fn put(&mut self, place: usize, entry: Entry) {
        let count = entry.relevant.to_be_bytes();
        self.write(b'P', &[&[place as u8, entry.standing], &count]);
        self.list.put(place, entry);
    }

    /// Gives the number of the refusal, or 0. All entries are shown where it is refused.
    pub fn begin(&mut self) -> u32 {
        self.write(b'B', &[]);
        let watched = &self.list.entries[..self.list.rules().len()];
        let others = watched.iter().any(|&entry| entry != BEGUN);
        let number = self.list.begin().err().unwrap_or(0);
        self.print(&format!("begin {number}"));
        self.seen.begins[number as usize] += 1;
        if number == 0 {
            self.seen.begun_anew += usize::from(others);
            self.seen.most_rules += usize::from(self.list.rules().len() == MOST_RULES);
            self.seen.longer_lists += usize::from(self.list.lent > LEAST_ENTRIES);
        } else {
            self.show_entries();
        }
        number
    }

    /// The same for a step.
    pub fn step(&mut self, step: u8) -> Checked<u32> {
        self.write(b'S', &[&[step]]);
        let before = self.list.clone();
        let number = self.list.step(step).err().unwrap_or(0);
        self.print(&format!("step {number}"));
        self.seen.steps[number as usize] += 1;
        if number == 0 {
            self.note_moves(before.held_by(step));
            self.list.check_run()?;
        } else {
            self.show_entries();
        }
        Ok(number)
    }

    /// What an accepted step moved, of which so many counts are held.
    fn note_moves(&mut self, held: usize) {
        self.seen.held += held;
        self.seen.longest_run = self.seen.longest_run.max(self.list.run_length());
        for (rule, entry) in self.list.rules().iter().zip(&self.list.entries) {
            self.seen.templates[usize::from(rule.template) - 1] += 1;
            self.seen.last_standing += usize::from(entry.standing == 15);
        }
    }

    pub fn read(&mut self, rule: u32) -> u32 {
        self.write(b'E', &[&rule.to_be_bytes()]);
        let said = self.list.read(rule);
        let number = said.err().unwrap_or(0);
        self.seen.reads[number as usize] += 1;
        match said {
            Err(number) => self.print(&format!("refused {number}")),
            Ok(Said::NoStanding) => {
                self.seen.no_standing += 1;
                self.print("none");
            }
            Ok(Said::State { value, relevant }) => {
                self.seen.values[usize::from(value)] += 1;
                self.print(&format!("value {value} relevant {relevant}"));
            }
        }
        number
    }

    /// The name of a step, which is empty where it is refused.
    pub fn name(&mut self, step: u64) -> u32 {
        self.write(b'N', &[&step.to_be_bytes()]);
        let given = self.list.name(step);
        let number = given.err().unwrap_or(0);
        let name = String::from_utf8_lossy(given.unwrap_or(&[])).into_owned();
        self.print(&format!("name {number} {} {name}", name.len()));
        self.seen.names[number as usize] += 1;
        self.seen.name_lengths[name.len()] += 1;
        number
    }

    /// All entries, also those that are not lent: of equal ones that follow one another, how many.
    pub fn show_entries(&mut self) {
        self.write(b'A', &[]);
        let equal = self.list.entries.chunk_by(|one, next| one == next);
        let printed = |equal: &[Entry]| {
            let Entry { standing, relevant } = equal[0];
            format!(" {}*{standing}:{relevant}", equal.len())
        };
        let entries: String = equal.map(printed).collect();
        self.print(&format!("entries{entries}"));
    }

    /// Fails where the program, or what runs it, has no room for the script.
    pub fn check_room(&self) -> Checked<()> {
        let sizes = [
            (self.bytes.len(), LONGEST_SCRIPT),
            (self.printed.len(), LONGEST_OUTPUT),
            (self.seen.longest_run, LONGEST_RUN),
        ];
        ensure(sizes.iter().all(|(size, most)| size <= most), || {
            format!("script, output or run too long: {sizes:?}")
        })
    }
}

/// A call has to give the number that 01 says, typed beside it or worked out from the case alone.
pub fn expect(call: &str, given: u32, number: u32) -> Checked<()> {
    ensure(given == number, || {
        format!("{call}: refused {given}, 01 says {number}")
    })
}
