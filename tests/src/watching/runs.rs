//! Runs of random files, watched step by step, with refused calls and entries put in by hand in
//! between.

use crate::comparison::Checked;
use crate::random::Random;
use crate::random_files::{random_file, Size};
use crate::random_runs::random_run;
use crate::rule_file::{refusal, RuleFile, MOST_RULES, UNDECLARED};
use crate::template::template;
use crate::watching::list::Entry;
use crate::watching::script::{expect, Script, ENTRIES};

/// Lengths of lists that are long enough.
const LENGTHS: [usize; 4] = [32, 33, 40, ENTRIES];

/// So many files of up to this size, with so many runs each, all of this length.
pub struct Group {
    pub files: usize,
    pub size: Size,
    pub runs: usize,
    pub length: usize,
}

/// A file that is watched.
struct Watched<'a> {
    file: &'a RuleFile,
    random: &'a mut Random,
    script: &'a mut Script,
}

/// Random files up to a group's size; the first file is of this size.
pub fn try_group(group: &Group, random: &mut Random, script: &mut Script) -> Checked<()> {
    for number in 0..group.files {
        let mut size = group.size;
        if number > 0 {
            size.steps = random.between(1, size.steps);
            size.rules = random.between(0, size.rules);
        }
        let file = random_file(size, random);
        let mut watched = Watched {
            file: &file,
            random,
            script,
        };
        watched.try_runs(group)?;
    }
    Ok(())
}

impl Watched<'_> {
    fn try_runs(&mut self, group: &Group) -> Checked<()> {
        self.prepare();
        for _ in 0..group.runs {
            self.try_run(group.length)?;
            self.try_by_hand()?;
        }
        Ok(())
    }

    /// A list of any length that is enough.
    fn lend(&mut self) {
        self.script.lend(*self.random.choose(&LENGTHS));
    }

    /// Sets the file, and fills the list with rubbish.
    fn prepare(&mut self) {
        self.script.set_file(self.file);
        self.lend();
        let rubbish = self.rubbish();
        self.script.fill(rubbish);
        let rules = self.file.rules.len();
        for place in [0, rules / 2, rules, ENTRIES - 1] {
            let rubbish = self.rubbish();
            self.script.put(place, rubbish);
        }
    }

    /// Any standing and count.
    fn rubbish(&mut self) -> Entry {
        Entry {
            standing: self.random.byte(),
            relevant: self.random.bits() as u32,
        }
    }

    /// Begins, and takes the steps of a run that is made for some rule.
    fn try_run(&mut self, length: usize) -> Checked<()> {
        expect("beginning", self.script.begin(), 0)?;
        self.script.show_entries();
        self.read_any();
        for step in self.run(length) {
            if self.random.once_in(6) {
                self.try_refused(step)?;
            }
            expect("step", self.script.step(step)?, 0)?;
            self.look();
        }
        self.script.show_entries();
        self.read_all();
        Ok(())
    }

    fn run(&mut self, length: usize) -> Vec<u8> {
        let declared = self.file.steps.len();
        if self.file.rules.is_empty() {
            return (0..length)
                .map(|_| self.random.below(declared) as u8)
                .collect();
        }
        let rule = self.random.choose(&self.file.rules);
        random_run(rule, declared, length, self.random)
    }

    /// An undeclared step, and calls with too short a list. None of them changes anything.
    fn try_refused(&mut self, step: u8) -> Checked<()> {
        let declared = self.file.steps.len();
        let any = self.random.between(declared, 255) as u8;
        let undeclared = *self.random.choose(&[declared as u8, any, UNDECLARED]);
        expect(
            "step",
            self.script.step(undeclared)?,
            refusal::UNDECLARED_STEP,
        )?;
        let too_short = self.random.below(MOST_RULES);
        self.script
            .lend(*self.random.choose(&[0, too_short, MOST_RULES - 1]));
        expect("step", self.script.step(step)?, refusal::AREA_TOO_SHORT)?;
        expect("beginning", self.script.begin(), refusal::AREA_TOO_SHORT)?;
        self.lend();
        Ok(())
    }

    /// Reads a rule, or shows all entries.
    fn look(&mut self) {
        if self.random.once_in(4) {
            self.script.show_entries();
        } else {
            self.read_any();
        }
    }

    /// Any rule, or the number after that of the last.
    fn read_any(&mut self) {
        let rule = self.random.between(1, self.file.rules.len() + 1);
        self.script.read(rule as u32);
    }

    /// Every rule, and numbers that the file lacks.
    fn read_all(&mut self) {
        let last = self.file.rules.len() as u32 + 1;
        (0..=last).for_each(|rule| {
            self.script.read(rule);
        });
        self.script.read(u32::MAX);
    }

    /// Standings by hand: for the first, a middle and the last rule, and past the last rule, where
    /// they do not matter.
    fn try_by_hand(&mut self) -> Checked<()> {
        let rules = self.file.rules.len();
        let rubbish = self.rubbish();
        self.script.put(rules, rubbish);
        self.try_accepted()?;
        let mut places = vec![0, rules / 2, rules.saturating_sub(1)];
        places.retain(|&place| place < rules);
        for place in places {
            self.try_place(place)?;
        }
        Ok(())
    }

    /// A standing that the rule's template lacks, then one that it has.
    fn try_place(&mut self, place: usize) -> Checked<()> {
        let standings = template(&self.file.rules[place]).moves.len();
        let relevant = *self.random.choose(&[0, 9, u32::MAX - 1, u32::MAX]);
        let any = self.random.between(standings, 255);
        let standing = *self.random.choose(&[standings, any, 255]) as u8;
        self.script.put(place, Entry { standing, relevant });
        let step = self.random.below(self.file.steps.len()) as u8;
        expect("step", self.script.step(step)?, refusal::UNKNOWN_STANDING)?;
        expect(
            "step",
            self.script.step(UNDECLARED)?,
            refusal::UNDECLARED_STEP,
        )?;
        self.script.read(place as u32 + 1);
        let standing = self.random.below(standings) as u8;
        self.script.put(place, Entry { standing, relevant });
        self.try_accepted()?;
        self.script.read(place as u32 + 1);
        Ok(())
    }

    /// A step that is accepted.
    fn try_accepted(&mut self) -> Checked<()> {
        let step = self.random.below(self.file.steps.len()) as u8;
        expect("step", self.script.step(step)?, 0)?;
        self.script.show_entries();
        Ok(())
    }
}
