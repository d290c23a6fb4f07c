//! The product, called through its C entries, with areas whose every number is watched.

use crate::float_mode::{in_mode, FloatMode};
use crate::library::{Prune, State};
use crate::memory::{Area, Content, Watched};
use crate::random::Random;
use crate::rule_file::UNDECLARED;

/// The lengths that the entries ask for (01, "Refused inputs", "Shown sequences"; 02, M-100).
pub const FOUND_NUMBERS: usize = 8192;
pub const LINK_NUMBERS: usize = 16384;
pub const VERDICT_BYTES: usize = 160;
pub const SEQUENCE_BYTES: usize = 4095;
pub const ANSWER_NUMBERS: usize = 8;
pub const STATE_NUMBERS: usize = 2;
pub const BYTES_A_RULE: usize = 5;

extern "C" {
    fn tullweth_prune(
        file: *const u8,
        file_len: usize,
        found: *mut u64,
        found_len: usize,
        links: *mut u16,
        links_len: usize,
        verdicts: *mut u8,
        verdicts_len: usize,
    ) -> u32;

    fn tullweth_show(
        file: *const u8,
        file_len: usize,
        rule: u32,
        found: *mut u64,
        found_len: usize,
        links: *mut u16,
        links_len: usize,
        satisfying: *mut u8,
        satisfying_len: usize,
        violating: *mut u8,
        violating_len: usize,
        answer: *mut u64,
        answer_len: usize,
    ) -> u32;

    fn tullweth_state(
        file: *const u8,
        file_len: usize,
        run: *const u8,
        run_len: usize,
        rule: u32,
        answer: *mut u64,
        answer_len: usize,
    ) -> u32;
}

/// Two of these entries, for the benchmark.
pub const PRUNE: Prune = tullweth_prune;
pub const STATE: State = tullweth_state;

/// An entry of the product.
#[derive(Clone, Copy, Debug, PartialEq, Eq)]
pub enum Entry<'a> {
    Prune,
    /// Shows the rule of this number.
    Show(u32),
    /// Gives the state of the rule of this number after this run.
    State(u32, &'a [u8]),
}

impl<'a> Entry<'a> {
    /// The run that is given to it.
    pub fn run(self) -> &'a [u8] {
        match self {
            Entry::State(_, run) => run,
            _ => &[],
        }
    }

    /// The areas that are lent to it.
    pub fn areas(self) -> &'static [Lent] {
        match self {
            Entry::Prune => &[Lent::Found, Lent::Links, Lent::Verdicts],
            Entry::Show(_) => &[
                Lent::Found,
                Lent::Links,
                Lent::Satisfying,
                Lent::Violating,
                Lent::Answer,
            ],
            Entry::State(..) => &[Lent::State],
        }
    }

    /// All that is lent to it: the file, a run where it takes one, and the areas.
    pub fn parts(self) -> Vec<Part> {
        let run = matches!(self, Entry::State(..)).then_some(Part::Run);
        let areas = self.areas().iter().copied().map(Part::Area);
        [Part::File].into_iter().chain(run).chain(areas).collect()
    }
}

/// What is lent to an entry.
#[derive(Clone, Copy, Debug, PartialEq, Eq, PartialOrd, Ord)]
pub enum Part {
    File,
    Run,
    Area(Lent),
}

/// The areas, by their names.
#[derive(Clone, Copy, Debug, PartialEq, Eq, PartialOrd, Ord)]
pub enum Lent {
    Found,
    Links,
    Verdicts,
    Satisfying,
    Violating,
    Answer,
    /// The two numbers about a rule after a run.
    State,
}

/// The areas of the entries that search.
pub const SEARCH_AREAS: [Lent; 6] = [
    Lent::Found,
    Lent::Links,
    Lent::Verdicts,
    Lent::Satisfying,
    Lent::Violating,
    Lent::Answer,
];

/// How many numbers of each area are lent.
#[derive(Clone, Copy, Debug, PartialEq, Eq)]
pub struct Lengths {
    pub found: usize,
    pub links: usize,
    pub verdicts: usize,
    pub satisfying: usize,
    pub violating: usize,
    pub answer: usize,
    pub state: usize,
}

/// Areas exactly long enough.
pub const EXACT: Lengths = Lengths {
    found: FOUND_NUMBERS,
    links: LINK_NUMBERS,
    verdicts: VERDICT_BYTES,
    satisfying: SEQUENCE_BYTES,
    violating: SEQUENCE_BYTES,
    answer: ANSWER_NUMBERS,
    state: STATE_NUMBERS,
};

impl Lengths {
    /// The length of one area, to be read or replaced.
    pub fn of(&mut self, area: Lent) -> &mut usize {
        match area {
            Lent::Found => &mut self.found,
            Lent::Links => &mut self.links,
            Lent::Verdicts => &mut self.verdicts,
            Lent::Satisfying => &mut self.satisfying,
            Lent::Violating => &mut self.violating,
            Lent::Answer => &mut self.answer,
            Lent::State => &mut self.state,
        }
    }

    /// These lengths with those of some areas changed.
    pub fn changed(mut self, areas: &[Lent], mut change: impl FnMut(usize) -> usize) -> Lengths {
        for &area in areas {
            let length = self.of(area);
            *length = change(*length);
        }
        self
    }
}

/// How the areas are lent to a call.
#[derive(Clone, Copy, Debug, PartialEq, Eq)]
pub struct Lending {
    pub lengths: Lengths,
    pub content: Content,
}

/// What an accepted call writes at the start of the areas that are not work areas.
#[derive(Debug, Default, PartialEq, Eq)]
pub struct Written {
    pub verdicts: Vec<u8>,
    pub satisfying: Vec<u8>,
    pub violating: Vec<u8>,
    pub answer: Vec<u64>,
    pub state: Vec<u64>,
}

/// The areas of all entries, a file and a run; a call is lent its own.
#[derive(Default)]
pub struct Areas {
    file: Area<u8>,
    run: Area<u8>,
    found: Area<u64>,
    links: Area<u16>,
    verdicts: Area<u8>,
    satisfying: Area<u8>,
    violating: Area<u8>,
    answer: Area<u64>,
    state: Area<u64>,
}

impl Areas {
    fn area(&mut self, area: Lent) -> &mut dyn Watched {
        match area {
            Lent::Found => &mut self.found,
            Lent::Links => &mut self.links,
            Lent::Verdicts => &mut self.verdicts,
            Lent::Satisfying => &mut self.satisfying,
            Lent::Violating => &mut self.violating,
            Lent::Answer => &mut self.answer,
            Lent::State => &mut self.state,
        }
    }

    fn part(&mut self, part: Part) -> &mut dyn Watched {
        match part {
            Part::File => &mut self.file,
            Part::Run => &mut self.run,
            Part::Area(area) => self.area(area),
        }
    }

    /// Makes all that is lent to an entry ready for a call, the file with bytes that lie behind it
    /// in memory. A run lies between undeclared steps.
    pub fn prepare(
        &mut self,
        entry: Entry,
        file: &[u8],
        behind: &[u8],
        lending: Lending,
        random: &mut Random,
    ) {
        self.file.put(file, behind, random, Random::byte);
        self.run.put(entry.run(), &[], random, |_| UNDECLARED);
        let mut lengths = lending.lengths;
        for &area in entry.areas() {
            let length = *lengths.of(area);
            self.area(area).prepare(length, lending.content, random);
        }
    }

    /// Calls the product in a mode of the processor: 0 or the refusal number, and whether the call
    /// raised a floating-point exception.
    pub fn call(&mut self, entry: Entry, mode: FloatMode) -> (u32, bool) {
        let (file, file_len) = self.file.lend();
        let (run, run_len) = self.run.lend();
        let (found, found_len) = self.found.lend();
        let (links, links_len) = self.links.lend();
        let (verdicts, verdicts_len) = self.verdicts.lend();
        let (satisfying, satisfying_len) = self.satisfying.lend();
        let (violating, violating_len) = self.violating.lend();
        let (answer, answer_len) = self.answer.lend();
        let (state, state_len) = self.state.lend();
        // Sound: each pointer goes with the length of the area it comes from, null with none, and
        // the entry uses them during the call alone.
        in_mode(mode, || unsafe {
            match entry {
                Entry::Prune => tullweth_prune(
                    file,
                    file_len,
                    found,
                    found_len,
                    links,
                    links_len,
                    verdicts,
                    verdicts_len,
                ),
                Entry::Show(rule) => tullweth_show(
                    file,
                    file_len,
                    rule,
                    found,
                    found_len,
                    links,
                    links_len,
                    satisfying,
                    satisfying_len,
                    violating,
                    violating_len,
                    answer,
                    answer_len,
                ),
                Entry::State(rule, _) => {
                    tullweth_state(file, file_len, run, run_len, rule, state, state_len)
                }
            }
        })
    }

    /// Where all that is lent to an entry stands: addresses, each with the size of a number there.
    pub fn addresses(&mut self, entry: Entry) -> Vec<(Part, usize, usize)> {
        let parts = entry.parts().into_iter();
        parts
            .map(|part| {
                let lent = self.part(part);
                (part, lent.address(), lent.size())
            })
            .collect()
    }

    /// What stands where an accepted call has to write so much.
    pub fn in_place_of(&self, expected: &Written) -> Written {
        Written {
            verdicts: self.verdicts.lent()[..expected.verdicts.len()].to_vec(),
            satisfying: self.satisfying.lent()[..expected.satisfying.len()].to_vec(),
            violating: self.violating.lent()[..expected.violating.len()].to_vec(),
            answer: self.answer.lent()[..expected.answer.len()].to_vec(),
            state: self.state.lent()[..expected.state.len()].to_vec(),
        }
    }

    /// The verdict area that was lent last.
    pub fn verdicts(&self) -> &[u8] {
        self.verdicts.lent()
    }

    /// What an accepted call of showing says of the satisfying and of the violating sequence: four
    /// numbers, and the area.
    pub fn shown(&self) -> [([u64; 4], &[u8]); 2] {
        let answer = self.answer.lent();
        let numbers = |from: usize| std::array::from_fn(|place| answer[from + place]);
        [
            (numbers(0), self.satisfying.lent()),
            (numbers(4), self.violating.lent()),
        ]
    }

    /// What a call changed where it may not: a refused one may change nothing, an accepted one as much
    /// of the work areas as it asks for and what it has to write, and none the file or the run.
    pub fn wrongly_changed(&mut self, entry: Entry, written: Option<&Written>) -> Option<Part> {
        let free = |part: Part| match (written, part) {
            (None, _) | (_, Part::File | Part::Run) => 0,
            (Some(written), Part::Area(area)) => match area {
                Lent::Found => FOUND_NUMBERS,
                Lent::Links => LINK_NUMBERS,
                Lent::Verdicts => written.verdicts.len(),
                Lent::Satisfying => written.satisfying.len(),
                Lent::Violating => written.violating.len(),
                Lent::Answer => written.answer.len(),
                Lent::State => written.state.len(),
            },
        };
        let mut parts = entry.parts().into_iter();
        parts.find(|&part| !self.part(part).unchanged_but(free(part)))
    }
}
