//! Pruning and showing as 01 and 02 say them: verdicts from the joint standings of each test, and the
//! sequences to be shown where they are asked for.

use crate::first_sequence::Paths;
use crate::joint::{Joint, Member, MOST_STANDINGS};
use crate::rule_file::{self, RuleFile};
use std::cell::OnceCell;

/// The fates of 01 ("Joint standings and the first pass", "Second pass").
pub mod fate {
    pub const KEPT: u8 = 0;
    pub const CONFLICTING: u8 = 1;
    pub const IMPLIED: u8 = 2;
    pub const SET_ASIDE: u8 = 3;
    pub const DROPPED: u8 = 4;
    pub const UNTESTED: u8 = 5;
}

/// What pruning reports of a rule.
#[derive(Clone, Copy, Debug, Default, PartialEq, Eq)]
pub struct Verdict {
    pub fate: u8,
    pub first: u16,
    pub second: u16,
}

impl Verdict {
    /// A reported 4 or 5 is 0 as a first-pass fate.
    pub fn kept_first(&self) -> bool {
        matches!(self.fate, fate::KEPT | fate::DROPPED | fate::UNTESTED)
    }

    pub fn kept_finally(&self) -> bool {
        matches!(self.fate, fate::KEPT | fate::UNTESTED)
    }

    /// Whether a satisfying and whether a violating sequence is shown.
    pub fn presence(&self) -> [bool; 2] {
        match self.fate {
            fate::CONFLICTING => [false, true],
            fate::IMPLIED => [true, false],
            fate::SET_ASIDE => [false, false],
            _ => [true, true],
        }
    }

    /// The five bytes of the verdict area.
    pub fn bytes(&self) -> [u8; 5] {
        let [first_high, first_low] = self.first.to_be_bytes();
        let [second_high, second_low] = self.second.to_be_bytes();
        [self.fate, first_high, first_low, second_high, second_low]
    }
}

/// The verdicts of all rules in file order, or the refusal number of the file.
pub type Answer = Result<Vec<Verdict>, u32>;

/// Prunes the rule file in these bytes.
pub fn prune(bytes: &[u8]) -> Answer {
    decide(bytes).map(|decided| decided.verdicts)
}

/// All that pruning and showing give for a file, or the refusal number of the file.
pub type Decision = Result<Decided, u32>;

/// Decides all rules of the rule file in these bytes.
pub fn decide(bytes: &[u8]) -> Decision {
    let file = rule_file::read(bytes)?;
    let order = file.order_of_decision();
    Ok(Decided {
        shown: vec![OnceCell::new(); file.rules.len()],
        verdicts: verdicts_in(&order, &file),
        file,
        order,
    })
}

/// The verdicts of all rules of a file, which are decided in this order.
pub fn verdicts_in(order: &[usize], file: &RuleFile) -> Vec<Verdict> {
    let mut verdicts = vec![Verdict::default(); file.rules.len()];
    first_pass(file, order, &mut verdicts);
    second_pass(file, order, &mut verdicts);
    verdicts
}

/// An accepted file with what was found of its rules; lists of rules are in file order.
pub struct Decided {
    pub file: RuleFile,
    /// Rule indices from the best rank to the worst.
    pub order: Vec<usize>,
    pub verdicts: Vec<Verdict>,
    /// What is shown of each rule, worked out when it is first asked for: pruning does without.
    shown: Vec<OnceCell<[Option<Sequence>; 2]>>,
}

/// A joint standing as it is shown: rules 1 to 16 in the first number, four bits each, the lowest
/// those of rule 1; rules 17 to 32 in the second in the same way (02, M-100).
pub type Packed = [u64; 2];

/// A sequence as it is shown, with the joint standing after it.
#[derive(Clone, Debug, PartialEq, Eq)]
pub struct Sequence {
    pub steps: Vec<u8>,
    pub standing: Packed,
}

impl Decided {
    /// The rules kept in the first pass that are better than this one, best first.
    pub fn kept_before(&self, rule: usize) -> Vec<usize> {
        let better = self.order.iter().take_while(|&&other| other != rule);
        better
            .filter(|&&other| self.verdicts[other].kept_first())
            .copied()
            .collect()
    }

    /// What is shown of a rule: a satisfying and a violating sequence.
    pub fn shown(&self, rule: usize) -> [Option<Sequence>; 2] {
        let shown = || self.first_sequences(rule);
        self.shown[rule].get_or_init(shown).clone()
    }

    /// The first fitting sequences (02, M-102) of the kinds that the rule's fate has.
    fn first_sequences(&self, rule: usize) -> [Option<Sequence>; 2] {
        let presence = self.verdicts[rule].presence();
        if presence == [false, false] {
            return [None, None];
        }
        let joint = Joint::new(&self.file, &self.kept_before(rule), rule);
        let paths = Paths::new(&joint);
        [true, false].map(|satisfied| {
            let present = presence[usize::from(!satisfied)];
            let steps = present.then(|| paths.first_sequence(satisfied))?;
            steps.map(|steps| Sequence {
                standing: self.standing_after(rule, &steps),
                steps,
            })
        })
    }

    /// The standings of a rule and of those kept before it after these steps; the bits of all other
    /// rules are 0.
    pub fn standing_after(&self, rule: usize, steps: &[u8]) -> Packed {
        let mut members = self.kept_before(rule);
        members.push(rule);
        let standing_of = |member: usize| {
            let Member { rule, template } = Member::new(&self.file.rules[member]);
            let moved = |standing, &step: &u8| template.after(rule, standing, step);
            u64::from(steps.iter().fold(0, moved))
        };
        let mut packed = [0; 2];
        for member in members {
            packed[member / 16] |= standing_of(member) << (4 * (member % 16));
        }
        packed
    }
}

/// Decides the rules best first, each against those kept before it.
fn first_pass(file: &RuleFile, order: &[usize], verdicts: &mut [Verdict]) {
    let mut kept = Vec::new();
    for &rule in order {
        let test = test(file, &kept, rule);
        verdicts[rule].fate = test.fate;
        verdicts[rule].first = test.count;
        if verdicts[rule].fate == fate::KEPT {
            kept.push(rule);
        }
    }
}

/// Tests the kept rules worst first, each against the others still kept.
fn second_pass(file: &RuleFile, order: &[usize], verdicts: &mut [Verdict]) {
    for place in (0..order.len()).rev() {
        let rule = order[place];
        if verdicts[rule].fate != fate::KEPT {
            continue;
        }
        let test = test(file, &others_still_kept(order, place, verdicts), rule);
        verdicts[rule].second = test.count;
        verdicts[rule].fate = match test.fate {
            fate::SET_ASIDE => fate::UNTESTED,
            fate::IMPLIED => fate::DROPPED,
            other => other,
        };
    }
}

/// The rules against which the second pass tests the rule at this place of the order: of the better
/// ones those kept in the first pass, of the worse ones those kept finally.
pub fn others_still_kept(order: &[usize], place: usize, verdicts: &[Verdict]) -> Vec<usize> {
    let better = order[..place]
        .iter()
        .filter(|&&rule| verdicts[rule].kept_first());
    let worse = order[place + 1..]
        .iter()
        .filter(|&&rule| verdicts[rule].kept_finally());
    better.chain(worse).copied().collect()
}

/// What the test of a candidate against kept rules found.
struct Test {
    /// The number of joint standings, held at 4,097.
    count: u16,
    /// The fate as in the first pass.
    fate: u8,
}

/// Tests a candidate against kept rules, all given by their indices. Only whether some joint standing
/// fits is asked here, not by which sequence.
fn test(file: &RuleFile, kept: &[usize], candidate: usize) -> Test {
    let joint = Joint::new(file, kept, candidate);
    let found = joint.reach_all();
    let some_fits = |satisfied| found.iter().any(|found| joint.fits(found, satisfied));
    let fate = if found.len() > MOST_STANDINGS {
        fate::SET_ASIDE
    } else if !some_fits(true) {
        fate::CONFLICTING
    } else if !some_fits(false) {
        fate::IMPLIED
    } else {
        fate::KEPT
    };
    Test {
        count: found.len() as u16,
        fate,
    }
}
