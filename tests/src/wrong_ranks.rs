//! Ranks that 02 (M-104) does not mean, for checks that have to tell them from the one it does.

use crate::reference::{verdicts_in, Verdict};
use crate::rule_file::{Rule, RuleFile};
use std::cmp::Ordering;

/// A rank that is wrong in one key, or that leaves out the last ones.
#[derive(Clone, Copy, Debug, PartialEq, Eq)]
pub enum WrongRank {
    /// The former rank, of 01 before it was amended.
    EarlierAfterWeights,
    EarlierAfterTemplate,
    EarlierAfterX,
    /// y is compared where it is a step, and not where it is a count.
    CountsLeftOut,
    SmallerTemplate,
    LargerX,
    LargerY,
    XBeforeTemplate,
    YBeforeTemplate,
    YBeforeX,
    WeightsLast,
    /// Of equal rules the later first: the verdicts stay the same as a collection.
    LaterOfEqual,
}

pub const WRONG_RANKS: [WrongRank; 12] = [
    WrongRank::EarlierAfterWeights,
    WrongRank::EarlierAfterTemplate,
    WrongRank::EarlierAfterX,
    WrongRank::CountsLeftOut,
    WrongRank::SmallerTemplate,
    WrongRank::LargerX,
    WrongRank::LargerY,
    WrongRank::XBeforeTemplate,
    WrongRank::YBeforeTemplate,
    WrongRank::YBeforeX,
    WrongRank::WeightsLast,
    WrongRank::LaterOfEqual,
];

impl WrongRank {
    /// The verdicts of all rules of a file, ranked so.
    pub fn verdicts(self, file: &RuleFile) -> Vec<Verdict> {
        verdicts_in(&self.order(file), file)
    }

    /// Rule indices from the best rank to the worst.
    fn order(self, file: &RuleFile) -> Vec<usize> {
        let mut order: Vec<usize> = (0..file.rules.len()).collect();
        if self == WrongRank::LaterOfEqual {
            order.reverse();
        }
        // The sort is stable, so that rules which are not told apart keep their order.
        order.sort_by(|&one, &other| self.compare(&file.rules[one], &file.rules[other]));
        order
    }

    /// Less where the one ranks better than the other.
    fn compare(self, one: &Rule, other: &Rule) -> Ordering {
        let weights = other.weights.cmp(&one.weights);
        let template = other.template.cmp(&one.template);
        let (x, y) = (one.x.cmp(&other.x), one.y.cmp(&other.y));
        let second_step = one.second_step().cmp(&other.second_step());
        let keys: &[Ordering] = match self {
            WrongRank::EarlierAfterWeights => &[weights],
            WrongRank::EarlierAfterTemplate => &[weights, template],
            WrongRank::EarlierAfterX => &[weights, template, x],
            WrongRank::CountsLeftOut => &[weights, template, x, second_step],
            WrongRank::SmallerTemplate => &[weights, template.reverse(), x, y],
            WrongRank::LargerX => &[weights, template, x.reverse(), y],
            WrongRank::LargerY => &[weights, template, x, y.reverse()],
            WrongRank::XBeforeTemplate => &[weights, x, template, y],
            WrongRank::YBeforeTemplate => &[weights, y, template, x],
            WrongRank::YBeforeX => &[weights, template, y, x],
            WrongRank::WeightsLast => &[template, x, y, weights],
            WrongRank::LaterOfEqual => &[weights, template, x, y],
        };
        let in_turn = |before: Ordering, &key: &Ordering| before.then(key);
        keys.iter().fold(Ordering::Equal, in_turn)
    }
}
