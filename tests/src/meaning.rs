//! The meanings of 01 ("Templates") and 02 (M-100) judged on a sequence itself: positions alone, no
//! moves.

use crate::rule_file::{Rule, RuleFile};

/// Whether the sequence satisfies the rule.
pub fn satisfies(rule: &Rule, sequence: &[u8]) -> bool {
    Reading { rule, sequence }.satisfies(rule.template)
}

/// Whether the sequence satisfies all these rules of a file.
pub fn satisfies_all(file: &RuleFile, rules: &[usize], sequence: &[u8]) -> bool {
    rules
        .iter()
        .all(|&rule| satisfies(&file.rules[rule], sequence))
}

/// All sequences over so many steps up to a length, the empty one first.
pub fn all_sequences(steps: u8, longest: usize) -> Vec<Vec<u8>> {
    let mut sequences = vec![Vec::new()];
    let mut place = 0;
    while sequences[place].len() < longest {
        let longer: Vec<Vec<u8>> = (0..steps)
            .map(|step| [sequences[place].as_slice(), &[step]].concat())
            .collect();
        sequences.extend(longer);
        place += 1;
    }
    sequences
}

/// Sequences in which one step stands up to so many times, each alone and with another step at every
/// place: what tells counts apart.
pub fn counted_sequences(step: u8, other: u8, most: usize) -> Vec<Vec<u8>> {
    let with_other = |times: usize| {
        (0..=times).map(move |place| {
            let mut sequence = vec![step; times];
            sequence.insert(place, other);
            sequence
        })
    };
    let alone = (0..=most).map(|times| vec![step; times]);
    alone.chain((0..=most).flat_map(with_other)).collect()
}

/// A sequence read for one rule's x and y.
struct Reading<'a> {
    rule: &'a Rule,
    sequence: &'a [u8],
}

impl Reading<'_> {
    fn satisfies(&self, template: u8) -> bool {
        match template {
            1 => self.occurs(self.rule.x),
            2 => self.places(self.rule.x).count() <= 1,
            3 => self.sequence.first() == Some(&self.rule.x),
            4 => self.sequence.last() == Some(&self.rule.x),
            5 => !self.occurs(self.rule.x) || self.occurs(self.rule.y),
            6 => self.each_x_has(|x, y| x < y),
            7 => self.each_x_has(|x, y| x < y && !self.lies_between(self.rule.x, x, y)),
            8 => self.each_x_has(|x, y| x + 1 == y),
            9 => self.each_y_has(|x, y| x < y),
            10 => self.each_y_has(|x, y| x < y && !self.lies_between(self.rule.y, x, y)),
            11 => self.each_y_has(|x, y| x + 1 == y),
            12 => self.occurs(self.rule.x) == self.occurs(self.rule.y),
            13 => self.satisfies(6) && self.satisfies(9),
            14 => self.satisfies(7) && self.satisfies(10),
            15 => self.satisfies(8) && self.satisfies(11),
            16 => !self.some_pair(|x, y| x + 1 == y),
            17 => !self.some_pair(|x, y| x < y),
            18 => !(self.occurs(self.rule.x) && self.occurs(self.rule.y)),
            19 => self.places(self.rule.x).count() >= self.count(),
            20 => self.places(self.rule.x).count() <= self.count(),
            21 => self.places(self.rule.x).count() == self.count(),
            22 => self.occurs(self.rule.x) || self.occurs(self.rule.y),
            23 => self.occurs(self.rule.x) != self.occurs(self.rule.y),
            _ => panic!("01 and 02 have no template {template}"),
        }
    }

    /// How often x is to occur, which is in place of y.
    fn count(&self) -> usize {
        usize::from(self.rule.y)
    }

    /// The places at which a step stands.
    fn places(&self, step: u8) -> impl Iterator<Item = usize> + '_ {
        (0..self.sequence.len()).filter(move |&place| self.sequence[place] == step)
    }

    fn occurs(&self, step: u8) -> bool {
        self.sequence.contains(&step)
    }

    /// Whether the step stands strictly between two places.
    fn lies_between(&self, step: u8, before: usize, after: usize) -> bool {
        self.places(step)
            .any(|place| before < place && place < after)
    }

    /// For each place of x there is a place of y in this relation to it.
    fn each_x_has(&self, related: impl Fn(usize, usize) -> bool) -> bool {
        self.places(self.rule.x)
            .all(|x| self.places(self.rule.y).any(|y| related(x, y)))
    }

    /// For each place of y there is a place of x in this relation to it.
    fn each_y_has(&self, related: impl Fn(usize, usize) -> bool) -> bool {
        self.places(self.rule.y)
            .all(|y| self.places(self.rule.x).any(|x| related(x, y)))
    }

    /// Some place of x and some place of y are in this relation.
    fn some_pair(&self, related: impl Fn(usize, usize) -> bool) -> bool {
        self.places(self.rule.x)
            .any(|x| self.places(self.rule.y).any(|y| related(x, y)))
    }
}
