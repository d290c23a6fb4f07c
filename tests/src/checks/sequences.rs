//! Fates and the sequences shown (02, M-102) judged on sequences by the meanings of 01 ("Templates"),
//! without the moves.

use crate::comparison::{ensure, hexadecimal, lines, Checked, Comparison};
use crate::first_sequence::Paths;
use crate::joint::Joint;
use crate::meaning::{all_sequences, satisfies, satisfies_all};
use crate::random::Random;
use crate::random_files::{heavy_file, random_file, Size};
use crate::reference::{self, fate, Decided, Verdict};
use crate::rule_file::RuleFile;
use crate::showing::comes_before;

/// An accepted file with that on which product and reference agree.
struct Judged {
    decided: Decided,
}

/// What was judged of a file.
#[derive(Default)]
struct Counted {
    sequences: usize,
    witnesses: usize,
    /// Sequences shown that are the first of all short ones that fit.
    first: usize,
    /// Sequences shown that are longer than all these, of which none fits.
    longer: usize,
}

/// Judges small files by all short sequences, and all files by their witnesses and by random
/// changes of these. Of small files the product shows every rule, so that what is judged is its own.
pub fn check(small: usize, heavy: usize, comparison: &mut Comparison) -> Checked<String> {
    let mut counted = comparison.spread(small, |_, comparison| {
        let mut counted = Counted::default();
        let file = small_file(&mut comparison.random);
        let decided = comparison.compare_whole(&file)?;
        let judged = Judged { decided };
        judged.judge_by_short_sequences(&mut counted)?;
        judged.judge_by_witnesses(&mut comparison.random, &mut counted)?;
        Ok(counted)
    })?;
    counted.extend(comparison.spread(heavy, |_, comparison| {
        let mut counted = Counted::default();
        let rules = comparison.random.between(10, 16);
        let file = heavy_file(rules, &mut comparison.random);
        let decided = comparison.compare_valid(&file)?;
        let judged = Judged { decided };
        judged.judge_by_witnesses(&mut comparison.random, &mut counted)?;
        Ok(counted)
    })?);
    let sum = |of: fn(&Counted) -> usize| counted.iter().map(of).sum::<usize>();
    let (sequences, witnesses) = (sum(|each| each.sequences), sum(|each| each.witnesses));
    let (first, longer) = (sum(|each| each.first), sum(|each| each.longer));
    Ok(format!(
        "meanings: {small} small and {heavy} heavy files by {sequences} sequences and {witnesses} witnesses; \
         of the sequences shown {first} are the first of all short ones and {longer} longer than these"
    ))
}

fn small_file(random: &mut Random) -> RuleFile {
    let size = Size {
        steps: random.between(1, 5),
        rules: random.between(1, 9),
    };
    random_file(size, random)
}

impl Judged {
    fn fail(&self, what: &str, sequence: &[u8]) -> String {
        format!(
            "{what}\nsequence: {sequence:?}\nfile: {}\nverdicts: {}",
            hexadecimal(&self.decided.file.bytes()),
            lines(&self.decided.verdicts).join(", ")
        )
    }

    /// All sequences up to a length that keeps their number small.
    fn judge_by_short_sequences(&self, counted: &mut Counted) -> Checked<()> {
        let longest = [0, 9, 6, 5, 4, 3][self.decided.file.steps.len()];
        let sequences = all_sequences(self.decided.file.steps.len() as u8, longest);
        for sequence in &sequences {
            self.judge(sequence, counted)?;
        }
        for &rule in &self.decided.order {
            self.judge_shown(rule, &sequences, longest, counted)?;
        }
        Ok(())
    }

    /// What is shown of a rule is the first that fits of all sequences up to a length, whatever the order
    /// in which these are given, or it is longer.
    fn judge_shown(
        &self,
        rule: usize,
        sequences: &[Vec<u8>],
        longest: usize,
        counted: &mut Counted,
    ) -> Checked<()> {
        for (satisfied, shown) in [true, false].into_iter().zip(self.decided.shown(rule)) {
            let Some(shown) = shown.map(|shown| shown.steps) else {
                continue;
            };
            let fitting = self.first_fitting(rule, satisfied, sequences);
            match fitting {
                Some(_) => counted.first += 1,
                None => counted.longer += 1,
            }
            let right = fitting.map_or(shown.len() > longest, |first| *first == shown);
            ensure(right, || {
                let number = rule + 1;
                let what = format!("shown of rule {number} is not the first one, {fitting:?}");
                self.fail(&what, &shown)
            })?;
        }
        Ok(())
    }

    /// By the meanings, the first of these that satisfies the rules kept before and the rule as asked.
    fn first_fitting<'a>(
        &self,
        rule: usize,
        satisfied: bool,
        sequences: &'a [Vec<u8>],
    ) -> Option<&'a Vec<u8>> {
        let file = &self.decided.file;
        let kept = self.decided.kept_before(rule);
        let fits = |sequence: &&Vec<u8>| {
            satisfies(&file.rules[rule], sequence) == satisfied
                && satisfies_all(file, &kept, sequence)
        };
        let fitting = sequences.iter().filter(fits);
        fitting.reduce(|one, other| if comes_before(other, one) { other } else { one })
    }

    /// No sequence may speak against a fate.
    fn judge(&self, sequence: &[u8], counted: &mut Counted) -> Checked<()> {
        counted.sequences += 1;
        let mut kept_before = true;
        for &rule in &self.decided.order {
            let satisfied = satisfies(&self.decided.file.rules[rule], sequence);
            let verdict = &self.decided.verdicts[rule];
            let refuted = match verdict.fate {
                fate::CONFLICTING => kept_before && satisfied,
                fate::IMPLIED => kept_before && !satisfied,
                _ => false,
            };
            ensure(!refuted, || {
                self.fail(
                    &format!("a sequence refutes the fate of rule {}", rule + 1),
                    sequence,
                )
            })?;
            kept_before &= satisfied || !verdict.kept_first();
        }
        let finally = self.rules_where(Verdict::kept_finally);
        ensure(
            kept_before == satisfies_all(&self.decided.file, &finally, sequence),
            || self.fail("the finally kept rules mean something else", sequence),
        )
    }

    fn rules_where(&self, holds: fn(&Verdict) -> bool) -> Vec<usize> {
        let rules = self.decided.order.iter().copied();
        rules
            .filter(|&rule| holds(&self.decided.verdicts[rule]))
            .collect()
    }

    /// Each rule that is not set aside has the witnesses of its fate, and no sequence near a witness
    /// speaks against any fate.
    fn judge_by_witnesses(&self, random: &mut Random, counted: &mut Counted) -> Checked<()> {
        let mut witnesses = Vec::new();
        for (place, &rule) in self.decided.order.iter().enumerate() {
            witnesses.extend(self.first_witnesses(rule)?);
            witnesses.extend(self.second_witness(place)?);
        }
        counted.witnesses += witnesses.len();
        self.judge_by_changes(&witnesses, random, counted)
    }

    /// Kept: one satisfying and one violating the rule beside those kept before it. Implied: the
    /// first only; conflicting: the second only.
    fn first_witnesses(&self, rule: usize) -> Checked<Vec<Vec<u8>>> {
        let shown = self.decided.shown(rule);
        let given = shown.map(|sequence| sequence.map(|sequence| sequence.steps));
        let wanted = self.decided.verdicts[rule].presence();
        ensure(given.each_ref().map(Option::is_some) == wanted, || {
            self.fail(&format!("rule {} lacks a witness", rule + 1), &[])
        })?;
        let kept = self.decided.kept_before(rule);
        for (satisfied, witness) in [true, false].into_iter().zip(&given) {
            self.judge_witness(&kept, rule, satisfied, witness)?;
        }
        Ok(given.into_iter().flatten().collect())
    }

    /// A finally kept and tested rule is violated by some sequence that satisfies the others.
    fn second_witness(&self, place: usize) -> Checked<Option<Vec<u8>>> {
        let rule = self.decided.order[place];
        let verdict = &self.decided.verdicts[rule];
        if !verdict.kept_finally() || !(1..=4096).contains(&verdict.second) {
            return Ok(None);
        }
        let others =
            reference::others_still_kept(&self.decided.order, place, &self.decided.verdicts);
        let joint = Joint::new(&self.decided.file, &others, rule);
        let witness = Paths::new(&joint).first_sequence(false);
        ensure(witness.is_some(), || {
            self.fail(&format!("rule {} is not needed", rule + 1), &[])
        })?;
        let mut finally = self.rules_where(Verdict::kept_finally);
        finally.retain(|&other| other != rule);
        self.judge_witness(&finally, rule, false, &witness)?;
        Ok(witness)
    }

    /// By the meanings, the witness satisfies the kept rules and the candidate as it should.
    fn judge_witness(
        &self,
        kept: &[usize],
        candidate: usize,
        satisfied: bool,
        witness: &Option<Vec<u8>>,
    ) -> Checked<()> {
        let Some(sequence) = witness else {
            return Ok(());
        };
        let fits = satisfies_all(&self.decided.file, kept, sequence)
            && satisfies(&self.decided.file.rules[candidate], sequence) == satisfied;
        ensure(fits, || {
            self.fail(
                &format!("a witness of rule {} fails", candidate + 1),
                sequence,
            )
        })
    }

    /// Longer sequences that nearly or wholly satisfy the kept rules: witnesses joined and changed.
    fn judge_by_changes(
        &self,
        witnesses: &[Vec<u8>],
        random: &mut Random,
        counted: &mut Counted,
    ) -> Checked<()> {
        for witness in witnesses {
            let mut sequence = [witness.clone(), random.choose(witnesses).clone()].concat();
            self.judge(&sequence, counted)?;
            for _ in 0..6 {
                change(&mut sequence, self.decided.file.steps.len(), random);
                self.judge(&sequence, counted)?;
            }
        }
        Ok(())
    }
}

/// Puts a random step in, takes one out or replaces one.
fn change(sequence: &mut Vec<u8>, steps: usize, random: &mut Random) {
    let step = random.below(steps) as u8;
    let place = random.below(sequence.len() + 1);
    if place == sequence.len() || random.once_in(3) {
        sequence.insert(place, step);
    } else if random.once_in(2) {
        sequence.remove(place);
    } else {
        sequence[place] = step;
    }
}
