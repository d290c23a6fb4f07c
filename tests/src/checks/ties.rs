//! Random files in which many rules tie (02, M-104). Where the rules of a file are reordered, they
//! get the same verdicts as a collection. Wrong ranks give others, so that such files tell them.

use crate::comparison::{ensure, hexadecimal, Checked, Comparison};
use crate::product::BYTES_A_RULE;
use crate::random::Random;
use crate::random_files::{tied_file, Size};
use crate::reference::{Decided, Verdict};
use crate::rule_file::{Rule, RuleFile, MOST_RULES};
use crate::wrong_ranks::{WrongRank, WRONG_RANKS};

/// How often a file is shuffled.
const SHUFFLES: usize = 4;

/// The contents of a file's rules, each with the five bytes of its verdict, in a sorted list.
type Collection = Vec<(Vec<u8>, Vec<u8>)>;

/// What was seen of a file.
struct Seen {
    has_equal_rules: bool,
    /// Equal rules have different fates.
    has_different_fates: bool,
    /// For each wrong rank, whether it gives other verdicts.
    other_verdicts: [bool; WRONG_RANKS.len()],
    /// Shuffled files whose rules stand in another order.
    reordered: usize,
    /// Those that have another collection than the file by the former rank, of the weights alone.
    other_by_former: usize,
}

/// So many files, each with those shuffled from it; so many in all at least have to be compared.
pub fn check(files: usize, fewest: usize, comparison: &mut Comparison) -> Checked<String> {
    let before = comparison.tally.files;
    let seen = comparison.spread(files, |_, comparison| check_file(comparison))?;
    let compared = comparison.tally.files - before;
    ensure(compared >= fewest, || {
        format!("only {compared} files with ties")
    })?;
    Ok(format!(
        "ties: {compared} files, {}; {}; other verdicts by wrong ranks: {}",
        summarize_shuffles(&seen)?,
        summarize_equal_rules(&seen)?,
        summarize_wrong_ranks(&seen)?
    ))
}

/// Compares a random file and those shuffled from it.
fn check_file(comparison: &mut Comparison) -> Checked<Seen> {
    let size = random_size(&mut comparison.random);
    let file = tied_file(size, &mut comparison.random);
    let decided = comparison.compare_valid(&file)?;
    let written = collection(&file, comparison.verdict_area());
    let by_later = collection_by(WrongRank::LaterOfEqual, &file);
    ensure(by_later == written, || {
        let bytes = hexadecimal(&file.bytes());
        format!("the later of equal rules first gives another collection: {bytes}")
    })?;
    let former = collection_by(WrongRank::EarlierAfterWeights, &file);
    let mut seen = Seen::new(&decided);
    for _ in 0..SHUFFLES {
        let mut shuffled = file.clone();
        comparison.random.shuffle(&mut shuffled.rules);
        comparison.compare_verdicts(&shuffled)?;
        let again = collection(&shuffled, comparison.verdict_area());
        ensure(again == written, || {
            let [one, other] = [&file, &shuffled].map(|file| hexadecimal(&file.bytes()));
            format!("reordered rules have other verdicts: {one}\nand {other}")
        })?;
        let by_former = collection_by(WrongRank::EarlierAfterWeights, &shuffled);
        seen.reordered += usize::from(shuffled.rules != file.rules);
        seen.other_by_former += usize::from(by_former != former);
    }
    Ok(seen)
}

/// Up to 8 rules, and sometimes up to the most.
fn random_size(random: &mut Random) -> Size {
    let most = if random.once_in(16) { MOST_RULES } else { 8 };
    Size {
        steps: random.between(1, 3),
        rules: random.between(2, most),
    }
}

/// The collection of a file whose verdicts are in these bytes, five a rule.
fn collection(file: &RuleFile, verdicts: &[u8]) -> Collection {
    let contents = file.rules.iter().map(Rule::content);
    let verdicts = verdicts.chunks(BYTES_A_RULE).map(<[u8]>::to_vec);
    let mut collection: Collection = contents.zip(verdicts).collect();
    collection.sort();
    collection
}

/// The same by a wrong rank.
fn collection_by(rank: WrongRank, file: &RuleFile) -> Collection {
    let verdicts = rank.verdicts(file);
    let bytes: Vec<u8> = verdicts.iter().flat_map(Verdict::bytes).collect();
    collection(file, &bytes)
}

impl Seen {
    /// Of a file that has not been shuffled yet.
    fn new(decided: &Decided) -> Seen {
        let fates = fates_of_equal_rules(decided);
        Seen {
            has_equal_rules: !fates.is_empty(),
            has_different_fates: fates.iter().any(|[one, other]| one != other),
            other_verdicts: WRONG_RANKS
                .map(|rank| rank.verdicts(&decided.file) != decided.verdicts),
            reordered: 0,
            other_by_former: 0,
        }
    }
}

/// The fates of each two rules that are equal.
fn fates_of_equal_rules(decided: &Decided) -> Vec<[u8; 2]> {
    let judged: Vec<_> = decided.file.rules.iter().zip(&decided.verdicts).collect();
    let pairs = judged.iter().enumerate().flat_map(|(place, one)| {
        let later = judged[place + 1..].iter();
        later.map(move |other| (one, other))
    });
    pairs
        .filter(|(one, other)| one.0 == other.0)
        .map(|(one, other)| [one.1.fate, other.1.fate])
        .collect()
}

/// Says what the shuffles were. Most have to change the order of rules, and of these many the
/// collection by the former rank.
fn summarize_shuffles(seen: &[Seen]) -> Checked<String> {
    let shuffled = SHUFFLES * seen.len();
    let reordered: usize = seen.iter().map(|file| file.reordered).sum();
    let other: usize = seen.iter().map(|file| file.other_by_former).sum();
    let said = format!(
        "{shuffled} of them shuffled, {reordered} into another order, \
         {other} to another collection by the former rank"
    );
    ensure(2 * reordered > shuffled && 4 * other > reordered, || {
        format!("ties: too few files: {said}")
    })?;
    Ok(said)
}

/// The same of equal rules: many files have to have some, and most of these with different fates.
fn summarize_equal_rules(seen: &[Seen]) -> Checked<String> {
    let with = seen.iter().filter(|file| file.has_equal_rules).count();
    let different = seen.iter().filter(|file| file.has_different_fates).count();
    let said = format!("{with} with equal rules, {different} with different fates of these");
    ensure(4 * with > seen.len() && 2 * different > with, || {
        format!("ties: too few files: {said}")
    })?;
    Ok(said)
}

/// The same of wrong ranks: each has to give other verdicts in one file of 50 or more.
fn summarize_wrong_ranks(seen: &[Seen]) -> Checked<String> {
    let mut said = Vec::new();
    for (place, rank) in WRONG_RANKS.iter().enumerate() {
        let other = seen.iter().filter(|file| file.other_verdicts[place]);
        let count = other.count();
        ensure(50 * count >= seen.len(), || {
            format!("ties: only {count} files with other verdicts by {rank:?}")
        })?;
        said.push(format!("{rank:?} {count}"));
    }
    Ok(said.join(", "))
}
