//! Random files aimed at the search and at the second pass (`search_files`). What they are made for has
//! to occur.

use crate::comparison::{ensure, Checked, Comparison};
use crate::joint::{Joint, MOST_STANDINGS};
use crate::random::Random;
use crate::reference::{fate, others_still_kept, Decided};
use crate::rule_file::{Rule, RuleFile};
use crate::search_files::{alike_file, edge_file, ladder_file, unbreakable_file, unnamed_file};
use crate::template::template;

/// What files are made for.
#[derive(Clone, Copy, Debug)]
pub enum Kind {
    Unnamed,
    Alike,
    Ladders,
    Edges,
    Unbreakable,
}

impl Kind {
    fn file(self, random: &mut Random) -> RuleFile {
        match self {
            Kind::Unnamed => unnamed_file(random),
            Kind::Alike => alike_file(random),
            Kind::Ladders => ladder_file(random),
            Kind::Edges => edge_file(random),
            Kind::Unbreakable => unbreakable_file(random),
        }
    }
}

/// So many files of a kind.
pub struct Group {
    pub files: usize,
    pub kind: Kind,
}

/// A second test, with what was found by those before it.
struct SecondTest {
    /// How many were made before it.
    place: usize,
    fate: u8,
    count: usize,
    can_break: bool,
    /// The rule is broken in some joint standing that was found; asked only of one that is dropped.
    breaks: bool,
    /// The fate that the test right before it gave.
    before: Option<u8>,
    /// Some test before it had too many joint standings.
    after_untested: bool,
}

impl SecondTest {
    fn drops(&self) -> bool {
        self.fate == fate::DROPPED
    }

    fn is_untested(&self) -> bool {
        self.fate == fate::UNTESTED
    }

    /// The rule is kept and can break. The first test is left out, which the first pass has made too.
    fn keeps_breakable(&self) -> bool {
        self.fate == fate::KEPT && self.can_break && self.place > 0
    }
}

/// A kind of second tests that has to occur.
type WantedTest = (&'static str, fn(&SecondTest) -> bool);

const WANTED_TESTS: [WantedTest; 11] = [
    ("rules dropped", SecondTest::drops),
    ("dropped that can break", |test| {
        test.drops() && test.can_break
    }),
    ("dropped that do break", |test| test.drops() && test.breaks),
    ("dropped right after another", |test| {
        test.drops() && test.before == Some(fate::DROPPED)
    }),
    ("dropped right after the worst kept", |test| {
        test.drops() && test.place == 1
    }),
    ("dropped after an untested one", |test| {
        test.drops() && test.after_untested
    }),
    ("untested", SecondTest::is_untested),
    ("untested right after a dropped one", |test| {
        test.is_untested() && test.before == Some(fate::DROPPED)
    }),
    ("kept that can break", SecondTest::keeps_breakable),
    ("such after an untested one", |test| {
        test.keeps_breakable() && test.after_untested
    }),
    ("such with 4,096 joint standings", |test| {
        test.keeps_breakable() && test.count == MOST_STANDINGS
    }),
];

/// What else has to occur, and how often it does in a file.
type WantedInFile = (&'static str, fn(&Decided) -> usize);

const WANTED_IN_FILES: [WantedInFile; 4] = [
    ("files of rules that never break", |decided| {
        usize::from(!decided.file.rules.iter().any(can_break))
    }),
    ("steps that no rule names", |decided| {
        unnamed_steps(&decided.file).len()
    }),
    ("pairs of others that move all rules alike", alike_pairs),
    (
        "pairs that only rules not kept tell apart",
        pairs_told_apart,
    ),
];

/// Each has to occur so often in all files.
const FEWEST: usize = 5;

/// Files of the groups.
pub fn check(groups: &[Group], comparison: &mut Comparison) -> Checked<String> {
    let mut all = Vec::new();
    let mut kinds = Vec::new();
    for &Group { files, kind } in groups {
        all.extend(comparison.spread(files, |_, comparison| {
            let file = kind.file(&mut comparison.random);
            comparison
                .compare_valid(&file)
                .map(|decided| seen_in(&decided))
        })?);
        kinds.push(format!("{files} {kind:?}"));
    }
    let names = WANTED_TESTS.iter().map(|wanted| wanted.0);
    let names = names.chain(WANTED_IN_FILES.iter().map(|wanted| wanted.0));
    let mut said = Vec::new();
    for (place, what) in names.enumerate() {
        let count: usize = all.iter().map(|seen: &Vec<usize>| seen[place]).sum();
        ensure(count >= FEWEST, || format!("searches: only {count} {what}"))?;
        said.push(format!("{count} {what}"));
    }
    Ok(format!(
        "searches: files {}; {}",
        kinds.join(", "),
        said.join(", ")
    ))
}

/// How often each of what is wanted occurs in a file.
fn seen_in(decided: &Decided) -> Vec<usize> {
    let tests = second_tests(decided);
    let in_tests = WANTED_TESTS
        .iter()
        .map(|(_, fits)| tests.iter().filter(|test| fits(test)).count());
    let in_file = WANTED_IN_FILES.iter().map(|(_, count)| count(decided));
    in_tests.chain(in_file).collect()
}

/// The second tests in the order in which they are made.
fn second_tests(decided: &Decided) -> Vec<SecondTest> {
    let mut tests: Vec<SecondTest> = Vec::new();
    for place in (0..decided.order.len()).rev() {
        let rule = decided.order[place];
        let verdict = &decided.verdicts[rule];
        if !verdict.kept_first() {
            continue;
        }
        let can_break = can_break(&decided.file.rules[rule]);
        let dropped = verdict.fate == fate::DROPPED;
        tests.push(SecondTest {
            place: tests.len(),
            fate: verdict.fate,
            count: verdict.second.into(),
            can_break,
            breaks: dropped && can_break && breaks(decided, place),
            before: tests.last().map(|test| test.fate),
            after_untested: tests.iter().any(SecondTest::is_untested),
        });
    }
    tests
}

/// Whether the second test of the rule at this place of the order finds it broken.
fn breaks(decided: &Decided, place: usize) -> bool {
    let rule = decided.order[place];
    let others = others_still_kept(&decided.order, place, &decided.verdicts);
    let template = template(&decided.file.rules[rule]);
    let found = Joint::new(&decided.file, &others, rule).reach_all();
    let mut standings = found.iter().map(|found| found[others.len()]);
    standings.any(|standing| template.is_broken(standing))
}

fn can_break(rule: &Rule) -> bool {
    template(rule).broken.contains(&true)
}

fn unnamed_steps(file: &RuleFile) -> Vec<u8> {
    let is_named = |step: &u8| {
        file.rules
            .iter()
            .any(|rule| rule.own_steps().contains(step))
    };
    let steps = 0..file.steps.len() as u8;
    steps.filter(|step| !is_named(step)).collect()
}

/// All pairs of steps that some rule names.
fn named_pairs(file: &RuleFile) -> Vec<[u8; 2]> {
    let unnamed = unnamed_steps(file);
    let steps = 0..file.steps.len() as u8;
    let named: Vec<u8> = steps.filter(|step| !unnamed.contains(step)).collect();
    let pairs = named
        .iter()
        .flat_map(|&one| named.iter().map(move |&other| [one, other]));
    pairs.filter(|[one, other]| one < other).collect()
}

/// Whether both steps move a rule alike, wherever it stands.
fn moves_alike(rule: &Rule, [one, other]: [u8; 2]) -> bool {
    let template = template(rule);
    let mut standings = 0..template.moves.len() as u8;
    standings.all(|at| template.after(rule, at, one) == template.after(rule, at, other))
}

fn alike_pairs(decided: &Decided) -> usize {
    let pairs = named_pairs(&decided.file).into_iter();
    let alike = |&pair: &[u8; 2]| {
        decided
            .file
            .rules
            .iter()
            .all(|rule| moves_alike(rule, pair))
    };
    pairs.filter(alike).count()
}

/// Pairs that all rules kept finally move alike, and another rule does not.
fn pairs_told_apart(decided: &Decided) -> usize {
    let rules = || decided.file.rules.iter().zip(&decided.verdicts);
    let told_by = |pair, kept| {
        let mut those = rules().filter(move |(_, verdict)| verdict.kept_finally() == kept);
        those.any(|(rule, _)| !moves_alike(rule, pair))
    };
    let pairs = named_pairs(&decided.file).into_iter();
    pairs
        .filter(|&pair| told_by(pair, false) && !told_by(pair, true))
        .count()
}
