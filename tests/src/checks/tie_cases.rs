//! Cases of ties (02, M-104). Fates and counts were worked out by hand. Each case is tried with its
//! rules in every order, and rules out ranks by which some of these files have other verdicts.

use crate::checks::cases::{
    file, AT_LEAST, AT_MOST, CHAIN_RESPONSE, CHOICE, EXACTLY, INIT, NOT_CO_EXISTENCE,
    PARTICIPATION, PRECEDENCE, RESPONSE,
};
use crate::comparison::{ensure, hexadecimal, lines, Checked, Comparison};
use crate::reference::Verdict;
use crate::rule_file::{Rule, RuleFile, WITHOUT_Y};
use crate::wrong_ranks::{WrongRank, WRONG_RANKS};

/// Every weight of rules that tie, smaller than the falling ones of better rules.
const TIED: u32 = 0x3E00_0000;

/// A rule (template, x, y) with its verdict (fate, first count, second count).
type Line = ((u8, u8, u8), (u8, u16, u16));

/// Rules of equal weights, perhaps after better ones.
struct TieCase {
    title: &'static str,
    names: &'static str,
    /// So many rules go first by larger weights.
    better: usize,
    /// All rules from the best rank to the worst.
    by_rank: Vec<Line>,
    /// The same where one weight of the last rule is larger, so that it goes before all that tie.
    last_heavier: Vec<Line>,
    /// Ranks by which some file of the case has other verdicts.
    ruled_out: Vec<WrongRank>,
}

/// A file and the verdicts of its rules by hand.
type Judged = (RuleFile, Vec<Verdict>);

/// Every case; the last one rules out all wrong ranks.
pub fn check(comparison: &mut Comparison) -> Checked<String> {
    let mut cases = pairs();
    cases.extend(equal_rules());
    cases.push(every_key_decides());
    let before = comparison.tally.files;
    for case in &cases {
        case.check(comparison)?;
    }
    Ok(format!(
        "cases of ties: {} in {} files, which rule out {} wrong ranks",
        cases.len(),
        comparison.tally.files - before,
        WRONG_RANKS.len()
    ))
}

impl TieCase {
    fn check(&self, comparison: &mut Comparison) -> Checked<()> {
        let files = self.files();
        for (file, by_hand) in &files {
            let verdicts = comparison.compare_valid(file)?.verdicts;
            ensure(verdicts == *by_hand, || {
                format!(
                    "{}: {:?}, by hand {:?}\nfile: {}",
                    self.title,
                    lines(&verdicts),
                    lines(by_hand),
                    hexadecimal(&file.bytes())
                )
            })?;
        }
        for rank in &self.ruled_out {
            let differs = |(file, by_hand): &Judged| rank.verdicts(file) != *by_hand;
            ensure(files.iter().any(differs), || {
                format!("{}: does not rule out {rank:?}", self.title)
            })?;
        }
        Ok(())
    }

    /// The rules in every order, with equal weights and with one weight of the last one larger.
    fn files(&self) -> Vec<Judged> {
        let mut ranked = vec![self.ranked(&self.by_rank)];
        ranked.extend([0, 1, 2].map(|place| {
            let (mut file, verdicts) = self.ranked(&self.last_heavier);
            file.rules[self.better].weights[place] += 1;
            (file, verdicts)
        }));
        ranked.iter().flat_map(in_every_order).collect()
    }

    /// A file of these rules in this order.
    fn ranked(&self, lines: &[Line]) -> Judged {
        let rules: Vec<(u8, u8, u8)> = lines.iter().map(|&(rule, _)| rule).collect();
        let mut file = file(self.names, &rules);
        for rule in &mut file.rules[self.better..] {
            rule.weights = [TIED; 3];
        }
        let verdict = |&(_, (fate, first, second)): &Line| Verdict {
            fate,
            first,
            second,
        };
        (file, lines.iter().map(verdict).collect())
    }
}

/// Rules that stand from the best rank to the worst, in every order. Of equal ones the earlier has
/// the verdict of the better.
fn in_every_order((ranked, verdicts): &Judged) -> Vec<Judged> {
    let in_order = |order: Vec<usize>| {
        let rules: Vec<Rule> = order.iter().map(|&at| ranked.rules[at].clone()).collect();
        let mut left: Vec<_> = ranked.rules.iter().zip(verdicts).collect();
        let take_verdict = |rule: &Rule| {
            let best = left.iter().position(|(other, _)| *other == rule);
            *left.remove(best.expect("a rule of the case")).1
        };
        let verdicts = rules.iter().map(take_verdict).collect();
        let steps = ranked.steps.clone();
        (RuleFile { steps, rules }, verdicts)
    };
    let orders = every_order(ranked.rules.len());
    orders.into_iter().map(in_order).collect()
}

/// Every order of so many places.
fn every_order(places: usize) -> Vec<Vec<usize>> {
    let with = |order: &Vec<usize>, place: usize| {
        let inserted = |at| [&order[..at], &[place], &order[at..]].concat();
        (0..=order.len()).map(inserted).collect::<Vec<_>>()
    };
    (0..places).fold(vec![Vec::new()], |orders, place| {
        orders.iter().flat_map(|order| with(order, place)).collect()
    })
}

/// Two rules that tie, in several cases for each key.
fn pairs() -> Vec<TieCase> {
    let mut pairs = template_decides();
    pairs.extend(x_decides());
    pairs.extend([x_before_count(), y_decides()]);
    pairs.extend(counts_decide());
    pairs
}

/// The last two rules tie, and a wrong rank exchanges them. The earlier rule right after the
/// weights does so in every pair; so do the weights last, where the last rule has the larger one.
fn pair<const RULES: usize>(
    title: &'static str,
    names: &'static str,
    by_rank: [Line; RULES],
    last_heavier: [Line; RULES],
    ruled_out: &[WrongRank],
) -> TieCase {
    let by_all = [WrongRank::EarlierAfterWeights, WrongRank::WeightsLast];
    TieCase {
        title,
        names,
        better: RULES - 2,
        by_rank: by_rank.to_vec(),
        last_heavier: last_heavier.to_vec(),
        ruled_out: [&by_all, ruled_out].concat(),
    }
}

fn template_decides() -> Vec<TieCase> {
    const B_BEFORE_A: (u8, u8, u8) = (PRECEDENCE, 1, 0);
    const A_FIRST: (u8, u8, u8) = (INIT, 0, WITHOUT_Y);
    const TWICE: (u8, u8, u8) = (EXACTLY, 0, 2);
    const AT_MOST_ONCE: (u8, u8, u8) = (AT_MOST, 0, 1);
    vec![
        // An a that comes first has no b before it, so that they conflict. Beside the kept rule
        // the other has 2 standings: before the first step, and after the only one that does not
        // break that rule. By the smaller template, and by x before the template, Init is first.
        pair(
            "Precedence(b,a), Init(a)",
            "ab",
            [(B_BEFORE_A, (0, 3, 3)), (A_FIRST, (1, 2, 0))],
            [(A_FIRST, (0, 3, 3)), (B_BEFORE_A, (1, 2, 0))],
            &[WrongRank::SmallerTemplate, WrongRank::XBeforeTemplate],
        ),
        // They conflict. Beside the kept rule the other counts only as far as that one allows, to
        // 2 or to 1. By the smaller template, and by the count before it, AtMost is first.
        pair(
            "Exactly(a, 2), AtMost(a, 1)",
            "a",
            [(TWICE, (0, 4, 4)), (AT_MOST_ONCE, (1, 3, 0))],
            [(AT_MOST_ONCE, (0, 3, 3)), (TWICE, (1, 2, 0))],
            &[WrongRank::SmallerTemplate, WrongRank::YBeforeTemplate],
        ),
    ]
}

fn x_decides() -> Vec<TieCase> {
    const INITS: [(u8, u8, u8); 2] = [(INIT, 0, WITHOUT_Y), (INIT, 1, WITHOUT_Y)];
    const CHOICES: [(u8, u8, u8); 2] = [(CHOICE, 0, 1), (CHOICE, 1, 0)];
    vec![
        // They conflict. Beside the kept rule the other has 2 standings, before the first step and
        // after it. By the larger x Init(b) is first, and by the template alone the earlier rule.
        pair(
            "Init(a), Init(b)",
            "ab",
            [(INITS[0], (0, 3, 3)), (INITS[1], (1, 2, 0))],
            [(INITS[1], (0, 3, 3)), (INITS[0], (1, 2, 0))],
            &[WrongRank::LargerX, WrongRank::EarlierAfterTemplate],
        ),
        // Both mean the same. By the larger x, and by y before x, Choice(b,a) is first.
        pair(
            "Choice(a,b), Choice(b,a)",
            "ab",
            [(CHOICES[0], (0, 2, 2)), (CHOICES[1], (2, 2, 0))],
            [(CHOICES[1], (0, 2, 2)), (CHOICES[0], (2, 2, 0))],
            &[WrongRank::LargerX, WrongRank::YBeforeX],
        ),
    ]
}

/// Only one of a and b may occur, so that the counts conflict. By the larger x, and by the count
/// before x, Exactly(b, 1) is first. Joint standings by what occurred:
/// - NotCoExistence(a,b): nothing, a, b, both;
/// - Exactly(a, 2) beside it: nothing, b, and 1, 2 or 3 a;
/// - Exactly(b, 1) beside both: nothing, 1 or 2 a, 1 or 2 b;
/// - NotCoExistence(a,b) in the second pass: 0, 1 or 2 a, each with b and without.
///
/// If Exactly(b, 1) goes first, it has nothing, a, and 1 or 2 b. Then Exactly(a, 2) has nothing,
/// 1 b, and 1, 2 or 3 a, and NotCoExistence(a,b) 0 or 1 b, each with a and without.
fn x_before_count() -> TieCase {
    const NOT_BOTH: (u8, u8, u8) = (NOT_CO_EXISTENCE, 0, 1);
    const TWO_A: (u8, u8, u8) = (EXACTLY, 0, 2);
    const ONE_B: (u8, u8, u8) = (EXACTLY, 1, 1);
    pair(
        "NotCoExistence(a,b), then Exactly(a, 2), Exactly(b, 1)",
        "ab",
        [
            (NOT_BOTH, (0, 4, 6)),
            (TWO_A, (0, 5, 5)),
            (ONE_B, (1, 5, 0)),
        ],
        [
            (NOT_BOTH, (0, 4, 4)),
            (ONE_B, (0, 4, 4)),
            (TWO_A, (1, 5, 0)),
        ],
        &[WrongRank::LargerX, WrongRank::YBeforeX],
    )
}

/// An a has to occur, and b and c cannot both be right after it, so that the last two conflict. By
/// the larger y ChainResponse(a,c) is first, and by x alone the earlier rule. Joint standings:
/// - Participation(a): no a so far, some a;
/// - ChainResponse(a,b) beside it: no a, right after an a, b after each a, another step after one;
/// - ChainResponse(a,c) beside both: no a, right after the first one, and then, as b is after that
///   and breaks it, right after an a and not;
/// - Participation(a) in the second pass: no a, right after an a, b after each a.
///
/// They are as many with b and c exchanged.
fn y_decides() -> TieCase {
    const A_OCCURS: (u8, u8, u8) = (PARTICIPATION, 0, WITHOUT_Y);
    const THEN_B: (u8, u8, u8) = (CHAIN_RESPONSE, 0, 1);
    const THEN_C: (u8, u8, u8) = (CHAIN_RESPONSE, 0, 2);
    let decided = |first, second| {
        [
            (A_OCCURS, (0, 2, 3)),
            (first, (0, 4, 4)),
            (second, (1, 4, 0)),
        ]
    };
    pair(
        "Participation(a), then ChainResponse(a,b), ChainResponse(a,c)",
        "abc",
        decided(THEN_B, THEN_C),
        decided(THEN_C, THEN_B),
        &[WrongRank::LargerY, WrongRank::EarlierAfterX],
    )
}

/// Both rules count a, AtLeast to its count and the others to one more. The joint standings are the
/// numbers of a that either of them counts, as far as the kept one allows. By the larger count the
/// second rule is first, and by x alone, or if y is compared only as a step, the earlier one.
fn counts_decide() -> Vec<TieCase> {
    const RULED_OUT: [WrongRank; 3] = [
        WrongRank::LargerY,
        WrongRank::EarlierAfterX,
        WrongRank::CountsLeftOut,
    ];
    vec![
        // The second implies the first, in the second pass; if it goes first, at once.
        pair(
            "AtLeast(a, 1), AtLeast(a, 2)",
            "a",
            [((AT_LEAST, 0, 1), (4, 2, 3)), ((AT_LEAST, 0, 2), (0, 3, 3))],
            [((AT_LEAST, 0, 2), (0, 3, 3)), ((AT_LEAST, 0, 1), (2, 3, 0))],
            &RULED_OUT,
        ),
        // The first implies the second, at once; if it goes last, in the second pass.
        pair(
            "AtMost(a, 1), AtMost(a, 2)",
            "a",
            [((AT_MOST, 0, 1), (0, 3, 3)), ((AT_MOST, 0, 2), (2, 2, 0))],
            [((AT_MOST, 0, 2), (4, 4, 2)), ((AT_MOST, 0, 1), (0, 3, 3))],
            &RULED_OUT,
        ),
        // They conflict.
        pair(
            "Exactly(a, 1), Exactly(a, 2)",
            "a",
            [((EXACTLY, 0, 1), (0, 3, 3)), ((EXACTLY, 0, 2), (1, 2, 0))],
            [((EXACTLY, 0, 2), (0, 4, 4)), ((EXACTLY, 0, 1), (1, 3, 0))],
            &RULED_OUT,
        ),
    ]
}

/// Rules that all tie, equal ones among them: of these the earlier is decided first.
fn tied(
    title: &'static str,
    names: &'static str,
    by_rank: Vec<Line>,
    last_heavier: Vec<Line>,
    ruled_out: &[WrongRank],
) -> TieCase {
    TieCase {
        title,
        names,
        better: 0,
        by_rank,
        last_heavier,
        ruled_out: ruled_out.to_vec(),
    }
}

/// The same rule twice and three times: the later ones are implied, or conflict as the first does.
/// If the later of equal rules goes first, their verdicts are exchanged.
fn equal_rules() -> Vec<TieCase> {
    const KEPT: Line = ((RESPONSE, 0, 1), (0, 2, 2));
    const IMPLIED: Line = ((RESPONSE, 0, 1), (2, 2, 0));
    const ONCE: (u8, u8, u8) = (AT_LEAST, 0, 1);
    const TWICE: (u8, u8, u8) = (AT_LEAST, 0, 2);
    let ruled_out = [WrongRank::LaterOfEqual];
    let twice = vec![KEPT, IMPLIED];
    let three_times = vec![KEPT, IMPLIED, IMPLIED];
    vec![
        tied(
            "Response(a,b) twice",
            "ab",
            twice.clone(),
            twice,
            &ruled_out,
        ),
        tied(
            "Response(a,b) three times",
            "ab",
            three_times.clone(),
            three_times,
            &ruled_out,
        ),
        inits_twice(),
        // The second is implied by the first, which AtLeast(a, 2) then implies in the second pass.
        tied(
            "AtLeast(a, 1) twice, AtLeast(a, 2)",
            "a",
            vec![(ONCE, (4, 2, 3)), (ONCE, (2, 2, 0)), (TWICE, (0, 3, 3))],
            vec![(TWICE, (0, 3, 3)), (ONCE, (2, 3, 0)), (ONCE, (2, 3, 0))],
            &ruled_out,
        ),
    ]
}

/// One rule is kept; beside it each other one has 2 standings, before the first step and after it.
fn inits_twice() -> TieCase {
    const A_FIRST: (u8, u8, u8) = (INIT, 0, WITHOUT_Y);
    const B_FIRST: (u8, u8, u8) = (INIT, 1, WITHOUT_Y);
    tied(
        "Init(a) twice, Init(b) twice",
        "ab",
        vec![
            (A_FIRST, (0, 3, 3)),
            (A_FIRST, (2, 2, 0)),
            (B_FIRST, (1, 2, 0)),
            (B_FIRST, (1, 2, 0)),
        ],
        vec![
            (B_FIRST, (0, 3, 3)),
            (A_FIRST, (1, 2, 0)),
            (A_FIRST, (1, 2, 0)),
            (B_FIRST, (2, 2, 0)),
        ],
        &[WrongRank::LargerX, WrongRank::LaterOfEqual],
    )
}

/// Template, x, count and the earlier rule all decide, and each wrong rank gives other verdicts.
/// Joint standings by the numbers of a and of b:
/// - Exactly(a, 1): 0 to 2 a;
/// - beside it the same rule, and Exactly(a, 2): 0 or 1 a;
/// - Exactly(b, 1) beside it, in both passes: 0 or 1 a with 0 to 2 b;
/// - AtMost(a, 1) beside both: 0 or 1 a with 0 or 1 b;
/// - Exactly(a, 1) in the second pass: 0 to 2 a with 0 or 1 b.
///
/// If AtMost(a, 1) goes first, it has 0 to 2 a and leaves 0 or 1 to all others. In the second pass
/// it and Exactly(a, 1) have 0 or 1 a with 0 or 1 b, and it is implied.
fn every_key_decides() -> TieCase {
    const ONE_A: (u8, u8, u8) = (EXACTLY, 0, 1);
    const TWO_A: (u8, u8, u8) = (EXACTLY, 0, 2);
    const ONE_B: (u8, u8, u8) = (EXACTLY, 1, 1);
    const AT_MOST_ONE_A: (u8, u8, u8) = (AT_MOST, 0, 1);
    tied(
        "Exactly(a, 1) twice, Exactly(a, 2), Exactly(b, 1), AtMost(a, 1)",
        "ab",
        vec![
            (ONE_A, (0, 3, 6)),
            (ONE_A, (2, 2, 0)),
            (TWO_A, (1, 2, 0)),
            (ONE_B, (0, 6, 6)),
            (AT_MOST_ONE_A, (2, 4, 0)),
        ],
        vec![
            (AT_MOST_ONE_A, (4, 3, 4)),
            (ONE_A, (0, 2, 4)),
            (ONE_A, (2, 2, 0)),
            (TWO_A, (1, 2, 0)),
            (ONE_B, (0, 6, 6)),
        ],
        &WRONG_RANKS,
    )
}
