//! Cases of the templates that 02 (M-100) adds. Fates, counts and sequences were worked out by hand.

use crate::checks::cases::{
    both, file, only_satisfying, only_violating, Case, Expected, Shown, AT_LEAST, AT_MOST, CHOICE,
    EXACTLY, EXCLUSIVE_CHOICE,
};
use crate::comparison::{Checked, Comparison};

/// Every case and every rule of it with areas of every content.
pub fn check(comparison: &mut Comparison) -> Checked<String> {
    let mut cases = single_rules();
    cases.extend(pairs());
    cases.extend([
        at_least_and_at_most(),
        four_counts(),
        both_numbers(),
        last_bits(),
    ]);
    for case in &cases {
        case.check(comparison)?;
    }
    Ok(format!("cases of 02: {}", cases.len()))
}

/// A sequence by the names of its steps, and the standing after it.
type Steps = (&'static str, u128);

/// Names of the steps, rule, number of standings, satisfying and violating sequence.
type SingleRule = (&'static str, (u8, u8, u8), u16, Steps, Steps);

const FOURTEEN: &str = "aaaaaaaaaaaaaa";

/// "At least three flats", "either sky or lamp", and the like.
const SINGLE_RULES: [SingleRule; 8] = [
    ("fs", (AT_LEAST, 0, 3), 4, ("fff", 3), ("", 0)),
    ("a", (AT_MOST, 0, 2), 4, ("", 0), ("aaa", 3)),
    ("ab", (EXACTLY, 1, 1), 3, ("b", 1), ("", 0)),
    ("a", (EXACTLY, 0, 14), 16, (FOURTEEN, 14), ("", 0)),
    ("sl", (CHOICE, 0, 1), 2, ("s", 1), ("", 0)),
    ("sl", (CHOICE, 1, 0), 2, ("s", 1), ("", 0)),
    ("sl", (EXCLUSIVE_CHOICE, 0, 1), 4, ("s", 1), ("", 0)),
    ("sl", (EXCLUSIVE_CHOICE, 1, 0), 4, ("s", 2), ("", 0)),
];

/// Files of one rule, which is kept; its standings are counted in both passes.
fn single_rules() -> Vec<Case> {
    let case = |&(names, rule, standings, satisfying, violating): &SingleRule| Case {
        title: "a rule alone",
        file: file(names, &[rule]),
        expected: vec![Expected::whole(0, standings, standings)],
        shown: vec![both(satisfying, violating)],
    };
    SINGLE_RULES.iter().map(case).collect()
}

/// A file of two rules over a and b.
fn pair(
    title: &'static str,
    rules: [(u8, u8, u8); 2],
    verdicts: [(u8, u16, u16); 2],
    shown: [Shown; 2],
) -> Case {
    let whole = |(fate, first, second)| Expected::whole(fate, first, second);
    Case {
        title,
        file: file("ab", &rules),
        expected: verdicts.map(whole).to_vec(),
        shown: shown.to_vec(),
    }
}

fn pairs() -> Vec<Case> {
    vec![
        pair(
            "AtLeast(a, 3), AtMost(a, 2)",
            [(AT_LEAST, 0, 3), (AT_MOST, 0, 2)],
            [(0, 4, 4), (1, 4, 0)],
            [both(("aaa", 3), ("", 0)), only_violating("aaa", 0x33)],
        ),
        pair(
            "AtMost(a, 2), AtLeast(a, 3)",
            [(AT_MOST, 0, 2), (AT_LEAST, 0, 3)],
            [(0, 4, 4), (1, 3, 0)],
            [both(("", 0), ("aaa", 3)), only_violating("", 0)],
        ),
        pair(
            "Exactly(a, 2), AtLeast(a, 2)",
            [(EXACTLY, 0, 2), (AT_LEAST, 0, 2)],
            [(0, 4, 4), (2, 3, 0)],
            [both(("aa", 2), ("", 0)), only_satisfying("aa", 0x22)],
        ),
        pair(
            "Choice(a, b), ExclusiveChoice(a, b)",
            [(CHOICE, 0, 1), (EXCLUSIVE_CHOICE, 0, 1)],
            [(4, 2, 3), (0, 4, 4)],
            [both(("a", 1), ("", 0)), both(("a", 0x11), ("ab", 0x31))],
        ),
        pair(
            "ExclusiveChoice(a, b), Choice(a, b)",
            [(EXCLUSIVE_CHOICE, 0, 1), (CHOICE, 0, 1)],
            [(0, 4, 4), (2, 3, 0)],
            [both(("a", 1), ("", 0)), only_satisfying("a", 0x11)],
        ),
    ]
}

fn at_least_and_at_most() -> Case {
    Case {
        title: "AtLeast(a, 2), AtMost(a, 2), Exactly(a, 2)",
        file: file("a", &[(AT_LEAST, 0, 2), (AT_MOST, 0, 2), (EXACTLY, 0, 2)]),
        expected: vec![
            Expected::whole(0, 3, 3),
            Expected::whole(0, 4, 4),
            Expected::whole(2, 3, 0),
        ],
        shown: vec![
            both(("aa", 0x2), ("", 0)),
            both(("aa", 0x22), ("aaa", 0x32)),
            only_satisfying("aa", 0x222),
        ],
    }
}

/// Four counts with eight standings each have 4,096 joint standings, and a fifth is set aside.
fn four_counts() -> Case {
    const LETTERS: &str = "aaaaaaabbbbbbbcccccccddddddd";
    let rules = [0, 1, 2, 3, 4].map(|x| (AT_LEAST, x, 7));
    let mut expected = [8, 64, 512, 4096]
        .map(|first| Expected::whole(0, first, 4096))
        .to_vec();
    expected.push(Expected::whole(3, 4097, 0));
    Case {
        title: "AtLeast 7 of five steps",
        file: file("abcde", &rules),
        expected,
        shown: vec![
            both((&LETTERS[..7], 0x7), ("", 0)),
            both((&LETTERS[..14], 0x77), (&LETTERS[..7], 0x07)),
            both((&LETTERS[..21], 0x777), (&LETTERS[..14], 0x077)),
            both((LETTERS, 0x7777), (&LETTERS[..21], 0x0777)),
            [None, None],
        ],
    }
}

/// 32 rules: a and b at least 1 to 14 times each, then c at least 1 to 4 times. Each is kept at first,
/// and only the largest count of a step finally. A sequence satisfies a rule and those before it if it
/// has as many letters as there are such rules, and violates it with one less.
fn both_numbers() -> Case {
    const LETTERS: &str = "aaaaaaaaaaaaaabbbbbbbbbbbbbbcccc";
    const ALL_REACHED: u128 = 0x4321_EDCB_A987_6543_21ED_CBA9_8765_4321;
    let rules: Vec<(u8, u8, u8)> = (0..32).map(|at| (AT_LEAST, at / 14, at % 14 + 1)).collect();
    let expected = |at: u16| {
        let before = [1, 15, 15 * 15][usize::from(at / 14)];
        let fate = if [13, 27, 31].contains(&at) { 0 } else { 4 };
        Expected::whole(fate, before * (at % 14 + 2), 15 * 15 * 5)
    };
    let shown = |at: usize| {
        let reached = ALL_REACHED & u128::MAX >> (124 - 4 * at);
        let one_less = reached - (1 << (4 * at));
        both((&LETTERS[..at + 1], reached), (&LETTERS[..at], one_less))
    };
    Case {
        title: "AtLeast in 32 rules",
        file: file("abc", &rules),
        expected: (0..32).map(expected).collect(),
        shown: (0..32).map(shown).collect(),
    }
}

/// Rules 16, 17 and 32, the best ones, are broken in standing 15: at the end of the first number, at
/// the beginning and at the end of the second. All others are like rule 16, and implied.
fn last_bits() -> Case {
    const BROKEN: [&str; 3] = ["aaaaaaaaaaaaaaa", "bbbbbbbbbbbbbbb", "ccccccccccccccc"];
    let mut rules = [(AT_MOST, 0, 14); 32];
    let mut expected = vec![Expected::whole(2, 15 * 15 * 15, 0); 32];
    let mut shown: Vec<Shown> = vec![only_satisfying("", 0); 32];
    for (x, rule) in [16, 17, 32].into_iter().enumerate() {
        rules[rule - 1].1 = x as u8;
        let first = [16, 15 * 16, 15 * 15 * 16][x];
        expected[rule - 1] = Expected::whole(0, first, 15 * 15 * 16);
        shown[rule - 1] = both(("", 0), (BROKEN[x], 0xF << (4 * (rule - 1))));
    }
    let mut file = file("abc", &rules);
    for (weight, rule) in [16, 17, 32].into_iter().rev().enumerate() {
        file.rules[rule - 1].weights[0] = 0x3F40_0000 + weight as u32;
    }
    Case {
        title: "AtMost 14 in rules 16, 17 and 32",
        file,
        expected,
        shown,
    }
}
