//! The cases of 01 ("Cases") that are about pruning, with their values typed from it, and what
//! showing gives of their rules, worked out by hand.

use crate::comparison::{ensure, hexadecimal, lines, Checked, Comparison};
use crate::product::Entry;
use crate::reference::{Decided, Packed, Sequence, Verdict};
use crate::rule_file::{refusal, Rule, RuleFile, WITHOUT_Y};

pub(super) const PARTICIPATION: u8 = 1;
pub(super) const INIT: u8 = 3;
pub(super) const END: u8 = 4;
pub(super) const RESPONSE: u8 = 6;
pub(super) const CHAIN_RESPONSE: u8 = 8;
pub(super) const PRECEDENCE: u8 = 9;
pub(super) const ALTERNATE_PRECEDENCE: u8 = 10;
pub(super) const CHAIN_PRECEDENCE: u8 = 11;
pub(super) const CO_EXISTENCE: u8 = 12;
pub(super) const NOT_CHAIN_SUCCESSION: u8 = 16;
pub(super) const NOT_CO_EXISTENCE: u8 = 18;
pub(super) const AT_LEAST: u8 = 19;
pub(super) const AT_MOST: u8 = 20;
pub(super) const EXACTLY: u8 = 21;
pub(super) const CHOICE: u8 = 22;
pub(super) const EXCLUSIVE_CHOICE: u8 = 23;

/// A file with steps named by letters and rules of falling weights.
pub(super) fn file(names: &str, rules: &[(u8, u8, u8)]) -> RuleFile {
    let with_weights = |(place, &(template, x, y)): (usize, &(u8, u8, u8))| Rule {
        template,
        x,
        y,
        weights: [0x3F00_0000 - place as u32; 3],
    };
    RuleFile {
        steps: names.bytes().map(|letter| vec![letter]).collect(),
        rules: rules.iter().enumerate().map(with_weights).collect(),
    }
}

/// The numbers of steps that are named by letters.
pub(super) fn step_numbers(file: &RuleFile, letters: &str) -> Vec<u8> {
    let number_of = |letter: u8| {
        let same_name = |name: &Vec<u8>| *name == [letter];
        let number = file.steps.iter().position(same_name);
        number.expect("a declared step") as u8
    };
    letters.bytes().map(number_of).collect()
}

/// What 01 says of one case: parts of each rule's verdict; and what is shown of each rule.
pub(super) struct Case {
    pub title: &'static str,
    pub file: RuleFile,
    pub expected: Vec<Expected>,
    pub shown: Vec<Shown>,
}

/// A satisfying and a violating sequence, each by the names of its steps and the joint standing
/// after it.
pub(super) type Shown = [Option<(&'static str, u128)>; 2];

/// A joint standing that is typed with a hexadecimal digit a rule, the last rule first.
pub(super) fn packed(digits: u128) -> Packed {
    [digits as u64, (digits >> 64) as u64]
}

/// A rule kept in the first pass.
pub(super) fn both(satisfying: (&'static str, u128), violating: (&'static str, u128)) -> Shown {
    [Some(satisfying), Some(violating)]
}

/// An implied rule.
pub(super) fn only_satisfying(steps: &'static str, standing: u128) -> Shown {
    [Some((steps, standing)), None]
}

/// A conflicting rule.
pub(super) fn only_violating(steps: &'static str, standing: u128) -> Shown {
    [None, Some((steps, standing))]
}

/// The parts of a rule's verdict that 01 gives.
#[derive(Clone, Copy, Default)]
pub(super) struct Expected {
    fate: Option<u8>,
    first: Option<u16>,
    second: Option<u16>,
    /// Kept in the first pass; the second pass is left open.
    kept_first: bool,
}

impl Expected {
    pub fn whole(fate: u8, first: u16, second: u16) -> Expected {
        Expected {
            fate: Some(fate),
            first: Some(first),
            second: Some(second),
            ..Expected::default()
        }
    }

    fn fate(fate: u8) -> Expected {
        Expected {
            fate: Some(fate),
            ..Expected::default()
        }
    }

    fn counting(self, first: u16) -> Expected {
        Expected {
            first: Some(first),
            ..self
        }
    }

    fn open() -> Expected {
        Expected::default()
    }

    fn kept() -> Expected {
        Expected {
            kept_first: true,
            ..Expected::default()
        }
    }

    fn holds_of(&self, verdict: &Verdict) -> bool {
        self.fate.is_none_or(|fate| fate == verdict.fate)
            && self.first.is_none_or(|first| first == verdict.first)
            && self.second.is_none_or(|second| second == verdict.second)
            && (!self.kept_first || verdict.kept_first())
    }
}

/// The cases of 01; two of two rules come from "Traps in the literature", and that of seven rules
/// is added for a rule that is set aside although the empty sequence satisfies it.
fn cases() -> Vec<Case> {
    let mut cases = vec![
        conflict_of_three_rules(),
        thirteen_participations(),
        seven_co_existences(),
    ];
    cases.extend(implied_seconds());
    cases.extend(kept_seconds());
    cases.extend(cases_of_three_rules());
    cases
}

/// Two rules, both kept in the first pass.
fn kept_seconds() -> Vec<Case> {
    vec![
        Case {
            title: "Participation(a), Init(a)",
            file: file("ab", &[(PARTICIPATION, 0, WITHOUT_Y), (INIT, 0, WITHOUT_Y)]),
            expected: vec![Expected::whole(4, 2, 2), Expected::whole(0, 4, 4)],
            shown: vec![both(("a", 0x1), ("", 0x0)), both(("a", 0x11), ("ba", 0x21))],
        },
        Case {
            title: "CoExistence(a,b), NotCoExistence(a,b)",
            file: file("ab", &[(CO_EXISTENCE, 0, 1), (NOT_CO_EXISTENCE, 0, 1)]),
            expected: vec![Expected::open(), Expected::kept()],
            shown: vec![both(("", 0x0), ("a", 0x1)), both(("", 0x00), ("ab", 0x33))],
        },
    ]
}

/// Two rules, of which the second is implied.
fn implied_seconds() -> Vec<Case> {
    let case = |title, names, rules: [(u8, u8, u8); 2], shown| Case {
        title,
        file: file(names, &rules),
        expected: vec![Expected::open(), Expected::fate(2)],
        shown,
    };
    vec![
        case(
            "ChainPrecedence(a,b), AlternatePrecedence(a,b)",
            "ab",
            [(CHAIN_PRECEDENCE, 0, 1), (ALTERNATE_PRECEDENCE, 0, 1)],
            vec![both(("", 0x0), ("b", 0x2)), only_satisfying("", 0x00)],
        ),
        case(
            "the same rule twice",
            "ab",
            [(RESPONSE, 0, 1), (RESPONSE, 0, 1)],
            vec![both(("", 0x0), ("a", 0x1)), only_satisfying("", 0x00)],
        ),
        case(
            "Init(a), Participation(a), a alone",
            "a",
            [(INIT, 0, WITHOUT_Y), (PARTICIPATION, 0, WITHOUT_Y)],
            vec![both(("a", 0x1), ("", 0x0)), only_satisfying("a", 0x11)],
        ),
    ]
}

/// The example of source document 000.
fn conflict_of_three_rules() -> Case {
    Case {
        title: "Participation(p), NotChainSuccession(p,w), ChainResponse(p,w)",
        file: file(
            "pw",
            &[
                (PARTICIPATION, 0, WITHOUT_Y),
                (NOT_CHAIN_SUCCESSION, 0, 1),
                (CHAIN_RESPONSE, 0, 1),
            ],
        ),
        expected: vec![
            Expected::whole(0, 2, 2),
            Expected::whole(0, 3, 3),
            Expected::whole(1, 3, 0),
        ],
        shown: vec![
            both(("p", 0x1), ("", 0x0)),
            both(("p", 0x11), ("pw", 0x21)),
            only_violating("p", 0x111),
        ],
    }
}

fn cases_of_three_rules() -> Vec<Case> {
    vec![
        Case {
            title: "Init(a), End(d), CoExistence(a,d)",
            file: file(
                "ad",
                &[
                    (INIT, 0, WITHOUT_Y),
                    (END, 1, WITHOUT_Y),
                    (CO_EXISTENCE, 0, 1),
                ],
            ),
            expected: vec![
                Expected::open().counting(3),
                Expected::open().counting(3),
                Expected::fate(2).counting(4),
            ],
            shown: vec![
                both(("a", 0x1), ("", 0x0)),
                both(("ad", 0x11), ("a", 0x01)),
                only_satisfying("ad", 0x311),
            ],
        },
        Case {
            title: "Response(a,b), Response(b,c), Response(a,c)",
            file: file(
                "abc",
                &[(RESPONSE, 0, 1), (RESPONSE, 1, 2), (RESPONSE, 0, 2)],
            ),
            expected: vec![Expected::open(), Expected::open(), Expected::fate(2)],
            shown: vec![
                both(("", 0x0), ("a", 0x1)),
                both(("", 0x00), ("b", 0x10)),
                only_satisfying("", 0x000),
            ],
        },
    ]
}

fn thirteen_participations() -> Case {
    let rules: Vec<(u8, u8, u8)> = (0..13).map(|x| (PARTICIPATION, x, WITHOUT_Y)).collect();
    let mut expected = vec![Expected::fate(0); 11];
    expected.push(Expected::fate(0).counting(4096));
    expected.push(Expected::fate(3).counting(4097));
    // All steps so far satisfy a rule; all but its own violate it.
    const STEPS: &str = "abcdefghijklm";
    const ALL_OCCUR: u128 = 0x1111_1111_1111;
    let first = |count: usize| (&STEPS[..count], ALL_OCCUR & ((1 << (4 * count)) - 1));
    let mut shown: Vec<Shown> = (1..=12)
        .map(|rule| both(first(rule), first(rule - 1)))
        .collect();
    shown.push([None, None]);
    Case {
        title: "Participation of 13 steps",
        file: file(STEPS, &rules),
        expected,
        shown,
    }
}

/// Over steps of their own: six have 4,096 joint standings, and the seventh is set aside.
fn seven_co_existences() -> Case {
    let rules: Vec<(u8, u8, u8)> = (0..7)
        .map(|pair| (CO_EXISTENCE, 2 * pair, 2 * pair + 1))
        .collect();
    let mut expected = vec![Expected::fate(0); 5];
    expected.push(Expected::fate(0).counting(4096));
    expected.push(Expected::fate(3).counting(4097));
    Case {
        title: "CoExistence of 7 pairs of steps",
        file: file("abcdefghijklmn", &rules),
        expected,
        shown: vec![
            both(("", 0), ("a", 0x1)),
            both(("", 0), ("c", 0x10)),
            both(("", 0), ("e", 0x100)),
            both(("", 0), ("g", 0x1000)),
            both(("", 0), ("i", 0x10000)),
            both(("", 0), ("k", 0x100000)),
            [None, None],
        ],
    }
}

/// Every case and every rule of it with areas of every content, and the two weights at the edge.
pub fn check(comparison: &mut Comparison) -> Checked<String> {
    let cases = cases();
    for case in &cases {
        case.check(comparison)?;
    }
    check_weights(comparison)?;
    Ok(format!("cases of 01: {} and both weights", cases.len()))
}

impl Case {
    /// Every rule with areas of every content.
    pub fn check(&self, comparison: &mut Comparison) -> Checked<()> {
        let decided = comparison.compare_valid(&self.file)?;
        let shows = (1..=self.file.rules.len() as u32).map(Entry::Show);
        for entry in shows.chain([Entry::Prune]) {
            comparison.call_with_every_content(entry, &decided)?;
        }
        self.check_decided(&decided)
    }

    /// Product and reference agree on this; it has to be what is typed above.
    fn check_decided(&self, decided: &Decided) -> Checked<()> {
        let verdicts = &decided.verdicts;
        let mut pairs = self.expected.iter().zip(verdicts);
        let holds = self.expected.len() == verdicts.len()
            && pairs.all(|(expected, verdict)| expected.holds_of(verdict));
        ensure(holds, || {
            format!(
                "{}: by hand something else than {:?}\nfile: {}",
                self.title,
                lines(verdicts),
                hexadecimal(&self.file.bytes())
            )
        })?;
        let shown: Vec<_> = (0..verdicts.len())
            .map(|rule| decided.shown(rule))
            .collect();
        let expected: Vec<_> = self
            .shown
            .iter()
            .map(|shown| self.sequences(shown))
            .collect();
        ensure(shown == expected, || {
            format!("{}: shown are {shown:?}, by hand {expected:?}", self.title)
        })
    }

    /// The sequences with the numbers of their steps.
    fn sequences(&self, shown: &Shown) -> [Option<Sequence>; 2] {
        shown.map(|sequence| {
            sequence.map(|(steps, standing)| Sequence {
                steps: step_numbers(&self.file, steps),
                standing: packed(standing),
            })
        })
    }
}

/// Weight 3F800000 is accepted and 3F800001 refused, in each of the three places.
fn check_weights(comparison: &mut Comparison) -> Checked<()> {
    for place in 0..3 {
        check_weight(place, 0x3F80_0000, 0, comparison)?;
        check_weight(place, 0x3F80_0001, refusal::WEIGHT_OUTSIDE, comparison)?;
    }
    Ok(())
}

fn check_weight(
    place: usize,
    weight: u32,
    expected: u32,
    comparison: &mut Comparison,
) -> Checked<()> {
    let mut edge = file("a", &[(PARTICIPATION, 0, WITHOUT_Y)]);
    edge.rules[0].weights[place] = weight;
    let given = comparison.compare(&edge.bytes())?;
    ensure(given == expected, || {
        format!("weight {weight:08X} in place {place}: refused {given}, 01 says {expected}")
    })
}
