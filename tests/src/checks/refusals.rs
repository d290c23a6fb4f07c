//! The refusals of 01 ("Refused inputs") and 02 (M-100): each example, and which number goes first.

use crate::comparison::{ensure, hexadecimal, Checked, Comparison};
use crate::expected::Expected;
use crate::memory::{Content, CONTENTS};
use crate::product::{Entry, Lending, Lent, EXACT};
use crate::rule_file::{field, RULE_TAG, STEP_TAG};

/// The content of a good rule over the first of the declared steps: Participation, weights 0.5.
const GOOD_RULE: [u8; 15] = [
    0x01, 0x00, 0xFF, 0x3F, 0, 0, 0, 0x3F, 0, 0, 0, 0x3F, 0, 0, 0,
];

fn step(name: &str) -> Vec<u8> {
    field(STEP_TAG, name.as_bytes())
}

/// Steps named by the first letters.
pub(crate) fn steps(count: u8) -> Vec<u8> {
    let letters = (b'a'..).take(usize::from(count));
    letters
        .flat_map(|letter| field(STEP_TAG, &[letter]))
        .collect()
}

/// The good rule with other bytes from a place on.
fn rule_with(place: usize, bytes: &[u8]) -> Vec<u8> {
    let mut content = GOOD_RULE;
    content[place..place + bytes.len()].copy_from_slice(bytes);
    field(RULE_TAG, &content)
}

pub(crate) fn good_rules(count: usize) -> Vec<u8> {
    rule_with(0, &[]).repeat(count)
}

/// Files and the number with which they are refused; 0 where they are accepted.
pub(crate) type Expectation = (u32, Vec<u8>);

/// The examples of the table, 2 to 13, that of 10 as 02 changes it, and one of 17.
pub(crate) fn examples() -> Vec<Expectation> {
    vec![
        (2, vec![0x53, 0x00, 0x02, 0x61]),
        (3, vec![0x41, 0x00, 0x00]),
        (
            4,
            [steps(1), good_rules(1), vec![0x53, 0x00, 0x01, 0x62]].concat(),
        ),
        (5, steps(25)),
        (6, vec![0x53, 0x00, 0x00]),
        (7, [0x53, 0x00, 0x01, 0x61].repeat(2)),
        (8, [steps(1), good_rules(33)].concat()),
        (9, [steps(1), vec![0x52, 0x00, 0x01, 0x01]].concat()),
        (10, [steps(1), rule_with(0, &[0x18])].concat()),
        (11, [steps(1), rule_with(0, &[0x06, 0x00, 0x00])].concat()),
        (
            12,
            [steps(1), rule_with(3, &[0x80, 0x00, 0x00, 0x00])].concat(),
        ),
        (13, vec![]),
        (17, [steps(1), rule_with(0, &[0x13, 0x00, 0x00])].concat()),
    ]
}

/// Names of full length that differ in the first or last byte, and one that is cut.
fn nearly_alike_names() -> Vec<u8> {
    let names = [
        "abcdefghijklmnop",
        "Abcdefghijklmnop",
        "abcdefghijklmnoP",
        "abcdefghijklmno",
    ];
    names.map(step).concat()
}

/// What the limits still allow.
fn accepted() -> Vec<Expectation> {
    vec![
        (0, steps(1)),
        (0, steps(24)),
        (0, [steps(24), good_rules(32)].concat()),
        (0, nearly_alike_names()),
        (0, [step("!"), step("~"), step("!~")].concat()),
        (0, [steps(2), rule_with(0, &[18, 1, 0])].concat()),
        (0, [steps(24), rule_with(0, &[18, 0, 23])].concat()),
        (0, [steps(24), rule_with(0, &[4, 23, 0xFF])].concat()),
        (0, [steps(1), rule_with(3, &[0; 12])].concat()),
    ]
}

/// Template, x and y of rules that 02 adds, where two steps are declared. Refusal 11 looks at a step
/// y as in 5 to 18, and at a count not at all.
fn added() -> Vec<Expectation> {
    let rows: [(u32, [u8; 3]); 13] = [
        (0, [19, 0, 14]),
        (0, [20, 1, 1]),
        (17, [19, 0, 0]),
        (17, [20, 0, 15]),
        (17, [21, 0, 0xFF]),
        (17, [19, 2, 0]),
        (11, [19, 2, 2]),
        (0, [22, 0, 1]),
        (0, [23, 1, 0]),
        (11, [22, 0, 0xFF]),
        (11, [22, 0, 2]),
        (11, [23, 2, 0]),
        (11, [23, 1, 1]),
    ];
    rows.map(|(number, bytes)| (number, [steps(2), rule_with(0, &bytes)].concat()))
        .to_vec()
}

/// Bytes for x and for its count where two steps are declared.
const XS: [u8; 5] = [0, 1, 2, 14, 0xFF];
const COUNTS: [u8; 12] = [0, 1, 2, 3, 13, 14, 15, 16, 0x7F, 0x80, 0x8E, 0xFF];

/// A count from 1 to 14 is accepted, also where it is the number of x or of no step; any other is 17,
/// also where x is not declared, which is 11 otherwise.
fn counts() -> Vec<Expectation> {
    let counted = |template: u8, x: u8, count: u8| {
        let number = match (1..=14).contains(&count) {
            false => 17,
            true if x < 2 => 0,
            true => 11,
        };
        let rule = rule_with(0, &[template, x, count]);
        (number, [steps(2), rule].concat())
    };
    let with_template = |template: u8| {
        let with_x = move |x: u8| COUNTS.map(move |count| counted(template, x, count));
        XS.into_iter().flat_map(with_x)
    };
    (19..=21).flat_map(with_template).collect()
}

/// The conditions in more ways than the examples.
fn further() -> Vec<Expectation> {
    let with_one_step = |rest: Vec<u8>| [steps(1), rest].concat();
    let with_two_steps = |rest: Vec<u8>| [steps(2), rest].concat();
    vec![
        (2, vec![0x53]),
        (2, vec![0x53, 0x00]),
        (2, vec![0x53, 0x00, 0x01]),
        (2, vec![0x53, 0x01, 0x01, 0x61]),
        (3, vec![0x00, 0x00, 0x00]),
        (3, with_one_step(vec![0x72, 0x00, 0x00])),
        (6, step("abcdefghijklmnopq")),
        (6, step("a b")),
        (6, field(STEP_TAG, &[0x61, 0x7F])),
        (6, field(STEP_TAG, &[0xE1])),
        (6, field(STEP_TAG, &[0x61, 0x00])),
        (7, [step("ab"), step("a"), step("b"), step("ab")].concat()),
        (9, with_one_step(field(RULE_TAG, &[]))),
        (9, with_one_step(field(RULE_TAG, &GOOD_RULE[..14]))),
        (
            9,
            with_one_step(field(RULE_TAG, &[GOOD_RULE.as_slice(), &[0]].concat())),
        ),
        (10, with_one_step(rule_with(0, &[0]))),
        (10, with_one_step(rule_with(0, &[0xFF]))),
        (11, with_one_step(rule_with(0, &[1, 1, 0xFF]))),
        (11, with_one_step(rule_with(0, &[1, 0xFF, 0xFF]))),
        (11, with_two_steps(rule_with(0, &[4, 0, 1]))),
        (11, with_two_steps(rule_with(0, &[5, 0, 0xFF]))),
        (11, with_two_steps(rule_with(0, &[5, 0, 2]))),
        (11, with_two_steps(rule_with(0, &[5, 2, 0]))),
        (12, with_one_step(rule_with(7, &[0x7F, 0xC0, 0, 0]))),
        (12, with_one_step(rule_with(11, &[0xFF, 0xFF, 0xFF, 0xFF]))),
        (12, with_one_step(rule_with(3, &[0x7F, 0x80, 0, 0]))),
    ]
}

/// Contents whose length needs its high byte, up to the longest.
fn long_fields() -> Vec<Expectation> {
    let long = |tag: u8, length: usize| [steps(1), field(tag, &vec![b'b'; length])].concat();
    let cut_short = |mut bytes: Vec<u8>| {
        bytes.pop();
        bytes
    };
    vec![
        (6, long(STEP_TAG, 256 + 1)),
        (6, long(STEP_TAG, 65_535)),
        (9, long(RULE_TAG, 256 + 15)),
        (9, long(RULE_TAG, 65_535)),
        (3, long(0x41, 65_535)),
        (2, cut_short(long(STEP_TAG, 256 + 1))),
        (2, cut_short(long(RULE_TAG, 65_535))),
    ]
}

/// The first faulty field decides, and in it the number that is tested first.
fn orders() -> Vec<Expectation> {
    let bad_weight = rule_with(3, &[0x80, 0, 0, 0]);
    let after_rule = |rest: Vec<u8>| [steps(1), good_rules(1), rest].concat();
    let after_all_rules = |rest: Vec<u8>| [steps(1), good_rules(32), rest].concat();
    vec![
        // 2 before 3, 9 and all else of the same field.
        (2, vec![0x41]),
        (2, vec![0x41, 0x00, 0x01]),
        (2, [steps(1), vec![0x52, 0x00, 0x02, 0x01]].concat()),
        (2, [steps(24), vec![0x53, 0x00, 0x01]].concat()),
        (2, after_all_rules(vec![0x52])),
        // 4 before 6 and 7; 4 before 5.
        (4, after_rule(step(""))),
        (4, after_rule(step("a"))),
        (4, [steps(24), good_rules(1), step("")].concat()),
        // 5 before 6 and 7; 6 before 7 cannot be told apart.
        (5, [steps(24), step("")].concat()),
        (5, [steps(24), step("a")].concat()),
        // 8 before 9 to 12.
        (8, after_all_rules(field(RULE_TAG, &[1]))),
        (8, after_all_rules(rule_with(0, &[0]))),
        (8, after_all_rules(bad_weight.clone())),
        // 9 before 10; 10 before 11 and 12; 11 before 12.
        (9, [steps(1), field(RULE_TAG, &[0])].concat()),
        (10, [steps(1), rule_with(0, &[24, 9, 9, 0x80])].concat()),
        (11, [steps(1), rule_with(0, &[1, 9, 0xFF, 0x80])].concat()),
        // Without a step every rule is refused for its own fault, not as 13.
        (9, field(RULE_TAG, &[])),
        (10, rule_with(0, &[0])),
        (11, good_rules(1)),
        (11, bad_weight.clone()),
        // An earlier field with a higher number goes first.
        (12, [steps(1), bad_weight, vec![0x41]].concat()),
        (11, [steps(1), rule_with(1, &[1]), step("b")].concat()),
        (6, [step(""), vec![0x41, 0, 0]].concat()),
        (4, after_rule([step("b"), vec![0x52]].concat())),
    ]
}

/// The numbers of a rule field in the order in which they are tested.
const ORDER_IN_A_RULE: [u32; 6] = [8, 9, 10, 17, 11, 12];

/// A rule with every choice of the faults that these numbers are for; the first one decides. An
/// unknown template has no count, but the byte that would be one is as bad as the choice says.
fn orders_in_a_rule() -> Vec<Expectation> {
    let chosen = |choice: u32| {
        let has = |number: u32| {
            let place = ORDER_IN_A_RULE.iter().position(|&each| each == number);
            place.is_some_and(|place| choice >> place & 1 == 1)
        };
        let mut content = GOOD_RULE.to_vec();
        content[0] = if has(10) { 24 } else { 20 };
        content[1] = u8::from(has(11));
        content[2] = if has(17) { 15 } else { 14 };
        content[3] = if has(12) { 0x80 } else { 0x3F };
        content.extend(has(9).then_some(0));
        let before = good_rules(if has(8) { 32 } else { 31 });
        let first = ORDER_IN_A_RULE.into_iter().find(|&number| has(number));
        let bytes = [steps(1), before, field(RULE_TAG, &content)].concat();
        (first.unwrap_or(0), bytes)
    };
    (0..1 << ORDER_IN_A_RULE.len()).map(chosen).collect()
}

/// Two rule numbers that a file can have, and others, some of which end in the bits of such a one.
pub(crate) const RULE_NUMBERS: [u32; 9] = [
    0,
    1,
    32,
    33,
    0x0000_0101,
    0x0001_0001,
    0x0100_0001,
    0x8000_0001,
    u32::MAX,
];

/// How many rules the good files have in which these numbers are looked for.
pub(super) const NUMBERS_OF_RULES: [usize; 4] = [0, 1, 31, 32];

/// Compares every file and holds both sides to the number typed above; the same for showing, where
/// a rule that the file lacks comes after all faults of the file, and an area too short before them.
pub fn check(comparison: &mut Comparison) -> Checked<String> {
    let groups = [
        ("examples", examples()),
        ("further", further()),
        ("added", added()),
        ("counts", counts()),
        ("long", long_fields()),
        ("of order", orders()),
        ("of order in a rule", orders_in_a_rule()),
        ("at the limits", accepted()),
    ];
    for (number, bytes) in groups.iter().flat_map(|(_, group)| group) {
        check_file(bytes, *number, comparison)?;
    }
    check_lacking_rules(comparison)?;
    let said = groups.map(|(name, group)| format!("{} {name}", group.len()));
    Ok(format!(
        "refusals of 01 and 02: {}; {} rule numbers",
        said.join(", "),
        RULE_NUMBERS.len()
    ))
}

/// One file with its number.
fn check_file(bytes: &[u8], number: u32, comparison: &mut Comparison) -> Checked<()> {
    let given = comparison.compare(bytes)?;
    ensure(given == number, || {
        format!(
            "refused {given}, 01 and 02 say {number}\nfile: {}",
            hexadecimal(bytes)
        )
    })?;
    check_too_short(bytes, comparison)?;
    match number {
        0 => Ok(()),
        _ => check_refused(bytes, number, &RULE_NUMBERS, comparison),
    }
}

/// Showing gives 14 for each number that a good file lacks.
fn check_lacking_rules(comparison: &mut Comparison) -> Checked<()> {
    for rules in NUMBERS_OF_RULES {
        let bytes = [steps(1), good_rules(rules)].concat();
        let lacks = |number: &u32| !(1..=rules).contains(&(*number as usize));
        let lacking: Vec<u32> = RULE_NUMBERS.into_iter().filter(lacks).collect();
        check_refused(&bytes, 14, &lacking, comparison)?;
        check_too_short(&bytes, comparison)?;
    }
    Ok(())
}

/// Showing refuses these rules of a file with this number.
fn check_refused(
    bytes: &[u8],
    number: u32,
    rules: &[u32],
    comparison: &mut Comparison,
) -> Checked<()> {
    for &rule in rules {
        let lending = Lending {
            lengths: EXACT,
            content: *comparison.random.choose(&CONTENTS),
        };
        let expected = Expected::Refused(number);
        comparison.call(Entry::Show(rule), bytes, lending, &expected)?;
    }
    Ok(())
}

/// Showing gives 1 before all else.
fn check_too_short(bytes: &[u8], comparison: &mut Comparison) -> Checked<()> {
    let lending = Lending {
        lengths: EXACT.changed(&[Lent::Answer], |length| length - 1),
        content: Content::Random,
    };
    for rule in RULE_NUMBERS {
        comparison.call(Entry::Show(rule), bytes, lending, &Expected::Refused(1))?;
    }
    Ok(())
}
