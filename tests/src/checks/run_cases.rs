//! The cases of 01 ("Cases", "Traps in the literature") that are about the monitor, and some of 002
//! and 02 (M-100, M-103). What these give of values and relevant steps is typed from them; the rest
//! was worked out by hand from the meanings.

use crate::checks::cases::{
    file, step_numbers, ALTERNATE_PRECEDENCE, AT_LEAST, AT_MOST, CHAIN_PRECEDENCE, CHOICE,
    CO_EXISTENCE, END, EXACTLY, EXCLUSIVE_CHOICE, INIT, NOT_CHAIN_SUCCESSION, NOT_CO_EXISTENCE,
    PARTICIPATION, RESPONSE,
};
use crate::comparison::{ensure, Checked, Comparison};
use crate::monitor::{self, settling_continuations, state_directly, State};
use crate::product::Entry;
use crate::reference::decide;
use crate::rule_file::{RuleFile, WITHOUT_Y};

const AT_MOST_ONE: u8 = 2;
const ALTERNATE_RESPONSE: u8 = 7;
const PRECEDENCE: u8 = 9;
const NOT_SUCCESSION: u8 = 17;

/// A rule, the names of all declared steps and of those of the run, value and relevant steps. Where
/// x is counted, the count is in place of y.
struct Case {
    names: &'static str,
    rule: (u8, u8, u8),
    run: &'static str,
    value: u8,
    relevant: u32,
}

const fn case(
    names: &'static str,
    rule: (u8, u8, u8),
    run: &'static str,
    (value, relevant): (u8, u32),
) -> Case {
    Case {
        names,
        rule,
        run,
        value,
        relevant,
    }
}

const CASES: [Case; 68] = [
    // 01, "Cases", with what 02 (M-103) says of their counts.
    case("dem", (RESPONSE, 1, 2), "dmemmeem", (0, 4)),
    case("em", (PRECEDENCE, 0, 1), "emem", (2, 1)),
    case("ab", (INIT, 0, WITHOUT_Y), "", (1, 0)),
    case("ab", (AT_MOST_ONE, 0, WITHOUT_Y), "", (0, 0)),
    case("a", (END, 0, WITHOUT_Y), "a", (2, 1)),
    case("ab", (END, 0, WITHOUT_Y), "a", (0, 1)),
    // 01, "Cases" and "Traps". A first y breaks ChainPrecedence, and a last y leaves
    // AlternatePrecedence satisfied. The counts are by 02 (M-103): both steps of the second run
    // change whether b is permitted.
    case("ab", (CHAIN_PRECEDENCE, 0, 1), "b", (3, 1)),
    case("ab", (ALTERNATE_PRECEDENCE, 0, 1), "ab", (0, 2)),
    // 01, "Traps". The empty sequence satisfies both, and can be continued against each.
    case("ab", (CO_EXISTENCE, 0, 1), "", (0, 0)),
    case("ab", (NOT_CO_EXISTENCE, 0, 1), "", (0, 0)),
    // 01, "Traps". With a alone, Init(a) and Participation(a) are equal.
    case("a", (INIT, 0, WITHOUT_Y), "aa", (2, 1)),
    case("a", (PARTICIPATION, 0, WITHOUT_Y), "aa", (2, 1)),
    case("ab", (INIT, 0, WITHOUT_Y), "ba", (3, 1)),
    case("ab", (PARTICIPATION, 0, WITHOUT_Y), "ba", (2, 1)),
    // From here to ExclusiveChoice by hand from the meanings of 02 (M-100).
    // AtLeast: violated until the count is reached, then satisfied for good.
    case("ab", (AT_LEAST, 0, 3), "", (1, 0)),
    case("ab", (AT_LEAST, 0, 3), "abab", (1, 0)),
    case("ab", (AT_LEAST, 0, 3), "ababa", (2, 1)),
    case("a", (AT_LEAST, 0, 3), "aaaa", (2, 1)),
    case("ab", (AT_LEAST, 0, 14), "aaaaaaaaaaaaabb", (1, 0)),
    case("ab", (AT_LEAST, 0, 14), "aaaaaaaaaaaaaab", (2, 1)),
    // AtMost: satisfied until there are more, then violated for good. After the x that reaches the
    // count, x is no longer permitted.
    case("ab", (AT_MOST, 0, 2), "", (0, 0)),
    case("ab", (AT_MOST, 0, 2), "aa", (0, 1)),
    case("ab", (AT_MOST, 0, 2), "abab", (0, 1)),
    case("ab", (AT_MOST, 0, 2), "ababa", (3, 2)),
    case("a", (AT_MOST, 0, 14), "aaaaaaaaaaaaa", (0, 0)),
    case("a", (AT_MOST, 0, 14), "aaaaaaaaaaaaaa", (0, 1)),
    case("a", (AT_MOST, 0, 14), "aaaaaaaaaaaaaaaa", (3, 2)),
    // Exactly: violated, satisfied at the count, then violated for good. The x that reaches the
    // count changes both the value and the permitted steps, and counts once.
    case("ab", (EXACTLY, 0, 2), "ab", (1, 0)),
    case("ab", (EXACTLY, 0, 2), "abab", (0, 1)),
    case("ab", (EXACTLY, 0, 2), "ababab", (3, 2)),
    case("a", (EXACTLY, 0, 14), "aaaaaaaaaaaaaa", (0, 1)),
    case("a", (EXACTLY, 0, 14), "aaaaaaaaaaaaaaa", (3, 2)),
    // A count is no step: neither that of its number nor x itself.
    case("ab", (AT_LEAST, 0, 1), "b", (1, 0)),
    case("ab", (AT_MOST, 1, 1), "ba", (0, 1)),
    case("ab", (EXACTLY, 1, 1), "b", (0, 1)),
    case("ab", (CHOICE, 0, 1), "", (1, 0)),
    case("abc", (CHOICE, 0, 1), "cbca", (2, 1)),
    case("ab", (CHOICE, 1, 0), "aa", (2, 1)),
    case("ab", (EXCLUSIVE_CHOICE, 0, 1), "", (1, 0)),
    case("abc", (EXCLUSIVE_CHOICE, 0, 1), "caa", (0, 1)),
    case("abc", (EXCLUSIVE_CHOICE, 0, 1), "bcb", (0, 1)),
    case("abc", (EXCLUSIVE_CHOICE, 0, 1), "bca", (3, 2)),
    // 02 (M-103).
    case("ab", (ALTERNATE_PRECEDENCE, 0, 1), "abab", (0, 4)),
    // 002, Examples 3 and 4. After the first m, e is not permitted.
    case("dem", (NOT_CO_EXISTENCE, 1, 2), "dmemmeem", (3, 2)),
    case("dem", (NOT_CO_EXISTENCE, 1, 2), "ddmdm", (0, 1)),
    case("dem", (RESPONSE, 1, 2), "ddmdm", (0, 0)),
    // All that follow by hand from the meanings of 01.
    // AlternatePrecedence: b is permitted from an a to the next b.
    case("abc", (ALTERNATE_PRECEDENCE, 0, 1), "caacbcc", (0, 2)),
    case("abc", (ALTERNATE_PRECEDENCE, 0, 1), "acbcba", (3, 3)),
    // ChainPrecedence: b is permitted right after an a.
    case("ab", (CHAIN_PRECEDENCE, 0, 1), "aab", (0, 2)),
    case("ab", (CHAIN_PRECEDENCE, 0, 1), "abb", (3, 3)),
    case("abc", (CHAIN_PRECEDENCE, 0, 1), "caccab", (0, 4)),
    case("abc", (CHAIN_PRECEDENCE, 0, 1), "acb", (3, 3)),
    // AtMostOne: a is permitted before the first a.
    case("ab", (AT_MOST_ONE, 0, WITHOUT_Y), "a", (0, 1)),
    case("ab", (AT_MOST_ONE, 0, WITHOUT_Y), "babba", (3, 2)),
    // NotChainSuccession: b is permitted except right after an a. In the first two runs the value
    // never changes.
    case("abc", (NOT_CHAIN_SUCCESSION, 0, 1), "aacb", (0, 2)),
    case("abc", (NOT_CHAIN_SUCCESSION, 0, 1), "acaca", (0, 5)),
    case("abc", (NOT_CHAIN_SUCCESSION, 0, 1), "acabc", (3, 4)),
    // NotSuccession: b is permitted before the first a.
    case("abc", (NOT_SUCCESSION, 0, 1), "bbcacaa", (0, 1)),
    case("abc", (NOT_SUCCESSION, 0, 1), "acba", (3, 2)),
    // Only the steps that the rule names are declared. Where this is a alone, AtMostOne permits no
    // step after the first.
    case("a", (AT_MOST_ONE, 0, WITHOUT_Y), "a", (0, 1)),
    case("a", (AT_MOST_ONE, 0, WITHOUT_Y), "aaa", (3, 2)),
    case("ab", (NOT_CHAIN_SUCCESSION, 0, 1), "bbaa", (0, 1)),
    case("ab", (NOT_SUCCESSION, 0, 1), "baab", (3, 2)),
    case("ab", (NOT_CO_EXISTENCE, 0, 1), "bb", (0, 1)),
    case("ab", (NOT_CO_EXISTENCE, 0, 1), "aab", (3, 2)),
    // A step that changes both the value and the permitted steps counts once.
    case("abc", (ALTERNATE_RESPONSE, 0, 1), "acbca", (1, 3)),
    case("ab", (INIT, 0, WITHOUT_Y), "ab", (2, 1)),
    case("em", (PRECEDENCE, 0, 1), "me", (3, 1)),
];

/// Cases by hand whose run is repeated so many times and then ends in some more steps, to 100,000
/// in all.
const LONG_CASES: [(Case, usize, &str); 8] = [
    (
        case("abc", (RESPONSE, 0, 1), "ab", (0, 100_000)),
        50_000,
        "",
    ),
    (
        case("abc", (RESPONSE, 0, 1), "ab", (1, 99_999)),
        49_999,
        "ac",
    ),
    (
        case("ab", (END, 0, WITHOUT_Y), "ba", (0, 99_999)),
        50_000,
        "",
    ),
    (
        case("ab", (PARTICIPATION, 0, WITHOUT_Y), "b", (2, 1)),
        99_999,
        "a",
    ),
    (
        case("ab", (AT_MOST_ONE, 0, WITHOUT_Y), "b", (3, 2)),
        99_998,
        "aa",
    ),
    (
        case("ab", (EXACTLY, 0, 14), "b", (3, 2)),
        99_985,
        "aaaaaaaaaaaaaaa",
    ),
    // Every step changes the permitted steps, and the last of the second run also the value.
    (
        case("ab", (ALTERNATE_PRECEDENCE, 0, 1), "ab", (0, 100_000)),
        50_000,
        "",
    ),
    (
        case("abc", (NOT_CHAIN_SUCCESSION, 0, 1), "ac", (3, 100_000)),
        49_999,
        "ab",
    ),
];

/// Every case with areas of every content; the short ones also by the direct way.
pub fn check(comparison: &mut Comparison) -> Checked<String> {
    for case in &CASES {
        let file = case.file();
        let run = step_numbers(&file, case.run);
        let settling = settling_continuations(&file.rules[0], file.steps.len());
        let directly = state_directly(&file.rules[0], file.steps.len(), &run, &settling);
        case.check_state(Ok(directly))?;
        case.check_run(&run, comparison)?;
    }
    for (case, times, last) in &LONG_CASES {
        let run = step_numbers(&case.file(), &(case.run.repeat(*times) + last));
        case.check_run(&run, comparison)?;
    }
    Ok(format!(
        "cases of 01, 02 and 002 on the monitor: {}, and {} long runs",
        CASES.len(),
        LONG_CASES.len()
    ))
}

impl Case {
    /// The file with the rule alone.
    fn file(&self) -> RuleFile {
        file(self.names, &[self.rule])
    }

    /// The state is what is typed above.
    fn check_state(&self, state: Result<State, u32>) -> Checked<()> {
        let typed = [self.value.into(), self.relevant.into()];
        ensure(state.map(|state| state.numbers()) == Ok(typed), || {
            format!("{:?} on \"{}\": {state:?}", self.rule, self.run)
        })
    }

    /// So is that of the classes after this run, and the product gives the same.
    fn check_run(&self, run: &[u8], comparison: &mut Comparison) -> Checked<()> {
        let bytes = self.file().bytes();
        self.check_state(monitor::state(&bytes, 1, run))?;
        let decided = decide(&bytes).map_err(|number| format!("refused {number}"))?;
        comparison.call_with_every_content(Entry::State(1, run), &decided)
    }
}
