//! Cases of the first sequence (02, M-102). Fates, counts and sequences were worked out by hand. Each case
//! rules out sequences that fit its last rule too, but are not the first that do.

use crate::checks::cases::{
    both, file, step_numbers, Case, Expected, Shown, AT_LEAST, AT_MOST, CHAIN_RESPONSE, CHOICE,
    END, EXCLUSIVE_CHOICE, INIT, NOT_CHAIN_SUCCESSION, PARTICIPATION,
};
use crate::comparison::{ensure, Checked, Comparison};
use crate::meaning::{satisfies, satisfies_all};
use crate::rule_file::WITHOUT_Y;
use crate::showing::comes_before;

/// Every case and every rule of it with areas of every content.
pub fn check(comparison: &mut Comparison) -> Checked<String> {
    let cases = [
        against_the_rank(),
        against_the_rank_of_three(),
        shorter_with_a_larger_step(),
        shorter_than_the_smallest_step(),
        last_step(),
        larger_standing(),
        step_in_the_middle(),
        count_before_a_step(),
        two_counts(),
    ];
    for first_case in &cases {
        first_case.case.check(comparison)?;
        first_case.check_ruled_out()?;
    }
    let ruled_out: usize = cases.iter().map(|each| each.ruled_out.len()).sum();
    Ok(format!(
        "cases of the first sequence: {}, which rule out {ruled_out} others",
        cases.len()
    ))
}

/// A case of rules that are all kept, with what it rules out in place of the sequence shown that satisfies
/// or violates its last rule.
struct FirstCase {
    case: Case,
    satisfied: bool,
    ruled_out: &'static [&'static str],
}

impl FirstCase {
    /// By the meanings, what is ruled out fits as well, and the sequence shown comes before it.
    fn check_ruled_out(&self) -> Checked<()> {
        let Case { file, shown, .. } = &self.case;
        let last = file.rules.len() - 1;
        let before: Vec<usize> = (0..last).collect();
        let (first, _) = shown[last][usize::from(!self.satisfied)].expect("a kept rule has both");
        for other in self.ruled_out {
            let steps = step_numbers(file, other);
            let fits = satisfies_all(file, &before, &steps)
                && satisfies(&file.rules[last], &steps) == self.satisfied;
            ensure(
                fits && comes_before(&step_numbers(file, first), &steps),
                || format!("{}: {other} is not ruled out by {first}", self.case.title),
            )?;
        }
        Ok(())
    }
}

impl Case {
    /// With sequences that satisfy the last rule but are not the first.
    fn ruling_out(self, ruled_out: &'static [&'static str]) -> FirstCase {
        FirstCase {
            case: self,
            satisfied: true,
            ruled_out,
        }
    }

    /// With sequences that violate the last rule but are not the first.
    fn ruling_out_violating(self, ruled_out: &'static [&'static str]) -> FirstCase {
        FirstCase {
            satisfied: false,
            ..self.ruling_out(ruled_out)
        }
    }
}

/// Rules that are all kept, each with its two counts and what is shown of it.
fn kept<const RULES: usize>(
    title: &'static str,
    names: &str,
    rules: [(u8, u8, u8); RULES],
    counts: [(u16, u16); RULES],
    shown: [Shown; RULES],
) -> Case {
    let whole = |(first, second)| Expected::whole(0, first, second);
    Case {
        title,
        file: file(names, &rules),
        expected: counts.map(whole).to_vec(),
        shown: shown.to_vec(),
    }
}

/// The second rule is satisfied by b c and by c b, both of which lead to the same joint standing. Ruled
/// out: c b, the steps in the order of the rules.
fn against_the_rank() -> FirstCase {
    kept(
        "Participation(c), Participation(b)",
        "abc",
        [(PARTICIPATION, 2, WITHOUT_Y), (PARTICIPATION, 1, WITHOUT_Y)],
        [(2, 4), (4, 4)],
        [both(("c", 0x1), ("", 0x0)), both(("bc", 0x11), ("c", 0x01))],
    )
    .ruling_out(&["cb"])
}

/// Six sequences of three steps satisfy the third rule. Ruled out: c b a, the order of the rules, and
/// a c b, which has the right step first and differs from a b c in the middle.
fn against_the_rank_of_three() -> FirstCase {
    kept(
        "Participation(c), Participation(b), Participation(a)",
        "abc",
        [2, 1, 0].map(|x| (PARTICIPATION, x, WITHOUT_Y)),
        [(2, 8), (4, 8), (8, 8)],
        [
            both(("c", 0x1), ("", 0x0)),
            both(("bc", 0x11), ("c", 0x01)),
            both(("abc", 0x111), ("bc", 0x011)),
        ],
    )
    .ruling_out(&["cba", "acb"])
}

/// An a has to be followed by b, so that c alone is the shortest that satisfies both rules. Ruled out:
/// a b, which is longer but has the smaller step first. Joint standings of both: 0 0, after a 1 1,
/// after c 1 0, after a a 1 2; the last is broken where the second rule is a kept one.
fn shorter_with_a_larger_step() -> FirstCase {
    kept(
        "Choice(a,c), ChainResponse(a,b)",
        "abc",
        [(CHOICE, 0, 2), (CHAIN_RESPONSE, 0, 1)],
        [(2, 3), (4, 4)],
        [both(("a", 0x1), ("", 0x0)), both(("c", 0x01), ("a", 0x11))],
    )
    .ruling_out(&["ab"])
}

/// With a and b and no b right after a, b a is the shortest; a b does not fit. Ruled out: a c b, which is
/// found where each time the smallest step is taken that still leads to a fitting one. The seven joint
/// standings, the third rule first: 000, after a 101, b 010, a b 211, a c 001, b a 111, a c b 011. 211
/// breaks the third rule and does not count where it is kept.
fn shorter_than_the_smallest_step() -> FirstCase {
    kept(
        "Participation(a), Participation(b), NotChainSuccession(a,b)",
        "abc",
        [
            (PARTICIPATION, 0, WITHOUT_Y),
            (PARTICIPATION, 1, WITHOUT_Y),
            (NOT_CHAIN_SUCCESSION, 0, 1),
        ],
        [(2, 6), (4, 6), (7, 7)],
        [
            both(("a", 0x1), ("", 0x0)),
            both(("ab", 0x11), ("a", 0x01)),
            both(("ba", 0x111), ("ab", 0x211)),
        ],
    )
    .ruling_out(&["acb"])
}

/// After the c that has to come first, a and b lead to the same joint standing. Ruled out: c b, which
/// has the x of the second rule and differs in the last step alone. Against the second rule the first
/// has four standings: nothing, c, c a, and a, which breaks it.
fn last_step() -> FirstCase {
    kept(
        "Init(c), Choice(b,a)",
        "abc",
        [(INIT, 2, WITHOUT_Y), (CHOICE, 1, 0)],
        [(3, 4), (3, 3)],
        [both(("c", 0x1), ("", 0x0)), both(("ca", 0x11), ("c", 0x01))],
    )
    .ruling_out(&["cb"])
}

/// As before, but a and b lead to different joint standings. Ruled out: c b, whose joint standing is the
/// smaller number, 11. Of both rules: nothing, c, c a, c b, c a b; for the first beside the kept second,
/// without the last, but with a and with b, which break the first.
fn larger_standing() -> FirstCase {
    kept(
        "Init(c), ExclusiveChoice(b,a)",
        "abc",
        [(INIT, 2, WITHOUT_Y), (EXCLUSIVE_CHOICE, 1, 0)],
        [(3, 6), (5, 5)],
        [both(("c", 0x1), ("", 0x0)), both(("ca", 0x21), ("c", 0x01))],
    )
    .ruling_out(&["cb"])
}

/// First and last step are given. Ruled out: c b d, which differs from c a d in the middle. Beside Init
/// the others have 1 standing before c and then those of End, or of End times Choice, 1 + 2 and 1 + 4.
/// As the candidate of the second pass Init has 1 + 4 + 4: it may be broken too.
fn step_in_the_middle() -> FirstCase {
    kept(
        "Init(c), End(d), Choice(b,a)",
        "abcd",
        [(INIT, 2, WITHOUT_Y), (END, 3, WITHOUT_Y), (CHOICE, 1, 0)],
        [(3, 9), (3, 5), (5, 5)],
        [
            both(("c", 0x1), ("", 0x0)),
            both(("cd", 0x11), ("c", 0x01)),
            both(("cad", 0x111), ("cd", 0x011)),
        ],
    )
    .ruling_out(&["cbd"])
}

/// Ruled out: c b b, the order of the rules, and b c b, which differs from b b c in the middle.
fn count_before_a_step() -> FirstCase {
    kept(
        "Participation(c), AtLeast(b, 2)",
        "abc",
        [(PARTICIPATION, 2, WITHOUT_Y), (AT_LEAST, 1, 2)],
        [(2, 6), (6, 6)],
        [
            both(("c", 0x1), ("", 0x0)),
            both(("bbc", 0x21), ("c", 0x01)),
        ],
    )
    .ruling_out(&["cbb", "bcb"])
}

/// Six sequences of two a and two b violate the second rule and satisfy the first. Ruled out: b b a a,
/// the order of the rules, and a b a b and a b b a, which begin alike. Two a break the second rule, so
/// that beside it as a kept one the first has 2 times 3 standings.
fn two_counts() -> FirstCase {
    kept(
        "AtLeast(b, 2), AtMost(a, 1)",
        "ab",
        [(AT_LEAST, 1, 2), (AT_MOST, 0, 1)],
        [(3, 6), (9, 9)],
        [
            both(("bb", 0x2), ("", 0x0)),
            both(("bb", 0x02), ("aabb", 0x22)),
        ],
    )
    .ruling_out_violating(&["bbaa", "abab", "abba"])
}
