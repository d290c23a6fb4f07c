//! The lent areas of 01 ("Refused inputs"): lengths, content before, and what stays.

use crate::comparison::{Checked, Comparison};
use crate::expected::Expected;
use crate::memory::CONTENTS;
use crate::product::{Entry, Lending, Lengths, Lent, EXACT};
use crate::random_files::{random_file, Size};
use crate::reference;
use crate::rule_file::refusal;

/// Each choice of some areas one too short, each area empty, and all empty.
fn too_short(entry: Entry) -> Vec<Lengths> {
    let areas = entry.areas();
    let one_too_short = some_of(areas)
        .into_iter()
        .map(|areas| EXACT.changed(&areas, |length| length - 1));
    let empty = areas.iter().map(|&area| EXACT.changed(&[area], |_| 0));
    let all_empty = EXACT.changed(areas, |_| 0);
    one_too_short.chain(empty).chain([all_empty]).collect()
}

/// All choices of one area or more.
fn some_of(areas: &[Lent]) -> Vec<Vec<Lent>> {
    let chosen = |choice: usize| {
        let places = (0..areas.len()).filter(|place| choice >> place & 1 == 1);
        places.map(|place| areas[place]).collect()
    };
    (1..1 << areas.len()).map(chosen).collect()
}

/// Areas exactly long enough and longer: each alone, one longer and much longer, then all.
fn long_enough(entry: Entry) -> Vec<Lengths> {
    let areas = entry.areas();
    let mut lengths = vec![EXACT, EXACT.changed(areas, |length| length + 5)];
    for &area in areas {
        lengths.push(EXACT.changed(&[area], |length| length + 1));
        lengths.push(EXACT.changed(&[area], |length| 2 * length));
    }
    lengths
}

/// Accepted and refused files, rules that are there and that are not, every length, every content
/// before the call.
pub fn check(comparison: &mut Comparison) -> Checked<String> {
    let before = comparison.tally.calls();
    for file in files(comparison) {
        for rule in [0, 1, 2, 4, 31, 32, 33, u32::MAX] {
            call_all(comparison, Entry::Show(rule), &file)?;
        }
        call_all(comparison, Entry::Prune, &file)?;
    }
    let calls = comparison.tally.calls() - before;
    Ok(format!(
        "areas: {calls} calls with areas exact, longer and too short, {} contents each",
        CONTENTS.len()
    ))
}

fn call_all(comparison: &mut Comparison, entry: Entry, file: &[u8]) -> Checked<()> {
    let decision = reference::decide(file);
    // 1 comes before every fault of the file and before a rule that it lacks.
    let refused = Expected::Refused(refusal::AREA_TOO_SHORT);
    let expected = Expected::new(entry, &decision);
    let long_enough = long_enough(entry).into_iter().map(|each| (each, &expected));
    let too_short = too_short(entry).into_iter().map(|each| (each, &refused));
    for (lengths, expected) in long_enough.chain(too_short) {
        for content in CONTENTS {
            let lending = Lending { lengths, content };
            comparison.call(entry, file, lending, expected)?;
        }
    }
    Ok(())
}

/// Files without rules, with some, with all 32, and some with a fault.
fn files(comparison: &mut Comparison) -> Vec<Vec<u8>> {
    let sizes = [(1, 0), (2, 1), (3, 4), (4, 8), (3, 31), (3, 32)];
    let mut files: Vec<Vec<u8>> = sizes
        .map(|(steps, rules)| random_file(Size { steps, rules }, &mut comparison.random).bytes())
        .to_vec();
    let cut_short = files[3][..files[3].len() - 1].to_vec();
    files.extend([cut_short, vec![], vec![0x41, 0, 0]]);
    files
}
