//! Random valid files of every size, and heavy ones with counts about 4,096.

use crate::comparison::{ensure, Checked, Comparison};
use crate::random::Random;
use crate::random_files::{heavy_file, random_file, Size};
use crate::tally::Rules;

/// Files of up to so many steps and rules.
pub struct Group {
    pub files: usize,
    pub most: Size,
}

/// Random valid files of the groups. Of so many at least all sequences have to be compared, and such
/// a file has one rule or more.
pub fn check_random(
    groups: &[Group],
    fewest_whole: usize,
    comparison: &mut Comparison,
) -> Checked<String> {
    let whole_before = comparison.tally.whole_files;
    let mut parts = Vec::new();
    for group in groups {
        check_group(group, comparison)?;
        let Size { steps, rules } = group.most;
        parts.push(format!(
            "{} up to {steps} steps and {rules} rules",
            group.files
        ));
    }
    let whole = comparison.tally.whole_files - whole_before;
    ensure(whole >= fewest_whole, || {
        format!("all sequences compared of only {whole} random files")
    })?;
    let parts = parts.join(", ");
    Ok(format!(
        "random files: {parts}; all sequences compared of {whole}"
    ))
}

fn check_group(group: &Group, comparison: &mut Comparison) -> Checked<()> {
    comparison.spread(group.files, |_, comparison| {
        let size = random_size(group.most, &mut comparison.random);
        let file = random_file(size, &mut comparison.random);
        comparison.compare_valid(&file).map(drop)
    })?;
    Ok(())
}

fn random_size(most: Size, random: &mut Random) -> Size {
    Size {
        steps: random.between(1, most.steps),
        rules: random.between(0, most.rules),
    }
}

/// Heavy files of 12 to 32 rules.
pub fn check_heavy(files: usize, comparison: &mut Comparison) -> Checked<String> {
    let Rules {
        at_most: at_most_before,
        over: over_before,
        ..
    } = comparison.tally.pruned;
    comparison.spread(files, |_, comparison| {
        let rules = comparison.random.between(12, 32);
        let file = heavy_file(rules, &mut comparison.random);
        comparison.compare_valid(&file).map(drop)
    })?;
    let Rules { at_most, over, .. } = comparison.tally.pruned;
    Ok(format!(
        "heavy files: {files}, with {} counts of 4,096 and {} over it",
        at_most - at_most_before,
        over - over_before
    ))
}
