//! Valid files damaged at every field, cut at every place and changed at every byte.

use crate::comparison::{Checked, Comparison};
use crate::random::Random;
use crate::random_files::{random_file, Size};
use crate::rule_file::{field, RuleFile, RULE_LENGTH, RULE_TAG, STEP_TAG};

/// Every field of random files damaged in every way listed below.
pub fn check_fields(files: usize, comparison: &mut Comparison) -> Checked<String> {
    let before = comparison.tally.files;
    comparison.spread(files, |_, comparison| {
        let size = small_size(&mut comparison.random);
        let file = random_file(size, &mut comparison.random);
        let mut damaged = damaged_files(&file, &mut comparison.random).into_iter();
        damaged.try_for_each(|damaged| comparison.compare(&damaged).map(drop))
    })?;
    let tried = comparison.tally.files - before;
    Ok(format!(
        "damaged fields: {tried} files from {files} valid ones"
    ))
}

pub(super) fn small_size(random: &mut Random) -> Size {
    Size {
        steps: random.between(1, 4),
        rules: random.between(0, 5),
    }
}

/// Each field damaged in each way, and fields too many or out of place.
pub(super) fn damaged_files(file: &RuleFile, random: &mut Random) -> Vec<Vec<u8>> {
    let fields = file.fields();
    let mut damaged = too_many(file);
    for place in 0..fields.len() {
        for other in damaged_fields(&fields[place], random) {
            let mut changed = fields.clone();
            changed[place] = other;
            damaged.push(changed.concat());
        }
        damaged.push(twice(&fields, place));
        damaged.push(moved_to_the_end(&fields, place));
    }
    damaged
}

/// One field damaged in ways that fit any field, and in those of its tag.
fn damaged_fields(whole: &[u8], random: &mut Random) -> Vec<Vec<u8>> {
    let (tag, content) = (whole[0], &whole[3..]);
    let mut damaged: Vec<Vec<u8>> = [0x00, STEP_TAG, RULE_TAG, tag ^ 0x20, tag ^ 0x01]
        .map(|tag| field(tag, content))
        .to_vec();
    damaged.extend(changed_lengths(whole));
    damaged.push(field(tag, &[]));
    damaged.push(field(tag, &[content, &[0x61]].concat()));
    damaged.push(field(tag, &content[..content.len() - 1]));
    if tag == RULE_TAG {
        damaged.extend(damaged_rules(content, random));
    } else {
        damaged.extend(damaged_names(content, random));
    }
    damaged
}

/// The length alone changed, the bytes after it as they were.
fn changed_lengths(whole: &[u8]) -> Vec<Vec<u8>> {
    let length = u16::from_be_bytes([whole[1], whole[2]]);
    let others = [
        0,
        length - 1,
        length + 1,
        length + 256,
        length.swap_bytes(),
        0xFFFF,
    ];
    let with = |length: u16| [&whole[..1], &length.to_be_bytes(), &whole[3..]].concat();
    others.map(with).to_vec()
}

/// Bytes outside 21 to 7E at any place of a name, and a name too long.
fn damaged_names(name: &[u8], random: &mut Random) -> Vec<Vec<u8>> {
    let place = random.below(name.len());
    let mut damaged: Vec<Vec<u8>> = [0x00, 0x20, 0x21, 0x7E, 0x7F, 0x80, 0xFF]
        .map(|byte| field(STEP_TAG, &replaced(name, place, &[byte])))
        .to_vec();
    damaged.push(field(STEP_TAG, &name.repeat(17)));
    damaged
}

/// Template, x, y and each weight replaced by edges and by random bytes.
fn damaged_rules(content: &[u8], random: &mut Random) -> Vec<Vec<u8>> {
    let mut damaged = Vec::new();
    for place in 0..3 {
        let bytes = [0, 1, 4, 5, 14, 15, 18, 19, 22, 23, 24, 255, random.byte()];
        damaged.extend(bytes.map(|byte| replaced(content, place, &[byte])));
    }
    for place in [3, 7, 11] {
        let random_bits = random.bits() as u32;
        let weights = [
            0,
            1,
            0x3F80_0000,
            0x3F80_0001,
            0x7F80_0000,
            0x7FC0_0000,
            0x8000_0000,
            0xBF00_0000,
            random_bits,
        ];
        damaged.extend(weights.map(|bits: u32| replaced(content, place, &bits.to_be_bytes())));
    }
    assert!(damaged.iter().all(|content| content.len() == RULE_LENGTH));
    damaged
        .iter()
        .map(|content| field(RULE_TAG, content))
        .collect()
}

/// The content with other bytes from a place on.
fn replaced(content: &[u8], place: usize, bytes: &[u8]) -> Vec<u8> {
    let mut changed = content.to_vec();
    changed[place..place + bytes.len()].copy_from_slice(bytes);
    changed
}

/// The field again right after itself: a name used before, or one more rule.
fn twice(fields: &[Vec<u8>], place: usize) -> Vec<u8> {
    let mut more = fields.to_vec();
    more.insert(place, fields[place].clone());
    more.concat()
}

/// The field at the end: a step comes after a rule, if there is one.
fn moved_to_the_end(fields: &[Vec<u8>], place: usize) -> Vec<u8> {
    let mut moved = fields.to_vec();
    moved[place..].rotate_left(1);
    moved.concat()
}

/// 24 and 25 steps; 32 and 33 rules.
fn too_many(file: &RuleFile) -> Vec<Vec<u8>> {
    let with_steps = |count: u8| {
        let mut more = file.clone();
        more.steps = (b'a'..b'a' + count).map(|letter| vec![letter]).collect();
        more.bytes()
    };
    let with_rules = |count: usize| {
        let mut more = file.clone();
        more.rules = file.rules.iter().cycle().take(count).cloned().collect();
        more.bytes()
    };
    vec![
        with_steps(24),
        with_steps(25),
        with_rules(32),
        with_rules(33),
    ]
}

/// Every beginning of random files; the bytes cut off still lie behind it in memory.
pub fn check_prefixes(files: usize, comparison: &mut Comparison) -> Checked<String> {
    let before = comparison.tally.files;
    comparison.spread(files, |_, comparison| {
        let size = small_size(&mut comparison.random);
        let bytes = random_file(size, &mut comparison.random).bytes();
        (0..=bytes.len()).try_for_each(|length| {
            let (beginning, cut_off) = bytes.split_at(length);
            comparison.behind = cut_off.to_vec();
            comparison.compare(beginning).map(drop)
        })
    })?;
    let tried = comparison.tally.files - before;
    Ok(format!("beginnings: {tried} of {files} files"))
}

/// Every byte of random files replaced by several values, and of a small one by all others.
pub fn check_bytes(files: usize, comparison: &mut Comparison) -> Checked<String> {
    let before = comparison.tally.files;
    comparison.spread(files, |_, comparison| {
        let size = small_size(&mut comparison.random);
        let bytes = random_file(size, &mut comparison.random).bytes();
        let several = [0x00, 0x01, 0x0F, 0x12, 0x15, 0x18, 0x3F, 0x52, 0x53, 0xFF];
        (0..bytes.len()).try_for_each(|place| replace_byte(&bytes, place, &several, comparison))
    })?;
    let size = Size { steps: 2, rules: 2 };
    let small = random_file(size, &mut comparison.random).bytes();
    let all: Vec<u8> = (0..=255).collect();
    comparison.spread(small.len(), |place, comparison| {
        replace_byte(&small, place, &all, comparison)
    })?;
    let tried = comparison.tally.files - before;
    Ok(format!(
        "bytes replaced: {tried} files from {files} valid ones, and one of {} bytes by all values",
        small.len()
    ))
}

/// The byte at this place replaced by each of the values.
fn replace_byte(
    bytes: &[u8],
    place: usize,
    values: &[u8],
    comparison: &mut Comparison,
) -> Checked<()> {
    for value in values {
        comparison.compare(&replaced(bytes, place, &[*value]))?;
    }
    Ok(())
}
