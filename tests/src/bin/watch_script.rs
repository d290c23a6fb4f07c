//! Writes scripts for the program that watches runs (tests/watch_runs), and what 01 and 02 have it print
//! of each: NAME.script and NAME.expected in the folder that is the only argument. The names of those
//! that the interpreter can run begin with `short_`, those of the others with `long_`.

use std::path::Path;
use std::process::ExitCode;
use tullweth_tests::comparison::Checked;
use tullweth_tests::random::Random;
use tullweth_tests::random_files::Size;
use tullweth_tests::rule_file::{MOST_RULES, MOST_STEPS};
use tullweth_tests::watching::runs::{try_group, Group};
use tullweth_tests::watching::script::Script;
use tullweth_tests::watching::seen::Seen;
use tullweth_tests::watching::{names, orders, standings};

const SEED: u64 = 20_240_609;

/// The refusals of files, and those that the short scripts have.
const ALL_REFUSED: [u32; 13] = [2, 3, 4, 5, 6, 7, 8, 9, 10, 11, 12, 13, 17];
const SOME_REFUSED: [u32; 4] = [3, 12, 13, 17];

/// The size of the largest files.
const MOST: Size = Size {
    steps: MOST_STEPS,
    rules: MOST_RULES,
};

/// Scripts of runs, by name.
type Runs = (&'static str, &'static [Group]);

/// The interpreter allows twenty million steps. One step of a file with 32 rules takes four million, as
/// the program asks the monitor about each rule.
const SHORT_RUNS: [Runs; 2] = [
    ("short_runs", &[group(3, 3, 4, 2, 5), group(1, 2, 10, 1, 2)]),
    ("short_most_rules", &[group(1, 2, 32, 1, 1)]),
];

/// A compiled program is given sixty seconds; each script takes it a tenth of this or less.
const LONG_RUNS: [Runs; 6] = [
    ("long_small_files", &[group(140, 4, 6, 3, 12)]),
    ("long_middle_files", &[group(55, 8, 16, 2, 15)]),
    ("long_large_files", &[group(10, 24, 32, 2, 14)]),
    ("long_most_rules", &[group(8, 3, 32, 2, 16)]),
    ("long_large_runs", &[group(3, 24, 32, 1, 70)]),
    (
        "long_runs",
        &[group(14, 3, 3, 1, 500), group(2, 6, 8, 1, 400)],
    ),
];

const fn group(files: usize, steps: usize, rules: usize, runs: usize, length: usize) -> Group {
    Group {
        files,
        size: Size { steps, rules },
        runs,
        length,
    }
}

fn main() -> ExitCode {
    let folder = std::env::args().nth(1);
    let outcome = match folder {
        Some(folder) => write_all(Path::new(&folder)),
        None => Err("usage: watch_script FOLDER".to_string()),
    };
    match outcome {
        Ok(()) => ExitCode::SUCCESS,
        Err(message) => {
            eprintln!("watch_script: {message}");
            ExitCode::FAILURE
        }
    }
}

fn write_all(folder: &Path) -> Checked<()> {
    let random = &mut Random::new(SEED);
    let mut short = Seen::default();
    write("short_standings", folder, &mut short, |script| {
        (0..2).try_for_each(|_| standings::try_once(random, script))
    })?;
    write("short_orders", folder, &mut short, |script| {
        orders::try_files(&SOME_REFUSED, &[0, 1], script)
    })?;
    write("short_names", folder, &mut short, |script| {
        names::try_refused(&SOME_REFUSED, script)?;
        names::try_lengths(script)
    })?;
    write_runs(&SHORT_RUNS, folder, &mut short, random)?;
    summarize("short scripts", &short, &SOME_REFUSED)?;
    let mut long = Seen::default();
    write("long_standings", folder, &mut long, standings::try_all)?;
    write("long_orders", folder, &mut long, |script| {
        orders::try_files(&ALL_REFUSED, &[0, 1, 31, 32], script)
    })?;
    write("long_names", folder, &mut long, |script| {
        names::try_refused(&ALL_REFUSED, script)?;
        names::try_lengths(script)?;
        names::try_random(60, MOST, random, script)
    })?;
    write_runs(&LONG_RUNS, folder, &mut long, random)?;
    summarize("long scripts", &long, &ALL_REFUSED)
}

fn write_runs(
    scripts: &[Runs],
    folder: &Path,
    seen: &mut Seen,
    random: &mut Random,
) -> Checked<()> {
    scripts.iter().try_for_each(|(name, groups)| {
        write(name, folder, seen, |script| {
            let mut groups = groups.iter();
            groups.try_for_each(|group| try_group(group, random, script))
        })
    })
}

/// Makes a script, writes its two files and adds what occurs in it.
fn write(
    name: &str,
    folder: &Path,
    seen: &mut Seen,
    make: impl FnOnce(&mut Script) -> Checked<()>,
) -> Checked<()> {
    let mut script = Script::default();
    make(&mut script)?;
    script.check_room()?;
    seen.add(&script.seen);
    let save = |ending: &str, bytes: &[u8]| {
        let path = folder.join(format!("{name}.{ending}"));
        std::fs::write(path, bytes).map_err(|error| error.to_string())
    };
    save("script", &script.bytes)?;
    save("expected", script.printed.as_bytes())
}

/// Says how many calls the scripts have, and fails if something occurs in none of them, as a file
/// that is refused by one of these numbers.
fn summarize(scripts: &str, seen: &Seen, refused: &[u32]) -> Checked<()> {
    let [begins, steps, reads, names] = seen.calls();
    println!("{scripts}: {begins} beginnings, {steps} steps, {reads} readings, {names} names");
    let checked = seen.check(refused);
    checked.map_err(|message| format!("{scripts}: {message}"))
}
