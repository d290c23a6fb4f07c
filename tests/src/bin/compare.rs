//! Compares the product with the independent implementation of 01 and 02 and says what was tried.
//! The only argument, if any, is another seed. The first difference ends it, with status 1.

use std::collections::BTreeMap;
use std::process::ExitCode;
use std::time::Instant;
use tullweth_tests::checks::files::Group;
use tullweth_tests::checks::searches::Kind;
use tullweth_tests::checks::{
    added_cases, areas, cases, damage, files, first_cases, laws, moves, refusals, rounds,
    run_cases, run_refusals, runs, searches, sequences, short_runs, stack, subnormals, threads,
    tie_cases, ties,
};
use tullweth_tests::comparison::{ensure, Checked, Comparison};
use tullweth_tests::product::Part;
use tullweth_tests::random_files::Size;
use tullweth_tests::random_runs::LONGEST_RUN;
use tullweth_tests::rule_file::refusal;
use tullweth_tests::tally::{Addresses, Calls, Rules, States, Tally};

const USUAL_SEED: u64 = 20_240_607;

/// The fewest files of a run, damaged and typed ones included, and the fewest made to be valid.
const FEWEST_FILES: usize = 100_000;
const FEWEST_VALID_FILES: usize = 50_000;

/// The fewest random files of which every rule's sequences are compared (02, M-102).
const FEWEST_WHOLE_FILES: usize = 20_000;

/// The fewest files in which many rules tie (02, M-104), shuffled ones included.
const FEWEST_TIED_FILES: usize = 50_000;

/// The fewest files whose order of decision would be another one if subnormal weights were 0.
const FEWEST_SUBNORMAL_ORDERS: usize = 1_000;

/// Valid random files: many small ones, fewer large ones.
const GROUPS: [Group; 4] = [
    group(110_000, 4, 6),
    group(6_000, 8, 10),
    group(3_000, 4, 32),
    group(150, 24, 32),
];

const fn group(files: usize, steps: usize, rules: usize) -> Group {
    Group {
        files,
        most: Size { steps, rules },
    }
}

/// Random files aimed at the search and at the second pass; those of edges take longest.
const SEARCH_GROUPS: [searches::Group; 5] = [
    search_group(500, Kind::Unnamed),
    search_group(400, Kind::Alike),
    search_group(500, Kind::Ladders),
    search_group(60, Kind::Edges),
    search_group(300, Kind::Unbreakable),
];

const fn search_group(files: usize, kind: Kind) -> searches::Group {
    searches::Group { files, kind }
}

/// The fewest random runs; one of the greatest length must be among the runs.
const FEWEST_RANDOM_RUNS: usize = 100_000;

/// Random runs: many short ones, fewer long ones.
const RUN_GROUPS: [runs::Group; 4] = [
    run_group(12_000, 4, 6, 12),
    run_group(6_000, 24, 32, 60),
    run_group(800, 8, 10, 2_000),
    run_group(40, 24, 32, LONGEST_RUN),
];

const fn run_group(files: usize, steps: usize, rules: usize, longest: usize) -> runs::Group {
    runs::Group {
        files,
        most: Size { steps, rules },
        runs: 12,
        longest,
    }
}

/// The templates in which a relevant step can keep the value (02, M-103), by hand from the
/// meanings: the permitted steps change while the rule stays temporarily satisfied.
const KEEPING_VALUE: [usize; 7] = [2, 10, 11, 16, 17, 18, 20];

fn main() -> ExitCode {
    let argument = std::env::args().nth(1);
    let seed = argument.map_or(Ok(USUAL_SEED), |text| text.parse());
    let outcome = match seed {
        Ok(seed) => run(seed),
        Err(_) => Err("the argument is no seed, which is a number".to_string()),
    };
    match outcome {
        Ok(()) => ExitCode::SUCCESS,
        Err(message) => {
            eprintln!("compare: {message}");
            ExitCode::FAILURE
        }
    }
}

/// A group of checks: what it tried, or the first difference.
type Check = fn(&mut Comparison) -> Checked<String>;

fn run(seed: u64) -> Checked<()> {
    println!("seed {seed}");
    let checks: [Check; 26] = [
        |_| moves::check(),
        cases::check,
        added_cases::check,
        first_cases::check,
        tie_cases::check,
        |comparison| laws::check(2_000, comparison),
        |comparison| rounds::check(9, comparison),
        refusals::check,
        areas::check,
        |comparison| subnormals::check(2_000, comparison),
        |comparison| threads::check(1_000, comparison),
        stack::check,
        |comparison| damage::check_fields(80, comparison),
        |comparison| damage::check_prefixes(100, comparison),
        |comparison| damage::check_bytes(40, comparison),
        |comparison| files::check_random(&GROUPS, FEWEST_WHOLE_FILES, comparison),
        |comparison| files::check_heavy(120, comparison),
        |comparison| ties::check(12_000, FEWEST_TIED_FILES, comparison),
        |comparison| sequences::check(5_000, 30, comparison),
        run_cases::check,
        short_runs::check,
        run_refusals::check_orders,
        |comparison| run_refusals::check_damaged(20, comparison),
        |comparison| runs::check_undeclared(6, comparison),
        |comparison| runs::check_random(&RUN_GROUPS, comparison),
        |comparison| searches::check(&SEARCH_GROUPS, comparison),
    ];
    let mut comparison = Comparison::new(seed);
    for check in checks {
        let begun = Instant::now();
        let said = check(&mut comparison)?;
        println!("{said} ({:.1} s)", begun.elapsed().as_secs_f64());
    }
    summarize(&comparison.tally)
}

/// Prints what was seen, and fails if something never was.
fn summarize(tally: &Tally) -> Checked<()> {
    let (files, valid) = (tally.files, tally.valid_files);
    let subnormal = tally.subnormal_orders;
    let added = tally.added_templates;
    println!("files {files}, of which {valid} made to be valid");
    println!("accepted files with a template of 19 to 23: {added}");
    ensure(2 * added >= files, || {
        "fewer than half of the files have a template of 19 to 23".to_string()
    })?;
    println!("files whose order subnormal weights decide: {subnormal}");
    // Pruning is given no rule number, only the monitor a run, and 16 is of a watch list.
    summarize_calls("pruning", &tally.pruning, 13)?;
    summarize_rules("pruning", &tally.pruned)?;
    summarize_calls("showing", &tally.showing, 14)?;
    summarize_rules("showing", &tally.shown)?;
    println!("longest sequence shown: {}", tally.longest_sequence);
    summarize_calls("monitoring", &tally.monitoring, 15)?;
    summarize_states(&tally.states, tally.random_runs)?;
    let enough = files >= FEWEST_FILES && valid >= FEWEST_VALID_FILES;
    ensure(enough && subnormal >= FEWEST_SUBNORMAL_ORDERS, || {
        "too few files, or too few whose order subnormal weights decide".to_string()
    })?;
    println!("product and reference agree");
    Ok(())
}

fn all_seen(seen: &[usize]) -> bool {
    seen.iter().all(|&times| times > 0)
}

/// The same for the calls of one entry, whose refusals go up to the last, and 17.
fn summarize_calls(entry: &str, calls: &Calls, last: usize) -> Checked<()> {
    let numbers = (0..=last).chain([refusal::BAD_COUNT as usize]);
    let refusals: Vec<usize> = numbers.map(|number| calls.refusals[number]).collect();
    println!(
        "{entry}: {} calls, by refusal 0 to {last} and 17: {refusals:?}",
        calls.all
    );
    ensure(all_seen(&refusals), || {
        format!("{entry}: some refusal never occurs")
    })?;
    println!(
        "{entry}: accepted calls by the processor's mode: {:?}",
        calls.modes
    );
    ensure(all_seen(&calls.modes), || {
        format!("{entry}: some mode of the processor never occurs")
    })?;
    summarize_addresses(entry, &calls.parts)
}

/// The same for where things were lent to an entry.
fn summarize_addresses(entry: &str, parts: &BTreeMap<Part, Addresses>) -> Checked<()> {
    let said = parts.iter().map(|(part, addresses)| {
        let places = addresses.places.iter().filter(|&&times| times > 0).count();
        let nulls = addresses.nulls;
        format!("{part:?} at {places} places of 16 bytes and {nulls} times null")
    });
    println!("{entry}: {}", said.collect::<Vec<_>>().join(", "));
    ensure(parts.values().all(Addresses::all_seen), || {
        format!("{entry}: something lent is never null, or never at some place: {parts:?}")
    })
}

/// The same for the rules that an entry decided or showed.
fn summarize_rules(entry: &str, rules: &Rules) -> Checked<()> {
    println!(
        "{entry}: rules by fate 0 to 5: {:?}, counts of 4,096: {}, over: {}",
        rules.fates, rules.at_most, rules.over
    );
    ensure(all_seen(&rules.fates), || {
        format!("{entry}: some fate never occurs")
    })?;
    ensure(all_seen(&[rules.at_most, rules.over]), || {
        format!("{entry}: no count of 4,096, or none over it")
    })
}

/// The same for the states that the monitor gave.
fn summarize_states(states: &States, random_runs: usize) -> Checked<()> {
    println!(
        "monitoring: states by value 0 to 3: {:?}, by template 1 to 23: {:?}",
        states.values, states.templates
    );
    println!(
        "monitoring: random runs {random_runs}, longest run {}, most relevant steps {}",
        states.longest_run, states.most_relevant
    );
    ensure(all_seen(&states.values), || {
        "monitoring: some value never occurs".to_string()
    })?;
    ensure(all_seen(&states.templates), || {
        "monitoring: some template never occurs".to_string()
    })?;
    let enough = random_runs >= FEWEST_RANDOM_RUNS && states.longest_run >= LONGEST_RUN;
    ensure(enough, || {
        "monitoring: too few random runs, or none long enough".to_string()
    })?;
    summarize_keeping(&states.keeping_value)
}

/// The same for the states with a relevant step that keeps the value, by template.
fn summarize_keeping(states: &[usize]) -> Checked<()> {
    println!("monitoring: states with relevant steps that keep the value, by template: {states:?}");
    let templates = (1..=states.len()).filter(|template| states[template - 1] > 0);
    ensure(templates.eq(KEEPING_VALUE), || {
        format!("monitoring: the templates of these are not {KEEPING_VALUE:?}")
    })
}
