//! Times the product against the reference (a hash set of vectors; for the monitor and for watching
//! classes from the meanings) and against the careful version (packed joint standings, members moved
//! one by one): pruning samples, the state of a plain, a chain and a counting rule after a long run, and
//! one step of watching a file of 32 rules. Each row is printed after all three gave the same answer.
//! Where TULLWETH_BESIDE names a shared object, the build of the library in it is timed in the same
//! rounds, or the row says why not. docs/PERFORMANCE.md says how such an object is made.
//!
//! `bench search SEED SECONDS` looks for a file that asks for more moves than samples/worst.rules and
//! prints the worst found in the text form of samples/; samples/worst.txt was found so.

use std::hint::black_box;
use std::process::ExitCode;
use std::time::{Duration, Instant};
use tullweth_tests::careful::{self, Pruner};
use tullweth_tests::comparison::{describe, ensure, Checked};
use tullweth_tests::library::Library;
use tullweth_tests::monitor;
use tullweth_tests::product::{BYTES_A_RULE, EXACT, STATE_NUMBERS};
use tullweth_tests::random::Random;
use tullweth_tests::random_files::{
    file_of_all_templates, heavy_file, random_rule, set_falling_weights, step_names, STEP_NAMES,
};
use tullweth_tests::random_runs::{open_run, LONGEST_RUN};
use tullweth_tests::reference::{self, Verdict};
use tullweth_tests::rule_file::{self, RuleFile, MOST_RULES, MOST_STEPS};
use tullweth_tests::template::template;

const TYPICAL: &[u8] = include_bytes!("../../../samples/typical.rules");
const HEAVY: &[u8] = include_bytes!("../../../samples/heavy.rules");
const WORST: &[u8] = include_bytes!("../../../samples/worst.rules");
const COUNTING: &[u8] = include_bytes!("../../../samples/counting.rules");
const UNNAMED: &[u8] = include_bytes!("../../../samples/unnamed.rules");

const SAMPLES: [(&str, &[u8]); 5] = [
    ("typical", TYPICAL),
    ("heavy", HEAVY),
    ("worst", WORST),
    ("counting", COUNTING),
    ("unnamed", UNNAMED),
];

/// The rules that are monitored, by their numbers in samples: Response(expose, readout),
/// ChainResponse(filter, focus) and Exactly(flat, 14). Of the first two the value changes again and again.
/// That of the third changes once: the first steps of its run bring the standing up to the count, and a
/// run that stays open has no flat after these, as one more would break the rule for good.
const MONITORED: [(&[u8], u32); 3] = [(TYPICAL, 3), (HEAVY, 17), (COUNTING, 20)];

/// The steps of the run that is watched; its time is divided by them.
const WATCHED_STEPS: usize = 1000;

/// All are measured in turn, so many times, and the best of each counts: a machine that others use is
/// slow for a while and then fast again.
const ROUNDS: usize = 9;
/// Short calls are repeated to fill this time.
const LEAST_TIME: Duration = Duration::from_millis(20);

fn main() -> ExitCode {
    let arguments: Vec<String> = std::env::args().skip(1).collect();
    let words: Vec<&str> = arguments.iter().map(String::as_str).collect();
    let outcome = match words[..] {
        [] => compare_all(),
        ["search", seed, seconds] => search_for(seed, seconds),
        _ => Err("usage: bench [search SEED SECONDS]".to_string()),
    };
    match outcome {
        Ok(()) => ExitCode::SUCCESS,
        Err(message) => {
            eprintln!("bench: {message}");
            ExitCode::FAILURE
        }
    }
}

/// The samples, the long runs, and watching.
fn compare_all() -> Checked<()> {
    let sides = Sides {
        product: Library::linked(),
        beside: Library::beside()?,
    };
    for (name, file) in SAMPLES {
        sides.compare_times(name, file)?;
    }
    for (file, rule) in MONITORED {
        sides.compare_monitors(file, rule)?;
    }
    sides.compare_watching()
}

/// The builds of the library that are timed: the product, and perhaps another one.
struct Sides {
    product: Library,
    beside: Option<Library>,
}

/// Another build in a row: timed, or why it is not. None where none is named.
type Beside<'a> = Option<Result<&'a Library, String>>;

/// The times of a round: product, reference and careful version, and perhaps of another build.
type Times = ([Duration; 3], Option<Duration>);

/// The areas of pruning, made once.
struct Areas {
    found: Vec<u64>,
    links: Vec<u16>,
    verdicts: Vec<u8>,
}

impl Areas {
    fn new() -> Areas {
        Areas {
            found: vec![0; EXACT.found],
            links: vec![0; EXACT.links],
            verdicts: vec![0; EXACT.verdicts],
        }
    }

    fn prune(&mut self, library: &Library, file: &[u8]) -> u32 {
        library.prune(file, &mut self.found, &mut self.links, &mut self.verdicts)
    }

    /// The time of one call.
    fn time(&mut self, library: &Library, file: &[u8]) -> Duration {
        time_of(|| self.prune(library, black_box(file)))
    }

    /// The refusal number and, of an accepted file with so many rules, the bytes of its verdicts.
    fn answer(&mut self, library: &Library, file: &[u8], rules: usize) -> (u32, Vec<u8>) {
        self.verdicts.fill(u8::MAX);
        let number = self.prune(library, file);
        (number, self.verdicts[..BYTES_A_RULE * rules].to_vec())
    }
}

/// Whether a build that returned this number, and gave the same answer or not, is timed.
fn timed(library: &Library, number: u32, same: bool) -> Result<&Library, String> {
    match (number, same) {
        (0, true) => Ok(library),
        (0, false) => Err("answers otherwise".to_string()),
        _ => Err(format!("refuses with {number}")),
    }
}

/// The time of one call, over as many as fill the least time.
fn time_of<Answer>(mut call: impl FnMut() -> Answer) -> Duration {
    let begun = Instant::now();
    let mut calls = 0;
    while calls == 0 || begun.elapsed() < LEAST_TIME {
        black_box(call());
        calls += 1;
    }
    begun.elapsed() / calls
}

impl Sides {
    /// Prints the times on one file, after the three have given the same verdicts.
    fn compare_times(&self, name: &str, file: &[u8]) -> Checked<()> {
        let (mut areas, mut careful) = (Areas::new(), Pruner::default());
        let verdicts = self.check_agreement(name, file, &mut areas, &mut careful)?;
        let beside: Beside = self.beside.as_ref().map(|library| {
            let (number, bytes) = areas.answer(library, file, verdicts.len() / BYTES_A_RULE);
            timed(library, number, bytes == verdicts)
        });
        print_best(name, &beside, |beside| {
            let times = [
                areas.time(&self.product, file),
                time_of(|| reference::prune(black_box(file))),
                time_of(|| careful.prune(black_box(file))),
            ];
            (times, beside.map(|library| areas.time(library, file)))
        });
        Ok(())
    }

    /// All three give the same verdicts, which are these bytes.
    fn check_agreement(
        &self,
        name: &str,
        file: &[u8],
        areas: &mut Areas,
        careful: &mut Pruner,
    ) -> Checked<Vec<u8>> {
        let expected = reference::prune(file);
        let verdicts = expected
            .as_ref()
            .map_err(|number| format!("{name} is refused as {number}"))?;
        let bytes: Vec<u8> = verdicts.iter().flat_map(Verdict::bytes).collect();
        let (number, written) = areas.answer(&self.product, file, verdicts.len());
        let same = number == 0 && written == bytes;
        ensure(same && careful.prune(file) == expected, || {
            let expected = describe(&expected);
            format!("{name}: the three differ; reference: {expected}")
        })?;
        Ok(bytes)
    }

    /// The same for the monitor of a rule, on a run that stays open to its end.
    fn compare_monitors(&self, file: &[u8], number: u32) -> Checked<()> {
        let read = rule_file::read(file).map_err(|refusal| format!("refused {refusal}"))?;
        let rule = &read.rules[number as usize - 1];
        let run = open_run(rule, read.steps.len(), LONGEST_RUN, &mut Random::new(1));
        let said = self.check_monitors(file, number, &run)?;
        let mut answer = [0; STATE_NUMBERS];
        let beside: Beside = self.beside.as_ref().map(|library| {
            let refusal = library.state(file, number, &run, &mut answer);
            timed(library, refusal, answer == said)
        });
        let [_, relevant] = said;
        let name = template(rule).name;
        let title = format!("{name}, a run of {LONGEST_RUN} steps, {relevant} relevant");
        let mut time_in = |library: &Library| {
            time_of(|| library.state(file, number, black_box(&run), &mut answer))
        };
        print_best(&title, &beside, |beside| {
            let times = [
                time_in(&self.product),
                time_of(|| monitor::state(file, number, black_box(&run))),
                time_of(|| careful::state(file, number, black_box(&run))),
            ];
            (times, beside.map(&mut time_in))
        });
        Ok(())
    }

    /// All three give the same two numbers, and the run leaves the rule open.
    fn check_monitors(
        &self,
        file: &[u8],
        number: u32,
        run: &[u8],
    ) -> Checked<[u64; STATE_NUMBERS]> {
        let mut answer = [0; STATE_NUMBERS];
        let refusal = self.product.state(file, number, run, &mut answer);
        let expected = monitor::state(file, number, run);
        let by_hand = careful::state(file, number, run);
        let same = expected.map(|state| state.numbers()) == Ok(answer) && by_hand == Ok(answer);
        ensure(refusal == 0 && same, || {
            format!("the monitors differ: {refusal} {answer:?}, {expected:?}, {by_hand:?}")
        })?;
        ensure(expected.is_ok_and(|state| state.is_open()), || {
            format!("the run of rule {number} is not open to its end: {expected:?}")
        })?;
        Ok(answer)
    }

    /// The same for watching a file of all templates: the time of one step, in which the file is read
    /// and every entry is moved. Beginning is a part of it, once for all steps.
    fn compare_watching(&self) -> Checked<()> {
        let mut random = Random::new(1);
        let file = file_of_all_templates(&mut random).bytes();
        let step = |_| random.below(MOST_STEPS) as u8;
        let run: Vec<u8> = (0..WATCHED_STEPS).map(step).collect();
        let said = self.check_watching(&file, &run)?;
        let mut counts = [0; MOST_RULES];
        let beside: Beside = self.beside.as_ref().map(|library| {
            let number = library.watch(&file, &run, &mut counts);
            let number = number.ok_or("has no entry for watching".to_string())?;
            timed(library, number, counts == said)
        });
        let relevant: u32 = said.iter().sum();
        let title = format!(
            "watching {MOST_RULES} rules, one step of a run of {WATCHED_STEPS}, {relevant} relevant in all"
        );
        let a_step = |time: Duration| time / WATCHED_STEPS as u32;
        let mut time_in =
            |library: &Library| time_of(|| library.watch(&file, black_box(&run), &mut counts));
        print_best(&title, &beside, |beside| {
            let times = [
                time_in(&self.product),
                time_of(|| monitor::watch(&file, black_box(&run))),
                time_of(|| careful::watch(&file, black_box(&run))),
            ];
            (times.map(a_step), beside.map(&mut time_in).map(a_step))
        });
        Ok(())
    }

    /// All three give the same counts of relevant steps.
    fn check_watching(&self, file: &[u8], run: &[u8]) -> Checked<[u32; MOST_RULES]> {
        let mut counts = [0; MOST_RULES];
        let refusal = self.product.watch(file, run, &mut counts);
        let expected = monitor::watch(file, run);
        let same = expected.as_deref() == Ok(&counts[..]);
        let by_hand = careful::watch(file, run);
        ensure(refusal == Some(0) && same && by_hand == expected, || {
            format!("watching differs: {refusal:?} {counts:?}, {expected:?}, {by_hand:?}")
        })?;
        Ok(counts)
    }
}

/// Prints the best times of product, reference and careful version over all rounds, and what there is
/// to say of another build. A round is given that build where it is timed.
fn print_best(name: &str, beside: &Beside, mut round: impl FnMut(Option<&Library>) -> Times) {
    let library = beside.as_ref().and_then(|beside| beside.as_ref().ok());
    let (mut best, mut best_beside) = ([Duration::MAX; 3], Duration::MAX);
    for _ in 0..ROUNDS {
        let (round, beside) = round(library.copied());
        best = [0, 1, 2].map(|which| best[which].min(round[which]));
        best_beside = best_beside.min(beside.unwrap_or(Duration::MAX));
    }
    let [product_time, reference_time, careful_time] = best;
    let times_product = |time: Duration| time.as_secs_f64() / product_time.as_secs_f64();
    let said_beside = match beside {
        None => String::new(),
        Some(Err(reason)) => format!(", beside {reason}"),
        Some(Ok(_)) => format!(
            ", beside {:.1} us ({:.2} times)",
            microseconds(best_beside),
            times_product(best_beside)
        ),
    };
    println!(
        "{name}: product {:.1} us, reference {:.1} us ({:.1} times), careful {:.1} us ({:.1} times){said_beside}",
        microseconds(product_time),
        microseconds(reference_time),
        times_product(reference_time),
        microseconds(careful_time),
        times_product(careful_time),
    );
}

fn microseconds(time: Duration) -> f64 {
    time.as_secs_f64() * 1e6
}

/// Searches for so many seconds and prints the worst file found.
fn search_for(seed: &str, seconds: &str) -> Checked<()> {
    let number = |text: &str| text.parse().map_err(|_| format!("{text} is no number"));
    let mut random = Random::new(number(seed)?);
    let end = Instant::now() + Duration::from_secs(number(seconds)?);
    let mut worst = rule_file::read(WORST).map_err(|number| format!("refused {number}"))?;
    worst.steps = step_names();
    while Instant::now() < end {
        let beginning = if random.once_in(2) {
            heavy_file(MOST_RULES, &mut random)
        } else {
            worst.clone()
        };
        let file = climb(beginning, end, &mut random);
        if work_of(&file) > work_of(&worst) {
            worst = file;
            let time = Areas::new().time(&Library::linked(), &worst.bytes());
            eprintln!("{} moves, {:.1} us", work_of(&worst), microseconds(time));
        }
    }
    print!("{}", text_form(&worst));
    Ok(())
}

/// How many moves of members a file asks for: what makes the product slow, without the noise of a
/// clock.
fn work_of(file: &RuleFile) -> u64 {
    let mut careful = Pruner::default();
    careful.prune(&file.bytes()).map_or(0, |_| careful.work)
}

/// Takes changes that ask for more moves until many in turn do not.
fn climb(beginning: RuleFile, end: Instant, random: &mut Random) -> RuleFile {
    let mut file = beginning;
    let mut work = work_of(&file);
    let mut in_vain = 0;
    while in_vain < 200 && Instant::now() < end {
        let changed = changed_file(&file, random);
        let changed_work = work_of(&changed);
        in_vain += 1;
        if changed_work > work {
            (file, work, in_vain) = (changed, changed_work, 0);
        }
    }
    file
}

/// A few rules replaced or moved to another rank.
fn changed_file(file: &RuleFile, random: &mut Random) -> RuleFile {
    let mut changed = file.clone();
    for _ in 0..random.between(1, 3) {
        let place = random.below(changed.rules.len());
        if random.once_in(2) {
            let template = random.between(1, 23) as u8;
            changed.rules[place] = random_rule(template, MOST_STEPS, false, random);
        } else {
            let moved = changed.rules.remove(place);
            let rank = random.below(changed.rules.len() + 1);
            changed.rules.insert(rank, moved);
        }
    }
    set_falling_weights(&mut changed.rules);
    changed
}

/// A file over the usual step names in the text form of samples/.
fn text_form(file: &RuleFile) -> String {
    let steps = STEP_NAMES.map(|name| format!("step {name}\n")).concat();
    let name = |step: u8| STEP_NAMES[usize::from(step)].to_string();
    let rules = file.rules.iter().map(|rule| {
        let [support, confidence, interest] = rule.weights;
        let count = rule.count().map(|count| count.to_string());
        let second = count.or(rule.second_step().map(name)).unwrap_or_default();
        format!(
            "rule {} {} {} 0x{support:08X} 0x{confidence:08X} 0x{interest:08X}\n",
            template(rule).name,
            name(rule.x),
            second,
        )
    });
    steps + &rules.collect::<String>()
}
