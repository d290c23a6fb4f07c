//! Prints what the independent implementation alone works out for the rule file on standard input. A
//! question is the arguments of the C host after the rule file: without one it prints what 01
//! ("Cases") wants printed, with a rule number what the host prints of that rule's sequences, with
//! `run` and the names of steps after it what the host prints of the rule's state after that run; or
//! the number of the refusal.
//!
//! `reference all QUESTIONS` answers the questions of a file, one a line with tabs between the words:
//! for each the line with `> ` before it, the answer, and the status with which the host ends.

use std::io::Read;
use std::process::ExitCode;
use tullweth_tests::comparison::lines;
use tullweth_tests::monitor;
use tullweth_tests::reference::{decide, Decided, Decision, Sequence};
use tullweth_tests::rule_file::UNDECLARED;

const LONGEST_INPUT: usize = 65_535;

/// The values of 01 ("Monitor") from 0 on.
const VALUE_NAMES: [&str; 4] = [
    "temporarily satisfied",
    "temporarily violated",
    "permanently satisfied",
    "permanently violated",
];

fn main() -> ExitCode {
    let arguments: Vec<String> = std::env::args().skip(1).collect();
    let words: Vec<&str> = arguments.iter().map(String::as_str).collect();
    match printed(&words) {
        Ok(text) => {
            print!("{text}");
            ExitCode::SUCCESS
        }
        Err(message) => {
            eprintln!("reference: {message}");
            ExitCode::FAILURE
        }
    }
}

/// The text for these arguments.
fn printed(words: &[&str]) -> Result<String, String> {
    match words {
        ["all", path] => {
            let text = std::fs::read_to_string(path);
            let questions = text.map_err(|error| format!("{path}: {error}"))?;
            all_answered(&questions, &read_input()?)
        }
        _ => {
            let question = Question::new(words)?;
            let bytes = read_input()?;
            match bytes.len() > LONGEST_INPUT {
                true => Ok("long\n".to_string()),
                false => Ok(question.answer(&decide(&bytes)).unwrap_or_else(refused)),
            }
        }
    }
}

/// The bytes of standard input; no more than one too many.
fn read_input() -> Result<Vec<u8>, String> {
    let mut bytes = Vec::new();
    let mut input = std::io::stdin().take(LONGEST_INPUT as u64 + 1);
    let read = input.read_to_end(&mut bytes);
    read.map_or_else(|error| Err(error.to_string()), |_| Ok(bytes))
}

/// The text of all questions about a file, which is decided once.
fn all_answered(questions: &str, bytes: &[u8]) -> Result<String, String> {
    let decision = decide(bytes);
    let answered = |line: &str| {
        let words: Vec<&str> = line.split('\t').filter(|_| !line.is_empty()).collect();
        let answer = Question::new(&words)?.answer(&decision);
        let status = u32::from(answer.is_err());
        let text = answer.unwrap_or_else(refused);
        Ok(format!("> {line}\n{text}status {status}\n"))
    };
    questions.lines().map(answered).collect()
}

fn refused(number: u32) -> String {
    format!("refused {number}\n")
}

/// What is asked about a file.
enum Question<'a> {
    Pruning,
    /// The sequences of the rule of this number.
    Showing(u32),
    /// The state of the rule of this number after a run of the steps of these names.
    Monitoring(u32, &'a [&'a str]),
}

impl Question<'_> {
    fn new<'a>(words: &'a [&'a str]) -> Result<Question<'a>, String> {
        let rule_number = |text: &str| {
            let number = text.parse();
            number.map_err(|_| format!("{text} is no rule number"))
        };
        match words {
            [] => Ok(Question::Pruning),
            [rule] => Ok(Question::Showing(rule_number(rule)?)),
            [rule, "run", names @ ..] => Ok(Question::Monitoring(rule_number(rule)?, names)),
            _ => Err("usage: reference [RULE [run [STEP ...]] | all QUESTIONS] < RULE-FILE".into()),
        }
    }

    /// The text for a file, or the number of the refusal.
    fn answer(&self, decision: &Decision) -> Result<String, u32> {
        let decided = decision.as_ref().map_err(|number| *number)?;
        match self {
            Question::Pruning => {
                let lines = lines(&decided.verdicts);
                Ok(lines.iter().map(|line| format!("{line}\n")).collect())
            }
            Question::Showing(number) => shown(decided, *number),
            Question::Monitoring(number, names) => monitored(decided, *number, names),
        }
    }
}

/// The text of the C host for a rule of a file.
fn shown(decided: &Decided, number: u32) -> Result<String, u32> {
    let rule = decided.file.rule_of(number)?;
    let [satisfying, violating] = decided.shown(rule);
    let satisfying = line_of("satisfying", satisfying, decided);
    Ok(satisfying + &line_of("violating", violating, decided))
}

/// The text of the C host for a rule of a file after a run of the steps of these names.
fn monitored(decided: &Decided, number: u32, names: &[&str]) -> Result<String, u32> {
    let steps = &decided.file.steps;
    let step_of = |name: &&str| {
        let step = steps.iter().position(|step| step == name.as_bytes());
        step.map_or(UNDECLARED, |step| step as u8)
    };
    let run: Vec<u8> = names.iter().map(step_of).collect();
    let state = monitor::state_in(&decided.file, number, &run)?;
    let value = VALUE_NAMES[usize::from(state.value)];
    let relevant = counted(state.relevant as usize, "relevant step");
    Ok(format!("{value}, {relevant}\n"))
}

/// So many things of this name.
fn counted(count: usize, name: &str) -> String {
    match count {
        1 => format!("1 {name}"),
        _ => format!("{count} {name}s"),
    }
}

fn line_of(which: &str, sequence: Option<Sequence>, decided: &Decided) -> String {
    let Some(Sequence {
        steps,
        standing: [first, second],
    }) = sequence
    else {
        return format!("{which}: none\n");
    };
    let count = counted(steps.len(), "step");
    let name = |&step: &u8| String::from_utf8_lossy(&decided.file.steps[usize::from(step)]);
    let names: Vec<_> = steps.iter().map(name).collect();
    let all = if names.is_empty() {
        "the empty sequence".to_string()
    } else {
        names.join(" ")
    };
    format!("{which}, {count}, standing {first:#X} {second:#X}: {all}\n")
}
