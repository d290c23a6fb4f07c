//! The moves of 01 ("Templates") and 02 (M-100): those of steps held as 01's table prints them, those
//! of counts worked out, and all spelled out when first used.

use crate::rule_file::{by_form, Form, Rule};
use std::collections::BTreeMap;
use std::sync::OnceLock;

/// A row of 01's table: number, name, moves, satisfied standings, broken standing.
type Row = (u8, &'static str, &'static str, &'static str, &'static str);

const TABLE: [Row; 20] = [
    (1, "Participation", "10 11", "1", ""),
    (2, "AtMostOne", "10 21 22", "0,1", "2"),
    (3, "Init", "12 11 22", "1", "2"),
    (4, "End", "10 10", "1", ""),
    (5, "RespondedExistence", "120 121 222", "0,2", ""),
    (6, "Response", "100 101", "0", ""),
    (7, "AlternateResponse", "100 201 222", "0", "2"),
    (8, "ChainResponse", "100 202 222", "0", "2"),
    (9, "Precedence", "120 111 222", "0,1", "2"),
    (10, "AlternatePrecedence", "120 101 222", "0,1", "2"),
    (11, "ChainPrecedence", "120 100 222", "0,1", "2"),
    (12, "CoExistence", "120 131 322 333", "0,3", ""),
    (13, "Succession", "130 121 122 333", "0,2", "3"),
    (14, "AlternateSuccession", "120 201 222", "0", "2"),
    (15, "ChainSuccession", "120 202 222", "0", "2"),
    (16, "NotChainSuccession", "100 120 222", "0,1", "2"),
    (17, "NotSuccession", "100 121 222", "0,1", "2"),
    (18, "NotCoExistence", "120 131 322 333", "0,1,2", "3"),
    (22, "Choice", "110 111", "1", ""),
    (23, "ExclusiveChoice", "120 131 322 333", "1,2", "3"),
];

/// One template, with its count where it has one, spelled out.
pub struct Template {
    pub name: &'static str,
    /// For each standing the next one on x, (y,) any other step.
    pub moves: Vec<Vec<u8>>,
    pub satisfied: Vec<bool>,
    pub broken: Vec<bool>,
}

/// The template of a rule.
pub fn template(rule: &Rule) -> &'static Template {
    static SPELLED_OUT: OnceLock<BTreeMap<Form, Template>> = OnceLock::new();
    let all = SPELLED_OUT.get_or_init(|| by_form(spell_out));
    &all[&rule.form()]
}

fn spell_out(rule: &Rule) -> Template {
    match rule.count() {
        Some(count) => count_out(rule.template, count),
        None => {
            let row = TABLE.iter().find(|row| row.0 == rule.template);
            look_up(row.expect("a row of every template without a count"))
        }
    }
}

fn look_up(&(_, name, moves, satisfied, broken): &Row) -> Template {
    let moves: Vec<Vec<u8>> = moves.split(' ').map(digits).collect();
    let marked = |list: &str| {
        let listed = digits(list);
        (0..moves.len() as u8)
            .map(|standing| listed.contains(&standing))
            .collect()
    };
    Template {
        name,
        satisfied: marked(satisfied),
        broken: marked(broken),
        moves,
    }
}

/// The digits of a text as numbers; commas are skipped.
fn digits(text: &str) -> Vec<u8> {
    text.bytes()
        .filter(u8::is_ascii_digit)
        .map(|digit| digit - b'0')
        .collect()
}

/// The standings of 19 to 21 count x up to a last one: 19 stops at its count, 20 and 21 at one more,
/// which is too many.
fn count_out(number: u8, count: u8) -> Template {
    let (name, last, satisfied) = match number {
        19 => ("AtLeast", count, count..=count),
        20 => ("AtMost", count + 1, 0..=count),
        _ => ("Exactly", count + 1, count..=count),
    };
    let standings = 0..=last;
    Template {
        name,
        moves: standings
            .clone()
            .map(|counted| vec![last.min(counted + 1), counted])
            .collect(),
        satisfied: standings
            .clone()
            .map(|counted| satisfied.contains(&counted))
            .collect(),
        broken: standings.map(|counted| counted > count).collect(),
    }
}

impl Template {
    /// The standing after a step, for a rule with this x and y.
    pub fn after(&self, rule: &Rule, standing: u8, step: u8) -> u8 {
        let next = &self.moves[usize::from(standing)];
        if step == rule.x {
            next[0]
        } else if rule.second_step() == Some(step) {
            next[1]
        } else {
            next[next.len() - 1]
        }
    }

    pub fn is_satisfied(&self, standing: u8) -> bool {
        self.satisfied[usize::from(standing)]
    }

    pub fn is_broken(&self, standing: u8) -> bool {
        self.broken[usize::from(standing)]
    }
}
