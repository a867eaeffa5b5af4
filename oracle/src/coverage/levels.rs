//! Answers by the levels that they tell, and beside the deepest type that they
//! are made from.

use super::{row, ROWS};
use crate::levels::deepest_made_from;
use crate::questions::{Call, Outcome, SchemaCache};
use std::collections::BTreeMap;

/// Numbers of levels: the ends of the range, the standard one, and their
/// neighbours.
const LEVELS: [(usize, &str); 7] = [
    (1, "1"),
    (2, "2"),
    (15, "15"),
    (16, "16"),
    (17, "17"),
    (31, "31"),
    (32, "32"),
];

/// Beside the deepest type that an answer is made from.
const FEWER: &str = "fewer";
const AS_MANY: &str = "as many";

/// The columns of an answer that is made from types, and of one that is not.
const MADE: &[&str] = &["1", "2", "15", "16", "17", "31", "32", FEWER, AS_MANY];
const ALONE: &[&str] = &["1", "2", "15", "16", "17", "31", "32"];

/// What has an attribute of 32 levels would have 33.
const BELOW: &[&str] = &["1", "2", "15", "16", "17", "31", FEWER, AS_MANY];

const OF_NOTHING: &str = "fold of nothing";

/// The rows with the columns that each can have.
const POSSIBLE: [(&str, &[&str]); 8] = [
    ("bound", MADE),
    ("fold", MADE),
    (OF_NOTHING, &["1"]),
    ("lookup", BELOW),
    ("convert", MADE),
    ("literal", ALONE),
    ("measure type", ALONE),
    ("measure value", ALONE),
];

type Cell = (&'static str, &'static str);

/// How often each row met each column.
#[derive(Default)]
pub struct Levels(BTreeMap<Cell, u64>);

fn told(outcome: &Outcome) -> Option<usize> {
    match outcome {
        Outcome::Measured(_, levels) => Some(*levels),
        _ => outcome.written().map(|written| written.levels),
    }
}

impl Levels {
    /// Count the levels that a call tells.
    pub fn count(&mut self, call: &Call<'_>, cache: &SchemaCache<'_>, outcome: &Outcome) {
        let Some(levels) = told(outcome) else { return };
        let name = ROWS[row(call.op)];
        let column = LEVELS.iter().find(|(n, _)| *n == levels);
        let column = column.map(|(_, column)| *column);
        let beside = deepest_made_from(call, cache).map(|deepest| {
            assert!(levels <= deepest, "more levels than what it is made from");
            match levels < deepest {
                true => FEWER,
                false => AS_MANY,
            }
        });
        let nothing = name == "fold" && call.t0 == [0, 0];
        let cells = column.into_iter().chain(beside).map(|c| (name, c));
        for cell in cells.chain(nothing.then_some((OF_NOTHING, "1"))) {
            *self.0.entry(cell).or_default() += 1;
        }
    }

    fn met(&self, row: &'static str, column: &'static str) -> u64 {
        self.0.get(&(row, column)).copied().unwrap_or(0)
    }

    pub fn missing(&self) -> Vec<String> {
        let mut missing = Vec::new();
        for (row, columns) in POSSIBLE {
            let zero = columns.iter().filter(|c| self.met(row, c) == 0);
            missing.extend(zero.map(|c| format!("{row}: {c} levels")));
        }
        missing
    }

    pub fn table(&self) -> String {
        let mut out = format!("{:<16}", "");
        MADE.iter().for_each(|c| out += &format!("{c:>8}"));
        out.push('\n');
        for (row, columns) in POSSIBLE {
            out += &format!("{row:<16}");
            for column in MADE {
                match columns.contains(column) {
                    true => out += &format!("{:>8}", self.met(row, column)),
                    false => out += &format!("{:>8}", "."),
                }
            }
            out.push('\n');
        }
        out
    }
}
