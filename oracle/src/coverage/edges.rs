//! Forms of exactly their limit, and of one more.

use super::members;
use crate::limits::Limits;
use crate::model::Rules;
use crate::questions::{answer, operation::*, Call, Outcome};
use crate::trees::Sch;
use std::collections::BTreeMap;

/// Wide enough to measure a form that is over its limit.
const WIDE: Limits = Limits {
    levels: 64,
    bytes: 65_535,
};

const SIZES: [&str; 4] = ["bytes", "bytes + 1", "levels", "levels + 1"];

/// What is measured has rows of its own.
const MEASURED_TYPE: &str = "measured type";
const MEASURED_VALUE: &str = "measured value";

/// The kinds of forms, and how many of the sizes each can have: an answer and a
/// step have no more levels than what they are made from.
const KINDS: [(&str, usize); 9] = [
    ("type", 4),
    ("value", 4),
    (MEASURED_TYPE, 4),
    (MEASURED_VALUE, 4),
    ("member", 4),
    ("body", 4),
    ("step", 2),
    ("answer", 2),
    ("literal", 2),
];

/// Limits on levels that have rows of their own.
const LEVELS: [usize; 4] = [1, 2, 17, 32];

type Row = (&'static str, usize);

/// How often each kind met each size. A row is a kind, or a type under so many
/// levels.
#[derive(Default)]
pub struct Edges(BTreeMap<Row, [u64; 4]>);

/// What is measured of a form: its bytes, and its levels if they are known.
struct Measured(usize, Option<usize>);

fn type_measured(form: &[u8]) -> Measured {
    let ty = Rules::SOUND.whole_type(WIDE, form);
    Measured(form.len(), ty.map(|t| t.levels()))
}

fn value_measured(form: &[u8]) -> Measured {
    let value = Rules::SOUND.whole_value(WIDE, form);
    Measured(form.len(), value.map(|v| v.levels()))
}

impl Edges {
    fn add(&mut self, row: Row, size: usize) {
        self.0.entry(row).or_default()[size] += 1;
    }

    fn measure(&mut self, kind: &'static str, limits: Limits, form: Measured) {
        let Measured(bytes, Some(levels)) = form else {
            return;
        };
        let own = LEVELS.contains(&limits.levels) && kind == "type";
        let mut count = |size: usize, limit: usize, measured: usize| {
            let over = measured.wrapping_sub(limit);
            if over <= 1 {
                self.add((kind, 0), size + over);
                if own && size == 2 {
                    self.add((kind, limit), size + over);
                }
            }
        };
        count(0, limits.bytes, bytes);
        count(2, limits.levels, levels);
    }

    /// Count the bodies of a schema that is whole but for its limits.
    pub fn count_schema(&mut self, limits: Limits, schema: &[u8]) {
        let Some(Sch {
            entities, actions, ..
        }) = Rules::SOUND.whole_schema(WIDE, schema)
        else {
            return;
        };
        let bodies = entities.into_iter().map(|e| e.body());
        for body in bodies.chain(actions.into_iter().map(|a| a.body())) {
            let measured = Measured(body.form().len(), Some(body.levels()));
            self.measure("body", limits, measured);
        }
    }

    /// Count the forms of a call and what it came to.
    pub fn count(&mut self, call: &Call<'_>, outcome: &Outcome) {
        let limits = call.limits;
        match call.op {
            FOLD => members(call.t0)
                .into_iter()
                .flatten()
                .for_each(|m| self.measure("member", limits, type_measured(m))),
            LITERAL => self.measure("value", limits, value_measured(call.t0)),
            MEASURE_TYPE => self.measure(MEASURED_TYPE, limits, type_measured(call.t0)),
            MEASURE_VALUE => self.measure(MEASURED_VALUE, limits, value_measured(call.t0)),
            _ => self.measure("type", limits, type_measured(call.t0)),
        }
        match call.op {
            CONFORMS | FULL => self.measure("value", limits, value_measured(call.t1)),
            SUBTYPE | BOUND | DISJOINT | CONSISTENT => {
                self.measure("type", limits, type_measured(call.t1));
            }
            _ => (),
        }
        self.count_outcome(call, outcome);
    }

    /// Count an answer, or a step that is one, of exactly the form length; and
    /// one that a byte more would let through.
    fn count_outcome(&mut self, call: &Call<'_>, outcome: &Outcome) {
        let kind = match call.op {
            FOLD | LOOKUP | NAMES => "step",
            LITERAL => "literal",
            _ => "answer",
        };
        let wider = Limits {
            bytes: call.limits.bytes + 1,
            ..call.limits
        };
        if outcome.bytes().map(<[u8]>::len) == Some(call.limits.bytes) {
            self.add((kind, 0), 0);
        }
        if matches!(outcome, Outcome::Refused(9 | 10)) && wider.allowed() {
            let limits = wider;
            let refused = matches!(answer(&Call { limits, ..*call }), Outcome::Refused(_));
            if !refused {
                self.add((kind, 0), 1);
            }
        }
    }

    /// The rows that can be met, with the sizes that each can have.
    fn rows() -> impl Iterator<Item = (Row, std::ops::Range<usize>)> {
        let kinds = KINDS.iter().map(|(kind, sizes)| ((*kind, 0), 0..*sizes));
        kinds.chain(LEVELS.iter().map(|l| (("type", *l), 2..4)))
    }

    fn named(row: Row) -> String {
        match row {
            (kind, 0) => kind.into(),
            (kind, levels) => format!("{kind}, {levels}"),
        }
    }

    pub fn missing(&self) -> Vec<String> {
        let mut missing = Vec::new();
        for (row, sizes) in Edges::rows() {
            for size in sizes {
                if self.0.get(&row).is_none_or(|cells| cells[size] == 0) {
                    missing.push(format!("{}: {}", Edges::named(row), SIZES[size]));
                }
            }
        }
        missing
    }

    pub fn table(&self) -> String {
        let mut out = format!("{:<16}", "");
        SIZES.iter().for_each(|s| out += &format!("{s:>12}"));
        out.push('\n');
        for (row, sizes) in Edges::rows() {
            out += &format!("{:<16}", Edges::named(row));
            for size in 0..SIZES.len() {
                let count = self.0.get(&row).map_or(0, |cells| cells[size]);
                match sizes.contains(&size) {
                    true => out += &format!("{count:>12}"),
                    false => out += &format!("{:>12}", "."),
                }
            }
            out.push('\n');
        }
        out
    }
}
