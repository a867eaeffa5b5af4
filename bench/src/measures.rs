//! Measuring beside the test that a form is whole, with which it begins: what the
//! levels cost. The published Rust measures nothing.

use crate::figure;
use crate::inputs::{attributes, chain, record, value, widest, SIZES};
use crate::library::{self, Checked};
use crate::timing::{best, repeated, Timed};
use oracle::limits::Limits;
use oracle::questions::{answer, operation::*, Call, Outcome};
use oracle::trees::{Ty, Val};

const STANDARD: Limits = Limits::STANDARD;
const LARGEST: Limits = Limits::LARGEST;

const SCHEMA: [u8; 6] = [0; 6];
const LONG: [u8; 1] = [4];

/// A type or a value, and how many levels it has.
struct Form {
    limits: Limits,
    what: String,
    op: u8,
    bytes: Vec<u8>,
    levels: usize,
}

impl Form {
    fn of_type(limits: Limits, what: &str, ty: &Ty) -> Form {
        Form {
            limits,
            what: what.to_string(),
            op: MEASURE_TYPE,
            bytes: ty.form(),
            levels: ty.levels(),
        }
    }

    fn of_value(limits: Limits, what: &str, value: &Val) -> Form {
        Form {
            limits,
            what: what.to_string(),
            op: MEASURE_VALUE,
            bytes: value.form(),
            levels: value.levels(),
        }
    }

    fn measuring(&self) -> Call<'_> {
        Call {
            op: self.op,
            t0: &self.bytes,
            ..library::call_under(self.limits)
        }
    }

    /// A call that is little more than the test: disjoint with Long, or
    /// conformance to Long, which no form here has.
    fn testing(&self) -> Call<'_> {
        let (op, t0, t1) = match self.op {
            MEASURE_TYPE => (DISJOINT, &self.bytes[..], &LONG[..]),
            _ => (CONFORMS, &LONG[..], &self.bytes[..]),
        };
        Call {
            op,
            schema: &SCHEMA,
            t0,
            t1,
            ..library::call_under(self.limits)
        }
    }

    /// The answers must be right before anything is timed.
    fn answers(&self) {
        let measured = Outcome::Measured(self.bytes.len(), self.levels);
        for (call, told) in [(self.measuring(), measured), (self.testing(), Outcome::No)] {
            let reply = library::entry(&call, &mut [], &mut []);
            assert_eq!(library::outcome(reply, &[], &[]), told, "{}", self.what);
            assert_eq!(answer(&call), told, "{}", self.what);
        }
    }
}

fn timed(call: Call<'_>) -> Timed<'_> {
    let check = Checked::of(call.limits, call.schema);
    repeated(move || library::through(check, &call, &mut [], &mut []))
}

/// A closed record of required attributes.
fn record_of(types: Vec<Ty>) -> Ty {
    Ty::Rec(false, attributes(types))
}

fn names(count: u16) -> Ty {
    Ty::Ent((0..count).map(|i| 2 * i).collect())
}

/// Types of each shape under the limits: as many names, as many sets, records as
/// wide as fit with as many levels.
fn largest_types(limits: Limits) -> Vec<Form> {
    let Limits { levels, bytes } = limits;
    let form = |what: String, ty: Ty| Form::of_type(limits, &what, &ty);
    let width = widest(bytes, |width| record(width, levels, 2).form());
    let count = (bytes as u16 - 3) / 2;
    vec![
        form(
            format!("{} sets of Long", levels - 1),
            chain(levels - 1, Ty::Atom(4)),
        ),
        form(format!("an entity of {count} names"), names(count)),
        form(
            format!("{levels} levels of records of {width}"),
            record(width, levels, 2),
        ),
    ]
}

/// A long attribute that is flat, many times; a chain of sets before and behind
/// Booleans.
fn mixed_types() -> Vec<Form> {
    let deep = chain(STANDARD.levels - 2, Ty::Atom(4));
    let flat = vec![Ty::Atom(3); 659];
    let form = |what: &str, types| Form::of_type(STANDARD, what, &record_of(types));
    vec![
        form("a record of 107 unions of 15 names", vec![names(15); 107]),
        form(
            "a record of 14 sets and 659 Booleans",
            [vec![deep.clone()], flat.clone()].concat(),
        ),
        form(
            "a record of 659 Booleans and 14 sets",
            [flat, vec![deep]].concat(),
        ),
    ]
}

fn types() -> Vec<Form> {
    let mut all = vec![Form::of_type(STANDARD, "Long", &Ty::Atom(4))];
    for size in SIZES {
        let ty = record(size.width, size.levels, 2);
        all.push(Form::of_type(
            STANDARD,
            &format!("{}, record", size.name),
            &ty,
        ));
    }
    all.extend(largest_types(STANDARD));
    all.extend(mixed_types());
    all.extend(largest_types(LARGEST));
    all
}

/// Values of each shape under the limits.
fn largest_values(limits: Limits) -> Vec<Form> {
    let Limits { levels, bytes } = limits;
    let form = |what: String, value: Val| Form::of_value(limits, &what, &value);
    let width = widest(bytes, |width| value(width, levels).form());
    let sets = (1..levels).fold(Val::Bool(true), |value, _| Val::Set(vec![value]));
    let (string, members) = (bytes - 3, (bytes - 3) / 3);
    vec![
        form(format!("{} sets of true", levels - 1), sets),
        form(
            format!("a string of {string} bytes"),
            Val::Str(vec![b'a'; string]),
        ),
        form(
            format!("a set of {members} Booleans"),
            Val::Set(vec![Val::Bool(true); members]),
        ),
        form(
            format!("{levels} levels of records of {width}"),
            value(width, levels),
        ),
    ]
}

fn values() -> Vec<Form> {
    let mut all = vec![Form::of_value(STANDARD, "true", &Val::Bool(true))];
    for size in SIZES {
        let value = value(size.width, size.levels);
        all.push(Form::of_value(
            STANDARD,
            &format!("{}, record", size.name),
            &value,
        ));
    }
    all.extend(largest_values(STANDARD));
    all.extend(largest_values(LARGEST));
    all
}

fn print_forms(kind: &str, forms: &[Form]) {
    println!("| {kind} | bytes | levels | whole, ns | measured, ns | measured by whole | GB/s |");
    println!("|---|---|---|---|---|---|---|");
    for form in forms {
        form.answers();
        let ns = best(&mut [timed(form.testing()), timed(form.measuring())]);
        println!(
            "| {} | {} | {} | {} | {} | {:.2} | {:.2} |",
            form.what,
            form.bytes.len(),
            form.levels,
            figure(ns[0]),
            figure(ns[1]),
            ns[1] / ns[0],
            form.bytes.len() as f64 / ns[1],
        );
    }
}

pub fn print() {
    print_forms("Types, measured", &types());
    println!();
    print_forms("Values, measured", &values());
}
