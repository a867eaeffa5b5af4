//! The questions, each put to the published functions on decoded types and to
//! the library from bytes.

use crate::inputs::{self, Size, SIZES, SOUGHT};
use crate::library::{self, Checked, OWN};
use crate::timing::{consuming, repeated, Timed};
use oracle::cedar_policy_core::ast::RestrictedExpr;
use oracle::forms::{plain, read_list, read_schema, read_type, read_value, Schema};
use oracle::limits::Limits;
use oracle::published;
use oracle::questions::{operation::*, Call};
use oracle::smol_str::SmolStr;
use oracle::trees::{list_form, Ty, Val};
use oracle::ValidationMode::Permissive;

/// One question of one size, owned.
pub struct Case {
    pub limits: Limits,
    pub operation: &'static str,
    pub input: String,
    pub op: u8,
    pub attr: u16,
    pub schema: Vec<u8>,
    pub t0: Vec<u8>,
    pub t1: Vec<u8>,
}

impl Case {
    pub fn call(&self) -> Call<'_> {
        Call {
            op: self.op,
            attr: self.attr,
            schema: &self.schema,
            t0: &self.t0,
            t1: &self.t1,
            ..library::call_under(self.limits)
        }
    }

    /// The same as the oracle knows it: its lookup has one entry.
    pub fn asked(&self) -> Call<'_> {
        let op = if self.op == OWN { LOOKUP } else { self.op };
        Call { op, ..self.call() }
    }

    fn decoded(&self) -> Decoded {
        Decoded {
            schema: read_schema(self.limits, &self.schema).expect("a whole schema"),
            attr: SmolStr::from_number(self.attr),
        }
    }

    /// The published function, its inputs decoded before.
    pub fn published(&self) -> Timed<'_> {
        let Decoded { schema, attr } = self.decoded();
        let first = || read_type(self.limits, &self.t0).expect("a whole type");
        let second = || read_type(self.limits, &self.t1).expect("a whole type");
        let value = |form| read_value(self.limits, form).expect("a whole value");
        match self.op {
            SUBTYPE => {
                let (a, b) = (first(), second());
                repeated(move || published::is_subtype(&schema, &a, &b, Permissive))
            }
            BOUND => {
                let (a, b) = (first(), second());
                repeated(move || published::least_upper_bound(&schema, &a, &b, Permissive))
            }
            DISJOINT => {
                let (a, b) = (first(), second());
                repeated(move || published::are_types_disjoint(&a, &b))
            }
            LOOKUP | OWN => {
                let a = first();
                repeated(move || published::lookup_attribute_type(&schema, &a, &attr))
            }
            MAY_HAVE => {
                let a = first();
                repeated(move || published::may_have_attr(&schema, &a, &attr))
            }
            NAMES => {
                let a = first();
                repeated(move || published::all_attributes(&schema, &a))
            }
            CONSISTENT => {
                let (a, b) = (first(), plain(&second()).expect("a plain type"));
                repeated(move || published::is_consistent_with(&a, &b))
            }
            CONVERT => {
                let a = first();
                consuming(move || a.clone(), published::convert)
            }
            // Where every count fits, full conformance is what the Rust asks.
            CONFORMS | FULL => {
                let (a, v) = (first(), value(&self.t1));
                repeated(move || published::typecheck_restricted_expr(&schema, &a, &v))
            }
            FOLD => {
                let list = read_list(self.limits, &self.t0).expect("a whole list");
                repeated(move || published::reduce_to_least_upper_bound(&schema, &list, Permissive))
            }
            _ => {
                let RestrictedExpr::Euid(uid) = value(&self.t0) else {
                    panic!("a literal's uid")
                };
                repeated(move || published::euid_literal(&schema, &uid))
            }
        }
    }

    /// The library's entry, which checks the schema at every call.
    pub fn unchecked(&self) -> Timed<'_> {
        let (mut out, mut work) = library::buffers(self.limits);
        repeated(move || library::entry(&self.call(), &mut out, &mut work))
    }

    /// The library with a schema that was checked before.
    pub fn checked(&self) -> Timed<'_> {
        let (mut out, mut work) = library::buffers(self.limits);
        let check = Checked::of(self.limits, &self.schema);
        repeated(move || library::through(check, &self.call(), &mut out, &mut work))
    }

    /// The answers must be the same before anything is timed.
    pub fn same_answer(&self) {
        let call = self.call();
        let told = oracle::questions::answer(&self.asked());
        let (mut out, mut work) = library::buffers(self.limits);
        let number = library::entry(&call, &mut out, &mut work);
        let entry = library::outcome(number, call.t0, &out);
        let check = Checked::of(self.limits, &self.schema);
        let number = library::through(check, &call, &mut out, &mut work);
        let through = library::outcome(number, call.t0, &out);
        assert_eq!(told, entry, "{} {}", self.operation, self.input);
        assert_eq!(told, through, "{} {}", self.operation, self.input);
    }
}

struct Decoded {
    schema: Schema,
    attr: SmolStr,
}

/// Every operation at every size.
pub fn all() -> Vec<Case> {
    SIZES.iter().flat_map(|size| of_size(*size)).collect()
}

fn of_size(size: Size) -> Vec<Case> {
    let schema = inputs::schema(size).form();
    let side = |s: u8| inputs::record(size.width, size.levels, s).form();
    let value = || inputs::value(size.width, size.levels).form();
    let case = |operation, input: &str, op, attr, t0: Vec<u8>, t1: Vec<u8>| Case {
        limits: Limits::STANDARD,
        operation,
        input: format!("{}, {}", size.name, input),
        op,
        attr,
        schema: schema.clone(),
        t0,
        t1,
    };
    let entity = inputs::entity().form();
    let names = |first: u16| Ty::Ent((0..size.width).map(|i| first + 4 * i).collect()).form();
    let list: Vec<Vec<u8>> = inputs::fold_list(size).iter().map(Ty::form).collect();
    let none = Vec::new;
    let far = size.width + 7;
    vec![
        case("is_subtype", "records", SUBTYPE, 0, side(0), side(2)),
        case(
            "typecheck_restricted_expr",
            "record",
            CONFORMS,
            0,
            side(2),
            value(),
        ),
        case(
            "typecheck_restricted_expr_exact",
            "record",
            FULL,
            0,
            side(2),
            value(),
        ),
        case("least_upper_bound", "records", BOUND, 0, side(0), side(1)),
        case(
            "reduce_to_least_upper_bound",
            "64 records",
            FOLD,
            0,
            list_form(&list),
            none(),
        ),
        case(
            "lookup_attribute_type",
            "16 types",
            LOOKUP,
            SOUGHT,
            entity.clone(),
            none(),
        ),
        case(
            "all_attributes",
            "16 types",
            NAMES,
            0,
            entity.clone(),
            none(),
        ),
        case("may_have_attr", "16 types", MAY_HAVE, far, entity, none()),
        case(
            "are_types_disjoint",
            "entities",
            DISJOINT,
            0,
            names(2),
            names(4),
        ),
        case(
            "is_consistent_with",
            "records",
            CONSISTENT,
            0,
            side(2),
            side(2),
        ),
        case("convert", "record", CONVERT, 0, side(2), none()),
        case(
            "euid_literal",
            "uid",
            LITERAL,
            0,
            Val::Uid(8, 3).form(),
            none(),
        ),
        case(
            "lookup_attribute_type",
            "record",
            LOOKUP,
            size.width - 1,
            side(2),
            none(),
        ),
        case(
            "own_attribute_type",
            "record",
            OWN,
            size.width - 1,
            side(2),
            none(),
        ),
        case("may_have_attr", "record", MAY_HAVE, far, side(2), none()),
        case(
            "are_types_disjoint",
            "records",
            DISJOINT,
            0,
            side(0),
            side(1),
        ),
    ]
}
