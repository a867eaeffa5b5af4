//! Every operation on forms as large as the largest limits allow, beside forms
//! as large as the standard ones allow.

use crate::cases::Case;
use crate::counts;
use crate::figure;
use crate::inputs::{record, value, widest};
use crate::library::OWN;
use crate::timing::best;
use oracle::limits::Limits;
use oracle::questions::operation::*;
use oracle::trees::{list_form, ActionEntry, Attr, EntityEntry, Sch, Ty, Val};

/// Entity types of the schema: three bodies of 8,192 bytes fit into one.
const TYPES: u16 = 3;

/// What the cases of a schema share.
struct Under {
    limits: Limits,
    schema: Vec<u8>,
}

impl Under {
    /// An operation with its name, on one form or two.
    fn case(&self, operation: (&'static str, u8), attr: u16, input: &str, forms: &[&[u8]]) -> Case {
        Case {
            limits: self.limits,
            operation: operation.0,
            input: input.to_string(),
            op: operation.1,
            attr,
            schema: self.schema.clone(),
            t0: forms[0].to_vec(),
            t1: forms.get(1).map_or(Vec::new(), |form| form.to_vec()),
        }
    }
}

fn attributes_of(ty: Ty) -> Vec<Attr> {
    match ty {
        Ty::Rec(_, attrs) => attrs,
        _ => unreachable!("a record"),
    }
}

/// Records and values, under an empty schema.
fn of_records(limits: Limits) -> Vec<Case> {
    let levels = limits.levels;
    let side = |width, s| record(width, levels, s).form();
    let width = widest(limits.bytes, |width| side(width, 0));
    let [a, b, c] = [0, 1, 2].map(|s| side(width, s));
    let list = list_form(&[a.clone(), b.clone(), a.clone()]);
    let few = widest(limits.bytes, |width| value(width, levels).form());
    let (typed, of_value) = (value(few, levels).form(), side(few, 2));
    let schema = Sch::default().form();
    let under = Under { limits, schema };
    let one = |operation, attr| under.case(operation, attr, "record", &[&c]);
    let two = |operation, a, b| under.case(operation, 0, "records", &[a, b]);
    let conforms = ("typecheck_restricted_expr", CONFORMS);
    let full = ("typecheck_restricted_expr_exact", FULL);
    let fold = ("reduce_to_least_upper_bound", FOLD);
    vec![
        two(("is_subtype", SUBTYPE), &a, &c),
        under.case(conforms, 0, "record", &[&of_value, &typed]),
        under.case(full, 0, "record", &[&of_value, &typed]),
        two(("least_upper_bound", BOUND), &a, &b),
        under.case(fold, 0, "3 records", &[&list]),
        two(("is_consistent_with", CONSISTENT), &c, &c),
        one(("convert", CONVERT), 0),
        one(("lookup_attribute_type", LOOKUP), width - 1),
        one(("own_attribute_type", OWN), width - 1),
        one(("may_have_attr", MAY_HAVE), width),
        two(("are_types_disjoint", DISJOINT), &a, &b),
    ]
}

/// Entity types 2, 4, 6 whose bodies are records with as many levels as may be.
fn of_entities(limits: Limits) -> Vec<Case> {
    let body = |width, side| record(width, limits.levels, side);
    let width = widest(limits.bytes, |width| body(width, 0).form());
    let entry = |i: u16| EntityEntry {
        name: 2 * (i + 1),
        enumerated: false,
        open: false,
        attrs: attributes_of(body(width, (i % 2) as u8)),
    };
    let schema = Sch {
        entities: (0..TYPES).map(entry).collect(),
        ..Sch::default()
    };
    let schema = schema.form();
    let entity = Ty::Ent((0..TYPES).map(|i| 2 * (i + 1)).collect()).form();
    let names = |first: u16| {
        let count = (limits.bytes as u16 - 3) / 2;
        Ty::Ent((0..count).map(|i| first + 4 * i).collect()).form()
    };
    let under = Under { limits, schema };
    let of_types = |operation, attr| under.case(operation, attr, "3 types", &[&entity]);
    let disjoint = ("are_types_disjoint", DISJOINT);
    vec![
        of_types(("lookup_attribute_type", LOOKUP), width - 1),
        of_types(("all_attributes", NAMES), 0),
        of_types(("may_have_attr", MAY_HAVE), width),
        under.case(disjoint, 0, "entities", &[&names(2), &names(4)]),
    ]
}

/// The literal of an action, which has a byte more than the action's body.
fn of_action(limits: Limits) -> Case {
    let body = |width| record(width, limits.levels, 2);
    let width = widest(limits.bytes - 1, |width| body(width).form());
    let schema = Sch {
        actions: vec![ActionEntry {
            ty: 3,
            id: 0,
            attrs: attributes_of(body(width)),
        }],
        ..Sch::default()
    };
    let schema = schema.form();
    let literal = ("euid_literal", LITERAL);
    Under { limits, schema }.case(literal, 0, "action", &[&Val::Uid(3, 0).form()])
}

fn all(limits: Limits) -> Vec<Case> {
    let mut cases = of_records(limits);
    cases.extend(of_entities(limits));
    cases.push(of_action(limits));
    cases.extend(counts::deepest(limits));
    cases
}

/// What a call may look at: its forms, and a schema's bodies where it reads one.
fn bytes(case: &Case) -> usize {
    let schema = match case.op {
        DISJOINT => 0,
        _ => case.schema.len(),
    };
    schema + case.t0.len() + case.t1.len()
}

/// The Rust's time, where it ends and is the Rust's: its consistency test doubles
/// with each level, and the arguments of calls are a stand-in's.
fn published(case: &Case) -> Option<f64> {
    let left_out = case.op == CONSISTENT || case.input == counts::CALLS;
    (!left_out).then(|| best(&mut [case.published()])[0])
}

fn row(small: &Case, large: &Case) {
    let ns = best(&mut [small.checked(), large.checked()]);
    let (rust, ratio) = match published(large) {
        Some(rust) => (figure(rust), format!("{:.2}", rust / ns[1])),
        None => ("-".to_string(), "-".to_string()),
    };
    println!(
        "| {} | {} | {} | {} | {} | {} | {:.2} | {rust} | {ratio} |",
        large.operation,
        large.input,
        bytes(small),
        figure(ns[0]),
        bytes(large),
        figure(ns[1]),
        ns[1] / bytes(large) as f64 * bytes(small) as f64 / ns[0],
    );
}

pub fn print() {
    let (small, large) = (all(Limits::STANDARD), all(Limits::LARGEST));
    small.iter().chain(&large).for_each(Case::same_answer);
    println!("| Operation | Input | bytes, 16 levels | ns | bytes, 32 levels | ns | growth of a byte's time | Rust, 32 levels, ns | ratio |");
    println!("|---|---|---|---|---|---|---|---|---|");
    for (small, large) in small.iter().zip(&large) {
        row(small, large);
    }
}
