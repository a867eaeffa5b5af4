//! Calls with every small count: of functions that declare up to two arguments,
//! up to two calls deep, in sets and records, beside calls that are known and
//! unknown, and where no walk looks.

use super::{attr, lists, set, Jobs};
use crate::trees::{FunctionEntry, Sch, Ty, Val};

/// The functions, and a name that is none of them.
const OUTER: u16 = 1;
const INNER: u16 = 2;
const UNKNOWN: u16 = 9;

/// The extension that is asked for, and another.
const ASKED: u16 = 7;
const OTHER: u16 = 8;

const BOOL: (u8, u16) = (1, 0);
const CALL: (u8, u16) = (4, ASKED);

/// What the outer function may declare, and the inner one.
const OUTER_ARGS: [&[(u8, u16)]; 7] = [
    &[],
    &[BOOL],
    &[BOOL, BOOL],
    &[CALL],
    &[CALL, BOOL],
    &[BOOL, CALL],
    &[CALL, CALL],
];
const INNER_ARGS: [&[(u8, u16)]; 3] = [&[], &[BOOL], &[BOOL, BOOL]];

fn schemas() -> impl Iterator<Item = Sch> {
    let function = |name, returns, args: &[(u8, u16)]| FunctionEntry {
        name,
        returns: Some(returns),
        args: args.to_vec(),
    };
    let schema = move |outer, returns, inner| Sch {
        functions: vec![
            function(OUTER, ASKED, outer),
            function(INNER, returns, inner),
        ],
        ..Sch::default()
    };
    OUTER_ARGS.into_iter().flat_map(move |outer| {
        let inner = INNER_ARGS.into_iter();
        inner.flat_map(move |inner| [ASKED, OTHER].map(|returns| schema(outer, returns, inner)))
    })
}

const TRUE: Val = Val::Bool(true);

fn call(name: u16, args: &[Val]) -> Val {
    Val::Call(name, args.to_vec())
}

/// What the outer function is called with.
fn arguments() -> [Val; 7] {
    [
        TRUE,
        Val::Str(Vec::new()),
        call(INNER, &[]),
        call(INNER, &[TRUE]),
        call(INNER, &[TRUE, TRUE]),
        call(UNKNOWN, &[]),
        call(OUTER, &[]),
    ]
}

/// Calls of the outer function with up to so many of them.
fn calls(most: usize) -> Vec<Val> {
    let lists = lists(&arguments(), most);
    lists.iter().map(|args| call(OUTER, args)).collect()
}

/// A call inside a call, with up to two arguments beside it.
fn around(inner: &Val) -> [Val; 4] {
    let with = |args: &[&Val]| Val::Call(OUTER, args.iter().copied().cloned().collect());
    [
        with(&[inner]),
        with(&[inner, &TRUE]),
        with(&[&TRUE, inner]),
        with(&[inner, &TRUE, &TRUE]),
    ]
}

/// Two values in sets and records, with the types that they are asked for.
fn held(v: &Val, w: &Val) -> Vec<(Ty, Val)> {
    let ext = Ty::Ext(ASKED);
    let (one, two) = (attr(1, true, &ext), attr(2, false, &ext));
    let closed = Ty::Rec(false, vec![one.clone(), two]);
    let open = Ty::Rec(true, vec![one]);
    let sets = |a: &Val, b: &Val| Val::Set(vec![a.clone(), b.clone()]);
    let record = |a: &Val, b: &Val| Val::Rec(vec![(1, a.clone()), (2, b.clone())]);
    let alone = |v: &Val| Val::Set(vec![v.clone()]);
    vec![
        (set(ext.clone()), sets(v, w)),
        (set(ext.clone()), sets(w, v)),
        (closed.clone(), record(v, w)),
        (closed, record(w, v)),
        (open, record(w, v)),
        (set(set(ext)), sets(&alone(v), &alone(w))),
        (Ty::Atom(6), sets(v, w)),
    ]
}

fn ask_all(jobs: &mut Jobs) {
    let ext = Ty::Ext(ASKED);
    calls(3).iter().for_each(|v| jobs.ask_both(&ext, v));
    for v in calls(2) {
        around(&v).iter().for_each(|v| jobs.ask_both(&ext, v));
        for w in arguments() {
            let held = held(&v, &w);
            held.iter().for_each(|(ty, v)| jobs.ask_both(ty, v));
        }
    }
}

/// All of them, under every schema.
pub fn jobs() -> Vec<Vec<u8>> {
    let asked = |schema| {
        let mut jobs = Jobs::on(&schema);
        ask_all(&mut jobs);
        jobs.closed()
    };
    schemas().flat_map(asked).collect()
}
