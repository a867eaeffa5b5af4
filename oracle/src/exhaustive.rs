//! Every question of certain small kinds, as jobs.

mod chains;
mod counts;
mod lengths;
mod tables;
mod texts;

pub use texts::each_string;

use crate::jobs::read_job;
use crate::limits::Limits;
use crate::questions::operation::*;
use crate::trees::{
    job_form, list_form, ActionEntry, Ask, Attr, EntityEntry, FunctionEntry, Sch, Ty, Val,
};
use std::collections::BTreeSet;

fn attr(name: u16, required: bool, ty: &Ty) -> Attr {
    Attr {
        name,
        required,
        ty: ty.clone(),
    }
}

/// Types of one level.
fn leaves() -> Vec<Ty> {
    let mut leaves: Vec<Ty> = [0, 1, 2, 3, 4, 5, 6, 9].map(Ty::Atom).to_vec();
    leaves.extend([vec![2], vec![4], vec![2, 4], vec![3]].map(Ty::Ent));
    leaves.extend([3, 4, 5].map(|n| Ty::Act(n, Vec::new())));
    leaves.extend([7, 8].map(Ty::Ext));
    leaves
}

/// All leaves, their sets, and records and actions of up to two attributes.
fn types() -> Vec<Ty> {
    let leaves = leaves();
    let mut types = leaves.clone();
    types.extend(leaves.iter().cloned().map(set));
    for required in [false, true] {
        types.push(Ty::Rec(required, Vec::new()));
        for t in &leaves {
            let one = vec![attr(1, required, t)];
            types.push(Ty::Rec(false, one.clone()));
            types.push(Ty::Rec(true, one.clone()));
            types.push(Ty::Act(3, one));
        }
        types.push(Ty::Rec(false, vec![attr(2, required, &Ty::Atom(4))]));
    }
    let few = [Ty::Atom(1), Ty::Atom(3), Ty::Atom(4), Ty::Ent(vec![2])];
    for flags in 0..8 {
        for x in &few {
            for y in &few[1..] {
                let attrs = vec![attr(1, flags & 1 == 1, x), attr(2, flags & 2 == 2, y)];
                types.push(Ty::Rec(flags & 4 == 4, attrs));
            }
        }
    }
    types
}

/// Every list of up to so many.
fn lists<T: Clone>(of: &[T], most: usize) -> Vec<Vec<T>> {
    let mut lists: Vec<Vec<T>> = vec![Vec::new()];
    let mut start = 0;
    for _ in 0..most {
        let end = lists.len();
        for at in start..end {
            for one in of {
                lists.push([lists[at].as_slice(), std::slice::from_ref(one)].concat());
            }
        }
        start = end;
    }
    lists
}

fn set(element: Ty) -> Ty {
    Ty::Set(Box::new(element))
}

/// What holds sets of Longs and of Strings or of unlike actions, and sets of it.
fn holders() -> Vec<Ty> {
    let one = |required, ty: &Ty| vec![attr(1, required, ty)];
    let mut holders = Vec::new();
    for element in [4, 5] {
        let of = set(Ty::Atom(element));
        for required in [false, true] {
            holders.push(Ty::Rec(false, one(required, &of)));
            holders.push(Ty::Rec(true, one(required, &of)));
            holders.push(Ty::Act(3, one(required, &of)));
            holders.push(set(Ty::Rec(required, one(true, &of))));
            holders.push(set(Ty::Act(3, one(required, &of))));
        }
        let action = Ty::Act(3, one(true, &of));
        holders.push(Ty::Rec(false, one(true, &action)));
        holders.push(Ty::Rec(false, one(true, &set(action))));
        holders.push(Ty::Act(3, one(true, &Ty::Rec(false, one(true, &of)))));
        holders.push(Ty::Rec(false, vec![attr(1, true, &of), attr(2, true, &of)]));
        holders.push(set(Ty::Act(3, vec![attr(element as u16, true, &of)])));
        holders.push(set(Ty::Rec(false, one(true, &Ty::Atom(element)))));
        holders.extend([set(of.clone()), set(set(of))]);
    }
    for name in [2, 4] {
        let entity = Ty::Ent(vec![name]);
        holders.push(Ty::Act(3, one(true, &set(entity.clone()))));
        holders.push(set(Ty::Act(3, one(true, &entity))));
        holders.push(set(set(entity)));
    }
    holders
}

/// The types of all pairs.
pub fn paired() -> Vec<Ty> {
    let mut types = types();
    types.extend(holders());
    types
}

/// The types of the lists: all leaves, some sets and records.
fn listed() -> Vec<Ty> {
    let types = types();
    let some = types[..17].iter().chain(&types[36..46]);
    let mut some: Vec<Ty> = some.chain(&types[20..24]).cloned().collect();
    for element in [4, 5] {
        let one = vec![attr(1, true, &set(Ty::Atom(element)))];
        some.push(Ty::Rec(false, one.clone()));
        some.push(set(Ty::Act(3, one)));
    }
    some.extend(
        [
            Ty::Act(3, Vec::new()),
            Ty::Rec(false, Vec::new()),
            Ty::Ent(vec![2]),
        ]
        .map(set),
    );
    some
}

fn values() -> Vec<Val> {
    let call = |f, args| Val::Call(f, args);
    let mut values = vec![
        Val::Bool(false),
        Val::Bool(true),
        Val::Long([255; 8]),
        Val::Str("é".into()),
        Val::Str(vec![255]),
        Val::Uid(2, 0),
        Val::Uid(3, 0),
        Val::Uid(4, 9),
        call(0, Vec::new()),
        call(5, Vec::new()),
        call(5, vec![Val::Bool(true)]),
        call(6, vec![call(5, Vec::new())]),
        call(6, vec![call(0, Vec::new())]),
        call(6, vec![call(6, vec![Val::Long([0; 8])])]),
        call(9, Vec::new()),
    ];
    let simple = values.clone();
    values.push(Val::Set(Vec::new()));
    values.push(Val::Rec(Vec::new()));
    for v in &simple {
        values.push(Val::Set(vec![v.clone()]));
        values.push(Val::Rec(vec![(1, v.clone())]));
        values.push(Val::Rec(vec![(1, v.clone()), (2, Val::Long([1; 8]))]));
        values.push(Val::Rec(vec![(1, Val::Bool(true)), (2, v.clone())]));
    }
    values
}

/// Present, open, enumerated and missing entity types.
fn entities() -> Vec<EntityEntry> {
    let entity = |name, enumerated, open, attrs| EntityEntry {
        name,
        enumerated,
        open,
        attrs,
    };
    let two = |r1, t1: u8, r2, t2: u8| {
        let (t1, t2) = (Ty::Atom(t1), Ty::Atom(t2));
        vec![attr(1, r1, &t1), attr(2, r2, &t2)]
    };
    vec![
        entity(0, false, false, two(true, 4, false, 1)),
        entity(2, true, false, two(false, 4, true, 2)),
        entity(4, false, true, two(true, 5, true, 3)),
        entity(6, false, false, vec![attr(3, true, &Ty::Atom(4))]),
    ]
}

/// Two actions of one type; functions that return an extension, and one that
/// does not.
fn schema() -> Sch {
    let action = |id, attrs| ActionEntry { ty: 3, id, attrs };
    let function = |name, returns, args| FunctionEntry {
        name,
        returns,
        args,
    };
    Sch {
        entities: entities(),
        actions: vec![
            action(0, vec![attr(1, false, &Ty::Atom(4))]),
            action(9, Vec::new()),
        ],
        functions: vec![
            function(5, Some(7), vec![(1, 0)]),
            function(6, Some(7), vec![(4, 7), (2, 0)]),
            function(9, None, Vec::new()),
        ],
    }
}

const MODES: [u8; 3] = [0, 1, 2];

/// Questions gathered into jobs of at most this many bytes.
const JOB: usize = 30_000;

struct Jobs {
    schema: Vec<u8>,
    asks: Vec<Ask>,
    bytes: usize,
    jobs: Vec<Vec<u8>>,
}

impl Jobs {
    fn on(schema: &Sch) -> Jobs {
        Jobs {
            schema: schema.form(),
            asks: Vec::new(),
            bytes: 0,
            jobs: Vec::new(),
        }
    }

    fn ask_all(&mut self) {
        let types: Vec<Vec<u8>> = paired().iter().map(Ty::form).collect();
        pairs(self, &types);
        singles(self, &types);
        folds(self);
        short_bytes(self);
        chains::ask_all(self);
    }

    fn closed(mut self) -> Vec<Vec<u8>> {
        self.close();
        self.jobs
    }

    fn ask(&mut self, op: u8, mode: u8, attr: u16, t0: &[u8], t1: &[u8]) {
        let bytes = 8 + t0.len() + t1.len();
        if self.bytes + bytes > JOB {
            self.close();
        }
        self.bytes += bytes;
        self.asks.push(Ask {
            op,
            mode,
            attr,
            t0: t0.to_vec(),
            t1: t1.to_vec(),
        });
    }

    /// A value, by operations 8 and 11.
    fn ask_both(&mut self, ty: &Ty, value: &Val) {
        let (ty, value) = (ty.form(), value.form());
        self.ask(CONFORMS, 0, 0, &ty, &value);
        self.ask(FULL, 0, 0, &ty, &value);
    }

    /// A job of its own, with another schema.
    fn with(&mut self, schema: &[u8], asks: &[Ask]) {
        self.jobs.push(job_form(schema, asks));
    }

    fn close(&mut self) {
        self.jobs.push(job_form(&self.schema, &self.asks));
        self.asks.clear();
        self.bytes = 0;
    }
}

/// Few levels, that the types here have and have not.
pub const FEW: [Limits; 3] = [few(1), few(2), few(3)];

const fn few(levels: usize) -> Limits {
    let bytes = Limits::LEAST.bytes;
    Limits { levels, bytes }
}

/// All jobs.
pub fn jobs() -> Vec<Vec<u8>> {
    let mut jobs = Jobs::on(&schema());
    jobs.ask_all();
    [jobs.closed(), counts::jobs(), texts::jobs()].concat()
}

/// The same with a schema that is whole under such limits, and forms around
/// their bytes.
pub fn jobs_under(limits: Limits) -> Vec<Vec<u8>> {
    let mut schema = schema();
    if limits.levels == 1 {
        schema.entities.iter_mut().for_each(|e| e.attrs.clear());
        schema.actions.iter_mut().for_each(|a| a.attrs.clear());
    }
    let mut jobs = Jobs::on(&schema);
    jobs.ask_all();
    lengths::ask_all(&mut jobs, limits.bytes);
    [jobs.closed(), counts::jobs(), texts::jobs()].concat()
}

/// What is measured: every body that these jobs ask with, and tables of bodies.
pub fn measured(jobs: &[Vec<u8>]) -> BTreeSet<Vec<u8>> {
    let jobs = jobs.iter().filter_map(|job| read_job(job));
    let questions = jobs.flat_map(|job| job.questions);
    let bodies = questions.flat_map(|q| [q.t0, q.t1]);
    let bodies = bodies.map(<[u8]>::to_vec);
    bodies.chain(tables::forms()).collect()
}

/// Every pair of types by every operation that takes two.
fn pairs(jobs: &mut Jobs, types: &[Vec<u8>]) {
    for a in types {
        for b in types {
            for mode in MODES {
                jobs.ask(SUBTYPE, mode, 0, a, b);
                jobs.ask(BOUND, mode, 0, a, b);
            }
            jobs.ask(DISJOINT, 0, 0, a, b);
            jobs.ask(CONSISTENT, 0, 0, a, b);
        }
    }
}

/// Every type with each value and each name; unions of all entity types; uids.
fn singles(jobs: &mut Jobs, types: &[Vec<u8>]) {
    let values: Vec<Vec<u8>> = values().iter().map(Val::form).collect();
    let union = |set: usize| {
        let names = (0..5)
            .filter(|at| set >> at & 1 == 1)
            .map(|at| 2 * at as u16);
        Ty::Ent(names.collect()).form()
    };
    let unions: Vec<Vec<u8>> = (0..32).map(union).collect();
    for t in types.iter().chain(&unions) {
        jobs.ask(CONVERT, 0, 0, t, &[]);
        jobs.ask(NAMES, 0, 0, t, &[]);
        for name in 0..4 {
            jobs.ask(LOOKUP, 0, name, t, &[]);
            jobs.ask(MAY_HAVE, 0, name, t, &[]);
        }
        for v in &values {
            jobs.ask(CONFORMS, 0, 0, t, v);
            jobs.ask(FULL, 0, 0, t, v);
        }
    }
    values.iter().for_each(|v| jobs.ask(LITERAL, 0, 0, v, &[]));
    for ty in 0..9 {
        for id in [0, 1, 9] {
            jobs.ask(LITERAL, 0, 0, &Val::Uid(ty, id).form(), &[]);
        }
    }
}

/// Every list of up to three of some types.
fn folds(jobs: &mut Jobs) {
    let some: Vec<Vec<u8>> = listed().iter().map(Ty::form).collect();
    for mode in MODES {
        jobs.ask(FOLD, mode, 0, &list_form(&[]), &[]);
        for a in &some {
            jobs.ask(FOLD, mode, 0, &list_form(&[a.to_vec()]), &[]);
            for b in &some {
                jobs.ask(FOLD, mode, 0, &list_form(&[a.to_vec(), b.to_vec()]), &[]);
                for c in &some {
                    let list = [a.to_vec(), b.to_vec(), c.to_vec()];
                    jobs.ask(FOLD, mode, 0, &list_form(&list), &[]);
                }
            }
        }
    }
}

/// Every run of up to two bytes as a type, a value, a list; runs of three to
/// five bytes of small numbers as a type and a value.
fn short_bytes(jobs: &mut Jobs) {
    let mut runs = vec![Vec::new()];
    runs.extend((0..=255).map(|a| vec![a]));
    for a in 0..=255 {
        runs.extend((0..=255).map(|b| vec![a, b]));
    }
    for run in &runs {
        jobs.ask(CONVERT, 0, 0, run, &[]);
        jobs.ask(CONFORMS, 0, 0, &[3], run);
        jobs.ask(FOLD, 0, 0, run, &[]);
    }
    for length in 3..=5 {
        for number in 0..6usize.pow(length - 1) {
            let digits = (0..length - 1).map(|at| (number / 6usize.pow(at) % 6) as u8);
            for kind in [5, 6, 7, 8, 10, 11, 12, 3] {
                let mut run = vec![kind];
                run.extend(digits.clone());
                jobs.ask(CONVERT, 0, 0, &run, &[]);
                jobs.ask(CONFORMS, 0, 0, &[6], &run);
            }
        }
    }
}
