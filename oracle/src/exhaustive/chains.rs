//! Chains of sets, runs of the byte 07: of every length around the levels and
//! of some far beyond, over everything that can stand below one, in every place
//! of a type.

use super::Jobs;
use crate::questions::operation::*;
use crate::trees::{list_form, Ask};

/// How many sets: around the sixteen levels, and up to a form's bytes.
fn lengths() -> impl Iterator<Item = usize> {
    (0..=18).chain([255, 256, 4000, 4086, 4095, 4096])
}

/// What stands below a chain: nothing, one level of every kind, two levels of
/// records and actions, a byte over, a byte that is no kind.
const BELOW: [&[u8]; 14] = [
    &[],
    &[4],
    &[6],
    &[9],
    &[10, 1, 0, 2, 0],
    &[12, 7, 0],
    &[8, 0, 0, 0],
    &[8, 1, 1, 0, 1, 0, 1, 1, 0, 4],
    &[8, 0, 1, 0, 1, 0, 0, 2, 0, 7, 4],
    &[11, 3, 0, 0, 0],
    &[11, 3, 0, 1, 0, 1, 0, 1, 1, 0, 4],
    &[11, 3, 0, 1, 0, 1, 0, 1, 4, 0, 8, 0, 0, 0],
    &[4, 7],
    &[13],
];

/// The attributes 1 and 2 behind the first bytes of their holder.
fn holder(head: &[u8], bodies: [&[u8]; 2]) -> Vec<u8> {
    let mut out = [head, &[2, 0]].concat();
    for (name, body) in [1, 2].into_iter().zip(bodies) {
        out.extend([name, 0, 1]);
        out.extend((body.len() as u16).to_le_bytes());
    }
    [out.as_slice(), bodies[0], bodies[1]].concat()
}

fn record(bodies: [&[u8]; 2]) -> Vec<u8> {
    holder(&[8, 0], bodies)
}

/// A schema of two entity types or two actions with these bodies.
pub fn schema(actions: bool, bodies: [&[u8]; 2]) -> Vec<u8> {
    let mut out = match actions {
        true => vec![0, 0, 2, 0, 0, 0],
        false => vec![2, 0, 0, 0, 0, 0],
    };
    for (id, body) in [0, 1].into_iter().zip(bodies) {
        match actions {
            true => out.extend([3, 0, id, 0]),
            false => out.extend([2 + 2 * id, 0, 0]),
        }
        out.extend((body.len() as u16).to_le_bytes());
    }
    [out.as_slice(), bodies[0], bodies[1]].concat()
}

/// A form as first type, as second, and in lists.
pub fn as_type(jobs: &mut Jobs, form: &[u8]) {
    jobs.ask(CONVERT, 0, 0, form, &[]);
    jobs.ask(DISJOINT, 0, 0, form, &[4]);
    jobs.ask(DISJOINT, 0, 0, &[4], form);
    jobs.ask(SUBTYPE, 1, 0, form, form);
    jobs.ask(BOUND, 0, 0, &[0], form);
    jobs.ask(BOUND, 2, 0, form, &[7, 7, 5]);
    for list in [vec![form.to_vec()], vec![vec![0], form.to_vec()]] {
        jobs.ask(FOLD, 0, 0, &list_form(&list), &[]);
    }
}

/// A schema under questions that find its entries.
pub fn as_schema(jobs: &mut Jobs, schema: &[u8]) {
    let ask = |op, attr, t0: &[u8]| Ask {
        op,
        mode: 0,
        attr,
        t0: t0.to_vec(),
        t1: Vec::new(),
    };
    let asks = [
        ask(LOOKUP, 1, &[10, 1, 0, 2, 0]),
        ask(NAMES, 0, &[10, 1, 0, 4, 0]),
        ask(LITERAL, 0, &[4, 3, 0, 1, 0]),
    ];
    jobs.with(schema, &asks);
}

/// The two parts that a form falls into at each place, its ends included.
fn cuts(form: &[u8]) -> impl Iterator<Item = [&[u8]; 2]> {
    (0..=form.len()).map(|at| [&form[..at], &form[at..]])
}

pub fn ask_all(jobs: &mut Jobs) {
    for length in lengths() {
        for below in BELOW {
            let chain = [&vec![7; length], below].concat();
            as_type(jobs, &chain);
            let held = record([&chain, &[4]]);
            as_type(jobs, &held);
            for actions in [false, true] {
                as_schema(jobs, &schema(actions, [&held, &[8, 0, 0, 0]]));
            }
            if length <= 18 {
                each_cut(jobs, &chain);
            }
        }
    }
}

/// Bodies that end within the chain, or behind it: of a record, of an action,
/// of a list, of a schema's entries.
fn each_cut(jobs: &mut Jobs, chain: &[u8]) {
    for bodies in cuts(chain) {
        jobs.ask(CONVERT, 0, 0, &record(bodies), &[]);
        jobs.ask(DISJOINT, 0, 0, &[4], &holder(&[11, 3, 0], bodies));
        let list = list_form(&bodies.map(<[u8]>::to_vec));
        jobs.ask(FOLD, 1, 0, &list, &[]);
        as_schema(jobs, &schema(false, [&record(bodies), &[8, 0, 0, 0]]));
    }
    let behind = [record([&[4], chain]).as_slice(), &[8, 0, 0, 0]].concat();
    for bodies in cuts(&behind) {
        as_schema(jobs, &schema(true, bodies));
    }
}
