//! Forms around a form length, in every place.

use super::chains::{as_schema, as_type, schema};
use super::{attr, Jobs};
use crate::generate::{names, union_of_length};
use crate::questions::operation::*;
use crate::trees::{list_form, Ty, Val};

/// Types of that length: a union, and holders of one.
fn types(length: usize) -> [Ty; 3] {
    let below = |head: usize| vec![attr(1, true, &union_of_length(length - head, 0))];
    [
        union_of_length(length, 0),
        Ty::Rec(false, below(9)),
        Ty::Act(3, below(10)),
    ]
}

/// Two unions whose bound has about that length.
fn unions(length: usize) -> [Vec<u8>; 2] {
    let total = (length - 3) / 2;
    let left = total / 2;
    let union = |start, count| Ty::Ent(names(start, count)).form();
    [union(0, left), union(left, total - left)]
}

pub fn ask_all(jobs: &mut Jobs, bytes: usize) {
    for length in bytes - 2..=bytes + 2 {
        for ty in types(length) {
            as_type(jobs, &ty.form());
        }
        let body = types(length)[1].form();
        for actions in [false, true] {
            as_schema(jobs, &schema(actions, [&[8, 0, 0, 0], &body]));
        }
        let string = Val::Str(vec![65; length - 3]).form();
        let set = Val::Set(vec![Val::Str(vec![65; length - 8])]).form();
        for value in [string, set] {
            for op in [CONFORMS, FULL] {
                jobs.ask(op, 0, 0, &[5], &value);
                jobs.ask(op, 0, 0, &[6], &value);
            }
            jobs.ask(LITERAL, 0, 0, &value, &[]);
        }
        let [a, b] = unions(length);
        for mode in 0..3 {
            jobs.ask(BOUND, mode, 0, &a, &b);
            let list = list_form(&[a.clone(), b.clone()]);
            jobs.ask(FOLD, mode, 0, &list, &[]);
        }
    }
}
