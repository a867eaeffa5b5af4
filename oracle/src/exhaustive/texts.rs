//! Strings: short ones of every byte, and text beside what is not in every
//! place of a small value.

use super::{attr, set, Jobs};
use crate::generate::{BROKEN, EDGES};
use crate::questions::operation::*;
use crate::trees::{FunctionEntry, Sch, Ty, Val};

/// The ends of the ranges of first and of other bytes, and their neighbours.
const ENDS: [u8; 24] = [
    0x00, 0x7f, 0x80, 0x8f, 0x90, 0x9f, 0xa0, 0xbf, 0xc0, 0xc1, 0xc2, 0xdf, 0xe0, 0xe1, 0xec, 0xed,
    0xee, 0xef, 0xf0, 0xf1, 0xf3, 0xf4, 0xf5, 0xff,
];

/// Those of bytes behind the second.
const TAIL_ENDS: [u8; 10] = [0x00, 0x7f, 0x80, 0x8f, 0x90, 0x9f, 0xa0, 0xbf, 0xc0, 0xff];

/// Every string of up to three bytes, of four bytes every first two with ends
/// behind them, and characters and what is none among ASCII.
pub fn each_string(mut visit: impl FnMut(&[u8])) {
    each_among_ascii(&mut visit);
    visit(&[]);
    for a in 0..=255 {
        visit(&[a]);
        for b in 0..=255 {
            visit(&[a, b]);
            (0..=255).for_each(|c| visit(&[a, b, c]));
            for c in TAIL_ENDS {
                TAIL_ENDS.iter().for_each(|d| visit(&[a, b, c, *d]));
            }
        }
    }
}

/// How many bytes of ASCII stand before, and behind: every number up to two
/// blocks of 64 and one of 8, and those around a block.
const BEFORE: usize = 2 * 64 + 8;
const BEHIND: [usize; 8] = [0, 1, 7, 8, 9, 63, 64, 65];

/// Characters at the ends of their ranges, and what is no character, with ASCII
/// before and behind.
fn each_among_ascii(visit: &mut impl FnMut(&[u8])) {
    let characters = EDGES.map(|c| c.to_string().into_bytes());
    let broken = BROKEN.map(<[u8]>::to_vec);
    for one in characters.iter().chain(&broken) {
        for before in 0..=BEFORE {
            for behind in BEHIND {
                let ascii = |n| vec![b'a'; n];
                visit(&[ascii(before), one.clone(), ascii(behind)].concat());
            }
        }
    }
}

/// Every string of up to two bytes, and those of three and four that have ends
/// alone.
fn short_strings() -> Vec<Vec<u8>> {
    let mut strings = vec![Vec::new()];
    for a in 0..=255 {
        strings.push(vec![a]);
        strings.extend((0..=255).map(|b| vec![a, b]));
    }
    for a in ENDS {
        for b in ENDS {
            strings.extend(ENDS.map(|c| vec![a, b, c]));
            let four = |c| TAIL_ENDS.map(|d| vec![a, b, c, d]);
            strings.extend(TAIL_ENDS.into_iter().flat_map(four));
        }
    }
    strings
}

/// The functions: one of no argument, one of a String and its own result; and a
/// name that is neither.
const BARE: u16 = 1;
const TAKES: u16 = 2;
const UNKNOWN: u16 = 9;

const RETURNED: u16 = 7;

fn schema() -> Sch {
    let function = |name, args: &[(u8, u16)]| FunctionEntry {
        name,
        returns: Some(RETURNED),
        args: args.to_vec(),
    };
    Sch {
        functions: vec![
            function(BARE, &[]),
            function(TAKES, &[(3, 0), (4, RETURNED)]),
        ],
        ..Sch::default()
    }
}

/// Text, the two halves of a character, a call that is known, and one that is
/// not.
fn leaves() -> [Val; 5] {
    let call = |name| Val::Call(name, Vec::new());
    let string = |bytes: &[u8]| Val::Str(bytes.to_vec());
    [
        string("é".as_bytes()),
        string(&[0xc3]),
        string(&[0xa9]),
        call(BARE),
        call(UNKNOWN),
    ]
}

/// What holds these values.
fn holders(values: &[Val]) -> Vec<Val> {
    let pairs = (1..).zip(values.iter().cloned());
    let call = |name| Val::Call(name, values.to_vec());
    vec![
        Val::Set(values.to_vec()),
        Val::Rec(pairs.collect()),
        call(BARE),
        call(TAKES),
        call(UNKNOWN),
    ]
}

/// Leaves, one or two of them in every holder, and each of these in every
/// holder again.
fn values() -> Vec<Val> {
    let mut held = Vec::new();
    for v in leaves() {
        held.extend(holders(std::slice::from_ref(&v)));
        for w in leaves() {
            held.extend(holders(&[v.clone(), w]));
        }
    }
    let again = held.iter().flat_map(|v| holders(std::slice::from_ref(v)));
    let mut values: Vec<Val> = leaves().into_iter().chain(again).collect();
    values.extend(held);
    values
}

/// What the values are asked for.
fn types() -> Vec<Ty> {
    let (string, ext) = (Ty::Atom(5), Ty::Ext(RETURNED));
    let mut types = vec![Ty::Atom(4), Ty::Atom(6), set(Ty::Atom(6))];
    for ty in [string, ext] {
        types.extend([ty.clone(), set(ty.clone()), set(set(ty.clone()))]);
        for open in [false, true] {
            types.push(Ty::Rec(open, vec![attr(1, true, &ty)]));
        }
    }
    types.push(Ty::Rec(true, Vec::new()));
    types
}

/// The value where it is no literal, and with a byte over and a byte less.
fn ask_unwhole(jobs: &mut Jobs, mut value: Vec<u8>) {
    jobs.ask(LITERAL, 0, 0, &value, &[]);
    value.push(0);
    for form in [value.as_slice(), &value[..value.len() - 2]] {
        jobs.ask(CONFORMS, 0, 0, &[6], form);
        jobs.ask(FULL, 0, 0, &[6], form);
    }
}

pub fn jobs() -> Vec<Vec<u8>> {
    let mut jobs = Jobs::on(&schema());
    for string in short_strings() {
        jobs.ask_both(&Ty::Atom(5), &Val::Str(string));
    }
    let values = values();
    for ty in types() {
        values.iter().for_each(|v| jobs.ask_both(&ty, v));
    }
    values.iter().for_each(|v| ask_unwhole(&mut jobs, v.form()));
    jobs.closed()
}
