//! The harness through the C interface: the oracle itself behind it, and
//! entries that break one promise each.

use oracle::candidates::Candidate;
use oracle::generate::Gen;
use oracle::harness::{difference, judged};
use oracle::library::{Checked, CheckedLibrary, Entries, Library, M, P};
use oracle::limits::Limits;
use oracle::questions::{answer, lookup_part, operation::*, Call, Outcome, Part};
use oracle::rounds::Round;
use std::slice::{from_raw_parts, from_raw_parts_mut};

unsafe fn part<'a>(p: P, n: usize) -> &'a [u8] {
    from_raw_parts(p, n)
}

/// Answer a call, write into the buffers, and number the answer.
unsafe fn number(call: Call<'_>, out: M, work: M) -> u64 {
    from_raw_parts_mut(work, call.work).fill(0);
    let told = |kind: u64, length: usize, levels: usize| {
        kind | (length as u64) << 8 | (levels as u64) << 24
    };
    let write = |kind: u64, form: &[u8], levels: usize| {
        from_raw_parts_mut(out, form.len()).copy_from_slice(form);
        told(kind, form.len(), levels)
    };
    match answer(&call) {
        Outcome::Refused(n) => (n as u64) << 8,
        Outcome::Yes => 1,
        Outcome::No => 2,
        Outcome::Nothing => 3,
        Outcome::Typed(w) => write(4, &w.form, w.levels),
        Outcome::Attribute(required, w) => write(5 + required as u64, &w.form, w.levels),
        Outcome::Named(form) => write(4, &form, 0),
        Outcome::Measured(length, levels) => told(9, length, levels),
    }
}

/// A call without buffers.
#[rustfmt::skip]
unsafe fn plain<'a>(
    levels: usize, bytes: usize, op: u8, mode: u8, attr: u16, s: &'a [u8], a: &'a [u8], b: &'a [u8],
) -> Call<'a> {
    Call {
        limits: Limits { levels, bytes },
        op,
        mode,
        attr,
        schema: s,
        t0: a,
        t1: b,
        room: 0,
        work: 0,
    }
}

static mut NONE: [u8; 1] = [0];

fn none() -> M {
    &raw mut NONE as M
}

unsafe extern "C" fn is_subtype(
    l: usize,
    y: usize,
    m: u8,
    s: P,
    sn: usize,
    a: P,
    an: usize,
    b: P,
    bn: usize,
) -> u64 {
    let call = plain(l, y, SUBTYPE, m, 0, part(s, sn), part(a, an), part(b, bn));
    number(call, none(), none())
}

#[rustfmt::skip]
unsafe extern "C" fn least_upper_bound(
    l: usize, y: usize, m: u8, s: P, sn: usize, a: P, an: usize, b: P, bn: usize, o: M, on: usize,
) -> u64 {
    let call = plain(l, y, BOUND, m, 0, part(s, sn), part(a, an), part(b, bn));
    number(Call { room: on, ..call }, o, none())
}

unsafe extern "C" fn are_types_disjoint(
    l: usize,
    y: usize,
    a: P,
    an: usize,
    b: P,
    bn: usize,
) -> u64 {
    let call = plain(l, y, DISJOINT, 0, 0, &[], part(a, an), part(b, bn));
    number(call, none(), none())
}

#[rustfmt::skip]
unsafe extern "C" fn lookup_attribute_type(
    l: usize, y: usize, s: P, sn: usize, n: u16, a: P, an: usize, o: M, on: usize, w: M, wn: usize,
) -> u64 {
    let call = plain(l, y, LOOKUP, 0, n, part(s, sn), part(a, an), &[]);
    number(Call { room: on, work: wn, ..call }, o, w)
}

unsafe extern "C" fn own_attribute_type(
    l: usize,
    y: usize,
    s: P,
    sn: usize,
    n: u16,
    a: P,
    an: usize,
) -> u64 {
    match lookup_part(&plain(l, y, LOOKUP, 0, n, part(s, sn), part(a, an), &[])) {
        Part::Refused(n) => (n as u64) << 8,
        Part::Nothing => 3,
        Part::Attribute(required, at) => {
            let kind = 7 + required as u64;
            kind | (at.start as u64) << 8 | (at.end as u64) << 24
        }
    }
}

unsafe extern "C" fn may_have_attr(
    l: usize,
    y: usize,
    s: P,
    sn: usize,
    n: u16,
    a: P,
    an: usize,
) -> u64 {
    let call = plain(l, y, MAY_HAVE, 0, n, part(s, sn), part(a, an), &[]);
    number(call, none(), none())
}

#[rustfmt::skip]
unsafe extern "C" fn all_attributes(
    l: usize, y: usize, s: P, sn: usize, a: P, an: usize, o: M, on: usize, w: M, wn: usize,
) -> u64 {
    let call = plain(l, y, NAMES, 0, 0, part(s, sn), part(a, an), &[]);
    number(Call { room: on, work: wn, ..call }, o, w)
}

unsafe extern "C" fn is_consistent_with(
    l: usize,
    y: usize,
    a: P,
    an: usize,
    b: P,
    bn: usize,
) -> u64 {
    let call = plain(l, y, CONSISTENT, 0, 0, &[], part(a, an), part(b, bn));
    number(call, none(), none())
}

unsafe extern "C" fn convert(l: usize, y: usize, a: P, an: usize, o: M, on: usize) -> u64 {
    let call = plain(l, y, CONVERT, 0, 0, &[], part(a, an), &[]);
    number(Call { room: on, ..call }, o, none())
}

unsafe extern "C" fn conforms(
    l: usize,
    y: usize,
    s: P,
    sn: usize,
    a: P,
    an: usize,
    b: P,
    bn: usize,
) -> u64 {
    let call = plain(l, y, CONFORMS, 0, 0, part(s, sn), part(a, an), part(b, bn));
    number(call, none(), none())
}

#[rustfmt::skip]
unsafe extern "C" fn full(
    l: usize, y: usize, s: P, sn: usize, a: P, an: usize, b: P, bn: usize,
) -> u64 {
    let call = plain(l, y, FULL, 0, 0, part(s, sn), part(a, an), part(b, bn));
    number(call, none(), none())
}

#[rustfmt::skip]
unsafe extern "C" fn fold(
    l: usize, y: usize, m: u8, s: P, sn: usize, a: P, an: usize, o: M, on: usize, w: M, wn: usize,
) -> u64 {
    let call = plain(l, y, FOLD, m, 0, part(s, sn), part(a, an), &[]);
    number(Call { room: on, work: wn, ..call }, o, w)
}

unsafe extern "C" fn euid_literal(
    l: usize,
    y: usize,
    s: P,
    sn: usize,
    a: P,
    an: usize,
    o: M,
    on: usize,
) -> u64 {
    let call = plain(l, y, LITERAL, 0, 0, part(s, sn), part(a, an), &[]);
    number(Call { room: on, ..call }, o, none())
}

unsafe extern "C" fn measure_type(l: usize, y: usize, a: P, an: usize) -> u64 {
    let call = plain(l, y, MEASURE_TYPE, 0, 0, &[], part(a, an), &[]);
    number(call, none(), none())
}

unsafe extern "C" fn measure_value(l: usize, y: usize, a: P, an: usize) -> u64 {
    let call = plain(l, y, MEASURE_VALUE, 0, 0, &[], part(a, an), &[]);
    number(call, none(), none())
}

const ORACLE: Entries = Entries {
    is_subtype,
    least_upper_bound,
    are_types_disjoint,
    lookup_attribute_type,
    own_attribute_type,
    may_have_attr,
    all_attributes,
    is_consistent_with,
    convert,
    typecheck_restricted_expr: conforms,
    typecheck_restricted_expr_exact: full,
    reduce_to_least_upper_bound: fold,
    euid_literal,
    measure_type,
    measure_value,
};

/// The number of a schema here: its length and its limits, for the entries to
/// see and to use; limits outside their ranges have one number.
unsafe extern "C" fn check_schema(levels: usize, bytes: usize, _: P, sn: usize) -> u64 {
    match (Limits { levels, bytes }).allowed() {
        true => (sn as u64) << 32 | (levels as u64) << 16 | bytes as u64,
        false => u64::MAX,
    }
}

/// The limits of a schema's number.
fn kept(c: u64, sn: usize) -> (usize, usize) {
    if c == u64::MAX {
        return (0, 0);
    }
    assert_eq!(c >> 32, sn as u64);
    ((c >> 16 & 0xffff) as usize, (c & 0xffff) as usize)
}

#[rustfmt::skip]
unsafe extern "C" fn is_subtype_checked(
    s: P, sn: usize, c: u64, m: u8, a: P, an: usize, b: P, bn: usize,
) -> u64 {
    let (l, y) = kept(c, sn);
    is_subtype(l, y, m, s, sn, a, an, b, bn)
}

#[rustfmt::skip]
unsafe extern "C" fn least_upper_bound_checked(
    s: P, sn: usize, c: u64, m: u8, a: P, an: usize, b: P, bn: usize, o: M, on: usize,
) -> u64 {
    let (l, y) = kept(c, sn);
    least_upper_bound(l, y, m, s, sn, a, an, b, bn, o, on)
}

#[rustfmt::skip]
unsafe extern "C" fn lookup_attribute_type_checked(
    s: P, sn: usize, c: u64, n: u16, a: P, an: usize, o: M, on: usize, w: M, wn: usize,
) -> u64 {
    let (l, y) = kept(c, sn);
    lookup_attribute_type(l, y, s, sn, n, a, an, o, on, w, wn)
}

#[rustfmt::skip]
unsafe extern "C" fn own_attribute_type_checked(
    s: P, sn: usize, c: u64, n: u16, a: P, an: usize,
) -> u64 {
    let (l, y) = kept(c, sn);
    own_attribute_type(l, y, s, sn, n, a, an)
}

#[rustfmt::skip]
unsafe extern "C" fn may_have_attr_checked(
    s: P, sn: usize, c: u64, n: u16, a: P, an: usize,
) -> u64 {
    let (l, y) = kept(c, sn);
    may_have_attr(l, y, s, sn, n, a, an)
}

#[rustfmt::skip]
unsafe extern "C" fn all_attributes_checked(
    s: P, sn: usize, c: u64, a: P, an: usize, o: M, on: usize, w: M, wn: usize,
) -> u64 {
    let (l, y) = kept(c, sn);
    all_attributes(l, y, s, sn, a, an, o, on, w, wn)
}

#[rustfmt::skip]
unsafe extern "C" fn conforms_checked(
    s: P, sn: usize, c: u64, a: P, an: usize, b: P, bn: usize,
) -> u64 {
    let (l, y) = kept(c, sn);
    conforms(l, y, s, sn, a, an, b, bn)
}

#[rustfmt::skip]
unsafe extern "C" fn full_checked(
    s: P, sn: usize, c: u64, a: P, an: usize, b: P, bn: usize,
) -> u64 {
    let (l, y) = kept(c, sn);
    full(l, y, s, sn, a, an, b, bn)
}

#[rustfmt::skip]
unsafe extern "C" fn fold_checked(
    s: P, sn: usize, c: u64, m: u8, a: P, an: usize, o: M, on: usize, w: M, wn: usize,
) -> u64 {
    let (l, y) = kept(c, sn);
    fold(l, y, m, s, sn, a, an, o, on, w, wn)
}

#[rustfmt::skip]
unsafe extern "C" fn euid_literal_checked(
    s: P, sn: usize, c: u64, a: P, an: usize, o: M, on: usize,
) -> u64 {
    let (l, y) = kept(c, sn);
    euid_literal(l, y, s, sn, a, an, o, on)
}

const CHECKED: Checked = Checked {
    check_schema,
    is_subtype: is_subtype_checked,
    least_upper_bound: least_upper_bound_checked,
    lookup_attribute_type: lookup_attribute_type_checked,
    own_attribute_type: own_attribute_type_checked,
    may_have_attr: may_have_attr_checked,
    all_attributes: all_attributes_checked,
    typecheck_restricted_expr: conforms_checked,
    typecheck_restricted_expr_exact: full_checked,
    reduce_to_least_upper_bound: fold_checked,
    euid_literal: euid_literal_checked,
};

/// Jobs, and rounds under drawn limits, with a difference.
fn differences(candidate: &mut dyn Candidate) -> usize {
    let mut gen = Gen::new(5);
    let jobs = (0..2000).filter(|_| difference(candidate, &judged(&mut gen)).is_some());
    let jobs = jobs.count();
    let rounds = (0..2000).filter(|_| Round::drawn(&mut gen).difference(candidate).is_some());
    jobs + rounds.count()
}

#[test]
fn the_oracle_agrees_with_itself() {
    assert_eq!(differences(&mut Library(ORACLE)), 0);
    assert_eq!(differences(&mut CheckedLibrary(ORACLE, CHECKED)), 0);
}

/// A refusal that writes.
#[rustfmt::skip]
unsafe extern "C" fn bound_writes_when_refused(
    l: usize, y: usize, m: u8, s: P, sn: usize, a: P, an: usize, b: P, bn: usize, o: M, on: usize,
) -> u64 {
    if on > 0 {
        *o = 0;
    }
    least_upper_bound(l, y, m, s, sn, a, an, b, bn, o, on)
}

/// In mode 2, a byte of the elements behind 06.
#[rustfmt::skip]
unsafe extern "C" fn bound_leaves_elements(
    l: usize, y: usize, m: u8, s: P, sn: usize, a: P, an: usize, b: P, bn: usize, o: M, on: usize,
) -> u64 {
    let n = least_upper_bound(l, y, m, s, sn, a, an, b, bn, o, on);
    if m == 2 && n == 4 | 1 << 8 | 1 << 24 && on > 1 && *o == 6 {
        *o.add(1) = 4;
    }
    n
}

/// A byte past the answer.
#[rustfmt::skip]
unsafe extern "C" fn convert_writes_past(l: usize, y: usize, a: P, an: usize, o: M, on: usize) -> u64 {
    let n = convert(l, y, a, an, o, on);
    let length = (n >> 8 & 0xffff) as usize;
    if n & 255 == 4 && length < on {
        *o.add(length) = 0;
    }
    n
}

/// A workspace that is not zeroed.
#[rustfmt::skip]
unsafe extern "C" fn fold_leaves_workspace(
    l: usize, y: usize, m: u8, s: P, sn: usize, a: P, an: usize, o: M, on: usize, w: M, wn: usize,
) -> u64 {
    let n = fold(l, y, m, s, sn, a, an, o, on, w, wn);
    if wn > 0 {
        *w.add(wn - 1) = 1;
    }
    n
}

/// A part that starts a byte too early.
unsafe extern "C" fn part_starts_early(
    l: usize,
    y: usize,
    s: P,
    sn: usize,
    n: u16,
    a: P,
    an: usize,
) -> u64 {
    let number = own_attribute_type(l, y, s, sn, n, a, an);
    match number & 255 {
        7 | 8 => number - (1 << 8),
        _ => number,
    }
}

/// The standard limits, whatever the call has.
#[rustfmt::skip]
unsafe extern "C" fn disjoint_at_the_standard(
    _: usize, _: usize, a: P, an: usize, b: P, bn: usize,
) -> u64 {
    are_types_disjoint(16, 4096, a, an, b, bn)
}

/// A workspace that is not zeroed where the limits are refused.
#[rustfmt::skip]
unsafe extern "C" fn names_spare_workspace(
    l: usize, y: usize, s: P, sn: usize, a: P, an: usize, o: M, on: usize, w: M, wn: usize,
) -> u64 {
    match (Limits { levels: l, bytes: y }).allowed() {
        true => all_attributes(l, y, s, sn, a, an, o, on, w, wn),
        false => 20 << 8,
    }
}

/// A yes where a string is not UTF-8.
#[rustfmt::skip]
unsafe extern "C" fn conforms_unexamined(
    l: usize, y: usize, s: P, sn: usize, a: P, an: usize, b: P, bn: usize,
) -> u64 {
    unexamined(conforms(l, y, s, sn, a, an, b, bn))
}

#[rustfmt::skip]
unsafe extern "C" fn full_unexamined(
    l: usize, y: usize, s: P, sn: usize, a: P, an: usize, b: P, bn: usize,
) -> u64 {
    unexamined(full(l, y, s, sn, a, an, b, bn))
}

#[rustfmt::skip]
unsafe extern "C" fn full_unexamined_checked(
    s: P, sn: usize, c: u64, a: P, an: usize, b: P, bn: usize,
) -> u64 {
    unexamined(full_checked(s, sn, c, a, an, b, bn))
}

fn unexamined(number: u64) -> u64 {
    match number {
        NOT_TEXT => 1,
        other => other,
    }
}

const NOT_TEXT: u64 = 17 << 8;

/// The levels of a number that tells some, changed.
fn with_levels(number: u64, levels: impl Fn(u64) -> u64) -> u64 {
    match number & 255 {
        4 | 5 | 6 | 9 => number & 0xff_ffff | levels(number >> 24) << 24,
        _ => number,
    }
}

/// The levels of the first type, whatever the bound has.
#[rustfmt::skip]
unsafe extern "C" fn bound_tells_the_first(
    l: usize, y: usize, m: u8, s: P, sn: usize, a: P, an: usize, b: P, bn: usize, o: M, on: usize,
) -> u64 {
    let first = measure_type(l, y, a, an) >> 24;
    with_levels(least_upper_bound(l, y, m, s, sn, a, an, b, bn, o, on), |_| first)
}

/// No levels.
unsafe extern "C" fn convert_tells_none(
    l: usize,
    y: usize,
    a: P,
    an: usize,
    o: M,
    on: usize,
) -> u64 {
    with_levels(convert(l, y, a, an, o, on), |_| 0)
}

/// Levels of a name list.
#[rustfmt::skip]
unsafe extern "C" fn names_tell_levels(
    l: usize, y: usize, s: P, sn: usize, a: P, an: usize, o: M, on: usize, w: M, wn: usize,
) -> u64 {
    with_levels(all_attributes(l, y, s, sn, a, an, o, on, w, wn), |_| 1)
}

/// A level too many of a type that is more than one.
unsafe extern "C" fn measure_one_more(l: usize, y: usize, a: P, an: usize) -> u64 {
    with_levels(measure_type(l, y, a, an), |levels| {
        levels + (levels > 1) as u64
    })
}

/// A value measured where a string is not UTF-8.
unsafe extern "C" fn measure_unexamined(l: usize, y: usize, a: P, an: usize) -> u64 {
    match measure_value(l, y, a, an) {
        NOT_TEXT => 9 | (an as u64) << 8 | 1 << 24,
        other => other,
    }
}

/// One level of what is found with a schema checked before.
#[rustfmt::skip]
unsafe extern "C" fn lookup_tells_one_checked(
    s: P, sn: usize, c: u64, n: u16, a: P, an: usize, o: M, on: usize, w: M, wn: usize,
) -> u64 {
    with_levels(lookup_attribute_type_checked(s, sn, c, n, a, an, o, on, w, wn), |_| 1)
}

/// A check that keeps the standard limits.
unsafe extern "C" fn check_at_the_standard(_: usize, _: usize, s: P, sn: usize) -> u64 {
    check_schema(16, 4096, s, sn)
}

#[test]
fn broken_checks_are_seen() {
    let broken = [
        Checked {
            check_schema: check_at_the_standard,
            ..CHECKED
        },
        Checked {
            typecheck_restricted_expr_exact: conforms_checked,
            ..CHECKED
        },
        Checked {
            typecheck_restricted_expr: full_checked,
            ..CHECKED
        },
        Checked {
            typecheck_restricted_expr_exact: full_unexamined_checked,
            ..CHECKED
        },
        Checked {
            lookup_attribute_type: lookup_tells_one_checked,
            ..CHECKED
        },
    ];
    for checked in broken {
        assert!(differences(&mut CheckedLibrary(ORACLE, checked)) > 0);
    }
}

/// Each with one entry that breaks a promise.
const BROKEN: [Entries; 18] = [
    Entries {
        least_upper_bound: bound_writes_when_refused,
        ..ORACLE
    },
    Entries {
        least_upper_bound: bound_leaves_elements,
        ..ORACLE
    },
    Entries {
        convert: convert_writes_past,
        ..ORACLE
    },
    Entries {
        own_attribute_type: part_starts_early,
        ..ORACLE
    },
    Entries {
        reduce_to_least_upper_bound: fold_leaves_workspace,
        ..ORACLE
    },
    Entries {
        are_types_disjoint: disjoint_at_the_standard,
        ..ORACLE
    },
    Entries {
        all_attributes: names_spare_workspace,
        ..ORACLE
    },
    Entries {
        typecheck_restricted_expr_exact: conforms,
        ..ORACLE
    },
    Entries {
        typecheck_restricted_expr: full,
        ..ORACLE
    },
    Entries {
        typecheck_restricted_expr: conforms_unexamined,
        ..ORACLE
    },
    Entries {
        typecheck_restricted_expr_exact: full_unexamined,
        ..ORACLE
    },
    Entries {
        least_upper_bound: bound_tells_the_first,
        ..ORACLE
    },
    Entries {
        convert: convert_tells_none,
        ..ORACLE
    },
    Entries {
        all_attributes: names_tell_levels,
        ..ORACLE
    },
    Entries {
        measure_type: measure_one_more,
        ..ORACLE
    },
    Entries {
        measure_type: measure_value,
        ..ORACLE
    },
    Entries {
        measure_value: measure_type,
        ..ORACLE
    },
    Entries {
        measure_value: measure_unexamined,
        ..ORACLE
    },
];

#[test]
fn broken_promises_are_seen() {
    for entries in BROKEN {
        assert!(differences(&mut Library(entries)) > 0);
    }
}
