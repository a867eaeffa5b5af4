//! A candidate behind the C interface of include/tirncheav.h: a slice is a
//! pointer and a length, the answer one number, whose low byte is the kind,
//! whose next 16 bits are the refusal or a length, and whose rest the levels; of
//! a part, where it starts and ends.

use crate::candidates::{Candidate, Reply};
use crate::limits::Limits;
use crate::questions::{operation::*, takes_schema, Call, Part};

pub type P = *const u8;
pub type M = *mut u8;

/// The entries that check the schema in every call. Each takes the limits
/// first, levels and then bytes.
#[derive(Clone, Copy)]
#[rustfmt::skip]
pub struct Entries {
    pub is_subtype: unsafe extern "C" fn(usize, usize, u8, P, usize, P, usize, P, usize) -> u64,
    pub least_upper_bound: unsafe extern "C" fn(usize, usize, u8, P, usize, P, usize, P, usize, M, usize) -> u64,
    pub are_types_disjoint: unsafe extern "C" fn(usize, usize, P, usize, P, usize) -> u64,
    pub lookup_attribute_type: unsafe extern "C" fn(usize, usize, P, usize, u16, P, usize, M, usize, M, usize) -> u64,
    pub own_attribute_type: unsafe extern "C" fn(usize, usize, P, usize, u16, P, usize) -> u64,
    pub may_have_attr: unsafe extern "C" fn(usize, usize, P, usize, u16, P, usize) -> u64,
    pub all_attributes: unsafe extern "C" fn(usize, usize, P, usize, P, usize, M, usize, M, usize) -> u64,
    pub is_consistent_with: unsafe extern "C" fn(usize, usize, P, usize, P, usize) -> u64,
    pub convert: unsafe extern "C" fn(usize, usize, P, usize, M, usize) -> u64,
    pub typecheck_restricted_expr: unsafe extern "C" fn(usize, usize, P, usize, P, usize, P, usize) -> u64,
    pub typecheck_restricted_expr_exact: unsafe extern "C" fn(usize, usize, P, usize, P, usize, P, usize) -> u64,
    pub reduce_to_least_upper_bound: unsafe extern "C" fn(usize, usize, u8, P, usize, P, usize, M, usize, M, usize) -> u64,
    pub euid_literal: unsafe extern "C" fn(usize, usize, P, usize, P, usize, M, usize) -> u64,
    pub measure_type: unsafe extern "C" fn(usize, usize, P, usize) -> u64,
    pub measure_value: unsafe extern "C" fn(usize, usize, P, usize) -> u64,
}

/// The check of a schema under limits, and the entries that take its number.
#[derive(Clone, Copy)]
pub struct Checked {
    pub check_schema: unsafe extern "C" fn(usize, usize, P, usize) -> u64,
    pub is_subtype: unsafe extern "C" fn(P, usize, u64, u8, P, usize, P, usize) -> u64,
    pub least_upper_bound:
        unsafe extern "C" fn(P, usize, u64, u8, P, usize, P, usize, M, usize) -> u64,
    pub lookup_attribute_type:
        unsafe extern "C" fn(P, usize, u64, u16, P, usize, M, usize, M, usize) -> u64,
    pub own_attribute_type: unsafe extern "C" fn(P, usize, u64, u16, P, usize) -> u64,
    pub may_have_attr: unsafe extern "C" fn(P, usize, u64, u16, P, usize) -> u64,
    pub all_attributes: unsafe extern "C" fn(P, usize, u64, P, usize, M, usize, M, usize) -> u64,
    pub typecheck_restricted_expr: unsafe extern "C" fn(P, usize, u64, P, usize, P, usize) -> u64,
    pub typecheck_restricted_expr_exact:
        unsafe extern "C" fn(P, usize, u64, P, usize, P, usize) -> u64,
    pub reduce_to_least_upper_bound:
        unsafe extern "C" fn(P, usize, u64, u8, P, usize, M, usize, M, usize) -> u64,
    pub euid_literal: unsafe extern "C" fn(P, usize, u64, P, usize, M, usize) -> u64,
}

/// The library, asked with the schema's bytes.
pub struct Library(pub Entries);

/// The library, asked with a schema that is checked before; entries that take
/// no schema are as above.
pub struct CheckedLibrary(pub Entries, pub Checked);

/// A form, and what is lent to be written, as C takes them.
fn form(bytes: &[u8]) -> (P, usize) {
    (bytes.as_ptr(), bytes.len())
}

fn lent(bytes: &mut [u8]) -> (M, usize) {
    (bytes.as_mut_ptr(), bytes.len())
}

/// A number has nothing where its kind tells nothing; a name list has no levels.
fn reply(number: u64) -> Reply {
    let (length, levels) = ((number >> 8 & 0xffff) as usize, (number >> 24) as usize);
    match (number & 255, length, levels) {
        (0, n @ 1..=255, 0) => Reply::Refused(n as u8),
        (1, 0, 0) => Reply::Yes,
        (2, 0, 0) => Reply::No,
        (3, 0, 0) => Reply::Nothing,
        (4, _, 0) => Reply::Named(length),
        (4, ..) => Reply::Typed(length, levels),
        (5, ..) => Reply::Attribute(false, length, levels),
        (6, ..) => Reply::Attribute(true, length, levels),
        (9, ..) => Reply::Measured(length, levels),
        _ => panic!("no answer has the number {number:#x}"),
    }
}

fn part(number: u64) -> Part {
    let at = (number >> 8 & 0xffff) as usize..(number >> 24) as usize;
    match number & 255 {
        0 => Part::Refused(u8::try_from(number >> 8).expect("a refusal's number")),
        3 => Part::Nothing,
        7 => Part::Attribute(false, at),
        8 => Part::Attribute(true, at),
        other => panic!("no part has the kind {other}"),
    }
}

impl Candidate for Library {
    fn call(&mut self, call: &Call<'_>, out: &mut [u8], work: &mut [u8]) -> Reply {
        let e = &self.0;
        let (l, n) = (call.limits.levels, call.limits.bytes);
        let (mode, attr) = (call.mode, call.attr);
        let [(s, sn), (a, an), (b, bn)] = [call.schema, call.t0, call.t1].map(form);
        let [(o, on), (w, wn)] = [out, work].map(lent);
        // Each pointer stands with the length of its slice.
        reply(unsafe {
            match call.op {
                SUBTYPE => (e.is_subtype)(l, n, mode, s, sn, a, an, b, bn),
                BOUND => (e.least_upper_bound)(l, n, mode, s, sn, a, an, b, bn, o, on),
                DISJOINT => (e.are_types_disjoint)(l, n, a, an, b, bn),
                LOOKUP => (e.lookup_attribute_type)(l, n, s, sn, attr, a, an, o, on, w, wn),
                MAY_HAVE => (e.may_have_attr)(l, n, s, sn, attr, a, an),
                NAMES => (e.all_attributes)(l, n, s, sn, a, an, o, on, w, wn),
                CONSISTENT => (e.is_consistent_with)(l, n, a, an, b, bn),
                CONVERT => (e.convert)(l, n, a, an, o, on),
                CONFORMS => (e.typecheck_restricted_expr)(l, n, s, sn, a, an, b, bn),
                FULL => (e.typecheck_restricted_expr_exact)(l, n, s, sn, a, an, b, bn),
                FOLD => (e.reduce_to_least_upper_bound)(l, n, mode, s, sn, a, an, o, on, w, wn),
                MEASURE_TYPE => (e.measure_type)(l, n, a, an),
                MEASURE_VALUE => (e.measure_value)(l, n, a, an),
                _ => (e.euid_literal)(l, n, s, sn, a, an, o, on),
            }
        })
    }

    fn part(&mut self, call: &Call<'_>) -> Option<Part> {
        let entry = self.0.own_attribute_type;
        let Limits { levels, bytes } = call.limits;
        let [(s, sn), (t, tn)] = [call.schema, call.t0].map(form);
        Some(part(unsafe {
            entry(levels, bytes, s, sn, call.attr, t, tn)
        }))
    }
}

impl CheckedLibrary {
    /// The number of a schema under limits.
    pub fn check(&self, limits: Limits, schema: &[u8]) -> u64 {
        let Limits { levels, bytes } = limits;
        let (s, sn) = form(schema);
        // The pointer stands with the length of its slice.
        unsafe { (self.1.check_schema)(levels, bytes, s, sn) }
    }

    /// One entry, with the number of the call's schema.
    pub fn call_with(&self, c: u64, call: &Call<'_>, out: &mut [u8], work: &mut [u8]) -> Reply {
        if !takes_schema(call.op) {
            return Library(self.0).call(call, out, work);
        }
        let e = &self.1;
        let (mode, attr) = (call.mode, call.attr);
        let [(s, sn), (a, an), (b, bn)] = [call.schema, call.t0, call.t1].map(form);
        let [(o, on), (w, wn)] = [out, work].map(lent);
        // As above, and the number is that of the same schema.
        reply(unsafe {
            match call.op {
                SUBTYPE => (e.is_subtype)(s, sn, c, mode, a, an, b, bn),
                BOUND => (e.least_upper_bound)(s, sn, c, mode, a, an, b, bn, o, on),
                LOOKUP => (e.lookup_attribute_type)(s, sn, c, attr, a, an, o, on, w, wn),
                MAY_HAVE => (e.may_have_attr)(s, sn, c, attr, a, an),
                NAMES => (e.all_attributes)(s, sn, c, a, an, o, on, w, wn),
                CONFORMS => (e.typecheck_restricted_expr)(s, sn, c, a, an, b, bn),
                FULL => (e.typecheck_restricted_expr_exact)(s, sn, c, a, an, b, bn),
                FOLD => (e.reduce_to_least_upper_bound)(s, sn, c, mode, a, an, o, on, w, wn),
                _ => (e.euid_literal)(s, sn, c, a, an, o, on),
            }
        })
    }

    /// The second entry of lookup, with the number of the schema.
    pub fn part_with(&self, c: u64, call: &Call<'_>) -> Part {
        let entry = self.1.own_attribute_type;
        let [(s, sn), (t, tn)] = [call.schema, call.t0].map(form);
        part(unsafe { entry(s, sn, c, call.attr, t, tn) })
    }
}

impl Candidate for CheckedLibrary {
    fn call(&mut self, call: &Call<'_>, out: &mut [u8], work: &mut [u8]) -> Reply {
        let check = self.check(call.limits, call.schema);
        self.call_with(check, call, out, work)
    }

    fn part(&mut self, call: &Call<'_>) -> Option<Part> {
        let check = self.check(call.limits, call.schema);
        Some(self.part_with(check, call))
    }
}

/// The static library, linked in: see build.rs.
#[cfg(feature = "library")]
pub mod linked {
    use super::{Checked, Entries, M, P};

    #[rustfmt::skip]
    extern "C" {
        fn tirncheav_is_subtype(l: usize, n: usize, m: u8, s: P, sn: usize, a: P, an: usize, b: P, bn: usize) -> u64;
        fn tirncheav_least_upper_bound(l: usize, n: usize, m: u8, s: P, sn: usize, a: P, an: usize, b: P, bn: usize, o: M, on: usize) -> u64;
        fn tirncheav_are_types_disjoint(l: usize, n: usize, a: P, an: usize, b: P, bn: usize) -> u64;
        fn tirncheav_lookup_attribute_type(l: usize, n: usize, s: P, sn: usize, i: u16, a: P, an: usize, o: M, on: usize, w: M, wn: usize) -> u64;
        fn tirncheav_own_attribute_type(l: usize, n: usize, s: P, sn: usize, i: u16, a: P, an: usize) -> u64;
        fn tirncheav_may_have_attr(l: usize, n: usize, s: P, sn: usize, i: u16, a: P, an: usize) -> u64;
        fn tirncheav_all_attributes(l: usize, n: usize, s: P, sn: usize, a: P, an: usize, o: M, on: usize, w: M, wn: usize) -> u64;
        fn tirncheav_is_consistent_with(l: usize, n: usize, a: P, an: usize, b: P, bn: usize) -> u64;
        fn tirncheav_convert(l: usize, n: usize, a: P, an: usize, o: M, on: usize) -> u64;
        fn tirncheav_typecheck_restricted_expr(l: usize, n: usize, s: P, sn: usize, a: P, an: usize, b: P, bn: usize) -> u64;
        fn tirncheav_typecheck_restricted_expr_exact(l: usize, n: usize, s: P, sn: usize, a: P, an: usize, b: P, bn: usize) -> u64;
        fn tirncheav_reduce_to_least_upper_bound(l: usize, n: usize, m: u8, s: P, sn: usize, a: P, an: usize, o: M, on: usize, w: M, wn: usize) -> u64;
        fn tirncheav_euid_literal(l: usize, n: usize, s: P, sn: usize, a: P, an: usize, o: M, on: usize) -> u64;
        fn tirncheav_measure_type(l: usize, n: usize, a: P, an: usize) -> u64;
        fn tirncheav_measure_value(l: usize, n: usize, a: P, an: usize) -> u64;
        fn tirncheav_check_schema(l: usize, n: usize, s: P, sn: usize) -> u64;
        fn tirncheav_is_subtype_checked(s: P, sn: usize, c: u64, m: u8, a: P, an: usize, b: P, bn: usize) -> u64;
        fn tirncheav_least_upper_bound_checked(s: P, sn: usize, c: u64, m: u8, a: P, an: usize, b: P, bn: usize, o: M, on: usize) -> u64;
        fn tirncheav_lookup_attribute_type_checked(s: P, sn: usize, c: u64, n: u16, a: P, an: usize, o: M, on: usize, w: M, wn: usize) -> u64;
        fn tirncheav_own_attribute_type_checked(s: P, sn: usize, c: u64, n: u16, a: P, an: usize) -> u64;
        fn tirncheav_may_have_attr_checked(s: P, sn: usize, c: u64, n: u16, a: P, an: usize) -> u64;
        fn tirncheav_all_attributes_checked(s: P, sn: usize, c: u64, a: P, an: usize, o: M, on: usize, w: M, wn: usize) -> u64;
        fn tirncheav_typecheck_restricted_expr_checked(s: P, sn: usize, c: u64, a: P, an: usize, b: P, bn: usize) -> u64;
        fn tirncheav_typecheck_restricted_expr_exact_checked(s: P, sn: usize, c: u64, a: P, an: usize, b: P, bn: usize) -> u64;
        fn tirncheav_reduce_to_least_upper_bound_checked(s: P, sn: usize, c: u64, m: u8, a: P, an: usize, o: M, on: usize, w: M, wn: usize) -> u64;
        fn tirncheav_euid_literal_checked(s: P, sn: usize, c: u64, a: P, an: usize, o: M, on: usize) -> u64;
    }

    pub const ENTRIES: Entries = Entries {
        is_subtype: tirncheav_is_subtype,
        least_upper_bound: tirncheav_least_upper_bound,
        are_types_disjoint: tirncheav_are_types_disjoint,
        lookup_attribute_type: tirncheav_lookup_attribute_type,
        own_attribute_type: tirncheav_own_attribute_type,
        may_have_attr: tirncheav_may_have_attr,
        all_attributes: tirncheav_all_attributes,
        is_consistent_with: tirncheav_is_consistent_with,
        convert: tirncheav_convert,
        typecheck_restricted_expr: tirncheav_typecheck_restricted_expr,
        typecheck_restricted_expr_exact: tirncheav_typecheck_restricted_expr_exact,
        reduce_to_least_upper_bound: tirncheav_reduce_to_least_upper_bound,
        euid_literal: tirncheav_euid_literal,
        measure_type: tirncheav_measure_type,
        measure_value: tirncheav_measure_value,
    };

    pub const CHECKED: Checked = Checked {
        check_schema: tirncheav_check_schema,
        is_subtype: tirncheav_is_subtype_checked,
        least_upper_bound: tirncheav_least_upper_bound_checked,
        lookup_attribute_type: tirncheav_lookup_attribute_type_checked,
        own_attribute_type: tirncheav_own_attribute_type_checked,
        may_have_attr: tirncheav_may_have_attr_checked,
        all_attributes: tirncheav_all_attributes_checked,
        typecheck_restricted_expr: tirncheav_typecheck_restricted_expr_checked,
        typecheck_restricted_expr_exact: tirncheav_typecheck_restricted_expr_exact_checked,
        reduce_to_least_upper_bound: tirncheav_reduce_to_least_upper_bound_checked,
        euid_literal: tirncheav_euid_literal_checked,
    };
}
