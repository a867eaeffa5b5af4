//! The functions of include/tirncheav.h. Nothing checks these lines against
//! the header: the tests do, by answers.

type P = *const u8;
type M = *mut u8;

extern "C" {
    pub fn tirncheav_measure_type(levels: usize, bytes: usize, t: P, n: usize) -> u64;
    pub fn tirncheav_measure_value(levels: usize, bytes: usize, v: P, n: usize) -> u64;
    pub fn tirncheav_are_types_disjoint(
        levels: usize, bytes: usize, t0: P, n0: usize, t1: P, n1: usize,
    ) -> u64;
    pub fn tirncheav_is_consistent_with(
        levels: usize, bytes: usize, t0: P, n0: usize, t1: P, n1: usize,
    ) -> u64;
    pub fn tirncheav_convert(
        levels: usize, bytes: usize, t: P, n: usize, out: M, room: usize,
    ) -> u64;
    pub fn tirncheav_check_schema(levels: usize, bytes: usize, schema: P, n: usize) -> u64;
    pub fn tirncheav_is_subtype_checked(
        schema: P, n: usize, check: u64, mode: u8, t0: P, n0: usize, t1: P, n1: usize,
    ) -> u64;
    pub fn tirncheav_least_upper_bound_checked(
        schema: P, n: usize, check: u64, mode: u8, t0: P, n0: usize, t1: P, n1: usize,
        out: M, room: usize,
    ) -> u64;
    pub fn tirncheav_reduce_to_least_upper_bound_checked(
        schema: P, n: usize, check: u64, mode: u8, list: P, n0: usize, out: M, room: usize,
        work: M, space: usize,
    ) -> u64;
    pub fn tirncheav_lookup_attribute_type_checked(
        schema: P, n: usize, check: u64, attr: u16, t: P, n0: usize, out: M, room: usize,
        work: M, space: usize,
    ) -> u64;
    pub fn tirncheav_own_attribute_type_checked(
        schema: P, n: usize, check: u64, attr: u16, t: P, n0: usize,
    ) -> u64;
    pub fn tirncheav_may_have_attr_checked(
        schema: P, n: usize, check: u64, attr: u16, t: P, n0: usize,
    ) -> u64;
    pub fn tirncheav_all_attributes_checked(
        schema: P, n: usize, check: u64, t: P, n0: usize, out: M, room: usize, work: M,
        space: usize,
    ) -> u64;
    pub fn tirncheav_typecheck_restricted_expr_checked(
        schema: P, n: usize, check: u64, t: P, n0: usize, v: P, n1: usize,
    ) -> u64;
    pub fn tirncheav_typecheck_restricted_expr_exact_checked(
        schema: P, n: usize, check: u64, t: P, n0: usize, v: P, n1: usize,
    ) -> u64;
    pub fn tirncheav_euid_literal_checked(
        schema: P, n: usize, check: u64, v: P, n0: usize, out: M, room: usize,
    ) -> u64;
}
