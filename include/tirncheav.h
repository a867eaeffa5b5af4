/*
 * The type rules of Cedar policies, for C. Link libexports.a (x86-64 Linux).
 *
 * Every form comes as a pointer and a length, and is checked: any bytes are safe to pass. A pointer must be readable, or
 * for `out` and `work` writable, over its length; it is not kept after the call. `out` and `work` must not overlap each
 * other or any form. A length of 0 still asks for a pointer that is not null. No bytes can use up a stack: the test of a
 * form calls itself at most once for each of its levels, and not at all for sets in sets.
 *
 * `levels`, 1 to 32, and `bytes`, 64 to 8,192, are limits that the caller chooses. A type or a value with more of either
 * is not whole, in a list or a schema too. A step of a fold, lookup or name list with more bytes is refused with 9, an
 * answer of any kind with 10. A limit outside its range is refused with 20, before any other question. What a schema or
 * list may have as a whole is the same under all limits: 32,768 bytes, 256 entity types, 256 actions, 64 functions, 64
 * types.
 *
 * Every string of a value must be UTF-8 as in RFC 3629, at every level. A call on conformance is refused with 17 where a
 * whole value has one that is not, whether or not the type looks at it: after 5, and before the walk that may end in 7.
 * Measuring a value asks it too, right after 5.
 *
 * Every call answers one number. Its low byte is the kind. TIRNCHEAV_VALUE is the number of the question that refused, or
 * how many bytes were written or measured; TIRNCHEAV_LEVELS is how many levels they have. For a part of the caller's own
 * form the rest is where it starts and ends: its levels are not told.
 *
 * A lone form is level 1, and each set element, attribute, set member, pair's value or call argument is one level below
 * its holder: Long, an empty record, an entity and a string have 1 level, a set of Long has 2. Every call that writes a
 * type tells exactly the length and the levels of what it wrote; a name list has no levels and tells 0. A bound never has
 * more levels than the deeper of its two types, and may have fewer: what it drops counts for nothing.
 *
 * A mode is 0, strict; 1, permissive; or 2, loose: as permissive, but sets whose elements have no bound are joined to the
 * untyped set. Actions of one name are joined strictly in each. From 3 up the number of the refusal is 1.
 *
 * A refusal, yes, no and none leave `out` as it was. An answer fills the first bytes of `out` and no others. `work` is all
 * zero after every call that takes it.
 */
#ifndef TIRNCHEAV_H
#define TIRNCHEAV_H

#include <stddef.h>
#include <stdint.h>

#ifdef __cplusplus
extern "C" {
#endif

enum tirncheav_kind {
    TIRNCHEAV_REFUSED = 0,  /* the value is the number of the question: 1 to 15, 17 or 20 */
    TIRNCHEAV_YES = 1,
    TIRNCHEAV_NO = 2,
    TIRNCHEAV_NONE = 3,
    TIRNCHEAV_WROTE = 4,    /* a type, its length and levels, or a name list, its length: written to `out` */
    TIRNCHEAV_OPTIONAL = 5, /* an optional attribute: its type's length and levels, written to `out` */
    TIRNCHEAV_REQUIRED = 6, /* a required attribute: its type's length and levels, written to `out` */
    TIRNCHEAV_OPTIONAL_PART = 7, /* an optional attribute: its type is a part of the form passed */
    TIRNCHEAV_REQUIRED_PART = 8, /* a required attribute: its type is a part of the form passed */
    TIRNCHEAV_MEASURED = 9  /* the length and levels of the form passed: nothing is written */
};

#define TIRNCHEAV_KIND(answer) ((int)((answer) & 0xff))
#define TIRNCHEAV_VALUE(answer) ((size_t)((answer) >> 8 & 0xffff))
#define TIRNCHEAV_LEVELS(answer) ((size_t)((answer) >> 24)) /* of kinds 4, 5, 6 and 9; 0 for a name list */
#define TIRNCHEAV_PART_START(answer) ((size_t)((answer) >> 8 & 0xffff))
#define TIRNCHEAV_PART_END(answer) ((size_t)((answer) >> 24))

/* The limits of a job, and the largest: a result buffer of so many bytes holds any answer, a workspace of twice as many
 * serves any step. */
#define TIRNCHEAV_STANDARD_LEVELS 16
#define TIRNCHEAV_STANDARD_BYTES 4096
#define TIRNCHEAV_MOST_LEVELS 32
#define TIRNCHEAV_MOST_BYTES 8192

/* ---- Measuring: how long and how deep a form is, told before a stack is lent to go down it. */

/* Tells the length and the levels of the type t. Refused with 20, then with 3 where t is not whole under the limits. */
uint64_t tirncheav_measure_type(size_t levels, size_t bytes, const uint8_t *t, size_t t_len);

/* Tells the length and the levels of the value v. Refused with 20, then with 5 where v is not whole under the limits, then
 * with 17 where a string anywhere in it is not UTF-8. */
uint64_t tirncheav_measure_value(size_t levels, size_t bytes, const uint8_t *v, size_t v_len);

/* ---- Calls that check the schema each time. They ask nothing of their bytes. */

/* Yes if both are of kind 10 or 11 and share no name, so that no value has both, else no; a no says nothing. */
uint64_t tirncheav_are_types_disjoint(size_t levels, size_t bytes, const uint8_t *t0, size_t t0_len, const uint8_t *t1,
                                      size_t t1_len);

/* Yes if t0 is a subtype of t1 in a mode, else no. Loose answers as permissive. */
uint64_t tirncheav_is_subtype(size_t levels, size_t bytes, uint8_t mode, const uint8_t *schema, size_t schema_len,
                              const uint8_t *t0, size_t t0_len, const uint8_t *t1, size_t t1_len);

/* Writes the least upper bound of t0 and t1 in a mode. */
uint64_t tirncheav_least_upper_bound(size_t levels, size_t bytes, uint8_t mode, const uint8_t *schema,
                                     size_t schema_len, const uint8_t *t0, size_t t0_len, const uint8_t *t1,
                                     size_t t1_len, uint8_t *out, size_t out_len);

/* Writes the least upper bound of a list of types in a mode, from Never, left to right. */
uint64_t tirncheav_reduce_to_least_upper_bound(size_t levels, size_t bytes, uint8_t mode, const uint8_t *schema,
                                               size_t schema_len, const uint8_t *list, size_t list_len, uint8_t *out,
                                               size_t out_len, uint8_t *work, size_t work_len);

/* Writes the type of an attribute of t and says whether it is required, or none. */
uint64_t tirncheav_lookup_attribute_type(size_t levels, size_t bytes, const uint8_t *schema, size_t schema_len,
                                         uint16_t attr, const uint8_t *t, size_t t_len, uint8_t *out, size_t out_len,
                                         uint8_t *work, size_t work_len);

/* Says which bytes of t, from start up to end, are the type of an attribute of the record or action t, or none. */
uint64_t tirncheav_own_attribute_type(size_t levels, size_t bytes, const uint8_t *schema, size_t schema_len,
                                      uint16_t attr, const uint8_t *t, size_t t_len);

/* Yes if a value of type t might have the attribute, else no. */
uint64_t tirncheav_may_have_attr(size_t levels, size_t bytes, const uint8_t *schema, size_t schema_len, uint16_t attr,
                                 const uint8_t *t, size_t t_len);

/* Writes the names of t's attributes, two bytes each, ascending. */
uint64_t tirncheav_all_attributes(size_t levels, size_t bytes, const uint8_t *schema, size_t schema_len,
                                  const uint8_t *t, size_t t_len, uint8_t *out, size_t out_len, uint8_t *work,
                                  size_t work_len);

/* Yes if t0 is consistent with the plain type t1 by the Rust's test, else no; neither says whether a value has both. */
uint64_t tirncheav_is_consistent_with(size_t levels, size_t bytes, const uint8_t *t0, size_t t0_len, const uint8_t *t1,
                                      size_t t1_len);

/* Writes the core type of t. */
uint64_t tirncheav_convert(size_t levels, size_t bytes, const uint8_t *t, size_t t_len, uint8_t *out, size_t out_len);

/* Yes if the value v has the type t, else no. A call's arguments are compared with those that its function declares up to
 * the end of the shorter list. Refused with 17 where v is whole and a string anywhere in it is not UTF-8. */
uint64_t tirncheav_typecheck_restricted_expr(size_t levels, size_t bytes, const uint8_t *schema, size_t schema_len,
                                             const uint8_t *t, size_t t_len, const uint8_t *v, size_t v_len);

/* Yes if the value v has the type t and each call that this walk reaches, inside arguments too, has as many arguments as
 * its function declares, else no. A yes is a yes of the call above as well. Refused with 17 as that one is. */
uint64_t tirncheav_typecheck_restricted_expr_exact(size_t levels, size_t bytes, const uint8_t *schema,
                                                   size_t schema_len, const uint8_t *t, size_t t_len, const uint8_t *v,
                                                   size_t v_len);

/* Writes the type of the uid v, or none where the schema does not have it. */
uint64_t tirncheav_euid_literal(size_t levels, size_t bytes, const uint8_t *schema, size_t schema_len, const uint8_t *v,
                                size_t v_len, uint8_t *out, size_t out_len);

/* ---- A schema that is checked once. */

/*
 * Checks a schema under limits, and gives a number to hand to the calls below with the same bytes: it keeps the outcome
 * and the limits. It is 0 where a limit is outside its range, else not 0; nothing more is promised of it. Whether the
 * schema is whole is told by any call below: tirncheav_may_have_attr_checked of Long, the type 04, answers no if it is,
 * and is refused with 2, or 20, if it is not.
 */
uint64_t tirncheav_check_schema(size_t levels, size_t bytes, const uint8_t *schema, size_t schema_len);

/*
 * Each call below answers as the one of its name above under the limits of the check. `check` must be what
 * tirncheav_check_schema gave for exactly these schema bytes, and the bytes must not have changed since: nothing tests
 * it, and with any other number the call may read outside the schema. What was given is safe, whole or not: after a limit
 * outside its range each call is refused with 20, after a schema that is not whole with 2 in its turn.
 */

/* tirncheav_is_subtype, without the check. */
uint64_t tirncheav_is_subtype_checked(const uint8_t *schema, size_t schema_len, uint64_t check, uint8_t mode,
                                      const uint8_t *t0, size_t t0_len, const uint8_t *t1, size_t t1_len);

/* tirncheav_least_upper_bound, without the check. */
uint64_t tirncheav_least_upper_bound_checked(const uint8_t *schema, size_t schema_len, uint64_t check, uint8_t mode,
                                             const uint8_t *t0, size_t t0_len, const uint8_t *t1, size_t t1_len,
                                             uint8_t *out, size_t out_len);

/* tirncheav_reduce_to_least_upper_bound, without the check. */
uint64_t tirncheav_reduce_to_least_upper_bound_checked(const uint8_t *schema, size_t schema_len, uint64_t check,
                                                       uint8_t mode, const uint8_t *list, size_t list_len,
                                                       uint8_t *out, size_t out_len, uint8_t *work, size_t work_len);

/* tirncheav_lookup_attribute_type, without the check. */
uint64_t tirncheav_lookup_attribute_type_checked(const uint8_t *schema, size_t schema_len, uint64_t check,
                                                 uint16_t attr, const uint8_t *t, size_t t_len, uint8_t *out,
                                                 size_t out_len, uint8_t *work, size_t work_len);

/* tirncheav_own_attribute_type, without the check. */
uint64_t tirncheav_own_attribute_type_checked(const uint8_t *schema, size_t schema_len, uint64_t check, uint16_t attr,
                                              const uint8_t *t, size_t t_len);

/* tirncheav_may_have_attr, without the check. */
uint64_t tirncheav_may_have_attr_checked(const uint8_t *schema, size_t schema_len, uint64_t check, uint16_t attr,
                                         const uint8_t *t, size_t t_len);

/* tirncheav_all_attributes, without the check. */
uint64_t tirncheav_all_attributes_checked(const uint8_t *schema, size_t schema_len, uint64_t check, const uint8_t *t,
                                          size_t t_len, uint8_t *out, size_t out_len, uint8_t *work, size_t work_len);

/* tirncheav_typecheck_restricted_expr, without the check. */
uint64_t tirncheav_typecheck_restricted_expr_checked(const uint8_t *schema, size_t schema_len, uint64_t check,
                                                     const uint8_t *t, size_t t_len, const uint8_t *v, size_t v_len);

/* tirncheav_typecheck_restricted_expr_exact, without the check. */
uint64_t tirncheav_typecheck_restricted_expr_exact_checked(const uint8_t *schema, size_t schema_len, uint64_t check,
                                                           const uint8_t *t, size_t t_len, const uint8_t *v,
                                                           size_t v_len);

/* tirncheav_euid_literal, without the check. */
uint64_t tirncheav_euid_literal_checked(const uint8_t *schema, size_t schema_len, uint64_t check, const uint8_t *v,
                                        size_t v_len, uint8_t *out, size_t out_len);

#ifdef __cplusplus
}
#endif

#endif
