/*
 * Calls each entry of include/tirncheav.h by position, and prints each answer's number and the bytes that it left: the
 * lines of crates/entries/stdout, with the questions of the program `entries`. Then, the lines of tests/entries.stdout:
 * asks about a string that is no text; asks in loose mode with buffers of a few bytes, and prints what is lent with what
 * stands behind it; and asks under other limits, given with the call or kept with the schema's check, and about forms as
 * deep as they allow.
 */
#include <inttypes.h>
#include <stdio.h>
#include <string.h>

#include "tirncheav.h"

#define FORM(form) form, sizeof form
#define STANDARD TIRNCHEAV_STANDARD_LEVELS, TIRNCHEAV_STANDARD_BYTES

/* Entity types 2 with {1: entity 2} and 4 with {1?: entity 4}; action (3, 0) with {1: Long}. */
static const uint8_t schema[] = {2, 0, 1, 0, 0,  0, 2, 0, 0, 14, 0, 4, 0, 0, 14, 0, 3, 0, 0, 0, 10, 0,
                                 8, 0, 1, 0, 1,  0, 1, 5, 0, 10, 1, 0, 2, 0,
                                 8, 0, 1, 0, 1,  0, 0, 5, 0, 10, 1, 0, 4, 0,
                                 8, 0, 1, 0, 1,  0, 1, 1, 0, 4};
static const uint8_t never[] = {0}, true_type[] = {1}, long_type[] = {4}, broken[] = {13};
static const uint8_t entity_2[] = {10, 1, 0, 2, 0}, entity_4[] = {10, 1, 0, 4, 0}, both[] = {10, 2, 0, 2, 0, 4, 0};
static const uint8_t list[] = {2, 0, 5, 0, 5, 0, 10, 1, 0, 2, 0, 10, 1, 0, 4, 0};
static const uint8_t record[] = {8, 0, 1, 0, 1, 0, 1, 1, 0, 4};
static const uint8_t uid_2[] = {4, 2, 0, 7, 0}, uid_3[] = {4, 3, 0, 0, 0};
static const uint8_t longs[] = {7, 4}, strings[] = {7, 5}, untyped[] = {6}, set_value[] = {5, 1, 0, 1, 0, 1};
static const uint8_t sets[] = {2, 0, 2, 0, 2, 0, 7, 4, 7, 5};
/* Sets of the action 3 with {1: Long, 2: Long} and with {1: Long, 2: String}. */
static const uint8_t alike[] = {7, 11, 3, 0, 2, 0, 1, 0, 1, 1, 0, 2, 0, 1, 1, 0, 4, 4};
static const uint8_t unlike[] = {7, 11, 3, 0, 2, 0, 1, 0, 1, 1, 0, 2, 0, 1, 1, 0, 4, 5};

/* A schema of one function, 2, which takes nothing and returns extension 7; that extension; a call of 2 with an argument. */
static const uint8_t function[] = {0, 0, 0, 0, 1, 0, 2, 0, 1, 7, 0, 0, 0};
static const uint8_t extension[] = {12, 7, 0}, call[] = {7, 2, 0, 1, 0, 1, 0, 1};
/* A set of a string with a byte that no text has. */
static const uint8_t no_text[] = {5, 1, 0, 4, 0, 3, 1, 0, 0xff};

/* An entity of 2,047 types, and a result buffer for it with a byte over. */
static uint8_t wide[4097], large[4098];
static uint8_t out[12], work[15];

/* Fills the buffers with what no entry writes. */
static void fill(void) {
    memset(large, 0xa5, sizeof large);
    memset(out, 0xa5, sizeof out);
    memset(work, 0xa5, sizeof work);
}

static void make_wide(void) {
    static const uint8_t head[] = {10, 2047 & 0xff, 2047 >> 8};
    memcpy(wide, FORM(head));
    for (size_t name = 2, at = sizeof head; at < sizeof wide; name += 2, at += 2) {
        wide[at] = (uint8_t)(name & 0xff);
        wide[at + 1] = (uint8_t)(name >> 8);
    }
}

static void print_bytes(const uint8_t *bytes, size_t n) {
    printf(" [");
    for (size_t i = 0; i < n; i++) {
        printf("%02x", bytes[i]);
    }
    printf("]");
}

/* Prints the line of an entry that takes so many buffers, and fills them anew. */
static void print_line(const char *entry, uint64_t answer, int buffers) {
    printf("%s 0x%" PRIx64, entry, answer);
    if (buffers > 0) {
        print_bytes(FORM(out));
    }
    if (buffers > 1) {
        print_bytes(FORM(work));
    }
    printf("\n");
    fflush(stdout);
    fill();
}

/* A type and a value of two levels, forms of a byte that is neither, and a value of two levels that is no text. */
static void ask_measured(size_t levels, size_t bytes) {
    print_line("measure_type", tirncheav_measure_type(levels, bytes, FORM(record)), 0);
    print_line("measure_type", tirncheav_measure_type(levels, bytes, FORM(broken)), 0);
    print_line("measure_value", tirncheav_measure_value(levels, bytes, FORM(call)), 0);
    print_line("measure_value", tirncheav_measure_value(levels, bytes, FORM(broken)), 0);
    print_line("measure_value", tirncheav_measure_value(levels, bytes, FORM(no_text)), 0);
}

static void ask(size_t levels, size_t bytes) {
    print_line("are_types_disjoint", tirncheav_are_types_disjoint(levels, bytes, FORM(entity_2), FORM(entity_4)), 0);
    print_line("are_types_disjoint", tirncheav_are_types_disjoint(levels, bytes, FORM(long_type), FORM(broken)), 0);
    print_line("is_subtype", tirncheav_is_subtype(levels, bytes, 1, FORM(schema), FORM(entity_2), FORM(both)), 0);
    print_line("least_upper_bound",
               tirncheav_least_upper_bound(levels, bytes, 1, FORM(schema), FORM(entity_2), FORM(entity_4), FORM(out)),
               1);
    print_line("least_upper_bound",
               tirncheav_least_upper_bound(levels, bytes, 1, FORM(schema), FORM(long_type), FORM(broken), FORM(out)),
               1);
    print_line("reduce_to_least_upper_bound",
               tirncheav_reduce_to_least_upper_bound(levels, bytes, 1, FORM(schema), FORM(list), FORM(out), FORM(work)),
               2);
    print_line("lookup_attribute_type",
               tirncheav_lookup_attribute_type(levels, bytes, FORM(schema), 1, FORM(both), FORM(out), FORM(work)), 2);
    print_line("own_attribute_type", tirncheav_own_attribute_type(levels, bytes, FORM(schema), 1, FORM(record)), 0);
    print_line("may_have_attr", tirncheav_may_have_attr(levels, bytes, FORM(schema), 1, FORM(entity_2)), 0);
    print_line("all_attributes",
               tirncheav_all_attributes(levels, bytes, FORM(schema), FORM(both), FORM(out), FORM(work)), 2);
    print_line("is_consistent_with", tirncheav_is_consistent_with(levels, bytes, FORM(long_type), FORM(never)), 0);
    print_line("convert", tirncheav_convert(levels, bytes, FORM(true_type), FORM(out)), 1);
    print_line("typecheck_restricted_expr",
               tirncheav_typecheck_restricted_expr(levels, bytes, FORM(schema), FORM(entity_2), FORM(uid_2)), 0);
    print_line("typecheck_restricted_expr_exact",
               tirncheav_typecheck_restricted_expr_exact(levels, bytes, FORM(schema), FORM(entity_2), FORM(uid_2)), 0);
    print_line("euid_literal", tirncheav_euid_literal(levels, bytes, FORM(schema), FORM(uid_3), FORM(out)), 1);
    ask_measured(levels, bytes);
}

static void ask_checked(const uint8_t *block, size_t n, uint64_t check) {
    print_line("is_subtype_checked", tirncheav_is_subtype_checked(block, n, check, 1, FORM(entity_2), FORM(both)), 0);
    print_line("least_upper_bound_checked",
               tirncheav_least_upper_bound_checked(block, n, check, 1, FORM(entity_2), FORM(entity_4), FORM(out)), 1);
    print_line("least_upper_bound_checked",
               tirncheav_least_upper_bound_checked(block, n, check, 1, FORM(long_type), FORM(broken), FORM(out)), 1);
    print_line("reduce_to_least_upper_bound_checked",
               tirncheav_reduce_to_least_upper_bound_checked(block, n, check, 1, FORM(list), FORM(out), FORM(work)), 2);
    print_line("lookup_attribute_type_checked",
               tirncheav_lookup_attribute_type_checked(block, n, check, 1, FORM(both), FORM(out), FORM(work)), 2);
    print_line("own_attribute_type_checked", tirncheav_own_attribute_type_checked(block, n, check, 1, FORM(record)), 0);
    print_line("may_have_attr_checked", tirncheav_may_have_attr_checked(block, n, check, 1, FORM(entity_2)), 0);
    print_line("all_attributes_checked",
               tirncheav_all_attributes_checked(block, n, check, FORM(both), FORM(out), FORM(work)), 2);
    print_line("typecheck_restricted_expr_checked",
               tirncheav_typecheck_restricted_expr_checked(block, n, check, FORM(entity_2), FORM(uid_2)), 0);
    print_line("typecheck_restricted_expr_exact_checked",
               tirncheav_typecheck_restricted_expr_exact_checked(block, n, check, FORM(entity_2), FORM(uid_2)), 0);
    print_line("euid_literal_checked", tirncheav_euid_literal_checked(block, n, check, FORM(uid_3), FORM(out)), 1);
}

/* The entries that read nothing of a whole schema, under one that is not whole. */
static void ask_broken(uint64_t check) {
    print_line("is_subtype_checked", tirncheav_is_subtype_checked(FORM(broken), check, 1, FORM(entity_2), FORM(both)), 0);
    print_line("least_upper_bound_checked",
               tirncheav_least_upper_bound_checked(FORM(broken), check, 1, FORM(entity_2), FORM(entity_4), FORM(out)), 1);
    print_line("own_attribute_type_checked", tirncheav_own_attribute_type_checked(FORM(broken), check, 1, FORM(record)),
               0);
}

/* The two conformances of a call with an argument too many. */
static void ask_counted(size_t levels, size_t bytes) {
    print_line("typecheck_restricted_expr",
               tirncheav_typecheck_restricted_expr(levels, bytes, FORM(function), FORM(extension), FORM(call)), 0);
    print_line("typecheck_restricted_expr_exact",
               tirncheav_typecheck_restricted_expr_exact(levels, bytes, FORM(function), FORM(extension), FORM(call)), 0);
}

static void ask_counted_checked(uint64_t check) {
    print_line("typecheck_restricted_expr_checked",
               tirncheav_typecheck_restricted_expr_checked(FORM(function), check, FORM(extension), FORM(call)), 0);
    print_line("typecheck_restricted_expr_exact_checked",
               tirncheav_typecheck_restricted_expr_exact_checked(FORM(function), check, FORM(extension), FORM(call)), 0);
}

static void ask_loose(void) {
    print_line("is_subtype", tirncheav_is_subtype(STANDARD, 2, FORM(schema), FORM(longs), FORM(untyped)), 0);
    print_line("is_subtype", tirncheav_is_subtype(STANDARD, 3, FORM(schema), FORM(longs), FORM(untyped)), 0);
    print_line("least_upper_bound",
               tirncheav_least_upper_bound(STANDARD, 2, FORM(schema), FORM(longs), FORM(strings), out, 1), 1);
    print_line("least_upper_bound",
               tirncheav_least_upper_bound(STANDARD, 2, FORM(schema), FORM(longs), FORM(strings), out, 0), 1);
    print_line("least_upper_bound",
               tirncheav_least_upper_bound(STANDARD, 2, FORM(schema), FORM(alike), FORM(unlike), FORM(out)), 1);
    print_line("least_upper_bound",
               tirncheav_least_upper_bound(STANDARD, 3, FORM(schema), FORM(longs), FORM(strings), FORM(out)), 1);
    print_line("reduce_to_least_upper_bound",
               tirncheav_reduce_to_least_upper_bound(STANDARD, 2, FORM(schema), FORM(sets), out, 1, work, 4), 2);
    print_line("reduce_to_least_upper_bound",
               tirncheav_reduce_to_least_upper_bound(STANDARD, 2, FORM(schema), FORM(sets), out, 1, work, 3), 2);
    print_line("reduce_to_least_upper_bound",
               tirncheav_reduce_to_least_upper_bound(STANDARD, 2, FORM(schema), FORM(sets), out, 0, work, 5), 2);
    print_line("reduce_to_least_upper_bound",
               tirncheav_reduce_to_least_upper_bound(STANDARD, 3, FORM(schema), FORM(sets), out, 1, work, 4), 2);
}

static void ask_loose_checked(uint64_t check) {
    print_line("is_subtype_checked",
               tirncheav_is_subtype_checked(FORM(schema), check, 2, FORM(longs), FORM(untyped)), 0);
    print_line("least_upper_bound_checked",
               tirncheav_least_upper_bound_checked(FORM(schema), check, 2, FORM(longs), FORM(strings), out, 1), 1);
    print_line("least_upper_bound_checked",
               tirncheav_least_upper_bound_checked(FORM(schema), check, 2, FORM(longs), FORM(strings), out, 0), 1);
    print_line("least_upper_bound_checked",
               tirncheav_least_upper_bound_checked(FORM(schema), check, 3, FORM(longs), FORM(strings), out, 1), 1);
    print_line("reduce_to_least_upper_bound_checked",
               tirncheav_reduce_to_least_upper_bound_checked(FORM(schema), check, 2, FORM(sets), out, 1, work, 4), 2);
    print_line("reduce_to_least_upper_bound_checked",
               tirncheav_reduce_to_least_upper_bound_checked(FORM(schema), check, 2, FORM(sets), out, 1, work, 3), 2);
    print_line("reduce_to_least_upper_bound_checked",
               tirncheav_reduce_to_least_upper_bound_checked(FORM(schema), check, 3, FORM(sets), out, 1, work, 4), 2);
}

/* Under limits of which one is outside its range, in the last two by a bit that 32 bits do not have. */
static void ask_refused(void) {
    static const size_t over = (size_t)1 << 32;
    const size_t bad[][2] = {{0, 4096}, {33, 4096}, {SIZE_MAX, 4096}, {16, 63},          {16, 8193},
                             {16, 0},   {0, 0},     {16, SIZE_MAX},   {over + 16, 4096}, {16, over + 4096}};
    for (size_t i = 0; i < sizeof bad / sizeof *bad; i++) {
        print_line("are_types_disjoint", tirncheav_are_types_disjoint(bad[i][0], bad[i][1], FORM(broken), FORM(broken)),
                   0);
        print_line("measure_type", tirncheav_measure_type(bad[i][0], bad[i][1], FORM(broken)), 0);
        print_line("measure_value", tirncheav_measure_value(bad[i][0], bad[i][1], FORM(broken)), 0);
        print_line("check_schema", tirncheav_check_schema(bad[i][0], bad[i][1], FORM(schema)), 0);
    }
    ask(0, 4096);
    ask(16, 63);
}

/* A mode that is none, under a schema that was checked. */
static void ask_no_mode(const uint8_t *block, size_t n, uint64_t check) {
    print_line("is_subtype_checked", tirncheav_is_subtype_checked(block, n, check, 3, FORM(broken), FORM(broken)), 0);
    print_line("least_upper_bound_checked",
               tirncheav_least_upper_bound_checked(block, n, check, 3, FORM(broken), FORM(broken), FORM(out)), 1);
    print_line("reduce_to_least_upper_bound_checked",
               tirncheav_reduce_to_least_upper_bound_checked(block, n, check, 3, FORM(broken), FORM(out), FORM(work)), 2);
}

/* The calls on a schema that is kept with these limits; of its number only whether it is 0 is printed. */
static void ask_kept(size_t levels, size_t bytes, const uint8_t *block, size_t n) {
    uint64_t check = tirncheav_check_schema(levels, bytes, block, n);
    print_line("check_schema", check != 0, 0);
    ask_checked(block, n, check);
    ask_no_mode(block, n, check);
}

/* Prints the line of a bound of the wide type: whether the result buffer holds it, or was left, with the byte over. */
static void print_wide(const char *entry, uint64_t answer) {
    size_t same = 0, left = 0;
    while (same < sizeof wide && large[same] == wide[same]) {
        same++;
    }
    while (left < sizeof large && large[sizeof large - 1 - left] == 0xa5) {
        left++;
    }
    printf("%s 0x%" PRIx64 " %zu %zu\n", entry, answer, same, left);
    fill();
}

/* A form of 4,097 bytes is whole where the limit is so much, given or kept. */
static void ask_wide(size_t bytes) {
    uint64_t check = tirncheav_check_schema(16, bytes, FORM(schema));
    make_wide();
    print_line("are_types_disjoint", tirncheav_are_types_disjoint(16, bytes, FORM(wide), FORM(wide)), 0);
    print_line("measure_type", tirncheav_measure_type(16, bytes, FORM(wide)), 0);
    print_wide("least_upper_bound",
               tirncheav_least_upper_bound(16, bytes, 0, FORM(schema), FORM(wide), FORM(wide), FORM(large)));
    print_wide("least_upper_bound_checked",
               tirncheav_least_upper_bound_checked(FORM(schema), check, 0, FORM(wide), FORM(wide), FORM(large)));
}

/* 31 sets over Long, and 31 sets around true, each the one member of the one above. */
static void ask_deepest(size_t levels, size_t bytes) {
    enum { SETS = TIRNCHEAV_MOST_LEVELS - 1, HEAD = 5 };
    static uint8_t type[SETS + 1], value[HEAD * SETS + 1];
    memset(type, 7, SETS);
    type[SETS] = 4;
    for (size_t i = 0; i < SETS; i++) {
        const uint8_t head[HEAD] = {5, 1, 0, (uint8_t)(sizeof value - HEAD * (i + 1)), 0};
        memcpy(value + HEAD * i, FORM(head));
    }
    value[HEAD * SETS] = 1;
    print_line("measure_type", tirncheav_measure_type(levels, bytes, FORM(type)), 0);
    print_line("measure_value", tirncheav_measure_value(levels, bytes, FORM(value)), 0);
    print_line("convert", tirncheav_convert(levels, bytes, FORM(type), FORM(large)), 0);
    print_line("least_upper_bound",
               tirncheav_least_upper_bound(levels, bytes, 0, FORM(function), FORM(type), FORM(type), FORM(large)), 0);
}

/* A set of Long has two levels; the empty schema is whole at one. */
static void ask_levels(size_t levels) {
    static const uint8_t empty[6];
    uint64_t check = tirncheav_check_schema(levels, 64, FORM(empty));
    print_line("is_subtype_checked", tirncheav_is_subtype_checked(FORM(empty), check, 0, FORM(longs), FORM(untyped)), 0);
    print_line("typecheck_restricted_expr_checked",
               tirncheav_typecheck_restricted_expr_checked(FORM(empty), check, FORM(untyped), FORM(set_value)), 0);
}

/* A call with an argument has two levels; a schema of functions alone is whole at one. */
static void ask_counted_under(size_t levels, size_t bytes) {
    ask_counted(levels, bytes);
    ask_counted_checked(tirncheav_check_schema(levels, bytes, FORM(function)));
}

/* The conformances of a value that is no text, two levels, though the untyped set looks at no member. */
static void ask_text(size_t levels, size_t bytes) {
    uint64_t check = tirncheav_check_schema(levels, bytes, FORM(function));
    print_line("typecheck_restricted_expr",
               tirncheav_typecheck_restricted_expr(levels, bytes, FORM(function), FORM(untyped), FORM(no_text)), 0);
    print_line("typecheck_restricted_expr_exact",
               tirncheav_typecheck_restricted_expr_exact(levels, bytes, FORM(function), FORM(untyped), FORM(no_text)), 0);
    print_line("typecheck_restricted_expr_checked",
               tirncheav_typecheck_restricted_expr_checked(FORM(function), check, FORM(untyped), FORM(no_text)), 0);
    print_line("typecheck_restricted_expr_exact_checked",
               tirncheav_typecheck_restricted_expr_exact_checked(FORM(function), check, FORM(untyped), FORM(no_text)), 0);
}

/* Under limits other than the standard ones. The schema's bodies have two levels. */
static void ask_limits(void) {
    ask_refused();
    ask(1, 64);
    ask(2, 64);
    ask(TIRNCHEAV_MOST_LEVELS, TIRNCHEAV_MOST_BYTES);
    ask_kept(1, 64, FORM(schema));
    ask_kept(2, 64, FORM(schema));
    ask_kept(TIRNCHEAV_MOST_LEVELS, TIRNCHEAV_MOST_BYTES, FORM(schema));
    ask_kept(STANDARD, FORM(broken));
    ask_kept(33, 4096, FORM(schema));
    ask_kept(16, 63, FORM(broken));
    ask_levels(1);
    ask_levels(2);
    ask_counted_under(0, 64);
    ask_counted_under(1, 64);
    ask_counted_under(2, 64);
    ask_counted_under(TIRNCHEAV_MOST_LEVELS, TIRNCHEAV_MOST_BYTES);
    ask_text(0, 64);
    ask_text(1, 64);
    ask_text(2, 64);
    ask_text(TIRNCHEAV_MOST_LEVELS, TIRNCHEAV_MOST_BYTES);
    ask_wide(4097);
    ask_wide(4096);
    ask_deepest(TIRNCHEAV_MOST_LEVELS, TIRNCHEAV_STANDARD_BYTES);
    ask_deepest(TIRNCHEAV_MOST_LEVELS - 1, TIRNCHEAV_STANDARD_BYTES);
}

int main(void) {
    fill();
    ask(STANDARD);
    uint64_t check = tirncheav_check_schema(STANDARD, FORM(schema));
    uint64_t none = tirncheav_check_schema(STANDARD, FORM(broken));
    print_line("check_schema", check, 0);
    ask_checked(FORM(schema), check);
    print_line("check_schema", none, 0);
    ask_broken(none);
    ask_counted(STANDARD);
    ask_counted_checked(tirncheav_check_schema(STANDARD, FORM(function)));
    ask_measured(0, TIRNCHEAV_STANDARD_BYTES);
    ask_measured(TIRNCHEAV_STANDARD_LEVELS, TIRNCHEAV_MOST_BYTES + 1);
    ask_measured(1, 64);
    ask_text(STANDARD);
    ask_loose();
    ask_loose_checked(check);
    ask_limits();
    return 0;
}
