/*
 * Tells how much of a stack the test of a form takes, measuring it, and each call that goes down forms: each runs on a
 * stack of its own, filled with one byte before, and what is no longer that byte after it was used. A line for each form
 * under the standard limits and under the largest: the levels allowed, its name, the answer's kind, value and levels, the
 * bytes.
 */
#define _XOPEN_SOURCE 700
#include <stdio.h>
#include <string.h>
#include <ucontext.h>

#include "tirncheav.h"

enum { STACK = 1 << 18, FILL = 0xa5, FORM = TIRNCHEAV_MOST_BYTES };
enum { TRUE = 1, FALSE, BOOL, LONG, SET = 7, RECORD };

static const uint8_t long_type[] = {LONG}, both[] = {10, 2, 0, 2, 0, 4, 0}, empty[6];
/* Function 2 takes nothing, function 4 an extension 7; both return extension 7. */
static const uint8_t functions[] = {0, 0, 0, 0, 2, 0, 2, 0, 1, 7, 0, 0, 0, 4, 0, 1, 7, 0, 3, 0, 4, 7, 0};
static uint8_t stack[STACK], form[FORM], other[FORM], above[FORM], value[FORM], block[2 * FORM], out[FORM], work[2 * FORM];
static size_t levels, bytes, form_length, value_length, block_length;
static ucontext_t caller, called;
static uint64_t answer;

/* Whether two types are disjoint looks at their first bytes once both are whole. */
static void test_type(void) {
    answer = tirncheav_are_types_disjoint(levels, bytes, form, form_length, long_type, sizeof long_type);
}

static void measure_type(void) {
    answer = tirncheav_measure_type(levels, bytes, form, form_length);
}

static void measure_value(void) {
    answer = tirncheav_measure_value(levels, bytes, value, value_length);
}

static void test_list(void) {
    answer = tirncheav_reduce_to_least_upper_bound(levels, bytes, 0, empty, sizeof empty, block, block_length, out,
                                                   sizeof out, work, sizeof work);
}

static void test_schema(void) {
    answer = tirncheav_may_have_attr(levels, bytes, block, block_length, 1, long_type, sizeof long_type);
}

static void call_subtype(void) {
    answer = tirncheav_is_subtype(levels, bytes, 1, empty, sizeof empty, form, form_length, above, form_length);
}

static void call_bound(void) {
    answer = tirncheav_least_upper_bound(levels, bytes, 1, empty, sizeof empty, form, form_length, other, form_length,
                                         out, sizeof out);
}

static void call_consistent(void) {
    answer = tirncheav_is_consistent_with(levels, bytes, form, form_length, above, form_length);
}

static void call_convert(void) {
    answer = tirncheav_convert(levels, bytes, form, form_length, out, sizeof out);
}

static void call_conforms(void) {
    answer = tirncheav_typecheck_restricted_expr(levels, bytes, empty, sizeof empty, above, form_length, value,
                                                 value_length);
}

static void call_full(void) {
    static const uint8_t extension[] = {12, 7, 0};
    answer = tirncheav_typecheck_restricted_expr_exact(levels, bytes, functions, sizeof functions, extension,
                                                       sizeof extension, value, value_length);
}

static void call_text(void) {
    static const uint8_t string_type[] = {5};
    answer = tirncheav_typecheck_restricted_expr(levels, bytes, empty, sizeof empty, string_type, sizeof string_type,
                                                 value, value_length);
}

static void call_lookup(void) {
    answer = tirncheav_lookup_attribute_type(levels, bytes, block, block_length, 1, both, sizeof both, out, sizeof out,
                                             work, sizeof work);
}

/* The bytes of a stack that a call takes. */
static size_t taken(void (*call)(void)) {
    memset(stack, FILL, sizeof stack);
    getcontext(&called);
    called.uc_stack.ss_sp = stack;
    called.uc_stack.ss_size = sizeof stack;
    called.uc_link = &caller;
    makecontext(&called, call, 0);
    swapcontext(&caller, &called);
    size_t left = 0;
    while (left < STACK && stack[left] == FILL) {
        left++;
    }
    return STACK - left;
}

/* Calls twice, since the first call of a function may also take what finding it takes. */
static void tell(const char *what, size_t count, const char *below, void (*call)(void)) {
    taken(call);
    printf("%zu %s %zu %s %d", levels, what, count, below, TIRNCHEAV_KIND(answer));
    printf(" %zu %zu %zu\n", TIRNCHEAV_VALUE(answer), TIRNCHEAV_LEVELS(answer), taken(call));
}

static void put16(uint8_t *at, size_t n) {
    at[0] = (uint8_t)(n & 0xff);
    at[1] = (uint8_t)(n >> 8);
}

/* So many sets over Long, or over nothing. */
static void make_sets(size_t count, size_t below) {
    memset(form, SET, count);
    form[count] = LONG;
    form_length = count + below;
}

/* So many records, each the one attribute of the one above, and a type of one byte in the last. */
static void make_records(uint8_t *at, size_t count, uint8_t last) {
    form_length = 9 * count + 1;
    for (size_t i = 0; i < count; i++) {
        static const uint8_t head[] = {RECORD, 0, 1, 0, 1, 0, 1};
        memcpy(at + 9 * i, head, sizeof head);
        put16(at + 9 * i + 7, form_length - 9 * (i + 1));
    }
    at[form_length - 1] = last;
}

/* A value of so many such records, and true in the last. */
static void make_value(size_t count) {
    value_length = 7 * count + 1;
    for (size_t i = 0; i < count; i++) {
        static const uint8_t head[] = {6, 1, 0, 1, 0};
        memcpy(value + 7 * i, head, sizeof head);
        put16(value + 7 * i + 5, value_length - 7 * (i + 1));
    }
    value[value_length - 1] = 1;
}

/* A value of so many calls of function 4, each the argument of the one above, and one of function 2 in the last. */
static void make_calls(size_t count) {
    static const uint8_t head[] = {7, 4, 0, 1, 0}, last[] = {7, 2, 0, 0, 0};
    value_length = 7 * count + sizeof last;
    for (size_t i = 0; i < count; i++) {
        memcpy(value + 7 * i, head, sizeof head);
        put16(value + 7 * i + 5, value_length - 7 * (i + 1));
    }
    memcpy(value + 7 * count, last, sizeof last);
}

/* A string of so many characters of two bytes. */
static void make_string(size_t count) {
    static const uint8_t head[] = {3, 0, 0}, character[] = {0xc3, 0xa4};
    value_length = sizeof head + 2 * count;
    memcpy(value, head, sizeof head);
    put16(value + 1, 2 * count);
    for (size_t i = 0; i < count; i++) {
        memcpy(value + sizeof head + 2 * i, character, sizeof character);
    }
}

/* A list of two types, or a schema whose entity types 2 and 4 have them as bodies: what stands before them. */
static void make_two(const uint8_t *head, size_t n, size_t first, size_t second) {
    memcpy(block, head, n);
    put16(block + first, form_length);
    put16(block + second, form_length);
    memcpy(block + n, form, form_length);
    memcpy(block + n + form_length, other, form_length);
    block_length = n + 2 * form_length;
}

/* The form as the one type of a list. */
static void make_list(void) {
    put16(block, 1);
    put16(block + 2, form_length);
    memcpy(block + 4, form, form_length);
    block_length = 4 + form_length;
}

/* The form as the attribute 1 of the one entity type of a schema. */
static void make_schema(void) {
    static const uint8_t head[] = {1, 0, 0, 0, 0, 0, 2, 0, 0, 0, 0, RECORD, 0, 1, 0, 1, 0, 1};
    memcpy(block, head, sizeof head);
    put16(block + 9, form_length + 9);
    put16(block + sizeof head, form_length);
    memcpy(block + sizeof head + 2, form, form_length);
    block_length = sizeof head + 2 + form_length;
}

/* Chains of sets of so many lengths, as a type, measured, in a list, in a schema's body. */
static void tell_sets(const size_t *counts, size_t n) {
    for (size_t i = 0; i < n; i++) {
        for (size_t below = 0; below < 2; below++) {
            const char *name = below ? "long" : "nothing";
            make_sets(counts[i], below);
            tell("sets", counts[i], name, test_type);
            tell("sets-measured", counts[i], name, measure_type);
            make_list();
            tell("sets-in-list", counts[i], name, test_list);
            make_schema();
            tell("sets-in-schema", counts[i], name, test_schema);
        }
    }
}

/* Records in records, so many, as types and measured, and measured values of them. */
static void tell_records(const size_t *counts, size_t n) {
    for (size_t i = 0; i < n; i++) {
        make_records(form, counts[i], LONG);
        make_value(counts[i]);
        tell("records", counts[i], "long", test_type);
        tell("records-measured", counts[i], "long", measure_type);
        tell("values-measured", counts[i], "long", measure_value);
    }
}

/* The calls on records in records, so many; full conformance on as many calls in calls. */
static void tell_calls(size_t count) {
    static const uint8_t list[6] = {2}, schema[16] = {2, 0, 0, 0, 0, 0, 2, 0, 0, 0, 0, 4};
    make_records(form, count, TRUE);
    make_records(other, count, FALSE);
    make_records(above, count, BOOL);
    make_value(count);
    tell("subtype", count, "true", call_subtype);
    tell("bound", count, "true", call_bound);
    tell("consistent", count, "true", call_consistent);
    tell("convert", count, "true", call_convert);
    tell("conforms", count, "true", call_conforms);
    tell("measured-type", count, "true", measure_type);
    tell("measured-record", count, "true", measure_value);
    make_calls(count);
    tell("full", count, "true", call_full);
    tell("measured-call", count, "true", measure_value);
    make_two(list, sizeof list, 2, 4);
    tell("fold", count, "true", test_list);
    make_two(schema, sizeof schema, 9, 14);
    tell("lookup", count, "true", call_lookup);
}

/* Strings of so many characters, their conformance and measured. */
static void tell_strings(const size_t *counts, size_t n) {
    for (size_t i = 0; i < n; i++) {
        make_string(counts[i]);
        tell("string", counts[i], "true", call_text);
        tell("string-measured", counts[i], "true", measure_value);
    }
}

/* The longest of each is too long for the standard limits. */
int main(void) {
    static const size_t sets[] = {1, 2, 14, 15, 16, 17, 30, 31, 32, 33, 100, 4000, 8000};
    static const size_t records[] = {1, 2, 3, 14, 15, 16, 17, 30, 31, 32, 33, 100, 455, 910};
    static const size_t strings[] = {64, 640, 4000};
    size_t of_sets = sizeof sets / sizeof *sets, of_records = sizeof records / sizeof *records;
    levels = TIRNCHEAV_STANDARD_LEVELS;
    bytes = TIRNCHEAV_STANDARD_BYTES;
    tell_sets(sets, of_sets - 1);
    tell_records(records, of_records - 1);
    levels = TIRNCHEAV_MOST_LEVELS;
    bytes = TIRNCHEAV_MOST_BYTES;
    tell_sets(sets, of_sets);
    tell_records(records, of_records);
    tell_calls(7);
    tell_calls(15);
    tell_calls(31);
    tell_strings(strings, sizeof strings / sizeof *strings);
    return 0;
}
