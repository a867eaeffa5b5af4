/*
 * Asks five questions under an empty schema, which is checked once, a sixth under other limits, two about a call with an
 * argument too many, and two about the bytes of a string. Then loads values: each is measured, and a stack of as many
 * frames as it has levels is lent to go down it.
 */
#include <stdio.h>
#include <stdlib.h>

#include "tirncheav.h"

/* {1: Long} and {1: String}, both required. */
static const uint8_t long_record[] = {8, 0, 1, 0, 1, 0, 1, 1, 0, 4};
static const uint8_t string_record[] = {8, 0, 1, 0, 1, 0, 1, 1, 0, 5};

/* The type that a call wrote, and its levels. */
static void print_type(const uint8_t *out, uint64_t answer) {
    for (size_t i = 0; i < TIRNCHEAV_VALUE(answer); i++) {
        printf(" %02x", out[i]);
    }
    printf(", levels %zu\n", TIRNCHEAV_LEVELS(answer));
}

static void print_answer(const char *asked, uint64_t answer, const uint8_t *out) {
    printf("%s:", asked);
    switch (TIRNCHEAV_KIND(answer)) {
    case TIRNCHEAV_YES:
        printf(" yes\n");
        break;
    case TIRNCHEAV_NO:
        printf(" no\n");
        break;
    case TIRNCHEAV_NONE:
        printf(" none\n");
        break;
    case TIRNCHEAV_REFUSED:
        printf(" refused, %zu\n", TIRNCHEAV_VALUE(answer));
        break;
    case TIRNCHEAV_REQUIRED:
        printf(" required,");
        print_type(out, answer);
        break;
    default:
        print_type(out, answer);
    }
}

/* Function 2 takes nothing and returns extension 7; it is called with the argument true. */
static void ask_call(void) {
    static const uint8_t schema[] = {0, 0, 0, 0, 1, 0, 2, 0, 1, 7, 0, 0, 0};
    static const uint8_t extension[] = {12, 7, 0}, call[] = {7, 2, 0, 1, 0, 1, 0, 1};
    uint64_t check =
        tirncheav_check_schema(TIRNCHEAV_STANDARD_LEVELS, TIRNCHEAV_STANDARD_BYTES, schema, sizeof schema);
    print_answer("a call with an argument too many conforms",
                 tirncheav_typecheck_restricted_expr_checked(schema, sizeof schema, check, extension, sizeof extension,
                                                             call, sizeof call),
                 NULL);
    print_answer("and fully",
                 tirncheav_typecheck_restricted_expr_exact_checked(schema, sizeof schema, check, extension,
                                                                   sizeof extension, call, sizeof call),
                 NULL);
}

/* A character of two bytes in UTF-8, and the first of them alone. */
static void ask_text(void) {
    static const uint8_t schema[6] = {0};
    static const uint8_t string_type[] = {5}, text[] = {3, 2, 0, 0xc3, 0xa4}, broken[] = {3, 1, 0, 0xc3};
    uint64_t check =
        tirncheav_check_schema(TIRNCHEAV_STANDARD_LEVELS, TIRNCHEAV_STANDARD_BYTES, schema, sizeof schema);
    print_answer("a string of text conforms",
                 tirncheav_typecheck_restricted_expr_checked(schema, sizeof schema, check, string_type,
                                                             sizeof string_type, text, sizeof text),
                 NULL);
    print_answer("one of broken bytes",
                 tirncheav_typecheck_restricted_expr_checked(schema, sizeof schema, check, string_type,
                                                             sizeof string_type, broken, sizeof broken),
                 NULL);
}

enum { SET = 5, RECORD, CALL };

/* A frame of the loader's stack: how many parts of a form are still to be loaded, where the next one's length stands, how
 * far it is from there to the length behind it, and where the part's bytes stand. */
struct frame {
    size_t left;
    const uint8_t *length;
    size_t entry;
    const uint8_t *part;
};

static size_t u16_at(const uint8_t *at) {
    return at[0] + 256u * at[1];
}

/* A frame with all parts of a value. A call has its function before the count, and a record's entries their names before
 * the lengths; what is neither set, record nor call has no parts. */
static struct frame parts_of(const uint8_t *value) {
    struct frame parts = {0, NULL, 0, NULL};
    if (value[0] >= SET) {
        size_t name = value[0] == RECORD ? 2 : 0;
        const uint8_t *count = value + (value[0] == CALL ? 3 : 1), *entries = count + 2;
        parts.left = u16_at(count);
        parts.length = entries + name;
        parts.entry = name + 2;
        parts.part = entries + parts.entry * parts.left;
    }
    return parts;
}

/* Goes down a whole value, a frame for each level, and counts the forms that it meets. */
static size_t load(const uint8_t *value, struct frame *stack) {
    size_t loaded = 1, frames = 1;
    stack[0] = parts_of(value);
    while (frames > 0) {
        struct frame *top = &stack[frames - 1];
        if (top->left == 0) {
            frames--;
            continue;
        }
        const uint8_t *part = top->part;
        top->left--;
        top->part += u16_at(top->length);
        top->length += top->entry;
        stack[frames] = parts_of(part);
        frames++;
        loaded++;
    }
    return loaded;
}

/* Measures what came in, lends a stack of just as many frames as it has levels, and loads it. */
static void measure_and_load(const char *what, const uint8_t *value, size_t n) {
    uint64_t measured = tirncheav_measure_value(TIRNCHEAV_MOST_LEVELS, TIRNCHEAV_MOST_BYTES, value, n);
    if (TIRNCHEAV_KIND(measured) != TIRNCHEAV_MEASURED) {
        print_answer(what, measured, NULL);
        return;
    }
    size_t bytes = TIRNCHEAV_VALUE(measured), levels = TIRNCHEAV_LEVELS(measured);
    struct frame *stack = malloc(levels * sizeof *stack);
    if (stack == NULL) {
        exit(1);
    }
    printf("%s: bytes %zu, levels %zu, forms loaded %zu\n", what, bytes, levels, load(value, stack));
    free(stack);
}

static void load_values(void) {
    /* {1: true, 2: [false, [true]]} */
    static const uint8_t nested[] = {6, 2, 0, 1, 0, 1, 0, 2, 0, 14, 0, 1, 5, 2, 0, 1, 0, 6, 0, 0, 5, 1, 0, 1, 0, 1};
    static const uint8_t alone[] = {1}, call[] = {7, 2, 0, 1, 0, 1, 0, 1}, cut[] = {5, 1, 0, 1, 0};
    static const uint8_t broken[] = {5, 1, 0, 4, 0, 3, 1, 0, 0xc3};
    measure_and_load("true", alone, sizeof alone);
    measure_and_load("a call", call, sizeof call);
    measure_and_load("a record of sets", nested, sizeof nested);
    measure_and_load("a set without its member", cut, sizeof cut);
    measure_and_load("a set of broken bytes", broken, sizeof broken);
}

int main(void) {
    static const uint8_t schema[6] = {0};
    static const uint8_t true_type[] = {1}, bool_type[] = {3}, long_type[] = {4}, longs[] = {7, 4}, strings[] = {7, 5};
    uint8_t out[TIRNCHEAV_STANDARD_BYTES], work[2 * TIRNCHEAV_STANDARD_BYTES];
    uint64_t check =
        tirncheav_check_schema(TIRNCHEAV_STANDARD_LEVELS, TIRNCHEAV_STANDARD_BYTES, schema, sizeof schema);
    uint64_t whole = tirncheav_may_have_attr_checked(schema, sizeof schema, check, 1, long_type, sizeof long_type);
    if (TIRNCHEAV_KIND(whole) == TIRNCHEAV_REFUSED) {
        return 1;
    }
    print_answer("True under Bool",
                 tirncheav_is_subtype_checked(schema, sizeof schema, check, 0, true_type, 1, bool_type, 1), out);
    print_answer("permissive bound",
                 tirncheav_least_upper_bound_checked(schema, sizeof schema, check, 1, long_record, sizeof long_record,
                                                     string_record, sizeof string_record, out, sizeof out),
                 out);
    print_answer("strict bound",
                 tirncheav_least_upper_bound_checked(schema, sizeof schema, check, 0, long_record, sizeof long_record,
                                                     string_record, sizeof string_record, out, sizeof out),
                 out);
    print_answer("loose bound of sets",
                 tirncheav_least_upper_bound_checked(schema, sizeof schema, check, 2, longs, sizeof longs, strings,
                                                     sizeof strings, out, sizeof out),
                 out);
    print_answer("attribute 1",
                 tirncheav_lookup_attribute_type_checked(schema, sizeof schema, check, 1, long_record,
                                                         sizeof long_record, out, sizeof out, work, sizeof work),
                 out);
    check = tirncheav_check_schema(1, TIRNCHEAV_STANDARD_BYTES, schema, sizeof schema);
    print_answer("a set of Long at one level",
                 tirncheav_may_have_attr_checked(schema, sizeof schema, check, 1, longs, sizeof longs), out);
    ask_call();
    ask_text();
    load_values();
    return 0;
}
