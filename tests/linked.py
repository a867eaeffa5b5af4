#!/usr/bin/env python3
"""Compiles C programs with include/tirncheav.h, links them with the static library (target/staticlib, after ./archive),
and holds what they print to a text: the example of bindings/c, and tests/entries.c, which calls each entry by
position, and then asks in loose mode with buffers of a few bytes and under other limits.

Then shows that entries.c would tell: the linker puts a function before each entry that passes its arguments on as an entry
would see them whose source has two parameters exchanged. For each entry and each two of its parameters the lines must differ.

And holds the stack that tests/stack.c sees the test of a form take to what is promised, under the standard limits and under the
largest: nothing for a set, one step for each record, none below the level that is one too many. What measuring and other calls take
grows no faster than the levels, and for a chain of sets or a string not at all with its length.
"""
import itertools
import os
import re
import resource
import subprocess
import sys
import tempfile
from collections import namedtuple
from pathlib import Path

ROOT = Path(__file__).resolve().parent.parent
LIBRARY = ROOT / "target/staticlib/libexports.a"
ENTRY = re.compile(r'pub extern "C" fn (\w+)\((.*?)\) -> u64', re.S)
CTYPES = {"u8": ["uint8_t"], "u16": ["uint16_t"], "u64": ["uint64_t"], "usize": ["size_t"], "&[u8]": ["const uint8_t *", "size_t"],
          "&mut [u8]": ["uint8_t *", "size_t"]}

REFUSED, YES, NO, WROTE, REQUIRED, MEASURED = 0, 1, 2, 4, 6, 9  # kinds of an answer
SCHEMA, TYPE, VALUE = 2, 3, 5  # refusals

Told = namedtuple("Told", "kind value levels stack")  # of a call: what its answer tells, and the stack that it took
Form = namedtuple("Form", "kind refusal above")  # of whole forms the answer's kind, of others the refusal, and the levels above a chain
FORMS = {"sets": Form(NO, TYPE, 0), "sets-measured": Form(MEASURED, TYPE, 0), "sets-in-list": Form(WROTE, TYPE, 0),
         "sets-in-schema": Form(NO, SCHEMA, 1), "records": Form(NO, TYPE, 0), "records-measured": Form(MEASURED, TYPE, 0),
         "values-measured": Form(MEASURED, VALUE, 0)}


def entries():
    """Each C entry with its parameters, as the source has them: name and type."""
    for path in sorted((ROOT / "crates/exports_c/src").glob("*.rt")):
        for name, text in ENTRY.findall(path.read_text()):
            yield name, [tuple(part.strip().split(": ")) for part in text.split(",") if part.strip()]


def compiled(program, *words):
    """Compiles C without a warning."""
    command = ["cc", "-std=c99", "-Wall", "-Wextra", "-Werror", "-O2", "-I", ROOT / "include", *words, LIBRARY]
    subprocess.run([*command, "-o", program], check=True)
    return program


def printed(program, exchange=""):
    """What a program prints, up to where it ends or breaks off."""
    run = subprocess.run([program], env={**os.environ, "EXCHANGE": exchange}, capture_output=True, timeout=60)
    return run.stdout.decode(), run.returncode


def passed_on(name, parameters, order):
    """A call of the entry itself, whose parameters find their words where `order` has them."""
    at, words = 0, {}
    for parameter, kind in order:
        words[parameter] = [f"({ctype})w{at + i}" for i, ctype in enumerate(CTYPES[kind])]
        at += len(CTYPES[kind])
    return f"__real_{name}({', '.join(word for parameter, _ in parameters for word in words[parameter])})"


def exchanged(parameters, i, j):
    order = list(parameters)
    order[i], order[j] = order[j], order[i]
    return order


def exchanges(parameters):
    return itertools.combinations(range(len(parameters)), 2)


def in_between(name, parameters):
    """The function before an entry, in C."""
    ctypes = [ctype for _, kind in parameters for ctype in CTYPES[kind]]
    words = ", ".join(f"uint64_t w{at}" for at in range(len(ctypes)))
    lines = [f"uint64_t __real_{name}({', '.join(ctypes)});", f"uint64_t __wrap_{name}({words}) {{"]
    for i, j in exchanges(parameters):
        call = passed_on(name, parameters, exchanged(parameters, i, j))
        lines.append(f'    if (strcmp(getenv("EXCHANGE"), "{name} {i} {j}") == 0) return {call};')
    return "\n".join([*lines, f"    return {passed_on(name, parameters, parameters)};", "}"])


def exchange_tests(folder, expected):
    """For each entry, the exchanges of two parameters that leave the lines as they are: there should be none."""
    known = list(entries())
    source = folder / "between.c"
    heads = "#include <stdint.h>\n#include <stdlib.h>\n#include <string.h>\n"
    source.write_text(heads + "\n".join(in_between(*entry) for entry in known) + "\n")
    wraps = [f"-Wl,--wrap={name}" for name, _ in known]
    program = compiled(folder / "exchanged", ROOT / "tests/entries.c", source, *wraps)
    tests = {"arguments passed on as they are": printed(program) == (expected, 0)}
    for name, parameters in known:
        for i, j in exchanges(parameters):
            told = printed(program, f"{name} {i} {j}")[0] != expected
            tests[f"{name}: {parameters[i][0]} and {parameters[j][0]} exchanged"] = told
    return tests


def stack_lines(folder):
    """What stack.c tells of each form, by the levels allowed, then by kind, count and what stands below."""
    text, _ = printed(compiled(folder / "stack", ROOT / "tests/stack.c"))
    told = {}
    for levels, what, count, below, *words in map(str.split, text.splitlines()):
        told.setdefault(int(levels), {})[what, int(count), below] = Told(*map(int, words))
    return told


def call_tests(told):
    """From 16 to 32 levels a call takes at most twice as much more as from 8 to 16. What is written or measured has as many levels as
    the forms, but what a lookup finds in them one fewer."""
    kinds = {"subtype": YES, "bound": WROTE, "consistent": YES, "convert": WROTE, "conforms": YES, "full": YES, "fold": WROTE,
             "lookup": REQUIRED, "measured-type": MEASURED, "measured-record": MEASURED, "measured-call": MEASURED}
    levels = {WROTE: (8, 16, 32), MEASURED: (8, 16, 32), REQUIRED: (7, 15, 31), YES: (0, 0, 0)}
    tests = {}
    for what, kind in kinds.items():
        lines = [told[what, count, "true"] for count in (7, 15, 31)]
        few, some, most = (line.stack for line in lines)
        said = {line.kind for line in lines} == {kind} and tuple(line.levels for line in lines) == levels[kind]
        tests[f"the stack of a {what} on 8, 16 and 32 levels"] = said and most - some <= 2 * (some - few)
    return tests


def text_tests(told):
    """Conformance and measuring take as much for a long string as for a short one."""
    tests = {}
    for (what, count, _), line in told.items():
        if what in ("string", "string-measured"):
            short = min(other.stack for (name, _, _), other in told.items() if name == what)
            answer = (YES, 0, 0) if what == "string" else (MEASURED, 3 + 2 * count, 1)
            tests[f"the stack of a {what} of {count} characters"] = line == (*answer, short)
    return tests


def answered(what, count, whole, line):
    """Is a whole form answered as it must be, and another refused?"""
    kind, refusal, _ = FORMS[what]
    levels = count + 1 if kind in (WROTE, MEASURED) else 0
    return (line.kind, line.levels) == (kind, levels) if whole else line[:2] == (REFUSED, refusal)


def stack_tests(levels, told):
    """A chain of sets takes the stack of one set if it is whole, and no more if it is refused: as a type, measured, in a list, in a
    schema's body. Each record takes as much as any other, tested or measured, up to the level that is one too many."""
    tests = {}
    for (what, count, below), line in told.items():
        if what not in FORMS:
            continue
        whole = below == "long" and count + FORMS[what].above < levels
        one, two = (told[what, n, "long"].stack for n in (1, 2))
        most = one + (two - one) * (min(count, levels) - 1)
        held = line.stack == most if whole or what == "records" else line.stack <= most
        tests[f"{levels} levels: the stack of {count} {what} over {below}"] = held and answered(what, count, whole, line)
        tests[f"{levels} levels: the step of {what}"] = (one == two) == what.startswith("sets")
    return tests


def all_stack_tests(told):
    """The same under each of the limits; a record takes as much under all of them."""
    steps = {of["records", 2, "long"].stack - of["records", 1, "long"].stack for of in told.values()}
    tests = {"a record's stack under the standard limits and the largest": len(told) == 2 and len(steps) == 1}
    for levels, of in told.items():
        tests.update(stack_tests(levels, of))
    return {**tests, **call_tests(told[max(told)]), **text_tests(told[max(told)])}


def main():
    resource.setrlimit(resource.RLIMIT_CORE, (0, 0))
    texts = ("bindings/c/example.stdout", "crates/entries/stdout", "tests/entries.stdout")
    example, *lines = ((ROOT / path).read_text() for path in texts)
    expected = "".join(lines)
    with tempfile.TemporaryDirectory() as name:
        folder = Path(name)
        tests = {
            "the C example": printed(compiled(folder / "example", ROOT / "bindings/c/example.c")) == (example, 0),
            "the C entries": printed(compiled(folder / "entries", ROOT / "tests/entries.c")) == (expected, 0),
            "each entry is called": all(f"\n{name[len('tirncheav_'):]} 0x" in "\n" + expected for name, _ in entries()),
            **exchange_tests(folder, expected),
            **all_stack_tests(stack_lines(folder)),
        }
    failed = [name for name, held in tests.items() if not held]
    for name in failed:
        print("FAILED:", name)
    print(f"{len(tests) - len(failed)} passed, {len(failed)} failed")
    sys.exit(bool(failed))


if __name__ == "__main__":
    main()
