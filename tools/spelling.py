#!/usr/bin/env python3
"""Turns the repository's own definitions and lemmas to today's spelling: words in snake case, types and modules in camel case.

usage: python3 tools/spelling.py        at the top of the repository, once, after the kit's port.py

A dash still joins two names, as in `depth_value-length`. Names of Rust code, of the library and of numerals (`x10FFFF`) are left,
and so are strings. It turns .antt and .rt files and the edits that must fail, all below crates/. It stops where two names would
fall together.
"""

import os
import re
import sys

NAME = re.compile(r"[A-Za-z_][A-Za-z0-9_'\u2080-\u2089]*(?:-[A-Za-z0-9_'\u2080-\u2089]+)*")
PART = re.compile(r"[a-z][a-z0-9]*[A-Z]")
NUMERAL = re.compile(r"x[0-9A-F]+$")
STRING = re.compile(r'"(?:[^"\\\n]|\\.)*"')


def snake(name):
    def part(p):
        return re.sub(r"(?<=.)([A-Z])", lambda m: "_" + m.group(1).lower(), p) if PART.match(p) else p

    return name if NUMERAL.match(name) else "-".join(part(p) for p in name.split("-"))


def files(top, endings):
    for folder, dirs, names in os.walk(top):
        dirs[:] = sorted(d for d in dirs if d not in ("out", "target", ".git"))
        yield from (os.path.join(folder, n) for n in sorted(names) if n.endswith(endings))


def read(path):
    with open(path, encoding="utf-8") as f:
        return f.read()


def outside_strings(text, turn):
    out, at = [], 0
    for m in STRING.finditer(text):
        out += [turn(text[at:m.start()]), m.group(0)]
        at = m.end()
    return "".join(out + [turn(text[at:])])


def turned(text, table):
    return NAME.sub(lambda m: table.get(m.group(0), m.group(0)), text)


def names_of(paths):
    """Names that stand outside comments."""
    used = set()
    for path in paths:
        used |= set(NAME.findall(re.sub(r"--(?= |$).*", "", read(path), flags=re.M)))
    return used


def main():
    sources = list(files("crates", (".antt",)))
    used = names_of(sources)
    table = {n: snake(n) for n in used if snake(n) != n}
    met = {}
    for old, new in sorted(table.items()):
        if new in met:
            print(f"{met[new]} and {old} would fall together as {new}", file=sys.stderr)
            return 1
        met[new] = old
    for path in sources + list(files("crates", (".rt", ".edit"))):
        text = read(path)
        new = outside_strings(text, lambda part: turned(part, table)) if path.endswith(".rt") else turned(text, table)
        if new != text:
            with open(path, "w", encoding="utf-8") as f:
                f.write(new)
    return 0


if __name__ == "__main__":
    raise SystemExit(main())
