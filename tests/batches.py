#!/usr/bin/env python3
"""Writes what the test programs batches and rooms read (stdin) and must print (stdout).

    tests/batches.py                          write them as the texts here have them
    tests/batches.py --check                  say whether they are so
    tests/batches.py --recorded JOBS LINES    write them with another recorded sample

crates/batches has the sample that oracle/record.sh recorded and then the jobs of settled.txt, answers.txt and edges.txt; its
parts.txt has the parts in turn, each with its jobs and its questions. The sample stands nowhere else, and is kept. crates/rooms
has the calls of rooms.txt.

A text, line by line; '#' starts a comment.

    name = BYTES                bytes that '$name' stands for below
    == TITLE                    a new job, with the empty schema
    == N = 1 2 16: TITLE        a job for each of the words: up to the next title '{N}' is the word, '{2N-1}' reckoned from a number.
                                Of a word '65/3' '{N}' is 65 and '{L}' is 3
    schema BYTES                its schema
    OPERATION WORD.. : BYTES    a question and its body, or its two bodies behind a colon each. The words: 'strict',
                                'permissive', 'loose' or mode=N; attribute=N; in rooms.txt also room=N, workspace=N,
                                levels=N and bytes=N. The operations 'own', 'measure-type' and 'measure-value' are no
                                job's: rooms.txt alone has them
    job BYTES                   the whole job as it is, good or bad
    > LINE                      what must be printed, in turn; '> N..M LINE' for each index from N to M, '> N* LINE' so many times.
                                '<BYTES>' stands for the bytes in lower-case hexadecimal, '<>' for none

BYTES: hexadecimal digits in pairs; '%N' a u16, low byte first; '%N..M' the u16s from N to M in steps of two, and
'%N..M(BYTES)' with bytes behind each; 'N*(BYTES)' a repetition; '$name'; '@(BYTES)' the bytes' length as a u16;
'N@(BYTES)(CORE)' the core wrapped N times, each time in the bytes and its length.
"""
import re
import struct
import sys
from pathlib import Path

HERE = Path(__file__).resolve().parent
CRATES = HERE.parent / "crates"
TEXTS = ["settled", "answers", "edges"]
MODES = {"strict": "mode=0", "permissive": "mode=1", "loose": "mode=2"}
STANDARD = {"levels": 16, "bytes": 4096}
OF_JOBS = ["subtype", "bound", "disjoint", "lookup", "may-have", "names", "consistent", "convert", "conforms", "fold", "literal",
           "full"]
OPERATIONS = {**{name: number for number, name in enumerate(OF_JOBS)}, "own": 255, "measure-type": 254, "measure-value": 253}
TOKEN = re.compile(r"\s*(?:%(?P<first>\d+)(?:\.\.(?P<last>\d+)(?P<each>\()?)?|(?P<times>\d+)\*\(|(?P<wraps>\d+)?@(?P<length>\()"
                   r"|(?P<close>\))|\$(?P<name>[\w-]+)|(?P<pair>[0-9a-f]{2}))")


def u16(n):
    return struct.pack("<H", n)


def wrapped(times, wrap, core):
    for _ in range(times):
        core = wrap + u16(len(core)) + core
    return core


def parse(text, at, names, inner):
    """The bytes from a place of a text on, up to its end or to a closing bracket, and where they end."""
    out = b""
    while text[at:].strip():
        m = TOKEN.match(text, at)
        if not m or (m["close"] and not inner):
            raise SystemExit(f"not understood: {text[at:]}")
        at = m.end()
        if m["close"]:
            return out, at
        if m["each"] or m["times"] or m["length"]:
            body, at = parse(text, at, names, True)
        if m["last"]:
            each = body if m["each"] else b""
            out += b"".join(u16(n) + each for n in range(int(m["first"]), int(m["last"]) + 1, 2))
        elif m["first"]:
            out += u16(int(m["first"]))
        elif m["times"]:
            out += body * int(m["times"])
        elif m["wraps"]:
            core, at = parse(text, at + 1, names, True)
            out += wrapped(int(m["wraps"]), body, core)
        elif m["length"]:
            out += u16(len(body))
        else:
            out += names[m["name"]] if m["name"] else bytes.fromhex(m["pair"])
    if inner:
        raise SystemExit(f"a bracket is left open: {text}")
    return out, at


def question(line, names):
    """An operation with its words, and its one or two bodies."""
    head, *bodies = line.split(":")
    operation, *words = head.split()
    given = {"mode": 0, "attribute": 0, "room": 0, "workspace": 0, **STANDARD}
    for word in words:
        key, _, value = MODES.get(word, word).partition("=")
        given[key] = int(value)
    bodies = [parse(body, 0, names, False)[0] for body in bodies] + [b""]
    return OPERATIONS[operation], given, bodies[0], bodies[1]


def job_form(schema, questions):
    entries = b"".join(struct.pack("<BBHHH", op, g["mode"], g["attribute"], len(a), len(b)) for op, g, a, b in questions)
    return u16(len(schema)) + u16(len(questions)) + entries + schema + b"".join(a + b for _, _, a, b in questions)


def job(entry):
    """A job behind its length."""
    form = entry["job"] if entry["job"] is not None else job_form(entry["schema"], entry["questions"])
    return struct.pack("<I", len(form)) + form


def calls(entry):
    """Calls of the library's entries, each behind its numbers and lengths."""
    out = b""
    for op, g, a, b in entry["questions"]:
        numbers = (op, g["mode"], g["attribute"], g["room"], g["workspace"], len(entry["schema"]), len(a), len(b))
        out += struct.pack("<BBHHHHHHII", *numbers, g["levels"], g["bytes"]) + entry["schema"] + a + b
    return out


def expected(line, names):
    """The lines that one line of a text stands for."""
    line = re.sub(r"<(.*?)>", lambda m: parse(m[1], 0, names, False)[0].hex(), line)
    if m := re.match(r"(\d+)\.\.(\d+)(.*)", line):
        return "".join(f"{index}{m[3]}\n" for index in range(int(m[1]), int(m[2]) + 1))
    if m := re.match(r"(\d+)\* (.*)", line):
        return int(m[1]) * (m[2] + "\n")
    return line + "\n"


def worded(line, word):
    """A line with the word of its job."""
    first, _, second = word.partition("/")

    def reckoned(m):
        return str(int(m[1] or 1) * int(first) + int(m[2] or 0))
    return re.sub(r"\{(\d*)N([+-]\d+)?\}", reckoned, line.replace("{N}", first).replace("{L}", second))


def lines_of(text):
    """A text's lines without comments, those of a job with words once for each."""
    lines = "\n".join(line.partition("#")[0].strip() for line in text.splitlines())
    for part in re.split(r"^(?===)", lines, flags=re.M):
        words = re.match(r"== N = (.*?):", part)
        for word in words[1].split() if words else [""]:
            yield from (worded(line, word) for line in part.splitlines())


def read(path):
    names, entries = {"empty": bytes(6)}, []
    for line in lines_of(path.read_text()):
        if line.startswith("=="):
            entries.append({"schema": names["empty"], "questions": [], "job": None, "lines": ""})
        elif line.startswith(">"):
            entries[-1]["lines"] += expected(line[2:], names)
        elif m := re.fullmatch(r"([\w-]+) = (.*)", line):
            names[m[1]] = parse(m[2], 0, names, False)[0]
        elif line.partition(" ")[0] in ("schema", "job"):
            word, _, body = line.partition(" ")
            entries[-1][word] = parse(body, 0, names, False)[0]
        elif line:
            entries[-1]["questions"].append(question(line, names))
    return entries


def batch(path):
    """A text's batch and its lines."""
    entries = read(path)
    return b"".join(job(e) for e in entries), "".join(e["lines"] + ".\n" for e in entries).encode()


def counted(lines):
    """How many jobs some lines are of, and how many questions."""
    lines = lines.splitlines()
    return lines.count(b"."), sum(line[:1].isdigit() for line in lines)


def recorded():
    """The recorded sample, as it stands before the texts' jobs."""
    jobs, lines = (CRATES / "batches/stdin").read_bytes(), (CRATES / "batches/stdout").read_bytes().splitlines(True)
    at = below = 0
    for _ in range(int((CRATES / "batches/parts.txt").read_text().split()[1])):
        at += 4 + int.from_bytes(jobs[at:at + 4], "little")
        below = lines.index(b".\n", below) + 1
    return jobs[:at], b"".join(lines[:below])


def files(sample):
    """What each file has."""
    parts = {"recorded": sample, **{name: batch(HERE / f"{name}.txt") for name in TEXTS}}
    entries = read(HERE / "rooms.txt")
    return {
        "batches/stdin": b"".join(jobs for jobs, _ in parts.values()),
        "batches/stdout": b"".join(lines for _, lines in parts.values()),
        "batches/parts.txt": "".join("{} {} {}\n".format(name, *counted(lines)) for name, (_, lines) in parts.items()).encode(),
        "rooms/stdin": b"".join(calls(e) for e in entries),
        "rooms/stdout": "".join(e["lines"] for e in entries).encode(),
    }


def main():
    if sys.argv[1:2] == ["--recorded"]:
        sample = tuple(Path(name).read_bytes() for name in sys.argv[2:])
    else:
        sample = recorded()
    changed = {name: content for name, content in files(sample).items() if (CRATES / name).read_bytes() != content}
    if sys.argv[1:] == ["--check"]:
        for name in changed:
            print(f"crates/{name} is not as the texts have it")
        sys.exit(bool(changed))
    for name, content in changed.items():
        (CRATES / name).write_bytes(content)


if __name__ == "__main__":
    main()
