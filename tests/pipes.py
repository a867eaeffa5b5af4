#!/usr/bin/env python3
"""Runs the built programs (crates/NAME/out/NAME, after `rt ci`) on pipes that are full, slow or cut short, under calls that are
interrupted or move one byte (tests/cut.c), and on what cannot be read or written: rt gives a program a file for standard
input and looks at no message.
"""
import fcntl
import os
import struct
import subprocess
import sys
import tempfile
import time
from pathlib import Path

import batches

ROOT = Path(__file__).resolve().parent.parent
F_SETPIPE_SZ = 1031


def built(name):
    """The program of a crate."""
    return ROOT / "crates" / name / "out" / name


def case(crate):
    """What a test program is given, and what it must print."""
    return tuple((ROOT / "crates" / crate / name).read_bytes() for name in ("stdin", "stdout"))


def part(name):
    """The same for the batch of one text."""
    return batches.batch(ROOT / "tests" / f"{name}.txt")


def first_calls():
    """The same for the first calls of rooms.txt, since all of them have too many bytes to be moved one by one."""
    entries = batches.read(ROOT / "tests/rooms.txt")[:24]
    return b"".join(map(batches.calls, entries)), "".join(entry["lines"] for entry in entries).encode()


def without_waiting(end):
    fcntl.fcntl(end, fcntl.F_SETFL, fcntl.fcntl(end, fcntl.F_GETFL) | os.O_NONBLOCK)


def full_pipe():
    """Standard output is a pipe of 4,096 bytes that is full most of the time, and a write to it does not wait: lines of 8,197
    bytes are written in pieces."""
    out, into = os.pipe()
    fcntl.fcntl(into, F_SETPIPE_SZ, 4096)
    without_waiting(into)
    given, expected = part("edges")
    with tempfile.TemporaryFile() as batch:
        batch.write(given)
        batch.seek(0)
        program = subprocess.Popen([built("batches")], stdin=batch, stdout=into)
    os.close(into)
    time.sleep(0.2)
    waits, got = program.poll() is None, b""
    while piece := os.read(out, 199):
        got += piece
    program.wait()
    return waits and got == expected


def slow_pipe():
    """Standard input is a pipe that is empty most of the time, and a read from it does not wait."""
    out, into = os.pipe()
    without_waiting(out)
    program = subprocess.Popen([built("batches")], stdin=out, stdout=subprocess.PIPE)
    batch, expected = part("settled")
    for at in range(0, len(batch), 97):
        os.write(into, batch[at:at + 97])
        time.sleep(0.001)
    os.close(into)
    return program.communicate()[0] == expected


def cut_tests():
    """Each read or each write is short, interrupted or told to wait: what is printed is the same."""
    tests = {}
    cases = {"tirncheav": case("tirncheav"), "batches": part("settled"), "rooms": first_calls()}
    with tempfile.TemporaryDirectory() as folder:
        shim = Path(folder) / "cut.so"
        subprocess.run(["cc", "-Wall", "-Wextra", "-Werror", "-shared", "-fPIC", ROOT / "tests/cut.c", "-o", shim], check=True)
        for program, (given, expected) in cases.items():
            for call in ("read", "write"):
                for cut in ("short", "interrupted", "not yet"):
                    env = {**os.environ, "LD_PRELOAD": str(shim), f"CUT_{call.upper()}": cut}
                    got = subprocess.run([built(program)], input=given, env=env, capture_output=True)
                    tests[f"{program}: each {call} {cut}"] = (got.stdout, got.stderr) == (expected, b"")
    return tests


def longest_job():
    """A whole job of 32,768 bytes: the empty schema, and the fold of a list that is not whole."""
    body = 32768 - 4 - 8 - 6
    return struct.pack("<HHBBHHH", 6, 1, 9, 0, 0, body, 0) + bytes(6) + bytes(body)


def said(program, given, output=subprocess.PIPE):
    """What a program writes and what it says on standard error."""
    ended = subprocess.run([built(program)], input=given, stdout=output, stderr=subprocess.PIPE)
    return ended.stdout, ended.stderr.decode()


def main():
    batch, calls, job = part("settled")[0], case("rooms")[0], case("tirncheav")[0]
    whole = int.from_bytes(batch[:4], "little") + 4
    first = b"0 0 08010000\n1 15 -\n.\n"
    with open("/dev/full", "wb") as nowhere:
        unwritten = said("tirncheav", job, nowhere)[1]
    unread = subprocess.run([built("tirncheav")], stdin=os.open(ROOT, os.O_RDONLY), capture_output=True).stderr.decode()
    tests = {
        "a full pipe": full_pipe(),
        "a slow pipe": slow_pipe(),
        "no batch": said("batches", b"") == (b"", ""),
        "one job": said("batches", batch[:whole]) == (first, ""),
        "a length that is cut short": said("batches", batch[:whole + 2]) == (first, "standard input: a length is cut short\n"),
        "a job that is cut short": said("batches", batch[:whole + 9]) == (first, "standard input: a job is cut short\n"),
        "a job that is too long": said("batches", b"\1\0\1\0") == (b"", "standard input: a job is too long\n"),
        "a call's numbers that are cut short": said("rooms", calls[:21]) == (b"", "standard input: a call's numbers are cut short\n"),
        "a call that is cut short": said("rooms", calls[:30]) == (b"", "standard input: a call is cut short\n"),
        "a job with a byte over": said("tirncheav", job + b"\0") == (b"- 16 -\n", ""),
        "a job of 32,768 bytes": said("tirncheav", longest_job()) == (b"0 3 -\n", ""),
        "a job of 32,768 bytes with a byte over": said("tirncheav", longest_job() + b"\0") == (b"- 16 -\n", ""),
        "a job of 40,000 bytes": said("tirncheav", bytes(40000)) == (b"- 16 -\n", ""),
        "nowhere to write": unwritten == "standard output: No space left on device\n",
        "nothing to read": unread == "standard input: Is a directory\n",
        **cut_tests(),
    }
    failed = [name for name, held in tests.items() if not held]
    for name in failed:
        print("FAILED:", name)
    print(f"{len(tests) - len(failed)} passed, {len(failed)} failed")
    sys.exit(bool(failed))


if __name__ == "__main__":
    main()
