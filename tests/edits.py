#!/usr/bin/env python3
"""Holds each edit that must fail to the fact that it breaks. rt asks only that the prover refuses the crate with the edits of
one file, and says the first thing that it refuses; here the crate is checked with them once more, in a copy, and each edit's own
function, or law, must show a refusal of its own in what that check says.

    tests/edits.py            checks the edits of every crate
    tests/edits.py CRATE..    of these crates
    tests/edits.py --fit      checks nothing: does each old text stand once in its file, and can the edits of a file be tried together?

RT_JOBS says how many checks run side by side, up to four if it is not set. They begin with what rt kept of the crates and of those below.

crates/CRATE/must-fail/LABEL.edit has an edit to a paragraph:

    # NAME: the fact
    fails: MODULE::FUNCTION         the function whose proof breaks; or a law, 'FILE.antt LAW' with its path
    file: PATH                      and what rt reads: the file,
    old: TEXT                       a text that stands in it once,
    new: TEXT                       and what replaces it

Edits stand in one file, and are tried together, if no two name one function and each changes nothing but that function: its body,
or its contract if the crate does not call it. A proof sees other functions by their contracts alone, so an error of a function's
own then comes from its own edit. Goals are named by the code: an edit that renames one renames it in the function's proof too, so
that the prover tries the answer.
"""
import itertools
import os
import queue
import re
import shutil
import subprocess
import sys
import tempfile
from concurrent.futures import ThreadPoolExecutor
from dataclasses import dataclass
from pathlib import Path

ROOT = Path(__file__).resolve().parent.parent
LANES = int(os.environ.get("RT_JOBS") or min(4, os.cpu_count() or 1))
SHOWN = 360  # characters of a line
QUOTED = 48  # characters of a term in it

# What the prover says of a term whose type is another, and of a goal that a tactic does not prove.
COMPUTED = "computed as far as they go, "
PRINTED = "as printed, the two "
MISMATCH = re.compile(rf"{COMPUTED}|{PRINTED}|expected type `|`(?:omega|search|grind|simp)`: ")
FOLLOWS = re.compile(r"`[^`]+` was not admitted |\d+ declarations? that depends? on ")
# Of an answer whose goal has another name now, and of a goal without an answer that it can show to be false.
GONE = re.compile(r"`goal\.([^`]+)`: ")
# Of a goal that nothing proves and no file answers: a clause, a bound, a loop's invariant; the invariant of a value that is made.
UNPROVED = r"it is not proved that |`search` found no proof \(`invariant_of-"
FALSE = "allow values at which this goal is false"


@dataclass
class Edit:
    name: str
    fails: str
    changes: list  # of file, old text and new text

    def is_of_law(self):
        return " " in self.fails


def edits(text):
    """The edits of a file's paragraphs; one that is only comments is none."""
    for paragraph in re.split(r"\n\s*\n", text.strip()):
        lines = paragraph.splitlines()
        if all(line.startswith("#") for line in lines):
            continue
        name = re.match(r"# (\w+): ", lines[0])
        fails = [line[7:] for line in lines if line.startswith("fails: ")]
        if not name or len(fails) != 1:
            raise SystemExit(f"an edit wants one line '# NAME: ..' first, and one 'fails: ..':\n{paragraph}")
        changes = []
        for line in lines:
            if line.startswith("file: "):
                file = line[6:]
            elif line.startswith("old: "):
                old = line[5:]
            elif line.startswith("new:"):
                changes.append((file, old, line[4:].removeprefix(" ")))
        yield Edit(name[1], fails[0], changes)


def source_of(function, texts):
    """The file of a function, the type that it is a method of, and its own name. A method may stand in another file than its type."""
    *path, name = function.split("::")
    kind = path.pop() if path and path[-1][0].isupper() else ""
    own = f"src/{'/'.join(path) or 'lib'}.rt"
    files = [own, *(file for file in sorted(texts) if kind and file.startswith("src/"))]
    return next((file for file in files if span(texts.get(file, ""), kind, name)), own), kind, name


def impl_of(line):
    """The name under which a line's impl of a trait is proved: the type, the trait and the trait's argument."""
    m = re.match(r"impl (\w+)(?:<(\w+)>)? for (\w+)", line)
    return m and "".join(word[0].upper() + word[1:] for word in (m[3], m[1], m[2] or "") if word)


def span(text, kind, name):
    """The lines of a function, from 1 on: where its head with its attributes, its body and the line behind it start. None if it is
    not there."""
    lines = text.splitlines()
    start = next((i for i, line in enumerate(lines) if re.match(rf"impl\b.*\b{kind}\b", line) or impl_of(line) == kind), None) if kind else 0
    if start is None:
        return None
    for head in range(start, len(lines)):
        if m := re.match(rf'( *)(?:pub(?:\(\w+\))? )?(?:const )?(?:extern "C" )?fn {name}\b', lines[head]):
            body = next(i for i in range(head, len(lines)) if lines[i].endswith("{"))
            end = lines.index(m[1] + "}", body)
            while head and lines[head - 1] and not lines[head - 1].endswith("{"):
                head -= 1
            return head + 1, body + 1, end + 2
    return None


def stands(edit, texts):
    """Whether the function or the law that an edit names is there."""
    if edit.is_of_law():
        file, law = edit.fails.split(" ")
        return bool(re.search(rf"^ *(?:[a-z]+ )*{re.escape(law)}\s", texts.get(file, ""), re.M))
    file, kind, name = source_of(edit.fails, texts)
    return bool(span(texts.get(file, ""), kind, name))


def in_own_function(edit, texts):
    """Whether an edit changes nothing but the function that it names, and its proof, and nothing that another function's proof sees."""
    file, kind, name = source_of(edit.fails, texts)
    text = texts.get(file, "")
    lines = span(text, kind, name)
    called = any(re.search(rf"(?<!fn )\b{name}\(", other) for path, other in texts.items() if path.startswith("src/"))
    changes = [(changed, old) for changed, old, _ in edit.changes if not belongs(edit.fails, changed, name)]
    places = [text[:text.find(old)].count("\n") + 1 for changed, old in changes if changed == file]
    return bool(lines and places) and len(places) == len(changes) and all(lines[called] <= at < lines[2] for at in places)


def edited(together, texts):
    """A crate's files with the edits of one file, made in turn, and the first edit whose old text does not stand once, if there is one."""
    changed = dict(texts)
    for edit in together:
        for file, old, new in edit.changes:
            if changed.get(file, "").count(old) != 1:
                return changed, f"{edit.name}: its old text does not stand once in {file}"
            changed[file] = changed[file].replace(old, new)
    return changed, ""


def unfit(together, texts):
    """Why the edits of one file cannot be tried together on a crate's files, or nothing."""
    if why := edited(together, texts)[1]:
        return why
    for edit in together:
        if not stands(edit, texts):
            return f"{edit.name}: there is no {edit.fails}"
    if len({edit.fails for edit in together}) < len(together):
        return "two edits name one function"
    outside = [edit.name for edit in together if not in_own_function(edit, texts)]
    if outside and len(together) > 1:
        return f"changes more than the function that it names, so it must stand alone: {', '.join(outside)}"
    return ""


def belongs(function, file, name):
    """Whether a declaration of a proof file is of the function's proof. A function that calls itself has a folder whose name starts
    with '+', and so have functions that call each other; there each name starts with its function's."""
    *path, own = function.split("::")
    folder, _, last = file.rpartition("/")[0].rpartition("/")
    is_own = last in (own, f"+{own}") or last.startswith("+") and name.partition("-")[0] == own
    return is_own and folder == "/".join(["proofs", *path])


def errors(log, edit):
    """The errors at what an edit names: place and text. One of no declaration, as of an import, is of each function of the file."""
    law = edit.fails.split(" ") if edit.is_of_law() else None
    own = edit.fails.rpartition("::")[2]
    for m in re.finditer(r"^(?:\./)?(\S+?):(\d+):\d+: error: (?:`([^`]+)`: )?(.*(?:\n  .*)*)$", log, re.M):
        if [m[1], m[3]] == law or not law and belongs(edit.fails, m[1], m[3] or own):
            yield f"{m[1]}:{m[2]}", m[4].replace("\n ", "")


def goals(log, edit, texts):
    """The goals of a function that nothing proves and no file answers: place and text."""
    file, kind, name = source_of(edit.fails, texts)
    lines = not edit.is_of_law() and span(texts.get(file, ""), kind, name)
    for m in re.finditer(rf"^note: (?:\./)?(\S+?):(\d+):\d+: ((?:{UNPROVED}).*)$", log, re.M):
        if lines and m[1] == file and lines[0] <= int(m[2]) < lines[2]:
            yield f"{m[1]}:{m[2]}", m[3]


def sort_of(goal):
    """A goal's name up to the branch that it stands in."""
    return re.split(r"-(?:then|else|in|in_default|after)(?:-|$)", goal)[0]


def is_renamed(text, renamed):
    """Whether a goal without an answer may be one that an edit gave another name, and so says nothing: one of the same sort went."""
    name = re.search(r"\(`([^`]+)`\)", text)
    return FALSE not in text and bool(name) and sort_of(name[1]) in renamed


def shorter(term):
    return term if len(term) <= QUOTED else f"{term[:QUOTED // 2]} .. {term[-QUOTED // 2:]}"


def difference(text):
    """What differs, of the words of an error; '..' within a long term."""
    text = text.partition(COMPUTED)[2] or text
    end = re.search(r" \((found|the expected type's)\)", text)
    return re.sub(r"`([^`]+)`", lambda quoted: f"`{shorter(quoted[1])}`", text[:end.end()] if end else text)


def unended(log):
    """Why a check has no verdict, or nothing."""
    if re.search(r"^(logic=|only=\d+ )", log, re.M):
        return ""
    first = re.search(r"^.*\berror\b.*$", log, re.M)
    return f"the check came to no end: {first[0] if first else log.strip().rpartition(chr(10))[2]}"


def verdict(log, edit, texts):
    """Whether the prover refuses the fact of an edit, and where and how, or why that is not shown."""
    if why := unended(log):
        return False, why
    met = list(errors(log, edit))
    own = [(place, text) for place, text in met if MISMATCH.match(text)]
    other = [(place, text) for place, text in met if not MISMATCH.match(text) and not FOLLOWS.match(text)]
    renamed = {sort_of(gone[1]) for _, text in other if (gone := GONE.match(text))}
    own += [(place, text) for place, text in goals(log, edit, texts) if not is_renamed(text, renamed)]
    if own:
        place, text = min(own, key=lambda error: [COMPUTED not in error[1], PRINTED not in error[1]])
        return True, f"{place} {difference(text)}"
    if other:
        return False, "the proof is not of this code: {} {}".format(*other[0])
    return False, f"no error of its own at {edit.fails}" + (", only what follows from another's" if met else "")


def verdicts(together, log, texts):
    """The verdicts of edits that were tried together. An error shows the fact of one alone."""
    seen = set()
    for edit in together:
        held, text = verdict(log, edit, texts)
        yield edit.name, held and text not in seen, text
        seen.add(text)


def texts_of(crate):
    """The files of a crate that a check reads, by their paths in it."""
    return {str(path.relative_to(crate)): path.read_text() for part in ("src/**/*.rt", "specs/**/*.antt", "proofs/**/*.antt")
            for path in sorted(crate.glob(part))}


def copied(room):
    """Copies what checks read of the repository."""
    for crate in (ROOT / "crates").iterdir():
        for part in ("src", "specs", "proofs"):
            if (crate / part).is_dir():
                shutil.copytree(crate / part, room / "crates" / crate.name / part)
    for name in ("crates.txt", "HANDLES"):
        if (ROOT / name).is_file():
            shutil.copyfile(ROOT / name, room / name)


def check(crate, together, before, after):
    """What a check of a crate says with its files edited. Only the functions that are named are checked, if all are functions."""
    only = [] if any(edit.is_of_law() for edit in together) else [word for edit in together for word in ("--only", edit.fails)]
    changed = [path for path in after if after[path] != before[path]]
    for path in changed:
        (crate / path).write_text(after[path])
    ran = subprocess.run(["rt", "check", "--jobs", "1", *only], cwd=crate, stdin=subprocess.DEVNULL, stdout=subprocess.PIPE,
                         stderr=subprocess.STDOUT, text=True, errors="replace")
    for path in changed:
        (crate / path).write_text(before[path])
    return ran.stdout


def file_tests(path, room):
    """The tests of one file's edits, or without a room of whether they fit: name, whether it held, and what to say."""
    crate = path.parent.parent.name
    together, before = list(edits(path.read_text())), texts_of(path.parent.parent)
    why = unfit(together, before)
    if why or not room:
        return [(f"{crate}/{path.stem}", not why, why or f"{len(together)} fit")]
    after = edited(together, before)[0]
    log = check(room / "crates" / crate, together, before, after)
    return [(f"{crate}/{name}", held, text) for name, held, text in verdicts(together, log, after)]


def all_tests(files):
    """The tests of these files, some crates side by side, each in a copy where no other crate is edited."""
    crates = {}
    for path in files:
        crates.setdefault(path.parent.parent, []).append(path)
    with tempfile.TemporaryDirectory() as name, ThreadPoolExecutor(LANES) as pool:
        free = queue.SimpleQueue()
        for lane in range(min(LANES, len(crates))):
            copied(Path(name) / str(lane))
            free.put(Path(name) / str(lane))

        def of_crate(paths):
            room = free.get()
            try:
                return [test for path in paths for test in file_tests(path, room)]
            finally:
                free.put(room)
        for tests in pool.map(of_crate, crates.values()):
            yield from tests


SOURCE = """\
#[tactic(auto)]
fn lower(n: usize) -> bool
    ensures { result ≡ below n }
{
    n < 4
}

fn upper(n: usize) -> bool
    ensures { result ≡ above n }
{
    !lower(n)
}
"""
PLACE = "./proofs/sizes/lower/Answers.antt:7:3: error: "
GROUP = "./proofs/sizes/+sizes/Answers.antt:7:3: error: "
GOAL = "note: src/sizes.rt:{}:1: it is not proved that what the function ensures holds when it returns (`returns`)"

MADE = "note: src/sizes.rt:{}:5: `search` found no proof (`invariant_of-size`); `search` gave up at one of its limits"


def log_tests(edit, texts):
    """The script tells an error of a function's own from none, from one that follows and from a proof of other code."""
    mismatch = "computed as far as they go, the two types differ only where one has `4` (expected) and the other has `5` (found)"
    follows = "`close` was not admitted (it has holes or undetermined implicits, or was rejected), so this cannot be checked"
    gone = f"{PLACE}`returns-in-7`: `goal.returns-in-7`: module `Goals` has no `returns-in-7` that can be named from here"
    bounds = "note: src/sizes.rt:5:5: it is not proved that index 0 is below the slice's length (`bounds-b-0`)"
    logs = {
        "a mismatch": (True, f"{PLACE}`returns`: {mismatch}"),
        "a mismatch of one function of several": (True, f"{GROUP}`lower-returns`: {mismatch}"),
        "a mismatch of a function that calls itself": (True, f"{PLACE.replace('lower', '+lower')}`returns`: {mismatch}"),
        "a tactic that finds no proof": (True, f"{PLACE}`returns`: `omega`: the goal does not follow from what it read."),
        "a goal that is not proved": (True, f"{GOAL.format(1)}\nfn c::sizes::lower: no proof"),
        "an invariant that is not proved": (True, MADE.format(1)),
        "an invariant of another function": (False, MADE.format(8)),
        "a goal that is false, and a name that is gone": (True, f"{gone}\n{GOAL.format(1)}; the facts known there {FALSE}"),
        "a mismatch, and a name that is gone": (True, f"{gone}\n{PLACE}`returns`: {mismatch}"),
        "a goal of another sort, and a name that is gone": (True, f"{gone}\n{bounds}"),
        "no error": (False, ""),
        "an error of another function": (False, f"{PLACE.replace('lower', 'upper')}`returns`: {mismatch}"),
        "an error of another function of several": (False, f"{GROUP}`low_est-returns`: {mismatch}"),
        "an error that follows": (False, f"{PLACE}`lower_spec`: {follows}"),
        "a goal of another function": (False, f"{GOAL.format(8)}\nfn c::sizes::lower: not proved; it calls `c::sizes::upper`"),
        "a proof of other code": (False, gone),
        "an import of what is gone": (False, f"{PLACE}module `Goals` has no `then-x-y` that can be named from here"),
        "a goal that is not proved, and a name that is gone": (False, f"{gone}\n{GOAL.format(1)}; `search` gave up"),
    }
    said = {name: held == verdict(f"{log}\nlogic=not-proved", edit, texts)[0] for name, (held, log) in logs.items()}
    said["a check without an end"] = not verdict(logs["a mismatch"][1], edit, texts)[0]
    twice = f"{logs['a mismatch'][1]}\nonly=1 proved=0"
    said["one error for two edits"] = [held for _, held, _ in verdicts([edit, edit], twice, texts)] == [True, False]
    law = Edit("law", "specs/Laws.antt small", [])
    at = "specs/Laws.antt:3:1: error: "
    said["an error at a law"] = verdict(f"./{at}`small`: {mismatch}\nlogic=not-proved", law, texts)[0]
    said["an error at another law"] = not verdict(f"{at}`smaller`: {mismatch}\nlogic=not-proved", law, texts)[0]
    return said


def self_tests():
    """And it tells edits that can be tried together from others."""
    four, five, below, above, no = (Edit(name, f"sizes::{name}", [("src/sizes.rt", old, "")]) for name, old in (
        ("lower", "n < 4"), ("lower", "n < 5"), ("lower", "below n"), ("upper", "above n"), ("upper", "!lower")))
    lost = Edit("lost", "sizes::lowest", four.changes)
    pairs = {"two bodies": (True, [four, no]), "a body and a contract that no code needs": (True, [four, above]),
             "a body and a contract that its code needs": (False, [below, no]), "such a contract alone": (True, [below]),
             "one function twice": (False, [four, below]), "a text that does not stand there": (False, [five]),
             "a text that an edit took away": (False, [four, four]), "a function that is not there": (False, [lost])}
    texts = {"src/sizes.rt": SOURCE}
    said = {name: held == (not unfit(together, texts)) for name, (held, together) in pairs.items()}
    said |= log_tests(four, texts)
    wrong = [name for name, held in said.items() if not held]
    return "self-tests", not wrong, ", ".join(wrong) or f"{len(said)} hold"


def main():
    words = sys.argv[1:]
    files = [path for path in sorted(ROOT.glob("crates/*/must-fail/*.edit"))
             if words in ([], ["--fit"]) or path.parent.parent.name in words]
    tests = (test for path in files for test in file_tests(path, None)) if words == ["--fit"] else all_tests(files)
    passed = failed = 0
    for name, held, text in itertools.chain([self_tests()], tests):
        passed, failed = passed + held, failed + (not held)
        line = f"{'' if held else 'FAILED: '}{name}: {text}"
        print(line if len(line) <= SHOWN else line[:SHOWN] + " ..", flush=True)
    print(f"{passed} passed, {failed} failed")
    sys.exit(bool(failed))


if __name__ == "__main__":
    main()
