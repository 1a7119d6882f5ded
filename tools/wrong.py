#!/usr/bin/env python3
"""Tries the wrong versions of the code under crates/*/wrong: the prover has to refuse each.

usage: tools/wrong.py [CRATE | CRATE/EDIT ..]

Without words all are tried. `rt ci` tries those of crates/*/must-fail, not this script.

An edit is a file. Its first line says what the wrong version does, and its last ones what to
replace in which file of the crate:

    what: a denominator may have a sign
    input: 1/-2
    right: no number
    wrong: 1/2
    file: src/number.rt
    old: &s[place + 1..]
    new: unsigned(&s[place + 1..])

The lines `input`, `right` and `wrong` are its case. They show by an example that the version is
wrong.

A refusal is of one of three kinds, and each is counted apart:

- the prover has values at which a goal is false;
- a search for a proof gave up, at a limit or without another reason;
- a proof that is written down has another type than the changed code wants.

The last two also meet right code that is written in another way. So an edit that is refused by
one of them needs a case. An edit isn't judged if a proof only lacks a name that the edit took
away, if a limit ended the check, or if the check was killed.

All checks are made on a copy, over what earlier ones proved. One check has several edits, each in
the body of another function, since no function's proof rests on another's body. It refuses an
edit if it refuses its function, and not for a call. What is left is tried alone: first the
function that the edit changes, then its file, then the whole crate, and that once more from
nothing.

A run over all edits that was cut off goes on where it was. An edit that was refused counts for as
long as the crate, the edit and this script have the same text.

Prints what each edit came to, and last how many were refused by kind, not refused, and not
judged. The exit status is 1 if an edit isn't refused, isn't judged, can't be applied or lacks a
case, if a crate or one below it isn't proved, or if there was nothing to try.
"""
import hashlib
import os
import re
import shutil
import sys
import tempfile
import time
from concurrent.futures import ThreadPoolExecutor
from dataclasses import dataclass
from enum import Enum
from pathlib import Path

import kit

TOP = Path(__file__).resolve().parent.parent
# how many functions one check may have edits of
TOGETHER = 10
# what one check may take of the memory, in kB
ROOM = 4_000_000
# how much is printed of what a check says
MOST = 160
# a place that a check names
PLACE = re.compile(r"(?:note: )?(?:\./)?(\S+?):(\d+):\d+:")
# what a check says of a proof that only lacks a name which the edit took away
NAMES = re.compile(
    r"(note: )?(\./)?proofs/.*"
    r"(has no field|is not in scope|has no `|\(nearest: |was not admitted|were not checked)"
)
# a proof file that answers a goal whose name is gone, and a goal that stayed open in the source
GONE = re.compile(r"(?:\./)?proofs/(\S+?):\d+:\d+: error: .*: module `[^`]*\.Goals` has no `")
OPEN = re.compile(r"note: src/(\S+?)\.rt:\d+:\d+:")
# what a check says of an open goal, and of a search in a written proof
AT_VALUES = "allow values at which this goal is false"
GAVE_UP = re.compile(r"`(?:search|grind)`(?:: no proof| gave up)")
# the head of a function, and the trait and the type of an `impl`
FUNCTION = re.compile(
    r'(    )?(?:pub(?:\([^)]*\))? )?(?:const )?(?:unsafe )?(?:extern "C" )?fn (\w+)'
)
IMPL = re.compile(r"impl (?:(?:\w+::)*(\w+) for )?&?(?:mut )?(?:\w+::)*(\w+)")
# what a check says of a function that it refuses, but for one that it refuses for a call
REFUSES = re.compile(r"fn \S+?::(\S+): (?:not proved|no proof)(?!.*it calls)")


class Outcome(Enum):
    """What an edit came to, in the words that are printed."""

    VALUES = "refused with values"
    SEARCH = "refused where a search gave up"
    PROOF = "refused by a written proof"
    MISSED = "not refused"
    UNJUDGED = "not judged"


REFUSALS = Outcome.VALUES, Outcome.SEARCH, Outcome.PROOF


@dataclass(frozen=True)
class Result:
    """An edit by its name, what it came to, and whether it has a case."""

    name: str
    outcome: Outcome
    has_case: bool

    def is_good(self):
        """Whether the edit was refused in a way that shows the version to be wrong."""
        return self.outcome is Outcome.VALUES or (self.outcome in REFUSALS and self.has_case)


# ---- edits


def edits(crate):
    """The edits of a crate, those of one file in a row."""
    found = Path(crate.folder, "wrong").glob("*.edit")
    return sorted(found, key=lambda path: (line_of(path, "file"), path.name))


def line_of(path, word):
    """What a line of an edit says that begins with this word."""
    found = re.search(rf"^{word}: (.*)$", path.read_text(), re.M)
    return found[1].strip() if found else ""


def has_case(path):
    """Whether an edit has an example with the right answer and the wrong one."""
    return all(line_of(path, word) for word in ("input", "right", "wrong"))


def name_of(path):
    """How an edit is named on the command line."""
    return f"{path.parent.parent.name}/{path.stem}"


# ---- functions


def modules(texts):
    """The modules of the changed files; none if one is the crate's root or no source."""
    found = [re.fullmatch(r"src/(.+)\.rt", file) for file in texts]
    if not all(found) or {"src/lib.rt", "src/main.rt"} & set(texts):
        return []
    return [match[1].replace("/", "::") for match in found]


def without_parameters(line):
    """A line without what is between angle brackets."""
    while line != (line := re.sub(r"<[^<>]*>", "", line)):
        pass
    return line


def head_of(lines, at):
    """The head of the function that a line is in or follows, and the head's number."""
    for number in range(at, -1, -1):
        head = FUNCTION.match(without_parameters(lines[number]))
        if head:
            return head, number
    return None, 0


def function_at(file, lines, at):
    """The function that a line of a source is in or follows, as a check names it; none if that
    isn't clear. A method is named after its type, and the trait if it is one of a trait."""
    head, number = head_of(lines, at)
    if not modules([file]) or not head:
        return ""
    is_method = bool(head[1])
    if not is_method:
        return f"{modules([file])[0]}::{head[2]}"
    for line in lines[number::-1]:
        owner = IMPL.match(without_parameters(line))
        if owner:
            return f'{owner[2]}{owner[1] or ""}::{head[2]}'
    return ""


def changed_lines(crate, file, text):
    """The numbers of the lines that an edit changes in a file: it adds and takes none."""
    pairs = zip(Path(crate.folder, file).read_text().split("\n"), text.split("\n"))
    return [number for number, (old, new) in enumerate(pairs) if old != new]


def function_of(crate, texts):
    """The function that holds the first change of an edit; none if that isn't clear."""
    file, text = next(iter(texts.items()))
    numbers = changed_lines(crate, file, text)
    return function_at(file, text.split("\n"), numbers[0]) if numbers and modules(texts) else ""


def body_of(crate, texts):
    """The function of which an edit changes the body alone; none if that isn't clear."""
    (file, text), *others = texts.items()
    lines, numbers = text.split("\n"), changed_lines(crate, file, text)
    head, number = head_of(lines, numbers[0]) if numbers else (None, 0)
    if others or not head:
        return ""
    indent = head[1] or ""
    opens = re.compile(rf"{indent}(\S.*)?{{$")
    opened = next((n for n in range(number, len(lines)) if opens.match(lines[n])), len(lines))
    closed = next((n for n in range(opened, len(lines)) if lines[n] == indent + "}"), 0)
    is_inside = opened < numbers[0] and numbers[-1] < closed
    return function_at(file, lines, numbers[0]) if is_inside else ""


# ---- what a check says


def places(lines):
    """What a check says at a place, but for what it says where only a name is gone: in the proof
    file that has the name, and at an open goal of that file's module, which may be the one of that
    name by a new one."""
    gone = [found[1] for found in map(GONE.match, lines) if found]
    for line in lines:
        goal = OPEN.match(line)
        is_told = PLACE.match(line) and (": error" in line or line.startswith("note: "))
        is_of_gone = goal and any(file.startswith(f"{goal[1]}/") for file in gone)
        if is_told and not NAMES.match(line) and not is_of_gone:
            yield line


def kind_of(said):
    """By which kind of refusal these lines refuse an edit, and the line that shows it best; nothing
    and an empty line without a line."""
    for line in said:
        if AT_VALUES in line:
            return Outcome.VALUES, line
    for line in said:
        if GAVE_UP.search(line) or not PLACE.match(line)[1].startswith("proofs/"):
            return Outcome.SEARCH, line
    return (Outcome.PROOF, said[0]) if said else (None, "")


def said_of_function(function, texts, lines):
    """What a check says against a function at places of its own, if it refuses it, and not for a
    call."""
    refused = [found[1] for found in map(REFUSES.match, lines) if found]
    if not any(f"::{name}".endswith(f"::{function}") for name in refused):
        return []
    folder = f'/{function.replace("::", "/")}/'

    def is_own(line):
        file, number = PLACE.match(line).groups()
        source = texts.get(file, "").split("\n")
        return folder in file or (
            file in texts and function_at(file, source, int(number) - 1) == function
        )

    return list(filter(is_own, places(lines)))


# ---- checks


class Judge:
    """Judges the edits of a crate, over what was proved of it."""

    def __init__(self, rt, crate, kept):
        self.rt, self.crate, self.kept = rt, crate, kept

    def check(self, texts, names=(), is_from_nothing=False):
        """The status of a check of the crate with changed files, and what it says: of these
        functions and modules alone with what they call, or of all."""
        only = [word for name in names for word in ("--only", name)]
        kept = None if is_from_nothing else str(self.kept)
        ran = self.rt.checked(self.crate, texts, ["--jobs", "1", *only], kept)
        return ran.returncode, ran.stdout.rstrip("\n").split("\n")

    def is_proved(self):
        """Whether the crate is proved without an edit, once those below it are."""
        return self.crate.is_built() or self.check({})[0] == 0

    def refusal(self, texts, names):
        """What a check says if it refuses some of these functions and modules; nothing if it proves
        them, or if it isn't clear that the prover refused one."""
        status, lines = self.check(texts, names)
        count = re.match(r"only=(\d+) proved=(\d+)", lines[-1])
        is_refused = status == 1 and count and int(count[1]) > int(count[2])
        is_read = not any(self.rt.unread(line, texts) for line in lines)
        return lines if is_refused and is_read else []

    def combined(self, paths):
        """Edits in the bodies of several functions that can be made at once, by function, and the
        changed files."""
        by_function, texts = {}, {}
        for path in paths:
            alone, _ = self.rt.read_edit(str(path), self.crate.folder)
            function = body_of(self.crate, alone) if alone else ""
            if function and function not in by_function and len(by_function) < TOGETHER:
                edit_texts = [one.read_text() for one in (*by_function.values(), path)]
                made, _ = self.rt.edited("\n".join(edit_texts), self.crate.folder)
                if made:
                    by_function[function], texts = path, made
        return by_function, texts

    def together(self, paths):
        """What one check of several edits comes to, each in the body of another function: of those
        that it refuses the kind, and the line that shows it."""
        by_function, texts = self.combined(paths)
        if len(by_function) < 2:
            return {}
        lines = self.refusal(texts, by_function)
        found = {}
        for function, path in by_function.items():
            kind, line = kind_of(said_of_function(function, texts, lines))
            if kind:
                found[path] = kind, line
        return found

    def alone(self, path):
        """What an edit comes to by itself, and what to say."""
        texts, why = self.rt.read_edit(str(path), self.crate.folder)
        if why:
            return Outcome.MISSED, f"it can't be applied: {why}"
        function = function_of(self.crate, texts)
        for names in ([function] if function else [], modules(texts)):
            if names:
                kind, line = kind_of(list(places(self.refusal(texts, names))))
                if kind:
                    return kind, line
        outcome, line = self.whole(texts)
        return (outcome, line) if outcome in REFUSALS else self.whole(texts, is_from_nothing=True)

    def whole(self, texts, is_from_nothing=False):
        """What a check of the whole crate with an edit comes to, and what to say."""
        status, lines = self.check(texts, is_from_nothing=is_from_nothing)
        if status == 0:
            return Outcome.MISSED, "the crate is still proved with this edit"
        unread = next((line for line in lines if self.rt.unread(line, texts)), "")
        if unread:
            return Outcome.MISSED, f"the prover can't read the edited text: {unread}"
        kind, line = kind_of(list(places(lines)))
        if kind and status == 1 and lines[-1].startswith("logic=not-proved"):
            return kind, line
        said = next((line for line in lines if ": error" in line), lines[-1])
        return Outcome.UNJUDGED, f"the check ended with status {status}: {said}"


class Earlier:
    """Which edits of a crate earlier runs refused, and how, as long as nothing changed since."""

    def __init__(self, crate):
        self.file = Path(crate.folder, "out", "wrong-versions")
        self.stamp = crate.stamp().encode() + Path(__file__).read_bytes()
        text = self.file.read_text() if self.file.exists() else ""
        # (the last row of a run that was killed may be half there)
        self.outcomes = dict(re.findall(r"^(\w+) (VALUES|SEARCH|PROOF)$", text, re.M))

    def sum_of(self, path):
        return hashlib.sha256(self.stamp + path.read_bytes()).hexdigest()

    def of(self, path):
        """How an edit was refused; nothing if it wasn't."""
        name = self.outcomes.get(self.sum_of(path))
        return Outcome[name] if name else None

    def add(self, path, outcome):
        """Writes down that an edit was refused; what else it came to isn't kept."""
        if outcome in REFUSALS:
            self.file.parent.mkdir(exist_ok=True)
            with self.file.open("a") as file:
                print(self.sum_of(path), outcome.name, file=file)


def tried(rt, crate, paths, room, goes_on):
    """What each of these edits of a crate comes to. A run that goes on takes over what earlier ones
    refused."""
    earlier, results = Earlier(crate), []

    def end(path, outcome, line, is_new=True):
        print(f"{name_of(path)}: {outcome.value}: {line[:MOST]}", flush=True)
        results.append(Result(name_of(path), outcome, has_case(path)))
        if is_new:
            earlier.add(path, outcome)

    left = []
    for path in paths:
        if goes_on and earlier.of(path):
            end(path, earlier.of(path), "by an earlier run", is_new=False)
        else:
            left.append(path)
    if not left:
        return results
    kept = Path(room, f"kept-{crate.name}")
    last = Path(crate.folder, "out/incremental")
    if last.is_dir():
        shutil.copytree(last, kept)
    kept.mkdir(exist_ok=True)
    judge = Judge(rt, crate, kept)
    if not judge.is_proved():
        for path in left:
            end(path, Outcome.MISSED, f"{crate.name} is not proved, so this can't be tried")
        return results
    # (what a check refuses for the call of another's function is refused by one of the next)
    while found := judge.together(left):
        left = [path for path in left if path not in found]
        for path, (outcome, line) in found.items():
            end(path, outcome, line)
    for path in left:
        end(path, *judge.alone(path))
    shutil.rmtree(kept, ignore_errors=True)
    return results


# ---- the run


def chosen(crates, words):
    """The edits that these words name by crate, all without words, and the words that name none."""
    by_crate, known = {}, set()
    for crate in crates:
        names = {name_of(path): path for path in edits(crate)}
        known |= {crate.name, *names} if names else set()
        paths = [
            path for name, path in names.items() if not words or {crate.name, name} & set(words)
        ]
        if paths:
            by_crate[crate] = paths
    return by_crate, [word for word in words if word not in known]


def unproved_below(crates):
    """The crates below these that aren't proved. They are proved one after another, since several
    crates share them."""
    below = {dep.name: dep for crate in crates for dep in crate.below()}
    return [name for name, dep in below.items() if dep.build_rlib(["--jobs", "1"], anew=False)]


def at_once():
    """How many crates to try side by side."""
    free = re.search(r"^MemAvailable:\s+(\d+)", Path("/proc/meminfo").read_text(), re.M)
    return max(1, min(len(os.sched_getaffinity(0)), int(free[1]) // ROOM if free else 1))


def results_of(rt, by_crate, goes_on):
    """What each edit comes to: crates side by side, the dearest first."""
    dearest = sorted(by_crate.items(), key=lambda row: -len(row[1]) * row[0].count(rb"\n"))
    with tempfile.TemporaryDirectory(prefix="vipr-wrong-") as room:
        with ThreadPoolExecutor(at_once()) as pool:
            runs = [pool.submit(tried, rt, crate, paths, room, goes_on) for crate, paths in dearest]
            return [result for run in runs for result in run.result()]


def summary(results):
    """The lines at the end: each edit that fails the run, and how many came to what."""
    for result in results:
        if result.outcome not in REFUSALS:
            yield f"{result.outcome.value}: {result.name}"
        elif not result.is_good():
            yield f"no values and no case: {result.name}"
    counts = {outcome: sum(result.outcome is outcome for result in results) for outcome in Outcome}
    yield ", ".join(f"{count} {outcome.value}" for outcome, count in counts.items())


def main(words):
    if kit.missing():
        print(kit.missing())
        return 2
    start = time.monotonic()
    rt = kit.toolchain()
    rt.rtlib.guarded()
    by_crate, unknown = chosen(rt.rtlib.crates_below(str(TOP)), words)
    if unknown or not by_crate:
        print(f'no wrong versions: {", ".join(unknown) or "crates/*/wrong"}')
        return 1
    unproved = unproved_below(by_crate)
    if unproved:
        print(f'not proved: {", ".join(unproved)}, so nothing above was tried')
        return 1
    results = results_of(rt, by_crate, goes_on=not words)
    print(f"{(time.monotonic() - start) / 60:.1f} minutes")
    print("\n".join(summary(results)))
    return 0 if all(result.is_good() for result in results) else 1


if __name__ == "__main__":
    sys.exit(main(sys.argv[1:]))
