#!/usr/bin/env python3
"""Tries the Python package: its reader, its calls of the library, and each of its commands.

usage: tests/python.py [PROGRAM [PART ..]]     crates/vipr/out/vipr without it; a part is a function below, as `comparisons`

- The package is installed from a copy of python/ into a folder, without a network, if this Python
  has pip; else its commands are run from python/ itself, with a word.
- The reader answers as `vipr show`: on the examples, on damaged texts, on numbers with signs, and
  on texts of 4 MB.
- Texts in any buffer are taken; mypy and ruff find nothing, if they are installed.
- The calls give what the program prints, if `make lib` built the library here; else they are left
  out, with a word.
- compare-mps gives the lines of tests/mps_changes.py for changes of one MPS file and one
  certificate; it finds each example the same as an MPS file that is made of it; on random pairs it
  answers as a loop over all pairs of conditions does. A packed file that is cut is status 3.
- stats gives the goal of `vipr explain`, as many needed derivations as `vipr tighten` keeps, and
  the constraints that they name.
- picture writes well-formed XML, with a box for each derivation, and the page's picture is as it is
  in docs/.
- Each command's man page and completions say what its parser does: each flag and what it is for,
  and the words of a value.
- Short texts that stand for long rows or large sets of assumptions are read within limits of memory
  and processor time.
- check-all is tried by tests/many_files.py: each file has a row, what can't be seen too, and goes
  on after a stop.
- audit is tried by tests/audits.py: what it says of a model and a certificate, and its exit status.

Prints each fault, and last `python: N checks, F failed`; the exit status is 1 if one failed.
"""
import bz2
import contextlib
import copy
import email
import functools
import gc
import gzip
import hashlib
import importlib.metadata
import importlib.util
import inspect
import io
import itertools
import json
import lzma
import mmap
import os
import pickle
import random
import re
import resource
import shutil
import sys
import tarfile
import tempfile
import time
import xml.etree.ElementTree
from collections import Counter
from concurrent.futures import ThreadPoolExecutor
from pathlib import Path
from unittest import mock

from texts import TOP, UNPROVED, Checks, program, run, said_version, text_of
import audits
import families
import many_files
import models
import one_place as places
import packed_files

PROGRAM = program(sys.argv[1:])
sys.path.insert(0, str(TOP / "python"))
sys.dont_write_bytecode = True
import build_manual  # noqa: E402
import vipr  # noqa: E402
from vipr import compare_mps, files, mps, picture, proof as structure, stats  # noqa: E402
from mps_changes import CHANGES  # noqa: E402

EXAMPLES = {path: path.read_bytes() for path in sorted((TOP / "examples").rglob("*.vipr"))}
NAMES = ("audit", "check-all", "compare-mps", "html", "picture", "stats")
PIECES = [
    b"0",
    b"1",
    b"-1",
    b"OBJ",
    b"{",
    b"}",
    b"inf",
    b"-inf",
    b"1/0",
    b"3.5",
    b"9" * 39,
    b"4294967296",
    b"00007",
    b"+3/6",
    b"VER",
    b"%",
    b"lin",
    b"uns",
    b"G",
    b"x" * 65536,
    b"\xff\x1b",
]
LARGE = 4_000_000
# a text that says nothing of the dual side, beside a constraint that is true nowhere
NO_GOAL = b"VER 1.0 VAR 1 x INT 0 OBJ min 1 0 1 CON 1 0 c G 1 0 RTP range -inf inf SOL 0 DER 0"
# a text that is no proof: its last derivation names a constraint that isn't there
NOT_THERE = (
    b"VER 1.0 VAR 1 x INT 1 0 OBJ min 0 CON 0 0 RTP infeas SOL 0 DER 302 "
    + b"a G 0 0 { lin 0 } -1 " * 301
    + b"b G 1 0 { uns 2 4000000000 3 1 } -1"
)
CHECKS = Checks("python")
check = CHECKS.check


def damaged(text, dice):
    """A text with one piece less, more or other, cut, or with another byte."""
    token = dice.choice(list(re.finditer(rb"\S+", text)))
    way, piece, at = dice.randrange(5), dice.choice(PIECES), dice.randrange(len(text))
    if way == 0:
        return text[: token.start()] + text[token.end() :]
    if way == 1:
        return text[: token.start()] + piece + text[token.end() :]
    if way == 2:
        return text[: token.start()] + piece + b" " + text[token.start() :]
    return text[:at] if way == 3 else text[:at] + bytes([dice.randrange(256)]) + text[at + 1 :]


def large_texts():
    for family in (families.tree, families.wide, families.solutions):
        yield family.__name__, "\n".join(families_lines(family)).encode() + b"\n"


def families_lines(family):
    return list(family(LARGE))


# ---- the package as it is installed


def modules():
    """The commands as modules of python/."""
    return {name: [sys.executable, "-m", f'vipr.{name.replace("-", "_")}'] for name in NAMES}


def installed(room):
    """The commands of the package: those that pip installs, or the modules."""
    if importlib.util.find_spec("pip") is None:
        print("python: not installed, for want of pip")
        return modules()
    shutil.copytree(TOP / "python", room / "source", ignore=shutil.ignore_patterns("__pycache__"))
    said, fault, status = run(
        [
            sys.executable,
            "-m",
            "pip",
            "install",
            "-q",
            "--no-index",
            "--disable-pip-version-check",
            "--target",
            room / "site",
            room / "source",
        ],
        timeout=600,
    )
    check(status == 0, (said + fault).decode())
    return (
        {name: [sys.executable, room / "site/bin" / f"vipr-{name}"] for name in NAMES}
        if status == 0
        else modules()
    )


# ---- the reader, and the calls


def agrees(text, what):
    """Whether the reader answers as `vipr show`."""
    _, said, status = run([PROGRAM, "show"], text)
    got = vipr.read(text)
    is_refused = not got
    check(
        isinstance(got, vipr.Refused if is_refused else vipr.Certificate), f"{what}: {got!r:.200}"
    )
    check(
        is_refused == (status == 1) and (not is_refused or str(got) == said.decode().rstrip("\n")),
        f"{what}: {got!r:.200}, {said}",
    )
    front = vipr.read_problem(text)
    check(
        front == got
        or (is_refused and isinstance(front, vipr.Problem))
        or (not is_refused and front == got.problem),
        f"{what}: the problem alone is read otherwise",
    )
    return got


def signed():
    """Texts with a sign or zeros before one of their numbers."""
    for name in "both_branches", "rounding_min":
        text = EXAMPLES[TOP / f"examples/{name}.vipr"]
        for token, sign in itertools.product(re.finditer(rb"\b\d", text), (b"+", b"-", b"00")):
            at = token.start()
            yield f"{name} with {sign.decode()} at {at}", text[:at] + sign + text[at:]


def reader(dice):
    texts = [(path.name, text) for path, text in EXAMPLES.items()]
    texts += [
        (f"{path.name} damaged", damaged(text, dice))
        for path, text in EXAMPLES.items()
        for _ in range(20 if len(text) < 5000 else 2)
    ]
    with ThreadPoolExecutor(4) as pool:
        names, all_texts = zip(*texts, *signed())
        list(pool.map(agrees, all_texts, names))
    return [text for _, text in texts]


def library():
    found = sorted((TOP / "crates/vipr_c/out").glob("libvipr.so.*"))
    if not found:
        if shutil.which("cc"):
            print("python: the calls of the library are left out: make lib")
        else:
            CHECKS.skip("C compiler", "there is no library, and its calls are left out")
        return None
    os.environ["VIPR_LIBRARY"] = str(found[-1])
    return found[-1]


def calls(texts):
    for text in texts:
        for profile in (1, 2):
            out, fault, status = run([PROGRAM, "check", f"--profile={profile}"], text)
            verdict = vipr.check(text, profile)
            check(
                f"{verdict}\n".encode() == out + fault and bool(verdict) == (status == 0),
                f"check: {verdict}, {out}",
            )
            goal = re.search(
                rb"^goal (\d+)",
                run([PROGRAM, "explain", f"--profile={profile}"], text).stdout,
                re.M,
            )
            check(
                verdict.goal == (int(goal[1]) if goal and verdict else None),
                f"the goal is {verdict.goal}, not {goal}",
            )
            for call, words in (
                (vipr.explain, ()),
                (functools.partial(vipr.explain_long, name="standard input"), ("--long",)),
            ):
                out = run([PROGRAM, "explain", *words, f"--profile={profile}"], text).stdout
                check(call(text, profile=profile) == out, f"explain {words} differs")
        for words, compact in (([], False), (["--compact"], True)):
            for command, call in (("show", vipr.show), ("tighten", vipr.tighten)):
                out, fault, status = run([PROGRAM, command, *words], text)
                got = call(text, compact=compact)
                if not got:
                    check(
                        isinstance(got, vipr.Refused)
                        and status == 1
                        and f"{got}\n".encode() == fault,
                        f"{command}: {got}, {fault}",
                    )
                elif command == "show":
                    check(got == out, "show differs")
                else:
                    line = f"kept {got.kept} removed {got.removed} peak {got.peak_before} {got.peak_after}\n"
                    check((got.text, line.encode()) == (out, fault), f"tighten: {line}, {fault}")
    page = run([PROGRAM, "explain", "--long"], b"VER 1.0 VAX").stdout
    for name, shown in (
        ("copy.vipr",) * 2,
        ("another input!",) * 2,
        ("a\tname\x1b", "a name\\x1b"),
        ("n" * 5_000,) * 2,
    ):
        wanted = page.replace(b"--> standard input:", f"--> {shown}:".encode())
        check(
            vipr.explain_long(b"VER 1.0 VAX", name=name) == wanted != page,
            f"the page of {name!r:.40}",
        )
    for text in (b"", b"\0", *EXAMPLES.values()):
        check(
            vipr.digest(text) == hashlib.sha256(text).hexdigest(),
            f"the digest is {vipr.digest(text)}",
        )
    versions = vipr.version().removesuffix(UNPROVED), said_version(PROGRAM)[0]
    check(f"vipr {versions[0]}" == versions[1], f"the versions are {versions}")
    for wrong, error in (
        (lambda: vipr.check(b"", 3), vipr.BadProfile),
        (lambda: vipr.check("VER 1.0"), TypeError),
        (lambda: vipr.digest("VER 1.0"), TypeError),
        (lambda: vipr.check(b"", 2**32 + 1), vipr.BadProfile),
        (lambda: vipr.tighten(b"", "1"), vipr.BadProfile),
        (lambda: vipr.check_file("no/such.vipr"), OSError),
    ):
        try:
            wrong()
            check(False, f"no {error.__name__}")
        except error:
            check(True, "")
    claim = vipr.check(EXAMPLES[TOP / "examples/problems/diet.vipr"]).claim
    check(
        str(claim) == "range 16/5 16/5"
        and claim.lower == claim.upper
        and claim.turned().lower == -claim.upper,
        claim,
    )


def inputs(room):
    """A text in any buffer of bytes gives what its bytes give, and a string is a TypeError with a
    sentence."""
    text = EXAMPLES[TOP / "examples/plan.vipr"]
    path = room / "plan.vipr"
    path.write_bytes(text)
    calls = [vipr.read, vipr.read_problem, *([vipr.check, vipr.digest] if library() else [])]
    with open(path, "rb") as file, mmap.mmap(file.fileno(), 0, access=mmap.ACCESS_READ) as mapped:
        for call in calls:
            for other in (bytearray(text), memoryview(text), mapped):
                check(
                    call(other) == call(text), f"{call.__name__} of {type(other).__name__} differs"
                )
    for call in calls:
        for wrong in ("VER 1.0", 3, None, [1]):
            try:
                call(wrong)
                check(False, f"{call.__name__} of {wrong!r}: no TypeError")
            except TypeError as fault:
                check("a certificate is bytes, not" in str(fault), fault)
    if library():
        packed = room / "plan.vipr.gz"
        packed.write_bytes(gzip.compress(text))
        check(
            vipr.check_file(path) == vipr.check_file(str(packed)) == vipr.check(text),
            "check_file differs",
        )
    check(
        vipr.read_file(path) == vipr.read_file(room / "plan.vipr") == vipr.read(text),
        "read_file differs",
    )
    whole = vipr.read(text)
    check(
        len({*whole.problem.constraints, *whole.solutions, *whole.derivations}) == 16
        and hash(whole.derivations[0]) == hash(vipr.read(text).derivations[0]),
        "parts of a certificate have no hash",
    )
    for copied in (pickle.loads(pickle.dumps(whole)), copy.deepcopy(whole), copy.copy(whole)):
        check(
            copied == whole and copied.derivations[-1] == list(whole.derivations)[-1],
            "a copy of a certificate is another one",
        )
    check(
        not vipr.read(b"VER") and vipr.read(b"VER").refusal.cause is vipr.Cause.TRUNCATED,
        "what is refused is true",
    )
    exported = {}
    exec("from vipr import *", exported)
    check(
        set(vipr.__all__) < set(exported) and exported["read_mps"] is mps.read_mps,
        "a name of __all__ is not there",
    )
    check(set(vipr.__all__) <= set(dir(vipr)), "dir doesn't list a name of __all__")
    project = (TOP / "python/pyproject.toml").read_text()
    check(f'version = "{vipr.__version__}"' in project, f"__version__ is {vipr.__version__}")


def metadata(room):
    """A sdist, and what a Debian package has beside the modules, say what the package is."""
    build = importlib.import_module("build_package")
    with tarfile.open(room / build.build_sdist(room)) as archive:
        names = archive.getnames()
        info = archive.extractfile(f"{build.NAME}/PKG-INFO").read().decode()
    check(
        {f"{build.NAME}/{name}" for name in ("pyproject.toml", "build_package.py", "vipr/mps.py")}
        <= {*names},
        f"the sdist has {names}",
    )
    build.write_info(room / "site-info")
    found = importlib.metadata.Distribution.at(room / f"site-info/{build.NAME}.dist-info")
    for said in (email.message_from_string(info), found.metadata):
        check(
            (said["Name"], said["Version"]) == ("vipr", vipr.__version__)
            and all(
                said[field]
                for field in ("Summary", "Author", "Author-email", "License", "Requires-Python")
            )
            and len(said.get_all("Classifier")) >= 5
            and "import vipr" in said.get_payload(),
            f"the metadata are {said}",
        )
    check(
        {entry.name for entry in found.entry_points} == {f"vipr-{name}" for name in NAMES},
        f"the commands of the package are {found.entry_points}",
    )


def oldest(room):
    """The package and the example of a solver run in the oldest Python that the package is for, if
    it is here."""
    version = re.search(r'requires-python = ">=(.*)"', (TOP / "python/pyproject.toml").read_text())
    name = f"python{version[1]}"
    places = [shutil.which(name), *Path.home().glob(f".pyenv/versions/{version[1]}*/bin/{name}")]
    python = next((path for path in places if path and not run([path, "-c", ""]).returncode), None)
    if python is None:
        print(f"python: {name} is not here, so the package was not tried in it")
        return
    example, model = TOP / "examples/plan.vipr", TOP / "examples/plan.mps"
    for words in (
        *(["-m", f"vipr.{name.replace('-', '_')}", "--help"] for name in NAMES),
        ["-m", "vipr", "--version"],
        ["-m", "vipr.stats", example],
        ["-m", "vipr.picture", example],
        ["-m", "vipr.html", example],
        ["-m", "vipr.compare_mps", model, example],
        [TOP / "examples/solver/solve.py", model],
        [TOP / "examples/python/knapsack.py"],
    ):
        old, new = (run([path, *words], cwd=room) for path in (python, sys.executable))
        is_same = old.stdout == new.stdout or "--help" in words
        check(
            is_same and (old.stderr, old.returncode) == (new.stderr, 0),
            f"{name} {words}: {old}, {new}",
        )


CALLER = """
import vipr
verdict = vipr.check_file('a.vipr')
print(verdict.claim.lower if verdict else verdict.refusal.cause.word)
other: vipr.Verdict = vipr.check(memoryview(b''))
proof = vipr.read(bytearray())
"""


def types(room):
    """The package and a caller's code have no faults of types or style, if the tools are
    installed."""
    caller = room / "caller.py"
    caller.write_text(CALLER)
    for tool, words in (
        (
            "mypy",
            [
                "--strict",
                "--python-version=3.9",
                f"--cache-dir={room}/mypy",
                TOP / "python/vipr",
                caller,
            ],
        ),
        ("ruff", ["check", "--no-cache", TOP / "python"]),
    ):
        if shutil.which(tool):
            done = run([tool, *words], env={**os.environ, "MYPYPATH": str(TOP / "python")})
            check(done.returncode == 0, done.stdout.decode())
        else:
            CHECKS.skip(tool, "the package is not looked at by it")


def causes():
    """Each cause of the page of the format has its name."""
    page = (TOP / "docs/FORMAT.md").read_text()
    named = {
        int(number): word for number, word in re.findall(r"^\| (\d+) \| ([A-Z]\w+) \|", page, re.M)
    }
    check(
        {int(cause): cause.word for cause in vipr.Cause} == named,
        f"the causes are {list(vipr.Cause)}",
    )
    page = (TOP / "docs/USE.md").read_text()
    named = {
        int(number): word for number, word in re.findall(r"^\| (\d+) \| ([A-Z]\w+) \|", page, re.M)
    }
    check(
        {int(cause): cause.word for cause in mps.Cause} == named,
        f"the causes of MPS files are {list(mps.Cause)}",
    )


# ---- the commands


def changes():
    """The changes of tests/mps_changes.py: what is changed, both texts then, the lines to be
    printed, and the options."""
    base = {
        "file": (TOP / "examples/plan.mps").read_text(),
        "certificate": (TOP / "examples/plan.vipr").read_text(),
    }
    for what, side, old, new, printed, options in CHANGES:
        text = base[side]
        check(
            old in (None, "", "\n", "BND") or text.count(old) == 1,
            f"{what}: the piece is not there once",
        )
        if old is None:
            text = new
        elif old:
            text = text.replace(old, new)
        if side == "certificate":
            count = text[text.index("CON ") : text.index("RTP")].count("\n") - 1
            text = re.sub(r"CON \d+", f"CON {count}", text)
        yield what, {**base, side: text}, printed, options


def written_mps(problem):
    """A certificate's problem as an MPS file, each bound a row but for the variables' signs."""

    def decimal(value):
        for power in range(40):
            scaled = value * 10**power
            if scaled.denominator == 1:
                return f"{int(scaled)}e-{power}"
        raise ValueError

    columns = {at: [("obj", problem.objective.get(at, 0))] for at in range(len(problem.names))}
    for at, constraint in enumerate(problem.constraints):
        for index, value in constraint.row.items():
            columns[index].append((f"r{at}", value))
    out = ["NAME", "OBJSENSE", f' {"MAX" if problem.maximizes else "MIN"}', "ROWS", " N obj"]
    out += [f" {constraint.sense} r{at}" for at, constraint in enumerate(problem.constraints)] + [
        "COLUMNS"
    ]
    for at, name in enumerate(problem.names):
        word = "INTORG" if at in problem.integers else ""
        out += [f" M 'MARKER' '{word}'"] if word else []
        out += [f" {name} {row} {decimal(value)}" for row, value in columns[at]]
        out += [" M 'MARKER' 'INTEND'"] if word else []
    out += [
        "RHS",
        *(
            f" r{at} {decimal(constraint.bound)}"
            for at, constraint in enumerate(problem.constraints)
        ),
        "BOUNDS",
    ]
    return "\n".join([*out, *(f" FR {name}" for name in problem.names), "ENDATA", ""]).encode()


def follows(wanted, conditions, whole):
    """Whether one condition of some says as much as a condition: the definition, with no index over
    them."""
    row, sense, bound = wanted

    def rounded(row, sense, bound):
        if row and whole(row):
            return (
                -(-bound.numerator // bound.denominator)
                if sense == "G"
                else bound.numerator // bound.denominator
            )
        return bound

    def says(condition):
        if not condition[0] and ((condition[1] == "G") == (condition[2] > 0)) and condition[2]:
            return True
        good, need = (rounded(condition[0], condition[1], condition[2]), rounded(row, sense, bound))
        return condition[:2] == (row, sense) and (good >= need if sense == "G" else good <= need)

    return (not row and (bound <= 0 if sense == "G" else bound >= 0)) or any(map(says, conditions))


def exactly(row, sense, bound):
    """The same constraint with fractions, its row in ascending order."""
    number = vipr.certificate.Fraction
    return tuple(sorted((j, number(value)) for j, value in row.items())), sense, number(bound)


def halves(row, sense, bound):
    return [(row, half, bound) for half in "GL" if sense in ("E", half)]


def random_pair(dice):
    """An MPS file and a certificate of a few rows, mostly the same problem, and whether they are it
    by the definition."""
    integers = dice.sample([0, 1], dice.randrange(3))
    rows = [
        (
            {j: dice.choice([1, -1, 2, 0.5]) for j in dice.sample([0, 1], dice.randrange(3))},
            dice.choice("GLE"),
            dice.choice([-1, 0, 0.5, 1, 2]),
        )
        for _ in range(dice.randrange(4))
    ]
    other = [*rows]
    for _ in range(dice.randrange(3)):
        change = dice.randrange(4)
        if change == 0 and other:
            other.pop(dice.randrange(len(other)))
        elif change == 1 and other:
            at = dice.randrange(len(other))
            other[at] = (other[at][0], other[at][1], other[at][2] + dice.choice([-1, -0.5, 0.5, 1]))
        elif change == 2 and other:
            other.append(dice.choice(other))
        else:
            other.append(({}, dice.choice("GL"), dice.choice([-1, 0, 1])))
    exact = [[exactly(*constraint) for constraint in side] for side in (rows, other)]

    def whole(row):
        return all(j in integers and v.denominator == 1 for j, v in row)

    ours, theirs = ([half for constraint in side for half in halves(*constraint)] for side in exact)
    same = all(follows(half, theirs, whole) for half in ours)
    same &= all(follows(half, ours, whole) for half in theirs)
    problem = vipr.Problem(
        ["a", "b"],
        set(integers),
        False,
        {},
        0,
        [vipr.Constraint("c", sense, bound, dict(row)) for row, sense, bound in exact[0]],
        vipr.Claim(True),
    )
    body = f'VER 1.0 VAR 2 a b INT {len(integers)} {" ".join(map(str, integers))} OBJ min 0 CON {len(other)} 0 '
    body += " ".join(
        f"c {sense} {bound} {len(row)} " + " ".join(f"{j} {v}" for j, v in row)
        for row, sense, bound in exact[1]
    )
    return written_mps(problem), f"{body} RTP infeas SOL 0 DER 0\n".encode(), same


def comparisons(dice):
    for what, texts, printed, options in changes():
        _, lines = compare_mps.compared(
            texts["file"].encode(), texts["certificate"].encode(), **options
        )
        lines = [line for line in lines if not line.startswith("cause ")]
        check(lines == printed, f"{what}: compare-mps prints {lines}, and the table has {printed}")
    for path, text in EXAMPLES.items():
        problem = vipr.read_problem(text)
        try:
            model = written_mps(problem)
        except ValueError:
            continue
        check(
            compare_mps.compared(model, text, "inf")[1] == [f"problem {problem.claim}"],
            f"{path.name} is not the same",
        )
    for _ in range(2000):
        model, text, same = random_pair(dice)
        status, lines = compare_mps.compared(model, text, "inf")
        check((status == 0) == same, f"{model.decode()}{text.decode()}{lines}")


def one_place():
    """Models of hundreds of rows that are the same, and that differ in one place, which has to be
    found."""
    dice = random.Random(8)
    for _ in range(3):
        model = places.random_model(dice)
        answer = compare_mps.compared(*places.same(model, dice))
        check(answer == (0, ["problem range 1/3 inf"]), f"one model: {answer}")
        for what, is_last in itertools.product(places.KINDS, (False, True)):
            found = places.difference(model, what, dice, is_last)
            status, lines = compare_mps.compared(found.file, found.certificate)
            check(
                status == 1 and lines[0] == found.line and found.shown in lines[1:],
                f"{what}{' at the end' * is_last}: {lines}, wanted {found.line}, {found.shown}",
            )


# a file of one column x: its row with right-hand side 5 (or none), what RANGES and BOUNDS have, the
# options; and the bounds and the kind of x in a certificate that has the same problem, a piece of
# which makes another one
SIDES = [
    ("E", "r 2", "FR x", {}, "", "G5 L7"),
    ("E", "r -2", "FR x", {}, "", "G3 L5"),
    ("L", "r 2", "FR x", {}, "", "G3 L5"),
    ("L", "r -2", "FR x", {}, "", "G3 L5"),
    ("G", "r 2", "FR x", {}, "", "G5 L7"),
    ("G", "r -2", "FR x", {}, "", "G5 L7"),
    ("", "", "BV x", {}, "0", "G0 L1"),
    ("", "", "UI x 3", {}, "0", "G0 L3"),
    ("", "", "LI x 2", {"integers": "inf"}, "0", "G2"),
    ("", "", "LI x 2", {"integers": "one"}, "0", "G2 L1"),
    ("", "", "UI x 1e30", {"infinity": 10**30}, "0", "G0"),
    ("", "", "UP x 1e31", {"infinity": 10**30}, "", "G0"),
    ("", "", "LO x -1e30", {"infinity": 10**30}, "", ""),
    ("", "", "UP x 1e25", {"infinity": 10**30}, "", f"G0 L{10**25}"),
]
UNCLEAR_SIDES = [
    (" UP x -0.5\n", {}, 124),
    (" UI x 1e30\n", {}, 118),
    (" LO x 1e30\n", {"infinity": 10**30}, 118),
    (" FX x 1e30\n", {"infinity": 10**30}, 118),
    (" UP x -1e30\n", {"infinity": 10**30}, 118),
]


def one_column(kind, ranges, bounds):
    row = (
        [f" {kind} r", "COLUMNS", " x obj 1 r 1", "RHS", " r 5"]
        if kind
        else ["COLUMNS", " x obj 1"]
    )
    return "\n".join(
        [
            "NAME",
            "ROWS",
            " N obj",
            *row,
            "RANGES",
            *([f" {ranges}"] if ranges else []),
            "BOUNDS",
            f" {bounds}",
            "ENDATA",
            "",
        ]
    ).encode()


def sides():
    """What each kind of row, range and bound asks of a column."""
    for kind, ranges, bounds, options, whole, wanted in SIDES:
        file = one_column(kind, ranges, bounds)

        def answer(conditions, integers):
            rows = " ".join(f"c {condition[0]} {condition[1:]} 1 0 1" for condition in conditions)
            return compare_mps.compared(
                file,
                (
                    f'VER 1.0 VAR 1 x INT {f"1 {integers}" if integers else "0"} OBJ min 1 0 1 CON {len(conditions)} 0 '
                    f"{rows} RTP range -inf inf SOL 0 DER 0"
                ).encode(),
                **options,
            )

        all_of = wanted.split()
        check(answer(all_of, whole)[0] == 0, f"{file} {options}: {answer(all_of, whole)}")
        others = [[*all_of[:at], *all_of[at + 1 :]] for at in range(len(all_of))]
        others += [
            [*all_of[:at], f"{condition[0]}{int(condition[1:]) + 1}", *all_of[at + 1 :]]
            for at, condition in enumerate(all_of)
        ] + [[*all_of, "L2", "G2"]]
        for other in others:
            check(
                answer(other, whole)[0] == 1 or wanted == "G2 L1",
                f"{file} {options} {other}: {answer(other, whole)}",
            )
        check(answer(all_of, "" if whole else "0")[0] == 1, f"{file} {options}: another kind of x")
    for bounds, options, cause in UNCLEAR_SIDES:
        status, lines = compare_mps.compared(one_column("", "", bounds.strip()), b"", **options)
        check(
            status == 1 and lines[0].startswith(f"refused {cause} at line"),
            f"{bounds} {options}: {lines}",
        )


def many_rows():
    """A file of 40 rows, of which each other one has no right-hand side, while the objective has
    one, and a row of type N at their end."""
    rows = range(40)
    model = [
        "NAME",
        "ROWS",
        " N obj",
        *(f" G r{at}" for at in rows),
        " N free",
        "COLUMNS",
        " x obj 1 free 2",
        *(f" x r{at} {at + 2}" for at in rows),
        "RHS",
        " obj 7 free 8",
        *(f" r{at} {at + 1}" for at in rows[::2]),
        "ENDATA",
        "",
    ]
    conditions = " ".join(f"c G {0 if at % 2 else at + 1} 1 0 {at + 2}" for at in rows)
    text = f"VER 1.0 VAR 1 x INT 0 OBJ min 1 0 1 CON 41 0 {conditions} b G 0 1 0 1 RTP range -inf 3 SOL 0 DER 0"
    answer = compare_mps.compared("\n".join(model).encode(), text.encode())
    check(answer == (0, ["problem range -inf 3", "constant 7"]), f"many rows: {answer}")


def turned_claims():
    """The claim about the negative objective has the other side's negative on each side."""
    for lower, upper in (1, 2), (-3, 5), (None, 2), (1, None), (None, None):
        got = vipr.Claim(False, lower, upper).turned()
        wanted = None if upper is None else -upper, None if lower is None else -lower
        check(
            (got.infeasible, got.lower, got.upper) == (False, *wanted),
            f"{lower} {upper} turned: {got}",
        )
    check(vipr.Claim(True).turned() == vipr.Claim(True), "infeas turned")


def figures():
    for path, text in {**EXAMPLES, "no goal": NO_GOAL}.items():
        out, _, status = run([PROGRAM, "explain"], text)
        if status:
            continue
        found = stats.figures(vipr.read(text))
        goal = re.search(r"^goal (\w+)", out.decode(), re.M)[1]
        check(
            str(found["goal"]) == goal.title(),
            f'{path}: goal {found["goal"]}, {goal}',
        )
        if found["goal"] is not None:
            kept = re.match(rb"kept (\d+)", run([PROGRAM, "tighten"], text).stderr)[1]
            check(
                found["needed_derivations"] == int(kept),
                f'{path}: {found["needed_derivations"]} needed, {kept} kept',
            )
    found = stats.figures(vipr.read(NO_GOAL.replace(b"OBJ min 1 0 1", b"OBJ min 1 0 1000")))
    check(found["written_bits"] == 10, f"the number of the objective is not counted: {found}")
    found = stats.figures(vipr.read(EXAMPLES[TOP / "examples/overflow.vipr"]))
    check((found["written_bits"], found["computed_bits"]) == (127, 128), found)
    found = stats.figures(vipr.read(EXAMPLES[TOP / "examples/branch_and_bound.vipr"]))
    check(
        (found["by_reason"], found["assumption_depth"], found["objective_rows"])
        == ({"asm": 2, "lin": 1, "rnd": 1, "uns": 1, "sol": 0}, 1, 3),
        found,
    )


def limited(megabytes=500):
    """Limits of a run over a hostile text: 10 seconds of the processor, and so much memory."""
    resource.setrlimit(resource.RLIMIT_CPU, (10, 11))
    resource.setrlimit(resource.RLIMIT_AS, (megabytes << 20, megabytes << 20))


def one_hash(model, path, count):
    """A model of one column whose rows have coefficients that Python gives one hash."""
    values = [2 + at * sys.hash_info.modulus for at in range(count)]
    rows = [f" G r{at}" for at in range(count)]
    entries = [f" x r{at} {value}" for at, value in enumerate(values)]
    lines = ["NAME", "ROWS", " N obj", *rows, "COLUMNS", " x obj 1", *entries]
    model.write_text("\n".join([*lines, "BOUNDS", " FR x", "ENDATA\n"]))
    lines = [f"VER 1.0 VAR 1 x INT 0 OBJ min 1 0 1 CON {count} 0"]
    lines += [f"c G 0 1 0 {value}" for value in values]
    path.write_text("\n".join([*lines, "RTP range -inf inf SOL 0 DER 0\n"]))


def hostile(room, words):
    """Short texts that stand for long rows, for large sets of assumptions and for long sums: no
    command is slow for them."""
    texts = {
        name: families.__dict__[name]
        for name in ("growing", "growing_at_the_front", "joined_sets", "objective_kept", "one_sum")
    }
    for name, family in texts.items():
        path = room / f"{name}.vipr"
        path.write_bytes(text_of(family, 1_000_000))
        for command in ("stats", "picture"):
            out, fault, status = run([*words[command], path], preexec_fn=limited)
            check(
                status == 0 and len(out) < 2_000_000,
                f"{command} of {name}: status {status}, {len(out)} bytes, {fault}",
            )
        path.unlink()
    count = 12_000
    rows = [
        f"VER 1.0 VAR {count}",
        *(f"x{at}" for at in range(count)),
        f"INT 0 OBJ min {count}",
        *(f"{at} 1" for at in range(count)),
        f"CON {count} 0",
        *["r G 0 OBJ"] * count,
        "RTP range -inf inf SOL 0 DER",
    ]
    path, model = room / "rows.vipr", room / "rows.mps"
    path.write_text("\n".join([*rows, "0\n"]))
    model.write_text(
        "\n".join(
            [
                "NAME",
                "ROWS",
                " N obj",
                " G r",
                "COLUMNS",
                *(f" x{at} obj 1 r 1" for at in range(count)),
                "BOUNDS",
                *(f" FR x{at}" for at in range(count)),
                "ENDATA\n",
            ]
        )
    )
    for line in (
        [*words["stats"], path],
        [*words["picture"], path],
        [*words["compare-mps"], model, path],
    ):
        out, fault, status = run(line, preexec_fn=limited)
        check(status == 0 and b"range -inf inf" in out, f"{line}: status {status}, {fault}")
    one_hash(model, path, 12_000)
    out, fault, status = run([*words["compare-mps"], model, path], preexec_fn=limited)
    check((status, out) == (0, b"problem range -inf inf\n"), f"one hash: status {status}, {fault}")
    models.write(model, path, 25_000, 10_000, 4)
    out, fault, status = run(
        [*words["compare-mps"], model, path], preexec_fn=functools.partial(limited, 95)
    )
    check(
        (status, out) == (0, b"problem range -inf inf\n"),
        f"100,000 entries: status {status}, {fault}",
    )
    path.write_text(
        "\n".join(
            [*rows, f"1 d G 0 OBJ {{ lin {count}", *(f"{at} 1" for at in range(count)), "} -1\n"]
        )
    )
    out, fault, status = run([*words["stats"], path], preexec_fn=limited)
    check(
        status == 0 and b"too many steps" in out,
        f"stats of a long sum: status {status}, {out}, {fault}",
    )


def needed_alone():
    """The constraints that a proof needs are those that `tighten` keeps references to, and without
    the others it is a proof."""
    for path, text in EXAMPLES.items():
        proof = vipr.read(text)
        if not proof or run([PROGRAM, "check"], text).returncode:
            continue
        found, tight = structure.outline(proof), vipr.read(run([PROGRAM, "tighten"], text).stdout)
        first = len(proof.problem.constraints)
        used = {
            index
            for at in range(len(tight.derivations))
            for index in tight.references[at]
            if index < first
        }
        used |= {found.goal} if found.goal is not None and found.goal < first else set()
        check(
            found.goal is None or {index for index in range(first) if found.needed[index]} == used,
            f"{path}: needed {found.needed[:first]}, used {used}",
        )


def alive():
    """A terminal shows how far a long run is, and nothing of a short one; no other stream shows
    anything."""
    for is_terminal, seconds, wanted in (
        (True, 3, "reading 50 %, 3 s"),
        (True, 1, ""),
        (False, 3, ""),
    ):
        stream, clock = io.StringIO(), iter([0, seconds, seconds])
        stream.isatty = lambda: is_terminal
        with mock.patch("sys.stderr", stream), mock.patch("time.monotonic", lambda: next(clock)):
            shown = files.Alive()
            shown.part("reading", 10)(5)
            shown.end()
        check(
            stream.getvalue().strip("\r").partition(" \x1b[K")[0] == wanted,
            f"{is_terminal} {seconds}: {stream.getvalue()!r}",
        )
    stream = io.StringIO()
    stream.isatty = lambda: True
    with mock.patch("sys.stderr", stream), mock.patch.multiple(files, LONG=-1, OFTEN=0.01):
        shown = files.Alive()
        with shown.during("checking"):
            for _ in range(6000):
                if stream.getvalue():
                    break
                time.sleep(0.01)
        shown.end()
    shows = re.fullmatch(r"(\rchecking, \d+ s \x1b\[K)+\r\x1b\[K", stream.getvalue())
    check(shows, f"during a call: {stream.getvalue()!r}")


def shows_how_far(room):
    """Each command that reads a whole proof or a model says on a terminal what it does, and takes
    the line away."""
    example, model = str(TOP / "examples/plan.vipr"), str(TOP / "examples/plan.mps")
    for name, words, parts in (
        ("stats", [example], ("reading", "assumptions", "sums")),
        ("picture", [example, "-o", f"{room}/alive.svg"], ("reading", "assumptions", "drawing")),
        ("html", [example, "-o", f"{room}/alive.html"], ("reading", "assumptions", "writing")),
        ("compare_mps", [model, example], ("reading the certificate", "comparing")),
        ("audit", [model, example], ("reading the certificate", "comparing")),
    ):
        stream = io.StringIO()
        stream.isatty = lambda: True
        with mock.patch("sys.stderr", stream), mock.patch("sys.argv", [name, *words]):
            with mock.patch.multiple(files, LONG=-1, OFTEN=-1):
                with contextlib.redirect_stdout(io.StringIO()):
                    status = importlib.import_module(f"vipr.{name}").main()
        shown = stream.getvalue()
        check(
            status == 0 and all(f"\r{part} " in shown for part in parts),
            f"{name} shows {shown!r}",
        )
        check(shown.endswith("\r\x1b[K"), f"{name} leaves {shown!r}")
    gc.enable()


def sets_of_assumptions(dice):
    """Sets that share their parts are those that Python's own sets give."""
    constraint = vipr.Constraint("c", "G", 1, {})
    for _ in range(60):
        first, count = dice.choice([0, 3, 255, 256, 70000]), dice.choice([5, 50, 700, 2000])
        derivations, plain = [], {}
        for at in range(count):
            pick, way = [first + dice.randrange(at + 1) for _ in range(4)], dice.randrange(3)
            if way == 0:
                derivations.append(vipr.Derivation(constraint, "asm", (), (), None))
                rests_on = {first + at}
            elif way == 1:
                entries = tuple((index, 1) for index in pick[: dice.randrange(5)])
                derivations.append(vipr.Derivation(constraint, "lin", entries, (), None))
                rests_on = set().union(*(plain.get(index, set()) for index, _ in entries))
            else:
                derivations.append(vipr.Derivation(constraint, "uns", (), tuple(pick), None))
                rests_on = (plain.get(pick[0], set()) - {pick[1]}) | (
                    plain.get(pick[2], set()) - {pick[3]}
                )
            plain[first + at] = rests_on
        problem = vipr.Problem([], set(), False, {}, 0, [constraint] * first, vipr.Claim(True))
        found = [
            (structure.indices(assumed), len(assumed))
            for assumed in structure.assumptions(vipr.Certificate(problem, [], derivations))
        ]
        # (what is named no more isn't kept)
        check(
            [assumed for assumed, _ in found] == [sorted(assumed) for assumed in plain.values()],
            "sets of assumptions differ",
        )
        check(
            [size for _, size in found] == [len(assumed) for assumed in plain.values()],
            "sizes of sets of assumptions differ",
        )


def drawn(text, boxes=picture.MOST_BOXES):
    """A picture of a text, and how many boxes it has, of which style."""
    proof = vipr.read(text)
    svg = picture.Picture(proof, structure.outline(proof)).svg(boxes, picture.MOST_SPLITS)
    root = xml.etree.ElementTree.fromstring(svg)
    return svg, [group.get("class").split() for group in root.iter("{http://www.w3.org/2000/svg}g")]


def pictures(texts):
    for text in texts:
        proof = vipr.read(text)
        if not proof:
            continue
        found = structure.outline(proof)
        count, goal = len(proof.derivations), found.goal
        boxes = drawn(text)[1]
        if count <= picture.MOST_BOXES:
            check(len(boxes) == count, f"{len(boxes)} boxes for {count} derivations")
            is_drawn = goal is not None and goal >= len(proof.problem.constraints)
            check(
                sum("goal" in styles for styles in boxes) == is_drawn,
                f"the goal {goal} is marked {boxes}",
            )
            spare = (
                count - sum(found.needed[len(proof.problem.constraints) :])
                if goal is not None
                else 0
            )
            check(
                sum("spare" in styles for styles in boxes) == spare,
                f"{spare} are not needed: {boxes}",
            )
        drawn(text, 0)
    rows = "\n".join(f"c{side} G {side} 1 0 1" for side in range(60))
    front, behind = "VER 1.0 VAR 1 x INT 0 OBJ min 1 0 1 CON 60 0", "RTP range 59 inf SOL 0 DER 0"
    proof = vipr.read("\n".join([front, rows, behind]).encode())
    listed = picture.Picture(proof, structure.outline(proof)).listed()
    styles = {words.split()[1]: style for words, style in listed if words.startswith("[")}
    check(
        len(styles) == picture.MOST_LISTED
        and [name for name, style in styles.items() if not style] == ["c59"],
        f"of 60 constraints the picture lists {styles}",
    )
    drawn(NOT_THERE)
    check(
        (TOP / "docs/branch_and_bound.svg").read_text()
        == drawn(EXAMPLES[TOP / "examples/branch_and_bound.vipr"])[0],
        "docs/branch_and_bound.svg is another picture: python3 -m vipr.picture",
    )


def commands(room, words):
    """Each command as a user has it: its help, a file that is missing, a damaged text, a name of a
    stranger, a large text."""
    example = TOP / "examples/branch_and_bound.vipr"
    model = room / "model.mps.gz"
    model.write_bytes(gzip.compress(written_mps(vipr.read_problem(EXAMPLES[example]))))
    faulty = room / "faulty.vipr"
    faulty.write_bytes(EXAMPLES[example].replace(b"CON 2", b"CONS 2"))
    strange = room / "strange.vipr"
    strange.write_bytes(
        EXAMPLES[example]
        .replace(b"left", b"\x1b[2J\xff<&>")
        .replace(b"joined", b'"]]>\xe2\x80\xae\x07')
    )
    front = {"compare-mps": [model], "picture": [], "stats": []}
    for name in NAMES:
        out, fault, status = run([*words[name], "--help"])
        check(status == 0 and b"usage: vipr-" in out and not fault, f"{name} --help: {out} {fault}")
        out, fault, status = run([*words[name], "--version"])
        check(
            (status, out, fault) == (0, f"vipr-{name} {vipr.__version__}\n".encode(), b""),
            f"{name} --version: {out} {fault}",
        )
        out, fault, status = run([*words[name], "--nothing"])
        check(status == 2 and not out, f"{name} --nothing: {status} {out}")
    for line, wanted in (([], 0), (["--version"], 0), (["stats", example], 0), (["nothing"], 2)):
        out, fault, status = run([sys.executable, "-m", "vipr", *line])
        check(
            status == wanted and bool(out) == (wanted == 0) and bool(fault) == (wanted == 2),
            f"python3 -m vipr {line}: {status} {out} {fault}",
        )
    out = run([sys.executable, "-m", "vipr"])[0].decode()
    check(re.findall(r"^  (\S+)  ", out, re.M) == sorted(NAMES), f"python3 -m vipr lists {out}")
    for name, before in front.items():
        out, fault, status = run([*words[name], *before, room / "missing.vipr"])
        check(
            (status, out) == (3, b"")
            and fault.endswith(b"missing.vipr: No such file or directory\n"),
            f"{name}: {fault}",
        )
        out, fault, status = run([*words[name], *before, faulty])
        check(
            (status, out.split(b"\n")[0], fault) == (1, b"refused 2 at byte 42", b""),
            f"{name}: {status} {out} {fault}",
        )
        out, fault, status = run([*words[name], *before, "-"], EXAMPLES[example])
        check((status, fault) == (0, b"") and out, f"{name}: {status} {out} {fault}")
        out, fault, status = run([*words[name], *before, strange])
        check(
            status == 0 and not fault and not set(out) & {*range(10), *range(11, 32), 127},
            f"{name}: {out} {fault}",
        )
        out, fault, status = run(
            [
                "bash",
                "-c",
                '"$@" | true; echo "${PIPESTATUS[0]}"',
                "sh",
                *words[name],
                *before,
                example,
            ]
        )
        check(out in (b"0\n", b"3\n") and not fault, f"{name} into a pipe that ends: {out} {fault}")
    out, _, status = run([*words["compare-mps"], model, example])
    check((status, out) == (0, b"problem range 1 1\n"), out)
    for flag, wanted in (
        (["--infinity", "1e30"], 0),
        (["--infinity=inf"], 2),
        (["--infinity", "5"], 2),
        (["--infinity", "1e50"], 2),
    ):
        status = run([*words["compare-mps"], *flag, model, example]).returncode
        check(status == wanted, f"compare-mps {flag}: status {status}")
    out, fault, status = run([*words["compare-mps"], "-", "-"], EXAMPLES[example])
    check(
        (status, out) == (2, b"") and b"only one of the two" in fault,
        f"compare-mps - -: {status} {out} {fault}",
    )
    if library():
        checked(room, words["compare-mps"])
    rows = (
        run([*words["stats"], "--needed", TOP / "examples/plan.vipr"])
        .stdout.decode()
        .rstrip("\n")
        .split("\n")
    )
    check(
        rows[0] == "3 of 9 constraints of the problem are needed for the goal 14"
        and len(rows) == 4,
        f"stats --needed: {rows}",
    )
    check(
        all(row.split("\t")[0].isdigit() and len(row.split("\t")) == 3 for row in rows[1:]),
        f"stats --needed: {rows}",
    )
    out = run([*words["stats"], "--needed", "--json", TOP / "examples/plan.vipr"]).stdout
    found = json.loads(out)
    check(
        [
            [str(constraint["index"]), constraint["name"], constraint["text"]]
            for constraint in found["constraints"]
        ]
        == [row.split("\t") for row in rows[1:]],
        f"{found} {rows}",
    )
    out, _, status = run([*words["stats"], "--json", example])
    check(json.loads(out)["goal"] == 6, out)
    _, fault, status = run([*words["picture"], example, "-o", room / "no/picture.svg"])
    check(status == 3 and b"No such file" in fault, fault)
    packed(room, words["compare-mps"], model, example)


# (what a command's help has, as `-o TABLE, --out TABLE`, `--profile {1,2}` or `PATH`, and what it
# says of it)
HELPED = re.compile(r"^  (\S.*?)(?:  +|\n +)(\S.*(?:\n   .*)*)", re.M)


def manual(room, words):
    """The man page and the completions of each command agree with its help, and change with its
    parser."""
    check(
        [f"vipr-{name}" for name in NAMES] == sorted(build_manual.COMMANDS),
        f"the commands are {build_manual.COMMANDS}",
    )
    made = build_manual.files()
    for path, text in made.items():
        (room / "usr" / path).parent.mkdir(parents=True, exist_ok=True)
        (room / "usr" / path).write_text(text)
    for name in NAMES:
        command, said = (
            f"vipr-{name}",
            run([*words[name], "--help"], env={**os.environ, "COLUMNS": "2000"}).stdout.decode(),
        )
        if (room / "site").is_dir():
            check(
                all(
                    (room / "site" / path).read_text() == made[path]
                    for path in made
                    if command in path
                ),
                f"{command} is installed with other pages",
            )
        page, _, lists = said[said.index("\n\n") :].partition("positional arguments:")
        for term in re.findall(r"^  (\S.*?)(?:  +|$)", page, re.M):
            check(
                f".TP\n\\fB{build_manual.roff(term)}\\fR\n" in made[f"share/man/man1/{command}.1"],
                f"the man page of {command} has no item {term!r}",
            )
        wanted, every = page.replace("`", "").split(), []
        for shown, about in HELPED.findall(lists):
            flags, values = re.findall(r"(?<!\S)--?[a-z-]+", shown), re.search(r"{(.*?)}", shown)
            wanted, every = wanted + about.split() + flags[-1:], every + flags
            if values:
                completed(room / "usr", command, f"{flags[-1]} ", values[1].split(","))
        completed(room / "usr", command, "-", every)
        manned(room / f"usr/share/man/man1/{command}.1", wanted)
        parser = build_manual.parser_of(command)
        parser.add_argument("--planted", metavar="N", type=int, help="a flag that was planted")
        for path, text in build_manual.files_of(command, parser).items():
            check(
                "planted" in text.replace("\\-", "-") and text != made[path],
                f"{path} has nothing of a flag that was planted",
            )


def manned(page, wanted):
    """A man page is laid out without a warning, and has these words of the help."""
    if not shutil.which("groff"):
        print("python: groff is not here, and no man page is laid out")
        return
    out, fault, status = run(
        ["groff", "-man", "-ww", "-Tascii", "-P-cbou", "-rHY=0", "-rLL=2000n"], page.read_bytes()
    )
    check(status == 0 and not fault, f"{page.name}: {fault}")

    def counted(words):
        return Counter(word.casefold().strip(".") for word in words)

    missing = counted(wanted) - counted(out.decode().split())
    check(not missing, f"{page.name} lacks {missing}")


def completed(usr, command, typed, wanted):
    """What bash and fish complete a line to has these words."""
    words = [command, *typed.split(" ")]
    function = "_" + command.replace("-", "_")
    script = (
        f'compopt() {{ :; }}; source {usr}/share/bash-completion/completions/{command}; COMP_WORDS=({" ".join(map(repr, words))}); '
        f'COMP_CWORD={len(words) - 1}; {function}; printf "%s\\n" "${{COMPREPLY[@]}}"'
    )
    answers = {"bash": run(["bash", "-c", script])}
    if shutil.which("fish"):
        script = f'source {usr}/share/fish/vendor_completions.d/{command}.fish; complete -C "{command} {typed}"'
        answers["fish"] = run(
            ["fish", "--no-config", "-c", script], env={**os.environ, "HOME": str(usr)}
        )
    for shell, (out, fault, _) in answers.items():
        got = {line.split("\t")[0] for line in out.decode().split("\n")}
        check(
            wanted and got.issuperset(wanted) and not fault,
            f"{shell} completes {command} {typed!r} to {got}, wanted {wanted}: {fault}",
        )
    if shutil.which("zsh"):
        out, fault, status = run(["zsh", "-n", usr / f"share/zsh/site-functions/_{command}"])
        check(status == 0 and not fault, f"zsh: {fault}")


def packed(room, words, model, example):
    """A packed file is unpacked, and one that is cut isn't read as far as it goes."""
    text = (
        gzip.decompress(model.read_bytes()) + b"*" + b"a line that counts for nothing\n* " * 10_000
    )
    pack = {"gz": gzip.compress, "bz2": bz2.compress, "xz": lzma.compress}
    if shutil.which("zstd"):
        pack["zst"] = lambda text: run(["zstd", "-cq"], text).stdout
    else:
        print("python: zstd is not here, and .zst is left out")
    for suffix, packer in pack.items():
        path, whole = room / f"packed.mps.{suffix}", packer(text)
        path.write_bytes(whole)
        out, fault, status = run([*words, path, example])
        check((status, out) == (0, b"problem range 1 1\n"), f".{suffix}: {status} {out} {fault}")
        for size in 20, len(whole) // 2, len(whole) - 1:
            path.write_bytes(whole[:size])
            out, fault, status = run([*words, path, example])
            check(
                (status, out) == (3, b"") and b"not unpacked" in fault,
                f".{suffix} of {size} bytes: {status} {out} {fault}",
            )


def checked(room, words):
    """`--check` checks the proof of the same bytes by the profile that is asked for, and goes by
    its verdict."""
    split = TOP / "examples/covering_split.vipr"
    model, bad = room / "split.mps", room / "bad.vipr"
    model.write_bytes(written_mps(vipr.read_problem(EXAMPLES[split])))
    bad.write_bytes(EXAMPLES[split].replace(b"RTP infeas", b"RTP range -inf 0"))
    for flags, file, wanted in (
        ([], split, b"refused 37"),
        (["--profile", "1"], split, b"refused 37"),
        (["--profile", "2"], split, b"verified"),
        (["--profile", "2"], bad, b"refused"),
    ):
        out, fault, status = run([*words, "--check", "--integers=inf", *flags, model, file])
        check(
            out.startswith(wanted)
            and (status == 0) == (wanted == b"verified") == (b"problem" in out),
            f"compare-mps --check {flags}: {status} {out} {fault}",
        )


def large(room, words):
    """Each command on texts of 4 MB, whole and cut."""
    for name, text in large_texts():
        proof = agrees(text, f"{name} of 4 MB")
        agrees(text[: -len(text) // 3], f"{name} of 4 MB, cut")
        path = room / f"{name}.vipr"
        path.write_bytes(text)
        out, fault, status = run([*words["stats"], "--json", path])
        check(
            status == 0 and json.loads(out)["derivations"] == len(proof.derivations),
            f"{name}: {fault}",
        )
        out, fault, status = run([*words["picture"], path])
        check(status == 0 and xml.etree.ElementTree.fromstring(out) is not None, f"{name}: {fault}")
        model = room / f"{name}.mps"
        model.write_bytes(written_mps(proof.problem))
        out, fault, status = run([*words["compare-mps"], model, path, "--integers=inf"])
        check(
            (status, out) == (0, f"problem {proof.problem.claim}\n".encode()),
            f"{name}: {out} {fault}",
        )
        with open(model, "rb+") as file:
            file.truncate(len(model.read_bytes()) // 2)
        out, fault, status = run([*words["compare-mps"], model, path])
        check(status == 1 and out.startswith(b"refused 10"), f"{name}, cut: {out} {fault}")
        path.unlink()


def check_all(room, words):
    many_files.check_all(check, room, words["check-all"], PROGRAM)


def unpacked(room, words):
    packed_files.packed_files(check, room, words, PROGRAM, library())


def closed(words):
    packed_files.closed_streams(check, words, PROGRAM)


def kept(room, words):
    """A page or a picture never takes the place of the certificate that is read, by whatever
    name."""
    text = (TOP / "examples/plan.vipr").read_bytes()
    certificate, link, hard = (room / name for name in ("own.vipr", "link", "hard"))
    certificate.write_bytes(text)
    link.symlink_to(certificate)
    os.link(certificate, hard)
    for name, out in itertools.product(("html", "picture"), (certificate, link, hard)):
        for given in certificate, "-":
            with certificate.open("rb") as stream:
                done = run([*words[name], given, "-o", out], stdin=stream)
            check(
                done == (b"", b"%s: it is the file that is read\n" % bytes(out), 3)
                and certificate.read_bytes() == text,
                f"{name} {given} -o {out}: {done}",
            )
            certificate.write_bytes(text)


def audited(room, words):
    if library():
        audits.audits(check, room, words["audit"])
        audits.digests(check, room, words["audit"])
        audits.called_library(check, room)


def called(texts):
    if library():
        calls(texts[::3])


PARTS = (
    called,
    inputs,
    metadata,
    oldest,
    types,
    causes,
    comparisons,
    one_place,
    sides,
    many_rows,
    turned_claims,
    figures,
    needed_alone,
    alive,
    shows_how_far,
    sets_of_assumptions,
    pictures,
    hostile,
    commands,
    manual,
    check_all,
    unpacked,
    closed,
    kept,
    audited,
    large,
)


def main():
    dice, chosen = random.Random(20), sys.argv[2:]
    os.environ["PYTHONPATH"] = str(TOP / "python")
    os.environ["PYTHONDONTWRITEBYTECODE"] = "1"
    with tempfile.TemporaryDirectory(prefix="vipr-python-") as name:
        room = Path(name)
        given = {"room": room, "dice": dice, "words": modules() if chosen else installed(room)}
        given["texts"] = (
            reader(dice) if not chosen or {"reader", "pictures", "called"} & {*chosen} else []
        )
        for part in PARTS:
            if not chosen or part.__name__ in chosen:
                part(
                    **{
                        parameter: given[parameter]
                        for parameter in inspect.signature(part).parameters
                    }
                )
    return CHECKS.end()


if __name__ == "__main__":
    sys.exit(main())
