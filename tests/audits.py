"""Tries `vipr-audit`, for tests/python.py: what it says of the model and the certificate below, and
of changes of both.

A line of AUDITS says what is changed, the pieces of the model and of the certificate and what is in
their place, the options, the exit status, the first line on the problem, and the line on the
optimum. The certificate of `first.vipr` proves that x is at least 1/3 if 3 x is at least 1; each
change of it is verified, but for those that say so.
"""
import gzip
import hashlib
import json
import os
import sys
from pathlib import Path

from texts import TOP, run

MODEL = """NAME          third
OBJSENSE
    MIN
ROWS
 N  cost
 G  low
COLUMNS
    x         cost                1   low                 3
RHS
    RHS       low                 1
BOUNDS
 FR BND       x
ENDATA
"""
CERTIFICATE = """VER 1.0
VAR 1 x
INT 0
OBJ min 1 0 1
CON 1 0
low G 1 1 0 3
RTP range 1/3 1/3
SOL 1
best 1 0 1/3
DER 1
bound G 1/3 OBJ { lin 1 0 1/3 } -1
"""
# the command in a process in which another file that has the library's name in its path lies before
# the library
BESIDE_ANOTHER = """
import mmap, sys
from vipr import audit, library
library.version()
other = open(sys.argv.pop(1), "rb")
mapped = mmap.mmap(other.fileno(), 0, access=mmap.ACCESS_READ)
rows = [row for row in open("/proc/self/maps") if "libvipr" in row]
assert other.name in rows[0], rows
sys.exit(audit.main())
"""
THIRD = "at least 0.333333, at most 0.333334"
OTHER = "nothing is proved of this model"
ROW, ENTRIES = "low                 1", "low                 3"
# changes of the claim, and of the model's right-hand side
LOWER, UPPER = {"range 1/3 1/3": "range 1/3 inf"}, {"range 1/3 1/3": "range -inf 1/3"}
NO_BOUND = {"range 1/3 1/3": "range -inf inf"}
CONSTANT = {ROW: f"{ROW}   cost               5"}
INTEGER = {
    "    x  ": "    M1        'MARKER'                 'INTORG'\n    x  ",
    "RHS\n": "    M2        'MARKER'                 'INTEND'\nRHS\n",
}
# x is at least -1/2, and between 1 and 0, which no number is
HALF_MODEL, HALF = {ENTRIES: "low                 2", ROW: "low                -1"}, {
    "low G 1 1 0 3": "low G -1 1 0 2",
    "range 1/3 1/3": "range -1/2 -1/2",
    "0 1/3\n": "0 -1/2\n",
    "bound G 1/3": "bound G -1/2",
    "lin 1 0 1/3": "lin 1 0 1/2",
}
EMPTY_MODEL = {
    " G  low\n": " G  low\n L  high\n",
    f"{ENTRIES}\n": f"{ENTRIES}\n    x         high                3\n",
}
EMPTY = {
    "CON 1 0": "CON 2 0",
    "0 3\n": "0 3\nhigh L 0 1 0 3\n",
    "range 1/3 1/3": "infeas",
    "SOL 1\nbest 1 0 1/3": "SOL 0",
    "bound G 1/3 OBJ { lin 1 0 1/3 } -1": "none G 1 0 { lin 2 0 1 1 -1 } -1",
}
# 1 <= 2 x <= 1 with an integral x: that it is at most 1/4 or at least 3/4 is a disjunction by
# profile 2 alone
SPLIT_MODEL = {
    **INTEGER,
    " G  low\n": " G  low\n L  high\n",
    ENTRIES: "low                 2\n    x         high                2",
    ROW: "low                 1   high                1",
}
SPLIT = {
    "INT 0": "INT 1 0",
    "CON 1 0\nlow G 1 1 0 3": "CON 2 0\nlow G 1 1 0 2\nhigh L 1 1 0 2",
    "range 1/3 1/3": "infeas",
    "SOL 1\nbest 1 0 1/3": "SOL 0",
    "DER 1\nbound G 1/3 OBJ { lin 1 0 1/3 } -1": "DER 5\n"
    "c L 1/4 1 0 1 { asm } 6\n"
    "d G 3/4 1 0 1 { asm } 6\n"
    "e G 1 0 { lin 2 0 1 2 -2 } 6\n"
    "f G 1 0 { lin 2 3 2 1 -1 } 6\n"
    "g G 1 0 { uns 4 2 5 3 } -1",
}

AUDITS = [
    ("as they are", {}, {}, [], 0, "same problem range 1/3 1/3", THIRD),
    (
        "the negative objective in the other direction",
        {"MIN": "MAX", "cost                1": "cost               -1"},
        {},
        [],
        0,
        "same problem range -1/3 -1/3",
        "at least -0.333334, at most -0.333333",
    ),
    (
        "a negative optimum",
        HALF_MODEL,
        HALF,
        [],
        0,
        "same problem range -1/2 -1/2",
        "at least -0.5, at most -0.5",
    ),
    (
        "no solution",
        EMPTY_MODEL,
        EMPTY,
        [],
        0,
        "same problem infeas",
        "none: the problem is infeasible",
    ),
    (
        "a lower bound alone",
        {},
        LOWER,
        [],
        1,
        "same problem range 1/3 inf",
        "not proved, but at least 0.333333, no upper bound: --bounds takes that",
    ),
    (
        "a lower bound alone, as is asked",
        {},
        LOWER,
        ["--bounds"],
        0,
        "same problem range 1/3 inf",
        "at least 0.333333, no upper bound",
    ),
    (
        "an upper bound alone, as is asked",
        {},
        UPPER,
        ["--bounds"],
        0,
        "same problem range -inf 1/3",
        "no lower bound, at most 0.333334",
    ),
    (
        "two bounds",
        {},
        {"range 1/3 1/3": "range 1/4 1/3"},
        [],
        1,
        "same problem range 1/4 1/3",
        "not proved, but at least 0.25, at most 0.333334: --bounds takes that",
    ),
    (
        "no bound",
        {},
        NO_BOUND,
        ["--bounds"],
        1,
        "same problem range -inf inf",
        "nothing is claimed",
    ),
    (
        "a constant",
        CONSTANT,
        {},
        [],
        1,
        "same problem range 1/3 1/3",
        "unclear: RHS gives the objective's row 5, and --constant says whether to ignore, add or subtract it",
    ),
    (
        "a constant that is ignored",
        CONSTANT,
        {},
        ["--constant=ignore"],
        0,
        "same problem range 1/3 1/3",
        THIRD,
    ),
    (
        "a constant that is added",
        CONSTANT,
        {},
        ["--constant=add"],
        0,
        "same problem range 1/3 1/3",
        "at least 5.333333, at most 5.333334",
    ),
    (
        "a constant that is subtracted",
        CONSTANT,
        {},
        ["--constant=subtract"],
        0,
        "same problem range 1/3 1/3",
        "at least -4.666667, at most -4.666666",
    ),
    (
        "a constant of a turned objective",
        {**CONSTANT, "MIN": "MAX", "cost                1": "cost               -1"},
        {},
        ["--constant=add"],
        0,
        "same problem range -1/3 -1/3",
        "at least 4.666666, at most 4.666667",
    ),
    (
        "a constant without a solution",
        {**EMPTY_MODEL, **CONSTANT},
        EMPTY,
        [],
        0,
        "same problem infeas",
        "none: the problem is infeasible",
    ),
    (
        "a split of profile 2, by profile 1",
        SPLIT_MODEL,
        SPLIT,
        [],
        1,
        "same problem infeas",
        "nothing is proved",
    ),
    (
        "a split of profile 2",
        SPLIT_MODEL,
        SPLIT,
        ["--profile=2"],
        0,
        "same problem infeas",
        "none: the problem is infeasible",
    ),
    (
        "a proof that lacks its step",
        {},
        {"lin 1 0 1/3": "lin 1 0 1/4"},
        ["--bounds"],
        1,
        "same problem range 1/3 1/3",
        "nothing is proved",
    ),
    (
        "two variables of one name (201)",
        {},
        {"VAR 1 x": "VAR 2 x x"},
        [],
        1,
        "refused 201 at VAR 1",
        OTHER,
    ),
    (
        "a variable that is no column (202)",
        {},
        {"VAR 1 x": "VAR 2 x y"},
        [],
        1,
        "refused 202 at VAR 1",
        OTHER,
    ),
    (
        "a column that is no variable (203)",
        {"RHS\n": "    y         low                 1\nRHS\n"},
        {},
        [],
        1,
        "refused 203 at line 9",
        OTHER,
    ),
    ("another integrality (204)", INTEGER, {}, [], 1, "refused 204 at VAR 0", OTHER),
    ("the other direction (205)", {"MIN": "MAX"}, {}, [], 1, "refused 205 at OBJ", OTHER),
    (
        "another objective (206)",
        {"cost                1": "cost                2"},
        {},
        ["--bounds"],
        1,
        "refused 206 at OBJ",
        OTHER,
    ),
    (
        "a constraint that isn't the model's (207)",
        {ROW: "low                .5"},
        {},
        [],
        1,
        "refused 207 at CON 0",
        OTHER,
    ),
    (
        "a row that isn't the certificate's (208)",
        {" FR BND       x\n": " MI BND       x\n UP BND       x                   9\n"},
        {},
        [],
        1,
        "refused 208 at line 13",
        OTHER,
    ),
]


def changed(check, text, changes):
    """A text with other pieces, each of which it has once."""
    for old, new in changes.items():
        check(text.count(old) == 1, f"{old!r} stands {text.count(old)} times in {text!r}")
        text = text.replace(old, new)
    return text


def report_of(out):
    """The lines of a report, by the word that they begin with."""
    parts, word = {}, ""
    for line in out.decode().rstrip("\n").split("\n"):
        word = line[:12].strip() or word
        parts.setdefault(word, []).append(line[13:])
    return parts


def audits(check, room, words):
    """Each of AUDITS, by its lines and as an object."""
    model, certificate = room / "third.mps", room / "third.vipr"
    for what, in_model, in_certificate, options, status, problem, optimum in AUDITS:
        model.write_text(changed(check, MODEL, in_model))
        certificate.write_text(changed(check, CERTIFICATE, in_certificate))
        done = run([*words, model, certificate, *options])
        said = report_of(done.stdout)
        check(
            (done.returncode, said["problem"][0], said["optimum"]) == (status, problem, [optimum]),
            f"audit, {what}: {done}",
        )
        verdict = run([*words, "--json", model, certificate, *options])
        values = json.loads(verdict.stdout)
        check(
            (verdict.returncode, values["optimum"], values["proved"], values["same"])
            == (status, optimum, status == 0, problem.startswith("same ")),
            f"audit --json, {what}: {verdict}",
        )


def digests(check, room, words):
    """The digests are those of the files that were named, and of a packed one that of its text,
    too."""
    texts = [(TOP / f"examples/plan.{end}").read_bytes() for end in ("mps", "vipr")]
    for suffix, pack in (("", bytes), (".gz", gzip.compress)):
        paths = [room / f"packed.{end}{suffix}" for end in ("mps", "vipr")]
        for path, text in zip(paths, texts):
            path.write_bytes(pack(text))
        done = run([*words, *paths])
        said = report_of(done.stdout)
        for part, path, text in zip(("model", "certificate"), paths, texts):
            wanted = [f"{hashlib.sha256(path.read_bytes()).hexdigest()} {path}"]
            if suffix:
                wanted.append(f"{hashlib.sha256(text).hexdigest()} its text, unpacked")
            check(
                (done.returncode, said[part]) == (0, wanted),
                f"the digests of a {part} {suffix}: {done}",
            )
    done = run([*words, "-", "-"])
    check(done.returncode == 2, f"audit of standard input, twice: {done}")
    done = run([*words, TOP / "examples/plan.mps", "-"], texts[1])
    check(done.returncode == 0, f"audit of standard input: {done}")


def called_library(check, room):
    """The digest of the program is that of the library that was called, whatever else has its name
    in a path."""
    other = room / "libvipr-environment" / "python3"
    other.parent.mkdir()
    with other.open("wb") as file:
        file.truncate(1 << 28)
    examples = [TOP / f"examples/plan.{end}" for end in ("mps", "vipr")]
    done = run([sys.executable, "-c", BESIDE_ANOTHER, other, *examples])
    library = Path(os.environ["VIPR_LIBRARY"]).read_bytes()
    check(
        done.returncode == 0
        and f"sha256 {hashlib.sha256(library).hexdigest()}" in report_of(done.stdout)["program"],
        f"another file lies before the library: {done}",
    )
