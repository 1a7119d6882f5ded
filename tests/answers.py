#!/usr/bin/env python3
"""What the built program answers on small certificates, however they reach it, and on command
lines.

usage: tests/answers.py [PROGRAM]     crates/vipr/out/vipr without it

Of each folder of conformance/ one text for each cause is checked and explained: from a file, from
standard input as a whole, and from a pipe in pieces of a few bytes, of which each is read before
the next is written. Then texts are shown and tightened, to standard output and to files, and the
words of command lines are tried. Looked at is all that is printed on both outputs, the exit status,
and the files that are written. Streams that fail are tried by tests/hostile.py and by the tests in
crates/vipr.

Prints each fault, and last `answers: N checks, F failed`; the exit status is 1 where one failed.
"""
import hashlib
import itertools
import multiprocessing
import os
import sys
import tempfile
from pathlib import Path

from texts import TOP, UNPROVED, Checks, fed, program, run, said_version
from plain_check import readable
import version as versions
from run import cases

PROGRAM = program(sys.argv[1:])
COMMANDS = ["check", "explain", "show", "tighten"]
# the largest number
M = 2**127 - 1

VERIFIED = "verified infeas\nsolutions 0 derived 1 peak 1\ngoal 2"
# a text that is read a byte at a time has fewer bytes
SHORT = 4096
# examples in their canonical spelling, proofs and others
CANONICAL = [
    "infeasible",
    "both_branches",
    "both_branches_loose",
    "covering_split",
    "rounding_min",
    "rounding_max",
    "rounding_equation",
    "whole_objective",
    "cutoff_alone",
    "cutoff_loose",
    "cutoff_tight",
    "overflow",
    "no_variables",
    "no_bounds",
    "lenient_canonical",
]

# The name of a derivation, and how it is printed: as it is where its bytes can be seen, and escaped
# elsewhere.
NAMES = [
    (b"Az_0.-9", "Az_0.-9"),
    (b'say"hi"', 'say"hi"'),
    (b"a\\b", r"a\\b"),
    (b"\xff", r"\xFF"),
    (b"x\x80y", r"x\x80y"),
    ("\u00e9t\u00e9".encode(), "\u00e9t\u00e9"),
    (b"\0", r"\0"),
    (b"\x1b[1m", r"\x1B[1m"),
    (b"\x7f", r"\x7F"),
    (b"\xc3\xa9\\", "\u00e9\\\\"),
    (b"\xc3", r"\xC3"),
]

# Words for `tighten`: whether they name the file `a` to read, and the file `b` to write.
FILES = [
    ("tighten", False, False),
    ("tighten a", True, False),
    ("tighten --out b", False, True),
    ("tighten a --out b", True, True),
    ("tighten --out=b a", True, True),
    ("tighten --profile=1 a", True, False),
    ("tighten --compact", False, False),
    ("tighten a --compact --out b", True, True),
    ("tighten -o b", False, True),
    ("tighten a -o b", True, True),
    ("tighten a -ob", True, True),
    ("tighten -", False, False),
    ("tighten - --out b", False, True),
    ("tighten a --out -", True, False),
    ("tighten -o - -", False, False),
    ("tighten -- -", False, False),
]

# Words that aren't taken, and what is wrong with them.
WRONG = [
    ("", "'vipr' requires a subcommand but one was not provided"),
    ("chek", "unrecognized subcommand 'chek'"),
    (
        "examples/infeasible.vipr",
        "unrecognized subcommand 'examples/infeasible.vipr'\n\n"
        "  tip: a file comes after a command: 'vipr check examples/infeasible.vipr'",
    ),
    (
        "explain.vipr",
        "unrecognized subcommand 'explain.vipr'\n\n  tip: a file comes after a command: 'vipr check explain.vipr'",
    ),
    ("help chek", "unrecognized subcommand 'chek'"),
    ("help check a", "unrecognized subcommand 'a'"),
    ("check a b", "unexpected argument 'b' found"),
    ("explain a b", "unexpected argument 'b' found"),
    ("check --out b", "unexpected argument '--out' found"),
    ("show --out b", "unexpected argument '--out' found"),
    ("explain --out=b", "unexpected argument '--out' found"),
    ("show --profile 1", "unexpected argument '--profile' found"),
    ("check --compact", "unexpected argument '--compact' found"),
    ("show --sum", "unexpected argument '--sum' found"),
    ("tighten --sum a", "unexpected argument '--sum' found"),
    ("check --sum --sum", "the argument '--sum' cannot be used multiple times"),
    ("explain a --compact", "unexpected argument '--compact' found"),
    ("show --compact --compact", "the argument '--compact' cannot be used multiple times"),
    ("show --compact=true", "unexpected value 'true' for '--compact' found; no more were expected"),
    ("tighten --out", "a value is required for '--out <OUT>' but none was supplied"),
    ("check --profile", "a value is required for '--profile <PROFILE>' but none was supplied"),
    ("tighten --out a --out b", "the argument '--out <OUT>' cannot be used multiple times"),
    (
        "check --profile 1 --profile 2",
        "the argument '--profile <PROFILE>' cannot be used multiple times",
    ),
    ("check --profile 3", "invalid value '3' for '--profile <PROFILE>' of 'vipr check'"),
    ("explain --profile 01", "invalid value '01' for '--profile <PROFILE>' of 'vipr explain'"),
    ("tighten --profile=+1", "invalid value '+1' for '--profile <PROFILE>' of 'vipr tighten'"),
    ("check --profile=", "invalid value '' for '--profile <PROFILE>' of 'vipr check'"),
    ("check -o b", "unexpected argument '-o' found"),
    ("tighten -o a --out b", "the argument '--out <OUT>' cannot be used multiple times"),
    # (a long word is told whole)
    (f'check --{"x" * 20_000}', f"unexpected argument '--{'x' * 20_000}' found"),
]

HELP = [
    "check    Checks a certificate",
    "explain  Checks a certificate",
    "show     Writes a certificate",
    "tighten  Writes a verified certificate",
    "help     Print this message",
]

CHECKS = Checks("answers")
check = CHECKS.check
numbers = itertools.count()


# ---- runs


def answer(words, *pieces, folder=None):
    """What is answered if standard input comes in these pieces."""
    return fed(["vipr", *words], pieces, executable=PROGRAM, cwd=folder)


def expect(what, wanted, words, *pieces, folder=None):
    got = answer(words, *pieces, folder=folder)
    check(got == wanted, f'vipr {" ".join(words)}: {what}: {got!r:.400}, wanted {wanted!r:.400}')


def judged(lines):
    """The answer that is these lines."""
    return f"{lines}\n".encode(), b"", int(lines.startswith("refused"))


def summed(wanted, text):
    """An answer with the line of the text's digest."""
    printed, complained, status = wanted
    return printed + f"sha256 {hashlib.sha256(text).hexdigest()}\n".encode(), complained, status


def verdict(lines):
    """Of what `explain` prints, what `check` does."""
    return "\n".join(lines.split("\n")[: 1 if lines.startswith("refused") else 2])


def new_path():
    return f"{ROOM}/{os.getpid()}-{next(numbers)}"


def written(text):
    path = new_path()
    Path(path).write_bytes(text)
    return path


def from_both(what, wanted, text, command, *options):
    """From standard input as a whole, and from a file."""
    expect(what, wanted, [command, *options], text)
    expect(f"{what}, from a file", wanted, [command, written(text), *options], b"other")


def in_pieces(what, wanted, text, command, sizes):
    for size in sizes:
        pieces = [text[at : at + size] for at in range(0, len(text), size)]
        expect(f"{what}, {size} bytes at a time", wanted, [command], *pieces)


def cut(what, wanted, text, command, places):
    for place in places:
        expect(f"{what}, cut at {place}", wanted, [command], text[:place], text[place:])


# ---- texts


def certificate(name):
    return (TOP / f"examples/{name}.vipr").read_bytes()


def edited(name, old, new):
    """A certificate with `old` replaced where it first stands."""
    text = certificate(name)
    check(old.encode() in text, f"{name} has no {old!r}")
    return text.replace(old.encode(), new.encode(), 1)


def explained_texts():
    """The texts, with what `explain` prints of each by the first profile, and by the second where
    that differs."""
    seen = set()
    for first, second in zip(cases(1), cases(2)):
        kind = first.rule, *first.lines[0].split()[:2], *second.lines[0].split()[:2]
        text = first.path.read_bytes()
        if kind not in seen and len(text) < SHORT:
            seen.add(kind)
            lines = ["\n".join(first.lines)] + (
                ["\n".join(second.lines)] if first.lines != second.lines else []
            )
            yield f"{first.rule}/{first.name}", text, lines
    front = certificate("infeasible").split(b"f G")[0]
    for name, shown in NAMES:
        check(readable(name) == shown, f"the model prints the name {name} as {readable(name)!r}")
        lines = f"refused 34 at DER 2\ncause MixedSigns\nderivation 2 {shown}\nentry 1"
        yield f"the name {name}", front + name + b" G 1 0 { lin 2 0 1 1 1 } -1\n", [lines]


def names_end_in(byte):
    """Names that end in the byte: the program prints them as the model does."""
    front, behind = certificate("infeasible").split(b"f G")[0], b" G 1 0 { lin 2 0 1 1 1 } -1\n"
    for start in b"", b"x", b"\xc3\xa9", b"\xe2\x82":
        name = start + bytes([byte])
        lines = f"refused 34 at DER 2\ncause MixedSigns\nderivation 2 {readable(name)}\nentry 1"
        expect(f"the name {name}", judged(lines), ["explain"], front + name + behind)


def explains(what, text, lines):
    """Checks and explains a text, in pieces too, and by both profiles."""
    for command, printed in ("explain", lines), ("check", [verdict(answer) for answer in lines]):
        first, second = judged(printed[0]), judged(printed[-1])
        from_both(what, first, text, command)
        in_pieces(what, first, text, command, [1, 2, 3, 7])
        from_both(what, second, text, command, "--profile", "2")
        from_both(what, summed(first, text), text, command, "--sum")
        from_both(what, summed(second, text), text, command, "--sum", "--profile", "2")
        if len(printed) > 1:
            from_both(what, first, text, command, "--profile", "1")


def long_texts():
    """Names of 65,535 and 65,536 bytes, and comments of 200,000."""
    for case in cases():
        if (case.rule, case.name) in (
            ("text", "longest-name"),
            ("text", "name-too-long"),
            ("text", "long-comment"),
        ):
            yield case.name, case.path.read_bytes(), "\n".join(case.lines)
    yield "a number behind a comment", b"%" + b"c" * 200000 + b"\n" + edited(
        "infeasible", "a G 1 1 0 1", f"a G 1 1 0 {M + 1}"
    ), "refused 5 at byte 200052\ncause NumberTooLarge"


def explains_long(what, text, lines):
    for command, printed in ("explain", lines), ("check", verdict(lines)):
        from_both(what, judged(printed), text, command)
        from_both(what, summed(judged(printed), text), text, command, "--sum")
        in_pieces(what, judged(printed), text, command, [4999])
    in_pieces(what, judged(verdict(lines)), text, "check", [7])
    # where a buffer ends, and near the end
    places = [
        place
        for place in range(1, len(text))
        if place % 65536 < 3 or place % 65536 > 65533 or place > len(text) - 20
    ]
    cut(what, judged(verdict(lines)), text, "check", places)


def compact(text):
    """The compact text of a canonical one: OBJ for the rows of constraints and derivations that are
    the objective's."""
    lines = text.split(b"\n")
    start = next(at for at, line in enumerate(lines) if line in (b"OBJ min", b"OBJ max")) + 1
    objective, given = lines[start], int(lines[start + 1].split()[1])
    if objective == b"0":
        return text
    derived = (
        start
        + 2
        + next(at for at, line in enumerate(lines[start + 2 :]) if line.startswith(b"DER "))
    )
    for at in [*range(start + 2, start + 2 + given), *range(derived + 1, len(lines) - 1)]:
        *words, rest = lines[at].split(b" ", 3)
        if rest == objective or rest.startswith(objective + b" {"):
            lines[at] = b" ".join([*words, b"OBJ" + rest[len(objective) :]])
    return b"\n".join(lines)


def shows(what, text, wanted):
    from_both(what, wanted, text, "show")
    in_pieces(what, wanted, text, "show", [1, 2, 3, 7])
    short = compact(wanted[0]) if wanted[2] == 0 else b""
    from_both(f"{what}, compact", (short, *wanted[1:]), text, "show", "--compact")
    if wanted[2] == 0:
        expect(f"{what}, compact and then not", wanted, ["show"], short)
        expect(f"{what}, compact twice", (short, *wanted[1:]), ["show", "--compact"], short)


def shown_texts():
    """The texts that are shown, with the answers. Canonical ones are shown as they are, proofs and
    others."""
    for name in CANONICAL:
        yield name, certificate(name), (certificate(name), b"", 0)
    yield "lenient", certificate("lenient"), (certificate("lenient_canonical"), b"", 0)
    # a last reference that comes before the derivation that refers
    early = edited("both_branches", "} 6\nf", "} 5\nf")
    yield "an early last reference", early, (early, b"", 0)
    cut_off = edited("infeasible", " -1 } -1\n", "")
    yield "a text that ends early", cut_off, (b"", b"refused 1 at byte 108\n", 1)


def cut_anywhere():
    cut("infeasible", judged(verdict(VERIFIED)), certificate("infeasible"), "check", range(1, 117))
    lenient = certificate("lenient")
    cut(
        "lenient",
        (certificate("lenient_canonical"), b"", 0),
        lenient,
        "show",
        range(1, len(lenient)),
    )


# ---- tightening


def chain(length, drops):
    """A chain of derivations, each of which refers to the one before, and is dropped there or kept
    to the end."""
    lines = [
        "VER 1.0\nVAR 1\nx\nINT 0\nOBJ min\n0\nCON 2 0\na G 1 1 0 1\nb L 0 1 0 1\nRTP infeas\nSOL 0",
        f"DER {length}",
    ]
    for place in range(1, length):
        last = place + 2 if drops else -1
        lines.append(f"f G 1 1 0 1 {{ lin 1 {place if place > 1 else 0} 1 }} {last}")
    lines.append(f"f G 1 0 {{ lin 2 {length} 1 1 -1 }} -1\n")
    return "\n".join(lines).encode()


def tightened_texts():
    """Texts, what each becomes, what is said, and the options."""
    needless = edited("rounding_max", "range 2 2", "range -inf inf")
    underived = needless.split(b"DER")[0] + b"DER 0\n"
    long, short = chain(10000, False), chain(10000, True)
    for text, becomes, kept, removed, before, after, *options in [
        (certificate("cutoff_loose"), certificate("cutoff_tight"), 1, 1, 2, 1),
        (certificate("both_branches_loose"), certificate("both_branches"), 5, 1, 6, 4),
        (certificate("no_variables"), certificate("no_variables"), 0, 0, 0, 0),
        (certificate("no_bounds"), certificate("no_bounds"), 0, 0, 0, 0),
        (needless, underived, 0, 1, 1, 0),
        (certificate("lenient"), certificate("lenient_canonical"), 0, 0, 0, 0),
        (long, short, 10000, 0, 10000, 1),
        (certificate("rounding_min"), certificate("rounding_min"), 1, 0, 1, 1),
        (certificate("rounding_min"), certificate("rounding_min"), 1, 0, 1, 1, "--profile=1"),
        # a proof by the second profile, and none by the first
        (
            certificate("covering_split"),
            certificate("covering_split"),
            5,
            0,
            4,
            4,
            "--profile",
            "2",
        ),
        (certificate("rounding_min"), certificate("whole_objective"), 0, 1, 1, 0, "--profile", "2"),
    ]:
        yield text, becomes, f"kept {kept} removed {removed} peak {before} {after}\n", options
        if text != becomes:
            # tightened once more it stays as it is
            yield becomes, becomes, f"kept {kept} removed 0 peak {after} {after}\n", options


def tightens(text, becomes, said, options):
    """To standard output and to a file, a new one, a longer one, and the one that is read; and it
    is a proof."""
    said = said.encode()
    what = f"{text!r:.200}"
    from_both(what, (becomes, said, 0), text, "tighten", *options)
    read, out = written(text), new_path()
    expect(f"{what} to a new file", (b"", said, 0), ["tighten", "--out", out, *options], text)
    check(Path(out).read_bytes() == becomes, f"{what} is not what stands in a new file")
    longer = written(becomes + text)
    short = compact(becomes)
    from_both(f"{what}, compact", (short, said, 0), text, "tighten", "--compact", *options)
    check(len(short) <= len(becomes), f"{what} is longer in the compact form")
    again = answer(["tighten", "--compact", *options], short)
    check(
        (again[0], again[2]) == (short, 0),
        f"{what} becomes another compact text, tightened once more",
    )
    for file in longer, read:
        expect(
            f"{what} to a file",
            (b"", said, 0),
            ["tighten", read, *options, "--out", file],
            b"other",
        )
        check(Path(file).read_bytes() == becomes, f"{what} is not what stands in the file")
    got = answer(["check", read, *options], b"other")
    check(got[1:] == (b"", 0), f"{what} becomes what is answered by {got}")


def files_stay():
    """Where a certificate is refused or can't be read no file is written to, nor created; or it
    can't be created."""
    refused, early = (b"", b"refused 32 at DER 6\n", 1), edited("both_branches", "} 6\nf", "} 5\nf")
    from_both("an early last reference", refused, early, "tighten")
    for options in [], ["--profile=1"]:
        expect(
            "a split of the second profile",
            (b"", b"refused 37 at DER 6\n", 1),
            ["tighten", *options],
            certificate("covering_split"),
        )
    read, missing, there = written(early), new_path(), written(b"as it was")
    expect("a refused text", refused, ["tighten", read, "--out", missing], b"other")
    expect("a folder", (b"", b"fault read\n", 3), ["tighten", "/", "--out", missing], b"other")
    check(not Path(missing).exists(), "a file was created without a proof")
    for file, text in (there, b"as it was"), (read, early):
        expect("a refused text", refused, ["tighten", read, "--out", file], b"other")
        check(Path(file).read_bytes() == text, "a file was written to without a proof")
    for path in f"{missing}/x", "/":
        expect(
            "a proof",
            (b"", b"fault write after 0\n", 3),
            ["tighten", "--out", path],
            certificate("cutoff_loose"),
        )
        expect("a refused text", refused, ["tighten", "--out", path], early)


# ---- command lines


def words_are_read(words, named, out):
    """What `tighten` reads and where it writes."""
    with tempfile.TemporaryDirectory(dir=ROOM) as folder:
        (Path(folder) / "a").write_bytes(certificate("cutoff_loose"))
        text, said = (
            (certificate("cutoff_tight"), b"kept 1 removed 1 peak 2 1\n")
            if named
            else (certificate("rounding_min"), b"kept 1 removed 0 peak 1 1\n")
        )
        text = compact(text) if "--compact" in words.split() else text
        expect(
            "words",
            (b"" if out else text, said, 0),
            words.split(),
            certificate("rounding_min"),
            folder=folder,
        )
        if out:
            check(
                (Path(folder) / "b").read_bytes() == text, f"vipr {words} leaves another text in b"
            )
        else:
            check(os.listdir(folder) == ["a"], f"vipr {words} leaves {os.listdir(folder)}")


def words_are_wrong(words, message):
    printed, complained, status = answer(words.split())
    complained = complained.decode()
    check((printed, status) == (b"", 2), f"vipr {words}: {printed!r}, status {status}")
    check(complained.startswith(f"error: {message}\n"), f"vipr {words}: {complained}")
    # a value that is missing is told without the usage
    check(
        "Usage: vipr" in complained or "a value is required" in message, f"vipr {words}: no usage"
    )
    check(complained.endswith("\n"), f"vipr {words}: no end of the line")


def other_words():
    """Help, the version, an equals sign before the profile, and files that can't be read."""
    for words in ["--help"], ["-h"], ["show", "-h"], ["tighten", "-h"]:
        printed, complained, status = answer(words)
        check((complained, status) == (b"", 0), f"vipr {words}: {complained!r}, status {status}")
        check(b"Usage: vipr" in printed and printed.endswith(b"\n"), f"vipr {words}: {printed!r}")
        if len(words) == 1:
            for row in HELP:
                check(row in printed.decode(), f"vipr {words} has no {row!r}")
    check(
        b"[possible values: 1, 2]\n" in answer(["check", "--profile", "3"])[1],
        "the profiles are not told",
    )
    for words in (
        ["help"],
        ["help", "check"],
        ["help", "explain"],
        ["help", "show"],
        ["help", "tighten"],
    ):
        expect("help", answer([*words[1:], "--help"]), words)
    for word in "--help", "-h":
        expect("help of help", answer(["help"]), ["help", word])
    unproved = UNPROVED if said_version(PROGRAM)[1] else ""
    version = versions.of_program()
    expect("the version", (f"vipr {version}{unproved}\n".encode(), b"", 0), ["--version"])
    expect(
        "whole_objective",
        judged("verified range 1 1\nsolutions 1 derived 0 peak 0\ngoal 0"),
        ["explain", "--profile=2"],
        certificate("whole_objective"),
    )
    for command in COMMANDS:
        for path in new_path(), "/":
            for options in [], *([["--sum"]] if command in ("check", "explain") else []):
                expect(
                    "what cannot be read",
                    (b"", b"fault read\n", 3),
                    [command, *options, path],
                    certificate("infeasible"),
                )


def all_options():
    """Each command with all its options: a refusal, and a fault of FILE and of what is written."""
    read, missing = written(edited("both_branches", "} 6\nf", "} 5\nf")), new_path()
    early, proof = written(b"VEX"), written(certificate("cutoff_loose"))
    out = written(b"as it was")
    for command, *options in (
        ["check", "--profile", "2", "--sum"],
        ["explain", "--profile=2", "--long", "--sum"],
        ["explain", "--long", "--sum", "--profile", "2"],
        ["show", "--compact"],
        ["tighten", "--profile", "2", "--compact", "--out", out],
        ["tighten", "--compact", "--profile=2", "-o", out],
    ):
        what = f'vipr {command} {" ".join(options)}'
        for file, line in (early, b"refused 2 at byte 0\n"), *(
            [] if command == "show" else [(read, b"refused 32 at DER 6\n")]
        ):
            got = answer([command, file, *options])
            printed = got.stderr if command in ("show", "tighten") else got.stdout
            check(
                got.returncode == 1 and printed.startswith(line),
                f"{what} of a refused text: {got!r:.400}",
            )
        got = answer([command, *options, missing])
        check(
            got.returncode == 3 and not got.stdout and got.stderr.endswith(b"fault read\n"),
            f"{what} of no file: {got!r:.400}",
        )
        words = [command, *(word if word != out else "/" for word in options), proof]
        with open("/dev/full", "wb") as full:
            got = run([PROGRAM, *words], stdout=full)
        check(got == (None, b"fault write after 0\n", 3), f"{what} with no room: {got!r:.400}")
        check(Path(out).read_bytes() == b"as it was", f"{what}: another text in OUT")


def done(task):
    """Does a task in a process of its own, and gives how many checks it made, and how many
    failed."""
    CHECKS.count = CHECKS.failed = 0
    task[0](*task[1:])
    return CHECKS.count, CHECKS.failed


def main():
    tasks = [(explains_long, *row) for row in long_texts()] + [(cut_anywhere,)]
    tasks += [(tightens, *row) for row in tightened_texts()]
    tasks += [(explains, *row) for row in explained_texts()]
    tasks += [(names_end_in, byte) for byte in range(256) if byte not in b"\t\n\v\f\r %"]
    tasks += [(shows, *row) for row in shown_texts()]
    tasks += [(words_are_read, *row) for row in FILES]
    tasks += [(words_are_wrong, *row) for row in WRONG]
    tasks += [(files_stay,), (other_words,), (all_options,)]
    with multiprocessing.get_context("fork").Pool(os.cpu_count()) as pool:
        for count, failed in pool.imap_unordered(done, tasks):
            CHECKS.count += count
            CHECKS.failed += failed
    return CHECKS.end()


with tempfile.TemporaryDirectory(prefix="vipr-answers-") as ROOM:
    STATUS = main()
sys.exit(STATUS)
