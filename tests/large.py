#!/usr/bin/env python3
"""What the built program answers on texts that are large in one respect, and on files beside others
of a similar name.

usage: tests/large.py [PROGRAM]     crates/vipr/out/vipr without it

Small texts don't show a limit that isn't the format's: so many variables, derivations, entries or
bytes, behind which a text is cut off or memory is said to be wanted. Every answer is known
beforehand. A sparse file takes no room on a disk.

Prints each fault, and last `large: N runs, F failed`; the exit status is 1 if one failed.
"""
import filecmp
import hashlib
import os
import random
import re
import resource
import shutil
import subprocess
import sys
import tempfile
from pathlib import Path

from texts import TOP, Checks, program, run, spent

PROGRAM = program(sys.argv[1:])
SECONDS = 300
# the largest number
M = 2**127 - 1
LONG_BYTES = 5 << 30
# what `explain --long` reads before it looks at the front
LOOK_BYTES = 1 << 20
# what makes a text longer than that
MORE = "\nf G 1 0 { lin 2 0 1 1 9 } -1" * 100_000
WIDE = 2000
CHECKS = Checks("large", "runs")


def expect(what, wanted, words, text=b"", **source):
    """Runs the program, and compares its answer. `stdin` is a file for standard input."""
    CHECKS.count += 1
    CHECKS.expect(
        f'vipr {" ".join(map(str, words))}: {what}',
        run([PROGRAM, *words], text, timeout=SECONDS, **source),
        wanted,
    )


def verdict(lines):
    return f"{lines}\n".encode(), b"", int(lines.startswith("refused"))


def many(variables, needless, used, is_tight):
    """A proof of so many derivations that nothing needs and so many that one sum needs, over that
    many variables, and its figures. Each is held to the end, or only as long as it is needed."""
    first = 2 + needless
    total = first + used
    split, below, above, absurd, goal = range(total + 1, total + 6)

    def last(index):
        return index if is_tight else -1

    lines = [
        f"VER 1.0\nVAR {variables}",
        *["x"] * variables,
        "INT 1\n0\nOBJ min\n0\nCON 2 0",
        "a G 1 1 0 1",
        "b L 0 1 0 1",
        f"RTP infeas\nSOL 0\nDER {needless + used + 6}",
        *["d G 0 0 { lin 0 } -1"] * needless,
    ]
    lines += [f"f G 1 1 0 1 {{ lin 1 0 1 }} {last(total)}"] * used
    entries = " ".join(f"{index} 1" for index in range(first, total))
    lines += [
        f"s G {used} 1 0 {used} {{ lin {used} {entries} }} {last(absurd)}",
        f"p G 1 1 0 1 {{ asm }} {last(goal)}",
        f"q G 1 0 {{ lin 2 {split} 1 1 -1 }} {last(goal)}",
        f"r L 0 1 0 1 {{ asm }} {last(goal)}",
        f"t G {used} 0 {{ lin 2 {total} 1 {above} {-used} }} {last(goal)}",
        f"g G 1 0 {{ uns {below} {split} {absurd} {above} }} -1",
    ]
    return "\n".join(lines).encode() + b"\n", needless + used + 6


def of_many_items():
    """A million variables, a million derivations that go, 110,000 that stay and that one sum
    names."""
    variables, needless, used = 1_100_000, 1_000_000, 110_000
    text, derived = many(variables, needless, used, False)
    tight, kept = many(variables, 0, used, True)
    expect(
        "many items",
        verdict(f"verified infeas\nsolutions 0 derived {derived} peak {derived}"),
        ["check"],
        text,
    )
    expect("many items", (text, b"", 0), ["show"], text)
    said = f"kept {kept} removed {needless} peak {derived} {used}\n".encode()
    expect("many items", (tight, said, 0), ["tighten"], text)
    expect(
        "many items, tightened",
        verdict(f"verified infeas\nsolutions 0 derived {kept} peak {used}"),
        ["check"],
        tight,
    )


def row(coefficient=1):
    return f"{WIDE} " + " ".join(f"{variable} {coefficient}" for variable in range(WIDE))


def entries(multiplier=1, last="0 1", index=0):
    """A reason's entries, all but the last of one constraint and one multiplier."""
    return f"{WIDE} " + f"{index} {multiplier} " * (WIDE - 1) + last


def refusals():
    """For each cause of a derivation the derivations of a text over wide rows, and the refused
    one's index."""
    half = row("1/3")
    yield 31, f'd G 0 {row()} {{ lin {entries(last="9 1")} }} -1', 2
    yield 32, f'd G 1 {row()} {{ lin 1 0 1 }} 3\ne G 1 {row()} {{ lin 1 2 1 }} -1\nf G 0 0 {{ lin {entries(last="2 1")} }} -1', 4
    yield 33, f"d G 1 {row()} {{ asm }} -1\ne G 1 {row()} {{ lin 1 0 1 }} -1\nf G 1 {row()} {{ uns 2 2 3 3 }} -1", 4
    yield 34, f'd G 0 {row()} {{ lin {entries(last="0 -1")} }} -1', 2
    yield 35, f'd G 0 {row()} {{ lin {entries(last=f"0 {M}")} }} -1', 2
    yield 36, f'd G 1/3 {half} {{ lin 1 0 1/3 }} -1\ne G 1 {row()} {{ rnd {entries(index=2, last="2 1")} }} -1', 3
    yield 37, f"d G 1 {row()} {{ asm }} -1\ne G 1 {row()} {{ asm }} -1\nf G 1 {row()} {{ uns 2 2 3 3 }} -1", 4
    yield 38, f"d G {WIDE + 1} {row(WIDE)} {{ lin {entries()} }} -1", 2
    yield 39, f"d L 0 {row()} {{ sol }} -1", 2


def of_wide_rows():
    """Each cause of a derivation once, with rows and reasons of 2,000 entries."""
    names = "\n".join(f"x{variable}" for variable in range(WIDE))
    whole = f"{WIDE} " + " ".join(map(str, range(WIDE)))
    for cause, derivations, index in refusals():
        text = (
            f"VER 1.0\nVAR {WIDE}\n{names}\nINT {whole}\nOBJ min\n{row()}\nCON 2 0\na G 1 {row()}\nb G 0 0\n"
            f"RTP range -inf inf\nSOL 0\nDER {derivations.count(chr(10)) + 1}\n{derivations}\n"
        ).encode()
        line = f"refused {cause} at DER {index}"
        expect("wide rows", verdict(line), ["check"], text)
        expect("wide rows", (b"", f"{line}\n".encode(), 1), ["tighten"], text)


def of_a_long_sum():
    """A sum of 200,000 entries is checked, and kept as it is."""
    count = 200_000
    terms = f"0 1/{count} " * count
    text = (
        f"VER 1.0\nVAR 1\nx\nINT 0\nOBJ min\n0\nCON 2 0\nlow G 1 1 0 1\nup L 0 1 0 1\nRTP infeas\nSOL 0\nDER 1\n"
        f"sum G 1 0 {{ lin {count + 1} {terms}1 -1 }} -1\n"
    ).encode()
    expect("a long sum", verdict("verified infeas\nsolutions 0 derived 1 peak 1"), ["check"], text)
    expect("a long sum", (text, b"kept 1 removed 0 peak 1 1\n", 0), ["tighten"], text)


def of_many_bytes(room):
    """A comment of five gigabytes in front of a proof, as FILE and, with a token behind the end,
    from a pipe."""
    proof = (TOP / "examples/infeasible.vipr").read_bytes()
    path, end = room / "sparse", room / "end"
    with path.open("wb") as file:
        file.write(b"%")
        file.seek(LONG_BYTES)
        file.write(b"\n" + proof)
    expect(
        "a long comment", verdict("verified infeas\nsolutions 0 derived 1 peak 1"), ["check", path]
    )
    end.write_bytes(b"\n" + proof + b"x")
    words = ["sh", "-c", f'printf %%; head -c {LONG_BYTES - 1} /dev/zero; cat "$0"', end]
    with subprocess.Popen(words, stdout=subprocess.PIPE) as stream:
        expect(
            "a token behind a long text",
            verdict(f"refused 18 at byte {LONG_BYTES + 1 + len(proof)}"),
            ["check"],
            stdin=stream.stdout,
        )
        stream.stdout.close()


def of_a_refused_front(room):
    """`explain --long` stops reading when the front is refused, and its page is that of `--sum`,
    which reads to the end. A fault behind an eighth of the first mebibyte is looked for in the
    whole text."""
    with open("/dev/zero", "rb") as zero:
        got = run(
            [PROGRAM, "explain", "--long"], stdin=zero, timeout=SECONDS, preexec_fn=little_memory
        )
    CHECKS.count += 1
    CHECKS.expect(
        "vipr explain --long: /dev/zero",
        (got.returncode, got.stdout.split(b"\n")[0]),
        (1, b"refused 17 at byte 0"),
    )
    example = (TOP / "examples/infeasible.vipr").read_text()
    path = room / "refused"
    for old, new in (
        ("INT", "INX"),
        ("b L 0 1 0 1", "b L 0 1 9 1"),
        ("min", "min" + " " * LOOK_BYTES),
        ("1 -1 }", "9 -1 }"),
        ("1 -1 }", "1 2 }"),
        ("G 1 0 {", "G 2 0 {"),
        ("SOL 0", "SOL 1\ns 1 0 7"),
    ):
        text = example.replace(old, new, 1) + MORE
        read = len(text) if len(new) > LOOK_BYTES else LOOK_BYTES
        page_of_a_front(path, repr(new[:20]), text, read)
    for length in range(16):
        text = across_an_eighth(example, length)
        read = LOOK_BYTES if length >= len("INT zz ") else len(text)
        page_of_a_front(path, f"{length} bytes of the line in the eighth", text, read)


def across_an_eighth(example, length):
    """A text whose line at fault has so many bytes before the end of what is looked at of a
    mebibyte, and the rest after it."""
    faulty = example.replace("INT 0\n", "INT zz ", 1)
    before = LOOK_BYTES // 8 - length - faulty.index("INT") - len("%\n")
    return f"%{'p' * before}\n{faulty}{MORE}"


def page_of_a_front(path, what, text, wanted):
    """The page is that of the whole text, and no more than the wanted bytes are read of it."""
    path.write_text(text)
    whole = run([PROGRAM, "explain", "--long", "--sum"], text.encode(), timeout=SECONDS)
    with path.open("rb") as file:
        got = run([PROGRAM, "explain", "--long"], stdin=file, timeout=SECONDS)
        read = os.lseek(file.fileno(), 0, os.SEEK_CUR)
    CHECKS.count += 2
    CHECKS.expect(
        f"vipr explain --long: {what}",
        (got.returncode, got.stderr, got.stdout),
        (1, b"", re.sub(rb"sha256 .*\n\Z", b"", whole.stdout)),
    )
    CHECKS.expect(f"vipr explain --long: {what}, what is read", read, wanted)


def little_memory():
    resource.setrlimit(resource.RLIMIT_AS, (64 << 20, 64 << 20))


def of_its_digest(room):
    """The digest of a text of 300 MB as FILE, and of one of 100 MB from a pipe, is that of Python's
    library."""
    path = room / "summed"
    for count, words in (8_571_000, [path]), (2_857_000, []):
        text = (
            b"% a comment, to be read and hashed\n" * count
            + (TOP / "examples/infeasible.vipr").read_bytes()
        )
        path.write_bytes(text)
        lines = verdict(
            f"verified infeas\nsolutions 0 derived 1 peak 1\nsha256 {hashlib.sha256(text).hexdigest()}"
        )
        expect("a digest", lines, ["check", "--sum", *words], b"" if words else text)


def of_one_name(room):
    """FILE is the file of that name, whatever is beside it."""
    proof = (TOP / "examples/infeasible.vipr").read_bytes()
    other = (TOP / "examples/rounding_min.vipr").read_bytes()
    (room / "plan.vipr").write_bytes(other)
    (room / "plan").write_bytes(other)
    lines = verdict("verified infeas\nsolutions 0 derived 1 peak 1")
    for name in (
        "plan.vipr~",
        "plan.vipr.bak",
        "plan.vipr ",
        " plan.vipr",
        "plan.vipr.gz",
        "#plan.vipr#",
        "Plan.vipr",
        "plan.vipr.1",
        "plan.vip",
        "plan.vipr\n",
        "plan\\.vipr",
        "plan.vipr%",
        ".plan.vipr",
        "plan?vipr",
        "plan*",
    ):
        path = room / name
        path.write_bytes(proof)
        expect("a file beside another", lines, ["check", path])
        path.unlink()
        expect("a file that is not there", (b"", b"fault read\n", 3), ["check", path])
    beside_beginnings(room / "beginnings", proof, other)


def of_long_names(room):
    """OUT of 40 MB, of a thousand names of 40 kB, new and FILE itself; and 300 MB to standard
    output."""
    text, kept = many(1, 0, 1000, True)
    text = text.replace(b"\nf", b"\n" + b"f" * 40_000)
    path, out = room / "named", room / "out"
    path.write_bytes(text)
    for target in out, path:
        expect(
            "long names",
            (b"", b"kept %d removed 0 peak 1000 1000\n" % kept, 0),
            ["tighten", path, "--out", target],
        )
        CHECKS.expect(f"a text with long names in {target.name}", target.read_bytes() == text, True)
    path.write_bytes(many(1, 0, 5000, True)[0].replace(b"\nf", b"\n" + b"f" * 60_000))
    with out.open("wb") as file:
        done = subprocess.run(
            [PROGRAM, "show", path],
            stdout=file,
            stderr=subprocess.PIPE,
            timeout=SECONDS,
            check=False,
        )
    CHECKS.count += 1
    CHECKS.expect(
        "vipr show: 300 MB",
        (done.returncode, done.stderr, filecmp.cmp(path, out, shallow=False)),
        (0, b"", True),
    )


def beside_beginnings(room, proof, other):
    """FILE, and OUT, beside a file of each of its name's beginnings: names that programs give to
    copies, and names at random."""
    dice = random.Random(16)
    names = [
        f"plan.vipr{end}"
        for end in (
            ".orig",
            ".bak",
            "~",
            ".old",
            ".new",
            ".tmp",
            ".save",
            ".part",
            ".swp",
            ".gz",
            ".1",
        )
    ]
    names += [
        "".join(dice.choices("abz.-_~ 019", k=dice.randrange(2, 12))) + "v" for _ in range(20)
    ]
    for name in names:
        room.mkdir()
        beginnings = {room / name[:at] for at in range(1, len(name))} - {room / ".", room / ".."}
        for beginning in beginnings:
            beginning.write_bytes(other)
        expect("a beginning of it alone", (b"", b"fault read\n", 3), ["check", room / name])
        (room / name).write_bytes(proof)
        lines = verdict("verified infeas\nsolutions 0 derived 1 peak 1")
        expect("a file beside its beginnings", lines, ["check", room / name])
        (room / name).write_bytes(b"before")
        expect(
            "OUT beside its beginnings",
            (b"", b"kept 1 removed 0 peak 1 1\n", 0),
            ["tighten", "--out", room / name],
            proof,
        )
        expect("the text that OUT has", lines, ["check", room / name])
        CHECKS.expect(
            f"the beginnings of {name!r}", {path.read_bytes() for path in beginnings}, {other}
        )
        shutil.rmtree(room)


def main():
    of_wide_rows()
    of_a_long_sum()
    of_many_items()
    with tempfile.TemporaryDirectory(prefix="vipr-large-") as room:
        of_one_name(Path(room))
        of_long_names(Path(room))
        of_many_bytes(Path(room))
        of_a_refused_front(Path(room))
        of_its_digest(Path(room))
    return CHECKS.end(f", {spent():.0f} seconds of processor time")


sys.exit(main())
