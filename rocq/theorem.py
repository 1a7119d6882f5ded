#!/usr/bin/env python3
"""A certificate as a theorem of Rocq: writes OUT.v and has Rocq's kernel check it.

usage: rocq/theorem.py FILE OUT.v [--profile 1|2]

OUT.v has the bytes of FILE as `certificate`, and the theorem `Means certificate`: the text states a
problem, and what it claims of that is true. The proof is one computation of the kernel. Nothing is
extracted, and no program in OCaml is run but Rocq itself. `make -C rocq theorem` has to be done.
`rocq/same_bytes.py OUT.v FILE` says whether OUT.v has the bytes of FILE and nothing else.

Prints what Rocq says of the theorem, and on which axioms it rests. An OUT.v that is there is
written over only if it begins as one that this script wrote. The exit status is 0 if the theorem
is proved, 1 if the certificate is refused, 2 if the command line is wrong, and 3 if something
can't be read, written or run.
"""
import argparse
import os
import re
import resource
import subprocess
import sys
import tempfile
from pathlib import Path

HERE = Path(__file__).resolve().parent
HEAD = """\
(* A certificate of VIPR as a theorem, for `coqc -R rocq Vipr`. *)
From Coq Require Import List NArith.
From Vipr Require Import Statement Literal.
From Vipr Require Rules Read Checked.
Import ListNotations.
"""
BLOCK = """
Definition block_{number} : text := concat [
{pieces}].
"""
CLAIM = """
Definition certificate : text := concat [
{blocks}].

Theorem the_claim_is_true : Means certificate.
Proof.
  apply (Checked.check_is_sound Rules.{profile}).
  vm_cast_no_check (eq_refl Read.Verified).
Qed.

Check the_claim_is_true.
Print Assumptions the_claim_is_true.
"""
FIRST_LINE = HEAD.splitlines(keepends=True)[0]
PROFILES = {1: "Profile1", 2: "Profile2"}
CLOSED = "Closed under the global context"
# Rocq reads a long list or literal with a deep stack
PIECES, LONGEST = 256, 64
# what a byte of a text may take, and a byte of the objective's row in the place of each `OBJ`; a
# text that may take more seconds than SOON is announced
SECONDS, MEGABYTES, ROW_SECONDS, SOON = 100e-6, 1.4e-3, 0.6e-6, 20
COMMENTS = re.compile(rb"\A(\s*%[^\n]*)*")
PIECE = re.compile(rb"([ !-~]{1,%d})(\n?)|([\0-\xff])" % LONGEST)


def pieces(text):
    """The text as words of Rocq: lines, parts of lines and single bytes."""
    for printable, end, other in PIECE.findall(text):
        if printable:
            words = printable.decode().replace('"', '""')
            yield f'{"line" if end else "part"} "{words}"'
        else:
            yield 'line ""' if other == b"\n" else f"byte_number {ord(other)}"


def theorem(text, profile):
    """What OUT.v has."""
    words = list(pieces(text))
    blocks = [words[at : at + PIECES] for at in range(0, len(words), PIECES)]
    yield HEAD
    for number, block in enumerate(blocks):
        yield BLOCK.format(number=number, pieces=";\n".join(block))
    names = ";\n".join(f"block_{number}" for number in range(len(blocks)))
    yield CLAIM.format(blocks=names, profile=PROFILES[profile])


def bytes_of_rows(text):
    """How many bytes all rows `OBJ` have, with the objective's in the place of each: Rocq's kernel
    goes through that each time."""
    words = COMMENTS.sub(b"", text).split()
    try:
        integers = 5 + int(words[3])
        place = integers + 2 + int(words[integers])
        end = place + 2 + 2 * int(words[place + 1])
    except (IndexError, ValueError):
        return 0
    row = sum(len(word) + 1 for word in words[place + 1 : end])
    return row * words[end:].count(b"OBJ")


def announce(text):
    """Says what a large text may take."""
    seconds = len(text) * SECONDS + bytes_of_rows(text) * ROW_SECONDS
    if seconds > SOON:
        print(
            f"{len(text)} bytes may take {seconds:.0f} seconds and {len(text) * MEGABYTES:.0f} MB; "
            "if many rows are long, far more",
            file=sys.stderr,
            flush=True,
        )


def write(out, words):
    """Writes OUT.v, unless it is there and isn't one of this script's."""
    opened = os.open(out, os.O_RDWR | os.O_CREAT | os.O_CLOEXEC, 0o666)
    with open(opened, "r+", encoding="ascii", newline="\n", errors="replace") as file:
        if file.readline() not in ("", FIRST_LINE):
            raise FileExistsError(f"{out} is there, and this script did not write it")
        file.seek(0)
        file.truncate()
        file.writelines(words)


def deep_stack():
    """Gives Rocq as deep a stack as this machine allows."""
    _, most = resource.getrlimit(resource.RLIMIT_STACK)
    resource.setrlimit(resource.RLIMIT_STACK, (most, most))


def proved(out):
    """What coqc says of OUT.v, and whether it accepts it. Nothing is left beside it."""
    with tempfile.TemporaryDirectory(prefix="vipr-theorem-") as folder:
        made = Path(folder, out.stem + ".vo")
        return subprocess.run(
            ["coqc", "-q", "-noglob", "-R", HERE, "Vipr", "-o", made, out.resolve()],
            stdin=subprocess.DEVNULL,
            capture_output=True,
            check=False,
            preexec_fn=deep_stack,
        )


def fault(what):
    """Says what couldn't be done, and gives the status for that."""
    print(f"fault {what}", file=sys.stderr)
    return 3


def answer(done, file):
    """Prints what Rocq said, and gives the status."""
    said, complained = done.stdout.decode(errors="replace"), done.stderr.decode(errors="replace")
    if done.returncode == 0 and CLOSED in said:
        print(said, end="")
        return 0
    if "Read.Verified = Read.Verified" in " ".join(complained.split()):
        print(f"refused {file!r}: the checker that Rocq runs does not verify this text")
        return 1
    return fault(f"coqc: {said}{complained}")


def main():
    """Reads FILE, writes OUT.v, and has it proved."""
    words = argparse.ArgumentParser(usage=__doc__.split("\n")[2].removeprefix("usage: "))
    words.add_argument("file", type=Path)
    words.add_argument("out", type=Path)
    words.add_argument("--profile", type=int, choices=PROFILES, default=1)
    given = words.parse_args()
    if not re.fullmatch(r"[A-Za-z][A-Za-z0-9_]*\.v", given.out.name):
        words.error("OUT.v has to be a letter, then letters, digits or _, and .v")
    try:
        text = given.file.read_bytes()
        write(given.out, theorem(text, given.profile))
        announce(text)
        return answer(proved(given.out), str(given.file))
    except OSError as error:
        return fault(error)


if __name__ == "__main__":
    sys.exit(main())
