#!/usr/bin/env python3
"""Certificates as theorems of Rocq: rocq/theorem.py, rocq/same_bytes.py and `make theorem`.

usage: tests/theorems.py [PROGRAM]

Each example has to be a theorem by a profile if `vipr check` verifies it by that, and else to be
refused; and so have a false claim, a certificate with bytes that can't be printed, and some of 100
kB, within 20 seconds of processor time. Of one of 1 MB, and of one whose rows `OBJ` are long, it
has to be said beforehand how long it may take. A theorem with one byte changed, or with a line
more, isn't about the certificate. Only Statement.v says what `Means` is: a file of proofs that says
it, too, makes no theorem. Nothing in a name is run, and a file that the script did not write stays
as it is.

Prints each fault, and last `theorems: N checks, F failed`. The exit status is 1 if one failed.
Without coqc only the answer of `make theorem` to that is tried, and a line says so.
"""
import os
import re
import shutil
import sys
import tempfile
from concurrent.futures import ThreadPoolExecutor
from pathlib import Path

from texts import TOP, Checks, examples, program, run, text_of
import families

CHECKS = Checks("theorems")
check = CHECKS.check
WRITE, COMPARE = TOP / "rocq/theorem.py", TOP / "rocq/same_bytes.py"
THEOREM = "the_claim_is_true\n     : Means certificate\nClosed under the global context\n"
STATUSES = {"verified": 0, "refused": 1}
# more than a certificate of 100 kB takes on a machine with other work, and its processor time
SECONDS, PROCESSOR = 600, 20
LARGE = families.dense, families.columns_and_objective
NAMES = ["$(shell touch ran)", "$(touch ran)", "`touch ran`", "-x", "a b", "%\"'$$x", "a\nb"]
SMALL = (TOP / "examples/infeasible.vipr").read_bytes()
# in the place of Checked.v
TRUE_OF_ALL = """\
From Vipr Require Import Statement Rules Read.
Definition Means (t : text) := True.
Lemma check_is_sound (P : Profile) (t : text) : Verified = Verified -> Means t.
Proof. exact (fun _ => I). Qed.
"""


def certificates():
    """Texts with their names: the examples, a false claim, and strange bytes."""
    for path, text in examples(10**9):
        yield path.stem, text
    claim = (TOP / "examples/branch_and_bound.vipr").read_bytes()
    yield "false_claim", claim.replace(b"RTP range 1 1", b"RTP range 2 2")
    yield "strange_bytes", SMALL.replace(b"x", b'"x\\\xff\0\x7f(*').replace(b" ", b"\t\r ")


def proved(file, out, *more):
    """What theorem.py answers."""
    return run([sys.executable, WRITE, *more, file, out], timeout=SECONDS)


def same(out, file):
    """Whether same_bytes.py finds the bytes of a file in a theorem."""
    return run([sys.executable, COMPARE, out, file]).returncode == 0


def try_certificate(first, folder, name, text):
    """Whether a text is a theorem by a profile if the program verifies it, and not otherwise."""
    file = folder / f"{name}.vipr"
    file.write_bytes(text)
    verdicts = set()
    for number in 1, 2:
        words = ["--profile", str(number)]
        verdict = run([first, "check", *words, file]).stdout.decode().split()[0]
        if verdict in verdicts:
            continue
        verdicts.add(verdict)
        out = folder / f"{name}_{number}.v"
        done = proved(file, out, *words)
        said = done.stdout.decode()
        what = f"{name} by profile {number}: {done}"
        check(done.returncode == STATUSES[verdict], what)
        check(said == THEOREM if verdict == "verified" else said.startswith("refused "), what)
        check(same(out, file), f"{what}: the bytes")


def try_large(folder, family):
    """Whether a certificate of 100 kB is a theorem in time."""
    name = family.__name__
    file, out = folder / f"{name}.vipr", folder / f"{name}.v"
    file.write_bytes(text_of(family, 100_000))
    words = [str(word) for word in (sys.executable, WRITE, file, out)]
    with open(folder / f"{name}.said", "w+b") as said:
        pid = os.posix_spawn(
            words[0],
            words,
            os.environ,
            file_actions=[(os.POSIX_SPAWN_DUP2, said.fileno(), 1)],
        )
        _, status, used = os.wait4(pid, 0)
        said.seek(0)
        check((status, said.read().decode()) == (0, THEOREM), f"{name}: {status}")
    taken = used.ru_utime + used.ru_stime
    print(f"{name}, {file.stat().st_size} bytes: {taken:.0f} seconds", flush=True)
    check(taken <= PROCESSOR, f"{name}: {taken:.0f} seconds of processor time")


def try_announced(folder):
    """Whether it is said of large texts, and of no others, what they may take, before Rocq runs."""
    tools = folder / "tools"
    tools.mkdir()
    (tools / "coqc").write_text("#!/bin/sh\nexit 1\n")
    (tools / "coqc").chmod(0o755)
    for family, size, wanted in [
        (families.dense, 100_000, False),
        (families.dense, 1_000_000, True),
        (families.objective_kept, 100_000, True),
    ]:
        what = f"announced_{family.__name__}_{size}"
        file = folder / f"{what}.vipr"
        file.write_bytes(text_of(family, size))
        words = [sys.executable, WRITE, file, folder / f"{what}.v"]
        done = run(words, env=os.environ | {"PATH": str(tools)})
        begins = re.match(rb"\d+ bytes may take \d+ seconds", done.stderr)
        check(bool(begins) == wanted, f"{what}: {done}")


def try_without_rocq():
    """Whether it is said what is missing if Rocq isn't here."""
    with tempfile.TemporaryDirectory(prefix="vipr-theorems-") as name:
        copy = Path(name, "rocq")
        copy.mkdir()
        for file in "Makefile", "_CoqProject":
            shutil.copy(TOP / "rocq" / file, copy)
        done = run([shutil.which("make"), "-s", "-C", copy, "theorem"], env={"PATH": name})
    check(done.returncode == 2 and b"in the package coq\n" in done.stderr, f"without Rocq: {done}")


def try_changes(folder):
    """Whether a theorem that was changed by hand is seen not to be about the certificate."""
    file, out = folder / "changed.vipr", folder / "changed.v"
    file.write_bytes(SMALL)
    proved(file, out)
    written = out.read_text()
    changes = {
        "a digit": ('line "a G 1 1 0 1"', 'line "a G 2 1 0 1"'),
        "no line feed": ('line "INT 0"', 'part "INT 0"'),
        "a line less": ('line "VAR 1";\n', ""),
        "another claim": (": Means certificate", ": Means (certificate ++ certificate)"),
        "a line more": ("Theorem", "Definition Means (t : text) := True.\nTheorem"),
        "hidden in a line": ('line "SOL 0";', 'line "SOL 0"; (* " *)'),
    }
    check(same(out, file), "the bytes of a theorem that was not changed")
    for what, (old, new) in changes.items():
        check(old in written, f"{what}: its text is not there")
        out.write_text(written.replace(old, new, 1))
        check(not same(out, file), f"{what}: same_bytes.py did not see it")


def try_other_meaning(folder):
    """Whether no other file than Statement.v can say what a theorem means."""
    copy, file = folder / "rocq", folder / "refused.vipr"
    shutil.copytree(TOP / "rocq", copy, ignore=shutil.ignore_patterns("out"))
    (copy / "Checked.v").write_text(TRUE_OF_ALL)
    made = run(["coqc", "-q", "-R", copy, "Vipr", copy / "Checked.v"], timeout=SECONDS)
    check(made.returncode == 0, f"another meaning: {made}")
    file.write_bytes(b"")
    done = run([sys.executable, copy / WRITE.name, file, folder / "refused.v"], timeout=SECONDS)
    check(done.returncode == 3 and not done.stdout, f"another meaning: {done}")


def try_names(folder):
    """Whether nothing in a name is run, and only a theorem is written over."""
    for number, name in enumerate(NAMES):
        file, out = folder / name, folder / f"named_{number}.v"
        file.write_bytes(SMALL)
        words = ["make", "-s", "-C", TOP, "theorem", f"FILE={file}", f"OUT={out}"]
        done = run(words, timeout=SECONDS)
        check(done.returncode == 0 and THEOREM in done.stdout.decode(), f"{name!r}: {done}")
        check(out.is_file(), f"{name!r}: no theorem")
    check(not Path(TOP, "ran").exists() and not Path("ran").exists(), "a name was run")
    kept = folder / "kept.v"
    kept.write_text("Definition mine := 1.\n")
    for what, words, wanted in [
        ("a file of another", [folder / "a b", kept], 3),
        ("no folder", [folder / "a b", folder / "none/x.v"], 3),
        ("no certificate", [folder / "none", folder / "x.v"], 3),
        ("no name for Rocq", [folder / "a b", folder / "1-x.v"], 2),
        ("no profile", ["--profile", "3", folder / "a b", folder / "x.v"], 2),
        ("one name", [folder / "a b"], 2),
    ]:
        done = run([sys.executable, WRITE, *words])
        check(done.returncode == wanted and done.stderr, f"{what}: {done}")
    check(kept.read_text() == "Definition mine := 1.\n", "a file of another was written over")


OTHERS = try_changes, try_other_meaning, try_names, try_announced


def main():
    """Tries all of it, if Rocq is here."""
    try_without_rocq()
    if not shutil.which("coqc"):
        CHECKS.skip("coqc", "no certificate is a theorem of Rocq")
        return CHECKS.end()
    first = program(sys.argv[1:])
    made = run(["make", "-s", "-C", TOP / "rocq", "theorem"], timeout=SECONDS)
    check(made.returncode == 0, made)
    with tempfile.TemporaryDirectory(prefix="vipr-theorems-") as name:
        folder = Path(name)
        with ThreadPoolExecutor(os.cpu_count()) as pool:
            tried = [
                pool.submit(try_certificate, first, folder, *certificate)
                for certificate in certificates()
            ]
            tried += [pool.submit(try_large, folder, family) for family in LARGE]
            tried += [pool.submit(one, folder) for one in OTHERS]
            for one in tried:
                one.result()
    return CHECKS.end()


if __name__ == "__main__":
    sys.exit(main())
