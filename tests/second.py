#!/usr/bin/env python3
"""The theorem in a second prover: builds the checker of rocq/, and compares its verdicts with those
of `vipr check`.

usage: tests/second.py [--texts N] [--seed S] [--wrong] [PROGRAM]
Without them it is 2,000 texts, seed 1 and crates/vipr/out/vipr.

`make rocq` proves the files of rocq/ and builds rocq/vipr-rocq. Rocq has to say of each theorem
that it rests on no axiom, and coqchk, which reads the compiled files and checks them anew, has to
find none. Meanwhile both programs are given the same texts, by both profiles: each example, and
beginnings of it that end at a line; the cases of conformance/, as conformance/run.py finds; a text
of each family of bench/families.py; and N texts that are examples with parts damaged, or with one
number, sense or last reference changed. A text has to be verified by both, or refused by both.
Last, vipr-rocq is run with names and words that could lead it to a wrong answer, and with an output
that can't be written.

--wrong tries wrong versions of the checker's tests in place of that: the prover has to refuse each,
and a line says where.

Prints each text on which the two differ, and last `second: N checks, F failed`. The exit status is
1 if one failed. Without coqc and zarith nothing is tried, and a line says so.
"""
import argparse
import os
import random
import re
import shutil
import sys
import tempfile
from concurrent.futures import ThreadPoolExecutor
from pathlib import Path

from damage import changed, damaged, nearly
from texts import TOP, Checks, examples, program, run, text_of
import families

CHECKS = Checks("second")
SECOND = TOP / "rocq/vipr-rocq"
# for each theorem that a file of rocq/ asks about
CLOSED = "Closed under the global context"
PROFILES = [], ["--profile", "2"]
# how many files the second program is given at once
AT_ONCE = 100
# wrong versions of the checker's tests: what it is, and what to replace in Check.v or Read.v by
# what
WRONG = {
    "sign of L in a sum": (
        "let u := snd e * sign (what (at_in t (fst e))) in",
        "let u := snd e * match sense (what (at_in t (fst e))) with Equal => 0 | _ => 1 end in",
    ),
    "floor for ceiling": ("(Qceiling (computed_side a))) d", "(Qfloor (computed_side a))) d"),
    "an assumption kept out of the wrong branch": ("without l1 i1", "without l2 i1"),
    "cutoff by the worst solution": (
        "if is_min p then least else greatest",
        "if is_min p then greatest else least",
    ),
    "a split with a gap": ("Qeq_bool high (low + 1)", "Qle_bool (low + 1) high"),
    "an equation rounded": (
        "| Equal => negb (is_whole (computed_side a)) || dominates a d",
        "| Equal => dominates (with_side a (Qfloor (computed_side a))) d",
    ),
    "a goal with assumptions": (
        "found t || goals e a && Indices.is_empty (rests s)",
        "found t || goals e a",
    ),
    "a fractional coefficient rounded": ("=> is_zero q || i && is_whole q)", "=> is_zero q || i)"),
    "an integer variable left out": (
        "(fun t j => put false j true t) (integers p)",
        "(fun t j => if N.eqb j 0 then t else put false j true t) (integers p)",
    ),
    "a dropped reference used": (
        "N.ltb i (next t) && live (next t) (at_in t i)",
        "N.ltb i (next t)",
    ),
}


def built():
    """Proves and builds the second checker, and shows that no axiom is used."""
    for name in Path(TOP / "rocq").glob("*.v"):
        words = re.sub(r"\(\*.*?\*\)", "", name.read_text(), flags=re.S)
        CHECKS.check(
            not re.search(r"\b(Admitted|admit|Axiom|Parameter|Conjecture)\b", words),
            f"{name}: assumes something",
        )
    run(["make", "--no-print-directory", "-C", "rocq", "clean"], cwd=TOP)
    done = run(["make", "--no-print-directory", "rocq"], cwd=TOP, timeout=600)
    said = (done.stdout + done.stderr).decode()
    asked = sum(
        name.read_text().count("\nPrint Assumptions ") for name in (TOP / "rocq").glob("*.v")
    )
    CHECKS.check(done.returncode == 0, f"make rocq: {said}")
    CHECKS.check(
        said.count(CLOSED) == asked > 0, f"make rocq: {asked} theorems have no axioms: {said}"
    )
    CHECKS.check("Warning" not in said, f"make rocq warns: {said}")
    return done.returncode == 0


def checked_anew():
    """Whether coqchk accepts what was compiled, and finds nothing that is assumed."""
    words = ["coqchk", "-silent", "-o", "-R", "rocq", "Vipr", "Vipr.Checked", "Vipr.Example"]
    done = run(words, cwd=TOP, timeout=900)
    said = (done.stdout + done.stderr).decode()
    assumed = re.findall(r"^\* (?!Theory)(.*?): (.*)$", said, re.M)
    CHECKS.check(
        done.returncode == 0 and dict(assumed).get("Axioms") == "<none>",
        f"coqchk: {done}",
    )
    CHECKS.check(all(what == "<none>" for _, what in assumed), f"coqchk: {assumed}")


def texts():
    """Each text, with a name for it."""
    known = examples(10**9)
    for path, text in known:
        yield path.name, text
        lines = text.splitlines(keepends=True)
        for count in range(0, len(lines), 1 + len(lines) // 20):
            yield f"{path.name}, {count} lines", b"".join(lines[:count])
    every = families.FAMILIES + families.HOSTILE + families.PRODUCTS + families.KEPT
    for family in every:
        yield family.__name__, text_of(family, 12_000)
    short = [text for _, text in known if len(text) < 10_000] + [
        text_of(family, 1500) for family in every
    ]
    for number in range(GIVEN.texts):
        chance = random.Random(f"{GIVEN.seed} {number}")
        yield f"text {number}", chance.choice([damaged, nearly, nearly, changed])(
            chance.choice(short), chance
        )


def refused(wrong):
    """Whether the prover refuses a wrong version."""
    old, new = WRONG[wrong]
    with tempfile.TemporaryDirectory(prefix="vipr-second-") as folder:
        copy = Path(folder, "rocq")
        shutil.copytree(
            TOP / "rocq",
            copy,
            ignore=shutil.ignore_patterns("*.vo*", "*.glob", ".*.aux", "Makefile.coq*"),
        )
        files = [copy / "Check.v", copy / "Read.v"]
        found = sum(file.read_text().count(old) for file in files)
        for file in files:
            file.write_text(file.read_text().replace(old, new))
        done = run(["make", "--no-print-directory", "-C", copy, "proofs"], timeout=600)
        CHECKS.check(found == 1, f"{wrong}: its text is not there once")
        said = re.search(r'File "./(\w+\.v)", line (\d+).*?Error', done.stderr.decode(), re.S)
        CHECKS.check(
            done.returncode != 0 and said and said[1] not in ("Check.v", "Read.v"),
            f"{wrong}: {done.stderr}",
        )
        if said:
            print(f"{wrong}: refused at {said[1]} line {said[2]}", flush=True)


def compared(first, named):
    """Gives both programs some texts, each under its name, and notes where they differ."""
    with tempfile.TemporaryDirectory(prefix="vipr-second-") as folder:
        paths = [Path(folder, str(number)) for number in range(len(named))]
        for path, (_, text) in zip(paths, named):
            path.write_bytes(text)
        for profile in PROFILES:
            done = run([SECOND, *profile, *paths])
            lines = done.stdout.decode().splitlines()
            verdicts = dict(line.split(" ", 1)[::-1] for line in lines)
            for path, (name, _) in zip(paths, named):
                wanted = run([first, "check", *profile, path]).stdout.decode().split(" ")[0]
                got = verdicts.get(str(path))
                CHECKS.check(
                    got == wanted,
                    f'{name} {" ".join(profile)}: vipr {wanted}, vipr-rocq {got} {done.stderr}',
                )


def conforms():
    """Whether conformance/run.py finds no case on which the second checker disagrees."""
    for words in PROFILES:
        done = run(
            [
                sys.executable,
                TOP / "conformance/run.py",
                *words,
                "--batch",
                "--",
                SECOND,
                *words,
                "{}",
            ],
            timeout=600,
        )
        CHECKS.check(
            done.returncode == 0,
            f'run.py {" ".join(words)}: {done.stdout.decode()}{done.stderr.decode()}',
        )


def try_words():
    """Whether vipr-rocq has the exit statuses of `vipr check`, and one line for each file."""
    with tempfile.TemporaryDirectory(prefix="vipr-second-") as name:
        folder = Path(name)
        forged = folder / "a\nverified b"
        good = folder / "good"
        for file in forged, good, folder / "--profile":
            shutil.copy(TOP / "examples/infeasible.vipr", file)
        shutil.copy(TOP / "examples/covering_split.vipr", folder / "split")
        for words, status, said in [
            ([forged], 0, f"verified {folder}/a\\x0averified b\n"),
            (["good", "split"], 1, "verified good\nrefused split\n"),
            (["split", "good"], 1, "refused split\nverified good\n"),
            (["--profile", "2", "good", "split"], 0, "verified good\nverified split\n"),
            (["split", "--profile", "2"], 2, ""),
            (["good", "--profile", "2"], 2, ""),
            (["--profile"], 2, ""),
            (["--profile", "3", "good"], 2, ""),
            (["--", "--profile"], 0, "verified --profile\n"),
            (["--"], 2, ""),
            ([], 2, ""),
            (["good", "none"], 3, "verified good\n"),
            (["none", "split"], 3, "refused split\n"),
        ]:
            done = run([SECOND, *words], cwd=folder)
            CHECKS.check(
                (done.returncode, done.stdout.decode()) == (status, said),
                f"vipr-rocq {words}: {done}",
            )
        with open("/dev/full", "wb") as full:
            done = run([SECOND, good, folder / "split"], stdout=full)
        CHECKS.check(
            done.returncode == 3 and done.stderr.startswith(b"fault write"), f"/dev/full: {done}"
        )


def main():
    if not (
        shutil.which("coqc")
        and shutil.which("ocamlfind")
        and run(["ocamlfind", "query", "zarith"]).returncode == 0
    ):
        CHECKS.skip("coqc with zarith", "the theorem is not proved in the second prover")
        return CHECKS.end()
    first = program(GIVEN.program)
    if GIVEN.wrong:
        with ThreadPoolExecutor(os.cpu_count()) as pool:
            list(pool.map(refused, WRONG))
    elif built():
        named = list(texts())
        groups = [named[at : at + AT_ONCE] for at in range(0, len(named), AT_ONCE)]
        with ThreadPoolExecutor(os.cpu_count()) as pool:
            anew = pool.submit(checked_anew)
            list(pool.map(lambda group: compared(first, group), groups))
            anew.result()
        conforms()
        try_words()
    return CHECKS.end()


words_of = argparse.ArgumentParser(description=__doc__.split("\n", maxsplit=1)[0])
words_of.add_argument("program", nargs="*")
words_of.add_argument("--texts", type=int, default=2_000)
words_of.add_argument("--seed", default="1")
words_of.add_argument("--wrong", action="store_true")
GIVEN = words_of.parse_args()
sys.exit(main())
