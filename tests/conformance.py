#!/usr/bin/env python3
"""The cases of conformance/: the table is whole, and checkers agree with it.

usage: tests/conformance.py [PROGRAM]     crates/vipr/out/vipr without it

Each file has a line in conformance/cases.tsv, and each line a file and what schema.json asks for.
Sentences are as those of README.md and name nothing that their reader lacks, cases that say the
same have one verdict, and the certificates of docs/TUTORIAL.md are among them. conformance/run.py
runs the program on all cases: by both profiles it agrees with each verdict, with each line of
`explain`, and with each text that `tighten` writes. So do the plain models of bench/, which are
called without a process for each case. bench/gmp_check.cpp agrees on the format, and on the choices
but for the limits and one spelling. If g++ or GMP isn't there, it is left out, and a line says so.

Prints each fault, and last `conformance: N checks, F failed`; the exit status is 1 if one failed.
"""
import json
import re
import shutil
import sys
import tempfile
from pathlib import Path
from types import SimpleNamespace

from language import faults_of
from texts import TOP, Checks, program, run
from plain_check import explained
from plain_tighten import tightened
import run as runner
import sizes

FOLDER, TUTORIAL = TOP / "conformance", TOP / "docs/TUTORIAL.md"
RUN = [sys.executable, FOLDER / "run.py"]
# how many cases there are at least, and how many bytes a case by hand and the folder sizes/ may
# have
LEAST, LARGEST, LARGEST_FOLDER = 2200, 4096, 2_000_000
# what a sentence may not name: files, pages, numbers of causes, another case
FOREIGN = re.compile(r"\.vipr|\.md\b|\bcause \d|\bcase\b|\bprevious\b")
# the choices on which a checker with numbers of any size differs
OTHERS_CHOICES = "limit,spelling"
# how long a checker may take for a case on a machine that does other things, too
SECONDS = 120
CHECKS = Checks("conformance")
check = CHECKS.check


# ---- the table


def one_profile_is_whole(found):
    """Each line of the table with the answers of one profile, against the others by their names."""
    for name, case in found.items():
        check(case.verdict == case.lines[0].split()[0], f"{name}: {case.verdict}, and {case.lines}")
        same = not case.same or case.same in found and found[case.same].verdict == case.verdict
        check(same, f"{name}: not as {case.same}")
        if case.tightened:
            other = found[str(case.tightened.relative_to(FOLDER).with_suffix(""))]
            known = case.verdict == "verified" and other.tightened == case.tightened
            check(known, f"{name}: {case.verdict}, becomes {other.name}")
            check(
                other.lines[0] == case.lines[0], f"{name}: becomes a certificate with another claim"
            )
        wants = case.rule == "tightening" and case.verdict == "verified"
        check(bool(case.tightened) == wants, f"{name}: {case.tightened}")


def table_has_its_schema():
    """Each cell is what schema.json says, and each word of it is explained."""
    fields = json.loads((FOLDER / "schema.json").read_text())["fields"]
    head, *rows = [
        line.split("\t") for line in runner.TABLE.read_text(encoding="utf-8").splitlines()
    ]
    check(head == [field["name"] for field in fields], f"the columns are {head}")
    for row in rows:
        check(len(row) == len(head), f"{row[:2]}: {len(row)} cells")
        for field, cell in zip(fields, row):
            asked = field.get("constraints", {})
            good = bool(cell) or not asked.get("required")
            good = good and (not cell or cell in asked.get("enum", [cell]))
            good = good and (not cell or re.fullmatch(asked.get("pattern", ".*"), cell))
            check(good, f"{row[:2]}: {field['name']} is {cell!r}")
    words = {
        line.split("\t")[0] for line in (FOLDER / "sentences.tsv").read_text().splitlines()[1:]
    }
    used = {case.rests_on for case in runner.cases() if case.kind == "format"}
    check(used == words, f"sentences that nothing rests on, or that are missing: {used ^ words}")
    choices = {case.choice for case in runner.cases() if case.kind == "choice"}
    check(choices == set(runner.CHOICES), f"choices: {choices ^ set(runner.CHOICES)}")
    page = (FOLDER / "README.md").read_text()
    for word in runner.CHOICES:
        check(f"`{word}`" in page, f"README.md doesn't explain {word}")


def table_is_whole():
    """Whether each line has its file."""
    by_profile = [
        {f"{case.rule}/{case.name}": case for case in runner.cases(profile)} for profile in "12"
    ]
    first, second = by_profile
    paths, there = sorted(case.path for case in first.values()), sorted(FOLDER.glob("*/*.vipr"))
    apart = sorted(path.stem for path in {*paths} ^ {*there})
    check(paths == there, f"not a file and a line each: {apart}, {len(paths)} lines")
    if paths != there:
        return False
    check(len(paths) >= LEAST, f"{len(paths)} cases")
    for found in by_profile:
        one_profile_is_whole(found)
    long = dict(sizes.texts())
    for name, case in first.items():
        check(
            (case.kind == "choice") == bool(case.choice) != bool(case.rests_on),
            f"{name}: {case.kind}",
        )
        faults = list(faults_of(case.about, "README.md"))
        good = case.about.endswith(".") and not faults and not FOREIGN.search(case.about)
        check(good, f"{name}: {case.about} {faults}")
        is_made = case.path in long
        check(
            is_made or case.path.stat().st_size <= LARGEST,
            f"{name}: {case.path.stat().st_size} bytes",
        )
        good = case.verdict == "refused" or second[name].verdict == "verified"
        check(good, f"{name}: verified by the first profile alone")
    check(len({case.about for case in first.values()}) == len(first), "two sentences are the same")
    for path, text in long.items():
        check(path.read_text() == text, f"{path.name} is not what sizes.py writes")
    large = sum(path.stat().st_size for path in (FOLDER / "sizes").iterdir())
    check(large <= LARGEST_FOLDER, f"sizes/ has {large} bytes")
    texts = {path.read_text(encoding="latin-1") for path in paths}
    for name, text in re.findall(
        r"^```vipr as (\S+)\n(.*?)^```", TUTORIAL.read_text(), re.M | re.S
    ):
        check(text in texts, f"{name} of the tutorial is no case")
    return True


# ---- checkers


def answer(*words):
    """The outcome of a run of run.py, and its exit status."""
    done = run([*RUN, "--json", "--seconds", SECONDS, *words], timeout=1200)
    said = done.stdout or json.dumps({"said": done.stderr.decode(errors="replace")})
    return json.loads(said), done.returncode


def agrees(*words):
    """A run of run.py finds no case on which the command disagrees."""
    outcome, status = answer(*words)
    check(status == 0 and outcome.get("cases"), f'{" ".join(map(str, words))}: {outcome}')


def program_agrees():
    agrees("--refused", "1", "--", PROGRAM, "check", "{}")
    for profile in "1", "2":
        given = ["--profile", profile]
        agrees("--refused", "1", "--lines", *given, "--", PROGRAM, "explain", *given, "{}")
        agrees("--tighten", *given, "--", PROGRAM, "tighten", *given, "{}")


def model_agrees():
    """The plain models, which run.py calls in place of a process."""
    for profile in 1, 2:

        def ran(words, path, seconds):
            lines = explained(path.read_bytes(), profile)
            return runner.Ran(lines.encode(), b"", int(lines.startswith("refused")))

        def rewritten(words, path, seconds):
            return runner.Ran(*tightened(path.read_bytes(), profile))

        given = {
            "command": [],
            "seconds": 0,
            "refused": 1,
            "accept": None,
            "lines": True,
            "checker": None,
        }
        options = SimpleNamespace(**given)
        for case in runner.cases(str(profile)):
            runner.ran = ran
            results = [runner.checked(case, options)]
            if case.tightened:
                runner.ran = rewritten
                results.append(runner.tightened(case, options))
            for result in results:
                check(
                    result.fault is None,
                    f"a model, profile {profile}: {case.rule}/{case.name}: {result.words}",
                )


def other_checker_agrees(folder):
    """bench/gmp_check.cpp: numbers without a limit, and no leading zeros in counts."""
    compiler, checker = shutil.which("g++"), Path(folder, "gmp_check")
    if not compiler:
        CHECKS.skip("C compiler", "bench/gmp_check.cpp was not tried")
        return
    words = [compiler, "-std=c++17", TOP / "bench/gmp_check.cpp", "-o", checker, "-lgmpxx", "-lgmp"]
    if run(words).returncode:
        print("conformance: bench/gmp_check.cpp was not tried, for want of GMP")
        return
    agrees("--except", OTHERS_CHOICES, "--refused", "1", "--", checker, "{}")
    outcome, _ = answer("--only", "choice", "--refused", "1", "--", checker, "{}")
    check(
        {fault["choice"] for fault in outcome.get("faults", ())} == {*OTHERS_CHOICES.split(",")},
        f"gmp_check: {outcome}",
    )


def main():
    sys.set_int_max_str_digits(0)
    if not table_is_whole():
        return CHECKS.end()
    table_has_its_schema()
    program_agrees()
    with tempfile.TemporaryDirectory(prefix="vipr-conformance-") as folder:
        other_checker_agrees(folder)
    model_agrees()
    return CHECKS.end()


if __name__ == "__main__":
    PROGRAM = program(sys.argv[1:])
    sys.exit(main())
