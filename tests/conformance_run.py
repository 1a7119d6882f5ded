#!/usr/bin/env python3
"""conformance/run.py itself: which cases it chooses, and what it says of checkers and tighteners.

usage: tests/conformance_run.py [PROGRAM]     crates/vipr/out/vipr without it

Checkers that always accept, crash, hang, print too little or aren't there, and tighteners that
write another problem, claim, more derivations or no certificate, show what it says. Options choose
the cases that they name. The forms of a run are tried: a case for each run, all at once, on
standard input, and by adapter.py. On a terminal it counts the cases. The scripts that a user runs
pass mypy; without mypy that is left out.

Prints each fault, and last `conformance_run: N checks, F failed`; the exit status is 1 if one
failed.
"""
import os
import pty
import re
import shutil
import subprocess
import sys
import tempfile
from pathlib import Path
from xml.etree import ElementTree

from conformance import FOLDER, RUN, answer
from texts import Checks, program, run
import run as runner

CHECKS = Checks("conformance_run")
check = CHECKS.check


def agrees(*words):
    """A run of run.py finds no case on which the command disagrees."""
    outcome, status = answer(*words)
    check(status == 0 and outcome.get("cases"), f'{" ".join(map(str, words))}: {outcome}')


def outcomes_are_said(folder):
    """What run.py says of checkers that always accept, that print, crash, hang, or aren't there."""
    found = list(runner.cases())
    refused = {f"{case.rule}/{case.name}" for case in found if case.verdict == "refused"}
    junit = Path(folder, "junit.xml")
    outcome, status = answer("--junit", junit, "--", "true")
    faults = {fault["case"] for fault in outcome["faults"]}
    check(status == 1 and faults == refused, f"true: status {status}")
    counts = [outcome["refused"], outcome["verified"]["cases"]]
    check(
        counts == [{"agree": 0, "cases": len(refused)}, len(found) - len(refused)],
        f"true: {counts}",
    )
    suites = ElementTree.parse(junit).getroot()
    check(
        sum(int(suite.get("tests")) for suite in suites) == len(found), "JUnit: the number of tests"
    )
    check(len(suites.findall(".//failure")) == len(refused), "JUnit: the number of failures")
    for words in (
        ["--", "sh", "-c", "kill -SEGV $$"],
        ["--seconds", "0.3", "--", "sh", "-c", "sleep 60 | cat"],
        ["--refused", "1", "--", "sh", "-c", "exit 3"],
        ["--", "sh", "-c", 'sh -c "kill -ABRT \\$\\$"; exit $?'],
        ["--batch", "--", "sh", "-c", "echo verified"],
        ["--batch", "--", "true"],
    ):
        outcome, status = answer("--rule", "asm", *words)
        check(status == 1 and 0 < outcome["cases"] == outcome["crash"], f"{words}: {outcome}")
    for words in ["--", Path(folder, "missing"), "{}"], [], ["--except", "limits", "--", "true"]:
        check(answer(*words)[1] == 2, f"{words}: not status 2")
    text = run([*RUN, "--rule", "sol", "--", "true"]).stdout.decode()
    good = (
        re.search(r"^sol +(\d+) of \1 +0 of \d+ +0$", text, re.M)
        and "verified, which is to be refused\n    " in text
    )
    check(good, text)


def choices_are_made():
    """The cases that options choose, and the forms of a run."""
    found = list(runner.cases())
    for words, wanted in (
        (["--only", "format"], [case for case in found if case.kind == "format"]),
        (["--except", "limit"], [case for case in found if case.choice != "limit"]),
        (["--except", ",".join(runner.CHOICES)], [case for case in found if case.kind == "format"]),
        (
            ["--rule", "uns", "--rule", "sol"],
            [case for case in found if case.rule in ("uns", "sol")],
        ),
    ):
        outcome, _ = answer(
            *words, "--batch", "--", "sh", "-c", "for path; do echo refused; done", "sh", "{}"
        )
        check(
            outcome["cases"] == len(wanted) > outcome["crash"] == 0,
            f"{words}: {outcome['cases']} cases",
        )
    agrees("--rule", "asm", "--", PROGRAM, "check")
    agrees("--rule", "asm", "--accept", "^verified", "--", PROGRAM, "check", "{}")
    first_lines = 'for path; do "$0" check "$path" | head -n 1; done'
    agrees("--rule", "asm", "--batch", "--", "sh", "-c", first_lines, PROGRAM, "{}")
    words = ["^verified", "^refused", PROGRAM, "check", "{}"]
    agrees("--rule", "asm", "--refused", "1", "--", FOLDER / "adapter.py", *words)
    outcome, _ = answer(
        "--rule", "asm", "--refused", "1", "--", FOLDER / "adapter.py", *words[:2], "true"
    )
    check(outcome["crash"] == outcome["cases"] > 0, f"adapter.py: {outcome}")
    said = run([*RUN, "--version"]).stdout.decode()
    changes = re.findall(r"^## (\d+)$", (FOLDER / "CHANGELOG.md").read_text(), re.M)
    check(
        said.split()[1] == runner.version() == changes[0], f"{said}, and CHANGELOG.md has {changes}"
    )


def tighteners_are_checked():
    """What run.py says of texts that aren't tightened ones."""
    asked = [
        "--tighten",
        "--checker",
        f"{PROGRAM} check {{}}",
        "--accept",
        "^verified",
        "--rule",
        "tightening",
    ]
    agrees(*asked, "--", PROGRAM, "tighten", "{}")
    agrees(*asked, "--", "cp", "{}", "{out}")
    longer = "s/^DER 1$/DER 2/; $a d G 0 0 { asm } -1"
    for words, said in (
        (["sed", "s/RTP .*/RTP range -inf inf/", "{}"], "another problem or claim"),
        (["sed", "s/^VAR 1$/VAR 2/; s/^x$/x y/", "{}"], "another problem or claim"),
        (["sed", longer, "{}"], "derivations, and there were"),
        (["sed", "s/ } .*/ } 0/", "{}"], "doesn't verify"),
        (["head", "-c", "30", "{}"], "wrote no certificate"),
    ):
        outcome, status = answer(*asked, "--", *words)
        told = [fault["words"] for fault in outcome["faults"]]
        check(status == 1 and any(said in fault for fault in told), f"{words}: {told}")


def progress_is_shown():
    """On a terminal run.py counts the cases, and nowhere else."""
    words = [*map(str, RUN), "--rule", "asm", "--", "true"]
    ours, theirs = pty.openpty()
    subprocess.run(words, stdout=subprocess.DEVNULL, stderr=theirs, check=False)
    os.close(theirs)
    shown = os.read(ours, 10_000)
    os.close(ours)
    check(re.search(rb"\r1 of (\d+)\r2 of \1", shown), f"on a terminal: {shown!r:.200}")
    check(run(words).stderr == b"", "it counts where no terminal is")


def types_are_right():
    """The scripts that a user runs, by mypy; it is left out if mypy isn't here."""
    if shutil.which("mypy"):
        scripts = [FOLDER / name for name in ("run.py", "outline.py", "adapter.py")]
        done = run(
            ["mypy", "--strict", "--no-error-summary", "--cache-dir=/dev/null", *scripts],
            timeout=300,
        )
        check(done.returncode == 0, f"mypy: {done.stdout.decode()}")


def main():
    with tempfile.TemporaryDirectory(prefix="vipr-conformance-") as folder:
        outcomes_are_said(folder)
    choices_are_made()
    tighteners_are_checked()
    progress_is_shown()
    types_are_right()
    return CHECKS.end()


if __name__ == "__main__":
    PROGRAM = program(sys.argv[1:])
    sys.exit(main())
