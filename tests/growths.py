#!/usr/bin/env python3
"""Refuses each growth of the tests of the libraries in turn.

usage: tests/growths.py [CRATE..]     all libraries with tests, without a name; `rt ci` and `rt test` build them

The tests of the libraries, those of crates/vipr_tests, call what they have to offer. Each is run
with its first growth refused, its second, and so on up to a run that meets no refusal. It then
passes, or ends at an answer that is want of memory: no call may give another answer for a refused
growth, end by a signal of its own, or go on as if it had room. A test with more than MOST growths
makes them in loops: its first and last ones are refused, and some between, evenly spaced. A test
named `spent_..` calls again where a call ended at want of memory, and tells that both calls after
it answered `Spent`: one of its runs at least has to tell so. The growths of the program are refused
by tests/hostile.py.

Prints each run that ends otherwise, how many runs each crate has, and last `growths: N runs, F
failed`. Without a C compiler nothing is run, and a line says so. The exit status is 1 where a run
failed, where a library's tests aren't built, or where none was there to run.
"""
import os
import re
import shutil
import subprocess
import sys
import tempfile
from concurrent.futures import ThreadPoolExecutor
from pathlib import Path

from texts import TOP, Checks
from sources import crates

CHECKS = Checks("growths", "runs")
# its growths are refused by tests/hostile.py
PROGRAM = "vipr"
# tests whose growths aren't refused: reading and writing bytes takes no memory of its own
ELSEWHERE = re.compile(r"tests::bytes::")
# how many growths of a test are refused at most
MOST = 400
# what a failed test says of a call whose growth was refused; a vector that is written to fails a
# write then, and so does OUT if it is one
WANT = re.compile(
    r"\b(AllocError|AllocFailed|Memory|OutOfMemory|out of memory|fault memory|memory: Write)\b"
    r'|left: "fault write after 0\\n"'
)
# the tests that call again after it, and what they say then
CALLS_AGAIN = re.compile(r"\bspent_\w+$")
SPENT = "Memory, then Spent"


class Tests:
    """The tests of a crate, built."""

    def __init__(self, program, library, room):
        self.program, self.library, self.room = program, library, room
        said = self.run("--list")[1]
        self.names = [
            name for name in re.findall(r"^(\S+): test$", said, re.M) if not ELSEWHERE.match(name)
        ]

    def run(self, *words, refused=None):
        """The status, what was said, and how many growths there were."""
        file, report = tempfile.mkstemp(dir=self.room)
        os.close(file)
        settings = {"PATH": "/usr/bin:/bin", "LD_PRELOAD": self.library, "REPORT": report}
        if refused:
            settings["REFUSE_GROWTH"] = str(refused)
        done = subprocess.run(
            [self.program, *words],
            stdin=subprocess.DEVNULL,
            capture_output=True,
            text=True,
            errors="replace",
            env=settings,
            timeout=120,
            check=False,
        )
        counted = Path(report).read_text().split()
        os.remove(report)
        return done.returncode, done.stdout + done.stderr, int(counted[0]) if counted else None

    def refuse_each(self, pool, name):
        """The number of runs of a test with a growth refused, up to one that meets none, and those
        that failed."""
        status, said, growths = self.run(name)
        if status or growths is None:
            return 1, [f"{name} without a refusal: status {status}: {said:.300}"]

        def one(number):
            return number, *self.run(name, refused=number)

        ended = list(pool.map(one, chosen(growths + 1)))
        bad = [
            f"{name}, growth {number}: status {status}: {said:.300}"
            for number, status, said, _ in ended
            if status and not WANT.search(said)
        ]
        if CALLS_AGAIN.search(name) and not any(SPENT in said for _, _, said, _ in ended):
            bad.append(f"{name}: no run says `{SPENT}`")
        return len(ended) + 1, bad


def chosen(last):
    """The growths that are refused, of those from 1 to the one past the last."""
    if last <= MOST:
        return range(1, last + 1)
    part = MOST // 3
    step = (last - 2 * part) // part + 1
    return [*range(1, part + 1), *range(part + 1, last - part, step), *range(last - part, last + 1)]


def libraries():
    """The libraries with tests."""

    def has_tests(crate):
        files = (TOP / "crates" / crate / "src").rglob("*.rt")
        return any("#[test]" in file.read_text() for file in files)

    return [crate for crate in crates() if crate != PROGRAM and has_tests(crate)]


def main():
    compiler = os.environ.get("CC") or shutil.which("cc") or shutil.which("gcc")
    if not compiler:
        CHECKS.skip("C compiler", "no growth was refused")
        return 0
    with tempfile.TemporaryDirectory(prefix="vipr-growths-") as room, ThreadPoolExecutor(
        os.cpu_count()
    ) as pool:
        library = f"{room}/refuse.so"
        subprocess.run(
            [compiler, "-O1", "-shared", "-fPIC", "-o", library, TOP / "tests/refuse.c"], check=True
        )
        for crate in sys.argv[1:] or libraries():
            program = TOP / f"crates/{crate}/out/{crate}_tests"
            if not program.exists():
                CHECKS.fail(f"{crate}: its tests are not built")
                continue
            tests = Tests(program, library, room)
            of_crate = [tests.refuse_each(pool, name) for name in tests.names]
            tried = sum(runs for runs, _ in of_crate)
            bad = [fault for _, faults in of_crate for fault in faults]
            CHECKS.count += tried
            for fault in bad:
                CHECKS.fail(f"{crate} {fault}")
            print(f"{crate}: {tried} runs, {len(bad)} failed")
    return CHECKS.end() or int(not CHECKS.count)


sys.exit(main())
