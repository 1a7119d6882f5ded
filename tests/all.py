#!/usr/bin/env python3
"""The test command: proves everything, and then tries the repository's text and the built program.

usage: tests/all.py [--anew]

`make test` runs tests/tools.py before, which tries the scripts that build and test, this one too:
if it fails, this one isn't run. First `rt ci`: every proof, the tests and the must-fail edits;
--anew is handed on to a kit that knows it.
Then the scripts: FIRST leave files in the repository, which THEN read; those run side by side, one
for each processor. Prints what each prints, the SHA-256 of the program and of the libraries, what
failed, and last `N passed, M failed`; `, K skipped` if scripts say K times that they left something
out for want of a tool. The exit status is 1 if anything failed.
"""
import os
import re
import subprocess
import sys
import time
from concurrent.futures import ThreadPoolExecutor

from texts import SKIPPED, TOP
import kit

RT = os.environ.get("RT", "rt")
FIRST = "library second".split()
# the longest first
THEN = (
    "theorems sharpness python long hostile costs pages large fuzz conformance output archive solver growths"
    " calls answers wrong_versions conformance_run kills interface house writer written released races"
    " browser language"
).split()
BUILT = ["crates/vipr/out/vipr", "crates/vipr_c/out/libvipr.a", "crates/vipr_c/out/libvipr.so.*"]


def run_ci(words):
    """Runs `rt ci`, and gives how many passed and how many failed."""
    words = [RT, "ci", *words]
    with subprocess.Popen(
        words, cwd=TOP, stdout=subprocess.PIPE, text=True, errors="replace"
    ) as child:
        last = ""
        for line in child.stdout:
            print(line, end="", flush=True)
            last = line.strip() or last
    counted = re.fullmatch(r"(\d+) passed, (\d+) failed", last)
    passed, failed = map(int, counted.groups()) if counted else (0, 1)
    if not failed and (child.returncode or not (TOP / BUILT[0]).is_file()):
        print(f"{RT} ci ended with status {child.returncode}, or left no program")
        failed = 1
    kit.mark(not failed)
    return passed, failed


def run_script(name):
    """Runs a script of tests/, prints what it printed, and gives its name, its status, and how
    often it left something out."""
    start = time.monotonic()
    words = [sys.executable, f"tests/{name}.py"]
    done = subprocess.run(words, cwd=TOP, stdout=subprocess.PIPE, stderr=subprocess.STDOUT)
    said = done.stdout.decode(errors="replace")
    print(f"{said}tests/{name}.py: {(time.monotonic() - start) / 60:.1f} minutes", flush=True)
    return name, done.returncode, sum(map(bool, map(SKIPPED.match, said.split("\n"))))


def main():
    if kit.missing():
        print(f"{kit.missing()}\n0 passed, 1 failed")
        return 1
    known = subprocess.run([RT, "help"], capture_output=True, text=True, check=False).stdout
    passed, failed = run_ci([word for word in sys.argv[1:] if word in known])
    with ThreadPoolExecutor(os.cpu_count()) as pool:
        ran = [*pool.map(run_script, FIRST), *pool.map(run_script, THEN)]
    bad = [name for name, status, _ in ran if status]
    skipped = sum(times for _, _, times in ran)
    for file in [path for pattern in BUILT for path in TOP.glob(pattern)]:
        print(f"sha256 {kit.sum_of(file)} {file.name}")
    if bad:
        print(f"FAILED: {' '.join(bad)}")
    passed, failed = passed + len(ran) - len(bad), failed + len(bad)
    print(f"{passed} passed, {failed} failed" + (f", {skipped} skipped" if skipped else ""))
    return 1 if failed else 0


if __name__ == "__main__":
    try:
        sys.exit(main())
    except KeyboardInterrupt:
        sys.exit("stopped")
