#!/usr/bin/env python3
"""Proves and builds the program, crate by crate, and says how far it is.

usage: tools/build.py

A crate begins once those below it are built. If several can begin, the first is the one with the
longest chain of crates above it, by their sources: a proof takes about as long as the source is.
It gets the processors that the others don't need, which get one each, and two if two are free. Each
process has to have 3 GB of free memory. What was proved before isn't proved again.
The program is crates/vipr/out/vipr afterwards, with its SHA-256 in vipr.sha256 beside it. RT names
the command of the toolchain, `rt` without it. If a crate isn't proved or can't be built, its output
is printed, the exit status is 1, and there is no vipr.sha256.
"""
import os
import re
import shutil
import subprocess
import sys
import threading
import time
from concurrent.futures import FIRST_COMPLETED, ThreadPoolExecutor, wait
from pathlib import Path

import kit

TOP = Path(__file__).resolve().parent.parent

RT = os.environ.get("RT", "rt")
PROGRAM = "vipr"
# a crate that takes no longer than this is built without a word
QUIET_SECONDS = 3
# what has to be free, in kB, for one more process
FREE = 3_000_000
# by how many processes the toolchain proves one crate at most
MOST_PROCESSES = 4
# how this script calls itself for one command of the toolchain, under its own lock
UNLOCKED = "--unlocked"
# a library's first build: it keeps no work, and the library has its statements without their proofs
STATEMENTS = "--statements"
# what the toolchain says if libraries of several builds meet
UNUSABLE = "unusable-built-library"


def crates_of_program():
    """The program's crates, each with those of them that it uses."""
    uses = {}
    for line in (TOP / "crates.txt").read_text().split("\n"):
        head, _, tail = line.split("#")[0].partition(":")
        if head.strip():
            uses[head.split()[0]] = tail.split()
    below = {}

    def visit(crate):
        if crate in uses and crate not in below:
            below[crate] = {used for used in uses[crate] if used in uses}
            for used in below[crate]:
                visit(used)

    visit(PROGRAM)
    return below


def chains(below):
    """Of each crate how many bytes of source the longest chain from it up to the program has."""
    length = {}

    def measure(crate):
        if crate not in length:
            sources = (TOP / "crates" / crate / "src").rglob("*.rt")
            own = sum(path.stat().st_size for path in sources)
            above = [other for other in below if crate in below[other]]
            length[crate] = own + max(map(measure, above), default=0)
        return length[crate]

    for crate in below:
        measure(crate)
    return length


def free_processes(running):
    """How many processes there is room for beside so many that run."""
    free = re.search(r"^MemAvailable:\s+(\d+)", Path("/proc/meminfo").read_text(), re.M)
    memory = int(free[1]) if free else 0
    return min(len(os.sched_getaffinity(0)) - running, memory // FREE)


def locked():
    """Keeps other commands of the toolchain out of the crates, as each does for itself; None if
    that can't be done."""
    try:
        rtlib = kit.toolchain().rtlib
        return rtlib.lock(rtlib.crates_below(str(TOP)))
    except (Exception, SystemExit):
        return None


def unlocked(words):
    """Runs one command of the toolchain without a lock of its own."""
    rt = kit.toolchain()
    rt.rtlib.lock = lambda crates: []
    if words[0] == STATEMENTS:
        words_of = rt.rtlib.Crate.words
        rt.rtlib.Crate.words = lambda *crate, **how: [*words_of(*crate, **how), STATEMENTS]
        rt.rtlib.libraries_keep = lambda: False
        words = words[1:]
    return rt.main(words)


def first_builds():
    """The libraries of which no earlier build or check left anything; none if the kit can't build
    them by their statements."""
    rt = kit.toolchain()
    if STATEMENTS not in rt.rtlib.help_of("build"):
        return set()
    # (some kits also keep work outside of the repository)
    is_kept = getattr(rt, "work_for", lambda crate: Path(crate.folder, "out/incremental").exists())
    libraries = [crate for crate in rt.rtlib.crates_below(str(TOP)) if not crate.is_program]
    return {
        crate.name for crate in libraries if not Path(crate.rlib).exists() and not is_kept(crate)
    }


def say(line):
    print(f"{line}\n", end="", flush=True)


class Build:
    """A build of all crates of the program."""

    def __init__(self, below, locks):
        self.below, self.locks = below, locks
        self.first = first_builds() if locks else set()
        self.started, self.to_come = 0, len(below)
        self.seconds, self.spoke, self.is_unusable = 0.0, False, False

    @staticmethod
    def processes(free, others):
        """How many of the free processors the first of several crates gets."""
        return min(max(1, min(free, 2), free - others), MOST_PROCESSES)

    def command(self, crate, processes):
        """The command that builds a crate by so many processes."""
        if not self.locks:
            return [RT, "run", "--", "--help"] if crate == PROGRAM else [RT, "lib"]
        form = [STATEMENTS] if crate in self.first else []
        jobs = ["--jobs", str(processes)]
        verb = ["run", *jobs, "--", "--help"] if crate == PROGRAM else ["lib", *jobs]
        return [sys.executable, __file__, UNLOCKED, *form, *verb]

    def build(self, crate, number, processes):
        """Builds one crate, and gives whether that went well."""
        label = f"[{number} of {len(self.below)}] {crate}"
        clock = threading.Timer(QUIET_SECONDS, lambda: say(f"{label} .."))
        clock.start()
        start = time.monotonic()
        with subprocess.Popen(
            self.command(crate, processes),
            cwd=TOP / "crates" / crate,
            stdout=subprocess.PIPE,
            stderr=subprocess.STDOUT,
            text=True,
            errors="replace",
            pass_fds=self.locks or (),
        ) as child:
            out = child.stdout.read()
            _, status, usage = os.wait4(child.pid, 0)
            child.returncode = os.waitstatus_to_exitcode(status)
        clock.cancel()
        took, spent = time.monotonic() - start, usage.ru_utime + usage.ru_stime
        self.seconds += spent
        if child.returncode:
            self.is_unusable = self.is_unusable or UNUSABLE in out
            say(f"{out}{crate} is not built")
            return False
        self.to_come -= 1
        if took >= QUIET_SECONDS:
            self.spoke = True
            say(f"{label} {took:.0f} s, {spent:.0f} s of processor time, {self.to_come} to come")
        return True

    def all(self):
        """Builds all crates, and gives whether that went well. After a crate that isn't built no
        other begins."""
        chain, waiting, built, running, well = chains(self.below), set(self.below), set(), {}, True
        with ThreadPoolExecutor(len(self.below)) as pool:
            while True:
                ready = [crate for crate in waiting if self.below[crate] <= built]
                ready.sort(key=chain.get, reverse=True)
                used = sum(processes for _, processes in running.values())
                free = free_processes(used) if self.locks else 0
                while well and ready and (free > 0 or not running):
                    crate = ready.pop(0)
                    waiting.remove(crate)
                    processes = self.processes(free, len(ready))
                    self.started += 1
                    task = pool.submit(self.build, crate, self.started, processes)
                    running[task] = crate, processes
                    free -= processes
                if not running:
                    return well
                for task in wait(running, return_when=FIRST_COMPLETED).done:
                    well = task.result() and well
                    built.add(running.pop(task)[0])


def built():
    """Builds the program, and gives the last build and whether it went well. If libraries of
    several builds meet, all are built once more."""
    below, locks = crates_of_program(), locked()
    if not (TOP / "crates" / PROGRAM / "out" / PROGRAM).is_file():
        say(
            f"Every function of {len(below)} crates is proved before the program is built. That is"
            " done once, and takes\n4 GB of memory or more; docs/PROOF.md says how long it took."
        )
    build = Build(below, locks)
    well = build.all()
    if build.is_unusable:
        say("libraries of several builds meet here, so all are built once more")
        for folder in TOP.glob("crates/*/out/rlib"):
            shutil.rmtree(folder)
        build = Build(below, locks)
        well = build.all()
    return build, well


def main():
    if kit.missing():
        print(kit.missing())
        return 1
    start = time.monotonic()
    try:
        build, well = built()
    except KeyboardInterrupt:
        say("stopped: what is proved stays so, and make build goes on from there")
        return 130
    is_marked = kit.mark(well)
    if well and not is_marked:
        say(f"{PROGRAM} is not built: {RT} left no program")
    if not is_marked:
        return 1
    if build.spoke:
        minutes = (time.monotonic() - start) / 60
        say(f"built: {minutes:.1f} minutes, {build.seconds / 60:.1f} of processor time")
    return 0


if __name__ == "__main__":
    sys.exit(unlocked(sys.argv[2:]) if sys.argv[1:2] == [UNLOCKED] else main())
