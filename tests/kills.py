#!/usr/bin/env python3
"""Kills runs of `tighten --out OUT`: at each system call in turn, and at random moments.

usage: tests/kills.py [PROGRAM [MOMENTS]]     crates/vipr/out/vipr and 100 without them

OUT is new, there before, FILE itself, or a link to a file. Whenever the run is killed, OUT is the
old text, the whole new one, or isn't there if it was new, and has the permissions that it had;
nothing else in the folder has changed but a file beside OUT; and the next run that writes into the
folder leaves that. If OUT was there, the file beside it is for its owner alone until it is whole,
and then may have OUT's permissions.

Prints each run after which it isn't so, and last `kills: N runs, F failed`. Without strace, or if
it may not trace, runs are killed at random moments alone, and a line says so. The exit status is 1
if a run failed.
"""
import random
import shutil
import signal
import stat
import subprocess
import sys
import tempfile
import time
from collections import Counter
from pathlib import Path

from texts import TOP, Checks, program, run, traced

SMALL = (TOP / "examples/cutoff_loose.vipr").read_bytes()
KINDS = "new", "there", "FILE", "link"
# those of OUT
PERMISSIONS = 0o640
SIGNALS = signal.SIGKILL, signal.SIGTERM, signal.SIGINT, signal.SIGHUP
CHECKS = Checks("kills", "runs")
found_beside = 0


def many(n):
    """A proof with n derivations that are needed, and one that isn't."""
    return "".join(
        [
            "VER 1.0\nVAR 1\nx\nINT 0\nOBJ min\n0\nCON 2 0\na G 1 1 0 1\nb L 0 1 0 1\nRTP infeas\nSOL 0\n",
            f"DER {n + 2}\nu G 1 1 0 1 {{ lin 1 0 1 }} -1\n",
            *(f"d{k} G 1 1 0 1 {{ lin 1 {k + 2 if k else 0} 1 }} -1\n" for k in range(n)),
            f"f G 1 0 {{ lin 2 {n + 2} 1 1 -1 }} -1\n",
        ]
    ).encode()


class Room:
    """A folder with FILE, OUT, and what a run needs."""

    def __init__(self, kind, text):
        self.kind, self.text = kind, text
        self.folder = Path(tempfile.mkdtemp(dir=WORK))
        self.file = self.folder / "a.vipr"
        self.out = self.file if kind == "FILE" else self.folder / "out"
        self.end = self.folder / "target" if kind == "link" else self.out
        self.file.write_bytes(text)
        if kind in ("there", "link"):
            self.end.write_bytes(b"before")
        if kind == "link":
            self.out.symlink_to("target")
        if kind != "new":
            self.end.chmod(PERMISSIONS)
        self.old, self.names = self.text_of_out(), self.all_names()

    def text_of_out(self):
        return self.end.read_bytes() if self.end.exists() else None

    def all_names(self):
        return {path.name for path in self.folder.iterdir()}

    def beside(self):
        return [path for path in self.folder.iterdir() if path.name.startswith(".vipr-tighten-")]

    def words(self):
        return [PROGRAM, "tighten", self.file, "--out", self.out]

    def faults(self, whole):
        """What isn't as it should be after a run was killed, and after the next one."""
        global found_beside
        beside, now = self.beside(), self.text_of_out()
        found_beside += bool(beside)
        if now not in (self.old, whole):
            yield f'OUT has {len(now or b"")} bytes'
        if self.all_names() - {path.name for path in beside} != self.names | (
            {self.out.name} if now else set()
        ):
            yield f"names {sorted(self.all_names())}"
        if (
            self.kind != "FILE"
            and self.file.read_bytes() != self.text
            or self.out.is_symlink() != (self.kind == "link")
        ):
            yield "FILE or the link has changed"
        if (
            len(beside) > 1
            or self.kind != "new"
            and any(may_be_read(path, whole) for path in beside)
        ):
            yield f"beside OUT {[(path.name, oct(path.stat().st_mode)) for path in beside]}"
        if self.kind != "new" and permissions(self.end) != PERMISSIONS:
            yield "OUT has other permissions"
        done = run([PROGRAM, "tighten", "--out", self.folder / "next"], SMALL)
        if done.returncode or self.beside() != beside or self.text_of_out() != now:
            yield f"the next run: {done.stderr!r}, {sorted(self.all_names())}"
        shutil.rmtree(self.folder)


def permissions(path):
    return stat.S_IMODE(path.stat().st_mode)


def may_be_read(path, whole):
    """Whether others than its owner may read a file beside OUT that isn't whole, or others than
    those who may read OUT."""
    is_private = permissions(path) == 0o600
    return not is_private and (permissions(path) != PERMISSIONS or path.read_bytes() != whole)


def expect(what, room, whole):
    CHECKS.count += 1
    for fault in room.faults(whole):
        CHECKS.fail(f"{what}, OUT {room.kind}: {fault}")


def tight(text):
    return run([PROGRAM, "tighten"], text).stdout


def calls_of(kind):
    """The names of the system calls of a run, those of the loader too; none if they can't be
    seen."""
    return [line.split("(")[0] for line in traced(Room(kind, SMALL).words())[1]]


def at_each_call(whole):
    for kind in KINDS:
        names = calls_of(kind)
        if not names:
            CHECKS.skip("strace that may trace", "runs are killed at random moments alone")
            return
        # the call that begins the program comes before strace may stop it
        met = Counter(names[:1])
        for name in names[1:]:
            met[name] += 1
            room = Room(kind, SMALL)
            traced(room.words(), "-e", f"inject={name}:signal=KILL:when={met[name]}")
            expect(f"killed at {name} {met[name]}", room, whole)


def at_random(moments, text):
    """Half of the moments are while the file beside OUT is there."""
    whole, pick = tight(text), random.Random(1)
    start = time.monotonic()
    room = Room("new", text)
    run(room.words())
    length = time.monotonic() - start
    for n in range(moments):
        room = Room(KINDS[n % len(KINDS)], text)
        with subprocess.Popen(room.words(), stderr=subprocess.DEVNULL) as child:
            if n // len(KINDS) % 2:
                while child.poll() is None and not room.beside():
                    pass
                time.sleep(pick.uniform(0, length / 5))
            else:
                time.sleep(pick.uniform(0, length * 1.2))
            child.send_signal(SIGNALS[n // 2 % len(SIGNALS)])
        expect(f"killed at random ({n})", room, whole)
    if not found_beside:
        print("kills: no run was killed while it wrote")


WORDS = sys.argv[1:]
PROGRAM = program(WORDS[:1])
with tempfile.TemporaryDirectory(prefix="vipr-kills-") as WORK:
    at_each_call(tight(SMALL))
    at_random(int(WORDS[1]) if len(WORDS) > 1 else 100, many(20_000))
sys.exit(CHECKS.end())
