#!/usr/bin/env python3
"""Runs of `tighten --out OUT` while others change the names in OUT's folder, at random moments.

usage: tests/races.py [PROGRAM [ROUNDS]]     crates/vipr/out/vipr and 20 without them

So many rounds of each kind, and in each one act, at a moment after the run has begun to read:
- swap: the name of the new file and that of a stranger's file are exchanged;
- link, file: OUT is exchanged with a link to a stranger's file, or with that file; where OUT is
  new, they come there;
- pair: a second run writes another text to the same OUT; as root also as a user who has to write it
  in place.

If a run answers 0, its text is or was under OUT: it is there at the end, or what came later was put
in its place. No stranger's file is written, and none is gone but one that came between a look of
the run and its next call, as the page on hostile files says. After two runs OUT is the text of one
that answered 0.

Prints each round after which it isn't so, how many rounds met such a moment, by what came of it,
and last `races: N rounds, F failed`. The exit status is 1 if a round failed.
"""
import ctypes
import os
import random
import shutil
import subprocess
import sys
import tempfile
import time
from collections import Counter
from pathlib import Path

from texts import TOP, Checks, is_unread, program, run

ONE, OTHER = (
    (TOP / "examples" / name).read_bytes()
    for name in ("cutoff_loose.vipr", "both_branches_loose.vipr")
)
THEIRS = b"theirs"
KINDS = "new", "there"
CHECKS = Checks("races", "rounds")
PICK = random.Random(1)
MOMENTS = Counter()


def exchange(one, other):
    """Exchanges two names at once, if both are there."""
    flag_exchange, here = 2, -100
    return (
        ctypes.CDLL(None).renameat2(here, os.fsencode(one), here, os.fsencode(other), flag_exchange)
        == 0
    )


class Room:
    """A folder with a certificate, a stranger's file, and OUT."""

    def __init__(self, kind):
        self.folder = Path(tempfile.mkdtemp(dir=WORK))
        self.file, self.out, self.theirs = (
            self.folder / name for name in ("a.vipr", "out", "theirs")
        )
        self.file.write_bytes(ONE)
        self.theirs.write_bytes(THEIRS)
        if kind == "there":
            self.out.write_bytes(b"before")
        self.kind = kind

    def start(self, name="a.vipr", **more):
        return subprocess.Popen(
            [PROGRAM, "tighten", self.folder / name, "--out", self.out],
            stderr=subprocess.DEVNULL,
            **more,
        )

    def start_to_read(self):
        """A run that has found out what OUT is, and reads."""
        child = subprocess.Popen(
            [PROGRAM, "tighten", "--out", self.out],
            stdin=subprocess.PIPE,
            stderr=subprocess.DEVNULL,
        )
        child.stdin.write(ONE[:60])
        child.stdin.flush()
        while is_unread(child.stdin):
            pass
        child.stdin.write(ONE[60:])
        child.stdin.close()
        return child

    def texts(self):
        """The text of each name, links not followed."""
        return {
            path.name: b"link" if path.is_symlink() else path.read_bytes()
            for path in self.folder.iterdir()
        }

    def check(self, what, good):
        short = {text: name for name, text in globals().items() if isinstance(text, bytes)}
        CHECKS.check(
            good,
            f"{what}, OUT {self.kind}: { {name: short.get(text, text) for name, text in self.texts().items()} }",
        )
        shutil.rmtree(self.folder)


def pause(length):
    end = time.monotonic() + PICK.uniform(0, length)
    while time.monotonic() < end:
        pass


def swap(kind):
    """The new file's name becomes that of a stranger's file."""
    room = Room(kind)
    with room.start() as child:
        beside = []
        while child.poll() is None and not beside:
            beside = list(room.folder.glob(".vipr-tighten-*"))
        pause(LENGTH / 2)
        is_swapped = bool(beside) and exchange(beside[0], room.theirs)
    texts = room.texts()
    MOMENTS["the swapped file was removed"] += THEIRS not in texts.values()
    MOMENTS["the swapped file became OUT"] += texts.get("out") == THEIRS
    good = {
        0: texts.get("out") == TIGHT,
        3: texts.get("out") in (THEIRS, b"before" if kind == "there" else None),
    }
    room.check(
        f"swap, status {child.returncode}, swapped {is_swapped}", good.get(child.returncode, False)
    )


def come(kind, is_link):
    """A link or a file comes to OUT's name."""
    room = Room(kind)
    coming = room.folder / "coming"
    if is_link:
        coming.symlink_to("theirs")
    else:
        coming.write_bytes(b"coming")
    with room.start_to_read() as child:
        pause(LENGTH / 2)
        try:
            if not exchange(coming, room.out):
                os.link(coming, room.out, follow_symlinks=False)
        except FileExistsError:
            exchange(coming, room.out)
    texts = room.texts()
    came = b"link" if is_link else b"coming"
    is_gone = came not in texts.values()
    MOMENTS["what came was replaced"] += is_gone
    good = {0: TIGHT in (texts["out"], texts.get("coming")), 3: texts["out"] == came}
    room.check(
        f"{came.decode()}, status {child.returncode}",
        good.get(child.returncode, False)
        and texts["theirs"] == THEIRS
        and not (is_gone and kind == "new")
        and not any(name.startswith(".") for name in texts),
    )


def pair(kind, user=None):
    """Two runs write to one OUT."""
    room = Room(kind)
    (room.folder / "b.vipr").write_bytes(OTHER)
    if user:
        room.out.chmod(0o666)
        room.folder.chmod(0o755)
    with room.start(user=user) as first:
        pause(LENGTH / 2)
        with room.start("b.vipr", user=user) as second:
            pass
    texts = room.texts()
    ended = {TIGHT: first.returncode, TIGHT_OTHER: second.returncode}
    room.check(
        f"pair, statuses {first.returncode} {second.returncode}",
        ended.get(texts.get("out")) == 0
        and set(ended.values()) <= {0, 3}
        and set(texts) == {"a.vipr", "b.vipr", "theirs", "out"},
    )


def length_of_a_run():
    start = time.monotonic()
    for _ in range(20):
        room = Room("there")
        with room.start():
            pass
        shutil.rmtree(room.folder)
    return (time.monotonic() - start) / 20


WORDS = sys.argv[1:]
PROGRAM = program(WORDS[:1])
TIGHT, TIGHT_OTHER = (run([PROGRAM, "tighten"], text).stdout for text in (ONE, OTHER))
with tempfile.TemporaryDirectory(prefix="vipr-races-") as WORK:
    os.chmod(WORK, 0o755)
    LENGTH = length_of_a_run()
    for _ in range(int(WORDS[1]) if len(WORDS) > 1 else 20):
        for out in KINDS:
            swap(out)
            come(out, True)
            come(out, False)
            pair(out)
        if os.getuid() == 0:
            pair("there", 1234)
if os.getuid():
    print("races: the user can be no other one, so no pair of runs writes in place")
for what, count in MOMENTS.items():
    print(f"races: {what} between a look and the next call: {count}")
sys.exit(CHECKS.end())
