#!/usr/bin/env python3
"""A toolchain that proves nothing, under the name `rt`: what tests/tools.py runs the scripts that
build and test with.

It does as the file PLAN says, a word and what to do a line:
  proves CRATE HOW    `rt lib` or `rt run` of a crate: well, refused, killed, terminated, half (a line that is cut off),
                      nothing (no program is left), or unusable or unusable-refused (until its library is gone, and
                      then it goes well or is refused)
  gate HOW            `rt ci`: well, failed, killed, half, mute (a failure that it doesn't count), or nothing
  help plain          `rt help` names no --anew
  edit NAME HOW       a check with an edit: goal (with values), search, searched, open, type, name, field, limit, killed, proved, unread,
                      elsewhere (beside others the place is in another function), or the name of an edit whose function the
                      edited one calls
What isn't named goes well, and an edit is refused at a goal with values. Each command is written into the file LOG, and each
check which edits it has. As a module it has what tools/wrong.py asks the kit's own `rt` for.
"""
import hashlib
import os
import re
import signal
import subprocess
import sys
from pathlib import Path

VERBS = "usage: rt ci [--anew] | lib | run | doc | version | help"


def plan():
    """What to do at each word of the plan."""
    rows = [line.split() for line in Path(os.environ["PLAN"]).read_text().split("\n") if line]
    return {" ".join(row[:-1]): row[-1] for row in rows}


def log(line):
    with open(os.environ["LOG"], "a", encoding="utf-8") as file:
        print(line, file=file)


def die(how=signal.SIGKILL):
    sys.stdout.flush()
    os.kill(os.getpid(), how)


def leave_program(crate):
    """What `rt` leaves of a program: here a script that verifies anything."""
    program = Path("crates" if Path("crates").is_dir() else "..", crate, "out", crate)
    program.parent.mkdir(parents=True, exist_ok=True)
    program.write_text("#!/bin/sh\necho verified infeas\n")
    program.chmod(0o755)


def prove(verb):
    crate = Path.cwd().name
    how = plan().get(f"proves {crate}", "well")
    if how == "killed":
        die()
    if how == "terminated":
        die(signal.SIGTERM)
    if how.startswith("unusable") and Path("out/rlib").is_dir():
        print("out/rlib/low.rlib:1:1: error: unusable-built-library")
        return 1
    if how.endswith("refused"):
        print(f"src/lib.rt:3:5: error: a goal of {crate} stays open\nlogic=not-proved")
        return 1
    if how == "half":
        print("logic=pro", end="")
        return 3
    if verb == "run" and how != "nothing":
        leave_program(crate)
    print("logic=proved")
    return 0


def gate():
    how = plan().get("gate", "well")
    ends = {
        "well": ("7 passed, 0 failed", 0),
        "failed": ("6 passed, 1 failed", 1),
        "half": ("7 pass", 0),
        "mute": ("7 passed, 0 failed", 1),
        "nothing": ("7 passed, 0 failed", 0),
    }
    if how == "killed":
        die()
    if how != "nothing":
        leave_program("vipr")
    print(ends[how][0])
    return ends[how][1]


def main(words):
    log(f'{" ".join(words)} in {Path.cwd().name}')
    if words[:1] in (["lib"], ["run"]):
        return prove(words[0])
    if words[:1] == ["ci"]:
        return gate()
    usage = VERBS.replace(" [--anew]", "") if plan().get("help") == "plain" else VERBS
    print(
        {"doc": __file__, "version": "rattle-kit-of-the-tests"}.get(
            words[0] if words else "", usage
        )
    )
    return 0


# ---- as a module


def edited(text, folder):
    """The changed files of edits, and nothing; or nothing, and why."""
    texts = {}
    for file, old, new in re.findall(r"^file: (.*)\nold: (.*)\nnew: (.*)$", text, re.M):
        texts.setdefault(file, Path(folder, file).read_text())
        if texts[file].count(old) != 1:
            return None, "its text is not there once"
        texts[file] = texts[file].replace(old, new)
    return texts, None


def read_edit(edit, folder):
    return edited(Path(edit).read_text(), folder)


def unread(line, texts):
    return "cannot be read" in line


# what a check says of an edit at a place, by the word of the plan
SAYS = {
    "goal": "note: src/lib.rt:1:1: it is not proved that this returns (`returns`); "
    "the facts known there allow values at which this goal is false",
    "search": "note: src/lib.rt:1:1: it is not proved that this returns (`returns`); "
    "`search` gave up at one of its limits",
    "searched": "./proofs/one/Answers.antt:2:1: error: `returns`: `search`: no proof of `one ≡ two`",
    "open": "note: src/lib.rt:1:1: it is not proved that this returns (`returns`)",
    "type": "./proofs/one/Answers.antt:2:1: error: `returns`: the two types differ only where one has `0`",
    "name": "proofs/one/Answers.antt:2:1: error: module `one.Goals` has no `gone`",
    "field": "proofs/one/Answers.antt:2:1: error: record `one.Lts.After` (nearest: .other)",
    "unread": "src/lib.rt:1:1: error: this cannot be read",
}


def said_of_several(hows, text):
    """What a check says of edits in the bodies of several functions of src/part.rt."""
    places = {name: text[: text.index(f"// {name}, changed")].count("\n") + 1 for name in hows}
    for name, how in hows.items():
        place = (
            f'note: src/part.rt:{places[name] if how != "elsewhere" else 1}:5: it is not proved that this returns; '
            "the facts known there allow values at which this goal is false"
        )
        calls = f"; it calls `low::part::{how}`, which is not proved" if how in hows else ""
        yield {
            "name": f"proofs/part/{name}/Answers.antt:2:1: error: module `part.{name}.Goals` has no `gone`",
            "proved": "",
            "type": f"./proofs/part/{name}/Answers.antt:2:1: error: `returns`: the two types differ",
            "unread": "src/part.rt:1:1: error: this cannot be read",
        }.get(how, place)
        yield f'fn low::part::{name}: {"proved" if how == "proved" else "not proved"}{calls}'
    yield f"only={len(hows)} pro" + (
        "" if "killed" in hows.values() else f'ved={list(hows.values()).count("proved")}'
    )


def checked(crate, texts, flags, kept):
    """What the check of a crate with changed files answers: the plan knows an edit by what it
    changes."""
    names = re.findall(r"// (\w+), changed", "".join(texts.values()))
    log(f'check of {" ".join(names)} in {crate.name}')
    hows = {name: plan().get(f"edit {name}", "goal") for name in names}
    if len(hows) > 1:
        return subprocess.CompletedProcess(
            [], 1, "\n".join(said_of_several(hows, "".join(texts.values())))
        )
    if not texts:
        status = int(plan().get(f"proves {crate.name}") == "refused")
        return subprocess.CompletedProcess([], status, f'logic={"not-" * status}proved')
    how = "".join(hows.values())
    only = "--only" in flags
    refused = SAYS.get(how, SAYS["goal"]) + ("\nonly=1 proved=0" if only else "\nlogic=not-proved")
    said = {
        "limit": (3, "src/lib.rt:1:1: error: the search ends at its limit of steps\nlogic=unknown"),
        "killed": (-signal.SIGKILL, "only=1 pro" if only else "logic=not-pro"),
        "proved": (0, "only=1 proved=1" if only else "logic=proved"),
    }
    return subprocess.CompletedProcess([], *said.get(how, (1, refused)))


class Crate:
    """A crate, as the kit's module has it."""

    def __init__(self, folder):
        self.folder, self.name, self.is_program = str(folder), folder.name, folder.name == "vipr"
        self.rlib = str(folder / "out/rlib")

    def below(self):
        rows = Path(self.folder, "../../crates.txt").read_text()
        deps = re.search(rf"^{self.name}\b.*:(.*)$", rows, re.M)
        return [
            Crate(Path(self.folder).parent / name) for name in (deps[1].split() if deps else [])
        ]

    def is_built(self):
        return plan().get(f"proves {self.name}") != "refused"

    def build_rlib(self, flags, anew):
        return int(not self.is_built())

    def stamp(self):
        return hashlib.sha256(
            b"".join(path.read_bytes() for path in sorted(Path(self.folder, "src").iterdir()))
        ).hexdigest()

    def count(self, what):
        return 1


class rtlib:
    """What the kit's module of this name has."""

    guarded = staticmethod(lambda: None)
    crates_below = staticmethod(
        lambda top: [Crate(path) for path in sorted(Path(top, "crates").iterdir())]
    )


if __name__ == "__main__":
    sys.exit(main(sys.argv[1:]))
