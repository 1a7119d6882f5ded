#!/usr/bin/env python3
"""Tries wrong definitions, those under crates/*/wrong_definitions: a law has to refuse each.

usage: tools/wrong_definitions.py [CRATE/EDIT ..]

Without words all are tried. An edit is a file as tools/wrong.py describes it, with its case. But it
changes a definition, and lemmas that hold of the changed one in other words. It also names laws by
their files and functions:

    proved: short::proofs_mean
    refused: short::states_one

Over the changed definition the laws behind `proved` have to be proved, so they don't see that it is
wrong. Those behind `refused` have to be refused. That can also be because a proof no longer fits;
so the case has to show that the law is false then.

Prints what came of each law, and last how many did as the edit says, and how many didn't. The exit
status is 1 if one didn't, if the crate isn't proved, or if there was nothing to try.
"""
import re
import shutil
import sys
import tempfile
from pathlib import Path

import kit
from wrong import MOST, TOP, Judge, has_case, kind_of, name_of, places


def laws(path, word):
    """The laws that an edit names behind a word."""
    return re.findall(rf"^{word}: (\S+)$", path.read_text(), re.M)


def answer_of(judge, texts, law):
    """What the prover says of a law over changed definitions: the word `proved`, `refused` or
    `unclear`, and a line that shows it."""
    status, lines = judge.check(texts, [law])
    is_read = not any(judge.rt.unread(line, texts) for line in lines)
    if (status, lines[-1]) == (0, "only=1 proved=1"):
        return "proved", lines[-1]
    kind, line = kind_of(list(places(lines)))
    if (status, lines[-1]) == (1, "only=1 proved=0") and is_read and kind:
        return "refused", line
    return "unclear", next((line for line in lines if ": error" in line), lines[-1])


def tried(rt, judge, path):
    """For each law of an edit whether it did as the edit says. Prints what came of it."""
    texts, why = rt.read_edit(str(path), judge.crate.folder)
    if why or not has_case(path) or not laws(path, "refused"):
        print(f"{name_of(path)}: {why or 'it has no case, or no law that refuses it'}", flush=True)
        return [False]
    found = []
    for wanted in "proved", "refused":
        for law in laws(path, wanted):
            got, line = answer_of(judge, texts, law)
            verdict = f"{got}, as it has to be" if got == wanted else f"{got}, not {wanted}"
            print(f"{name_of(path)}: {law}: {verdict}: {line[:MOST]}", flush=True)
            found.append(got == wanted)
    return found


def edits(crate, words):
    """The edits of a crate that the words name, all without words."""
    found = sorted(Path(crate.folder, "wrong_definitions").glob("*.edit"))
    return [path for path in found if not words or name_of(path) in words]


def of_crate(rt, crate, paths):
    """What came of the laws of these edits, over what was proved of the crate."""
    with tempfile.TemporaryDirectory(prefix="vipr-definitions-") as room:
        kept, last = Path(room, "kept"), Path(crate.folder, "out/incremental")
        if last.is_dir():
            shutil.copytree(last, kept)
        kept.mkdir(exist_ok=True)
        judge = Judge(rt, crate, kept)
        if not judge.is_proved():
            print(f"{crate.name} is not proved, so nothing was tried")
            return [False]
        return [good for path in paths for good in tried(rt, judge, path)]


def main(words):
    if kit.missing():
        print(kit.missing())
        return 2
    rt = kit.toolchain()
    rt.rtlib.guarded()
    found = []
    for crate in rt.rtlib.crates_below(str(TOP)):
        paths = edits(crate, words)
        found += of_crate(rt, crate, paths) if paths else []
    print(f"{sum(found)} laws as the edits say, {len(found) - sum(found)} not")
    return 0 if found and all(found) else 1


if __name__ == "__main__":
    sys.exit(main(sys.argv[1:]))
