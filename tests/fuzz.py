#!/usr/bin/env python3
"""Damaged texts for every command: what is printed is what plain models say, and each run ends
verified or refused.

usage: tests/fuzz.py [--models N] [--runs N] [--seed S] [PROGRAM]     1,000 texts, 20,000 runs, seed 1 and
                                                                      crates/vipr/out/vipr without them

First the examples and copies of them with tokens replaced are given to each command, by both
profiles. Standard output, standard error and exit status must be those of the plain models of
bench/, byte for byte.

Then more texts, without a model. They are the examples and short ones of the families of
bench/families.py, with tokens replaced, bytes changed, and parts cut out, doubled or moved. Each is
given to a command, from a file or from standard input, by one of the profiles; `tighten` writes to
standard output, to another file, or to the file that it reads. A run fails if it ends by a signal
or with another status, if standard error has anything but a line of LINES, if both outputs
contradict the status, or if a file isn't what it was and not a whole text that is verified.

Prints each text or run that fails with its number, what the models answered, and last `fuzz: N
texts and M runs, F failed, S seconds of processor time`. The exit status is 1 if one failed. A
number and the seed make its text again.
"""
import argparse
import multiprocessing
import os
import random
import re
import sys
import tempfile
from collections import Counter
from pathlib import Path

from damage import changed, damaged
from texts import examples, program, run, spent, text_of
from plain_check import explained, verdict
from plain_show import shown
from plain_tighten import tightened
import families

# for each command its model: what goes to standard output, what to standard error, and the exit
# status
MODELS = {
    "check": lambda text, profile: of_verdict(verdict(text, profile)),
    "explain": lambda text, profile: of_verdict(explained(text, profile)),
    "show": lambda text, profile: shown(text),
    "tighten": tightened,
}
PROFILES = {"show": [1]}
# for each status what may be on standard error, and how standard output may begin
KEPT, REFUSED = (
    rb"kept \d+ removed \d+ peak \d+ \d+\n",
    rb"refused \d+ at (byte \d+|SOL \d+|DER \d+|end)\n",
)
LINES = {
    ("check", 0): (rb"", rb"verified "),
    ("check", 1): (rb"", rb"refused "),
    ("explain", 0): (rb"", rb"verified "),
    ("explain", 1): (rb"", rb"refused "),
    ("show", 0): (rb"", rb"VER 1\.0\n"),
    ("show", 1): (REFUSED, rb"$"),
    ("tighten", 0): (KEPT, rb"VER 1\.0\n"),
    ("tighten", 1): (REFUSED, rb"$"),
}
BLOCK = 100
# seconds that a run may take, on a machine with other work
LONGEST = 60


def of_verdict(lines):
    """What is printed, on both streams, and the exit status, of the lines of a verdict."""
    return f"{lines}\n".encode(), b"", 0 if lines.startswith("verified") else 1


def against_models(number):
    """Of a text what differs from the models, and how often each command and status came. The first
    texts are the examples."""
    chance = random.Random(f"{GIVEN.seed} model {number}")
    text = WHOLE[number] if number < len(WHOLE) else damaged(chance.choice(SHORT), chance)
    found, counts = [], Counter()
    for command, model in MODELS.items():
        for profile in PROFILES.get(command, [1, 2]):
            words = [command, "--profile", "2"] if profile == 2 else [command]
            wanted = model(text, profile)
            got = run([PROGRAM, *words], text)
            counts[f'{" ".join(words)}: status {wanted[2]}'] += 1
            if got != wanted:
                found.append(
                    f'text {number}: vipr {" ".join(words)}: wanted {wanted!r}, got {got!r}: {text[:2000]!r}'
                )
    return found, counts


def fault(command, words, text, file, out):
    """What is wrong with a run, or nothing."""
    before = out.read_bytes() if out and out.exists() else None
    done = run([PROGRAM, *words], b"" if file else text, timeout=LONGEST)
    if done.returncode is None:
        return f"takes more than {LONGEST} seconds"
    answer = f"status {done.returncode}, {done.stdout[:200]!r}, {done.stderr[:200]!r}"
    if (command, done.returncode) not in LINES:
        return answer
    said, begins = LINES[command, done.returncode]
    if not re.fullmatch(said, done.stderr):
        return answer
    if out and done.returncode == 0:
        again = run([PROGRAM, "check", *words[1:3], out])
        return (
            None
            if again.returncode == 0 and not done.stdout
            else f"{answer}; OUT is {again.stdout[:200]!r}"
        )
    if out and (out.read_bytes() if out.exists() else None) != before:
        return f"{answer}; OUT was changed"
    return None if re.match(begins, done.stdout) else answer


def block(first):
    """The faults of a block of runs."""
    found = []
    for number in range(first, min(first + BLOCK, GIVEN.runs)):
        chance = random.Random(f"{GIVEN.seed} {number}")
        text = chance.choice(TEXTS)
        text = chance.choice([damaged, damaged, changed])(text, chance)
        command = chance.choice(list(MODELS))
        words = [command] if command == "show" else [command, "--profile", chance.choice("12")]
        file = out = None
        if chance.randrange(2):
            file = Path(ROOM, f"{os.getpid()}.vipr")
            file.write_bytes(text)
            words.append(str(file))
        if command == "tighten" and chance.randrange(2):
            out = (
                chance.choice([file, Path(ROOM, f"{os.getpid()}.out")])
                if file
                else Path(ROOM, f"{os.getpid()}.out")
            )
            words += ["--out", str(out)]
        what = fault(command, words, text, file, out)
        if what:
            found.append(f'run {number}: vipr {" ".join(words)}: {what}: {text[:2000]!r}')
    return found


def main():
    failed, counts, texts = 0, Counter(), len(WHOLE) + GIVEN.models
    with multiprocessing.get_context("fork").Pool(os.cpu_count()) as pool:
        modelled = pool.imap_unordered(against_models, range(texts), 10)
        for found, seen in (
            *modelled,
            *((faults, {}) for faults in pool.imap_unordered(block, range(0, GIVEN.runs, BLOCK))),
        ):
            failed += len(found)
            counts.update(seen)
            for fault in found:
                print(fault)
        pool.close()
        pool.join()
    print(", ".join(f"{what} {number}" for what, number in sorted(counts.items())))
    print(
        f"fuzz: {texts} texts and {GIVEN.runs} runs, {failed} failed, {spent():.0f} seconds of processor time"
    )
    return int(failed > 0)


words_of = argparse.ArgumentParser(description=__doc__.split("\n", maxsplit=1)[0])
words_of.add_argument("program", nargs="*")
words_of.add_argument("--models", type=int, default=1_000)
words_of.add_argument("--runs", type=int, default=20_000)
words_of.add_argument("--seed", default="1")
GIVEN = words_of.parse_args()
PROGRAM = program(GIVEN.program)
# the models read numbers of any length
sys.set_int_max_str_digits(0)
WHOLE = [text for _, text in examples(10**9)]
SHORT = [text for text in WHOLE if len(text) < 10_000]
TEXTS = SHORT + [
    text_of(family, 1500) for family in families.FAMILIES + families.HOSTILE + families.PRODUCTS
]
with tempfile.TemporaryDirectory(prefix="vipr-fuzz-") as ROOM:
    STATUS = main()
sys.exit(STATUS)
