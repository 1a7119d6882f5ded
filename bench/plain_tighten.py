#!/usr/bin/env python3
"""A plain model of `vipr tighten`: it takes out of a proof what its goal doesn't need.

usage: plain_tighten.py [--profile 1|2] [FILE ..]

Prints for each file (standard input without one) what `vipr tighten` is to write, and on standard
error its line of counts, or the refusal. The text is read and checked by plain_check.py, and
written by plain_show.py. It shares no code with the program and proves nothing.

A derivation refers to the constraints that its reason names, but for entries with multiplier 0.
Needed are the goal, where it is derived, and the derived constraints that a needed one refers to.
They keep their order, and get new numbers without gaps. Entries with multiplier 0 are taken out. A
last reference is the largest number that refers, and -1 for the goal.
"""
import sys

from plain_check import Checker, Refused
from plain_show import shown


class Derivation:
    """A derivation, from the words of its line in the canonical text."""

    def __init__(self, line):
        words = line.split(b" ")
        front = 4 + 2 * int(words[3])
        self.stated, self.rule = words[:front], words[front + 1]
        parts = words[front + 2 : -2]
        self.entries, self.indices = [], []
        if self.rule in (b"lin", b"rnd"):
            pairs = zip(parts[1::2], parts[2::2])
            self.entries = [(int(index), number) for index, number in pairs if number != b"0"]
        elif self.rule == b"uns":
            self.indices = [int(index) for index in parts]

    def references(self):
        return [index for index, _ in self.entries] + self.indices

    def line(self, number, last):
        """Its line where the constraint i has the new number number(i)."""
        reason = [self.rule]
        if self.rule in (b"lin", b"rnd"):
            reason.append(b"%d" % len(self.entries))
            for index, multiplier in self.entries:
                reason += [b"%d" % number(index), multiplier]
        reason += [b"%d" % number(index) for index in self.indices]
        return b" ".join([*self.stated, b"{", *reason, b"}", b"%d" % last])


def needed(goal, rows, derivations):
    """The derived constraints that the goal needs, by their numbers in rising order."""
    found, waiting = set(), [] if goal is None else [goal]
    while waiting:
        index = waiting.pop()
        if index >= rows and index not in found:
            found.add(index)
            waiting += derivations[index - rows].references()
    return sorted(found)


def tightened(text, profile=1):
    """What goes to the output, what goes to standard error, and the exit status."""
    checker = Checker(text, profile)
    try:
        checker.run()
    except Refused as fault:
        return b"", "refused {} at {}\n".format(*fault.args).encode(), 1
    lines = shown(text)[0].split(b"\n")[:-1]
    heading = len(lines) - checker.derived - 1
    derivations = [Derivation(line) for line in lines[heading + 1 :]]
    rows = checker.rows
    kept = needed(checker.goal_index, rows, derivations)
    numbers = {index: rows + place for place, index in enumerate(kept)}

    def number(index):
        return numbers.get(index, index)

    last = {}
    for index in kept:
        for other in derivations[index - rows].references():
            last[other] = number(index)
    written = [derivations[index - rows].line(number, last.get(index, -1)) for index in kept]
    output = b"".join(line + b"\n" for line in lines[:heading] + [b"DER %d" % len(kept)] + written)
    again = Checker(output, profile)
    again.run()
    removed = checker.derived - len(kept)
    counts = f"kept {len(kept)} removed {removed} peak {checker.peak} {again.peak}\n"
    return output, counts.encode(), 0


def main():
    sys.set_int_max_str_digits(0)
    status, profile, paths = 0, 1, sys.argv[1:]
    if paths[:2] in (["--profile", "1"], ["--profile", "2"]):
        paths, profile = paths[2:], int(paths[1])
    for path in paths or [None]:
        if path is None:
            text = sys.stdin.buffer.read()
        else:
            with open(path, "rb") as file:
                text = file.read()
        output, errors, one = tightened(text, profile)
        sys.stdout.buffer.write(output)
        sys.stderr.buffer.write(errors)
        status = max(status, one)
    sys.exit(status)


if __name__ == "__main__":
    main()
