#!/usr/bin/env python3
"""Whether OUT.v, which rocq/theorem.py wrote, is a theorem about the bytes of FILE.

usage: rocq/same_bytes.py OUT.v FILE

It reads the bytes back from OUT.v by code of its own, and looks that nothing else is there but the
fixed lines of theorem.py. Prints one line. The exit status is 0 if so, and 1 if not.
"""
import re
import sys
from pathlib import Path

from theorem import CLAIM, HEAD, PROFILES

PIECE = re.compile(r'(?:(line|part) "((?:[ !#-~]|"")*)"|byte_number ([0-9]+))(?:;|\]\.)')
START = re.compile(r"Definition block_([0-9]+) : text := concat \[")


def read_back(rows):
    """The bytes of the pieces, the numbers of the blocks, and each other row."""
    found, blocks, others = bytearray(), [], []
    for row in rows:
        piece, start = PIECE.fullmatch(row), START.fullmatch(row)
        if piece:
            word, printed, code = piece.groups()
            found += bytes([int(code)]) if code else printed.replace('""', '"').encode()
            found += b"\n" * (word == "line")
        elif start:
            blocks.append(int(start[1]))
        elif row:
            others.append(row)
    return bytes(found), blocks, others


def is_about(written, text):
    """Whether a file of theorem.py is about this text."""
    found, blocks, others = read_back(written.split("\n"))
    names = ";\n".join(f"block_{number}" for number in range(len(blocks)))
    fixed = [
        (HEAD + CLAIM.format(blocks=names, profile=profile)).split("\n")
        for profile in PROFILES.values()
    ]
    return (
        found == text
        and blocks == list(range(len(blocks)))
        and others in [[row for row in rows if row] for rows in fixed]
    )


def main():
    """Compares the two files that the command line names."""
    out, file = sys.argv[1:]
    text = Path(file).read_bytes()
    if is_about(Path(out).read_bytes().decode("latin-1"), text):
        print(f"{out!r} has the {len(text)} bytes of {file!r}")
        return 0
    print(f"{out!r} does not have the bytes of {file!r}, or has more")
    return 1


if __name__ == "__main__":
    sys.exit(main())
