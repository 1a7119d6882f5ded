#!/usr/bin/env python3
"""Compares the pages and files that tools/write_pages.py makes with those that stand here.

usage: tests/written.py

Also looks whether docs/STATEMENT.md has an example for each definition, and not more lines to
believe than it may, and whether docs/dev/CONTRACTS.md names only clauses that there are.

Prints each fault, and last `written: N checks, F failed`; the exit status is 1 if one failed.
"""
import sys

from texts import TOP, Checks
import contracts
import statement
import write_pages

CHECKS = Checks("written")


def main():
    for path, text in write_pages.made().items():
        is_there = path.is_file() and path.read_text() == text
        CHECKS.check(is_there, f"{path.relative_to(TOP)} isn't current: run `make statement`")
    for fault in [*statement.faults(), *contracts.faults()]:
        CHECKS.check(False, fault)
    return CHECKS.end()


if __name__ == "__main__":
    sys.exit(main())
