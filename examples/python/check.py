#!/usr/bin/env python3
"""Checks certificates by the package of python/, and prints a line for each, which names the claim.

usage: check.py FILE..

The exit status is the largest of the files': 0 verified, 1 refused, 3 no memory; 2 if one can't be
read.
"""
import sys

import vipr


def check(name):
    try:
        with open(name, "rb") as file:
            verdict = vipr.check(file.read())
    except OSError as fault:
        print(f"{name}: {fault.strerror}", file=sys.stderr)
        return 2
    except vipr.OutOfMemory:
        print(f"{name}: no memory")
        return 3
    print(f'{name}: {", ".join(str(verdict).splitlines())}')
    return 0 if verdict else 1


if __name__ == "__main__":
    sys.exit(max(map(check, sys.argv[1:]), default=0))
