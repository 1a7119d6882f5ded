#!/usr/bin/env python3
"""Gives a checker that prints words of its own the exit statuses that run.py asks for.

usage: adapter.py VERIFIED REFUSED COMMAND ..

The status is 0 if a line that COMMAND prints has the regular expression VERIFIED, else 1 if one has
REFUSED, and else 2, so that `run.py --refused 1` takes a checker that breaks off for one that
crashed.
"""
import re
import subprocess
import sys

verified, refused, *command = sys.argv[1:]
done = subprocess.run(command, stdout=subprocess.PIPE, stderr=subprocess.STDOUT, check=False)
said = done.stdout.decode(errors="replace")
if re.search(verified, said, re.M):
    sys.exit(0)
sys.exit(1 if re.search(refused, said, re.M) else 2)
