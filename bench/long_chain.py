#!/usr/bin/env python3
"""Makes a certificate of many derivations, of which few are held at a time.

usage: long_chain.py [N]      N derivations, at least 2; 2000 without it

Jobs follow one another: job k starts at least duration k hours after job k - 1, the first at hour 0
or later, and the last must start an hour before all the durations before it are over. Each
derivation but the last says when a job can start at the earliest, from the derivation before it.
The last one sets the deadline against that.
"""
import sys
from fractions import Fraction


def lines(derivations):
    links = derivations - 1
    durations = [Fraction(k % 7 + 1, 2) for k in range(links)]
    deadline = sum(durations) - 1
    yield "VER 1.0"
    yield f"VAR {links + 1}"
    for job in range(links + 1):
        yield f"start{job}"
    yield "INT 0"
    yield "OBJ min"
    yield "0"
    yield f"CON {links + 2} 2"
    yield "opening G 0 1 0 1"
    for job in range(1, links + 1):
        yield f"after{job} G {durations[job - 1]} 2 {job - 1} -1 {job} 1"
    yield f"deadline L {deadline} 1 {links} 1"
    yield "RTP infeas"
    yield "SOL 0"
    yield f"DER {derivations}"
    first = links + 2
    earliest = Fraction(0)
    for job in range(1, links + 1):
        earliest += durations[job - 1]
        before = 0 if job == 1 else first + job - 2
        own = first + job - 1
        yield f"earliest{job} G {earliest} 1 {job} 1 {{ lin 2 {before} 1 {job} 1 }} {own + 1}"
    yield f"too_late G 1 0 {{ lin 2 {first + links - 1} 1 {links + 1} -1 }} -1"


def main():
    derivations = int(sys.argv[1]) if len(sys.argv) > 1 else 2000
    if derivations < 2:
        sys.exit(__doc__)
    sys.stdout.writelines(line + "\n" for line in lines(derivations))


if __name__ == "__main__":
    main()
