"""Writes a large model of random entries twice, as an MPS file and as the problem of a certificate:
for vipr-compare-mps.

usage: models.py MODEL.mps CERT COLUMNS ROWS EACH     EACH is how many entries a column has
"""
import random
import sys
from pathlib import Path


def write(model, certificate, columns, rows, each):
    """Writes both files: minimize a sum of the columns, which are at least 0, and so is each
    row."""
    dice = random.Random(4)
    entries = [[] for _ in range(rows)]
    with open(model, "w", encoding="ascii") as file:
        print("NAME", "ROWS", " N obj", sep="\n", file=file)
        print(*(f" G row{i}" for i in range(rows)), "COLUMNS", sep="\n", file=file)
        for j in range(columns):
            print(f" column{j} obj {j + 1}", file=file)
            for i in sorted(dice.sample(range(rows), each)):
                value = dice.choice([1, -1, 2, 17, dice.randrange(1, 10**6)])
                print(f" column{j} row{i} {value}", file=file)
                entries[i].append(f"{j} {value}")
        print("ENDATA", file=file)
    with open(certificate, "w", encoding="ascii") as file:
        print("VER 1.0", f"VAR {columns}", sep="\n", file=file)
        print(*(f"column{j}" for j in range(columns)), sep="\n", file=file)
        print("INT 0", "OBJ min", columns, sep="\n", file=file)
        print(
            *(f"{j} {j + 1}" for j in range(columns)),
            f"CON {columns + rows} 0",
            sep="\n",
            file=file,
        )
        print(*(f"b G 0 1 {j} 1" for j in range(columns)), sep="\n", file=file)
        print(*(f"r G 0 {len(row)} {' '.join(row)}" for row in entries), sep="\n", file=file)
        print("RTP range -inf inf", "SOL 0", "DER 0", sep="\n", file=file)


def main():
    if len(sys.argv) != 6:
        print(__doc__.rstrip())
        return 2
    write(*map(Path, sys.argv[1:3]), *map(int, sys.argv[3:]))
    return 0


if __name__ == "__main__":
    sys.exit(main())
