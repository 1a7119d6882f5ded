#!/usr/bin/env python3
"""Writes a certificate that no tour of burma14, a problem of TSPLIB with 14 cities, is shorter than
3323.

usage: burma14.py

A variable for each pair of cities says whether the tour goes from one to the other. Each city has
two neighbours, and a tour crosses the border of each of three sets of cities at least twice. These
are some of the constraints of a tour, and enough: one sum of them with the multipliers below, dual
values of the linear relaxation, is the bound. The tour that attains it is listed. Only the
multipliers of the bounds x >= 0 are worked out here, from what is missing to the objective.
"""
from fractions import Fraction
from itertools import combinations
from math import acos, cos

# latitude and longitude, degrees and minutes as TSPLIB writes them
CITIES = [
    (16.47, 96.10),
    (16.47, 94.44),
    (20.09, 92.54),
    (22.39, 93.37),
    (25.23, 97.24),
    (22.00, 96.05),
    (20.47, 97.02),
    (17.20, 96.29),
    (16.30, 97.38),
    (14.05, 98.12),
    (16.53, 97.38),
    (21.52, 95.59),
    (19.41, 97.13),
    (20.09, 94.55),
]
TOUR = [1, 10, 9, 11, 8, 13, 7, 12, 6, 5, 4, 3, 14, 2]
LENGTH = 3323
# the multiplier of each city's equation, in quarters
CITY_QUARTERS = [92, 520, 447, 490, 1538, 62, 299, 182, 59, 1159, 113, 134, 457, 531]
SET_QUARTERS = {(9, 10, 11): 237, (4, 5, 6, 12): 219, (1, 2, 8, 9, 10, 11): 453}
# of the bounds x <= 1, in halves
PAIR_HALVES = {(3, 14): 67, (4, 5): 32, (6, 12): 60, (7, 13): 130, (9, 10): 57}


def distance(one, other):
    """TSPLIB's distance of two places on the earth, in kilometres."""
    (a, b), (c, d) = [
        [3.141592 * (int(v) + 5 * (v - int(v)) / 3) / 180 for v in place] for place in (one, other)
    ]
    return int(
        6378.388 * acos(((1 + cos(b - d)) * cos(a - c) - (1 - cos(b - d)) * cos(a + c)) / 2) + 1
    )


PAIRS = list(combinations(range(1, len(CITIES) + 1), 2))
LENGTHS = [distance(CITIES[i - 1], CITIES[j - 1]) for i, j in PAIRS]


def vector(indices, values=None):
    indices = list(indices)
    pairs = [f"{index} {values[index] if values else 1}" for index in indices]
    return " ".join([str(len(indices)), *pairs])


def constraints():
    """Each constraint: its name, sense, right-hand side and variables, and its multiplier, None for
    x >= 0."""
    for city, quarters in enumerate(CITY_QUARTERS, 1):
        yield f"city{city}", "E", 2, [k for k, pair in enumerate(PAIRS) if city in pair], Fraction(
            quarters, 4
        )
    for number, (cities, quarters) in enumerate(SET_QUARTERS.items(), 1):
        across = [k for k, (i, j) in enumerate(PAIRS) if (i in cities) != (j in cities)]
        yield f"set{number}", "G", 2, across, Fraction(quarters, 4)
    for k, (i, j) in enumerate(PAIRS):
        yield f"most{i}_{j}", "L", 1, [k], -Fraction(PAIR_HALVES.get((i, j), 0), 2)
    for k, (i, j) in enumerate(PAIRS):
        yield f"least{i}_{j}", "G", 0, [k], None


def entries(rows):
    """The sum that is the objective: index and multiplier of each constraint that it has."""
    missing = [Fraction(length) for length in LENGTHS]
    for index, (_, _, _, variables, multiplier) in enumerate(rows):
        if multiplier is None:
            multiplier = missing[variables[0]]
        for variable in variables:
            missing[variable] -= multiplier
        if multiplier:
            yield index, multiplier


def main():
    rows = list(constraints())
    steps = {tuple(sorted(step)) for step in zip(TOUR, TOUR[1:] + TOUR[:1])}
    print("% burma14 of TSPLIB: is there a tour of 14 cities that is shorter than 3323?")
    print(
        "VER 1.0",
        f"VAR {len(PAIRS)}",
        *(f"x{i}_{j}" for i, j in PAIRS),
        f"INT {len(PAIRS)}",
        sep="\n",
    )
    print(*range(len(PAIRS)))
    print(
        "OBJ min", vector(range(len(PAIRS)), LENGTHS), f"CON {len(rows)} {2 * len(PAIRS)}", sep="\n"
    )
    for name, sense, bound, variables, _ in rows:
        print(name, sense, bound, vector(variables))
    print(
        f"RTP range {LENGTH} {LENGTH}",
        "SOL 1",
        f"tour {vector(k for k, pair in enumerate(PAIRS) if pair in steps)}",
        sep="\n",
    )
    reason = [f"{index} {multiplier}" for index, multiplier in entries(rows)]
    print("DER 1", f'bound G {LENGTH} OBJ {{ lin {len(reason)} {" ".join(reason)} }} -1', sep="\n")


main()
