#!/usr/bin/env python3
"""Lets vipr.Writer write the proofs of random problems, which the program has to verify.

usage: tests/writer.py [PROGRAM]

500 knapsacks are solved by examples/python/knapsack.py, and 500 set covers by a branch and bound of
this script. Each certificate is verified with the optimum that an enumeration finds, and names no
last reference that a second look at the derivations doesn't find. Names, numbers and constraints
that aren't there are refused, and then nothing is written. If the library for C is built here, it
checks each derivation of some of them, and a wrong one.

Prints each fault, and last `writer: N checks, F failed`; the exit status is 1 if one failed.
"""
import io
import itertools
import os
import pickle
import random
import sys
import tempfile
from decimal import Decimal
from fractions import Fraction
from pathlib import Path

from texts import TOP, Checks, program, run

sys.path[:0] = [str(TOP / "python"), str(TOP / "examples/python")]
import knapsack  # noqa: E402
import vipr  # noqa: E402

CHECKS = Checks("writer")
check = CHECKS.check
EACH = 500


def cover(file, costs, sets, count, **options):
    """Writes the certificate of a set cover: min costs * x, each of the elements in a chosen set, x
    in {0, 1}."""
    names = [f"set{j}" for j in range(len(costs))]
    best = {"value": sum(costs), "x": [1] * len(costs)}
    with vipr.Writer(file, dict(zip(names, costs)), integers=names, **options) as proof:
        covered = [
            proof.constraint(
                "G", 1, {names[j]: 1 for j, members in enumerate(sets) if element in members}
            )
            for element in range(count)
        ]
        bounds = [
            [proof.constraint("G", 0, {name: 1}), proof.constraint("L", 1, {name: 1})]
            for name in names
        ]

        def node(low, high, bounds):
            open_ = [
                e
                for e in range(count)
                if not any(low[j] for j, members in enumerate(sets) if e in members)
            ]
            lost = next(
                (
                    e
                    for e in open_
                    if not any(high[j] for j, members in enumerate(sets) if e in members)
                ),
                None,
            )
            if lost is not None:  # 0 >= 1
                return proof.lin(
                    "G",
                    1,
                    {},
                    [
                        (covered[lost], 1),
                        *((bounds[j][1], -1) for j, members in enumerate(sets) if lost in members),
                    ],
                )
            if not open_ and sum(c * v for c, v in zip(costs, low)) < best["value"]:
                best.update(value=sum(c * v for c, v in zip(costs, low)), x=low)
            share = 2 if len(open_) > 2 else 1
            prices, rest = {}, [Fraction(cost, share) for cost in costs]
            for element in open_:  # a feasible solution of the LP's dual
                prices[element] = min(
                    rest[j] for j, members in enumerate(sets) if element in members and high[j]
                )
                for j, members in enumerate(sets):
                    rest[j] -= prices[element] * (element in members)
            reduced = [
                cost - sum(price for e, price in prices.items() if e in members)
                for cost, members in zip(costs, sets)
            ]
            bound = sum(prices.values()) + sum(
                r * (low[j] if r > 0 else high[j]) for j, r in enumerate(reduced)
            )
            if bound > best["value"] - 1:
                used = [(covered[e], price) for e, price in prices.items()]
                return proof.rnd(
                    "G",
                    best["value"],
                    vipr.OBJECTIVE,
                    [*used, *((bounds[j][r < 0], r) for j, r in enumerate(reduced))],
                )
            split = next(j for j in range(len(costs)) if low[j] < high[j])
            branches = []
            for side, sense in ((1, "L"), (0, "G")):
                at = proof.asm(sense, 1 - side, {names[split]: 1})
                parts = [[*low], [*high], [[*pair] for pair in bounds]]
                parts[side][split], parts[2][split][side] = 1 - side, at
                branches += [node(*parts), at]
            return proof.uns("G", best["value"], vipr.OBJECTIVE, *branches)

        node([0] * len(costs), [1] * len(costs), bounds)
        proof.solution(dict(zip(names, best["x"])))
        proof.claim(best["value"], best["value"])


def has_last_references(text):
    """Whether the last reference of each derivation is the last one that names it."""
    certificate = vipr.read(text)
    first = len(certificate.problem.constraints)
    last = {
        index: first + at
        for at, derivation in enumerate(certificate.derivations)
        for index in derivation.named()
    }
    return all(
        derivation.last == last.get(first + at)
        for at, derivation in enumerate(certificate.derivations)
    )


def verified(vipr_program, what, text, optimum):
    ran = run([vipr_program, "check"], text)
    check(
        ran.stdout.split(b"\n")[0] == f"verified range {optimum} {optimum}".encode(),
        f"{what}: {ran}",
    )
    check(has_last_references(text), f"{what}: a last reference is another one")


def points(count):
    return itertools.product((0, 1), repeat=count)


def dot(numbers, values):
    return sum(n * v for n, v in zip(numbers, values))


def random_knapsack(rng):
    count = rng.randint(1, 8)
    profits = [rng.randint(1, 40) for _ in range(count)]
    weights = [rng.randint(1, 30) for _ in range(count)]
    room = rng.randint(0, sum(weights))
    optimum = max(dot(profits, x) for x in points(count) if dot(weights, x) <= room)
    return (profits, weights, room), optimum


def random_cover(rng):
    count, elements = rng.randint(1, 7), rng.randint(1, 6)
    sets = [set(rng.sample(range(elements), rng.randint(1, elements))) for _ in range(count)]
    sets[0] |= set(range(elements)) - set().union(*sets)
    costs = [rng.randint(1, 20) for _ in range(count)]

    def covers(x):
        chosen = [members for members, is_chosen in zip(sets, x) if is_chosen]
        return set().union(*chosen) == set(range(elements))

    optimum = min(dot(costs, x) for x in points(count) if covers(x))
    return (costs, sets, elements), optimum


def written(write, *parts, **options):
    file = io.BytesIO()
    write(file, *parts, **options)
    return file.getvalue()


def refused():
    """What the writer doesn't take."""

    def refuses(what, kind, *calls, integers=()):
        file = io.BytesIO()
        try:
            with vipr.Writer(file, {"x": 1, "y": 0}, integers=integers) as proof:
                proof.claim(None, None)
                for name, *words in calls:
                    getattr(proof, name)(*words)
            check(False, f"{what} is taken")
        except kind as fault:
            check(
                str(fault) and not file.getvalue(), f"{what}: {fault!r}, {file.getvalue()!r:.200}"
            )

    row = {"x": 1}
    refuses("a float", TypeError, ("constraint", "G", 0.5, row))
    refuses("a bool", TypeError, ("constraint", "G", 1, {"x": True}))
    refuses("a number past the limit", ValueError, ("constraint", "G", 2**127, row))
    refuses(
        "a denominator past the limit", ValueError, ("constraint", "G", Fraction(1, 2**127), row)
    )
    refuses("an unknown variable", ValueError, ("constraint", "G", 1, {"z": 1}))
    refuses("an unknown variable that is 0", ValueError, ("solution", {"z": 0}))
    refuses("a float that is 0", TypeError, ("constraint", "G", 1, {"x": 0.0}))
    refuses("a row that is none", TypeError, ("constraint", "G", 1, [("x", 1)]))
    for index in ("c0", None, Fraction(0), 0.0):
        refuses(
            f"{index!r} as a constraint",
            TypeError,
            ("constraint", "G", 1, row, "c0"),
            ("lin", "G", 1, row, {index: 1}),
        )
    refuses(
        "a name as an assumption", TypeError, ("asm", "G", 1, row), ("uns", "G", 1, row, *"0a0a")
    )
    refuses("an unknown integer", ValueError, integers=["z"])
    refuses("an unknown sense", ValueError, ("constraint", ">=", 1, row))
    for name in ("two words", "%", "\n", "x" * 65536, "ü" * 40000):
        refuses(f"the name {name[:20]!r}", ValueError, ("constraint", "G", 1, row, name))
    refuses(
        "a later constraint", ValueError, ("constraint", "G", 1, row), ("lin", "G", 1, row, {1: 1})
    )
    refuses(
        "a branch that is none",
        ValueError,
        ("constraint", "G", 1, row),
        ("uns", "G", 1, row, 0, 0, 0, 0),
    )
    refuses("a branch on what is no integer", ValueError, ("branch", row, 0))
    refuses(
        "a fraction as the bound of a branch",
        ValueError,
        ("branch", row, Fraction(1, 2)),
        integers=["x"],
    )
    refuses(
        "a solution that breaks a constraint",
        ValueError,
        ("constraint", "G", 1, row),
        ("solution", {"y": 2}),
    )
    refuses(
        "a solution that breaks the bound of an objective row",
        ValueError,
        ("constraint", "L", 1, vipr.OBJECTIVE),
        ("solution", {"x": 2}),
    )
    refuses(
        "a solution that is no integer",
        ValueError,
        ("solution", {"x": Fraction(1, 2)}),
        integers=["x"],
    )
    refuses(
        "a claim that no solution attains", ValueError, ("solution", {"x": 2}), ("claim", None, 1)
    )
    refuses("a claim without a solution", ValueError, ("claim", 0, 0))
    refuses("bounds that cross", ValueError, ("claim", 2, 1))
    refuses("a cutoff without a solution", ValueError, ("sol", "L", 1))
    refuses("bytes as a name", TypeError, ("constraint", "G", 1, row, b"c"))
    refuses("infinity as a Decimal", ValueError, ("constraint", "G", Decimal("inf"), row))
    refuses(
        "a negative index", ValueError, ("constraint", "G", 1, row), ("lin", "G", 1, row, {-1: 1})
    )
    refuses(
        "a constraint behind a derivation",
        ValueError,
        ("asm", "G", 1, row),
        ("constraint", "G", 1, row),
    )
    file = io.BytesIO()
    try:
        with vipr.Writer(file, {"x": 1}):
            pass
        check(False, "no claim is taken")
    except ValueError:
        check(not file.getvalue(), f"no claim: {file.getvalue()}")


def by_path(folder):
    """A path that can't be written is known at once, an error leaves a file as it was, and a text
    stream is refused."""
    for target, kind in (
        (f"{folder}/missing/a.vipr", OSError),
        (io.StringIO(), TypeError),
        (tempfile.NamedTemporaryFile("w"), TypeError),
        (open(__file__, "rb"), TypeError),
        (3, TypeError),
    ):
        try:
            vipr.Writer(target, {"x": 1})
            check(False, f"{target} is taken")
        except kind as fault:
            check(str(fault), fault)
    path = Path(folder, "a.vipr")
    for fails in (True, False):
        try:
            with vipr.Writer(path, {"x": 1}) as proof:
                proof.claim(*[None, None][fails:])
        except TypeError:
            check(not path.exists(), "an error leaves a file that wasn't there")
    for late in ("claim_infeasible", "claim", "solution", "constraint", "asm"):
        words = {"claim": (1, 2), "solution": ({},), "claim_infeasible": ()}
        try:
            getattr(proof, late)(*words.get(late, ("G", 1, {"x": 1})))
            check(False, f"{late} after the block is taken")
        except ValueError as fault:
            check("the block has ended" in str(fault), f"{late}: {fault}")
    path.write_bytes(b"precious")
    for fails in (True, False):
        try:
            with vipr.Writer(path, {"x": 1}) as proof:
                proof.claim(None, None)
                if fails:
                    raise RuntimeError
        except RuntimeError:
            check(path.read_bytes() == b"precious", "an error changes the file")
    check(vipr.read(path.read_bytes()).problem.claim == vipr.Claim(False), f"{path.read_bytes()}")


def calls():
    """What the calls write, and what they give."""
    file = io.BytesIO()
    with vipr.Writer(file, {"x": 1, "y": Decimal("0.25")}, integers=["x"], maximize=True) as proof:
        x, y = proof.bounds("x", 0, 3), proof.bounds("y", None, Decimal("2.5"))
        row, same = proof.sides(1, {"x": 1, "y": 1}, 7, "row"), proof.sides(
            2, {"x": 1, "y": -1}, 2, "same"
        )
        check((x, y, row, same) == ((0, 1), (None, 2), (3, 4), (5, 5)), f"{x} {y} {row} {same}")
        check(repr(row.upper) == "<constraint 4 row_up>" and f"{x.lower}" == "0", repr(row.upper))
        check(pickle.loads(pickle.dumps(x.upper)).name == "x_up", "a handle is pickled")
        down, up = proof.branch({"x": 1}, 2)
        ends = [
            proof.bound(Decimal("3.625"), {x.upper: 1, y.upper: Decimal("0.25")})
            for _ in (down, up)
        ]
        proof.uns("L", Decimal("3.625"), vipr.OBJECTIVE, ends[0], down, ends[1], up)
        never = proof.contradiction({x.upper: -1, proof.asm("G", 4, {"x": 1}): 1})
        value = proof.solution({"x": 3, "y": 1})
        check(
            (value, down, up, never) == (Fraction(13, 4), 6, 7, 12), f"{value} {down} {up} {never}"
        )
        proof.claim(value, Decimal("3.625"))
    ran = run([program(sys.argv[1:]), "check"], file.getvalue())
    check(ran.stdout.startswith(b"verified range 13/4 29/8\n"), f"{ran} {file.getvalue()}")
    check(vipr.read(file.getvalue()).problem.bounds == 3, "the bounds are counted")


def checked_by_the_library(rng):
    """Derivations that the library checks as they are written."""
    for _ in range(20):
        parts, _optimum = random_cover(rng)
        check(written(cover, *parts, checks=True) == written(cover, *parts), f"checked: {parts}")
    file = io.BytesIO()
    try:
        with vipr.Writer(file, {"x": 1}, checks=True) as proof:
            given = proof.constraint("G", 1, {"x": 2})
            proof.solution({"x": 3})
            proof.sol("L", 3)
            proof.lin("G", Fraction(1, 2), {"x": 1}, {given: Fraction(1, 2)})
            proof.lin("G", 1, {"x": 1}, {given: Fraction(1, 2)})
        check(False, "a wrong derivation is taken")
    except vipr.StepRefused as fault:
        check("does not follow" in str(fault) and not file.getvalue(), str(fault))


def split_with_gap(profile):
    """The certificate of a split whose sides aren't whole, which profile 2 alone accepts."""
    file = io.BytesIO()
    with vipr.Writer(file, {"x": 0}, integers=["x"], checks=True, profile=profile) as proof:
        least, most = proof.sides(1, {"x": 2}, 1)
        low = proof.asm("L", Fraction(1, 4), {"x": 1})
        high = proof.asm("G", Fraction(3, 4), {"x": 1})
        ends = proof.contradiction({least: 1, low: -2}), proof.contradiction({high: 2, most: -1})
        proof.uns("G", 1, {}, ends[0], low, ends[1], high)
        proof.claim_infeasible()
    return file.getvalue()


def checked_by_a_profile():
    """The library checks each derivation by the profile that is asked for."""
    said = run([program(sys.argv[1:]), "check", "--profile=2"], split_with_gap(2)).stdout
    check(said.startswith(b"verified infeas\n"), f"profile 2: {said}")
    try:
        split_with_gap(1)
        check(False, "profile 1 takes a split with a gap")
    except vipr.StepRefused as fault:
        check("cause 37" in str(fault), f"profile 1: {fault}")


def main():
    vipr_program, rng = program(sys.argv[1:]), random.Random(1)
    for make, write in ((random_knapsack, knapsack.solve), (random_cover, cover)):
        for number in range(EACH):
            parts, optimum = make(rng)
            verified(
                vipr_program, f"{write.__name__} {number}, {parts}", written(write, *parts), optimum
            )
    refused()
    calls()
    with tempfile.TemporaryDirectory() as folder:
        by_path(folder)
    library = next((TOP / "crates/vipr_c/out").glob("libvipr.so.*"), None)
    if library:
        os.environ["VIPR_LIBRARY"] = str(library)
        checked_by_the_library(rng)
        checked_by_a_profile()
    else:
        print("writer: no library is built here, so no derivation was checked as it was written")
    return CHECKS.end()


if __name__ == "__main__":
    sys.exit(main())
