#!/usr/bin/env python3
"""Solves a small mixed-integer model exactly, by branch and bound, and writes the proof as a
certificate.

    python3 solve.py model.mps > proof.vipr && vipr check proof.vipr

It is for models of some dozens of rows and columns, and for those who write certificates from a
solver of their own: each step of a proof is made here by one call of vipr.Writer, and says which
rule of docs/FORMAT.md allows it. Nothing here is trusted: `vipr check` checks the proof, and
`vipr-compare-mps` that it is about the model.

An integer column needs a bound. If one has only a lower or only an upper bound, the search may go
on without end; then give it both. Ctrl-C ends the search, and nothing is written. The exit status
is 0, 1 if there is no proof, 2 if the command line isn't understood, and 3 if the file can't be
read.
"""

import argparse
import sys
import time
from fractions import Fraction
from math import ceil, floor, gcd, lcm
from pathlib import Path

# (without an installed package that of a folder above is taken: of this repository, or of an
# archive of it)
ABOVE = Path(__file__).resolve().parents
sys.path += [str(folder / "python") for folder in ABOVE if (folder / "python/vipr").is_dir()]
from simplex import Infeasible, LinearProgram, Unbounded  # noqa: E402

try:
    import vipr
    from vipr import mps
except ImportError:
    sys.exit("the Python package vipr is not here: docs/USE.md says how to install it")


class NoProof(Exception):
    """Why this solver can't prove anything about a model."""


class Model:
    """A model whose objective is minimized: `turn` is -1 if the file's is maximized, and its
    objective then the negative one.

    Each condition `rows[k] * x >= sides[k]` has a reason: the constraint of the certificate that
    says so, and a sign.
    """

    def __init__(self, file, proof):
        self.names = list(file.columns)
        self.turn = -1 if file.maximizes else 1
        objective = file.entries[file.objective]
        self.costs = [Fraction(objective.get(j, 0)) * self.turn for j in range(len(self.names))]
        self.integers = [j for j, column in enumerate(file.columns.values()) if column.is_whole]
        self.rows, self.sides, self.reasons = [], [], []
        # Variables are free: each bound is a constraint like any other (FORMAT, "What surprises").
        for j, (name, column) in enumerate(file.columns.items()):
            lower, upper = column.sides()
            if column.is_whole and lower is None and upper is None:
                raise NoProof(f"the integer column {name} has no bound")
            self.add({j: 1}, lower, upper, proof.bounds(name, lower, upper))
        # A constraint has one side: a row with two is two constraints, unless it is an equation.
        for name, (kind, _) in file.rows.items():
            if kind != "N":
                row, (lower, upper) = file.entries[name], file.sides(name)
                said = proof.sides(lower, self.named(row), upper, name)
                self.add(row, lower, upper, said, is_bound=False)

    def add(self, row, lower, upper, said, is_bound=True):
        """The conditions of two sides, which two constraints say. A bound that is infinite has an
        empty place."""
        for sign, side, constraint in ((1, lower, said.lower), (-1, upper, said.upper)):
            if side is not None or is_bound:
                self.rows.append({j: value * sign for j, value in row.items()})
                self.sides.append(None if side is None else side * sign)
                self.reasons.append((constraint, sign))

    def named(self, row):
        """A row by names, as the writer takes it."""
        return {self.names[j]: value for j, value in row.items()}

    def step(self):
        """A number of which the objective is a multiple at every integral point, or None."""
        costs = [cost for cost in self.costs if cost]
        if not costs or any(cost and j not in self.integers for j, cost in enumerate(self.costs)):
            return None
        below = lcm(*(cost.denominator for cost in costs))
        return Fraction(gcd(*(int(cost * below) for cost in costs)), below)


class Progress:
    """A line on a terminal that says how far the search is, once a second."""

    def __init__(self):
        self.nodes, self.start, self.shown = 0, time.monotonic(), 0.0

    def show(self, best):
        self.nodes += 1
        seconds = time.monotonic() - self.start
        if seconds > self.shown + 1 and sys.stderr.isatty():
            self.shown = seconds
            found = "no solution" if best is None else f"best {best}"
            print(f"\r\x1b[K{self.nodes} nodes, {found}, {seconds:.0f} s ", end="", file=sys.stderr)

    def end(self):
        if self.shown:
            print(file=sys.stderr)


class Solver:
    """Branch and bound that writes a proof of what it finds."""

    def __init__(self, model, proof, program):
        self.model, self.proof, self.program = model, proof, program
        self.step = model.step()
        self.best, self.point = None, None
        self.progress = Progress()

    def solve(self):
        """Proves that the model is infeasible, or which value is its optimum."""
        try:
            bound, _ = self.node(self.program, self.model.reasons)
        finally:
            self.progress.end()
        if bound is None:
            # The claim: some constraint that rests on no assumption is absurd (FORMAT, section 4,
            # "The claim").
            self.proof.claim_infeasible()
        else:
            # One such constraint proves the dual side, and a listed solution attains the primal
            # side.
            names = self.model.names
            value = self.proof.solution(dict(zip(names, self.point)), "optimum")
            self.proof.claim(*sorted([bound * self.model.turn, value]))

    def node(self, program, reasons):
        """Proves a bound for a node of the tree, where `reasons` say the conditions.

        Gives the bound, or None if the node is infeasible, and the constraint that proves it.
        """
        self.progress.show(None if self.best is None else self.best * self.model.turn)
        try:
            found = program.solve()
            split = self.most_fractional(found.point)
            if split is None and not self.is_attained(program, found):
                found = program.solve_exactly()
                split = self.most_fractional(found.point)
        except Infeasible as fault:
            # A Farkas proof is `0 >= b` with b above 0: by `lin`, since an absurd sum dominates
            # every constraint.
            return None, self.proof.contradiction(self.entries(fault.multipliers, reasons))
        if split is None:
            self.keep(found.point)
        value = self.rounded(found.value)
        if split is None or (self.best is not None and value >= self.best):
            return value, self.dual_bound(found, value, reasons)
        return self.branches(program, reasons, split, found.point[split])

    def branches(self, program, reasons, split, value):
        """Proves a bound for a node by the bounds of its two branches."""
        # Two assumptions `x <= k` and `x >= k + 1` split: one of them holds at each integral point
        # (FORMAT, `asm` and `uns`).
        down, up = self.proof.branch({self.model.names[split]: 1}, floor(value))
        sides = [(2 * split + 1, -floor(value), down, -1), (2 * split, floor(value) + 1, up, 1)]
        proved = {}
        for condition, side, assumed, sign in sorted(
            sides, key=lambda branch: (branch[3] > 0) != (value % 1 > Fraction(1, 2))
        ):
            inner, below = program.copy(), list(reasons)
            inner.tighten(condition, side)
            below[condition] = assumed, sign
            proved[assumed] = self.node(inner, below)
        bounds = [bound for bound, _ in proved.values() if bound is not None]
        named = [
            index for assumed, (_, constraint) in proved.items() for index in (constraint, assumed)
        ]
        # `uns` joins the branches: what both prove rests on neither assumption. An absurd one
        # proves every bound.
        if not bounds:
            return None, self.proof.uns("G", 1, {}, *named)
        bound = min(bounds)
        sense = "G" if self.model.turn > 0 else "L"
        return bound, self.proof.uns(sense, bound * self.model.turn, vipr.OBJECTIVE, *named)

    def dual_bound(self, found, value, reasons):
        """States that the objective is at least a value: the dual solution is the multipliers of a
        sum."""
        entries = self.entries(found.multipliers, reasons)
        if self.step is None:
            return self.proof.bound(value * self.model.turn, entries)
        # The objective is a multiple of the step. If the step is 1, `rnd` rounds the bound of the
        # sum; else it rounds the bound of the objective divided by the step, and `lin` multiplies
        # by it again. (To round is a Chvatal-Gomory cut.)
        if self.step == 1:
            return self.proof.bound(value * self.model.turn, entries, rounded=True)
        costs = enumerate(self.model.costs)
        row = self.model.named({j: cost * self.model.turn / self.step for j, cost in costs if cost})
        sense = "G" if self.model.turn > 0 else "L"
        divided = [(index, multiplier / self.step) for index, multiplier in entries]
        cut = self.proof.rnd(sense, value * self.model.turn / self.step, row, divided)
        return self.proof.bound(value * self.model.turn, {cut: self.step})

    def entries(self, multipliers, reasons):
        """A sum of conditions as one of constraints: `L` times a negative number is `G`. A maximum
        is proved from above."""
        found = []
        for condition, multiplier in multipliers:
            constraint, sign = reasons[condition]
            found.append((constraint, multiplier * sign * self.model.turn))
        return found

    def rounded(self, value):
        """The least value of the objective at an integral point that is at least this one."""
        return value if self.step is None else ceil(value / self.step) * self.step

    def value(self, point):
        """The objective at a point."""
        return sum(cost * value for cost, value in zip(self.model.costs, point))

    def is_attained(self, program, found):
        """Whether a point is feasible and has the value that is proved; one of floating-point
        numbers may fail by a little."""
        return program.is_met(found.point) and self.value(found.point) <= self.rounded(found.value)

    def keep(self, point):
        """Keeps a feasible point if it is the best so far."""
        value = self.value(point)
        if self.best is None or value < self.best:
            self.best, self.point = value, point

    def most_fractional(self, point):
        """The integer column that is farthest from an integer, or None if all are integers."""

        def distance(j):
            return abs(point[j] - round(point[j]))

        split = max(self.model.integers, key=distance, default=None)
        return split if split is not None and distance(split) else None


def read_model(words):
    """The file that is named. Raises NoProof, with what the package's reader says of a wrong
    line."""
    try:
        return mps.read_mps(vipr.files.read_file(words.model), words.integers, words.maximize)
    except mps.Refused as fault:
        help_ = " (docs/USE.md has the causes)"
        if fault.cause is mps.Cause.UNCLEAR_INTEGER:
            help_ = ": say --integers one or --integers inf, or give the column an UP bound"
        raise NoProof("\n".join([f"{words.model}: {fault}{help_}", *fault.shown])) from None


def prove(file, out, program):
    """Writes the certificate of a model to a stream. Raises NoProof."""
    objective = file.entries[file.objective]
    costs = {name: objective.get(j, 0) for j, name in enumerate(file.columns)}
    integers = [name for name, column in file.columns.items() if column.is_whole]
    try:
        with vipr.Writer(out, costs, integers=integers, maximize=file.maximizes) as proof:
            model = Model(file, proof)
            Solver(model, proof, program(model.costs, model.rows, model.sides)).solve()
    except Unbounded:
        raise NoProof(
            "the linear relaxation is unbounded: so is the model, or it is infeasible, and neither is proved"
        ) from None
    except ValueError as fault:
        # (a number past 2^127 - 1, which the format's checkers needn't take: FORMAT, "Limits")
        raise NoProof(str(fault)) from None


def main(program=LinearProgram):
    parser = argparse.ArgumentParser(description="solves a model, and prints the proof")
    parser.add_argument("model", metavar="MODEL.mps")
    parser.add_argument(
        "--integers",
        choices=["one", "inf"],
        help="the upper bound of an integer column without one",
    )
    parser.add_argument("--maximize", action="store_true", help="the file gives no direction")
    words = parser.parse_args()
    sys.setrecursionlimit(100_000)
    try:
        file = read_model(words)
        if not (file.has_direction or words.maximize):
            print("the file gives no direction: minimized (or say --maximize)", file=sys.stderr)
        if file.constant():
            print(f"the constant {file.constant()} is in no bound", file=sys.stderr)
        prove(file, sys.stdout.buffer, program)
    except NoProof as fault:
        print(fault, file=sys.stderr)
        return 1
    except OSError as fault:
        where = f"{fault.filename}: " if fault.filename else ""
        print(f"{where}{fault.strerror or fault}", file=sys.stderr)
        return 3
    except KeyboardInterrupt:
        print("stopped", file=sys.stderr)
        return 130
    return 0


if __name__ == "__main__":
    sys.exit(main())
