#!/usr/bin/env python3
"""Lets examples/solver prove random models, and compares each proof with its model and with an
exhaustive search.

usage: tests/solver.py [PROGRAM [floats]]     crates/vipr/out/vipr without it; with `floats` only by solve_floats.py

200 models of a few integer columns and at most two others are minimized or maximized, with
equations, ranges, free columns and fractional costs. Some are infeasible, and some unbounded. The
search tries each integral point, and each vertex of what is then left for the others. The program
verifies the claim that the search finds, and the certificate's problem is the model's. What the
solver can't do it says, with nothing written. If scipy is there, solve_floats.py proves the same
claims.

Prints each fault, and last `solver: N checks, F failed`; the exit status is 1 if one failed.
"""

import io
import itertools
import os
import random
import shutil
import signal
import subprocess
import sys
import tempfile
from collections import Counter
from fractions import Fraction
from pathlib import Path
from unittest import mock

from texts import TOP, Checks, program, run

sys.path[:0] = [str(TOP / "python"), str(TOP / "examples/solver")]
sys.dont_write_bytecode = True
import solve  # noqa: E402
from simplex import LinearProgram  # noqa: E402
from vipr import compare_mps, mps  # noqa: E402

CHECKS = Checks("solver")
check = CHECKS.check
PROGRAM = program(sys.argv[1:])
MODELS = 200
FAR = 10**4, 10**5
SCRIPT = TOP / "examples/solver/solve.py"
# Pythons of which one may have scipy
PYTHONS = sys.executable, "/usr/bin/python3"
KINDS = (
    "infeasible",
    "unbounded",
    "maximized",
    "equation",
    "range",
    "free column",
    "fractional cost",
)


def random_model(dice):
    """An MPS file, and what there is in it."""
    integers, others = dice.randint(1, 3), dice.randint(0, 2)
    names = [f"x{j}" for j in range(integers + others)]
    dice.shuffle(names)
    whole = set(dice.sample(names, integers))
    kinds = [dice.choice("LLGGE") for _ in range(dice.randint(1, 5))]
    has = {"equation"} if "E" in kinds else set()
    lines = ["NAME m"]
    if dice.random() < 0.4:
        lines += ["OBJSENSE", " MAX"]
        has.add("maximized")
    lines += ["ROWS", " N obj", *(f" {kind} r{i}" for i, kind in enumerate(kinds)), "COLUMNS"]
    values = Counter()
    for name in names:
        cost = dice.choice([dice.randint(-9, 9), dice.randint(-9, 9), dice.randint(-90, 90) / 4])
        has |= {"fractional cost"} if cost != int(cost) else set()
        point = dice.randint(0, 2)
        lines += [" M 'MARKER' 'INTORG'"] if name in whole else []
        lines.append(f" {name} obj {cost}")
        for i in range(len(kinds)):
            factor = dice.choice(
                [0, dice.randint(-9, 9), dice.randint(1, 9), dice.randint(-9, 9) / 2]
            )
            values[i] += factor * point
            lines += [f" {name} r{i} {factor}"] if factor else []
        lines += [" M 'MARKER' 'INTEND'"] if name in whole else []
    lines.append("RHS")
    for i, kind in enumerate(kinds):
        slack = (
            dice.choice([0, 0, 0.5, 1, 3, -1]) * {"L": 1, "G": -1, "E": dice.random() < 0.1}[kind]
        )
        lines.append(f" r{i} {values[i] + slack}")
    ranges = [
        f" r{i} {dice.choice([1, 2.5, -1])}" for i in range(len(kinds)) if dice.random() < 0.2
    ]
    has |= {"range"} if ranges else set()
    lines += ["RANGES", *ranges, "BOUNDS"]
    for name in names:
        if name in whole:
            low = dice.choice([0, 0, -1, 0.5])
            lines += [f" LO {name} {low}"] * (low != 0) + [f" UP {name} {low + dice.randint(1, 3)}"]
        elif dice.random() < 0.4:
            lines.append(f" FR {name}")
            has.add("free column")
        elif dice.random() < 0.5:
            lines.append(f" UP {name} {dice.randint(1, 9)}")
    return "\n".join([*lines, "ENDATA", ""]).encode(), has


def exhaustive(file, far):
    """The optimum by each integral point, where the sides that a column hasn't are so far away;
    None if there is none."""
    columns = list(file.columns.values())
    whole = [j for j, column in enumerate(columns) if column.is_whole]
    others = [j for j, column in enumerate(columns) if not column.is_whole]
    conditions = []
    for j, column in enumerate(columns):
        lower, upper = column.sides()
        conditions += [({j: 1}, -far if lower is None else lower)]
        conditions += [({j: -1}, -far if upper is None else -upper)]
    for name in file.rows:
        lower, upper = file.sides(name)
        row = file.entries[name]
        conditions += [] if lower is None else [(row, lower)]
        conditions += [] if upper is None else [({j: -a for j, a in row.items()}, -upper)]
    spans = [range(-(-columns[j].sides()[0] // 1), columns[j].sides()[1] // 1 + 1) for j in whole]
    costs, best = file.entries[file.objective], None
    for values in itertools.product(*spans):
        fixed = dict(zip(whole, values))
        left = []
        for row, side in conditions:
            taken = sum(row.get(j, 0) * value for j, value in fixed.items())
            left.append(([row.get(j, 0) for j in others], side - taken))
        for point in vertices(left, len(others)):
            if all(sum(a * v for a, v in zip(row, point)) >= side for row, side in left):
                full = {**fixed, **dict(zip(others, point))}
                value = sum(cost * full[j] for j, cost in costs.items())
                if best is None or (value > best if file.maximizes else value < best):
                    best = value
    return best


def vertices(conditions, size):
    """The points at which as many conditions as there are numbers hold with equality."""
    if size == 0:
        yield ()
    elif size == 1:
        yield from ((Fraction(side) / row[0],) for row, side in conditions if row[0])
    else:
        for (one, first), (two, second) in itertools.combinations(conditions, 2):
            below = one[0] * two[1] - one[1] * two[0]
            if below:
                yield (
                    Fraction(first * two[1] - one[1] * second) / below,
                    Fraction(one[0] * second - first * two[0]) / below,
                )


def proves(text, wanted, kind):
    """Whether the solver proves what the search found: a claim, or that the model is unbounded."""
    file, out = mps.read_mps(text), io.BytesIO()
    try:
        solve.prove(file, out, kind)
    except solve.NoProof as fault:
        check("unbounded" in str(fault) and not out.getvalue(), f"{fault}: {text.decode()}")
        check(wanted in ("unbounded", "infeas"), f"{fault}, and not {wanted}: {text.decode()}")
        return
    said = run([PROGRAM, "check"], out.getvalue()).stdout.decode().split("\n")[0]
    check(
        said == f"verified {wanted}",
        f"{said}, and not {wanted}: {text.decode()}{out.getvalue().decode()}",
    )
    status, lines = compare_mps.compared(text, out.getvalue())
    check(
        (status, lines) == (0, [f"problem {wanted}"]),
        f"{lines}: {text.decode()}{out.getvalue().decode()}",
    )


def random_models(kind):
    found = Counter()
    for number in range(MODELS):
        text, has = random_model(random.Random(number))
        near, far = (exhaustive(mps.read_mps(text), distance) for distance in FAR)
        wanted = "infeas" if far is None else f"range {far} {far}" if near == far else "unbounded"
        found.update(has, **{"infeasible": wanted == "infeas", "unbounded": wanted == "unbounded"})
        proves(text, wanted, kind)
    check(all(found[kind] >= 5 for kind in KINDS), f"too few of some kind: {found}")


def command():
    """The command as a user has it: a proof, and a word of each thing that it can't do, with
    nothing printed."""
    example = TOP / "examples/plan.mps"
    out, fault, status = run([sys.executable, SCRIPT, example])
    said = run([PROGRAM, "check"], out).stdout.split(b"\n")[0]
    check(
        (said, fault, status) == (b"verified range 281/4 281/4", b"", 0),
        f"plan.mps: {said} {fault}",
    )
    columns = "COLUMNS\n M 'MARKER' 'INTORG'\n x obj {} r 1\n M 'MARKER' 'INTEND'\nRHS\n r {}\n"
    front = f"NAME\nROWS\n N obj\n G r\n{columns}"
    for bounds, options, cost, side, word in (
        (" FR x", [], 1, 1, "the integer column x has no bound"),
        (" PL x", [], -1, 1, "the linear relaxation is unbounded"),
        ("", [], 1, 1, "say --integers one or --integers inf"),
        (" UP y 3", [], 1, 1, "refused 115 at line 12"),
        (" UP x 3", [], 1, "1e-39", "refused 113 at line 10"),
    ):
        with tempfile.NamedTemporaryFile(suffix=".mps") as model:
            model.write(f"{front.format(cost, side)}BOUNDS\n{bounds}\nENDATA\n".encode())
            model.flush()
            out, fault, status = run([sys.executable, SCRIPT, model.name, *options])
            is_refused = (status, out) == (1, b"") and word.encode() in fault
            check(is_refused, f"{bounds}: {status} {out} {fault}, wanted {word}")
    with tempfile.NamedTemporaryFile(suffix=".mps") as model:
        model.write(f"{front.format(1, 1)}BOUNDS\n UP x 3\nENDATA\n".encode())
        model.flush()
        for options, said, claim in (
            ([], b"the file gives no direction: minimized (or say --maximize)\n", "1 1"),
            (["--maximize"], b"", "3 3"),
        ):
            out, fault, status = run([sys.executable, SCRIPT, model.name, *options])
            verdict = run([PROGRAM, "check"], out).stdout.decode().split("\n")[0]
            check(
                (status, fault, verdict) == (0, said, f"verified range {claim}"),
                f"no direction {options}: {status} {fault} {verdict}",
            )
    out, fault, status = run([sys.executable, SCRIPT, "missing.mps"])
    check((status, out) == (3, b"") and b"missing.mps: No such file" in fault, f"missing: {fault}")


def stopped():
    """Ctrl-C ends the command with a word, and with nothing printed. It is told while it waits for
    its model."""
    with tempfile.TemporaryDirectory() as folder:
        pipe = f"{folder}/model.mps"
        os.mkfifo(pipe)
        with subprocess.Popen(
            [sys.executable, SCRIPT, pipe],
            stdout=subprocess.PIPE,
            stderr=subprocess.PIPE,
            preexec_fn=lambda: signal.signal(signal.SIGINT, signal.default_int_handler),
        ) as child, open(pipe, "wb"):
            child.send_signal(signal.SIGINT)
            out, fault = child.communicate()
        found = child.returncode, out, fault
        check(found == (130, b"", b"stopped\n"), f"stopped: {found}")


def on_terminal():
    """On a terminal a line says how far the search is, and whether it has found a solution."""
    for best, said in ((None, "no solution"), (0, "best 0"), (Fraction(7, 2), "best 7/2")):
        progress = solve.Progress()
        progress.shown = -2.0
        with mock.patch("sys.stderr", io.StringIO()) as terminal:
            terminal.isatty = lambda: True
            progress.show(best)
        shown = terminal.getvalue()
        check(f"1 nodes, {said}, 0 s" in shown, f"the progress is {shown!r}")


def without_package():
    """A copy that has no package beside it says what is missing."""
    with tempfile.TemporaryDirectory() as folder:
        for path in SCRIPT.parent.glob("s*.py"):
            shutil.copy(path, folder)
        found = run([sys.executable, "-S", "-E", f"{folder}/solve.py", "model.mps"])
        check(
            found.returncode == 1 and b"docs/USE.md says how to install it" in found.stderr,
            f"without the package: {found}",
        )


def by_floats():
    """The same by solve_floats.py, in a Python that has scipy."""
    for python in PYTHONS:
        if Path(python).is_file() and run([python, "-c", "import scipy.optimize"]).returncode == 0:
            done = subprocess.run(
                [python, __file__, PROGRAM, "floats"], stdout=subprocess.PIPE, text=True
            )
            *faults, last = done.stdout.rstrip("\n").split("\n")
            check(done.returncode == 0 and last.endswith(" 0 failed"), "\n".join([*faults, last]))
            return
    print("solver: scipy is not here, so solve_floats.py was not tried")


def main():
    if sys.argv[2:] == ["floats"]:
        import solve_floats

        random_models(solve_floats.FloatProgram)
    else:
        random_models(LinearProgram)
        command()
        stopped()
        on_terminal()
        without_package()
        by_floats()
    return CHECKS.end()


if __name__ == "__main__":
    sys.exit(main())
