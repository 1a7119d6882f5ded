"""Random models of 100 to 300 rows and columns, as an MPS file and as a certificate that differ in
exactly one place.

A model has rows of 100 entries and more, two rows of type N whose names tell nothing, and a column
`*y`. A difference is a side of a row, an entry, a coefficient of the objective, an integer column,
a bound, the other row of type N as the objective, or `FR` after `UP`. Each is anywhere, or as far
behind as it can be. tests/python.py tries whether vipr-compare-mps finds the place.
"""
import copy
from collections import namedtuple
from dataclasses import dataclass
from fractions import Fraction

LONG, SHORT = 100, 4  # entries of each eighth row, and of the others
OBJECTIVES = ["obj", "cost", "COST", "profit", "z"]
# what differs: the file's model, the certificate's, and what has to be found: in the first line,
# and in a later one
Difference = namedtuple("Difference", "file certificate line shown")
# the lower and the upper bound of a column
BOUNDS = [(0, None), (0, 20), (-9, 30), (None, 30), (3, 9)]


@dataclass
class Model:
    """A direction and two objectives, of which the first one counts; of each row its coefficients
    and its sides; of each column whether it is integer, and its bounds. None is an infinite side.
    `free` is the column that has FR after its other bounds.
    """

    maximizes: bool
    names: list
    variables: dict
    integers: set
    objectives: list
    rows: list
    sides: list
    bounds: list
    free: int = -1


def number(dice):
    """A coefficient: an integer, or a number of quarters."""
    return dice.choice([-1, 1]) * dice.choice(
        [1, 1, dice.randrange(2, 1000), Fraction(dice.randrange(1, 99), 4)]
    )


def random_row(dice, columns, length):
    return {j: number(dice) for j in sorted(dice.sample(range(columns), length))}


def random_sides(dice):
    """An equation, a side, or two."""
    least, kind = dice.randrange(-50, 50), dice.choice("EGLR")
    if kind == "E":
        return least, least
    return (least if kind in "GR" else None), (least + 9 if kind in "LR" else None)


def random_model(dice):
    """A model of 100 to 300 rows and columns."""
    columns, height = dice.randrange(LONG, 301), dice.randrange(LONG, 301)
    names = [f"x{j}" for j in range(columns)]
    names[dice.randrange(columns)] = "*y"
    lengths = [LONG if i % 8 == 7 else SHORT for i in range(height - 1)] + [LONG]
    return Model(
        maximizes=dice.random() < 0.5,
        names=names,
        variables=dict(enumerate(dice.sample(range(columns), columns))),
        integers=set(dice.sample(range(columns), columns // 3)),
        objectives=[random_row(dice, columns, columns - dice.randrange(9)) for _ in range(2)],
        rows=[random_row(dice, columns, length) for length in lengths],
        sides=[random_sides(dice) for _ in range(height)],
        bounds=[dice.choice(BOUNDS) for _ in range(columns)],
    )


# ---- the model as an MPS file


def decimal(value):
    return str(float(value)) if value.denominator > 1 else str(value)


class File:
    """The text of an MPS file, and at which lines its rows and the last words on its columns
    are."""

    def __init__(self, model, dice):
        self.dice, self.lines, self.rows, self.columns = dice, [], [], []
        objectives = dice.sample(OBJECTIVES, 2)
        self.add("NAME", "OBJSENSE", " MAX" if model.maximizes else " MIN")
        self.add("ROWS", f" N {objectives[0]}")
        second = dice.randrange(len(model.rows))
        for i, sides in enumerate(model.sides):
            if i == second:
                self.add(f" N {objectives[1]}")
            self.add(f" {kind(sides)} r{i}")
            self.rows.append(len(self.lines))
        self.write_columns(model, objectives)
        self.write_sides(model)
        self.write_bounds(model)
        self.add("ENDATA")

    def add(self, *lines):
        """Adds lines, and now and then a comment, or a line that is empty."""
        for other in "", "* y":
            if self.dice.random() < 0.02:
                self.lines.append(other)
        self.lines += lines

    def write_columns(self, model, objectives):
        rows = dict(zip(objectives, model.objectives))
        rows.update((f"r{i}", row) for i, row in enumerate(model.rows))
        entries = [[] for _ in model.names]
        for name, row in rows.items():
            for j, value in row.items():
                entries[j].append(f"{name} {decimal(value)}")
        self.add("COLUMNS")
        for j, (name, pairs) in enumerate(zip(model.names, entries)):
            if j in model.integers:
                self.add(" M 'MARKER' 'INTORG'")
            self.columns.append(len(self.lines) + 1)
            # (a column without entries has a line, too)
            pairs = pairs or [f"{objectives[0]} 0"]
            width = self.dice.choice([1, 2])
            for at in range(0, len(pairs), width):
                self.lines.append(" ".join(["", name, *pairs[at : at + width]]))
            if j in model.integers:
                self.add(" M 'MARKER' 'INTEND'")

    def write_sides(self, model):
        self.add("RHS")
        for i, (lower, upper) in enumerate(model.sides):
            side = lower if upper is None else upper
            if side != 0:
                self.add(f" r{i} {side}")
        self.add("RANGES")
        for i, (lower, upper) in enumerate(model.sides):
            if None not in (lower, upper) and lower != upper:
                self.add(f" r{i} {upper - lower}")

    def write_bounds(self, model):
        self.add("BOUNDS")
        for j, (name, (lower, upper)) in enumerate(zip(model.names, model.bounds)):
            if lower is None:
                self.add(f" MI {name}")
            elif lower != 0:
                self.add(f" LO {name} {lower}")
            if upper is not None:
                self.add(f" UP {name} {upper}")
            elif j in model.integers:
                self.add(f" PL {name}")
            if lower != 0 or upper is not None or j in model.integers:
                self.columns[j] = len(self.lines)
            if j == model.free:
                self.lines.append(f" FR {name}")

    def text(self):
        return "\n".join([*self.lines, ""]).encode()


def kind(sides):
    lower, upper = sides
    return "E" if lower == upper else "G" if upper is None else "L"


# ---- the model as a certificate


class Certificate:
    """The text of a certificate of a model, and at which places its variables and constraints are,
    in an order of its own."""

    def __init__(self, model, dice):
        self.variables = model.variables
        order = sorted(self.variables, key=self.variables.get)
        rows = [
            ("row", i, row, sides) for i, (row, sides) in enumerate(zip(model.rows, model.sides))
        ]
        rows += [("bound", j, {j: 1}, sides) for j, sides in enumerate(model.bounds)]
        stated = []
        for what, at, row, (lower, upper) in rows:
            if lower is not None and lower == upper:
                stated.append((what, at, "E", lower, row))
                continue
            stated += [(what, at, "G", lower, row)] * (lower is not None)
            stated += [(what, at, "L", upper, row)] * (upper is not None)
        dice.shuffle(stated)
        self.constraints = [(what, at, sense) for what, at, sense, _, _ in stated]
        self.lines = [
            f"VER 1.0 VAR {len(order)}",
            *(model.names[j] for j in order),
            f"INT {len(model.integers)}",
            *(str(self.variables[j]) for j in sorted(model.integers)),
            f"OBJ {'max' if model.maximizes else 'min'} {self.written(model.objectives[0])}",
            f"CON {len(stated)} 0",
            *(f"c {sense} {side} {self.written(row)}" for _, _, sense, side, row in stated),
            "RTP range 1/3 inf SOL 0 DER 0",
        ]

    def written(self, row):
        pairs = " ".join(f"{self.variables[j]} {value}" for j, value in row.items())
        return f"{len(row)} {pairs}"

    def constraint(self, what, at, senses="GLE"):
        """The first constraint that says a side of a row or a bound of a column."""
        return next(
            place
            for place, stated in enumerate(self.constraints)
            if stated[:2] == (what, at) and stated[2] in senses
        )

    def text(self):
        return "\n".join([*self.lines, ""]).encode()


# ---- differences


def pick(dice, places, is_last):
    return places[-1] if is_last else dice.choice(places)


def moved(dice, sides):
    """Sides of which one is another number; those of an equation stay one."""
    lower, upper = sides
    step = dice.choice([-1, 1])
    if lower is not None and lower == upper:
        return lower + step, upper + step
    if upper is None or (lower is not None and dice.random() < 0.5):
        return lower + step, upper
    return lower, upper + step


def asks_more(one, other):
    """Of which sense these sides ask more than others do, or none."""
    if one[0] == one[1] and one != other:
        return "E"
    if one[0] is not None and one[0] > other[0]:
        return "G"
    return "L" if one[1] is not None and one[1] < other[1] else ""


def differing(model, what, dice, is_last):
    """A copy of a model in which one thing of a kind is another one, and where: a row or a
    column."""
    other, at = copy.deepcopy(model), None

    def column(columns):
        return pick(dice, sorted(columns, key=model.variables.get), is_last)

    if what == "side":
        at = pick(dice, range(len(model.rows)), is_last)
        other.sides[at] = moved(dice, model.sides[at])
    elif what == "entry":
        at = pick(dice, range(len(model.rows)), is_last)
        change(dice, other.rows[at], column(model.rows[at]))
    elif what == "objective":
        at = column(model.objectives[0])
        change(dice, other.objectives[0], at)
    elif what == "second objective":
        other.objectives.reverse()
    elif what == "integer":
        at = column(j for j, (_, upper) in enumerate(model.bounds) if upper is not None)
        other.integers ^= {at}
    elif what == "bound":
        at = pick(dice, range(len(model.names)), is_last)
        other.bounds[at] = moved(dice, model.bounds[at])
    else:
        at = column(j for j, bounds in enumerate(model.bounds) if bounds == (0, 20))
        other.free = at
    return other, at


def change(dice, row, j):
    """Changes a coefficient, or leaves it out."""
    if dice.random() < 0.3:
        del row[j]
    else:
        row[j] += 1 if row[j] != -1 else 2


def difference(model, what, dice, is_last):
    """A pair that differs in one thing of a kind, and where that has to be found."""
    other, at = differing(model, what, dice, is_last)
    pair = [other, model]
    if what != "FR after UP" and dice.random() < 0.5:
        pair.reverse()
    file, certificate = File(pair[0], dice), Certificate(pair[1], dice)
    found = {
        "side": lambda: weaker_or_not(
            "row", at, [one.sides[at] for one in pair], file.rows, certificate
        ),
        "bound": lambda: weaker_or_not(
            "bound", at, [one.bounds[at] for one in pair], file.columns, certificate
        ),
        "entry": lambda: (f"207 at CON {certificate.constraint('row', at)}", "file none"),
        "objective": lambda: objectives_differ(pair, certificate),
        "second objective": lambda: objectives_differ(pair, certificate),
        "integer": lambda: (
            f"204 at VAR {certificate.variables[at]}",
            f"variable {certificate.variables[at]} {model.names[at]}",
        ),
        "FR after UP": lambda: (
            f"117 at line {file.columns[at] + 1}",
            f"field {model.names[at]}",
        ),
    }
    line, shown = found[what]()
    return Difference(file.text(), certificate.text(), f"refused {line}", shown)


def weaker_or_not(what, at, sides, lines, certificate):
    """Where sides of a file and of a certificate differ: at the constraint that asks more, or at
    the file's line that does."""
    sense = asks_more(sides[1], sides[0])
    if sense:
        return f"207 at CON {certificate.constraint(what, at, sense)}", "cause NotInFile"
    return f"208 at line {lines[at]}", "cause NotInCertificate"


def objectives_differ(pair, certificate):
    """The first variable of the certificate whose coefficients differ."""
    costs = [model.objectives[0] for model in pair]
    place, name = min(
        (certificate.variables[j], name)
        for j, name in enumerate(pair[0].names)
        if costs[0].get(j) != costs[1].get(j)
    )
    return "206 at OBJ", f"variable {place} {name}"


KINDS = ("side", "entry", "objective", "second objective", "integer", "bound", "FR after UP")


def same(model, dice):
    """An MPS file and a certificate of one model."""
    return File(model, dice).text(), Certificate(model, dice).text()
