"""Writes certificates: variables by name, constraints by what made them, and last references by
itself.

    with vipr.Writer("proof.vipr", {"x": 1, "y": 1}, integers=["x", "y"]) as proof:
        proof.bounds("x", 0, None)
        proof.bounds("y", 0, None)
        cover = proof.constraint("G", 3, {"x": 2, "y": 2}, "cover")
        proof.bound(2, {cover: Fraction(1, 2)}, rounded=True)
        best = proof.solution({"x": 2})
        proof.claim(2, best)

The problem's constraints come first, then derivations, each as it is found. They go to a temporary
file, and memory holds seventeen bytes of each. Solutions and the claim may come at any time. With
`checks` the library checks each derivation as it is written. The file gets the certificate when the
block ends, and stays as it was if it ends with an error.
"""

from __future__ import annotations

import io
import operator
import os
import re
import tempfile
from array import array
from decimal import Decimal
from enum import Enum
from fractions import Fraction
from types import TracebackType
from typing import (
    IO,
    Iterable,
    Iterator,
    List,
    Mapping,
    NamedTuple,
    Optional,
    Tuple,
    Type,
    Union,
    cast,
)

from .certificate import LARGEST, LONGEST_TOKEN, Number
from .files import encoded
from .library import check, explain_long


class _Objective(Enum):
    OBJECTIVE = "OBJ"


OBJECTIVE = _Objective.OBJECTIVE
Exact = Union[int, Fraction, Decimal]
Named = Union[Mapping[str, Exact], _Objective]
Entries = Union[Mapping[int, Exact], Iterable[Tuple[int, Exact]]]
Target = Union[IO[bytes], str, "os.PathLike[str]"]
_TOKEN = re.compile(r"[^%\t-\r ][^\t-\r ]*")
_KEPT = -1


class StepRefused(ValueError):
    """A derivation that doesn't follow from its reason; the text is the page of `vipr explain
    --long`."""


class Handle(int):
    """The index of a constraint that was written, by which derivations name it. It knows the
    constraint's name."""

    name: str

    def __new__(cls, index: int, name: str = "") -> Handle:
        made = super().__new__(cls, index)
        made.name = name
        return made

    def __repr__(self) -> str:
        return f"<constraint {int(self)} {self.name}>"

    def __str__(self) -> str:
        return str(int(self))


class Sides(NamedTuple):
    """The constraints that say the sides of a row; None for a side that is infinite. An equation
    says both."""

    lower: Optional[Handle]
    upper: Optional[Handle]


def _exact(value: Exact) -> Number:
    """A number's value, a Fraction only if it isn't whole. Floats are refused: they hide what was
    meant."""
    if isinstance(value, Decimal):
        if not value.is_finite():
            raise ValueError(f"{value} is no number")
        value = Fraction(value)
    if isinstance(value, bool) or not isinstance(value, (int, Fraction)):
        raise TypeError(f"a number is an int, a Fraction or a Decimal, not {type(value).__name__}")
    return value.numerator if value.denominator == 1 else value


def _number(value: Exact) -> str:
    """A number as the format has it."""
    exact = _exact(value)
    if max(abs(exact.numerator), exact.denominator) > LARGEST:
        raise ValueError(f"{exact} is past 2^127 - 1, the limit of `vipr`")
    return str(exact)


def _value(number: str) -> Number:
    """The value of a number that was written."""
    return Fraction(number) if "/" in number else int(number)


def _name(name: str) -> str:
    if not isinstance(name, str):
        raise TypeError(f"a name is a str, not {type(name).__name__}")
    if not _TOKEN.fullmatch(name) or len(encoded(name)) > LONGEST_TOKEN:
        raise ValueError(
            f"{name[:40]!r} is no name: it has white space, begins with %, or is empty or too long"
        )
    return name


def _index(constraint: int) -> int:
    """The index of a constraint. Whoever gives a name in place of a handle is told so."""
    try:
        return int(operator.index(constraint))
    except TypeError:
        given = type(constraint).__name__
        raise TypeError(f"a constraint is its handle or its index, not {given}") from None


def _opened(file: Target) -> IO[bytes]:
    """A stream of bytes. A file that is named is opened now, so that it is known before a search
    that it can be written."""
    if isinstance(file, (str, os.PathLike)):
        return open(file, "ab")
    # (what wraps a text stream, as a temporary file does, has its encoding)
    is_text = isinstance(file, io.TextIOBase) or hasattr(file, "encoding")
    if is_text or not hasattr(file, "write") or not getattr(file, "writable", lambda: True)():
        raise TypeError(
            "a certificate is bytes: give a path, a file that is open in the mode wb, or sys.stdout.buffer"
        )
    return file


class Writer:
    """A certificate that is written as a solver finds it, to a path or to a stream of bytes.

    `objective` has a coefficient for each variable, in the order of their indices; one that isn't
    in the objective has 0. `integers` names the integral ones. A wrong call raises ValueError with
    the reason: a name, a sense or a constraint that isn't there, a solution that isn't feasible, a
    claim that no solution attains, a call after the block. What has another type raises TypeError,
    a float too.
    """

    def __init__(
        self,
        file: Target,
        objective: Mapping[str, Exact],
        *,
        integers: Iterable[str] = (),
        maximize: bool = False,
        checks: bool = False,
        profile: int = 1,
    ) -> None:
        self.maximizes, self.checks, self.profile = maximize, checks, profile
        self.variables = {_name(name): index for index, name in enumerate(objective)}
        self.integers = {self._variable(name) for name in integers}
        self.objective = self._row(objective)
        self.costs = {name: _exact(value) for name, value in objective.items() if value}
        self.constraints: List[str] = []
        self.bound_count = 0
        self.solutions: List[str] = []
        self.best: Optional[Number] = None
        self.attained: Optional[Number] = None
        self.claimed: Optional[str] = None
        self.uses_cutoff = False
        # of each derivation its last reference, where its line begins in the temporary file, and
        # whether it is assumed
        self.lasts, self.begins, self.assumed = array("q"), array("q"), bytearray()
        self.is_own, self.made = False, ""
        if isinstance(file, (str, os.PathLike)):
            # (a file that wasn't there goes again if an error ends the block)
            self.is_own, self.made = True, "" if os.path.lexists(file) else os.path.abspath(file)
        self.file = _opened(file)
        self.derived: IO[bytes] = tempfile.TemporaryFile()

    def __enter__(self) -> Writer:
        return self

    def __exit__(
        self,
        error: Optional[Type[BaseException]],
        _: Optional[BaseException],
        __: Optional[TracebackType],
    ) -> None:
        is_written = False
        try:
            if error is None:
                self._check_claim()
                if self.is_own and self.file.seekable():
                    self.file.truncate(0)
                self.file.writelines(self._lines())
                is_written = True
        finally:
            self.derived.close()
            if self.is_own:
                self.file.close()
            if self.made and not is_written:
                os.unlink(self.made)

    # ---- the problem

    def constraint(self, sense: str, bound: Exact, row: Named, name: str = "") -> Handle:
        """A constraint of the problem: `L` at most, `G` at least, or `E` equal."""
        if self.lasts:
            raise ValueError("the constraints of the problem come before the derivations")
        index = Handle(self._next(), name or f"c{self._next()}")
        self.constraints.append(self._constraint(sense, bound, row, index.name))
        return index

    def sides(
        self, lower: Optional[Exact], row: Named, upper: Optional[Exact], name: str = ""
    ) -> Sides:
        """The constraints of `lower <= row <= upper`: an equation, two inequalities, or one; None
        is an infinite side."""
        name = name or f"c{self._next()}"
        if lower is not None and lower == upper:
            both = self.constraint("E", lower, row, name)
            return Sides(both, both)
        is_two = lower is not None and upper is not None
        least = most = None
        if lower is not None:
            least = self.constraint("G", lower, row, f"{name}_lo" if is_two else name)
        if upper is not None:
            most = self.constraint("L", upper, row, f"{name}_up" if is_two else name)
        return Sides(least, most)

    def bounds(self, variable: str, lower: Optional[Exact], upper: Optional[Exact]) -> Sides:
        """The bounds of a variable as constraints, which the certificate counts as bounds."""
        before = self._next()
        found = self.sides(lower, {variable: 1}, upper, variable)
        self.bound_count += self._next() - before
        return found

    # ---- what is claimed

    def solution(self, values: Mapping[str, Exact], name: str = "") -> Number:
        """A solution; a variable that isn't named is 0. Gives its objective value."""
        self._check_open()
        listed = f'{_name(name or f"s{len(self.solutions)}")} {self._row(values)}'
        exact = {variable: _exact(value) for variable, value in values.items() if value}
        self._check_solution(exact)
        value = sum(cost * exact.get(variable, 0) for variable, cost in self.costs.items())
        if self.best is None or (value > self.best if self.maximizes else value < self.best):
            self.best = value
        self.solutions.append(listed)
        return value

    def claim(self, lower: Optional[Exact], upper: Optional[Exact]) -> None:
        """Claims that the optimum lies between these bounds; None claims nothing on that side."""
        self._check_open()
        if lower is not None and upper is not None and lower > upper:
            raise ValueError(f"the lower bound {lower} is above the upper bound {upper}")
        below = "-inf" if lower is None else _number(lower)
        self.claimed = f'range {below} {"inf" if upper is None else _number(upper)}'
        primal = lower if self.maximizes else upper
        self.attained = None if primal is None else _exact(primal)

    def claim_infeasible(self) -> None:
        """Claims that the problem is infeasible."""
        self._check_open()
        self.claimed, self.attained = "infeas", None

    # ---- derivations

    def asm(self, sense: str, bound: Exact, row: Named, name: str = "") -> Handle:
        """An assumption, such as a branch."""
        return self._derive("asm", [], sense, bound, row, name or f"a{self._next()}")

    def branch(self, row: Named, bound: Exact) -> Tuple[Handle, Handle]:
        """The assumptions `row <= bound` and `row >= bound + 1`, of which one holds at each
        integral point."""
        number = _exact(bound)
        if isinstance(number, Fraction):
            raise ValueError(f"a branch has an integer as its bound, not {number}")
        for name, value in {} if isinstance(row, _Objective) else row.items():
            if self._variable(name) not in self.integers or _exact(value).denominator != 1:
                raise ValueError(
                    f"a branch has integer coefficients at integer variables, unlike {value} {name}"
                )
        return self.asm("L", number, row), self.asm("G", number + 1, row)

    def lin(self, sense: str, bound: Exact, row: Named, entries: Entries, name: str = "") -> Handle:
        """A constraint that a sum implies: of each entry a constraint and its multiplier."""
        return self._sum("lin", sense, bound, row, entries, name)

    def rnd(self, sense: str, bound: Exact, row: Named, entries: Entries, name: str = "") -> Handle:
        """The same, with the sum's right-hand side rounded."""
        return self._sum("rnd", sense, bound, row, entries, name)

    def bound(
        self, value: Exact, entries: Entries, *, rounded: bool = False, name: str = ""
    ) -> Handle:
        """A bound of the objective that a sum implies: at least a value under `min`, at most under
        `max`."""
        sense = "L" if self.maximizes else "G"
        return self._sum("rnd" if rounded else "lin", sense, value, OBJECTIVE, entries, name)

    def contradiction(self, entries: Entries, name: str = "") -> Handle:
        """A sum that is true nowhere, stated as `0 >= 1`."""
        return self._sum("lin", "G", 1, {}, entries, name)

    def uns(
        self,
        sense: str,
        bound: Exact,
        row: Named,
        one: int,
        one_assumed: int,
        two: int,
        two_assumed: int,
        name: str = "",
    ) -> Handle:
        """A constraint that holds under each of two branches: a constraint that implies it, and the
        branch's assumption."""
        indices = [_index(constraint) for constraint in (one, one_assumed, two, two_assumed)]
        for index in indices[1::2]:
            at = index - len(self.constraints)
            if not (0 <= at < len(self.assumed) and self.assumed[at]):
                raise ValueError(f"constraint {index} is no assumption")
        reason = f'uns {" ".join(map(str, indices))}'
        return self._derive(reason, indices, sense, bound, row, name or f"d{self._next()}")

    def sol(self, sense: str, bound: Exact, name: str = "") -> Handle:
        """The objective's cutoff by the best solution that is listed so far or later."""
        self.uses_cutoff = True
        return self._derive("sol", [], sense, bound, OBJECTIVE, name or f"d{self._next()}")

    # ---- how they are written

    def _check_open(self) -> None:
        if self.derived.closed:
            raise ValueError("the block has ended, so nothing can be added to its certificate")

    def _variable(self, name: str) -> int:
        if name not in self.variables:
            raise ValueError(f"there is no variable {name!r}")
        return self.variables[name]

    def _row(self, row: Named) -> str:
        if isinstance(row, _Objective):
            return row.value
        if not hasattr(row, "items"):
            given = type(row).__name__
            raise TypeError(f"a row is a dict from names to numbers, or OBJECTIVE, not {given}")
        pairs = [(self._variable(name), _exact(value)) for name, value in row.items()]
        parts = [f"{index} {_number(value)}" for index, value in pairs if value]
        return " ".join([str(len(parts)), *parts])

    def _constraint(self, sense: str, bound: Exact, row: Named, name: str) -> str:
        self._check_open()
        if sense not in ("L", "G", "E"):
            raise ValueError(f"a sense is L, G or E, and not {sense!r}")
        return f"{_name(name)} {sense} {_number(bound)} {self._row(row)}"

    def _next(self) -> int:
        return len(self.constraints) + len(self.lasts)

    def _sum(
        self, word: str, sense: str, bound: Exact, row: Named, entries: Entries, name: str
    ) -> Handle:
        pairs = cast(
            Iterable[Tuple[int, Exact]],
            entries.items() if isinstance(entries, Mapping) else entries,
        )
        exact = [(_index(index), _exact(multiplier)) for index, multiplier in pairs]
        used = [(index, multiplier) for index, multiplier in exact if multiplier]
        parts = [f"{index} {_number(multiplier)}" for index, multiplier in used]
        reason = " ".join([word, str(len(parts)), *parts])
        named = [index for index, _ in used]
        return self._derive(reason, named, sense, bound, row, name or f"d{self._next()}")

    def _derive(
        self, reason: str, named: List[int], sense: str, bound: Exact, row: Named, name: str
    ) -> Handle:
        stated = self._constraint(sense, bound, row, name)
        index, first = self._next(), len(self.constraints)
        for named_index in named:
            if not 0 <= named_index < index:
                raise ValueError(f"there is no constraint {named_index} yet")
        if self.checks:
            self._check(stated, reason, named)
        for named_index in named:
            if named_index >= first:
                self.lasts[named_index - first] = index
        self.lasts.append(_KEPT)
        self.assumed.append(reason == "asm")
        self.begins.append(self.derived.seek(0, io.SEEK_END))
        self.derived.write(encoded(f"{stated} {{ {reason} }}\n"))
        return Handle(index, name)

    def _stated(self, index: int) -> str:
        """A constraint as it was written."""
        if index < len(self.constraints):
            return self.constraints[index]
        self.derived.seek(self.begins[index - len(self.constraints)])
        return self.derived.readline().decode("utf-8", "surrogateescape").partition(" {")[0]

    def _check(self, stated: str, reason: str, named: List[int]) -> None:
        """Has the library check one derivation: over the constraints that it names, of which
        branches are assumed."""
        word, *rest = reason.split(" ")
        branches = rest[1::2] if word == "uns" else []
        assumed = sorted({int(index) for index in branches})
        given = [index for index in sorted(set(named)) if index not in assumed]
        place = {index: str(at) for at, index in enumerate([*given, *assumed])}
        if word == "uns":
            reason = " ".join([word, *(place[int(index)] for index in rest)])
        elif named:
            pairs = (
                place[int(number)] if at % 2 == 0 else number for at, number in enumerate(rest[1:])
            )
            reason = " ".join([word, rest[0], *pairs])
        # (a listed solution may break what was derived from it or in a branch)
        solutions = self.solutions if word == "sol" else []
        head = self._head([self._stated(index) for index in given], 0, "range -inf inf", solutions)
        asms = [f"{self._stated(index)} {{ asm }} -1" for index in assumed]
        lines = [*head, f"DER {len(asms) + 1}", *asms, f"{stated} {{ {reason} }} -1", ""]
        text = encoded("\n".join(lines))
        if not check(text, self.profile):
            page = explain_long(text, "this derivation", self.profile)
            raise StepRefused(page.decode(errors="replace"))

    def _check_solution(self, values: Mapping[str, Number]) -> None:
        """Raises ValueError if a point isn't feasible."""
        point = {self._variable(name): value for name, value in values.items()}
        for name, value in values.items():
            if self.variables[name] in self.integers and value.denominator != 1:
                raise ValueError(f"{name} is an integer variable, and {value} isn't an integer")
        for line in self.constraints:
            name, sense, bound, *row = line.split(" ")
            if row == [OBJECTIVE.value]:
                row = self.objective.split(" ")
            pairs = zip(map(int, row[1::2]), map(_value, row[2::2]))
            value = sum(factor * point[at] for at, factor in pairs if at in point)
            side = _value(bound)
            if (value < side and sense in "GE") or (value > side and sense in "LE"):
                raise ValueError(
                    f"the solution breaks the constraint {name}: {value} {sense} {side}"
                )

    def _check_claim(self) -> None:
        """Raises ValueError if the claim has no solution that it needs."""
        if self.claimed is None:
            raise ValueError("nothing is claimed: claim or claim_infeasible is missing")
        if self.uses_cutoff and self.best is None:
            raise ValueError("a derivation is the cutoff, and no solution is listed")
        wanted, best = self.attained, self.best
        if wanted is not None:
            if best is None or (best < wanted if self.maximizes else best > wanted):
                raise ValueError(f"no listed solution attains {wanted}; the best is {best}")

    def _head(
        self, constraints: List[str], bounds: int, claim: str, solutions: List[str]
    ) -> List[str]:
        """The lines in front of the derivations."""
        return [
            "VER 1.0",
            f"VAR {len(self.variables)}",
            *self.variables,
            f"INT {len(self.integers)}",
            " ".join(map(str, sorted(self.integers))),
            f'OBJ {"max" if self.maximizes else "min"}',
            self.objective,
            f"CON {len(constraints)} {bounds}",
            *constraints,
            f"RTP {claim}",
            f"SOL {len(solutions)}",
            *solutions,
        ]

    def _lines(self) -> Iterator[bytes]:
        head = self._head(self.constraints, self.bound_count, self.claimed or "", self.solutions)
        for line in [*head, f"DER {len(self.lasts)}"]:
            yield encoded(f"{line}\n")
        self.derived.seek(0)
        for written, last in zip(self.derived, self.lasts):
            yield b"%s %d\n" % (written[:-1], last)
