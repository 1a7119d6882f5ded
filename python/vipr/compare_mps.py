"""Says whether the problem of a certificate is that of an MPS file, exactly, by the names of the
variables.

The first line is one of these:

  problem infeas, problem range LOWER UPPER
                     the problems are the same, and this is the certificate's claim as one of the file's problem
  refused N at line L
                     line L of the file is unclear or wrong (101 to 127), or says what the certificate doesn't (203, 208)
  refused N at VAR J, OBJ, CON I
                     the certificate's variable J, its objective or its constraint I isn't the file's (201 to 207)
  refused N at byte K
                     the certificate's text is at fault there, as for `vipr check`

The lines after it show the fault. `constant V` says that RHS gives the objective's row the number
V, which is in no bound: tools add it, subtract it or ignore it. Nothing proves this comparison, and
it doesn't check the proof: with --check the library does, over the same bytes, and its lines come
first.

The exit status is 0 if the problems are the same (and the certificate is verified), 1 if not, 2 if
the command line isn't understood, and 3 if a file can't be read.
"""
from __future__ import annotations

import argparse
import gc
import os
import sys
from array import array
from fractions import Fraction
from itertools import islice
from typing import Dict, List, Optional, Tuple, Union, cast

from . import algebra, library
from .certificate import STEP, Number, Problem, Progress, Row, read_problem
from .files import FAILED, REFUSED, VERIFIED, Alive, Parser, printable, read_file, run
from .mps import Cause, MpsFile, Refused, Sides, decimal, read_mps
from .proof import whole_row
from .verdict import Claim

LEAST_INFINITY = 10**10
Key = Union[bytes, str]


def key_of(row: Row) -> Key:
    """A value that stands for a row: equal rows have equal ones. Few bytes, if the coefficients are
    short integers.

    Python hashes bytes and texts by a number of its own for each run, so no file can choose rows
    whose hashes meet.
    """
    indices = sorted(row)
    values = [row[index] for index in indices]
    try:
        return array("I", indices).tobytes() + array("q", cast(List[int], values)).tobytes()
    except (OverflowError, TypeError):
        return " ".join(f"{index} {value}" for index, value in zip(indices, values))


def row_of(key: Key) -> Row:
    """The row that a key stands for."""
    if isinstance(key, str):
        words = key.split(" ")
        return dict(zip(map(int, words[::2]), map(Fraction, words[1::2])))
    indices, values = array("I"), array("q")
    count = len(key) // (indices.itemsize + values.itemsize)
    indices.frombytes(key[: count * indices.itemsize])
    values.frombytes(key[count * indices.itemsize :])
    return dict(zip(indices, values))


class Rows:
    """Numbers for rows, one for equal ones: that of a variable alone is the variable. Each row is
    whole or not wherever the integer variables are. The objective's row is looked at once, however
    often `OBJ` stands for it.
    """

    def __init__(self, problem: Problem):
        self.problem, self.first = problem, len(problem.names)
        self.numbers: Dict[Key, int] = {}
        self.wholes = bytearray()
        self.empty = self.number({})
        self.objective = self.number(problem.objective)

    def number(self, row: Row) -> int:
        if len(row) == 1:
            [(index, value)] = row.items()
            if value == 1:
                return index
        found = self.numbers.setdefault(key_of(row), self.first + len(self.wholes))
        if found == self.first + len(self.wholes):
            self.wholes.append(bool(row) and whole_row(row, self.problem.integers))
        return found

    def of(self, row: Row) -> int:
        return self.objective if row is self.problem.objective else self.number(row)

    def row(self, number: int) -> Row:
        """The row of a number."""
        if number < self.first:
            return {number: 1}
        return row_of(next(islice(self.numbers, number - self.first, None)))

    def rounded(self, number: int, sides: Sides) -> Sides:
        """The sides of a row: rounded, if the row is whole at every point in question."""
        is_variable = number < self.first
        if not (
            number in self.problem.integers if is_variable else self.wholes[number - self.first]
        ):
            return sides
        lower, upper = sides
        return (
            None if lower is None else -(-lower.numerator // lower.denominator),
            None if upper is None else upper.numerator // upper.denominator,
        )


class Side:
    """The conditions of one side, the file's or the certificate's, in their order, and each row's
    tightest bounds. It is absurd if a condition is true nowhere."""

    def __init__(self, rows: Rows) -> None:
        self.rows, self.is_absurd = rows, False
        self.numbers = array("Q")
        self.sides: List[Sides] = []
        self.lower: Dict[int, Number] = {}
        self.upper: Dict[int, Number] = {}

    def add(self, row: int, sides: Sides) -> None:
        """One more condition: the number of a row, and its bounds."""
        sides = self.rows.rounded(row, sides)
        self.numbers.append(row)
        self.sides.append(sides)
        lower, upper = sides
        if lower is not None and (row not in self.lower or lower > self.lower[row]):
            self.lower[row] = lower
        if upper is not None and (row not in self.upper or upper < self.upper[row]):
            self.upper[row] = upper
        if row == self.rows.empty and not is_void(sides):
            self.is_absurd = True

    def tightest(self, row: int) -> Sides:
        return self.lower.get(row), self.upper.get(row)

    def says(self, row: int, sides: Sides) -> bool:
        """Whether this side asks as much of a point as these bounds of a row do."""
        low, up = self.tightest(row)
        return (
            self.is_absurd
            or (row == self.rows.empty and is_void(sides))
            or (
                (sides[0] is None or (low is not None and low >= sides[0]))
                and (sides[1] is None or (up is not None and up <= sides[1]))
            )
        )

    def first_unsaid(self, other: Side) -> Optional[int]:
        """The place of the first condition that the other side doesn't ask for."""
        for at, (row, sides) in enumerate(zip(self.numbers, self.sides)):
            if not other.says(row, sides):
                return at
        return None


def is_void(sides: Sides) -> bool:
    """Whether these sides of an empty row are true at every point."""
    return (sides[0] is None or sides[0] <= 0) and (sides[1] is None or sides[1] >= 0)


class Comparison:
    """A file beside a certificate's problem."""

    def __init__(self, file: MpsFile, problem: Problem):
        self.file, self.problem = file, problem
        self.index = self.indices()
        self.variables = [self.index[name] for name in file.columns]
        self.rows = Rows(problem)
        self.objective = self.row(file.objective)

    def row(self, name: str) -> Row:
        """The coefficients of a row of the file, by variable. They are taken out of the file, since
        they need much memory."""
        return {
            self.variables[at]: value for at, value in self.file.entries.pop(name).items() if value
        }

    def name(self, at: int) -> str:
        return printable(self.problem.names[at])

    def indices(self) -> Dict[str, int]:
        """The variable of each name. Each is a column, and each column is one."""
        found: Dict[str, int] = {}
        for at, name in enumerate(self.problem.names):
            if name in found:
                raise Refused(
                    Cause.NAMES_REPEAT,
                    f"VAR {at}",
                    f"cause {Cause.NAMES_REPEAT.word}",
                    f"variable {at} {self.name(at)}",
                    f"variable {found[name]} {self.name(at)}",
                )
            found[name] = at
        for at, name in enumerate(self.problem.names):
            if name not in self.file.columns:
                raise Refused(
                    Cause.NOT_A_COLUMN,
                    f"VAR {at}",
                    f"cause {Cause.NOT_A_COLUMN.word}",
                    f"variable {at} {self.name(at)}",
                )
        for name, column in self.file.columns.items():
            if name not in found:
                raise Refused(
                    Cause.NOT_A_VARIABLE,
                    f"line {column.line}",
                    f"cause {Cause.NOT_A_VARIABLE.word}",
                    f"column {printable(name)}",
                )
        return found

    def check_whole(self) -> None:
        for at, name in enumerate(self.problem.names):
            is_whole = at in self.problem.integers
            if self.file.columns[name].is_whole != is_whole:
                raise Refused(
                    Cause.WHOLE_DIFFERS,
                    f"VAR {at}",
                    f"cause {Cause.WHOLE_DIFFERS.word}",
                    f"variable {at} {self.name(at)}",
                    f'certificate {"whole" if is_whole else "any"}',
                    f'file {"any" if is_whole else "whole"}',
                )

    def is_turned(self) -> bool:
        """Whether the certificate has the negative objective in the other direction."""
        wanted, stated = self.objective, self.problem.objective
        turned = self.file.maximizes != self.problem.maximizes
        if turned and wanted == stated:
            words = ["min", "max"]
            raise Refused(
                Cause.DIRECTION_DIFFERS,
                "OBJ",
                f"cause {Cause.DIRECTION_DIFFERS.word}",
                f"certificate {words[self.problem.maximizes]}",
                f"file {words[self.file.maximizes]}",
            )
        if turned:
            wanted = {index: -value for index, value in wanted.items()}
        if wanted != stated:
            at = min(
                index for index in {*wanted, *stated} if wanted.get(index) != stated.get(index)
            )
            raise Refused(
                Cause.OBJECTIVE_DIFFERS,
                "OBJ",
                f"cause {Cause.OBJECTIVE_DIFFERS.word}",
                f"variable {at} {self.name(at)}",
                f"certificate {stated.get(at, 0)}",
                f'file {wanted.get(at, 0)}{", turned" if turned else ""}',
            )
        return turned

    def of_file(self, progress: Optional[Progress]) -> Side:
        """The conditions of the file: its rows, and its columns."""
        side = Side(self.rows)
        for at, name in enumerate(self.file.rows):
            if progress and at % STEP == 0:
                progress(at)
            row = self.objective if name == self.file.objective else self.row(name)
            side.add(self.rows.number(row), self.file.sides(name))
        for variable, column in zip(self.variables, self.file.columns.values()):
            side.add(variable, column.sides())
        return side

    def of_certificate(self, progress: Optional[Progress]) -> Side:
        """The conditions of the certificate."""
        side = Side(self.rows)
        for at, constraint in enumerate(self.problem.constraints, len(self.file.rows)):
            if progress and at % STEP == 0:
                progress(at)
            lower = constraint.bound if constraint.sense in "GE" else None
            upper = constraint.bound if constraint.sense in "LE" else None
            side.add(self.rows.of(constraint.row), (lower, upper))
        return side

    def named(self, at: int) -> Tuple[int, str]:
        """The line and the name of a condition of the file."""
        if at < len(self.file.rows):
            name, (_, line) = next(islice(self.file.rows.items(), at, None))
            return line, f"row {printable(name)}"
        name, column = next(islice(self.file.columns.items(), at - len(self.file.rows), None))
        return column.last_line(), f"column {printable(name)}"

    def shown(self, side: str, number: int, sides: Sides) -> str:
        """What a side says of a row, between its bounds."""
        if sides == (None, None):
            return f"{side} none"
        row = algebra.row_text(self.rows.row(number), self.problem.names, 12)
        lower, upper = sides
        if lower is not None and lower == upper:
            return f"{side} {row} = {lower}"
        return f'{side} {"" if lower is None else f"{lower} <= "}{row}{"" if upper is None else f" <= {upper}"}'

    def check_conditions(self, progress: Optional[Progress]) -> None:
        """Each side asks as much as the other."""
        file, certificate = self.of_file(progress), self.of_certificate(progress)
        at = certificate.first_unsaid(file)
        if at is not None:
            row, sides = certificate.numbers[at], certificate.sides[at]
            raise Refused(
                Cause.NOT_IN_FILE,
                f"CON {at}",
                f"cause {Cause.NOT_IN_FILE.word}",
                f"constraint {at} {printable(self.problem.constraints[at].name)}",
                self.shown("certificate", row, sides),
                self.shown("file", row, file.tightest(row)),
            )
        at = file.first_unsaid(certificate)
        if at is not None:
            row, sides = file.numbers[at], file.sides[at]
            line, name = self.named(at)
            raise Refused(
                Cause.NOT_IN_CERTIFICATE,
                f"line {line}",
                f"cause {Cause.NOT_IN_CERTIFICATE.word}",
                name,
                self.shown("file", row, sides),
                self.shown("certificate", row, certificate.tightest(row)),
            )

    def claim(self, progress: Optional[Progress] = None) -> Claim:
        """The claim as one of the file's problem. Raises Refused if the problems differ. `progress`
        is told how many rows and constraints were looked at."""
        self.check_whole()
        turned = self.is_turned()
        self.check_conditions(progress)
        return self.problem.claim.turned() if turned else self.problem.claim


def compared(
    model: bytes,
    text: bytes,
    integers: Optional[str] = None,
    maximize: bool = False,
    infinity: Number = 0,
    alive: Optional[Alive] = None,
) -> Tuple[int, List[str]]:
    """The status of a file and a certificate, and the lines to print. `alive` shows how far it
    is."""
    part = alive.part if alive else silent
    try:
        file = read_mps(model, integers, maximize, infinity, part("reading the model", len(model)))
        del model
        problem = read_problem(text, part("reading the certificate", len(text)))
        del text
        if not isinstance(problem, Problem):
            return REFUSED, [str(problem), f"cause {problem.refusal.cause.word}"]
        count = len(file.rows) + len(problem.constraints)
        claim = Comparison(file, problem).claim(part("comparing", count))
    except Refused as fault:
        return REFUSED, [str(fault), *fault.shown]
    constant = file.constant()
    return VERIFIED, [
        f"problem {claim}",
        *([f"constant {constant}"] if constant and not claim.infeasible else []),
    ]


def silent(_words: str, _whole: int) -> None:
    """No progress is shown."""


def infinity(word: str) -> Number:
    """The number of --infinity. A small one would take bounds away."""
    try:
        value = decimal(os.fsencode(word)) or 0
    except OverflowError:
        value = 0
    if value < LEAST_INFINITY:
        raise argparse.ArgumentTypeError(f"{word} is no number from 1e10 to 1e38")
    return value


def command(words: argparse.Namespace) -> int:
    # (each text is let go once it is read)
    texts = [read_file(words.certificate), read_file(words.model)]
    alive = Alive()
    if words.check:
        try:
            with alive.during("checking the proof"):
                verdict = library.check(texts[0], words.profile)
        except library.Error as fault:
            print(fault, file=sys.stderr)
            return FAILED
        finally:
            alive.end()
        print(verdict)
        if not verdict:
            return REFUSED
    status, lines = compared(
        texts.pop(), texts.pop(), words.integers, words.maximize, words.infinity, alive
    )
    alive.end()
    print(*lines, sep="\n")
    return status


def parser() -> Parser:
    made = Parser("compare-mps", __doc__)
    made.add_argument(
        "model",
        metavar="MODEL.mps",
        help="an MPS file; .gz, .xz, .bz2 and .zst are unpacked; - is standard input",
    )
    made.add_argument("certificate", metavar="CERT", help="a certificate, or - for standard input")
    made.add_argument(
        "--maximize",
        action="store_true",
        help="the file gives no direction, and is to be maximized",
    )
    made.add_argument(
        "--integers",
        choices=["one", "inf"],
        help="the upper bound of an integer column that no line gives one; without it such a file is refused",
    )
    made.add_argument(
        "--infinity",
        type=infinity,
        default=0,
        metavar="NUMBER",
        help="bounds of this size or more are infinite, and smaller ones are numbers; without it 1e20 or more is refused",
    )
    made.add_argument(
        "--check", action="store_true", help="check the proof as well, by the library"
    )
    made.add_argument(
        "--profile", type=int, choices=[1, 2], default=1, help="the rules that --check goes by"
    )
    return made


def main() -> int:
    # (nothing here is a ring, and to look for rings among millions of numbers takes a fifth of the
    # time)
    gc.disable()
    made = parser()
    words = made.parse_args()
    if words.model == words.certificate == "-":
        made.error("only one of the two can be standard input")
    return run(lambda: command(words))


if __name__ == "__main__":
    sys.exit(main())
