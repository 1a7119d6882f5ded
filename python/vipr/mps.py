"""MPS files that have one meaning, read exactly.

MPS has no standard, and tools read some texts in different ways. This reader takes the texts that
all read alike. It refuses any other at its line, with a cause that says what is unclear;
docs/USE.md lists them. Nothing proves it.

A point gives each column a value. A row's sides are its least and its greatest value, None for
none; so are a column's.
"""
from __future__ import annotations

import enum
import functools
import io
import re
from dataclasses import dataclass, field
from fractions import Fraction
from typing import Callable, Dict, Iterator, List, Optional, Set, Tuple, TypeVar, Union

from .certificate import LARGEST, STEP, Number, Progress, Row
from .files import decoded, printable

Sides = Tuple[Optional[Number], Optional[Number]]
Part = TypeVar("Part")
SECTIONS = [b"NAME", b"OBJSENSE", b"ROWS", b"COLUMNS", b"RHS", b"RANGES", b"BOUNDS", b"ENDATA"]
REQUIRED = {b"NAME", b"ROWS", b"COLUMNS", b"ENDATA"}
WHITE = b" \t\r\v\f"
UNCLEAR = 10**20  # tools take a number from here on for infinite
MAXIMIZE, MINIMIZE = (b"MAX", b"MAXIMIZE"), (b"MIN", b"MINIMIZE")
INFINITE = {
    sign + word: sign != b"-"
    for sign in (b"", b"+", b"-")
    for word in (b"inf", b"Inf", b"infinity", b"Infinity")
}
_DECIMAL = re.compile(rb"([+-]?)(?:([0-9]+)(?:\.([0-9]*))?|\.([0-9]+))(?:[eE]([+-]?)([0-9]+))?")


class Cause(enum.IntEnum):
    """Why a file is refused, from 101 on, and how a certificate's problem differs from it, from 201
    on."""

    PROBLEM_ENDS = 101
    UNKNOWN_SECTION = 102
    SECTION_ORDER = 103
    FIELD_COUNT = 104
    BAD_ROW_TYPE = 105
    REPEATED_ROW = 106
    NO_OBJECTIVE = 107
    UNKNOWN_ROW = 108
    REPEATED_COLUMN = 109
    REPEATED_ENTRY = 110
    BAD_MARKER = 111
    BAD_DECIMAL = 112
    DECIMAL_TOO_LARGE = 113
    SECOND_SET = 114
    UNKNOWN_COLUMN = 115
    BAD_BOUND_TYPE = 116
    REPEATED_BOUND = 117
    UNCLEAR_INFINITY = 118
    BAD_DIRECTION = 119
    RANGE_OF_FREE_ROW = 120
    TEXT_BEHIND = 121
    UNCLEAR_SET = 122
    UNCLEAR_LOWER = 124
    UNCLEAR_INTEGER = 125
    UNCLEAR_NAME = 126
    RANGE_TOO_LARGE = 127
    NAMES_REPEAT = 201
    NOT_A_COLUMN = 202
    NOT_A_VARIABLE = 203
    WHOLE_DIFFERS = 204
    DIRECTION_DIFFERS = 205
    OBJECTIVE_DIFFERS = 206
    NOT_IN_FILE = 207
    NOT_IN_CERTIFICATE = 208

    @property
    def word(self) -> str:
        """The name that is printed, as UnclearInteger."""
        return self.name.title().replace("_", "")


class Refused(Exception):
    """A fault of a file or a difference: its cause, its place (a line of the file is `line N`), and
    what shows it, a line each."""

    def __init__(self, cause: Cause, place: str, *shown: str):
        super().__init__(f"refused {int(cause)} at {place}")
        self.cause, self.place, self.shown = cause, place, shown


@dataclass
class Column:
    """A column: its number, the line that it begins at, whether it is whole, and what lines of
    BOUNDS set."""

    __slots__ = "number", "line", "is_whole", "lower", "upper"
    number: int
    line: int
    is_whole: bool
    lower: Optional[Tuple[Optional[Number], int]]
    upper: Optional[Tuple[Optional[Number], int]]

    def sides(self) -> Sides:
        """Its bounds: from 0 on, if no line says otherwise."""
        return (0 if self.lower is None else self.lower[0]), (
            None if self.upper is None else self.upper[0]
        )

    def last_line(self) -> int:
        """The last line of BOUNDS that sets a side, or else the line that it begins at."""
        return max((set_by[1] for set_by in (self.lower, self.upper) if set_by), default=self.line)


@dataclass
class MpsFile:
    """What a file says; names are str, as those of a certificate. `objective` is the name of its
    first row of type N, and `entries` has for each row the coefficients that are written, by the
    number of the column."""

    maximizes: bool = False
    has_direction: bool = False
    objective: str = ""
    rows: Dict[str, Tuple[str, int]] = field(default_factory=dict)
    entries: Dict[str, Row] = field(default_factory=dict)
    columns: Dict[str, Column] = field(default_factory=dict)
    right_sides: Dict[str, Tuple[Number, int]] = field(default_factory=dict)
    ranges: Dict[str, Tuple[Number, int]] = field(default_factory=dict)

    def right_side(self, name: str) -> Number:
        """The number that RHS gives a row, 0 without one."""
        found = self.right_sides.get(name)
        return found[0] if found else 0

    def sides(self, name: str) -> Sides:
        """The sides of a row."""
        kind, right = self.rows[name][0], self.right_side(name)
        if kind == "N":
            return None, None
        if name not in self.ranges:
            return (right if kind in "GE" else None), (right if kind in "LE" else None)
        size = self.ranges[name][0]
        if kind == "E":
            return min(right, right + size), max(right, right + size)
        return (right - magnitude(size), right) if kind == "L" else (right, right + magnitude(size))

    def constant(self) -> Number:
        """The number that RHS gives the objective's row. Tools add it, subtract it or ignore it;
        the row has none."""
        return self.right_side(self.objective)


def magnitude(value: Number) -> Number:
    return -value if value < 0 else value


def is_short_integer(token: bytes) -> bool:
    """Whether a token is an integer that is surely within the limit."""
    return len(token) < 39 and (token.isdigit() or (token[:1] == b"-" and token[1:].isdigit()))


@functools.lru_cache(maxsize=1 << 16)
def decimal(token: bytes) -> Optional[Number]:
    """The exact value of a decimal, or None if the token is none. Raises OverflowError past the
    limit."""
    match = _DECIMAL.fullmatch(token)
    if not match:
        return None
    sign, whole, behind, alone, minus, power = match.groups()
    fraction = behind or alone or b""
    digits = ((whole or b"") + fraction).lstrip(b"0")
    short = digits.rstrip(b"0")
    if not short:
        return 0
    power = (power or b"").lstrip(b"0")
    exponent = int(power or b"0") if len(power) <= 9 else 10**9
    exponent = (-exponent if minus == b"-" else exponent) - len(fraction) + len(digits) - len(short)
    if len(short) > 39 or not -38 <= exponent <= 38 or int(short) > LARGEST:
        raise OverflowError
    value: Number = (
        int(short) * 10**exponent if exponent >= 0 else Fraction(int(short), 10**-exponent)
    )
    if magnitude(value) > LARGEST:
        raise OverflowError
    return -value if sign == b"-" else value


class _Reader:
    """A file that is being read, line by line."""

    def __init__(self, infinity: Number) -> None:
        self.maximizes: Optional[bool] = None
        self.objective: Optional[bytes] = None
        self.rows: Dict[bytes, Tuple[str, int]] = {}
        self.entries: Dict[bytes, Row] = {}
        self.columns: Dict[bytes, Column] = {}
        self.right_sides: Dict[bytes, Tuple[Number, int]] = {}
        self.ranges: Dict[bytes, Tuple[Number, int]] = {}
        self.infinity = infinity
        self.unclear: Number = infinity if infinity else UNCLEAR
        self.section = b""
        self.seen: Set[bytes] = set()
        self.line = 0
        self.is_marked = False
        # the column at hand, and its number
        self.column: Optional[bytes] = None
        self.at = 0
        self.sets: Dict[bytes, Optional[bytes]] = {}
        self.readers: Dict[bytes, Callable[[List[bytes]], None]] = {
            b"ROWS": self.row,
            b"COLUMNS": self.entry,
            b"RHS": self.right_side,
            b"RANGES": self.range_,
            b"BOUNDS": self.bound,
        }

    def fault(self, cause: Cause, *tokens: Union[bytes, str]) -> Refused:
        return Refused(
            cause,
            f"line {self.line}",
            f"cause {cause.word}",
            *(f"field {printable(token)}" for token in tokens),
        )

    def lines(self, text: bytes, progress: Optional[Progress]) -> None:
        stream = io.BytesIO(text)
        for self.line, line in enumerate(stream, 1):
            if progress and self.line % STEP == 0:
                progress(stream.tell())
            fields = line.split()
            if len(fields) == 3 and fields[0] == self.column and self.is_plain_entry(line, fields):
                continue
            if not fields or line[:1] == b"*":
                continue
            if self.section == b"ENDATA":
                raise self.fault(Cause.TEXT_BEHIND)
            if line[0] not in WHITE:
                self.open(fields)
                continue
            if self.section in (b"", b"NAME"):
                raise self.fault(Cause.SECTION_ORDER)
            if self.section == b"OBJSENSE":
                if self.maximizes is not None or len(fields) != 1:
                    raise self.fault(Cause.FIELD_COUNT)
                self.direction(fields[0])
                continue
            if b"$" in line:
                fields = fields[
                    : next((at for at, word in enumerate(fields) if at and word[:1] == b"$"), None)
                ]
            self.readers[self.section](fields)
        if self.section != b"ENDATA":
            self.line += 1
            raise self.fault(Cause.PROBLEM_ENDS)

    def open(self, fields: List[bytes]) -> None:
        """A line that opens a section: each comes once, in order, and those of REQUIRED come."""
        word = fields[0]
        if word not in SECTIONS:
            raise self.fault(Cause.UNKNOWN_SECTION, word)
        skipped = SECTIONS[: SECTIONS.index(word)]
        if any(section not in skipped for section in self.seen) or any(
            section in REQUIRED and section not in self.seen for section in skipped
        ):
            raise self.fault(Cause.SECTION_ORDER, word)
        if self.section == b"OBJSENSE" and self.maximizes is None:
            raise self.fault(Cause.BAD_DIRECTION)
        if self.section == b"ROWS" and self.objective is None:
            raise self.fault(Cause.NO_OBJECTIVE)
        if word == b"OBJSENSE" and len(fields) == 2:
            self.direction(fields[1])
        elif word != b"NAME" and len(fields) > 1:
            raise self.fault(Cause.FIELD_COUNT)
        self.seen.add(word)
        self.section, self.column = word, None

    def direction(self, word: bytes) -> None:
        if word not in MAXIMIZE + MINIMIZE:
            raise self.fault(Cause.BAD_DIRECTION, word)
        self.maximizes = word in MAXIMIZE

    def row(self, fields: List[bytes]) -> None:
        if len(fields) != 2:
            raise self.fault(Cause.FIELD_COUNT)
        kind, name = fields
        if kind not in (b"N", b"L", b"G", b"E"):
            raise self.fault(Cause.BAD_ROW_TYPE, kind)
        if name in self.rows:
            raise self.fault(Cause.REPEATED_ROW, name)
        self.rows[name], self.entries[name] = (kind.decode(), self.line), {}
        if kind == b"N" and self.objective is None:
            self.objective = name

    def entry(self, fields: List[bytes]) -> None:
        """A line of COLUMNS: a marker, or a column with one pair or two. The lines of a column
        follow each other."""
        if len(fields) not in (3, 5):
            raise self.fault(Cause.FIELD_COUNT)
        name = fields[0]
        if fields[1] == b"'MARKER'":
            if fields[2:] != [b"'INTEND'" if self.is_marked else b"'INTORG'"]:
                raise self.fault(Cause.BAD_MARKER, *fields[2:])
            self.is_marked, self.column = not self.is_marked, None
            return
        if name[:1] == b"$":
            raise self.fault(Cause.UNCLEAR_NAME, name)
        if name != self.column:
            if name in self.columns:
                raise self.fault(Cause.REPEATED_COLUMN, name)
            self.columns[name] = Column(len(self.columns), self.line, self.is_marked, None, None)
            self.column, self.at = name, self.columns[name].number
        column = self.at
        for at in range(1, len(fields), 2):
            row = self.entries.get(fields[at])
            if row is None:
                raise self.fault(Cause.UNKNOWN_ROW, fields[at])
            value = self.number(fields[at + 1])
            if column in row:
                raise self.fault(Cause.REPEATED_ENTRY, fields[at])
            row[column] = value

    def is_plain_entry(self, line: bytes, fields: List[bytes]) -> bool:
        """Takes one more entry of the column at hand, if nothing about it needs a second look: most
        lines are such ones."""
        row, token = self.entries.get(fields[1]), fields[2]
        if (
            row is None
            or self.at in row
            or not is_short_integer(token)
            or line[0] not in WHITE
            or b"$" in line
        ):
            return False
        row[self.at] = int(token)
        return True

    def pairs(
        self, fields: List[bytes], before: Dict[bytes, Tuple[Number, int]]
    ) -> Iterator[Tuple[bytes, Number]]:
        """Pairs of a row and a number; no row comes twice."""
        for row, token in zip(fields[::2], fields[1::2]):
            if row not in self.rows:
                raise self.fault(Cause.UNKNOWN_ROW, row)
            if self.section == b"RANGES" and self.rows[row][0] == "N":
                raise self.fault(Cause.RANGE_OF_FREE_ROW, row)
            value = self.number(token)
            if magnitude(value) >= self.unclear:
                raise self.fault(Cause.UNCLEAR_INFINITY, token)
            if row in before:
                raise self.fault(Cause.REPEATED_ENTRY, row)
            yield row, value

    def number(self, token: bytes) -> Number:
        if is_short_integer(token):
            return int(token)
        try:
            value = decimal(token)
        except OverflowError:
            raise self.fault(Cause.DECIMAL_TOO_LARGE, token) from None
        if value is None:
            raise self.fault(Cause.BAD_DECIMAL, token)
        return value

    def right_side(self, fields: List[bytes]) -> None:
        self.sized(fields, self.right_sides)

    def range_(self, fields: List[bytes]) -> None:
        self.sized(fields, self.ranges)

    def sized(self, fields: List[bytes], before: Dict[bytes, Tuple[Number, int]]) -> None:
        """A line of RHS or RANGES: a set's name or none, and one pair or two."""
        if not 2 <= len(fields) <= 5:
            raise self.fault(Cause.FIELD_COUNT)
        named = len(fields) % 2
        self.same_set(fields[0] if named else None)
        for row, value in self.pairs(fields[named:], before):
            before[row] = value, self.line

    def same_set(self, name: Optional[bytes]) -> None:
        """All lines of a section are of one set: all have its name, or none has one."""
        if self.sets.setdefault(self.section, name) != name:
            raise self.fault(Cause.SECOND_SET, *([name] if name else []))

    def bound(self, fields: List[bytes]) -> None:
        """A line of BOUNDS: it sets sides, and each side of a column is set at most once."""
        kind = fields[0]
        if kind in (b"UP", b"LO", b"FX", b"UI", b"LI"):
            if len(fields) not in (3, 4):
                raise self.fault(Cause.FIELD_COUNT)
            *front, name, token = fields[1:]
        elif kind in (b"FR", b"MI", b"PL", b"BV"):
            if not 2 <= len(fields) <= 4:
                raise self.fault(Cause.FIELD_COUNT)
            if len(fields) == 4:
                self.infinite_or_number(fields.pop())
            *front, name = fields[1:]
        else:
            raise self.fault(Cause.BAD_BOUND_TYPE, kind)
        if front and front[0] in self.columns:
            raise self.fault(Cause.UNCLEAR_SET, front[0])
        self.same_set(front[0] if front else None)
        if name not in self.columns:
            raise self.fault(Cause.UNKNOWN_COLUMN, name)
        column = self.columns[name]
        lower = upper = None
        if kind in (b"UP", b"UI"):
            upper = self.side(token, True), self.line
        elif kind in (b"LO", b"LI"):
            lower = self.side(token, False), self.line
        elif kind == b"FX":
            lower = upper = self.side(token, None), self.line
        else:
            lower = {b"FR": (None, self.line), b"MI": (None, self.line), b"BV": (0, self.line)}.get(
                kind
            )
            upper = {b"FR": (None, self.line), b"PL": (None, self.line), b"BV": (1, self.line)}.get(
                kind
            )
        if (lower and column.lower) or (upper and column.upper):
            raise self.fault(Cause.REPEATED_BOUND, name)
        column.lower, column.upper = lower or column.lower, upper or column.upper
        column.is_whole = column.is_whole or kind in (b"BV", b"LI", b"UI")

    def infinite_or_number(self, token: bytes) -> None:
        """A number after a bound that needs none: it counts for nothing."""
        try:
            if token not in INFINITE and decimal(token) is None:
                raise self.fault(Cause.BAD_DECIMAL, token)
        except OverflowError:
            pass

    def side(self, token: bytes, infinite: Optional[bool]) -> Optional[Number]:
        """A bound's number, or None for the infinity that it may be: True is the positive one."""
        if token in INFINITE:
            if INFINITE[token] is not infinite:
                raise self.fault(Cause.UNCLEAR_INFINITY, token)
            return None
        value = self.number(token)
        if magnitude(value) >= self.unclear:
            if not self.infinity or (value > 0) is not infinite:
                raise self.fault(Cause.UNCLEAR_INFINITY, token)
            return None
        return value

    def made(self) -> MpsFile:
        """The file, with names that are str."""

        def named(values: Dict[bytes, Part]) -> Dict[str, Part]:
            return {decoded(name): value for name, value in values.items()}

        return MpsFile(
            bool(self.maximizes),
            self.maximizes is not None,
            decoded(self.objective or b""),
            named(self.rows),
            named(self.entries),
            named(self.columns),
            named(self.right_sides),
            named(self.ranges),
        )

    def whole(self, file: MpsFile, integers: Optional[str]) -> None:
        """What only the whole file shows: an upper bound below 0 alone, an integer column without
        an upper bound, and a range past the limit."""
        for name, column in file.columns.items():
            upper = column.upper
            if column.lower is None and upper is not None and upper[0] is not None and upper[0] < 0:
                self.line = upper[1]
                raise self.fault(Cause.UNCLEAR_LOWER, name)
            if column.is_whole and upper is None:
                if integers is None:
                    self.line = column.line
                    raise self.fault(Cause.UNCLEAR_INTEGER, name)
                column.upper = (1 if integers == "one" else None), column.line
        for name, (_, line) in file.ranges.items():
            if any(
                side is not None and max(abs(side.numerator), side.denominator) > LARGEST
                for side in file.sides(name)
            ):
                self.line = line
                raise self.fault(Cause.RANGE_TOO_LARGE, name)


def read_mps(
    text: bytes,
    integers: Optional[str] = None,
    maximize: bool = False,
    infinity: Number = 0,
    progress: Optional[Progress] = None,
) -> MpsFile:
    """The file that a text spells. Raises Refused.

    `integers` is the upper bound of an integer column that no line gives one: 'one' or 'inf';
    without it such a file is refused. With `maximize` a file without a direction is to be
    maximized, and one with a direction is refused. A bound of `infinity` or more is infinite, and
    all smaller ones are numbers; without it a bound of 1e20 or more is refused. Now and then
    `progress` is told how many bytes were read.
    """
    reader = _Reader(infinity)
    reader.lines(text, progress)
    file = reader.made()
    reader.whole(file, integers)
    if maximize:
        if file.has_direction:
            reader.line = 1
            raise reader.fault(Cause.BAD_DIRECTION)
        file.maximizes = True
    return file
