"""A certificate's text as values, read by docs/FORMAT.md. Nothing proves this reader.

It refuses what `vipr show` refuses, with the same cause and place: a text's faults. Whether the
proof holds isn't tested. A number is an int if it is whole, and a Fraction otherwise. Names are
str; bytes that aren't UTF-8 are kept in them as Python keeps those of file names.

Constraints, solutions and derivations are read once to test the text, and again as they are asked
for: what is kept is the text, and where each begins. Most are matched by one expression. What it
doesn't match is read token by token, which says what is at fault.
"""
from __future__ import annotations

import functools
import mmap
import os
import re
from array import array
from collections.abc import Sequence as AbstractSequence
from dataclasses import dataclass
from fractions import Fraction
from itertools import chain, islice
from operator import length_hint
from typing import (
    Callable,
    Dict,
    Generic,
    Iterator,
    List,
    Match,
    NamedTuple,
    Optional,
    Sequence,
    Set,
    Tuple,
    TypeVar,
    Union,
    overload,
)

from .files import decoded, read_file as bytes_of_file
from .verdict import Cause, Claim, Place, Refusal, Refused

Text = Union[bytes, bytearray, memoryview, mmap.mmap]
Number = Union[int, Fraction]
Row = Dict[int, Number]
Part = TypeVar("Part")
Progress = Callable[[int], None]

LARGEST = 2**127 - 1
LARGEST_COUNT = 2**32 - 1
LONGEST_TOKEN = 65535
MOST_KNOWN, MOST_INDICES = 1 << 12, 1 << 12
LEAST_PIECE, MOST_PIECE = 1 << 9, 1 << 16
STEP = 1 << 12  # of how many items the progress is told
SENSES = {word.encode(): word for word in ("E", "L", "G")}
REASONS = {word.encode(): word for word in ("asm", "lin", "rnd", "uns", "sol")}
_COMMENTS = re.compile(rb"[\t-\r ]*(?:%[^\n]*(?:\n|$)[\t-\r ]*)*")
_TOKEN = re.compile(rb"[^\t-\r ]+")
_WHITE = re.compile(rb"[\t-\r ]")
_NUMBER = re.compile(rb"([+-]?)([0-9]+)(?:/([0-9]+))?")
_BEGINS_WITH_ZERO = re.compile(rb"[\t-\r ][+-]?0")


def _pattern(text: bytes) -> re.Pattern[bytes]:
    """An expression over tokens, with ` ` for white space and a word for each kind of token that
    needs no second look."""
    words = {
        b"NAME": rb"[^\t-\r ]{1,65535}",
        b"NUMBER": rb"[+-]?[0-9]{1,38}(?:/[1-9][0-9]{0,37})?",
        b"INDEX": rb"[0-9]{1,9}",
    }
    text = text.replace(b"PAIRS", rb"(?: INDEX NUMBER)*").replace(b" ", rb"[\t-\r ]+")
    for word, meaning in words.items():
        text = text.replace(word, meaning)
    return re.compile(rb"[\t-\r ]*" + text + rb"(?![^\t-\r ])")


_STATED = rb"(NAME) ([ELG]) (NUMBER) (?:OBJ|(INDEX)(PAIRS))"
_CONSTRAINT = _pattern(_STATED)
_SOLUTION = _pattern(rb"(NAME) (INDEX)(PAIRS)")
_DERIVATION = _pattern(
    _STATED + rb" \{ (?:(asm|sol)|(lin|rnd) (INDEX)(PAIRS)|uns ((?:INDEX ){3}INDEX)) \} (-1|INDEX)"
)


class Constraint(NamedTuple):
    """A name, a sense (`G` at least, `L` at most, `E` equal), a right-hand side, and the nonzero
    coefficients by variable."""

    name: str
    sense: str
    bound: Number
    row: Row

    def __hash__(self) -> int:
        return hash((self.name, self.sense, self.bound, frozenset(self.row.items())))


class Derivation(NamedTuple):
    """A derived constraint and its reason. Under `lin` and `rnd` there are entries, each a
    constraint's index and a multiplier; under `uns` the four indices i1, l1, i2, l2. `last` is None
    for the last reference -1.
    """

    constraint: Constraint
    reason: str
    entries: Tuple[Tuple[int, Number], ...]
    indices: Tuple[int, ...]
    last: Optional[int]

    def named(self) -> Tuple[int, ...]:
        """The constraints that the reason rests on: an entry with multiplier 0 is no reference."""
        return self.indices or tuple(index for index, multiplier in self.entries if multiplier)


class Solution(NamedTuple):
    """A listed solution: the nonzero values by variable."""

    name: str
    values: Row

    def __hash__(self) -> int:
        return hash((self.name, frozenset(self.values.items())))


@dataclass(frozen=True)
class Problem:
    """The problem of a certificate, with its claim. `bounds` is how many of the constraints it
    counts as bounds."""

    names: List[str]
    integers: Set[int]
    maximizes: bool
    objective: Row
    bounds: int
    constraints: Sequence[Constraint]
    claim: Claim


@dataclass(frozen=True)
class Certificate:
    """A problem, solutions and derivations. The first derived constraint has the index
    len(problem.constraints)."""

    problem: Problem
    solutions: Sequence[Solution]
    derivations: Sequence[Derivation]

    def constraint(self, index: int) -> Constraint:
        """A constraint by its index, of the problem or derived."""
        count = len(self.problem.constraints)
        if index < count:
            return self.problem.constraints[index]
        found = self.derivations
        return (
            found.constraint(index - count)
            if isinstance(found, Derivations)
            else found[index - count].constraint
        )

    def lines(self) -> Iterator[str]:
        """Each constraint as the text spells it, with one space between tokens; derived ones with
        their reasons, and without their last references."""
        for items in (self.problem.constraints, self.derivations):
            if not isinstance(items, Items):
                raise TypeError("a certificate that was not read has no text")
            yield from items.lines()

    @functools.cached_property
    def references(self) -> References:
        """What each derivation names."""
        found = self.derivations
        return found.references if isinstance(found, Derivations) else References.of(found)


class References:
    """What each derivation names, as `Derivation.named` gives it, by which reason, and the length
    of its row, in a few bytes. `numbers` is how many coefficients and multipliers all of them are
    written with."""

    def __init__(self) -> None:
        self.reasons: List[str] = []
        self.lengths = array("I")
        self.indices, self.ends = array("I"), array("Q", [0])
        self.numbers = 0

    @classmethod
    def of(cls, derivations: Sequence[Derivation]) -> References:
        """Those of derivations that weren't read."""
        made = cls()
        for derivation in derivations:
            made.add(derivation)
        return made

    def add(self, derivation: Derivation, objective: Optional[Row] = None) -> None:
        """Adds one. Its row counts for nothing if it is written `OBJ`."""
        row = derivation.constraint.row
        self.reasons.append(derivation.reason)
        self.lengths.append(len(row))
        self.indices.extend(derivation.named())
        self.ends.append(len(self.indices))
        self.numbers += len(derivation.entries) + (0 if row is objective else len(row))

    def match(self, match: Match[bytes], front: _Front) -> bool:
        """Adds the derivation that an expression matched, if it has as many entries as it says."""
        length, row, alone, word, entries, pairs, four = match.group(4, 5, 6, 7, 8, 9, 10)
        numbers = 0 if length is None else int(length)
        if word:
            tokens = pairs.split()
            if len(tokens) != 2 * int(entries):
                return False
            numbers += int(entries)
            indices, factors = tokens[::2], tokens[1::2]
            if _zeros(pairs):
                indices = [index for index, factor in zip(indices, factors) if not _is_zero(factor)]
            self.indices.extend(map(int, indices))
        elif four:
            self.indices.extend(map(int, four.split()))
        self.numbers += numbers
        self.lengths.append(len(front.objective) if length is None else int(length) - _zeros(row))
        self.reasons.append(REASONS[word or alone or b"uns"])
        self.ends.append(len(self.indices))
        return True

    def __getitem__(self, at: int) -> array[int]:
        """What a derivation names, by its place among the derivations."""
        return self.indices[self.ends[at] : self.ends[at + 1]]


class Items(AbstractSequence, Generic[Part]):  # type: ignore[type-arg]
    """Parts of a text that was tested. Each is read as it is asked for, by where it begins."""

    def __init__(self, text: bytes, problem: _Front, starts: array[int], end: int) -> None:
        self.text, self.problem, self.starts, self.end = text, problem, starts, end

    def part(self, tokens: List[bytes]) -> Part:
        """The part that these tokens spell."""
        raise NotImplementedError

    def tokens(self) -> Iterator[List[bytes]]:
        """The tokens of each."""
        text, ends = self.text, chain(islice(self.starts, 1, None), (self.end,))
        return (text[start:end].split() for start, end in zip(self.starts, ends))

    def lines(self) -> Iterator[str]:
        """Each as the text spells it, with one space between tokens."""
        return (decoded(b" ".join(tokens)) for tokens in self.tokens())

    def __len__(self) -> int:
        return len(self.starts)

    @overload
    def __getitem__(self, at: int) -> Part:
        ...

    @overload
    def __getitem__(self, at: slice) -> List[Part]:
        ...

    def __getitem__(self, at: Union[int, slice]) -> Union[Part, List[Part]]:
        places = range(len(self))[at]
        if isinstance(places, range):
            return [self[place] for place in places]
        end = self.starts[places + 1] if places + 1 < len(self) else self.end
        return self.part(self.text[self.starts[places] : end].split())

    def __iter__(self) -> Iterator[Part]:
        return map(self.part, self.tokens())

    def __eq__(self, other: object) -> bool:
        return (
            isinstance(other, AbstractSequence)
            and len(self) == len(other)
            and all(map(_same, self, other))
        )

    def __repr__(self) -> str:
        return f"<{len(self)} {type(self).__name__.lower()}>"


def _same(one: object, other: object) -> bool:
    return one == other


class Constraints(Items[Constraint]):
    """The constraints of a problem."""

    def part(self, tokens: List[bytes]) -> Constraint:
        return _constraint(tokens, self.problem)


class Solutions(Items[Solution]):
    """The listed solutions."""

    def part(self, tokens: List[bytes]) -> Solution:
        return Solution(decoded(tokens[0]), _row(tokens[2:]))


class Derivations(Items[Derivation]):
    """The derivations, and what each names."""

    def __init__(
        self, text: bytes, problem: _Front, starts: array[int], end: int, references: References
    ) -> None:
        super().__init__(text, problem, starts, end)
        self.references = references

    def lines(self) -> Iterator[str]:
        """Each as the text spells it, without its last reference."""
        return (line.rpartition(" ")[0] for line in super().lines())

    def part(self, tokens: List[bytes]) -> Derivation:
        return _derivation(tokens, self.problem)

    def constraint(self, at: int) -> Constraint:
        """What a derivation states. Its reason isn't read, if the expression matches."""
        match = _CONSTRAINT.match(self.text, self.starts[at])
        return _constraint(match[0].split(), self.problem) if match else self[at].constraint


@dataclass(frozen=True)
class _Front:
    """What constraints are read by: how many variables there are, and the objective's row."""

    variables: int
    objective: Row


# ---- the values of tokens that were tested


def _integer(token: bytes) -> int:
    """The value of an integer. Python takes no more than some thousand digits, and there may be as
    many zeros in front."""
    size = int(token.lstrip(b"+-0") or b"0")
    return -size if token[:1] == b"-" else size


def _integers(tokens: List[bytes]) -> List[int]:
    """The values of integers."""
    try:
        return list(map(int, tokens))
    except ValueError:
        return list(map(_integer, tokens))


@functools.lru_cache(maxsize=MOST_KNOWN)
def _number(token: bytes) -> Number:
    """The value of a number."""
    above, slash, below = token.partition(b"/")
    if not slash:
        return _integer(above)
    value = Fraction(_integer(above), _integer(below))
    return value if value.denominator != 1 else value.numerator


def _numbers(tokens: List[bytes]) -> List[Number]:
    """The values of numbers: most are integers."""
    try:
        return list(map(int, tokens))
    except ValueError:
        return list(map(_number, tokens))


def _row(pairs: List[bytes]) -> Row:
    """The row of pairs of an index and a number."""
    if len(pairs) == 2:
        value = _number(pairs[1])
        return {_integer(pairs[0]): value} if value else {}
    row = dict(zip(_integers(pairs[::2]), _numbers(pairs[1::2])))
    return row if all(row.values()) else {index: value for index, value in row.items() if value}


def _constraint(tokens: List[bytes], front: _Front) -> Constraint:
    """The constraint that tokens begin with."""
    name, sense, bound, count = tokens[:4]
    row = front.objective if count == b"OBJ" else _row(tokens[4 : 4 + 2 * _integer(count)])
    return Constraint(decoded(name), SENSES[sense], _number(bound), row)


def _derivation(tokens: List[bytes], front: _Front) -> Derivation:
    """The derivation of all of these tokens."""
    at = 5 if tokens[3] == b"OBJ" else 5 + 2 * _integer(tokens[3])
    reason, words = REASONS[tokens[at]], tokens[at + 1 : -2]
    entries: Tuple[Tuple[int, Number], ...] = ()
    if reason in ("lin", "rnd"):
        entries = tuple(zip(_integers(words[1::2]), _numbers(words[2::2])))
    return Derivation(
        _constraint(tokens, front),
        reason,
        entries,
        tuple(_integers(words)) if reason == "uns" else (),
        None if tokens[-1] == b"-1" else _integer(tokens[-1]),
    )


# ---- what an expression matched


def _has_row(match: Match[bytes], at: int, variables: int) -> bool:
    """Whether the pairs from a group on are a row: as many as their count says, of variables that
    there are, each once."""
    count = match[at]
    if count is None or count == b"0":
        return count is None or not match[at + 1]
    tokens = match[at + 1].split()
    if len(tokens) == 2 == 2 * int(count):
        return int(tokens[0]) < variables
    indices = set(map(int, tokens[::2]))
    return (
        len(tokens) == 2 * int(count) == 2 * len(indices) and max(indices, default=-1) < variables
    )


def _zeros(pairs: bytes) -> int:
    """How many of the numbers that an expression matched are 0."""
    if not _BEGINS_WITH_ZERO.search(pairs):
        return 0
    return sum(map(_is_zero, pairs.split()[1::2]))


class _Fault(Exception):
    """A refusal on its way out of the reader."""

    def __init__(self, cause: Cause, offset: int):
        super().__init__(cause)
        self.refusal = Refusal(cause, Place.BYTE, offset)


class _Reader:
    """The tokens of a text from a place on, one after the other. Short tokens that spell the same
    number give one object."""

    def __init__(self, text: bytes, start: int = 0) -> None:
        self.text = text
        # the tokens of a piece of the text: all of them and those that are to come, where it
        # begins, and where it ends
        self.piece: List[bytes] = []
        self.tokens = iter(self.piece)
        self.start = self.end = start
        self.size = LEAST_PIECE
        self.known: Dict[bytes, Number] = {}
        self.indices: Dict[bytes, int] = {}

    def next(self) -> bytes:
        """The next token; its place is kept for a fault."""
        return next(self.tokens, b"") or self.first_of_next()

    def first_of_next(self) -> bytes:
        """The first token of the next piece that has one."""
        self.piece = []
        while not self.piece:
            if self.end == len(self.text):
                raise _Fault(Cause.TRUNCATED, self.end)
            white = _WHITE.search(self.text, self.end + self.size)
            self.size = min(2 * self.size, MOST_PIECE)
            self.start, self.end = self.end, white.start() if white else len(self.text)
            self.piece = self.text[self.start : self.end].split()
        if max(map(len, self.piece)) > LONGEST_TOKEN:
            self.end_before_long()
        self.tokens = iter(self.piece)
        return next(self.tokens)

    def end_before_long(self) -> None:
        """Ends the piece before its first token that is too long, which is a fault if it is the
        first."""
        at = next(at for at, token in enumerate(self.piece) if len(token) > LONGEST_TOKEN)
        self.end = self.offset(at)
        if at == 0:
            raise _Fault(Cause.TOKEN_TOO_LONG, self.end)
        del self.piece[at:]

    def offset(self, at: int) -> int:
        """Where a token of the piece begins, by its number."""
        return next(islice(_TOKEN.finditer(self.text, self.start), at, None)).start()

    def place(self) -> int:
        """Where the token that was read last ends."""
        return self.offset(self.last()) + len(self.piece[self.last()]) if self.piece else self.end

    def goes_on(self, start: int) -> None:
        """Goes on from another place."""
        self.piece, self.size = [], LEAST_PIECE
        self.tokens, self.start, self.end = iter(self.piece), start, start

    def last(self) -> int:
        """The number in the piece of the token that was read last."""
        return len(self.piece) - length_hint(self.tokens) - 1

    def fault(self, cause: Cause) -> _Fault:
        """A fault of the token that was read last."""
        return _Fault(cause, self.offset(self.last()))

    def word(self, wanted: Dict[bytes, str], cause: Cause) -> str:
        token = self.next()
        if token not in wanted:
            raise self.fault(cause)
        return wanted[token]

    def keyword(self, word: bytes) -> None:
        self.word({word: ""}, Cause.WRONG_KEYWORD)

    def whole(self, token: bytes, bad: Cause, large: Cause, most: int = LARGEST_COUNT) -> int:
        """A token of digits alone."""
        if not token.isdigit():
            raise self.fault(bad)
        digits = token if len(token) < 10 else token.lstrip(b"0") or b"0"
        value = int(digits) if len(digits) <= 10 else most + 1
        if value > most:
            raise self.fault(large)
        return value

    def count(self, most: int = LARGEST_COUNT) -> int:
        return self.count_of(self.next(), most)

    def count_of(self, token: bytes, most: int = LARGEST_COUNT) -> int:
        return self.whole(token, Cause.BAD_COUNT, Cause.COUNT_TOO_LARGE, most)

    def reference(self) -> int:
        return self.whole(self.next(), Cause.BAD_REFERENCE, Cause.BAD_REFERENCE)

    def number(self) -> Number:
        token = self.next()
        found = self.known.get(token)
        if found is None:
            found = self.number_of(token)
            if len(self.known) < MOST_KNOWN and len(token) < 40:
                self.known[token] = found
        return found

    def number_of(self, token: bytes) -> Number:
        if len(token) < 39 and token.isdigit():
            return int(token)
        match = _NUMBER.fullmatch(token)
        if not match:
            raise self.fault(Cause.BAD_NUMBER)
        sign, above, below = match.groups()
        numerator, denominator = (self.bounded(digits) for digits in (above, below or b"1"))
        if not denominator:
            raise self.fault(Cause.ZERO_DENOMINATOR)
        value: Number = numerator if denominator == 1 else Fraction(numerator, denominator)
        if denominator != 1 and value.denominator == 1:
            value = value.numerator
        return -value if sign == b"-" else value

    def bounded(self, digits: bytes) -> int:
        digits = digits.lstrip(b"0")
        if len(digits) > 39 or int(digits or b"0") > LARGEST:
            raise self.fault(Cause.NUMBER_TOO_LARGE)
        return int(digits or b"0")

    def vector(self, variables: int, count: int) -> Row:
        row: Row = {}
        for _ in range(count):
            token = self.next()
            index = self.indices.get(token)
            if index is None:
                index = self.whole(token, Cause.BAD_INDEX, Cause.BAD_INDEX, variables - 1)
                if len(self.indices) < MOST_INDICES and len(token) < 10:
                    self.indices[token] = index
            if index in row:
                raise self.fault(Cause.REPEATED_INDEX)
            row[index] = self.number()
        return row if all(row.values()) else {index: value for index, value in row.items() if value}

    def constraint(self, front: _Front) -> Constraint:
        name = self.next()
        sense = self.word(SENSES, Cause.BAD_SENSE)
        bound, token = self.number(), self.next()
        if token == b"OBJ":
            return Constraint(decoded(name), sense, bound, front.objective)
        return Constraint(
            decoded(name), sense, bound, self.vector(front.variables, self.count_of(token))
        )

    def bound(self, infinite: bytes) -> Optional[Fraction]:
        token = self.next()
        return None if token == infinite else Fraction(self.number_of(token))

    def claim(self) -> Claim:
        word = self.word({b"infeas": "infeas", b"range": "range"}, Cause.BAD_CLAIM)
        return (
            Claim(True)
            if word == "infeas"
            else Claim(False, self.bound(b"-inf"), self.bound(b"inf"))
        )

    def solution(self, front: _Front) -> Solution:
        return Solution(decoded(self.next()), self.vector(front.variables, self.count()))

    def derivation(self, front: _Front) -> Derivation:
        constraint = self.constraint(front)
        self.word({b"{": ""}, Cause.BAD_BRACE)
        reason = self.word(REASONS, Cause.BAD_REASON)
        entries: List[Tuple[int, Number]] = []
        indices: List[int] = []
        if reason in ("lin", "rnd"):
            for _ in range(self.count()):
                index = self.reference()
                entries.append((index, self.number()))
        elif reason == "uns":
            indices = [self.reference() for _ in range(4)]
        self.word({b"}": ""}, Cause.BAD_BRACE)
        token = self.next()
        last = (
            None if token == b"-1" else self.whole(token, Cause.BAD_REFERENCE, Cause.BAD_REFERENCE)
        )
        return Derivation(constraint, reason, tuple(entries), tuple(indices), last)


class _Text:
    """A certificate's text that is read to its end once."""

    def __init__(self, text: bytes, progress: Optional[Progress]) -> None:
        begin = _COMMENTS.match(text)
        self.text, self.progress = text, progress
        self.reader = _Reader(text, begin.end() if begin else 0)

    def alive(self, at: int, place: int) -> None:
        """Says how far it is."""
        if self.progress and at % STEP == 0:
            self.progress(place)

    def problem(self) -> Tuple[Problem, _Front]:
        reader = self.reader
        reader.keyword(b"VER")
        reader.word({b"1.0": ""}, Cause.UNSUPPORTED_VERSION)
        reader.keyword(b"VAR")
        names = [decoded(reader.next()) for _ in range(reader.count())]
        reader.keyword(b"INT")
        integers = {
            reader.whole(reader.next(), Cause.BAD_INDEX, Cause.BAD_INDEX, len(names) - 1)
            for _ in range(reader.count())
        }
        reader.keyword(b"OBJ")
        direction = reader.word({b"min": "min", b"max": "max"}, Cause.BAD_OBJECTIVE_SENSE)
        front = _Front(len(names), reader.vector(len(names), reader.count()))
        reader.keyword(b"CON")
        count, bounds = reader.count(), reader.count()
        constraints = Constraints(
            self.text, front, *self.starts(count, _CONSTRAINT, 4, front, reader.constraint)
        )
        reader.keyword(b"RTP")
        return (
            Problem(
                names,
                integers,
                direction == "max",
                front.objective,
                bounds,
                constraints,
                reader.claim(),
            ),
            front,
        )

    def starts(
        self,
        count: int,
        pattern: re.Pattern[bytes],
        at: int,
        front: _Front,
        read: Callable[[_Front], object],
    ) -> Tuple[array[int], int]:
        """Where each of so many constraints or solutions begins, and where the last one ends. What
        the expression doesn't match is read by tokens."""
        found, place, text = array("Q"), self.reader.place(), self.text
        for number in range(count):
            self.alive(number, place)
            found.append(place)
            match = pattern.match(text, place)
            if match and _has_row(match, at, front.variables):
                place = match.end()
            else:
                self.reader.goes_on(place)
                read(front)
                place = self.reader.place()
        self.reader.goes_on(place)
        return found, place

    def derivations(self, count: int, front: _Front) -> Derivations:
        """The same for derivations, and what each names."""
        starts, found = array("Q"), References()
        place, text = self.reader.place(), self.text
        for number in range(count):
            self.alive(number, place)
            starts.append(place)
            match = _DERIVATION.match(text, place)
            if match and _has_row(match, 4, front.variables) and found.match(match, front):
                place = match.end()
                continue
            self.reader.goes_on(place)
            found.add(self.reader.derivation(front), front.objective)
            place = self.reader.place()
        self.reader.goes_on(place)
        return Derivations(text, front, starts, place, found)

    def certificate(self) -> Certificate:
        reader, (problem, front) = self.reader, self.problem()
        reader.keyword(b"SOL")
        solutions = Solutions(
            self.text, front, *self.starts(reader.count(), _SOLUTION, 2, front, reader.solution)
        )
        reader.keyword(b"DER")
        derivations = self.derivations(
            reader.count(LARGEST_COUNT - len(problem.constraints)), front
        )
        rest = _TOKEN.search(self.text, reader.place())
        if rest:
            raise _Fault(Cause.TRAILING_TEXT, rest.start())
        return Certificate(problem, solutions, derivations)


@functools.lru_cache(maxsize=MOST_KNOWN)
def _is_zero(factor: bytes) -> bool:
    """Whether a number that an expression matched is 0."""
    return _number(factor) == 0


def as_bytes(text: Text) -> bytes:
    """The bytes of a text. Raises TypeError for a string."""
    if isinstance(text, bytes):
        return text
    if isinstance(text, (bytearray, memoryview, mmap.mmap)):
        return bytes(text)
    raise TypeError(
        f"a certificate is bytes, not {type(text).__name__}: open its file in the mode rb"
    )


def read(text: Text, progress: Optional[Progress] = None) -> Union[Certificate, Refused]:
    """The certificate that a text spells, or the refusal of a text that spells none, which is false
    in a condition.

    Now and then `progress` is told how many bytes were read.
    """
    try:
        return _Text(as_bytes(text), progress).certificate()
    except _Fault as fault:
        return Refused(fault.refusal)


def read_file(path: Union[str, os.PathLike[str]]) -> Union[Certificate, Refused]:
    """The same of a file, which is unpacked if it is a .gz, .xz, .bz2 or .zst. Raises OSError."""
    return read(bytes_of_file(os.path.join(os.curdir, path)))


def read_problem(text: Text, progress: Optional[Progress] = None) -> Union[Problem, Refused]:
    """The problem at the front of a certificate's text, or the refusal of its first fault. The rest
    isn't read.

    Now and then `progress` is told how many bytes were read.
    """
    try:
        return _Text(as_bytes(text), progress).problem()[0]
    except _Fault as fault:
        return Refused(fault.refusal)
