"""What the checker answers, as values: a verdict with a claim or a refusal."""
from __future__ import annotations

import enum
import re
from dataclasses import dataclass
from fractions import Fraction
from typing import Literal, Optional, Union


class Cause(enum.IntEnum):
    """Why a text is refused: docs/FORMAT.md says when each cause comes."""

    TRUNCATED = 1
    WRONG_KEYWORD = 2
    UNSUPPORTED_VERSION = 3
    BAD_NUMBER = 4
    NUMBER_TOO_LARGE = 5
    ZERO_DENOMINATOR = 6
    BAD_COUNT = 7
    COUNT_TOO_LARGE = 8
    BAD_INDEX = 9
    REPEATED_INDEX = 10
    BAD_SENSE = 11
    BAD_OBJECTIVE_SENSE = 12
    BAD_CLAIM = 13
    BAD_REASON = 14
    BAD_BRACE = 15
    BAD_REFERENCE = 16
    TOKEN_TOO_LONG = 17
    TRAILING_TEXT = 18
    SOLUTION_NOT_WHOLE = 21
    SOLUTION_BREAKS = 22
    SOLUTION_OVERFLOW = 23
    NOT_EARLIER = 31
    DROPPED = 32
    NOT_ASSUMPTION = 33
    MIXED_SIGNS = 34
    OVERFLOW = 35
    NOT_ROUNDABLE = 36
    NOT_SPLIT = 37
    NOT_DOMINATED = 38
    NO_SOLUTION = 39
    NO_PROOF = 51
    NO_PRIMAL = 52

    @property
    def word(self) -> str:
        """The name that `vipr explain` prints, as NotDominated."""
        return self.name.title().replace("_", "")


class Place(enum.Enum):
    """Where a text is refused: the word that `vipr check` prints."""

    BYTE = "byte"
    SOLUTION = "SOL"
    DERIVATION = "DER"
    END = "end"


@dataclass(frozen=True)
class Refusal:
    """A cause and its place. The number is a token's offset in bytes, a solution or a derived
    constraint; 0 at the end."""

    cause: Cause
    place: Place
    number: int = 0

    def __str__(self) -> str:
        where = self.place.value if self.place is Place.END else f"{self.place.value} {self.number}"
        return f"refused {int(self.cause)} at {where}"

    @classmethod
    def parse(cls, line: str) -> Refusal:
        """The refusal of a line of `vipr check`."""
        found = re.fullmatch(r"refused (\d+) at (\w+)(?: (\d+))?", line)
        if not found:
            raise ValueError(f"no refusal: {line!r}")
        return cls(Cause(int(found[1])), Place(found[2]), int(found[3] or 0))


@dataclass(frozen=True)
class Claim:
    """That a problem has no solution, or bounds of its optimum. A bound that is None is
    infinite."""

    infeasible: bool
    lower: Optional[Fraction] = None
    upper: Optional[Fraction] = None

    def __str__(self) -> str:
        if self.infeasible:
            return "infeas"
        return (
            f'range {"-inf" if self.lower is None else self.lower} '
            f'{"inf" if self.upper is None else self.upper}'
        )

    def turned(self) -> Claim:
        """The claim about the negative objective."""
        return Claim(
            self.infeasible,
            *(None if bound is None else -bound for bound in (self.upper, self.lower)),
        )

    @classmethod
    def parse(cls, text: str) -> Claim:
        """The claim of `infeas` or `range LOWER UPPER`."""
        words = text.split(" ")
        if words == ["infeas"]:
            return cls(True)
        if len(words) != 3 or words[0] != "range":
            raise ValueError(f"no claim: {text!r}")
        return cls(
            False, *(None if word in ("-inf", "inf") else Fraction(word) for word in words[1:])
        )


class Verdict:
    """The answer on a text, a Verified or a Refused. It is true in a condition if the text is
    verified."""

    claim: Optional[Claim]
    refusal: Optional[Refusal]
    solutions: int
    derived: int
    peak: int
    goal: Optional[int]

    @staticmethod
    def parse(lines: str) -> Union[Verified, Refused]:
        """The verdict of what `vipr check` printed."""
        first, *rest = lines.rstrip("\n").split("\n")
        if not first.startswith("verified "):
            return Refused(Refusal.parse(first))
        counts = re.fullmatch(r"solutions (\d+) derived (\d+) peak (\d+)", "".join(rest))
        if not counts:
            raise ValueError(f"no counts: {rest}")
        return Verified(
            Claim.parse(first[len("verified ") :]), int(counts[1]), int(counts[2]), int(counts[3])
        )


@dataclass(frozen=True)
class Verified(Verdict):
    """A claim, which is true of the problem in the text, and counts: its solutions, its
    derivations, and how many derived constraints had to be held at once. `goal` is the constraint
    that proves the claim's dual side, None if nothing has to be proved."""

    claim: Claim
    solutions: int
    derived: int
    peak: int
    goal: Optional[int] = None
    refusal: None = None

    def __bool__(self) -> Literal[True]:
        return True

    def __str__(self) -> str:
        """The lines of `vipr check`."""
        return f"verified {self.claim}\nsolutions {self.solutions} derived {self.derived} peak {self.peak}"


@dataclass(frozen=True)
class Refused(Verdict):
    """A refusal. It has no claim, and its counts are 0."""

    refusal: Refusal
    claim: None = None
    solutions: int = 0
    derived: int = 0
    peak: int = 0
    goal: None = None

    def __bool__(self) -> Literal[False]:
        return False

    def __str__(self) -> str:
        """The line of `vipr check`."""
        return str(self.refusal)
