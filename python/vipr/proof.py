"""What hangs on what in a certificate's derivations: assumptions, the goal, and what it needs.
Nothing here tests a proof."""
from __future__ import annotations

import functools
from array import array
from dataclasses import dataclass
from itertools import chain, islice
from math import ceil, floor, gcd
from typing import Callable, Dict, FrozenSet, Iterable, Iterator, List, Optional, Set, Tuple, Union

from .certificate import STEP, Certificate, Constraint, Number, Problem, Progress, Row

SMALL = 64  # a set of more indices shares its parts with others
RANGE = 256  # how many indices a smallest part of a set covers
MOST_REMEMBERED = 1 << 13  # how many parts of sets are found again if they are made again
MOST_COEFFICIENTS = 1 << 14  # how many numbers of constraints that sums name are kept


class Assumptions:
    """A large set of indices. It shares its parts with other sets: a part covers `width` indices
    from `start` on, by bits if there are RANGE of them, and else by two parts that cover a half
    each and aren't empty."""

    __slots__ = "start", "width", "bits", "halves", "size", "number"
    size: int
    number: int  # for whoever writes sets down

    def __init__(self, start: int, width: int, bits: int, halves: Tuple[Assumptions, ...]):
        self.start, self.width, self.bits, self.halves, self.number = start, width, bits, halves, -1
        self.size = sum(half.size for half in halves) if halves else bin(bits).count("1")

    def __len__(self) -> int:
        return self.size

    def __iter__(self) -> Iterator[int]:
        """Its indices in ascending order."""
        parts = [self]
        while parts:
            part = parts.pop()
            parts.extend(reversed(part.halves))
            yield from (
                part.start + at for at in range(part.bits.bit_length()) if part.bits >> at & 1
            )


# a set of assumptions: a small one is Python's own
Found = Union[FrozenSet[int], Assumptions]
NOTHING: FrozenSet[int] = frozenset()
EMPTY = Assumptions(0, RANGE, 0, ())


def indices(found: Found, most: Optional[int] = None) -> List[int]:
    """The indices of a set in ascending order, or the first of them."""
    return sorted(found)[:most] if isinstance(found, frozenset) else list(islice(iter(found), most))


class Sets:
    """Makes sets of assumptions: equal parts are one, and two parts are joined once, as long as
    they are remembered."""

    def __init__(self) -> None:
        self.ranges: Dict[Tuple[int, int], Assumptions] = {}
        self.pairs: Dict[Tuple[Assumptions, Assumptions], Assumptions] = {}
        self.unions: Dict[Tuple[Assumptions, Assumptions], Assumptions] = {}

    def forget(self) -> None:
        """Forgets what was made, if it is much. Sets that are in use stay."""
        if len(self.ranges) + len(self.pairs) + len(self.unions) > MOST_REMEMBERED:
            self.ranges.clear()
            self.pairs.clear()
            self.unions.clear()

    def of_bits(self, start: int, bits: int) -> Assumptions:
        if not bits:
            return EMPTY
        found = self.ranges.get((start, bits))
        if found is None:
            found = self.ranges[start, bits] = Assumptions(start, RANGE, bits, ())
        return found

    def large(self, found: Found) -> Assumptions:
        """The same set with parts."""
        if isinstance(found, Assumptions):
            return found
        parts = [self.of_bits(index & -RANGE, 1 << index % RANGE) for index in found]
        return functools.reduce(self.union_of_large, parts, EMPTY)

    def union(self, sets: Iterable[Found]) -> Found:
        """The union of some sets."""
        parts = list(dict.fromkeys(sets))
        if len(parts) < 2:
            return parts[0] if parts else NOTHING
        if sum(map(len, parts)) <= SMALL:
            return NOTHING.union(*parts)
        return functools.reduce(self.union_of_large, map(self.large, parts))

    def without(self, found: Found, index: int) -> Found:
        """A set without an index."""
        if isinstance(found, frozenset):
            return found - {index}
        left = self.without_in_large(found, index)
        return left if len(left) > SMALL else frozenset(left)

    def of_two(self, one: Assumptions, other: Assumptions) -> Assumptions:
        """The set of two that have no part of a range in common, or of which one is empty."""
        if one is EMPTY or other is EMPTY:
            return other if one is EMPTY else one
        low, high = (one, other) if one.start < other.start else (other, one)
        found = self.pairs.get((low, high))
        if found is None:
            width = 1 << (low.start ^ high.start).bit_length()
            found = self.pairs[low, high] = Assumptions(low.start & -width, width, 0, (low, high))
        return found

    def union_of_large(self, one: Assumptions, other: Assumptions) -> Assumptions:
        wide, narrow = (one, other) if one.width >= other.width else (other, one)
        if (
            wide is narrow
            or not (wide.size and narrow.size)
            or wide.start != narrow.start & -wide.width
        ):
            return wide if wide is narrow else self.of_two(wide, narrow)
        found = self.unions.get((wide, narrow))
        if found is None:
            if not wide.halves:
                found = self.of_bits(wide.start, wide.bits | narrow.bits)
            elif wide.width == narrow.width:
                found = self.of_two(*map(self.union_of_large, wide.halves, narrow.halves))
            else:
                low, high = wide.halves
                is_high = narrow.start & wide.width // 2
                found = (
                    self.of_two(low, self.union_of_large(high, narrow))
                    if is_high
                    else self.of_two(self.union_of_large(low, narrow), high)
                )
            self.unions[wide, narrow] = found
        return found

    def without_in_large(self, large: Assumptions, index: int) -> Assumptions:
        if large.start != index & -large.width:
            return large
        if not large.halves:
            return self.of_bits(large.start, large.bits & ~(1 << index % RANGE))
        return self.of_two(*(self.without_in_large(half, index) for half in large.halves))


def named(proof: Certificate, index: int) -> List[int]:
    """The earlier constraints that a derived one names, each once, in written order."""
    return [
        below
        for below in dict.fromkeys(proof.references[index - len(proof.problem.constraints)])
        if below < index
    ]


def last_uses(proof: Certificate) -> array[int]:
    """The last derivation that names each one, by their places; -1 if none does."""
    first, references = len(proof.problem.constraints), proof.references
    found = array("q", [-1]) * len(proof.derivations)
    for at in range(len(found)):
        for index in references[at]:
            if first <= index < first + at:
                found[index - first] = at
    return found


def assumptions(proof: Certificate) -> Iterator[Found]:
    """The assumptions that each derived constraint rests on, by their indices. Sets that none needs
    any more aren't kept."""
    first, references, lasts = len(proof.problem.constraints), proof.references, last_uses(proof)
    kept: Dict[int, Found] = {}
    sets = Sets()
    for at, reason in enumerate(references.reasons):
        found: Found = NOTHING
        if reason == "asm":
            found = frozenset((first + at,))
        elif kept:
            named = references[at]
            if reason == "uns":
                i1, l1, i2, l2 = named
                branches = (kept.get(i1, NOTHING), l1), (kept.get(i2, NOTHING), l2)
                found = sets.union([sets.without(*branch) for branch in branches])
            else:
                found = sets.union([kept[index] for index in named if index in kept])
            for index in named:
                if first <= index < first + at and lasts[index - first] == at:
                    kept.pop(index, None)
        if found and lasts[at] >= 0:
            kept[first + at] = found
        sets.forget()
        yield found


@dataclass(frozen=True)
class Outline:
    """How many assumptions each derivation rests on, the goal, and for each constraint whether the
    goal needs it."""

    sizes: array[int]
    goal: Optional[int]
    needed: bytearray


def outline(
    proof: Certificate,
    progress: Optional[Progress] = None,
    see: Optional[Callable[[Found], None]] = None,
) -> Outline:
    """What the derivations of a certificate are. `progress` is told how many were looked at, and
    `see` gets the assumptions of each."""
    sizes = array("I")
    for at, found in enumerate(assumptions(proof)):
        sizes.append(len(found))
        if see:
            see(found)
        if progress and at % STEP == 0:
            progress(at)
    index = goal(proof, sizes)
    return Outline(sizes, index, needed(proof, index))


def is_absurd(constraint: Constraint) -> bool:
    """Whether it is false at every point, as `0 >= 1`."""
    return not constraint.row and (
        (constraint.sense in "GE" and constraint.bound > 0)
        or (constraint.sense in "LE" and constraint.bound < 0)
    )


def is_objective(problem: Problem, row: Row) -> bool:
    """Whether it is the objective's row. One that is written `OBJ` isn't compared."""
    return row is problem.objective or row == problem.objective


def whole_row(row: Row, integers: Set[int]) -> bool:
    """Whether the row is whole wherever the integer variables are."""
    return all(index in integers and value.denominator == 1 for index, value in row.items())


def proves_dual_side(problem: Problem, constraint: Constraint, rounds: bool) -> bool:
    """Whether a constraint that rests on nothing proves the claim's dual side; a bound is rounded
    if it `rounds`."""
    wanted = problem.claim.upper if problem.maximizes else problem.claim.lower
    if problem.claim.infeasible or (wanted is not None and is_absurd(constraint)):
        return is_absurd(constraint)
    if (
        wanted is None
        or constraint.sense not in ("LE" if problem.maximizes else "GE")
        or not is_objective(problem, constraint.row)
    ):
        return False
    bound: Number = constraint.bound
    if rounds:
        if constraint.sense == "E" and bound.denominator != 1:
            return True
        bound = floor(bound) if problem.maximizes else ceil(bound)
    return bound <= wanted if problem.maximizes else bound >= wanted


def goal(proof: Certificate, sizes: array[int]) -> Optional[int]:
    """The first constraint that proves the claim's dual side: by the first profile of the rules, or
    else by the second, which rounds a bound of an objective that is whole. None if there is none,
    or if nothing has to be proved.
    """
    problem, first = proof.problem, len(proof.problem.constraints)
    wanted = problem.claim.upper if problem.maximizes else problem.claim.lower
    if wanted is None and not problem.claim.infeasible:
        return None
    rounded = None
    is_whole = whole_row(problem.objective, problem.integers)
    lengths, wanted_lengths = proof.references.lengths, (0, len(problem.objective))
    for index in chain(range(first), (first + at for at, size in enumerate(sizes) if not size)):
        if index >= first and lengths[index - first] not in wanted_lengths:
            continue
        constraint = proof.constraint(index)
        if proves_dual_side(problem, constraint, False):
            return index
        if rounded is None and is_whole and proves_dual_side(problem, constraint, True):
            rounded = index
    return rounded


def needed(proof: Certificate, index: Optional[int]) -> bytearray:
    """For each constraint whether one needs it: itself, and what those name that it needs."""
    first, references = len(proof.problem.constraints), proof.references
    found = bytearray(first + len(proof.derivations))
    if index is not None:
        found[index] = True
        for at in range(index, first - 1, -1):
            if found[at]:
                for below in references[at - first]:
                    if below < at:
                        found[below] = True
    return found


class Tree:
    """A tree of the derivations of which there are flags: each is below that one of those that name
    it which is farthest down; what the goal needs is below the goal. Derivations go by their
    constraints' indices."""

    def __init__(self, proof: Certificate, needed: bytearray, among: bytearray) -> None:
        first, references = len(proof.problem.constraints), proof.references
        self.first, self.among = first, among
        count = len(among)
        self.parents, layers = array("q", [-1]) * count, array("I", [0]) * count
        for at in range(count - 1, -1, -1):
            if among[at]:
                layer, is_needed = layers[at], needed[first + at]
                for index in references[at]:
                    below = index - first
                    if (
                        0 <= below < at
                        and among[below]
                        and layer >= layers[below]
                        and is_needed >= needed[index]
                    ):
                        layers[below], self.parents[below] = layer + 1, at
        self.below, self.ends = array("I"), array("Q", [0])
        for at in range(count):
            if among[at]:
                self.below.extend(
                    index
                    for index in named(proof, first + at)
                    if index >= first and self.parents[index - first] == at
                )
            self.ends.append(len(self.below))

    def children(self, index: int) -> array[int]:
        """Those right below one, in the order in which it names them."""
        return self.below[self.ends[index - self.first] : self.ends[index - self.first + 1]]

    def roots(self, goal: Optional[int]) -> List[int]:
        """Those that are below none: the goal first, and then the last ones."""
        found = [
            self.first + at
            for at, parent in enumerate(self.parents)
            if parent < 0 and self.among[at]
        ]
        return sorted(found, key=lambda index: (index != goal, -index))

    def totals(self, counts: array[int]) -> array[int]:
        """For each the sum of what it and all below it count for, by their places."""
        found = counts[:]
        for at, parent in enumerate(self.parents):
            if parent >= 0:
                found[parent] += found[at]
        return found


class Widths:
    """How many bits the largest number has: of a sum's steps as well, which are refused past 127
    bits (cause 35).

    Sums of long rows that the text names by `OBJ` have many more steps than the text has bytes.
    After `most` steps none is added up any more, and `computed` is None.
    """

    def __init__(self, proof: Certificate, most: int) -> None:
        self.proof, self.most_steps = proof, most
        self.seen = 0
        self.computed: Optional[int] = 0
        self.kept: Dict[int, Constraint] = {}
        self.room = MOST_COEFFICIENTS

    @property
    def written(self) -> int:
        """How many bits the largest number has that was seen."""
        return self.seen.bit_length()

    def see(self, numbers: Iterable[Number]) -> None:
        """Numbers of the text."""
        seen = self.seen
        for number in numbers:
            seen |= abs(number.numerator) | number.denominator
        self.seen = seen

    def constraint(self, index: int) -> Constraint:
        """A constraint that a sum names. Some are kept, since others name them, too."""
        found = self.kept.get(index)
        if found is None:
            found = self.proof.constraint(index)
            self.keep(index, found)
        return found

    def keep(self, index: int, constraint: Constraint) -> None:
        """Keeps a constraint that a sum may name."""
        is_objective = constraint.row is self.proof.problem.objective
        self.room -= 1 if is_objective else 1 + len(constraint.row)
        if self.room < 0:
            self.room = MOST_COEFFICIENTS
            self.kept.clear()
        self.kept[index] = constraint

    def combine(self, entries: Tuple[Tuple[int, Number], ...], index: int) -> None:
        """Adds up the entries of the derived constraint of an index, if it is a sum of earlier
        ones. A sum of one constraint has its numbers."""
        is_copy = len(entries) == 1 and abs(entries[0][1]) == 1
        if self.computed is None or is_copy:
            return
        used = []
        for at, multiplier in entries:
            if multiplier and at < index:
                constraint = self.constraint(at)
                self.most_steps -= 1 + len(constraint.row)
                if self.most_steps < 0:
                    self.computed = None
                    return
                used.append((constraint, multiplier))
        self.computed = max(self.computed, largest_step(used).bit_length())


def largest_step(entries: List[Tuple[Constraint, Number]]) -> int:
    """A number with as many bits as the largest one of a sum's steps, by the rule of sums of
    docs/FORMAT.md."""
    # of each variable the sum of its coefficients so far, and of None that of the right-hand sides
    totals: Dict[Optional[int], Tuple[int, int]] = {}
    seen = 1
    for constraint, multiplier in entries:
        factor, divisor = multiplier.numerator, multiplier.denominator
        for variable, value in chain(constraint.row.items(), ((None, constraint.bound),)):
            c, d = factor * value.numerator, divisor * value.denominator
            if d != 1:
                common = gcd(c, d)
                c, d = c // common, d // common
            before = totals.get(variable)
            if before is None:
                totals[variable] = c, d
                seen |= abs(c) | d
                continue
            a, b = before
            if d == b == 1:
                total = a + c
                totals[variable] = total, 1
                seen |= abs(c) | abs(total)
                continue
            common = gcd(b, d)
            left, right = a * (d // common), c * (b // common)
            total = left + right
            shared = gcd(total, common)
            below = (b // common) * (d // shared)
            totals[variable] = total // shared, below
            seen |= abs(left) | abs(right) | abs(total) | below
    return seen
