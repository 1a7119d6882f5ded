#!/usr/bin/env python3
"""A plain model of `vipr check`: the rules of docs/FORMAT.md over Python's whole numbers, with no
care for speed.

usage: plain_check.py [--explain] [--profile 1|2] [FILE ..]

Prints for each file (standard input without one) what `vipr check` is to print, as a second opinion
on certificates written by hand and on the proved program. It shares no code with it and proves
nothing. With --explain it prints what `vipr explain` is to print: the same lines, and then the
goal, or the cause's name and what shows the fault.
"""
import re
import sys
from fractions import Fraction
from math import ceil, floor, gcd

LARGEST = 2**127 - 1
LARGEST_COUNT = 2**32 - 1
LONGEST_TOKEN = 65535
SPACE = b"\t\n\v\f\r "
TOKEN = re.compile(rb"[^\t-\r ]+")
CAUSES = {
    1: "Truncated", 2: "WrongKeyword", 3: "UnsupportedVersion", 4: "BadNumber", 5: "NumberTooLarge",
    6: "ZeroDenominator", 7: "BadCount", 8: "CountTooLarge", 9: "BadIndex", 10: "RepeatedIndex", 11: "BadSense",
    12: "BadObjectiveSense", 13: "BadClaim", 14: "BadReason", 15: "BadBrace", 16: "BadReference", 17: "TokenTooLong",
    18: "TrailingText", 21: "SolutionNotWhole", 22: "SolutionBreaks", 23: "SolutionOverflow", 31: "NotEarlier",
    32: "Dropped", 33: "NotAssumption", 34: "MixedSigns", 35: "Overflow", 36: "NotRoundable", 37: "NotSplit",
    38: "NotDominated", 39: "NoSolution", 51: "NoProof", 52: "NoPrimal",
}  # fmt: skip


class Refused(Exception):
    """A fault: its cause's number, where it lies, and the lines that show it."""


class Unfit(Exception):
    """A product or a sum is out of bound."""


def bounded(*numbers):
    if any(abs(number) > LARGEST for number in numbers):
        raise Unfit


def add(x, y):
    shared = gcd(x.denominator, y.denominator)
    left = x.numerator * (y.denominator // shared)
    right = y.numerator * (x.denominator // shared)
    total = left + right
    common = gcd(total, shared)
    bounded(left, right, total, (x.denominator // shared) * (y.denominator // common))
    return x + y


def multiply(x, y):
    product = x * y
    bounded(product.numerator, product.denominator)
    return product


class Tokens:
    """The tokens of a text, with their offsets."""

    def __init__(self, text):
        self.text = text
        self.at = 0
        while self.at < len(text) and text[self.at] in SPACE + b"%":
            if text[self.at] in SPACE:
                self.at += 1
            else:
                end = text.find(b"\n", self.at)
                self.at = len(text) if end < 0 else end + 1

    def peek(self):
        """The next token and its offset, or None at the end."""
        found = TOKEN.search(self.text, self.at)
        return found and (found[0], found.start())

    def next(self):
        found = self.peek()
        if found is None:
            raise Refused(1, f"byte {len(self.text)}")
        token, offset = found
        self.at = offset + len(token)
        if len(token) > LONGEST_TOKEN:
            raise Refused(17, f"byte {offset}")
        return token, offset

    def one_of(self, cause, *words):
        token, offset = self.next()
        if token not in words:
            raise Refused(cause, f"byte {offset}")
        return token

    def count(self, before=0):
        token, offset = self.next()
        if not token.isdigit():
            raise Refused(7, f"byte {offset}")
        if before + int(token) > LARGEST_COUNT:
            raise Refused(8, f"byte {offset}")
        return int(token)

    def number(self, infinite=None):
        token, offset = self.next()
        if token == infinite:
            return None
        parts = re.fullmatch(rb"([-+]?)([0-9]+)(?:/([0-9]+))?", token)
        if not parts:
            raise Refused(4, f"byte {offset}")
        top, bottom = int(parts[2]), int(parts[3] or b"1")
        if max(top, bottom) > LARGEST:
            raise Refused(5, f"byte {offset}")
        if bottom == 0:
            raise Refused(6, f"byte {offset}")
        return Fraction(-top if parts[1] == b"-" else top, bottom)

    def variable(self, variables):
        token, offset = self.next()
        if not token.isdigit() or int(token) >= variables:
            raise Refused(9, f"byte {offset}")
        return int(token), offset

    def reference(self):
        token, offset = self.next()
        if not token.isdigit() or int(token) > LARGEST_COUNT:
            raise Refused(16, f"byte {offset}")
        return int(token)

    def vector(self, variables, objective=None):
        found = self.peek()
        if objective is not None and found is not None and found[0] == b"OBJ":
            self.next()
            return objective
        row, seen = {}, set()
        for _ in range(self.count()):
            index, offset = self.variable(variables)
            if index in seen:
                raise Refused(10, f"byte {offset}")
            seen.add(index)
            coefficient = self.number()
            if coefficient:
                row[index] = coefficient
        return row

    def constraint(self, variables, objective):
        """A constraint: its row, its sense and its right side."""
        self.next()
        sense = self.one_of(11, b"E", b"L", b"G").decode()
        right = self.number()
        return self.vector(variables, objective), sense, right

    def reason(self):
        word = self.one_of(14, b"asm", b"lin", b"rnd", b"uns", b"sol").decode()
        if word in ("lin", "rnd"):
            return word, [(self.reference(), self.number()) for _ in range(self.count())]
        return word, [self.reference() for _ in range(4)] if word == "uns" else []


def readable(name):
    """A name as it is printed: printable ASCII but the backslash, and whole characters past ASCII,
    as they are."""
    shown = ""
    while name:
        for size in 2, 3, 4:
            try:
                character = name[:size].decode()
            except UnicodeDecodeError:
                continue
            if len(character) == 1 and character > "\x7F":
                break
        else:
            size, byte = 1, name[0]
            if 0x20 < byte < 0x7F and byte != 0x5C:
                character = chr(byte)
            else:
                character = {0: "\\0", 0x5C: "\\\\"}.get(byte, f"\\x{byte:02X}")
        shown += character
        name = name[size:]
    return shown


def written(constraint):
    """A constraint without its name, as in the canonical text."""
    row, sense, right = constraint
    entries = [word for index in sorted(row) for word in (index, row[index])]
    return " ".join(map(str, [sense, right, len(row), *entries]))


ABSURD = ({}, "G", Fraction(1))


def is_absurd(constraint):
    row, sense, right = constraint
    return not row and {"G": right > 0, "L": right < 0, "E": right != 0}[sense]


def dominates(strong, weak):
    if is_absurd(strong):
        return True
    (row, sense, right), (wanted, stated, bound) = strong, weak
    at_least = sense in "GE" and right >= bound
    at_most = sense in "LE" and right <= bound
    equal = at_least and at_most and sense == "E"
    return row == wanted and {"G": at_least, "L": at_most, "E": equal}[stated]


def value_at(row, point):
    total = Fraction(0)
    for index in sorted(row):
        if index in point:
            total = add(total, multiply(row[index], point[index]))
    return total


def holds(value, sense, right):
    return {"G": value >= right, "L": value <= right, "E": value == right}[sense]


def whole_at(row, integers):
    return all(index in integers and row[index].denominator == 1 for index in row)


def upper_first(first, second):
    """Two constraints, an upper bound before a lower one."""
    return sorted((first, second), key=lambda constraint: constraint[1], reverse=True)


def are_opposite(upper, lower, integers):
    """Whether an upper and a lower bound are on the same row, whose value is an integer."""
    (row, sense, _), (other, other_sense, _) = upper, lower
    return (sense, other_sense) == ("L", "G") and row == other and whole_at(row, integers)


def is_split(first, second, integers):
    """The first profile's split: the lower bound is the upper one, an integer, and 1."""
    upper, lower = upper_first(first, second)
    right, other_right = upper[2], lower[2]
    is_next = right.denominator == 1 and other_right == right + 1
    return is_next and are_opposite(upper, lower, integers)


def covers(first, second, integers):
    """The second profile's split: no whole number is above the one bound and below the other."""
    upper, lower = upper_first(first, second)
    is_next = ceil(lower[2]) <= floor(upper[2]) + 1
    return is_next and are_opposite(upper, lower, integers)


SPLITS = {1: is_split, 2: covers}


def rounded(constraint, integers, refuse):
    row, sense, right = constraint
    if not whole_at(row, integers):
        refuse(36, f"sum {written(constraint)}")
    if sense == "E":
        return constraint if right.denominator == 1 else ABSURD
    return row, sense, Fraction(ceil(right) if sense == "G" else floor(right))


class Checker:
    def __init__(self, text, profile=1):
        self.profile = profile
        self.tokens = Tokens(text)
        self.names = []
        self.row_names = []
        self.constraints = []
        self.sets = []
        self.assumptions = set()
        self.last = {}
        self.best = None
        self.goal_index = None
        self.kept_for_good = self.peak = 0
        self.kept_until = {}

    def run(self):
        self.problem()
        for index in range(self.solutions):
            self.solution(index)
        self.primal_side()
        self.tokens.one_of(2, b"DER")
        self.derived = derived = self.tokens.count(self.rows)
        for index in range(self.rows, self.rows + derived):
            self.derivation(index)
        left = self.tokens.peek()
        if left is not None:
            raise Refused(18, f"byte {left[1]}")
        if self.goal is not None and self.goal_index is None:
            goal = "absurdity" if self.bounds is None else written(self.goal)
            raise Refused(51, "end", f"goal {goal}")
        counts = f"solutions {self.solutions} derived {derived} peak {self.peak}"
        return f"verified {self.claim()}\n{counts}"

    def claim(self):
        """The claim as it is printed."""
        if self.bounds is None:
            return "infeas"
        low, high = self.bounds
        return f'range {"-inf" if low is None else low} {"inf" if high is None else high}'

    def problem(self):
        tokens = self.tokens
        tokens.one_of(2, b"VER")
        tokens.one_of(3, b"1.0")
        tokens.one_of(2, b"VAR")
        self.variables = variables = tokens.count()
        for _ in range(variables):
            self.names.append(tokens.next()[0])
        tokens.one_of(2, b"INT")
        self.integers = {tokens.variable(variables)[0] for _ in range(tokens.count())}
        tokens.one_of(2, b"OBJ")
        self.minimizes = tokens.one_of(12, b"min", b"max") == b"min"
        self.objective = tokens.vector(variables)
        tokens.one_of(2, b"CON")
        self.rows = tokens.count()
        tokens.count()
        for _ in range(self.rows):
            self.row_names.append(self.name_ahead())
            self.constraints.append(tokens.constraint(variables, self.objective))
            self.sets.append(frozenset())
        tokens.one_of(2, b"RTP")
        if tokens.one_of(13, b"infeas", b"range") == b"infeas":
            self.bounds, self.primal, self.goal = None, None, ABSURD
        else:
            self.bounds = tokens.number(b"-inf"), tokens.number(b"inf")
            dual, self.primal = self.bounds if self.minimizes else self.bounds[::-1]
            sense = "G" if self.minimizes else "L"
            self.goal = None if dual is None else (self.objective, sense, dual)
        tokens.one_of(2, b"SOL")
        self.solutions = tokens.count()
        for index in range(self.rows):
            self.look_at(index)

    def name_ahead(self):
        """The name of the item that comes next, where there is one."""
        found = self.tokens.peek()
        return found and found[0]

    def look_at(self, index):
        if self.goal is None or self.goal_index is not None or self.sets[index]:
            return
        if self.meets(self.constraints[index]):
            self.goal_index = index

    def meets(self, constraint):
        """Whether the constraint proves the dual side."""
        if dominates(constraint, self.goal):
            return True
        whole = self.bounds is not None and whole_at(self.objective, self.integers)
        if self.profile == 1 or not whole or constraint[0] != self.objective:
            return False
        return dominates(rounded(constraint, self.integers, None), self.goal)

    def solution(self, own):
        name = self.tokens.next()[0]
        self.test_solution(own, name, self.tokens.vector(self.variables))

    def test_solution(self, own, name, point):
        def refuse(cause, *lines):
            solution = f"solution {own} {readable(name)}"
            raise Refused(cause, f"SOL {own}", solution, *lines) from None

        for index in sorted(self.integers & point.keys()):
            if point[index].denominator != 1:
                variable = f"variable {index} {readable(self.names[index])}"
                refuse(21, variable, f"value {point[index]}")
        for index, (row, sense, right) in enumerate(self.constraints):
            constraint = f"constraint {index} {readable(self.row_names[index])}"
            try:
                value = value_at(row, point)
            except Unfit:
                refuse(23, constraint)
            if not holds(value, sense, right):
                refuse(22, constraint, f"left {value} {sense} right {right}")
        try:
            value = value_at(self.objective, point)
        except Unfit:
            refuse(23, "objective")
        if self.best is None or (value < self.best if self.minimizes else value > self.best):
            self.best = value

    def primal_side(self):
        best, bound = self.best, self.primal
        if bound is None:
            return
        if best is None or (best > bound if self.minimizes else best < bound):
            raise Refused(52, "end", f"bound {bound}")

    def derivation(self, own):
        tokens = self.tokens
        name = self.name_ahead()
        stated = tokens.constraint(self.variables, self.objective)
        tokens.one_of(15, b"{")
        reason, parts = tokens.reason()
        tokens.one_of(15, b"}")
        found = tokens.peek()
        if found is not None and found[0] == b"-1":
            tokens.next()
            last = None
        else:
            last = tokens.reference()
        self.test_derivation(own, name, stated, reason, parts, last)

    def test_derivation(self, own, name, stated, reason, parts, last):
        def refuse(cause, *lines):
            derivation = f"derivation {own} {readable(name)}"
            raise Refused(cause, f"DER {own}", derivation, *lines) from None

        def refer(index, counts=True):
            if index >= own:
                refuse(31, f"index {index}")
            if counts and index >= self.rows and index not in self.assumptions:
                if self.last[index] is not None and self.last[index] < own:
                    refuse(32, f"index {index}")

        def need(computed):
            if not dominates(computed, stated):
                refuse(38, f"computed {written(computed)}", f"stated {written(stated)}")

        if reason == "asm":
            rests_on = frozenset([own])
            self.assumptions.add(own)
        elif reason in ("lin", "rnd"):
            for index, multiplier in parts:
                refer(index, multiplier != 0)
            computed = self.combined(parts, refuse)
            if reason == "rnd":
                computed = rounded(computed, self.integers, refuse)
            need(computed)
            sets = [self.sets[index] for index, multiplier in parts if multiplier]
            rests_on = frozenset().union(*sets)
        elif reason == "uns":
            for index in parts:
                refer(index)
            first, left, second, right = parts
            for index in left, right:
                if index not in self.assumptions:
                    refuse(33, f"index {index}")
            branches = self.constraints[left], self.constraints[right]
            if not SPLITS[self.profile](*branches, self.integers):
                refuse(37, f"first {written(branches[0])}", f"second {written(branches[1])}")
            for index in first, second:
                need(self.constraints[index])
            rests_on = (self.sets[first] - {left}) | (self.sets[second] - {right})
        else:
            if self.best is None:
                refuse(39)
            need((self.objective, "L" if self.minimizes else "G", self.best))
            rests_on = frozenset()
        self.constraints.append(stated)
        self.sets.append(rests_on)
        self.last[own] = last
        self.look_at(own)
        self.hold(own, last)

    def combined(self, entries, refuse):
        row, right, sign = {}, Fraction(0), 0
        for position, (index, multiplier) in enumerate(entries):
            if not multiplier:
                continue
            terms, sense, bound = self.constraints[index]
            turned = {"G": 1, "L": -1, "E": 0}[sense] * (1 if multiplier > 0 else -1)
            if turned * sign < 0:
                refuse(34, f"entry {position}")
            sign = sign or turned
            try:
                for variable, coefficient in terms.items():
                    term = multiply(multiplier, coefficient)
                    row[variable] = add(row.get(variable, Fraction(0)), term)
                right = add(right, multiply(multiplier, bound))
            except Unfit:
                refuse(35, f"entry {position}")
        return {variable: value for variable, value in row.items() if value}, "LEG"[sign + 1], right

    def hold(self, own, last):
        """Counts what is held after the derivation."""
        self.kept_until.pop(own, None)
        self.peak = max(self.peak, self.kept_for_good + sum(self.kept_until.values()) + 1)
        if last is None or own in self.assumptions:
            self.kept_for_good += 1
        elif last > own:
            self.kept_until[last] = self.kept_until.get(last, 0) + 1


def verdict(text, profile=1, checker=Checker):
    try:
        return checker(text, profile).run()
    except Refused as fault:
        cause, place = fault.args[:2]
        return f"refused {cause} at {place}"


def explained(text, profile=1, checker=Checker):
    """The verdict, and what shows it."""
    run = checker(text, profile)
    try:
        answer = run.run()
        return f"{answer}\ngoal {'none' if run.goal_index is None else run.goal_index}"
    except Refused as fault:
        cause, place, *lines = fault.args
        return "\n".join([f"refused {cause} at {place}", f"cause {CAUSES[cause]}", *lines])


def main():
    sys.set_int_max_str_digits(0)
    paths = sys.argv[1:]
    answer, profile = verdict, 1
    if paths[:1] == ["--explain"]:
        paths, answer = paths[1:], explained
    if paths[:2] in (["--profile", "1"], ["--profile", "2"]):
        paths, profile = paths[2:], int(paths[1])
    for path in paths or [None]:
        if path is None:
            text = sys.stdin.buffer.read()
        else:
            with open(path, "rb") as file:
                text = file.read()
        print(answer(text, profile))


if __name__ == "__main__":
    main()
