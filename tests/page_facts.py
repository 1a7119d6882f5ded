"""What is known of a text of which `vipr explain --long` shows a page: its verdict, its items, and the places of its tokens.

Items are read by the reader of python/vipr, and what follows from what is decided by the rules of bench/plain_check.py. Neither
shares code with the program, and all numbers are exact. Then the words that a page has for a name, a constraint and a place.
"""
import re
import sys
from collections import namedtuple
from fractions import Fraction
from math import ceil, floor
from pathlib import Path

sys.path[:0] = [
    str(Path(__file__).resolve().parent.parent / folder) for folder in ("bench", "python")
]

import plain_check as rules
from vipr import certificate
from vipr.certificate import _Fault, _Text

# (the model has names as their bytes)
certificate.decoded = bytes

KEYWORDS = "VER VAR INT OBJ CON RTP SOL DER".split()
ITEMS = {
    "VAR": "variable",
    "INT": "integer variable",
    "CON": "constraint",
    "SOL": "solution",
    "DER": "derivation",
}
# what stands for a section in which nothing is
EMPTY = {
    "VER": "`VER 1.0`",
    "VAR": "`VAR COUNT NAME ..`",
    "INT": "`INT 0` if no variable is integer",
    "OBJ": "`OBJ min 0` if there is no objective",
    "CON": "`CON 0 0` if there is no constraint",
    "RTP": "`RTP infeas` or `RTP range LOWER UPPER`",
    "SOL": "`SOL 0` if none is listed",
    "DER": "`DER 0` if nothing is derived",
}
SIGNS = {"G": ">=", "L": "<=", "E": "="}
NUMBER = r"-?\d+(?:/\d+)?"
MOST_TERMS, MOST_OF_NAME, MOST_CARETS, MOST_ENTRIES, MOST_SHOWN, MOST_NEAR, MOST_OF_SET = (
    12,
    40,
    40,
    10,
    6,
    3,
    4,
)
MOST_SOURCES, MOST_VALUES, MOST_TRIED = 3, 10, 8

# what is wanted at a token: the section, the part of the item, the item's position, how many there are, and the same of the
# pair, the entry or the number in the item
Role = namedtuple("Role", "section wanted item items part parts", defaults=(None,) * 4)
Token = namedtuple("Token", "at bytes")
NOTHING = Token(0, b"")


def count_of(token):
    """The number that digits spell, 0 for another token, as `OBJ` in place of a count."""
    return int(token[-4000:]) if token.isdigit() else 0


def vector(section, item, items):
    """The roles of a vector. It ends with its last pair."""
    count = count_of((yield Role(section, "row count", item, items)))
    for part in range(count):
        yield Role(section, "row index", item, items, part, count)
        yield Role(section, "row coefficient", item, items, part, count)


def constraint(section, item, items):
    for wanted in ("name", "sense", "right-hand side"):
        yield Role(section, wanted, item, items)
    yield from vector(section, item, items)


def reason(item, items):
    yield Role("DER", "open brace", item, items)
    word = yield Role("DER", "reason", item, items)
    if word in (b"lin", b"rnd"):
        count = count_of((yield Role("DER", "entry count", item, items)))
        for part in range(count):
            yield Role("DER", "entry index", item, items, part, count)
            yield Role("DER", "multiplier", item, items, part, count)
    for part in range(4 if word == b"uns" else 0):
        yield Role("DER", "branch", item, items, part, 4)
    for wanted in ("close brace", "last reference"):
        yield Role("DER", wanted, item, items)


def roles():
    """What is wanted at each token: a generator that is sent the tokens."""
    yield Role("VER", "keyword")
    yield Role("VER", "version")
    for section in KEYWORDS[1:]:
        yield Role(section, "keyword")
        if section == "OBJ":
            yield Role(section, "direction")
            yield from vector(section, None, None)
        elif section == "RTP":
            if (yield Role(section, "claim")) == b"range":
                yield Role(section, "lower bound")
                yield Role(section, "upper bound")
        else:
            count = count_of((yield Role(section, "count")))
            if section == "CON":
                yield Role(section, "bound count")
            for item in range(count):
                if section == "VAR":
                    yield Role(section, "name", item, count)
                elif section == "INT":
                    yield Role(section, "integer index", item, count)
                elif section == "SOL":
                    yield Role(section, "name", item, count)
                    yield from vector(section, item, count)
                else:
                    yield from constraint(section, item, count)
                    if section == "DER":
                        yield from reason(item, count)
    while True:
        yield Role("DER", "nothing")


class Rules(rules.Checker):
    """The checker of bench/plain_check.py, whose state stays as it was in front of what is refused."""

    def accepts(self, own, stated, word, parts):
        """Whether the rule of a reason accepts a derivation of this index."""
        saved = self.goal_index, self.peak, self.kept_for_good, dict(self.kept_until)
        sizes = len(self.constraints), len(self.sets)
        try:
            self.test_derivation(own, b"", stated, word, parts, None)
        except rules.Refused:
            return False
        finally:
            del self.constraints[sizes[0] :], self.sets[sizes[1] :]
            self.last.pop(own, None)
            self.assumptions.discard(own)
            self.goal_index, self.peak, self.kept_for_good, self.kept_until = saved
        return True


class Facts:
    """What is known of a text by a profile: its verdict, its items as far as they can be read, and the places of tokens."""

    def __init__(self, text, profile):
        self.text, self.profile, self.near = text, profile, None
        self.checker = Rules(text, profile)
        try:
            answer, self.refused = self.checker.run(), None
            self.lines = [
                *answer.split("\n"),
                f"goal {self.checker.goal_index}".replace("None", "none"),
            ]
        except rules.Refused as fault:
            self.refused, self.place, *details = fault.args
            self.lines = [
                f"refused {self.refused} at {self.place}",
                f"cause {rules.CAUSES[self.refused]}",
                *details,
            ]
        self.details = dict(line.partition(" ")[::2] for line in self.lines)
        self.read_tokens()
        self.read_items()

    def read_tokens(self):
        """Walks the tokens up to the one at a fault of the text: `role` and `token` are what is wanted there, and it."""
        self.names, self.lasts, self.counts, self.claims, self.tokens = {}, {}, {}, {}, {}
        self.value_counts, self.vector, self.read_names = {}, [], set()
        kind, _, number = self.place.partition(" ") if self.refused is not None else ("", "", "")
        refused = kind, int(number) if kind in ("SOL", "DER") else -1
        self.token = self.name = NOTHING
        end = int(self.place.split()[1]) if self.is_text_fault() else len(self.text) + 1
        walk = roles()
        self.role = next(walk)
        given = 0
        begin = re.match(rb"[\t-\r ]*(?:%[^\n]*(?:\n|$)[\t-\r ]*)*", self.text).end()
        self.is_end = self.is_text_fault()
        for found in re.compile(rb"[^\t-\r ]+").finditer(self.text, begin):
            self.token, role = Token(found.start(), found[0]), self.role
            if found.start() >= end:
                self.is_end = False
                break
            item = role.item if role.section != "DER" or role.item is None else given + role.item
            kind = "SOL" if role.section == "SOL" else "CON"
            if role.section == "RTP":
                self.claims[role.wanted] = self.token
            if (role.section, item) == refused:
                self.tokens[role.wanted, role.part] = self.token
            if role.wanted == "name":
                self.name = self.token
                self.read_names.add(found[0])
                if role.section != "VAR":
                    self.names[kind, item] = self.token
            elif role.wanted == "row count":
                self.vector = []
                if role.section == "SOL":
                    self.value_counts[item] = count_of(found[0])
            elif role.wanted == "row index":
                self.vector.append(count_of(found[0]))
            elif role.wanted == "last reference":
                self.lasts[item] = self.token
            elif role.wanted == "count":
                self.counts[role.section] = count_of(found[0])
                given = self.counts[role.section] if role.section == "CON" else given
            self.role = walk.send(found[0])
        if not self.is_text_fault():
            self.role, self.token = Role("DER", "nothing"), NOTHING
        self.given = given

    def read_items(self):
        """The items by the reader of python/vipr, up to the first fault of the text."""
        self.problem, self.solutions, self.derivations, self.listed = None, [], [], 0
        text = _Text(self.text, None)
        reader = text.reader
        try:
            self.problem, front = text.problem()
            reader.keyword(b"SOL")
            self.listed = reader.count()
            for _ in range(self.listed):
                self.solutions.append(reader.solution(front))
            reader.keyword(b"DER")
            for _ in range(reader.count()):
                self.derivations.append(reader.derivation(front))
        except _Fault:
            pass

    def is_text_fault(self):
        return self.refused is not None and self.place.startswith("byte ")

    def number(self):
        """The number of a place, as that of a derivation."""
        return int(self.place.split()[1])

    def constraint(self, index):
        """A constraint of the problem, or a derived one."""
        return (
            self.problem.constraints[index]
            if index < self.given
            else self.derivations[index - self.given].constraint
        )

    def plain(self, index):
        """The same as bench/plain_check.py has it: row, sense, and right-hand side."""
        constraint = self.constraint(index)
        return constraint.row, constraint.sense, Fraction(constraint.bound)

    def own(self):
        """The derivation that is refused."""
        return self.derivations[self.number() - self.given]

    def parts(self, own):
        return [(index, Fraction(multiplier)) for index, multiplier in own.entries] or list(
            own.indices
        )

    def accepts(self, parts, word=None):
        """Whether the derivation that is refused follows with these entries, or with this word in place of the one of its reason."""
        return self.checker.accepts(
            self.number(), self.plain(self.number()), word or self.own().reason, parts
        )

    def rest(self, index):
        """The assumptions that a constraint rests on, ascending."""
        return sorted(self.checker.sets[index])

    def written(self, label):
        """A constraint in the lines of `explain`, as `G 1 1 0 2`."""
        sense, bound, _, *words = self.details[label].split()
        return (
            {int(index): Fraction(value) for index, value in zip(words[::2], words[1::2])},
            sense,
            Fraction(bound),
        )

    def dual_tokens(self):
        """The part of the claim that a constraint has to prove."""
        if self.checker.bounds is None:
            return [self.claims[part] for part in ("keyword", "claim")]
        return [self.claims["lower bound" if self.checker.minimizes else "upper bound"]]

    def value_at_fault(self):
        """The value of a solution that is at fault alone, None if there is none."""
        alone = (
            list(self.plain(int(self.details["constraint"].split()[0]))[0])
            if self.refused == 22
            else []
        )
        variable = (
            int(self.details["variable"].split()[0])
            if self.refused == 21
            else alone[0]
            if len(alone) == 1
            else None
        )
        pairs = [part for wanted, part in self.tokens if wanted == "row index"]
        found = [
            part for part in pairs if count_of(self.tokens["row index", part].bytes) == variable
        ]
        return self.tokens["row coefficient", found[0]] if found else None

    def entry_at_fault(self):
        """The position of the entry of a sum that is at fault, None if no entry alone is."""
        if "entry" in self.details:
            return int(self.details["entry"])
        if "index" not in self.details:
            return None
        index = int(self.details["index"])
        return next(
            (
                at
                for at, (other, multiplier) in enumerate(self.own().entries)
                if other == index and (multiplier or self.refused != 32)
            ),
            None,
        )

    def differences(self):
        """The variables at which the computed row and the stated one differ: those of the computed one first."""
        computed, stated = self.written("computed")[0], self.written("stated")[0]
        changed = [index for index in sorted(computed) if stated.get(index) != computed[index]]
        return changed + sorted(stated.keys() - computed.keys())

    def differences_of_rows(self):
        """The variables at which the row of a sum and the stated one differ."""
        summed = self.written("sum" if self.refused == 36 else "computed")[0]
        stated = self.plain(self.number())[0]
        return {
            index
            for index in summed.keys() | stated.keys()
            if summed.get(index) != stated.get(index)
        }

    def row_faults(self, row):
        """What keeps a row from being whole: a coefficient or a variable, by the variable's index."""
        for index in sorted(row):
            if row[index].denominator != 1:
                yield "coefficient", index
            if index not in self.problem.integers:
                yield "variable", index

    def was_dropped(self, index):
        """Whether an earlier constraint was dropped before the derivation that is refused."""
        if index < self.given:
            return False
        step = self.derivations[index - self.given]
        return step.reason != "asm" and step.last is not None and step.last < self.number()

    def last_use(self, index):
        """The last derivation that names a constraint, as far as the text can be read."""
        users = [
            self.given + at
            for at, derivation in enumerate(self.derivations)
            if index in (*derivation.indices, *(other for other, _ in derivation.entries))
        ]
        return max(users)

    def turned(self, index):
        """Whether a constraint has the other sense than the one that is wanted."""
        return self.checker.bounds is not None and {
            self.constraint(index).sense,
            self.checker.goal[1],
        } == {"G", "L"}

    def rounds(self):
        """Whether right-hand sides are rounded when they are compared with the claim."""
        return self.profile == 2 and rules.whole_at(self.checker.objective, self.checker.integers)

    def gap(self, index):
        """How far a constraint's right-hand side is from the wanted one; None for the other sense, or past the limit."""
        _, sense, side = self.plain(index)
        if self.rounds() and sense != "E":
            side = Fraction(ceil(side) if sense == "G" else floor(side))
        if self.checker.bounds is None or self.turned(index):
            return None
        return difference(self.checker.goal[2], side)

    def nearest(self):
        """The constraints that come nearest to the claim, in their order."""
        if self.near is None:
            self.near = self.find_nearest()
        return self.near

    def is_like_goal(self, constraint):
        """Whether a constraint has the objective's row or, if the claim is `infeas`, is absurd."""
        if self.checker.bounds is None:
            return rules.is_absurd(constraint)
        return constraint[0] == self.checker.goal[0]

    def find_nearest(self):
        """Those that are strong enough first, then those that miss it by less, then those that rest on no assumption; of two alike
        the later one."""
        found = []
        for index, constraint in enumerate(self.checker.constraints):
            if self.is_like_goal(constraint):
                gap = self.gap(index)
                how_near = (0,) if self.checker.meets(constraint) else (1, gap is None, gap or 0)
                found.append((how_near, bool(self.checker.sets[index]), -index))
        return [-index for _, _, index in sorted(found)[:MOST_NEAR]]

    def objective(self, number):
        return rules.value_at(
            self.checker.objective,
            {index: Fraction(value) for index, value in self.solutions[number].values.items()},
        )

    def objectives(self):
        return [self.objective(number) for number in range(len(self.solutions))]

    def best(self):
        return (min if self.checker.minimizes else max)(self.objectives(), default=None)


def difference(one, other):
    """How far apart two numbers are, None if that is past the limit."""
    try:
        return abs(rules.add(Fraction(one), -Fraction(other)))
    except rules.Unfit:
        return None


class Wrong(Exception):
    """A line says what is not so."""


def same(what, got, wanted):
    """Fails unless a page says what is wanted."""
    if got != wanted:
        raise Wrong(f"{what}: it says {got!r}, and it is {wanted!r}")


def true(is_so, what):
    """Fails unless what a page says is so."""
    if not is_so:
        raise Wrong(what)


def shown_byte(byte):
    return {9: " ", 92: "\\\\"}.get(byte) or (chr(byte) if 32 <= byte <= 126 else f"\\x{byte:02x}")


def shown(name):
    """Bytes as a page shows them: escaped, if a terminal should not get them."""
    return "".join(map(shown_byte, name))


def shown_name(name):
    """A name as a page shows it, a long one by its ends."""
    return f"{shown(name[:19])}..{shown(name[-19:])}" if len(name) > MOST_OF_NAME else shown(name)


def algebra(facts, constraint):
    """A constraint (row, sense, right-hand side) as people write it: the first terms of a long row, and how many there are."""
    row, sense, bound = constraint
    text = ""
    for index in sorted(row)[:MOST_TERMS]:
        number = row[index]
        sign = "-" if number < 0 else "+" if text else ""
        size = "" if abs(number) == 1 else f"{abs(number)} "
        text += f" {sign} " if text else sign
        text += f"{size}{variable(facts, index)}"
    more = f" .. ({len(row)} terms)" if len(row) > MOST_TERMS else ""
    return f'{text or "0"}{more} {SIGNS[sense]} {bound}'


def variable(facts, index):
    """The name of a variable as a page shows it, a long one with its index."""
    name = facts.problem.names[index]
    return shown_name(name) + (f"#{index}" if len(name) > MOST_OF_NAME else "")


def is_long(number):
    return max(abs(number.numerator), number.denominator) >= 10**18


def rounded(number):
    """A number as a decimal of six digits, the first of which isn't 0, and a power of ten if it is large or small."""
    size = abs(number)
    power = next(power for power in range(-50, 50) if size < 10 ** Fraction(power + 1))
    digits = int(size / 10 ** Fraction(power - 5) + Fraction(1, 2))
    is_plain = -4 <= power < 5
    behind = 5 - power if is_plain else 5
    whole, rest = divmod(digits, 10**behind)
    sign = "-" if number < 0 else ""
    exponent = "" if is_plain else f"e{power}"
    return f"{sign}{whole}.{rest:0{behind}}{exponent}"


def measured(number):
    """A number as a page says it: a long one with about how large it is."""
    return f"{number} (about {rounded(number)})" if is_long(number) else str(number)


def place_of(text, at):
    """The line and the column of a byte."""
    return text.count(b"\n", 0, at) + 1, at - text.rfind(b"\n", 0, at)


def constraint_shown(facts, index, name, text, line):
    """A constraint as it is listed: its name, its algebra unless it was dropped, and its line."""
    same(f"the name of [{index}]", name, shown_name(facts.constraint(index).name))
    if text is not None:
        same(f"[{index}]", text, algebra(facts, facts.plain(index)))
    same(f"the line of [{index}]", line, place_of(facts.text, facts.names["CON", index].at)[0])
