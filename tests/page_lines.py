"""The forms of the lines of a page of `vipr explain --long`, and what each says of its text.

A form is a function below `form`: its pattern, and what is tested of a line that has it. It gets the page so far and the groups of
the pattern, which are numbers unless they are marked as texts. What a line says is worked out again from page_facts.py. A change
of a sum that a page offers is made here, and the rule is applied to it.
"""
import os
import re
from collections import Counter
from fractions import Fraction
from math import gcd
from types import SimpleNamespace

from page_facts import (
    EMPTY,
    ITEMS,
    KEYWORDS,
    MOST_CARETS,
    MOST_ENTRIES,
    MOST_NEAR,
    MOST_OF_SET,
    MOST_SHOWN,
    MOST_VALUES,
    NOTHING,
    NUMBER,
    SIGNS,
    algebra,
    constraint_shown,
    count_of,
    difference,
    measured,
    place_of,
    roles,
    rounded,
    rules,
    same,
    shown,
    shown_name,
    true,
    variable,
)


FORMS = []
LISTED = r"\[(\d+)\] (\S+)(?:  (.+)|, which was dropped)  \(line (\d+)\)"
LATER = r"\[(\d+)\] (\S+), which comes later  \(line (\d+)\)"
LISTED_NAME = r"\[(\d+)\] (\S+)  \(line (\d+)\)"


def form(pattern, kind=None):
    """Makes a function the test of the lines that a pattern fits: it gets the page so far, and the groups."""

    def add(test):
        FORMS.append((re.compile(pattern), kind or test.__name__, test))
        return test

    return add


class Page:
    """A page that is read, with what its lines said so far."""

    def __init__(self, facts, file):
        self.facts, self.file = facts, file
        self.said = Counter()
        self.place = self.part = self.mended = None
        self.changed, self.mends, self.abouts = [], {}, []
        self.entries, self.sources, self.near, self.cases, self.faults, self.offers = (
            [],
            0,
            [],
            [],
            [],
            [],
        )

    def is_asked(self):
        """Whether something else is asked before a change of a part is offered: then no change is marked."""
        return any(self.said[kind] for kind in (*ASKED, *OF_ALL))


@form(r"error: (\w+): (.*)")
def text_error(page, name: str, words: str):
    facts = page.facts
    true(facts.is_text_fault(), "no fault of the text")
    same("the cause", name, rules.CAUSES[facts.refused])
    if facts.refused == 18:
        same("what is wrong", words, "text after the last derivation")
    else:
        same(
            "what is wanted",
            words,
            ("the text ends where this is wanted: " if facts.is_end else "wanted ") + wanted(facts),
        )


WANTED = {
    "keyword": "the keyword `{section}`",
    "version": "the version `1.0`",
    "count": "the number of {what}s, a count in digits",
    "bound count": "the number of bounds among the constraints, a count in digits",
    "name": "the name of {what} {index}",
    "integer index": "the index of a variable, {indices}",
    "direction": "`min` or `max`",
    "sense": "the sense `E`, `L` or `G`",
    "right-hand side": "the right-hand side, a number",
    "row count": "the number of coefficients, a count in digits",
    "row index": "the index of a variable, {indices}",
    "row coefficient": "the {value} of pair {part} (of {parts}, counted from 0)",
    "claim": "`infeas` or `range`",
    "lower bound": "the lower bound, a number or `-inf`",
    "upper bound": "the upper bound, a number or `inf`",
    "open brace": "`{{`, a token of its own",
    "reason": "a reason: `asm`, `lin`, `rnd`, `uns` or `sol`",
    "entry count": "the number of entries, a count in digits",
    "entry index": "the constraint's index in entry {part} (of {parts}, counted from 0)",
    "multiplier": "the multiplier of entry {part} (of {parts}, counted from 0)",
    "close brace": "`}}`, a token of its own",
    "last reference": "the last reference: a constraint's index or -1",
}
BRANCHES = (
    "i1 of `uns`: the constraint that holds in the first case",
    "l1 of `uns`: the assumption of the first case",
    "i2 of `uns`: the constraint that holds in the second case",
    "l2 of `uns`: the assumption of the second case",
)


def index_of(facts):
    """The index of the item that is read, among all constraints for a derivation."""
    return facts.role.item + (facts.given if facts.role.section == "DER" else 0)


def wanted(facts):
    role = facts.role
    if role.wanted == "branch":
        return BRANCHES[role.part]
    count = facts.counts.get("VAR", 0)
    if (role.section, role.wanted) == ("SOL", "row count"):
        return "the number of values, a count in digits"
    return WANTED[role.wanted].format(
        section=role.section,
        what=ITEMS.get(role.section),
        index=role.item is not None and index_of(facts),
        indices=f"0 to {count - 1}" if count else "but there is none",
        part=role.part,
        parts=role.parts,
        value="value" if role.section == "SOL" else "coefficient",
    )


@form(r"( *)--> (.*):(\d+):(\d+)")
def arrow(page, margin: str, file: str, line, column):
    same("the file", file, shown(os.fsencode(page.file)))
    same("the margin", len(margin), len(str(line)))
    lines = page.facts.text.split(b"\n", line - 1 + 1)[:line]
    true(len(lines) == line and column <= len(lines[-1]) + 1, "there is no such place")
    page.place = sum(map(len, lines[:-1])) + line - 1 + column - 1
    page.line, page.excerpt = line, None


@form(r"( *) \|")
def bar(page, margin: str):
    same("the margin", len(margin), len(str(page.line)))


@form(r"( *)(\d+) \| (.*)")
def excerpt(page, margin: str, line, text: str):
    if page.said["carets"] % 2 and page.facts.refused == 22:
        page.place = page.facts.names["CON", int(page.facts.details["constraint"].split()[0])].at
    same("the line", line, place_of(page.facts.text, page.place)[0])
    same("the margin", len(margin) + len(str(line)), len(str(page.line)))
    page.excerpt = text


@form(r"(\d+) ~ (.*)")
def mended(page, line, text: str):
    same("the line", line, page.line)
    front, token = page.excerpt[: page.front], shown(page.facts.tokens[page.part].bytes)
    rest = (
        page.excerpt[page.front + len(token) :]
        if page.excerpt[page.front :].startswith(token)
        else page.excerpt[-2:]
    )
    true(text.startswith(front) and text.endswith(rest), f"it has not {front!r} and {rest!r}")
    page.mended = text[len(front) : len(text) - len(rest)]


@form(r"( *) \| ( *)(\^+) (.+)")
def carets(page, margin: str, front: str, marks: str, label: str):
    page.said[f"label {label.split()[0]}"] += 1
    tokens = labelled(page, label)
    token = next((token for token in tokens if token.at == page.place), None)
    true(token is not None, f"the place of {label!r} is another one")
    test_marks(page, margin, front, marks, token)


@form(r"( *) \| ( *)(-+) this constraint")
def other_place(page, margin: str, front: str, marks: str):
    test_marks(
        page,
        margin,
        front,
        marks,
        page.facts.names["CON", int(page.facts.details["constraint"].split()[0])],
    )


def test_marks(page, margin, front, marks, token):
    """Tests that the marks are below a token, and the excerpt is of its line."""
    facts = page.facts
    same("the margin", len(margin), len(str(page.line)))
    true(page.excerpt is not None, "no excerpt is in front of this")
    # where the part of the line that is shown begins follows from the column of the carets
    begin = facts.text.rfind(b"\n", 0, token.at) + 1
    end = re.compile(rb"[\r\n]|$").search(facts.text, token.at).start()
    window = facts.text[token.at : min(end, token.at + len(page.excerpt) + 1)]
    width, ends = 0, set()
    for at in range(token.at, max(begin, token.at - len(front)) - 1, -1):
        width += len(shown(facts.text[at : at + 1])) if at < token.at else 0
        cut = 2 * (at > begin)
        if width + cut == len(front):
            whole = ".."[:cut] + shown(facts.text[at : token.at] + window)
            if whole == page.excerpt and token.at + len(window) == end:
                ends.add(len(whole))
            elif (
                page.excerpt.endswith("..")
                and whole.startswith(page.excerpt[:-2])
                and len(whole) > len(page.excerpt) - 2
            ):
                ends.add(len(page.excerpt) - 2)
    page.front = len(front)
    true(
        ends,
        f"the excerpt {page.excerpt!r} is not of the line, or the carets are at another place of it",
    )
    same(
        "the marks",
        len(marks),
        max(1, min(MOST_CARETS, len(shown(token.bytes)), max(ends) - len(front))),
    )


def labelled(page, label):
    """The tokens that a label may be about."""
    facts = page.facts
    if label == "this was found":
        true(facts.is_text_fault() and not facts.is_end, "the text ends here")
        return [facts.token]
    if label in ("the text ends after this", "no token is here"):
        true(facts.is_text_fault() and facts.is_end, "the text does not end here")
        same("whether there is a token", label != "no token is here", facts.token != NOTHING)
        return [facts.token]
    if label in ("this solution", "this value"):
        value = facts.value_at_fault()
        same("whether a value is at fault", label == "this value", value is not None)
        return [value or facts.names["SOL", facts.number()]]
    if label == "this isn't proved":
        same("the cause", facts.refused, 51)
        return facts.dual_tokens()
    if label == "the primal bound":
        same("the cause", facts.refused, 52)
        return [facts.claims["upper bound" if facts.checker.minimizes else "lower bound"]]
    found = re.fullmatch(r"write (\d+) or -1 here", label)
    if found:
        index = int(facts.details["index"])
        same(
            f"the last use of [{index}]",
            (facts.refused, int(found[1])),
            (32, facts.last_use(index)),
        )
        return [facts.lasts[index]]
    true(label in PARTS, f"an unknown label {label!r}")
    parts = {at: token for at, token in facts.tokens.items() if at[0] in PARTS[label]}
    page.part = next((at for at, token in parts.items() if token.at == page.place), None)
    return list(parts.values())


# parts of a derivation: how each is called, and which tokens it may be
PARTS = {
    "this derivation": ("name",),
    "this sense": ("sense",),
    "this right-hand side": ("right-hand side",),
    "this reason": ("reason",),
    "this multiplier": ("multiplier",),
    "this index": ("entry index", "branch"),
    "this assumption, and that of case 2": ("branch",),
}


def is_at_fault(facts, kind, part):
    """Whether this part of a derivation is the one at fault, if no change of it is offered."""
    if facts.refused == 38 and not facts.differences():
        if rules.is_absurd(facts.written("stated")):
            return kind == "reason"
        computed, stated = facts.written("computed")[1], facts.written("stated")[1]
        return kind == ("right-hand side" if computed in ("E", stated) else "sense")
    if kind == "branch" and "index" in facts.details:
        index = int(facts.details["index"])
        return facts.own().indices[part] == index and (facts.refused != 33 or part % 2 == 1)
    if entry_at_fault(facts) is not None:
        return part == entry_at_fault(facts)
    return kind == (
        "branch" if facts.refused == 37 else "name" if facts.refused == 38 else "reason"
    ) and part in (None, 1)


@form(r"  = reading: (\w+)(?:, ([a-z ]+) (\d+) \((\d+) of (\d+)\)(?:, `(\S*)`)?)?")
def reading(page, section, what: str, index, number, items, name: str):
    facts, role = page.facts, page.facts.role
    same("the section", section, role.section)
    if role.item is None:
        same("the item", what, None)
        return
    same(
        "the item",
        (what, index, number, items),
        (ITEMS[section], index_of(facts), role.item + 1, role.items),
    )
    is_named = role.wanted not in ("name", "integer index")
    same("the name", name, shown_name(facts.name.bytes) if is_named else None)


@form(r"  = see: docs/FORMAT\.md, cause (\d+)")
def see(page, cause):
    same("the cause", cause, page.facts.refused)


# ---- pages of a solution


@form(r"error: solution (\d+) `(\S+)` (.*)")
def solution_error(page, number, name: str, words: str):
    facts = page.facts
    same("the place", f"SOL {number}", facts.place)
    same("the name", name, shown_name(facts.solutions[number].name))
    same(
        "what is wrong",
        words,
        {
            21: "is not whole at an integer variable",
            22: "breaks a constraint",
            23: "passes 2^127 - 1",
        }.get(facts.refused),
    )


@form(rf"  (\S+) \(variable (\d+)\) is ({NUMBER}) here, and has to be whole \(INT\)")
def not_whole(page, name: str, index, value):
    facts = page.facts
    same(
        "the variable",
        (21, index, name),
        (facts.refused, int(facts.details["variable"].split()[0]), variable(facts, index)),
    )
    same("the value", value, facts.solutions[facts.number()].values[index])


@form(
    rf"  = help: write a whole value, or take the variable out of INT\. Is ({NUMBER}) meant\? It is ({NUMBER}) off"
)
def nearest_whole(page, nearest, gap):
    facts = page.facts
    value = Fraction(facts.details["value"])
    same("how far off it is", (facts.refused, gap), (21, abs(value - nearest)))
    true(nearest.denominator == 1 and gap <= Fraction(1, 10), "it isn't near")


@form(r"  constraint (\d+) `(\S+)`: (.+)  \(line (\d+)\)")
def broken(page, index, name: str, text: str, line):
    same(
        "the constraint",
        (22, index),
        (page.facts.refused, int(page.facts.details["constraint"].split()[0])),
    )
    constraint_shown(page.facts, index, name, text, line)


@form(
    rf"  (?:at the solution: (.+)|the row is empty); the left side is ({NUMBER}), which is not (<=|>=|=) ({NUMBER})(?:, off by (.+))?"
)
def left_side(page, values: str, left, sign, right, gap: str):
    facts = page.facts
    index = int(facts.details["constraint"].split()[0])
    row, sense, bound = facts.plain(index)
    point = facts.solutions[facts.number()].values
    texts = [f"{variable(facts, at)} = {point.get(at, 0)}" for at in sorted(row)[:MOST_VALUES]]
    more = f" .. ({len(row)} variables)" if len(row) > MOST_VALUES else ""
    same("the values", values, ", ".join(texts) + more if row else None)
    total = sum((value * Fraction(point.get(at, 0)) for at, value in row.items()), Fraction(0))
    same("the sides", (left, sign, right), (total, SIGNS[sense], bound))
    true(not rules.holds(total, sense, bound), "the constraint holds")
    off = difference(bound, total)
    same("the gap", gap, None if off is None else measured(off))


@form(r"  it is past the limit in (?:constraint (\d+)|the objective)")
def past_limit(page, index):
    same(
        "the constraint",
        (23, None if index is None else str(index)),
        (page.facts.refused, page.facts.details.get("constraint", "").split(" ")[0] or None),
    )


@form(r"error: no listed solution attains the primal bound")
def no_primal(page):
    same("the cause", page.facts.refused, 52)


@form(rf"  wanted: a solution whose objective is ({NUMBER}) or better")
def wanted_value(page, bound):
    same("the bound", bound, page.facts.checker.primal)


@form(r"  (primal )?solution (\d+) `(\S+)`: objective (.+)")
def value(page, primal, number, name: str, objective: str):
    facts = page.facts
    same("the name", name, shown_name(facts.solutions[number].name))
    known = facts.objective(number)
    same("the objective", objective, measured(known))
    same("the cause", facts.refused, None if primal else 52)
    same("the best value", known, facts.best())
    same(
        "the first of the best",
        number,
        facts.objectives().index(known),
    )


@form(r"  primal no solution is listed")
def none_listed(page):
    same("the solutions", page.facts.listed, 0)


@form(
    rf"  = help: is ({NUMBER}) meant in place of ({NUMBER}) at (\S+)\? Then both sides are the same; else change the solution, or leave it out"
)
def lost_sign(page, meant, present, name: str):
    facts = page.facts
    row, _, bound = facts.plain(int(facts.details["constraint"].split()[0]))
    values = facts.solutions[facts.number()].values
    same("the sign", meant, -present)
    places = [at for at, number in row.items() if number == present and variable(facts, at) == name]
    true(places, "there is no such coefficient")
    total = sum(
        (Fraction(number) * Fraction(values.get(at, 0)) for at, number in row.items()), Fraction(0)
    )
    gain = [2 * meant * Fraction(values.get(at, 0)) for at in places]
    true(bound - total in gain, "the sides are not the same")


@form(
    r"  = help: solution (\d+) `(\S+)` lists no value, so each variable is 0: is its count right\?",
    "attained",
)
def best_lists_none(page, number, name: str):
    facts = page.facts
    same("the name", name, shown_name(facts.solutions[number].name))
    same("the cause and its values", (facts.refused, facts.value_counts[number]), (52, 0))
    same("the best value", facts.objective(number), facts.best())


@form(
    rf"  = help: ({NUMBER}) is attained: is that the primal bound \(the upper one for min, the lower one for max\), is a better "
    r"solution left out, or is a constant of the objective in the claim\? The format has none"
)
def attained(page, best):
    facts = page.facts
    same("the best value", best, facts.best())
    best_one = facts.objectives().index(best)
    true(facts.value_counts[best_one] > 0, "the best solution lists no value")


@form(r"  the text lists no solution \(SOL 0\)")
def lists_none(page):
    same("the solutions", page.facts.listed, 0)


@form(r"  = help: the lower bound of the claim is above the upper one: are they exchanged\?")
def exchanged(page):
    lower, upper = page.facts.checker.bounds
    true(
        lower is not None and upper is not None and lower > upper,
        f"the bounds are {lower} and {upper}",
    )


# ---- pages of a derivation

HEADS = {
    31: "names constraint {index}, which is not earlier",
    32: "needs constraint {index}, which was dropped",
    33: "takes constraint {index} for an assumption, which it is not",
    34: "has a sum of both senses: entry {entry} gives {given}, and the sum before it is {before}",
    35: "passes 2^127 - 1 at entry {entry} of its sum",
    36: "has a sum that can't be rounded",
    37: "has two assumptions that don't form a split",
    38: "does not follow from its reason",
    39: "needs a listed solution",
}


@form(r"error: derivation (\d+) `(\S+)` (.*)")
def derivation_error(page, index, name: str, words: str):
    facts = page.facts
    same("the place", f"DER {index}", facts.place)
    same("the name", name, shown_name(facts.own().constraint.name))
    known = dict(facts.details)
    if facts.refused == 34:
        given, *before = given_senses(facts, int(known["entry"]))
        true(before and {*before} == {"<=", ">="} - {given}, f"the sum before it is {before}")
        known |= {"given": given, "before": before[0]}
    same("what is wrong", words, HEADS[facts.refused].format_map(known))


def given_senses(facts, end, first=0):
    """The senses that the entries of a sum give up to this one, the last one first: an equation and a multiplier 0 give none."""
    for index, multiplier in reversed(facts.own().entries[first : end + 1]):
        sense = facts.constraint(index).sense
        if sense != "E" and multiplier:
            yield ">=" if (sense == "G") == (multiplier > 0) else "<="


@form(r"  it states    (.+)")
def states(page, text: str):
    same("what it states", text, algebra(page.facts, page.facts.plain(page.facts.number())))


@form(r"  its reason   (lin|rnd) of (\d+):")
def sum_reason(page, word, count):
    same("the reason", (word, count), (page.facts.own().reason, len(page.facts.own().entries)))


@form(r"  its reason   (asm|sol)(, the cutoff at the best listed solution)?")
def plain_reason(page, word, note):
    same("the reason", (word, note is not None), (page.facts.own().reason, word == "sol"))


@form(
    rf"      ({NUMBER}) x (?:{LISTED}|\[(\d+)\], (this derivation itself|which is not before this derivation)|{LATER})(?: <-- entry (\d+)(?: gives (<=|>=), and (<=|>=) is stated)?)?"
)
def entry(
    page,
    multiplier,
    index,
    name: str,
    text: str,
    line,
    later,
    what: str,
    later_one,
    later_name: str,
    later_line,
    marked,
    given,
    stated,
):
    facts = page.facts
    if later_one is not None:
        later, what = test_later(facts, later_one, later_name, later_line)
    position = len(page.entries)
    if len(page.entries) == MOST_ENTRIES:
        position = marked_entry(page)
    page.entries.append(position)
    index = later if index is None else index
    same(f"entry {position}", (index, multiplier), facts.own().entries[position])
    is_marked = "entry" in facts.details and position == marked_entry(page)
    same("the mark of an entry", marked, position if is_marked else None)
    wanted_sense = SIGNS[facts.plain(facts.number())[1]]
    is_other = is_marked and facts.refused == 34 and wanted_sense != "="
    if given is not None or is_other and position == entry_at_fault(facts):
        same("the stated sense", stated, wanted_sense)
        same("the sense of the entry", [given], [*given_senses(facts, position, position)])
    named(facts, index, name, text, line, what)


def marked_entry(page):
    """The position of the entry that is marked: the one that a help changes, if it changes one of a sum with both senses."""
    is_changed = page.facts.refused == 34 and page.part in page.changed
    return page.part[1] if is_changed and not page.is_asked() else entry_at_fault(page.facts)


def entry_at_fault(facts):
    """The position of the entry at fault: of a sum with both senses the first one that gives another sense than the stated one."""
    sense = SIGNS[facts.plain(facts.number())[1]]
    if facts.refused == 34 and sense != "=":
        end = int(facts.details["entry"])
        return next(
            at for at in range(end + 1) if next(given_senses(facts, at, at), sense) != sense
        )
    return facts.entry_at_fault()


def test_later(facts, index, name, line):
    """Tests that a derivation comes later in the text, and gives what `named` takes of it."""
    true(index > facts.number(), f"[{index}] is earlier")
    token = facts.names["CON", index]
    known = shown_name(token.bytes), place_of(facts.text, token.at)[0]
    same("its name and line", (name, line), known)
    return index, "which is not before this derivation"


def named(facts, index, name, text, line, what):
    """A constraint that a reason names: an earlier one is listed."""
    own = facts.number()
    if what is None:
        true(index < own, f"[{index}] is not earlier")
        same(f"whether [{index}] was dropped", text is None, facts.was_dropped(index))
        constraint_shown(facts, index, name, text, line)
    else:
        same(
            f"what [{index}] is",
            what,
            {True: "this derivation itself", False: "which is not before this derivation"}[
                index == own
            ],
        )
        true(index >= own, f"[{index}] is earlier")


@form(r"      \.\. \((\d+) entries\)")
def entries_left(page, count):
    same("the entries", count, len(page.facts.own().entries))
    true(count > MOST_ENTRIES, "few entries are all shown")


CASES = "  case 1 gives ", "     assuming  ", "  case 2 gives ", "     assuming  "


@form(
    rf"(  case [12] gives |     assuming  )(?:{LISTED}(?: (asm|lin|rnd|uns|sol|given))?|\[(\d+)\], (this derivation itself|which is not before this derivation)|{LATER})"
)
def case(
    page,
    label: str,
    index,
    name: str,
    text: str,
    line,
    word,
    later,
    what: str,
    later_one,
    later_name: str,
    later_line,
):
    facts = page.facts
    if later_one is not None:
        later, what = test_later(facts, later_one, later_name, later_line)
    index = later if index is None else index
    same("the case", (label, index), (CASES[len(page.cases)], facts.own().indices[len(page.cases)]))
    page.cases.append(index)
    named(facts, index, name, text, line, what)
    if word is not None or index < facts.number() and not facts.was_dropped(index):
        same(
            "its reason",
            word,
            "given" if index < facts.given else facts.derivations[index - facts.given].reason,
        )


@form(r"    (computed|stated|sum|first|second) +(.+)")
def constraint_of(page, label: str, text: str):
    same(label, text, algebra(page.facts, page.facts.written(label)))
    page.said[label] += 1


@form(r"    difference (.*)")
def compared(page, words: str):
    facts = page.facts
    (computed, sense, side), (stated, wanted_sense, bound) = facts.written(
        "computed"
    ), facts.written("stated")
    different = facts.differences()
    if different:
        texts = [
            f"{variable(facts, at)} (variable {at}): "
            f"computed {computed.get(at, 0)}, stated {stated.get(at, 0)}"
            for at in different
        ]
        more = f" .. ({len(texts)} differences)" if len(texts) > MOST_SHOWN else ""
        same(
            "the difference",
            words,
            f'the rows are not the same: {"; ".join(texts[:MOST_SHOWN])}{more}',
        )
    elif sense not in ("E", wanted_sense):
        same(
            "the difference",
            words,
            f"the sense: computed {SIGNS[sense]}, stated {SIGNS[wanted_sense]}",
        )
    else:
        gap = difference(side, bound)
        more = (
            ""
            if gap is None
            else f", which is {measured(gap)} off"
            if wanted_sense == "E"
            else f", which says {measured(gap)} too much"
        )
        same("the difference", words, f"right-hand side: computed {side}, stated {bound}{more}")


@form(r"      (\S+) comes from (.*)")
def source(page, name: str, words: str):
    facts = page.facts
    index = facts.differences()[page.sources]
    page.sources += 1
    same("the variable", name, variable(facts, index))
    terms = [
        f"{Fraction(multiplier)} x {facts.constraint(at).row[index]} of [{at}]"
        for at, multiplier in facts.own().entries
        if Fraction(multiplier) and index in facts.constraint(at).row
    ]
    listed = [
        term for term in re.sub(r" ?\.\.$", "", words).split(", ") if term not in ("", "no entry")
    ]
    same("the entries of a coefficient", listed, terms[: len(listed)])
    is_cut = words.endswith("..")
    true(is_cut or listed == terms, f"it comes from {terms}")
    true(not is_cut or len(terms) > len(listed), "nothing is left out")
    true(len(terms) == len(listed) or len(listed) >= MOST_SHOWN, "more is left out than has to be")
    same("whether there is none", words == "no entry", not terms and not is_cut)


@form(rf"    the coefficient ({NUMBER}) of (\S+) is not whole")
def coefficient_fault(page, number, name: str):
    row_fault(page, "coefficient", name, number)


@form(r"    (\S+) is not an integer variable: is its index (\d+) left out after INT\?")
def variable_fault(page, name: str, index):
    true(page.facts.problem.integers, "no variable is an integer one")
    row_fault(page, "variable", name, index)


@form(
    rf"    (\S+) \(variable (\d+)\) is not an integer variable, and a listed solution has ({NUMBER}) there",
    "variable_fault",
)
def fraction_in_solution(page, name: str, index, value):
    values = [solution.values.get(index, 0) for solution in page.facts.solutions]
    true(value in map(Fraction, values) and Fraction(value).denominator > 1, "no solution has it")
    row_fault(page, "variable", name, index)


@form(r"    (\S+) \(variable (\d+)\) is not an integer variable", "variable_fault")
def one_of_no_integers(page, name: str, index):
    true(not page.facts.problem.integers, "others are integer variables")
    row_fault(page, "variable", name, index)


def row_fault(page, kind, name, number):
    facts = page.facts
    row = facts.written("sum" if facts.refused == 36 else "first")[0]
    known = list(facts.row_faults(row))[len(page.faults)]
    same("the next fault of the row", (kind, name), (known[0], variable(facts, known[1])))
    same(f"the {kind}", number, row[known[1]] if kind == "coefficient" else known[1])
    page.faults.append(known)


@form(
    r"  = help: a sum is rounded if all coefficients are whole, and all its variables are integer ones(?:: (is `lin` meant, which doesn't round\?)|; (multiples of bounds in the sum can make the coefficients whole)|; (derive a cut over other variables by a split, with `asm`, `lin` and `uns`))?"
)
def rounding(page, lin, bounds, other):
    facts = page.facts
    same("the cause", facts.refused, 36)
    own, row = facts.own(), facts.written("sum")[0]
    sides = facts.written("sum")[2], facts.plain(facts.number())[2]
    if lin or difference(*sides) is not None:
        same("whether it follows by lin", lin is not None, facts.accepts(facts.parts(own), "lin"))
    if bounds:
        true(any(number.denominator > 1 for number in row.values()), "all are whole")
    if other:
        values = [
            solution.values.get(index, 0)
            for solution in facts.solutions
            for index in row.keys() - facts.problem.integers
        ]
        true(any(Fraction(value).denominator > 1 for value in values), "all may be integer ones")


@form(r"    they are about different rows: a split is of one row, `<=` and `>=`")
def other_rows(page):
    true(page.facts.written("first")[0] != page.facts.written("second")[0], "they are of one row")


@form(
    r"  = help: one is about (\S+), and the other about (\S+): is the variable's index wrong in one of them\?"
)
def other_variable(page, first: str, second: str):
    facts = page.facts
    rows = [facts.written(label)[0] for label in ("first", "second")]
    same(
        "the variables",
        [[first], [second]],
        [[variable(facts, at) for at in row] for row in rows],
    )
    true(rows[0].keys() != rows[1].keys(), "it is one variable")


@form(rf"    a split is (.+); here it is (<=|>=|=) ({NUMBER}) and (<=|>=|=) ({NUMBER})")
def split(page, words: str, sign, side, other_sign, other):
    facts = page.facts
    same(
        "a split",
        words,
        (
            "<= k and >= k + 1 with k whole",
            "<= k and >= h, where h rounded up is at most k rounded down plus 1",
        )[facts.profile - 1],
    )
    first, second = facts.written("first"), facts.written("second")
    same(
        "the sides",
        (sign, side, other_sign, other),
        (SIGNS[first[1]], first[2], SIGNS[second[1]], second[2]),
    )


def bound_shown(facts, row, text):
    """The constraint of a row that is shown as this, up to its sense and right-hand side."""
    sign, side = re.search(rf"(<=|>=|=) ({NUMBER})$", text).groups()
    constraint = row, {sign: sense for sense, sign in SIGNS.items()}[sign], Fraction(side)
    same("the constraint", text, algebra(facts, constraint))
    return constraint


@form(r"    (.+) and (.+) would be a split")
def would_be_split(page, own: str, other: str):
    facts = page.facts
    same("the cause", facts.refused, 37)
    given = [facts.written(label) for label in ("first", "second")]
    found = [constraint for constraint in given if algebra(facts, constraint) == own]
    true(found, "it is none of the two")
    partner = bound_shown(facts, found[0][0], other)
    true(rules.is_split(found[0], partner, facts.problem.integers), "they are no split")


@form(r"  = help: with (.+) for (.+), which says the same, they are a split")
def respelled(page, meant: str, present: str):
    facts = page.facts
    same("the cause", facts.refused, 37)
    given = [facts.written(label) for label in ("first", "second")]
    (at,) = [at for at in range(2) if algebra(facts, given[at]) == present]
    old, other = given[at], given[1 - at]
    new = bound_shown(facts, other[0], meant)
    first = min(new[0])
    factor = Fraction(new[0][first]) / old[0][first]
    same("the row", new[0], {index: number * factor for index, number in old[0].items()})
    senses = {"G": "L", "L": "G", "E": "E"} if factor < 0 else {"G": "G", "L": "L", "E": "E"}
    same("the bound", new[1:], (senses[old[1]], old[2] * factor))
    true(rules.is_split(new, other, facts.problem.integers), "they are no split")


@form(
    r"  = help: \[(\d+)\] is an assumption between them: is it a third case\? A `uns` joins two, and another one those and the third"
)
def third_case(page, index):
    facts = page.facts
    given = [facts.written(label) for label in ("first", "second")]
    row, _, side = facts.plain(index)
    true(index in facts.checker.assumptions, "it is no assumption")
    same("the row", [row, row], [other for other, _, _ in given])
    true(min(other[2] for other in given) < side < max(other[2] for other in given), "it is not")


@form(
    rf"  = help: is >= ({NUMBER}) meant in place of >= ({NUMBER})\? A negative number that is cut to a whole one is rounded up"
)
def cut_negative(page, meant, present):
    facts = page.facts
    given = sorted((facts.written(label) for label in ("first", "second")), key=lambda one: one[1])
    (row, sense, side), (other_row, other_sense, low) = given
    same("the assumptions", (sense, side, other_sense, row), ("G", present, "L", other_row))
    same("what is meant", (meant, low), (present - 1, present - 2))
    true(present <= 0, "it is positive")


@form(r"  = help: `--profile 2` accepts these")
def second_profile(page):
    true(is_second(page.facts), "it does not")


def is_second(facts):
    """Whether two assumptions that are no split by the first profile are one by the second."""
    return facts.profile == 1 and rules.covers(
        facts.written("first"), facts.written("second"), facts.problem.integers
    )


def additions(facts):
    """What is added up where a number passes the limit: the sum so far, a factor, a number, and the place."""
    if facts.refused == 23:
        values = facts.solutions[facts.number()].values
        at = facts.details.get("constraint")
        row = facts.constraint(int(at.split()[0])).row if at else facts.problem.objective
        total = Fraction(0)
        for index, number in sorted(row.items()):
            value = Fraction(values.get(index, 0))
            yield total, value, Fraction(number), variable(facts, index)
            total += value * Fraction(number)
        return
    own, end = facts.own().entries, int(facts.details["entry"])
    index, multiplier = own[end]
    added = [(facts.constraint(at), Fraction(other)) for at, other in own[:end] if other]
    for at, number in sorted(facts.constraint(index).row.items()):
        terms = (other * Fraction(constraint.row.get(at, 0)) for constraint, other in added)
        yield sum(terms, Fraction(0)), Fraction(multiplier), Fraction(number), variable(facts, at)
    total = sum((other * Fraction(constraint.bound) for constraint, other in added), Fraction(0))
    side = Fraction(facts.constraint(index).bound)
    yield total, Fraction(multiplier), side, "the right-hand side"


def past_limit_in(total, factor, number):
    """Which number is past the limit if a factor times a number is added to a sum, and how many bits it has."""
    product = factor * number
    long = max(abs(product.numerator), product.denominator)
    if long >= 2**127:
        return "the product", long.bit_length()
    common = gcd(total.denominator, product.denominator)
    first = total.numerator * (product.denominator // common)
    second = product.numerator * (total.denominator // common)
    for name, integer in (
        ("the first numerator", first),
        ("the second numerator", second),
        ("the sum of the numerators", first + second),
        ("the denominator of the sum", (total + product).denominator),
    ):
        if abs(integer) >= 2**127:
            return name, abs(integer).bit_length()
    return None


def first_past(facts):
    """The first addition that passes the limit, with the number that does."""
    known = ((addition, past_limit_in(*addition[:3])) for addition in additions(facts))
    return next((*addition, past) for addition, past in known if past)


@form(rf"    ({NUMBER}) x ({NUMBER}) at (the right-hand side|\S+) has (\d+) bits")
def past_bits(page, factor, number, place: str, bits):
    _, *known, past = first_past(page.facts)
    same("the product past the limit", ([factor, number, place], bits), (known, past[1]))
    same("what is past the limit", past[0], "the product")


@form(
    rf"    ({NUMBER}) \+ ({NUMBER}) at (the right-hand side|\S+): over the common denominator (.+) has (\d+) bits",
    "past_bits",
)
def past_sum(page, total, term, place: str, what: str, bits):
    known, factor, number, where, past = first_past(page.facts)
    same("the sum past the limit", (total, term, place), (known, factor * number, where))
    same("what is past the limit", (what, bits), past)


@form(r"  constraint (\d+) was dropped after its stated last reference")
def dropped(page, index):
    facts = page.facts
    same("the constraint", (32, index), (facts.refused, int(facts.details["index"])))
    true(facts.was_dropped(index), "it was not dropped")
    true(last_of_dropped(facts)[0] > index, "it was never to be named")


@form(
    r"  the last reference of \[(\d+)\], (\d+), is not above (\d+) itself, so nothing may name \[(\d+)\]",
    "dropped",
)
def never_named(page, index, last, again, name):
    facts = page.facts
    same("the constraint", (32, index), (facts.refused, int(facts.details["index"])))
    same("what is said again", (again, name), (index, index))
    same("the last reference", (last, facts.was_dropped(index)), (last_of_dropped(facts)[0], True))
    true(last <= index, "it is above it")


@form(r"  = help: is a constraint other than \[(\d+)\] meant\?")
def other_constraint(page, index):
    same("the constraint", index, int(page.facts.details["index"]))


@form(
    r"  = help: indices count from 0: the problem has (\d+) constraints?, so the first derivation is (\d+)"
)
def from_zero(page, count, first):
    facts = page.facts
    same("the constraints", (facts.refused, count, first), (31, facts.given, facts.given))


@form(
    rf"  = help: {LISTED_NAME} comes later: a derivation comes after all that it names, so a `uns` comes after its cases\. Was a tree written from its root on\?"
)
def comes_later(page, index, name: str, line):
    same("the constraint", (31, index), (page.facts.refused, int(page.facts.details["index"])))
    test_later(page.facts, index, name, line)


NAMED = r"\[(\d+)\] (\S+)"
# behind a change of one index, if that was counted from the first derivation on
FROM_ZERO = r"(?: \(indices count from 0: the problem has (\d+) constraints?, so the first derivation is (\d+)\))?"
# the kinds of lines that offer a change
OFFERS = (
    "other_join",
    "other_word",
    "other_multiplier",
    "other_index",
    "one_more",
    "shift_of_all",
    "factor_of_all",
    "other_sum",
    "more_bounds",
    "other_bound",
)
# those that change all parts of a reason, or add several
OF_ALL = ("shift_of_all", "factor_of_all", "other_sum", "more_bounds")


def offered(page, parts, word=None):
    """A change that is offered is one with which the derivation follows."""
    true(page.facts.refused in (31, 32, 33, 34, 36, 37, 38), "no reason is changed")
    page.offers.append(parts)
    true(page.facts.accepts(parts, word), "the derivation does not follow with this")


@form(rf"  = help: with `uns (\d+) (\d+) (\d+) (\d+)` the derivation follows{FROM_ZERO}")
def other_join(page, *given):
    join, *counted = given[:4], *given[4:]
    same("the reason", page.facts.own().reason, "uns")
    old = page.facts.own().indices
    others = [("branch", at) for at in range(4) if join[at] != old[at]]
    page.changed += others if "index" in page.facts.details else others[:1]
    test_count(page, [(old[at], join[at]) for _, at in others], *counted)
    offered(page, list(join))


@form(r"  = help: with `(lin|rnd)` in place of `(lin|rnd)` the derivation follows")
def other_word(page, word, old):
    same("the reason", (page.facts.own().reason, word != old), (old, True))
    page.changed.append(("reason", None))
    page.mends["reason", None] = str(word)
    offered(page, page.facts.parts(page.facts.own()), word)


@form(
    rf"  = help: with the multiplier ({NUMBER}) in place of ({NUMBER}) at {NAMED} the derivation follows"
)
def other_multiplier(page, new, old, index, name: str):
    parts = page.facts.parts(page.facts.own())
    same("the name", name, shown_name(page.facts.constraint(index).name))
    places = [at for at, part in enumerate(parts) if part == (index, old)]
    true(places, "there is no such entry")
    for at in places:
        changed = [*parts[:at], (index, new), *parts[at + 1 :]]
        if page.facts.accepts(changed):
            break
    page.changed += [("multiplier", place) for place in places]
    page.mends.update({("multiplier", place): str(new) for place in places})
    offered(page, changed)


@form(
    rf"  = help: with {NAMED} in place of \[(\d+)\](?: (\S+))? at entry (\d+) the derivation follows{FROM_ZERO}"
)
def other_index(page, new, new_name: str, old, old_name: str, at, count, first):
    facts = page.facts
    parts = facts.parts(facts.own())
    true(new < facts.number(), f"[{new}] is not earlier")
    same("the name", new_name, shown_name(facts.constraint(new).name))
    if old <= facts.number() or old_name is not None:
        same("the old name", old_name, shown_name(facts.names["CON", old].bytes))
    same(f"entry {at}", old, parts[at][0])
    page.changed.append(("entry index", at))
    page.mends["entry index", at] = str(new)
    test_count(page, [(old, new)], count, first)
    offered(page, [*parts[:at], (new, parts[at][1]), *parts[at + 1 :]])


def test_count(page, changes, count, first):
    """Tests that a change of an index is said to be one of a derivation that was counted from 0, if it is one."""
    given = page.facts.given
    is_counted = len(changes) == 1 and all(
        old < given and new == old + given for old, new in changes
    )
    same("the first derivation", (count, first), (given, given) if is_counted else (None, None))


@form(rf"  = help: with one more entry, ({NUMBER}) x {NAMED}, the derivation follows")
def one_more(page, multiplier, index, name: str):
    facts = page.facts
    true(index < facts.number(), f"[{index}] is not earlier")
    same("the name", name, shown_name(facts.constraint(index).name))
    offered(page, [*facts.parts(facts.own()), (index, multiplier)])


@form(
    r"  = help: with every index (?:from (\d+) on )?(?:(\d+)|one) (more|less) the derivation follows(.+)"
)
def shift_of_all(page, first, count, way: str, words: str):
    facts = page.facts
    own, by = facts.own(), count or 1
    if way != "more":
        by = -by
    named = own.indices or [index for index, _ in own.entries]
    start = first or 0
    true(sum(index >= start for index in named) > 1, "fewer than two are shifted")
    true(first is None or min(named) < first, "all are shifted")
    shifted = [index + by if index >= start else index for index in named]
    is_join = own.reason == "uns"
    offered(
        page,
        shifted
        if is_join
        else [(index, multiplier) for index, (_, multiplier) in zip(shifted, facts.parts(own))],
    )
    found = re.fullmatch(
        rf": (?:is (?:there )?a line|are (?:there )?(\d+) lines) (left out|too many) before {LISTED_NAME}\?",
        words,
    )
    if found:
        lines, index, name, line = int(found[1] or 1), int(found[3]), found[4], int(found[5])
        same("the lines", lines, abs(by))
        same("the line", (index, "left" in found[2]), (first + by, by < 0))
        constraint_shown(facts, index, name, None, line)
        return
    plural = "" if facts.given == 1 else "s"
    same(
        "the first derivation",
        words,
        f" (indices count from 0: the problem has {facts.given} constraint{plural}, "
        f"so the first derivation is {facts.given})",
    )
    true(first in (None, facts.given), "indices are shifted from another one on")


@form(rf"  = help: with every multiplier times ({NUMBER}) the derivation follows")
def factor_of_all(page, factor):
    facts = page.facts
    parts = facts.parts(facts.own())
    true(len(parts) > 1, "it has one multiplier")
    offered(page, [(index, multiplier * factor) for index, multiplier in parts])


def turned(front, given):
    """The index that is meant if the first constraints, so many, are counted after the others."""
    return lambda index: (index + front) % given if index < given else index


def counted_once(facts):
    """The index that is meant if each equation of the problem is counted twice."""
    meant = [
        index
        for index in range(facts.given)
        for _ in range(1 + (facts.constraint(index).sense == "E"))
    ]
    more = len(meant) - facts.given
    return lambda index: meant[index] if index < len(meant) else index - more


def exchanged_with(one, other):
    """The index that is meant if two are exchanged."""
    return lambda index: {one: other, other: one}.get(index, index)


# what is asked if all multipliers are other ones: whether it is so, of an old one and the new one, and whether the constraint is an
# equation
RELATIONS = {
    "do the multipliers of all equations have the other sign": lambda old, new, is_equation: new
    == (-old if is_equation else old),
    "do these multipliers have the other sign": lambda old, new, _: new in (old, -old),
    "are fractions written upside down": lambda old, new, _: new == old or new * old == 1,
    "are the multipliers rounded, or cut to whole numbers or fewer digits": lambda old, new, _: abs(
        new - old
    )
    < 1,
}


@form(r"  = help: with `(lin|rnd) (\d+) ([-/ \d]*?)( \.\.)?` the derivation follows(?:: (.+)\?)?")
def other_sum(page, word: str, count, words: str, is_cut: str, question: str):
    facts = page.facts
    numbers = words.split()
    shown_parts = [
        (int(index), Fraction(multiplier)) for index, multiplier in zip(numbers[::2], numbers[1::2])
    ]
    parts = facts.parts(facts.own())
    same("the reason", (word, count), (facts.own().reason, len(parts)))
    meant = meant_indices(facts, question or "")
    if meant is None:
        others = shown_parts
        true(is_cut is None, "not all multipliers are shown")
        same("the constraints", [index for index, _ in others], [index for index, _ in parts])
        test_multipliers(facts, parts, others, question)
    else:
        others = [(meant(index), multiplier) for index, multiplier in parts]
    same("how many are shown", len(shown_parts), min(count, 12))
    same("the entries", shown_parts, others[: len(shown_parts)])
    same("whether more are left out", is_cut is not None, count > 12)
    true(sum(one != other for one, other in zip(parts, others)) > 1, "fewer than two are changed")
    offered(page, others)


def meant_indices(facts, question):
    """The index that is meant by one, if a question says that the constraints are in another order."""
    found = re.fullmatch(
        r"(?:is the first constraint|are the first (\d+) constraints) counted after the other (\d+)",
        question,
    )
    if found:
        front = int(found[1] or 1)
        same("the constraints", front + int(found[2]), facts.given)
        return turned(front, facts.given)
    found = re.fullmatch(r"is each of the (\d+) equations of the problem counted twice", question)
    if found:
        equations = sum(facts.constraint(index).sense == "E" for index in range(facts.given))
        same("the equations", int(found[1]), equations)
        return counted_once(facts)
    found = re.fullmatch(r"are \[(\d+)\] and \[(\d+)\] exchanged", question)
    return exchanged_with(int(found[1]), int(found[2])) if found else None


def test_multipliers(facts, parts, others, question):
    """Tests that multipliers differ from the written ones as a question says."""
    if question is not None:
        is_so = RELATIONS[question]
        for (index, old), (_, new) in zip(parts, others):
            is_equation = facts.constraint(index).sense == "E"
            true(is_so(old, new, is_equation), f"{new} in place of {old} is another change")


@form(
    rf"  = help: with (\d+) more entries,((?: {NUMBER} x \[\d+\] \S+,)+) the derivation follows: are bounds of variables left out\? Variables are free"
)
def more_bounds(page, count, words: str):
    facts = page.facts
    listed = re.findall(rf"({NUMBER}) x \[(\d+)\] (\S+),", words)
    same("the entries", len(listed), count)
    for _, index, name in listed:
        true(int(index) < facts.given, f"[{index}] is no constraint of the problem")
        same("the name", name, shown_name(facts.constraint(int(index)).name))
        true(len(facts.plain(int(index))[0]) == 1, f"[{index}] is no bound of a variable")
    more = [(int(index), Fraction(multiplier)) for multiplier, index, _ in listed]
    offered(page, [*facts.parts(facts.own()), *more])


def gap_of_sum(facts):
    """How much the stated right-hand side is above that of the sum, before a rounding."""
    sides = (multiplier * facts.plain(at)[2] for at, multiplier in facts.parts(facts.own()))
    return facts.plain(facts.number())[2] - sum(sides)


@form(
    rf"  = help: with (\S+?)(, which is 2\^32 (?:more|less),)? in place of (\S+) in {LISTED_NAME} the derivation follows: (was a number cut to 32 bits|is that meant)\?"
)
def other_bound(page, meant: str, cut: str, present: str, index, name: str, line, question: str):
    facts = page.facts
    constraint_shown(facts, index, name, None, line)
    row, sense, side = facts.plain(index)
    is_written = index < facts.given or index in facts.checker.assumptions
    true(is_written, "it follows from others")
    parts = facts.parts(facts.own())
    if present in (">=", "<="):
        same("the sense", present, SIGNS[sense])
        true({meant, present} == {">=", "<="}, "it is the same sense")
        other = row, "GL"["GL".index(sense) - 1], side
    else:
        same("the right-hand side", Fraction(present), side)
        other = row, sense, Fraction(meant)
        if cut is None:
            same("what is meant", Fraction(meant), side + gap_of_sum(facts) / dict(parts)[index])
    if cut is not None:
        same("what was cut", other[2] - side, 2**32 if "more" in cut else -(2**32))
    same("the question", question == "was a number cut to 32 bits", cut is not None)
    saved, facts.checker.constraints[index] = facts.checker.constraints[index], other
    try:
        true(facts.accepts(parts), "the derivation does not follow with this")
    finally:
        facts.checker.constraints[index] = saved


# the kinds of lines that ask about numbers and lines of the text
ASKED = (
    "other_order",
    "rounded_multipliers",
    "other_side",
    "other_number",
    "floating",
    "swapped",
    "other_objective",
    "row_by_name",
    "row_in_other_order",
)
NUMBERS_ASKED = ASKED[1:]


@form(
    r"  = help: \[(\d+)\] is `(\S+)`, and \[(\d+)\] is `(\S+)`: are the lines in another order than they were written, as by name\?"
)
def other_order(page, index, name: str, second, other: str):
    facts = page.facts
    true(31 <= facts.refused <= 38, "no derivation is refused so")
    same("the next one", second, index + 1)
    same("the section", index < facts.given, second < facts.given)
    numbers = []
    for at, text in ((index, name), (second, other)):
        same("a name", text, shown_name(facts.names["CON", at].bytes))
        numbers.append(int(re.search(rb"[0-9]*$", facts.names["CON", at].bytes)[0]))
    true(numbers[1] < numbers[0], "their numbers are in the order of the lines")


def simple_near(number):
    """The fraction with the least denominator up to 64 that is nearer to a number than one part of its denominator, if that is large."""
    for below in range(1, 65) if number.denominator >= 100 else ():
        near = Fraction((number * below + Fraction(1, 2)).__floor__(), below)
        if abs(number - near) * number.denominator < 1:
            return near
    return None


def sum_of(facts, entries, index=None, row=None):
    """The row of a sum of these entries, with another row for one constraint."""
    total = Counter()
    for at, multiplier in entries:
        for place, number in (row if at == index else facts.plain(at)[0]).items():
            total[place] += Fraction(number) * multiplier
    return {place: number for place, number in total.items() if number}


@form(
    rf"  = help: with ({NUMBER}) for ({NUMBER}), and such a fraction for each rounded multiplier, the sum has the stated row: write exact fractions"
)
def rounded_multipliers(page, meant, present):
    facts = page.facts
    entries = facts.parts(facts.own())
    true(present in dict.fromkeys(other for _, other in entries), "it is no multiplier")
    same("the fraction", meant, simple_near(Fraction(present)))
    entries = [(index, simple_near(number) or number) for index, number in entries]
    same("the row", sum_of(facts, entries), facts.plain(facts.number())[0])


@form(
    rf"  = help: the sum has the stated row: is ({NUMBER}) meant here, or is a right-hand side below wrong\?"
)
def other_side(page, side):
    facts = page.facts
    true(facts.refused == 38 and facts.own().reason in ("lin", "rnd"), "it is no sum")
    (row, _, bound), (stated, _, _) = facts.written("computed"), facts.written("stated")
    same("the row and the side", (row, bound), (stated, side))


PLACED_ROW = r"(?:(the stated row)|\[(\d+)\] (\S+)  \(line (\d+)\))"


def test_row(page, changed, stated_row, index, name, line):
    """Tests that the row of a constraint, or the stated one, is the same as the sum's if it is changed."""
    facts = page.facts
    entries, stated = facts.parts(facts.own()), facts.plain(facts.number())[0]
    true(facts.refused in (36, 38) and facts.own().reason in ("lin", "rnd"), "it is no sum")
    if stated_row is not None:
        same("the rows", changed(stated), sum_of(facts, entries))
        return
    constraint_shown(facts, index, name, None, line)
    true(index in dict(entries), "no entry is of it")
    row = {at: Fraction(number) for at, number in facts.plain(index)[0].items()}
    same("the rows", sum_of(facts, entries, index, changed(row)), stated)
    _, sense, bound = facts.plain(index)
    for solution in facts.solutions[:10] if index < facts.given else ():
        left = Fraction(0)
        for at, number in changed(row).items():
            left += number * Fraction(solution.values.get(at, 0))
        true(rules.holds(left, sense, bound), "a listed solution breaks it then")


@form(
    rf"  = help: with ({NUMBER}) in place of ({NUMBER}) at (\S+) in {PLACED_ROW} the rows are the same: is that meant(?:, or ({NUMBER}) in the stated row)?\?"
)
def other_number(page, meant, present, place: str, stated: str, index, name: str, line, here):
    facts = page.facts
    (at,) = {at for at in facts.differences_of_rows() if variable(facts, at) == place}

    def changed(row):
        same("the coefficient", row.get(at, 0), present)
        return {**row, at: meant}

    test_row(page, changed, stated, index, name, line)
    if stated is None:
        same("the sum", here, sum_of(facts, facts.parts(facts.own())).get(at, 0))


@form(
    rf"  = help: with (?:the coefficients of (\S+) and (\S+) exchanged|(\S+) in place of (\S+)) in {PLACED_ROW} the rows are the same: is that meant\?"
)
def swapped(
    page,
    one: str,
    other: str,
    meant: str,
    present: str,
    stated: str,
    index,
    name: str,
    line,
):
    facts = page.facts
    places = sorted(facts.differences_of_rows())
    same(
        "the variables",
        {one, other} if one else {meant, present},
        {variable(facts, at) for at in places},
    )

    def changed(row):
        same("whether both are there", all(at in row for at in places), one is not None)
        if one is None:
            same("what is there", [variable(facts, at) for at in places if at in row], [present])
        rest = {at: number for at, number in row.items() if at not in places}
        turned = dict(zip(places, reversed(places)))
        return rest | {turned[at]: row[at] for at in places if at in row}

    test_row(page, changed, stated, index, name, line)


@form(
    rf"  = help: ({NUMBER}) is near ({NUMBER}), and its denominator is a power of 2, as in floating point: is ({NUMBER}) meant\?"
)
def floating(page, present, meant, again):
    facts = page.facts
    present = Fraction(present)
    numbers = [number for _, number in facts.parts(facts.own())]
    for at in [facts.number(), *dict(facts.own().entries)]:
        row, _, side = facts.plain(at)
        numbers += [*map(Fraction, row.values()), side]
    true(present in numbers, "there is no such number")
    same("the number", (meant, again), (simple_near(present), meant))
    true(present.denominator & (present.denominator - 1) == 0, "it is no power of 2")


@form(
    rf"  = help: each stated coefficient is ({NUMBER}) times the computed one: was the objective, or a row, multiplied by that\?"
)
def ratio_of_rows(page, ratio):
    facts = page.facts
    computed, stated = facts.written("computed")[0], facts.written("stated")[0]
    true(facts.own().reason in ("lin", "rnd"), "it is no sum")
    true(len(stated) > 1, "it has one coefficient")
    same(
        "the stated row",
        stated,
        {index: number * ratio for index, number in computed.items()},
    )


@form(
    rf"  = help: each stated coefficient is ({NUMBER}) times the computed one: `sol` gives a bound on the objective as OBJ has it"
)
def ratio_of_cutoff(page, ratio):
    facts = page.facts
    computed, stated = facts.written("computed")[0], facts.written("stated")[0]
    same("the reason", (facts.refused, facts.own().reason), (38, "sol"))
    same(
        "the stated row",
        stated,
        {index: number * ratio for index, number in computed.items()},
    )


@form(
    rf"  = help: {LISTED_NAME} proves what is stated if it is multiplied by ({NUMBER}): derive that by `{{ lin 1 (\d+) ({NUMBER}) }}`, and name it as the case"
)
def scaled_case(page, index, name: str, line, factor, again, multiplier):
    facts = page.facts
    constraint_shown(facts, index, name, None, line)
    same("the cause and the case", (38, True), (facts.refused, index in facts.own().indices[::2]))
    same("what is said again", (again, multiplier), (index, factor))
    true(facts.accepts([(index, Fraction(factor))], "lin"), "it doesn't")


@form(rf"  = help: a `uns` proves the weaker one of its cases: is ({NUMBER}) meant here\?")
def weaker_case(page, side):
    facts = page.facts
    row, sense, bound = facts.plain(facts.number())
    same("the cause and the reason", (facts.refused, facts.own().reason), (38, "uns"))
    cases = [facts.plain(index) for index in facts.own().indices[::2]]
    same("the rows", [row, row], [case[0] for case in cases])
    same("the weaker one", side, (min if sense == "G" else max)(case[2] for case in cases))
    parts = list(facts.own().indices)
    true(
        facts.checker.accepts(facts.number(), (row, sense, Fraction(side)), "uns", parts),
        "it doesn't follow",
    )


# ---- pages of the claim


@form(r"error: no constraint proves the claim")
def no_proof(page):
    same("the cause", page.facts.refused, 51)


@form(
    r"  wanted: a constraint that rests on no assumption and (?:says (.+) or stronger|is absurd, as 0 >= 1)"
)
def wanted_constraint(page, text: str):
    facts = page.facts
    same(
        "what is wanted",
        text,
        None if facts.checker.bounds is None else algebra(facts, facts.checker.goal),
    )


@form(r"  no constraint (has this row|is absurd)")
def none_near(page, words: str):
    facts = page.facts
    same("what is wanted", words, "is absurd" if facts.checker.bounds is None else "has this row")
    same("the nearest", facts.nearest(), [])


@form(r"  nearest:")
def nearest(page):
    true(page.facts.nearest(), "nothing is near")


@form(
    rf"    {LISTED}(?:, (strong enough|the other way round|too weak by {NUMBER}(?: \(about \S+\))?(?: when it is rounded)?))?"
    r", rests on (?:no assumption|((?:\[\d+\] ?)+)(?:and (\d+) more)?)"
)
def near(page, index, name: str, text: str, line, how: str, rest: str, more):
    facts = page.facts
    same("the next of the nearest", index, (facts.nearest() + [None] * MOST_NEAR)[len(page.near)])
    page.near.append(index)
    constraint_shown(
        facts,
        index,
        name,
        algebra(facts, facts.plain(index)) if text == side_of(facts, index) else text,
        line,
    )
    gap = facts.gap(index)
    if facts.checker.bounds is None:
        same("how near it is", how, None)
    elif facts.checker.meets(facts.plain(index)):
        same("how near it is", how, "strong enough")
    elif gap is not None:
        is_rounded = facts.rounds() and facts.constraint(index).bound.denominator != 1
        same(
            "how near it is",
            how,
            f'too weak by {measured(gap)}{" when it is rounded" if is_rounded else ""}',
        )
    else:
        same("how near it is", how, "the other way round" if facts.turned(index) else None)
    wanted_set = facts.rest(index)
    same(
        "the assumptions",
        [int(assumption) for assumption in re.findall(r"\d+", rest or "")],
        wanted_set[:MOST_OF_SET],
    )
    same("how many more", more or 0, max(0, len(wanted_set) - MOST_OF_SET))


def side_of(facts, index):
    """What a constraint with the objective's row says, as a page writes it."""
    constraint = facts.constraint(index)
    if facts.checker.bounds is None:
        return None
    return f"objective {SIGNS[constraint.sense]} {constraint.bound}"


@form(
    rf"  = help: in {LISTED_NAME} \[(\d+)\] rests on \[(\d+)\], and \[(\d+)\] on \[(\d+)\]: are l1 and l2 exchanged\? `uns (\d+) (\d+) (\d+) (\d+)`"
)
def crossed(page, index, name: str, line, i1, l2, i2, l1, *join):
    facts = page.facts
    constraint_shown(facts, index, name, None, line)
    same("the join", list(join), [i1, l2, i2, l1])
    same("what it joins", (i1, l1, i2, l2), step_of(facts, index).indices)
    true(l2 in facts.checker.sets[i1] and l1 in facts.checker.sets[i2], "they do not")


def step_of(facts, index):
    """The derivation of an index."""
    true(index >= facts.given, f"[{index}] is of the problem")
    return facts.derivations[index - facts.given]


def brings(facts, index):
    """The constraints that a derivation names, and by which it may rest on an assumption."""
    step = step_of(facts, index)
    return step.indices[::2] or [other for other, multiplier in step.entries if multiplier]


@form(rf"  still assumed: {LISTED}")
def still_assumed(page, index, name: str, text: str, line):
    facts = page.facts
    constraint_shown(facts, index, name, text, line)
    strong = facts.nearest()[0]
    true(facts.checker.meets(facts.plain(strong)), "nothing is strong enough")
    true(index in facts.checker.assumptions, "it is no assumption")
    true(index in facts.checker.sets[strong] and index != strong, "it isn't left")
    page.left, page.user = index, strong


@form(rf"  it comes in at {LISTED_NAME}")
def comes_in(page, index, name: str, line):
    facts = page.facts
    constraint_shown(facts, index, name, None, line)
    true(page.left in brings(facts, index), "it doesn't name the assumption")
    # (from the constraint that is strong enough down, through what rests on the assumption)
    reached = {facts.nearest()[0]}
    for other in range(facts.nearest()[0], index, -1):
        if other in reached and other >= facts.given:
            reached |= {at for at in brings(facts, other) if page.left in facts.checker.sets[at]}
    true(index in reached and page.left in facts.checker.sets[index], "it is none of the way")
    page.user = index


def cases_of(facts, index, assumption):
    """From which case a derivation takes an assumption away, and the other case."""
    i1, l1, i2, l2 = step_of(facts, index).indices
    true(assumption in (l1, l2), f"[{index}] does not take [{assumption}] away")
    return (i1, i2) if assumption == l1 else (i2, i1)


@form(
    rf"  = help: {LISTED_NAME} names \[(\d+)\], from which {LISTED_NAME} takes \[(\d+)\] away: is \[(\d+)\] meant in place of \[(\d+)\]\?"
)
def passed_by(page, user, name: str, line, case, join, its_name: str, its_line, left, again, old):
    facts = page.facts
    constraint_shown(facts, user, name, None, line)
    constraint_shown(facts, join, its_name, None, its_line)
    same("what is said again", (left, again, old), (page.left, join, case))
    true(case in brings(facts, user), "it does not name the case")
    same("the case", case, cases_of(facts, join, left)[0])
    true(left in facts.checker.sets[case] & facts.checker.sets[user], "one rests on it no more")


@form(
    rf"  = help: {LISTED_NAME} should take \[(\d+)\] away, but its other case, \[(\d+)\], rests on \[(\d+)\], too"
)
def other_case(page, index, name: str, line, left, case, again):
    facts = page.facts
    constraint_shown(facts, index, name, None, line)
    same("the assumption", (left, again), (page.left, page.left))
    same("the other case", case, cases_of(facts, index, left)[1])
    true(left in facts.checker.sets[case] & facts.checker.sets[index], "it does not rest on it")


@form(rf"  = help: {LISTED_NAME} takes \[(\d+)\] away from \[(\d+)\] alone")
def elsewhere(page, index, name: str, line, left, case):
    facts = page.facts
    constraint_shown(facts, index, name, None, line)
    same("the assumption and the case", (left, case), (page.left, cases_of(facts, index, left)[0]))


@form(
    rf"  = help: {LISTED_NAME} takes \[(\d+)\] away, which says the same as \[(\d+)\]: is `uns (\d+) (\d+) (\d+) (\d+)` meant\?"
)
def twin(page, index, name: str, line, other, left, *join):
    facts = page.facts
    constraint_shown(facts, index, name, None, line)
    same("the assumption", left, page.left)
    same("what they say", facts.plain(other), facts.plain(left))
    old = step_of(facts, index).indices
    true(other in old[1::2], "it takes another one away")
    meant = [left if at % 2 and it == other else it for at, it in enumerate(old)]
    same("the join", list(join), meant)
    true(left in facts.checker.sets[join[2 * (old[3] == other)]], "the case doesn't rest on it")


def taken_away(facts):
    """The assumptions that derivations take away."""
    return {left for step in facts.derivations for left in step.indices[1::2]}


@form(
    r"  = help: no `uns` takes \[(\d+)\] away, and it bounds the objective: is a node still open\? Then its bound has to be derived",
    "never_taken",
)
def open_node(page, left):
    facts = page.facts
    same("the assumption", left, page.left)
    true(left not in taken_away(facts), "one does")
    same("its row", facts.plain(left)[0], facts.checker.objective)


@form(
    r"  = help: no `uns` takes \[(\d+)\] away: is one left out, or is a reason left out in place of `asm`\?"
)
def never_taken(page, left):
    same("the assumption", left, page.left)
    true(left not in taken_away(page.facts), "one does")


@form(
    rf"  = help: no `uns` takes \[(\d+)\] away: add the derivation `NAME ([GL]) ({NUMBER}) (OBJ|0) {{ uns (\d+) (\d+) (\d+) (\d+) }} -1`, and 1 to the count after DER"
)
def missing_join(page, left, sense, side, row: str, *join):
    facts, checker = page.facts, page.facts.checker
    true(left == page.left and left not in taken_away(facts), "it is another one")
    stated = (checker.objective if row == "OBJ" else {}, sense, Fraction(side))
    true(checker.meets(stated), "that proves nothing")
    i1, l1, i2, l2 = join
    true(left in (l1, l2), "it leaves the assumption")
    same("what is left", (checker.sets[i1] - {l1}) | (checker.sets[i2] - {l2}), set())
    true(checker.accepts(len(checker.constraints), stated, "uns", list(join)), "it doesn't follow")


def follows(facts, index, parts, stated=None):
    """Whether an earlier derivation follows with these entries, or if it states this."""
    checker = facts.checker
    saved = checker.last.get(index), index in checker.assumptions
    word = step_of(facts, index).reason
    found = checker.accepts(index, stated or facts.plain(index), word, parts)
    checker.last[index] = saved[0]
    if saved[1]:
        checker.assumptions.add(index)
    return found


@form(
    rf"  = help: \[(\d+)\] follows with {NAMED} in place of \[(\d+)\], too: is \[(\d+)\] a bound of another branch\?"
)
def bound_of_own_branch(page, user, bound, name: str, left, again):
    facts = page.facts
    known = page.user, page.left, page.left
    same("the derivation and the assumption", (user, left, again), known)
    same("the name", name, shown_name(facts.constraint(bound).name))
    true(bound < user and left not in facts.checker.sets[bound], "it rests on that, too")
    parts = facts.parts(step_of(facts, user))
    true(
        any(
            follows(facts, user, [*parts[:at], (bound, multiplier), *parts[at + 1 :]])
            for at, (index, multiplier) in enumerate(parts)
            if index == left
        ),
        "it does not follow",
    )


@form(
    rf"  = help: {LISTED_NAME} proves the claim if it is multiplied by ({NUMBER}): add the derivation `NAME ([GL]) ({NUMBER}) OBJ {{ lin 1 (\d+) ({NUMBER}) }} -1`, and 1 to the count after DER"
)
def scaled_goal(page, index, name: str, line, factor, sense, side, again, multiplier):
    facts, checker = page.facts, page.facts.checker
    constraint_shown(facts, index, name, None, line)
    same("what is said again", (again, multiplier), (index, factor))
    same("what it rests on", checker.sets[index], set())
    stated = checker.objective, sense, Fraction(side)
    true(checker.meets(stated), "that proves nothing")
    entries = [(index, Fraction(factor))]
    true(checker.accepts(len(checker.constraints), stated, "lin", entries), "it doesn't follow")


@form(
    rf"  = help: the sum of {LISTED_NAME} is absurd, and it states 0 (<=|>=|=) ({NUMBER}), which is always true(?:, as (\d+) sums do)?: is `G 1 0` meant\?"
)
def understated(page, index, name: str, line, sign, side, count):
    facts = page.facts
    constraint_shown(facts, index, name, None, line)
    row, sense, bound = facts.plain(index)
    same("what it states", ({}, sign, side), (row, SIGNS[sense], bound))
    true(not rules.is_absurd(facts.plain(index)), "it states something absurd")
    true_ones = [
        at
        for at, step in enumerate(facts.derivations, facts.given)
        if step.entries and not facts.plain(at)[0] and not rules.is_absurd(facts.plain(at))
    ]
    same("the sums", (index, count or 1), (true_ones[0], len(true_ones)))
    parts = facts.parts(step_of(facts, index))
    true(follows(facts, index, parts, ({}, "G", Fraction(1))), "the sum isn't absurd")


@form(r"  = help: \[(\d+)\] has this bound with the other sign: is the sign in the claim wrong\?")
def other_sign(page, index):
    facts = page.facts
    same("the side", Fraction(facts.constraint(index).bound), -facts.checker.goal[2])
    same("what is proved", index, proved(facts))


@form(r"  = help: \[(\d+)\] is an assumption itself: is its reason left out\?")
def assumption(page, index):
    facts = page.facts
    true(
        index in page.near
        and index in facts.checker.assumptions
        and facts.checker.meets(facts.plain(index)),
        "it is none, or not strong enough",
    )


def proved(facts):
    """The first of the nearest that rests on no assumption, and has a gap to what is wanted."""
    return next(
        (
            index
            for index in facts.nearest()
            if not facts.checker.sets[index] and facts.gap(index) is not None
        ),
        None,
    )


@form(
    r"  = help: does RTP claim more than \[(\d+)\] proves, or is a constant of the objective in the claim\? The format has none"
)
def more_claimed(page, index):
    same("what is proved", index, proved(page.facts))


@form(r"  = help: \[(\d+)\] is the other way round: is `OBJ (min|max)` meant\?")
def other_direction(page, index, word):
    facts = page.facts
    true(index in page.near and facts.turned(index) and not facts.checker.sets[index], "it is not")
    same("the other direction", word, "max" if facts.checker.minimizes else "min")


@form(
    rf"  = help: add the derivation `NAME ([GL]) ({NUMBER}) 0 {{ lin 0 }} -1`, and 1 to the count after DER"
)
def add_derivation(page, sense, side):
    facts = page.facts
    same("what is wanted", ({}, sense, side), facts.checker.goal)
    true(rules.dominates(({}, "E", Fraction(0)), facts.checker.goal), "it does not follow")


# ---- pages of what is verified


@form(rf"  ({NUMBER}) is about (.*)")
def about(page, bound, words: str):
    same("the bound", words, rounded(Fraction(bound)))
    true(ended(Fraction(bound)) is None, "it is a decimal that ends")
    page.abouts.append(bound)


@form(rf"  ({NUMBER}) = (-?\d+[.]\d+)", "about")
def exactly(page, bound, words: str):
    same("the bound", words, ended(Fraction(bound)))
    page.abouts.append(bound)


def ended(number):
    """A number as a decimal, if that ends after at most 18 places."""
    places = next((count for count in range(19) if 10**count % number.denominator == 0), None)
    if places is None or abs(number) * 10**places >= 2**128:
        return None
    whole, rest = divmod(int(abs(number) * 10**places), 10**places)
    return f'{"-" * (number < 0)}{whole}.{rest:0{places}}'


@form(r"proved: (.*)")
def claim(page, words: str):
    same("the claim", f"verified {words}", page.facts.lines[0])


@form(rf"  goal   {LISTED}")
def goal(page, index, name: str, text: str, line):
    same("the goal", f"goal {index}", page.facts.lines[-1])
    constraint_shown(page.facts, index, name, text, line)


@form(r"  nothing has to be proved of the dual side")
def no_goal(page):
    same("the goal", "goal none", page.facts.lines[-1])


# ---- faults of the text: hints with a value


@form(
    r"  = help: `(\w+)` was read as a name, and (\d+) ([a-z]+) before it: is the count after `(\w+)`, (\d+), too large, or is something "
    r"missing in front of `(\w+)`\?"
)
def read_as_name(page, word, before, what, section, count, again: str):
    facts = page.facts
    same("the name", word, again)
    true(word.encode() in facts.read_names, "it is no name")
    known = KEYWORDS[KEYWORDS.index(word) - 1]
    same("the count", (section, count), (known, facts.counts.get(section)))
    same("the items", what, ITEMS[section] + ("" if before == 1 else "s"))
    if section == "VAR":
        tokens = facts.text.split()
        first = tokens.index(b"VAR") + 2
        names = tokens[first : first + count]
        same("the names", before, max(at for at, name in enumerate(names) if name == b"INT"))
    else:
        is_past = facts.role.section != section
        same("the items", before, count - 1 if is_past else facts.role.item)


@form(
    r"  = help: the text ends after (\d+) of (\d+) derivations: is the file cut, or the count after `DER` too large\?"
)
def cut_in_derivations(page, passed, count):
    facts = page.facts
    same("where the text ends", (facts.is_end, facts.role.section), (True, "DER"))
    same("the derivations", (passed, count), (len(facts.derivations), facts.counts["DER"]))


@form(
    r"  = help: is `([-+]?\d+/\d+)` meant\? A number is one token, without white space or a line break in it"
)
def split_fraction(page, meant: str):
    facts = page.facts
    front = facts.text[: facts.token.at].split()[-1:]
    behind = facts.text[facts.token.at + len(facts.token.bytes) :].split()[:1]
    parts = [*front, facts.token.bytes, *behind]
    joined = {b"".join(parts[at:end]) for at in range(2) for end in range(at + 2, 4)}
    true(meant.encode() in joined, "these tokens are other ones")
    true(b"/" in facts.token.bytes, "the token has no slash")


@form(r"  = help: is the file cut, or is `(\w+)` missing\? Then write (.*)")
def keyword_missing(page, section, words: str):
    true(page.facts.is_end, "the text does not end here")
    same("what is missing", (section, words), (page.facts.role.section, EMPTY[section]))


@form(r"  = help: keywords are in capitals: is `(\w+)` meant\?(?: In front of it write (.*))?")
def capitals(page, word, words: str):
    facts = page.facts
    token, section = facts.token.bytes.decode("latin-1"), facts.role.section
    true(word in KEYWORDS and token.upper() == word != token, "the token is another one")
    same("the role", facts.role.wanted, "keyword")
    true(KEYWORDS.index(word) >= KEYWORDS.index(section), "it is an earlier section")
    same("what is in front of it", words, None if word == section else EMPTY[section])


@form(r"  = help: the section `(\w+)` was read before: is it here twice\?")
def twice(page, word):
    same("the token", word.encode(), page.facts.token.bytes)
    true(KEYWORDS.index(word) < KEYWORDS.index(page.facts.role.section), "it was not")


@form(r"  = help: is `(\w+)` missing, or in another place\? Then in front of `(\w+)` write (.*)")
def section_missing(page, section, found, words: str):
    facts = page.facts
    same("what is missing", (section, words), (facts.role.section, EMPTY[section]))
    same("the token", found.encode(), facts.token.bytes)
    true(KEYWORDS.index(found) > KEYWORDS.index(section), "it is no later section")
    true(section.encode() not in facts.read_names, "it was read as a name")


@form(
    r"  = help: `(\w+)` is the keyword of a section, after (\d+) (index|indices): is the count after `INT`, (\d+), too large\?"
)
def keyword_as_index(page, word, before, what, count):
    same("the indices", (before, what == "index"), (page.facts.role.item, before == 1))
    same(
        "the token", (word.encode(), count), (page.facts.token.bytes, page.facts.counts.get("INT"))
    )
    true(word in KEYWORDS, "it is no keyword")


@form(
    r"  = help: (?:indices count from 0: that of the last variable is (\d+)|the text has no variables \(VAR 0\))(?:; are the pairs INDEX (COEFFICIENT|VALUE)\?)?((?:;| Or) is this a constant\? An objective has none)?(\. Does INT count variables from 1\? Then each of its indices is 1 too large)?"
)
def last_variable(page, index, pairs: str, constant, from_one):
    facts = page.facts
    if facts.role.wanted == "integer index":
        integers = facts.text[: facts.token.at].rpartition(b"INT")[2].split()[1:]
        is_next = int(facts.token.bytes) == facts.counts["VAR"]
        is_asked = is_next and all(int(other) != 0 for other in integers)
        same("whether indices may count from 1", from_one is not None, is_asked)
    else:
        same("whether indices may count from 1", from_one, None)
    if facts.role.wanted == "row index":
        same("the pairs", pairs, "VALUE" if facts.role.section == "SOL" else "COEFFICIENT")
    same("the last variable", -1 if index is None else index, facts.counts["VAR"] - 1)
    same("whether it is the objective", constant is not None, facts.role.section == "OBJ")
    true(
        facts.token.bytes.isdigit() and (pairs is None or facts.role.wanted == "row index"),
        "the token is no number",
    )


@form(
    rf"  = help: decimals are not in the format: write ({NUMBER})( if that is exact; is it a rounded number\?)?"
)
def decimal(page, number, doubt):
    token = page.facts.token.bytes
    true(re.fullmatch(rb"[+-]?[0-9]*\.[0-9]*", token), "the token is no decimal")
    same("the number", number, Fraction(token.decode()))
    same("the doubt", doubt is not None, len(token.partition(b".")[2]) >= 5)


@form(r"  = help: is `(\S+)` meant\? Nothing else may be in its token")
def alone(page, token: str):
    facts = page.facts
    true(token.encode() != facts.token.bytes, "it is the token")
    same("what else is in it", token, facts.token.bytes.decode("latin-1").strip("\"'`()[]<>=,;:"))
    true(is_token(facts, token), "it is not what is wanted")
    is_opened = re.search(rb"[(\[]", facts.token.bytes) and not re.search(
        rb"[)\]]", facts.token.bytes
    )
    true("bound" in facts.role.wanted or not is_opened, "a list begins with it")


def is_token(facts, token):
    """Whether a token has the form that is wanted."""
    role = facts.role
    number = re.fullmatch(r"[-+]?[0-9]+(/0*[1-9][0-9]*)?", token)
    words = {
        "keyword": (role.section,),
        "version": ("1.0",),
        "direction": ("min", "max"),
        "sense": tuple("ELG"),
        "claim": ("infeas", "range"),
        "reason": ("asm", "lin", "rnd", "uns", "sol"),
        "last reference": ("-1",),
        "lower bound": ("-inf",),
        "upper bound": ("inf",),
    }
    if token in words.get(role.wanted, ()):
        return True
    if role.wanted in ("integer index", "row index"):
        return token.isdigit() and int(token) < facts.counts["VAR"]
    if role.wanted in (
        "lower bound",
        "upper bound",
        "right-hand side",
        "row coefficient",
        "multiplier",
    ):
        return number is not None
    natural = "count", "bound count", "row count", "entry count", "entry index", "branch"
    return role.wanted in (*natural, "last reference") and token.isdigit()


# words that other tools and people have for those of the format
SPELLINGS = {
    "min": ("direction", "min|minimi[sz]e|minimum|minimization"),
    "max": ("direction", "max|maximi[sz]e|maximum|maximization"),
    "infeas": ("claim", "infeas|infeasible|infeasibility"),
    "range": ("claim", "range|optimal|optimum|bounds"),
    "asm": ("reason", "assumed|assumption"),
    "lin": ("reason", "linear|lincomb|sum|farkas"),
    "rnd": ("reason", "round|rounded|rounding|cg|chvatal"),
    "uns": ("reason", "unsplit|split|join|branch"),
    "sol": ("reason", "solution|cutoff|obj"),
    "OBJ": ("row count", "obj|objective"),
}


@form(r"  = help: is `(\w+)` meant\?")
def spelled(page, word: str):
    facts = page.facts
    wanted_role, others = SPELLINGS[word]
    same("what is wanted", facts.role.wanted, wanted_role)
    token = facts.token.bytes.decode("latin-1").strip("\"'`()[]<>=,;:")
    true(re.fullmatch(others, token, re.I), f"{token} is no spelling of it")


# ---- faults of the text: lines and tokens that were changed on the way


def lines_to_fault(facts):
    """The lines up to that of the token at fault, or of the derivation."""
    token = facts.token if facts.is_text_fault() else facts.names["CON", facts.number()]
    return facts.text.split(b"\n")[: place_of(facts.text, token.at)[0]]


def last_where(facts, test):
    """The last line up to the fault of which this is true, with the one before it."""
    lines = [b"", *lines_to_fault(facts)]
    return max(at for at in range(1, len(lines)) if test(lines[at], lines[at - 1]))


def is_repeated_line(line, before):
    return line == before and len(line.split()) > 1 and not line.lstrip().startswith(b"%")


@form(r"  = help: line (\d+) repeats line (\d+): was it written twice\?")
def repeated_line(page, line, before):
    facts = page.facts
    same("the lines", (line, before), (last_where(facts, is_repeated_line), line - 1))
    is_near = line + 1 >= len(lines_to_fault(facts))
    is_keyword = facts.token.bytes.decode("latin-1") in KEYWORDS
    is_more = facts.refused == 18 or (facts.refused == 2 and not is_keyword)
    true(not facts.is_text_fault() or is_near or is_more, "the fault is far below")


@form(
    r"  = help: line (\d+) looks like a conflict marker of a merge: were two versions of the file put into one\?"
)
def conflict(page, line):
    mark = re.compile(rb"(<{7}|>{7}|\|{7}|={7})([ \r].*)?", re.S)
    lines = enumerate(lines_to_fault(page.facts), 1)
    same("the first mark", line, next(at for at, text in lines if mark.fullmatch(text)))


@form(
    r"  = help: mail breaks a long line with `=` at its end, as in line (\d+): was the file sent as the text of a mail\?"
)
def broken_by_mail(page, line):
    facts = page.facts
    same("the line", line, last_where(facts, lambda text, _: re.search(rb"=\r?$", text)))
    is_near = line + 1 >= len(lines_to_fault(facts))
    is_at_int = (facts.role.section, facts.role.wanted) == ("INT", "keyword")
    true(is_near or is_at_int, "it is far above")


@form(r"  = help: is `(.+)` a tag of HTML\? A certificate is plain text")
def tag(page, shown_tag: str):
    facts = page.facts
    true(shown_tag in map(shown_name, (facts.token.bytes, facts.name.bytes)), "it is not there")
    true(re.search(r"</?[A-Za-z]", shown_tag), "it is no tag")


@form(rf"  = help: is `(\S+) (\S+)` a mixed number\? Then write ({NUMBER})")
def mixed_number(page, whole: str, part: str, value):
    facts = page.facts
    tokens = [facts.text[: facts.token.at].split()[-1], facts.token.bytes]
    same("the tokens", [whole.encode(), part.encode()], tokens)
    size, sign = Fraction(part), -1 if int(whole) < 0 else 1
    true(0 < size < 1, "the fraction is 1 or more")
    same("the value", value, int(whole) + sign * size)


WORDS_OF = {
    "version": ("1.0",),
    "direction": ("min", "max"),
    "sense": tuple("ELG"),
    "claim": ("infeas", "range"),
    "reason": ("asm", "lin", "rnd", "uns", "sol"),
}


def split_token(facts):
    """The front of a token that is what is wanted there, the rest, and the token after it."""
    token, role = facts.token.bytes, facts.role
    words = (role.section,) if role.wanted == "keyword" else WORDS_OF.get(role.wanted)
    pattern = "|".join(map(re.escape, words)) if words else r"[-+]?\d+(?:/\d+)?"
    front = re.match(pattern.encode(), token)[0]
    true(is_token(facts, front.decode()), "the front is not what is wanted")
    behind = facts.text[facts.token.at + len(token) :].split()[:1] or [b""]
    return front, token[len(front) :], behind[0]


def continues(facts, front, rest, after):
    """Whether the rest of a token may be the next token."""
    walk = roles()
    role = next(walk)
    begin = re.match(rb"[\t-\r ]*(?:%[^\n]*(?:\n|$)[\t-\r ]*)*", facts.text).end()
    for found in re.compile(rb"[^\t-\r ]+").finditer(facts.text, begin, facts.token.at):
        role = walk.send(found[0])
    counts = dict(facts.counts)
    if role.wanted == "count":
        counts[role.section] = count_of(front)
    role = walk.send(front)
    if role.wanted == "name":
        is_begun = {"CON": is_sense(after), "DER": is_sense(after), "SOL": after.isdigit()}
        return rest[:1] not in (b"{", b"}") and is_begun.get(role.section, True)
    if role.wanted in ("open brace", "close brace"):
        return rest == (b"{" if role.wanted == "open brace" else b"}")
    return is_token(SimpleNamespace(role=role, counts=counts), rest.decode("latin-1"))


def is_sense(token):
    return token in (b"E", b"L", b"G")


@form(r"  = help: did a space or a line break get lost between `(.+)` and `(.+)`\?")
def lost_space(page, before: str, behind: str):
    front, rest, after = split_token(page.facts)
    same("the parts", (before, behind), (shown_name(front), shown_name(rest)))
    true(continues(page.facts, front, rest, after), "the rest is not what is wanted next")


@form(r"  = help: is a part of the text lost between `(.+)` and `(.+)`\?")
def lost_part(page, before: str, behind: str):
    front, rest, after = split_token(page.facts)
    same("the parts", (before, behind), (shown_name(front), shown_name(rest)))
    is_begin = rest.decode("latin-1").upper() in KEYWORDS or rest[:1] in (b"{", b"}")
    true(is_begin or is_sense(after) or after == b"{", "no line begins with the rest")
    true(not continues(page.facts, front, rest, after), "nothing more is lost than a space")


# ---- last references


def last_of_dropped(facts):
    """The last reference of the constraint that was dropped, and the last derivation that names it."""
    index = int(facts.details["index"])
    return int(facts.lasts[index].bytes), facts.last_use(index)


@form(
    r"  = help: (\d+) is not above (\d+): do last references count derivations from 0\? Then add (\d+) to each: (\d+) here"
)
def lasts_from_zero(page, stated, own, given, meant):
    facts = page.facts
    last, user = last_of_dropped(facts)
    same(
        "the numbers",
        (stated, own, given, meant),
        (last, int(facts.details["index"]), facts.given, last + facts.given),
    )
    true(stated <= own, "it is above it")
    true(meant >= user, "that is too small, too")
    for index, token in facts.lasts.items():
        is_number = index - facts.given < count_of(token.bytes) < facts.counts["DER"]
        true(token.bytes == b"-1" or is_number, "one isn't the number of a later derivation")


@form(
    r"  = help: are digits exchanged\? The last derivation that names it is (\d+), and (\d+) is written"
)
def exchanged_digits(page, user, stated):
    same("the numbers", (stated, user), last_of_dropped(page.facts))
    true(stated != user and sorted(str(stated)) == sorted(str(user)), "the digits are other ones")


def names_of(facts, index):
    """The derivations that name a constraint, one for each time."""
    return [
        facts.given + at
        for at, step in enumerate(facts.derivations)
        for other in (*step.indices, *(other for other, _ in step.entries))
        if other == index
    ]


NONE_ABOVE = r"(; here none is above the index of its own line)?"


def test_none_above(page, is_said):
    """Tests whether a page says that no last reference of the text is above its own index."""
    lasts = {
        index: count_of(token.bytes)
        for index, token in page.facts.lasts.items()
        if token.bytes.isdigit()
    }
    is_none = len(lasts) > 1 and all(last <= index for index, last in lasts.items())
    same("whether none is above its own index", is_said, is_none)


@form(
    r"  = help: (\d+) is the first derivation that names \[(\d+)\], and (\d+) the last one: write the last one"
)
def first_use(page, first, index, last):
    facts = page.facts
    names = names_of(facts, index)
    same("the derivations", (first, last), (names[0], names[-1]))
    same("what is written", first, last_of_dropped(facts)[0])
    same("the constraint", index, int(facts.details["index"]))


@form(
    r"  = help: \[(\d+)\] is named (?:once|(\d+) times): is the last reference a count of that\? "
    rf"It is the index of the last derivation that names the constraint{NONE_ABOVE}"
)
def counted_uses(page, index, count, none_above):
    facts = page.facts
    names = names_of(facts, index)
    same("the names", (index, count or 1), (int(facts.details["index"]), len(names)))
    same("what is written", len(names), last_of_dropped(facts)[0])
    test_none_above(page, none_above is not None)


@form(
    r"  = help: derivation (\d+) is (\d+) below \[(\d+)\]: is the last reference counted from its own line\? "
    rf"It is the index of the last derivation that names the constraint{NONE_ABOVE}"
)
def counted_from_own(page, last, distance, index, none_above):
    facts = page.facts
    same("the last use", (distance, last), last_of_dropped(facts))
    same("the distance", (index, distance), (int(facts.details["index"]), last - index))
    test_none_above(page, none_above is not None)


@form(
    r"  = help: no last reference in DER is above the index of its own line: each is the index of the last derivation that names it, or -1"
)
def none_above(page):
    same("the cause", page.facts.refused, 32)
    test_none_above(page, True)


@form(
    rf"  = help: \[(\d+)\] says objective (<=|>=) ({NUMBER}) and rests on no assumption(, and a listed solution attains it)?: is `RTP range (\S+) (\S+)` meant\?"
)
def proved_bound(page, index, sign, side, attained: str, lower: str, upper: str):
    facts = page.facts
    same("the strongest bound", (index, sign, side), strongest_bound(facts))
    is_attained = facts.listed > 0 and facts.best() == side
    same("whether it is attained", attained is not None, is_attained)
    wanted_claim = [str(side), "inf"] if facts.checker.minimizes else ["-inf", str(side)]
    if is_attained:
        wanted_claim = [str(side), str(side)]
    same("the claim", [lower, upper], wanted_claim)


def strongest_bound(facts):
    """The first of the strongest bounds on the objective that derivations give, are kept, and rest on nothing, where infeasibility is
    claimed."""
    checker = facts.checker
    if checker.bounds is not None or not checker.objective:
        return None
    sense, end = "G" if checker.minimizes else "L", len(checker.constraints)
    found = [
        (side if sense == "L" else -side, index)
        for index, (row, its_sense, side) in enumerate(checker.constraints)
        if index >= facts.given
        and row == checker.objective
        and its_sense in ("E", sense)
        and not checker.sets[index]
        and (checker.last[index] is None or checker.last[index] >= end)
    ]
    if not found:
        return None
    _, index = min(found)
    return index, SIGNS[sense], Fraction(facts.constraint(index).bound)
