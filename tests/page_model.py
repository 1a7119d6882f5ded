"""A model of the pages of `vipr explain --long`: what each line of a page says has to be true of its text.

read(page, facts, file) gives the faults of a page, each in words; Facts(text, profile) is what is known of its text. It is read line by line. Each line has to be of a
form of page_lines.py, or to stand in page_hints.py, and to be true. What a page has to say of a cause may not be missing: `required`.
"""
import re
from fractions import Fraction
from itertools import zip_longest

from page_facts import (
    MOST_ENTRIES,
    MOST_SHOWN,
    MOST_SOURCES,
    MOST_TRIED,
    NUMBER,
    Wrong,
    rules,
)
import page_places
import page_points
from page_hints import HINTS, ends_text, is_near_miss
from page_lines import (
    FORMS,
    NUMBERS_ASKED,
    OFFERS,
    Page,
    is_at_fault,
    is_second,
    proved,
    strongest_bound,
)

NO_FORM = "no line has this form"
# what adds forms to those of page_lines.py
MORE_FORMS = page_places, page_points


def required(facts, said):
    """What a page has to say: the kind of a line, and how many lines of it there are, None for one or more."""
    cause = facts.refused
    others = int(cause == 22)
    excerpts = said["arrow"] + others
    yield from {
        "excerpt": excerpts,
        "carets": said["arrow"],
        "other_place": others,
        "bar": excerpts + said["arrow"],
    }.items()
    if cause is None:
        yield "claim", 1
        yield ("no_goal" if facts.lines[-1] == "goal none" else "goal"), 1
        bounds = dict.fromkeys(bound for bound in facts.checker.bounds or () if bound is not None)
        yield "about", sum(bound.denominator != 1 for bound in bounds)
        if facts.checker.bounds is not None:
            yield ("value" if facts.listed else "none_listed"), 1
        return
    yield "see", 1
    if facts.is_text_fault():
        yield from {"text_error": 1, "arrow": 1, "reading": 1, "help": 1 + ends_text(facts)}.items()
        yield "hint: the text ends with this token: is the file cut?", int(ends_text(facts))
    elif facts.place.startswith("SOL"):
        kinds = {21: ("not_whole",), 22: ("broken", "left_side"), 23: ("past_limit",)}[cause]
        yield from dict.fromkeys((*kinds, "solution_error", "label this"), 1).items()
        yield "help", None
        yield from [("attained point", None)] if page_points.offers_point(facts) else []
        if cause == 23:
            yield "past_bits", 1
        if (
            cause == 22
            and facts.plain(int(facts.details["constraint"].split()[0]))[0]
            and facts.solutions[facts.number()].values
            and not said["attained point"]
            and not said["double_in_row"]
        ):
            yield "hint: is a value rounded, as one of floating point is? Write exact fractions", int(
                is_near_miss(facts)
            )
    elif cause == 52:
        yield from {"no_primal": 1, "wanted_value": 1, "value": int(facts.listed > 0)}.items()
        yield ("attained" if facts.listed else "lists_none"), 1
        yield "help", None
        lower, upper = facts.checker.bounds
        yield "exchanged", int(lower is not None and upper is not None and lower > upper)
    elif cause == 51:
        count = len(facts.nearest())
        yield from {
            "no_proof": 1,
            "wanted_constraint": 1,
            "nearest": int(count > 0),
            "none_near": int(count == 0),
            "near": count,
        }.items()
        is_proved = strongest_bound(facts) is not None
        helps = 1 + is_proved + said["bound_of_own_branch"]
        yield from {"proved_bound": int(is_proved), "help": helps}.items()
        yield from required_advice(facts, said)
    else:
        yield from required_of_step(facts, said)


def required_advice(facts, said):
    """The advice that is given wherever it holds of one of the nearest constraints."""
    first = facts.nearest()[:1]
    is_assumed = [
        index
        for index in first
        if facts.checker.meets(facts.plain(index)) and index in facts.checker.sets[index]
    ]
    if said["exchanged"]:
        return
    if facts.checker.bounds is None and facts.listed:
        yield "hint: the text lists a solution that is feasible, so `infeas` is false: claim `range` and two bounds", 1
        return
    if first and facts.checker.meets(facts.plain(first[0])):
        said["left"] = said["crossed"] + said["still_assumed"] + said["assumption"]
        yield ("assumption" if is_assumed else "left"), 1
    elif any(
        facts.turned(index)
        and not facts.checker.sets[index]
        and facts.plain(index)[2] == facts.checker.goal[2]
        for index in facts.nearest()
    ):
        yield "other_direction", 1
    elif facts.checker.bounds is not None and proved(facts) is not None:
        said["more"] = said["more_claimed"] + said["other_sign"]
        yield "more", 1


def required_of_step(facts, said):
    own, cause = facts.own(), facts.refused
    yield from {
        "derivation_error": 1,
        "states": said["states"] if cause == 38 else 1,
        "label this": 1,
    }.items()
    if own.reason in ("lin", "rnd"):
        count = len(own.entries)
        marked = facts.entry_at_fault()
        is_late = marked is not None and marked >= MOST_ENTRIES
        yield from {
            "sum_reason": 1,
            "entry": min(count, MOST_ENTRIES) + is_late,
            "entries_left": int(count > MOST_ENTRIES),
        }.items()
    else:
        yield ("case", 4) if own.reason == "uns" else ("plain_reason", 1)
    if cause != 37:
        yield "help", None
    if cause == 31:
        yield "from_zero", int(not any(said[offer] for offer in OFFERS))
    if cause == 32:
        yield from {"dropped": 1, "label write": 1, "other_constraint": 1}.items()
    if cause == 38:
        yield from {"computed": 1, "stated": 1, "compared": 1}.items()
        if own.reason in ("lin", "rnd"):
            yield "source", min(MOST_SOURCES, len(facts.differences()))
        rounds = (
            own.reason == "lin"
            and not facts.differences()
            and facts.written("computed")[1] == facts.written("stated")[1] != "E"
            and facts.checker.accepts(
                facts.number(), facts.plain(facts.number()), "rnd", facts.parts(own)
            )
        )
        yield from [("other_word", None)] if rounds else []
    if cause == 35:
        yield "past_bits", 1
    if cause == 36:
        yield "sum", 1
        is_advised = any(said[kind] for kind in (*OFFERS, *NUMBERS_ASKED))
        yield "rounding", int(not is_advised)
        yield "hint: INT lists no variable: is it left out?", int(not facts.problem.integers)
        yield "row faults", min(MOST_SHOWN, len(list(facts.row_faults(facts.written("sum")[0]))))
    if cause == 37:
        first, second = facts.written("first"), facts.written("second")
        is_one = first[0] == second[0]
        count = len(list(facts.row_faults(first[0]))) if is_one else 0
        yield from {
            "first": said["first"],
            "second": said["first"],
            "other_rows": int(not is_one),
            "split": int(is_one and not count),
        }.items()
        yield "row faults", min(MOST_SHOWN, count)
        yield "hint: INT lists no variable: is it left out?", int(
            count > 0 and not facts.problem.integers
        )
        yield "second_profile", int(is_one and not count and is_second(facts))
    is_asked = any(said[kind] for kind in NUMBERS_ASKED)
    if cause in (34, 36, 38) and own.reason in ("lin", "rnd") and not is_asked and mends(facts):
        yield "offers", None


def mends(facts):
    """Whether the derivation follows with one entry changed so that the rows are the same: another multiplier, another constraint
    with the same one, or one more entry. Long sums aren't tried."""
    own, number = facts.own(), facts.number()
    parts, stated = facts.parts(own), facts.plain(number)
    if len(parts) * number > 2_000:
        return False
    known = live(facts)
    missing = dict(stated[0])
    try:
        for index, multiplier in parts:
            if index in known:
                add_row(missing, *facts.plain(index)[::2], -multiplier)
    except rules.Unfit:
        return False
    changes = []
    for at, (index, multiplier) in enumerate(parts):
        factor = index in known and factor_of(facts.plain(index)[0], missing)
        if factor:
            changes.append([*parts[:at], (index, multiplier + factor), *parts[at + 1 :]])
    changes = changes[:MOST_TRIED]
    more = [
        [*parts, (index, factor)]
        for index in sorted(known - dict(parts).keys())
        for factor in [factor_of(facts.plain(index)[0], missing)]
        if factor
    ]
    changes += more[:MOST_TRIED]
    return any(map(facts.accepts, changes))


def live(facts):
    """The constraints that a derivation may refer to."""
    own, last = facts.number(), facts.checker.last
    return {
        index
        for index in range(own)
        if index < facts.given
        or index in facts.checker.assumptions
        or last[index] is None
        or last[index] >= own
    }


def add_row(row, other, side, multiplier):
    """Adds the multiple of a row, in which no number may be past the limit."""
    rules.multiply(multiplier, side)
    for index, number in other.items():
        total = rules.add(Fraction(row.pop(index, 0)), rules.multiply(multiplier, Fraction(number)))
        row.update({index: total} if total else {})


def factor_of(row, wanted_row):
    """The number by which a row has to be multiplied for another one that isn't empty."""
    if not wanted_row or row.keys() != wanted_row.keys():
        return None
    factors = {Fraction(wanted_row[index]) / row[index] for index in row}
    return factors.pop() if len(factors) == 1 else None


def line_faults(page, line):
    """Tests a line by the forms that fit it: what is wrong with it, if none is true."""
    fault = None
    for pattern, kind, test in FORMS:
        found = pattern.fullmatch(line)
        if found:
            try:
                test(page, *arguments(test, found))
                page.said[kind] += 1
                if kind in ("coefficient_fault", "variable_fault"):
                    page.said["row faults"] += 1
                return None
            except Wrong as wrong:
                fault = fault or str(wrong)
            except (
                KeyError,
                IndexError,
                AttributeError,
                TypeError,
                ValueError,
                StopIteration,
                rules.Unfit,
            ) as wrong:
                fault = fault or f"nothing of the text fits it: {type(wrong).__name__} {wrong}"
    hint = line.removeprefix("  = help: ")
    if hint != line and hint in HINTS:
        page.said[f"hint: {hint}"] += 1
        try:
            return None if HINTS[hint](page.facts) else "it is not true of this text"
        except (KeyError, IndexError, AttributeError, TypeError, ValueError) as wrong:
            return f"nothing of the text fits it: {type(wrong).__name__} {wrong}"
    return fault or NO_FORM


def arguments(test, found):
    """The groups of a line as the test of its form takes them: numbers, but for those that it marks as texts."""
    names = list(test.__annotations__)
    for group, name in zip_longest(
        found.groups(), test.__code__.co_varnames[1 : test.__code__.co_argcount]
    ):
        is_text = group is None or name in names or not re.fullmatch(NUMBER, group)
        if is_text:
            yield group
        else:
            yield Fraction(group) if "/" in group else int(group)


def read(page_text, facts, file="standard input"):
    """The faults of a page, which is the lines of `explain` and what is after them, and the sums that it offers."""
    front_lines = "\n".join(facts.lines) + "\n"
    if not (page_text.startswith(front_lines + "\n") and page_text.endswith("\n")):
        return [f"it does not begin with the lines {facts.lines}, or the last line has no end"], []
    page, found = Page(facts, file), []
    lines = page_text[len(front_lines) + 1 :].split("\n")[:-1]
    for line in lines:
        fault = line_faults(page, line)
        found += [f"{line!r}: {fault}"] if fault else []
    helps = [line for line in lines if line.startswith("  = ")]
    page.said["help"] = sum(line.startswith("  = help: ") for line in helps)
    found += ["a line is there twice"] if len(set(helps)) < len(helps) else []
    changed, mends = ([], {}) if page.is_asked() else (page.changed, page.mends)
    if page.part and page.part not in changed and (changed or not is_at_fault(facts, *page.part)):
        found.append(f"the carets are at {page.part}, and what is offered is at {page.changed}")
    if page.mended != mends.get(page.part):
        found.append(
            f"the line with the change has {page.mended}, and what is offered is {page.mends}"
        )
    for kind, count in required(facts, page.said):
        got = len(page.offers) if kind == "offers" else page.said[kind]
        if (got == 0) if count is None else got != count:
            found.append(
                f'{got} lines of the kind {kind}, and there have to be {"some" if count is None else count}'
            )
    return found, page.offers
