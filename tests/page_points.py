"""The forms of the lines of a page that offer a change of a listed solution, of INT, of OBJ, or of a coefficient.

Each change is made here, in the values of the solution, the set of the integer variables or a row, and all constraints are tried.
"""
from fractions import Fraction
from math import floor

from page_facts import NUMBER, rules, same, true, variable
from page_lines import form

ENDS = rf" all constraints hold(?:, and the objective is ({NUMBER})(, the primal bound)?)?"
AT = r"(\S+) \(variable (\d+)\)"


def point_of(facts):
    """The values of the solution that the page is about: the refused one, or the first of the best."""
    number = facts.number() if facts.refused in (21, 22) else facts.objectives().index(facts.best())
    values = facts.solutions[number].values
    return {index: Fraction(value) for index, value in values.items()}


def is_feasible(facts, values):
    """Whether all constraints hold at these values, and those of integer variables are whole."""
    are_whole = all(
        value.denominator == 1 for at, value in values.items() if at in facts.problem.integers
    )
    return are_whole and all(
        rules.holds(total(facts.plain(index)[0], values), *facts.plain(index)[1:])
        for index in range(facts.given)
    )


def total(row, values):
    return sum(
        (number * values.get(index, Fraction(0)) for index, number in row.items()), Fraction(0)
    )


def test_point(page, values, objective, attained):
    """Tests what a page says of a solution with other values."""
    facts = page.facts
    true(facts.refused in (21, 22, 52), "it is about no solution")
    values = {index: value for index, value in values.items() if value}
    true(values.keys() <= set(range(len(facts.problem.names))), "there is no such variable")
    true(is_feasible(facts, values), "a constraint breaks, or a value isn't whole")
    known = total(facts.checker.objective, values)
    if objective is None:
        true(not facts.checker.objective, "the objective is left out")
    else:
        same("the objective", objective, known)
    is_attained = bool(facts.checker.objective) and known == facts.checker.primal
    same("whether it is the primal bound", attained is not None, is_attained)
    page.said["point"] += 1
    page.said["attained point"] += attained is not None


@form(
    rf"  = help: with each index of the solution 1 (less|more){ENDS}(: do its indices count from 1\?)?"
)
def shifted_point(page, way, objective, attained, asked):
    by = -1 if way == "less" else 1
    same("what is asked", asked is not None, by == -1)
    values = {index + by: value for index, value in point_of(page.facts).items()}
    test_point(page, values, objective, attained)


@form(
    rf"  = help: with the variables of the solution counted in the order of their names{ENDS}: is it in that order, and not in VAR's\?"
)
def point_by_name(page, objective, attained):
    values = {by_name(page.facts)[index]: value for index, value in point_of(page.facts).items()}
    test_point(page, values, objective, attained)


def by_name(facts):
    """The variables in the order of their names."""
    return sorted(range(len(facts.problem.names)), key=lambda at: (facts.problem.names[at], at))


@form(
    rf"  = help: with ({NUMBER}) for ({NUMBER}), and such a fraction for each rounded value,{ENDS}"
)
def exact_point(page, meant, present, objective, attained):
    values = point_of(page.facts)
    true(present in values.values(), "there is no such value")
    same("the fraction", meant, exact_for(present))
    values = {index: exact_for(value) or value for index, value in values.items()}
    test_point(page, values, objective, attained)


def exact_for(number):
    """The fraction that is meant by a rounded number, or by one of floating point."""
    number = Fraction(number)
    of_number = number.denominator
    is_double = of_number >= 2**20 and of_number & (of_number - 1) == 0
    for below in range(1, 65):
        near = Fraction(floor(number * below + Fraction(1, 2)), below)
        off = abs(number - near)
        if of_number >= 100 and off * of_number < 1:
            return near
        if is_double and off * 2**40 < max(1, abs(near)):
            return near
    return None


@form(rf"  = help: with ({NUMBER}) in place of ({NUMBER}) at {AT}{ENDS}")
def other_value(page, meant, present, name: str, index, objective, attained):
    facts = page.facts
    values = point_of(facts)
    same("the variable", name, variable(facts, index))
    same("the value", present, values.get(index, 0))
    test_point(page, values | {index: Fraction(meant)}, objective, attained)


@form(rf"  = help: with ({NUMBER}) at {AT} in place of {AT}{ENDS}")
def moved_value(page, value, name: str, index, other: str, old, objective, attained):
    facts = page.facts
    values = point_of(facts)
    same("the variables", (name, other), (variable(facts, index), variable(facts, old)))
    same("the values", (value, 0), (values.pop(old, None), values.get(index, 0)))
    same("the distance", 1, abs(index - old))
    test_point(page, values | {index: Fraction(value)}, objective, attained)


@form(rf"  = help: with the values of (\S+) and (\S+) exchanged{ENDS}")
def exchanged_values(page, name: str, other: str, objective, attained):
    facts = page.facts
    values = point_of(facts)
    one, another = (indices_of(facts, each) for each in (name, other))
    points = [
        values | {at: values.get(to, Fraction(0)), to: values.get(at, Fraction(0))}
        for at in one
        for to in another
    ]
    feasible = [point for point in points if is_feasible(facts, point)]
    test_point(page, (feasible or points)[0], objective, attained)


def indices_of(facts, name):
    return [at for at in range(len(facts.problem.names)) if variable(facts, at) == name]


def offers_point(facts):
    """Whether one of the changes of a refused solution that choose no number attains the primal bound. Long texts aren't tried."""
    has_bound = facts.checker.primal is not None and facts.checker.objective
    if facts.refused != 22 or not has_bound or len(facts.problem.names) * facts.given > 400:
        return False
    values = point_of(facts)
    row = facts.plain(int(facts.details["constraint"].split()[0]))[0]
    points = [
        {index + by: value for index, value in values.items()} for by in (-1, 1) if len(values) > 1
    ]
    for index in row.keys() & values.keys():
        points.append(values | {index: -values[index]})
        points += [
            values | {index: values[other], other: values[index]}
            for other in values
            if values[other]
        ]
    return any(
        all(0 <= index < len(facts.problem.names) for index in point)
        and is_feasible(facts, point)
        and total(facts.checker.objective, point) == facts.checker.primal
        for point in points
    )


# ---- integer variables


@form(
    r"  = help: (?:does INT count variables from (1)\? With each of its indices 1 less|is each index after INT 1 too small\? With each of "
    r"them 1 more) (all variables of this row are integer ones|the values of all integer variables are whole)"
)
def shifted_integers(page, less, what: str):
    facts = page.facts
    integers = {index + (1 if less is None else -1) for index in facts.problem.integers}
    true(integers <= set(range(len(facts.problem.names))), "an index is past the variables")
    if what.startswith("all variables"):
        row = facts.written("sum" if facts.refused == 36 else "first")[0]
        true(row.keys() <= integers, "a variable isn't an integer one")
        true(not row.keys() <= set(facts.problem.integers), "all are integer ones now")
    else:
        same("the cause", facts.refused, 21)
        true(
            all(
                value.denominator == 1
                for index, value in point_of(facts).items()
                if index in integers
            ),
            "a value isn't whole",
        )


# ---- numbers of the problem


@form(
    rf"  = help: with ({NUMBER}) in place of ({NUMBER}) at (\S+) this constraint holds: is that a number of floating point\? Its "
    r"denominator is a power of 2"
)
def double_in_row(page, meant, present, name: str):
    facts = page.facts
    row, sense, bound = facts.plain(int(facts.details["constraint"].split()[0]))
    places = [index for index in indices_of(facts, name) if row.get(index) == present]
    true(places, "there is no such coefficient")
    same("the fraction", meant, exact_for(present))
    below = Fraction(present).denominator
    true(below & (below - 1) == 0, "it is no number of floating point")
    values = point_of(facts)
    true(
        any(
            rules.holds(total(row | {index: Fraction(meant)}, values), sense, bound)
            for index in places
        ),
        "the constraint doesn't hold",
    )


@form(
    r"  = help: the stated row is the objective's: with (.+) in both the rows are the same: is that meant after `OBJ`\?"
)
def other_objective(page, words: str):
    facts = page.facts
    stated = facts.plain(facts.number())[0]
    same("the stated row", stated, facts.checker.objective)
    computed = facts.written("sum" if facts.refused == 36 else "computed")[0]
    differing = sorted(facts.differences_of_rows(), key=lambda at: (at not in computed, at))
    known = [
        f"{computed.get(at, 0)} in place of {stated.get(at, 0)} at {variable(facts, at)}"
        for at in differing
    ]
    same("the coefficients", words, ", and ".join(known))


@form(
    r"  = help: with variables counted in the order of their names the stated row is the objective's: are those of DER in that order, "
    r"and not in VAR's\?"
)
def row_by_name(page):
    facts = page.facts
    stated = facts.plain(facts.number())[0]
    named = {by_name(facts)[index]: number for index, number in stated.items()}
    same("the row", named, facts.checker.objective)
    true(stated != named, "it is the objective's now")


@form(
    r"  = help: the stated row has the objective's coefficients at other variables: are those of DER in another order than in VAR\?"
)
def row_in_other_order(page):
    facts = page.facts
    stated, objective = facts.plain(facts.number())[0], facts.checker.objective
    true(stated != objective, "it is the objective's")
    same("the coefficients", sorted(stated.values()), sorted(objective.values()))
