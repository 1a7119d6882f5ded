#!/usr/bin/env python3
"""Makes valid certificates of the kinds that programs write, each of about a wanted size.

usage: families.py FOLDER [BYTES]     one file a family, of about 4,000,000 bytes each without BYTES

  chain      derivations that follow one another, one held at a time
  tree       a tree of branches: assumptions, sums at its leaves, branches joined up to the root
  cuts       sums that are rounded
  units      sums of eight short rows with the multipliers 1 and -1, rounded
  fractions  sums of a hundred short rows with fractions as multipliers, each the objective's row
  dense      sums of rows with an entry at each variable
  wide       a problem with many short rows, and no derivation
  long       numbers of up to 38 digits
  held       derivations that are all held to the end
  solutions  many listed solutions with few entries each

Those of HOSTILE are made to cost more than their length, where a program does each thing on its
own:

  objective  constraints whose row is that of the objective, each written as `OBJ`
  handed_on  one set of assumptions handed on along a chain that is held to the end
  growing    sets of assumptions that grow by one from derivation to derivation
  one_sum    one sum over many assumptions
  integers   short solutions of a problem with many integer variables

Those of PRODUCTS have a product of large factors in a short text, which a program may work off
factor by factor:

  objective_tested       constraints written `OBJ`, and solutions to test them with
  columns_and_objective  short constraints and solutions, and a few constraints written `OBJ`
  objective_stated       derivations that state `OBJ`, each dropped at once
  objective_kept         derivations that state `OBJ`, kept to the end
  weak_goals             derivations with the objective's row that are too weak for the claim
  split_on_objective     two assumptions `OBJ`, split on again and again
  same_set               a sum that names one large set of assumptions again and again
  alternating_sets       a sum that names two large sets of assumptions in turn
  nine_sets              a sum that names nine large sets of assumptions in turn
  joined_sets            sums that join the same two large sets of assumptions, kept to the end
  split_on_sets          splits whose branches rest on two large sets of assumptions, in turn, kept to the end
  growing_at_the_front   sets of assumptions that grow in front of all others, kept to the end
  growing_in_the_middle  sets of assumptions that grow between all others
  own_in_front          one sum over many sets, each a large one and an assumption of its own before all others
  gone_one_by_one        splits that each take another assumption out of one large set, kept to the end
  parts_in_a_chain       sums that add one part of a large set after another to a second one, kept to the end
  pairs_of_unions        sums of the same two unions of many parts of a large set, each dropped at once
  first_gone             splits that take the same assumption out of a union of many parts, each dropped at once
  first_gone_held        splits that take the same assumption out of a union of many parts, kept to the end
  unions_split           splits whose branches both rest on a union of many parts, each dropped at once

Those of STEPS have a product of large factors that has no shorter way, so each of its steps is to
be short:

  split_on_rows  two assumptions with rows of integer variables, split on again and again
  wide_divisors  sums of fractions of 127 bits whose denominators have a large common divisor

Those of KEPT are texts of which much is kept:

  names                  variables with names of one byte
  names_and_solutions    variables with names of one byte, and two solutions
  empty_constraints      constraints without entries, and two solutions
  long_named             constraints with names of 31 bytes
  short_constraints      constraints of two entries
  long_constraint        a constraint with an entry at each variable
  integer_indices        one integer variable, listed again and again
  empty_solutions        solutions without entries
  empty_sums             derivations by empty sums, kept to the end
  assumptions            assumptions
  long_sum               a derivation by a sum of many constraints

Those of SETS have large sets of assumptions; these four, and some of PRODUCTS:

  gone_of_250       splits that each take one assumption out of a set of 250
  gone_of_500       splits that each take one assumption out of a set of 500
  gone_of_1000      splits that each take one assumption out of a set of 1,000
  large_and_spread  sums of large sets that differ in two assumptions, each with a set of every 256th assumption

Those of SPACED have sums of two sets each, halves of some assumptions that stand some derivations
apart:

  spaced_by_4   sums of halves of the assumptions, which are 4 apart
  spaced_by_8   sums of halves of the assumptions, which are 8 apart
  spaced_by_16  sums of halves of the assumptions, which are 16 apart
  spaced_by_32  sums of halves of the assumptions, which are 32 apart
  spaced_by_64  sums of halves of the assumptions, which are 64 apart
"""
import math
import random
import sys
from fractions import Fraction
from pathlib import Path


def vector(row):
    return " ".join([str(len(row))] + [f"{j} {row[j]}" for j in sorted(row)])


def constraint(name, sense, bound, row):
    return f"{name} {sense} {bound} {vector(row)}"


def problem(variables, integers, constraints, claim="infeas", objective=None):
    yield "VER 1.0"
    yield f"VAR {variables}"
    yield from (f"x{j}" for j in range(variables))
    yield f"INT {len(integers)}"
    yield from map(str, integers)
    yield "OBJ min"
    yield vector(objective or {})
    yield f"CON {len(constraints)} 0"
    yield from constraints
    yield f"RTP {claim}"


def proof(derivations, solutions=(), count=None):
    """The sections after the claim. The count of the derivations is asked for if they are no
    list."""
    yield f"SOL {len(solutions)}"
    yield from solutions
    yield f"DER {len(derivations) if count is None else count}"
    yield from derivations


def lin(entries, reason="lin"):
    return f"{{ {reason} {len(entries)} " + "".join(f"{i} {c} " for i, c in entries) + "}"


def combined(rows, entries):
    """The sum of multiples of rows (right-hand side, coefficients)."""
    bound, row = Fraction(0), {}
    for i, c in entries:
        bound += c * rows[i][0]
        for j, a in rows[i][1].items():
            row[j] = row.get(j, 0) + c * a
    return bound, {j: a for j, a in row.items() if a}


def chain(size):
    count = max(2, size // 44)

    def steps():
        for k in range(count - 1):
            yield f"c{k} G 1 1 0 1 {lin([(0 if k == 0 else k + 1, 1)])} {k + 3}"
        yield f"end G 1 0 {lin([(count, 1), (1, -1)])} -1"

    yield from problem(1, [], [constraint("a", "G", 1, {0: 1}), constraint("b", "L", 0, {0: 1})])
    yield from proof(steps(), count=count)


def tree(size):
    depth = 4
    while (2**depth) * (9 * depth + 170) < size:
        depth += 1
    target = 2 * (depth // 2) + 1
    rows = [constraint("odd", "E", target, {j: 2 for j in range(depth)})]
    rows += [constraint(f"low{j}", "G", 0, {j: 1}) for j in range(depth)]
    rows += [constraint(f"high{j}", "L", 1, {j: 1}) for j in range(depth)]
    steps, last = [], {}

    def add(text, uses):
        index = len(rows) + len(steps)
        steps.append(text)
        for use in uses:
            last[use] = index
        return index

    def refute(fixed):
        j = len(fixed)
        if j == depth:
            ones = sum(value for value, _ in fixed)
            entries = [(0, 1 if 2 * ones < target else -1)]
            for at, (value, index) in enumerate(fixed):
                given = index if value == (2 * ones > target) else 1 + at + (depth if value else 0)
                entries.append((given, 2 if 2 * ones > target else -2))
            return add(f"leaf G 1 0 {lin(entries)}", [i for i, _ in entries])
        down = add(f"down L 0 {vector({j: 1})} {{ asm }}", [])
        left = refute(fixed + [(0, down)])
        up = add(f"up G 1 {vector({j: 1})} {{ asm }}", [])
        right = refute(fixed + [(1, up)])
        return add(f"join G 1 0 {{ uns {left} {down} {right} {up} }}", [left, down, right, up])

    refute([])
    yield from problem(depth, range(depth), rows)
    yield from proof([f"{text} {last.get(len(rows) + k, -1)}" for k, text in enumerate(steps)])


def sums(size, variables, entries_of, rows, reason="lin"):
    """Derivations that combine rows of the problem, all of sense G."""
    texts = [constraint(f"r{i}", "G", bound, row) for i, (bound, row) in enumerate(rows)]
    head = list(problem(variables, range(variables), texts, "range -inf inf"))
    left = size - sum(map(len, head))
    steps = []
    while left > 0:
        entries = entries_of()
        bound, row = combined(rows, entries)
        if reason == "rnd":
            bound = -(-bound.numerator // bound.denominator)
        own = len(rows) + len(steps)
        steps.append(f"s{len(steps)} G {bound} {vector(row)} {lin(entries, reason)} {own}")
        left -= len(steps[-1])
    yield from head
    yield from proof(steps)


def cuts(size):
    chance = random.Random(1)
    rows = [
        (
            Fraction(chance.randrange(-99, 99)),
            {j: Fraction(2 * chance.randrange(1, 9)) for j in chance.sample(range(60), 8)},
        )
        for _ in range(200)
    ]

    def entries():
        return [(i, Fraction(1, 2)) for i in chance.sample(range(200), 2)]

    return sums(size, 60, entries, rows, "rnd")


def in_turn(size, rows, sums):
    """Derivations that state these sums again and again, each dropped at once."""
    count = max(1, size // (sum(map(len, sums)) // len(sums) + 16))
    steps = (f"s{k} {sums[k % len(sums)]} {rows + k}" for k in range(count))
    return proof(steps, count=count)


def units(size):
    chance = random.Random(6)
    variables, count = 60, 100
    rows = []
    for _ in range(count):
        chosen = chance.sample(range(variables), chance.randrange(2, 5))
        bound = Fraction(chance.randrange(-19, 19), 2)
        rows.append((bound, {j: chance.choice((1, -1)) for j in chosen}))
    texts = [constraint(f"r{i}", "GL"[i % 2], *row) for i, row in enumerate(rows)]
    sums = []
    for _ in range(200):
        entries = [(i, -1 if i % 2 else 1) for i in chance.sample(range(count), 8)]
        bound, row = combined(rows, entries)
        sums.append(f'G {math.ceil(bound)} {vector(row)} {lin(entries, "rnd")}')
    yield from problem(variables, range(variables), texts, "range -inf inf")
    yield from in_turn(size, count, sums)


def fractions(size):
    chance = random.Random(7)
    variables, count = 40, 80
    costs = {j: chance.randrange(1, 20) for j in range(variables)}
    rows = []
    for _ in range(count):
        chosen = chance.sample(range(variables), 4)
        rows.append((chance.randrange(-9, 9), {j: chance.choice((1, -1)) for j in chosen}))
    low, high = count, count + variables
    texts = [constraint(f"r{i}", "G", *row) for i, row in enumerate(rows)]
    texts += [constraint(f"low{j}", "G", 0, {j: 1}) for j in range(variables)]
    texts += [constraint(f"high{j}", "L", 1, {j: 1}) for j in range(variables)]
    sums = []
    for _ in range(200):
        entries = [
            (i, Fraction(chance.randrange(1, 30), chance.choice((2, 3, 4, 5, 6, 8, 9, 10, 12))))
            for i in chance.sample(range(count), 60)
        ]
        bound, row = combined(rows, entries)
        # what is left of the objective are multiples of the variables' bounds
        for j, cost in costs.items():
            left = cost - row.get(j, 0)
            if left:
                entries.append((low + j if left > 0 else high + j, left))
            bound += min(left, 0)
        sums.append(f"G {bound} OBJ {lin(entries)}")
    yield from problem(variables, [], texts, "range -inf inf", costs)
    yield from in_turn(size, len(texts), sums)


def dense(size):
    chance = random.Random(2)
    rows = [
        (
            Fraction(chance.randrange(-99, 99), 7),
            {j: Fraction(chance.randrange(1, 99), chance.randrange(1, 9)) for j in range(200)},
        )
        for _ in range(20)
    ]

    def entries():
        return [(i, Fraction(chance.randrange(1, 5), 2)) for i in chance.sample(range(20), 3)]

    return sums(size, 200, entries, rows)


def long(size):
    chance = random.Random(3)
    rows = [
        (
            Fraction(chance.randrange(10**36)),
            {j: Fraction(chance.randrange(1, 10**36)) for j in chance.sample(range(30), 6)},
        )
        for _ in range(50)
    ]

    def entries():
        return [(i, Fraction(chance.randrange(1, 9))) for i in chance.sample(range(50), 2)]

    return sums(size, 30, entries, rows)


def held(size):
    count = max(1, size // 60)
    yield from problem(
        2, [], [constraint("a", "G", 1, {0: 1}), constraint("b", "G", 2, {1: 1})], "range -inf inf"
    )
    steps = (f"h{k} G {k + 3} 2 0 {k + 1} 1 1 {lin([(0, k + 1), (1, 1)])} -1" for k in range(count))
    yield from proof(steps, count=count)


def wide(size):
    chance = random.Random(4)
    rows = size // 45
    variables = max(3, rows // 4)

    def row():
        return {j: chance.randrange(1, 99) for j in chance.sample(range(variables), 3)}

    texts = [
        constraint(f"row{i}", "LGE"[i % 3], chance.randrange(-999, 999), row()) for i in range(rows)
    ]
    yield from problem(variables, range(0, variables, 2), texts, "range -inf inf")
    yield from proof([])


def solutions(size):
    chance = random.Random(5)
    variables, rows = 300, 200
    texts = [
        constraint(
            f"r{i}", "G", 0, {j: chance.randrange(1, 9) for j in chance.sample(range(variables), 4)}
        )
        for i in range(rows)
    ]
    listed, best = [], None
    while size > 0:
        point = {j: chance.randrange(1, 99) for j in chance.sample(range(variables), 3)}
        value = sum(point.values())
        best = value if best is None else min(best, value)
        listed.append(f"p{len(listed)} {vector(point)}")
        size -= len(listed[-1])
    yield from problem(
        variables, range(variables), texts, f"range -inf {best}", {j: 1 for j in range(variables)}
    )
    yield from proof([], listed)


def objective(size):
    count = size // 20
    row = {j: 1 + j % 9 for j in range(count)}
    texts = [f"r{i} G 0 OBJ" for i in range(count // 2)]
    yield from problem(count, [], texts, "range -inf inf", row)
    yield from proof([])


def assumed(count):
    return [f"a{k} G 1 1 0 1 {{ asm }} -1" for k in range(count)]


def handed_on(size):
    count = size // 70
    entries = lin([(k, 1) for k in range(count)])
    steps = [f"s G {count} 1 0 {count} {entries} -1"]
    steps += [f"h{k} G {count} 1 0 {count} {lin([(count + k, 1)])} -1" for k in range(count)]
    yield from problem(1, [], [], "range -inf inf")
    yield from proof(assumed(count) + steps)


def growing(size):
    count = size // 75
    steps = [
        f"g{k} G {k + 2} 1 0 {k + 2} {lin([(count + k - 1 if k else 0, 1), (k + 1, 1)])} {count + k + 1}"
        for k in range(count - 1)
    ]
    yield from problem(1, [], [], "range -inf inf")
    yield from proof(assumed(count) + steps[:-1] + [steps[-1][: steps[-1].rindex(" ")] + " -1"])


def joined_one_by_one(count, order, last):
    """Assumptions, and sums that join one after another in this order."""
    steps = ["a G 0 0 { asm } -1"] * count + [f"f G 0 0 {lin([(order[0], 1)])} {last or count + 1}"]
    for k, index in enumerate(order[1:], count):
        steps.append(f"f G 0 0 {lin([(k, 1), (index, 1)])} {last or k + 2}")
    return steps


def growing_at_the_front(size):
    count = size // 52 + 1
    yield from problem(1, [], [], "range -inf inf")
    yield from proof(joined_one_by_one(count, range(count - 1, -1, -1), -1))


def growing_in_the_middle(size):
    count = size // 56 + 1
    order = [k // 2 if k % 2 == 0 else count - 1 - k // 2 for k in range(count)]
    yield from problem(1, [], [], "range -inf inf")
    yield from proof(joined_one_by_one(count, order, 0))


def one_sum(size):
    count = size // 36
    entries = lin([(k, 1) for k in range(count)])
    yield from problem(1, [], [], "range -inf inf")
    yield from proof(assumed(count) + [f"s G {count} 1 0 {count} {entries} -1"])


def integers(size):
    count = size // 28
    yield from problem(count, range(count), [], "range -inf 1", {0: 1})
    yield from proof([], [f"s{k} 1 0 1" for k in range(count)])


def unit(count):
    """A row with the coefficient 1 at each variable."""
    return {j: 1 for j in range(count)}


def objective_tested(size):
    count = size // 17
    yield from problem(count, [], ["c L 1 OBJ"] * (count // 2), "range -inf inf", unit(count))
    yield from proof([], ["s 0"] * count)


def columns_and_objective(size):
    count = size // 32
    texts = ["c L 9 OBJ"] * 18 + [constraint("c", "L", 1, {j: 1}) for j in range(count)]
    yield from problem(count, [], texts, "range -inf inf", unit(count))
    yield from proof([], [f"s {vector({j: 1})}" for j in range(count)])


def objective_stated(size, last=0):
    count = size // 30
    yield from problem(count, [], [], "range -inf inf", unit(count))
    yield from proof([f"c L 1 OBJ {{ sol }} {last}"] * count, ["s 0"])


def objective_kept(size):
    return objective_stated(size, -1)


def weak_goals(size):
    count = size // 38
    yield from problem(count, range(count), ["c G 0 OBJ", "c G -9 OBJ"], "range 0 inf", unit(count))
    yield from proof(["f L 7 OBJ { sol } 0"] * count, ["s 0"])


def split_on_objective(size):
    count = size // 44
    both = ["l L 0 OBJ { asm } -1", "g G 1 OBJ { asm } -1", "z G 0 0 { lin 0 } -1"]
    yield from problem(count, range(count), [], "range -inf inf", unit(count))
    yield from proof(both + ["u G 0 0 { uns 2 0 2 1 } 0"] * count)


def split_on_rows(size):
    count = size // 40
    both = [
        constraint(*text, unit(count)) + " { asm } -1" for text in (("l", "L", 0), ("g", "G", 1))
    ]
    yield from problem(count, range(count), [], "range -inf inf")
    yield from proof(both + ["z G 0 0 { lin 0 } -1"] + ["u G 0 0 { uns 2 0 2 1 } 0"] * count)


def wide_divisors(size):
    count, shared = size // 208, 2**66 - 5
    rows = [
        {j: Fraction(10**17 + 2 * j + k, shared * other) for j in range(count)}
        for k, other in ((1, 267914296), (3, 433494437))
    ]
    entries = [(0, 1), (1, 1), (0, -1), (1, -1)] * (size // 48)
    yield from problem(count, [], [constraint("c", "E", 0, row) for row in rows], "range -inf inf")
    yield from proof([f"f E 0 0 {lin(entries)} 0"])


def gathered(count, start=0):
    """Assumptions, and sums of two by two of them, as they stand from the index on; the last one
    rests on all."""
    steps, level = ["a G 0 0 { asm } -1"] * count, list(range(start, start + count))
    while len(level) > 1:
        pairs = [level[k : k + 2] for k in range(0, len(level), 2)]
        level = [start + len(steps) + k for k in range(len(pairs))]
        steps += [f"t G 0 0 {lin([(i, 1) for i in pair])} -1" for pair in pairs]
    return steps


def same_set(size):
    count = size // 64
    steps = gathered(count)
    yield from problem(1, [], [], "range -inf inf")
    yield from proof(steps + [f"f G 0 0 {lin([(len(steps) - 1, 1)] * count)} -1"])


def alternating_sets(size):
    count = size // 128
    steps = gathered(count)
    tops = [len(steps) - 1]
    steps += gathered(count, len(steps))
    tops.append(len(steps) - 1)
    yield from problem(1, [], [], "range -inf inf")
    yield from proof(steps + [f"f G 0 0 {lin([(i, 1) for i in tops] * count)} -1"])


def nine_sets(size):
    count = size // 85 + 1
    steps = gathered(count)
    shared, tops = len(steps) - 1, []
    for _ in range(9):
        steps += ["a G 0 0 { asm } -1", f"f G 0 0 {lin([(shared, 1), (len(steps), 1)])} -1"]
        tops.append(len(steps) - 1)
    yield from problem(1, [], [], "range -inf inf")
    yield from proof(steps + [f"f G 0 0 {lin([(i, 1) for i in tops] * (count // 2))} -1"])


def joined_sets(size):
    count = size // 160 + 1
    steps = gathered(count)
    tops = [len(steps) - 1]
    steps += gathered(count, len(steps))
    tops.append(len(steps) - 1)
    yield from problem(1, [], [], "range -inf inf")
    yield from proof(steps + [f"f G 0 0 {lin([(i, 1) for i in tops])} -1"] * count)


def split_on_sets(size):
    count = size // 190 + 1
    steps, own = gathered(count, 1), []
    own.append(len(steps))
    steps += gathered(count, len(steps) + 1)
    own.append(len(steps))
    low, high = len(steps) + 1, len(steps) + 2
    steps += ["l L 0 1 0 1 { asm } -1", "g G 1 1 0 1 { asm } -1"]
    steps += [
        f"f G 0 0 {lin([(own[0], 1), (low, -1), (0, 1)])} -1",
        f"f G 0 0 {lin([(own[1], 1), (high, 1), (0, -1)])} -1",
    ]
    halves = [f"{high + 1} {low}", f"{high + 2} {high}"]
    steps += [f'u G 0 0 {{ uns {" ".join(half)} }} -1' for half in (halves, halves[::-1])] * (
        count // 2
    )
    yield from problem(1, [0], [constraint("c", "E", 0, unit(1))], "range -inf inf")
    yield from proof(steps)


def own_in_front(size):
    count = size // 110
    steps = ["a G 0 0 { asm } -1"] * count + gathered(count, count)
    shared, first = len(steps) - 1, len(steps)
    steps += [f"f G 0 0 {lin([(shared, 1), (k, 1)])} -1" for k in range(count)]
    yield from problem(1, [], [], "range -inf inf")
    yield from proof(steps + [f"s G 0 0 {lin([(first + k, 1) for k in range(count)])} -1"])


# `0 >= 1`, and `0 >= 0` that rests on it: one branch of each split that takes an assumption `0 <=
# 0` out of the other
OTHER_BRANCH = ["g G 1 0 { asm } -1", "q G 0 0 { lin 1 0 1 } -1"]


def sum_of(indices, sign=1, last=-1):
    return f"t G 0 0 {lin([(index, sign) for index in indices])} {last}"


def without(index, assumption, last=-1):
    return f"s G 0 0 {{ uns {index} {assumption} 1 0 }} {last}"


def one_set(steps, count):
    """Adds assumptions and their sum. Gives the index of the first assumption and that of the
    sum."""
    first = len(steps)
    steps += ["a L 0 0 { asm } -1"] * count
    steps.append(sum_of(range(first, first + count), -1))
    return first, first + count


def parts(steps, count):
    """Adds a set, and splits that take its last assumption out, one by one, down to 1,100. Gives
    the first assumption and the indices of all these sets.
    """
    first, top = one_set(steps, count)
    tops = [top]
    for assumption in range(first + count - 1, first + 1100, -1):
        tops.append(len(steps))
        steps.append(without(tops[-2], assumption))
    return first, tops


def union_of_parts(steps, count):
    """Adds parts of a set and sums two by two of them, each joined to a second large set first.
    Gives the first assumption and the index of the last sum.
    """
    first, level = parts(steps, count)
    _, other = one_set(steps, 1100)
    level = [[other, index] for index in level]
    while len(level) > 1 or len(level[0]) > 1:
        start = len(steps)
        steps += [sum_of(pair) for pair in level]
        tops = range(start, len(steps))
        level = [list(tops[k : k + 2]) for k in range(0, len(tops), 2)]
    return first, level[0][0]


def split_proof(steps):
    yield from problem(1, [], [], "range -inf inf")
    yield from proof(steps)


def gone_one_by_one(size):
    steps, count = OTHER_BRANCH[:], size // 61
    first, top = one_set(steps, count)
    return split_proof(steps + [without(top, first + k) for k in range(count)])


def parts_in_a_chain(size):
    steps = OTHER_BRANCH[:]
    _, tops = parts(steps, 1300 + size // 130)
    _, last = one_set(steps, 1100)
    for top in tops:
        steps.append(sum_of([last, top]))
        last = len(steps) - 1
    return split_proof(steps)


def pairs_of_unions(size):
    steps = OTHER_BRANCH[:]
    tops = [union_of_parts(steps, 1200 + size // 500)[1] for _ in range(2)]
    return split_proof(steps + [sum_of(tops, last=0)] * (size // 100))


def first_gone(size, last=0):
    steps = OTHER_BRANCH[:]
    first, top = union_of_parts(steps, 1200 + size // 250)
    return split_proof(steps + [without(top, first + 1, last)] * (size // 100))


def first_gone_held(size):
    return first_gone(size, -1)


def unions_split(size):
    steps = OTHER_BRANCH[:]
    first, top = union_of_parts(steps, 1200 + size // 250)
    steps.append(sum_of([1, top]))
    split = f"s G 0 0 {{ uns {top} {first + 1} {len(steps) - 1} 0 }} 0"
    return split_proof(steps + [split] * (size // 100))


def gone_of(size, count):
    steps = OTHER_BRANCH[:]
    first, top = one_set(steps, count)
    return split_proof(steps + [without(top, first + k % (count - 1)) for k in range(size // 33)])


def gone_of_250(size):
    return gone_of(size, 250)


def gone_of_500(size):
    return gone_of(size, 500)


def gone_of_1000(size):
    return gone_of(size, 1000)


def large_and_spread(size):
    steps, count, each = OTHER_BRANCH[:], size // 50, int((size / 100) ** 0.5)
    first = len(steps)
    steps += ["a L 0 0 { asm } -1"] * count
    top = len(steps)
    steps.append(sum_of(range(first, first + count, 2), -1))
    large = range(top + 1, top + 1 + each)
    steps += [without(top, first + 2 * k) for k in range(each)]
    spread = range(len(steps), len(steps) + each)
    steps += [sum_of(range(first + 2 * k + 1, first + count, 256), -1) for k in range(each)]
    return split_proof(steps + [sum_of([i, j]) for i in large for j in spread])


def spaced_by(size, gap):
    chosen, steps, assumptions = random.Random(1), [], []
    for _ in range(max(140, size // (gap * 200))):
        assumptions.append(len(steps))
        steps += ["a L 0 0 { asm } -1"] + ["z G 0 0 { lin 0 } 0"] * (gap - 1)
    half, tops = len(assumptions) // 2, []
    while len(tops) * (4 * len(assumptions) + 18 * len(tops)) < size - 20 * len(steps):
        tops.append(len(steps))
        steps.append(sum_of(sorted(chosen.sample(assumptions, half)), -1))
    return split_proof(steps + [sum_of([i, j]) for i in tops for j in tops if i < j])


def spaced_by_4(size):
    return spaced_by(size, 4)


def spaced_by_8(size):
    return spaced_by(size, 8)


def spaced_by_16(size):
    return spaced_by(size, 16)


def spaced_by_32(size):
    return spaced_by(size, 32)


def spaced_by_64(size):
    return spaced_by(size, 64)


def names(size, solutions=()):
    yield from (
        line[:1] if line[0] == "x" else line
        for line in problem(size // 2, [], [], "range -inf inf")
    )
    yield from proof([], solutions)


def names_and_solutions(size):
    return names(size, ["s 0", "s 0"])


def empty_constraints(size):
    yield from problem(1, [], ["c E 0 0"] * (size // 8), "range -inf inf")
    yield from proof([], ["s 0", "s 0"])


def long_named(size):
    yield from problem(1, [], [f'{"c" * 31} E 0 0'] * (size // 38), "range -inf inf")
    yield from proof([])


def short_constraints(size):
    yield from problem(2, [], ["c E 0 2 0 1 1 1"] * (size // 16), "range -inf inf")
    yield from proof([])


def long_constraint(size):
    count = size // 11
    yield from problem(count, [], [constraint("c", "E", 0, unit(count))], "range -inf inf")
    yield from proof([])


def integer_indices(size):
    yield from problem(1, [0] * (size // 2), [], "range -inf inf")
    yield from proof([])


def empty_solutions(size):
    yield from problem(1, [], [], "range -inf inf")
    yield from proof([], ["s 0"] * (size // 4))


def empty_sums(size):
    yield from problem(1, [], [], "range -inf inf")
    yield from proof(["d E 0 0 { lin 0 } -1"] * (size // 21))


def assumptions(size):
    yield from problem(1, [], [], "range -inf inf")
    yield from proof(["d E 0 0 { asm } 0"] * (size // 18))


def long_sum(size):
    yield from problem(1, [], ["c E 0 0"], "range -inf inf")
    yield from proof([f"d E 0 0 {lin([(0, 1)] * (size // 4))} 0"])


PRODUCTS = [
    objective_tested,
    columns_and_objective,
    objective_stated,
    objective_kept,
    weak_goals,
    split_on_objective,
    same_set,
    alternating_sets,
    nine_sets,
    joined_sets,
    split_on_sets,
    growing_at_the_front,
    growing_in_the_middle,
    own_in_front,
    gone_one_by_one,
    parts_in_a_chain,
    pairs_of_unions,
    first_gone,
    first_gone_held,
    unions_split,
]
STEPS = [split_on_rows, wide_divisors]
KEPT = [
    names,
    names_and_solutions,
    empty_constraints,
    long_named,
    short_constraints,
    long_constraint,
    integer_indices,
    empty_solutions,
    empty_sums,
    assumptions,
    long_sum,
]
SETS = [
    joined_sets,
    split_on_sets,
    growing_at_the_front,
    own_in_front,
    gone_one_by_one,
    parts_in_a_chain,
    pairs_of_unions,
    first_gone,
    first_gone_held,
    unions_split,
    gone_of_250,
    gone_of_500,
    gone_of_1000,
    large_and_spread,
]
SPACED = [spaced_by_4, spaced_by_8, spaced_by_16, spaced_by_32, spaced_by_64]
HOSTILE = [objective, handed_on, growing, one_sum, integers]
FAMILIES = [chain, tree, cuts, units, fractions, dense, wide, long, held, solutions]


def make(folder, size, which=None):
    """Writes a file of about the size for each family, or for those that are named."""
    for family in which or FAMILIES:
        with open(Path(folder) / f"{family.__name__}.vipr", "w", encoding="ascii") as file:
            file.writelines(line + "\n" for line in family(size))


if __name__ == "__main__":
    if len(sys.argv) < 2:
        sys.exit(__doc__)
    make(sys.argv[1], int(sys.argv[2]) if len(sys.argv) > 2 else 4_000_000)
