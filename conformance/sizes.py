#!/usr/bin/env python3
"""Writes the cases of this folder that are longer than 4 kB: the folder sizes/, and those that test
how long a token may be.

usage: sizes.py

What each of them has to answer follows from how it is made: one item among very many decides,
mostly the last one. The same texts are written each time.
"""
import random
from pathlib import Path

FOLDER = Path(__file__).resolve().parent
# the longest token that vipr reads, in bytes
LONGEST = 65535
# how many items a certificate has that has many, and how many more than a machine counts in 16 bits
MANY, WORD = 1030, 2**16 + 1
# the branches of a whole tree lie below each other on so many levels
LEVELS = 10
# for each long case the shorter one that it is made of, what is replaced in it, and by what
LONG = {
    "numbers/many-leading-zeros": ("lin/contradiction", "a G 1 ", f'a G {"0" * 60000}1/1 '),
    "numbers/most-digits": ("lin/contradiction", "a G 1 ", f'a G {"9" * LONGEST} '),
    "numbers/too-many-digits": ("lin/contradiction", "a G 1 ", f'a G {"9" * (LONGEST + 1)} '),
    "numbers/zeros-to-the-longest-token": (
        "claim/infeas",
        "a G 1 ",
        f'a G {"0" * (LONGEST - 1)}1 ',
    ),
    "text/line-past-64-kb": (
        "lin/contradiction",
        "\nf G 1 0 ",
        f'\n{"f" * 65520} G 1/{10**20} 0 ',
    ),
    "text/long-comment": ("claim/infeas", "VER", f'%{"c" * 200000}\nVER'),
    "text/long-keyword": ("lin/contradiction", "VAR", "V" * (LONGEST + 1)),
    "text/long-trailing-token": ("lin/contradiction", "} -1\n", "} -1\n" + "y" * (LONGEST + 1)),
    "text/longest-name": ("claim/infeas", "\nx\n", f'\n{"x" * LONGEST}\n'),
    "text/name-too-long": ("claim/infeas", "\nx\n", f'\n{"x" * (LONGEST + 1)}\n'),
}


def section(keyword, items, *more):
    """A section that begins with the number of its items."""
    return "\n".join([" ".join([keyword, str(len(items)), *more]), *map(str, items)])


def vector(pairs):
    """The number of the pairs, and each pair."""
    return " ".join([str(len(pairs)), *(f"{index} {value}" for index, value in pairs)])


def certificate(
    variables,
    integers=(),
    objective="min\n0",
    problem=(),
    claim="range -inf inf",
    solutions=(),
    derivations=(),
):
    """The text of a certificate, of items that are written out."""
    sections = [
        "VER 1.0", section("VAR", ["x"] * variables), section("INT", integers), f"OBJ {objective}",
        section("CON", problem, "0"), f"RTP {claim}", section("SOL", solutions), section("DER", derivations),
    ]  # fmt: skip
    return "\n".join(sections) + "\n"


def shuffled(items):
    """The items in another order, the same each time."""
    items = list(items)
    random.Random(1).shuffle(items)
    return items


def many_variables():
    """Many variables, of which the last one decides."""
    last, point = MANY - 1, [f"s 1 {MANY - 1} 1/2"]
    others = [index for index in range(MANY) if index != last]
    row = [(index, index % 9 + 1) for index in range(MANY)]
    almost = row[:last]
    other = almost + [(last, 10)]
    stated = f"d G 1 {vector(row)} {{ lin 1 0 1 }} -1"
    yield "last-integer-variable", certificate(MANY, range(MANY), solutions=point)
    yield "last-named-integer-variable", certificate(
        MANY, shuffled(others) + [last], solutions=point
    )
    yield "last-variable-continuous", certificate(MANY, shuffled(others), solutions=point)
    half = {
        "problem": [f"a G 1/2 1 {last} 1"],
        "derivations": [f"d G 1 1 {last} 1 {{ rnd 1 0 1 }} -1"],
    }
    yield "last-variable-rounded", certificate(MANY, shuffled(range(MANY)), **half)
    yield "last-variable-not-rounded", certificate(MANY, shuffled(others), **half)
    ones = [(index, 1) for index in range(MANY)]
    same = ones[:last]
    for name, integers, value in (
        ("row-of-many-rounded", range(MANY), 1),
        ("row-of-many-last-continuous", others, 1),
        ("row-of-many-last-fraction", range(MANY), "1/2"),
    ):
        rounded = vector(same + [(last, value)])
        problem, derivation = f"a G 1/2 {rounded}", f"d G 1 {rounded} {{ rnd 1 0 1 }} -1"
        yield name, certificate(MANY, integers, problem=[problem], derivations=[derivation])
    solution = [f"s {vector(same + [(last, '1/2')])}"]
    yield "last-value-fraction", certificate(MANY, range(MANY), solutions=solution)
    yield "row-of-many", certificate(MANY, problem=[f"a G 1 {vector(row)}"], derivations=[stated])
    yield "row-of-many-in-any-order", certificate(
        MANY, problem=[f"a G 1 {vector(shuffled(row))}"], derivations=[stated]
    )
    yield "row-last-differs", certificate(
        MANY, problem=[f"a G 1 {vector(other)}"], derivations=[stated]
    )
    yield "row-last-missing", certificate(
        MANY, problem=[f"a G 1 {vector(almost)}"], derivations=[stated]
    )
    solution, problem = [f"s {vector(ones)}"], [f"a L {last} {vector(ones)}"]
    yield "sum-of-many-violated", certificate(MANY, problem=problem, solutions=solution)
    doubled = {
        "problem": [f"a G 2 {vector([(index, 2 * value) for index, value in row])}"],
        "derivations": [stated.replace("lin 1 0 1 }", "lin 1 0 1/2 }")],
        "claim": "range 1 inf",
    }
    for name, objective in ("objective-of-many", row), ("objective-of-many-last-differs", other):
        yield name, certificate(MANY, objective=f"min\n{vector(objective)}", **doubled)


def many_constraints():
    """Many constraints, solutions and entries, of which the last one decides."""
    weak, last = ["a G 0 1 0 1"] * (MANY - 1), MANY - 1
    yield "last-constraint-violated", certificate(
        1, problem=[*weak, "a G 2 1 0 1"], solutions=["s 1 0 1"]
    )
    used = [f"d G 2 1 0 1 {{ lin 1 {last} 1/2 }} -1"]
    proved = {"objective": "min\n1 0 1", "claim": "range 2 inf", "derivations": used}
    yield "last-constraint-used", certificate(1, problem=[*weak, "a G 4 1 0 2"], **proved)
    yield "last-constraint-too-weak", certificate(1, problem=["a G 4 1 0 2", *weak], **proved)
    feasible = [f"s 1 0 {3 + place % 2}" for place in range(MANY - 1)]
    over = {"objective": "min\n1 0 1", "problem": ["a G 2 1 0 1"]}
    yield "last-solution-violates", certificate(1, solutions=[*feasible, "s 1 0 1"], **over)
    yield "last-solution-attains", certificate(
        1, claim="range -inf 2", solutions=[*feasible, "s 1 0 2"], **over
    )
    yield "last-solution-fraction", certificate(1, [0], solutions=[*feasible, "s 1 0 5/2"], **over)
    entries = [(index, 1) for index in range(MANY)]
    whole = [f"a G 1 1 {index % 7} 1" for index in range(MANY)]
    row = vector([(index, len(range(index, MANY, 7))) for index in range(7)])
    for name, bound in ("sum-of-many-entries", MANY), ("sum-of-many-entries-too-strong", MANY + 1):
        stated = [f"d G {bound} {row} {{ lin {vector(entries)} }} -1"]
        yield name, certificate(7, problem=whole, derivations=stated)
    stated = f"d G {last} 1 0 {MANY} {{ lin {vector(entries)} }} -1"
    ones = ["a G 1 1 0 1"] * last
    yield "last-entry-of-other-sense", certificate(
        1, problem=[*ones, "a L 1 1 0 1"], derivations=[stated]
    )
    yield "last-entry-equation", certificate(
        1, problem=[*ones, "a E 0 1 0 1"], derivations=[stated]
    )
    equations = ["a E 1 1 0 1"] * last
    stated = f"d E {MANY} 1 0 {MANY} {{ lin {vector(entries)} }} -1"
    yield "last-entry-no-equation", certificate(
        1, problem=[*equations, "a G 1 1 0 1"], derivations=[stated]
    )
    stated = f"d G {last} 1 0 {MANY} {{ lin {vector(entries[:-1] + [(MANY, 1)])} }} -1"
    yield "last-entry-itself", certificate(1, problem=["a G 1 1 0 1"] * MANY, derivations=[stated])


def many_derivations():
    """Many derivations, of which the last one decides."""
    lower = {"objective": "min\n1 0 1", "problem": ["a G 4 1 0 2"], "claim": "range 2 inf"}
    steps = [f"d G 4 1 0 2 {{ lin 1 {place} 1 }} {place + 2}" for place in range(MANY)]
    steps += [f"d G 2 1 0 1 {{ lin 1 {MANY} 1/2 }} -1"]
    yield "chain", certificate(1, **lower, derivations=steps)
    weak = ["d G 1 1 0 2 { lin 1 0 1 } -1"] * MANY
    yield "last-derivation-proves", certificate(
        1, **lower, derivations=[*weak, "d G 2 1 0 1 { lin 1 0 1/2 } -1"]
    )
    wrong = ["d G 2 1 0 1 { lin 1 0 1/2 } -1", *weak, "d G 3 1 0 1 { lin 1 0 1/2 } -1"]
    yield "last-derivation-wrong", certificate(1, **lower, derivations=wrong)
    copies = [f"d G 3 1 0 1 {{ lin 1 {place + 1} 1 }} -1" for place in range(MANY)]
    yield "copies-of-an-assumption", certificate(
        1, **lower | {"claim": "range 3 inf"}, derivations=["d G 3 1 0 1 { asm } -1", *copies]
    )


def many_assumptions():
    """Many assumptions, of which all or all but one are discharged."""
    bound = {"objective": "min\n1 0 1", "problem": ["a G 0 1 0 1"], "claim": "range 1 inf"}
    for count in 33, 65, 129, 257, MANY:
        proved = f"d G 1 1 0 1 {{ lin 1 {count} 1 }} -1"
        yield f"assumption-{count}", certificate(
            1, **bound, derivations=["h G 1 1 0 1 { asm } -1"] * count + [proved]
        )
    for distance in 32, 64, 100, 128, 256:
        yield f"assumptions-{distance}-apart", apart(distance)
    yield "all-discharged", discharged(MANY, None)
    yield "all-but-the-first-discharged", discharged(MANY // 3, 0)
    yield "all-but-the-last-discharged", discharged(MANY, MANY - 1)


def apart(distance):
    """A join takes away one of two assumptions whose indices differ by the distance, and the claim
    rests on the other."""
    first, far, down = 1, 1 + distance, 2 + distance
    derivations = ["h G 2 1 0 1 { asm } -1"] * distance + [
        "h G 5 1 0 1 { asm } -1",
        "h L 1 1 0 1 { asm } -1",
    ]
    derivations += [f"d G 5 1 0 1 {{ lin 1 {far} 1 }} -1", f"d G 1 0 {{ lin 2 0 1 {down} -1 }} -1"]
    derivations += [f"d G 5 1 0 1 {{ uns {down + 1} {first} {down + 2} {down} }} -1"]
    return certificate(
        1, [0], "min\n1 0 1", ["a G 2 1 0 1"], "range 5 inf", derivations=derivations
    )


def discharged(count, left):
    """A sum rests on so many assumptions x >= 1, and joins take them away one by one, but for one
    of them."""
    low, absurd = count + 1, count + 2
    derivations = ["h G 1 1 0 1 { asm } -1"] * count + ["h L 0 1 0 1 { asm } -1"]
    # 2x >= 1 contradicts x <= 0, so the other branch is all that there is
    derivations += [f"d G 1 0 {{ lin 2 0 1 {low} -2 }} -1"]
    derivations += [
        f"d G 1 1 0 1 {{ lin {vector([(index, f'1/{count}') for index in range(1, low)])} }} -1"
    ]
    for place in shuffled(range(count)):
        if place != left:
            derivations += [
                f"d G 1 1 0 1 {{ uns {len(derivations)} {place + 1} {absurd} {low} }} -1"
            ]
    return certificate(
        1, [0], "min\n1 0 1", ["a G 1 1 0 2"], "range 1 inf", derivations=derivations
    )


def trees():
    """Trees of branches on some variables, whose leaves each rest on the assumptions of their
    path."""
    yield "tree-of-branches", tree(LEVELS)
    yield "tree-with-a-wrong-leaf", tree(LEVELS - 3, wrong=LEVELS // 2)


def tree(levels, wrong=None):
    """A tree that proves a bound, in which one leaf takes the wrong branch at a level."""
    # 0 <= x <= 1 for each variable, and the bound of the last one, which each leaf proves
    problem = [f"{name} 1 {index} 1" for index in range(levels) for name in ("a G 0", "b L 1")]
    problem += [f"c G 2 1 {levels} 2"]
    bound, first = 2 * levels, 2 * levels + 1
    derivations = [
        f"{name} 1 {index} 1 {{ asm }} -1" for index in range(levels) for name in ("h L 0", "h G 1")
    ]

    def proved(path):
        if len(path) < levels:
            low, high = proved([*path, 0]), proved([*path, 1])
            assumed = first + 2 * len(path)
            reason = f"uns {low} {assumed} {high} {assumed + 1}"
        else:
            turned = [side != (level == wrong and not any(path)) for level, side in enumerate(path)]
            entries = [(bound, "1/2")]
            for level, side in enumerate(turned):
                # x >= 0 minus x <= 0, or x >= 1 minus x <= 1, is 0 >= 0 and rests on what is
                # assumed
                entries += [
                    (2 * level + side, -1 if side else 1),
                    (first + 2 * level + side, 1 if side else -1),
                ]
            reason = f"lin {vector(entries)}"
        derivations.append(f"d G 1 1 {levels} 1 {{ {reason} }} -1")
        return bound + len(derivations)

    proved([])
    return certificate(
        levels + 1,
        range(levels),
        f"min\n1 {levels} 1",
        problem,
        "range 1 inf",
        derivations=derivations,
    )


def past_a_word():
    """Counts and indices of more than 16 bits."""
    last = WORD - 1
    yield "variable-65536-fraction", certificate(WORD, [last], solutions=[f"s 1 {last} 1/2"])
    rounded = {
        "problem": [f"a G 1/2 1 {last} 1"],
        "derivations": [f"d G 1 1 {last} 1 {{ rnd 1 0 1 }} -1"],
    }
    yield "variable-65536-continuous", certificate(WORD, [0], **rounded)
    used = {"claim": "range 1 inf", "derivations": [f"d G 1 1 0 1 {{ lin 1 {last} 1 }} -1"]}
    yield "constraint-65536-used", certificate(
        1, (), "min\n1 0 1", ["a G 0 0"] * last + ["a G 1 1 0 1"], **used
    )
    yield "solution-65536-violates", certificate(
        1, problem=["a L 0 1 0 1"], solutions=["s 0"] * last + ["s 1 0 1"]
    )


def texts():
    """Each long case's path, and its text."""
    for name, (short, old, new) in LONG.items():
        yield FOLDER / f"{name}.vipr", (FOLDER / f"{short}.vipr").read_text().replace(old, new, 1)
    for kind in (
        many_variables,
        many_constraints,
        many_derivations,
        many_assumptions,
        trees,
        past_a_word,
    ):
        for name, text in kind():
            yield FOLDER / f"sizes/{name}.vipr", text


def main():
    (FOLDER / "sizes").mkdir(exist_ok=True)
    for path, text in texts():
        path.write_text(text)


if __name__ == "__main__":
    main()
