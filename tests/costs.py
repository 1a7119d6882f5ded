#!/usr/bin/env python3
"""What a text of four times the length costs: no short text takes hours, and memory has a bound in the text's length.

usage: tests/costs.py [--write] [PROGRAM]     crates/vipr/out/vipr without it

Of each family of PRODUCTS and HOSTILE (bench/families.py) a text and one of four times its length are checked, and
written in the compact form; instructions and the peak of memory may grow by five times at most. Each command may have
no more memory than MOST (or LESS) bytes for a byte of text, whatever it writes, beside what an empty run has and ROOM;
that is tried with the families of KEPT, and with constraints written `OBJ`, which are much longer in the canonical
text. Each family of STEPS may take no more than so many instructions. The families of SETS and SPACED, large sets of
assumptions that are split and joined, have bounds for both, in longer texts.
What instructions hide is counted beside them, for the texts that programs write: divisions, each of which takes the
time of twenty other steps, allocations, and steps that move bytes. So a division by 1 that comes back is a failure.

`explain --long` is tried with texts of its own.

Instructions are counted by valgrind and memory is measured by GNU time; what isn't there is left out, and a line says
so. --write writes the figures into docs/SECURITY.md. Prints each fault, and last `costs: N checks, F failed, S seconds
of processor time`; the exit status is 1 if one failed.
"""
import os
import re
import sys
import tempfile
from concurrent.futures import ThreadPoolExecutor
from pathlib import Path

from texts import (
    GNU_TIME,
    OBJDUMP,
    TOP,
    VALGRIND,
    Checks,
    described,
    instructions,
    peak,
    program,
    run,
    spent,
    text_of,
)
from sources import replaced
import families

# what doesn't meet its bounds yet: bytes of memory and instructions for a byte of text that it may take until then, by
# family and command
OPEN = {}
# the commands that write the compact text
COMPACT = "show --compact", "tighten --compact"
# how much more a text of four times the length may cost
GROWTH = 5
# how many times the instructions of `check` an explanation of these texts takes at most
MOST_CHECKS = 8
# bytes of memory for a byte of text, and what is free beside them
MOST = {"check": 50, "explain": 50, "show": 50, "tighten": 50}
ROOM = 2 << 20
# what is kept as it is written takes less, by family and command
LESS = {("empty_solutions", "tighten"): 4}
# sums of two sets that have nothing in common with others share nothing
SPACED_MOST = 90
# by how many bytes the peak of a run varies, by what the system maps of the program
NOISE = 256 << 10
# the lengths of the shorter texts; sets show what they cost in longer ones, and some at one of several lengths
LENGTH, LONG = 8_000, {
    "same_set": [400_000],
    "alternating_sets": [400_000],
    "nine_sets": [400_000],
    "joined_sets": [225_000, 400_000],
    "split_on_sets": [200_000, 400_000, 700_000],
    "own_in_front": [350_000, 700_000],
    "growing": [100_000],
    "growing_at_the_front": [100_000],
    "growing_in_the_middle": [100_000],
    "gone_one_by_one": [250_000],
    "parts_in_a_chain": [250_000],
    "pairs_of_unions": [250_000],
    "first_gone": [250_000],
    "first_gone_held": [250_000],
    "unions_split": [250_000],
}
# how many items the texts of `explain --long` with overlapping sets have: 500 are fewer than those that do not grow
LONGER = dict.fromkeys(
    ("the nearest constraints rest on overlapping sets", "a join of overlapping sets"),
    (2_000, 8_000),
)
MEMORY_LENGTH, KEPT_LENGTH, WRITTEN_LENGTH = 200_000, 500_000, 100_000
# texts with large sets, and how many instructions each byte of them may take
SETS_LENGTH, SETS_STEPS = 1_000_000, 1_000
# instructions that a text of this length may take whose steps have no shorter way
STEPS_LENGTH, STEPS_MOST = 20_000, {"split_on_rows": 13_000_000, "wide_divisors": 300_000_000}
# divisions, allocations and steps that move bytes: how many a text of this length may take, by family
HIDDEN_LENGTH, HIDDEN_MOST = 100_000, {
    "chain": (50, 150, 130_000),
    "tree": (50, 4_800, 300_000),
    "cuts": (3_000, 1_350, 140_000),
    "dense": (27_000, 350, 130_000),
    "wide": (50, 2_900, 400_000),
    "long": (50, 400, 130_000),
    "held": (50, 2_300, 480_000),
    "solutions": (50, 5_500, 220_000),
}
# when a run is stopped, in seconds of processor time: more than the longest one needs under valgrind on a slow machine
SECONDS = 60
PAGE = TOP / "docs/SECURITY.md"
MARKS = "<!-- costs: written by `tests/costs.py --write` -->", "<!-- end of the costs -->"
CHECKS, unmet = Checks("costs"), set()


def check(good, name, command, what):
    is_open = (name, command) in OPEN
    unmet.update([(name, command)] if not good else [])
    CHECKS.check(good or is_open, f"{name}: {command}: {what}")
    if is_open and not good:
        print(f"{name}: {command}: {what} (open)")


def file_of(family, command, length):
    path = f'{ROOM_FOR_FILES}/{family.__name__}.{command.replace(" ", "")}.{length}'
    Path(path).write_bytes(text_of(family, length))
    return path, os.path.getsize(path)


def growth(task):
    """How much more four times the text costs: instructions, and memory; None for what isn't known."""
    family, command, least = task
    found = []
    for measure, is_there, length, free in (
        (instructions, VALGRIND, least, 0),
        (peak, GNU_TIME, max(least, MEMORY_LENGTH), (EMPTY or 0) - NOISE),
    ):
        files = [file_of(family, command, size) for size in (length, 4 * length)]
        known = [
            is_there and measure([PROGRAM, *command.split(), path], SECONDS) for path, _ in files
        ]
        times = files[1][1] / files[0][1] / 4
        found.append(
            (known[1] - free) / (known[0] - free) / times if all(known) else None if is_there else 0
        )
    return found


def kept(task):
    """How many bytes of memory there are for a byte of text, beside those of an empty run."""
    family, command, length = task
    path, size = file_of(family, command, length)
    found = peak([PROGRAM, command, path], SECONDS)
    most = LESS.get((family.__name__, command), MOST[command])
    return found and max(0, found - EMPTY) / size, found and found - EMPTY <= most * size + ROOM


def figure(number):
    return (
        f"over {SECONDS} seconds"
        if number is None
        else f"{number:.1f}"
        if number
        else "not measured"
    )


def row(what, command, found):
    return f"| {what} | `{command}` | {figure(found[0])} | {figure(found[1])} |"


def growths(pool):
    """Checks the families of PRODUCTS and HOSTILE, and gives the rows of their table."""
    chosen = families.PRODUCTS + families.HOSTILE
    tasks = [(family, command) for command in ("check", *COMPACT) for family in chosen]
    tasks.insert(len(chosen), (families.objective_tested, "explain"))
    tasks = [
        (family, command, length)
        for family, command in tasks
        for length in LONG.get(family.__name__, [LENGTH])
    ]
    rows = {}
    for (family, command, _), found in zip(tasks, pool.map(growth, tasks)):
        name = family.__name__
        for what, times in zip(("instructions", "memory"), found):
            check(
                times is not None, name, command, f"{what}: not verified within {SECONDS} seconds"
            )
            check(
                (times or 0) <= GROWTH,
                name,
                command,
                f"{what}: {times or 0:.1f} times for 4 times the text",
            )
        of = (ABOUT[name] if command not in COMPACT else "the most of all these texts"), command
        rows[of] = [
            max(*pair, key=lambda times: times or 0) for pair in zip(rows.get(of, (0, 0)), found)
        ]
    return [row(*of, found) for of, found in rows.items()]


def memory(pool):
    """Checks the families of KEPT and those with `OBJ`, and gives the rows of their table."""
    chosen = [(family, KEPT_LENGTH) for family in families.KEPT] + [
        (families.objective, WRITTEN_LENGTH)
    ]
    commands = ["check", "show", "tighten"]
    tasks = [(family, command, length) for family, length in chosen for command in commands]
    found = dict(zip(tasks, pool.map(kept, tasks)))
    for family, length in chosen:
        cells = []
        for command in commands:
            times, good = found[family, command, length]
            check(
                good,
                family.__name__,
                command,
                f"{figure(times)} bytes of memory for a byte of text",
            )
            cells.append(figure(times))
        yield f"| {ABOUT[family.__name__]} | " + " | ".join(cells) + " |"


def of_sets(family):
    """Bytes of memory and instructions for a byte of a long text, and whether both are within their bounds."""
    path, size = file_of(family, "check", SETS_LENGTH)
    words = [PROGRAM, "check", path]
    room = GNU_TIME and peak(words, SECONDS)
    count = VALGRIND and instructions(words, SECONDS)
    most = SPACED_MOST if family in families.SPACED else MOST["check"]
    return (
        (
            room and max(0, room - EMPTY) / size,
            not GNU_TIME or room and room - EMPTY <= most * size + ROOM,
        ),
        (count and count / size, not VALGRIND or count and count <= SETS_STEPS * size),
    )


def sets(pool):
    """Checks the families of SETS and SPACED, and gives the rows of their table."""
    chosen = families.SETS + families.SPACED
    for family, found in zip(chosen, pool.map(of_sets, chosen)):
        name, cells = family.__name__, []
        bounds = OPEN.get((name, "check"), (None, None))
        for (each, good), what, most in zip(found, ("bytes of memory", "instructions"), bounds):
            said = f"{figure(each)} {what} for a byte of text"
            check(good, name, "check", said)
            if most:
                is_let_off = each is not None and each <= most
                CHECKS.check(is_let_off, f"{name}: check: {said}, more than {most}")
            cells.append(figure(each))
        yield f"| {ABOUT[family.__name__]} | " + " | ".join(cells) + " |"


def steps(pool):
    """Checks the families of STEPS."""

    def cost(family):
        return (
            instructions([PROGRAM, "check", file_of(family, "check", STEPS_LENGTH)[0]], SECONDS)
            if VALGRIND
            else 0
        )

    for family, found in zip(families.STEPS, pool.map(cost, families.STEPS)):
        good = found is not None and found <= STEPS_MOST[family.__name__]
        check(good, family.__name__, "check", f"{found} instructions for {STEPS_LENGTH} bytes")


def hidden(family):
    """How many divisions, allocations and steps that move bytes a check takes."""
    path, counts = f"{ROOM_FOR_FILES}/{family}.steps", Path(ROOM_FOR_FILES, f"{family}.counts")
    Path(path).write_bytes(text_of(getattr(families, family), HIDDEN_LENGTH))
    run(
        [
            VALGRIND,
            "--tool=callgrind",
            "--dump-instr=yes",
            "--compress-pos=no",
            "--compress-strings=no",
            f"--callgrind-out-file={counts}",
            PROGRAM,
            "check",
            path,
        ],
        timeout=20 * SECONDS,
    )
    divisions = allocations = moves = 0
    at, is_of_a_call = {}, False
    for line in counts.read_text(encoding="utf-8").splitlines():
        key, _, value = line.partition("=")
        if key in ("ob", "fn", "cfn"):
            at[key] = value
        elif key == "calls":
            is_of_a_call = True
            allocations += (
                int(value.split()[0]) if at["cfn"] in ("malloc", "calloc", "realloc") else 0
            )
        elif line.startswith("0x") and is_of_a_call:
            is_of_a_call = False
        elif line.startswith("0x"):
            place, _, times = line.split()
            is_division = Path(at["ob"]).name == Path(PROGRAM).name and int(place, 16) in DIVISIONS
            divisions += int(times) if is_division else 0
            moves += int(times) if MOVES.match(at["fn"]) else 0
    return divisions, allocations, moves


def hidden_costs(pool):
    """Checks what instructions hide."""
    for family, found in zip(HIDDEN_MOST, pool.map(hidden, HIDDEN_MOST)):
        for what, times, most in zip(
            ("divisions", "allocations", "steps that move bytes"), found, HIDDEN_MOST[family]
        ):
            check(times <= most, family, "check", f"{times} {what} for {HIDDEN_LENGTH} bytes")


def beyond():
    """A sentence that names what doesn't meet its bound yet."""
    named = [f"`{command}` of {ABOUT[name]}" for name, command in sorted(OPEN)]
    return ["", f'Not yet within these bounds: {"; ".join(named)}.'] if named else []


def table(first, second, third):
    return "\n".join(
        [
            MARKS[0],
            "| Texts | Command | Instructions for 4 times the text | Memory for 4 times the text |",
            "|---|---|---|---|",
            *first,
            "",
            "Bytes of memory for a byte of text, beside what an empty run has:",
            "",
            "| Texts | `check` | `show` | `tighten` |",
            "|---|---|---|---|",
            *second,
            "",
            f"The same, and instructions, for a byte of texts of about {SETS_LENGTH // 10**6} MB with large sets of assumptions:",
            "",
            "| Texts | Memory of `check` | Instructions |",
            "|---|---|---|",
            *third,
            *beyond(),
            MARKS[1],
        ]
    )


def long_texts(n):
    """Texts of which an explanation for people looks at much: some n items each, by their names."""
    head = "VER 1.0\nVAR {0}\n{1}\nINT 0\nOBJ min\n{0} {2}\nCON {3} 0\n{4}\nRTP {5}\nSOL {6}\n{7}DER {8}\n{9}"

    def text(claim, con=(), sol="", count=0, der=(), variables=n):
        names = " ".join(f"x{index}" for index in range(variables))
        row = " ".join(f"{index} 1" for index in range(variables))
        return head.format(
            variables,
            names,
            row,
            len(con),
            "\n".join(con),
            claim,
            count,
            sol,
            len(der),
            "\n".join(der),
        )

    assumed = [f"a{index} G 0 OBJ {{ asm }} -1" for index in range(n)]
    named = [f"c{index} G 0 0" for index in range(n)]
    chain = ["a G 0 OBJ { asm } -1"] + [
        f"d{index} G 0 OBJ {{ lin 1 {index} 1 }} {index + 2}" for index in range(n)
    ]
    yield "listed solutions and a long objective", text(
        "range -inf -2", sol="s 0\n" * (3 * n), count=3 * n
    )
    yield "many constraints near the claim", text("range 1 inf", der=assumed)
    yield "a chain near the claim", text("range 1 inf", der=chain, variables=1)
    yield "one index in a long sum", text(
        "infeas", con=named, variables=0, der=[f"d G 1 0 {{ lin {n} " + f"{n + 9} 1 " * n + "} -1"]
    )
    yield "a long token", "VER " + "1" * (8 * n)
    yield "a long line", "VER 1.0 VAR 1 " + "x " * (8 * n)
    ones = " ".join(f"{index} 1" for index in range(n - 1))
    objectives = ["c G 0 OBJ"] * (2 * n)
    yield "constraints with the objective's row, and a sum that nearly lacks it", text(
        "range -inf inf", con=objectives, der=[f"d G 0 {n} {ones} {n - 1} 2 {{ lin 0 }} -1"]
    )
    yield "constraints with the objective's row, and one that is nearly wanted", text(
        "range -inf inf",
        con=[f"b G 0 {n} {ones} {n - 1} 3", *objectives],
        der=[f"d G 1 {n} {ones} {n - 1} 2 {{ lin 1 0 1 }} -1"],
    )
    yield "constraints with the objective's row, and a join that nearly states it", text(
        "range -inf inf",
        con=objectives,
        der=[f"d G 1 {n} {ones} {n - 1} 2 {{ uns 0 1 2 3 }} -1"],
    )
    yield "a sum that lacks the row of many constraints", text(
        "range -inf inf",
        con=["z G 0 0"] + ["c G 0 1 0 1"] * n,
        variables=1,
        der=[f"d G 0 1 0 1 {{ lin {n}" + " 0 1" * n + " } -1"],
    )
    yield "a chain that rests on an assumption", text("range 0 inf", der=chain, variables=1)
    up, down = "u G 1 OBJ { asm } -1", "d L 0 OBJ { asm } -1"
    yield "joins that take away another assumption than the one that is left", text(
        "range 0 inf",
        der=["a G 1 OBJ { asm } -1", up, down]
        + ["j G 0 OBJ { uns 0 1 0 2 } -1"]
        + [f"j G 0 OBJ {{ uns {index + 3} 1 {index + 3} 2 }} -1" for index in range(n)],
        variables=0,
    )
    yield "branches that aren't joined", text(
        "range 1 inf",
        der=[up] * n + [down] * n + ["p G 1 OBJ { lin 1 0 1 } -1"] * n,
        variables=0,
    )
    yield "sums that state what is always true", text(
        "infeas", variables=0, der=["t G 0 0 { lin 1 0 1 } -1"] * (4 * n), con=["c G 0 0"]
    )
    yield "a constraint that is named late and often", text(
        "infeas",
        variables=0,
        con=["c G 0 0"],
        der=["d G 0 0 { lin 1 0 1 } 1", "e G 0 0 { lin 1 0 1 } 1"]
        + ["f G 0 0 { lin 1 0 1 } 1"] * n
        + [f"g G 0 0 {{ lin {n}" + " 1 1" * n + " } 1"],
    )
    yield "a join of derivations that come last", text(
        "infeas",
        variables=0,
        der=["f G 0 0 { lin 0 } -1"] * n
        + [f"u G 1 0 {{ uns {2 * n} {2 * n - 1} {2 * n - 2} {2 * n - 3} }} -1"]
        + ["f G 0 0 { lin 0 } -1"] * n,
    )
    yield "listed solutions, and a sum whose row is nearly the stated one", text(
        "range -inf inf",
        sol="s 0\n" * (3 * n),
        count=3 * n,
        con=["c G 0 OBJ"],
        der=[f"d G 0 {n} {ones} {n - 1} 2 {{ lin 1 0 1 }} -1"],
    )
    rising = " ".join(f"{index} {index + 1}" for index in range(n))
    listed = " ".join(f"{index} 1" for index in range(0, n, 2))
    yield "a listed solution of which many changes nearly do", text(
        f"range -inf {n}",
        con=[f"a G {n * n} {n} {rising}"]
        + [f"b G -1 1 {index} 1" for index in range(n)]
        + [f"c E {2 * n} OBJ"],
        sol=f"s {(n + 1) // 2} {listed}\n",
        count=1,
    )
    yield "a listed solution and constraints with the objective's row", text(
        "range -inf inf", con=["c G 1 OBJ"] * n, sol="s 0\n", count=1
    )
    yield "a count that is far too small", text("infeas", con=["c G 0 OBJ"] * n).replace(
        f"CON {n}", "CON 1"
    )
    yield "a sum that each other order of the constraints gives the stated row", text(
        "range -inf inf",
        con=["z G 0 0"] + ["c G 0 1 0 1"] * n,
        variables=1,
        der=["d G 5 1 0 2 { lin 2 0 1 1 1 } -1"],
    )
    rows = [
        " ".join(f"{index} {1 + (index + 1) * (at + 1) ** 2 % 97}" for index in range(n // 8))
        for at in range(12)
    ]
    yield "a sum whose multipliers are solved for", text(
        "range -inf inf",
        con=[f"c G 0 {n // 8} {row}" for row in rows],
        variables=n // 8,
        der=[f"d G 5 {n // 8} {rows[0]} {{ lin 12 {' '.join(f'{at} 1' for at in range(12))} }} -1"],
    )
    yield "a sum that lacks eight variables with many bounds", text(
        "range -inf inf",
        con=[f"c G 0 1 {index % 8} 1" for index in range(n)],
        variables=8,
        der=[f"d G 5 8 {' '.join(f'{index} 1' for index in range(8))} {{ lin 0 }} -1"],
    )
    sets = overlapping_sets(n)
    last = len(sets) - 1
    yield "the nearest constraints rest on overlapping sets", text(
        "infeas", variables=0, der=sets + [f"n G 1 0 {{ lin 2 {last} 1 0 1 }} -1"] * 3
    )
    yield "a join of overlapping sets", text(
        "infeas", variables=0, der=sets + [f"s G 5 0 {{ uns {last} 2 {last} 0 }} -1"]
    )


def overlapping_sets(n):
    """Derivations of an assumption, of a set, of n sets each of which has one index less, and of a sum of all of them."""
    count = 1_100 + n
    ders = ["g G 1 0 { asm } -1", "q G 0 0 { lin 1 0 1 } -1"]
    ders += ["a L 0 0 { asm } -1"] * count
    ders.append(
        f"t G 0 0 {{ lin {count} " + " ".join(f"{index + 2} -1" for index in range(count)) + " } -1"
    )
    level = [len(ders) - 1]
    for taken in range(n):
        ders.append(f"p G 0 0 {{ uns {level[-1]} {count + 1 - taken} 1 0 }} -1")
        level.append(len(ders) - 1)
    # (beside another set, since a set that is one list takes in those that it has)
    other, first = len(ders) + 1_100, len(ders)
    ders += ["b L 0 0 { asm } -1"] * 1_100
    ders.append(
        "o G 0 0 { lin 1100 " + " ".join(f"{first + at} -1" for at in range(1_100)) + " } -1"
    )
    ders += [f"u G 0 0 {{ lin 2 {other} 1 {index} 1 }} -1" for index in level]
    level = list(range(other + 1, len(ders)))
    while len(level) > 1:
        pairs = [level[start : start + 2] for start in range(0, len(level), 2)]
        level = list(range(len(ders), len(ders) + len(pairs)))
        ders += [
            f"s G 0 0 {{ lin {len(pair)} " + " ".join(f"{index} 1" for index in pair) + " } -1"
            for pair in pairs
        ]
    return ders


def counted(words):
    """How many instructions a run takes, whatever its answer; None if it doesn't end in time."""
    words = [VALGRIND, "--tool=callgrind", "--callgrind-out-file=/dev/null", PROGRAM, *words]
    found = re.search(rb"Collected : (\d+)", run(words, timeout=20 * SECONDS).stderr)
    return found and int(found[1])


def long_growth(task):
    """How much more instructions an explanation of four times the text costs, and how many times those of its check."""
    known = []
    for which, n in enumerate(task[1:]):
        name, text = list(long_texts(n))[task[0]]
        path = Path(ROOM_FOR_FILES, f"long.{task[0]}.{which}")
        path.write_text(text, encoding="utf-8")
        known.append((counted(["explain", "--long", path]), len(text)))
    (first, size), (second, larger) = known
    checked = counted(["check", path])
    if None in (first, second, checked):
        return name, None, None
    return name, second / first / (larger / size / 4), second / checked


def long_growths(pool):
    """Checks what `explain --long` costs."""
    names = [name for name, _ in long_texts(2)]
    tasks = [(number, *LONGER.get(name, (500, 2_000))) for number, name in enumerate(names)]
    for name, times, checks in pool.map(long_growth, tasks):
        check(times is not None, name, "explain --long", f"not explained within {SECONDS} seconds")
        check(
            (times or 0) <= GROWTH,
            name,
            "explain --long",
            f"{times or 0:.1f} times for 4 times the text",
        )
        check(
            (checks or 0) <= MOST_CHECKS,
            name,
            "explain --long",
            f"{checks or 0:.1f} times what the check takes",
        )


def main():
    if not VALGRIND:
        CHECKS.skip("valgrind", "no instructions are counted")
    elif not OBJDUMP:
        CHECKS.skip("objdump", "no divisions are counted")
    if not GNU_TIME:
        CHECKS.skip("GNU time", "no memory is measured")
    with ThreadPoolExecutor(os.cpu_count()) as pool:
        first = growths(pool)
        second = list(memory(pool)) if GNU_TIME else []
        third = list(sets(pool))
        steps(pool)
        if VALGRIND:
            long_growths(pool)
        if DIVISIONS:
            hidden_costs(pool)
    if WRITES:
        text = PAGE.read_text(encoding="utf-8")
        PAGE.write_text(replaced(text, MARKS, table(first, second, third)), encoding="utf-8")
    for name, command in sorted(OPEN.keys() - unmet):
        print(f"{name}: {command}: meets its bound, and is in OPEN")
    return CHECKS.end(f", {spent():.0f} seconds of processor time")


WRITES = "--write" in sys.argv
PROGRAM = program([word for word in sys.argv[1:] if word != "--write"])
ABOUT = described(families)
# where the program divides, and what moves bytes
DIVISIONS = (
    VALGRIND
    and OBJDUMP
    and {
        int(address, 16)
        for address in re.findall(
            rb"^ *([0-9a-f]+):\t.*\ti?div[bwlq]? ", run([OBJDUMP, "-d", PROGRAM]).stdout, re.M
        )
    }
)
MOVES = re.compile("_*mem(cpy|move|set)_")
EMPTY = GNU_TIME and peak([PROGRAM, "--version"], SECONDS)
with tempfile.TemporaryDirectory(prefix="vipr-costs-") as ROOM_FOR_FILES:
    STATUS = main()
sys.exit(STATUS)
