#!/usr/bin/env python3
"""Cost against size: processor time and memory of `check` over texts of 1 MB to 1 GB.

usage: cost_by_size.py [--program PATH] [--against NAME=COMMAND].. [--sizes MB ..] [--runs N] [--room MB] [--seconds S]
                       [--page [--about TEXT]] [--picture]

A text is made while it is read, and comes through a pipe, so no file of that size is needed. It is
of a family of families.py: `chain`, one derivation held at a time; `fractions`, sums of a hundred
rows; and `held`, all derivations held to the end. Each round runs every program once on each text:
`check`, and what --against names, which reads standard input. Of the rounds the least processor
time counts, and the greatest peak of memory; a text of more than 64 MB is read once. A program gets
no text of a family for which it may need more memory than --room (4,000 MB without it), or more
time than --seconds (60). Prints MB of text, seconds and MB of memory. --page measures
bench/gmp_check.cpp, too, and writes a part of docs/BENCHMARKS.md with its picture; --about gives
what this part says of the programs of --against. --picture measures nothing, and draws the page's
table anew.
"""
import argparse
import datetime
import math
import re
import subprocess
import tempfile
from collections import namedtuple

import families
import measure

FAMILIES = [families.chain, families.fractions, families.held]
COLORS = ["#4878a8", "#d8923c", "#5a9a5a", "#a85878"]
DASHES = ["none", "6 4", "2 4"]
# a shorter time isn't told from this one
LEAST = 0.001
# a longer text is read once, in MB
LONG = 64
# a program over a text: MB of the text, seconds of processor time, and MB of memory
Cost = namedtuple("Cost", "size seconds memory")
# the table of the page: its programs, and its rows
TABLE = re.compile(r"^\| family \| MB \| (.*: s, MB) \|\n\|[-|]+\|\n((?:\|.*\|\n)*)", re.M)
PICTURE = measure.DOCS / "cost_by_size.svg"
PAGE_PART = """## Cost against size

![Seconds of processor time and MB of memory against MB of text, of vipr check and of gmp_check](cost_by_size.svg)

On {day}: seconds of processor time, and the peak of memory in MB, for texts of three families. In `chain` one derivation is held at a time, in `fractions` each sum is dropped at once, and in `held` all derivations are held to the end. A text is read from a pipe while it is made. A program has no cell for a text that may take more than {seconds:g} s or {room:g} MB. `bench/cost_by_size.py --page` writes this part and draws the picture.{about}

{table}

"""


def once(words, family, size):
    """What a program takes for a text of a family, of about so many MB."""
    child = measure.started(words, subprocess.PIPE)
    written = 0
    try:
        with child.stdin as pipe:
            for line in family(int(size * 1e6)):
                written += pipe.write(f"{line}\n".encode())
    except BrokenPipeError:
        pass
    seconds, memory = measure.ended(child, f'{" ".join(words)}: {family.__name__}, {size:g} MB')
    return Cost(written / 1e6, seconds, memory)


def least(costs):
    """Of several rounds the least time and the greatest memory."""
    return Cost(
        costs[0].size, min(cost.seconds for cost in costs), max(cost.memory for cost in costs)
    )


def goes_on(cost, size, given):
    """Whether a program gets a text of so many MB, after what a shorter one took."""
    times = size / cost.size
    return cost.memory * times <= given.room and cost.seconds * times <= given.seconds


def measured(programs, given):
    """For each family and each size the costs of the programs."""
    for family in FAMILIES:
        costs = {}
        for size in sorted(given.sizes):
            going = {
                name: words
                for name, words in programs.items()
                if size == min(given.sizes) or name in costs and goes_on(costs[name], size, given)
            }
            if not going:
                break
            rounds = [
                [once(words, family, size) for words in going.values()]
                for _ in range(1 if size > LONG else given.runs)
            ]
            costs = dict(zip(going, (least(of_program) for of_program in zip(*rounds))))
            yield family.__name__, costs


def table(names, rows):
    """The lines of the table, one by one."""
    yield "| family | MB | " + " | ".join(f"{name}: s, MB" for name in names) + " |"
    yield "|---|---|" + "---|" * len(names)
    for family, costs in rows:
        cells = [
            f"{costs[name].seconds:.3f}, {costs[name].memory:.1f}" if name in costs else "-"
            for name in names
        ]
        size = next(iter(costs.values())).size
        yield f"| {family} | {size:.1f} | {' | '.join(cells)} |"


def rows_of(page):
    """The rows of the page's table, nothing if it has none."""
    found = TABLE.search(page)
    if not found:
        return []
    names = re.findall(r"(\S+): s, MB", found[1])
    rows = []
    for row in found[2].splitlines():
        family, size, *cells = row.strip("| ").split(" | ")
        costs = {
            name: Cost(float(size), *map(float, cell.split(", ")))
            for name, cell in zip(names, cells)
            if cell != "-"
        }
        rows.append((family, costs))
    return rows


class Panel:
    """A part of the picture: a measure of the programs against the size of the text."""

    WIDTH, HEIGHT = 300, 300

    def __init__(self, left, title, sizes, values):
        self.left, self.title = left, title
        self.sizes = self.scale(sizes, 2)
        self.values = self.scale(values, 10)

    @staticmethod
    def scale(numbers, base):
        """The powers of the base from below the least number to above the greatest one."""
        first = math.floor(math.log(min(numbers), base))
        last = max(first + 1, math.ceil(math.log(max(numbers), base)))
        return [float(base) ** exponent for exponent in range(first, last + 1)]

    @staticmethod
    def part(number, scale):
        """Where a number is between the ends of a scale, from 0 to 1."""
        return math.log(number / scale[0]) / math.log(scale[-1] / scale[0])

    def x(self, size):
        return self.left + self.WIDTH * self.part(size, self.sizes)

    def y(self, value):
        return 40 + self.HEIGHT * (1 - self.part(value, self.values))

    def frame(self):
        """The title, and a line with its number for each power."""
        bottom = 40 + self.HEIGHT
        yield f'<text x="{self.left}" y="24">{self.title}</text>'
        for size in self.sizes:
            yield line((self.x(size), 40), (self.x(size), bottom), "#ddd")
            if math.log2(size) % 2 == 0:
                yield f'<text x="{self.x(size) - 8:.0f}" y="{bottom + 18}">{size:g}</text>'
        for value in self.values:
            yield line((self.left, self.y(value)), (self.left + self.WIDTH, self.y(value)), "#ddd")
            yield f'<text x="{self.left - 48}" y="{self.y(value) + 4:.0f}">{value:g}</text>'

    def curve(self, points, color, dash):
        places = " ".join(f"{self.x(size):.1f},{self.y(value):.1f}" for size, value in points)
        return (
            f'<polyline points="{places}" fill="none" stroke="{color}" stroke-width="2" '
            f'stroke-dasharray="{dash}"/>'
        )


def line(start, end, color, dash="none"):
    (x1, y1), (x2, y2) = start, end
    return (
        f'<line x1="{x1:.1f}" y1="{y1:.1f}" x2="{x2:.1f}" y2="{y2:.1f}" '
        f'stroke="{color}" stroke-dasharray="{dash}"/>'
    )


def picture(page):
    """The page's table as an SVG: time and memory against the size of the text, a color for a
    program and a dash for a family."""
    rows = rows_of(page)
    if not rows:
        return ""
    curves = {}
    for family, costs in rows:
        for program, cost in costs.items():
            # (a time of 0 has no logarithm)
            cost = cost._replace(seconds=max(cost.seconds, LEAST))
            curves.setdefault((program, family), []).append(cost)
    every = [cost for costs in curves.values() for cost in costs]
    programs = list(dict.fromkeys(program for program, _ in curves))
    names = list(dict.fromkeys(name for _, name in curves))
    sizes = [cost.size for cost in every]
    time = Panel(70, "seconds of processor time", sizes, [cost.seconds for cost in every])
    memory = Panel(450, "MB of memory", sizes, [cost.memory for cost in every])
    lines = [
        '<svg xmlns="http://www.w3.org/2000/svg" width="900" height="390"'
        ' font-family="sans-serif" font-size="13">',
        '<rect width="100%" height="100%" fill="white"/>',
        *time.frame(),
        *memory.frame(),
        '<text x="370" y="382">MB of text</text>',
    ]
    for (program, name), costs in curves.items():
        look = COLORS[programs.index(program) % len(COLORS)], DASHES[names.index(name)]
        lines.append(time.curve([(cost.size, cost.seconds) for cost in costs], *look))
        lines.append(memory.curve([(cost.size, cost.memory) for cost in costs], *look))
    looks = [(program, COLORS[at % len(COLORS)], "none") for at, program in enumerate(programs)]
    looks += [(name, "black", DASHES[at]) for at, name in enumerate(names)]
    for at, (name, color, dash) in enumerate(looks):
        top = 60 + 20 * at
        lines.append(line((770, top), (800, top), color, dash))
        lines.append(f'<text x="806" y="{top + 4}">{name}</text>')
    return "\n".join([*lines, "</svg>", ""])


def write_page(given, programs):
    """Measures, and writes the part of the page and its picture."""
    with tempfile.TemporaryDirectory() as folder:
        programs = {"check": programs["check"], "gmp_check": [measure.built(folder)], **programs}
        lines = list(table(programs, measured(programs, given)))
    part = PAGE_PART.format(
        day=datetime.date.today(),
        seconds=given.seconds,
        room=given.room,
        about=f" {given.about}" if given.about else "",
        table="\n".join(lines),
    )
    path = measure.DOCS / "BENCHMARKS.md"
    front, _, back = measure.SIZES_PART.sub("", path.read_text(encoding="utf-8")).partition(
        measure.PYTHON_HEAD
    )
    path.write_text(f"{front}{part}{measure.PYTHON_HEAD}{back}", encoding="utf-8")
    draw()


def draw():
    """Writes the page's picture."""
    page = (measure.DOCS / "BENCHMARKS.md").read_text(encoding="utf-8")
    PICTURE.write_text(picture(page), encoding="utf-8")


def main():
    words = argparse.ArgumentParser(description=__doc__.split("\n", maxsplit=1)[0])
    words.add_argument("--program", default=str(measure.TOP / "crates/vipr/out/vipr"))
    words.add_argument("--against", action="append", default=[])
    words.add_argument("--sizes", type=float, nargs="+", default=[1, 4, 16, 64, 256, 1024])
    words.add_argument("--runs", type=int, default=3)
    words.add_argument("--room", type=float, default=4000)
    words.add_argument("--seconds", type=float, default=60)
    words.add_argument("--page", action="store_true")
    words.add_argument("--about")
    words.add_argument("--picture", action="store_true")
    given = words.parse_args()
    programs = {"check": [given.program, "check"]}
    for named in given.against:
        name, _, command = named.partition("=")
        programs[name] = command.split()
    if given.picture:
        draw()
    elif given.page:
        write_page(given, programs)
    else:
        for row in table(programs, measured(programs, given)):
            print(row, flush=True)


if __name__ == "__main__":
    main()
