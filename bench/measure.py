#!/usr/bin/env python3
"""Times the program over the families of families.py, in one interleaved run.

usage: measure.py [--program PATH] [--bytes N] [--runs N] [--against NAME=COMMAND].. [--growth]
                  [--hostile] [--page] [--picture] [--python]

Each round runs every program once on every family: `check`, `show` and `tighten` where the program
has it, `wc -w` and `cat` on the same file, and what --against names, whose words get the file's
path after them. All runs are on one core. Of the rounds the least processor time counts, and the
greatest peak of memory. Prints MB/s, and memory in MB. --growth measures texts of 1, 2 and 4 times
the size: how time and memory grow. --hostile takes the families that are made to cost more than
their length. --page measures all of it, and bench/gmp_check.cpp beside it, for which it needs g++
and GMP with its header gmpxx.h, and writes docs/BENCHMARKS.md with its picture. --picture measures
nothing, and draws the page's table anew. --python measures the Python commands, now and at an
earlier commit, on texts of half the size, and writes their part of the page; --page does, too. The
part on cost against size is written by cost_by_size.py, and stays.
"""
import argparse
import datetime
import math
import os
import re
import shutil
import subprocess
import sys
import tempfile
from pathlib import Path

import families
import models

TOP = Path(__file__).resolve().parent.parent
GNU_TIME = shutil.which("time")
DOCS = TOP / "docs"
# a row of the page's table of two checkers: the family, MB in a second of each, and how many times
# the time the other takes
BESIDE = re.compile(r"^\| (\w+) \| (\d+), [\d.]+ \| (\d+), [\d.]+ \| ([\d.]+) \| [\d.]+ \|$", re.M)
# the commands of the package that read whole proofs, and the families of texts that they are
# measured on
TOOLS, TOOL_FAMILIES = ("stats", "picture", "html"), ("chain", "cuts", "tree", "wide")
# the model that vipr-compare-mps is measured on, and the commit whose package is measured beside
# today's
COLUMNS, EACH, BEFORE = 100_000, 10, "98e48f7d"
PYTHON_HEAD = "## Python commands\n"
PYTHON_PART = re.compile(f"{PYTHON_HEAD}.*", re.S)
# the part of the page that cost_by_size.py writes
SIZES_PART = re.compile(f"## Cost against size\n.*?(?={PYTHON_HEAD})", re.S)
COLORS = ("vipr check", "#4878a8"), ("gmp_check", "#d8923c")


def started(words, stdin=None):
    """A program whose processor time and memory are measured.

    GNU time starts it, since the peak that a process inherits from Python would hide a small one.
    """
    time = [GNU_TIME, "-o", "/dev/stderr", "-f", "%M"] if GNU_TIME else []
    return subprocess.Popen(
        [*time, *words], stdin=stdin, stdout=subprocess.DEVNULL, stderr=subprocess.PIPE
    )


def ended(child, what):
    """Processor seconds and peak memory in MB of what was started."""
    said = child.stderr.read()
    _, status, usage = os.wait4(child.pid, 0)
    child.returncode = os.waitstatus_to_exitcode(status)
    if child.returncode:
        sys.exit(f"{what}: status {child.returncode}")
    peak = int(said.split()[-1]) if GNU_TIME else usage.ru_maxrss
    return usage.ru_utime + usage.ru_stime, peak / 1024


def once(words, path):
    """Processor seconds and peak memory in MB of a program over a file."""
    return ended(started([*words, str(path)]), f'{" ".join(words)} {path}')


def measured(programs, paths, runs):
    """(program, path) -> (least seconds, greatest memory), by rounds over all of them."""
    found = {}
    for _ in range(runs):
        for path in paths:
            for name, words in programs.items():
                seconds, memory = once(words, path)
                before = found.get((name, path), (seconds, memory))
                found[name, path] = min(seconds, before[0]), max(memory, before[1])
    return found


def table(programs, paths, found):
    names = list(programs)
    yield "| family | MB | " + " | ".join(f"{n}: MB/s, MB" for n in names) + " |"
    yield "|---|---|" + "---|" * len(names)
    for path in paths:
        size = path.stat().st_size / 1e6
        cells = []
        for name in names:
            seconds, memory = found[name, path]
            cells.append(f"{size / max(seconds, 0.001):.0f}, {memory:.1f}")
        yield f"| {path.stem} | {size:.1f} | " + " | ".join(cells) + " |"


def picture(page):
    """The page's table of two checkers, drawn: a pair of bars for each family, and how many times
    the time the second takes."""
    rows = [
        (name, int(ours), int(theirs), times) for name, ours, theirs, times in BESIDE.findall(page)
    ]
    most = max(speed for row in rows for speed in row[1:3])
    lines = [
        f'<svg xmlns="http://www.w3.org/2000/svg" width="640" height="{60 + 44 * len(rows)}"'
        ' font-family="sans-serif" font-size="13">',
        '<rect width="100%" height="100%" fill="white"/>',
        '<text x="12" y="20">MB of certificate in a second of processor time</text>',
    ]
    for at, (name, color) in enumerate(COLORS):
        lines += [
            f'<rect x="{100 + 120 * at}" y="30" width="12" height="12" fill="{color}"/>',
            f'<text x="{118 + 120 * at}" y="41">{name}</text>',
        ]
    for number, (name, *speeds, times) in enumerate(rows):
        top = 54 + 44 * number
        lines.append(f'<text x="12" y="{top + 22}">{name}</text>')
        for at, (speed, words) in enumerate(
            zip(speeds, (f"{speeds[0]}", f"{speeds[1]}: {times} times the time"))
        ):
            width = 400 * speed / most
            lines.append(
                f'<rect x="100" y="{top + 17 * at}" width="{width:.0f}" height="15" fill="{COLORS[at][1]}"/>'
            )
            lines.append(f'<text x="{106 + width:.0f}" y="{top + 12 + 17 * at}">{words}</text>')
    return "\n".join([*lines, "</svg>", ""])


def growth(check, runs, size, which):
    """How time and memory of `check` grow with the text."""
    yield "| family | time at 2 and 4 times the text | memory at 2 and 4 times the text |"
    yield "|---|---|---|"
    with tempfile.TemporaryDirectory() as folder:
        paths = {}
        for times in (1, 2, 4):
            os.mkdir(f"{folder}/{times}")
            families.make(f"{folder}/{times}", size * times, which)
            for path in sorted(Path(folder, str(times)).iterdir()):
                paths[path.stem, times] = path
        found = measured({"check": check}, list(paths.values()), runs)
        for name in sorted({name for name, _ in paths}):
            base = found["check", paths[name, 1]]
            ratios = [
                [found["check", paths[name, t]][k] / max(base[k], 0.001) for t in (2, 4)]
                for k in (0, 1)
            ]
            yield f"| {name} | " + " | ".join(f"{a:.1f}, {b:.1f}" for a, b in ratios) + " |"


def beside(paths, found):
    """Rows of a table that sets gmp_check beside `check`, and the geometric means of its last two
    columns."""
    rows = [
        "| family | check: MB/s, MB | gmp_check: MB/s, MB | time | memory |",
        "|---|---|---|---|---|",
    ]
    ratios = []
    for path in paths:
        size = path.stat().st_size / 1e6
        (ours, our_peak), (theirs, their_peak) = found["check", path], found["gmp_check", path]
        ratios.append((theirs / max(ours, 0.001), their_peak / our_peak))
        rows.append(
            f"| {path.stem} | {size / max(ours, 0.001):.0f}, {our_peak:.1f} | {size / max(theirs, 0.001):.0f}, "
            f"{their_peak:.1f} | {ratios[-1][0]:.1f} | {ratios[-1][1]:.1f} |"
        )
    times, memories = (math.prod(column) ** (1 / len(ratios)) for column in zip(*ratios))
    return "\n".join(rows), times, memories


def machine():
    """The processor and the system, in a few words."""
    found = re.search(
        r"^model name\s*:\s*(.*)$", Path("/proc/cpuinfo").read_text(encoding="utf-8"), re.M
    )
    name = found[1] if found else "a processor that gives no name"
    return f"{name}, {os.cpu_count()} processors, {os.uname().sysname} {os.uname().release}"


PAGE = """# Benchmarks

What `vipr` takes on this date and machine: {date}, {machine}. The page and its picture are written by `bench/measure.py --page`; `make bench` prints the first table.

## Throughput

![MB of certificate in a second of processor time, by family, of vipr check and of another checker](benchmarks.svg)

The picture is drawn from the [last table](#beside-another-checker). Each family of `bench/families.py` is one certificate of about {size} MB. A cell has the MB of text in a second of processor time, and the peak of memory in MB. `wc -w` and `cat` read the same files.

{table}

Method: each round runs every program once on every file, so that a slow moment of the machine meets all of them. All runs are on one core. The least processor time of {runs} rounds counts, and the greatest memory. Nothing here is proved, and no test is timed.

## How cost grows

Texts of 1, 2 and 4 times {small} MB, and how much more the larger ones cost `check`.

{growth}

The same for families that are made to cost more than their length ([SECURITY.md](SECURITY.md#what-bounds-memory-and-time) says what bounds them), from {least} MB on.

{hostile}

## Beside another checker

`bench/gmp_check.cpp` is a checker as one writes it with the tools at hand: C++, tokens by a stream, GMP's rationals, rows that constraints share. Nothing of it is proved, and its numbers have no bound. It was measured in the same rounds, and accepts the same files. Anyone can build it:

```sh
g++ -std=c++17 -O2 bench/gmp_check.cpp -o gmp_check -lgmpxx -lgmp
./gmp_check examples/branch_and_bound.vipr
```

The last two columns say how many times the processor time and the memory of `vipr check` it takes.

{beside}

On average, by the geometric mean, it takes {times:.1f} times the time and {memories:.1f} times the memory.

{sizes}{python}"""
PYTHON_TEXT = """## Python commands

The [commands](USE.md#the-commands-beside-the-program) that read a whole proof, on {day}: seconds of processor time and MB of memory for each MB of text, beside the {start} s and {room} MB that a command takes to start. Columns `before` are of the package at commit {before}, whose commands kept all that they read. They were measured in the same rounds. `bench/measure.py --python` writes this part. Other programs kept the machine busy.

{table}

`vipr-compare-mps` on a model of `bench/models.py` with {columns:,} columns and {entries:,} entries, all in all:

{comparison}
"""


def command_of(package, name):
    """The words that run a command of the package in a folder."""
    settings = [f"PYTHONPATH={package}", "PYTHONDONTWRITEBYTECODE=1"]
    return ["env", *settings, sys.executable, "-m", f"vipr.{name}"]


def unpack_before(folder):
    """Unpacks the package as it was at the commit BEFORE."""
    words = ["git", "-C", str(TOP), "archive", BEFORE, "python"]
    archive = subprocess.run(words, stdout=subprocess.PIPE, check=True).stdout
    subprocess.run(["tar", "x", "-C", folder], input=archive, check=True)
    return Path(folder, "python")


def python_part(size, runs):
    """The part of the page on the Python commands: processor time and memory for each MB of
    text."""
    with tempfile.TemporaryDirectory() as folder, tempfile.TemporaryDirectory() as old:
        families.make(
            folder,
            size,
            [family for family in families.FAMILIES if family.__name__ in TOOL_FAMILIES],
        )
        paths = sorted(Path(folder).iterdir())
        packages = {"": TOP / "python", " before": unpack_before(old)}
        programs = {
            f"{name}{when}": command_of(package, name)
            for name in TOOLS
            for when, package in packages.items()
        }
        found = measured(programs, paths, runs)
        starts = {
            name: min(once([*words, "--help"], "") for _ in range(runs))
            for name, words in programs.items()
        }
        table_rows = "\n".join(for_each_megabyte(programs, paths, found, starts))
        comparison = "\n".join(compared(packages, old, runs))
    start = max(starts[name] for name in TOOLS)
    return PYTHON_TEXT.format(
        table=table_rows,
        comparison=comparison,
        columns=COLUMNS,
        entries=COLUMNS * EACH,
        start=f"{start[0]:.2f}",
        room=f"{start[1]:.0f}",
        before=BEFORE,
        day=datetime.date.today(),
    )


def for_each_megabyte(programs, paths, found, starts):
    """The rows of the table: seconds and MB for each MB of text, beside what a program takes to
    start."""
    titles = [
        "before" if name.endswith(" before") else f"vipr-{name}: s/MB, MB/MB" for name in programs
    ]
    yield "| family | MB | " + " | ".join(titles) + " |"
    yield "|---|---|" + "---|" * len(titles)
    for path in paths:
        megabytes = path.stat().st_size / 1e6
        cells = []
        for name in programs:
            seconds, room = (
                (all_of - start) / megabytes
                for all_of, start in zip(found[name, path], starts[name])
            )
            cells.append(f"{seconds:.2f}, {max(room, 0):.1f}")
        yield f"| {path.stem} | {megabytes:.1f} | " + " | ".join(cells) + " |"


def compared(packages, folder, runs):
    """The rows of the table of vipr-compare-mps: seconds and MB of one large model, now and
    before."""
    model, certificate = Path(folder, "model.mps"), Path(folder, "model.vipr")
    models.write(model, certificate, COLUMNS, COLUMNS // 2, EACH)
    programs = {
        when: [*command_of(package, "compare_mps"), str(model)]
        for when, package in packages.items()
    }
    found = measured(programs, [certificate], runs)
    yield "| s | MB | s before | MB before |"
    yield "|---|---|---|---|"
    cells = [f"{seconds:.1f} | {room:.0f}" for seconds, room in found.values()]
    yield f"| {' | '.join(cells)} |"


def built(folder):
    """The path of bench/gmp_check.cpp built in a folder."""
    other = f"{folder}/gmp_check"
    source = str(TOP / "bench/gmp_check.cpp")
    subprocess.run(
        ["g++", "-std=c++17", "-O2", source, "-o", other, "-lgmpxx", "-lgmp"], check=True
    )
    return other


def page(given, programs):
    """Measures all of it, and writes the page and its picture. The part that cost_by_size.py writes
    stays."""
    sizes = SIZES_PART.search((DOCS / "BENCHMARKS.md").read_text(encoding="utf-8"))
    with tempfile.TemporaryDirectory() as folder, tempfile.TemporaryDirectory() as build:
        other = built(build)
        families.make(folder, given.bytes)
        paths = sorted(Path(folder).iterdir())
        found = measured(programs | {"gmp_check": [other]}, paths, given.runs)
        throughput = "\n".join(table(programs, paths, found))
        others, times, memories = beside(paths, found)
    check, small, least = [given.program, "check"], given.bytes // 4, given.bytes // 16
    (DOCS / "BENCHMARKS.md").write_text(
        PAGE.format(
            date=datetime.date.today(),
            machine=machine(),
            size=f"{given.bytes / 1e6:g}",
            runs=given.runs,
            small=f"{small / 1e6:g}",
            least=f"{least / 1e6:g}",
            table=throughput,
            beside=others,
            times=times,
            memories=memories,
            sizes=sizes[0] if sizes else "",
            python=python_part(given.bytes // 2, given.runs),
            growth="\n".join(growth(check, given.runs, small, families.FAMILIES)),
            hostile="\n".join(growth(check, given.runs, least, families.HOSTILE)),
        ),
        encoding="utf-8",
    )
    draw()


def draw():
    """Writes the page's picture."""
    (DOCS / "benchmarks.svg").write_text(
        picture((DOCS / "BENCHMARKS.md").read_text(encoding="utf-8")), encoding="utf-8"
    )


def main():
    words = argparse.ArgumentParser(description=__doc__.split("\n", maxsplit=1)[0])
    words.add_argument("--program", default=str(TOP / "crates/vipr/out/vipr"))
    words.add_argument("--bytes", type=int, default=4_000_000)
    words.add_argument("--runs", type=int, default=3)
    words.add_argument("--against", action="append", default=[])
    words.add_argument("--growth", action="store_true")
    words.add_argument("--hostile", action="store_true")
    words.add_argument("--page", action="store_true")
    words.add_argument("--picture", action="store_true")
    words.add_argument("--python", action="store_true")
    given = words.parse_args()
    if given.picture:
        draw()
        return
    if given.python:
        path, part = DOCS / "BENCHMARKS.md", python_part(given.bytes // 2, given.runs)
        text = path.read_text(encoding="utf-8")
        path.write_text(
            PYTHON_PART.sub(lambda _: part, text)
            if PYTHON_PART.search(text)
            else f"{text}\n{part}",
            encoding="utf-8",
        )
        return
    os.sched_setaffinity(0, {max(os.sched_getaffinity(0))})
    which = families.HOSTILE if given.hostile else families.FAMILIES
    commands = subprocess.run(
        [given.program, "--help"], capture_output=True, text=True, check=True
    ).stdout
    programs = {
        name: [given.program, name]
        for name in ("check", "show", "tighten")
        if f"\n  {name} " in commands
    }
    programs |= {"wc -w": ["wc", "-w"], "cat": ["cat"]}
    programs |= {
        name: command.split() for name, command in (named.split("=", 1) for named in given.against)
    }
    if given.page:
        page(given, programs)
        return
    if given.growth:
        for line in growth([given.program, "check"], given.runs, given.bytes, which):
            print(line)
        return
    with tempfile.TemporaryDirectory() as folder:
        families.make(folder, given.bytes, which)
        paths = sorted(Path(folder).iterdir())
        found = measured(programs, paths, given.runs)
        for line in table(programs, paths, found):
            print(line)


if __name__ == "__main__":
    main()
