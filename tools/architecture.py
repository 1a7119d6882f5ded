"""docs/dev/architecture.svg, the life of a certificate and the graph of crates.txt by level, and
the same graph in words in docs/dev/ARCHITECTURE.md. tools/write_pages.py writes both."""
from html import escape

from sources import TOP, crates, levels, replaced

PICTURE, PAGE = TOP / "docs/dev/architecture.svg", TOP / "docs/dev/ARCHITECTURE.md"
GRAPH = (
    "<!-- crate graph: written by `tools/architecture.py` from crates.txt -->",
    "<!-- end of the crate graph -->",
)
LIFE = [
    ("bytes", "a file, or standard input", "vipr_bytes"),
    ("tokens", "each with its offset", "vipr_scan"),
    ("items", "problem, solutions, derivations", "vipr_read"),
    ("tests", "the first that fails stops", "vipr_rules, vipr_check"),
    ("verdict", "two lines, or one", "vipr_command"),
]
WIDTH, BOX, HIGH, STEP = 1000, 150, 34, 92
# what of a box's width an edge takes that passes a level, and how often the levels are put in order
PASSING, SWEEPS = 0.35, 24
STYLE = (
    "text{font:14px sans-serif;fill:#222}.s{font-size:11px;fill:#555}.h{font-weight:bold}"
    "rect{fill:#eef3fa;stroke:#345;rx:5}.d{fill:#f7f1e3}.g{fill:#fff;stroke:none;rx:0}path{stroke:#678;fill:none}"
)


def layers(level, direct):
    """The nodes of each level in their order, and of each edge its crate and the nodes on its way
    down. An edge that passes a level has a node of its own there, a pair of its ends and the level,
    so that it passes beside the boxes.
    """
    rows = [
        sorted(crate for crate in level if level[crate] == number)
        for number in range(max(level.values()) + 1)
    ]
    links = []
    for crate in sorted(direct):
        for dep in direct[crate]:
            passed = [(crate, dep, number) for number in range(level[crate] - 1, level[dep], -1)]
            for node in passed:
                rows[node[2]].append(node)
            links.append((crate, [*passed, dep]))
    near = {node: [] for row in rows for node in row}
    for crate, nodes in links:
        for above, node in zip([crate, *nodes], nodes):
            near[above].append(node)
            near[node].append(above)
    best = list(map(list, rows))
    for number in range(SWEEPS):
        for row in rows[::-1] if number % 2 else rows:
            x = {node: at for other in rows for node, at in placed(other)}
            middle = {node: mean([x[other] for other in near[node]] or [x[node]]) for node in row}
            row.sort(key=lambda node: (middle[node], str(node)))
        if crossings(rows, links) < crossings(best, links):
            best = list(map(list, rows))
    return best, links


def mean(numbers):
    return sum(numbers) / len(numbers)


def placed(row):
    """Each node of a level with its place from the left: boxes share the width, passing edges take
    a little of it."""
    shares = [1 if isinstance(node, str) else PASSING for node in row]
    at = 0
    for node, share in zip(row, shares):
        yield node, WIDTH * (at + share / 2) / sum(shares)
        at += share


def crossings(rows, links):
    """How many pairs of edges between two levels cross."""
    x = {node: at for row in rows for node, at in placed(row)}
    of_level = {node: number for number, row in enumerate(rows) for node in row}
    steps = [
        (of_level[above], x[above], x[node])
        for crate, nodes in links
        for above, node in zip([crate, *nodes], nodes)
    ]
    return sum(
        one[0] == other[0] and (one[1] - other[1]) * (one[2] - other[2]) < 0
        for number, one in enumerate(steps)
        for other in steps[:number]
    )


def classed(kind):
    return f' class="{kind}"' if kind else ""


def text(x, y, words, kind=""):
    return (
        f'<text x="{x:.0f}" y="{y:.0f}" text-anchor="middle"{classed(kind)}>{escape(words)}</text>'
    )


def box(x, y, wide, kind=""):
    return (
        f'<rect x="{x - wide / 2:.0f}" y="{y:.0f}" width="{wide}" height="{HIGH}"{classed(kind)}/>'
    )


def picture():
    level, direct = levels()
    top = max(level.values())
    graph = 150
    high = graph + top * STEP + HIGH + 20
    out = [
        f'<svg xmlns="http://www.w3.org/2000/svg" viewBox="0 0 {WIDTH} {high}" role="img">',
        "<title>The life of a certificate, and the crates by level</title>",
        f"<style>{STYLE}</style>",
        '<defs><marker id="a" markerWidth="8" markerHeight="8" refX="7" refY="3" orient="auto">'
        '<path d="M0,0 L7,3 L0,6" style="fill:#678"/></marker></defs>',
        # a ground of its own, so that a dark page doesn't hide the words
        '<rect class="g" width="100%" height="100%"/>',
    ]
    wide = WIDTH / len(LIFE)
    for number, (what, how, where) in enumerate(LIFE):
        x = wide * (number + 0.5)
        out += [
            box(x, 20, BOX, "d"),
            text(x, 42, what, "h"),
            text(x, 72, how, "s"),
            text(x, 88, where, "s"),
        ]
        if number:
            out.append(
                f'<path d="M{x - wide + BOX / 2 + 4:.0f},37 L{x - BOX / 2 - 4:.0f},37" marker-end="url(#a)"/>'
            )
    rows, links = layers(level, direct)
    place = {
        node: (x, graph + (top - number) * STEP)
        for number, row in enumerate(rows)
        for node, x in placed(row)
    }
    for crate, nodes in links:
        path = [f"M{place[crate][0]:.0f},{place[crate][1] + HIGH:.0f}"]
        for above, node in zip([crate, *nodes], nodes):
            (x, y), (to_x, to_y) = place[above], place[node]
            end = to_y - 2 if node in level else to_y
            middle = (y + HIGH + to_y) / 2
            path.append(f"C{x:.0f},{middle:.0f} {to_x:.0f},{middle:.0f} {to_x:.0f},{end:.0f}")
            if node not in level:
                path.append(f"L{to_x:.0f},{to_y + HIGH:.0f}")
        out.append(f'<path d="{" ".join(path)}" marker-end="url(#a)"/>')
    for crate, (x, y) in sorted((node, place[node]) for node in level):
        out += [box(x, y, BOX), text(x, y + 22, crate)]
    return "\n".join(out + ["</svg>"]) + "\n"


def graph():
    """The graph as the page has it: by level, each crate with the crates directly below it."""
    deps, (level, direct) = crates(), levels()
    width, rows = max(map(len, deps)), []
    for crate in sorted(deps, key=lambda crate: (level[crate], crate)):
        kit = "".join(f" {dep}" for dep in deps[crate] if dep not in deps)
        row = f'{level[crate]}  {crate.ljust(width)}  {" ".join(sorted(direct[crate]))}{kit and " +" + kit}'
        rows.append(row.rstrip())
    return "\n".join([GRAPH[0], "```text", *rows, "```", GRAPH[1]])


def made():
    """The picture and the page, by their paths."""
    return {PICTURE: picture(), PAGE: replaced(PAGE.read_text(), GRAPH, graph())}
