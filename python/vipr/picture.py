"""Draws the proof of a certificate as SVG: a box for each derivation, and an arrow to each
derivation that it names.

A box has the constraint in algebra, its reason, and the assumptions that it rests on. Assumptions
are dashed. The goal, the constraint that proves the claim's dual side, has a thick border, and what
it doesn't need is grey. The problem's constraints are listed beside the tree, and named in boxes by
their index.

A certificate with many derivations is drawn as its tree of `uns`: a box for each split, with the
assumptions at its branches and how many derivations are below it. The largest splits are opened, as
many as --splits says.

Nothing is checked here, and nothing proves the picture: check the certificate by `vipr check`.

The exit status is 0, 1 if the text is no certificate, 2 if the command line isn't understood, and 3
if a file can't be read or written.
"""
from __future__ import annotations

import argparse
import heapq
import sys
from array import array
from collections import Counter
from dataclasses import dataclass, field
from html import escape
from itertools import chain, islice
from pathlib import Path
from typing import Dict, Iterable, List, Optional, Tuple

from . import proof as structure
from .algebra import SIGNS, constraint_text, row_text, terms
from .certificate import STEP, Certificate, Constraint, Progress, read
from .files import REFUSED, VERIFIED, Alive, Parser, keep_apart, number, printable, read_file, run

MOST_BOXES, MOST_SPLITS = 300, 40
CHARACTER, LINE, PADDING = (
    7.3,
    16,
    9,
)  # the width of a character, the height of a line, the edge of a box
ACROSS, DOWN, MARGIN = 26, 46, 24  # between boxes, between layers, around all
MOST_CHARACTERS, MOST_LISTED, MOST_TERMS = 32, 40, 12
STYLE = """
text { font: 12px ui-monospace, Menlo, Consolas, "DejaVu Sans Mono", monospace; fill: #1d2733; white-space: pre; }
.head { font-weight: bold; } .small { fill: #5a6675; } .title { font-size: 14px; font-weight: bold; }
rect { fill: #fff; stroke: #5a6b7d; } .page { stroke: none; }
.asm rect { fill: #fff8e6; stroke: #a8842c; stroke-dasharray: 6 4; }
.rnd rect { fill: #eef7ea; } .uns rect { fill: #e9f1fc; } .sol rect { fill: #f5edfa; }
.goal rect { stroke: #0a7d32; stroke-width: 3; }
.spare rect { fill: #f5f5f5; stroke: #c4c4c4; } .spare text { fill: #a0a0a0; }
path { fill: none; stroke: #5a6b7d; stroke-width: 1.2; } .split { stroke-dasharray: 2 3; } .grey { stroke: #cfcfcf; }
.tip { fill: #5a6b7d; stroke: none; } .label { fill: #8a6a1a; }
"""


@dataclass
class Box:
    """A box: its lines with their styles, its own style, and what a pointer shows."""

    lines: List[Tuple[str, str]]
    style: str
    title: str
    x: float = 0
    y: float = 0
    width: float = field(init=False)

    def __post_init__(self) -> None:
        self.lines = [(cut(text), style) for text, style in self.lines]
        self.width = max(len(text) for text, _ in self.lines) * CHARACTER + 2 * PADDING

    @property
    def height(self) -> float:
        return len(self.lines) * LINE + 2 * PADDING

    def svg(self) -> str:
        rows = "".join(
            written(
                text, self.x - self.width / 2 + PADDING, self.y + PADDING + 12 + at * LINE, style
            )
            for at, (text, style) in enumerate(self.lines)
        )
        return (
            f'<g class="{self.style}"><title>{escape(self.title, quote=False)}</title><rect x="{self.x - self.width / 2:.1f}" '
            f'y="{self.y:.1f}" width="{self.width:.1f}" height="{self.height:.1f}" rx="6"/>{rows}</g>'
        )


def cut(text: str, most: int = MOST_CHARACTERS) -> str:
    return text if len(text) <= most else text[: most - 2] + ".."


def written(text: str, x: float, y: float, style: str = "", anchor: str = "start") -> str:
    return f'<text x="{x:.1f}" y="{y:.1f}" class="{style}" text-anchor="{anchor}">{escape(text, quote=False)}</text>'


def place(roots: List[int], children: Dict[int, List[int]], boxes: Dict[int, Box]) -> None:
    """Gives each box its place: children side by side below their parent, as close as the boxes of
    each layer allow."""
    order: List[int] = []
    open_ones = list(reversed(roots))
    while open_ones:
        order.append(open_ones.pop())
        open_ones.extend(reversed(children[order[-1]]))
    shapes: Dict[int, Tuple[List[float], List[float]]] = {}
    offsets: Dict[int, float] = {}

    def side_by_side(row: List[int]) -> Tuple[List[float], List[float]]:
        """Puts subtrees beside each other, and gives the left and right edge of each layer, from
        their middle."""
        lefts: List[float] = []
        rights: List[float] = []
        places = []
        for node in row:
            left, right = shapes.pop(node)
            shift = max((edge + ACROSS - own for edge, own in zip(rights, left)), default=0.0)
            places.append(shift)
            rights[: len(right)] = [edge + shift for edge in right]
            lefts.extend(edge + shift for edge in left[len(lefts) :])
        middle = (places[0] + places[-1]) / 2 if places else 0.0
        offsets.update((node, at - middle) for node, at in zip(row, places))
        return [edge - middle for edge in lefts], [edge - middle for edge in rights]

    for node in reversed(order):
        lefts, rights = side_by_side(children[node])
        half = boxes[node].width / 2
        shapes[node] = [-half, *lefts], [half, *rights]
    side_by_side(roots)
    layers: Dict[int, int] = {node: 0 for node in roots}
    centres = {node: offsets[node] for node in roots}
    for node in order:
        for child in children[node]:
            layers[child], centres[child] = layers[node] + 1, centres[node] + offsets[child]
    heights: Dict[int, float] = {}
    for node, layer in layers.items():
        heights[layer] = max(heights.get(layer, 0), boxes[node].height)
    tops = [0.0]
    for layer in range(len(heights)):
        tops.append(tops[-1] + heights[layer] + DOWN)
    for node in order:
        boxes[node].x, boxes[node].y = centres[node], tops[layers[node]]


def arrow(above: Box, below: Box, style: str) -> str:
    """An arrow from the bottom of a box to the top of a lower one."""
    x, y, to, end = above.x, above.y + above.height, below.x, below.y - 6
    bend = (end - y) / 2
    return (
        f'<path class="{style}" d="M{x:.1f} {y:.1f}C{x:.1f} {y + bend:.1f} {to:.1f} {end - bend:.1f} {to:.1f} {end:.1f}"/>'
        f'<path class="tip" d="M{to - 4:.1f} {end - 1:.1f}h8l-4 7z"/>'
    )


def label(text: str, below: Box) -> str:
    """What is said at the arrow to a box."""
    width, middle = len(text) * CHARACTER + 4, below.y - DOWN / 2
    return (
        f'<rect class="page" x="{below.x - width / 2:.1f}" y="{middle - 8:.1f}" width="{width:.1f}" height="16"/>'
        + written(text, below.x, middle + 4, "label", "middle")
    )


class Picture:
    """A certificate with what its picture shows."""

    def __init__(
        self,
        proof: Certificate,
        found: structure.Outline,
        progress: Optional[Progress] = None,
    ):
        self.proof, self.progress = proof, progress
        self.names, self.first = proof.problem.names, len(proof.problem.constraints)
        self.goal, self.needed = found.goal, found.needed
        self.derived = range(self.first, self.first + len(proof.derivations))
        self.reasons = proof.references.reasons
        self.sets: Dict[int, structure.Found] = {}

    def tree(self, is_all: bool) -> structure.Tree:
        """The tree of all derivations, or of those that the goal needs, if there is one."""
        among = (
            bytearray([1]) * len(self.derived)
            if is_all or self.goal is None
            else self.needed[self.first :]
        )
        return structure.Tree(self.proof, self.needed, among)

    def find_sets(self, shown: Iterable[int]) -> None:
        """Finds the assumptions that some derivations rest on."""
        wanted = set(shown)
        for at, found in enumerate(structure.assumptions(self.proof)):
            if self.first + at in wanted:
                self.sets[self.first + at] = found
            if self.progress and at % STEP == 0:
                self.progress(at)

    def reason(self, index: int) -> str:
        derivation = self.proof.derivations[index - self.first]
        if derivation.reason == "uns":
            i1, l1, i2, l2 = derivation.indices
            return f"uns  [{i1}] if [{l1}], [{i2}] if [{l2}]"
        if derivation.reason in ("lin", "rnd"):
            entries = [
                (multiplier, f"[{at}]") for at, multiplier in derivation.entries if multiplier
            ]
            return f'{derivation.reason}  {" ".join(terms(entries)) or "0"}'
        return {"asm": "assumed", "sol": "sol  the best listed solution"}[derivation.reason]

    def short(self, index: int, most: int) -> str:
        """A constraint in so many characters: a long row is `objective`, or its beginning. One that
        isn't there is its index."""
        if index >= self.derived.stop:
            return f"[{index}]"
        constraint = self.proof.constraint(index)
        text, side = (
            constraint_text(constraint, self.names, MOST_TERMS),
            f"{SIGNS[constraint.sense]} {constraint.bound}",
        )
        if len(text) <= most:
            return text
        row = (
            "objective"
            if structure.is_objective(self.proof.problem, constraint.row)
            else text[: max(1, most - len(side) - 3)] + ".."
        )
        return f"{row} {side}"

    def text(self, constraint: Constraint) -> str:
        """A constraint uncut. A long row that is written `OBJ` is `objective`, so no picture is
        much longer than the text."""
        if constraint.row is self.proof.problem.objective and len(constraint.row) > MOST_TERMS:
            return f"objective {SIGNS[constraint.sense]} {constraint.bound}"
        return constraint_text(constraint, self.names)

    def rests_on(self, index: int) -> str:
        found = self.sets[index]
        words = [f"[{assumed}]" for assumed in structure.indices(found, MOST_LISTED)]
        if len(found) > MOST_LISTED:
            words.append(f".. ({len(found) - MOST_LISTED:,} more)")
        return f'rests on {" ".join(words) or "nothing"}'

    def style(self, index: int) -> str:
        words = [self.reasons[index - self.first]]
        if index == self.goal:
            words.append("goal")
        if self.goal is not None and not self.needed[index]:
            words.append("spare")
        return " ".join(words)

    def title(self, index: int) -> str:
        """What a pointer on a box shows: all of it, uncut."""
        constraint = self.proof.constraint(index)
        return "\n".join(
            [
                f"[{index}] {printable(constraint.name)}",
                self.text(constraint),
                self.reason(index),
                self.rests_on(index),
            ]
        )

    def box(self, index: int) -> Box:
        constraint = self.proof.constraint(index)
        head = f"[{index}] {printable(constraint.name)}"
        rows = [
            (head, "head"),
            (self.short(index, MOST_CHARACTERS), ""),
            (self.reason(index), "small"),
        ]
        if self.reasons[index - self.first] != "asm":
            rows.append((self.rests_on(index), "small"))
        if index == self.goal:
            rows[0] = (cut(head, MOST_CHARACTERS - 8) + "  (goal)", "head")
        return Box(rows, self.style(index), self.title(index))

    def whole_tree(self) -> Tuple[Dict[int, Box], List[str]]:
        """A box for each derivation, and the arrows."""
        self.find_sets(self.derived)
        boxes, tree = {index: self.box(index) for index in self.derived}, self.tree(True)
        place(
            tree.roots(self.goal),
            {index: list(tree.children(index)) for index in self.derived},
            boxes,
        )
        arrows = []
        for index in self.derived:
            derivation = self.proof.derivations[index - self.first]
            for below in structure.named(self.proof, index):
                if below in boxes:
                    style = (
                        "split"
                        if derivation.reason == "uns" and below in derivation.indices[1::2]
                        else ""
                    )
                    arrows.append(
                        arrow(
                            boxes[index],
                            boxes[below],
                            f"{style} grey" if "spare" in self.style(index) else style,
                        )
                    )
        return boxes, arrows

    def splits(self, most: int) -> Tuple[Dict[int, Box], List[str]]:
        """A box for each of the largest splits, and for what is at their branches."""
        tree, first = self.tree(False), self.first
        sizes = tree.totals(array("Q", [1]) * len(self.derived))
        counts = tree.totals(array("Q", (reason == "uns" for reason in self.reasons)))
        # (a certificate that isn't a tree has many roots: the largest ones)
        roots = sorted(
            tree.roots(self.goal), key=lambda index: (index != self.goal, -sizes[index - first])
        )
        tops = [top for root in roots[:most] for top in self.nearest(root, tree)]
        shown: Dict[int, List[int]] = {index: [] for index in tops}
        labels: Dict[int, str] = {}
        waiting = [(-sizes[index - first], index) for index in tops if self.is_split(index)]
        heapq.heapify(waiting)
        opened = 0
        while waiting and opened < most:
            index, opened = heapq.heappop(waiting)[1], opened + 1
            i1, l1, i2, l2 = self.proof.derivations[index - self.first].indices
            for branch, assumed in ((i1, l1), (i2, l2)):
                for below in self.nearest(branch, tree) if branch in tree.children(index) else []:
                    if below not in shown:
                        shown[index].append(below)
                        shown[below] = []
                        labels[below] = self.short(assumed, 22)
                        if self.is_split(below):
                            heapq.heappush(waiting, (-sizes[below - first], below))
        closed = {index for _, index in waiting}
        self.find_sets(shown)
        boxes = {
            index: self.split_box(
                index, sizes[index - first], counts[index - first] if index in closed else 0
            )
            for index in shown
        }
        place(tops, shown, boxes)
        arrows = [
            arrow(boxes[index], boxes[below], "") for index, row in shown.items() for below in row
        ]
        arrows += [label(text, boxes[index]) for index, text in labels.items()]
        return boxes, arrows

    def is_split(self, index: int) -> bool:
        return self.reasons[index - self.first] == "uns"

    def nearest(self, index: int, tree: structure.Tree) -> List[int]:
        """The first splits at or below a derivation, or itself if there is none."""
        found, open_ones = [], [index]
        while open_ones:
            current = open_ones.pop()
            if self.is_split(current):
                found.append(current)
            else:
                open_ones.extend(reversed(tree.children(current)))
        return found or [index]

    def split_box(self, index: int, size: int, closed: int) -> Box:
        rows = [
            (f'[{index}]{" (goal)" if index == self.goal else ""}', "head"),
            (self.short(index, 20), ""),
            (f'{size:,} derivation{"s" if size > 1 else ""}', "small"),
        ]
        if closed:
            rows.append((f'{closed:,} split{"s" if closed > 1 else ""} ..', "small"))
        return Box(rows, self.style(index), self.title(index))

    def listed_constraints(self) -> List[int]:
        """The first constraints of the problem: if there are more, those that the goal needs come
        first."""
        needed = (at for at in range(self.first) if self.needed[at])
        others = (at for at in range(self.first) if not self.needed[at])
        return sorted(islice(chain(needed, others), MOST_LISTED))

    def listed(self) -> List[Tuple[str, str]]:
        """What is beside the tree: the claim, the problem, and what the picture leaves out."""
        problem, most = self.proof.problem, MOST_CHARACTERS + 20
        reasons = {
            "asm": "assumption",
            "lin": "sum",
            "rnd": "rounded sum",
            "uns": "branches joined",
            "sol": "cutoff",
        }
        counts = Counter(self.reasons)
        rows = [
            (f"claim: {problem.claim}", "title"),
            (
                f'{"max" if problem.maximizes else "min"} {row_text(problem.objective, self.names)}',
                "",
            ),
            (f"{len(problem.names)} variables, {len(problem.integers)} integer", "small"),
            ("", ""),
        ]
        for at in self.listed_constraints():
            constraint = problem.constraints[at]
            rows.append(
                (
                    f"[{at}] {printable(constraint.name)}  {self.text(constraint)}",
                    "" if self.goal is None or self.needed[at] else "small",
                )
            )
        if self.first > MOST_LISTED:
            rows.append((f".. {self.first - MOST_LISTED:,} more constraints", "small"))
        spare = len(self.derived) - sum(self.needed[self.first :])
        rows += [("", ""), (f"{len(self.derived):,} derivations", "")]
        rows += [
            (f"  {word} {counts[word]:,}  {reasons[word]}", "small")
            for word in reasons
            if counts[word]
        ]
        if self.goal is None:
            rows.append(("no constraint proves the dual side", "small"))
        else:
            where = "" if self.goal >= self.first else ", of the problem"
            rows.append((f"goal: [{self.goal}]{where}; {spare:,} not needed", ""))
        return [(cut(text, most), style) for text, style in rows]

    def svg(self, most_boxes: int, most_splits: int) -> str:
        boxes, arrows = (
            self.whole_tree() if len(self.derived) <= most_boxes else self.splits(most_splits)
        )
        listed = self.listed()
        aside = max(len(text) for text, _ in listed) * (CHARACTER + 0.3) + 2 * MARGIN
        left = min((box.x - box.width / 2 for box in boxes.values()), default=0) - MARGIN - aside
        right = max((box.x + box.width / 2 for box in boxes.values()), default=0) + MARGIN
        bottom = (
            max([box.y + box.height for box in boxes.values()] + [len(listed) * LINE]) + 2 * MARGIN
        )
        rows = [
            written(text, left + MARGIN, 14 + at * LINE, style)
            for at, (text, style) in enumerate(listed)
            if text
        ]
        return "\n".join(
            [
                f'<svg xmlns="http://www.w3.org/2000/svg" width="{right - left:.0f}" height="{bottom:.0f}" '
                f'viewBox="{left:.0f} {-MARGIN} {right - left:.0f} {bottom:.0f}">',
                f"<style>{STYLE}</style>",
                f'<rect class="page" x="{left:.0f}" y="{-MARGIN}" width="{right - left:.0f}" height="{bottom:.0f}"/>',
                *rows,
                *arrows,
                *(box.svg() for box in boxes.values()),
                "</svg>",
                "",
            ]
        )


def command(words: argparse.Namespace) -> int:
    keep_apart(words.out, words.certificate)
    text, alive = read_file(words.certificate), Alive()
    proof = read(text, alive.part("reading", len(text)))
    if not isinstance(proof, Certificate):
        alive.end()
        print(proof)
        return REFUSED
    count = len(proof.derivations)
    found = structure.outline(proof, alive.part("assumptions", count))
    picture = Picture(proof, found, alive.part("drawing", count)).svg(words.boxes, words.splits)
    alive.end()
    if words.out:
        Path(words.out).write_text(picture, encoding="utf-8")
    else:
        sys.stdout.buffer.write(picture.encode())
    return VERIFIED


def parser() -> Parser:
    made = Parser("picture", __doc__)
    made.add_argument(
        "certificate",
        metavar="CERT",
        help="a certificate, also .gz, .xz, .bz2 or .zst; - is standard input",
    )
    made.add_argument(
        "-o",
        "--out",
        metavar="FILE",
        help="where the picture is written; standard output by default",
    )
    made.add_argument(
        "--boxes",
        type=number,
        default=MOST_BOXES,
        metavar="N",
        help=f"up to how many derivations have a box each; {MOST_BOXES} by default",
    )
    made.add_argument(
        "--splits",
        type=number,
        default=MOST_SPLITS,
        metavar="N",
        help=f"how many splits of a larger certificate are opened; {MOST_SPLITS} by default",
    )
    return made


def main() -> int:
    words = parser().parse_args()
    return run(lambda: command(words))


if __name__ == "__main__":
    sys.exit(main())
