"""Writes a page on which a person browses a proof: one file for a browser, which loads nothing from
elsewhere.

It has the problem and the claim in algebra, and a row for each constraint, with its reason.
Derivations are shown as the tree of their branches, which can be folded. Click on one to see the
assumptions that it rests on, and what names it; click on these to go there. What the goal needs is
shown first. If the library for C is installed, it checks the certificate, and a refusal is shown
above, as `vipr explain --long` prints it.

The exit status is 0, 1 if the text is no certificate, 2 if the command line isn't understood, and 3
if a file can't be read or written. A certificate whose proof is refused has a page, too.
"""
from __future__ import annotations

import argparse
import contextlib
import json
import re
import sys
from array import array
from html import escape
from itertools import islice
from pathlib import Path
from typing import IO, Dict, FrozenSet, Iterator, List, Optional, Tuple

from . import proof as structure
from .algebra import row_text
from .certificate import Certificate, Progress, read
from .files import REFUSED, VERIFIED, Alive, Parser, keep_apart, printable, read_file, run
from .library import LibraryMissing, check, explain_long
from .verdict import Place, Verdict

MOST_SOLUTIONS = 100  # how many are listed
MOST_REMEMBERED = 1 << 12  # how many small sets are found again
PIECE = 1 << 10  # how many constraints are written at once
UNCHECKED = (
    "This certificate was not checked: the library of `vipr` is not installed. Run: vipr check FILE"
)
VERIFIED_PAGE = "Verified by the library of `vipr`. This page is not proved: for what counts, run: vipr check FILE"


def counted(count: int, word: str) -> str:
    return f'{count:,} {word}{"s" * (count != 1)}'


class SetWriter:
    """Writes sets of assumptions down, each once: the indices of a small one, or the parts of a
    large one."""

    def __init__(self) -> None:
        self.lines: List[str] = []
        self.small: Dict[FrozenSet[int], int] = {}
        # the set of each derivation
        self.rests = array("I")

    def see(self, found: structure.Found) -> None:
        """The set of the next derivation."""
        self.rests.append(
            self.of_small(found) if isinstance(found, frozenset) else self.of_large(found)
        )

    def added(self, line: str) -> int:
        self.lines.append(line)
        return len(self.lines) - 1

    def of_small(self, found: FrozenSet[int]) -> int:
        number = self.small.get(found)
        if number is None:
            if len(self.small) > MOST_REMEMBERED:
                self.small.clear()
            number = self.small[found] = self.added(" ".join(map(str, sorted(found))))
        return number

    def of_large(self, found: structure.Assumptions) -> int:
        """A part of a range is written as its start and its bits, and one of two halves as their
        numbers."""
        open_ones = [found]
        while open_ones:
            part = open_ones[-1]
            missing = [half for half in part.halves if half.number < 0]
            open_ones.extend(missing)
            if not missing:
                open_ones.pop()
                if part.number < 0:
                    part.number = self.added(
                        f"+{part.halves[0].number} {part.halves[1].number}"
                        if part.halves
                        else f"@{part.start} {part.bits:x}"
                    )
        return found.number


class Page:
    """A certificate with what its page shows."""

    def __init__(self, proof: Certificate, progress: Optional[Progress] = None):
        self.proof, self.sets = proof, SetWriter()
        self.outline = structure.outline(proof, progress, self.sets.see)

    def solutions(self) -> List[str]:
        """The first solutions, with their objective values."""
        problem, found = self.proof.problem, []
        for solution in islice(self.proof.solutions, MOST_SOLUTIONS):
            values = ", ".join(
                f"{printable(problem.names[index])} = {value}"
                for index, value in sorted(solution.values.items())
            )
            objective = sum(
                problem.objective.get(index, 0) * value for index, value in solution.values.items()
            )
            found.append(
                f'{printable(solution.name)}: {values or "all variables are 0"}; objective {objective}'
            )
        rest = len(self.proof.solutions) - len(found)
        return [*found, f".. ({rest:,} more)"] if rest else found

    def lines(self) -> Iterator[str]:
        """Each constraint as the text spells it, with a name that can be printed."""
        for line in self.proof.lines():
            if not line.isprintable() or "\\" in line:
                name, _, rest = line.partition(" ")
                line = f"{printable(name)} {rest}"
            yield line

    def data(self, fault: Optional[int]) -> Iterator[str]:
        """The data of the page's script, in pieces: JSON."""
        problem = self.proof.problem
        yield json.dumps(
            {
                "first": len(problem.constraints),
                "goal": self.outline.goal,
                "fault": fault,
                "names": list(map(printable, problem.names)),
                "solutions": self.solutions(),
                "objective": [
                    [index, str(value)] for index, value in sorted(problem.objective.items())
                ],
                "rests": self.sets.rests.tolist(),
            },
            separators=(",", ":"),
        )[:-1]
        for name, lines in (("sets", iter(self.sets.lines)), ("lines", self.lines())):
            yield f',"{name}":['
            front = ""
            while True:
                piece = list(islice(lines, PIECE))
                if not piece:
                    break
                yield front + json.dumps(piece, separators=(",", ":"))[1:-1]
                front = ","
            yield "]"
        yield "}"

    def html(self, name: str, verdict: Optional[Verdict], page: str) -> Iterator[str]:
        """The page of a file of this name, in pieces, with its verdict, if there is one, and what
        stands above the rows."""
        problem = self.proof.problem
        refusal = verdict.refusal if verdict is not None else None
        fault = refusal.number if refusal and refusal.place is Place.DERIVATION else None
        counts = ", ".join(
            [
                counted(len(problem.names), "variable"),
                f"{len(problem.integers):,} integral",
                counted(len(problem.constraints), "constraint"),
                counted(len(self.proof.derivations), "derivation"),
            ]
        )
        if verdict is None:
            state = "not checked"
        else:
            state = "verified" if verdict else str(refusal)
        parts = {
            "TITLE": f"{name}: {state}",
            "HEADING": f"{name}: {state}",
            "CLAIM": f"claim: {problem.claim}",
            "COUNTS": counts,
            "SOLUTIONS": counted(len(self.proof.solutions), "solution"),
            "OBJECTIVE": f'{"max" if problem.maximizes else "min"} {row_text(problem.objective, problem.names)}',
            "MOOD": "bad" if refusal else "",
            "PAGE": page,
        }
        template = Path(__file__).with_name("proof.html").read_text(encoding="utf-8")
        front, behind = template.split("@DATA@")
        yield re.sub("@([A-Z]+)@", lambda found: escape(parts[str(found[1])]), front)
        # (a script's data can't end the script, nor begin a comment)
        yield from (piece.replace("<", "\\u003c") for piece in self.data(fault))
        yield behind


def verdict_of(text: bytes, name: str, profile: int) -> Tuple[Optional[Verdict], str]:
    """The library's verdict, if it is installed, and what the page says of it."""
    try:
        verdict = check(text, profile)
        if verdict:
            return verdict, VERIFIED_PAGE
        return verdict, explain_long(text, name, profile).decode("utf-8", "backslashreplace")
    except LibraryMissing:
        return None, UNCHECKED


def command(words: argparse.Namespace) -> int:
    keep_apart(words.out, words.certificate)
    text, alive = read_file(words.certificate), Alive()
    proof = read(text, alive.part("reading", len(text)))
    if not isinstance(proof, Certificate):
        alive.end()
        print(proof)
        return REFUSED
    name = printable(words.certificate.encode("utf-8", "surrogateescape"))
    page = Page(proof, alive.part("assumptions", len(proof.derivations)))
    with alive.during("checking the proof"):
        found = verdict_of(text, words.certificate, words.profile)
    pieces = page.html(name, *found)
    with contextlib.ExitStack() as stack:
        out: IO[bytes] = (
            stack.enter_context(open(words.out, "wb")) if words.out else sys.stdout.buffer
        )
        progress = alive.part("writing", len(proof.derivations))
        for at, piece in enumerate(pieces):
            out.write(piece.encode())
            progress(min(at * PIECE, len(proof.derivations)))
    alive.end()
    return VERIFIED


def parser() -> Parser:
    made = Parser("html", __doc__)
    made.add_argument(
        "certificate",
        metavar="CERT",
        help="a certificate, also .gz, .xz, .bz2 or .zst; - is standard input",
    )
    made.add_argument(
        "-o", "--out", metavar="FILE", help="where the page is written; standard output by default"
    )
    made.add_argument(
        "--profile",
        type=int,
        choices=(1, 2),
        default=1,
        help="by which profile of the rules; 1 by default",
    )
    return made


def main() -> int:
    words = parser().parse_args()
    return run(lambda: command(words))


if __name__ == "__main__":
    sys.exit(main())
