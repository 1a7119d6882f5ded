"""What a certificate consists of: its derivations by reason, how deep its assumptions go, how large
its numbers get.

`vipr check` refuses numerators and denominators of more than 127 bits, and the bits of the largest
ones show how near it is. Nothing is checked here, and nothing proves these figures. `goal` is the
constraint that proves the claim's dual side. With --needed the constraints of the problem that its
derivation needs are listed instead: index, name and algebra, with tabs between. If the certificate
is verified, they alone prove the dual side of its claim. Another proof may need fewer.

The exit status is 0, 1 if the text is no certificate, 2 if the command line isn't understood, and 3
if the file can't be read.
"""
from __future__ import annotations

import argparse
import json
import sys
from collections import Counter
from typing import Dict, Iterable, Iterator, List, Optional, Tuple, Union

from . import algebra, proof as structure
from .certificate import STEP, Certificate, Constraint, Problem, Progress, Row, read
from .files import REFUSED, VERIFIED, Alive, Parser, printable, read_file, run

STEPS, LEAST_STEPS = (
    100,
    1_000_000,
)  # of sums that are added up: for each number that is written, and in any case
MOST_TERMS = 12  # of a constraint that is listed
REASONS = ("asm", "lin", "rnd", "uns", "sol")
Figure = Union[int, str, None]


def by_reason(reasons: Iterable[str]) -> Dict[str, int]:
    """How many there are of each reason."""
    counts = Counter(reasons)
    return {word: counts[word] for word in REASONS}


def figures(proof: Certificate) -> Dict[str, Union[Figure, Dict[str, int]]]:
    """All figures by their names, as --json prints them."""
    return measured(proof, structure.outline(proof))


class Longest:
    """What is the longest of its kind, and how many rows are the objective's."""

    def __init__(self, problem: Problem) -> None:
        self.problem, self.row, self.reason, self.objectives = problem, 0, 0, 0

    def see(self, row: Row) -> None:
        self.row = max(self.row, len(row))
        self.objectives += bool(row) and structure.is_objective(self.problem, row)


def measured(
    proof: Certificate, found: structure.Outline, progress: Optional[Progress] = None
) -> Dict[str, Union[Figure, Dict[str, int]]]:
    """All figures of a certificate of this outline. `progress` is told how many derivations were
    looked at."""
    problem, derivations, reasons = proof.problem, proof.derivations, proof.references.reasons
    first, objective = len(problem.constraints), problem.objective
    widths, longest, written = structure.Widths(proof, LEAST_STEPS), Longest(problem), 0
    widths.see(objective.values())

    def see(constraint: Constraint) -> int:
        """How many coefficients of a constraint are written."""
        row = {} if constraint.row is objective else constraint.row
        longest.see(constraint.row)
        widths.see([constraint.bound, *row.values()])
        return len(row)

    for constraint in problem.constraints:
        written += see(constraint)
    for solution in proof.solutions:
        widths.see(solution.values.values())
    widths.most_steps += STEPS * (written + proof.references.numbers)
    for at, derivation in enumerate(derivations):
        constraint, entries = derivation.constraint, derivation.entries
        see(constraint)
        widths.keep(first + at, constraint)
        if entries:
            longest.reason = max(longest.reason, len(entries))
            widths.see([multiplier for _, multiplier in entries])
            widths.combine(entries, first + at)
        if progress and at % STEP == 0:
            progress(at)
    needed = found.needed
    return {
        "claim": str(problem.claim),
        "variables": len(problem.names),
        "integer_variables": len(problem.integers),
        "constraints": first,
        "bounds": problem.bounds,
        "solutions": len(proof.solutions),
        "derivations": len(derivations),
        "by_reason": by_reason(reasons),
        "assumption_depth": max(found.sizes, default=0),
        "longest_row": longest.row,
        "longest_reason": longest.reason,
        "objective_rows": longest.objectives,
        "written_bits": widths.written,
        "computed_bits": None if widths.computed is None else max(widths.written, widths.computed),
        "goal": found.goal,
        "needed_constraints": sum(needed[:first]),
        "needed_derivations": sum(needed[first:]),
        "needed_by_reason": by_reason(
            reason for reason, is_needed in zip(reasons, needed[first:]) if is_needed
        ),
    }


ROWS = [
    ("claim", "claim"),
    ("variables", "variables"),
    ("integer_variables", "  integer"),
    ("constraints", "constraints"),
    ("bounds", "  counted as bounds"),
    ("solutions", "solutions"),
    ("derivations", "derivations"),
    ("by_reason", "  {}"),
    ("assumption_depth", "most assumptions that one rests on"),
    ("longest_row", "longest row"),
    ("longest_reason", "longest sum"),
    ("objective_rows", "rows that are the objective's"),
    ("written_bits", "bits of the largest number, written"),
    ("computed_bits", "bits of the largest number, computed (127 at most)"),
    ("goal", "goal"),
    ("needed_constraints", "constraints that the goal needs"),
    ("needed_derivations", "derivations that the goal needs"),
    ("needed_by_reason", "  {}"),
]


NONE = {"computed_bits": "too many steps to compute it"}


def table(found: Dict[str, Union[Figure, Dict[str, int]]]) -> List[Tuple[str, Figure]]:
    """The rows of the table: a label and a figure."""
    rows: List[Tuple[str, Figure]] = []
    for key, label in ROWS:
        value = found[key]
        if isinstance(value, dict):
            rows.extend((label.format(word), count) for word, count in value.items() if count)
        else:
            rows.append((label, NONE.get(key, "none") if value is None else value))
    return rows


def needed_rows(proof: Certificate, found: structure.Outline) -> Iterator[Tuple[int, str, str]]:
    """The constraints of the problem that the goal needs: index, name and algebra."""
    for index, constraint in enumerate(proof.problem.constraints):
        if found.needed[index]:
            yield index, printable(constraint.name), algebra.constraint_text(
                constraint, proof.problem.names, MOST_TERMS
            )


def needed_table(proof: Certificate, found: structure.Outline) -> List[str]:
    """Those constraints, a line each, with a first line that counts them."""
    count, all_of = sum(found.needed[: len(proof.problem.constraints)]), len(
        proof.problem.constraints
    )
    if found.goal is None:
        return [
            "nothing is needed: no constraint proves the dual side of the claim, or none has to"
        ]
    return [
        f"{count} of {all_of} constraints of the problem are needed for the goal {found.goal}",
        *("\t".join(map(str, row)) for row in needed_rows(proof, found)),
    ]


def command(words: argparse.Namespace) -> int:
    text = read_file(words.certificate)
    alive = Alive()
    proof = read(text, alive.part("reading", len(text)))
    if not isinstance(proof, Certificate):
        alive.end()
        print(proof)
        return REFUSED
    count = len(proof.derivations)
    found = structure.outline(proof, alive.part("assumptions", count))
    if words.needed:
        alive.end()
        if words.json:
            rows = [dict(zip(("index", "name", "text"), row)) for row in needed_rows(proof, found)]
            print(json.dumps({"goal": found.goal, "constraints": rows}, indent=2))
        else:
            print(*needed_table(proof, found), sep="\n")
        return VERIFIED
    figures = measured(proof, found, alive.part("sums", count))
    alive.end()
    if words.json:
        print(json.dumps(figures, indent=2))
    else:
        lines = table(figures)
        width = max(len(label) for label, _ in lines)
        print(*(f"{label:{width}}  {value}" for label, value in lines), sep="\n")
    return VERIFIED


def parser() -> Parser:
    made = Parser("stats", __doc__)
    made.add_argument(
        "certificate",
        metavar="CERT",
        help="a certificate, also .gz, .xz, .bz2 or .zst; - is standard input",
    )
    made.add_argument("--json", action="store_true", help="one JSON object")
    made.add_argument(
        "--needed",
        action="store_true",
        help="the constraints of the problem that the proof needs, in place of the figures",
    )
    return made


def main() -> int:
    words = parser().parse_args()
    return run(lambda: command(words))


if __name__ == "__main__":
    sys.exit(main())
