"""Answers what a referee asks of a model and a certificate, in one run over the same bytes.

  model        the SHA-256 of the MPS file, and its name; of a packed file that of its text, too
  certificate  the same of the certificate
  verdict      what `vipr check` prints: the library checks the text, and its answer is proved
  problem      `same problem` and the claim as one about the model; or, if the certificate's problem is another one, how
               they differ, as `vipr-compare-mps` prints it; this isn't proved
  optimum      what is proved of the model, in decimals that are rounded outward, or why nothing is
  program      the version of the library, its SHA-256, and the commit and kit of its build, if the file BUILD of
               the archive, the wheel or the Debian package has this SHA-256

The exit status is 0 only if the certificate is verified, its problem is the model's, and it proves
the optimum: both bounds are one number, or there is no solution. With --bounds one finite bound is
enough. If RHS gives the objective's row a number, the status is 1 unless --constant says what the
number means. It is 1 if something isn't so, 2 if the command line isn't understood, and 3 if a file
can't be read or the library isn't there.
"""
from __future__ import annotations

import argparse
import hashlib
import json
import os
import sys
from dataclasses import dataclass
from fractions import Fraction
from math import ceil, floor
from pathlib import Path
from typing import Dict, List, Optional

from . import library
from .compare_mps import compared, infinity
from .files import FAILED, REFUSED, VERIFIED, Alive, Parser, printable, read_both, run
from .verdict import Claim, Verdict

PLACES = 6
# how often the number of the objective's row is added to what the certificate proves, by the word
# of --constant
MEANINGS = {"ignore": 0, "add": 1, "subtract": -1}


def decimal(value: Fraction, up: bool) -> str:
    """A number to six places, rounded up or down; a whole one has none."""
    scaled = (ceil if up else floor)(value * 10**PLACES)
    if Fraction(scaled, 10**PLACES).denominator == 1:
        return str(scaled // 10**PLACES)
    sign, digits = "-" * (scaled < 0), f"{abs(scaled):0{PLACES + 1}}"
    return f"{sign}{digits[:-PLACES]}.{digits[-PLACES:]}".rstrip("0")


def bounds(claim: Claim) -> str:
    """The bounds of a claim in decimals: the lower one is rounded down, and the upper one up."""
    lower = "no lower bound" if claim.lower is None else f"at least {decimal(claim.lower, False)}"
    upper = "no upper bound" if claim.upper is None else f"at most {decimal(claim.upper, True)}"
    return f"{lower}, {upper}"


def moved(claim: Claim, by: Fraction) -> Claim:
    """The claim about the objective with this number added."""
    lower, upper = (None if bound is None else bound + by for bound in (claim.lower, claim.upper))
    return Claim(claim.infeasible, lower, upper)


def build() -> Dict[str, str]:
    """What is known of the library's build. A file BUILD counts if it has the library's sum."""
    found, file = {"version": library.version()}, library.file()
    if file is None:
        return found
    found["sha256"] = hashlib.sha256(file.read_bytes()).hexdigest()
    top = file.parent.parent
    for folder in (top, top / "share/doc/vipr", Path(__file__).parent):
        if (folder / "BUILD").is_file():
            rows = dict(
                line.partition(": ")[::2] for line in (folder / "BUILD").read_text().split("\n")
            )
            if found["sha256"] in rows.values():
                return found | {name: rows[name] for name in ("commit", "kit") if name in rows}
    return found


@dataclass(frozen=True)
class Digests:
    """The SHA-256 of a file, and that of its text if it is packed."""

    file: str
    text: Optional[str]

    @classmethod
    def of(cls, data: bytes, text: bytes, of_text: str) -> Digests:
        """Those of a file's bytes and its text, whose SHA-256 is known."""
        if data is text:
            return cls(of_text, None)
        return cls(hashlib.sha256(data).hexdigest(), of_text)

    def lines(self, name: str) -> List[str]:
        return [
            f"{self.file} {name}",
            *([] if self.text is None else [f"{self.text} its text, unpacked"]),
        ]


@dataclass(frozen=True)
class Answer:
    """Whether something is proved that a referee asks for, and the words for it."""

    is_proved: bool
    words: str


@dataclass(frozen=True)
class Question:
    """What is enough for an answer: bounds in place of the optimum, and how often the constant is
    added, if that is said."""

    takes_bounds: bool = False
    times: Optional[int] = None

    def answer(self, claim: Claim, constant: Fraction) -> Answer:
        """What a claim about the model proves, whose objective's row has this number in RHS."""
        if claim.infeasible:
            return Answer(True, "none: the problem is infeasible")
        if constant and self.times is None:
            words = f"unclear: RHS gives the objective's row {constant}, and --constant says whether to ignore, add or subtract it"
            return Answer(False, words)
        claim = moved(claim, constant * (self.times or 0))
        if claim.lower is None and claim.upper is None:
            return Answer(False, "nothing is claimed")
        if claim.lower == claim.upper or self.takes_bounds:
            return Answer(True, bounds(claim))
        return Answer(False, f"not proved, but {bounds(claim)}: --bounds takes that")


@dataclass(frozen=True)
class Audit:
    """What is found of a model and a certificate: their digests, the verdict, what the comparison
    prints, and the claim and the constant of the model if the problem is the model's."""

    model: Digests
    certificate: Digests
    verdict: Verdict
    problem: List[str]
    claim: Optional[Claim]
    constant: Fraction
    build: Dict[str, str]

    def answer(self, question: Question) -> Answer:
        """What is proved of the model."""
        if not self.verdict:
            return Answer(False, "nothing is proved")
        if self.claim is None:
            return Answer(False, "nothing is proved of this model")
        return question.answer(self.claim, self.constant)

    def lines(self, model: str, certificate: str, answer: Answer) -> List[str]:
        """The report on files of these names: the first word of a line says what it is about."""
        same = [] if self.claim is None else [f"same {self.problem[0]}", *self.problem[1:]]
        parts = {
            "model": self.model.lines(model),
            "certificate": self.certificate.lines(certificate),
            "verdict": str(self.verdict).rstrip("\n").split("\n"),
            "problem": same or self.problem,
            "optimum": [answer.words],
            "program": [f"{word} {value}" for word, value in self.build.items()],
        }
        return [
            f'{"" if at else word:12} {line}'
            for word, rows in parts.items()
            for at, line in enumerate(rows)
        ]

    def values(self, answer: Answer) -> Dict[str, object]:
        """The report for a script."""
        return {
            "model_sha256": self.model.file,
            "model_text_sha256": self.model.text,
            "certificate_sha256": self.certificate.file,
            "certificate_text_sha256": self.certificate.text,
            "verified": bool(self.verdict),
            "same": self.claim is not None,
            "proved": answer.is_proved,
            "verdict": str(self.verdict).rstrip("\n").split("\n"),
            "problem": self.problem,
            "optimum": answer.words,
            "build": self.build,
        }


def audited(words: argparse.Namespace, alive: Alive) -> Audit:
    """What is found of the two files. Raises OSError and library.Error."""
    model, model_text = read_both(words.model)
    certificate, text = read_both(words.certificate)
    status, problem = compared(
        model_text, text, words.integers, words.maximize, words.infinity, alive
    )
    claim, constants = None, []
    if status == VERIFIED:
        claim = Claim.parse(problem[0].removeprefix("problem "))
        constants = [Fraction(line.removeprefix("constant ")) for line in problem[1:]]
    with alive.during("checking the proof"):
        verdict, digest = library.check(text, words.profile), library.digest(text)
    return Audit(
        Digests.of(model, model_text, hashlib.sha256(model_text).hexdigest()),
        Digests.of(certificate, text, digest),
        verdict,
        problem,
        claim,
        sum(constants, Fraction(0)),
        build(),
    )


def command(words: argparse.Namespace) -> int:
    model, certificate = (printable(os.fsencode(name)) for name in (words.model, words.certificate))
    question = Question(words.bounds, MEANINGS.get(words.constant))
    alive = Alive()
    try:
        found = audited(words, alive)
    except library.Error as fault:
        print(fault, file=sys.stderr)
        return FAILED
    finally:
        alive.end()
    answer = found.answer(question)
    if words.json:
        files = {"model": words.model, "certificate": words.certificate}
        print(json.dumps({**files, **found.values(answer)}))
    else:
        print(*found.lines(model, certificate, answer), sep="\n")
    return VERIFIED if answer.is_proved else REFUSED


def parser() -> Parser:
    made = Parser("audit", __doc__)
    made.add_argument(
        "model", metavar="MODEL.mps", help="the MPS file, also .gz, .xz, .bz2 or .zst"
    )
    made.add_argument("certificate", metavar="CERT", help="the certificate, likewise")
    made.add_argument("--json", action="store_true", help="one object in place of the lines")
    made.add_argument(
        "--bounds",
        action="store_true",
        help="a claim with one finite bound is enough: status 0",
    )
    made.add_argument(
        "--constant",
        choices=[*MEANINGS],
        help="whether a number that RHS gives the objective's row is left out, added or subtracted",
    )
    made.add_argument(
        "--maximize",
        action="store_true",
        help="the file gives no direction, and is to be maximized",
    )
    made.add_argument(
        "--integers",
        choices=["one", "inf"],
        help="the upper bound of an integer column that no line gives one",
    )
    made.add_argument(
        "--infinity",
        type=infinity,
        default=0,
        metavar="NUMBER",
        help="bounds of this size or more are infinite, as for vipr-compare-mps",
    )
    made.add_argument(
        "--profile",
        type=int,
        choices=[1, 2],
        default=1,
        help="by which profile of the rules; 1 by default",
    )
    return made


def main() -> int:
    made = parser()
    words = made.parse_args()
    if words.model == words.certificate == "-":
        made.error("only one of the two can be standard input")
    return run(lambda: command(words))


if __name__ == "__main__":
    sys.exit(main())
