#!/usr/bin/env python3
"""Runs a checker of VIPR 1.0 certificates on the cases of this folder, and shows where it
disagrees.

usage: run.py [OPTION ..] -- COMMAND ..

COMMAND runs once for each case, with the case's path in place of {}; without {} it gets the case on
standard input. Exit status 0 means that it verified the certificate, and any other one that it
refused it. A run that a signal ends, or that takes too long, counts as a crash. With --batch it
runs once, with all paths in place of {}, and prints a line for each. With --tighten it writes
another certificate, to standard output or to the file that stands for {out}. README.md beside this
script has examples. The exit status is 0 if the checker agrees on all cases, 1 if it doesn't, and 2
if the command line is wrong or COMMAND can't be run.
"""
from __future__ import annotations

import argparse
import json
import os
import re
import shlex
import signal
import subprocess
import sys
import tempfile
from collections import Counter
from concurrent.futures import ThreadPoolExecutor
from pathlib import Path
from typing import Iterable, Iterator, List, NamedTuple, Optional
from xml.etree import ElementTree

import outline

FOLDER = Path(__file__).resolve().parent
TABLE, VERSION = FOLDER / "cases.tsv", FOLDER / "VERSION"
# between two lines of one cell of the table
BETWEEN = " | "
CHOICES = (
    "limit", "spelling", "vectors", "last-references", "zero-multipliers", "sums", "solutions", "claim"
)  # fmt: skip
# how long a run may take, of one case and of all cases
SECONDS, BATCH_SECONDS = 10, 600


class Case(NamedTuple):
    """A line of the table, with the answers by one profile."""

    rule: str
    name: str
    kind: str
    choice: str
    rests_on: str
    verdict: str
    about: str
    lines: List[str]
    same: str
    tightened: Optional[Path]
    path: Path


class Ran(NamedTuple):
    """What a run prints on both outputs, and its exit status, which is None if it took too long."""

    output: bytes
    errors: bytes
    status: Optional[int]


class Result(NamedTuple):
    """What a run did: None for agreement, 'differs' or 'crashed'; and the words that say so."""

    case: Case
    fault: Optional[str]
    words: str


def cases(profile: str = "1") -> Iterator[Case]:
    """The cases of the table, with the answers by a profile."""
    head, *rows = TABLE.read_text(encoding="utf-8").splitlines()
    for row in rows:
        cell = dict(zip(head.split("\t"), row.split("\t")))
        tightened = cell[f"tightened {profile}"]
        yield Case(
            cell["rule"],
            cell["name"],
            cell["kind"],
            cell["choice"],
            cell["rests on"],
            cell[f"profile {profile}"],
            cell["about"],
            cell[f"explain {profile}"].split(BETWEEN),
            cell["same as"],
            FOLDER / f"{tightened}.vipr" if tightened else None,
            FOLDER / cell["rule"] / f"{cell['name']}.vipr",
        )


# ---- one run


def ran(words: List[str], given: Path, seconds: float) -> Ran:
    """Runs a command that gets a file on standard input."""
    with open(
        given, "rb"
    ) as text, tempfile.TemporaryFile() as output, tempfile.TemporaryFile() as errors:
        with subprocess.Popen(
            words, stdin=text, stdout=output, stderr=errors, start_new_session=True
        ) as child:
            status: Optional[int] = None
            try:
                status = child.wait(seconds)
            except subprocess.TimeoutExpired:
                os.killpg(child.pid, signal.SIGKILL)
        output.seek(0)
        errors.seek(0)
        return Ran(output.read(), errors.read(), status)


def ran_on(command: List[str], path: Path, seconds: float, out: str = "") -> Ran:
    """Runs a command on a case: by its path in place of {}, else on standard input."""
    words = [word.replace("{}", str(path)).replace("{out}", out) for word in command]
    has_path = any("{}" in word for word in command)
    return ran(words, Path(os.devnull) if has_path else path, seconds)


def crash(status: Optional[int], options: argparse.Namespace) -> Optional[str]:
    """The words for a run that gave no answer, if it gave none."""
    if status is None:
        return f"no answer within {options.seconds:g} seconds"
    # a shell reports a signal as a status above 128
    number = -status if status < 0 else status - 128
    if status < 0 or 0 < number < 65:
        return f"ended by signal {number}"
    if options.refused is not None and status not in (0, options.refused):
        return f"ended with status {status}"
    return None


def is_verified(done: Ran, options: argparse.Namespace) -> bool:
    """Whether a run says that it verified the certificate."""
    if options.accept:
        return bool(
            re.search(options.accept, (done.output + done.errors).decode(errors="replace"), re.M)
        )
    return done.status == 0


def difference(case: Case, done: Ran, options: argparse.Namespace) -> Optional[str]:
    """The words for an answer that isn't the one of the table, if it isn't."""
    verdict = "verified" if is_verified(done, options) else "refused"
    if verdict != case.verdict:
        return f"{verdict}, which is to be {case.verdict}"
    lines = done.output.decode(errors="replace").splitlines()
    if options.lines and lines != case.lines:
        return f"printed {BETWEEN.join(lines)!r:.400}, which is to be {BETWEEN.join(case.lines)!r:.400}"
    return None


def checked(case: Case, options: argparse.Namespace) -> Result:
    """Runs a checker on a case."""
    done = ran_on(options.command, case.path, options.seconds)
    words = crash(done.status, options)
    if words:
        return Result(case, "crashed", words)
    words = difference(case, done, options)
    return Result(case, "differs" if words else None, words or "")


# ---- a tightener


def fault_of_tightened(
    case: Case, text: bytes, path: Path, options: argparse.Namespace
) -> Optional[str]:
    """The words for a certificate that isn't a tightened one of the case, if it isn't."""
    if not options.checker:
        wanted = case.tightened
        same = wanted is not None and text == wanted.read_bytes()
        return None if same else f"another text than {case.rule}/{case.name} becomes"
    try:
        before, after = outline.of(case.path.read_bytes()), outline.of(text)
    except ValueError as fault:
        return f"wrote no certificate: {fault}"
    if (after.problem, after.claim) != (before.problem, before.claim):
        return "wrote a certificate of another problem or claim"
    if after.derivations > before.derivations:
        return f"wrote {after.derivations} derivations, and there were {before.derivations}"
    done = ran_on(options.checker, path, options.seconds)
    words = crash(done.status, options)
    if words or not is_verified(done, options):
        return f"{options.checker[0]} doesn't verify what it wrote{': ' + words if words else ''}"
    return None


def tightened(case: Case, options: argparse.Namespace) -> Result:
    """Runs a tightener on a case, and a checker on what it writes."""
    with tempfile.TemporaryDirectory(prefix="vipr-tightened-") as folder:
        out = Path(folder, "out.vipr")
        done = ran_on(options.command, case.path, options.seconds, str(out))
        if done.status != 0:
            return Result(
                case, "crashed", crash(done.status, options) or f"ended with status {done.status}"
            )
        if not out.exists():
            out.write_bytes(done.output)
        words = fault_of_tightened(case, out.read_bytes(), out, options)
    return Result(case, "differs" if words else None, words or "")


# ---- many runs


def batch(chosen: List[Case], options: argparse.Namespace) -> Iterator[Result]:
    """Runs a checker once on all cases; it prints a line for each, in their order."""
    words: List[str] = []
    for word in options.command:
        words += [str(case.path) for case in chosen] if word == "{}" else [word]
    done = ran(words, Path(os.devnull), options.seconds)
    lines = done.output.decode(errors="replace").splitlines()
    for place, case in enumerate(chosen):
        if len(lines) != len(chosen):
            fault = crash(done.status, options) or f"{len(lines)} lines for {len(chosen)} cases"
            yield Result(case, "crashed", fault)
            continue
        verdict = (
            "verified" if re.search(options.accept or r"^verified\b", lines[place]) else "refused"
        )
        differs = verdict != case.verdict
        yield Result(
            case,
            "differs" if differs else None,
            f"{verdict}, which is to be {case.verdict}" * differs,
        )


def each(chosen: List[Case], options: argparse.Namespace) -> Iterator[Result]:
    """Runs the command on each case, so many at a time, and shows on a terminal how many are
    done."""
    one = tightened if options.tighten else checked
    is_shown = sys.stderr.isatty()
    with ThreadPoolExecutor(max(options.jobs, 1)) as pool:
        for count, result in enumerate(pool.map(lambda case: one(case, options), chosen), 1):
            if is_shown:
                print(f"\r{count} of {len(chosen)}", end="", file=sys.stderr, flush=True)
            yield result
    if is_shown:
        print("\r" + " " * 40 + "\r", end="", file=sys.stderr, flush=True)


# ---- what is printed


def counted(results: Iterable[Result]) -> Counter[tuple[str, Optional[str]]]:
    """How many results have each wanted verdict and each fault."""
    return Counter((result.case.verdict, result.fault) for result in results)


def of_verdict(found: Counter[tuple[str, Optional[str]]], verdict: str) -> str:
    """How many cases that have this verdict have it from the checker, and how many there are."""
    count = sum(number for (wanted, _), number in found.items() if wanted == verdict)
    return f"{found[verdict, None]} of {count}"


def table(results: List[Result]) -> Iterator[str]:
    """The lines of the table by rule."""
    yield f'{"rule":12}{"verified":>14}{"refused":>14}{"crash":>8}'
    for rule in [*dict.fromkeys(result.case.rule for result in results), "all"]:
        found = counted(result for result in results if rule in (result.case.rule, "all"))
        crashes = found["verified", "crashed"] + found["refused", "crashed"]
        yield f'{rule:12}{of_verdict(found, "verified"):>14}{of_verdict(found, "refused"):>14}{crashes:8}'


def as_json(results: List[Result], options: argparse.Namespace) -> str:
    """The outcome as JSON."""
    found = Counter(result.fault for result in results)
    faults = [
        {
            "case": f"{case.rule}/{case.name}",
            "kind": case.kind,
            "choice": case.choice,
            "rests on": case.rests_on,
            "fault": fault,
            "words": words,
            "about": case.about,
        }
        for case, fault, words in results
        if fault
    ]
    verdicts = {
        verdict: dict(
            zip(("agree", "cases"), map(int, of_verdict(counted(results), verdict).split(" of ")))
        )
        for verdict in ("verified", "refused")
    }
    head = {
        "version": version(),
        "command": options.command,
        "profile": options.profile,
        "cases": len(results),
    }
    counts = {"agree": found[None], "differ": found["differs"], "crash": found["crashed"]}
    return json.dumps({**head, **counts, **verdicts, "faults": faults}, indent=2)


def write_junit(results: List[Result], path: str) -> None:
    """Writes the outcome as JUnit does."""
    suites = ElementTree.Element("testsuites")
    for rule in dict.fromkeys(result.case.rule for result in results):
        rows = [result for result in results if result.case.rule == rule]
        found = Counter(result.fault for result in rows)
        counts = {
            "tests": str(len(rows)),
            "failures": str(found["differs"]),
            "errors": str(found["crashed"]),
        }
        suite = ElementTree.SubElement(suites, "testsuite", {"name": rule, **counts})
        for case, fault, words in rows:
            test = ElementTree.SubElement(suite, "testcase", classname=rule, name=case.name)
            if fault:
                kind = "error" if fault == "crashed" else "failure"
                # XML has no place for most control characters
                message = re.sub(r"[^\t\n -\ud7ff\ue000-\ufffd]", "?", words)
                ElementTree.SubElement(test, kind, message=message).text = case.about
    ElementTree.ElementTree(suites).write(path, encoding="utf-8", xml_declaration=True)


# ---- the command line


def version() -> str:
    """The version of the cases."""
    return VERSION.read_text(encoding="utf-8").strip()


def left_out(words: str) -> List[str]:
    """The choices that are left out."""
    chosen = words.split(",")
    for word in chosen:
        if word not in CHOICES:
            raise argparse.ArgumentTypeError(f"{word} is none of {', '.join(CHOICES)}")
    return chosen


def read_options() -> argparse.Namespace:
    """The options of the command line."""
    parser = argparse.ArgumentParser(
        prog="run.py",
        description="Runs a checker of VIPR 1.0 certificates on the cases of this folder, and shows where it disagrees.",
        epilog="README.md has examples.",
    )
    add = parser.add_argument
    add(
        "command",
        nargs="+",
        metavar="COMMAND",
        help="the checker and its words; {} is the path of a case",
    )
    add("--only", choices=["format", "choice"], help="the cases of one kind alone")
    add("--except", dest="left_out", metavar="CHOICES", type=left_out, default=[], help=f"leaves out the cases of these choices, with a comma between them: {', '.join(CHOICES)}")  # fmt: skip
    add("--rule", action="append", help="the cases of a rule alone; may be given more than once")
    add("--profile", choices=["1", "2"], default="1", help="whose answers are wanted (1)")
    add(
        "--accept",
        metavar="REGEX",
        help="verified is what prints a line with REGEX, whatever its status is",
    )
    add(
        "--refused",
        metavar="STATUS",
        type=int,
        help="the exit status of a refusal: others count as a crash",
    )
    add(
        "--batch",
        action="store_true",
        help="runs COMMAND once on all paths; it prints a line for each",
    )
    add(
        "--lines", action="store_true", help="standard output has to be the lines of `vipr explain`"
    )
    add(
        "--tighten",
        action="store_true",
        help="COMMAND writes a tightened certificate, to standard output or to {out}",
    )
    add("--checker", metavar="COMMAND", type=shlex.split, help="what has to verify a tightened certificate; without it the text is compared with that of `vipr tighten`")  # fmt: skip
    add(
        "--seconds",
        type=float,
        help=f"how long a run may take ({SECONDS}, with --batch {BATCH_SECONDS})",
    )
    add(
        "--jobs",
        type=int,
        default=os.cpu_count() or 1,
        help="how many runs at a time (one for each core)",
    )
    add("--json", action="store_true", help="prints the outcome as JSON")
    add("--junit", metavar="FILE", help="writes the outcome to FILE, as JUnit does")
    add("--version", action="version", version=f"version {version()} of the cases")
    options = parser.parse_args()
    options.seconds = options.seconds or (BATCH_SECONDS if options.batch else SECONDS)
    return options


def is_chosen(case: Case, options: argparse.Namespace) -> bool:
    """Whether the options ask for a case."""
    if options.only not in (None, case.kind) or case.choice in options.left_out:
        return False
    if options.tighten and (case.verdict != "verified" if options.checker else not case.tightened):
        return False
    return case.rule in (options.rule or [case.rule])


def main() -> int:
    # as others do, it ends if what it prints to is closed
    signal.signal(signal.SIGPIPE, signal.SIG_DFL)
    options = read_options()
    chosen = [case for case in cases(options.profile) if is_chosen(case, options)]
    try:
        results = list(batch(chosen, options) if options.batch else each(chosen, options))
    except OSError as failure:
        print(f"{options.command[0]} can't be run: {failure}", file=sys.stderr)
        return 2
    print(as_json(results, options) if options.json else "\n".join(table(results)))
    for case, fault, words in results:
        if fault and not options.json:
            kind = f"choice: {case.choice}" if case.choice else f"format: {case.rests_on}"
            print(f"\n{case.rule}/{case.name} ({kind}): {words}\n    {case.about}")
    if options.junit:
        write_junit(results, options.junit)
    return int(any(result.fault for result in results))


if __name__ == "__main__":
    sys.exit(main())
