#!/usr/bin/env python3
"""Whether the cases of conformance/ tell wrong checkers from right ones.

usage: tests/sharpness.py [--found | --excused]

The wrong ones are versions of bench/plain_check.py: those that made_wrong.py makes by rule, and
those of lax_rules.py by hand. Each is given the cases that the format fixes, until one gets another
verdict than the table has: short cases first, and of those only cases whose run by the right model
reaches a line that the version changes. A run that breaks off counts as a refusal, and one that
doesn't end as no verdict. What the second profile alone does is told by its verdicts. Versions that
no case can tell are named in excused.txt, each with the reason, and aren't tried; with --excused
they are, and none may be told.

Each wrong rule of wrong_rules.py is found by a verdict, or by a text, of its own folder. If choices
alone find it there, no case of the format does anywhere: so the kinds agree with each other.

Prints each fault, and last `sharpness: N checks, F failed` with how many wrong versions were told;
the exit status is 1 if a check failed. With --found it also prints the case that tells each wrong
version. On a terminal it counts the versions.
"""
import os
import resource
import signal
import sys
from collections import namedtuple
from concurrent.futures import ProcessPoolExecutor

from texts import TOP, Checks
from wrong_rules import WRONG, WRONG_TIGHTENING
import lax_rules
import made_wrong
import plain_check
import run as runner

CHECKS = Checks("sharpness")
Known = namedtuple("Known", "name verdicts text lines")
# cases with more bytes are long: they are for versions that are wrong past some number of things
LONG = 4096
# how many seconds of the processor a wrong version may take for a case, which the right one reads
# in a hundredth of it, and for a long one; and how much memory, in bytes
SECONDS, LONG_SECONDS, MOST = 1, 20, 2**30
LEAST, LEAST_MADE = 60, 250
# what conformance/README.md says of the versions
FIGURES = (
    "There are {:,}: {:,} are made by rule from its source, and {:,} by hand.",
    "On some case, {:,} of them give a wrong verdict. The other {:,} are",
)
# functions that only the second profile uses, or that do more under it
SECOND = "covers: ", "meets: "
# the cases, short and long ones, and the wrong versions, which each process has
SHORT, LONG_ONES, VERSIONS = [], [], []


class TooLong(BaseException):
    """A wrong version doesn't end."""


def stop(*_):
    raise TooLong


# ---- wrong versions


def reached(text):
    """The lines of the model that a text reaches, by either profile."""
    lines = set()

    def look(frame, *_):
        lines.add(frame.f_lineno)
        return look

    def enter(frame, *_):
        return look if frame.f_code.co_filename == plain_check.__file__ else None

    sys.settrace(enter)
    for profile in 1, 2:
        plain_check.verdict(text, profile)
    sys.settrace(None)
    return lines


def known(pair):
    """A case of the format, from its lines for both profiles."""
    first, second = pair
    text = first.path.read_bytes()
    lines = reached(text) if len(text) <= LONG else None
    return Known(f"{first.rule}/{first.name}", (first.verdict, second.verdict), text, lines)


def read_cases(pool):
    """The cases that the format fixes, short ones first."""
    pairs = zip(runner.cases("1"), runner.cases("2"))
    pairs = [pair for pair in pairs if pair[0].kind == "format"]
    found = sorted(pool.map(known, pairs, chunksize=32), key=lambda case: len(case.text))
    SHORT.extend(case for case in found if case.lines is not None)
    LONG_ONES.extend(case for case in found if case.lines is None)


def prepare():
    """Sees to it that no wrong version runs away, or prints."""
    sys.stdout = sys.stderr = open(os.devnull, "w")
    signal.signal(signal.SIGVTALRM, stop)
    resource.setrlimit(resource.RLIMIT_AS, (MOST, MOST))


def answer(model, text, profile):
    """The verdict of a wrong version."""
    seconds = SECONDS if len(text) <= LONG else LONG_SECONDS
    try:
        signal.setitimer(signal.ITIMER_VIRTUAL, seconds)
        return model["verdict"](text, profile).split()[0]
    except TooLong:
        return "no answer"
    except Exception:
        return "refused"
    finally:
        signal.setitimer(signal.ITIMER_VIRTUAL, 0)


def told_among(cases, lines, model, profile):
    """The first of the cases that tells a wrong version, if one does."""
    for case in cases:
        if case.lines and lines and case.lines.isdisjoint(lines):
            continue
        if answer(model, case.text, profile) != case.verdicts[profile - 1]:
            # what tells one wrong version often tells the next
            cases.remove(case)
            cases.insert(0, case)
            return case.name
    return None


def told_by(place):
    """The case that tells a wrong version, if one does."""
    version = VERSIONS[place]
    try:
        model = version.make()
    except Exception:
        return "it is no program"
    profiles = (1, 2) if version.name.startswith(SECOND) else (1,)
    for cases in (SHORT, LONG_ONES) if version.is_of_size else (SHORT,):
        for profile in profiles:
            name = told_among(cases, version.lines, model, profile)
            if name:
                return name
    return None


def are_told(pool):
    """Whether each wrong version is told by a case, but for those that are excused. Gives how many
    are told."""
    wants_none, all_told = "--excused" in sys.argv, 0
    found = pool.map(told_by, range(len(VERSIONS)), chunksize=4)
    for count, (version, told) in enumerate(zip(VERSIONS, found), 1):
        if "--found" in sys.argv:
            print(f"{version.name} | {told}", flush=True)
        CHECKS.check((told is None) == wants_none, f"{version.name}: {told or 'no case tells it'}")
        all_told += told is not None
        show_progress(count)
    return all_told


def show_progress(count):
    """Counts the wrong versions that were tried, on a terminal."""
    if sys.stderr.isatty():
        end = "\n" if count == len(VERSIONS) else ""
        print(f"\r{count} of {len(VERSIONS)} versions", end=end, file=sys.stderr, flush=True)


# ---- wrong rules, by folder


def changed(file, pieces):
    """What a model of bench/ defines with edits: pieces of it, each with what is written for it."""
    source = (TOP / "bench" / file).read_text()
    for old, new in zip(pieces[::2], pieces[1::2]):
        if source.count(old) != 1:
            raise ValueError(f"{file} has {source.count(old)} times {old!r}")
        source = source.replace(old, new)
    return made_wrong.run(compile(source, file, "exec"))


def finding(model, cases, profile):
    """The cases whose verdict a model gets wrong."""
    return [
        case for case in cases if answer(model, case.path.read_bytes(), profile) != case.verdict
    ]


def fault_of_rule(place):
    """What is wrong with how a wrong rule is found, if something is."""
    rule, (words, *pieces) = place
    first, second = (
        [case for case in runner.cases(profile) if case.rule != "sizes"] for profile in "12"
    )
    model = changed("plain_check.py", pieces)
    found = finding(model, [case for case in first if case.rule == rule], 1)
    if not found and not finding(model, [case for case in second if case.rule == rule], 2):
        return f"no case of {rule} finds: {words}"
    if found and all(case.kind == "choice" for case in found):
        others = finding(model, [case for case in first if case.kind == "format"], 1)
        if others:
            return f"{words} is left open by cases of {rule}, and not by {[case.path.stem for case in others]}"
    return None


def writes(model, case, profile):
    """The text that a model of `tighten` writes; None if it is no proof."""
    try:
        return model["tightened"](case.path.read_bytes(), profile)[0]
    except model["Refused"]:
        return None


def fault_of_tightening(edit):
    """What is wrong with how a wrong rule of tightening is found, if something is."""
    words, *pieces = edit
    model = changed("plain_tighten.py", pieces)
    for profile in "12":
        for case in runner.cases(profile):
            if case.tightened and writes(model, case, int(profile)) != case.tightened.read_bytes():
                return None
    return f"no case of tightening finds: {words}"


def rules_are_found(pool):
    """Each wrong rule is found by a case of its own folder."""
    rules = {case.rule for case in runner.cases()} - {"sizes"}
    enough = sum(map(len, WRONG.values())) >= LEAST and {*WRONG, "tightening"} == rules
    CHECKS.check(enough, "too few wrong rules")
    places = [(rule, edit) for rule, edits in WRONG.items() for edit in edits]
    faults = [*pool.map(fault_of_rule, places), *pool.map(fault_of_tightening, WRONG_TIGHTENING)]
    for fault in faults:
        CHECKS.check(fault is None, fault)


def page_has_figures(*figures):
    """The page on the cases has the figures of this run."""
    page = (TOP / "conformance/README.md").read_text()
    for sentence, numbers in zip(FIGURES, figures):
        said = sentence.format(*numbers)
        CHECKS.check(said in page, f"conformance/README.md hasn't: {said}")


def main():
    sys.set_int_max_str_digits(0)
    made, by_hand = list(made_wrong.versions()), list(lax_rules.versions())
    CHECKS.check(len(made) >= LEAST_MADE, f"{len(made)} wrong versions are made by rule")
    unused = lax_rules.unused([version.name for version in made + by_hand])
    CHECKS.check(not unused, f"excuses for no wrong version: {unused}")
    wants_excused = "--excused" in sys.argv
    VERSIONS.extend(
        each for each in made + by_hand if lax_rules.is_excused(each.name) == wants_excused
    )
    with ProcessPoolExecutor(os.cpu_count()) as pool:
        read_cases(pool)
    with ProcessPoolExecutor(os.cpu_count(), initializer=prepare) as pool:
        told = are_told(pool)
        rules_are_found(pool)
    if not wants_excused:
        every = len(made) + len(by_hand)
        page_has_figures([every, len(made), len(by_hand)], [told, every - told])
    return CHECKS.end(f"; {told} of {len(VERSIONS)} wrong versions are told")


if __name__ == "__main__":
    sys.exit(main())
