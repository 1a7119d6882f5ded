#!/usr/bin/env python3
"""Tests the wrong versions of the code and of definitions, without the prover: their files,
tools/wrong.py and tools/wrong_definitions.py.

usage: tests/wrong_versions.py

Each edit of crates/*/must-fail and crates/*/wrong says first what it does, changes the code alone,
stands where it says, and is no other one once more. A case has an input, and two answers that
differ.

tools/wrong.py runs in a small repository, over tests/toolchain.py under the name `rt`. It counts
refusals by kind, and whatever an edit, a crate or a check comes to, it says so and its exit status
fits. Right code in another form, as the prover refused it, isn't refused with values.

Each edit of crates/*/wrong_definitions changes a definition, stands where it says, and names a law
that refuses it and a case. tools/wrong_definitions.py tells a law that is proved from one that is
refused and from one of which nothing is known.

Prints each fault, and last `wrong_versions: N checks, F failed`; the exit status is 1 if one
failed.
"""
import os
import re
import shutil
import subprocess
import sys
import tempfile
from pathlib import Path

from texts import TOP, Checks
import wrong
import wrong_definitions

CHECKS = Checks("wrong_versions")
check = CHECKS.check
# the first line of an edit, and its case
WHAT = re.compile(r"what: \S.*")
CASE = "input", "right", "wrong"
# what rattle-kit-13f said of right code in another form, without the ends of the lines
RIGHT_CODE = {
    "the sides of a sum exchanged": "./proofs/pairs/both/Answers.antt:11:104: error: `left`: as "
    "printed, the two types first differ where one has `c.args.r` (expected)",
    "a sum in the other order": "./proofs/sink_buffer/hand/Answers.antt:5:159: error: "
    "`returns-in-Ok`: as printed, the two types differ only where one has",
    "two conditions in the other order": "./proofs/split/is_next/Answers.antt:14:83: error: "
    "`returns-then-is_whole-2`: expected type `c.args.low.denom ≡ 1`, but this has type "
    "`c.args.high.denom ≡ 1`",
    "a mark that is never one, as its contract allows": "./proofs/mark/Mark/is_one/Proof.antt:92:5: "
    "error: `is_one_spec`: expected type",
}


# ---- the files of the edits


def forms():
    """The edits of the repository."""
    seen = {}
    for path in sorted(TOP.glob("crates/*/must-fail/*.edit")) + sorted(
        TOP.glob("crates/*/wrong/*.edit")
    ):
        crate, name = path.parent.parent, str(path.relative_to(TOP))
        lines = path.read_text().rstrip("\n").split("\n")
        words = [line.partition(": ")[0] for line in lines]
        check(WHAT.fullmatch(lines[0]), f"{name}: its first line doesn't say what it does")
        case = [word for word in words if word in CASE]
        check(case in ([], list(CASE)), f"{name}: its case has the lines {case}, not {CASE}")
        if case:
            right, false = (wrong.line_of(path, word) for word in CASE[1:])
            check(right != false, f"{name}: the right answer of its case is the wrong one")
        rest = [word for word in words[1:] if word not in CASE]
        pairs = re.fullmatch(r"(file( old new:?)+ ?)+", " ".join(rest))
        check(pairs, f"{name}: its lines are {rest}")
        texts, why = applied(crate, lines)
        check(not why, f"{name}: {why}")
        check(all(file.startswith("src/") for file in texts), f"{name}: it changes {[*texts]}")
        key = crate, *sorted(texts.items())
        check(key not in seen, f"{name}: it is {seen.get(key)} once more")
        seen[key] = name


def applied(crate, lines):
    """The texts of the files that an edit changes, and why it can't be applied."""
    texts, file, old = {}, "", ""
    for line in lines:
        word, _, text = line.partition(": ")
        if word == "file":
            file = text
            if not (crate / file).is_file():
                return texts, f"there is no {file}"
            texts.setdefault(file, (crate / file).read_text())
        elif word == "old":
            old = text
        elif word.rstrip(":") == "new":
            if texts[file].count(old) != 1:
                return texts, f"{old!r} stands {texts[file].count(old)} times in {file}"
            texts[file] = texts[file].replace(old, text)
    return texts, ""


# ---- definitions


def definitions():
    """The edits of definitions."""
    paths = sorted(TOP.glob("crates/*/wrong_definitions/*.edit"))
    check(paths, "no wrong definitions")
    for path in paths:
        crate, name = path.parent.parent, str(path.relative_to(TOP))
        lines = path.read_text().rstrip("\n").split("\n")
        words = " ".join(line.partition(": ")[0] for line in lines)
        form = "what( proved)*( refused)+ input right wrong( file( old new)+)+"
        check(re.fullmatch(form, words), f"{name}: its lines are {words}")
        texts, why = applied(crate, lines)
        check(not why, f"{name}: {why}")
        folders = {file.partition("/")[0] for file in texts}
        check({"specs"} <= folders <= {"specs", "proofs"}, f"{name}: it changes {[*texts]}")
        for word in ("proved", "refused"):
            for law in wrong_definitions.laws(path, word):
                file, _, function = law.partition("::")
                source = crate / f"src/{file}.rt"
                is_there = source.is_file() and f"pub fn {function}()" in source.read_text()
                check(is_there, f"{name}: there is no law {law}")


class LawJudge:
    """A judge that knows no prover: what it says of a law stands in `says`."""

    def __init__(self, says):
        self.says, self.rt = says, self

    def check(self, texts, names):
        return self.says[names[0]]

    def unread(self, line, texts):
        return "cannot be read" in line


def laws():
    """What tools/wrong_definitions.py says of a law, by what the prover said."""
    error = "./proofs/One.antt:2:1: error: `one`: the two types differ"
    for said, wanted in (
        ((0, ["only=1 proved=1"]), "proved"),
        ((1, [error, "only=1 proved=0"]), "refused"),
        ((1, ["only=1 proved=0"]), "unclear"),
        ((1, ["specs/One.antt:1:1: error: this cannot be read", "only=1 proved=0"]), "unclear"),
        ((1, [error, "only=0 proved=0"]), "unclear"),
        ((0, [error, "only=1 proved=0"]), "unclear"),
        ((3, [error, "only=1 proved=0"]), "unclear"),
        ((-9, [error]), "unclear"),
    ):
        got, _ = wrong_definitions.answer_of(LawJudge({"law": said}), {}, "law")
        check(got == wanted, f"a law of which the prover says {said}: {got}, not {wanted}")


# ---- tools/wrong.py


class Place:
    """A small repository: the crate `low`, the crate `high` above it, and a toolchain that does as
    it is told."""

    def __init__(self, room):
        self.room, self.tree = room, room / "vipr"
        self.log = room / "log"
        (room / "bin").mkdir()
        (room / "bin/rt").symlink_to(TOP / "tests/toolchain.py")
        (self.tree / "tools").mkdir(parents=True)
        for script in ("wrong.py", "kit.py"):
            shutil.copy(TOP / "tools" / script, self.tree / "tools")
        (self.tree / "crates.txt").write_text("low:\nhigh: low\n")
        for crate in ("low", "high"):
            for part in ("src", "wrong"):
                (self.tree / "crates" / crate / part).mkdir(parents=True)

    def crate(self, name):
        return self.tree / "crates" / name

    def begin(self, crate="low", lines=(), bodies=()):
        """Gives a crate edits of lines at its root and of bodies of functions, and no others."""
        folder = self.crate(crate)
        for old in (*folder.glob("wrong/*"), *folder.glob("out/*")):
            old.unlink()
        (folder / "src/lib.rt").write_text("".join(f"// {name}\n" for name in lines))
        functions = [f"fn {name}() {{\n    // {name}\n}}\n" for name in bodies]
        (folder / "src/part.rt").write_text("\n".join(functions))
        for file, names in (("lib.rt", lines), ("part.rt", bodies)):
            for name in names:
                self.write_edit(folder / "wrong" / f"{name}.edit", name, file)

    def write_edit(self, path, name, file="lib.rt", case=""):
        path.write_text(
            f"what: a line\n{case}file: src/{file}\nold: // {name}\nnew: // {name}, changed\n"
        )

    def run(self, *words, plan=()):
        """The status of tools/wrong.py, what it prints, and its last line."""
        (self.room / "plan").write_text("".join(f"{line}\n" for line in plan))
        self.log.write_text("")
        environment = {
            "PATH": f'{self.room / "bin"}:{os.environ["PATH"]}',
            "PLAN": str(self.room / "plan"),
            "LOG": str(self.log),
            "LC_ALL": "C.UTF-8",
            "PYTHONDONTWRITEBYTECODE": "1",
        }
        done = subprocess.run(
            [sys.executable, "tools/wrong.py", *words],
            cwd=self.tree,
            env=environment,
            stdin=subprocess.DEVNULL,
            stdout=subprocess.PIPE,
            stderr=subprocess.STDOUT,
            text=True,
            check=False,
        )
        return done.returncode, done.stdout, done.stdout.rstrip("\n").rpartition("\n")[2]

    def checks(self):
        """The edits of each check that was made."""
        return re.findall(r"^check of (.*) in \w+$", self.log.read_text(), re.M)


def counts(values=0, search=0, proof=0, missed=0, unjudged=0):
    """The last line of a run."""
    return (
        f"{values} refused with values, {search} refused where a search gave up, "
        f"{proof} refused by a written proof, {missed} not refused, {unjudged} not judged"
    )


def kinds(place):
    """Each kind of refusal counts for itself, and only one with values needs no case."""
    case = "input: 1/-2\nright: no number\nwrong: 1/2\n"
    for how, kind in (
        ("goal", "values"),
        ("search", "search"),
        ("searched", "search"),
        ("open", "search"),
        ("type", "proof"),
    ):
        for has_case in (False, True):
            place.begin(lines=["one", "two"])
            if has_case:
                place.write_edit(place.crate("low") / "wrong/two.edit", "two", case=case)
            status, out, last = place.run(plan=[f"edit two {how}"])
            wanted = {"values": 1}
            wanted[kind] = wanted.get(kind, 0) + 1
            is_good = how == "goal" or has_case
            said = "no values and no case: low/two" in out
            check(
                (status, last, said) == (int(not is_good), counts(**wanted), not is_good),
                f"an edit by {how}, with a case: {has_case}: {status}, {out}",
            )
    place.begin(bodies=["one", "two"])
    status, out, last = place.run(plan=["edit two type"])
    check((status, last) == (1, counts(values=1, proof=1)), f"two at once: {status}, {out}")


def right_code():
    """Right code that the prover refuses is refused by a written proof alone."""
    for name, said in RIGHT_CODE.items():
        kind, _ = wrong.kind_of(list(wrong.places([said])))
        check(kind is wrong.Outcome.PROOF, f"{name}: {kind}")


def faults(place):
    """An edit that isn't refused or isn't judged, and one that can't be applied."""
    for how, wanted in (
        ("proved", {"missed": 1}),
        ("unread", {"missed": 1}),
        ("name", {"unjudged": 1}),
        ("field", {"unjudged": 1}),
        ("limit", {"unjudged": 1}),
        ("killed", {"unjudged": 1}),
    ):
        place.begin(lines=["one", "two"])
        status, out, last = place.run(plan=[f"edit two {how}"])
        said = f'not {"refused" if "missed" in wanted else "judged"}: low/two'
        check(
            (status, last) == (1, counts(values=1, **wanted)) and said in out,
            f"an edit is {how}: {status}, {out}",
        )
    place.begin(lines=["one", "two"])
    (place.crate("low") / "src/lib.rt").write_text("// one\n")
    status, out, last = place.run()
    check(
        (status, last) == (1, counts(values=1, missed=1)) and "can't be applied" in out,
        f"an edit whose text is gone: {status}, {out}",
    )
    place.begin(lines=["one", "two"])
    status, out, _ = place.run("low", "low/three")
    check(status == 1 and "low/three" in out, f"an edit that isn't there: {status}, {out}")
    place.begin()
    status, out, _ = place.run()
    check(status == 1 and "no wrong versions" in out, f"no edit at all: {status}, {out}")


def unproved_crates(place):
    """Nothing is refused over a crate that isn't proved, or above one."""
    place.begin(lines=["one", "two"])
    status, out, last = place.run(plan=["proves low refused"])
    check(
        (status, last, place.checks()) == (1, counts(missed=2), [""]),
        f"the crate isn't proved: {status}, {out}, {place.checks()}",
    )
    place.begin()
    place.begin("high", lines=["one", "two"])
    status, out, _ = place.run(plan=["proves low refused"])
    check(
        status == 1 and "not proved: low" in out and not place.checks(),
        f"the crate below isn't proved: {status}, {out}, {place.checks()}",
    )
    place.begin("high")


def together(place):
    """One check of several edits judges each by its own function. Those that it doesn't refuse are
    tried once more, together if that can refuse one, and then alone."""
    names = ["four", "one", "three", "two"]
    everything = " ".join(names)
    alone = ["two"] * 4
    for hows, wanted, checks in (
        ({}, {"values": 4}, []),
        ({"two": "one"}, {"values": 4}, ["two"]),
        ({"two": "one", "three": "two"}, {"values": 4}, ["three two", "three"]),
        ({"two": "elsewhere"}, {"values": 4}, ["two"]),
        ({"two": "name"}, {"values": 3, "unjudged": 1}, alone),
        ({"two": "proved"}, {"values": 3, "missed": 1}, alone),
        ({"two": "killed"}, {"values": 3, "unjudged": 1}, ["four", "one", "three", *alone]),
        ({"two": "unread"}, {"values": 3, "missed": 1}, ["four", "one", "three", *alone]),
    ):
        place.begin(bodies=names)
        status, out, last = place.run(
            "low", plan=[f"edit {name} {how}" for name, how in hows.items()]
        )
        check(
            (status, last, place.checks())
            == (int(wanted != {"values": 4}), counts(**wanted), [everything, *checks]),
            f"together, {hows}: {status}, {out}, {place.checks()}",
        )
    place.begin(bodies=names)
    path = place.crate("low") / "wrong/four.edit"
    path.write_text(path.read_text().replace("changed", "changed // one"))
    status, out, last = place.run("low")
    check(
        (status, last, place.checks()) == (0, counts(values=4), ["four three two", "one"]),
        f"two edits that can't be made at once: {status}, {out}, {place.checks()}",
    )
    place.begin(bodies=["one"])
    path = place.crate("low") / "src/part.rt"
    path.write_text(path.read_text() + "\nfn two()\n    ensures { unit } // two\n{\n}\n")
    place.write_edit(place.crate("low") / "wrong/two.edit", "two", "part.rt")
    status, out, last = place.run("low")
    check(
        (status, last, place.checks()) == (0, counts(values=2), ["one", "two"]),
        f"a contract that an edit changes: {status}, {out}, {place.checks()}",
    )


def goes_on(place):
    """A run over all edits takes over what an earlier one refused, as long as nothing changed."""
    place.begin(lines=["one", "two"])
    low, judge = place.crate("low"), place.tree / "tools/wrong.py"
    for change, plan, wanted, checks in (
        (None, ["edit two name"], {"values": 1, "unjudged": 1}, {"one", "two"}),
        (None, ["edit one proved", "edit two proved"], {"values": 1, "missed": 1}, {"two"}),
        (None, [], {"values": 2}, {"two"}),
        (None, [], {"values": 2}, set()),
        (low / "wrong/one.edit", [], {"values": 2}, {"one"}),
        (low / "src/lib.rt", [], {"values": 2}, {"one", "two"}),
        (judge, [], {"values": 2}, {"one", "two"}),
        (judge, ["edit two open"], {"values": 1, "search": 1}, {"one", "two"}),
        (None, [], {"values": 1, "search": 1}, set()),
    ):
        if change:
            change.write_text(change.read_text() + "\n")
        status, out, last = place.run(plan=plan)
        check(
            (status, last, set(place.checks()))
            == (int(wanted != {"values": 2}), counts(**wanted), checks),
            f"a run over all after a change of {change}, {plan}: {status}, {out}, {place.checks()}",
        )
    with (low / "out/wrong-versions").open("a") as kept:
        kept.write("a1b2")
    status, out, last = place.run()
    check(
        (last, place.checks()) == (counts(values=1, search=1), []),
        f"a row that is half there: {status}, {out}",
    )
    place.run("low")
    check(set(place.checks()) == {"one", "two"}, f"a run by name: {place.checks()}")


def main():
    forms()
    definitions()
    laws()
    right_code()
    with tempfile.TemporaryDirectory(prefix="vipr-wrong-versions-") as name:
        place = Place(Path(name))
        for test in (kinds, faults, unproved_crates, together, goes_on):
            test(place)
    return CHECKS.end()


if __name__ == "__main__":
    sys.exit(main())
