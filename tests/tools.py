#!/usr/bin/env python3
"""Runs the scripts that build and test with a toolchain that fails, and looks whether they say so.

usage: tests/tools.py

The toolchain is tests/toolchain.py under the name `rt`, in a folder at the head of PATH, and the
repository a small one: the scripts of this, four crates without a text, and scripts of tests/ that
do nothing. Whatever fails, is killed or ends in half a line, the exit status is another than 0, the
crate is named, there is no vipr.sha256, and nothing is checked with or installed from what isn't
proved. Each script of tests/ is run by tests/all.py, and a failing one says so.

Prints each fault, and last `tools: N checks, F failed`; the exit status is 1 if one failed.
"""
import os
import re
import shutil
import subprocess
import sys
import tempfile
import time
from pathlib import Path

from texts import TOP, Checks
import all as test_command

CHECKS = Checks("tools")
check = CHECKS.check
CRATES = {"low": "", "vipr_c staticlib": "low", "vipr_command": "low", "vipr": "vipr_command low"}
LEFT_OUT = shutil.ignore_patterns("crates", ".git", "dist", "out", "release", "__pycache__")
# what tests/all.py runs, each without words: with some, a script could compare less, or write in
# place of comparing
SCRIPTS = {
    "theorems",
    "wrong_versions",
    "conformance_run",
    "sharpness",
    "solver",
    "library",
    "second",
    "python",
    "long",
    "hostile",
    "costs",
    "pages",
    "large",
    "fuzz",
    "conformance",
    "output",
    "archive",
    "growths",
    "calls",
    "answers",
    "kills",
    "interface",
    "house",
    "writer",
    "written",
    "released",
    "races",
    "browser",
    "language",
}
# what it doesn't run: itself, what `make test` runs before it, and the toolchain of these checks
OTHERS = {"all", "tools", "toolchain"}


class Place:
    """A small repository, with a toolchain that does as it is told."""

    def __init__(self, room):
        self.room, self.tree = room, room / "vipr"
        shutil.copytree(TOP, self.tree, ignore=LEFT_OUT)
        rows = [f'{name}:{deps and " "}{deps}\n' for name, deps in CRATES.items()]
        (self.tree / "crates.txt").write_text("".join(rows))
        for name in CRATES:
            folder = self.tree / "crates" / name.split()[0]
            for part in ("src", "specs", "proofs", "wrong"):
                (folder / part).mkdir(parents=True)
            (folder / "src/lib.rt").write_text("")
        (self.tree / "crates/vipr_command/src/args.rt").write_text('        .version("1.0.0")\n')
        (room / "bin").mkdir()
        (room / "bin/rt").symlink_to(TOP / "tests/toolchain.py")
        self.program = self.tree / "crates/vipr/out/vipr"
        self.sum = self.program.with_name("vipr.sha256")
        self.log = room / "log"
        self.let_scripts_end()

    def let_scripts_end(self, **ends):
        """Puts a script that does nothing in place of each of the test command; those that are
        named end so."""
        for name in SCRIPTS | {"tools"}:
            end = ends.get(name, "sys.exit(0)")
            script = f'import os, signal, sys\nprint("tests/{name}.py ran", sys.argv[1:])\nsys.stdout.flush()\n{end}\n'
            (self.tree / f"tests/{name}.py").write_text(script)

    def plan(self, *lines):
        (self.room / "plan").write_text("".join(f"{line}\n" for line in lines))
        self.log.write_text("")

    def run(self, *words, **more):
        """The status of a command in the repository, and what it prints."""
        there = {
            "PATH": f'{self.room / "bin"}:{os.environ["PATH"]}',
            "PLAN": str(self.room / "plan"),
            "LOG": str(self.log),
            "LC_ALL": "C.UTF-8",
            "PYTHONDONTWRITEBYTECODE": "1",
            **more,
        }
        done = subprocess.run(
            words,
            cwd=self.tree,
            env=there,
            stdin=subprocess.DEVNULL,
            stdout=subprocess.PIPE,
            stderr=subprocess.STDOUT,
            text=True,
            errors="replace",
            check=False,
        )
        return done.returncode, done.stdout

    def python(self, *words):
        return self.run(sys.executable, *words)

    def calls(self):
        return self.log.read_text().split("\n")[:-1]

    def forget(self):
        """Takes away what was built."""
        shutil.rmtree(self.program.parent, ignore_errors=True)

    def is_marked(self):
        """Whether the program there is marked as proved."""
        return (
            self.run("sh", "-c", f"cd {self.program.parent} && sha256sum --status -c vipr.sha256")[
                0
            ]
            == 0
        )


def build(place):
    """tools/build.py, and make: a build that fails in any way."""
    place.plan()
    status, out = place.python("tools/build.py")
    check(status == 0 and place.is_marked(), f"a build that goes well: {status}, {out}")
    for crate in ("low", "vipr_command", "vipr"):
        for how in ("refused", "killed", "terminated", "half"):
            place.plan(f"proves {crate} {how}")
            status, out = place.python("tools/build.py")
            check(
                status == 1 and f"{crate} is not built" in out and not place.sum.exists(),
                f"{crate} {how}: status {status}, vipr.sha256 {place.sum.exists()}, {out}",
            )
            check("is proved" not in out, out)
    place.forget()
    place.plan("proves vipr nothing")
    status, out = place.python("tools/build.py")
    check(
        status == 1 and "vipr is not built" in out and not place.sum.exists(),
        f"no program: status {status}, {out}",
    )
    library = place.tree / "crates/vipr_command/out/rlib"
    for how, wanted in (("unusable", 0), ("unusable-refused", 1)):
        library.mkdir(parents=True, exist_ok=True)
        place.plan(f"proves vipr_command {how}")
        status, out = place.python("tools/build.py")
        check(
            status == wanted
            and "all are built once more" in out
            and place.sum.exists() == (not wanted)
            and not library.exists(),
            f"a library that is {how}: status {status}, {out}",
        )


def make(place):
    """The targets that use the program: none does if it isn't the one that was proved."""
    prefix = place.room / "installed"
    targets = (
        ["check"],
        ["install", f"PREFIX={prefix}"],
        ["build"],
        ["dist"],
        ["test"],
        ["bench"],
        ["statement"],
    )
    for target in targets:
        for plan in (
            ["proves vipr_command refused", "gate failed"],
            ["proves low killed", "gate killed"],
        ):
            place.forget()
            if target in targets[:2]:
                # (they build nothing if nothing was built)
                place.plan()
                place.run("make", "build")
                os.utime(place.program, (0, 0))
            place.plan(*plan)
            status, out = place.run("make", "--no-print-directory", *target)
            check(
                status != 0
                and not place.sum.exists()
                and not prefix.exists()
                and "verified infeas" not in out,
                f'make {" ".join(target)}: status {status}, {out}',
            )
    place.plan("proves vipr_c refused")
    sums = place.tree / "crates/vipr_c/out/libvipr.sha256"
    sums.parent.mkdir(exist_ok=True)
    sums.write_text("as proved before")
    status, out = place.run("make", "lib")
    check(
        status != 0 and "a goal of vipr_c stays open" in out and not sums.exists(),
        f"make lib: status {status}, sums: {sums.exists()}, {out}",
    )
    place.plan()
    status, out = place.run("make", "--no-print-directory", "build", "check")
    check(status == 0 and last(out) == "verified infeas", f"make check: status {status}, {out}")
    place.program.write_text("#!/bin/sh\necho verified infeas, as it is not\n")
    for target in targets[:2]:
        status, out = place.run("make", "--no-print-directory", *target)
        check(
            status != 0 and not prefix.exists() and "as it is not" not in out,
            f"another program: status {status}, {out}",
        )


def changes(place):
    """A source, a definition or a lemma that changed is built anew."""

    def age(path, seconds):
        then = time.time() - seconds
        os.utime(path, (then, then))

    for file in (
        "crates/low/src/lib.rt",
        "crates/low/specs/Rule.antt",
        "crates/vipr_command/proofs/Lemmas.antt",
        "crates.txt",
    ):
        place.plan()
        place.run("make", "build")
        for path in (place.tree / "crates.txt", *(place.tree / "crates").rglob("*")):
            age(path, 200)
        age(place.program, 100)
        place.plan()
        check(
            place.run("make", "check")[0] == 0 and not place.calls(),
            f"built though nothing changed: {place.calls()}",
        )
        path = place.tree / file
        path.write_text(path.read_text() + "\n" if path.exists() else "new\n")
        status, out = place.run("make", "check")
        check(
            status == 0 and "lib in low" in place.calls(),
            f"{file} changed, and nothing is built: {out}",
        )


def tests(place):
    """tests/all.py: what the toolchain or a script does that fails in any way."""

    def all_of(*words, **ends):
        place.let_scripts_end(**ends)
        return place.python("tests/all.py", *words)

    count = len(SCRIPTS)
    place.plan()
    status, out = all_of()
    check(
        (status, last(out)) == (0, f"{7 + count} passed, 0 failed") and place.is_marked(),
        f"all is well: {out}",
    )
    missing = [name for name in SCRIPTS if f"tests/{name}.py ran []\n" not in out]
    check(not missing, f"scripts that did not run, or with words: {missing}")
    check(place.calls()[-1] == "ci in vipr", f"rt ci has the words {place.calls()}")
    program = place.run("sha256sum", place.program)[1].split()[0]
    check(f"sha256 {program} vipr\n" in out, f"the sum of the program is {program}: {out}")
    # (the toolchain and a script fail at once: each counts for itself)
    killed = "os.kill(os.getpid(), signal.SIGKILL)"
    for how, passed, end in (
        ("failed", 6, "sys.exit(1)"),
        ("mute", 7, "sys.exit(2)"),
        ("killed", 0, 'sys.exit("a fault")'),
        ("half", 0, "raise ValueError"),
        ("nothing", 7, killed),
    ):
        if how == "nothing":
            place.forget()
        place.plan(f"gate {how}")
        status, out = all_of(fuzz=end)
        check(
            (status, last(out)) == (1, f"{passed + count - 1} passed, 2 failed")
            and not place.sum.exists(),
            f"rt ci {how}, and a script with {end}: status {status}, {last(out)}",
        )
    place.plan()
    status, out = all_of(fuzz=killed)
    check(
        (status, last(out)) == (1, f"{6 + count} passed, 1 failed")
        and place.is_marked()
        and "FAILED: fuzz\n" in out,
        f"a script with {killed}: {last(out)}",
    )
    status, out = all_of(library="sys.exit(1)", house="sys.exit(1)")
    check(
        (status, last(out)) == (1, f"{5 + count} passed, 2 failed"),
        f"two scripts fail: {status}, {last(out)}",
    )
    skipped = (
        'print("fuzz: no strace here, so this is left out")\nprint("fuzz: no git here, so that is")'
    )
    status, out = all_of(fuzz=skipped, calls=skipped)
    check(
        (status, last(out)) == (0, f"{7 + count} passed, 0 failed, 4 skipped"),
        f"two scripts leave out two things: {last(out)}",
    )
    for words, known, wanted in ((["--anew"], "", "ci --anew"), (["--anew"], "help plain", "ci")):
        place.plan(known)
        status, out = all_of(*words)
        check(
            status == 0 and f"{wanted} in vipr" in place.calls(),
            f"{words}, {known}: rt has the words {place.calls()}",
        )


def whole_command(place):
    """`make test`, and what calls it: each fails if tests/tools.py fails, and then runs nothing
    else, or if tests/all.py fails."""
    for words in (["make", "--no-print-directory", "test"], [".ci/run"]):
        for end, gate, is_well in (
            ("sys.exit(0)", "well", True),
            ("sys.exit(0)", "failed", False),
            ("sys.exit(1)", "well", False),
        ):
            place.let_scripts_end(tools=end)
            place.plan(f"gate {gate}")
            status, out = place.run(*words)
            check(
                (status == 0) == is_well and bool(place.calls()) == (end == "sys.exit(0)"),
                f"{words} with tests/tools.py: {end}, and rt ci {gate}: status {status}, {out}",
            )


def what_is_packed(place):
    """tools/dist.py says of the archive which commit it is of, and whether a file isn't as it is
    there. Of what says that it is unproved it names no commit and no kit."""
    place.plan()

    def build_of(program, library):
        """What BUILD says of a program and a library that say these versions."""
        place.program.write_text(f"#!/bin/sh\necho vipr {program}\n")
        place.program.chmod(0o755)
        return place.python(
            "-c",
            'import sys; sys.path.insert(0, "tools"); import dist; '
            f'dist.version_of = lambda file: "{library}"; print(dist.build_of("1.0.0"))',
        )[1]

    for name in ("vipr/out/vipr", "vipr_c/out/libvipr.a", "vipr_c/out/libvipr.so.1.0.0"):
        path = place.tree / "crates" / name
        path.parent.mkdir(parents=True, exist_ok=True)
        path.write_text("")
    for program, library, is_proved in (
        ("1.0.0", "1.0.0", True),
        ("1.0.0 unproved", "1.0.0", False),
        ("1.0.0", "1.0.0 unproved", False),
        ("1.0.0", "0.9.0", False),
        ("0.9.0", "0.9.0", False),
    ):
        out = build_of(program, library)
        said = [line.partition(":")[0] for line in out.strip().split("\n")]
        named = ["commit", "kit", "sources"] if is_proved else []
        version = f'version: 1.0.0{"" if is_proved else " unproved"}\n'
        check(
            said
            == ["version", *named, "sha256 vipr", "sha256 libvipr.a", "sha256 libvipr.so.1.0.0"]
            and version in out,
            f"BUILD of the program {program} and the library {library}: {out}",
        )
    if not shutil.which("git"):
        CHECKS.skip("git", "what an archive says of its commit was not tried")
        return
    git = "git", "-c", "user.name=tests", "-c", "user.email=tests@localhost"
    place.run(*git, "init", "-q")
    place.run(*git, "add", ".")
    place.run(*git, "commit", "-q", "-m", "the whole tree")
    commit = place.run(*git, "rev-parse", "HEAD")[1].strip()
    page, new = place.tree / "README.md", place.tree / "python/vipr/new.py"
    for path, said in (
        (None, commit),
        (page, f"{commit} with changes"),
        (new, f"{commit} with changes"),
    ):
        if path:
            before = path.read_text() if path.exists() else ""
            path.write_text(f"{before}one more line\n")
        out = build_of("1.0.0", "1.0.0")
        check(f"\ncommit: {said}\n" in out, f"a tree with a change of {path}, of {said}: {out}")
        if path:
            place.run(*git, "checkout", "-q", ".")


def failing_scripts(place):
    """A script with a failing check, and a failing script of each kind, ends with status 1 and says
    how many failed. These checks don't go through `Checks`, of which the first ones are."""
    front = 'import sys\nsys.path.insert(0, "tests")\nfrom texts import Checks\nchecks = Checks("script")\n'
    for body, wanted in (
        ('checks.check(True, "")', (0, "script: 1 checks, 0 failed")),
        ('checks.check(False, "a fault")', (1, "script: 1 checks, 1 failed")),
        (
            'checks.check(False, "one"); checks.check(False, "two")',
            (1, "script: 2 checks, 2 failed"),
        ),
        ('checks.expect("what", 1, 2)', (1, "script: 0 checks, 1 failed")),
        ('checks.fail("a fault")', (1, "script: 0 checks, 1 failed")),
    ):
        status, out = place.python("-c", f"{front}{body}\nsys.exit(checks.end())")
        if (status, last(out)) != wanted:
            sys.exit(f"tools: a script with {body} ends with status {status}: {out}")
    liar, copy = place.room / "liar", place.room / "copy"
    liar.write_text("#!/bin/sh\necho verified infeas\n")
    liar.chmod(0o755)
    copy.mkdir()
    for path in TOP.iterdir():
        if path.name in ("tests", "tools"):
            shutil.copytree(path, copy / path.name)
        elif path.name not in (".git", "README.md", "crates.txt"):
            (copy / path.name).symlink_to(path)
    (copy / "README.md").write_text("It is a sentence" + " of many words" * 20 + ".\n")
    (copy / "crates.txt").write_text((TOP / "crates.txt").read_text() + "no_crate:\n")
    for name, *words in (
        ["house"],
        ["language", "README.md"],
        ["fuzz", "--models", "2", "--runs", "0", liar],
    ):
        status, out = place.run(sys.executable, copy / f"tests/{name}.py", *words)
        if status != 1 or not re.fullmatch(rf"{name}: \d+ \w+.*, [1-9]\d* failed.*", last(out)):
            sys.exit(
                f"tools: tests/{name}.py over what is wrong ends with status {status}: {out[-500:]}"
            )


def last(out):
    """The last line of an output."""
    return out.rstrip("\n").rpartition("\n")[2]


def scripts():
    """Each script of tests/ is run by tests/all.py, or is one of OTHERS. What has no first line for
    a shell is a module."""
    there = {
        path.stem for path in (TOP / "tests").glob("*.py") if path.read_text().startswith("#!")
    }
    run = [*test_command.FIRST, *test_command.THEN]
    check(sorted(run) == sorted(SCRIPTS), f"tests/all.py runs {sorted(run)}")
    check(
        there == SCRIPTS | OTHERS,
        f"tests/ has these in no list, or lacks them: {sorted(there ^ (SCRIPTS | OTHERS))}",
    )


def libraries(place):
    """tools/kit.py takes no library over that is older than a source."""
    made = place.tree / "crates/low/out/rlib/low.rlib"
    made.parent.mkdir(parents=True, exist_ok=True)
    made.write_text("")
    question = 'import sys; sys.path.insert(0, "tools"); import kit; print(kit.is_of_one_run())'
    newest = max(
        path.stat().st_mtime
        for path in (place.tree / "crates").rglob("*")
        if path.is_file() and "out" not in path.parts
    )
    for seconds, said in ((2, "True\n"), (-2, "False\n")):
        os.utime(made, (newest + seconds, newest + seconds))
        check(
            place.python("-c", question) == (0, said),
            f"a library {seconds} seconds after the sources: not {said}",
        )


def main():
    with tempfile.TemporaryDirectory(prefix="vipr-tools-") as name:
        place = Place(Path(name))
        scripts()
        build(place)
        make(place)
        changes(place)
        libraries(place)
        tests(place)
        whole_command(place)
        what_is_packed(place)
        failing_scripts(place)
    return CHECKS.end()


if __name__ == "__main__":
    sys.exit(main())
