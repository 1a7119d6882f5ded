#!/usr/bin/env python3
"""Runs what the pages say: each command, each table of examples, each quoted file.

usage: tests/pages.py [PROGRAM]     crates/vipr/out/vipr without it; with it no block marked `sh` is run

In README.md, CONTRIBUTING.md and the pages of docs/ and examples/ it looks at
- blocks marked `console`: each line `$ COMMAND` is run as a reader would, in one shell for all
  blocks of a section, at the top of the repository, with the built program as `vipr` on the path.
  The lines below it are what is printed on standard output and standard error, in the order in
  which they come; after a command whose last line is `$ echo $?` stands its status. The home folder
  is empty, TMPDIR isn't set, and a variable that isn't set ends the shell. The commands of
  docs/TUTORIAL.md are run in a folder with a link to the examples and the files of its blocks
  marked `vipr as NAME`;
- blocks marked with a file's name, as `vipr examples/infeasible.vipr`: they are that file, or a
  part of it, line by line;
- tables below a line `Changes of [..](..):`, with the columns `In place of`, `Write` and `Printed`
  last: each row changes one piece of the file that the line names, and `check` prints the last
  column as its first line;
- the tables of examples/README.md: each file has a row, with the verdict that `check` prints, and
  behind it what `explain` prints, or its model under bench/ where the program hasn't that command;
  a file that a script makes is what it makes;
- the pictures of docs/BENCHMARKS.md, which are drawn from its tables.

In the sources it looks at blocks in doc comments that are marked with a file's name: they are a
part of that file, at whatever indentation. Each call of DOCUMENTED has one.

Commands whose output isn't shown (a clone, an installation) stand in blocks marked `sh`. Each
program's name in them is known: `make` with a target that there is, or a program of KNOWN. Those of
the pages of RUN are run as they stand there, in this order, in a folder as a reader has it: the
name URL is this repository, and the home folder is empty. Those of README.md begin where a reader
begins, the others at the top of the clone that README's first command made. What was proved and
built here stands in the clone, so that nothing is proved twice. What the pages speak of is there: a
folder `certificates` with the examples, `certificate.vipr`, and `check.sh`, which is the page's
own. After each block it looks for what that is to leave: the verdict that was printed, the files
installed and removed again, the statuses of many files. `make test` and the scripts that it runs
aren't run, as they are being run.

A command that needs a program that isn't installed here, as `parallel`, is left out, and a line
says so. For programs that act outside a reader's folder, as `sbatch`, there are scripts at the head
of the path, so those of the machine are never run.

Prints each fault, and last `pages: N checks, F failed`; the exit status is 1 if one failed.
"""
import os
import re
import shutil
import subprocess
import sys
import tempfile
import textwrap
from pathlib import Path

from texts import TOP, Checks, program, run
from plain_check import explained
import kit
import cost_by_size
import measure

PROGRAM = program(sys.argv[1:])
PAGES = [
    "README.md",
    "CONTRIBUTING.md",
    "CHANGELOG.md",
    "docs/TUTORIAL.md",
    "docs/FORMAT.md",
    "docs/USE.md",
    "docs/REFEREE.md",
    "docs/SECURITY.md",
    "docs/LIBRARY.md",
    "docs/PROOF.md",
    "docs/STATEMENT.md",
    "docs/BENCHMARKS.md",
    "docs/dev/ARCHITECTURE.md",
    "docs/dev/DECISIONS.md",
    "docs/dev/CONTRACTS.md",
    "docs/dev/WORDS.md",
    "examples/README.md",
    "conformance/README.md",
    "rocq/README.md",
]
TUTORIAL = "docs/TUTORIAL.md"
# whose blocks marked `sh` are run
RUN = ["README.md", "docs/USE.md", "docs/LIBRARY.md", "docs/BENCHMARKS.md", "CONTRIBUTING.md"]
# what may stand in a block marked `sh`
KNOWN = {
    "git",
    "cd",
    "make",
    "man",
    "vipr",
    "rt",
    "python3",
    "source",
    "parallel",
    "sbatch",
    "export",
    "sudo",
    "pv",
    "cc",
    "g++",
    "./gmp_check",
    "$work/check",
    "~/vipr-python/bin/pip",
    "vipr-audit",
    "vipr-html",
    "vipr-picture",
    "./run.py",
    "rocq/vipr-rocq",
}
# public calls whose documentation shows an example
DOCUMENTED = ["check", "explain", "read_certificate", "tighten", "write_certificate"]
COMMENT = re.compile(r"(?:^ *//[/!][^\n]*\n)+", re.M)
BLOCK = re.compile(r"^```([^\n]*)\n(.*?)^```", re.M | re.S)
# what the test command runs by itself; tests/archive.py installs the wheel
RUNNING = re.compile(
    r"make test|make house|python3 tests/\w+\.py|python3 -m venv ~/vipr-python"
    r"|~/vipr-python/bin/pip install .*"
)
# what may not be installed
WANTED = ["cc", "man", "parallel", "pv"]
INSTALLED = [
    "bin/vipr",
    "share/bash-completion/completions/vipr",
    "share/fish/vendor_completions.d/vipr.fish",
    "share/man/man1/vipr.1",
    "share/zsh/site-functions/_vipr",
    "share/doc/vipr/docs/FORMAT.md",
]
ARCHIVE = "crates/vipr_c/out/libvipr.a"
LIBRARY = ["include/vipr.h", "lib/libvipr.a", "lib/libvipr.so", "lib/pkgconfig/vipr.pc"]
TASKS = 3
# programs that act outside a reader's folder
OUTSIDE = [
    "sbatch",
    "srun",
    "scancel",
    "sudo",
    "su",
    "pip",
    "pip3",
    "pipx",
    "apt",
    "apt-get",
    "dpkg",
    "ldconfig",
    "ssh",
    "scp",
    "curl",
    "wget",
]
# the commands in Python that blocks marked `sh` run
BESIDE = ["check-all", "html", "picture"]
CHECKS = Checks("pages")
left_out = set()


def check(good, page, line, what):
    CHECKS.check(good, f"{page}:{line}: {what}")


def shell(words, home, place, before, flags="-uc"):
    """The status of a reader's shell in a folder, and what it prints, with these folders before
    those of the path."""
    environment = {
        name: value for name, value in os.environ.items() if name not in ("TMPDIR", "MAKEFLAGS")
    }
    environment.update(
        PATH=":".join(map(str, [*before, os.environ["PATH"]])),
        LC_ALL="C.UTF-8",
        HOME=str(home),
        MANPAGER="cat",
        PAGER="cat",
    )
    done = subprocess.run(
        ["bash", flags, words],
        cwd=place,
        env=environment,
        stdout=subprocess.PIPE,
        stderr=subprocess.STDOUT,
        stdin=subprocess.DEVNULL,
        text=True,
        errors="replace",
        timeout=1800,
        check=False,
    )
    return done.returncode, done.stdout


def put_stand_ins(folder, top):
    """Scripts in place of programs that act outside a reader's folder: those of the machine are
    never run. `sbatch` runs each task in turn, and one that would install something fails. The
    commands of BESIDE are those of the repository.
    """
    texts = {name: 'echo "$0 is not run by a test" >&2; exit 1' for name in OUTSIDE}
    texts[
        "sbatch"
    ] = f'for task in $(seq {TASKS}); do\nSLURM_ARRAY_TASK_ID=$task SLURM_ARRAY_TASK_COUNT={TASKS} sh "$1" || true\ndone'
    python = f"PYTHONDONTWRITEBYTECODE=1 PYTHONPATH={top}/python exec {sys.executable} -m vipr"
    for name in BESIDE:
        texts[f"vipr-{name}"] = f'{python} {name} "$@"'
    for name, text in texts.items():
        (folder / name).write_text(f"#!/bin/sh\n{text}\n")
        (folder / name).chmod(0o755)


# ---- what the pages show


def commands_of():
    """The commands that the program's help lists."""
    text = run([PROGRAM, "--help"]).stdout.decode()
    return re.findall(r"^  ([a-z]+)  ", text.split("Commands:")[1].split("\n\n")[0], re.M)


def console(page, blocks, home, place):
    """Runs the commands of a section's blocks in one shell, with a mark in front of the output of
    each."""
    commands, wanted = [], []
    for line, text in blocks:
        needed = re.search(r"^[$>] .*?\b(parallel|xz|gzip|zstd|pv|man|fish|zsh)\b", text, re.M)
        if needed and not shutil.which(needed[1]):
            left_out.add(needed[1])
            continue
        for row in text.split("\n")[:-1]:
            if row.startswith("$ "):
                commands.append((line, row[2:]))
                wanted.append("")
            elif row.startswith("> ") and not wanted[-1]:
                commands[-1] = line, commands[-1][1] + "\n" + row[2:]
            else:
                wanted[-1] += row + "\n"
    mark = "@@@@ next"
    got = shell(
        "status=0\n"
        + "\n".join(
            f'printf "%s\\n" "{mark}"; (exit $status)\n{command}\nstatus=$?'
            for _, command in commands
        ),
        home,
        place,
        [home.parent],
    )[1]
    parts = got.split(mark + "\n")[1:]
    for number, (line, command) in enumerate(commands):
        printed = parts[number] if number < len(parts) else "(nothing was run)"
        check(
            printed == wanted[number],
            page,
            line,
            f"{command!r} prints {printed!r}, and the page has {wanted[number]!r}",
        )


def named(page, line, text):
    """Commands of a block marked `sh`: their names are known, and targets of make exist."""
    targets = re.findall(r"^([a-z-]+):", (TOP / "Makefile").read_text(), re.M)
    for row in re.sub(r"\\\n", " ", text).split("\n"):
        for part in re.split(r"&&|\|", row.split("#")[0]):
            words = part.split()
            if words and not re.match(r"\w+=", words[0]):
                check(words[0] in KNOWN, page, line, f"{words[0]!r} is no known program")
                if words[0] == "make":
                    for target in [word for word in words[1:] if "=" not in word]:
                        check(target in targets, page, line, f"make has no target {target!r}")


def verdict(text):
    done = run([PROGRAM, "check"], text)
    return (done.stdout + done.stderr).decode().rstrip("\n").split("\n")[0]


def unquoted(cell):
    """The bytes of a cell: text in backquotes, with `\\n` for a line feed."""
    inner = re.fullmatch(r"`` ?(.*?) ?``|`(.*)`|(nothing)", cell.strip())
    if inner is None:
        return None
    text = inner[1] or inner[2] or ""
    return text.replace("\\n", "\n").encode()


CHANGES = re.compile(r"Changes of \[[^\]]*\]\(([^)]*)\):\n\n((?:\|[^\n]*\n)+)")


def changes(page, text):
    """Tables of small changes of a file, and what `check` prints then."""
    for found in CHANGES.finditer(text):
        line = text[: found.start()].count("\n") + 1
        path = (TOP / page).parent / found[1]
        file = path.read_bytes()
        for offset, row in enumerate(found[2].split("\n")[2:-1]):
            cells = [cell.strip() for cell in row.strip("|").split("|")]
            old, new, printed = [unquoted(cell) for cell in cells[-3:]]
            if None in (old, new, printed) or file.count(old) != 1:
                check(
                    False,
                    page,
                    line + 4 + offset,
                    f'{row!r}: the piece stands {file.count(old or b"")} times in the file',
                )
                continue
            got = verdict(file.replace(old, new))
            check(
                got == printed.decode(), page, line + 4 + offset, f"{row!r}: check prints {got!r}"
            )


def quoted(page, line, text, name):
    """A block that is a file, or a run of its lines."""
    path = TOP / name
    if not path.is_file():
        check(False, page, line, f"there is no file {name}")
        return
    check(text in path.read_text(), page, line, f"the block is no part of {name}")


def documented():
    """Examples in doc comments are parts of files, and the calls of DOCUMENTED have one."""
    shown = set()
    for path in sorted((TOP / "crates").glob("*/src/**/*.rt")):
        text, page = path.read_text(), path.relative_to(TOP)
        for comment in COMMENT.finditer(text):
            words = re.sub(r"^ *//[/!] ?", "", comment[0], flags=re.M)
            call = re.match(r"(?: *#\[[^\n]*\n)* *pub fn (\w+)", text[comment.end() :])
            for found in BLOCK.finditer(words):
                name = found[1].split()[1:]
                if not name:
                    continue
                file = TOP / name[0]
                source = file.read_text() if file.is_file() else ""
                parts = [textwrap.indent(found[2], " " * depth) for depth in range(0, 20, 4)]
                line = text[: comment.start()].count("\n") + 1
                check(
                    any(part in source for part in parts),
                    page,
                    line,
                    f"the example is no part of {name[0]}",
                )
                if call:
                    shown.add(call[1])
    for name in DOCUMENTED:
        check(name in shown, "crates", "", f"the documentation of {name} has no example")


def examples(commands):
    """Each example has one row, with its verdict, and with its explanation where the program gives
    one."""
    page = "examples/README.md"
    rows = {}
    folder = TOP / "examples"
    for line, text in enumerate((TOP / page).read_text().split("\n"), 1):
        found = re.match(r"\| `([^`]*\.vipr)` \|", text)
        if found:
            there = sorted(folder.rglob(found[1]))
            check(len(there) == 1, page, line, f"there is no example {found[1]}")
            if there:
                rows[there[0]] = line, [cell.strip() for cell in text.strip("|").split("|")]
    for path in sorted(folder.rglob("*.vipr")):
        name = path.relative_to(folder)
        check(path in rows, page, "", f"{name} has no row")
        if path not in rows:
            continue
        line, cells = rows[path]
        got = verdict(path.read_bytes())
        check(cells[2] == f"`{got}`", page, line, f"check prints {got!r} for {name}")
        told = explained(path.read_bytes())
        if "explain" in commands:
            told = run([PROGRAM, "explain", path]).stdout.decode()
        first = 2 if told.startswith("verified") else 1
        shown = "; ".join(f"`{text}`" for text in told.rstrip("\n").split("\n")[first:])
        check(cells[3:4] == [shown], page, line, f"explain prints {shown} for {name}")
        maker = re.search(r"made by `(bench/\w+\.py)`", cells[1])
        if maker:
            made = run([sys.executable, TOP / maker[1]]).stdout
            check(
                made == path.read_bytes(), page, line, f"{maker[1]} makes another text than {name}"
            )


def look_at(page, text, room):
    """What a page's blocks and tables say."""
    home, place = room / "home", room / "empty" if page == TUTORIAL else TOP
    sections = {}
    for found in BLOCK.finditer(text):
        line, words = text[: found.start()].count("\n") + 1, found[1].split()
        if words[:1] == ["console"]:
            section = len(re.findall(r"^##+ ", text[: found.start()], re.M))
            sections.setdefault(section, []).append((line, found[2]))
        elif words[:1] == ["sh"]:
            named(page, line, found[2])
        elif words[1:2] == ["as"]:
            (place / words[2]).write_text(found[2])
        elif len(words) == 2:
            quoted(page, line, found[2], words[1])
    for blocks in sections.values():
        console(page, blocks, home, place)
    changes(page, text)


# ---- what the pages have a reader do


class Reader:
    """A reader's folder, and the shell that runs in it."""

    def __init__(self, room):
        self.room, self.clone, self.home = room, room / "vipr", room / "home"
        self.home.mkdir()
        # the repository may be another user's
        (self.home / ".gitconfig").write_text("[safe]\n\tdirectory = *\n")
        stand_ins = room / "bin"
        stand_ins.mkdir()
        put_stand_ins(stand_ins, self.clone)
        self.has_history = self.run("git rev-parse HEAD", TOP)[0] == 0
        self.place_source()

    def place_source(self):
        """The repository that is cloned: this one, or a copy where this folder has no history."""
        source = self.room / "URL"
        if self.has_history:
            source.symlink_to(TOP)
            return
        shutil.copytree(TOP, source, symlinks=True, ignore=shutil.ignore_patterns("out", ".git"))
        self.run(
            "git init -q . && git add -A && git -c user.name=reader -c user.email=reader@example commit -qm copy",
            source,
        )

    def run(self, words, folder):
        return shell(words, self.home, folder, [self.home / ".local/bin", self.room / "bin"], "-ec")

    def take_work(self):
        """Puts what differs here from the last commit into the clone, and what was proved and
        built."""
        changed = (
            self.run("git ls-files -m -o --exclude-standard", TOP)[1] if self.has_history else ""
        )
        for name in filter(None, changed.split("\n")):
            to = self.clone / name
            to.parent.mkdir(parents=True, exist_ok=True)
            if (TOP / name).is_file():
                shutil.copy2(TOP / name, to)
            elif to.is_file():
                to.unlink()
        for out in TOP.glob("crates/*/out"):
            shutil.copytree(out, self.clone / out.relative_to(TOP), dirs_exist_ok=True)
        kit.take_over(self.clone)
        if self.run(f"make -q {ARCHIVE}", TOP)[0] == 0:
            # tests/library.py built it from what stands here: it is older than the clone's files,
            # and isn't out of date
            os.utime(self.clone / ARCHIVE)

    def lay_out_files(self):
        """What docs/USE.md speaks of."""
        folder = self.clone / "certificates"
        shutil.copytree(
            self.clone / "examples",
            folder,
            ignore=lambda _, names: {name for name in names if ".md" in name},
        )
        shutil.copy(self.clone / "examples/infeasible.vipr", self.clone / "certificate.vipr")
        text = (self.clone / "docs/USE.md").read_text()
        [script] = [body for _, body in BLOCK.findall(text) if body.startswith("#!/bin/sh\n")]
        (self.clone / "check.sh").write_text(script)


def has_gmp():
    """Whether g++ is installed, and finds GMP's header."""
    words = ["g++", "-fsyntax-only", "-include", "gmpxx.h", "-x", "c++", os.devnull]
    return (
        bool(shutil.which("g++"))
        and subprocess.run(words, capture_output=True, check=False).returncode == 0
    )


def runnable(block):
    """The commands of a block that are run here."""
    rows = []
    for row in re.sub(r"\\\n", " ", block).split("\n"):
        if not row.strip() or RUNNING.fullmatch(row.strip()):
            continue
        lacking = [
            tool
            for tool in WANTED
            if re.search(rf"(^|[|&;] *){tool}\b", row) and not shutil.which(tool)
        ]
        if "gmp_check" in row and not has_gmp():
            lacking.append("g++ with GMP")
        left_out.update(lacking)
        if not lacking:
            rows.append(row)
    return rows


def status_of(reader, file):
    return str(run([reader.home / ".local/bin/vipr", "check", file], cwd=reader.clone).returncode)


def look_for(reader, page, rows, said):
    """What a command of a block is to leave or to print."""

    def check(good, what):
        CHECKS.check(good, f"{page}: {what}")

    words = "\n".join(rows)
    for found in re.finditer(r"make check FILE=(\S+)", words):
        check("verified infeas" in said, f"{found[0]} prints {said!r}")
    if "make install" in words:
        for name in INSTALLED:
            check((reader.home / ".local" / name).is_file(), f"make install leaves no {name}")
    if "man vipr" in rows:
        check("SYNOPSIS" in said, f"man vipr prints {said[:200]!r}")
    if "make install-lib" in words:
        for name in LIBRARY:
            check((reader.home / ".local" / name).is_file(), f"make install-lib leaves no {name}")
        callers = len(re.findall(r"/check(?:\.py)? examples", words))
        check(
            callers and said.count("infeasible.vipr: verified infeas, solutions 0") == callers,
            f"the callers print {said[-400:]!r}",
        )
    if "pv " in words:
        check("verified infeas" in said, f"pv certificate.vipr | vipr check prints {said!r}")
    if "gmp_check" in words:
        for file in sorted((reader.clone / "certificates").glob("**/*.vipr")):
            other = run([reader.clone / "gmp_check", file]).returncode
            check(str(other) == status_of(reader, file), f"gmp_check {file.name}: status {other}")
    if "parallel " in words:
        rows = [
            row.split("\t")
            for row in (reader.clone / "statuses.tsv").read_text().split("\n")[1:]
            if row
        ]
        files = sorted((reader.clone / "certificates").glob("*.vipr"))
        check(len(rows) == len(files), f"statuses.tsv has {len(rows)} rows for {len(files)} files")
        for row in rows:
            file = re.search(r"vipr check (\S+)", row[8])[1]
            check(row[6] == status_of(reader, file), f"parallel has the status {row[6]} of {file}")
    if "sbatch " in words:
        rows = [
            row.split("\t")
            for part in reader.clone.glob("part*.tsv")
            for row in part.read_text().splitlines()
        ]
        files = sorted(
            str(path.relative_to(reader.clone))
            for path in (reader.clone / "certificates").rglob("*.vipr")
        )
        check(
            sorted(row[2] for row in rows) == files,
            f"the parts have {len(rows)} rows for {len(files)} files",
        )
        for row in rows:
            wanted = {"0": "verified", "1": "refused"}[status_of(reader, row[2])]
            check(row[0] == wanted, f"check.sh has {row[0]} for {row[2]}")


def run_blocks(reader, page):
    """Runs the blocks of a page that are marked `sh`."""
    for kind, block in BLOCK.findall((TOP / page).read_text()):
        if kind.split()[:1] != ["sh"]:
            continue
        rows = runnable(block)
        if rows and rows[0].startswith("git clone"):
            status, said = reader.run(rows[0], reader.room)
            check(
                status == 0 and reader.clone.is_dir(),
                page,
                "",
                f"{rows[0]!r}: status {status}: {said}",
            )
            if not reader.clone.is_dir():
                return
            reader.take_work()
            reader.lay_out_files()
            rows = rows[1:]
        if rows:
            status, said = reader.run("\n".join(rows), reader.clone)
            # parallel's status is the number of files that are refused
            good = status == 0 or rows[0].startswith("parallel ")
            check(good, page, "", f"{rows!r}: status {status}: {said[-1000:]}")
            look_for(reader, page, rows, said)


def as_a_reader():
    """Runs the blocks marked `sh` of all pages of RUN, and removes what they installed."""
    with tempfile.TemporaryDirectory(prefix="vipr-commands-") as name:
        reader = Reader(Path(name))
        for page in RUN:
            run_blocks(reader, page)
        status, said = reader.run("make uninstall uninstall-lib PREFIX=$HOME/.local", reader.clone)
        left = [path for path in INSTALLED + LIBRARY if (reader.home / ".local" / path).exists()]
        check(
            status == 0 and not left,
            "Makefile",
            "",
            f"make uninstall: status {status}, and it leaves {left}: {said}",
        )


def pictures():
    """Checks that each picture of docs/BENCHMARKS.md is of one of its tables."""
    page = "docs/BENCHMARKS.md"
    text = (TOP / page).read_text()
    for name, drawn, script in (
        ("benchmarks.svg", measure.picture(text), "measure"),
        ("cost_by_size.svg", cost_by_size.picture(text), "cost_by_size"),
    ):
        path = TOP / "docs" / name
        found = path.read_text() if path.exists() else ""
        message = f"{name} is of another table: bench/{script}.py --picture"
        check(found == drawn, page, "", message)


def main():
    commands = commands_of()
    with tempfile.TemporaryDirectory() as name:
        room = Path(name)
        (room / "vipr").symlink_to(PROGRAM)
        for folder in ("home", "empty"):
            (room / folder).mkdir()
        (room / "empty/examples").symlink_to(TOP / "examples")
        put_stand_ins(room, TOP)
        for page in PAGES:
            look_at(page, (TOP / page).read_text(), room)
        examples(commands)
        documented()
    pictures()
    if not shutil.which("git"):
        CHECKS.skip("git", "no block marked `sh` was run")
    elif not sys.argv[1:]:
        as_a_reader()
    if "cc" in left_out:
        CHECKS.skip("C compiler", "its commands are left out")
    if left_out:
        print(f'pages: left out, for want of {", ".join(sorted(left_out))}')
    return CHECKS.end()


sys.exit(main())
