#!/usr/bin/env python3
"""Tries the completions, the man page, and the installation.

usage: tests/interface.py [PROGRAM]     crates/vipr/out/vipr without it

The bash completion is tried, also in a terminal, the man page is laid out if `groff` is there, its
examples and those of the help are run, and the program is installed into a folder and removed
again. Each link of an installed page is followed there. tests/written.py compares man page and
completions with the help.

Prints each fault, and last `interface: N checks, F failed`; the exit status is 1 if one failed.
"""
import lzma
import os
import pty
import re
import shutil
import subprocess
import sys
import tempfile
import threading
from pathlib import Path

from texts import TOP, Checks, program, said_version
import kit
import manual
from manual import MAN, help_of, values_in

manual.PROGRAM = PROGRAM = program(sys.argv[1:])
INSTALLED = [
    "bin/vipr",
    "share/bash-completion/completions/vipr",
    "share/fish/vendor_completions.d/vipr.fish",
    "share/man/man1/vipr.1",
    "share/zsh/site-functions/_vipr",
]
DOC = "share/doc/vipr"
CHECKS = Checks("interface")
check = CHECKS.check


def completed(words):
    """What bash completes the last word to."""
    line = " ".join(words)
    script = f'''source completions/vipr.bash
COMP_WORDS=({' '.join(repr(word) for word in words)}); COMP_CWORD={len(words) - 1}; COMP_LINE={line!r}
_vipr; printf '%s\\n' "${{COMPREPLY[@]}}"'''
    done = subprocess.run(
        ["bash", "-c", script], cwd=TOP, capture_output=True, text=True, check=False
    )
    return sorted(done.stdout.split())


# what is typed in a terminal, a tab at its end, and the words of the command that comes of it
TYPED = [
    ("vipr ti\t", ["tighten"]),
    ("vipr check plain\t", ["check", "plain.vipr"]),
    ("vipr check two\t", ["check", "two words.vipr"]),
    ('vipr check "two\t', ["check", "two words.vipr"]),
    ("vipr check folder/in\t", ["check", "folder/inner.vipr"]),
    ("vipr check --pro\t2 plain\t", ["check", "--profile", "2", "plain.vipr"]),
    ("vipr check --profile=2 two\t", ["check", "--profile=2", "two words.vipr"]),
    ("vipr check -- --pro\t", ["check", "--", "--pro"]),
    ("vipr tighten two\t--out pla\t", ["tighten", "two words.vipr", "--out", "plain.vipr"]),
    ("vipr tighten --out=two\t", ["tighten", "--out=two words.vipr"]),
    ("vipr plain\t", ["plain"]),
    ("vipr he\tti\t", ["help", "tighten"]),
    ("vipr help plain\t", ["help", "plain"]),
]


def typed():
    """The lines of TYPED in a bash with a terminal, in a folder with such names: each has the words
    that are wanted."""
    with tempfile.TemporaryDirectory() as name:
        (Path(name) / "folder").mkdir()
        for file in ("plain.vipr", "two words.vipr", "folder/inner.vipr"):
            (Path(name) / file).touch()
        words = f"{name}/.words"
        lines = [
            f"bind 'set enable-bracketed-paste off'; source '{TOP}/completions/vipr.bash'; PS1=",
            f"vipr() {{ printf '%s\\037' \"$@\" >> {words}; printf '\\036' >> {words}; }}",
        ]
        lines += [line for line, _ in TYPED] + ["exit"]
        ours, theirs = pty.openpty()
        with subprocess.Popen(
            ["bash", "--noprofile", "--norc", "-i"],
            stdin=theirs,
            stdout=theirs,
            stderr=theirs,
            cwd=name,
            start_new_session=True,
            env=dict(os.environ, TERM="dumb"),
        ) as child:
            os.close(theirs)
            threading.Thread(target=drain, args=[ours], daemon=True).start()
            for line in lines:
                os.write(ours, line.encode() + b"\n")
            try:
                child.wait(timeout=60)
            except subprocess.TimeoutExpired:
                child.kill()
        there = Path(words).read_text().split("\036")[:-1] if Path(words).is_file() else []
        got = [line.split("\037")[:-1] for line in there]
    for number, (line, wanted) in enumerate(TYPED):
        made = got[number] if number < len(got) else None
        check(made == wanted, f"in a terminal {line!r} becomes {made}, wanted {wanted}")


def drain(descriptor):
    """Reads what a terminal shows, so that the shell isn't kept waiting."""
    try:
        while os.read(descriptor, 4096):
            pass
    except OSError:
        pass


def heading():
    """The man page names the program's version and a day."""
    version = said_version(PROGRAM)[0].split()[-1]
    first = re.search(r"^\.TH .*$", MAN.read_text(), re.M)[0]
    check(
        re.fullmatch(
            rf'\.TH VIPR 1 \d{{4}}-\d\d-\d\d "vipr {re.escape(version)}" "User commands"', first
        ),
        f"man/vipr.1 begins with {first}",
    )


def examples():
    """The commands of the man page's examples print what stands below them."""
    text = MAN.read_text()
    for block in re.findall(r"^\.EX\n(.*?)^\.EE", text, re.M | re.S):
        plain = (
            re.sub(r"\\f[BIR]", "", block)
            .replace("\\-", "-")
            .replace("\\(aq", "'")
            .replace("\\e", "\\")
        )
        command, _, wanted = plain.partition("\n")
        words = command.removeprefix("$ ").split()
        done = subprocess.run(
            [PROGRAM, *words[1:]], cwd=TOP, capture_output=True, text=True, check=False
        )
        check(
            done.stdout + done.stderr == wanted,
            f"man/vipr.1: {command!r} prints {done.stdout + done.stderr!r}",
        )


def helped(names):
    """What stands behind `Example:` in a command's help can be run, and is an example of that
    command."""
    with tempfile.TemporaryDirectory() as folder:
        plan = Path(folder, "plan.vipr")
        shutil.copy(TOP / "examples/infeasible.vipr", plan)
        Path(folder, "plan.vipr.xz").write_bytes(lzma.compress(plan.read_bytes()))
        path = {**os.environ, "PATH": f'{PROGRAM.parent}:{os.environ["PATH"]}'}
        for name in names:
            example = re.search(r"^Example: (.*)$", help_of(name), re.M)
            check(
                example is not None and f"vipr {name}" in example[1],
                f"vipr {name} --help has no example of it",
            )
            if example and (shutil.which("xz") or "xz" not in example[1]):
                done = subprocess.run(
                    ["sh", "-c", example[1]], cwd=folder, env=path, capture_output=True, check=False
                )
                check(
                    done.returncode == 0,
                    f"vipr {name} --help: {example[1]!r}: {done.stderr.decode()}",
                )


def installation():
    """`make install` puts each file in its place, and `make uninstall` takes them all away."""
    with tempfile.TemporaryDirectory() as name, tempfile.TemporaryDirectory() as room:
        program = Path(room) / "vipr"
        shutil.copy(PROGRAM, program)
        words = [
            "make",
            "--no-print-directory",
            "-o",
            str(program),
            f"PROGRAM={program}",
            f"PREFIX={name}",
        ]
        for wrong in ("", f'{"0" * 64}  vipr\n'):
            program.with_name("vipr.sha256").write_text(wrong)
            for target in ("install", "check"):
                done = subprocess.run(
                    [*words, target], cwd=TOP, capture_output=True, text=True, check=False
                )
                check(
                    done.returncode
                    and "isn't the program" in done.stderr
                    and not any(Path(name).iterdir()),
                    f"make {target} takes another program: {done.stdout}{done.stderr}",
                )
        program.with_name("vipr.sha256").write_text(f"{kit.sum_of(program)}  vipr\n")
        for target in ("install", "uninstall"):
            done = subprocess.run(
                [*words, target], cwd=TOP, capture_output=True, text=True, check=False
            )
            check(done.returncode == 0, f"make {target}: {done.stdout}{done.stderr}")
            there = sorted(
                str(path.relative_to(name)) for path in Path(name).rglob("*") if path.is_file()
            )
            pages = [name for name in there if name.startswith(DOC)]
            wanted = INSTALLED if target == "install" else []
            check(
                [name for name in there if name not in pages] == wanted
                and bool(pages) == bool(wanted),
                f"make {target} leaves {there}",
            )
            if target == "install":
                links(Path(name) / DOC)
                done = subprocess.run(
                    [Path(name) / "bin/vipr", "check", "examples/infeasible.vipr"],
                    cwd=TOP,
                    check=False,
                    capture_output=True,
                    text=True,
                )
                check(
                    done.stdout.startswith("verified infeas\n"),
                    f"the installed program prints {done.stdout!r}",
                )


def links(folder):
    """Each page that the man page names is installed, and so is what the links of installed pages
    name."""
    for name in re.findall(r"[\w/]+\.md", MAN.read_text()):
        check((folder / name).is_file(), f"the man page names {name}, which is not installed")
    for page in sorted(folder.rglob("*.md")):
        for target in re.findall(r"\]\(([^)#\s]+)[^)]*\)", page.read_text()):
            if not re.match("[a-z]+:", target):
                path = (page.parent / target).resolve()
                check(path.exists(), f"{page.relative_to(folder)}: {target} is not installed")


def make(*words):
    environment = {
        name: value
        for name, value in os.environ.items()
        if name not in ("MAKEFLAGS", "MFLAGS", "RT")
    }
    done = subprocess.run(
        ["make", "--no-print-directory", *words],
        cwd=TOP,
        env=environment,
        stdout=subprocess.PIPE,
        stderr=subprocess.STDOUT,
        text=True,
        check=False,
    )
    return done.returncode, done.stdout


def first_commands():
    """A program that is newer than its sources isn't built again, and a toolchain that is missing
    is named in two lines."""
    with tempfile.TemporaryDirectory() as name:
        program = Path(name) / "vipr"
        shutil.copy(PROGRAM, program)
        for target in ("check", "install"):
            program.touch()
            _, said = make("-n", target, f"PROGRAM={program}", f"PREFIX={name}")
            check(
                "build.py" not in said and str(program) in said,
                f"make {target} over a built program would do {said!r}",
            )
            os.utime(program, (0, 0))
            _, said = make("-n", target, f"PROGRAM={program}", f"PREFIX={name}")
            check(
                "build.py" in said,
                f"make {target} over a program older than its sources would do {said!r}",
            )
    status, said = make("build", "RT=/nowhere/rt")
    # a make that runs inside another one names itself make[1]
    lines = [line for line in said.split("\n") if line and not re.match(r"make(\[\d+\])?: ", line)]
    check(
        status
        and len(lines) == 2
        and lines[0].startswith("'/nowhere/rt' isn't on the path")
        and "README" in lines[1],
        f"make build without rt: status {status}: {said}",
    )


def main():
    _, commands, options = manual.described()
    names = sorted(command.name for command in commands)
    check(
        completed(["vipr", ""])
        == sorted([*names, "help"] + [flag for flags, _ in options for flag in flags]),
        f'bash completes a first word to {completed(["vipr", ""])}',
    )
    for name in names:
        check(
            completed(["vipr", name[:-1]]) == [name],
            f'bash completes {name[:-1]} to {completed(["vipr", name[:-1]])}',
        )
        got = completed(["vipr", name, "--", "--"])
        check(got == [], f"behind -- bash completes --, of {name}, to {got}")
    for command in commands:
        for flags, value, about in command.flags():
            if values_in(about):
                got = completed(["vipr", command.name, flags[-1], ""])
                check(got == values_in(about), f"bash completes a value of {flags[-1]} to {got}")
                got = completed(["vipr", command.name, flags[-1], "=", ""])
                check(got == values_in(about), f"bash completes a value of {flags[-1]}= to {got}")
    typed()
    if shutil.which("groff"):
        done = subprocess.run(
            ["groff", "-man", "-ww", "-Tutf8", "-z", str(MAN)],
            capture_output=True,
            text=True,
            check=False,
        )
        check(not done.stderr and done.returncode == 0, f"groff: {done.stderr}")
    for shell, file in [("zsh", "completions/_vipr"), ("fish", "completions/vipr.fish")]:
        if shutil.which(shell):
            done = subprocess.run(
                [shell, "-n", file], cwd=TOP, capture_output=True, text=True, check=False
            )
            check(done.returncode == 0, f"{shell}: {done.stderr}")
    heading()
    examples()
    helped(names)
    installation()
    first_commands()
    return CHECKS.end()


sys.exit(main())
