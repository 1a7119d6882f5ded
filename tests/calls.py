#!/usr/bin/env python3
"""The system calls that a run makes, against the list in docs/SECURITY.md.

usage: tests/calls.py [--write] [PROGRAM]     crates/vipr/out/vipr without it

Each command is run over small and larger texts, verified ones and refused ones. `tighten` writes to
a new file, to one that is there and through links, also relative ones, and in place; also if a call
that gives the file its owner, its name or a place on the disk fails; and as root, to a file of
another owner. What strace shows of a run, from the moment at which the program itself begins, has
to be in the list; and the files that are opened, renamed or removed are the one that is named, OUT,
its folder, and one that the run makes itself. The same runs, under a filter that kills a run at any
call that isn't in the list, end by themselves.

--write writes the list. Prints each call that isn't in it, and last `calls: N runs, F failed`.
Without strace, or if it may not trace, nothing is run, and without a C compiler no filter is made;
a line says so. The exit status is 1 if a run failed.
"""
import os
import re
import shutil
import sys
import tempfile
from pathlib import Path

from texts import TOP, Checks, may_trace, program, run, text_of, traced
from sources import replaced
import families

PAGE = TOP / "docs/SECURITY.md"
MARKS = "<!-- calls: written by `tests/calls.py --write` -->", "<!-- end of the calls -->"
# the program's first call of its own
BEGINS = "rt_sigaction(SIGPIPE"
# a folder that the program may open in place of a closed stream
IN_PLACE = {"/"}


# runs a program under a filter of the system calls
FILTER = r"""
#include <linux/filter.h>
#include <linux/seccomp.h>
#include <stddef.h>
#include <sys/prctl.h>
#include <sys/syscall.h>
#include <unistd.h>

static const int allowed[] = {%s};
enum { COUNT = sizeof allowed / sizeof *allowed };

int main(int count, char **words)
{
    struct sock_filter filter[COUNT + 3];
    struct sock_fprog program = {COUNT + 3, filter};
    (void)count;
    filter[0] = (struct sock_filter)BPF_STMT(BPF_LD | BPF_W | BPF_ABS, offsetof(struct seccomp_data, nr));
    for (int n = 0; n < COUNT; n++)
        filter[n + 1] = (struct sock_filter)BPF_JUMP(BPF_JMP | BPF_JEQ | BPF_K, allowed[n], COUNT - n, 0);
    filter[COUNT + 1] = (struct sock_filter)BPF_STMT(BPF_RET | BPF_K, SECCOMP_RET_KILL_PROCESS);
    filter[COUNT + 2] = (struct sock_filter)BPF_STMT(BPF_RET | BPF_K, SECCOMP_RET_ALLOW);
    if (prctl(PR_SET_NO_NEW_PRIVS, 1, 0, 0, 0) || prctl(PR_SET_SECCOMP, SECCOMP_MODE_FILTER, &program))
        return 99;
    execv(words[1], words + 1);
    return 98;
}
"""


def filter_of(calls, name):
    """A program that runs another one, which is killed at any other call; None if it can't be made
    or is of no use here."""
    compiler, path = shutil.which("cc"), Path(ROOM, f"{name}.c")
    path.write_text(FILTER % ", ".join(f"SYS_{call}" for call in sorted(calls)))
    if not compiler or run([compiler, "-o", path.with_suffix(""), path]).returncode:
        return None
    return (
        None
        if run([path.with_suffix(""), PROGRAM, "--version"]).returncode == 99
        else path.with_suffix("")
    )


def calls_of(words, text=b"", options=()):
    """The calls of a run, each whole, those of the loader and those of the program."""
    _, calls = traced([PROGRAM, *words], *options, text=text, cwd=ROOM)
    begins = next((n for n, line in enumerate(calls) if line.startswith(BEGINS)), len(calls))
    return calls[:begins], calls[begins:]


def names(calls):
    return {line.split("(")[0] for line in calls}


def paths_of(calls, pattern):
    """The first paths of the calls that match."""
    found = [
        re.match(r'\w+\((?:AT_FDCWD, )?"([^"]*)"', line)
        for line in calls
        if re.match(pattern, line)
    ]
    return {Path(os.path.normpath(Path(ROOM, match[1]))) for match in found if match}


def touched(calls):
    """The files that a run opens, renames, links or removes, but for one that it makes itself."""
    made = paths_of(calls, r"openat.*O_EXCL")
    return paths_of(calls, r"open|rename|link|unlink") - (made if len(made) < 2 else set())


def runs():
    """Words and a text for each run, the files that it may open, whether OUT is named, and options
    of strace."""
    small, refused = TOP / "examples/cutoff_loose.vipr", TOP / "examples/overflow.vipr"
    large = Path(ROOM, "large.vipr")
    large.write_bytes(text_of(families.tree, 2_000_000))
    for command in ("check",), ("explain",), ("explain", "--long"), ("show",), ("tighten",):
        for path in small, refused, large, Path(ROOM, "missing"):
            yield [*command, str(path)], b"", {path}, False, []
        yield [*command], small.read_bytes(), set(), False, []
        yield [*command], refused.read_bytes(), set(), False, []
    for path in small, refused, large:
        yield from runs_to_out(path)


def runs_to_out(path):
    out = Path(ROOM, f"{path.stem}.out")
    for call in "link:error=EPERM", "link:error=EIO", None:
        out.unlink(missing_ok=True)
        yield ["tighten", str(path), "--out", out.name], b"", {path, out}, True, inject(call)
    yield ["tighten", str(path), "--out", str(out)], b"", {path, out}, True, []
    same = Path(ROOM, f"{path.stem}.same")
    same.write_bytes(path.read_bytes())
    if os.geteuid() == 0:
        os.chown(same, 1, 1)
    folder = Path(ROOM, f"{path.stem}.folder")
    folder.mkdir()
    links = [folder / "whole", folder / "up", folder / "again"]
    for link, target in zip(links, (same, f"../{same.name}", "up")):
        link.symlink_to(target)
    names_of_out = [str(same), same.name, *map(str, links), f"{folder.name}/again"]
    for name in names_of_out:
        for call in (
            "fsync:error=EIO",
            "rename:error=EIO",
            "rename:error=EBUSY",
            "fchmod:error=EIO",
            "fchown:error=EIO",
            "fchown:error=EPERM",
            "openat:error=EACCES:when=5",
            None,
        ):
            yield ["tighten", str(path), "--out", name], b"", {
                path,
                same,
                Path(ROOM, name),
            }, True, inject(call)


def inject(call):
    """The options of strace by which a call fails."""
    return ["-e", f"inject={call}"] if call else []


def listed(calls):
    return ", ".join(f"`{name}`" for name in sorted(calls))


def table(found):
    return "\n".join(
        [
            MARKS[0],
            "| Which run | Calls |",
            "|---|---|",
            f"| every command | {listed(found[False])} |",
            f'| `tighten --out OUT`, besides | {listed(found[True] - found[False]) or "none"} |',
            f"| the loader, before the program begins; they differ from system to system | {listed(found[None])} |",
            MARKS[1],
        ]
    )


def main():
    found, kept = {None: set(), False: set(), True: set()}, []
    page = PAGE.read_text(encoding="utf-8")
    rows = re.findall(r"^\| .* \| (.*) \|$", page.split(MARKS[0])[1].split(MARKS[1])[0], re.M)[1:]
    known = [set(re.findall(r"`(\w+)`", row)) for row in rows]
    for words, text, paths, is_out, options in runs():
        loader, own = calls_of(words, text, options)
        kept.append((words, text, is_out))
        found[None] |= names(loader)
        found[is_out] |= names(own)
        allowed, may_touch = set(known[0]), paths | {Path(name) for name in IN_PLACE}
        if is_out:
            allowed |= known[1]
            may_touch |= {path.parent for path in paths}
        others = touched(own) - may_touch
        wrong = [] if WRITES else sorted(names(own) - allowed)
        CHECKS.check(
            own and not others and not wrong,
            f'vipr {" ".join(words)}: calls {wrong}, touches {sorted(map(str, others))}, {len(own)} calls',
        )
    if WRITES:
        PAGE.write_text(replaced(page, MARKS, table(found)), encoding="utf-8")
    filters = [
        filter_of(known[0] | known[2], "most"),
        filter_of(known[0] | known[1] | known[2], "out"),
    ]
    if not shutil.which("cc"):
        CHECKS.skip("C compiler", "no run is tried under a filter of its calls")
    elif None in filters:
        print("calls: no filter of system calls can be made here, so none is tried")
    for words, text, is_out in kept if not WRITES and None not in filters else []:
        status = run([filters[is_out], PROGRAM, *words], text, cwd=ROOM).returncode
        CHECKS.check(status in range(4), f'vipr {" ".join(words)} under a filter: status {status}')
    return CHECKS.end()


CHECKS = Checks("calls", "runs")
WRITES = "--write" in sys.argv
PROGRAM = program([word for word in sys.argv[1:] if word != "--write"])
with tempfile.TemporaryDirectory(prefix="vipr-calls-") as ROOM:
    if not may_trace():
        CHECKS.skip("strace that may trace", "no call is looked at")
        STATUS = 0
    else:
        STATUS = main()
sys.exit(STATUS)
