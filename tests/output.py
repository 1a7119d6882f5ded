#!/usr/bin/env python3
"""What the built program does to its streams and to OUT, however they are.

usage: tests/output.py [PROGRAM]     crates/vipr/out/vipr without it

- Each set of the descriptors 0 to 2 is closed at the start: a closed stream fails as a closed
  stream does, and no file that the program opens is one of them.
- `tighten --out OUT`, OUT new, there before and FILE itself too: with a file size limit, a full
  device and calls that fail it ends with the old text, the whole new one, or isn't there, and no
  file beside it is there. It keeps its permissions and owner, and a link stays a link. Streams and
  devices are written in place, and a mount point is left.
- While a run reads FILE or waits in a system call, the file beside OUT is moved, removed or
  replaced, and another OUT comes, or a link: no file but the run's own is given away, renamed or
  removed. Files whose names are like those of its own files stay.
- A file that is written in place is locked: another run leaves it.
- Each line on standard error is one write.

tests/kills.py kills runs, and tests/races.py changes names at random moments.

Prints each run that answers something else, and last `output: N runs, F failed`. What the machine
doesn't have (a small file system of its own, a user without rights, bindfs, strace) is skipped, and
a line says so. The exit status is 1 if a run failed.
"""
import contextlib
import fcntl
import functools
import itertools
import os
import re
import resource
import shutil
import signal
import socket
import stat
import struct
import subprocess
import sys
import tempfile
import time
from collections import Counter
from pathlib import Path
from typing import Callable, NamedTuple

from texts import TOP, Checks, program
import texts

PROGRAM = program(sys.argv[1:])
LOOSE = (TOP / "examples/cutoff_loose.vipr").read_bytes()
BROKEN = LOOSE.replace(b"VER", b"VEX", 1)
READ, NOT_WRITTEN = b"fault read\n", b"fault write after 0\n"
# the errors by which a file system says that it doesn't give a file this owner or these permissions
REFUSED = "EPERM", "ENOSYS", "EOPNOTSUPP"
CHECKS = Checks("output", "runs")
expect = CHECKS.expect


def run(words, text=b"", before=None, **more):
    """What a run of the program answers."""
    CHECKS.count += 1
    return texts.run([PROGRAM, *words], text, preexec_fn=before, **more)


def fresh(text=LOOSE):
    """A folder with a certificate in it."""
    folder = Path(tempfile.mkdtemp(dir=WORK))
    (folder / "a.vipr").write_bytes(text)
    return folder, folder / "a.vipr"


def names(folder):
    return sorted(path.name for path in folder.iterdir())


def read(path):
    """The text of a file, if it is there."""
    return path.read_bytes() if path.exists() else None


TIGHT, KEPT, _ = run(["tighten"], LOOSE)


# ---- closed streams


def closer(closed):
    def close():
        for number in closed:
            os.close(number)

    return close


def closed_streams():
    """Each set of 0 to 2 closed, for each command, over FILE and standard input, and OUT absent,
    new, there or FILE."""
    sets = [streams for count in range(4) for streams in itertools.combinations(range(3), count)]
    for command, closed, named, text in itertools.product(
        ("check", "explain", "show", "tighten", "--help", "nothing"),
        sets,
        (False, True),
        (LOOSE, BROKEN),
    ):
        outs = ("none", "new", "there", "file") if command == "tighten" else ("none",)
        for out in outs:
            one_closed(command, closed, named, text, out)


def one_closed(command, closed, named, text, out):
    folder, file = fresh(text)
    target = {"none": None, "new": folder / "out", "there": folder / "out", "file": file}[out]
    if out == "there":
        target.write_bytes(b"before")
    old = read(target) if target else None
    words = [command]
    if command in ("check", "explain", "show", "tighten"):
        words += [file] if named else []
        words += ["--out", target] if target else []
    whole = run(words, text) if not target else (run([*words[:-1], folder / "other"], text))
    (folder / "other").unlink(missing_ok=True)
    reads = command in ("check", "explain", "show", "tighten")
    wanted_out, wanted_err, wanted = whole
    if reads and not named and 0 in closed:
        wanted_out, wanted_err, wanted = b"", READ, 3
    elif 1 in closed and wanted_out:
        wanted_out, wanted_err, wanted = b"", NOT_WRITTEN, 3
    if 2 in closed:
        wanted_err = b""
    what = f'{command} with {closed} closed, FILE {named}, OUT {out}, {"VER" if text == LOOSE else "VEX"}'
    expect(what, run(words, text, closer(closed)), (wanted_out, wanted_err, wanted))
    if target:
        is_written = wanted == 0
        expect(f"{what}: OUT", read(target), TIGHT if is_written else old)
    expect(f"{what}: FILE", file.read_bytes(), TIGHT if out == "file" and wanted == 0 else text)
    expect(f"{what}: names", set(names(folder)) <= {"a.vipr", "out"}, True)
    shutil.rmtree(folder)


# ---- OUT that is there


def file_limit(size, action=signal.SIG_IGN):
    def limit():
        signal.signal(signal.SIGXFSZ, action)
        resource.setrlimit(resource.RLIMIT_FSIZE, (size, size))

    return limit


def memory_limit(size):
    return lambda: resource.setrlimit(resource.RLIMIT_AS, (size, size))


def limited():
    """A limit of the size of files, of each length up to the text's: a failed write, and OUT as it
    was."""
    for size in range(0, len(TIGHT) + 2):
        for kind in ("file", "there", "link", "new"):
            folder, file = fresh()
            out = {"file": file, "link": folder / "link"}.get(kind, folder / "out")
            if kind == "there":
                out.write_bytes(b"before")
            if kind == "link":
                (folder / "out").write_bytes(b"before")
                out.symlink_to("out")
            old, has_room = read(out), size >= len(TIGHT)
            names_after = sorted({*names(folder), *([out.name] if has_room else [])})
            got = run(["tighten", file, "--out", out], b"", file_limit(size))
            what = f"tighten to OUT ({kind}) with files of at most {size} bytes"
            expect(
                what,
                got,
                (b"", KEPT, 0) if has_room else (b"", b"fault write after %d\n" % size, 3),
            )
            expect(f"{what}: OUT", read(out), TIGHT if has_room else old)
            expect(f"{what}: names", names(folder), names_after)
            expect(f"{what}: a link", out.is_symlink(), kind == "link")
            shutil.rmtree(folder)


def many(n):
    """A proof with n derivations that are needed, and one that isn't."""
    lines = [
        "VER 1.0",
        "VAR 1",
        "x",
        "INT 0",
        "OBJ min",
        "0",
        "CON 2 0",
        "a G 1 1 0 1",
        "b L 0 1 0 1",
        "RTP infeas",
        "SOL 0",
        f"DER {n + 2}",
        "u G 1 1 0 1 { lin 1 0 1 } -1",
    ]
    at = 0
    for k in range(n):
        lines.append(f"d{k} G 1 1 0 1 {{ lin 1 {at} 1 }} -1")
        at = k + 3
    lines.append(f"f G 1 0 {{ lin 2 {at} 1 1 -1 }} -1")
    return "".join(f"{line}\n" for line in lines).encode()


def large():
    """The line and the text of a certificate of more than a buffer."""
    n = 60_000
    folder, file = fresh(many(n))
    kept = b"kept %d removed 1 peak %d 1\n" % (n + 1, n + 2)
    whole = run(["tighten", file])
    expect("a large text is tightened", whole[1:], (kept, 0))
    expect("a large text to OUT", run(["tighten", file, "--out", folder / "out"]), (b"", kept, 0))
    expect("a large text to OUT: its text", (folder / "out").read_bytes() == whole[0], True)
    limit, printed = 1_500_000, folder / "printed"
    with printed.open("wb") as stream:
        got = run(["tighten", file], b"", file_limit(limit), stdout=stream)
    expect(
        "a large text to a file that is limited",
        (*got[1:], printed.read_bytes() == whole[0][:limit]),
        (b"fault write after %d\n" % limit, 3, True),
    )


def small_stack():
    """A new OUT, one that is there and one by a link, with a stack of 64 kB."""
    folder, file = fresh()
    out = folder / "out"
    (folder / "link").symlink_to("out")
    for name in "out", "out", "link":
        got = run(
            ["tighten", file, "--out", folder / name],
            b"",
            lambda: resource.setrlimit(resource.RLIMIT_STACK, (64 << 10, 64 << 10)),
            env={},
        )
        expect(
            "tighten to OUT with a small stack", (got, out.read_bytes()), ((b"", KEPT, 0), TIGHT)
        )


@contextlib.contextmanager
def mount(point, *options):
    """A mount point for as long as it is needed, and whether it could be made."""
    is_made = (
        os.getuid() == 0
        and subprocess.run(["mount", *options, point], capture_output=True, check=False).returncode
        == 0
    )
    try:
        yield is_made
    finally:
        if is_made:
            subprocess.run(["umount", point], check=True)


def full_device():
    """A file system that has no room for the new text beside the old one: OUT is as before, or has
    the first N bytes."""
    folder, text = Path(tempfile.mkdtemp(dir=WORK)), many(40_000)
    tight = run(["tighten"], text)[0]
    with mount(
        folder, "-t", "tmpfs", "-o", f"size={len(text) * 3 // 2 >> 10}k", "tmpfs"
    ) as is_made:
        if not is_made:
            print(
                "output: no small file system can be made here, so the runs on a full one are skipped"
            )
            return
        file = folder / "a.vipr"
        file.write_bytes(text)
        for out in (file, folder / "new"):
            got = run(["tighten", file, "--out", out])
            expect("tighten to a full device", (got[2], accepted(got) is None), (3, False))
            expect(
                "tighten to a full device: OUT",
                (file.read_bytes() == text, names(folder)),
                (True, ["a.vipr"]),
            )
        for words in ["--out", "/proc/self/fd/1"], []:
            with (folder / "printed").open("wb") as stream:
                got = run(["tighten", file, *words], stdout=stream)
            printed = (folder / "printed").read_bytes()
            expect(
                "tighten in place on a full device",
                (got[2], accepted(got), printed == tight[: len(printed)]),
                (3, len(printed), True),
            )


def accepted(got):
    """How many bytes were written before a write failed, as the answer says; None if it doesn't."""
    said = re.fullmatch(rb"fault write after (\d+)\n", got[1])
    return said and int(said[1])


def modes():
    """The permissions and the owner are kept, and what may not be written isn't replaced."""
    for mode in (0o600, 0o640, 0o644, 0o666, 0o755, 0o777, 0o444):
        for mask in (0o022, 0o077, 0):
            folder, file = fresh()
            file.chmod(mode)
            got = run(["tighten", file, "--out", file], b"", lambda m=mask: os.umask(m))
            may = bool(mode & 0o200) or os.getuid() == 0
            expect(
                f"tighten to OUT of mode {mode:o}",
                got,
                (b"", KEPT, 0) if may else (b"", NOT_WRITTEN, 3),
            )
            expect(
                f"OUT of mode {mode:o}",
                (stat.S_IMODE(file.stat().st_mode), names(folder), file.read_bytes()),
                (mode, ["a.vipr"], TIGHT if may else LOOSE),
            )
    for mask in (0o022, 0o077, 0):
        folder, file = fresh()
        got = run(["tighten", file, "--out", folder / "out"], b"", lambda m=mask: os.umask(m))
        expect(
            "tighten to a new OUT",
            (got, stat.S_IMODE((folder / "out").stat().st_mode)),
            ((b"", KEPT, 0), 0o666 & ~mask),
        )
    access_list()
    if os.getuid():
        print(
            "output: the user has no right to give files away, so the runs of other owners are skipped"
        )
        return
    for owner, mode in itertools.product(
        ((1234, 2345), (1234, 0), (0, 2345), (0, 0)), (0o640, 0o4755, 0o2750, 0o7777)
    ):
        folder, file = fresh()
        os.chown(file, *owner)
        file.chmod(mode)
        expect(f"tighten to OUT of {owner}", run(["tighten", file, "--out", file]), (b"", KEPT, 0))
        after = file.stat()
        expect(
            f"OUT of {owner} with mode {mode:o}",
            (after.st_uid, after.st_gid, stat.S_IMODE(after.st_mode), file.read_bytes()),
            (*owner, mode, TIGHT),
        )
    without_rights()


def access_list():
    """A new file has no access control list, and the group has what the list's mask was; a text
    that is copied keeps it."""
    folder, file = fresh()
    name, no_one = "system.posix_acl_access", 0xFFFFFFFF
    # the owner rw, user 1234 rw, the group nothing, the mask rw, others nothing
    entries = (
        (0x01, 6, no_one),
        (0x02, 6, 1234),
        (0x04, 0, no_one),
        (0x10, 6, no_one),
        (0x20, 0, no_one),
    )
    try:
        os.setxattr(
            file,
            name,
            struct.pack("<I", 2) + b"".join(struct.pack("<HHI", *entry) for entry in entries),
        )
    except OSError:
        print("output: access control lists are not known here, so they are skipped")
        return
    expect("a text to a new file", run(["tighten", file, "--out", folder / "new"]), (b"", KEPT, 0))
    file.write_bytes((folder / "new").read_bytes())
    expect("a text that is copied", (name in os.listxattr(file), file.read_bytes()), (True, TIGHT))
    expect("tighten to OUT with a list", run(["tighten", file, "--out", file])[2], 0)
    expect(
        "OUT without its list",
        (name in os.listxattr(file), stat.S_IMODE(file.stat().st_mode)),
        (False, 0o660),
    )


def without_rights():
    """A user who may write OUT, and not its folder or not give it its owner, writes in place; or
    may not write at all."""

    def user():
        os.setgroups([])
        os.setgid(1234)
        os.setuid(1234)

    os.chmod(WORK, 0o755)
    for folder_mode, owner, mode, wanted in (
        (0o755, 1234, 0o644, 0),
        (0o777, 0, 0o666, 0),
        (0o777, 1234, 0o444, 3),
        (0o777, 0, 0o644, 3),
        (0o777, 1234, 0o600, 0),
        (0o333, 1234, 0o600, 0),
    ):
        folder, file = fresh()
        out = folder / "out"
        out.write_bytes(b"before")
        os.chown(out, owner, owner)
        out.chmod(mode)
        folder.chmod(folder_mode)
        node = out.stat().st_ino
        got = run(["tighten", "--out", out], file.read_bytes(), user)
        what = f"tighten as a user to OUT of {owner} with mode {mode:o} in a folder of mode {folder_mode:o}"
        expect(what, got, (b"", NOT_WRITTEN, 3) if wanted else (b"", KEPT, 0))
        after = out.stat()
        expect(
            f"{what}: OUT",
            (out.read_bytes(), after.st_uid, stat.S_IMODE(after.st_mode), names(folder)),
            (b"before" if wanted else TIGHT, owner, mode, ["a.vipr", "out"]),
        )
        is_beside = folder_mode != 0o755 and owner == 1234 and not wanted
        expect(f"{what}: a new file", after.st_ino != node, is_beside)


def links():
    folder, file = fresh()
    (folder / "deep").mkdir()
    target = folder / "deep" / "target"
    target.write_bytes(b"before")
    target.chmod(0o640)
    (folder / "second").symlink_to("deep/target")
    (folder / "first").symlink_to(folder / "second")
    expect("tighten to a link", run(["tighten", file, "--out", folder / "first"]), (b"", KEPT, 0))
    expect(
        "what it leads to",
        (target.read_bytes(), stat.S_IMODE(target.stat().st_mode), target.is_symlink()),
        (TIGHT, 0o640, False),
    )
    expect(
        "links stay",
        ((folder / "first").is_symlink(), (folder / "second").is_symlink()),
        (True, True),
    )
    expect(
        "names by a link",
        names(folder) + names(folder / "deep"),
        ["a.vipr", "deep", "first", "second", "target"],
    )
    (folder / "to_file").symlink_to("a.vipr")
    expect("OUT leads to FILE", run(["tighten", file, "--out", folder / "to_file"]), (b"", KEPT, 0))
    expect("FILE by a link", (file.read_bytes(), file.is_symlink()), (TIGHT, False))
    (folder / "loose").symlink_to("nothing")
    expect("OUT leads nowhere", run(["tighten", "--out", folder / "loose"], LOOSE), (b"", KEPT, 0))
    expect(
        "what it made",
        ((folder / "nothing").read_bytes(), (folder / "loose").is_symlink()),
        (TIGHT, True),
    )
    for name, target in zip("abcdefgh", ["loose", *"abcdefg"]):
        (folder / name).symlink_to(target)
    expect("OUT by nine links", run(["tighten", "--out", folder / "h"], LOOSE), (b"", KEPT, 0))
    expect(
        "OUT by nine links: it",
        ((folder / "nothing").read_bytes(), (folder / "h").is_symlink()),
        (TIGHT, True),
    )
    (folder / "ring").symlink_to("ring")
    expect(
        "OUT is a ring", run(["tighten", "--out", folder / "ring"], LOOSE), (b"", NOT_WRITTEN, 3)
    )
    file.write_bytes(LOOSE)
    os.link(file, folder / "hard")
    expect("OUT has two names", run(["tighten", file, "--out", file]), (b"", KEPT, 0))
    expect("the two names", (file.read_bytes(), (folder / "hard").read_bytes()), (TIGHT, LOOSE))


def relative():
    folder, file = fresh()
    for out in ("a.vipr", "./a.vipr", str(file), "../" + folder.name + "/a.vipr"):
        file.write_bytes(LOOSE)
        expect(f"--out {out}", run(["tighten", out, "--out", out], cwd=folder), (b"", KEPT, 0))
        expect(f"--out {out}: OUT", (file.read_bytes(), names(folder)), (TIGHT, ["a.vipr"]))
    longest = folder / ("x" * 255)
    longest.write_bytes(b"before")
    expect("OUT of the longest name", run(["tighten", "--out", longest], LOOSE), (b"", KEPT, 0))
    expect("its text", longest.read_bytes(), TIGHT)
    file.write_bytes(BROKEN)
    got = run(["tighten", file, "--out", longest])
    expect(
        "refused, OUT of the longest name",
        (got[2], longest.read_bytes(), len(names(folder))),
        (1, TIGHT, 2),
    )
    deep = folder.joinpath(*["d" * 250] * 12)
    deep.mkdir(parents=True)
    for before in (None, b"before"):
        if before:
            (deep / "out").write_bytes(before)
        node = before and (deep / "out").stat().st_ino
        expect("OUT of a long path", run(["tighten", "--out", deep / "out"], LOOSE), (b"", KEPT, 0))
        expect("its text", ((deep / "out").read_bytes(), names(deep)), (TIGHT, ["out"]))
        expect("it is a new file", (deep / "out").stat().st_ino != node, True)


def like_its_own():
    """A file whose name is that of a new file of a run, or is like one, is as any other: as FILE,
    as OUT and beside them."""
    is_traced = texts.may_trace()
    for middle in "keep", "my-notes", "0123456789abcdef":
        name = f".vipr-tighten-{middle}.tmp"
        folder, file = fresh()
        named, out = folder / name, folder / "out"
        named.write_bytes(b"mine")
        expect(f"{name} beside OUT", run(["tighten", file, "--out", out]), (b"", KEPT, 0))
        expect(
            f"{name} beside OUT: it",
            (read(named), names(folder)),
            (b"mine", sorted([name, "a.vipr", "out"])),
        )
        named.write_bytes(LOOSE)
        expect(f"{name} as FILE", run(["tighten", named, "--out", out]), (b"", KEPT, 0))
        expect(
            f"{name} as FILE: it",
            (read(named), names(folder)),
            (LOOSE, sorted([name, "a.vipr", "out"])),
        )
        out.unlink(missing_ok=True)
        for words in (named, "--out", out), (file, "--out", named):
            if is_traced:
                got = traced(
                    ["tighten", *words], "-e", "trace=fsync", "-e", "inject=fsync:error=EIO:when=1"
                )[0]
                expect(
                    f"{name} and a disk that fails",
                    got,
                    (b"", b"fault write after %d\n" % len(TIGHT), 3),
                )
                expect(
                    f"{name} and a disk that fails: it",
                    (read(named), names(folder)),
                    (LOOSE, sorted([name, "a.vipr"])),
                )
        expect(f"{name} as OUT", run(["tighten", file, "--out", named]), (b"", KEPT, 0))
        expect(
            f"{name} as OUT: it", (read(named), names(folder)), (TIGHT, sorted([name, "a.vipr"]))
        )


def in_place():
    """What is no regular file."""
    folder, file = fresh()
    expect(
        "OUT is a full device", run(["tighten", "--out", "/dev/full"], LOOSE), (b"", NOT_WRITTEN, 3)
    )
    expect("OUT takes all", run(["tighten", "--out", "/dev/null"], LOOSE), (b"", KEPT, 0))
    expect("OUT is a folder", run(["tighten", "--out", folder], LOOSE), (b"", NOT_WRITTEN, 3))
    expect(
        "OUT in no folder",
        run(["tighten", "--out", folder / "no/out"], LOOSE),
        (b"", NOT_WRITTEN, 3),
    )
    expect("OUT in a file", run(["tighten", "--out", file / "out"], LOOSE), (b"", NOT_WRITTEN, 3))
    expect("OUT has no name", run(["tighten", "--out", ""], LOOSE), (b"", NOT_WRITTEN, 3))
    expect("OUT is the output", run(["tighten", "--out", "/dev/stdout"], LOOSE), (TIGHT, KEPT, 0))
    printed = folder / "printed"
    with printed.open("wb") as stream:
        run(["tighten", "--out", "/dev/stdout"], LOOSE, stdout=stream)
        expect("the output is a file", printed.stat().st_ino, os.fstat(stream.fileno()).st_ino)
    expect("the output is a file: its text", printed.read_bytes(), TIGHT)
    open_files(folder, printed)
    printed.write_bytes(b"x" * 3_000_000)
    with printed.open("ab") as stream:
        got = run(["tighten", "--out", "/dev/stdout"], LOOSE, stdout=stream)
    expect("a shorter text in place", (got[1:], printed.read_bytes()), ((KEPT, 0), TIGHT))
    pipe = folder / "pipe"
    os.mkfifo(pipe)
    with subprocess.Popen(["cat", pipe], stdout=subprocess.PIPE) as reader:
        expect("OUT is a pipe", run(["tighten", "--out", pipe], LOOSE), (b"", KEPT, 0))
        expect("OUT is a pipe: its text", reader.communicate()[0], TIGHT)
    expect("names in place", (names(folder), pipe.is_fifo()), (["a.vipr", "pipe", "printed"], True))
    locked(printed)


def locked(printed):
    """A file that is written in place, and that another run or program has locked, is left as it
    is; a lock isn't asked for elsewhere."""
    printed.write_bytes(b"held")
    with printed.open("ab") as stream:
        fcntl.flock(stream, fcntl.LOCK_EX)
        expect(
            "OUT is locked",
            run(["tighten", "--out", "/dev/stdout"], LOOSE, stdout=stream)[1:],
            (NOT_WRITTEN, 3),
        )
        expect("OUT is locked: its text", printed.read_bytes(), b"held")
        expect(
            "OUT is locked and replaced", run(["tighten", "--out", printed], LOOSE), (b"", KEPT, 0)
        )
    with open("/dev/null", "wb") as stream:
        fcntl.flock(stream, fcntl.LOCK_EX)
        expect(
            "OUT is a device and locked",
            run(["tighten", "--out", "/dev/null"], LOOSE),
            (b"", KEPT, 0),
        )


def open_files(folder, printed):
    """A name that leads to an open file leads to that, by however many links, and the file isn't
    replaced."""
    links = [folder / "near", folder / "far", folder / "relative", folder / "by_number"]
    links[0].symlink_to("/dev/stdout")
    links[1].symlink_to("near")
    links[2].symlink_to(os.path.relpath("/dev/stdout", os.path.realpath(folder)))
    links[3].symlink_to("/dev/fd/1")
    for out in ("/proc/self/fd/1", "/dev/fd/1", "/dev/stdout", *links):
        printed.write_bytes(b"held")
        with printed.open("ab") as stream:
            expect(
                f"OUT is {out}", run(["tighten", "--out", out], LOOSE, stdout=stream)[1:], (KEPT, 0)
            )
            expect(
                f"OUT is {out}: the file",
                (printed.stat().st_ino, printed.read_bytes()),
                (os.fstat(stream.fileno()).st_ino, TIGHT),
            )
    for link in links:
        expect(f"{link.name} stays a link", link.is_symlink(), True)
        link.unlink()


def below_dev():
    """A regular file below /dev is replaced as elsewhere, by a link too."""
    if not os.access("/dev/shm", os.W_OK):
        print("output: /dev/shm may not be written, so files below /dev are skipped")
        return
    with tempfile.TemporaryDirectory(dir="/dev/shm") as name:
        folder = Path(name)
        target, link = folder / "target", folder / "link"
        link.symlink_to(target)
        for out in target, link:
            target.write_bytes(b"before")
            with target.open() as old:
                expect(
                    f"OUT is {out.name} below /dev",
                    run(["tighten", "--out", out], LOOSE),
                    (b"", KEPT, 0),
                )
                expect(
                    "what was there",
                    (old.read(), target.read_bytes(), names(folder)),
                    ("before", TIGHT, ["link", "target"]),
                )


def mounted():
    """A file that is a mount point can't be replaced, and is left as it is."""
    folder, file = fresh()
    point, behind = folder / "point", folder / "behind"
    for path in point, behind:
        path.write_bytes(b"before")
    with mount(point, "--bind", behind) as is_made:
        if not is_made:
            print("output: no file can be a mount point here, so such files are skipped")
            return
        expect(
            "OUT is a mount point",
            run(["tighten", file, "--out", point]),
            (b"", b"fault write after %d\n" % len(TIGHT), 3),
        )
        expect(
            "its text",
            (point.read_bytes(), behind.read_bytes(), names(folder)),
            (b"before", b"before", ["a.vipr", "behind", "point"]),
        )


def refusing_disk():
    """On a disk that refuses to change permissions OUT is written in place, and replaced if the new
    file has its permissions anyway. On one that only says that it changes them, OUT stays as it is.
    """
    if not shutil.which("bindfs"):
        CHECKS.skip("bindfs", "no disk that refuses permissions is tried")
        return
    failed = b"", b"fault write after %d\n" % len(TIGHT), 3
    for options, *wanted in (
        (["--chmod-deny"], (b"", KEPT, 0), TIGHT, True),
        (["--chmod-deny", "--perms=0644"], (b"", KEPT, 0), TIGHT, False),
        (["--chmod-ignore"], failed, b"before", True),
    ):
        (folder, file), point = fresh(), Path(tempfile.mkdtemp(dir=WORK))
        (folder / "out").write_bytes(b"before")
        (folder / "out").chmod(0o644)
        if subprocess.run(["bindfs", *options, folder, point], check=False).returncode:
            print("output: nothing can be mounted by bindfs here, so it isn't tried")
            return
        try:
            one_refusing_disk(options, file, point / "out", *wanted)
        finally:
            subprocess.run(["umount", point], check=True)


def one_refusing_disk(options, file, out, answer, text, is_one_file):
    node = out.stat().st_ino
    got = run(["tighten", file, "--out", out])
    after = out.stat()
    expect(
        f"OUT below bindfs {options}",
        (got, out.read_bytes(), stat.S_IMODE(after.st_mode), after.st_ino == node),
        (answer, text, 0o644, is_one_file),
    )
    new = out.with_name("new")
    got = run(["tighten", file, "--out", new])
    beside = [name for name in names(out.parent) if name.startswith(".vipr")]
    expect(
        f"a new OUT below bindfs {options}",
        (got, new.read_bytes(), beside),
        ((b"", KEPT, 0), TIGHT, []),
    )


# ---- the table of ends

NEW, BEFORE, NONE, EMPTY, NEVER = "the new text", "as before", "not there", "empty", "never"
ACCEPTED, FIRST = "the first N bytes", "the first bytes"
OUTS = "new", "there", "in place", ">"
LIMIT = 50


class Way(NamedTuple):
    """What makes a run end with this status: its text (none if FILE is a folder), what is done
    before it begins, and which call of a name fails (-1 is the last one), for these kinds of
    OUT."""

    status: int
    text: bytes = LOOSE
    before: Callable = None
    call: str = ""
    number: int = 1
    outs: tuple = OUTS


# how a run ends; what OUT is then if it is new, a regular file, written in place, or `> OUT`; and
# what makes it end so
ENDS = (
    ("status 0", (NEW, NEW, NEW, NEW), [Way(0)]),
    (
        "a refusal, `fault read` or `fault memory`",
        (NONE, BEFORE, BEFORE, EMPTY),
        [Way(1, BROKEN), Way(3, b""), Way(3, many(60_000), memory_limit(12 << 20))],
    ),
    (
        "`fault write after N`: a limit, a full disk",
        (NONE, BEFORE, ACCEPTED, ACCEPTED),
        [Way(3, before=file_limit(LIMIT))],
    ),
    (
        "`fault write after N`: the disk, the permissions or the name fail",
        (NONE, BEFORE, NEW, NEVER),
        [
            Way(3, call="fsync"),
            Way(3, call="fsync", number=2, outs=("there",)),
            Way(3, call="fchmod", number=2, outs=("there",)),
            Way(3, call="link,rename", outs=("new", "there")),
        ],
    ),
    (
        "`fault write after N`: the folder's disk or the last look fails",
        (NEW, NEW, NEW, NEVER),
        [
            Way(3, call="fsync", number=-1, outs=("new", "there")),
            Way(3, call="statx", number=-1),
        ],
    ),
    (
        "a signal, while it writes",
        (NONE, BEFORE, FIRST, FIRST),
        [Way(-signal.SIGXFSZ, before=file_limit(LIMIT, signal.SIG_DFL))],
    ),
)


def ends():
    """What OUT is after each end of a run is what the page has in its table, which has no other
    row."""
    page = (TOP / "docs/SECURITY.md").read_text(encoding="utf-8")
    table = page[page.index("| The run ends with |") :].split("\n\n")[0].split("\n")[2:]
    rows = [f'| {end} | {" | ".join(cells)} |' for end, cells, _ in ENDS]
    expect("the page: what each end leaves", table, rows)
    is_traced = texts.may_trace()
    for end, cells, ways in ENDS:
        for (kind, cell), way in itertools.product(zip(OUTS, cells), ways):
            if cell != NEVER and kind in way.outs and (is_traced or not way.call):
                one_end(end, kind, cell, way)


def one_end(end, kind, cell, way):
    file, out, words = prepared(kind, way.text)
    with stream_of(kind, out) as stream:
        if way.call:
            number = way.number if way.number > 0 else count_of(way.call, kind)
            inject = f"inject={way.call}:error=EIO:when={number}"
            got = traced(words, "-e", inject, stdout=stream)[0]
        else:
            got = run(words, b"", way.before, stdout=stream)
    wanted = {NEW: TIGHT, NONE: None, BEFORE: b"before", EMPTY: b""}.get(cell, TIGHT[:LIMIT])
    what = f"{end}, OUT {kind}, {way.call} {way.number}"
    expect(what, (got[2], read(out)), (way.status, wanted))


def prepared(kind, text=LOOSE):
    """FILE, which is a folder without a text, such an OUT, and the words of a run."""
    folder, file = fresh(text)
    out = folder / "out"
    if kind in ("there", "in place"):
        out.write_bytes(b"before")
    file = file if text else folder
    words = ["tighten", file]
    if kind != ">":
        words += ["--out", "/proc/self/fd/1" if kind == "in place" else out]
    return file, out, words


def stream_of(kind, out):
    """Standard output of a run to such an OUT."""
    return open(out if kind in ("in place", ">") else "/dev/null", "ab")


def calls_to(kind):
    """The calls of a run to such an OUT, and the number of the one that opens FILE."""
    file, out, words = prepared(kind)
    with stream_of(kind, out) as stream:
        lines_of = texts.traced([PROGRAM, *words], stdout=stream)[1]
    return lines_of, next(n for n, line in enumerate(lines_of) if f'"{file}"' in line)


def count_of(call, kind):
    """How many calls of this name a run makes to such an OUT."""
    return sum(line.startswith(f"{call}(") for line in calls_to(kind)[0])


def each_call_to_a_stream_fails():
    """Each call of a run that writes in place or to standard output fails in turn, from FILE's
    opening on. What OUT has is what it had, or the bytes that the fault counts."""
    for kind in "in place", ">":
        lines_of, first = calls_to(kind)
        names_of_calls = [line.split("(")[0] for line in lines_of]
        for n, name in enumerate(names_of_calls[first:], first):
            if name == "exit_group":
                continue
            _, out, words = prepared(kind)
            old = read(out) or b""
            inject = f"inject={name}:error=EIO:when={names_of_calls[: n + 1].count(name)}"
            with stream_of(kind, out) as stream:
                got, _ = traced(words, "-e", inject, stdout=stream)
            size = accepted(got)
            wanted = [(0, TIGHT)] if got[2] == 0 else [(3, TIGHT[:size])] if size else [(3, old)]
            if size == 0:
                wanted.append((3, b""))
            expect(f"{inject}, OUT {kind}: {got[1]!r}", (got[2], read(out)), *wanted)


# ---- standard error


def one_write(words, text=b"", before=None):
    """The writes to standard error, each by itself."""
    ours, theirs = socket.socketpair(socket.AF_UNIX, socket.SOCK_SEQPACKET)
    with ours, theirs:
        run(words, text, before, stderr=theirs)
        theirs.close()
        pieces = []
        while piece := ours.recv(1 << 16):
            pieces.append(piece)
    return pieces


def lines():
    folder, file = fresh()
    expect("kept", one_write(["tighten", file, "--out", folder / "out"]), [KEPT])
    expect("kept", one_write(["tighten", file]), [KEPT])
    file.write_bytes(BROKEN)
    for command in ("show", "tighten"):
        expect(f"{command} refused", one_write([command, file]), [b"refused 2 at byte 0\n"])
    for command in ("check", "explain", "show", "tighten"):
        expect(f"{command} of no file", one_write([command, folder / "missing"]), [READ])
        expect(f"{command} to no output", one_write([command], LOOSE, closer([1])), [NOT_WRITTEN])
    for words in (
        [],
        ["nothing"],
        ["check", "a", "b"],
        ["check", "--profile", "3"],
        ["check", "--wrong", "x" * 20000],
        ["check", b"\xff".decode(errors="surrogateescape")],
    ):
        pieces = one_write(words)
        expect(f"{words!r:.60}", (len(pieces), pieces[-1][-1:]), (1, b"\n"))


# ---- the calls of one run


def traced(words, *settings, stdout=subprocess.PIPE):
    """A run under strace, with the calls that it made once FILE was opened."""
    CHECKS.count += 1
    got, lines_of = texts.traced([PROGRAM, *words], *settings, stdout=stdout)
    first = next(
        (n for n, line in enumerate(lines_of) if "a.vipr" in line and "openat" in line),
        len(lines_of),
    )
    return got, lines_of[first:]


def calls():
    """The file is closed before the line is written; a call that fails is a failed write, and OUT
    as it was."""
    folder, file = fresh()
    if not texts.may_trace():
        CHECKS.skip("strace that may trace", "the calls of a run are left out")
        return
    got, lines_of = traced(
        ["tighten", file, "--out", file], "-e", "trace=openat,flock,rename,close,write,fsync,fchmod"
    )
    expect("a traced run", got, (b"", KEPT, 0))
    expect(
        "the calls of a run",
        [line.split("(")[0] for line in lines_of],
        [
            "openat",
            "openat",
            "close",
            "openat",
            "fchmod",
            "write",
            "fsync",
            "fchmod",
            "fsync",
            "rename",
            "openat",
            "fsync",
            "close",
            "close",
            "close",
            "write",
        ],
    )
    expect(
        "the file beside OUT is for its owner alone",
        [", 0600)" in line for line in lines_of if "O_EXCL" in line],
        [True],
    )
    (folder / ".vipr-tighten-0000000000000000.tmp").touch()
    for out in file, folder / "new":
        _, lines_of = traced(["tighten", file, "--out", out], "-e", "trace=%file")
        made = {quoted(line)[0] for line in lines_of if "O_EXCL" in line}
        changed = {
            quoted(line)[0] for line in lines_of if line.startswith(("rename(", "link(", "unlink("))
        }
        opened = {quoted(line)[0] for line in lines_of if line.startswith("openat(")}
        expect(
            f"the files of a run to {out.name}",
            (len(made), changed, opened - {str(file)}),
            (1, made, made | {str(folder)}),
        )
    failing_calls(LOOSE, TIGHT, KEPT)
    failing_calls(
        many(20_000), run(["tighten"], many(20_000))[0], b"kept 20001 removed 1 peak 20002 1\n"
    )
    failing_rights()
    each_call_fails()
    each_call_to_a_stream_fails()
    unseen()
    not_removed()
    swapped()
    overtaken()


def quoted(line):
    """The names in the line of a call."""
    return re.findall(r'"([^"]*)"', line)


def failing_calls(text, tight, kept):
    folder, file = fresh(text)
    all_written, nothing = (b"", b"fault write after %d\n" % len(tight), 3), (b"", NOT_WRITTEN, 3)
    done = b"", kept, 0
    at_the_disk = "EIO", "ENOSPC", "EDQUOT", "EROFS"
    # the call by which the new file is made
    new = f'openat:when={call_at(file, "O_EXCL")}'
    for call, errors, wanted, after in (
        ("fsync", at_the_disk, all_written, text),
        ("rename", (*at_the_disk, "EBUSY", "EACCES"), all_written, text),
        ("fsync:when=2", at_the_disk, all_written, text),
        ("fsync:when=3", at_the_disk, all_written, tight),
        ("fchmod:when=1", at_the_disk, nothing, text),
        ("fchmod:when=2", (*at_the_disk, "EPERM", "EOPNOTSUPP"), all_written, text),
        ("fchmod", REFUSED, done, tight),
        ("write:when=1", at_the_disk, nothing, text),
        ("statx", ("EPERM", "EIO"), nothing, text),
        (new, ("EEXIST", "EIO", "ENOSPC", "EDQUOT", "EMFILE", "ENAMETOOLONG"), nothing, text),
        (new, ("EACCES", "EPERM", "EROFS"), done, tight),
        ("flock", ("ENOSYS",), done, tight),
        ("fsync", ("EINVAL", "ENOSYS", "EOPNOTSUPP"), done, tight),
    ):
        for error in errors:
            file.write_bytes(text)
            file.chmod(0o640)
            name, _, when = call.partition(":")
            inject = f'inject={name}:error={error}{":" + when if when else ""}'
            got, _ = traced(["tighten", file, "--out", file], "-e", f"trace={name}", "-e", inject)
            expect(f"{inject} of {len(text)} bytes", got, wanted)
            expect(
                f"{inject} of {len(text)} bytes: OUT",
                (file.read_bytes() == after, stat.S_IMODE(file.stat().st_mode), names(folder)),
                (True, 0o640, ["a.vipr"]),
            )
    file.write_bytes(text)
    cases = (
        ("fsync:error=ENOSPC:when=1", all_written, None),
        ("link:error=EPERM", done, tight),
        ("link:error=EIO", done, tight),
        ("fsync:error=EIO:when=2", all_written, tight),
        ("fsync:error=EINVAL", done, tight),
    )
    # (in a folder of a short path, and in one of a long path)
    for place, (call, wanted, after) in itertools.product(
        (folder / "o", folder.joinpath("o", *["d" * 250] * 3)), cases
    ):
        place.mkdir(parents=True, exist_ok=True)
        out = place / "out"
        got, _ = traced(
            ["tighten", file, "--out", out],
            "-e",
            f'trace={call.partition(":")[0]}',
            "-e",
            f"inject={call}",
        )
        expect(f"{call}, OUT new, {len(str(out))} bytes", (got, read(out) == after), (wanted, True))
        expect(
            f"{call}, OUT new, {len(str(out))} bytes: names",
            [name for name in names(place) if name != "d" * 250],
            ["out"] if after else [],
        )
        out.unlink(missing_ok=True)


def call_at(file, word):
    """Which one of the calls that open a file has this word, in a run that writes to FILE."""
    text = file.read_bytes()
    _, lines_of = texts.traced([PROGRAM, "tighten", file, "--out", file], "-e", "trace=openat")
    file.write_bytes(text)
    return next(n for n, line in enumerate(lines_of, 1) if word in line)


def failing_rights():
    """A file whose owner or permissions the new one may not have is written in place, and is left
    if they can't be given else."""
    folder, file = fresh()
    out = folder / "out"
    errors = *REFUSED, "EACCES", "EIO", "ENOSPC", "EDQUOT", "EROFS", "EINVAL"
    calls_that_fail = ["fchmod"] if os.getuid() else ["fchmod", "fchown"]
    for call, error in itertools.product(calls_that_fail, errors):
        out.write_bytes(b"before")
        out.chmod(0o644)
        if call == "fchown":
            os.chown(out, 1234, 1234)
        node = out.stat().st_ino
        got, _ = traced(
            ["tighten", file, "--out", out],
            "-e",
            f"trace={call}",
            "-e",
            f"inject={call}:error={error}",
        )
        is_in_place = error in REFUSED
        expect(
            f"{call} with {error}", got, (b"", KEPT, 0) if is_in_place else (b"", NOT_WRITTEN, 3)
        )
        expect(
            f"{call} with {error}: OUT",
            (out.read_bytes(), out.stat().st_ino, stat.S_IMODE(out.stat().st_mode), names(folder)),
            (TIGHT if is_in_place else b"before", node, 0o644, ["a.vipr", "out"]),
        )
    out.chmod(0o600)
    got, _ = traced(
        ["tighten", file, "--out", out], "-e", "trace=fchmod", "-e", "inject=fchmod:error=EPERM"
    )
    expect(
        "permissions that the new file has",
        (got, out.read_bytes(), out.stat().st_ino != node),
        ((b"", KEPT, 0), TIGHT, True),
    )
    out.write_bytes(b"before")
    out.chmod(0o644)
    node = out.stat().st_ino
    got, _ = traced(["tighten", file, "--out", out], "-e", "inject=fchmod:retval=0")
    expect(
        "permissions that are given in word alone",
        (got, out.read_bytes(), out.stat().st_ino, names(folder)),
        ((b"", b"fault write after %d\n" % len(TIGHT), 3), b"before", node, ["a.vipr", "out"]),
    )
    if not os.getuid():
        os.chown(out, 1234, 1234)
        got, _ = traced(["tighten", file, "--out", out], "-e", "inject=fchown:retval=0")
        expect(
            "an owner that is given in word alone",
            (got, out.read_bytes(), out.stat().st_ino, out.stat().st_uid, names(folder)),
            ((b"", KEPT, 0), TIGHT, node, 1234, ["a.vipr", "out"]),
        )


def each_call_fails():
    """Each call of a run fails in turn, from FILE's opening on. OUT keeps its old text, and the
    answer is a fault; or it has the whole new one and the same permissions, and the answer is no
    fault unless the call came after the name.
    """
    for kind in "new", "there", "FILE":
        folder, file, out = room_of(kind)
        lines_of = texts.traced([PROGRAM, "tighten", file, "--out", out])[1]
        names_of_calls = [line.split("(")[0] for line in lines_of]
        first = next(n for n, line in enumerate(lines_of) if f'"{file}"' in line)
        named = next(n for n, name in enumerate(names_of_calls) if name in ("link", "rename"))
        met = Counter(names_of_calls[:first])
        for n, name in enumerate(names_of_calls[first:], first):
            met[name] += 1
            if name != "exit_group":
                inject = f"inject={name}:error=EIO:when={met[name]}"
                one_call_fails(kind, inject, name in ("statx", "unlink"), n > named)


def room_of(kind):
    """A folder with a certificate, and OUT, which isn't there, or has permissions of its own."""
    folder, file = fresh()
    out = file if kind == "FILE" else folder / "out"
    if kind == "there":
        out.write_bytes(b"before")
    if kind != "new":
        out.chmod(0o640)
    return folder, file, out


def one_call_fails(kind, inject, may_leave, is_named):
    folder, file, out = room_of(kind)
    old = read(out)
    got, _ = traced(["tighten", file, "--out", out], "-e", inject)
    status, now = got[2], read(out)
    what = f"{inject}, OUT {kind}: {got[1]!r}"
    expect(what, (status, now == TIGHT, now == old), (0, True, False), (3, is_named, not is_named))
    if kind != "new":
        expect(f"{what}: permissions", stat.S_IMODE(out.stat().st_mode), 0o640)
    if not may_leave:
        beside = [name for name in names(folder) if name.startswith(".")]
        expect(f"{what}: a file beside OUT", beside, [])
    shutil.rmtree(folder)


def during(words, call, folder, size, act, options=()):
    """A run that waits in a system call while something is done to the file beside OUT, once that
    has its size."""
    CHECKS.count += 1
    with subprocess.Popen(
        [
            "strace",
            "-o",
            "/dev/null",
            "-e",
            f"trace={call},link",
            "-e",
            f"inject={call}:delay_enter=1200000:when=1",
            *options,
            PROGRAM,
            *map(str, words),
        ],
        stdout=subprocess.PIPE,
        stderr=subprocess.PIPE,
    ) as child:
        found = []
        while child.poll() is None and not found:
            found = [path for path in folder.glob(".*.tmp") if path.stat().st_size >= size]
        expect(f"a run that waits in {call}", len(found), 1)
        time.sleep(0.3)
        act(found[0])
        out, err = child.communicate()
    return out, err, child.returncode


def swapped():
    """Another file gets the name of the one beside OUT: it keeps its owner, and is neither renamed
    nor removed."""
    failed = b"", b"fault write after %d\n" % len(TIGHT), 3

    def put(path):
        path.unlink()
        path.write_bytes(b"theirs")

    for kind in "new", "there":
        folder, file = fresh()
        out = folder / "out"
        if kind == "there":
            out.write_bytes(b"before")
        old = read(out)
        got = during(["tighten", file, "--out", out], "fsync", folder, len(TIGHT), put)
        expect(f"the file beside OUT ({kind}) is swapped", (got, read(out)), (failed, old))
        expect(
            f"the file beside OUT ({kind}) is swapped: it",
            [path.read_bytes() for path in folder.glob(".*.tmp")],
            [b"theirs"],
        )
    for kind, call in ("there", "rename"), ("new", "link"):
        folder, file = fresh()
        out = folder / "out"
        if kind == "there":
            out.write_bytes(b"before")
        got = during(["tighten", file, "--out", out], call, folder, len(TIGHT), put)
        expect(
            f"the file beside OUT ({kind}) is swapped at the last moment",
            (got, out.read_bytes()),
            (failed, b"theirs"),
        )
    moved_behind_a_link(failed)
    if os.getuid():
        return
    folder, file = fresh()
    out, secret = folder / "out", folder / "secret"
    for path in out, secret:
        path.write_bytes(b"before")
    os.chown(out, 1234, 1234)
    secret.chmod(0o600)

    def move(path):
        path.rename(folder / "moved")
        secret.rename(path)

    got = during(["tighten", file, "--out", out], "fchown", folder, 0, move)
    expect(
        "the file that is to be given away is swapped", (got, out.read_bytes()), (failed, b"before")
    )
    after = [
        (path.stat().st_uid, stat.S_IMODE(path.stat().st_mode), path.read_bytes())
        for path in folder.glob(".*.tmp")
    ]
    expect("the file that is to be given away is swapped: it", after, [(0, 0o600, b"before")])


def moved_behind_a_link(failed):
    """OUT is a link. Its file is moved, the link is set to that file's new name, and another file
    gets the old name."""
    folder, file = fresh()
    link, old, moved = (folder / name for name in ("link", "old", "moved"))
    old.write_bytes(b"before")
    link.symlink_to("old")

    def move(_):
        old.rename(moved)
        link.unlink()
        link.symlink_to("moved")
        old.write_bytes(b"theirs")

    got = during(["tighten", file, "--out", link], "fsync", folder, len(TIGHT), move)
    expect(
        "OUT is moved, and the link follows it",
        (got, old.read_bytes(), moved.read_bytes(), names(folder)),
        (failed, b"theirs", b"before", ["a.vipr", "link", "moved", "old"]),
    )


def unseen():
    """No second names on the disk, and OUT's place can't be looked at: the new file isn't put
    there."""
    folder, file = fresh()
    out, no_links = folder / "out", ("-e", "inject=link:error=EPERM")
    words = ["tighten", file, "--out", out]
    lines_of = texts.traced([PROGRAM, *words], *no_links)[1]
    called = [line.split("(")[0] for line in lines_of]
    looks = called[: called.index("link")].count("statx") + 1
    out.unlink()
    got, _ = traced(words, *no_links, "-e", f"inject=statx:error=EIO:when={looks}")
    expect(
        "a place that can't be looked at",
        (got, names(folder)),
        ((b"", b"fault write after %d\n" % len(TIGHT), 3), ["a.vipr"]),
    )


def not_removed():
    """The name of the new file beside a new OUT can't be removed: it stays as a second name of
    OUT."""
    folder, file = fresh()
    out = folder / "out"
    got, _ = traced(["tighten", file, "--out", out], "-e", "inject=unlink:error=EIO")
    beside = list(folder.glob(".vipr-tighten-*.tmp"))
    expect(
        "a name that can't be removed",
        (got, read(out), [path.samefile(out) for path in beside]),
        ((b"", KEPT, 0), TIGHT, [True]),
    )


def overtaken():
    """A file comes where none was, or another one where one was, and another run writes into the
    folder, while a run goes on."""
    for options in (), ("-e", "inject=link:error=EPERM"):
        folder, file = fresh()
        out = folder / "out"
        got = during(
            ["tighten", file, "--out", out],
            "fsync",
            folder,
            len(TIGHT),
            lambda _, o=out: o.write_bytes(b"theirs"),
            options,
        )
        expect(
            "OUT came meanwhile",
            (got, out.read_bytes(), names(folder)),
            ((b"", b"fault write after %d\n" % len(TIGHT), 3), b"theirs", ["a.vipr", "out"]),
        )
    folder, file = fresh()
    out = folder / "out"
    out.write_bytes(b"before")
    got = during(
        ["tighten", file, "--out", out],
        "fsync",
        folder,
        len(TIGHT),
        lambda _: expect(
            "a run to the same OUT", run(["tighten", file, "--out", out]), (b"", KEPT, 0)
        ),
    )
    expect(
        "OUT is of another run",
        (got, out.read_bytes(), names(folder)),
        ((b"", b"fault write after %d\n" % len(TIGHT), 3), TIGHT, ["a.vipr", "out"]),
    )
    for call, mode in ("write", 0o600), ("fsync", 0o600), ("rename", 0o660):
        out.write_bytes(b"before")
        out.chmod(0o660)
        got = during(
            ["tighten", file, "--out", out],
            call,
            folder,
            0 if call == "write" else len(TIGHT),
            lambda path, c=call, m=mode: expect(
                f"the permissions before {c}", stat.S_IMODE(path.stat().st_mode), m
            ),
        )
        expect(
            "the permissions at the end",
            (got, out.read_bytes(), stat.S_IMODE(out.stat().st_mode)),
            ((b"", KEPT, 0), TIGHT, 0o660),
        )
    folder, file = fresh()
    first, second = folder / "first", folder / "second"
    got = during(
        ["tighten", file, "--out", first],
        "fsync",
        folder,
        len(TIGHT),
        lambda _: expect(
            "a run beside another", run(["tighten", file, "--out", second]), (b"", KEPT, 0)
        ),
    )
    expect(
        "a run that another overtakes",
        (got, read(first), read(second), names(folder)),
        ((b"", KEPT, 0), TIGHT, TIGHT, ["a.vipr", "first", "second"]),
    )


def pieces(change):
    """A text in pieces, between which something is done. The first piece was read once the second
    one is written."""
    yield LOOSE[:60]
    yield LOOSE[60:61]
    change()
    yield LOOSE[61:]


def same_inode():
    """OUT is a link that leads to a file of another file system, with the same inode, once the
    certificate is read."""
    link, one, two = fresh()[0] / "link", *(Path(tempfile.mkdtemp(dir=WORK)) for _ in range(2))
    own = "-t", "tmpfs", "-o", "size=1m", "tmpfs"
    with mount(one, *own) as is_made, mount(two, *own) as is_other_made:
        for place in one, two:
            (place / "out").write_bytes(b"before")
        if not (
            is_made and is_other_made and (one / "out").stat().st_ino == (two / "out").stat().st_ino
        ):
            print("output: no two files with the same inode can be made here, so they are skipped")
            return
        link.symlink_to(one / "out")
        CHECKS.count += 1
        got = texts.fed(
            [PROGRAM, "tighten", "--out", link],
            pieces(lambda: (link.unlink(), link.symlink_to(two / "out"))),
        )
        expect(
            "OUT has the same inode elsewhere",
            (got, [(names(place), (place / "out").read_bytes()) for place in (one, two)]),
            ((b"", b"fault write after %d\n" % len(TIGHT), 3), [(["out"], b"before")] * 2),
        )


def changed_while_it_reads():
    """OUT becomes another thing while the certificate is read: the run fails, and leaves what is
    there."""
    puts = {
        "a link": lambda out: out.symlink_to("mine"),
        "a file": lambda out: out.write_bytes(b"theirs"),
        "a pipe": os.mkfifo,
        "a folder": Path.mkdir,
        "nothing": lambda out: None,
    }
    for kind, (what, put) in itertools.product(("nothing", "a file", "a pipe"), puts.items()):
        folder, file = fresh()
        out, mine = folder / "out", folder / "mine"
        mine.write_bytes(b"important")
        puts[kind](out)
        if kind != what or kind == "a file":
            CHECKS.count += 1
            change = functools.partial(lambda o, p: (o.unlink(missing_ok=True), p(o)), out, put)
            got = texts.fed([PROGRAM, "tighten", "--out", out], pieces(change))
            expect(
                f"OUT was {kind} and is {what}",
                (got.stderr.startswith(b"fault write after "), got.returncode),
                (True, 3),
            )
            after = {"a link": b"important", "a file": b"theirs"}.get(what)
            expect(
                f"OUT was {kind} and is {what}: it",
                (read(out) if after else None, out.is_symlink(), out.is_fifo(), out.is_dir()),
                (after, what == "a link", what == "a pipe", what == "a folder"),
            )
            expect(
                f"OUT was {kind} and is {what}: names",
                (names(folder), mine.read_bytes()),
                (sorted(["a.vipr", "mine", *(["out"] if what != "nothing" else [])]), b"important"),
            )
        shutil.rmtree(folder)
    folder, _ = fresh()
    link, one, two = (folder / name for name in ("link", "one", "two"))
    link.symlink_to("one")
    for path in one, two:
        path.write_bytes(b"before")
    CHECKS.count += 1
    got = texts.fed(
        [PROGRAM, "tighten", "--out", link], pieces(lambda: (link.unlink(), link.symlink_to("two")))
    )
    expect(
        "OUT is a link that leads elsewhere",
        (got, one.read_bytes(), two.read_bytes(), names(folder)),
        (
            (b"", b"fault write after %d\n" % len(TIGHT), 3),
            b"before",
            b"before",
            ["a.vipr", "link", "one", "two"],
        ),
    )


def main():
    before = signal.getsignal(signal.SIGXFSZ)
    closed_streams()
    limited()
    modes()
    links()
    relative()
    like_its_own()
    in_place()
    below_dev()
    mounted()
    refusing_disk()
    changed_while_it_reads()
    same_inode()
    lines()
    calls()
    ends()
    small_stack()
    full_device()
    large()
    signal.signal(signal.SIGXFSZ, before)
    return CHECKS.end()


with tempfile.TemporaryDirectory(prefix="output-") as WORK:
    status = main()
sys.exit(status)
