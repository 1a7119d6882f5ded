#!/usr/bin/env python3
"""Makes the library for C: one archive that needs no second, and a shared library.

usage: tools/make_library.py VERSION [FOLDER]     FOLDER is crates/vipr_c/out without it

`rt lib` proves and builds crates/vipr_c. What it builds, and the toolchain's few lines of C between
Rattle's allocator and malloc, are put together into one object whose only global names are those
that begin with `vipr_`. Of it FOLDER has libvipr.a, and libvipr.so.VERSION, whose soname is
libvipr.so with the version's first number. Their SHA-256 is in libvipr.sha256 beside them. RT, CC,
LD, OBJCOPY and AR name other commands. If one is missing or fails, the exit status is 1, and there
is no libvipr.sha256.
"""
import os
import re
import shutil
import subprocess
import sys
import tempfile
import time
from pathlib import Path

import kit

TOP = Path(__file__).resolve().parent.parent

TOOLS = {
    name: os.environ.get(name.upper()) or name for name in ("rt", "cc", "ld", "objcopy", "ar", "nm")
}


CALLS = sorted(re.findall(r"\b(vipr_\w+)\(", (TOP / "include/vipr.h").read_text()))


class Failed(Exception):
    """A command that failed, with what it printed."""


def run(name, *words, folder=TOP):
    done = subprocess.run(
        [TOOLS[name], *map(str, words)],
        cwd=folder,
        stdout=subprocess.PIPE,
        stderr=subprocess.STDOUT,
        text=True,
        errors="replace",
        check=False,
    )
    if done.returncode:
        raise Failed(f"{done.stdout}{TOOLS[name]} failed with status {done.returncode}")
    return done.stdout


def parts():
    """The archives that are put together."""
    run("rt", "lib", folder=TOP / "crates/vipr_c")
    kit = Path(run("rt", "doc").strip()).parent
    return [TOP / "crates/vipr_c/out/libvipr_c.a", kit / "c/liblibc_c.a"]


def exported(*words):
    """The names that a library gives to others."""
    rows = [line.split() for line in run("nm", *words).split("\n")]
    return sorted({row[2].split("@")[0] for row in rows if len(row) == 3 and row[1] != "A"})


def forget(folder):
    """Takes away what says that a folder's library was proved, and gives the name of that file."""
    sums = folder / "libvipr.sha256"
    sums.unlink(missing_ok=True)
    return sums


def make(folder, version, archives):
    """Makes both libraries of these archives, and gives their files. What says that an earlier one
    was proved goes."""
    forget(folder)
    archive, shared = folder / "libvipr.a", folder / f"libvipr.so.{version}"
    with tempfile.TemporaryDirectory(prefix="vipr-library-") as room:
        whole, new_archive, new_shared = (
            Path(room) / name for name in ("vipr.o", "libvipr.a", "libvipr.so")
        )
        run("ld", "-r", "-o", whole, "--whole-archive", *archives)
        run("objcopy", "--wildcard", "--keep-global-symbol=vipr_*", whole)
        run("ar", "rcsD", new_archive, whole)
        run(
            "cc",
            "-shared",
            "-o",
            new_shared,
            whole,
            f'-Wl,-soname,libvipr.so.{version.split(".")[0]}',
            f'-Wl,--version-script={TOP / "include/vipr.map"}',
            "-Wl,-z,defs",
            "-Wl,-z,noexecstack",
        )
        for names in (
            exported("-g", "--defined-only", new_archive),
            exported("-D", "--defined-only", new_shared),
        ):
            if names != CALLS:
                raise Failed(f"the library gives the names {names}")
        folder.mkdir(parents=True, exist_ok=True)
        # the archive last: make goes by its age
        shutil.copy(new_shared, shared)
        shutil.copy(new_archive, archive)
    return archive, shared


def main():
    if kit.missing():
        print(kit.missing())
        return 1
    missing = [word for word in TOOLS.values() if not shutil.which(word)]
    if missing or len(sys.argv) < 2:
        print(
            f'not on the path: {", ".join(missing)}'
            if missing
            else "usage: tools/make_library.py VERSION [FOLDER]"
        )
        return 1
    folder = Path(sys.argv[2]) if len(sys.argv) > 2 else TOP / "crates/vipr_c/out"
    start, sums = time.monotonic(), forget(folder)
    try:
        kit.write_sums(sums, make(folder, sys.argv[1], parts()))
    except Failed as fault:
        print(fault)
        return 1
    print(kit.took("make lib", start))
    return 0


if __name__ == "__main__":
    sys.exit(main())
