"""What scripts need of the Rattle kit: whether it is there, its own account of the crates, and what
`rt ci` proved.

`rt ci` leaves each library without the stamp by which other commands know what it was made from.
Behind a run of it from nothing, `rt lib` and the wrong versions would prove every crate below them
once more, as the first build does. So the stamps are written into a copy of the crates that is
thrown away. That is done only if all libraries are those of one run of `rt ci` and nothing changed
since; else, and if the kit isn't as it's known here, the commands prove what they need. Behind
`make build`, whose libraries are stamped, they use those.
"""
import hashlib
import importlib.machinery
import importlib.util
import os
import resource
import shutil
import sys
import time
from pathlib import Path

TOP = Path(__file__).resolve().parent.parent
RT = os.environ.get("RT", "rt")
PARTS = ("src", "specs", "proofs")


def missing():
    """What to say if the kit isn't on the path, and nothing if it is."""
    if shutil.which(RT):
        return ""
    return (
        f"'{RT}' isn't on the path. vipr is written in Rattle (Rust with contracts); the Rattle kit proves and builds it:\n"
        'README.md, "Commands and installation", says what it is. RT=/path/to/rt make .. names another command.'
    )


def took(command, start):
    """What a command took since `start` of the monotonic clock, as one line."""
    used = [resource.getrusage(who) for who in (resource.RUSAGE_SELF, resource.RUSAGE_CHILDREN)]
    spent = sum(usage.ru_utime + usage.ru_stime for usage in used)
    return f"{command}: {(time.monotonic() - start) / 60:.1f} minutes, {spent / 60:.1f} of processor time"


def toolchain():
    """The kit's `rt` as a module."""
    loader = importlib.machinery.SourceFileLoader("rt", os.path.realpath(shutil.which(RT)))
    module = importlib.util.module_from_spec(importlib.util.spec_from_loader("rt", loader))
    sys.modules["rt"] = module
    loader.exec_module(module)
    return module


def sum_of(file):
    """The SHA-256 of a file, as `sha256sum` prints it."""
    return hashlib.sha256(file.read_bytes()).hexdigest()


def write_sums(file, built):
    """Writes the SHA-256 of files that were proved and built beside them, as `sha256sum -c` reads
    it: `make check`, `make install`, `make install-lib` and `make dist` use no others."""
    file.write_text("".join(f"{sum_of(path)}  {path.name}\n" for path in built))


def mark(proved):
    """Writes the SHA-256 of the program beside it if all of it was proved and built, else takes an
    earlier one away, and says which."""
    program = TOP / "crates/vipr/out/vipr"
    written = program.with_name("vipr.sha256")
    written.unlink(missing_ok=True)
    if not proved or not program.is_file():
        return False
    write_sums(written, [program])
    return True


def texts(crate):
    """The files that a crate is proved and built from."""
    return [
        path
        for part in PARTS
        for path in (TOP / "crates" / crate / part).rglob("*")
        if path.is_file()
    ]


def is_of_one_run():
    """Whether each library here was made by `rt ci`, and from the text that stands there."""
    made = [path.stat().st_mtime for path in TOP.glob("crates/*/out/rlib/*.rlib")]
    newest = max(
        path.stat().st_mtime for crate in (TOP / "crates").iterdir() for path in texts(crate.name)
    )
    return bool(made) and not any(TOP.glob("crates/*/out/rlib/stamp")) and min(made) > newest


def stamp(copy):
    """Writes the stamps in a copy of the libraries of one run."""
    rt = toolchain()
    for crate in rt.rtlib.crates_below(str(copy)):
        rlib, program = Path(crate.rlib), Path(crate.folder, "out", crate.name)
        if rlib.is_dir():
            (rlib.parent / "stamp").write_text(crate.stamp())
        if crate.is_program and program.is_file():
            rt.read_files(crate)
            program.with_suffix(".stamp").write_text(crate.stamp() + sum_of(program))


def take_over(copy):
    """Stamps what `rt ci` proved here and was copied to another folder, and says whether that could
    be done."""
    try:
        if not is_of_one_run():
            return False
        stamp(copy)
    except (Exception, SystemExit) as fault:
        print(f"kit: {fault}: what rt ci proved is proved once more")
        return False
    return True


def copied(room, *names):
    """A copy of these files and folders that takes over what `rt ci` proved here; this repository,
    if that can't be done."""
    if not is_of_one_run():
        return TOP
    copy = Path(room, "vipr")
    copy.mkdir()
    for name in names:
        if (TOP / name).is_dir():
            shutil.copytree(TOP / name, copy / name, ignore=shutil.ignore_patterns("incremental"))
        else:
            shutil.copy(TOP / name, copy)
    return copy if take_over(copy) else TOP
