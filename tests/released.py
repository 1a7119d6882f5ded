#!/usr/bin/env python3
"""Uses a release as someone does who has no kit, and compares the one of this repository with the
program.

usage: tests/released.py

In a copy of the Makefile and of what it installs, nothing is built, no `rt` is on the path, and
release/ has a small archive with the program that is built here. `make check` prints a verdict and
one line on the release, `make install` and `make install-lib` install from it, and the Python
commands run. If a source, the archive or a file in it is another one, no program of it is run, and
it is said why. What was built goes before it, and what was unpacked is replaced if it isn't what
the archive has.

If release/ of this repository has an archive of this version, its files have their sums, its wheel
has the same program, it verifies an example in a copy of these sources, and its program is the one
that was proved here, unless the section `Unreleased` of CHANGELOG.md says that the program changed.

Prints each fault, and last `released: N checks, F failed`; the exit status is 1 if one failed.
"""
import hashlib
import io
import re
import shutil
import subprocess
import sys
import tarfile
import tempfile
import zipfile
from pathlib import Path

from archive import PATH, VERSION, files_in, laid_out
from texts import TOP, Checks, program, said_version
import kit
import release

PROGRAM = program([])
SHARED = TOP / f"crates/vipr_c/out/libvipr.so.{VERSION}"
EXAMPLE = "examples/branch_and_bound.vipr"
VERDICT = "verified range 1 1\n"
COMMIT = "0123456789abcdef0123456789abcdef01234567"
NOTICE = f"vipr {VERSION} of commit {COMMIT} is unpacked from release/ into out/vipr-{VERSION}: make build proves the same bytes here\n"
# what CHANGELOG's section `Unreleased` says once the program isn't the released one any more
CHANGED = "The program changed since {version}."
CHECKS = Checks("released")
check = CHECKS.check


def run(folder, *words):
    """What a command answers in a folder, without the kit: its status, and what it prints on both
    outputs."""
    there = {"PATH": PATH, "LC_ALL": "C.UTF-8", "PYTHONPATH": "python"}
    done = subprocess.run(
        words, cwd=folder, env=there, stdin=subprocess.DEVNULL, capture_output=True, check=False
    )
    return done.returncode, done.stdout.decode(), done.stderr.decode()


def put_release(copy, files=(), **rows):
    """Puts an archive of the program into release/ of a copy. These files of it are others than its
    sums say, and these rows of BUILD others than those of the copy."""
    sources = run(copy, "sh", "tools/proved.sh", "digest")[1].strip()
    rows = {"version": VERSION, "commit": COMMIT, "sources": sources} | rows
    library = SHARED.read_bytes() if SHARED.is_file() else b"no library"
    packed = {
        "BUILD": "".join(f"{name}: {value}\n" for name, value in rows.items()).encode(),
        "bin/vipr": PROGRAM.read_bytes(),
        "lib/libvipr.a": b"an archive",
        f"lib/{SHARED.name}": library,
    }
    sums = "".join(f"{hashlib.sha256(text).hexdigest()}  {name}\n" for name, text in packed.items())
    packed |= {"SHA256SUMS": sums.encode()} | dict(files)
    shutil.rmtree(copy / "release", ignore_errors=True)
    (copy / "release").mkdir()
    archive = copy / f"release/vipr-{VERSION}-linux-x86_64.tar.gz"
    with tarfile.open(archive, "w:gz") as tar:
        for name, text in packed.items():
            info = tarfile.TarInfo(f"vipr-{VERSION}/{name}")
            info.size, info.mode = len(text), 0o755
            tar.addfile(info, io.BytesIO(text))
    kit.write_sums(copy / "release/SHA256SUMS", [archive])
    return archive


def unbuilt(folder):
    """A copy of what the Makefile needs in which nothing is built, and a function that runs make
    there."""
    copy = folder / "copy"
    copy.mkdir(parents=True)
    make = laid_out(copy)
    for crate in ("vipr", "vipr_c"):
        shutil.rmtree(copy / "crates" / crate / "out")
    shutil.copytree(TOP / "python", copy / "python", ignore=shutil.ignore_patterns("__pycache__"))
    return copy, make


def used(folder):
    """Everything works from the release."""
    copy, make = unbuilt(folder)
    put_release(copy)
    said = make("check", f"FILE={EXAMPLE}")
    check(
        said[0] == 0 and said[1].startswith(VERDICT) and said[2] == NOTICE,
        f"the first make check: {said}",
    )
    again = make("check", f"FILE={EXAMPLE}")
    check(again == (0, said[1], ""), f"the second make check: {again}")
    place = copy / f"out/vipr-{VERSION}"
    for wrong in (b"#!/bin/sh\necho verified range 2 2\n", None):
        file = place / "bin/vipr"
        file.unlink() if wrong is None else file.write_bytes(wrong)
        again = make("check", f"FILE={EXAMPLE}")
        check(again == said, f"make check after a change of what was unpacked: {again}")
    start = files_in(folder)
    for targets, files in (
        (["install", "uninstall"], {"bin/vipr": PROGRAM}),
        (["install-lib", "uninstall-lib"], {f"lib/{SHARED.name}": place / f"lib/{SHARED.name}"}),
    ):
        status, out, fault = make(targets[0], "PREFIX=../installed")
        there = {name: folder / "installed" / name for name in files}
        check(
            status == 0
            and not fault
            and all(there[name].read_bytes() == file.read_bytes() for name, file in files.items()),
            f"make {targets[0]}: {status} {out} {fault}",
        )
        status, out, fault = make(targets[1], "PREFIX=../installed")
        check(
            status == 0 and files_in(folder) == start, f"make {targets[1]}: {status} {out} {fault}"
        )
    in_python(copy)
    put_release(copy, commit="f" * 40)
    said = make("check", f"FILE={EXAMPLE}")
    check(said[2] == NOTICE.replace(COMMIT, "f" * 40), f"make check after another release: {said}")


def in_python(copy):
    """The Python commands find the release's program and library."""
    shutil.rmtree(copy / "out")
    words = [sys.executable, "-B", "-m", "vipr", "check-all", "-o", "-", EXAMPLE]
    status, out, fault = run(copy, *words)
    check(
        status == 0 and "verified" in out and NOTICE in fault, f"check-all: {status} {out} {fault}"
    )
    if not SHARED.is_file():
        CHECKS.skip("C compiler", "no Python command called a library of a release")
        return
    shutil.rmtree(copy / "out")
    words = [sys.executable, "-B", "-m", "vipr", "audit", "examples/plan.mps", "examples/plan.vipr"]
    status, out, fault = run(copy, *words)
    check(status == 0 and "\nproblem      same problem " in out, f"audit: {status} {out} {fault}")
    check(fault == NOTICE, f"audit says of the release: {fault}")


def not_used(folder):
    """If anything isn't as it was released, no program of it is run, and nothing is unpacked."""
    name = f"lib/{SHARED.name}"
    for number, (what, (change, wanted)) in enumerate(
        {
            "another source": (
                lambda copy, archive: (copy / "crates/new.rt").write_text("fn new() {}\n"),
                "was proved from other sources: say make build",
            ),
            "another crate of crates.txt": (
                lambda copy, archive: (copy / "crates.txt").write_text("vipr:\n"),
                "was proved from other sources: say make build",
            ),
            "an archive of which a byte changed": (
                lambda copy, archive: archive.write_bytes(archive.read_bytes()[:-1] + b"\1"),
                "is damaged",
            ),
            "sums without the archive": (
                lambda copy, archive: (copy / "release/SHA256SUMS").write_text(""),
                "is damaged",
            ),
            "no sums": (lambda copy, archive: (copy / "release/SHA256SUMS").unlink(), "is damaged"),
            "another file in the archive": (
                lambda copy, archive: put_release(copy, {name: b"another"}),
                "is damaged",
            ),
            "no digest": (
                lambda copy, archive: put_release(copy, sources=""),
                "was proved from other sources: say make build",
            ),
            "no archive": (lambda copy, archive: archive.unlink(), "no archive"),
            "two archives": (
                lambda copy, archive: shutil.copy(
                    archive, archive.with_name("vipr-0-linux-x86_64.tar.gz")
                ),
                "or several",
            ),
            "another program in place of the one that was built": (
                lambda copy, archive: shutil.copytree(PROGRAM.parent, copy / "crates/vipr/out")
                and (copy / "crates/vipr/out/vipr.sha256").write_text("none"),
                "isn't the program that was proved and built here: say make build",
            ),
        }.items()
    ):
        copy, make = unbuilt(folder / str(number))
        change(copy, put_release(copy))
        start = files_in(copy)
        for target in ("check", "install"):
            status, out, fault = make(target, f"FILE={EXAMPLE}", "PREFIX=../installed")
            check(
                status != 0
                and wanted in fault
                and "verified" not in out
                and files_in(copy) == start
                and not (copy.parent / "installed").exists(),
                f"make {target} with {what}: {status} {out} {fault}",
            )


def built_first(folder):
    """What was built here is used, and not the release."""
    copy, make = unbuilt(folder)
    put_release(copy)
    built = copy / "crates/vipr/out/vipr"
    built.parent.mkdir()
    built.write_text("#!/bin/sh\necho built here\n")
    built.chmod(0o755)
    kit.write_sums(built.with_name("vipr.sha256"), [built])
    said = make("check")
    check(said == (0, "built here\n", ""), f"make check with a program that was built: {said}")


def digests(folder):
    """The digest of the sources changes with what the program and the library are made from, and
    with nothing else."""
    copy, _ = unbuilt(folder)
    crate = copy / "crates/vipr_command"

    def digest():
        status, out, fault = run(copy, "sh", "tools/proved.sh", "digest")
        check(
            status == 0 and not fault and re.fullmatch("[0-9a-f]{64}\n", out),
            f"digest: {status} {out} {fault}",
        )
        return out

    for name, counts in (
        ("src/args.rt", True),
        ("src/a folder/new.rt", True),
        ("specs/New.antt", True),
        ("proofs/args/new/Answers.antt", True),
        ("../../crates.txt", True),
        ("../../include/vipr.map", True),
        ("out/new.rt", False),
        ("must-fail/new.edit", False),
        ("wrong/new.edit", False),
        ("../vipr_tests/src/new.rt", False),
        ("../../README.md", False),
    ):
        before, file = digest(), crate / name
        file.parent.mkdir(parents=True, exist_ok=True)
        with open(file, "a", encoding="utf-8") as text:
            text.write("// another line\n")
        check(
            (digest() != before) == counts, f"a change of {name}: the digest should know {counts}"
        )


def refusals(folder):
    """tools/release.py makes no release of another version, of a tree with changes, of what isn't
    proved, or a large one."""
    reasons = "\n".join(release.reasons_against("0.0.0"))
    for wanted in ("another version than 0.0.0", "isn't that of 0.0.0"):
        check(wanted in reasons, f"a release of 0.0.0: {reasons}")
    folder.mkdir()
    build = (
        f"version: {VERSION}\ncommit: {COMMIT}\nkit: a kit\nsources: {'0' * 64}\nsha256 vipr: {'1' * 64}\n"
        f"sha256 libvipr.a: {'2' * 64}\nsha256 {SHARED.name}: {'3' * 64}\n"
    )
    rows = build.splitlines(keepends=True)
    for wrong in (
        build.replace(VERSION, f"{VERSION} unproved"),
        build.replace(COMMIT, f"{COMMIT} with changes"),
        build.replace(COMMIT, "none"),
        build.replace("a kit", ""),
        build.replace("0" * 64, ""),
        *("".join(rows[:at] + rows[at + 1 :]) for at in range(len(rows))),
    ):
        check(any(release.reasons_against_files(folder, wrong)), f"a release with BUILD {wrong}")
    check(not any(release.reasons_against_files(folder, build)), "no release with a right BUILD")
    with open(folder / "large", "wb") as file:
        file.truncate(release.MOST + 1)
    check(any(release.reasons_against_files(folder, build)), "a release of more than 6 MB")
    if not shutil.which("git"):
        CHECKS.skip("git", "no release of a tree with changes was tried")
        return
    (folder / ".gitignore").write_text("ignored\n")
    for words in (["init", "-q"], ["add", ".gitignore"], ["commit", "-q", "-m", "one file"]):
        git(folder, *words)
    (folder / "large").unlink()
    for name, counts in (("ignored", False), ("new", True)):
        (folder / name).write_text("")
        check(bool(release.changes(folder)) == counts, f"a release of a tree with {name}")


def git(folder, *words):
    """Runs git in a folder, by a name of its own."""
    names = ("-c", "user.name=tests", "-c", "user.email=tests@localhost")
    subprocess.run(["git", *names, *words], cwd=folder, check=True)


# ---- the release of this repository


def says_changed(changelog, version):
    """Whether the section `Unreleased` says that the program changed since a version."""
    section = re.search(r"^## Unreleased\n(.*?)(?=^## |\Z)", changelog, re.M | re.S)
    return bool(section) and CHANGED.format(version=version) in section[1]


def is_as_released(built, released, changelog):
    """Whether a program with this sum is the released one, or is said to be another."""
    return built == released or says_changed(changelog, VERSION)


def comparison():
    """Another program passes only with the sentence, in the right section."""
    said = CHANGED.format(version=VERSION)
    for changelog, wanted in (
        ("", False),
        (f"## Unreleased\n\n{said}\n\n## {VERSION}, 2026-01-01\n", True),
        (f"## Unreleased\n\n## {VERSION}, 2026-01-01\n\n{said}\n", False),
        (f"## {VERSION}, 2026-01-01\n\n{said}\n", False),
        (f"## Unreleased\n\n{said.replace(VERSION, '0.0.0')}\n", False),
    ):
        check(is_as_released("1", "2", changelog) == wanted, f"another program with {changelog!r}")
        check(is_as_released("1", "1", changelog), f"the same program with {changelog!r}")


def wheel_has(wheel, sums):
    """Whether the wheel has files with these sums."""
    with zipfile.ZipFile(wheel) as files:
        there = {hashlib.sha256(files.read(name)).hexdigest() for name in files.namelist()}
    return sums <= there


def of_this_repository(folder, archive):
    """What stands in release/."""
    there = {path.name for path in release.RELEASE.iterdir()}
    wheels = list(release.RELEASE.glob(f"vipr-{VERSION}-*.whl"))
    check(
        len(wheels) == 1 and there == {archive.name, wheels[0].name, "SHA256SUMS"},
        f"release/ has {sorted(there)}",
    )
    said = run(release.RELEASE, "sha256sum", "--quiet", "-c", "SHA256SUMS")
    check(said == (0, "", ""), f"the sums of release/: {said}")
    with tarfile.open(archive) as tar:
        build = tar.extractfile(f"vipr-{VERSION}/BUILD").read().decode()
    reasons = list(release.reasons_against_files(release.RELEASE, build))
    check(not reasons, f"release/: {reasons}")
    rows = dict(line.split(": ", 1) for line in build.splitlines())
    packed = {rows[f"sha256 {name}"] for name in ("vipr", SHARED.name)}
    check(wheel_has(wheels[0], packed), "the wheel of release/ has another program or library")
    if said_version(PROGRAM)[1]:
        print("released: the program here is unproved, and was not compared with that of release/")
    else:
        changelog = (TOP / "CHANGELOG.md").read_text()
        check(
            is_as_released(kit.sum_of(PROGRAM), rows["sha256 vipr"], changelog),
            "the program isn't that of release/: if that is meant, CHANGELOG.md says under "
            f'`Unreleased`: "{CHANGED.format(version=VERSION)}"',
        )
    if run(TOP, "sh", "tools/proved.sh", "digest")[1].strip() != rows["sources"]:
        print("released: the sources here aren't those of release/, and it verified no example")
        return
    shutil.copytree(TOP, folder / "copy", ignore=shutil.ignore_patterns("out", ".git", "dist"))
    status, out, fault = run(folder / "copy", "make", "-s", "check", f"FILE={EXAMPLE}")
    check(
        status == 0 and out.startswith(VERDICT) and fault.count("\n") == 1,
        f"make check with release/: {status} {out} {fault}",
    )


def main():
    comparison()
    archive = release.RELEASE / f"vipr-{VERSION}-linux-x86_64.tar.gz"
    with tempfile.TemporaryDirectory(prefix="vipr-released-") as name:
        room = Path(name)
        for tried in (used, not_used, built_first, digests, refusals):
            tried(room / tried.__name__)
        if archive.is_file():
            of_this_repository(room, archive)
        else:
            print(f"released: release/ has no archive of {VERSION}, so none was compared")
    return CHECKS.end()


if __name__ == "__main__":
    sys.exit(main())
