#!/usr/bin/env python3
"""Tries what `make` does with names, makes the archive of `make dist`, and uses it as someone does
who has no kit.

usage: tests/archive.py [ROOT]     ROOT is a folder with a Debian system, as debootstrap makes it, for root alone

In a copy of the Makefile and of what it installs, with a stand-in for the program and the library,
names with spaces, quotes, and what a shell or make would run, reach the program and the folders as
they are: nothing in a name is run, and nothing but what was installed is removed. What others put
there or changed stays. The library isn't installed in a folder that pkg-config can't name. Another
program or library than the one that was proved is neither used, nor installed, nor packed.

The archive is unpacked in an empty folder, or in ROOT and used there by chroot. Nothing but the
system's own folders is on the path. Its sums are right; `vipr check` verifies an example, the man
page is laid out if `man` is there, the callers in C (if there is a compiler) and Python answer as
the program does, and the Python package's commands run, and have their man pages and completions.
If dpkg-buildpackage and debhelper are there, it makes packages, and lintian, if it is there, finds
no error in them. If debootstrap can make a new system, they are installed in it, and after a purge
it has the files that it had before. The archive made a second time has the same bytes, and so has
the wheel, which is installed into an environment of its own, and the archive of the conformance
cases, whose script runs the program on some. What isn't tried is named. It needs what `make lib`
builds.

Prints each fault, and last `archive: N checks, F failed`; the exit status is 1 if one failed.
"""
import gzip
import hashlib
import re
import shutil
import subprocess
import sys
import tempfile
from pathlib import Path

from texts import TOP, UNPROVED, Checks, said_version
import debian_packages
import dist
import kit

sys.path.insert(0, str(TOP / "python"))
sys.dont_write_bytecode = True
import build_manual  # noqa: E402

VERSION = re.search(r'VIPR_VERSION "(.*)"', (TOP / "include/vipr.h").read_text())[1]
PATH = "/usr/sbin:/usr/bin:/sbin:/bin"
EXAMPLE = "share/doc/vipr/examples/infeasible.vipr"
CASES = f'vipr-conformance-{(TOP / "conformance/VERSION").read_text().strip()}'
VERDICT = "verified infeas\nsolutions 0 derived 1 peak 1\n"
# what a name may do to a shell or to make; each runs `touch PWNED` if it is run
NAMES = [
    "a`touch PWNED`.vipr",
    "b$(shell touch PWNED).vipr",
    'c"; touch PWNED; ".vipr',
    "d'; touch PWNED; '.vipr",
    "e$$(touch PWNED)$(FILE).vipr",
    "f my files",
    "g\\ &|#;*?.vipr",
    "--help",
]
CHECKS = Checks("archive")
check = CHECKS.check
left_out = []


def laid_out(folder):
    """A copy of what the Makefile needs in a folder, with a stand-in for the program, which prints
    its words, and for the library; and a function that runs make there."""
    version = "crates/vipr_command/src/args.rt"
    for name in (
        "Makefile",
        "README.md",
        "CONTRIBUTING.md",
        "CHANGELOG.md",
        "LICENSE",
        "crates.txt",
        version,
        "tools/installed.sh",
        "tools/proved.sh",
        "include",
        "man",
        "completions",
        "examples",
        *(
            f"conformance/{page}"
            for page in (
                "README.md",
                "CHANGELOG.md",
                "LICENSE-CASES",
                "sentences.tsv",
                "schema.json",
            )
        ),
    ):
        (folder / name).parent.mkdir(parents=True, exist_ok=True)
        (shutil.copytree if (TOP / name).is_dir() else shutil.copy2)(TOP / name, folder / name)
    program, library = folder / "crates/vipr/out/vipr", folder / "crates/vipr_c/out"
    for path in (
        folder / "tools/make_library.py",
        program,
        library / f"libvipr.so.{VERSION}",
        library / "libvipr.a",
    ):
        path.parent.mkdir(parents=True, exist_ok=True)
        path.write_text("#!/bin/sh\nprintf '%s\\n' \"$@\"\n")
        path.chmod(0o755)
    kit.write_sums(program.with_name("vipr.sha256"), [program])
    kit.write_sums(
        library / "libvipr.sha256", [library / "libvipr.a", library / f"libvipr.so.{VERSION}"]
    )

    def make(*words):
        done = subprocess.run(
            ["make", "-s", "RT=none", *words],
            cwd=folder,
            stdin=subprocess.DEVNULL,
            capture_output=True,
            text=True,
            check=False,
            env={"PATH": PATH, "LC_ALL": "C.UTF-8"},
        )
        return done.returncode, done.stdout, done.stderr

    return make


def files_in(folder):
    """The files below a folder, and links."""
    return {
        str(path.relative_to(folder))
        for path in folder.rglob("*")
        if not path.is_dir() or path.is_symlink()
    }


def names(folder):
    """Names reach the program and the folders as they are, and nothing in one is run."""
    copy = folder / "copy"
    copy.mkdir()
    make = laid_out(copy)
    said = make("--eval=show: ; @env", "show")
    check(
        said[0] == 0 and "\nLIBDIR=" not in said[1],
        f"a make below has the LIBDIR of this one: {said}",
    )
    for name in NAMES:
        said = make("check", f"FILE={name}")
        check(said == (0, f"check\n--\n{name}\n", ""), f"make check of {name!r}: {said}")
    for name in NAMES:
        place, beside = folder / name, folder / name.split(" ")[0]
        beside.write_text("precious")
        if place == beside:
            beside.unlink()
        start = files_in(folder)
        for words in ([f"PREFIX=../{name}"], [f"DESTDIR=../{name}", "PREFIX=/"]):
            status, out, fault = make("install", *words)
            check(
                status == 0
                and not fault
                and (place / "bin/vipr").is_file()
                and (place / "share/doc/vipr/README.md").is_file(),
                f"make install {words}: {status} {out} {fault}",
            )
            status, out, fault = make("uninstall", *words)
            check(
                status == 0 and not fault and files_in(folder) == start,
                f"make uninstall {words}: {files_in(folder) ^ start} {fault}",
            )
        is_plain = name == "--help"
        for target in ("install-lib", "uninstall-lib"):
            status, out, fault = make(target, f"PREFIX=../{name}")
            check(
                (status == 0) == is_plain, f"make {target} PREFIX=../{name}: {status} {out} {fault}"
            )
            check(
                files_in(folder) == start or (is_plain and target == "install-lib"),
                f"{files_in(folder) ^ start}",
            )
    check("PWNED" not in {path.name for path in folder.rglob("*")}, "what stands in a name was run")


def others(folder):
    """What others put where it is installed, or changed there, stays."""
    copy, place = folder / "copy", folder / "place"
    copy.mkdir()
    make = laid_out(copy)
    pages, programs = place / "share/doc/vipr", place / "bin"

    def run(*targets):
        for target in targets:
            status, out, fault = make(target, "PREFIX=../place")
            check(status == 0 and not fault, f"make {target}: {status} {out} {fault}")
        return out

    def left(what, *wanted):
        found = files_in(place)
        check(found == set(wanted), f"make uninstall, {what}: it leaves {sorted(found)}")
        shutil.rmtree(place)

    run("install")
    (pages / "notes").write_text("theirs")
    (pages / "examples/plan.vipr").write_text("theirs, too")
    (programs / "vipr").write_text("theirs as well")
    out = run("uninstall")
    check(out.count(" stays") == 2, f"make uninstall doesn't say what stays: {out}")
    left("other files", "share/doc/vipr/notes", "share/doc/vipr/examples/plan.vipr", "bin/vipr")
    (folder / "far").mkdir()
    (folder / "far/notes").write_text("theirs")
    pages.parent.mkdir(parents=True)
    pages.symlink_to(folder / "far")
    run("install", "uninstall")
    check(files_in(folder / "far") == {"notes"}, f"there are left {files_in(folder / 'far')}")
    left("a link in place of the pages", "share/doc/vipr")
    run("install")
    (copy / "examples/plan.mps").unlink()
    (copy / "README.md").write_text("a newer one")
    run("install", "uninstall")
    left("a newer version with a page less")
    programs.mkdir(parents=True)
    (programs / "vipr").write_text("theirs")
    out = run("uninstall")
    check("nothing is removed" in out, f"make uninstall of nothing: {out}")
    left("nothing was installed", "bin/vipr")
    (programs / "vipr").mkdir(parents=True)
    status, out, fault = make("install", "PREFIX=../place")
    check(status != 0, f"make install over a folder: {status} {out}")
    left("a folder in place of the program")
    run("install-lib")
    (place / "lib/cmake/vipr/theirs.cmake").write_text("theirs")
    (place / "include/vipr.h").write_text("theirs")
    (place / "lib/libvipr.so.1").unlink()
    (place / "lib/libvipr.so.1").write_text("theirs")
    run("uninstall-lib")
    left(
        "other files of the library",
        "lib/cmake/vipr/theirs.cmake",
        "include/vipr.h",
        "lib/libvipr.so.1",
    )


def unproved(folder):
    """Neither another program nor another library is used, installed or packed, whatever is there
    in place of their sums."""
    copy = folder / "copy"
    copy.mkdir()
    make = laid_out(copy)
    shutil.copy(TOP / "tools/dist.py", copy / "tools")
    shutil.copy(TOP / "tools/kit.py", copy / "tools")
    library = copy / "crates/vipr_c/out"
    for sums, targets, said in (
        (copy / "crates/vipr/out/vipr.sha256", ("check", "install", "dist"), "make build"),
        (library / "libvipr.sha256", ("install-lib", "dist"), "make lib"),
    ):
        right = sums.read_text()
        rows = right.splitlines(keepends=True)
        for wrong in ("", f'{"0" * 64}{right[64:]}', *(rows if len(rows) > 1 else []), None):
            sums.unlink() if wrong is None else sums.write_text(wrong)
            start = files_in(folder)
            for target in targets:
                status, out, fault = make(target, "PREFIX=../place")
                check(
                    status != 0
                    and "that was proved and built here" in fault
                    and said in fault
                    and files_in(folder) == start,
                    f"make {target} beside the sums {wrong!r}: {status} {out} {fault}",
                )
        sums.write_text(right)


class Place:
    """Where the archive is unpacked, and how a command is run there."""

    def __init__(self, folder, root):
        self.folder, self.root = folder, root

    def inside(self):
        return f"/{self.folder.relative_to(self.root)}" if self.root else str(self.folder)

    def run(self, words):
        front = ["chroot", str(self.root)] if self.root else []
        done = subprocess.run(
            [
                *front,
                "/usr/bin/env",
                "-i",
                f"PATH={PATH}",
                "LC_ALL=C.UTF-8",
                "/bin/sh",
                "-c",
                f"cd {self.inside()} && {words}",
            ],
            stdin=subprocess.DEVNULL,
            capture_output=True,
            text=True,
            errors="replace",
            check=False,
        )
        return done.returncode, done.stdout, done.stderr

    def has(self, program):
        found = self.run(f"command -v {program}")[0] == 0
        if not found:
            left_out.append(program)
        return found


def made(folder):
    done = subprocess.run(
        [sys.executable, TOP / "tools/dist.py", VERSION, folder],
        cwd=TOP,
        capture_output=True,
        text=True,
        check=False,
    )
    check(done.returncode == 0, done.stdout + done.stderr)
    return [
        folder / f"vipr-{VERSION}-linux-x86_64.tar.gz",
        folder / f"{CASES}.tar.xz",
        *folder.glob("*.whl"),
    ]


def is_unproved():
    """Whether the program or the library that is packed here says that it was built without a
    proof."""
    library = TOP / f"crates/vipr_c/out/libvipr.so.{VERSION}"
    return said_version(TOP / "crates/vipr/out/vipr")[1] or UNPROVED in dist.version_of(library)


def check_commit(said):
    """What is said of a build names the commit and the kit, but of an unproved one neither."""
    for word in ("commit", "kit"):
        is_named = bool(re.search(rf"\b{word}:? ", said))
        check(is_named != is_unproved(), f"it names the {word} of an unproved one, or none: {said}")


def use(place):
    status, out, fault = place.run("sha256sum -c --quiet SHA256SUMS")
    check(status == 0, out + fault)
    listed = {
        line.split("  ", 1)[1] for line in (place.folder / "SHA256SUMS").read_text().splitlines()
    }
    there = {name for name in files_in(place.folder) if not (place.folder / name).is_symlink()} - {
        "SHA256SUMS"
    }
    check(listed == there, f"SHA256SUMS has these too many or too few: {sorted(listed ^ there)}")
    build = (place.folder / "BUILD").read_text()
    check(
        build == (place.folder / "share/doc/vipr/BUILD").read_text(), "the pages have another BUILD"
    )
    check_commit(build)
    check((UNPROVED in build) == is_unproved(), f"BUILD says that it is unproved, or not: {build}")
    for file in ("bin/vipr", "lib/libvipr.a", f"lib/libvipr.so.{VERSION}"):
        name, path = Path(file).name, place.folder / file
        check(
            f"sha256 {name}: {hashlib.sha256(path.read_bytes()).hexdigest()}\n" in build,
            f"BUILD has another sum of {name}: {build}",
        )
    check(place.run("command -v rt")[0] != 0, "the kit is on the path")
    check(
        place.run(f"./bin/vipr check {EXAMPLE}") == (0, VERDICT, ""),
        place.run(f"./bin/vipr check {EXAMPLE}"),
    )
    if place.has("python3"):
        files = (f"share/doc/vipr/examples/plan.{end}" for end in ("mps", "vipr"))
        status, out, fault = place.run(
            f"PYTHONDONTWRITEBYTECODE=1 {dist.REFEREE} {' '.join(files)}"
        )
        check(status == 0 and "\nproblem      same problem " in out, out + fault)
        check_commit(out.partition("\nprogram ")[2])
    status, out, _ = place.run("./bin/vipr explain --long share/doc/vipr/examples/overflow.vipr")
    page = re.search(r"see: (docs/\w+\.md)", out)
    check(
        status == 1 and page and (place.folder / "share/doc/vipr" / page[1]).is_file(),
        f"no page of {out}",
    )
    if place.has("man"):
        status, out, fault = place.run("MANPAGER=cat man -l share/man/man1/vipr.1")
        check(status == 0 and "SYNOPSIS" in out, out + fault)
    line = f"{EXAMPLE}: {VERDICT.strip()}\n".replace("\n", ", ", 1)
    if place.has("cc"):
        for linked in ("lib/libvipr.a", "-Llib -lvipr -Wl,-rpath,$PWD/lib"):
            said = place.run(
                f"d=$(mktemp -d) && cc -Iinclude share/doc/vipr/examples/c/check.c {linked} -o $d/check && $d/check {EXAMPLE}"
            )
            check(said == (0, line, ""), said)
        if place.has("pkg-config"):
            said = place.run("PKG_CONFIG_PATH=lib/pkgconfig pkg-config --libs vipr")
            check(said[0] == 0 and said[1].split() == ["-Llib/pkgconfig/../../lib", "-lvipr"], said)
    if place.has("python3"):
        front = "PYTHONDONTWRITEBYTECODE=1 PYTHONPATH=python VIPR_LIBRARY=lib/libvipr.so python3"
        said = place.run(f"{front} share/doc/vipr/examples/python/check.py {EXAMPLE}")
        check(said == (0, line, ""), said)
        status, out, fault = place.run(f"{front} -m vipr.stats share/doc/vipr/examples/plan.vipr")
        check(status == 0 and "claim" in out, fault)


def tried_in_python(place):
    """The commands of python3-vipr are those of the package, and each runs from where it is
    unpacked."""
    status, out, fault = place.run(
        "mkdir -p ../unpacked && for package in ../python3-vipr_*.deb ../vipr_*.deb; do dpkg-deb -x $package ../unpacked; done"
    )
    check(status == 0, out + fault)
    wanted = set(
        re.findall(r"^(vipr-[\w-]+) = ", (TOP / "python/pyproject.toml").read_text(), re.M)
    ) | {"vipr"}
    found = place.run("ls ../unpacked/usr/bin")[1].split()
    check(set(found) == wanted, f"the commands of the packages are {found}")
    for command in sorted(wanted - {"vipr"}):
        status, out, fault = place.run(
            f"PYTHONDONTWRITEBYTECODE=1 PYTHONPATH=../unpacked/usr/lib/python3/dist-packages python3 ../unpacked/usr/bin/{command} --help"
        )
        check(status == 0 and command in out, f"{command} --help: {out}{fault}")
    for path, text in build_manual.files().items():
        file = (
            place.folder.parent
            / "unpacked/usr"
            / path.replace("site-functions", "vendor-completions")
        )
        there = (
            gzip.decompress(file.with_name(f"{file.name}.gz").read_bytes()).decode()
            if "/man/" in path
            else file.read_text()
        )
        check(there == text, f"python3-vipr has another {path}")
    status, out, fault = place.run(
        "PYTHONDONTWRITEBYTECODE=1 PYTHONPATH=../unpacked/usr/lib/python3/dist-packages VIPR_LIBRARY=lib/libvipr.so "
        f"python3 ../unpacked/usr/bin/vipr-html {EXAMPLE}"
    )
    check(status == 0 and ": verified" in out, f"vipr-html: {out:.300}{fault}")


def tried_wheel(folder):
    """The wheel in an environment of its own: nothing else of `vipr` is on its path, and no network
    is asked."""
    wheel = next(folder.glob("*.whl"))
    made = subprocess.run(
        [sys.executable, "-m", "venv", folder / "venv"], capture_output=True, text=True, check=False
    )
    if made.returncode:
        left_out.append("venv")
        return
    there = {
        "PATH": f'{folder / "venv/bin"}:/usr/bin:/bin',
        "HOME": str(folder),
        "LC_ALL": "C.UTF-8",
    }

    def run(*words):
        done = subprocess.run(
            words,
            cwd=folder,
            env=there,
            stdin=subprocess.DEVNULL,
            capture_output=True,
            text=True,
            check=False,
        )
        return done.returncode, done.stdout, done.stderr

    status, out, fault = run("pip", "install", "--no-index", "--quiet", wheel)
    check(status == 0, out + fault)
    pages = {**build_manual.files(), "share/man/man1/vipr.1": (TOP / "man/vipr.1").read_text()}
    check(
        all((folder / "venv" / path).read_text() == text for path, text in pages.items()),
        "the wheel has other man pages or completions",
    )
    example = TOP / "examples/infeasible.vipr"
    check(
        run("vipr", "check", example) == (0, VERDICT, ""),
        f'the wheel has another program: {run("vipr", "check", example)}',
    )
    status, out, fault = run("vipr-html", example)
    check(status == 0 and ": verified" in out, f"vipr-html of the wheel: {out:.300}{fault}")
    page = re.search(
        r"\$ .* vipr audit (\S+) (\S+)\n((?:.+\n)*?)program ", (TOP / "docs/REFEREE.md").read_text()
    )
    status, out, fault = run("vipr-audit", *(TOP / page[at] for at in (1, 2)))
    report = out.replace(f"{TOP}/", "").partition("program ")
    check((status, report[0]) == (0, page[3]), f"vipr-audit of the wheel: {out}{fault}")
    check_commit(report[2])
    status, out, fault = run("vipr-audit", TOP / page[1], example)
    check(
        status == 1 and "nothing is proved of this model" in out,
        f"vipr-audit of another model: {out}{fault}",
    )
    build = next((folder / "venv").rglob("BUILD"))
    build.write_text(build.read_text().replace(f".so.{VERSION}: ", f".so.{VERSION}: 0"))
    status, out, fault = run("vipr-audit", *(TOP / page[at] for at in (1, 2)))
    check(
        status == 0 and "commit " not in out and "sha256 " in out,
        f"vipr-audit beside the BUILD of another library: {out}{fault}",
    )
    status, out, fault = run("vipr-check-all", example)
    check(status == 0 and "verified" in out + fault, f"vipr-check-all of the wheel: {out}{fault}")
    code = 'import sys, vipr; print(vipr.check(open(sys.argv[1], "rb").read()))'
    check(
        run("python3", "-c", code, example)[:2] == (0, VERDICT), run("python3", "-c", code, example)
    )


def use_cases(place):
    """The conformance cases, unpacked beside the program."""
    there = {
        str(path.relative_to(TOP / "conformance"))
        for path in (TOP / "conformance").rglob("*")
        if "__pycache__" not in path.parts
    }
    folder = place.folder.parent / CASES
    found = {str(path.relative_to(folder)) for path in folder.rglob("*")}
    check(
        found == there | {"LICENSE"},
        f"the archive of cases has other files: {sorted(found ^ there)[:5]}",
    )
    if place.has("python3"):
        status, out, fault = place.run(
            f"../{CASES}/run.py --rule asm --rule sol --refused 1 -- ./bin/vipr check {{}}"
        )
        check(status == 0, out + fault)


def packages(place):
    if not place.has("dpkg-buildpackage") or not place.has("dh"):
        return
    status, out, fault = place.run("dpkg-buildpackage -b -us -uc")
    check(status == 0, (out + fault)[-2000:])
    if status:
        return
    found = sorted(path.name.split("_")[0] for path in place.folder.parent.glob("*.deb"))
    check(found == ["libvipr-dev", "libvipr1", "python3-vipr", "vipr"], f"the packages are {found}")
    tried_in_python(place)
    for name, file, at in (
        ("vipr", "bin/vipr", "bin"),
        ("libvipr1", f"lib/libvipr.so.{VERSION}", "lib/x86_64-linux-gnu"),
    ):
        status, out, fault = place.run(
            f"dpkg-deb --fsys-tarfile ../{name}_{VERSION}_amd64.deb | "
            f"tar xO ./usr/{at}/{Path(file).name} | cmp - {file}"
        )
        check(status == 0, f"{name} has another {file}: {fault}")
    if place.has("lintian"):
        _, out, fault = place.run("lintian --allow-root ../*.changes")
        check(not re.search(r"^E:", out, re.M), out + fault)
    debian_packages.installed_and_purged(CHECKS, place.folder.parent)


def main():
    root = Path(sys.argv[1]).resolve() if len(sys.argv) > 1 else None
    for tried in (names, others, unproved):
        with tempfile.TemporaryDirectory(prefix="vipr-make-") as name:
            tried(Path(name))
    if not (TOP / "crates/vipr_c/out/libvipr.a").is_file():
        if shutil.which("cc"):
            print("archive: not made, for want of the library: make lib")
        else:
            CHECKS.skip("C compiler", "there is no library, and no archive was made")
        return CHECKS.end()
    with tempfile.TemporaryDirectory(prefix="vipr-dist-", dir=root and root / "tmp") as name:
        folder = Path(name)
        folder.chmod(0o755)
        archives, again = made(folder), made(folder / "again")
        for archive, other in zip(archives, again):
            check(
                archive.read_bytes() == other.read_bytes(),
                f"{archive.name} made a second time is another one",
            )
        for archive in archives[:2]:
            subprocess.run(["tar", "xf", archive], cwd=folder, check=True)
        tried_wheel(folder)
        shutil.rmtree(folder / "again")
        place = Place(folder / f"vipr-{VERSION}", root)
        use(place)
        use_cases(place)
        packages(place)
    if "cc" in left_out:
        CHECKS.skip("C compiler", "the library of the archive was not linked")
    if left_out:
        print(f'archive: left out, for want of {", ".join(left_out)}')
    return CHECKS.end()


if __name__ == "__main__":
    sys.exit(main())
