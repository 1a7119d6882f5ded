#!/usr/bin/env python3
"""Makes one archive of what is built: program, libraries, header, man page, completions, pages and
the Python package; and one of the conformance cases.

usage: tools/dist.py VERSION [FOLDER]     FOLDER is dist without it

`make dist` calls it once the program and the library are built. FOLDER gets a wheel of the Python
package that has the program and the library in it, and vipr-VERSION-linux-x86_64.tar.gz, whose
files lie in a folder vipr-VERSION: bin, lib, include and share as `make install` lays them out,
python, and debian, so that `dpkg-buildpackage -b` makes packages of them. SHA256SUMS has the sum of
each file. BUILD, which is beside the pages, too, has the commit, the kit, the digest of the sources
as tools/proved.sh prints it, and the sums of the program and the libraries. `with changes` follows
the commit if a file isn't as it is there. Commit, kit and digest are left out if the program or the
library says that it is unproved. vipr-conformance-N.tar.xz has the folder conformance and the
licence of its scripts; N is the version of the cases. The same files and commit give the same
bytes. The exit status is 1 if a command fails, or if the program or the library isn't the one that
was proved and built here.
"""
import ctypes
import gzip
import hashlib
import lzma
import os
import re
import shutil
import subprocess
import sys
import tarfile
import tempfile
import time
from email.utils import format_datetime
from datetime import datetime, timezone
from pathlib import Path

import kit

TOP = Path(__file__).resolve().parent.parent
# (the glibc is that of README)
WHEEL_TAG = "py3-none-manylinux_2_34_x86_64"
# the version of the cases, and not of the program
CASES_VERSION = (TOP / "conformance/VERSION").read_text().strip()
REFEREE = "PYTHONPATH=python VIPR_LIBRARY=lib/libvipr.so python3 -m vipr audit"
INSTALL = f"""vipr {{version}}, a proved checker of VIPR certificates, built for Linux on x86-64.
A referee's one command: {REFEREE} MODEL.mps CERTIFICATE

It needs glibc 2.34 or later (Debian 12, Ubuntu 22.04), and neither Rust nor the kit that proved it. What is in Python
needs Python 3.9 or later.

    sha256sum -c --quiet SHA256SUMS
    ./bin/vipr check share/doc/vipr/examples/infeasible.vipr
    sudo cp -r bin include lib share /usr/local && sudo ldconfig

The last command installs it; another folder than /usr/local will do. share/doc/vipr/README.md is the first page.
    pip install ./python            the Python package, in an environment that python3 -m venv made
    dpkg-buildpackage -b -us -uc    makes Debian packages
BUILD says which commit was proved by which kit.
"""


def said(*words):
    """What a command says; nothing if it fails, or isn't here."""
    try:
        done = subprocess.run(words, cwd=TOP, capture_output=True, text=True, check=False)
    except OSError:
        return ""
    return done.stdout.strip() if done.returncode == 0 else ""


def version_of(library):
    """The version that a shared library says."""
    word = ctypes.create_string_buffer(65)
    ctypes.CDLL(str(library)).vipr_version(word, ctypes.c_size_t(len(word)))
    return word.value.decode()


def proved_from():
    """The lines of BUILD on what was proved: the commit, the kit, and the digest of the sources."""
    commit, changes = said("git", "rev-parse", "HEAD"), said("git", "status", "--porcelain")
    yield f'commit: {commit or "none"}{" with changes" if changes else ""}'
    yield f'kit: {said(os.environ.get("RT", "rt"), "version")}'
    yield f'sources: {said("sh", "tools/proved.sh", "digest")}'


def build_of(version):
    """What BUILD says: the version, the commit, the kit, the digest of the sources, and the sums of
    the program and the libraries. What says itself that it is unproved has no commit, no kit and no
    digest."""
    program, library = TOP / "crates/vipr/out/vipr", TOP / "crates/vipr_c/out"
    shared = library / f"libvipr.so.{version}"
    versions = {said(program, "--version"), f"vipr {version_of(shared)}"}
    is_proved = versions == {f"vipr {version}"}
    lines = [
        f'version: {version}{"" if is_proved else " unproved"}',
        *(proved_from() if is_proved else []),
        *(
            f"sha256 {file.name}: {kit.sum_of(file)}"
            for file in (program, library / "libvipr.a", shared)
        ),
    ]
    return "".join(f"{line}\n" for line in lines)


def lay_out(tree, version):
    """Puts the files into a folder."""
    built = [
        word
        for file in ("crates/vipr/out/vipr", "crates/vipr_c/out/libvipr.a")
        for word in ("-o", file)
    ]
    subprocess.run(
        [
            "make",
            "--no-print-directory",
            "-s",
            *built,
            "install",
            "install-lib",
            f"DESTDIR={tree}",
            "PREFIX=/",
        ],
        cwd=TOP,
        stdout=subprocess.PIPE,
        text=True,
        check=True,
    )
    for installed in ("share/doc/vipr/INSTALLED", "lib/cmake/vipr/INSTALLED"):
        (tree / installed).unlink()
    pc = tree / "lib/pkgconfig/vipr.pc"
    text = re.sub("^prefix=.*", "prefix=${pcfiledir}/../..", pc.read_text(), flags=re.M)
    pc.write_text(re.sub("^libdir=.*", "libdir=${prefix}/lib", text, flags=re.M))
    for name in ("python", "debian"):
        shutil.copytree(
            TOP / name,
            tree / name,
            ignore=shutil.ignore_patterns("__pycache__", "build", "*.egg-info"),
        )
    day = int(said("git", "log", "-1", "--format=%ct") or 0)
    for place in ("BUILD", "share/doc/vipr/BUILD"):
        (tree / place).write_text(build_of(version))
    (tree / "INSTALL").write_text(INSTALL.format(version=version))
    maintainer = next(
        line[len("Maintainer: ") :]
        for line in (tree / "debian/control").read_text().split("\n")
        if line.startswith("Maintainer: ")
    )
    at = format_datetime(datetime.fromtimestamp(day, timezone.utc))
    (tree / "debian/changelog").write_text(
        f"vipr ({version}) unstable; urgency=medium\n\n  * CHANGELOG.md says what is new.\n\n"
        f" -- {maintainer}  {at}\n"
    )
    files = sorted(file for file in tree.rglob("*") if file.is_file() and not file.is_symlink())
    (tree / "SHA256SUMS").write_text(
        "".join(
            f"{hashlib.sha256(file.read_bytes()).hexdigest()}  {file.relative_to(tree)}\n"
            for file in files
        )
    )
    return day


def lay_out_cases(tree):
    """Puts the conformance cases into a folder."""
    shutil.copytree(TOP / "conformance", tree, ignore=shutil.ignore_patterns("__pycache__"))
    shutil.copy(TOP / "LICENSE", tree)


def pack(tree, packed, day):
    """Writes a folder to a stream as an archive, in which nothing depends on when and by whom it
    was made."""

    def plain(info):
        info.uid = info.gid = 0
        info.uname = info.gname = "root"
        info.mtime = day
        info.mode = 0o755 if info.isdir() or info.mode & 0o100 else 0o644
        return info

    with tarfile.open(fileobj=packed, mode="w", format=tarfile.GNU_FORMAT) as tar:
        for path in [tree, *sorted(tree.rglob("*"))]:
            tar.add(path, path.relative_to(tree.parent), recursive=False, filter=plain)


def write_wheel(folder, version):
    """Writes the wheel with the program and the library, and gives its name."""
    sys.path.insert(0, str(TOP / "python"))
    import build_package

    data = f"{build_package.NAME}.data"
    built = {
        "vipr/libvipr.so": f"crates/vipr_c/out/libvipr.so.{version}",
        f"{data}/scripts/vipr": "crates/vipr/out/vipr",
        f"{data}/data/share/man/man1/vipr.1": "man/vipr.1",
        f"{data}/data/share/bash-completion/completions/vipr": "completions/vipr.bash",
        f"{data}/data/share/zsh/site-functions/_vipr": "completions/_vipr",
        f"{data}/data/share/fish/vendor_completions.d/vipr.fish": "completions/vipr.fish",
    }
    files = {name: (TOP / file).read_bytes() for name, file in built.items()}
    return build_package.write_wheel(
        folder, WHEEL_TAG, files | {"vipr/BUILD": build_of(version).encode()}
    )


def main():
    if len(sys.argv) < 2:
        print(__doc__.split("\n\n")[1])
        return 2
    version, folder = sys.argv[1], Path(sys.argv[2] if len(sys.argv) > 2 else TOP / "dist")
    start = time.monotonic()
    folder.mkdir(parents=True, exist_ok=True)
    archive, cases = (
        folder / f"vipr-{version}-linux-x86_64.tar.gz",
        folder / f"vipr-conformance-{CASES_VERSION}.tar.xz",
    )
    with tempfile.TemporaryDirectory(prefix="vipr-dist-") as name:
        tree, tree_of_cases = (
            Path(name) / f"vipr-{version}",
            Path(name) / f"vipr-conformance-{CASES_VERSION}",
        )
        try:
            day = lay_out(tree, version)
        except subprocess.CalledProcessError as fault:
            print(f"{fault.stdout}{fault.cmd[0]} failed with status {fault.returncode}")
            return 1
        lay_out_cases(tree_of_cases)
        with open(archive, "wb") as file, gzip.GzipFile("", "wb", 9, file, 0) as packed:
            pack(tree, packed, day)
        with lzma.open(cases, "wb", preset=9) as packed:
            pack(tree_of_cases, packed, day)
    print(f"{archive} and {cases.name} are made")
    print(f"{folder / write_wheel(folder, version)} is made")
    print(kit.took("make dist", start))
    return 0


if __name__ == "__main__":
    sys.exit(main())
