#!/usr/bin/env python3
"""Makes the release of this version: what `make check` and `make install` use if nothing was built.

usage: tools/release.py VERSION

`make release` calls it once the program and the library are built. release/ gets the archive and
the wheel that tools/dist.py makes of them, and SHA256SUMS; what it had before goes. The exit status
is 1, and release/ stays as it is, if git shows a change or isn't there, if the program or the
library says that it is unproved, if files name another version, if CHANGELOG has no section of this
version at its top, or if the files have more than MOST bytes.
"""
import re
import shutil
import subprocess
import sys
import tempfile
from pathlib import Path

import kit
import version as versions

TOP = Path(__file__).resolve().parent.parent
RELEASE = TOP / "release"
MOST = 6_000_000
# what BUILD of a release says, a row each
BUILD = [
    r"version: \d+\.\d+\.\d+",
    r"commit: [0-9a-f]{40}",
    r"kit: \S.*",
    r"sources: [0-9a-f]{64}",
    r"sha256 vipr: [0-9a-f]{64}",
    r"sha256 libvipr\.a: [0-9a-f]{64}",
    r"sha256 libvipr\.so\.\S+: [0-9a-f]{64}",
]


def changes(folder):
    """What git shows as changed in a folder, or why it shows nothing."""
    words = ["git", "status", "--porcelain"]
    try:
        done = subprocess.run(words, cwd=folder, capture_output=True, text=True, check=False)
    except OSError as fault:
        return str(fault)
    return done.stdout + done.stderr


def reasons_against(version):
    """Why no release of this version can be made of what stands here."""
    changed = changes(TOP)
    if changed:
        yield f"commit or remove these changes first:\n{changed.rstrip()}"
    others = sorted({name for name, said in versions.named() if said != version})
    if others:
        yield f"another version than {version} stands in {', '.join(others)}: see tools/version.py"
    headings = re.findall(r"^## (.*)$", (TOP / "CHANGELOG.md").read_text(), re.M)
    if not headings or not re.fullmatch(rf"{re.escape(version)}, \d+-\d+-\d+", headings[0]):
        yield f"the first section of CHANGELOG.md isn't that of {version}"


def reasons_against_files(folder, build):
    """Why what was made can't be the release."""
    rows = build.splitlines()
    if len(rows) != len(BUILD) or not all(map(re.fullmatch, BUILD, rows)):
        yield f"what was built isn't proved from a commit:\n{build.rstrip()}"
    size = sum(path.stat().st_size for path in folder.iterdir())
    if size > MOST:
        yield f"the files have {size} bytes, and a release at most {MOST}"


def make(folder, version):
    """Makes the files in a folder, and gives what BUILD says."""
    words = [sys.executable, TOP / "tools/dist.py", version, folder]
    subprocess.run(words, check=True)
    for cases in folder.glob("vipr-conformance-*"):
        cases.unlink()
    made = sorted(folder.iterdir())
    kit.write_sums(folder / "SHA256SUMS", made)
    archive = next(path for path in made if path.name.endswith(".tar.gz"))
    words = ["tar", "xzOf", archive, f"vipr-{version}/BUILD"]
    return subprocess.run(words, stdout=subprocess.PIPE, text=True, check=True).stdout


def main():
    if len(sys.argv) != 2:
        print(__doc__.split("\n\n")[1])
        return 2
    version = sys.argv[1]
    reasons = list(reasons_against(version))
    if not reasons:
        with tempfile.TemporaryDirectory(prefix="vipr-release-") as name:
            folder = Path(name)
            try:
                reasons = list(reasons_against_files(folder, make(folder, version)))
            except subprocess.CalledProcessError as fault:
                reasons = [str(fault)]
            if not reasons:
                shutil.rmtree(RELEASE, ignore_errors=True)
                RELEASE.mkdir()
                for path in folder.iterdir():
                    shutil.copy(path, RELEASE)
    for reason in reasons:
        print(f"no release: {reason}")
    if not reasons:
        print(f"release/ has vipr {version}: commit it, and tag that commit v{version}")
    return int(bool(reasons))


if __name__ == "__main__":
    sys.exit(main())
