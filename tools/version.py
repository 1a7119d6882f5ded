#!/usr/bin/env python3
"""Says which version each file of the repository names, or writes a new one into all of them.

usage: tools/version.py [VERSION DATE]     DATE is that of the release, as 2026-01-31

Without words it prints the version that each place of PLACES names; the exit status is 1 if they
aren't one. With VERSION it writes it there, and DATE where one stands, and gives CHANGELOG's
section `Unreleased` their heading. After that `make statement` and the tests have to run anew.
"""
import re
import sys
from pathlib import Path

TOP = Path(__file__).resolve().parent.parent
NUMBER = r"(\d+\.\d+\.\d+)"
# what stands around the version, or the date, by file; the first file is the one that others go by
PLACES = {
    "crates/vipr_command/src/args.rt": [rf'\.version\("{NUMBER}"\)'],
    "crates/vipr_c/src/lib.rt": [rf'\(codes "{NUMBER}"\)', rf'end\(version, "{NUMBER}"'],
    "include/vipr.h": [rf'#define VIPR_VERSION "{NUMBER}"'],
    "python/pyproject.toml": [rf'^version = "{NUMBER}"'],
    "python/vipr/version.py": [rf'^VERSION = "{NUMBER}"'],
    "examples/rust/Cargo.toml": [rf'^version = "{NUMBER}"'],
    "man/vipr.1": [rf'^\.TH .*"vipr {NUMBER}"'],
    "docs/REFEREE.md": [rf"^program +version {NUMBER}", rf"by vipr {NUMBER}"],
    "CITATION.cff": [rf"^version: {NUMBER}"],
}
DATES = {
    "man/vipr.1": [r"^\.TH VIPR 1 (\d+-\d+-\d+) "],
    "CITATION.cff": [r"^date-released: (\d+-\d+-\d+)"],
}
UNRELEASED = "## Unreleased\n"


def named():
    """Each place with the version that it names: None if it names none."""
    for name, patterns in PLACES.items():
        text = (TOP / name).read_text()
        for pattern in patterns:
            for version in re.findall(pattern, text, re.M) or [None]:
                yield name, version


def of_program():
    """The version that the program says."""
    return next(named())[1]


def write(places, word):
    """Writes a word into its places."""
    for name, patterns in places.items():
        path = TOP / name
        text = path.read_text()
        for pattern in patterns:
            text = re.sub(pattern, lambda found: found[0].replace(found[1], word), text, flags=re.M)
        path.write_text(text)


def main():
    if len(sys.argv) == 3:
        version, date = sys.argv[1:]
        write(PLACES, version)
        write(DATES, date)
        changes = TOP / "CHANGELOG.md"
        changes.write_text(changes.read_text().replace(UNRELEASED, f"## {version}, {date}\n", 1))
    elif len(sys.argv) != 1:
        print(__doc__.split("\n\n")[1])
        return 2
    found = list(named())
    for name, version in found:
        print(f"{version or 'none'}\t{name}")
    return int(len({version for _, version in found}) > 1)


if __name__ == "__main__":
    sys.exit(main())
