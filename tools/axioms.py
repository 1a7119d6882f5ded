#!/usr/bin/env python3
"""Writes into docs/PROOF.md which contracts of functions in C are assumed, as the prover lists
them.

usage: tools/axioms.py [CRATES]

Checks the program once more, with `--list-axioms`, over the libraries that are built in the folder
CRATES, that of this checkout if none is named. Nothing else is written. The exit status is 1 if it
isn't proved.
"""
import os
import re
import shutil
import subprocess
import sys
from pathlib import Path

TOP = Path(__file__).resolve().parent.parent
from sources import crates, replaced  # noqa: E402

KIT = Path(os.path.realpath(shutil.which(os.environ.get("RT", "rt")) or "rt")).parents[1]
PAGE = TOP / "docs/PROOF.md"
MARKS = "<!-- axioms: written by `tools/axioms.py` -->", "<!-- end of the axioms -->"
REACHED = re.compile(r"^\s+(\w+)::(\S+).* reached$", re.M)


def check(folder, crate, root):
    """What the prover prints of a crate with the list."""
    deps = crates()
    built = [library.parent for library in sorted(folder.glob("*/out/rlib/*.rlib"))]
    libraries = [
        f"{name}={folder / name}/out/rlib/{name}.rlib"
        if name in deps
        else f"{name}={KIT}/rlibs/{name}.rlib"
        for name in deps[crate]
        if name != "staticlib"
    ]
    words = [
        KIT / "bin/rattle",
        "check",
        "--crate-name",
        crate,
        folder / crate / root,
        "--extern",
        f"std={KIT}/rlibs/std.rlib",
    ]
    words += [word for library in libraries for word in ("--extern", library)]
    words += [word for path in [KIT / "rlibs", *built] for word in ("-L", f"dependency={path}")]
    words += [
        "--antt-project",
        KIT / "rattle/logic/antt-project.json",
        "--logic-built",
        KIT / "logic_built",
        "--list-axioms",
    ]
    return subprocess.run(words, stdout=subprocess.PIPE, stderr=subprocess.STDOUT, text=True).stdout


def main():
    folder = Path(sys.argv[1] if len(sys.argv) > 1 else TOP / "crates").resolve()
    out = check(folder, "vipr", "src/main.rt")
    last, names = out.rstrip().split("\n")[-1], {}
    count = re.match(r"logic=proved .*axioms=(\d+)", last)
    for crate, name in REACHED.findall(out):
        names.setdefault(crate, []).append(name)
    if not count or int(count[1]) != sum(map(len, names.values())):
        print(out[-3000:])
        return 1
    lists = {crate: ", ".join(f"`{name}`" for name in some) for crate, some in names.items()}
    parts = [f"{len(names[crate])} of `{crate}`: {text}" for crate, text in lists.items()]
    made = f"{count[1]} for `vipr`: {'; '.join(parts)}."
    PAGE.write_text(
        replaced(PAGE.read_text(encoding="utf-8"), MARKS, "\n".join([MARKS[0], made, MARKS[1]])),
        encoding="utf-8",
    )
    print(last)
    return 0


if __name__ == "__main__":
    sys.exit(main())
