"""Runs a command by its name: `python3 -m vipr stats FILE` is `vipr-stats FILE`."""

from __future__ import annotations

import importlib
import sys

from .version import VERSION

COMMANDS = {
    "audit": "answers a referee: is the claim proved, and is it about this model?",
    "check-all": "checks folders of certificates on all cores",
    "compare-mps": "compares a certificate's problem with an MPS file",
    "html": "writes a page on which a person browses a proof",
    "picture": "draws a proof as SVG",
    "stats": "counts derivations, and measures rows and numbers",
}
_ROWS = "\n".join(f"  {name:12} {does}" for name, does in COMMANDS.items())
USAGE = f"""usage: python3 -m vipr COMMAND ..

{_ROWS}

`python3 -m vipr COMMAND --help` lists what each takes. The program `vipr` checks a certificate alone."""


def main() -> int:
    name = sys.argv[1] if len(sys.argv) > 1 else "--help"
    if name in COMMANDS:
        del sys.argv[1]
        return int(importlib.import_module(f".{name.replace('-', '_')}", __package__).main())
    if name in ("-h", "--help", "--version"):
        print(f"vipr {VERSION}" if name == "--version" else USAGE)
        return 0
    print(USAGE, file=sys.stderr)
    return 2


if __name__ == "__main__":
    sys.exit(main())
