"""What was proved in the repository that this package lies in, if it lies in one.

tools/proved.sh of the repository finds it: what was built there, or else what its release has.
"""
from __future__ import annotations

import subprocess
import sys
from pathlib import Path
from typing import Optional, Tuple

from .version import VERSION

_PACKAGE = Path(__file__).resolve().parent
_FINDS = _PACKAGE.parents[1] / "tools/proved.sh"


def _proved(kind: str) -> Tuple[Optional[Path], str]:
    """The path of the program, or the folder of the library; None with the reason if there is
    none."""
    if _PACKAGE.parent.name != "python" or not _FINDS.is_file():
        return None, ""
    done = subprocess.run(
        ["sh", str(_FINDS), kind],
        stdin=subprocess.DEVNULL,
        capture_output=True,
        text=True,
        check=False,
    )
    if done.returncode:
        return None, done.stderr.strip()
    # (what was unpacked is said once)
    sys.stderr.write(done.stderr)
    return _FINDS.parents[1] / done.stdout.rstrip("\n"), ""


def program() -> Tuple[Optional[Path], str]:
    """The program; None with the reason if there is none."""
    return _proved("program")


def library() -> Tuple[Optional[Path], str]:
    """The shared library; None with the reason if there is none."""
    folder, reason = _proved("library")
    return folder and folder / f"libvipr.so.{VERSION}", reason
