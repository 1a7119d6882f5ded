"""VIPR certificates from Python.

    import vipr

    verdict = vipr.check_file("certificate.vipr")
    if verdict:
        print(verdict.claim.lower, verdict.claim.upper)
    else:
        print(verdict.refusal.cause.word)

`is_verified`, `check`, `check_file`, `explain`, `explain_long`, `show`, `tighten` and `digest` are
calls of the proved library. Everything else in this package is plain Python that nothing proves:
`read` and `read_file` give a certificate as values, `Writer` writes one, `read_mps` reads a model,
`compared` compares the two, and `figures` measures a certificate. What refuses a certificate gives
a `Refused`, which is false in a condition; `read_mps` raises `mps.Refused`.
"""

from typing import TYPE_CHECKING, Any, List

from .certificate import (
    Certificate,
    Constraint,
    Derivation,
    Problem,
    Solution,
    read,
    read_file,
    read_problem,
)
from .library import (
    BadProfile,
    Error,
    LibraryMissing,
    OutOfMemory,
    Tightened,
    check,
    check_file,
    digest,
    explain,
    explain_long,
    is_verified,
    show,
    tighten,
    version,
)
from .mps import MpsFile, read_mps
from .verdict import Cause, Claim, Place, Refusal, Refused, Verdict, Verified
from .version import VERSION
from .writer import OBJECTIVE, Handle, Sides, StepRefused, Writer

__all__ = [
    "BadProfile",
    "Cause",
    "Certificate",
    "Claim",
    "Constraint",
    "Derivation",
    "Error",
    "Handle",
    "LibraryMissing",
    "MpsFile",
    "OBJECTIVE",
    "OutOfMemory",
    "Place",
    "Problem",
    "Refusal",
    "Refused",
    "Sides",
    "Solution",
    "StepRefused",
    "Tightened",
    "Verdict",
    "Verified",
    "Writer",
    "check",
    "check_file",
    "compared",
    "digest",
    "explain",
    "explain_long",
    "figures",
    "is_verified",
    "read",
    "read_file",
    "read_mps",
    "read_problem",
    "show",
    "tighten",
    "version",
]
__version__ = VERSION

if TYPE_CHECKING:
    from .compare_mps import compared
    from .stats import figures


def __getattr__(name: str) -> Any:
    """What a command's module has: `python3 -m vipr.stats` is to be the first to import it."""
    if name == "compared":
        from .compare_mps import compared

        return compared
    if name == "figures":
        from .stats import figures

        return figures
    raise AttributeError(f"module {__name__!r} has no attribute {name!r}")


def __dir__() -> List[str]:
    return sorted({*globals(), *__all__})
