"""The calls of the library for C.

VIPR_LIBRARY names the library's file. Without it the one in this folder is taken, which the wheel
of `make dist` has, then that of the repository that this folder lies in, and else the system is
asked for `vipr`, which `make install-lib` installs. The library is loaded at the first call.
"""
from __future__ import annotations

import ctypes
import ctypes.util
import functools
import os
from dataclasses import dataclass, replace
from pathlib import Path
from typing import Any, List, Optional, Tuple, Union

from . import checkout
from .certificate import Text, as_bytes
from .files import read_file
from .verdict import Cause, Place, Refusal, Refused, Verdict, Verified

ROOM = 4096  # how many bytes a call is offered at first
_SIZE, _NUMBER, _TEXT = ctypes.c_size_t, ctypes.c_uint32, ctypes.c_char_p


class Error(Exception):
    """A call that gave no verdict."""


class LibraryMissing(Error, ImportError):
    """The library is not installed, or has not these calls."""


class OutOfMemory(Error, MemoryError):
    """The library was refused memory."""


class BadProfile(Error, ValueError):
    """The profile is neither 1 nor 2."""


class _Answer(ctypes.Structure):
    """`struct vipr_answer` of include/vipr.h."""

    _fields_ = [
        ("cause", _NUMBER),
        ("place", _NUMBER),
        ("number", ctypes.c_uint64),
        ("solutions", _NUMBER),
        ("derived", _NUMBER),
        ("peak", ctypes.c_uint64),
        ("has_goal", _NUMBER),
        ("goal", _NUMBER),
    ]


class _Figures(ctypes.Structure):
    """`struct vipr_figures` of include/vipr.h."""

    _fields_ = [
        ("cause", _NUMBER),
        ("place", _NUMBER),
        ("number", ctypes.c_uint64),
        ("kept", _NUMBER),
        ("removed", _NUMBER),
        ("peak_before", ctypes.c_uint64),
        ("peak_after", ctypes.c_uint64),
    ]


@dataclass(frozen=True)
class Tightened:
    """A certificate without what its proof doesn't need: its text, how many derivations it kept and
    lost, and how many derived constraints a check had to hold at once before and has to hold
    now."""

    text: bytes
    kept: int
    removed: int
    peak_before: int
    peak_after: int


def _library_file() -> str:
    """The library's file, or its name for the system's loader."""
    named, own = os.environ.get("VIPR_LIBRARY"), Path(__file__).with_name("libvipr.so")
    if named or own.is_file():
        return named or str(own)
    proved, reason = checkout.library()
    name = str(proved) if proved else ctypes.util.find_library("vipr")
    if not name:
        raise LibraryMissing(
            "the library vipr is not installed: make install-lib, or set VIPR_LIBRARY to its file"
            + (f" ({reason})" if reason else "")
        )
    return name


@functools.lru_cache(maxsize=None)
def _library() -> ctypes.CDLL:
    name = _library_file()
    text: List[Any] = [_TEXT, _SIZE]
    buffer: List[Any] = [_TEXT, _SIZE, ctypes.POINTER(_SIZE)]
    try:
        library = ctypes.CDLL(name)
        library.vipr_is_verified.argtypes = text
        library.vipr_report.argtypes = [_NUMBER, *text, *buffer, ctypes.POINTER(_Answer)]
        library.vipr_explain.argtypes = [_NUMBER, *text, *buffer]
        library.vipr_explain_long.argtypes = [_NUMBER, *text, *text, *buffer]
        library.vipr_show.argtypes = [_NUMBER, *text, *buffer, ctypes.POINTER(_Answer)]
        library.vipr_tighten.argtypes = [_NUMBER, _NUMBER, *text, *buffer, ctypes.POINTER(_Figures)]
        library.vipr_version.argtypes, library.vipr_version.restype = [_TEXT, _SIZE], _SIZE
        library.vipr_digest.argtypes, library.vipr_digest.restype = [*text, _TEXT, _SIZE], _SIZE
    except (OSError, AttributeError) as fault:
        raise LibraryMissing(f"{name}: {fault}") from fault
    return library


def _call(
    name: str, options: Tuple[Union[int, bytes], ...], text: Text, *behind: ctypes.Structure
) -> Tuple[bool, bytes]:
    """Whether the status is 0, and the text of a call, which is made again if its text needs more
    room."""
    whole = as_bytes(text)
    call, length = getattr(_library(), name), _SIZE(ROOM)
    while True:
        room = length.value
        buffer = ctypes.create_string_buffer(max(1, room))
        status = call(
            *options,
            whole,
            len(whole),
            buffer,
            room,
            ctypes.byref(length),
            *map(ctypes.byref, behind),
        )
        if status == 2:
            raise BadProfile("the profiles are 1 and 2")
        if status == 3:
            raise OutOfMemory("vipr: memory was refused")
        if length.value <= room:
            return status == 0, buffer.raw[: length.value]


def _refused(answer: Union[_Answer, _Figures]) -> Refused:
    return Refused(Refusal(Cause(answer.cause), list(Place)[answer.place - 1], answer.number))


def _profile(profile: int) -> int:
    if profile not in (1, 2):
        raise BadProfile("the profiles are 1 and 2")
    return int(profile)


def check(text: Text, profile: int = 1) -> Union[Verified, Refused]:
    """The verdict on a certificate's text, by profile 1 or 2 of the rules.

    Raises BadProfile for another profile, OutOfMemory if memory was refused, and LibraryMissing.
    """
    answer = _Answer()
    verdict = Verdict.parse(_call("vipr_report", (_profile(profile),), text, answer)[1].decode())
    return replace(verdict, goal=answer.goal) if verdict and answer.has_goal else verdict


def check_file(path: Union[str, os.PathLike[str]], profile: int = 1) -> Union[Verified, Refused]:
    """The verdict on the certificate in a file, which is unpacked if it is a .gz, .xz, .bz2 or
    .zst.

    Raises what `check` raises, and OSError if the file can't be read or unpacked.
    """
    return check(read_file(os.path.join(os.curdir, path)), profile)


def explain(text: Text, profile: int = 1) -> bytes:
    """What `vipr explain` prints: the verdict and what shows it, in bytes, since names may be in
    any encoding.

    Raises what `check` raises.
    """
    return _call("vipr_explain", (_profile(profile),), text)[1]


def explain_long(text: Text, name: str = "the text", profile: int = 1) -> bytes:
    """What `vipr explain --long` prints of a file of this name: a page for people after what
    `explain` gives.

    Raises what `check` raises.
    """
    shown = os.fsencode(name)
    return _call("vipr_explain_long", (_profile(profile), shown, len(shown)), text)[1]


def show(text: Text, compact: bool = False) -> Union[bytes, Refused]:
    """The one canonical text of a certificate, or the refusal of a text that spells none, which is
    false in a condition. The proof is not checked.

    Raises OutOfMemory and LibraryMissing.
    """
    answer = _Answer()
    good, shown = _call("vipr_show", (compact,), text, answer)
    return shown if good else _refused(answer)


def tighten(text: Text, profile: int = 1, compact: bool = False) -> Union[Tightened, Refused]:
    """A certificate without what its proof doesn't need, or the refusal of a text that is no proof,
    which is false in a condition.

    Raises what `check` raises.
    """
    figures = _Figures()
    good, shown = _call("vipr_tighten", (_profile(profile), compact), text, figures)
    if not good:
        return _refused(figures)
    return Tightened(shown, figures.kept, figures.removed, figures.peak_before, figures.peak_after)


def _word(name: str, *text: Union[bytes, int]) -> str:
    """The word that a call writes, which has at most 64 bytes."""
    buffer = ctypes.create_string_buffer(65)
    getattr(_library(), name)(*text, buffer, len(buffer))
    return buffer.value.decode()


def is_verified(text: Text) -> bool:
    """Whether the text is verified by the rules of the first profile: the call with the shortest
    proved statement. If it is, the text states a problem, and the claim is true of whatever problem
    it states. Raises LibraryMissing and OutOfMemory.
    """
    whole = as_bytes(text)
    status = _library().vipr_is_verified(whole, len(whole))
    if status == 3:
        raise OutOfMemory("vipr: memory was refused")
    return bool(status == 0)


def digest(text: Text) -> str:
    """The SHA-256 of a text in hex digits, as `vipr check --sum` prints it. Raises
    LibraryMissing."""
    whole = as_bytes(text)
    return _word("vipr_digest", whole, len(whole))


def file() -> Optional[Path]:
    """The file that holds the code of the library's calls, if the system says so. Raises
    LibraryMissing."""
    address = ctypes.cast(_library().vipr_version, ctypes.c_void_p).value or 0
    maps = Path("/proc/self/maps")
    for row in maps.read_text(errors="surrogateescape").split("\n") if maps.is_file() else []:
        start, _, end = row.partition(" ")[0].partition("-")
        if row and int(start, 16) <= address < int(end, 16):
            return Path(row.split(maxsplit=5)[5])
    return None


def version() -> str:
    """The version of the library, followed by ` unproved` if it was built without a proof. Raises
    LibraryMissing."""
    return _word("vipr_version")
