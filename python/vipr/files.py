"""Files and command lines of the commands: plain and compressed files, names that are printed, and
what a command can't do."""
from __future__ import annotations

import argparse
import contextlib
import io
import os
import stat
import sys
import threading
import time
from pathlib import Path
from typing import Any, Callable, Iterable, Iterator, NoReturn, Optional, Tuple, Union

from .packed import SUFFIXES, NotWhole, text_of, unpacked
from .version import VERSION

VERIFIED, REFUSED, MISUSED, FAILED = range(4)
LONG, OFTEN = 2, 0.5  # seconds until a terminal shows how far a command is, and until it changes
SHORT = {"\\": "\\\\", "\t": "\\t", "\n": "\\n", "\r": "\\r"}


def read_file(name: str) -> bytes:
    """The bytes of a file, unpacked by its suffix; `-` is standard input. Raises OSError, also if
    it can't be unpacked."""
    if name == "-":
        return sys.stdin.buffer.read()
    suffix = Path(name).suffix
    if suffix not in SUFFIXES:
        return Path(name).read_bytes()
    with open(name, "rb") as file:
        try:
            return b"".join(unpacked(file, suffix))
        except NotWhole as fault:
            raise not_unpacked(name, fault) from fault


def read_both(name: str) -> Tuple[bytes, bytes]:
    """The bytes of a file, and its text, which is unpacked by its suffix. Raises what `read_file`
    raises."""
    suffix = Path(name).suffix
    if name == "-" or suffix not in SUFFIXES:
        text = read_file(name)
        return text, text
    packed = Path(name).read_bytes()
    try:
        return packed, text_of(packed, suffix)
    except NotWhole as fault:
        raise not_unpacked(name, fault) from fault


def not_unpacked(name: str, fault: NotWhole) -> OSError:
    return OSError(None, f"not unpacked: {fault}", name)


def is_one_file(name: str, others: Iterable[str]) -> bool:
    """Whether a regular file is one of these, by whatever names; `-` is standard input."""
    try:
        about = os.stat(name)
    except OSError:
        return False
    if not stat.S_ISREG(about.st_mode):
        return False
    for other in others:
        try:
            if os.path.samestat(about, os.stat("/dev/stdin" if other == "-" else other)):
                return True
        except OSError:
            continue
    return False


def keep_apart(out: Optional[str], name: str) -> None:
    """Ends a command whose output would replace what it reads."""
    if out and is_one_file(out, [name]):
        raise OSError(None, "it is the file that is read", out)


def escaped(character: str) -> str:
    """A character that isn't printed as it is. A byte that isn't UTF-8 is `\\xff`, a control byte `\\x1b`, others `\\u202e`."""
    code = ord(character)
    if character in SHORT:
        return SHORT[character]
    if code < 0x80 or 0xDC80 <= code <= 0xDCFF:
        return f"\\x{code & 0xff:02x}"
    return f"\\u{code:04x}" if code < 0x10000 else f"\\U{code:08x}"


def decoded(name: bytes) -> str:
    """A name of a text as a str. Bytes that aren't UTF-8 are kept, as Python keeps them in the
    names of files."""
    return name.decode("utf-8", "surrogateescape")


def encoded(name: str) -> bytes:
    """The bytes of a name that `decoded` gave."""
    return name.encode("utf-8", "surrogateescape")


def printable(name: Union[bytes, str]) -> str:
    """A name of a certificate or a file, as each is printed and stored: what isn't printable is
    escaped, so that it can't control a terminal or end a line. Two names have two such texts."""
    text = name.decode("utf-8", "surrogateescape") if isinstance(name, bytes) else name
    return "".join(
        character if character.isprintable() and character != "\\" else escaped(character)
        for character in text
    )


class Said(io.FileIO):
    """Standard error. What can't be written to it is left out, and changes no status."""

    def write(self, text: Any) -> int:
        try:
            return super().write(text)
        except OSError:
            return len(text)


def open_streams() -> None:
    """Ends a run without standard output, with the status of a failed write. Without standard error
    nothing is said."""
    if sys.stderr is None:
        sys.stderr = open(os.devnull, "w", encoding="utf-8")
    elif isinstance(sys.stderr, io.TextIOWrapper):
        said = Said(sys.stderr.fileno(), "w", closefd=False)
        sys.stderr = io.TextIOWrapper(
            io.BufferedWriter(said),
            sys.stderr.encoding,
            sys.stderr.errors,
            line_buffering=True,
        )
    if sys.stdout is None:
        print("standard output is closed", file=sys.stderr)
        sys.exit(FAILED)


class Parser(argparse.ArgumentParser):
    """The command line of a command. What is wrong with one is printed as names are, since it
    quotes them."""

    def __init__(self, name: str, about: Optional[str]):
        open_streams()
        super().__init__(
            prog=f"vipr-{name}",
            description=about,
            formatter_class=argparse.RawDescriptionHelpFormatter,
        )
        self.add_argument(
            "--version",
            action="version",
            version=f"vipr-{name} {VERSION}",
            help="the version of the package",
        )

    def error(self, message: str) -> NoReturn:
        super().error(printable(message))


def number(word: str) -> int:
    """A number of a command line, from 1 to a million."""
    if not (word.isascii() and word.isdigit() and len(word) < 20 and 1 <= int(word) <= 1_000_000):
        raise argparse.ArgumentTypeError(f"{word} is no number from 1 to 1000000")
    return int(word)


class Alive:
    """A line on a terminal that shows how far a command is, once it takes longer than two
    seconds."""

    def __init__(self) -> None:
        self.start = self.shown = time.monotonic()
        self.shown += LONG
        self.is_terminal, self.is_shown = sys.stderr.isatty(), False

    def show(self, words: Callable[[], str]) -> None:
        """Shows these words and the time, if the line that is there isn't too new."""
        now = time.monotonic()
        if self.is_terminal and now > self.shown:
            line = f"\r{words()}, {now - self.start:.0f} s \x1b[K"
            print(line, end="", file=sys.stderr, flush=True)
            self.shown, self.is_shown = now + OFTEN, True

    def part(self, words: str, whole: int) -> Callable[[int], None]:
        """What is called with how much of a part is done."""
        return lambda done: self.show(lambda: f"{words} {100 * done // max(whole, 1)} %")

    @contextlib.contextmanager
    def during(self, words: str) -> Iterator[None]:
        """Shows how long a call of the library takes, which doesn't say how far it is."""
        is_over = threading.Event()

        def show() -> None:
            while not is_over.wait(OFTEN):
                self.show(lambda: words)

        shows = threading.Thread(target=show, daemon=True)
        shows.start()
        try:
            yield
        finally:
            is_over.set()
            shows.join()

    def end(self) -> None:
        """Takes the line away."""
        if self.is_shown:
            print("\r\x1b[K", end="", file=sys.stderr, flush=True)


def run(command: Callable[[], int]) -> int:
    """Runs a command, and gives its status: a file that can't be read or written is status 3, as
    for `vipr`."""
    try:
        if isinstance(sys.stdout, io.TextIOWrapper):
            sys.stdout.reconfigure(errors="backslashreplace")
        status = command()
        sys.stdout.flush()
        return status
    except BrokenPipeError:
        os.dup2(os.open(os.devnull, os.O_WRONLY), sys.stdout.fileno())
        return FAILED
    except OSError as fault:
        where = f"{printable(os.fsencode(fault.filename))}: " if fault.filename else ""
        print(f"{where}{fault.strerror or fault}", file=sys.stderr)
    except MemoryError:
        print("fault memory", file=sys.stderr)
    except KeyboardInterrupt:
        print("stopped", file=sys.stderr)
        return 130
    return FAILED
