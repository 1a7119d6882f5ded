"""Packed files, piece by piece and whole: what is damaged, cut, or followed by other bytes can't be
unpacked."""
from __future__ import annotations

import bz2
import lzma
import subprocess
import tempfile
import zlib
from typing import IO, Callable, Dict, Iterator, Optional, Tuple, Union

PIECE = 1 << 16


class NotWhole(OSError):
    """A packed file that can't be unpacked to its end."""


class GzipStream:
    """One member of a .gz file, with the calls of the decompressors of bz2 and lzma."""

    def __init__(self) -> None:
        self.inner = zlib.decompressobj(wbits=31)
        self.needs_input = True

    @property
    def eof(self) -> bool:
        return self.inner.eof

    @property
    def unused_data(self) -> bytes:
        return self.inner.unused_data

    def decompress(self, packed: bytes, most: int) -> bytes:
        made = self.inner.decompress(self.inner.unconsumed_tail + packed, most)
        self.needs_input = not self.inner.unconsumed_tail and len(made) < most
        return made


Stream = Union[GzipStream, bz2.BZ2Decompressor, lzma.LZMADecompressor]
FAULTS = (EOFError, ValueError, OSError, zlib.error, lzma.LZMAError)


def streams(file: IO[bytes], begin: Callable[[], Stream], padding: int) -> Iterator[bytes]:
    """What the streams of a file hold, one after the other. Zeros may follow each, in multiples of
    `padding`, if that isn't 0."""
    rest = file.read(PIECE)
    if not rest:
        raise NotWhole("it is empty")
    while rest:
        stream = begin()
        while not stream.eof:
            if stream.needs_input and not rest:
                rest = file.read(PIECE)
                if not rest:
                    raise NotWhole("it ends within a stream")
            try:
                made = stream.decompress(rest, PIECE)
            except FAULTS as fault:
                raise NotWhole(str(fault)) from fault
            rest = b""
            if made:
                yield made
        rest = without_zeros(stream.unused_data, file, padding)


def without_zeros(rest: bytes, file: IO[bytes], padding: int) -> bytes:
    """What follows a stream and the zeros behind it."""
    zeros = 0
    while True:
        rest = rest or file.read(PIECE)
        after = rest.lstrip(b"\0") if padding else rest
        zeros += len(rest) - len(after)
        if after or not rest:
            break
        rest = b""
    if padding and zeros % padding:
        raise NotWhole("zeros follow a stream")
    return after


def zstd(
    file: IO[bytes], memory: Optional[int], begun: Callable[[subprocess.Popen[bytes]], None]
) -> Iterator[bytes]:
    """What a .zst file holds, by the program `zstd`."""
    limit = (
        [] if memory is None else ["sh", "-c", 'ulimit -v "$0" && exec "$@"', str(memory // 1024)]
    )
    words = [*limit, "zstd", "-dcq"]
    with subprocess.Popen(
        words, stdin=file, stdout=subprocess.PIPE, stderr=subprocess.DEVNULL
    ) as program:
        assert program.stdout
        begun(program)
        try:
            while made := program.stdout.read(PIECE):
                yield made
            if program.wait():
                raise NotWhole(f"zstd: status {program.returncode}")
        finally:
            program.kill()


def unpacked(
    file: IO[bytes],
    suffix: str,
    memory: Optional[int] = None,
    begun: Callable[[subprocess.Popen[bytes]], None] = lambda program: None,
) -> Iterator[bytes]:
    """The text of a file with one of the SUFFIXES, in pieces, and in so many bytes of memory, if
    they are limited. A program that unpacks is handed to `begun`, which may end it. Raises
    NotWhole."""
    if suffix == ".zst":
        return zstd(file, memory, begun)
    begin, padding = STREAMS[suffix]
    if suffix == ".xz" and memory is not None:
        return streams(file, lambda: lzma.LZMADecompressor(memlimit=memory), padding)
    return streams(file, begin, padding)


def text_of(packed: bytes, suffix: str) -> bytes:
    """The text of the bytes of a file with one of the SUFFIXES. Raises NotWhole."""
    # (`zstd` is a program, and reads a file of the system)
    with tempfile.TemporaryFile() as file:
        file.write(packed)
        file.seek(0)
        return b"".join(unpacked(file, suffix))


STREAMS: Dict[str, Tuple[Callable[[], Stream], int]] = {
    ".gz": (GzipStream, 1),
    ".xz": (lzma.LZMADecompressor, 4),
    ".bz2": (bz2.BZ2Decompressor, 0),
}
SUFFIXES = {*STREAMS, ".zst"}
