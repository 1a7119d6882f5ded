"""What a tightener leaves as it is: the problem and the claim of a certificate, and how many
derivations it has."""
from __future__ import annotations

import re
import sys
from fractions import Fraction
from typing import Dict, Iterator, List, NamedTuple, Tuple

COMMENTS = re.compile(rb"\A(?:\s*%[^\n]*(?:\n|\Z))+")
Row = Dict[int, Fraction]
# newer versions of Python have a limit for the digits of a number
getattr(sys, "set_int_max_str_digits", int)(0)


class Outline(NamedTuple):
    """The problem and the claim as values, so that two spellings of them are the same, and the
    number of derivations."""

    problem: Tuple[object, ...]
    claim: Tuple[object, ...]
    derivations: int


def of(text: bytes) -> Outline:
    """The outline of a certificate. The derivations themselves aren't read."""
    tokens = iter(COMMENTS.sub(b"", text).split())
    try:
        return Outline(*sections(tokens))
    except StopIteration:
        raise ValueError("it ends too early") from None


def sections(tokens: Iterator[bytes]) -> Tuple[Tuple[object, ...], Tuple[object, ...], int]:
    """What the sections say, up to the number of derivations."""
    keyword(tokens, b"VER")
    version = next(tokens)
    keyword(tokens, b"VAR")
    names = [next(tokens) for _ in range(int(next(tokens)))]
    keyword(tokens, b"INT")
    integers = {int(next(tokens)) for _ in range(int(next(tokens)))}
    keyword(tokens, b"OBJ")
    sense, objective = next(tokens), vector(tokens, {})
    keyword(tokens, b"CON")
    count, _ = int(next(tokens)), next(tokens)
    constraints = [
        (next(tokens), next(tokens), number(tokens), vector(tokens, objective))
        for _ in range(count)
    ]
    keyword(tokens, b"RTP")
    claim: List[object] = [next(tokens)]
    if claim == [b"range"]:
        claim += [bound(tokens), bound(tokens)]
    keyword(tokens, b"SOL")
    for _ in range(int(next(tokens))):
        next(tokens)
        vector(tokens, {})
    keyword(tokens, b"DER")
    return (
        (version, names, integers, sense, objective, constraints),
        tuple(claim),
        int(next(tokens)),
    )


def keyword(tokens: Iterator[bytes], wanted: bytes) -> None:
    """Reads the word that a section begins with."""
    found = next(tokens)
    if found != wanted:
        raise ValueError(f"{found!r} is not {wanted!r}")


def number(tokens: Iterator[bytes]) -> Fraction:
    """Reads a number."""
    return Fraction(next(tokens).decode())


def bound(tokens: Iterator[bytes]) -> object:
    """Reads a number, or the word for an infinite one."""
    token = next(tokens).decode()
    return token if "inf" in token else Fraction(token)


def vector(tokens: Iterator[bytes], objective: Row) -> Row:
    """Reads a vector, or the word for the objective's."""
    count = next(tokens)
    if count == b"OBJ":
        return objective
    pairs = [(int(next(tokens)), number(tokens)) for _ in range(int(count))]
    return {index: coefficient for index, coefficient in pairs if coefficient}
