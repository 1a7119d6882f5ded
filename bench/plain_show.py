#!/usr/bin/env python3
"""A plain model of `vipr show`: the canonical text of docs/FORMAT.md, section 7, of what
plain_check.py reads.

usage: plain_show.py [FILE ..]

Prints for each file (standard input without one) what `vipr show` is to print. It proves nothing.
"""
import sys

from plain_check import Refused, Tokens


def line(*words):
    return b" ".join(word if isinstance(word, bytes) else str(word).encode() for word in words)


def vector(row):
    return line(len(row), *(word for index in sorted(row) for word in (index, row[index])))


def constraint(tokens, variables, objective):
    name = tokens.peek()
    row, sense, right = tokens.constraint(variables, objective)
    return line(name[0], sense, right, vector(row))


def reason(tokens):
    word, parts = tokens.reason()
    if word in ("lin", "rnd"):
        return line(word, len(parts), *(number for entry in parts for number in entry))
    return line(word, *parts)


def last(tokens):
    found = tokens.peek()
    if found is not None and found[0] == b"-1":
        return tokens.next()[0]
    return tokens.reference()


def bound(tokens, infinite):
    number = tokens.number(infinite)
    return infinite if number is None else number


def lines(tokens):
    tokens.one_of(2, b"VER")
    yield line("VER", tokens.one_of(3, b"1.0"))
    tokens.one_of(2, b"VAR")
    variables = tokens.count()
    yield line("VAR", variables)
    for _ in range(variables):
        yield tokens.next()[0]
    tokens.one_of(2, b"INT")
    integers = {tokens.variable(variables)[0] for _ in range(tokens.count())}
    yield line("INT", len(integers))
    yield from map(line, sorted(integers))
    tokens.one_of(2, b"OBJ")
    yield line("OBJ", tokens.one_of(12, b"min", b"max"))
    objective = tokens.vector(variables)
    yield vector(objective)
    tokens.one_of(2, b"CON")
    rows = tokens.count()
    yield line("CON", rows, tokens.count())
    for _ in range(rows):
        yield constraint(tokens, variables, objective)
    tokens.one_of(2, b"RTP")
    claim = tokens.one_of(13, b"infeas", b"range")
    yield line(
        "RTP",
        claim,
        *([bound(tokens, b"-inf"), bound(tokens, b"inf")] if claim == b"range" else []),
    )
    tokens.one_of(2, b"SOL")
    solutions = tokens.count()
    yield line("SOL", solutions)
    for _ in range(solutions):
        yield line(tokens.next()[0], vector(tokens.vector(variables)))
    tokens.one_of(2, b"DER")
    derived = tokens.count(rows)
    yield line("DER", derived)
    for _ in range(derived):
        stated = constraint(tokens, variables, objective)
        yield line(
            stated, tokens.one_of(15, b"{"), reason(tokens), tokens.one_of(15, b"}"), last(tokens)
        )
    left = tokens.peek()
    if left is not None:
        raise Refused(18, f"byte {left[1]}")


def shown(text):
    """What goes to standard output, what goes to standard error, and the exit status."""
    try:
        return b"".join(line + b"\n" for line in list(lines(Tokens(text)))), b"", 0
    except Refused as fault:
        return b"", "refused {} at {}\n".format(*fault.args).encode(), 1


def main():
    sys.set_int_max_str_digits(0)
    status = 0
    for path in sys.argv[1:] or [None]:
        if path is None:
            text = sys.stdin.buffer.read()
        else:
            with open(path, "rb") as file:
                text = file.read()
        output, errors, one = shown(text)
        sys.stdout.buffer.write(output)
        sys.stderr.buffer.write(errors)
        status = max(status, one)
    sys.exit(status)


if __name__ == "__main__":
    main()
