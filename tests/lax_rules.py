"""Wrong versions of bench/plain_check.py by hand: the mistakes that checkers of this kind make.

lax_rules.txt has them. Each begins with `##` and its words, and then has pieces of the model: lines
with `-`, and those with `+` that are written for them. A piece may begin within a line. A line with
`@` has values, for each of which there is a version with the value in place of each `@`; `kinds`
are the kinds of numbers of made_wrong.py.

excused.txt names the versions, of these and of made_wrong.py, that no case of the format can tell,
below `##` and the reason. A line of it is a name, or the beginning of names that ends with a `*`.
"""
import ast
import re
from functools import partial
from pathlib import Path

from made_wrong import KINDS, SOURCE, Version, run

FOLDER = Path(__file__).resolve().parent
RULES, EXCUSES = FOLDER / "lax_rules.txt", FOLDER / "excused.txt"


def across(bits, left, right):
    """How two fractions compare by their products across, in words of so many bits."""
    half = 2 ** (bits - 1)
    products = left.numerator * right.denominator, right.numerator * left.denominator
    first, second = ((product + half) % (2 * half) - half for product in products)
    return (first > second) - (first < second)


def rules():
    """The words of each wrong rule, and its pieces: what stands in the model, and what is written
    for it."""
    for block in re.split(r"^## ", RULES.read_text(), flags=re.M)[1:]:
        words, *lines = block.rstrip("\n").split("\n")
        values = [""]
        if lines[0].startswith("@"):
            values = lines.pop(0)[2:].split(" ")
            values = list(KINDS) if values == ["kinds"] else values
        pieces, last = [], "+"
        for line in filter(None, lines):
            sign, text = line[0], line[1:]
            if sign == "#":
                break
            if sign == last:
                pieces[-1] += "\n" + text
            else:
                pieces.append(text)
            last = sign
        for value in values:
            yield words.replace("@", value), [piece.replace("@", value) for piece in pieces]


def made(source):
    """What a wrong version defines."""
    return run(compile(source, "wrong", "exec"), across=across)


def lines_of_functions(source):
    """The lines within functions. Others are run as the model is loaded, and not for each case."""
    functions = [node for node in ast.walk(ast.parse(source)) if isinstance(node, ast.FunctionDef)]
    return {line for node in functions for line in range(node.lineno + 1, node.end_lineno + 1)}


def versions():
    """The wrong versions by hand."""
    text = SOURCE.read_text()
    inside = lines_of_functions(text)
    for words, pieces in rules():
        changed, lines = text, set()
        for old, new in zip(pieces[::2], pieces[1::2]):
            if text.count(old) != 1:
                raise ValueError(f"{words}: the model has {text.count(old)} times {old!r}")
            first = text[: text.index(old)].count("\n") + 1
            lines.update(range(first, first + old.count("\n") + 1))
            changed = changed.replace(old, new)
        yield Version(words, lines if lines <= inside else None, True, partial(made, changed))


def excuses():
    """The names of the wrong versions that no case can tell, and beginnings of them."""
    return [
        line for line in EXCUSES.read_text().splitlines() if line and not line.startswith("## ")
    ]


def begins(name, excuse):
    """Whether an excuse is the name of a wrong version, or the beginning of it."""
    return name.startswith(excuse[:-1]) if excuse.endswith("*") else name == excuse


def is_excused(name):
    """Whether a wrong version is one that no case can tell."""
    return any(begins(name, excuse) for excuse in excuses())


def unused(names):
    """The excuses that are for none of the wrong versions."""
    used = {excuse for excuse in excuses() for name in names if begins(name, excuse)}
    return [excuse for excuse in excuses() if excuse not in used]
