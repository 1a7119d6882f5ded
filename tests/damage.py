"""Texts that are damaged: tokens replaced, bytes changed, and parts cut out, doubled or moved; one number changed; or one slip of a
person or a script."""
import re
from fractions import Fraction

LIMIT = 2**127 - 1
SPARE = [
    b"0",
    b"1",
    b"2",
    b"3",
    b"-1",
    b"+1",
    b"00",
    b"1/2",
    b"-2/4",
    b"1/0",
    b"0/7",
    b"1/-2",
    b"0.5",
    b"-0",
    b"4294967295",
    b"4294967296",
    b"%d" % (2**127 - 1),
    b"%d" % 2**127,
    b"-%d/%d" % (2**127 - 1, 2**127 - 2),
    b"1/%d" % 2**127,
    b"OBJ",
    b"E",
    b"L",
    b"G",
    b"min",
    b"max",
    b"infeas",
    b"range",
    b"inf",
    b"-inf",
    b"asm",
    b"lin",
    b"rnd",
    b"uns",
    b"sol",
    b"{",
    b"}",
    b"%",
    b"VER",
    b"DER",
    b"\xff",
    b"x" * 65535,
    b"x" * 65536,
]
NUMBER = re.compile(rb"[-+]?[0-9]+(/[0-9]+)?")
GAPS = [b" ", b"\n", b"\t", b"\r\n", b"\v \f"]


def damaged(text, chance):
    """The text with a few tokens replaced."""
    tokens = re.findall(rb"[^\t-\r ]+", text)
    for _ in range(chance.choice([0, 1, 1, 1, 2, 3])):
        at = chance.randrange(len(tokens))
        other = chance.choice(tokens + SPARE)
        what = chance.randrange(20)
        numbers = [index for index, token in enumerate(tokens) if NUMBER.fullmatch(token)]
        if what > 4 and numbers:
            # most often a number in place of another, so that many texts reach the rules
            at = chance.choice(numbers)
            tokens[at] = tokens[chance.choice(numbers)]
        elif what == 0:
            del tokens[at:]
        elif what == 1:
            del tokens[at]
        elif what == 2:
            tokens.insert(at, other)
        else:
            tokens[at] = other
        if not tokens:
            return b""
    front = chance.choice([b"", b"", b"\n", b"%\n", b"% VER 1.1\n \t%%\n"])
    return front + b"".join(token + chance.choice(GAPS) for token in tokens)


def changed(text, chance):
    """The text with bytes changed, and parts cut out, doubled or moved."""
    text = bytearray(text)
    for _ in range(chance.choice([1, 1, 2, 8])):
        at, behind = sorted(chance.randrange(len(text) + 1) for _ in range(2))
        behind = min(behind, at + chance.choice([1, 2, 8, 64, 512]))
        part = bytes(text[at:behind])
        what = chance.randrange(5)
        if what == 0:
            text[at : at + 1] = bytes([chance.randrange(256)])
        elif what == 1:
            del text[at:behind]
        elif what == 2:
            text[at:at] = part
        elif what == 3:
            text[at:behind] = bytes(chance.randrange(256) for _ in part)
        else:
            del text[at:behind]
            to = chance.randrange(len(text) + 1)
            text[to:to] = part
    return bytes(text)


def nearly(text, chance):
    """The text with one number, sense or last reference changed."""
    tokens = re.findall(rb"[^\t-\r ]+", text)
    places = [
        at
        for at, token in enumerate(tokens)
        if re.fullmatch(rb"[-+]?[0-9]+(/[0-9]+)?|[ELG]", token)
    ]
    at = chance.choice(places)
    if tokens[at] in (b"E", b"L", b"G"):
        tokens[at] = chance.choice([b"E", b"L", b"G"])
    else:
        top = int(tokens[at].split(b"/")[0])
        tokens[at] = b"%d" % chance.choice(
            [top + 1, top - 1, -top, 2 * top, 0, LIMIT, -LIMIT, LIMIT + 1, len(tokens)]
        )
    return b" ".join(tokens)


# How people and scripts spell a token, or what stands in its place, by a pattern of the token.
SLIPS = [
    (
        rb"[0-9]+",
        [
            b"%s,",
            b"(%s)",
            b'"%s"',
            b"%s.0",
            b"%s;",
            b"=%s",
            b"%s:",
            b"+%s",
            b"x%s",
            b"%s%s",
            b"- %s",
            b"%se0",
            b"[%s]",
        ],
    ),
    (
        rb"[0-9]+",
        [
            b"%s %s",
            b"",
            b"one",
            b"nan",
            b"inf",
            b"1e%s",
            b"(%s, %s)",
            b"(%s,%s)",
            b"%s:%s",
            b"%s=%s",
            b"x=%s",
            b"%s/0",
        ],
    ),
    (rb"-?[0-9]+/[0-9]+", [b"0.%s", b"(%s)", b"%s.", b"Fraction(%s)", b"%s,"]),
    (
        rb"[ELG]",
        [
            b">=",
            b"<=",
            b"=",
            b"EQUAL",
            b"leq",
            b'"%s"',
            b"%s:",
            b"(%s)",
            b"%s%s",
            b"R",
            b"N",
            b"",
            b"<",
            b"'%s'",
        ],
    ),
    (
        rb"min|max",
        [b"%simize", b"%s:", b"MAX", b"Min", b"", b"%s 10*a", b"%s 2*x + 3*y", b"minimum"],
    ),
    (
        rb"infeas|range",
        [b"infeasible", b"%s =", b"%s:", b"RANGE", b"optimal", b"", b"%s lower", b"%s [", b"= %s"],
    ),
    (
        rb"asm|lin|rnd|uns|sol",
        [b"%s:", b"ASM", b"linear", b"round", b"unsplit", b"solution", b"", b"%s weak", b"%s("],
    ),
    (rb"[{}]", [b"", b"(", b"[", b"{{", b"}}", b"{}", b"%s%s", b"% { %", b"{asm}"]),
    (
        rb"VER|VAR|INT|OBJ|CON|RTP|SOL|DER",
        [b"%s:", b"", b"ver", b"var", b"con", b"%s %s", b"%%s", b"# %s", b"objective", b"%s 0"],
    ),
    (rb"1[.]0", [b"1", b"1.1", b"1.0;", b'"1.0"', b"1.0 1", b"v1.0", b"2"]),
    (
        rb"[A-Za-z_]\w*",
        [
            b"E",
            b"L",
            b"G",
            b"1",
            b"2nd",
            b"%s %s",
            b'"%s %s"',
            b"%s:",
            b"OBJ",
            b"DER",
            b"INT",
            b"%s\xc2\xa0x",
            b"x\xe2\x88\x921",
        ],
    ),
]


def mistaken(text, chance):
    """The text with one slip, or two."""
    tokens = re.findall(rb"[^\t-\r ]+", text)
    for _ in range(chance.choice([1, 1, 1, 2])):
        what = chance.randrange(12)
        if what < len(OF_TOKENS):
            tokens = OF_TOKENS[what](tokens, chance)
        else:
            pattern, others = chance.choice(SLIPS)
            places = [at for at, token in enumerate(tokens) if re.fullmatch(pattern, token)]
            if places:
                at = chance.choice(places)
                other = chance.choice(others).replace(b"%s", tokens[at])
                tokens[at : at + 1] = other.split()
    return b" ".join(tokens) + b"\n"


def with_values(tokens, chance):
    """The first solution lists all variables, nothing, or a flag for each; without a solution INT lists nothing, or flags."""
    if not {b"VAR", b"INT", b"OBJ", b"SOL", b"DER"} <= set(tokens):
        return tokens
    at, end = tokens.index(b"SOL"), tokens.index(b"DER")
    counted = tokens[tokens.index(b"VAR") + 1]
    if not counted.isdigit():
        return tokens
    count = int(counted)
    if end - at > 2:
        zeros = [b"%d" % count] + [word for index in range(count) for word in (b"%d" % index, b"0")]
        flags = [b"%d" % count] + [b"%d" % chance.randrange(2) for _ in range(count)]
        other = chance.choice([zeros, [b"0"], flags, [b"0"] + tokens[at + 4 : end]])
        return [*tokens[: at + 1], b"1", b"s", *other, *tokens[end:]]
    front, behind = tokens.index(b"INT"), tokens.index(b"OBJ")
    flags = [b"%d" % count] + [b"%d" % chance.randrange(2) for _ in range(count)]
    return [*tokens[: front + 1], *chance.choice([[b"0"], flags]), *tokens[behind:]]


def with_decimals(tokens, chance):
    """Fractions are decimals, rounded to some places."""
    places = chance.choice([1, 2, 5, 6, 17])
    return [
        b"%.*f" % (places, Fraction(token.decode()))
        if re.fullmatch(rb"-?[0-9]+/[1-9][0-9]*", token)
        else token
        for token in tokens
    ]


FRACTION = re.compile(rb"(-?[0-9]+)/([1-9][0-9]*)")


def with_rounded(tokens, chance):
    """Fractions are rounded to four places, or to those of floating point."""
    is_binary = chance.randrange(2)

    def rounded(token):
        number = Fraction(token.decode())
        near = Fraction(float(number)) if is_binary else Fraction(round(number * 10_000), 10_000)
        return b"%d/%d" % near.as_integer_ratio()

    return [rounded(token) if FRACTION.fullmatch(token) else token for token in tokens]


def with_split(tokens, chance):
    """A fraction is in two tokens, or in three."""
    places = [at for at, token in enumerate(tokens) if FRACTION.fullmatch(token)]
    if not places:
        return tokens
    at = chance.choice(places)
    above, below = tokens[at].split(b"/")
    parts = chance.choice(([above, b"/" + below], [above + b"/", below], [above, b"/", below]))
    return [*tokens[:at], *parts, *tokens[at + 1 :]]


def with_other_sign(tokens, chance):
    """A number behind OBJ has the other sign."""
    start = tokens.index(b"OBJ") if b"OBJ" in tokens else 0
    places = [at for at in range(start, len(tokens)) if NUMBER.fullmatch(tokens[at])]
    if not places:
        return tokens
    at = chance.choice(places)
    sign, number = tokens[at][:1], tokens[at].lstrip(b"+-")
    return [*tokens[:at], number if sign == b"-" else b"-" + number, *tokens[at + 1 :]]


# what is done to all tokens, or to one of some kind
OF_TOKENS = [with_values, with_decimals, with_rounded, with_split, with_other_sign]
