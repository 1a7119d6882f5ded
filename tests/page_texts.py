"""Texts of which a page of `vipr explain --long` could be wrong alone because they are large: in bytes, in tokens, in items, in
entries, in numbers, or in the page that they have. And which pages are kept.
"""
import re

LIMIT = 2**127 - 1
FRONT = "VER 1.0 VAR 1 x INT 1 0 OBJ min 1 0 1 CON 1 0 c G 1 1 0 1 "
ONE = "z G 1 1 0 1 { lin 1 0 1 } -1\n"
MANY, MORE = 12_000, 31_000
HUGE = 17 << 20


def listed(*words):
    return " ".join(map(str, words))


def pairs(count, number=1):
    """A vector, or the entries of a sum: each index with the same number."""
    return listed(count, *(word for index in range(count) for word in (index, number)))


def many_derivations():
    """Each part of a page behind many derivations: a refused one, a dropped one, a goal, an assumption, a fault of the text."""
    front = f"{FRONT}RTP infeas SOL 0 DER {MANY + 1}\n{ONE * MANY}"
    yield "refused", front + "bad G 2 1 0 1 { lin 1 0 1 } -1\n"
    yield "not earlier", front + f"bad G 2 1 0 1 {{ lin 1 {MANY + 9} 1 }} -1\n"
    yield "a fault", front + "bad G 2 1 0 1 { lin 1 0 one } -1\n"
    yield "dropped", (
        f"{FRONT}RTP infeas SOL 0 DER {MANY + 3}\n{ONE * MANY}d G 1 1 0 1 {{ lin 1 0 1 }} {MANY + 2}\n"
        f"e G 1 1 0 1 {{ lin 1 {MANY + 1} 1 }} -1\nf G 1 1 0 1 {{ lin 1 {MANY + 1} 1 }} -1\n"
    )
    yield "verified", (
        f'{FRONT.replace("c G 1 1 0 1", "c G 8 1 0 2")}RTP range 4 inf SOL 0 DER {MORE + 1}\n'
        + "z G 3 1 0 1 { lin 1 0 1/2 } -1\n" * MORE
        + "g G 4 OBJ { lin 1 0 1/2 } -1\n"
    )
    yield "an assumption", (
        f"{FRONT}RTP range 9 inf SOL 0 DER {MANY + 2}\n{ONE * MANY}a E 18 1 0 2 {{ asm }} -1\n"
        f"b G 9 OBJ {{ lin 1 {MANY + 1} 1/2 }} -1\n"
    )


def of_size():
    """A fault of the text, a refused sum and a claim in a text of 17 MiB; a fault behind each power of ten."""
    comment = "%" + "c" * HUGE + "\n"
    yield "a fault", comment + "VER 1.0 VAX"
    yield "a sum", comment + f"{FRONT}RTP infeas SOL 0 DER 1\nbad G 2 1 0 1 {{ lin 1 0 1 }} -1\n"
    yield "verified", comment + f"{FRONT}RTP range 1 inf SOL 0 DER 0\n"
    for size in (10, 100, 1_000, 10_000, 100_000, 2_000_000):
        yield f"behind {size} line feeds", "\n" * size + "VER 1.0 VAX"
        yield f"behind {size} bytes of a line", f'VER 1.0{" " * size}VAX'
    for column in range(55, 68):
        yield f"column {column}", f'{"VER 1.0".ljust(column)}VAX'
        yield f"{column} bytes behind it", f'VER 1.0 VAR 1 x INT 0 OBJ mid {"y" * (column - 4)}'


def many_solutions():
    """A refused solution, a best one and a primal bound behind others."""
    first = "s 1 0 2\n" * 5_000
    yield "refused", f"{FRONT}RTP range -inf 1 SOL 5001\n{first}bad 1 0 1/2 DER 0"
    yield "no primal", f"{FRONT}RTP range -inf 1 SOL 20000\n{4 * first}DER 0"
    yield "best", f"{FRONT}RTP range -inf 1 SOL 5001\n{first}best 1 0 1 DER 0"
    for best in range(12):
        others = " ".join(f"s{at} 1 0 {1 if at == best else 2}" for at in range(12))
        yield f"best {best} of 12", f"{FRONT}RTP range -inf 1 SOL 12 {others} DER 0"
        yield f"best {best}, not enough", f"{FRONT}RTP range -inf 1/2 SOL 12 {others} DER 0"


def long_sums():
    """Coefficients that come from entries behind those that are shown: of the problem, and of derivations."""
    for count in (9, 10, 11, 12, 17, 1_000, 2_500):
        problem = (
            f"VER 1.0 VAR 2 x y INT 0 OBJ min 0 CON 1 0 c G 1 2 0 1 1 {count} RTP infeas SOL 0 "
        )
        yield f"{count} of the problem", f'{problem}DER 1 d G 1 1 0 {count} {{ lin {listed(count, *["0 1"] * count)} }} -1'
        yield f"{count} of two rows", (
            f'{problem.replace("CON 1 0", "CON 2 0 b G 1 1 0 1")}DER 1 d G 1 1 0 9 '
            f'{{ lin {listed(count, *["0 1"] * (count - 3), *["1 1"] * 3)} }} -1'
        )
        others = " ".join(f"d{at} G 1 1 {int(at > 10)} 1 {{ asm }} -1" for at in range(count))
        yield f"{count} derivations", f"{problem}DER {count + 1} {others} e G 1 1 0 {count + 1} {{ lin {pairs(count + 1)} }} -1"
        yield f"{count}, more of each second one", (
            f"{problem}DER {count + 1} {others} e G {count} 2 0 1 1 1 "
            f'{{ lin {listed(count, *(f"{at + 1} {1 + at % 2}" for at in range(count)))} }} -1'
        )
    for count in (11, 12, 13, 14, 300, 5_000):
        problem = f'VER 1.0 VAR {count} {listed(*(f"v{at}" for at in range(count)))} INT 0 OBJ max {pairs(count)} CON 1 0 c L 1 OBJ '
        yield f"a row of {count}", f"{problem}RTP infeas SOL 0 DER 1 d L 0 {pairs(count, 2)} {{ lin 1 0 1 }} -1"
        yield f"a broken row of {count}", f"{problem}RTP infeas SOL 1 s {pairs(count)} DER 0"
        yield f"a rounded row of {count}", f"{problem}RTP infeas SOL 0 DER 1 d L 0 OBJ {{ rnd 1 0 1/2 }} -1"


def numbers_of_all_sizes():
    """Gaps, sides, bounds and multipliers of all sizes, and two constraints that are as near to a claim."""
    for size in (5, 7, 999, 1_001, 10**6 + 1, 10**12 + 1, 10**18 + 1, 10**30 + 1):
        other = f"VER 1.0 VAR 1 x INT 0 OBJ min 1 0 1 CON 3 0 a G {size - 1}/{size} 1 0 1 b G {size - 1}/{size} 1 0 1 e E {size - 1}/{size} 1 0 1 "
        yield f"as near by 1/{size}", f"{other}RTP range 1 inf SOL 0 DER 1 d G {size - 1}/{size} OBJ {{ asm }} -1"
        yield f"a gap of 1/{size}", f"{FRONT}RTP infeas SOL 1 s 1 0 {size - 1} DER 0".replace(
            "INT 1 0", "INT 0"
        ).replace("c G 1", f"c G {size}").replace(
            f"s 1 0 {size - 1}", f"s 1 0 {size * size - 1}/{size}"
        )
        yield f"a whole gap of 1/{size}", f"{other}RTP infeas SOL 1 s 1 0 0 DER 0"
        yield f"no primal below {size}", f"{FRONT}RTP range -inf {1 - size} SOL 1 s 1 0 1 DER 0"
        yield f"a side of 50/{size}", (
            f"VER 1.0 VAR 2 x y INT 0 OBJ min 0 CON 2 0 a G 1/{size} 1 0 1 b G 1 1 1 1 RTP infeas SOL 0 "
            f"DER 1 d G {size * 7 + 1}/{size} 2 0 3 1 1 {{ lin 2 0 1 1 1 }} -1"
        )
        yield f"a turned sense, {size}", (
            f"VER 1.0 VAR 2 x y INT 0 OBJ min 0 CON 2 0 a L 1 1 0 1 b G 1 1 1 1 RTP infeas SOL 0 DER 1 "
            f"d G 1 2 0 1/{size} 1 1 {{ lin 2 0 -1 1 1 }} -1"
        )
        yield f"rounded, {size}", f"{FRONT}RTP infeas SOL 0 DER 1 d G 2 1 0 1 {{ lin 1 0 1 }} -1".replace(
            "c G 1", f"c G {size + 1}/{size}"
        )
    for side, other in (
        ("1/2", "7/2"),
        ("1/2", "5/2"),
        ("1/2", "3/2"),
        ("1/2", "1"),
        ("0", "2"),
        ("0", "3/2"),
        ("-5/2", "-3/2"),
    ):
        yield f"a split at {side} and {other}", (
            f"{FRONT}RTP infeas SOL 0 DER 3 l L {side} 1 0 1 {{ asm }} -1 "
            f"g G {other} 1 0 1 {{ asm }} -1 u G 0 0 {{ uns 1 1 2 2 }} -1"
        )
    for gap in ("1/20", "1/100", "1/999", "1/1000", "1/1001", "2/1001", "2/2001"):
        above, below = gap.split("/")
        yield f"a solution off by {gap}", (
            f"VER 1.0 VAR 1 x INT 0 OBJ min 1 0 1 CON 1 0 c G 1 1 0 1 RTP infeas SOL 1 "
            f"s 1 0 {int(below) - int(above)}/{below} DER 0"
        )


def advice():
    """What is advised for a claim: of what is proved, of what is assumed, and of what the join takes away."""
    front = "VER 1.0 VAR 1 x INT 1 0 OBJ min 1 0 1 CON 1 0 c G 2 1 0 2 RTP range 2 inf SOL 0 DER 3 "
    yield "the first derivation is proved", front + "a G 1 OBJ { lin 1 0 1/2 } -1 h E 4 1 0 2 { asm } -1 b G 2 OBJ { lin 1 2 1/2 } -1"
    yield "a later one is", front + "h E 4 1 0 2 { asm } -1 a G 1 OBJ { lin 1 0 1/2 } -1 b G 2 OBJ { lin 1 1 1/2 } -1"
    given = front.replace("c G 2 1 0 2", "c G 1 1 0 1").replace("DER 3", "DER 2")
    yield "one of the problem is", given + "h E 4 1 0 2 { asm } -1 b G 2 OBJ { lin 1 1 1/2 } -1"
    for count in (3, 4, 5, 6, 300):
        sets = " ".join(f"a{at} G 1 1 0 1 {{ asm }} -1" for at in range(count))
        sum_of_all = listed(count, *(f"{at + 1} 1/{count}" for at in range(count)))
        yield f"{count} assumptions", f"{FRONT}RTP range 3 inf SOL 0 DER {count + 1} {sets} s G 1 OBJ {{ lin {sum_of_all} }} -1"
    for row, stated in (
        ("2 0 1 1 1", "2 0 -1 1 1"),
        ("2 0 1 1 1", "2 0 -1 1 -1"),
        ("1 0 1", "1 0 -1"),
        ("2 0 1 1 2", "1 0 -1"),
    ):
        for entries in ("1 0 1", "2 0 1/2 0 1/2"):
            yield f"turned, {row} and {stated} by {entries}", (
                f"VER 1.0 VAR 2 x y INT 0 OBJ min 0 CON 1 0 a G 1 {row} RTP infeas SOL 0 "
                f"DER 1 d L 1 {stated} {{ lin {entries} }} -1"
            )


def texts():
    """Each text, with a name for it."""
    for family in (
        many_derivations,
        of_size,
        many_solutions,
        long_sums,
        numbers_of_all_sizes,
        advice,
    ):
        for name, text in family():
            yield f"{family.__name__}, {name}", text.encode()


def with_long_page():
    """A text with a long page: names of bytes that are escaped, and long numbers, in a constraint that was dropped and is needed by
    a sum of others. The page has the name of the file twice."""
    names = [bytes([200 + at]) * 50 for at in range(13)]
    row = listed(*(f"{at} {10**36 + 7 * at}/{LIMIT}" for at in range(13))).encode()
    given = b"".join(b"\xe9" * 50 + b" G %d/%d 13 %s\n" % (10**36, LIMIT, row) for _ in range(10))
    entries = listed(*(f"{at} {10**36}/{LIMIT}" for at in range(10))).encode()
    return (
        b"VER 1.0 VAR 13 "
        + b" ".join(names)
        + b" INT 0 OBJ min 0 CON 10 0\n"
        + given
        + b"RTP infeas SOL 0 DER 2\n"
        + b"\xea" * 50
        + b" G 0 13 "
        + row
        + b" { lin 1 0 1 } 10\n"
        + b"\xeb" * 50
        + b" G 0 13 "
        + row
        + b" { lin 11 "
        + entries
        + b" 10 1 } -1\n"
    )


def path_shown_in(folder, size):
    """A path in a folder that a page shows in so many bytes: most of its characters are shown by eight each."""
    left = size - len(bytes(folder))
    while left > 1_000:
        folder, left = folder / ("\u00e9" * 100), left - 801
    folder.mkdir(parents=True, exist_ok=True)
    return folder / ("\u00e9" * ((left - 1) // 8 - 1) + "n" * ((left - 1) % 8 + 8))


def kind_of(page):
    """The cause that a page is of, and how it begins."""
    cause = re.search(r"^  = see: .*cause (\d+)", page, re.M)
    return cause and cause[1], re.match(r"\w*:? ?\w*", page.strip())[0]


def first_of_each_kind(pages):
    """The first page of each kind, by its name."""
    first = {}
    for name, page in pages.items():
        first.setdefault(kind_of(page), name)
    return {name: pages[name] for name in first.values()}
