"""The lines of a page of `vipr explain --long` that have no value, each with the texts of which it is true."""
import re
from fractions import Fraction

from page_facts import KEYWORDS, difference, rules


def role_is(*wanted_ones, section=None):
    return lambda facts: facts.role.wanted in wanted_ones and section in (None, facts.role.section)


def token_is(pattern):
    found = re.compile(pattern.encode("latin-1"), re.S)
    return lambda facts: found.fullmatch(facts.token.bytes) is not None


def cause_is(*causes):
    return lambda facts: facts.refused in causes


def both(*tests):
    return lambda facts: all(test(facts) for test in tests)


def is_entries(facts):
    return cause_is(38)(facts) and facts.own().reason in ("lin", "rnd")


def is_negated(facts):
    """Whether the stated row is the computed one with the other sign, and a multiple of that may have the stated sense."""
    computed, stated = facts.written("computed"), facts.written("stated")
    is_other = computed[1] == "E" or {computed[1], stated[1]} == {"G", "L"}
    return (
        is_entries(facts)
        and is_other
        and stated[0] == {index: -number for index, number in computed[0].items()} != {}
    )


def is_near_miss(facts):
    """Whether a solution misses a constraint by a thousandth or less, and has a value that isn't whole."""
    row, _, bound = facts.plain(int(facts.details["constraint"].split()[0]))
    values = facts.solutions[facts.number()].values
    total = sum(
        (number * Fraction(values.get(index, 0)) for index, number in row.items()), Fraction(0)
    )
    return (
        difference(bound, total) is not None
        and 1000 * difference(bound, total) <= 1
        and any(value.denominator != 1 for value in values.values())
    )


def is_other_sense(sign):
    """Whether a solution breaks an equation, but not that as an inequality."""

    def test(facts):
        row, sense, bound = facts.plain(int(facts.details["constraint"].split()[0]))
        values = facts.solutions[facts.number()].values
        total = sum(
            (number * Fraction(values.get(index, 0)) for index, number in row.items()), Fraction(0)
        )
        return sense == "E" and (total < bound if sign == "L" else total > bound)

    return both(cause_is(22), test)


def solution_is(test):
    """A test of the solution that breaks a constraint: of its name, the count of its values in the text, and those values."""

    def test_of(facts):
        solution = facts.solutions[facts.number()]
        return facts.refused == 22 and test(
            solution.name, facts.value_counts[facts.number()], [*solution.values.values()]
        )

    return test_of


def name_is_number(name):
    return re.fullmatch(rb"[-+]?[0-9]+(/0*[1-9][0-9]*)?", name) is not None


def first_is(pattern):
    """A test of the first token, in the place of `VER`."""
    return both(role_is("keyword", section="VER"), token_is(pattern))


def number_wanted(facts):
    """Whether a number is wanted, and the token is none."""
    is_number = re.fullmatch(rb"[-+]?[0-9]+(/[0-9]+)?", facts.token.bytes)
    return facts.refused == 4 and not is_number


def number_like(pattern):
    """A test of a token in the place of a number."""
    return both(number_wanted, token_is(pattern))


def text_is(pattern):
    found = re.compile(pattern.encode("latin-1"))
    return lambda facts: facts.is_end and found.fullmatch(facts.text) is not None


def is_long_number(facts):
    """Whether the token is a number with a part past the limit."""
    parts = re.fullmatch(rb"[-+]?([0-9]+)(?:/([0-9]+))?", facts.token.bytes)
    return parts is not None and any(int(part) >= 2**127 for part in parts.groups(b"0"))


def is_repeated(facts):
    """Whether the token is an index that the vector has already."""
    return facts.refused == 10 and int(facts.token.bytes) in facts.vector


def is_prose(facts):
    """Whether the rest of the line has words of a language, and no sense or brace."""
    line = facts.text[facts.token.at :].split(b"\n")[0].split()
    words = [word for word in line if re.fullmatch(rb"[(\"']?[A-Za-z]{2,}[-.,:;!)\"']?", word)]
    return len(words) > 1 and not {b"E", b"L", b"G", b"{", b"}"} & set(line)


def is_pseudo_boolean(facts):
    """Whether the first token is that of a proof, or the second one that of a problem."""
    tokens = facts.text[facts.token.at :].split()
    return first_is("pseudo-Boolean")(facts) or tokens[1:2] == [b"#variable="]


KEYWORD = token_is("|".join(KEYWORDS))
NUMBERLIKE = token_is(r"[-+]?[0-9.].*")
COMMENT = r"[%#].*|//.*|/\*.*|;|!|--"
# the hint without `  = help: `, and of which texts it is true
HINTS = {
    # what stands in front of the first token, or in its place
    **{
        f"this looks compressed: {tool} -dc FILE | vipr explain --long": first_is(f"{magic}.*")
        for tool, magic in (
            ("gzip", "\x1f\x8b"),
            ("xz", "\xfd7zXZ"),
            ("zstd", "[\x28]\xb5\x2f\xfd"),
            ("bzip2", "BZh"),
        )
    },
    "this begins with a byte order mark: save the file without it": first_is("\xef\xbb\xbf.*"),
    "this looks like UTF-16: save the file as ASCII or as UTF-8 without a byte order mark": first_is(
        "(\xff\xfe|\xfe\xff).*"
    ),
    "this looks like a page of HTML or XML, and not like a certificate": first_is("<.*"),
    "a comment begins with `%`": first_is("(#|//|/[*]).*"),
    "this looks like JSON, and not like a certificate": first_is("[{[].*"),
    "this looks like SMT-LIB, and not like a certificate": first_is("[(].*"),
    "this looks like TeX, and not like a certificate": first_is(r"\\[dbs].*"),
    "this looks like a file of a SAT solver (DIMACS, DRAT or LRAT), and not like a certificate": first_is(
        "p|[-0-9]+"
    ),
    "this looks like a pseudo-Boolean problem or proof, and not like a certificate": is_pseudo_boolean,
    "this looks like a file of a solution, and not like a certificate": first_is(
        "solution|objective"
    ),
    "this looks like an MPS file, which has the problem alone: a certificate has the claim and its proof, too": first_is(
        "[*].*|NAME|ROWS"
    ),
    "this looks like an LP file, which has the problem alone: a certificate has the claim and its proof, too": first_is(
        r"\\.*|[Mm](in|ax)imize|min|max"
    ),
    "a certificate begins with the line `VER 1.0`: is it missing here, or is this another file?": role_is(
        "keyword", section="VER"
    ),
    "the text is empty: is this another file?": text_is(""),
    "nothing is in the text but white space": text_is("[\t-\r ]+"),
    "nothing is in the text but white space and comments: a comment ends at a line feed, and not at a carriage return": text_is(
        "[\t-\r ]*(%[^\n]*(\n[\t-\r ]*|$))+"
    ),
    "only version 1.0 is read: if no derivation is `weak` or `incomplete`, write 1.0": token_is(
        "1[.]1"
    ),
    "only version 1.0 is read, which is written `1.0`": both(cause_is(3), role_is("version")),
    "the next section comes after the version `1.0`": role_is("keyword", section="VAR"),
    # sections
    "is this a comment? Comments may only be before `VER`, and begin with `%`": token_is(COMMENT),
    "is the count after `INT` too small?": role_is("keyword", section="OBJ"),
    "is the count after `INT` too small? `INT` takes a count and that many indices": both(
        role_is("keyword", section="OBJ"), token_is("[0-9]+")
    ),
    "is `OBJ` missing in front of this?": both(
        role_is("keyword", section="OBJ"), token_is("(?i:min|max|minimize|maximize)")
    ),
    "is the count after `min` or `max` too small or missing?": role_is("keyword", section="CON"),
    "is the first count after `CON` too small? It counts all constraints, bounds included; or is the last constraint's count of "
    "coefficients too small?": role_is("keyword", section="RTP"),
    "`range` takes two bounds, and `infeas` none": role_is("keyword", section="SOL"),
    "is the count after `SOL` too small, or that of a solution's values?": role_is(
        "keyword", section="DER"
    ),
    # the end of the text
    "the text ends with this token: is the file cut?": lambda facts: ends_text(facts),
    "write the last reference after `}`: the last derivation that names this one, or -1 to keep it": role_is(
        "last reference"
    ),
    "is the file cut, or the count after `DER` too large?": lambda facts: facts.is_end
    and facts.role.section == "DER",
    "is the file cut, or a count too large?": lambda facts: facts.is_end
    and facts.role.wanted != "keyword",
    "a file is one certificate, without comments after `VER`: remove all from here on": both(
        cause_is(18), token_is("VER|" + COMMENT)
    ),
    "make the count after `DER` larger, or remove all from here on": cause_is(18),
    # what is fixed by the cause
    "numerator and denominator may be 2^127 - 1 at most; docs/FORMAT.md says what can help": both(
        cause_is(5), is_long_number
    ),
    "a denominator may not be 0": both(cause_is(6), token_is(".*/0+")),
    "counts, and constraints and derivations together, may be 4294967295 at most": cause_is(8),
    "write `min` or `max` after `OBJ`": cause_is(12),
    "write `infeas`, or `range` and two bounds, after `RTP`": cause_is(13),
    "reasons are in small letters: `asm`, `lin`, `rnd`, `uns` or `sol`": both(
        cause_is(14), token_is("(?i:asm|lin|rnd|uns|sol)")
    ),
    "write `uns i1 l1 i2 l2` to join two branches, `lin` or `rnd` for a sum, `asm` for an assumption, `sol` for a cutoff": cause_is(
        14
    ),
    "a token may have 65,535 bytes at most": lambda facts: facts.refused == 17
    and len(facts.token.bytes) > 65535,
    # a keyword
    "`range` takes two bounds: the lower and the upper one": both(KEYWORD, role_is("upper bound")),
    "is the right-hand side missing? NAME SENSE RIGHT-HAND-SIDE, and then `OBJ`": both(
        token_is("OBJ"), role_is("right-hand side")
    ),
    "`OBJ` stands for a vector in constraints and derivations alone": both(
        token_is("OBJ"), lambda facts: facts.role.section == "SOL"
    ),
    "this is the keyword of a section: is a count in front of it too large, or is something missing there?": KEYWORD,
    # what came into the text on the way
    "mail writes `=3D` for `=`: was the file sent as the text of a mail?": token_is(".*=3D.*"),
    "mail writes `=20` for a space: was the file sent as the text of a mail?": both(
        token_is(".*=20"),
        lambda facts: facts.text[facts.token.at + len(facts.token.bytes) :][:1] in (b"\r", b"\n"),
    ),
    "is this line what another program printed, and no part of the certificate?": is_prose,
    # bytes that are in no token
    "write `L` for this sign": token_is("\xe2\x89\xa4"),
    "write `G` for this sign": token_is("\xe2\x89\xa5"),
    "this token has a byte that is not ASCII, as a minus or a space of a word processor: signs, digits and spaces are ASCII": token_is(
        ".*[\x80-\xff].*"
    ),
    "tokens are separated by white space alone: remove the comma or semicolon": token_is(".*[,;]"),
    # counts and indices
    "is this derivation of version 1.1? Complete the certificate first, by viprcomp of the VIPR package": both(
        token_is("weak|incomplete"), role_is("entry count")
    ),
    "`CON` takes two counts: the constraints, and how many of them are bounds (write 0 if you don't know)": role_is(
        "bound count"
    ),
    "a solution is NAME COUNT INDEX VALUE ..: is the name missing, or a space in it?": lambda facts: facts.role.section
    == "SOL"
    and facts.role.wanted in ("count", "row count"),
    "a vector is a count and then that many pairs INDEX COEFFICIENT; the right-hand side is before it": lambda facts: facts.role.wanted
    == "row count"
    and facts.role.section in ("CON", "DER"),
    "the objective is a count and then that many pairs INDEX COEFFICIENT: is the count missing?": role_is(
        "row count", section="OBJ"
    ),
    "`lin` and `rnd` take COUNT INDEX MULTIPLIER ..": role_is("entry count"),
    "`INT` lists variables by their indices, from 0, and not by names": role_is("integer index"),
    "a variable is named by its index, from 0: is a name in its place, is a pair missing, or is the count of pairs in front of it too "
    "large?": role_is("row index"),
    "is the count after `VAR` right, or is a space in a name? Names alone are after it, and no types or bounds": role_is(
        "keyword", section="INT"
    ),
    "a variable may be in a vector once: are its coefficients to be added up? Or is this a list of all coefficients, and not pairs "
    "INDEX COEFFICIENT after a count?": lambda facts: is_repeated(facts)
    and facts.role.section not in ("SOL", "INT"),
    "a variable may be in a solution once: is this a list of all values, and not pairs INDEX VALUE after their count?": lambda facts: is_repeated(
        facts
    )
    and facts.role.section == "SOL",
    "a count is digits alone: is it missing after the keyword?": lambda facts: facts.role.wanted
    == "count"
    and not facts.token.bytes.isdigit(),
    "an index is digits alone, and indices count from 0: are the pairs INDEX COEFFICIENT?": lambda facts: facts.role.wanted
    == "row index"
    and facts.role.section != "SOL"
    and not facts.token.bytes.isdigit(),
    "an index is digits alone, and indices count from 0: are the pairs INDEX VALUE?": lambda facts: facts.role.wanted
    == "row index"
    and facts.role.section == "SOL"
    and not facts.token.bytes.isdigit(),
    "an index is digits alone, and a pair is two tokens, the index and the number, with white space alone between them": both(
        role_is("row index"), token_is(".+?[,:=*].*[0-9].*")
    ),
    "the name in front of this is a number: is the count of coefficients in front of that too small, or a right-hand side missing?": both(
        role_is("sense"), lambda facts: name_is_number(facts.name.bytes)
    ),
    "the name in front of this begins with `/`: is it the end of a number, which is one token, without white space or a line break in it?": both(
        role_is("sense"), lambda facts: re.fullmatch(b"/[0-9]+", facts.name.bytes) is not None
    ),
    "a sense is a letter, and sense and right-hand side are before the coefficients: NAME SENSE RIGHT-HAND-SIDE COUNT INDEX COEFFICIENT ..": both(
        role_is("sense"), NUMBERLIKE
    ),
    "write all digits, or a fraction; an infinite bound is no constraint: leave it out, and make the counts after `CON` smaller": both(
        role_is("right-hand side", section="CON"),
        token_is("[-+]?((?i:inf|infinity|infty)|[0-9.]*[eE][-+]?[0-9]+)"),
    ),
    "is there no value? Then leave the entry or the constraint out": number_like(
        "nan|NaN|None|null"
    ),
    "decimals are not in the format: write a fraction, as 13/4": number_like(
        "[-+]?[0-9]*[.][0-9]*"
    ),
    "a number is digits with or without a sign, or a fraction, as -3 or 13/4, and nothing else is in its token": number_wanted,
    "INT lists no variable: is it left out?": lambda facts: facts.refused in (36, 37)
    and not facts.problem.integers,
    # senses
    **{
        f"write `{letter}` for `{sign}`": both(role_is("sense"), token_is(words))
        for letter, sign, words in (
            ("G", ">=", "(?i:>=|=>|>|&gt;=|g|ge|geq|gte|greater)"),
            ("L", "<=", "(?i:<=|=<|<|&lt;=|l|le|leq|lte|less)"),
            ("E", "=", "(?i:=|==|e|eq|equals?)"),
        )
    },
    "a constraint with two sides is two, by `G` and by `L`; a free row is left out": both(
        role_is("sense"), token_is("[RN]")
    ),
    "the name has a byte that is not ASCII: is it a space of a word processor?": both(
        role_is("sense"), lambda facts: not facts.name.bytes.isascii()
    ),
    "a name has no spaces, not even in quotes": both(role_is("sense"), token_is('.*"')),
    "the name in front of this is `E`, `L` or `G`: is it the sense, and the name missing? NAME SENSE RIGHT-HAND-SIDE COUNT INDEX "
    "COEFFICIENT ..": both(role_is("sense"), lambda facts: facts.name.bytes in (b"G", b"L", b"E")),
    "does the name in front of this begin a comment? Comments may only be before `VER`": both(
        role_is("sense"), lambda facts: re.fullmatch(COMMENT.encode(), facts.name.bytes) is not None
    ),
    "a sense is the letter `E`, `L` or `G`; or is a space in the name, or a coefficient missing above? The token before this one was "
    "read as a name": role_is("sense"),
    # reasons
    "a reason is between `{` and `}`, with a space on both sides of each": both(
        role_is("open brace"), token_is(r"\{\{.*|[([].*")
    ),
    "put a space after the brace": token_is(r"[{}].+"),
    "write `{` in front of this reason, and `}` after it": both(
        role_is("open brace"), token_is("asm|lin|rnd|uns|sol")
    ),
    "is the count of coefficients too small or missing, or is the reason missing? COUNT, that many pairs INDEX COEFFICIENT, and then "
    "the reason, as `{ asm }`": role_is("open brace"),
    "is this the last reference? It comes after the reason, as in `{ asm } -1`": both(
        role_is("open brace"), token_is("-1")
    ),
    "a number has no spaces: write -1": both(role_is("last reference"), token_is("-")),
    "`uns` takes four indices: i1 l1 i2 l2, where l1 and l2 are the assumptions": role_is("branch"),
    "is the brace missing in front of this? A reason ends with `}`": both(
        role_is("close brace"), token_is("-1")
    ),
    "the reason should end here: `asm` and `sol` take nothing, `uns` takes i1 l1 i2 l2, `lin` and `rnd` COUNT INDEX MULTIPLIER ..: is "
    "its number of entries missing or too small?": role_is("close brace"),
    "the brace comes before the last entry that is counted: is the count of entries too large, or a number missing?": both(
        role_is("entry index", "multiplier"), token_is("}")
    ),
    "is the reason missing between the braces? `{ asm }`, `{ sol }`, `{ uns i1 l1 i2 l2 }`, or `lin` or `rnd` with COUNT INDEX MULTIPLIER ..": lambda facts: (
        facts.role.wanted == "reason" and facts.token.bytes == b"}"
    )
    or (facts.role.wanted == "open brace" and facts.token.bytes.startswith(b"{}")),
    "is a number missing in front of the brace?": token_is("}"),
    "a number has no spaces, as -11/9": lambda facts: (
        number_like("[-+]|/.*")(facts) or both(role_is("entry index"), token_is("/.*"))(facts)
    ),
    "an entry is two tokens, INDEX MULTIPLIER, the index first": both(
        role_is("entry index"), NUMBERLIKE
    ),
    "an entry is two tokens, INDEX MULTIPLIER, with white space alone between them": both(
        role_is("entry index"), token_is(".+?[,:=*].*[0-9].*")
    ),
    "a constraint is named by its index, digits alone, and not by its name; is the number of entries right?": role_is(
        "entry index"
    ),
    "put a space before the brace": lambda facts: facts.role.wanted != "open brace"
    and token_is(".+}")(facts),
    # numbers
    "for no lower bound write `-inf`; if the problem is infeasible write `RTP infeas`": both(
        role_is("lower bound"), token_is("[-+]?(?i:inf|infinity|infty)")
    ),
    "for no bound write `-inf` first and `inf` second, in small letters": both(
        role_is("upper bound"), token_is("[-+]?(?i:inf|infinity|infty)")
    ),
    "infinite values may only be bounds of the claim": both(
        number_like("[-+]?(?i:inf|infinity|infty)"), lambda facts: facts.role.section != "RTP"
    ),
    "exponents are not in the format: write all digits, or `-inf` first and `inf` second for no bound": both(
        role_is("lower bound", "upper bound"), token_is("[-+]?[0-9.]*[eE][-+]?[0-9]+")
    ),
    "exponents are not in the format: write all digits, or a fraction, as 1/1000": number_like(
        "[-+]?[0-9.]*[eE][-+]?[0-9]+"
    ),
    "a comma is not in the format: write digits alone, or a fraction, as 13/4": number_like(
        ".*,.*"
    ),
    "a fraction is digits, `/` and digits, and its sign is in front, as -5/2": number_like(
        r".*/.*|Fraction\(.*"
    ),
    "two bounds come after `range` and nothing else: each is a number, as -3 or 13/4, or `-inf` for no lower one, or `inf` for no upper "
    "one": both(role_is("lower bound", "upper bound"), number_wanted),
    "a number is digits with or without a sign, or a fraction, as -3 or 13/4; is the count before it right?": number_wanted,
    # solutions
    "write a whole value, or take the variable out of INT": cause_is(21),
    "no solution meets this constraint: change it, or take it out": lambda facts: facts.refused
    == 22
    and not facts.plain(int(facts.details["constraint"].split()[0]))[0],
    **{
        f"is `{sign}` meant in place of `E`? Then the solution meets this constraint; else change the solution, or leave it out": is_other_sense(
            sign
        )
        for sign in "LG"
    },
    "its name is a number: is the name missing?": solution_is(
        lambda name, count, values: name_is_number(name)
    ),
    "the solution lists no value, so each variable is 0: is its count right?": solution_is(
        lambda name, count, values: count == 0
    ),
    "all values that the solution lists are 0, as is a variable that it doesn't list: change it, or leave it out": solution_is(
        lambda name, count, values: count > 0 and not any(values)
    ),
    "is a value rounded, as one of floating point is? Write exact fractions": lambda facts: facts.refused
    == 22
    and is_near_miss(facts),
    "change the solution, or leave it out; a variable that it doesn't list is 0": lambda facts: (
        solution_is(lambda name, count, values: any(values))(facts)
        and bool(facts.plain(int(facts.details["constraint"].split()[0]))[0])
    ),
    "docs/FORMAT.md says what can help when a number is past the limit": cause_is(23, 35),
    "list a solution after SOL, or claim no primal bound in RTP (`inf` for min, `-inf` for max)": lambda facts: facts.refused
    == 52
    and facts.listed == 0,
    # derivations
    "`uns i1 l1 i2 l2`: l1 and l2 are the assumptions of the two cases, derivations by `asm`; i1 holds if l1 does, and i2 if l2 does": cause_is(
        33
    ),
    "a sum that is >= takes positive multiples of >= and negative ones of <=, and a sum that is <= the other way round: is a sign "
    "wrong, or is another constraint meant (indices count bounds, too)?": cause_is(34),
    "list a solution in SOL, or give another reason": cause_is(39),
    "is what was computed meant? `sol` gives the best listed value, and nothing better": lambda facts: facts.refused
    == 38
    and facts.own().reason == "sol",
    "is another constraint meant as the case, or is what was computed to be stated?": lambda facts: facts.refused
    == 38
    and facts.own().reason == "uns",
    "is a case ruled out? Then it gives a contradiction, as 0 >= 1: is its right-hand side wrong?": lambda facts: facts.refused
    == 38
    and facts.own().reason == "uns"
    and not facts.written("computed")[0],
    "each coefficient has the other sign: does every multiplier have the wrong sign?": lambda facts: is_entries(
        facts
    )
    and is_negated(facts),
    "the rows cancel, and what is left is no contradiction: is a right-hand side below wrong, or is this case not ruled out?": lambda facts: is_entries(
        facts
    )
    and not facts.differences()
    and rules.is_absurd(facts.written("stated")),
    "no change of one entry that was tried makes it follow: is what was computed meant, or is a number below wrong?": is_entries,
    # the claim
    "the text lists a solution that is feasible, so `infeas` is false: claim `range` and two bounds": lambda facts: facts.refused
    == 51
    and facts.listed > 0
    and facts.checker.bounds is None,
    "is its derivation left out, or does RTP claim more than is proved?": cause_is(51),
}


def ends_text(facts):
    """Whether the text ends with the last byte of the token at fault, which isn't in front of the first section."""
    is_begun = (
        facts.is_text_fault()
        and not facts.is_end
        and facts.role.section != "VER"
        and facts.refused != 18
    )
    return is_begun and facts.token.at + len(facts.token.bytes) == len(facts.text)
