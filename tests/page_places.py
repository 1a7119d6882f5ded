"""The forms of the lines of a page that say of a text's items, lines and tokens that they are too many, in another place, or written
as other programs do.

What is in a line is counted here anew. A text that is said to be read on with a change is changed, and read.
"""
import re
from fractions import Fraction

from page_facts import KEYWORDS, NUMBER, Facts, place_of, roles, same, shown, shown_name, true
from page_lines import form


def lines_of(facts):
    return facts.text.split(b"\n")


def roles_to_fault(facts):
    """What was wanted at each token in front of the fault, and the token."""
    walk = roles()
    role = next(walk)
    begin = re.match(rb"[\t-\r ]*(?:%[^\n]*(?:\n|$)[\t-\r ]*)*", facts.text).end()
    for found in re.compile(rb"[^\t-\r ]+").finditer(facts.text, begin, facts.token.at):
        yield role, found
        role = walk.send(found[0])


# ---- counts


NOUNS = {
    "VAR": ("name", "names"),
    "INT": ("index", "indices"),
    "CON": ("constraint", "constraints"),
    "SOL": ("solution", "solutions"),
    "DER": ("derivation", "derivations"),
}


@form(r"  = help: `(\w+)` has (\d+) (\w+), and its count is (\d+): (.+)")
def items_of_section(page, section, counted, what, stated, words: str):
    facts = page.facts
    same("the count", stated, facts.counts[section])
    same("the items", what, NOUNS[section][counted != 1])
    asked = {
        "VAR": "is that wrong, or is a space in a name?",
        "CON": f"is {counted} meant? It counts all constraints, bounds included",
    }
    same("what is asked", words, asked.get(section, f"is {counted} meant?"))
    keywords = dict(zip(KEYWORDS, [*KEYWORDS[1:], None]))
    test_count(facts, section, counted, keywords[section])


def test_count(facts, section, counted, keyword):
    """Tests that with another count of a section the text is read up to this keyword, or to the end."""
    (place,) = (
        found
        for role, found in roles_to_fault(facts)
        if (role.section, role.wanted) == (section, "count")
    )
    text = b"%s%d%s" % (facts.text[: place.start()], counted, facts.text[place.end() :])
    other = Facts(text, facts.profile)
    if other.is_text_fault():
        true(keyword is not None, "the text has another fault")
        at = int(other.place.split()[1])
        is_read = re.search(rb"[\t-\r ]%s[\t-\r ]" % keyword.encode(), text[:at])
        true(is_read, "the keyword isn't reached")
        is_wanted = (other.role.section, other.role.wanted) == (keyword, "keyword")
        true(not is_wanted, "the keyword isn't where it is wanted")


@form(
    r"  = help: (\d+) (pairs?|numbers) in line (\d+) after the count of (coefficients|values|entries), (\d+): (.+)"
)
def pairs_in_line(page, count, what, line, kind, stated, words: str):
    facts = page.facts
    role, place = [
        (role, found)
        for role, found in roles_to_fault(facts)
        if role.wanted in ("row count", "entry count")
    ][-1]
    same("the line", line, place_of(facts.text, place.start())[0])
    same("the count", stated, int(place[0]))
    kinds = {"entry count": "entries"} if role.section != "SOL" else {"row count": "values"}
    same("what is counted", kind, kinds.get(role.wanted, "coefficients"))
    rest = re.split(rb"[\n{}]", facts.text[place.end() :])[0].split()
    true(all(re.fullmatch(rb"[-+]?\d+(/\d+)?", token) for token in rest), "there is something else")
    same("how many there are", 2 * count if what[:4] == "pair" else count, len(rest))
    pair = {"values": "INDEX VALUE", "entries": "INDEX MULTIPLIER"}.get(kind, "INDEX COEFFICIENT")
    half = len(rest) // 2
    if what[:4] == "pair":
        same("the plural", what, "pair" if count == 1 else "pairs")
        true(count != stated, "it is the count")
        asked = f"is {count} meant, or is a part of the line lost?"
    elif count != stated:
        asked = f"is a number lost or one too many, or the count left out? A pair is {pair}"
        true(count % 2 == 1, "they are pairs")
    elif count % 2 == 0:
        asked = f"is {half} meant? A count is of pairs, {pair}; or are the indices left out?"
    else:
        asked = f"are the indices left out? A pair is {pair}"
    same("what is asked", words, asked)


# ---- places


@form(r"  = help: `(\w+)` is in line (\d+): is it to be in front of `(\w+)`\? The order is (.+)")
def section_below(page, keyword, line, found, order: str):
    facts = page.facts
    same("the order", order, ", ".join(KEYWORDS))
    same("what is wanted", (facts.role.section, facts.role.wanted), (keyword, "keyword"))
    same("what was found", facts.token.bytes, found.encode())
    true(found in KEYWORDS, "it is no keyword")
    same("the begin of the line", lines_of(facts)[line - 1].split()[:1], [keyword.encode()])
    true(line > place_of(facts.text, facts.token.at)[0], "it is no line below")


@form(
    r"  = help: `VER` is in line (\d+): a certificate begins there, but for comments, which begin with `%`"
)
def version_below(page, line):
    facts = page.facts
    same("what is wanted", (facts.role.section, facts.role.wanted), ("VER", "keyword"))
    same("the begin of the line", lines_of(facts)[line - 1].split()[:1], [b"VER"])


@form(
    r"  = help: with lines (\d+) and (\d+) exchanged the text can be read on: are they in the wrong order\?"
)
def exchanged_lines(page, one, another):
    facts = page.facts
    lines = lines_of(facts)
    between = lines[one : another - 1]
    true(one < another and not any(line.split() for line in between), "they are apart")
    lines[one - 1], lines[another - 1] = lines[another - 1], lines[one - 1]
    text = b"\n".join(lines)
    other = Facts(text, facts.profile)
    if other.is_text_fault():
        at = int(other.place.split()[1])
        true(at >= len(b"\n".join(lines[:another])), "they can't be read")
    true(facts.token.at <= len(b"\n".join(lines[:another])), "the fault is below")


FORMS_OF = {
    "constraint": rb"\S+ [ELG] NUM ROW",
    "solution": rb"\S+ ROW",
    "derivation": rb"\S+ [ELG] NUM ROW { (?:asm|sol|uns(?: \d+){4}|(?:lin|rnd) ROW) } (?:\d+|-1)",
}


@form(
    r"  = help: line (\d+) has the form of a (\w+): (?:is its place after `(\w+)`\?( Or are its sense and right-hand side missing\?)?|is "
    r"`(\w+)` with its count missing in front of it\?)"
)
def other_form(page, line, item, section, other, missing):
    facts = page.facts
    keyword = {"constraint": "CON", "solution": "SOL", "derivation": "DER"}[item]
    same("the section", keyword, section or missing)
    tokens = lines_of(facts)[line - 1].split()
    counts = [int(token) for token in tokens if token.isdigit()]
    number, pairs = rb"[-+]?\d+(?:/\d+)?", []
    for count in sorted(set(counts + [0])):
        if count <= len(tokens):
            pairs.append(rb"%d(?: \d+ %s){%d}" % (count, number, count))
    row = rb"(?:OBJ|%s)" % b"|".join(pairs)
    pattern = FORMS_OF[item].replace(b"NUM", number).replace(b"ROW", row)
    true(re.fullmatch(pattern, b" ".join(tokens)), "it has another form")
    is_begun = item == "solution" and facts.role.wanted == "sense"
    same("whether a constraint is wanted", other is not None, is_begun)
    if missing:
        same("what is wanted", (facts.role.section, facts.role.wanted), (keyword, "keyword"))


@form(r"  = help: line (\d+) ends in the middle of `(\S*)`: is a part of it lost\?")
def cut_line(page, line, name: str):
    facts = page.facts
    same("the name", name, shown_name(facts.name.bytes))
    true(facts.role.wanted not in ("name", "keyword", "last reference"), "no item has begun")
    front = facts.text[: facts.token.at]
    same("the line", line, place_of(facts.text, len(front.rstrip()) - 1)[0])
    same("what is in front of the token in its line", front.rpartition(b"\n")[2].split(), [])


# ---- tokens as other programs write them


@form(
    r"  = help: is `(\S+)` a date\? A spreadsheet makes one of a fraction as 1/2: import the column as text"
)
def date(page, token: str):
    same("the token", token, shown(page.facts.token.bytes))
    months = "jan|feb|mar|apr|may|jun|jul|aug|sep|oct|nov|dec"
    true(
        re.fullmatch(
            rf"\d{{1,4}}[-/.](({months})[a-z]*|\d{{1,4}}[-/.]\d{{1,4}}|({months})[a-z]*[-/.]\d{{1,4}})"
            rf"|({months})[a-z]*[-/.]\d{{1,4}}",
            token,
            re.I,
        ),
        "it is no date",
    )


@form(
    r"  = help: is `-(\S*)` meant\? The sign here is U\+2212, a minus of typesetting: write the `-` of ASCII"
)
def minus(page, size: str):
    same("the token", "\u2212".encode() + size.encode(), page.facts.token.bytes)


@form(
    r"  = help: a byte of `(.+)` is no part of a text: is the file damaged, or was more of a buffer written than its text\?"
)
def control(page, token: str):
    same("the token", token, shown(page.facts.token.bytes))
    true(any(byte < 32 or byte == 127 for byte in page.facts.token.bytes), "there is no such byte")


@form(
    rf"  = help: exponents are not in the format: write ({NUMBER})(; or is it the error of a rounding, and 0 meant\?)?"
)
def exponent(page, value, doubt):
    token = page.facts.token.bytes.decode()
    true("e" in token.lower(), "there is no exponent")
    same("the number", value, Fraction(token))
    same("the doubt", doubt is not None, 0 < abs(Fraction(value)) * 10**6 <= 1)


@form(
    rf"  = help: a number is digits without separators: is ({NUMBER}) meant(, or a decimal with a comma)?\?"
)
def grouped(page, value, comma):
    token = page.facts.token.bytes.decode()
    true(re.fullmatch(r"[-+]?\d{1,3}([,'_]\d{3})+", token), "the digits are no groups of three")
    same("the number", value, int(re.sub("[,'_]", "", token)))
    same("whether it may be a decimal", comma is not None, "," in token)
