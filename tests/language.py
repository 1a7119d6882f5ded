#!/usr/bin/env python3
"""Measures the language of the pages, the man page, the program's help and the doc comments: how
long their sentences are, and which turns of phrase they use.

usage: tests/language.py [--figures] [PAGE..]     without a page: all pages of PAGES, man/vipr.1 and crates/*/src

A sentence ends with `.`, `!` or `?`, or with its paragraph, list item or cell of a table. A piece
of code, and the text of a link, count as the words that a reader sees; code in backquotes counts as
one word. Blocks of code, and what a script writes between two `<!-- .. -->` marks, aren't looked
at.

Each sentence has at most MOST words, and the median of a page's running text, without tables and
headings, is at most MEDIAN. On the pages that lead a reader, and on all pages together, at most
SHARE of 100 sentences have more than LONG words. None has a turn of TURNS. No word of OWN is on the
pages that lead a reader: docs/FORMAT.md translates it. In doc comments (`///`, `//!`), and in the
help's words in crates/vipr_command, the same sentences and turns are refused. The documentation of
a public item doesn't begin with `The same`: it is read alone. Prints the place of each fault, and
last `language: N checks, F failed`; the exit status is 1 if one failed. --figures prints the number
of sentences, the median and the longest of each page.
"""
import re
import statistics
import sys
from pathlib import Path

TOP = Path(__file__).resolve().parent.parent
PAGES = [
    "README.md",
    "CONTRIBUTING.md",
    "CHANGELOG.md",
    "docs/TUTORIAL.md",
    "docs/FORMAT.md",
    "docs/USE.md",
    "docs/REFEREE.md",
    "docs/SECURITY.md",
    "docs/LIBRARY.md",
    "docs/PROOF.md",
    "docs/STATEMENT.md",
    "docs/BENCHMARKS.md",
    "docs/dev/ARCHITECTURE.md",
    "docs/dev/DECISIONS.md",
    "docs/dev/CONTRACTS.md",
    "docs/dev/WORDS.md",
    "examples/README.md",
    "rocq/README.md",
    "tools/README.md",
    "conformance/README.md",
    "conformance/CHANGELOG.md",
]
MAN, HELP = "man/vipr.1", "crates/vipr_command/src/args.rt"
# pages that lead a reader: they say what they say in the words of integer programming
LEADING = [
    "README.md",
    "docs/TUTORIAL.md",
    "docs/USE.md",
    "docs/REFEREE.md",
    "docs/SECURITY.md",
    "docs/LIBRARY.md",
    "docs/PROOF.md",
    "examples/README.md",
]
MOST, MEDIAN, LONG, SHARE = 40, 19, 30, 3
# words of our own: a contradiction, signs that agree, integral
OWN = re.compile(
    r"\babsurd\w*|\bsuitable\b|\bwhole (?:points?|numbers?|numerators?|coefficients?|values?|objective|rows?)\b"
    r"|\bwhole at\b|\b(?:isn't|aren't|is|are|be) whole\b(?! and)",
    re.I,
)
# a turn, and what to write in its place
TURNS = {
    r"(?<!`)\b(?:tells?|told)\b(?!`)": "reports, shows",
    # `says where`, and the place of a test, a token, bytes or what a reader goes through, are no
    # conditions
    r"(?<!says )(?<!depend on )(?<!, and )(?<!but for )(?<!`, )\bwhere\b"
    r"(?! (?:bytes|the (?:test|run|reader|scanner)|a (?:token|certificate)|to write|`|\{))": "if",
    r"\bstands? (?!alone)": "is",
    r"(?:^|[;:] )of (?!course)": "a verb, or another preposition",
    r"\bwhat is left\b": "what remains",
    r"\bhalf answered\b": "partial",
    r"\bat its second standing\b": "at its second occurrence",
    r"\bin its place\b": "instead",
    r"\bwho wants to\b": "to",
}


def prose(text):
    """The pieces of a page's text, each with its line and whether it is running text, as paragraphs
    and list items are; cells of tables and headings are none."""
    text = re.sub(r"^```.*?^```", lambda m: "\n" * m[0].count("\n"), text, flags=re.M | re.S)
    text = re.sub(
        r"<!-- [^>]*written by.*?<!-- end[^>]*-->",
        lambda m: "\n" * m[0].count("\n"),
        text,
        flags=re.S,
    )
    piece, first, running = [], 0, True
    for number, line in enumerate(text.split("\n") + [""], 1):
        row = line.strip()
        opens = re.match(r"(?:[-*>]|\d+\.|#+) +", row)
        if piece and (not row or opens or row.startswith("|")):
            yield first, running, " ".join(piece)
            piece = []
        if row.startswith("|"):
            for cell in re.split(r"(?<!\\)\|", row.strip("|")):
                if cell.strip(" -:"):
                    yield number, False, cell.strip()
        elif row:
            if not piece:
                first, running = number, not row.startswith("#")
            piece.append(row[opens.end() :] if opens else row)


def sentences(piece):
    """The sentences of a piece, as a reader sees them."""
    piece = re.sub(
        r"`` ?.*? ?``|`[^`]*`", lambda m: "`" + re.sub(r"\W", "", m[0])[:12] + "`", piece
    )
    piece = re.sub(r"!?\[([^\]]*)\]\([^)]*\)", r"\1", piece)
    piece = re.sub(r"\*\*?", "", piece)
    for sentence in re.split(r'(?<=[.!?])[)"]?\s+(?=[^a-z])', piece):
        if re.search(r"\w", sentence):
            yield sentence


def length(sentence):
    """How many words a sentence has."""
    return len(re.findall(r"[^\s`]*`[^`]*`[^\s`]*|\S*\w\S*", sentence))


def faults_of(sentence, place):
    """What is wrong with a sentence: its length, and the turns that it has."""
    own = OWN.search(re.sub("`[^`]*`", "", sentence))
    if own and place.split(":")[0] in (*LEADING, MAN):
        yield f"{place}: {own[0]!r} is a word of our own: {sentence[:60]} .."
    if length(sentence) > MOST:
        yield f"{place}: {length(sentence)} words: {sentence[:70]} .."
    for turn, better in TURNS.items():
        found = re.search(turn, sentence, re.I)
        if found:
            yield f"{place}: {found[0]!r}: {better}? {sentence[:60]} .."


def measured(page):
    """The lengths of a page's sentences in running text and of all, the number of checks, and its
    faults."""
    lengths, every, faults, count = [], [], [], 0
    for line, running, piece in prose((TOP / page).read_text()):
        for sentence in sentences(piece):
            count += 2 + len(TURNS)
            every.append(length(sentence))
            if running:
                lengths.append(length(sentence))
            faults += faults_of(sentence, f"{page}:{line}")
    median = statistics.median(lengths)
    if median > MEDIAN:
        faults.append(f"{page}: the median is {median:g} words a sentence")
    if page in LEADING and share(every) > SHARE:
        faults.append(f"{page}: {share(every):.1f} of 100 sentences have more than {LONG} words")
    return lengths, every, count + 1, faults


def share(lengths):
    """How many of 100 sentences of these lengths are long."""
    return 100 * sum(length > LONG for length in lengths) / len(lengths)


def manual():
    """The sentences of the man page: its lines of text, without requests and what they set in bold
    or italics."""
    for number, line in enumerate((TOP / MAN).read_text().split("\n"), 1):
        text = line.removeprefix(".B ")
        if text and not text.startswith(".") and not text.startswith("$"):
            yield number, re.sub(r"\\f[BIR]|\\(?=-)", "", text).replace("\\(aq", "'")


def documented():
    """The doc comments of crates/*/src: the file, the line, the words, and whether they are a
    public item's."""
    for path in sorted((TOP / "crates").glob("*/src/**/*.rt")):
        text = path.read_text()
        for found in re.finditer(r"(?:^ *//[/!][^\n]*\n)+", text, re.M):
            item = re.match(r"(?: *#!?\[[^\n]*\n)*\s*(\S*)", text[found.end() :])[1]
            words = re.sub(r"^ *//[/!] ?", "", found[0], flags=re.M)
            yield path.relative_to(TOP), text[: found.start()].count("\n") + 1, words, item == "pub"


def beside_pages():
    """What is measured beside the pages: the number of checks, and the faults."""
    pieces = [(f"{MAN}:{line}", text) for line, text in manual()]
    pieces += [
        (f"{HELP}: help", text)
        for text in re.findall(r'"([A-Z][^"]* [^"]*)"', (TOP / HELP).read_text())
    ]
    faults = []
    for path, line, words, is_public in documented():
        if is_public and words.startswith("The same"):
            faults.append(
                f"{path}:{line}: the documentation of a public item begins with `The same`"
            )
        pieces += [(f"{path}:{line}", piece) for _, _, piece in prose(words)]
    count = 0
    for place, piece in pieces:
        for sentence in sentences(piece):
            count += 2 + len(TURNS)
            faults += faults_of(sentence, place)
    return count, faults


def main():
    words = sys.argv[1:]
    figures = "--figures" in words
    pages = [word for word in words if word != "--figures"] or PAGES
    checks = failed = 0
    found = {
        str(path.relative_to(TOP))
        for place in (".", "docs", "examples", "tools", "conformance")
        for path in (TOP / place).glob("*.md")
    } - {"tools/statement_examples.md"}
    for page in sorted(found - {*PAGES}):
        failed += 1
        print(f"{page}: is not in PAGES")
    if pages is PAGES:
        count, faults = beside_pages()
        checks, failed = checks + count, failed + len(faults)
        print(*faults, sep="\n", end="\n" if faults else "")
    of_all = []
    for page in pages:
        lengths, every, count, faults = measured(page)
        of_all += every
        checks, failed = checks + count, failed + len(faults)
        for fault in faults:
            print(fault)
        if figures:
            print(
                f"{page}: {len(lengths)} sentences, median {statistics.median(lengths):g}, longest {max(lengths)}, "
                f"{share(every):.1f} of 100 long"
            )
    if pages is PAGES and share(of_all) > SHARE:
        failed += 1
        print(f"{share(of_all):.1f} of 100 sentences have more than {LONG} words")
    print(f"language: {checks} checks, {failed} failed")
    return 1 if failed else 0


if __name__ == "__main__":
    sys.exit(main())
