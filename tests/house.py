#!/usr/bin/env python3
"""Checks how the repository is built, from its text alone: what no prover checks and each reader
relies on. The layout of its files is checked if the toolchain is there.

usage: tests/house.py

Prints the place of each fault, and last `house: N checks, F failed`; the exit status is 1 if one
failed.
"""
import collections
import os
import pathlib
import re
import shutil
import subprocess
import sys

ROOT = os.path.dirname(os.path.dirname(os.path.abspath(__file__)))
CRATES = os.path.join(ROOT, "crates")
sys.path.insert(0, os.path.join(ROOT, "tools"))
from sources import crates, head_of, read  # noqa: E402
import version as versions  # noqa: E402

WIDTH = 100
LENGTH = 800
# words that name the model of a type, one in each crate that has such a type
MODEL_WORDS = {"view", "coded", "Value"}


def shown(path):
    return os.path.relpath(path, ROOT)


def files(parts, ends):
    for crate in sorted(os.listdir(CRATES)):
        for part in parts:
            for folder, subfolders, names in os.walk(os.path.join(CRATES, crate, part)):
                subfolders.sort()
                for name in sorted(names):
                    if name.endswith(ends):
                        yield crate, part, os.path.join(folder, name)


def is_test(path):
    return any(piece.startswith("tests") for piece in shown(path).split(os.sep))


# ---- the checks: each gives the places of its faults


def foreign_proofs():
    """A crate cites another one's lemmas through its table `proofs.Laws` alone."""
    names = set(os.listdir(CRATES))
    for crate, part, path in files(("specs", "proofs", "src"), (".antt", ".rt")):
        for n, line in enumerate(read(path).split("\n"), 1):
            for m in re.finditer(
                r"\bRattle\.(\w+)\.proofs\b(?!\.Laws\b)|\b(\w+)::proofs::(?!Laws\b)", line
            ):
                other = m[1] or m[2]
                if other in names and other != crate:
                    yield "%s:%d: names the proofs of %s" % (shown(path), n, other)


def private_lemmas():
    """Of a crate's lemma files the table of its laws alone is public."""
    for crate in sorted(os.listdir(CRATES)):
        lib = os.path.join(CRATES, crate, "proofs", "Lib.antt")
        if os.path.isfile(lib):
            for n, line in enumerate(read(lib).split("\n"), 1):
                m = re.match(r"pub mod (\w+)", line)
                if m and m[1] != "Laws":
                    yield "%s:%d: %s is public" % (shown(lib), n, m[1])


# the statement that can be read by itself: its words are its own
BY_ITSELF = "vipr_spec/specs/Short.antt"


def names_twice():
    """One word, one meaning: a name is defined in one spec file, but for the one that is to be read
    by itself."""
    places = collections.defaultdict(list)
    for crate, part, path in files(("specs",), (".antt",)):
        if path == os.path.join(CRATES, BY_ITSELF):
            continue
        here = set()
        for n, line in enumerate(read(path).split("\n"), 1):
            head = head_of(line)
            if not head:
                continue
            indent, marks, name = head.groups()
            if marks and not indent and name not in MODEL_WORDS and name not in here:
                here.add(name)
                places[name].append("%s:%d" % (shown(path), n))
    for name in sorted(places):
        if len(places[name]) > 1:
            yield "%s is defined %d times: %s" % (name, len(places[name]), ", ".join(places[name]))


TYPE = re.compile(r"^(?:pub(?:\([a-z]+\))? )?(?:struct|enum|trait|type) (\w+)")


def types_twice():
    """One type, one name: no two types of the sources have the same."""
    places = collections.defaultdict(list)
    for crate, part, path in files(("src",), (".rt",)):
        if not is_test(path):
            for n, line in enumerate(read(path).split("\n"), 1):
                m = TYPE.match(line)
                if m:
                    places[m[1]].append("%s:%d" % (shown(path), n))
    for name in sorted(places):
        if len(places[name]) > 1:
            yield "%s is the name of %d types: %s" % (
                name,
                len(places[name]),
                ", ".join(places[name]),
            )


# the types that hold bytes that grow: a text, the buffer before a sink, what was read of a file, a
# page
GROWING = {"Growing", "SinkBuffer", "ReadText", "Page"}


def growing_types():
    """Bytes that grow are a `Growing` or a `Vec<u8>`, which is a sink: the types of GROWING alone
    have such a field."""
    found = {}
    for crate, part, path in files(("src",), (".rt",)):
        text = "" if is_test(path) else read(path)
        for name, fields in re.findall(
            r"^(?:pub(?:\([a-z]+\))? )?struct (\w+)[^{;]*\{([^}]*)", text, re.M
        ):
            if any(
                re.search(r"\.%s\.(push|extend|append|resize|write)\w*\(" % field, text)
                for field in re.findall(r"(\w+): Vec<u8>", fields)
            ):
                found[name] = shown(path)
    for name in sorted(GROWING ^ set(found)):
        yield "%s: %s" % (found.get(name, "no file"), name)


# words that say nothing of what they name, and the fixed names that have one of them
BANNED = re.compile(r"(?<![\w-])(told|tells|judged|taken|obey|obeys)(?![\w-])")
FIXED = re.compile(
    r"\b(Write|Memory) \{ taken|\btaken: u64\b|\btaken: (failed\.accepted|0|front\.len\(\))|after \{taken\}"
)


def plain_words():
    """Code, definitions and comments say reported, known, read, accepted and tested."""
    for crate, part, path in files(("src", "specs"), (".rt", ".antt")):
        for n, line in enumerate(read(path).split("\n"), 1):
            word = BANNED.search(line)
            if word and not is_test(path) and not (word[0] == "taken" and FIXED.search(line)):
                yield "%s:%d: %s" % (shown(path), n, word[0])


def comments_stand_alone():
    """No doc comment begins with "The same": an index of functions shows it without the one
    before."""
    for crate, part, path in files(("src",), (".rt",)):
        lines = read(path).split("\n")
        for n, line in enumerate(lines, 1):
            begins = re.match(r"\s*//[/!] The same\b", line)
            if (
                begins
                and not is_test(path)
                and not (n > 1 and re.match(r"\s*//[/!] \S", lines[n - 2]))
            ):
                yield "%s:%d" % (shown(path), n)


# a word of two parts or more, each with a capital letter
JOINED_WORD = re.compile(r"\b[A-Z][a-z0-9]+(?:[A-Z][a-z0-9]*)+\b")


def comments_name_no_definitions():
    """No comment of src has the name of a definition of specs/ in place of a word, as a rename by a
    script leaves it."""
    definitions = {
        head[3]
        for _, _, path in files(("specs",), (".antt",))
        for head in map(head_of, read(path).split("\n"))
        if head
    }
    types = {
        name
        for _, _, path in files(("src",), (".rt",))
        for name in re.findall(r"\b(?:struct|enum|trait|type) (\w+)", read(path))
    }
    for crate, part, path in files(("src",), (".rt",)):
        for n, line in enumerate(read(path).split("\n"), 1):
            for word in JOINED_WORD.findall(line.partition("//")[2]):
                if word in definitions - types:
                    yield "%s:%d: %s" % (shown(path), n, word)


WORD = re.compile(r"[^\s(){}\[\];,.]+")
USE = re.compile(
    r"^[ \t]*(?:(pub|pub\(\w+\)|ghost|unfoldable) )*use ([^{;\n]*)(\{[^}]*\})?[^;\n]*;?$", re.M
)
# what a `use` brings without its name: calls of a trait, and notations
UNNAMED = {
    "Write",
    "Rows",
    "Read",
    "Seek",
    "Hash",
    "Hasher",
    "ByteSlice",
    "MetadataExt",
    "OpenOptionsExt",
    "Out",
    "_",
    "*",
    "◌>>=◌",
    "[]",
    "if◌then◌else◌",
}


def imported(use):
    """The names that a `use` brings into its file."""
    items = use[3][1:-1].split(",") if use[3] else [re.split(r"::|\.", use[2])[-1]]
    paths = [item.split(" as ")[-1].strip() for item in items]
    names = [re.split(r"::|\.", path)[-1] for path in paths]
    return [name for name in names if name]


def unused_imports():
    """Each name that a file imports occurs in it."""
    for crate, part, path in files(("src", "specs", "proofs"), (".rt", ".antt")):
        text = read(path)
        rest = USE.sub("", text)
        if path.endswith(".rt"):
            rest = re.sub(r"//.*", "", rest)
        words = set(
            re.findall(
                r"[^\s(){}\[\];,.λ:<>&!?|]+" if path.endswith(".rt") else r"[^\s(){}\[\];,.λ]+",
                rest,
            )
        )
        for use in USE.finditer(text):
            for name in [] if (use[1] or "").startswith("pub") else imported(use):
                pieces = [piece for piece in name.split("◌") if piece] or [name]
                if name not in UNNAMED and not all(
                    piece in words or "◌" in name and piece in rest for piece in pieces
                ):
                    yield "%s:%d: %s" % (shown(path), text[: use.start()].count("\n") + 1, name)


def heads(lines):
    """Of each lemma and each definition of a file its line, its name, and the lines that state and
    prove it."""
    n, in_module = 0, False
    while n < len(lines):
        head = head_of(lines[n])
        in_module = lines[n].startswith("module ") or in_module and lines[n][:1] in ("", " ")
        indent = (head and head[1]) or ""
        end = n + 1
        if head and (not indent or in_module) and re.search(r" :( |$)", lines[n]):
            own = re.compile(r"%s(?: |--|%s(?: |$))|$" % (indent, re.escape(head[3])))
            while end < len(lines) and own.match(lines[end]):
                end += 1
            yield n + 1, head[3], "\n".join(lines[n:end])
        n = end


def dead_lemmas():
    """Each lemma and each definition is cited by another one, a contract or an answer."""
    cited, found = collections.Counter(), []
    for crate, part, path in files(("src", "specs", "proofs"), (".rt", ".antt")):
        text = read(path)
        cited.update(WORD.findall(USE.sub("", text)))
        if path.endswith(".antt") and os.path.basename(path) not in (
            "Answers.antt",
            "Invariants.antt",
            "Proof.antt",
        ):
            found += [(crate, path, *head) for head in heads(text.split("\n"))]
    for crate, path, n, name, own in found:
        if cited[name] <= WORD.findall(own).count(name):
            yield "%s:%d: nothing cites %s" % (shown(path), n, name)


# calls for callers, which nothing here makes but tests, and that of `write!`
OFFERED = {
    "apply",
    "count_items",
    "from_pairs",
    "holds_at",
    "in_solutions",
    "refers_back",
    "tighten_certificate",
    "is_of_text",
    "is_overflow",
    "is_verified",
    "write_fmt",
}
# a public call, and its body if that is empty: such a function states a law
CALL = re.compile(
    r"^( *)pub (?:const |unsafe )*fn (\w+).*(?:\{$|(?:\n(?!\1\{).*)*\n\1\{(\})?$)", re.M
)


def dead_calls():
    """Each public call is made by a crate that isn't of tests, or is for callers, as OFFERED
    says."""
    texts = {
        (crate, path): re.sub(r"//.*", "", USE.sub("", read(path)))
        for crate, part, path in files(("src",), (".rt",))
        if crate != "vipr_tests"
    }
    named = collections.Counter(
        word for text in texts.values() for word in re.findall(r"\w+", text)
    )
    defined = collections.Counter(
        name for text in texts.values() for name in re.findall(r"\bfn (\w+)", text)
    )
    for (crate, path), text in texts.items():
        for _, name, law in CALL.findall(text):
            if not law and name not in OFFERED and named[name] <= defined[name]:
                yield "%s: nothing calls %s" % (shown(path), name)


# a page that a script writes: it names each law
WRITTEN = {"STATEMENT.md"}


def laws_are_named():
    """Each law of `vipr_spec` is named by a page of docs/ that is written by hand, and its file
    with it."""
    docs = os.path.join(ROOT, "docs")
    named = []
    for page in sorted(os.listdir(docs)):
        if page.endswith(".md") and page not in WRITTEN:
            text = read(os.path.join(docs, page))
            words = re.findall(r"`([\w:.]+)`", text) + re.findall(r"^(\w+) +\(", text, re.M)
            named.append(set(words))
    for crate, part, path in files(("src",), (".rt",)):
        file = os.path.basename(path)[:-3]
        for _, name, law in CALL.findall(read(path)) if crate == "vipr_spec" else []:
            if law and not any(
                "%s::%s" % (file, name) in words or {name, file + ".rt"} <= words for words in named
            ):
                yield "%s: no page names %s" % (shown(path), name)


# spec files that prove what their own definitions need: divisibility, lowest terms, and that a
# value fits a word
PROVING_SPECS = {"Lowest.antt", "GcdLaws.antt", "Words.antt"}


def proofs_in_specs():
    """Spec files define; lemmas are proved in `proofs/`."""
    for crate, part, path in files(("specs",), (".antt",)):
        if os.path.basename(path) not in PROVING_SPECS:
            for n, line in enumerate(read(path).split("\n"), 1):
                code = re.sub(r'"(?:[^"\\]|\\.)*"', '""', line).split("--")[0]
                word = re.search(r"\b(omega|grind|subst|absurd)\b|(?<![\w-])rw \(", code)
                if word:
                    yield "%s:%d: %s" % (shown(path), n, word[0])


def long_lines():
    """Lines of src and specs have at most 100 columns, but for tests, long strings, and what rt fmt
    joins."""
    for crate, part, path in files(("src", "specs"), (".rt", ".antt")):
        if is_test(path):
            continue
        for n, line in enumerate(read(path).split("\n"), 1):
            string = max([len(s) for s in re.findall(r'"(?:[^"\\]|\\.)*"', line)] + [0])
            if len(line) > WIDTH and string <= 60 and not re.match(r"\s*#!?\[tactic\(", line):
                yield "%s:%d: %d columns" % (shown(path), n, len(line))


def long_files():
    """A source file of a crate has at most 800 lines."""
    for _, _, path in files(("src", "specs", "proofs"), (".rt", ".antt")):
        lines = read(path).count("\n")
        if lines > LENGTH:
            yield "%s: %d lines" % (shown(path), lines)


def crates_have_rows():
    """The table of docs/dev/ARCHITECTURE.md names each crate once."""
    text = read(os.path.join(ROOT, "docs", "dev", "ARCHITECTURE.md"))
    for crate in crates():
        rows = len(re.findall(r"^\| `%s` \|" % crate, text, re.M))
        if rows != 1:
            yield "docs/dev/ARCHITECTURE.md: %s has %d rows in the table of crates" % (crate, rows)
    for crate in re.findall(r"^\| `(vipr\w*)` \|", text, re.M):
        if crate not in crates():
            yield "docs/dev/ARCHITECTURE.md: there is no crate %s" % crate


def counts_of_lines_agree():
    """Pages say rightly how many lines one has to believe: those of part 1 of the statement, and of
    files of rocq/."""
    row = re.search(
        r"^\| \[1\. .*?\) \|.*?\| \d+ \| (\d+) \|",
        read(os.path.join(ROOT, "docs/STATEMENT.md")),
        re.M,
    )
    first = int(row[1])
    statement, rules, literal = (
        read(os.path.join(ROOT, "rocq", name + ".v")).count("\n")
        for name in ("Statement", "Rules", "Literal")
    )
    for name, words, wanted in [
        ("README.md", r"\[These (\d+) lines\]\(docs/STATEMENT\.md\)", first),
        ("docs/LIBRARY.md", r"\[(\d+) lines\]\(STATEMENT\.md\)", first),
        ("docs/PROOF.md", r'(\d+) lines for "what is verified is true"', first),
        ("docs/PROOF.md", r"`Statement\.v` says in (\d+) lines", statement),
        ("docs/PROOF.md", r"`Rules\.v` says in (\d+) lines", rules),
        ("docs/PROOF.md", r"the (\d+) lines of `Literal\.v`", literal),
        ("docs/REFEREE.md", r"(\d+) lines of definitions", statement + literal),
    ]:
        said = [int(count) for count in re.findall(words, read(os.path.join(ROOT, name)))]
        if said != [wanted]:
            yield "%s: says %s lines and not %d (%s)" % (name, said, wanted, words)


def kit_crates_are_named():
    """README.md names each crate of the kit that a crate lists in crates.txt."""
    rows = read(os.path.join(ROOT, "crates.txt")).split("\n")
    uses = {word for row in rows for word in row.partition(":")[2].split()}
    page = read(os.path.join(ROOT, "README.md"))
    for crate in sorted(uses - set(crates())):
        if "`%s`" % crate not in page:
            yield "README.md doesn't name %s" % crate


def crates_are_there():
    """crates.txt lists the folders of crates/, and no more."""
    listed, there = set(crates()), {
        d for d in os.listdir(CRATES) if os.path.isdir(os.path.join(CRATES, d, "src"))
    }
    for crate in sorted(listed ^ there):
        yield "%s is %s" % (crate, "not in crates.txt" if crate in there else "not in crates/")


def snake(name):
    return re.sub(r"(?<=[a-z0-9])(?=[A-Z])", "_", name).lower()


def causes_agree():
    """The causes have the same numbers and names in docs/FORMAT.md, in specs/Causes.antt and in
    code."""
    page = {
        int(n): (name, text)
        for n, name, text in re.findall(
            r"^\| (\d+) \| ([A-Z]\w*) \| ([^|]+?) \|",
            read(os.path.join(ROOT, "docs", "FORMAT.md")),
            re.M,
        )
    }
    spec = read(os.path.join(CRATES, "vipr_spec", "specs", "Causes.antt"))
    defined = {int(n): name for name, n in re.findall(r"^([a-z]\w*) = (\d+)$", spec, re.M)}
    code, said, arms = {}, {}, []
    for crate, part, path in files(("src",), (".rt",)):
        if re.match(r"causes?\.rt$", os.path.basename(path)):
            text = read(path)
            for lead, name, n in re.findall(
                r"((?:^///[^\n]*\n)*)^pub const ([A-Z_]+): u8 = (\d+);", text, re.M
            ):
                if int(n) in code:
                    yield "%s: %s: cause %s stands twice in code" % (shown(path), name, n)
                code[int(n)] = name
                if not lead:
                    yield "%s: %s has no line that says what it is" % (shown(path), name)
            arms += re.findall(r'^\s*([A-Z_]+) => "([A-Z]\w*)"', text, re.M)
    constant = {name: n for n, name in code.items()}
    for arm, word in arms:
        said[constant.get(arm, arm)] = word
    numbers = sorted(set(page) | set(defined) | set(code))
    for n in numbers:
        name = page.get(n, ("", ""))[0]
        if not name:
            yield "docs/FORMAT.md: no row for cause %d" % n
        if defined.get(n) != snake(name):
            yield "Causes.antt: cause %d is %s, in docs/FORMAT.md %s" % (n, defined.get(n), name)
        if code.get(n, "").lower() != snake(name):
            yield "code: cause %d is %s, in docs/FORMAT.md %s" % (n, code.get(n), name)
        if said.get(n) != name:
            yield "code: cause %d is called %s, in docs/FORMAT.md %s" % (n, said.get(n), name)
    number = {name: n for n, name in defined.items()}
    spelled = {
        number.get(name): word for name, word in re.findall(r'\(([a-z]\w*), codes "(\w+)"\)', spec)
    }
    for n in numbers:
        if spelled.get(n) != page.get(n, ("", ""))[0]:
            yield "Causes.antt: cause %d is called %s, in docs/FORMAT.md %s" % (
                n,
                spelled.get(n),
                page.get(n, ("", ""))[0],
            )


def versions_agree():
    """Each place that names the program's version names that of the command line."""
    number = versions.of_program()
    changes = re.search(r"^## (\d[^,\n]*)", read(os.path.join(ROOT, "CHANGELOG.md")), re.M)
    for path, found in [*versions.named(), ("CHANGELOG.md", changes and changes[1])]:
        if found != number:
            yield "%s: has the version %s, and args.rt %s" % (path, found, number)
    soname = "libvipr.so.%s" % number.split(".")[0]
    if "`%s`" % soname not in read(os.path.join(ROOT, "docs", "LIBRARY.md")):
        yield "docs/LIBRARY.md: does not name %s" % soname


def git(*words):
    """What git says of this folder, if it is the top of a checkout."""
    try:
        said = subprocess.run(
            ["git", *words], cwd=ROOT, capture_output=True, text=True, check=False
        )
    except OSError:
        return None
    return (
        said.stdout.strip()
        if os.path.exists(os.path.join(ROOT, ".git")) and said.returncode == 0
        else None
    )


def named_files_are_there():
    """Each file of the repository that a page names in code quotes is there, in the folder or crate
    that it names."""
    listed = (git("ls-files") or "").split("\n")
    if not any(listed):
        print(
            "house: no git that knows this folder, so the files that pages name are not looked for"
        )
    # as they are named: STATEMENT.md leaves out `crates` and `specs`
    known = ["/" + path for path in listed] + [
        "/" + path.replace("crates/", "").replace("/specs/", "/") for path in listed
    ]
    for page in listed:
        if page.endswith(".md"):
            for n, line in enumerate(read(os.path.join(ROOT, page)).split("\n"), 1):
                # (a mark says what writes a part)
                for name in (
                    []
                    if line.startswith("<!--")
                    else re.findall(
                        r"`([\w./-]*\w\.(?:rt|antt|py)|(?:docs/dev|rocq)/\w+\.md)`", line
                    )
                ):
                    if not any(path.endswith("/" + name) for path in known):
                        yield "%s:%d: no file %s" % (page, n, name)


def named_pages_are_there():
    """Each page of docs/ that a source, a script or the man page names is there."""
    found = git("grep", "-nIoE", r"\bdocs/[A-Za-z/_]+\.md", "--", ":!*.md") or ""
    for line in found.splitlines():
        place, page = line.rsplit(":", 1)
        if not os.path.isfile(os.path.join(ROOT, page)):
            yield "%s: no page %s" % (place, page)


# folders of what is built
BUILT = {".git", "out", "dist", "target", "__pycache__"}


def pages():
    """The pages of the repository: the path of each, and its text without blocks of code."""
    for folder, subfolders, names in os.walk(ROOT):
        subfolders[:] = sorted(set(subfolders) - BUILT)
        for name in sorted(names):
            if name.endswith(".md"):
                path = os.path.join(folder, name)
                text = re.sub(r"^```.*?^```", "", read(path), flags=re.M | re.S)
                yield os.path.relpath(path, ROOT), text


def links_of(page, text):
    """The relative links of a page: each as it is written, the path that it leads to, and its
    heading."""
    for target in re.findall(r"\]\(([^)\s]+)\)", text):
        if not re.match("[a-z]+:", target):
            name, _, heading = target.partition("#")
            path = os.path.normpath(os.path.join(os.path.dirname(page), name)) if name else page
            yield target, path, heading


def headings_of(text):
    """What a link says after `#` for each heading of a page."""
    seen = collections.Counter()
    for heading in re.findall(r"^#+ (.*)$", text, re.M):
        words = re.sub(r"\[([^\]]*)\]\([^)]*\)", r"\1", heading).lower()
        anchor = re.sub(r"[^\w -]", "", words).replace(" ", "-")
        yield anchor + ("-%d" % seen[anchor] if seen[anchor] else "")
        seen[anchor] += 1


def links_lead():
    """Each relative link of a page leads to a file or a folder of the repository, and to a heading
    there."""
    texts = dict(pages())
    headings = {page: set(headings_of(text)) for page, text in texts.items()}
    for page, text in texts.items():
        for target, path, heading in links_of(page, text):
            if not os.path.exists(os.path.join(ROOT, path)):
                yield "%s: there is no %s" % (page, target)
            elif heading and heading not in headings.get(path, set()):
                yield "%s: %s has no such heading" % (page, target)


def installed():
    """The files of PAGES of the Makefile, which `make install` installs, without those that the
    Debian package leaves out."""
    words = ["make", "-s", "-C", ROOT, "--eval", "pages-of-install: ; @echo $(PAGES)"]
    said = subprocess.run(
        [*words, "pages-of-install"], capture_output=True, text=True, check=True
    ).stdout
    rules = read(os.path.join(ROOT, "debian", "rules"))
    left_out = re.findall(r"share/doc/vipr/(\S+)", "".join(re.findall(r"^\trm .*", rules, re.M)))
    return set(said.split()) - set(left_out)


def installed_links_lead():
    """Each relative link of an installed page leads to an installed file, or to a folder of
    some."""
    there = installed()
    folders = {str(folder) for path in there for folder in pathlib.Path(path).parents}
    for page, text in pages():
        for target, path, _ in links_of(page, text) if page in there else []:
            if path not in there | folders:
                yield "%s: %s is not installed" % (page, target)


def formatted():
    """Sources, specs and proofs are in the layout of `rt fmt`, without which `rt ci` fails after
    its proofs."""
    rt = shutil.which(os.environ.get("RT", "rt"))
    rattle = rt and os.path.join(os.path.dirname(os.path.realpath(rt)), "rattle")
    if rattle and os.path.exists(rattle):
        paths = [
            path
            for part, ends in (("src", ".rt"), ("specs", ".antt"), ("proofs", ".antt"))
            for _, _, path in files([part], ends)
        ]
        said = subprocess.run(
            [rattle, "fmt", "--check", *paths], capture_output=True, text=True, check=False
        )
        for line in (said.stdout + said.stderr).splitlines() if said.returncode else []:
            yield line.removeprefix(ROOT + os.sep)


def python_is_linted():
    """pyflakes3, if it is installed, finds nothing in the Python files."""
    if shutil.which("pyflakes3"):
        folders = [
            name
            for name in os.listdir(ROOT)
            if os.path.isdir(os.path.join(ROOT, name)) and name not in (".git", "crates")
        ]
        said = subprocess.run(
            ["pyflakes3", *sorted(folders)], cwd=ROOT, capture_output=True, text=True, check=False
        )
        yield from (said.stdout + said.stderr).splitlines()


CHECKS = [
    foreign_proofs,
    private_lemmas,
    names_twice,
    types_twice,
    growing_types,
    plain_words,
    comments_stand_alone,
    comments_name_no_definitions,
    unused_imports,
    dead_lemmas,
    dead_calls,
    laws_are_named,
    proofs_in_specs,
    long_lines,
    long_files,
    crates_are_there,
    kit_crates_are_named,
    crates_have_rows,
    counts_of_lines_agree,
    causes_agree,
    versions_agree,
    named_files_are_there,
    named_pages_are_there,
    links_lead,
    installed_links_lead,
    formatted,
    python_is_linted,
]


def main():
    failed = 0
    for check in CHECKS:
        faults = list(check())
        failed += bool(faults)
        for fault in faults:
            print(fault)
        if faults:
            print("FAILED (%d): %s" % (len(faults), check.__doc__))
    print("house: %d checks, %d failed" % (len(CHECKS), failed))
    return 1 if failed else 0


sys.exit(main())
