"""What scripts share that make pages from the repository's text: the crates by level, their files,
functions with clauses, edits, and parts of pages between marks."""
import re
from pathlib import Path

TOP = Path(__file__).resolve().parent.parent
CRATES = TOP / "crates"
OPENS = {"{": 1, "}": -1}


def read(path):
    """The text of a file."""
    return Path(path).read_text(encoding="utf-8")


def crates():
    """Each crate with what it depends on, as crates.txt has them."""
    rows = (
        line.split("#")[0].partition(":") for line in (TOP / "crates.txt").read_text().split("\n")
    )
    return {head.split()[0]: deps.split() for head, _, deps in rows if head.strip()}


def levels():
    """The level of each crate, and the crates directly below it."""
    deps = crates()
    below, level = {}, {}

    def walk(crate):
        if crate not in below:
            own = [dep for dep in deps[crate] if dep in deps]
            below[crate] = set(own).union(*map(walk, own))
            level[crate] = 1 + max((level[dep] for dep in own), default=-1)
        return below[crate]

    for crate in deps:
        walk(crate)
    direct = {}
    for crate in deps:
        indirect = set().union(*(below[other] for other in below[crate]))
        direct[crate] = [dep for dep in deps[crate] if dep in deps and dep not in indirect]
    return level, direct


def replaced(text, marks, made):
    """The text with what stands from one mark to the other replaced by this, which has both."""
    return re.sub(re.escape(marks[0]) + r"(?:.|\n)*?" + re.escape(marks[1]), lambda _: made, text)


# ---- files of a crate


def files_of(crate, part, ends):
    """The files of a part of a crate whose names end so."""
    return sorted(path for path in (CRATES / crate / part).rglob("*") if path.name.endswith(ends))


def in_order(crate):
    """The spec files of a crate in the order of its Lib.antt, the others behind."""
    folder = CRATES / crate / "specs"
    first = re.findall(r"^(?:pub )?mod (\w+)$", read(folder / "Lib.antt"), re.M)
    rank = {name: at for at, name in enumerate(first)}
    found = [path for path in files_of(crate, "specs", ".antt") if path.name != "Lib.antt"]

    def place(path):
        module = path.relative_to(folder).with_suffix("").parts[0]
        return rank.get(module, len(rank))

    return sorted(found, key=place)


# how a definition or a lemma begins: its indent, the words that mark it, and its name
HEAD = re.compile(r"(  )?((?:(?:pub|abbrev|unfoldable|record|data) )*)([^\s:({]+)(?=[\s:({]|$)")
# what else a line of antt begins with
NO_NAMES = {"use", "mod", "open", "module", "ruleset", "unfolding", "infix", "infixl", "infixr"}


def head_of(line):
    """The match of HEAD, if the line begins a definition or a lemma."""
    found = HEAD.match(line)
    return found if found and found[3] not in NO_NAMES and not found[3].startswith("--") else None


def changed(edit):
    """The file of its crate that an edit changes."""
    found = re.search(r"^file: (.*)$", read(edit), re.M)
    return found[1].strip() if found else ""


def edits(crate, folder):
    """Of each edit of a folder of a crate its name, file and text."""
    for path in files_of(crate, folder, ".edit"):
        yield path.stem, changed(path), re.search(r"^old: (.*)$", read(path), re.M)[1]


# ---- functions and records


def braced(text, start):
    """Where the brace that opens at `start` closes."""
    depth = 0
    for at in range(start, len(text)):
        depth += OPENS.get(text[at], 0)
        if depth == 0:
            return at + 1
    return len(text)


def blanked(text):
    """The text without comments, of the same length."""
    return re.sub(r"//[^\n]*", lambda m: " " * len(m[0]), text)


def owners(text):
    """Where each `impl` and `trait` begins and ends, and whose it is."""
    out = []
    for found in re.finditer(r"^(?:pub )?(impl|trait)\b([^{;]*?)\{", text, re.M):
        head = re.sub(r"\s+", " ", found[2]).strip()
        head = re.sub(r"^<[^>]*>\s*", "", head) if found[1] == "impl" else head
        head = head.split(" where ")[0]
        trait = None
        if " for " in head:
            trait, head = head.split(" for ", 1)
        name = re.match(r"(?:\w+::)*(\w+)", head)
        out.append(
            (
                found.start(),
                braced(text, found.end() - 1),
                name[1] if name else head,
                trait,
                found[1],
            )
        )
    return out


def functions(path):
    """The functions of a file: name, whether public, clauses, where its text begins and ends."""
    text = blanked(read(path))
    whole = owners(text)
    for found in re.finditer(
        r'^( *)(pub (?:\([^)]*\) )?|pub\(crate\) )?(?:const |unsafe |extern "[^"]*" )*fn (\w+)',
        text,
        re.M,
    ):
        owner = next((o for o in whole if o[0] <= found.start() < o[1]), None)
        at, clauses = found.end(), []
        while at < len(text):
            clause = re.compile(
                r"\s*(?:where\b[^{;]*?(?=\brequires|\bensures|\{))?\s*(requires|ensures)\*?\s*(\w*)\s*(?=\{)"
            ).match(text, at)
            if clause:
                end = braced(text, clause.end())
                clauses.append((clause[1], clause[2], text[clause.end() : end]))
                at = end
                continue
            char = text[at]
            if char == "{":
                end = braced(text, at)
                break
            if char == "[":
                at = text.index("]", at)
            if char == ";":
                end = at
                break
            at += 1
        else:
            end = len(text)
        public = bool(found[2] and found[2].strip() == "pub")
        if owner and owner[4] == "trait":
            public = text[owner[0] :].startswith("pub")
        yield found[3], owner, public, clauses, found.start(), end


def record_fields(lines):
    """The fields of a record by name, each with its comment, as lines."""
    out, comment, name = {}, [], None
    for line in lines[1:]:
        field = re.match(r"  pub (\w+) :", line)
        if field:
            name, comment = field[1], comment + [line]
            out[name], comment = comment, []
        elif line.startswith("  --"):
            comment.append(line)
        elif name:
            out[name].append(line)
    return out
