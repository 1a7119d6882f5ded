"""The tables of docs/dev/CONTRACTS.md from the sources, which tools/write_pages.py writes.

A row for each public call: the call, the names of its clauses (`-` for one without a name), the
definitions that they cite, the laws that its proof cites, and the edits of its code, first those of
must-fail/. Edits of what lies below the public calls stand in the lines below a crate's table.
"""
import re

from sources import (
    TOP,
    blanked,
    braced,
    crates,
    edits,
    files_of,
    functions,
    owners,
    read,
    record_fields,
    replaced,
)

PROOF, CONTRACTS = TOP / "docs/PROOF.md", TOP / "docs/dev/CONTRACTS.md"
# where a crate has edits: those that `rt ci` tries, and those that `make wrong` tries
FOLDERS = "must-fail", "wrong"


def imports(text):
    """The words that `ghost use` brings in from the definitions of our crates."""
    words = set()
    for found in re.finditer(
        r"ghost use Rattle\.vipr\w*\.specs\.(?:(?:[\w.]+?\.)?\{([^}]*)\}|[\w.]+?\.(\w+) as (\w+))",
        text,
    ):
        for item in (found[1] or "").split(","):
            if item.strip():
                words.add(item.split(" as ")[-1].strip().rpartition(".")[2])
        if found[3]:
            words.add(found[3])
    return words


def laws(crate, name):
    """The laws of definitions that the proof of a function cites."""
    out = set()
    for folder in (TOP / "crates" / crate / "proofs").rglob(name):
        if folder.is_dir():
            for path in sorted(folder.glob("*.antt")):
                for found in re.finditer(
                    r"^use Rattle\.(vipr\w*)\.proofs\.Laws\.\{([^}]*)\}", read(path), re.M
                ):
                    out |= {item.split(" as ")[0].strip() for item in found[2].split(",")}
    return sorted(out)


def ticked(names):
    return ", ".join(f"`{name}`" for name in names) or ""


def traits(file, text, words):
    """Rows of a file's implementations of traits, where their ghost members cite definitions."""
    for start, end, name, trait, kind in owners(blanked(text)):
        if kind == "trait" or trait is None or trait.startswith("Model"):
            continue
        body = blanked(text)[start:end]
        members, cited = [], []
        for found in re.finditer(r"^ *ghost (\w+) = (?=\{)", body, re.M):
            inner = body[found.end() : braced(body, found.end())]
            here = [word for word in re.findall(r"[A-Za-z_]\w*", inner) if word in words]
            if here:
                members.append(found[1])
                cited += here
        if members:
            yield file, start, f'| `{trait}` for `{name}` | {", ".join(members)} | {ticked(dict.fromkeys(cited))} |  |  |  |'


def table(crate):
    """The table of one crate, with the marks around it."""
    rows, placed = [], set()
    all_edits = {folder: list(edits(crate, folder)) for folder in FOLDERS}
    for path in files_of(crate, "src", ".rt"):
        if "tests" in str(path.relative_to(TOP)):
            continue
        text = read(path)
        file = str(path.relative_to(TOP / "crates" / crate))
        words = imports(text)
        rows += traits(file, text, words)
        for name, owner, public, clauses, start, end in functions(path):
            if not public:
                continue
            call = (
                f"{owner[2]}::{name}"
                if owner
                else f"{path.stem}::{name}"
                if crate == "vipr_spec"
                else name
            )
            cited = []
            for _, _, clause in clauses:
                cited += [word for word in re.findall(r"[A-Za-z_]\w*", clause) if word in words]
            own = {
                folder: [
                    edit for edit, place, old in there if place == file and old in text[start:end]
                ]
                for folder, there in all_edits.items()
            }
            placed |= {edit for there in own.values() for edit in there}
            kinds = [clause or "-" for kind, clause, _ in clauses if kind == "ensures"]
            needs = [clause or "-" for kind, clause, _ in clauses if kind == "requires"]
            stated = ", ".join(kinds) + ("; needs " + ", ".join(needs) if needs else "")
            rows.append(
                (
                    file,
                    start,
                    f"| `{call}` | {stated} | {ticked(dict.fromkeys(cited))} | "
                    f"{ticked(laws(crate, name))} | "
                    f'{" | ".join(", ".join(there) for there in own.values())} |',
                )
            )
    lines = [marks(crate)[0]]
    if rows:
        folders = " | ".join(f"Edits of `{folder}/`" for folder in all_edits)
        lines += [
            f"| Call | Clauses | Definitions | Laws cited in its proof | {folders} |",
            "|---|---|---|---|---|---|",
        ]
        lines += [row for _, _, row in sorted(rows)]
    else:
        lines += ["No call of its own."]
    for folder, there in all_edits.items():
        rest = [edit for edit, _, _ in there if edit not in placed]
        if rest:
            lines += ["", f'Edits of `{folder}/` below these calls: {", ".join(rest)}.']
    return "\n".join([*lines, marks(crate)[1]])


def marks(crate):
    """Between which lines of the page the table of a crate is."""
    return (
        f"<!-- calls of {crate}: written by `tools/contracts.py` from the sources -->",
        f"<!-- end of the calls of {crate} -->",
    )


def clauses_of(crate):
    """By the name of a function of the crate, of a trait's member or of a record, the names of its
    clauses. A word that abbreviates a record has those of the record."""
    named, short = {}, {}
    for path in files_of(crate, "src", ".rt"):
        for name, _, _, clauses, _, _ in functions(path):
            named.setdefault(name, set()).update(clause for _, clause, _ in clauses if clause)
    for path in files_of(crate, "specs", ".antt"):
        text = read(path)
        for found in re.finditer(r"^pub record (\w+)(.*?)(?=^\S|\Z)", text, re.M | re.S):
            named[found[1]] = set(record_fields(found[2].split("\n")))
        short.update(re.findall(r"^([A-Z]\w*) [^=\n]*=\s*([A-Z]\w*)\b", text, re.M))
    for name in short:
        record = name
        while record in short and record not in named:
            record = short[record]
        if record in named:
            named.setdefault(name, named[record])
    return named


def faults_of_edits(text):
    """Which edit that a page names isn't there."""
    for crate, edit in re.findall(r"`(vipr_\w+)/(\w+)`", text):
        folders = [TOP / "crates" / crate / folder for folder in (*FOLDERS, "wrong_definitions")]
        if not any((folder / f"{edit}.edit").is_file() for folder in folders):
            yield f"there is no edit {crate}/{edit}"


def faults_of_words(text):
    """Which crate hasn't one heading and a table, and which clause in brackets is none of the calls
    before it, or of the record after `of`."""
    parts = re.findall(r"^### `(vipr\w*)`\n(.*?)(?=^##|\Z)", text, re.M | re.S)
    headed = [crate for crate, _ in parts]
    for crate in crates():
        if headed.count(crate) != 1:
            yield f"{crate} has {headed.count(crate)} headings"
        if any(text.count(mark) != 1 for mark in marks(crate)):
            yield f"{crate} has no table"
    for crate, part in parts:
        named = clauses_of(crate)
        for calls, clauses, record in re.findall(
            r"((?:`[\w:]+`(?:, | and )?)+) \(((?:`\w+`(?:, )?)+)(?: of `(\w+)`)?\)", part
        ):
            words = [record] if record else re.findall(r"(?:\w+::)?(\w+)`", calls)
            known = [named[name] for name in words if name in named]
            for clause in re.findall(r"`(\w+)`", clauses):
                if (
                    (clause.islower() or record)
                    and (known or record)
                    and not any(clause in names for names in known)
                ):
                    yield f"{crate}: {record or calls} has no clause {clause}"


def made():
    """The page, by its path."""
    text = CONTRACTS.read_text()
    for crate in crates():
        text = replaced(text, marks(crate), table(crate))
    return {CONTRACTS: text}


def faults():
    """What is wrong with the words of docs/dev/CONTRACTS.md and docs/PROOF.md."""
    texts = {page: page.read_text() for page in (PROOF, CONTRACTS)}
    found = [(page, fault) for page, text in texts.items() for fault in faults_of_edits(text)] + [
        (CONTRACTS, fault) for fault in faults_of_words(texts[CONTRACTS])
    ]
    return [f"{page.relative_to(TOP)}: {fault}" for page, fault in found]
