#!/usr/bin/env python3
"""docs/STATEMENT.md: what one has to believe of the definitions, quoted from the spec files.

usage: tools/statement.py     lists the definitions without an example, and the examples without a definition

Each part of the page is made from clauses of the contract of a call: every definition that they
rest on is found, in whatever file it is, and quoted once, in the order in which the files are to be
read, with its example. Proofs aren't quoted: the check believes none of them. Nor is, in the three
parts, a definition that a law hides: the law is quoted instead, and its proof is part of the check.
What no clause needs is in the appendix. The example of a definition X is the clause `X_is` of the
crate vipr_worked, which the prover computes, or a sentence of tools/statement_examples.md.
tools/write_pages.py writes the page.
"""
import re
import textwrap

from sources import CRATES, TOP, files_of, functions, head_of, in_order, read, record_fields

TARGET, EXAMPLES = TOP / "docs/STATEMENT.md", TOP / "tools/statement_examples.md"
SPEC_CRATES = ["vipr_spec", "vipr_bytes", "vipr_cert", "vipr_check", "vipr_tighten"]
MOST_LINES = 1800
# the columns of a line that is quoted with its comment, and of an item of examples
WIDTH, ITEM = 122, 700


# ---- what the page is made of

# The laws that are quoted in place of definitions: by its name the section, the file, what is said
# of it, and the definitions for which it stands.
COMPUTED = {"over", "◌+ℚ◌", "◌*ℚ◌", "◌≤ℚ◌"}
LISTED = {"constraint_at", "reason_at", "last_at"}
LAWS = {
    "cross_products": (
        "Fractions",
        "vipr_spec/src/arithmetic.rt",
        "A law says what fractions are. `over p q` is p / q; `x.numer` and `x.denom` are the parts of x. If you believe "
        "the law, you need none of the definitions by which they are computed ([appendix](#appendix)).",
        COMPUTED,
    ),
    "states_one": (
        "Problems and texts",
        "vipr_spec/src/short.rt",
        "A law says that a text states at most one problem and one list of solutions. So the clause `holds` is about one "
        "problem, and these definitions don't take too much for what a text states. By another law, `proofs_mean`, they "
        "don't take too little: each text that spells a proof states a problem of which its claim holds.",
        set(),
    ),
    "field_by_field": (
        "Problem, claim and certificate",
        "vipr_spec/src/step_by_step.rt",
        "A reason names constraints by an index: those of the problem come first, and then the derivations; past the "
        "end there is 0 = 0. A law says this for what constraint i states, its reason and its last reference.",
        LISTED,
    ),
    "rules_by_reason": (
        "Problem, claim and certificate",
        "vipr_spec/src/rules.rt",
        "The rules, reason by reason: when a derivation of index k that states d is good. The law says all that one has "
        "to know about `IsGoodStep`. Its parts in `Certificate.antt` (`NamesEarlier`, `FollowsBy`, `StepFits`, "
        "`RefersTo`) needn't be believed.",
        {"IsGoodStep"},
    ),
}
# clauses of them that say nothing new: IsWhole is quoted
NEEDLESS = ["whole"]
BY_LAW = COMPUTED | LISTED | {"IsGoodStep"}

# The file of the two calls for bytes in memory.
IN_MEMORY = "vipr_check/src/in_memory.rt"

# Each part: its title, the call of IN_MEMORY or the clauses of `ChecksIn` from which it is made,
# the definitions at which these begin or those clauses that imply the others, the most lines to
# believe for them, the laws that stand for definitions, those that they cite instead, those that
# they hide, what the part says, and what a reader knows after it.
PARTS = [
    {
        "title": "The statement, for whoever fears a false `verified`",
        "call": "is_verified",
        "shown": ["states", "holds"],
        "core": ["Means"],
        "most": 130,
        "laws": ["cross_products", "states_one"],
        "instead": [],
        "hidden": COMPUTED | {"gcd", "euclid", "IsLowest", "ℚ"},
        "what": "What a `true` of `is_verified` promises of the bytes, and all that it rests on. The first lines say what a point, "
        "a constraint, a problem and a true claim are; the others how bytes state a problem. Nothing here speaks of rules "
        "or derivations, so no mistake in a rule can make it false.",
        "known": "If `is_verified` answers `true`, the bytes state a problem and listed solutions, and the claim is true of "
        "whatever problem they state. "
        "Under `infeas` no point is feasible. Under `range` the dual bound holds at each feasible point; and if a primal "
        "bound is claimed, a listed solution is feasible and attains it. Stop here if a false `verified` is all that you fear.",
    },
    {
        "title": "Verified in both directions",
        "call": "is_proof",
        "shown": ["proof"],
        "core": ["SpellsProof"],
        "most": 456,
        "laws": ["field_by_field", "rules_by_reason"],
        "instead": [
            "AreUsable",
            "is_live",
            "SumOfFits",
            "entries",
            "HasSense",
            "sum_of",
            "Dominates",
            "DominatesRounded",
            "IsWholeRow",
            "IsSplit",
            "IsBest",
            "cutoff",
        ],
        "hidden": BY_LAW | {"Profile"},
        "what": "Which texts are verified: those that spell a proof, and no others. This part says what a proof is, and how a text "
        "spells one. `one` is profile one, which `check` uses. It also has the parts of fractions, since a proof has "
        "limits for them. By part 1 the claim of each such text is true (`proofs_mean`).",
        "known": "As long as memory suffices, `is_proof` answers `true` exactly if the bytes spell a certificate that "
        "is a proof by these rules. So no proof is refused. Under profile two, which `check` doesn't use, two definitions have one more equation "
        "each: part 3 has them.",
    },
    {
        "title": "The exact answer",
        "clauses": ["any", "exact", "only", "read", "ended", "proof", "every", "sound", "second"],
        "core": ["any", "exact"],
        "most": 900,
        "laws": [],
        "instead": [],
        "hidden": BY_LAW,
        "what": "The answer of `check` for every text, from whatever source, and what is known about a file.",
        "known": "You know the whole answer for all bytes: the report of a proof, or for any other text the first cause, "
        "in the order of the tests, with its place. And you know that a failed read is answered only if one failed. About a file "
        "you know that what is verified is the report of a proof whose claim is true.",
    },
]

# Sections, by the spec files that they quote.
TOPICS = [
    ("Fractions", ["Gcd", "Lowest", "Fraction"]),
    ("Problems and texts", ["Short"]),
    ("Constraints", ["Constraint"]),
    ("Problem, claim and certificate", ["Certificate", "Soundness", "Rules"]),
    ("Numbers in a text", ["Digits", "Number"]),
    ("Tokens", ["Input", "Tokens"]),
    ("Causes", ["Causes"]),
    ("Reading", ["Reading"]),
    ("The grammar", ["Grammar", "Stated"]),
    ("The tests of a derivation", ["Steps"]),
    ("The tests of a text", ["Tests"]),
    ("The first test that fails", ["Verdict"]),
    ("What the call answers", ["Promises", "Known", "Reads", "Items", "View", "Checks"]),
]
# What is in another section in a part, since it has few lines there.
JOINED = {
    (2, "Reading"): "The grammar",
    (2, "What the call answers"): "The grammar",
    (3, "Constraints"): "Problem, claim and certificate",
    (3, "Numbers in a text"): "Reading",
    (3, "The grammar"): "Reading",
    ("A", "The tests of a derivation"): "The tests of a text",
    ("A", "The first test that fails"): "The tests of a text",
}

# What is said at the head of a section.
NOTES = {
    (
        3,
        "Reading",
    ): "The reading goes through the grammar of part 2 from left to right, up to the first fault. "
    "`reading_is_the_grammar` proves that it reads exactly the texts that spell a certificate, as that certificate.",
    (
        3,
        "The tests of a derivation",
    ): "The tests are the rules of part 2, one by one, in the order in which they are tried. `tests_are_the_rules` "
    "proves that no test fails exactly if the derivation is good (`IsGoodStep`).",
}

# The last part is of another call: its clause, the definitions that it quotes, and what the part
# says.
TIGHTENING = {
    "clause": "spelled",
    "quoted": [
        "References",
        "reason_references",
        "Include",
        "RefersTo",
        "GoalIs",
        "IsNeeded",
        "IsNeededFor",
        "IsProofFor",
        "IsTight",
        "AreFigures",
        "KindOfText",
        "kind_spelled",
        "ForProof",
        "TightensText",
    ],
    "computed": ["tightened_certificate", "new_goal"],
    "what": "What `tighten_as` writes to a sink, in the form F: the contract is the record `TightensAs`, and this clause is for "
    "whole texts in memory. `text_in F t` is the canonical or the compact text of t; `IsTight` says what it spells, so "
    "neither it nor `tightened_certificate` has to be believed, but for the field `again`, which is for whoever "
    "tightens twice. `new_goal c goal` is the index of the goal in t: by `IsProofFor` there is no other. `IsGoal` and "
    "`peak` are those of part 3. `TakesText` says that the sink accepted the text, or, beside `Err n`, its first n bytes; `TakesNothing` that it accepted "
    "nothing.",
    "known": "If `tighten_as` answers that it tightened, the text that the sink accepted spells a proof of the same claim about "
    "the same problem, with the same solutions. Each of its derivations is needed, and its peak isn't larger. If the "
    "text is no proof, nothing is written. For a file in place of a text in memory `written` says the same of some "
    "proof.\n\n"
    "**With `--out OUT`** the sink is what a folder begins for OUT, which has accepted nothing yet (`WritesFile` in "
    "`vipr_command/Tighten.antt`). If the answer is that it tightened, each name of that file holds the accepted text, "
    "and every other name what it held (`IsReplaced` in `vipr_command/Folder.antt`). A failed write after the whole text is "
    "answered only if the folder may refuse it, and each name holds what it held; or if the folder may fail late, and "
    "OUT holds the text (`Replaces`). After every other answer each name holds what it held. All this is said of a "
    "folder that exposes what it holds.",
}

# What no clause of `Checks` cites, and why it is quoted.
APPENDIX = ["over", "◌+ℚ◌", "◌*ℚ◌", "◌≤ℚ◌", "IsTrueClaim", "PassesSteps", "IsExplained"]

# Definitions that say the same, and the law that proves it: its file and function.
SAME = [
    (
        "`over`, and sum, product and order of fractions, by integers",
        "vipr_spec/src/arithmetic.rt",
        "cross_products",
    ),
    (
        "`text_tokens` and `AreTokens`: a text has one way to be split",
        "vipr_spec/src/texts.rt",
        "tokens_are_one",
    ),
    (
        "digits, as they are read (`natural_of`) and as they are spelled (`SpellsNatural`)",
        "vipr_spec/src/grammar.rt",
        "naturals",
    ),
    (
        "a number, as it is read (`number_read`) and as it is spelled (`SpellsNumber`)",
        "vipr_spec/src/numbers.rt",
        "spelled_numbers",
    ),
    (
        "a token of each kind, as it is read and as it is spelled",
        "vipr_spec/src/grammar.rt",
        "kinds_of_token",
    ),
    (
        "the items of a text, as they are read and as the grammar has them",
        "vipr_spec/src/grammar.rt",
        "items",
    ),
    (
        "a certificate, as it is read (`certificate_read`) and as it is spelled (`Spells`)",
        "vipr_spec/src/grammar.rt",
        "reading_is_the_grammar",
    ),
    (
        "the tests of a derivation (`PassesSteps`), and the rules (`IsGoodStep`)",
        "vipr_spec/src/step_by_step.rt",
        "tests_are_the_rules",
    ),
    ("the rules (`IsGoodStep`), reason by reason", "vipr_spec/src/rules.rt", "rules_by_reason"),
    (
        "constraints by their index, and the lists of the certificate",
        "vipr_spec/src/step_by_step.rt",
        "field_by_field",
    ),
    (
        "what a text spells, and the problem that it states (`StatesOnly`)",
        "vipr_spec/src/grammar.rt",
        "one_problem",
    ),
    (
        "a text that spells a proof, and what it means (`Means`)",
        "vipr_spec/src/short.rt",
        "proofs_mean",
    ),
    (
        "a verified answer, and a text that spells a proof",
        "vipr_spec/src/verdict.rt",
        "verified_texts",
    ),
    ("`IsTrueClaim`, over all points, of a proof", "vipr_spec/src/claims.rt", "proofs_are_true"),
    (
        "`IsShown`, over points of one denominator, of a proof",
        "vipr_spec/src/claims.rt",
        "proofs_show",
    ),
]

# Definitions that part 3 by itself puts for others, by the laws of SAME.
INSTEAD = {"hidden": {"HasGoodSteps", "natural_of"}, "instead": ["PassesSteps", "SpellsNatural"]}

HEAD = """# The statement

<!-- written by tools/statement.py from the spec files; `make statement` writes it anew -->

**Verified** means that the bytes read spell a certificate that is a proof by the rules below, and so state a problem and \
solutions of which the claim is true. No feasible point is there; \
or the dual bound holds at all feasible ones, and if a primal bound is claimed, a listed solution is feasible and attains it. \
Two functions that read bytes and answer yes or no say it, `is_verified` (part 1) and `is_proof` (part 2). Either is true exactly if the text spells a \
proof, and `is_verified` says what that means for the problem.

**The premises**: the source gives the bytes of the text that is meant, with no failed read and fewer than 2^64 of \
them. The definitions below say what one means by a problem, a claim and a text. The tools keep their word: the prover, \
the compiler, the machine and its C library.

**Files and standard input**: a contract can name the bytes of a slice, so each clause holds for it. It can't name those \
of a file or of standard input. For them the clause `any` of part 3 is what is proved: what is verified is the report of a \
certificate that is a proof, and what that certificate claims is true. That it is the certificate which the bytes of the \
file spell is a premise, and no theorem. It rests on this: `check` has one body for all sources, and that body can't ask \
which source it has. So a slice that holds what a file's reads gave gets the same answer, unless memory runs out for one of the two.

**How to read it.** Part 1 has what a verified text means, part 2 which texts are verified, part 3 the whole answer, and \
part 4 what `tighten` writes. You can stop after each \
part: it says what you know by then. A part quotes the definitions that its clauses rest on, word by word from the spec \
files, and then examples. Part 1 has words of its own for all that it needs, some of which mean other things in \
the later parts. The prover computes the examples that are terms; `apart`, `example` and \
`dropped_example` in them are a problem and certificates of `vipr_spec/specs/Examples.antt`. The words `abbrev`, \
`unfoldable` and `pub` are for the prover, and no part of what one has to believe.

| Written | Means | Example |
|---|---|---|
| `T : A → Type 0`; `(x : A) × P`, `(x : A) → P` | T is a property of values of A, which holds as the first equation says that fits; there is an x with P; P holds for all x | `IsAsGood true v w` is `v ≤ℚ w` |
| `⊎`, `⊤` or `Unit`, `⊥`, `¬`, `x ≡ y`; `P × Q`, `P ↔ Q` | or, true, false, not, equality; and, if and only if | `(x ≡ 1) ⊎ (x ≡ 2)` |
| `IfOk r P`; `IfSome x P`, `IsSomeAnd x P` | P holds for the value of the result or option, if it has one; it has one, and P holds for it | `IfOk` says nothing about `Err(Memory)` |
| `Bool`, `if b then x else y`, `not`, `&&`, `\|\|`; `IsTrue b` | as in any language; the `Bool` b is true | `if true then 1 else 2` is 1 |
| `a == b`, `nat_le a b`; `a < b` | whether a is b, whether a is at most b; that a is less than b | `nat_le 9 32` is true |
| `All P xs`, `Any P xs`, `Contains xs x` | P holds for all elements of a list, for one of them; x is one | `Any P []` is false |
| `List A`, `[]`, `x ∷ xs`, `xs ++ ys`, `length xs`; `take n xs`, `drop n xs` | lists of values of A: the empty one, one by its first element and the others, one list and then another, how many; the first n elements, and the others | `length (codes "VER")` is 3 |
| `ℕ`, `ℤ`, `pos n`, `negsuc n`, `neg_ℤ k`; `+ℤ`, `*ℤ`, `≤ℤ` | natural numbers, integers, the integers n, -(n + 1) and minus k; sum, product and order of integers | `neg_ℤ (pos 3)` is -3 |
| `Option A`, `None`, `Some x`; `(x, y)`, `p.0`, `p.1` | a value of A, or none; a pair and its parts | the bound `-inf` is `None` |
| `codes "VER"`; `IsNumeral 10 t`, `digits_value 10 t` | the bytes of a word; the bytes t are one or more decimal digits; the number that they write | `007` writes 7 |
| `record`, `r.name`; `λ x. y` | fields with names, one of them; the function that gives y for x | `p.constraints` |
| in parts 2 and 3 `FinMap`, `FinSet`, `from_entries`, `from_list`, `get`, `contains` | finite maps and sets; the map of pairs, the set of a list; the value at a key, if there is one; whether an element is in it | `contains (from_list (2 ∷ [])) 2` is true |
| `slice_get xs i`, `slice_index_or xs i d`; `unwrap_or o d`, `MatchOption o N P` | element i, if there is one; the same, or else d; an option's value, or else d; N if it has none, else P holds for it | `unwrap_or None 7` is 7 |
| `filter p xs`, `take_while p xs`, `count_by p xs`; `range_with_len a n`, `IsDistinct eq xs` | the elements that pass p, the first ones up to one that doesn't, how many pass; the n numbers from a on, no two are equal | `range_with_len 2 3` is 2, 3, 4 |
| `ensures`, `requires`, `ghost` | what a call promises, what it asks of its caller, and a part of the code for contracts alone | |
"""

COUNTED = """
Lines are those to believe: clauses, definitions, and laws that are quoted instead of definitions, without comments and \
imports. The code that is quoted, and the words of the standard library (numbers, digits, lists, finite maps and sets), \
aren't counted. The last column is a part without the parts before it: what `states` and `holds` need; what `proof` needs; what \
`any` and `exact` need, which imply all other clauses. These two need no grammar, since a law says that it and the reading \
are the same. By other laws the tests of derivations (`PassesSteps`) replace their rules there, and the spelling of digits \
(`SpellsNatural`) replaces how they are read.
"""

APPENDIX_HEAD = """## Appendix

No clause of `Checks` needs what follows. Other calls cite it, or a law says that it is the same in other words.
"""


class Definition:
    def __init__(self, path, order, comment, lines, names, is_proof):
        self.path, self.order = path, order
        self.comment, self.lines, self.names, self.is_proof = comment, lines, names, is_proof
        self.module = path.stem

    def words(self):
        """The words that can mean a definition: no fields of records, and of a dotted path the
        whole."""
        code = [l for l in self.lines if not l.lstrip().startswith("--")]
        out = set()
        for line in code:
            line = re.sub(r'"(?:[^"\\\\]|\\\\.)*"', " ", line)
            line = re.sub(r"^(\s+)(?:pub )?[^\s:({]+ (?=:)", r"\1", line)
            line = re.sub(r"(^\s+|[{;]\s*)[^\s:({;]+ (?==)", r"\1", line)
            for word in re.findall(r"[^\s(){}\[\];,]+", line):
                out.add(word.strip("."))
                out.add(word.split(".")[0])
        return out


NAME = r"[^\s:({]+"


def paragraphs(text):
    """Lists of lines, split at blank lines."""
    out, now = [], []
    for line in text.split("\n"):
        if line.strip():
            now.append(line)
        elif now:
            out.append(now)
            now = []
    return out + ([now] if now else [])


def signatures(lines):
    """Name and kind of each definition of a paragraph: how its first line begins."""
    out = []
    for line in lines:
        head = head_of(line)
        if head and not head[1]:
            marked = re.search(r"abbrev|unfoldable|record|data", head[2])
            if marked or line[head.end() :].startswith(" :"):
                out.append((head[3], "definition" if marked else "proof"))
    return out


IMPORT = re.compile(
    r"^(?:unfoldable )?(?:pub )?use Rattle\.(\w+)\.specs(?:\.([\w.]+?))??(?:\.\{([^}]*)\}|(?: as (\w+))?)[ \t]*$",
    re.M,
)


class File:
    """The definitions of a spec file, and what its words mean."""

    def __init__(self, crate, path, text):
        self.crate, self.own, self.imports, self.aliases = crate, {}, {}, {}
        for m in IMPORT.finditer(text):
            module = (m[1], m[2] and m[2].split(".")[-1])
            if m[3] is None:
                self.aliases[m[4] or module[1]] = module
            else:
                for item in m[3].split(","):
                    path, _, name = item.strip().partition(" as ")
                    inner, _, word = path.rpartition(".")
                    if word:
                        self.imports[name or word] = (m[1], inner.split(".")[-1] or module[1], word)


def operators(name):
    """How an operator is written in a term."""
    return [p for p in name.split("◌") if p] if "◌" in name else []


def load():
    files, order = {}, 0
    for crate in SPEC_CRATES:
        for path in in_order(crate):
            text = read(path)
            file = files[(crate, path.stem)] = File(crate, path, text)
            for lines in paragraphs(text):
                names = signatures(lines)
                if not names:
                    continue
                order += 1
                first = next(i for i, l in enumerate(lines) if not l.startswith("--"))
                comment = [l for l in lines[:first] if not l.startswith("-- ----")]
                is_proof = all(kind == "proof" for _, kind in names)
                d = Definition(path, order, comment, lines[first:], [n for n, _ in names], is_proof)
                d.home = file
                for name, _ in names:
                    for word in [name] + operators(name):
                        file.own.setdefault(word, d)
                if re.search(r"\bdata\b", lines[first]):
                    for line in lines[first + 1 :]:
                        m = re.match(r"\s+(%s) :" % NAME, line)
                        if m:
                            file.own.setdefault(m[1], d)
    return files


def meant(files, file, word):
    """The definition that a word of the file means, if it means one."""
    if "." in word:
        prefix, name = word.rsplit(".", 1)
        module = file.aliases.get(prefix)
        return files[module].own.get(name) if module in files else None
    if word in file.own:
        return file.own[word]
    for name, (crate, module, there) in file.imports.items():
        if word == name or word in operators(name):
            homes = [
                f
                for (c, m), f in files.items()
                if c == crate and module in (m, None) and there in f.own
            ]
            return homes[0].own[there] if homes else None
    return None


def closure(files, start, hidden, known):
    """What these definitions rest on, in the order of reading, without what is hidden or known."""
    found, todo = set(), list(start)
    while todo:
        d = todo.pop()
        if d in found or d in known or d.is_proof or hidden & set(d.names):
            continue
        found.add(d)
        for word in sorted(d.words()):
            other = meant(files, d.home, word)
            if other is not None and other is not d:
                todo.append(other)
    return sorted(found, key=lambda d: d.order)


def named(files, names):
    """The definitions of these names."""
    return [
        f.own[name]
        for name in names
        for (_, module), f in files.items()
        if name in f.own and name in f.own[name].names and (module != OWN or name == "Means")
    ]


def cited(files, home, lines):
    """The definitions that these lines of a file mean."""
    words = Definition(TOP, 0, [], lines, [], False).words()
    found = [meant(files, home, word) for word in sorted(words)]
    return [d for d in found if d is not None]


def split(d):
    """A definition for profile one, and its equations for profile two, if it has some."""
    starts = [
        i for i, line in enumerate(d.lines) if re.match(re.escape(d.names[0]) + " two ", line)
    ]
    if not starts:
        return d, None
    end = next(
        (i for i in range(starts[0] + 1, len(d.lines)) if d.lines[i][0] != " "), len(d.lines)
    )
    one = Definition(
        d.path, d.order, d.comment, d.lines[: starts[0]] + d.lines[end:], d.names, False
    )
    two = Definition(
        d.path,
        d.order,
        ["-- for profile two"],
        d.lines[starts[0] : end],
        ["%s two" % d.names[0]],
        False,
    )
    return one, two


def believed(lines):
    return sum(1 for line in lines if line.strip() and not line.strip().startswith("--"))


def is_number(d):
    """A definition of a number by its name alone, as those of the causes."""
    return (
        d.module == "Causes" and re.match(r"abbrev pub \S+ : ℕ$", d.lines[0]) and len(d.lines) == 2
    )


def quoted(d):
    """A definition's lines below its comment; a comment stands at the end of the line below it if
    there is room."""
    comment, lines = " ".join(l[2:].strip() for l in d.comment), folded(d.lines)
    if comment and len(lines[0]) + len(comment) + 4 <= WIDTH:
        return [lines[0] + " -- " + comment] + lines[1:]
    return textwrap.wrap(comment, WIDTH, initial_indent="-- ", subsequent_indent="-- ") + lines


def folded(lines):
    """Lines of which each comment of one line is at the end of the line below it, if there is
    room."""
    out = []
    for line in lines:
        above = out[-1].strip() if out else ""
        is_alone = above.startswith("-- ") and (
            len(out) < 2 or not out[-2].strip().startswith("--")
        )
        if is_alone and not line.strip().startswith("--") and len(line) + len(above) + 1 <= WIDTH:
            out[-1] = line + " " + above
        else:
            out.append(line)
    return out


def count(definitions):
    return sum(1 if is_number(d) else believed(d.lines) for d in definitions)


# ---- examples


def sentences():
    out = {}
    for block in re.split(r"^## ", read(EXAMPLES), flags=re.M)[1:]:
        names, _, text = block.partition("\n")
        for name in names.split(","):
            out[name.strip()] = " ".join(text.split())
    return out


# definitions whose names can't be a clause's
OPERATORS = {
    "sum": "◌+ℚ◌",
    "product": "◌*ℚ◌",
    "order": "◌≤ℚ◌",
    "zero": "zero_ℚ",
    "neg": "neg_ℚ",
    "lowest": "IsLowest",
}


def worked():
    """The examples that are proved, by the definition that they are of."""
    out = {}
    for path in files_of("vipr_worked", "src", ".rt"):
        own = OWN + "." if path.stem == OWN.lower() else ""
        for _, _, _, clauses, _, _ in functions(path):
            for name, text in [
                (own + name.removesuffix("_is"), text)
                for _, name, text in clauses
                if name.endswith("_is")
            ]:
                out[OPERATORS.get(name, name)] = " ".join(text[1:-1].split())
    return out


# the module whose words are its own, so that some of them are those of other definitions, too
OWN = "Short"


class Examples:
    """What is said of each definition: its example that is proved, and its sentence. Knows which
    were used, and which definitions have none."""

    def __init__(self):
        self.said, self.used, self.without = sentences(), set(), []
        for name, term in worked().items():
            self.said[name] = ("`%s`. %s" % (term, self.said.get(name, ""))).rstrip()

    def of(self, d):
        full_names = [f"{OWN}.{name}" for name in d.names] if d.module == OWN else d.names
        names = [name for name in full_names if name in self.said]
        if not names:
            self.without.append("%s (%s)" % (d.names[0], d.module))
            return None
        self.used |= set(names)
        return self.said[names[0]]

    def items(self, definitions):
        """The list after a section: each definition with its example, and those with the same one
        together."""
        out = []
        for d in definitions:
            example = None if is_number(d) else self.of(d)
            if example is None:
                continue
            name = "`%s`" % d.names[0].replace("◌", "")
            if out and out[-1][1] == example:
                out[-1][0].append(name)
            else:
                out.append(([name], example))
        items = []
        for names, example in out:
            words = "%s: %s" % (", ".join(names), example)
            if items and len(items[-1]) + len(words) < ITEM:
                items[-1] += " " + words
            else:
                items.append("- " + words)
        return items

    def unused(self):
        return sorted(set(self.said) - self.used)


# ---- what is quoted of the code


def item(path, head):
    """An item of a source file from its head on, without attributes and documentation: a type with
    its body, a call up to its body."""
    text = read(CRATES / path)
    m = re.search(r"^%s(?:.|\n)*?^\}$" % head, text, re.M)
    lines = m[0].split("\n")
    if not re.match(r"pub (?:enum|struct|trait)", lines[0]):
        lines = lines[: next(i for i, l in enumerate(lines) if l == "{")]
    return [l for l in lines if not re.match(r"\s*(?:///|#\[)", l) and l.strip()]


def call(part):
    """The call of a part with its clauses that the part is about."""
    head, *clauses = re.split(
        r"^(?=    ensures )", "\n".join(item(IN_MEMORY, r"pub fn %s\(" % part["call"])), flags=re.M
    )
    shown = [c for c in clauses if re.match(r"    ensures (?:%s) " % "|".join(part["shown"]), c)]
    return "".join([head] + shown).rstrip("\n").split("\n")


def law(function):
    """The clauses of a law, but for those that aren't needed."""
    m = re.search(
        r"^pub fn %s\(\)\n((?:.|\n)*?)^\{\}$" % function, read(CRATES / LAWS[function][1]), re.M
    )
    clauses = re.split(r"^(?=    ensures )", m[1], flags=re.M)[1:]
    needed = [c for c in clauses if not re.match(r"    ensures (?:%s) " % "|".join(NEEDLESS), c)]
    return ["pub fn %s()" % function] + [
        line for c in needed for line in c.rstrip("\n").split("\n")
    ]


def line_of(path, start):
    return next(l for l in read(CRATES / path).split("\n") if l.strip().startswith(start))


def fenced(lines):
    return "```text\n%s\n```\n" % "\n".join(lines)


def the_call(files, examples):
    """What is quoted of the code before the parts, and the definitions that it quotes."""
    source, home, reads = (
        "vipr_bytes/src/source.rt",
        files[("vipr_check", "Checks")].own,
        files[("vipr_bytes", "Reads")].own,
    )
    verdict = "vipr_check/src/verdict.rt"
    code = item("vipr_check/src/checks.rt", r"pub fn check<")
    code += [l for head in ("enum Verdict", "enum Fault") for l in item(verdict, r"pub %s " % head)]
    record = home["ChecksIn"].lines[:2] + ["  -- the clauses below"] + quoted(home["Checks"])
    slices = [
        "impl<'a> Bytes<'a> {",
        line_of(source, "pub fn new(bytes: &'a [u8])"),
        line_of(source, "ensures { result ≡ bytes.now }"),
        "}",
        "impl Source for Bytes<'_> {",
        line_of(source, "ghost input = { λ bytes."),
        "}",
    ]
    out = [
        "**The call and its source.** "
        "The contract of `check` is the record `ChecksIn` for profile one; that of `check_in` is the record for the "
        "profile that is passed in.\n",
        fenced(code + record),
        "The input `R.input source` is what the source says about its reads. A slice in memory is the source "
        "`Bytes`: its input has the bytes of the slice, and no failure. Each read keeps the promise `ReadsBytes`.\n",
        fenced(
            item(source, r"pub trait Source ")
            + slices
            + quoted(reads["after"])
            + quoted(reads["ReadsBytes"])
        ),
    ]
    definitions = [home["ChecksIn"], home["Checks"], reads["after"], reads["ReadsBytes"]]
    return out + ["\n".join(examples.items(definitions)) + "\n"], definitions


def topic_of(module, number):
    title = next((title for title, modules in TOPICS if module in modules), module)
    return JOINED.get((number, title), title)


def sections(number, definitions, examples, laws):
    """A section for each topic: the laws that stand for definitions, one block of definitions, and
    their examples."""
    out = []
    order = [title for title, _ in TOPICS]
    titles = sorted(
        {topic_of(d.module, number) for d in definitions}
        | {LAWS[function][0] for function in laws},
        key=order.index,
    )
    for k, title in enumerate(titles, 1):
        paths = dict.fromkeys(
            "`%s`" % str(d.path.relative_to(CRATES)).replace("/specs", "")
            for d in definitions
            if topic_of(d.module, number) == title
        )
        out.append(
            "### %s.%d %s\n" % (number, k, title + (" (%s)" % ", ".join(paths) if paths else ""))
        )
        if (number, title) in NOTES:
            out.append(NOTES[(number, title)] + "\n")
        for function in laws:
            topic, _, said, _ = LAWS[function]
            if topic == title:
                out += [said + "\n", fenced(law(function))]
        here = [d for d in definitions if topic_of(d.module, number) == title]
        if here:
            lines = [line for d in here if not is_number(d) for line in quoted(d)]
            numbers = "; ".join(d.lines[1] for d in here if is_number(d))
            lines += (
                ["-- each is a number, of the type ℕ"] + textwrap.wrap(numbers, WIDTH)
                if numbers
                else []
            )
            items = examples.items(here)
            out += [
                fenced(lines),
                "\n".join(items) + "\n"
                if items
                else "The table in [FORMAT.md](FORMAT.md#5-causes) says when each comes.\n",
            ]
    return out


def start_of(files, home, fields, part):
    """The lines of a part's clauses, and the definitions that they cite."""
    if "call" in part:
        return [[line for line in call(part) if line.startswith("    ensures ")]], named(
            files, part["core"]
        )
    clauses = [fields[name] for name in part["clauses"]]
    return clauses, [d for lines in clauses for d in cited(files, home, lines)]


def alone(files, home, fields, number):
    """The lines to believe for a part by itself, for profile one: the clauses that imply its
    others, the definitions that they rest on, and the laws that stand for some."""
    part, last = PARTS[number - 1], number == len(PARTS)
    hidden, instead = part["hidden"] | (INSTEAD["hidden"] if last else set()), part["instead"] + (
        INSTEAD["instead"] if last else []
    )
    clauses, start = start_of(
        files, home, fields, part if "call" in part else {"clauses": part["core"]}
    )
    found = closure(files, start + named(files, instead), hidden, set())
    needed = {word for definition in found for word in definition.words()}
    needed |= {word for definition in start for word in definition.names}
    laws = [
        law(function)
        for function, (_, _, _, stands_for) in LAWS.items()
        if stands_for & needed and stands_for & hidden
    ]
    shown = [split(definition)[0] for definition in found]
    return count(shown) + sum(map(believed, clauses + laws))


def tightening(files, examples):
    """The part about tightening."""
    home = files[("vipr_tighten", "Tightens")]
    shown = [
        file.own[name]
        for name in TIGHTENING["quoted"]
        for file in (files[("vipr_spec", "Certificate")], files[("vipr_spec", "Tightened")], home)
        if name in file.own
    ]
    clause = record_fields(home.own["TightensAs"].lines)[TIGHTENING["clause"]]
    lines = count(shown) + believed(clause)
    title = "%d. What `tighten` writes" % (len(PARTS) + 1)
    row = "| [%s](#%s) | `%s` of `tighten_as` | %d | %d | - | - |" % (
        title,
        anchor(title),
        TIGHTENING["clause"],
        len(shown),
        lines,
    )
    return row, [
        "## %s\n" % title,
        TIGHTENING["what"] + "\n",
        fenced(clause + [line for d in shown for line in quoted(d)]),
        "\n".join(examples.items(shown + named(files, TIGHTENING["computed"]))) + "\n",
        "**What you know now.** %s\n" % TIGHTENING["known"],
    ]


def page():
    """The page, its faults, and what has no example or no definition."""
    files, examples, faults = load(), Examples(), []
    home = files[("vipr_check", "Checks")]
    fields = record_fields(home.own["ChecksIn"].lines)
    source, of_source = the_call(files, examples)
    missing = set(fields) ^ {name for part in PARTS for name in part.get("clauses", [])}
    faults += [
        "docs/STATEMENT.md: the clause %s of ChecksIn is in no part" % name
        for name in sorted(missing)
    ]
    known, body, rows, up_to, later = set(of_source), [], [], 0, []
    for number, part in enumerate(PARTS, 1):
        clauses, start = start_of(files, home, fields, part)
        new = closure(files, start + named(files, part["instead"]), part["hidden"], known)
        known |= set(new)
        quoted_laws = [law(function) for function in part["laws"]]
        halves = [split(d) for d in new]
        shown = [one for one, _ in halves]
        later += [two for _, two in halves if two]
        if "clauses" in part:
            shown = sorted(shown + later, key=lambda d: d.order)
        lines = count(shown) + sum(believed(lines) for lines in clauses + quoted_laws)
        up_to += lines
        by_itself = alone(files, home, fields, number)
        if by_itself > part["most"]:
            faults.append(
                "docs/STATEMENT.md: part %d has %d lines to believe, more than %d"
                % (number, by_itself, part["most"])
            )
        title = "%d. %s" % (number, part["title"])
        named_clauses = ", ".join("`%s`" % name for name in part.get("clauses", part.get("shown")))
        of_call = "%s of `%s`" % (named_clauses, part.get("call", "check"))
        rows.append(
            "| [%s](#%s) | %s | %d | %d | %d | %d |"
            % (title, anchor(title), of_call, len(new), lines, up_to, by_itself)
        )
        body += ["## %s\n" % title, part["what"] + "\n"]
        if "call" in part:
            body.append(fenced(call(part)))
        else:
            body += [*source, fenced([line for lines in clauses for line in lines])]
        body += sections(number, shown, examples, part["laws"])
        body.append("**What you know now.** %s\n" % part["known"])
    row, last = tightening(files, examples)
    rows.append(row)
    body += last
    rest = closure(files, named(files, APPENDIX), set(), known)
    body += [APPENDIX_HEAD] + sections("A", rest, examples, [])
    body += [
        "### A.%d Laws by which definitions say the same\n"
        % (1 + len(dict.fromkeys(topic_of(d.module, "A") for d in rest)))
    ]
    body.append(
        "Each is the contract of a function without code, proved for all values: [PROOF.md](PROOF.md#laws-about-the-definitions) says what the laws are for.\n"
    )
    body.append(
        "| Law | File | What it says |\n|---|---|---|\n"
        + "\n".join(
            "| `%s` | `%s` | %s |" % (function, path, said) for said, path, function in SAME
        )
        + "\n"
    )
    for _, path, function in SAME:
        if not re.search(r"^pub fn %s\(\)$" % function, read(CRATES / path), re.M):
            faults.append("docs/STATEMENT.md: there is no law %s in %s" % (function, path))
    table = [
        "| Part | Clauses | Definitions | Lines | Up to here | By itself |\n|---|---|---|---|---|---|"
    ] + rows
    text = "\n".join([HEAD] + table + [COUNTED] + body).rstrip("\n") + "\n"
    if text.count("\n") > MOST_LINES:
        faults.append(
            "docs/STATEMENT.md has %d lines, more than %d" % (text.count("\n"), MOST_LINES)
        )
    return text, faults, examples


def anchor(heading):
    return re.sub(r"[^\w -]", "", heading.lower()).replace(" ", "-")


def made():
    """The page, by its path."""
    return {TARGET: page()[0]}


def faults():
    """What is wrong with the page: a part with too many lines to believe, a law that is gone, a
    definition without an example."""
    _, found, examples = page()
    return found + [f"no example: {definition}" for definition in examples.without]


def main():
    examples = page()[2]
    print(
        "\n".join(
            ["no example: " + w for w in examples.without]
            + ["no definition: " + u for u in examples.unused()]
        )
    )


if __name__ == "__main__":
    main()
