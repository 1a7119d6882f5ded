#!/usr/bin/env python3
"""Makes pages of proofs by vipr-html, and looks at them in a browser.

usage: tests/browser.py

Of each example the page's data are those of the certificate, read once more: names, constraints,
what each names and what names it, and what the goal needs. A page loads nothing, and names with
markup stay names. In Chromium and Firefox, without a window, if they are there: a row for each
constraint, folding, the search, links and the way back, a refused certificate with its refusal and
links in it (if the library for C is built here), names that would run a script, and a proof of
100,000 derivations, of which only the rows that are seen are in the page's tree.

Prints each fault, and last `browser: N checks, F failed`; the exit status is 1 if one failed.
"""
import http.server
import io
import json
import os
import re
import shutil
import signal
import subprocess
import sys
import tempfile
from pathlib import Path

from texts import TOP, Checks, examples, text_of
import families

sys.path[:0] = [str(TOP / "python"), str(TOP / "examples/python")]
import knapsack  # noqa: E402
import vipr  # noqa: E402
from vipr import html, proof as structure  # noqa: E402
from vipr.files import printable  # noqa: E402
from vipr.html import Page, verdict_of  # noqa: E402
from vipr.picture import Picture  # noqa: E402

CHECKS = Checks("browser")
check = CHECKS.check
NAMES = {
    "Chromium": ("chromium", "chromium-browser", "google-chrome"),
    "Firefox": ("firefox-esr", "firefox"),
}
FOUND = {name: next(filter(None, map(shutil.which, names)), None) for name, names in NAMES.items()}
BROWSERS = {name: program for name, program in FOUND.items() if program}
WORDS = {
    "Chromium": [
        "--headless",
        "--no-sandbox",
        "--disable-gpu",
        "--user-data-dir=ROOM/user",
        "--window-size=1000,700",
        "--dump-dom",
    ],
    "Firefox": [
        "--headless",
        "--no-remote",
        "--profile",
        "ROOM",
        "--window-size=1000,700",
        "--screenshot",
        "ROOM/page.png",
    ],
}
SECONDS = 120
MARKUP = [
    '</script><script>document.title="run"</script>',
    '<img/src=x/onerror=document.title="run">',
    "&lt;b&gt;",
    "\"'`${1}",
    "]]>--!>",
]
# what is done in the page, and what it has to answer
USE = """
<script>
const seen = [], say = what => seen.push(what), texts = () => [...document.querySelectorAll('.row')].map(row => row.textContent);
const key = name => list.dispatchEvent(new KeyboardEvent('keydown', {key: name, bubbles: true}));
const look = words => { element('find').value = words; element('find').dispatchEvent(new Event('input')); };
say(document.title); say(count); say(texts().length); say(chosen); say(element('detail').textContent);
say(document.querySelectorAll('script[src], link, img, iframe').length);
USES
const post = new XMLHttpRequest();
post.open('POST', 'http://127.0.0.1:PORT', false);
try { post.send(JSON.stringify(seen)); } catch (fault) { }  // (the answer is not for a page that is a file)
</script></html>"""


def made(text, name="proof.vipr"):
    """The page of a certificate."""
    return "".join(Page(vipr.read(text)).html(name, *verdict_of(text, name, 1)))


def data_of(page):
    return json.loads(
        re.search(r'<script type="application/json" id="data">(.*?)</script>', page, re.S)[1]
    )


# what a page says of its constraints
TOLD = """lines.map((_, index) => ({name: nameOf(index), text: textOf(index), named: named[index], needed: isNeeded(index),
  users: users[index] || [], reason: index < first ? '' : reasonOf(index),
  rests: index < first ? [] : assumptions(rests[index - first]), size: index < first ? 0 : sizes[rests[index - first]]}))"""
# what each button for levels folds
LEVELS = 1, 3, 6, 10**9
FOLDED = (
    f"{[*LEVELS]}.map(levels => {{ foldTo(levels); return [...folded].sort((a, b) => a - b); }})"
)


def told(page):
    """What a page's script says of each constraint, its rows, and what its buttons fold: in node,
    if it is here, and else in a browser."""
    if shutil.which("node"):
        script = re.findall(r"<script>(.*?)</script>", page, re.S)[0].partition(
            "\nfunction choose("
        )[0]
        stub = f'const document = {{getElementById: id => id === "data" ? {{textContent: {json.dumps(json.dumps(data_of(page)))}}} : {{}}}};'
        done = subprocess.run(
            ["node", "-"],
            input=f"{stub}{script}\nconsole.log(JSON.stringify([{TOLD}, order, {FOLDED}]));".replace(
                "'use strict';", ""
            ),
            stdout=subprocess.PIPE,
            text=True,
            check=False,
        )
        return json.loads(done.stdout) if done.returncode == 0 else ([], [], [])
    return next(browsed(page, f"say({TOLD}); say(order); say({FOLDED});"), [[], [], []])[-3:]


def parent_of(row, rows):
    """The index of the constraint in whose row a row of the proof is folded, None at the
    outside."""
    return rows[row["parent"]]["index"] if row["parent"] >= 0 else None


def says_what_is_there(path, text):
    """What a page says against the certificate."""
    proof = vipr.read(text)
    page, first = made(text), len(proof.problem.constraints)
    data, (items, rows, folded) = data_of(page), told(page)
    sets = [structure.indices(assumed) for assumed in structure.assumptions(proof)]
    found = structure.outline(proof)
    check(
        (data["first"], data["goal"], len(items))
        == (first, found.goal, first + len(proof.derivations)),
        f"{path}: another goal",
    )
    users = {}
    picture = Picture(proof, found)
    for index, item in enumerate(items):
        own = proof.constraint(index)
        check(
            (item["name"], item["text"], item["needed"])
            == (
                printable(own.name),
                picture.text(own),
                found.goal is None or bool(found.needed[index]),
            ),
            f"{path}: {index} is {item}, and not {picture.text(own)}",
        )
        if index >= first:
            names = structure.named(proof, index)
            for other in names:
                users.setdefault(other, []).append(index)
            check(
                (item["named"], item["rests"], item["size"])
                == (names, sets[index - first][:200], len(sets[index - first])),
                f"{path}: {index} is {item}",
            )
            check(
                item["reason"] == picture.reason(index),
                f"{path}: {index} is {item}, and not {picture.reason(index)}",
            )
    check(
        all(item["users"] == users.get(index, []) for index, item in enumerate(items)),
        f"{path}: other users",
    )
    tree = picture.tree(True)
    check(
        [parent_of(row, rows) for row in rows]
        == [
            first + parent if parent >= 0 else None
            for parent in (tree.parents[row["index"] - first] for row in rows)
        ],
        f"{path}: another tree",
    )
    check(
        sorted(row["index"] for row in rows) == list(range(first, len(items))),
        f"{path}: a derivation has no row, or two",
    )
    levels = {}
    for row in rows:
        parent = parent_of(row, rows)
        is_branch = parent is not None and picture.reasons[parent - first] == "uns"
        levels[row["index"]] = levels.get(parent, 0) + is_branch
    splits = {row["index"] for row in rows if row["below"]} & {
        first + at for at, reason in enumerate(picture.reasons) if reason == "uns"
    }
    check(
        folded == [sorted(index for index in splits if levels[index] >= most) for most in LEVELS],
        f"{path}: the buttons for levels fold {folded}",
    )
    check(
        [line.partition(":")[0] for line in data["solutions"][: html.MOST_SOLUTIONS]]
        == [printable(solution.name) for solution in proof.solutions[: html.MOST_SOLUTIONS]],
        f"{path}: the solutions are {data['solutions']}",
    )
    for at, row in enumerate(rows):
        end = at + 1 + row["below"]
        below, behind = rows[at + 1 : end], rows[end : end + 1]
        check(
            all(other["parent"] >= at for other in below)
            and all(other["parent"] < at for other in behind),
            f"{path}: what is below row {at}",
        )


class Answers(http.server.BaseHTTPRequestHandler):
    """Takes what a page posts."""

    def do_POST(self):
        self.server.got.append(json.loads(self.rfile.read(int(self.headers["Content-Length"]))))
        self.send_response(200)
        self.end_headers()

    def log_message(self, *_):
        pass


def browsed(page, uses):
    """What a page answers, in each browser that is here, to what is done there. It is opened as a
    file, and posts its answers."""
    for name, program in BROWSERS.items():
        with tempfile.TemporaryDirectory(
            prefix="vipr-browser-", ignore_cleanup_errors=True
        ) as room, http.server.HTTPServer(("127.0.0.1", 0), Answers) as server:
            server.got, server.timeout = [], SECONDS
            file = Path(room, "page.html")
            use = USE.replace("USES", uses).replace("PORT", str(server.server_port))
            # (the page's own policy lets it ask for nothing)
            open_page = page.replace("default-src 'none'", "default-src 'none'; connect-src http:")
            file.write_text(open_page.replace("</html>", use), encoding="utf-8")
            words = [program, *(word.replace("ROOM", room) for word in WORDS[name]), file.as_uri()]
            with subprocess.Popen(
                words,
                stdin=subprocess.DEVNULL,
                stdout=subprocess.DEVNULL,
                stderr=subprocess.DEVNULL,
                start_new_session=True,
                env={**os.environ, "HOME": room},
            ) as browser:
                server.handle_request()
                os.killpg(browser.pid, signal.SIGKILL)
        yield [*server.got, [f"no answer of {name}"] * 20][0]


def small():
    """Folding, the search, links and the way back in a proof of two branches."""
    text = (TOP / "examples/branch_and_bound.vipr").read_bytes()
    for got in browsed(
        made(text),
        """
fold(6, true); say(texts().length); key('ArrowRight'); say(texts().length);
document.querySelector('#detail a').click(); say(chosen); key('Backspace'); say(chosen);
key('Home'); say(chosen); key('End'); say(chosen); choose(6); key('Enter'); say(chosen);
look('leaf_up'); say(texts()); look('nothing of the kind'); say(texts()); look('');
element('flat').click(); say(texts().map(it => it.slice(0, 3)).join(''));""",
    ):
        check(
            got[1:4] == [7, 7, 6] and "uns  [4] if [2], [5] if [3]" in got[4] and got[5] == 0, got
        )
        check(got[6:12] == [3, 7, 4, 6, 0, 3] and got[12] == 4, got)
        check(
            len(got[13]) == 1
            and "leaf_up" in got[13][0]
            and got[14] == []
            and got[15] == "[0][1][2][3][4][5][6]",
            got,
        )


def hostile():
    """Names that would run a script, or end the data."""
    file = io.BytesIO()
    with vipr.Writer(file, dict.fromkeys(MARKUP, 1)) as proof:
        for name in MARKUP:
            proof.constraint("G", 1, {name: 1}, name)
        proof.lin("G", 1, {MARKUP[0]: 1}, {0: 1}, MARKUP[1])
        proof.claim(None, None)
    page = made(file.getvalue(), MARKUP[0])
    check(page.count("<script") == 2 and page.count("</script") == 2, "a name adds a script")
    for got in browsed(
        page, "element('all').click(); say(lines.map((_, index) => nameOf(index)));"
    ):
        check(MARKUP[0] in got[0] and got[-1] == [*MARKUP, MARKUP[1]] and got[5] == 0, got)


def large():
    """A proof of 100,000 derivations."""
    file = io.BytesIO()
    names = [f"x{index}" for index in range(16)]
    with vipr.Writer(file, dict.fromkeys(names, 1), integers=names) as proof:
        low = [proof.constraint("G", 0, {name: 1}) for name in names]
        sum_ = proof.lin("G", 0, vipr.OBJECTIVE, {index: 1 for index in low})

        def node(depth):
            if depth < 0:
                return proof.lin("G", 0, vipr.OBJECTIVE, {sum_: 1})
            branches = []
            for sense, bound in (("L", 0), ("G", 1)):
                at = proof.asm(sense, bound, {names[depth]: 1})
                branches += [node(depth - 1), at]
            return proof.uns("G", 0, vipr.OBJECTIVE, *branches)

        for _ in range(7):
            node(11)
        proof.claim(0, None)
    for got in browsed(
        made(file.getvalue()),
        "element('all').click(); choose(100000); say(texts().length); say(chosen);"
        "say(document.querySelectorAll('*').length < 500); look('[777]'); say(texts().length);",
    ):
        check(
            got[1] > 100000
            and 0 < got[2] < 100
            and 0 < got[6] < 100
            and got[7:] == [100000, True, 1],
            got,
        )


def refused():
    """A certificate that is refused has its refusal above, with links."""
    text = (TOP / "examples/false_claims/sense.vipr").read_bytes()
    page = made(text)
    check(
        "refused 38 at DER 2" in page and "does not follow from its reason" in page,
        "the refusal is missing",
    )
    for got in browsed(
        page,
        "say(document.querySelectorAll('#page a').length > 0); say(document.querySelector('.fault').textContent);",
    ):
        check(got[3] == 2 and got[6] is True and got[7].startswith("[2]"), got)


def main():
    odd = b"VER 1.0 VAR 2 x y INT 1 0 OBJ max 2 0 +6/4 1 -007 CON 2 0 { L 4/6 2 1 -03 0 0/5 OBJ L 7/1 2 0 -1 1 +1 RTP range -inf inf SOL 2 "
    odd += b"s 0 7 1 1 -1/2 DER 3 a G 0 OBJ { asm } 5 } G +0 0 { lin 3 0 0 02 -2/4 2 1/1 } -1 u E 3 1 1 1 { uns 3 2 3 2 } -1"
    says_what_is_there("odd numbers and names", odd)
    for family in families.growing, families.joined_sets, families.tree:
        says_what_is_there(family.__name__, text_of(family, 30_000))
    for path, text in examples(20000):
        if isinstance(vipr.read(text), vipr.Certificate):
            says_what_is_there(path, text)
    file = io.BytesIO()
    knapsack.solve(file, [9, 8, 7, 6], [5, 4, 3, 2], 8)
    says_what_is_there("a knapsack", file.getvalue())
    library = next((TOP / "crates/vipr_c/out").glob("libvipr.so.*"), None)
    if library:
        os.environ["VIPR_LIBRARY"] = str(library)
        refused()
    else:
        print("browser: no library is built here, so no refused certificate was tried")
    hostile()
    if BROWSERS:
        small()
        large()
    for name in NAMES:
        if name not in BROWSERS:
            CHECKS.skip(name, "no page was looked at in it")
    return CHECKS.end()


if __name__ == "__main__":
    sys.exit(main())
