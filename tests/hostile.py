#!/usr/bin/env python3
"""Hostile use of the built program: each growth, read and write refused in turn, and texts at the
limits.

usage: tests/hostile.py [PROGRAM]     crates/vipr/out/vipr without it

Each command that the program has is run over the examples. What a run may answer then:
- where a growth is refused, `fault memory` with status 3 and nothing on the output, or what the run
  without it answers;
- where a read fails, `fault read`, or that answer where it was decided before; and no read follows
  the failed one;
- where a write fails, `fault write after N` with exactly the first N bytes on the output; and no
  write follows;
- the same of OUT, for which each byte is written once: one that is new isn't there then, and any
  other is what it was;
- with any of the three streams closed, past a limit on the length of files, and where a stream doesn't wait, the same.
Beginnings of the examples, whole and a byte at a time, are answered as the plain model under bench/ does it; texts at
the format's limits have the answer that the rules give, within a small limit of memory. Each family of bench/families.py
has the plain model's answer, and a text of four times the size asks for at most five times the bytes, all that is asked
for in a run counted. A solution or a derivation that is refused may have a long name.

The library of refused calls, tests/refuse.c, begins the program once for many runs: each run is a
process of its own from the place on where the program's code begins.

Prints each run that answers something else, and last `hostile: N runs, F failed, S seconds of
processor time`. Without a C compiler the runs with refused calls are left out, and a line says so.
The exit status is 1 where a run failed.
"""
import fcntl
import hashlib
import itertools
import os
import resource
import shutil
import signal
import struct
import subprocess
import sys
import tempfile
import threading
from concurrent.futures import ThreadPoolExecutor
from pathlib import Path

from texts import TOP, Checks, program, run, spent, text_of
import families
from plain_check import verdict
from run import cases

PROGRAM = program(sys.argv[1:])
MEMORY = b"", b"fault memory\n", 3
READ = b"", b"fault read\n", 3
ROOM = 64 << 20
STACK, LONG_STACK = 64 << 10, 96 << 10
# families whose sets of assumptions the rules ask for, each anew
GROWS = {"growing"}
CHECKS = Checks("hostile", "runs")
expect = CHECKS.expect


class Answer(tuple):
    """What is on the output, what on standard error, and the status; with the calls that were
    counted."""

    calls = (0, 0, 0, 0, 0, 0)


class Server:
    """The program with the library of refused calls, begun once, which runs as often as it is
    asked."""

    PLAN = (
        "REFUSE_GROWTH",
        "FAIL_READ",
        "INTERRUPT_READ",
        "READ_AT_MOST",
        "FAIL_WRITE",
        "INTERRUPT_WRITE",
        "NO_WRITE",
        "WRITE_AT_MOST",
    )

    def __init__(self, words):
        self.words, self.text = words, b""
        self.files = [os.memfd_create(name) for name in ("input", "output", "error")]
        environment = {
            "PATH": "/usr/bin:/bin",
            "LD_PRELOAD": LIBRARY,
            "SERVE": ",".join(map(str, self.files)),
        }
        self.process = subprocess.Popen(
            [PROGRAM, *words],
            stdin=subprocess.PIPE,
            stdout=subprocess.PIPE,
            bufsize=0,
            env=environment,
            pass_fds=self.files,
        )

    def answer(self, text, settings):
        """What a run of the program answers that is given the text and the library's settings."""
        if text != self.text:
            os.ftruncate(self.files[0], 0)
            os.pwrite(self.files[0], text, 0)
            self.text = text
        self.process.stdin.write(struct.pack("8q", *(settings.get(name, 0) for name in self.PLAN)))
        status, *calls = struct.unpack("7q", self.process.stdout.read(7 * 8))
        out = Answer(
            (
                *(os.pread(file, os.fstat(file).st_size, 0) for file in self.files[1:]),
                os.waitstatus_to_exitcode(status),
            )
        )
        out.calls = tuple(calls)
        return out

    def end(self):
        self.process.stdin.close()
        self.process.stdout.close()
        self.process.wait()
        for file in self.files:
            os.close(file)


class Servers:
    """Servers that wait for their next run."""

    MOST = 32

    def __init__(self):
        self.waiting, self.lock = [], threading.Lock()

    def take(self, words):
        """A server of these words that no other thread has."""
        with self.lock:
            found = next((run for run in self.waiting if run.words == words), None)
            if found:
                self.waiting.remove(found)
        return found or Server(words)

    def put(self, server):
        """Lets others have the server; the one that waits longest ends where there are too many."""
        with self.lock:
            self.waiting.append(server)
            last = self.waiting.pop(0) if len(self.waiting) > self.MOST else None
        if last:
            last.end()

    def end(self):
        while self.waiting:
            self.waiting.pop().end()


SERVERS = Servers()


def answer(words, text=b"", settings=None, room=None):
    """Runs the program, with the library of refused calls where there are settings."""
    CHECKS.count += 1
    if settings is not None:
        server = SERVERS.take(words)
        out = server.answer(text, settings)
        SERVERS.put(server)
        return out

    def limit():
        resource.setrlimit(resource.RLIMIT_AS, (room, room))

    env = {"PATH": "/usr/bin:/bin"}
    return Answer(run([PROGRAM, *words], text, env=env, preexec_fn=limit if room else None))


def each(action, items):
    with ThreadPoolExecutor(os.cpu_count()) as pool:
        for _ in pool.map(action, items):
            pass


# ---- refused calls


def growths_refused(name, words, text, output=None, others=()):
    """The nth growth refused, for each n up to a run that meets none. Others are answers that there
    may be then, too."""
    whole = answer(words, text, {})

    def one(n):
        if output:
            output(n)
        expect(
            f"{name} with growth {n} refused",
            answer(words, text, {"REFUSE_GROWTH": n}),
            MEMORY,
            whole,
            *others,
        )

    each(one, range(1, whole.calls[0] + 2))


def reads_fail(name, words, text, last=0):
    """The nth read of one byte fails, for each n; the answer changes once, where the text decides
    it."""
    whole = answer(words, text, {"READ_AT_MOST": 1})
    expect(f"{name} a byte at a time", whole, answer(words, text))
    enough = whole.calls[1]

    def one(n):
        for how in ("FAIL_READ", "INTERRUPT_READ"):
            got = answer(words, text, {"READ_AT_MOST": 1, how: n})
            what = f"{name} with {how} {n}"
            expect(what, got, READ if n <= enough else whole)
            expect(f"{what}, reads and those after it", got.calls[1:4:2], (min(n, enough), 0))

    each(one, range(1, max(enough, last) + 3))
    return whole


def writes_fail(name, words, text):
    """The nth write of one byte fails, or takes nothing, for each n."""
    whole = answer(words, text, {"WRITE_AT_MOST": 1})
    expect(f"{name} written a byte at a time", whole, answer(words, text))
    length = len(whole[0])

    def one(n):
        for how in ("FAIL_WRITE", "NO_WRITE", "INTERRUPT_WRITE"):
            got = answer(words, text, {"WRITE_AT_MOST": 1, how: n})
            what = f"{name} with {how} {n}"
            failed = whole[0][: n - 1], b"fault write after %d\n" % (n - 1), 3
            expect(what, got, failed if n <= length else whole)
            expect(f"{what}, writes and those after it", got.calls[2:5:2], (min(n, length), 0))

    each(one, range(1, length + 2))
    return whole


def known_texts():
    """Texts whose answers are known, and how many reads of a byte decide them: each read fails, and
    each write."""
    proof, loose, tight = (
        (TOP / f"examples/{name}.vipr").read_bytes()
        for name in ("infeasible", "cutoff_loose", "cutoff_tight")
    )
    misspelled, refused = b"VER 1.0\nVAX 1\nx\nINT 0\n", b"refused 2 at byte 8\n"
    verified, kept = (
        b"verified infeas\nsolutions 0 derived 1 peak 1\n",
        b"kept 1 removed 1 peak 2 1\n",
    )
    summed = b"sha256 %s\n" % hashlib.sha256(proof).hexdigest().encode()
    for command, text, enough, wanted in [
        ("check", proof, 118, (verified, b"", 0)),
        ("check", misspelled, 12, (refused, b"", 1)),
        ("check --sum", proof, 118, (verified + summed, b"", 0)),
        ("show", proof, 118, (proof, b"", 0)),
        ("show", misspelled, 12, (b"", refused, 1)),
        ("tighten", loose, 151, (tight, kept, 0)),
        ("tighten", misspelled, 12, (b"", refused, 1)),
    ]:
        whole = reads_fail(f"{command} of {text[8:40]!r}", command.split(), text, len(text))
        expect(
            f"{command} of {text[8:40]!r}, and its reads",
            (*whole, whole.calls[1]),
            (*wanted, enough),
        )
    growths_refused("check --sum", ["check", "--sum"], proof)
    unread = answer(
        ["check", "--sum"], misspelled, {"READ_AT_MOST": 1, "FAIL_READ": len(misspelled)}
    )
    expect("check --sum, and a read fails behind what is refused", unread, (refused, b"", 1))
    for word, text, said in [
        ("check", proof, b""),
        ("show", proof, b""),
        ("tighten", loose, kept),
        ("--help", b"", b""),
    ]:
        expect(f"{word}, all of it written", writes_fail(word, [word], text)[1:], (said, 0))


def reads_of_a_byte(commands):
    """A text of over 200,000 bytes, a byte a read: as many reads as it has bytes, and one that
    gives none."""
    text = b"%" + b"c" * 200_000 + b"\n" + (TOP / "examples/infeasible.vipr").read_bytes()
    for command in commands:
        got = answer([command], text, {"READ_AT_MOST": 1})
        expect(f"{command} of a long text a byte at a time", got, answer([command], text))
        expect(f"{command} of a long text, its reads", got.calls[1:2], (len(text) + 1,))


def with_refused_calls(commands, examples):
    for words in ([], ["--help"], ["check", "--help"], ["check", "a", "b"], ["no-command"]):
        growths_refused("vipr " + " ".join(words), words, b"")
    for path, text in examples:
        for command in commands:
            growths_refused(f"{command} {path.name}", command.split(), text)
            growths_refused(f"{command} FILE {path.name}", [*command.split(), str(path)], b"")
    known_texts()
    for path, text in examples[::3]:
        for command in commands:
            reads_fail(f"{command} {path.name}", command.split(), text)
            writes_fail(f"{command} {path.name}", command.split(), text)


def at_length(examples):
    """`explain --long`: without memory for its page there are the lines of `explain` alone, and a
    line says that a read failed behind what is refused."""
    words = ["explain", "--long"]
    for path, text in examples:
        short = answer(["explain"], text)
        growths_refused(f"explain --long {path.name}", words, text, others=(short,))
        growths_refused(
            f"explain --long FILE {path.name}", [*words, str(path)], b"", others=(short,)
        )
    for path, text in examples[::3]:
        writes_fail(f"explain --long {path.name}", words, text)
        whole, short = answer(words, text, {"READ_AT_MOST": 1}), answer(["explain"], text)
        unread = (
            short[0] + b"\na read failed after what is refused, so it isn't explained\n",
            b"",
            short[2],
        )
        for n in range(1, len(text) + 3):
            got = answer(words, text, {"READ_AT_MOST": 1, "FAIL_READ": n})
            wanted = (READ, unread) if n <= len(text) + 1 else (whole,)
            expect(f"explain --long {path.name} with FAIL_READ {n}", got, *wanted)


# ---- OUT


def writes_to_out(path, text):
    """Each write of a byte to OUT fails, takes nothing or is interrupted: OUT is new, there before,
    or FILE itself."""
    printed, said, _ = answer(["tighten"], text)

    def one(task):
        n, how, kind = task
        folder = Path(tempfile.mkdtemp(dir=WORK))
        file = folder / "a.vipr"
        file.write_bytes(text)
        out = file if kind == "FILE" else folder / "out"
        if kind == "there":
            out.write_bytes(b"before")
        before = out.read_bytes() if out.exists() else None
        got = answer(["tighten", str(file), "--out", str(out)], b"", {"WRITE_AT_MOST": 1, how: n})
        fails = n <= len(printed)
        what = f"tighten {path.name} to OUT ({kind}) with {how} {n}"
        expect(
            what, got, (b"", b"fault write after %d\n" % (n - 1), 3) if fails else (b"", said, 0)
        )
        expect(f"{what}, writes and those after it", got.calls[2:5:2], (min(n, len(printed)), 0))
        expect(
            f"{what}: OUT",
            (out.read_bytes() if out.exists() else None,),
            (before if fails else printed,),
        )
        after = {"a.vipr", *(() if fails and kind == "new" else (out.name,))}
        expect(
            f"{what}: names", (sorted(path.name for path in folder.iterdir()),), (sorted(after),)
        )
        shutil.rmtree(folder)

    each(
        one,
        itertools.product(
            range(1, len(printed) + 2),
            ("FAIL_WRITE", "NO_WRITE", "INTERRUPT_WRITE"),
            ("new", "there", "FILE"),
        ),
    )


def short_writes_to_out(path, text):
    """OUT takes a few bytes a write: each byte once, by as few writes as there can be."""
    printed, said, _ = answer(["tighten"], text)
    for most, kind in itertools.product((1, 2, 7, 64, len(printed) - 1), ("new", "there")):
        out = Path(tempfile.mkdtemp(dir=WORK)) / "out"
        if kind == "there":
            out.write_bytes(b"x" * 3 * len(printed))
        got = answer(["tighten", "--out", str(out)], text, {"WRITE_AT_MOST": most})
        what = f"tighten {path.name} to OUT ({kind}) by writes of at most {most}"
        expect(what, got, (b"", said, 0))
        expect(f"{what}: their number", got.calls[2:3], (-(-len(printed) // most),))
        expect(f"{what}: OUT", (out.read_bytes(),), (printed,))


def out_is_kept(examples):
    """A refused text, a failed read and want of memory leave OUT as it was."""
    for path, text in examples[::2]:
        whole = answer(["tighten"], text, {})
        out = Path(tempfile.mkdtemp(dir=WORK)) / "out"
        for n in range(1, whole.calls[0] + 20):
            out.write_bytes(b"before")
            got = answer(["tighten", str(path), "--out", str(out)], b"", {"REFUSE_GROWTH": n})
            expect(
                f"tighten --out {path.name} with growth {n} refused", got, MEMORY, (b"", *whole[1:])
            )
            kept = b"before" if got[2] else whole[0]
            expect(f"OUT of {path.name} with growth {n} refused", (out.read_bytes(),), (kept,))


# ---- files and streams


def streams(commands):
    text = (TOP / "examples/infeasible.vipr").read_bytes()
    for command in commands:
        expect(f"{command} of a folder", answer([command, WORK]), READ)
        expect(f"{command} of a file that is not there", answer([command, WORK + "/missing"]), READ)
        for name, words in (("a full device", "> /dev/full"), ("a closed output", ">&-")):
            got = run(["sh", "-c", f'exec "$0" "$1" {words}', PROGRAM, command], text)
            expect(f"{command} to {name}", got[1:], (b"fault write after 0\n", 3))
        expect(
            f"{command} from a closed input",
            run(["sh", "-c", 'exec "$0" "$1" <&-', PROGRAM, command]),
            READ,
        )
        read, write = os.pipe()
        os.close(read)
        got = run([PROGRAM, command], text, stdout=write)
        os.close(write)
        expect(f"{command} to a broken pipe", got[1:], (b"fault write after 0\n", 3))
    if "tighten" in commands:
        expect(
            "OUT in a folder that is not there",
            answer(["tighten", "--out", WORK + "/missing/x"], text),
            (b"", b"fault write after 0\n", 3),
        )


def closed(*numbers):
    """What closes streams in a process that begins."""
    return lambda: [os.close(number) for number in numbers]


def streams_closed(commands):
    """Each set of the three streams is closed, and a text comes from a file or from standard
    input."""
    texts = [
        TOP / "examples/cutoff_loose.vipr",
        TOP / "examples/false_claims/gap.vipr",
        TOP / "examples/lenient.vipr",
    ]
    sets = [which for size in (1, 2, 3) for which in itertools.combinations((0, 1, 2), size)]
    for command, path, which, is_file in itertools.product(commands, texts, sets, (True, False)):
        CHECKS.count += 1
        words, text = command.split() + [str(path)] * is_file, path.read_bytes()
        printed, said, status = whole = answer(words, text)
        if 0 in which and not is_file:
            whole = READ
        elif 1 in which and printed:
            whole = b"", b"fault write after 0\n", 3
        out, err, code = whole
        wanted = b"" if 1 in which else out, b"" if 2 in which else err, code
        with tempfile.TemporaryFile() as file:
            file.write(text)
            file.seek(0)
            got = run([PROGRAM, *words], stdin=file, preexec_fn=closed(*which))
        expect(f'{" ".join(words)} with {which} closed', got, wanted)
        expect(f"{path} with {which} closed", (path.read_bytes(),), (text,))


def limit_of_files(command, most):
    """A limit on the length of files: the signal ends a run, or the write fails where the caller
    ignores it."""
    path = TOP / "examples/long_chain.vipr"
    printed = answer([command, str(path)])[0]
    for ignores in (False, True):
        CHECKS.count += 1

        def limit():
            signal.signal(signal.SIGXFSZ, signal.SIG_IGN if ignores else signal.SIG_DFL)
            resource.setrlimit(resource.RLIMIT_FSIZE, (most, most))

        with tempfile.TemporaryFile() as output:
            said = run([PROGRAM, command, path], stdout=output, preexec_fn=limit)
            output.seek(0)
            got = output.read(), *said[1:]
        wanted = printed[:most], b"", -signal.SIGXFSZ
        if ignores:
            wanted = printed[:most], b"fault write after %d\n" % most, 3
        expect(
            f'{command} in files of at most {most} bytes, {"ignored" if ignores else "by the signal"}',
            got,
            wanted,
        )


def streams_that_do_not_wait(commands):
    """An input without a byte, and an output without room, that give an error in place of
    waiting."""
    for command in commands:
        CHECKS.count += 1
        read, write = os.pipe2(os.O_NONBLOCK)
        got = run([PROGRAM, command], stdin=read)
        os.close(read), os.close(write)
        expect(f"{command} of an input that does not wait", got, READ)
    if "show" in commands:
        CHECKS.count += 1
        text = text_of(families.chain, 200_000)
        read, write = os.pipe2(os.O_NONBLOCK)
        room = fcntl.fcntl(write, fcntl.F_GETPIPE_SZ)
        said = run([PROGRAM, "show"], text, stdout=write)
        os.close(write)
        with open(read, "rb") as rest:
            printed = rest.read()
        expect(
            "show to an output that does not wait",
            (printed, *said[1:]),
            (answer(["show"], text)[0][:room], b"fault write after %d\n" % room, 3),
        )


def little_stack(commands):
    """Texts of each family in 64 kB of stack."""

    def one(task):
        CHECKS.count += 1
        family, command = task
        got = run(
            [PROGRAM, *command.split()],
            text_of(family, 20_000),
            preexec_fn=lambda: resource.setrlimit(resource.RLIMIT_STACK, (STACK, STACK)),
        )
        expect(f"{command} of {family.__name__} in {STACK} bytes of stack", got.returncode, 0)

    every = families.FAMILIES + families.HOSTILE + families.KEPT
    each(one, itertools.product(every, commands))
    text = (TOP / "examples/problems/set_cover.vipr").read_bytes()
    slips = {
        b"10 3 5 1 }": b"10 4 5 2 }",
        b"11 9 12 10": b"12 9 11 9",
        b"{ uns 11 9 12 10 }": b"{ lin 1 11 1 }",
    }
    for old, new in slips.items():
        got = run(
            [PROGRAM, "explain", "--long"],
            text.replace(old, new),
            preexec_fn=lambda: resource.setrlimit(resource.RLIMIT_STACK, (LONG_STACK,) * 2),
        )
        expect(f"explain --long with {new} in {LONG_STACK} bytes of stack", got.returncode, 1)


# ---- texts


def lines(verdict_text):
    return f"{verdict_text}\n".encode(), b"", 0 if verdict_text.startswith("verified") else 1


def beginnings(examples):
    """Every proper beginning, in one piece and a byte at a time."""
    for path, text in examples:

        def one(n):
            wanted = lines(verdict(text[:n]))
            expect(
                f"the first {n} bytes of {path.name}",
                answer(["check"], text[:n], {} if LIBRARY else None),
                wanted,
            )
            if LIBRARY:
                got = answer(["check"], text[:n], {"READ_AT_MOST": 1})
                expect(f"the first {n} bytes of {path.name}, a byte at a time", got, wanted)

        each(one, range(len(text)))


def limits():
    """Counts over an empty rest, and numbers, indices and tokens at and past their limits, in
    little memory."""

    def one(case):
        wanted = lines("\n".join(case.lines[: 1 + (case.verdict == "verified")]))
        expect(
            f"{case.rule}/{case.name} in little memory",
            answer(["check"], case.path.read_bytes(), room=ROOM),
            wanted,
        )

    each(
        one, [case for case in cases() if case.rule in ("text", "numbers", "problem", "references")]
    )


def what_is_asked_for():
    """A family's text of four times the size asks for at most five times the bytes."""

    def one(family):
        small, large = (
            "".join(f"{line}\n" for line in family(size)).encode() for size in (60_000, 240_000)
        )
        before, after = (answer(["check"], text, {}).calls[5] for text in (small, large))
        if after > 5 * before * len(large) / len(small) / 4:
            CHECKS.fail(
                f"{family.__name__}: {before} bytes asked for a text of {len(small)}, "
                f"{after} for one of {len(large)}"
            )

    each(
        one,
        [family for family in families.FAMILIES + families.HOSTILE if family.__name__ not in GROWS],
    )


def families_are_answered():
    """Each family's text, with sums over many assumptions among them, has the plain model's
    answer."""

    def one(family):
        text = "".join(f"{line}\n" for line in family(12_000)).encode()
        expect(f"check of {family.__name__}", answer(["check"], text), lines(verdict(text)))

    each(one, families.FAMILIES + families.HOSTILE + families.PRODUCTS + families.KEPT)


def names_at_a_refusal():
    """What is refused has a short name or a long one, and each growth is refused."""
    front = "VER 1.0\nVAR 1\nx\nINT 0\nOBJ min\n0\nCON 1 0\na G 1 1 0 1\nRTP range -inf inf\n"
    for place, back in (
        ("SOL", "SOL 1\n%s 0\nDER 0\n"),
        ("DER", "SOL 0\nDER 1\n%s G 2 1 0 1 { lin 1 0 1 } -1\n"),
    ):
        for length in (1, 30, 31, 3000):
            row = (front + back % ("n" * length)).encode()
            for command in "check", "explain", "tighten":
                what = f"{command} of a refusal at {place} with a name of {length} bytes"
                got = answer([command], row)
                first = got[command == "tighten"].splitlines(keepends=True)[:1]
                expect(f"{what}: the first line", (*first, b"", got[2]), lines(verdict(row)))
                growths_refused(what, [command], row)


def long_comment(length):
    """A comment that is longer than the memory that the program may ask for."""
    CHECKS.count += 1
    text = (TOP / "examples/infeasible.vipr").read_bytes()
    piece = b"c" * (1 << 20)
    with subprocess.Popen(
        [PROGRAM, "check"],
        stdin=subprocess.PIPE,
        stdout=subprocess.PIPE,
        preexec_fn=lambda: resource.setrlimit(resource.RLIMIT_AS, (ROOM, ROOM)),
    ) as child:
        child.stdin.write(b"%")
        for _ in range(length >> 20):
            child.stdin.write(piece)
        child.stdin.write(b"\n" + text)
        child.stdin.close()
        got = child.stdout.read()
    expect(
        f"a comment of {length} bytes",
        (got,),
        (b"verified infeas\nsolutions 0 derived 1 peak 1\n",),
    )


def library():
    """The library of refused calls, built, or nothing."""
    compiler = shutil.which("cc") or shutil.which("gcc") or shutil.which("clang")
    if not compiler:
        return ""
    path = WORK + "/refuse.so"
    subprocess.run(
        [compiler, "-O1", "-shared", "-fPIC", "-o", path, str(TOP / "tests/refuse.c")], check=True
    )
    return path


def main():
    sys.set_int_max_str_digits(0)
    help_text = answer(["--help"])[0].decode()
    commands = [c for c in ("check", "show", "explain", "tighten") if f"\n  {c} " in help_text]
    # those of problems/ have nothing that the others lack
    files = sorted(
        path for path in (TOP / "examples").rglob("*.vipr") if path.parent.name != "problems"
    )
    examples = [(path, path.read_bytes()) for path in files if path.stat().st_size < 2000]
    streams(commands)
    streams_closed([*commands, "explain --long"])
    for command in commands:
        limit_of_files(command, 10)
    streams_that_do_not_wait(commands)
    little_stack([*commands, "explain --long"])
    limits()
    long_comment(1 << 30)
    beginnings(examples)
    families_are_answered()
    if LIBRARY:
        what_is_asked_for()
        with_refused_calls(
            [*commands, *(f"{word} --compact" for word in ("show", "tighten") if word in commands)],
            examples,
        )
        at_length(examples)
        names_at_a_refusal()
        reads_of_a_byte(commands)
        if "tighten" in commands:
            out_is_kept(examples)
            loose = TOP / "examples/cutoff_loose.vipr"
            writes_to_out(loose, loose.read_bytes())
            short_writes_to_out(loose, loose.read_bytes())
    else:
        CHECKS.skip("C compiler", "the runs with refused calls are left out")
    SERVERS.end()
    return CHECKS.end(f", {spent():.0f} seconds of processor time")


with tempfile.TemporaryDirectory(prefix="hostile-") as WORK:
    LIBRARY = library()
    status = main()
sys.exit(status)
