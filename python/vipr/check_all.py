"""Checks many certificates on all cores, compressed ones too, shows how far it is, and goes on
after a stop.

A PATH is a file or a folder. In a folder, and in those below it, files NAME.vipr, NAME.vipr.xz,
.gz, .zst and .bz2 are checked, the largest first; links are followed. TABLE, or standard output,
has a row for each, with tabs between these fields, or as a JSON object:

  result    what came of it
  seconds   how long it took
  file      its name; what isn't printable is escaped
  line      the first line that `vipr check` printed, or what failed
  bytes     the size of the file, before it is unpacked
  changed   the time of its last change, as `stat -c %.9Z` prints it; nothing if that was less than two seconds before
            its check
  profile   the profile of the rules
  program   the version of the program, and the SHA-256 of its file
  sha256    with --sum the SHA-256 of the text, once it is unpacked

A result is one of these:

  verified, refused   the verdict
  fault               vipr failed (status 3), or has another status that is no verdict, such as that of a killed program
  time                there was no verdict within --seconds
  unpack              the file can't be unpacked to its end: what was checked isn't what it holds
  unread              the file or folder can't be read, is a link that leads nowhere, or changed while it was checked

With --resume a verdict that TABLE has for a file counts if its bytes, its time, the profile and the
program are those of now, and with --sum if it has a digest; all others are checked, and the last
row of a file counts. A file that changed less than two seconds before its check is checked again:
it may have changed once more at the same time, by the clock of its disk. With --part K/N a file is
of the K-th of N parts by its name alone, so N runs with the same PATHs check each file once,
whatever is added meanwhile.

The last lines, on standard error, count refusals by cause, and all results. The exit status is 0 if
all are verified, by this run or a row of TABLE that counts, 1 if one isn't or if there is none, 2
if the command line isn't understood, and 3 if TABLE or a list can't be read or written.
"""
from __future__ import annotations

import argparse
import hashlib
import json
import os
import queue
import re
import shutil
import signal
import stat
import subprocess
import sys
import threading
import time
import zlib
from collections import Counter
from concurrent.futures import Future, ThreadPoolExecutor
from pathlib import Path
from typing import (
    IO,
    Counter as Counts,
    Dict,
    Iterable,
    Iterator,
    List,
    NamedTuple,
    Optional,
    Set,
    Tuple,
)

from . import checkout
from .files import OFTEN, REFUSED, VERIFIED, Parser, is_one_file, number, printable, run
from .packed import SUFFIXES, NotWhole, unpacked
from .verdict import Cause, Verdict

VERDICTS = {0: "verified", 1: "refused"}
START = 200_000  # the start of a run takes as long as about so many bytes of a certificate
NEW = 2  # for so many seconds after a change some disks give a second one the same time
FIELDS = re.compile(
    "\t".join(
        [
            r"(\w+)",
            r"(\d+\.\d\d)",
            "([^\t]+)",
            "([^\t]*)",
            r"(\d+|)",
            r"(\d+\.\d{9}|)",
            "([12])",
            "([^\t]*)",
            "([0-9a-f]{64}|)",
        ]
    )
)


class Stamp(NamedTuple):
    """What changes if the file or the question changes."""

    bytes: Optional[int]
    changed: str
    profile: str
    program: str


class Row(NamedTuple):
    """A row of the table."""

    result: str
    seconds: float
    file: str
    line: str
    bytes: Optional[int]
    changed: str
    profile: str
    program: str
    sha256: str

    def text(self, as_json: bool) -> str:
        if as_json:
            return json.dumps(self._asdict())
        return "\t".join(
            [
                self.result,
                f"{self.seconds:.2f}",
                printable(self.file),
                self.line,
                "" if self.bytes is None else str(self.bytes),
                self.changed,
                self.profile,
                self.program,
                self.sha256,
            ]
        )

    @property
    def stamp(self) -> Stamp:
        return Stamp(self.bytes, self.changed, self.profile, self.program)

    @classmethod
    def read(cls, text: str, as_json: bool) -> Iterator[Tuple[str, Row]]:
        """The file of a line of a table, as `printable` has it, and its row; nothing of a line that
        was cut."""
        try:
            found = FIELDS.fullmatch(cls(**json.loads(text)).text(False) if as_json else text)
        except (ValueError, TypeError):
            return
        if found:
            result, seconds, file, line, size, *rest = found.groups()
            yield file, cls(result, float(seconds), file, line, int(size) if size else None, *rest)


class Found(NamedTuple):
    """A file to be checked: its size, and why it can't be read, if that is known."""

    path: Path
    size: int
    fault: str = ""


def is_named(name: str) -> bool:
    """Whether it is the name of a certificate."""
    path = Path(name)
    return (path.with_suffix("") if path.suffix in SUFFIXES else path).suffix == ".vipr"


def found(path: Path, is_given: bool) -> Found:
    """A file. What a folder has must be a regular file, so that no run waits for a pipe that nobody
    writes."""
    try:
        about = path.stat()
    except OSError as fault:
        return Found(path, 0, fault.strerror)
    return Found(
        path,
        about.st_size,
        "" if is_given or stat.S_ISREG(about.st_mode) else "not a regular file",
    )


def below(top: Path) -> Iterator[Found]:
    """The certificates of a folder, of those below it and then of those behind links, each folder
    once; and what can't be read."""
    seen: Set[Tuple[int, int]] = set()
    folders: List[Path] = [top]
    links: List[Path] = []
    while folders or links:
        folder = folders.pop() if folders else links.pop()
        try:
            about = folder.stat()
            with os.scandir(folder) as inside:
                entries = sorted(inside, key=lambda entry: os.fsencode(entry.name))
        except OSError as fault:
            yield Found(folder, 0, fault.strerror)
            continue
        if (about.st_dev, about.st_ino) in seen:
            continue
        seen.add((about.st_dev, about.st_ino))
        for entry in entries:
            path = folder / entry.name
            if is_folder(path):
                (links if entry.is_symlink() else folders).append(path)
            elif is_named(entry.name) or leads_nowhere(path):
                yield found(path, False)


def is_folder(path: Path) -> bool:
    """Whether it is a folder, or may be one: what can't be looked at isn't left out."""
    try:
        return stat.S_ISDIR(path.stat().st_mode)
    except FileNotFoundError:
        return False
    except OSError:
        return not is_named(path.name)


def leads_nowhere(path: Path) -> bool:
    """Whether it is a link to nothing that is there."""
    return path.is_symlink() and not path.exists()


def files(paths: Iterable[str]) -> List[Found]:
    """The certificates at some paths, the largest first."""
    named: Dict[Path, Found] = {}
    for path in map(Path, paths):
        for file in below(path) if is_folder(path) else [found(path, True)]:
            named.setdefault(file.path, file)
    return sorted(named.values(), key=lambda file: (-file.size, file.path))


def is_of_part(file: Found, part: Tuple[int, int]) -> bool:
    return zlib.crc32(os.fsencode(file.path)) % part[1] == part[0] - 1


class Running:
    """The processes of runs that haven't ended."""

    def __init__(self) -> None:
        self.lock = threading.Lock()
        self.processes: Set[subprocess.Popen[bytes]] = set()
        self.is_over = False

    def add(self, process: subprocess.Popen[bytes]) -> None:
        with self.lock:
            self.processes.add(process)
            if self.is_over:
                process.kill()

    def remove(self, processes: Iterable[subprocess.Popen[bytes]]) -> None:
        with self.lock:
            self.processes.difference_update(processes)

    def end(self) -> None:
        """Ends them all, and each that is added later."""
        with self.lock:
            self.is_over = True
            for process in self.processes:
                process.kill()


def end_by_signals() -> None:
    """Lets a signal end this program as `sys.exit` does, so that it ends its runs. Signals that are
    ignored stay so."""
    for each in (signal.SIGTERM, signal.SIGHUP):
        if signal.getsignal(each) == signal.SIG_DFL:
            signal.signal(each, lambda which, _: sys.exit(128 + which))


def limited(words: List[str], job: argparse.Namespace) -> List[str]:
    """A command under the limit of memory."""
    return [
        *(
            ["sh", "-c", 'ulimit -v "$0" && exec "$@"', str(job.memory * 1024)]
            if job.memory
            else []
        ),
        *words,
    ]


def answer(
    status: int, printed: bytes, said: bytes, job: argparse.Namespace
) -> Tuple[str, str, str]:
    """What came of a run: the result, the first line that was printed, and the digest."""
    lines, _, digest = (
        (printed or said).decode(errors="surrogateescape").rstrip("\n").partition("\nsha256 ")
    )
    first = printable(lines.split("\n")[0])
    if status in VERDICTS:
        try:
            if bool(Verdict.parse(lines)) == (status == 0) and (digest or not job.sum or status):
                return VERDICTS[status], first, digest
        except ValueError:
            pass
    return "fault", first if status == 3 else f"status {status} {first}".rstrip(), ""


def checked(
    file: IO[bytes], suffix: str, job: argparse.Namespace, running: Running
) -> Tuple[str, str, str]:
    """What came of the text of a file, which is unpacked if it has such a suffix. A verdict on a
    part of it is none."""
    words = limited(
        [job.vipr, "check", "--profile", job.profile, *(["--sum"] if job.sum else [])],
        job,
    )
    is_packed = suffix in SUFFIXES
    with subprocess.Popen(
        words,
        stdin=subprocess.PIPE if is_packed else file,
        stdout=subprocess.PIPE,
        stderr=subprocess.PIPE,
    ) as child:
        late = threading.Event()
        mine: List[subprocess.Popen[bytes]] = []

        def begun(process: subprocess.Popen[bytes]) -> None:
            mine.append(process)
            running.add(process)

        def end() -> None:
            late.set()
            for process in mine:
                process.kill()

        begun(child)
        clock = threading.Timer(job.seconds or threading.TIMEOUT_MAX, end)
        clock.daemon = True
        clock.start()
        try:
            fault = (
                feed(
                    child,
                    unpacked(file, suffix, job.memory and job.memory * 1024 * 1024, begun),
                )
                if is_packed
                else ""
            )
            printed, said = child.communicate()
        finally:
            clock.cancel()
            child.kill()
            running.remove(mine)
    if late.is_set():
        return "time", f"no verdict in {job.seconds} s", ""
    return ("unpack", fault, "") if fault else answer(child.returncode, printed, said, job)


def feed(child: subprocess.Popen[bytes], pieces: Iterator[bytes]) -> str:
    """Hands a text that is unpacked to a run, and gives why it can't be unpacked. A run that has
    its answer reads no more."""
    assert child.stdin
    fault = ""
    try:
        for piece in pieces:
            child.stdin.write(piece)
    except BrokenPipeError:
        pass
    except NotWhole as damage:
        fault = str(damage)
    try:
        child.stdin.close()
    except BrokenPipeError:
        pass
    child.stdin = None
    return fault


def check(what: Found, job: argparse.Namespace, running: Running) -> Row:
    start, stamp = time.monotonic(), Stamp(None, "", job.profile, job.program)
    result, line, digest = "unread", what.fault, ""
    try:
        if not what.fault:
            with open(what.path, "rb") as file:
                about = os.fstat(file.fileno())
                was_new = about.st_ctime > time.time() - NEW
                stamp = stamp_of(about, job)
                result = "unpack" if what.path.suffix in SUFFIXES else "fault"
                result, line, digest = checked(file, what.path.suffix, job, running)
                if stamp_of(os.fstat(file.fileno()), job) != stamp:
                    result, line, digest = (
                        "unread",
                        "it changed while it was checked",
                        "",
                    )
                if was_new:
                    stamp = stamp._replace(changed="")
    except OSError as fault:
        line = fault.strerror if result == "unread" else f"{fault.filename}: {fault.strerror}"
    return Row(
        result,
        round(time.monotonic() - start, 2),
        str(what.path),
        printable(line),
        *stamp,
        digest,
    )


def stamp_of(about: os.stat_result, job: argparse.Namespace) -> Stamp:
    seconds, rest = divmod(about.st_ctime_ns, 10**9)
    return Stamp(about.st_size, f"{seconds}.{rest:09}", job.profile, job.program)


def counted(counts: Dict[str, int]) -> str:
    return ", ".join(f"{count} {what}" for what, count in sorted(counts.items())) or "none"


class Progress:
    """A line on a terminal that shows how far it is. A file takes as long as its bytes, and the
    start of a run."""

    def __init__(self, todo: List[Found]):
        self.count, self.all = len(todo), sum(file.size + START for file in todo)
        self.read, self.start = 0, time.monotonic()
        self.is_shown = sys.stderr.isatty()

    def show(self, file: Found, counts: Dict[str, int]) -> None:
        self.read += file.size + START
        if self.is_shown:
            seconds = time.monotonic() - self.start
            print(
                f"\r{sum(counts.values())} of {self.count}, {100 * self.read // self.all} %, {counted(counts)}, {seconds:.0f} s, "
                f"{seconds * (self.all - self.read) / self.read:.0f} s to go ",
                end="",
                file=sys.stderr,
                flush=True,
            )

    def end(self) -> None:
        if self.is_shown:
            print(file=sys.stderr)


def taken(ended: queue.SimpleQueue[Future[Row]]) -> Future[Row]:
    """The next run that ends. Python may miss a signal that comes just before a wait, until that
    ends."""
    while True:
        try:
            return ended.get(timeout=OFTEN)
        except queue.Empty:
            pass


def check_all(todo: List[Found], job: argparse.Namespace, table: IO[str]) -> List[Row]:
    """Checks files, and writes a row for each."""
    rows: List[Row] = []
    counts: Counts[str] = Counter()
    progress = Progress(todo)
    running = Running()
    ended: queue.SimpleQueue[Future[Row]] = queue.SimpleQueue()
    with ThreadPoolExecutor(job.runs) as pool:
        runs: Dict[Future[Row], Found] = {}
        try:
            for file in todo:
                run_of_file = pool.submit(check, file, job, running)
                runs[run_of_file] = file
                run_of_file.add_done_callback(ended.put)
            for _ in todo:
                done = taken(ended)
                rows.append(done.result())
                counts[rows[-1].result] += 1
                print(rows[-1].text(job.json), file=table, flush=True)
                progress.show(runs[done], counts)
        finally:
            for waiting in runs:
                waiting.cancel()
            running.end()
    progress.end()
    return rows


def opened(name: str, mode: str) -> IO[str]:
    """A text file whose lines end with a line feed alone. Names that aren't UTF-8 keep their
    bytes."""
    return open(name, mode, encoding="utf-8", errors="surrogateescape", newline="\n")


def rows_of(job: argparse.Namespace) -> Dict[str, Row]:
    """The last row of each file that a table has."""
    if not (job.resume and os.path.exists(job.out)):
        return {}
    with opened(job.out, "r") as table:
        return dict(row for line in table for row in Row.read(line.rstrip("\n"), job.json))


def listed(job: argparse.Namespace) -> List[str]:
    """The paths of the command line and of the lists."""
    paths = [*job.paths]
    for name in job.list:
        with open(sys.stdin.fileno() if name == "-" else name, "rb", closefd=name != "-") as names:
            text = names.read()
        if b"\0" in text:
            raise OSError(None, "a name has a null byte", name)
        paths.extend(os.fsdecode(line) for line in text.split(b"\n") if line)
    return paths


def counts_still(file: Found, before: Row, job: argparse.Namespace) -> bool:
    """Whether a row of the table is still the verdict on a file."""
    if file.fault or before.result not in VERDICTS.values() or (job.sum and not before.sha256):
        return False
    try:
        return before.stamp == stamp_of(file.path.stat(), job)
    except OSError:
        return False


def summary(rows: List[Row], checked_now: int) -> Iterator[str]:
    """Refusals by cause, and all results."""
    words = {f"refused {int(cause)}": cause.word for cause in Cause}
    causes = Counter(row.line.partition(" at ")[0] for row in rows if row.result == "refused")
    for cause in sorted(causes, key=lambda cause: (len(cause), cause)):
        yield f'{cause} {words.get(cause, "")}: {causes[cause]}'
    before = f", {len(rows) - checked_now} before" if len(rows) > checked_now else ""
    yield f"{checked_now} checked{before}: {counted(Counter(row.result for row in rows))}"


def program(name: str, seconds: Optional[int]) -> str:
    """The version of a program and the SHA-256 of its file, so that rows of another one don't
    count."""
    file = shutil.which(name) or name
    try:
        said = subprocess.run(
            [file, "--version"],
            stdin=subprocess.DEVNULL,
            capture_output=True,
            check=False,
            timeout=seconds or 10,
        ).stdout
    except subprocess.TimeoutExpired:
        said = b""
    version = printable(said.decode(errors="surrogateescape").split("\n")[0].partition(" ")[2])
    return f"{version} {hashlib.sha256(Path(file).read_bytes()).hexdigest()}"


def command(job: argparse.Namespace) -> int:
    job.program = program(job.vipr, job.seconds)
    there = files(listed(job))
    paths = (os.path.join(os.curdir, file.path) for file in there)
    read = [*job.list, shutil.which(job.vipr) or job.vipr, *paths]
    if job.out != "-" and is_one_file(job.out, read):
        raise OSError(None, "the table is one of the files that are read", job.out)
    mine = [file for file in there if is_of_part(file, job.part)]
    before = rows_of(job)
    kept, todo = [], []
    for file in mine:
        row = before.get(printable(str(file.path)))
        if row and counts_still(file, row, job):
            kept.append(row)
        else:
            todo.append(file)
    if job.out == "-":
        rows = check_all(todo, job, sys.stdout)
    else:
        with opened(job.out, "a" if job.resume else "w") as table:
            if is_cut(job.out):
                print(file=table)
            rows = check_all(todo, job, table)
    print(*summary(rows + kept, len(todo)), sep="\n", file=sys.stderr)
    return VERIFIED if there and all(row.result == "verified" for row in rows + kept) else REFUSED


def is_cut(name: str) -> bool:
    """Whether a table ends within a line, as a killed run may leave it."""
    if not os.path.isfile(name) or not os.path.getsize(name):
        return False
    with open(name, "rb") as file:
        file.seek(-1, os.SEEK_END)
        return file.read() != b"\n"


def is_of_other_kind(job: argparse.Namespace) -> bool:
    """Whether the table is one of JSON objects and this run writes none, or the other way round."""
    if not (job.resume and os.path.isfile(job.out)):
        return False
    with open(job.out, "rb") as table:
        first = table.read(1)
    return bool(first) and (first == b"{") != job.json


def part(word: str) -> Tuple[int, int]:
    mine, _, parts = word.partition("/")
    if number(mine) > number(parts):
        raise argparse.ArgumentTypeError(f"{word} is no part: 1/3, 2/3 and 3/3 are three")
    return number(mine), number(parts)


def parser() -> Parser:
    made = Parser("check-all", __doc__)
    made.add_argument(
        "-j",
        "--runs",
        type=number,
        default=os.cpu_count() or 1,
        metavar="RUNS",
        help="how many at a time; all cores by default",
    )
    made.add_argument(
        "-o",
        "--out",
        default="-",
        metavar="TABLE",
        help="where the table is written; after what it has with --resume",
    )
    made.add_argument(
        "--resume",
        action="store_true",
        help="leave out the files whose verdict the table has",
    )
    made.add_argument("--json", action="store_true", help="a JSON object for each row of the table")
    made.add_argument("--sum", action="store_true", help="the SHA-256 of each text that is checked")
    made.add_argument(
        "--memory",
        type=number,
        metavar="MB",
        help="the address space of each run and each unpacker",
    )
    made.add_argument("--seconds", type=number, metavar="S", help="how long a run may take")
    made.add_argument("--profile", default="1", choices=["1", "2"], help="the profile of the rules")
    made.add_argument(
        "--list",
        action="append",
        default=[],
        metavar="FILE",
        help="a file with a PATH on each line; - is standard input",
    )
    made.add_argument(
        "--part",
        type=part,
        default=(1, 1),
        metavar="K/N",
        help="only the K-th of N parts, as for one task of a cluster",
    )
    made.add_argument("--vipr", default="vipr", metavar="PROGRAM", help="the program")
    made.add_argument(
        "paths", nargs="*", metavar="PATH", help="a file, or a folder of certificates"
    )
    return made


def main() -> int:
    made = parser()
    job = made.parse_args()
    end_by_signals()
    if not job.paths and not job.list:
        made.error("there is no PATH and no --list")
    if "" in job.paths:
        made.error("a PATH is empty")
    if is_named(job.out):
        made.error(f"{job.out} has the name of a certificate: a table would replace it")
    if job.out == "-" and job.resume:
        made.error("--resume needs a TABLE")
    if not shutil.which(job.vipr):
        proved, reason = checkout.program() if job.vipr == made.get_default("vipr") else (None, "")
        if not proved:
            made.error(f"there is no program {job.vipr}{f' ({reason})' if reason else ''}")
        job.vipr = str(proved)
    try:
        if is_of_other_kind(job):
            made.error(f"{job.out} has rows of the other kind, with or without --json")
    except OSError:
        pass
    return run(lambda: command(job))


if __name__ == "__main__":
    sys.exit(main())
