"""What the scripts of tests/ share: what they found, the program and its runs, texts of a family,
and what a run takes."""
import array
import fcntl
import os
import re
import resource
import shutil
import subprocess
import sys
import tempfile
import termios
import threading
import time
from collections import namedtuple
from pathlib import Path

TOP = Path(__file__).resolve().parent.parent
sys.path[:0] = [str(TOP / folder) for folder in ("bench", "tools", "conformance")]
GNU_TIME, VALGRIND, OBJDUMP = map(shutil.which, ("time", "valgrind", "objdump"))
ENVIRONMENT = {"PATH": os.environ.get("PATH", "/usr/bin:/bin"), "LC_ALL": "C.UTF-8"}
# a run that takes longer is ended, and its answer is none that is wanted
SECONDS = 120
# how much of a fault is printed
MOST = 4000
# the tools that the test command needs, and a line by which a script says that it left something
# out for want of one
NEEDED = (
    "strace",
    "bindfs",
    "valgrind",
    "GNU time",
    "C compiler",
    "git",
    "Chromium",
    "coqc",
    "Debian system",
)
SKIPPED = re.compile(rf'\w+: no (?:{"|".join(NEEDED)})\b')


class Checks:
    """What a script found: how many checks it made, or runs, and how many failed. Prints each
    fault."""

    def __init__(self, script, unit="checks"):
        self.script, self.unit, self.count, self.failed = script, unit, 0, 0

    def fail(self, what):
        self.failed += 1
        print(str(what)[:MOST], flush=True)

    def check(self, good, what):
        self.count += 1
        if not good:
            self.fail(what)

    def expect(self, what, got, *wanted):
        """Whether an answer of a run, which was counted, is one of those that are wanted."""
        if got not in wanted:
            self.fail(f"{what}: {got!r:.400}, wanted {wanted[0]!r:.400}")

    def skip(self, tool, what):
        """Says what is left out for want of a tool of NEEDED."""
        print(f"{self.script}: no {tool} here, so {what}")

    def end(self, more=""):
        """Prints the last line, and gives the exit status."""
        print(f"{self.script}: {self.count} {self.unit}, {self.failed} failed{more}")
        return int(self.failed > 0)


def program(words):
    """The program: the first of the words, or the one that is built here."""
    path = Path(words[0] if words else TOP / "crates/vipr/out/vipr").resolve()
    if not path.is_file():
        sys.exit(f"{path} is not there: `make build` builds the program")
    return path


# what follows the version of a program or a library that tools/unproved.py built
UNPROVED = " unproved"


def said_version(program_file):
    """What a program says of its version, in one line, and whether it says that it is unproved."""
    said = run([program_file, "--version"]).stdout.decode().rstrip("\n")
    return said.removesuffix(UNPROVED), said.endswith(UNPROVED)


# what a run prints on both outputs, and its exit status, which is None if it was ended
Ran = namedtuple("Ran", "stdout stderr returncode")


def run(words, text=b"", **more):
    """What a run answers that gets the text on standard input, or a file as `stdin`."""
    streams = {"stdout": subprocess.PIPE, "stderr": subprocess.PIPE, "timeout": SECONDS} | more
    streams |= {} if "stdin" in more else {"input": text}
    try:
        done = subprocess.run([*map(str, words)], check=False, **streams)
    except subprocess.TimeoutExpired as ended:
        return Ran(ended.stdout or b"", ended.stderr or b"", None)
    return Ran(done.stdout, done.stderr, done.returncode)


def traced(words, *options, **more):
    """What a run answers under strace, and its calls, a line each; none if strace isn't here or may
    not trace."""
    if not shutil.which("strace"):
        return Ran(b"", b"", None), []
    with tempfile.NamedTemporaryFile() as file:
        got = run(["strace", "-f", "-qq", "-o", file.name, *options, *words], **more)
        lines = [
            re.sub(r"^\d+ +", "", line)
            for line in Path(file.name).read_text(errors="replace").split("\n")
        ]
    return got, [line for line in lines if re.match(r"\w+\(", line)]


def may_trace():
    """Whether strace is here and shows the calls of a run."""
    return bool(traced(["true"])[1])


def is_unread(pipe):
    """Whether bytes that were written to a pipe wait to be read."""
    count = array.array("i", [0])
    fcntl.ioctl(pipe, termios.FIONREAD, count)
    return count[0] > 0


def fed(words, pieces, **more):
    """What a run answers whose standard input comes in these pieces, each once the one before was
    read."""
    read, write = os.pipe()
    with subprocess.Popen(
        words, stdin=read, stdout=subprocess.PIPE, stderr=subprocess.PIPE, **more
    ) as child:
        os.close(read)
        clock = threading.Timer(SECONDS, child.kill)
        clock.start()
        try:
            for piece in pieces:
                while is_unread(write) and child.poll() is None:
                    time.sleep(0)
                os.write(write, piece)
        except BrokenPipeError:
            pass
        os.close(write)
        printed, complained = child.communicate()
        clock.cancel()
    return Ran(printed, complained, child.returncode)


def text_of(family, size):
    """A text of the family, of about the size in bytes."""
    return "".join(f"{line}\n" for line in family(size)).encode()


def described(module):
    """The families of a module, each with what its head says of it."""
    return dict(re.findall(r"^  (\w+) +(\S.*)$", module.__doc__, re.M))


def examples(most=2000):
    """The examples of less than so many bytes: path and text."""
    files = sorted((TOP / "examples").rglob("*.vipr"))
    return [(path, path.read_bytes()) for path in files if path.stat().st_size < most]


def spent():
    """Seconds of processor time of this process and of those that it started and waited for."""
    usages = [resource.getrusage(who) for who in (resource.RUSAGE_CHILDREN, resource.RUSAGE_SELF)]
    return sum(usage.ru_utime + usage.ru_stime for usage in usages)


def reported(words, pattern, seconds):
    """A number that a tool says of the program that it starts; None if it took more than the
    seconds."""
    limit = (seconds, seconds + 1)
    done = subprocess.run(
        words,
        stdin=subprocess.DEVNULL,
        stdout=subprocess.DEVNULL,
        stderr=subprocess.PIPE,
        env=ENVIRONMENT,
        check=False,
        preexec_fn=lambda: resource.setrlimit(resource.RLIMIT_CPU, limit),
    )
    found = re.search(pattern, done.stderr)
    return int(found[1]) if found and done.returncode == 0 else None


def instructions(words, seconds):
    """How many instructions a run takes; None if it isn't verified within the seconds of processor
    time."""
    tool = [VALGRIND, "--tool=callgrind", "--callgrind-out-file=/dev/null"]
    return reported([*tool, *words], rb"Collected : (\d+)", seconds)


def peak(words, seconds):
    """The most memory that a run has at once, in bytes; None if it isn't verified within the
    seconds.

    GNU time starts it, since a process begins with the peak of the one that starts it, and Python's
    is large.
    """
    found = reported([GNU_TIME, "-f", "most %M KB", *words], rb"most (\d+) KB", seconds)
    return found and found * 1024
