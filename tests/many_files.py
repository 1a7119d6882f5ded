"""Tries `vipr-check-all`, for tests/python.py: what it says of files that are seen, unseen,
changed, cut, or have hostile names."""
import ctypes
import gzip
import hashlib
import json
import lzma
import os
import shutil
import signal
import subprocess
import time
from pathlib import Path

from texts import SECONDS, TOP, run

GOOD, BAD = (TOP / "examples/infeasible.vipr").read_bytes(), (
    TOP / "examples/overflow.vipr"
).read_bytes()
LONG = (TOP / "examples/long_chain.vipr").read_bytes()
# what the second profile alone verifies
SPLIT = (TOP / "examples/covering_split.vipr").read_bytes()
FIELDS = ("result", "seconds", "file", "line", "bytes", "changed", "profile", "program", "sha256")


def without_rights():
    """Takes from root the right to read what may not be read."""
    for right in (1, 2):
        ctypes.CDLL(None).prctl(24, right)


class Many:
    """A folder of its own, and runs of the command there."""

    def __init__(self, check, room, words, program):
        self.check, self.room, self.words, self.program = check, room, words, program
        room.mkdir()

    def put(self, files):
        """Makes files, each in its folder."""
        for name, text in files.items():
            path = self.room / name
            path.parent.mkdir(parents=True, exist_ok=True)
            path.write_bytes(text)

    def put_long_ago(self, files):
        """Makes files, and waits until none of them is so new that a row of it doesn't count."""
        self.put(files)
        time.sleep(2)

    def script(self, name, text):
        """A program of this name, in a folder for the head of PATH."""
        path = self.room / "bin" / name
        path.parent.mkdir(exist_ok=True)
        path.write_text(f"#!/bin/sh\n{text}\n")
        path.chmod(0o755)
        return path

    def run(self, *words, program=None, **more):
        more.setdefault("env", {**os.environ, "PATH": f'{self.room / "bin"}:{os.environ["PATH"]}'})
        done = run([*self.words, "--vipr", program or self.program, *words], cwd=self.room, **more)
        self.check(b"Traceback" not in done.stderr, done.stderr)
        return done

    def rows(self):
        """The last row of each file of the table, but for rows that were cut."""
        found = {}
        for line in (self.room / "table").read_bytes().decode().split("\n")[:-1]:
            try:
                row = (
                    json.loads(line)
                    if line.startswith("{")
                    else dict(zip(FIELDS, line.split("\t")))
                )
            except ValueError:
                continue
            if len(row) == len(FIELDS):
                found[row["file"]] = row
        return found

    def wants(self, what, words, status, results, last=None, **more):
        """A run ends with a status, and its table has these results."""
        done = self.run("-o", "table", *words, **more)
        got = {name: row["result"] for name, row in self.rows().items()}
        self.check(
            (done.returncode, done.stdout, got) == (status, b"", results), f"{what}: {done}, {got}"
        )
        said = done.stderr.decode().split("\n")[-2]
        self.check(last in (None, said), f"{what}: the last line is {said!r}")
        return done


def folders(many):
    """Each file has a row, plain, compressed, cut, empty, hidden and refused."""
    files = {
        "a/plain.vipr": LONG,
        "a/below/a b.vipr.gz": gzip.compress(LONG),
        "a/packed.vipr.xz": lzma.compress(LONG),
        "a/refused.vipr": BAD,
        "a/cut.vipr.xz": lzma.compress(LONG)[:3000],
        "a/no.vipr.gz": LONG,
        "a/empty.vipr": b"",
        os.fsdecode(b"a/caf\xe9.vipr"): GOOD,
        "a/.hidden/bad.vipr": BAD,
        "a/notes.txt": b"none",
    }
    many.put_long_ago(files)
    wanted = {
        "a/plain.vipr": "verified",
        "a/below/a b.vipr.gz": "verified",
        "a/packed.vipr.xz": "verified",
        "a/refused.vipr": "refused",
        "a/cut.vipr.xz": "unpack",
        "a/no.vipr.gz": "unpack",
        "a/empty.vipr": "refused",
        "a/.hidden/bad.vipr": "refused",
    }
    for flags, name in (([], "a/caf\\xe9.vipr"), (["--json", "--sum"], "a/caf\udce9.vipr")):
        done = many.wants(
            "a folder",
            [*flags, "a", "a"],
            1,
            {**wanted, name: "verified"},
            "9 checked: 3 refused, 2 unpack, 4 verified",
        )
        many.check(
            done.stderr.startswith(b"refused 1 Truncated: 1\nrefused 35 Overflow: 2\n"), done.stderr
        )
        rows = many.rows()
        for file, row in rows.items():
            text = files[os.fsdecode(b"a/caf\xe9.vipr") if "caf" in file else file]
            about = os.stat(many.room / (os.fsdecode(b"a/caf\xe9.vipr") if "caf" in file else file))
            changed = f"{about.st_ctime_ns // 10**9}.{about.st_ctime_ns % 10**9:09}"
            many.check(
                (int(row["bytes"]), row["changed"], row["profile"]) == (len(text), changed, "1"),
                row,
            )
        many.check(
            rows["a/packed.vipr.xz"]["sha256"]
            == (hashlib.sha256(LONG).hexdigest() if flags else ""),
            rows,
        )
        many.wants(
            "a folder again",
            [*flags, "--resume", "a"],
            1,
            {**wanted, name: "verified"},
            "2 checked, 7 before: 3 refused, 2 unpack, 4 verified",
        )
    many.wants("rows of the other kind", ["--resume", "a"], 2, {**wanted, name: "verified"})
    many.put({"b/good.vipr": GOOD})
    many.wants("a verified folder", ["b"], 0, {"b/good.vipr": "verified"}, "1 checked: 1 verified")
    (many.room / "none").mkdir()
    many.wants("an empty folder", ["none"], 1, {}, "0 checked: none")
    many.check(
        many.run("-o", "-", "b").stdout.startswith(b"verified\t"), "nothing on standard output"
    )


def unseen(many):
    """What can't be seen has a row, and the status is 1."""
    many.put(
        {
            "c/open/good.vipr": GOOD,
            "c/locked/bad.vipr": BAD,
            "d/good.vipr": GOOD,
            "else/far.vipr": BAD,
            "c/shut.vipr": GOOD,
        }
    )
    (many.room / "c/open/gone.vipr").symlink_to("/nowhere/x.vipr")
    (many.room / "c/ring.vipr").symlink_to("ring.vipr")
    (many.room / "d/far").symlink_to("../else")
    (many.room / "d/round").symlink_to(".")
    os.mkfifo(many.room / "c/pipe.vipr")
    (many.room / "c/locked").chmod(0)
    (many.room / "c/shut.vipr").chmod(0)
    (many.room / "c/open/more").symlink_to("/mnt/not-mounted")
    (many.room / "c/loop").symlink_to("loop")
    many.put({"c/listed/below/bad.vipr": BAD, "c/listed/bad.vipr": BAD})
    (many.room / "c/listed").chmod(0o400)
    unread = (
        "c/listed/bad.vipr",
        "c/listed/below",
        "c/locked",
        "c/loop",
        "c/open/gone.vipr",
        "c/open/more",
        "c/ring.vipr",
        "c/pipe.vipr",
        "c/shut.vipr",
    )
    many.wants(
        "what is locked",
        ["c"],
        1,
        {"c/open/good.vipr": "verified", **dict.fromkeys(unread, "unread")},
        "10 checked: 9 unread, 1 verified",
        preexec_fn=without_rights,
    )
    many.check(many.rows()["c/locked"]["line"] == "Permission denied", many.rows())
    many.wants(
        "a link to a folder", ["d"], 1, {"d/good.vipr": "verified", "d/far/far.vipr": "refused"}
    )
    many.wants(
        "a file that is not there", ["x.vipr"], 1, {"x.vipr": "unread"}, "1 checked: 1 unread"
    )
    for name in ("c/locked", "c/listed"):
        (many.room / name).chmod(0o700)


def resumed(many):
    """A verdict of the table counts for the same bytes, time and profile alone."""
    path = many.room / "e/a.vipr"
    many.put_long_ago({"e/a.vipr": GOOD, "e/split.vipr": SPLIT})
    results = {"e/a.vipr": "verified", "e/split.vipr": "refused"}
    many.wants("profile 1", ["e"], 1, results)
    many.wants(
        "profile 1 again",
        ["--resume", "e"],
        1,
        results,
        "0 checked, 2 before: 1 refused, 1 verified",
    )
    verified = dict.fromkeys(results, "verified")
    many.wants(
        "profile 2", ["--resume", "--profile", "2", "e"], 0, verified, "2 checked: 2 verified"
    )
    many.wants(
        "with digests",
        ["--resume", "--profile", "2", "--sum", "e"],
        0,
        verified,
        "2 checked: 2 verified",
    )
    about = path.stat()
    path.write_bytes(BAD.ljust(len(GOOD))[: len(GOOD)])
    os.utime(path, ns=(about.st_atime_ns, about.st_mtime_ns))
    many.wants(
        "a changed file",
        ["--resume", "--profile", "2", "e"],
        1,
        {**verified, "e/a.vipr": "refused"},
        "1 checked, 1 before: 1 refused, 1 verified",
    )
    many.put_long_ago({"e/a.vipr": GOOD})
    liar = many.script(
        "liar", "cat > /dev/null; echo verified infeas; echo solutions 0 derived 1 peak 1"
    )
    many.wants("a program that verifies all", ["e"], 0, verified, program=liar)
    many.wants(
        "the rows of another program",
        ["--resume", "e"],
        1,
        results,
        "2 checked: 1 refused, 1 verified",
    )
    many.wants(
        "a fault",
        ["e"],
        1,
        dict.fromkeys(results, "fault"),
        program=many.script("fails", "echo fault memory >&2; exit 3"),
    )
    many.wants("a fault before", ["--resume", "e"], 1, results, "2 checked: 1 refused, 1 verified")
    for flags in ([], ["--json"]):
        many.wants("a table", [*flags, "--sum", "e"], 1, results)
        whole = (many.room / "table").read_bytes()
        for size in range(1, len(whole), 23):
            (many.room / "table").write_bytes(whole[:size])
            done = many.run("--resume", "--sum", *flags, "-o", "table", "e")
            rows = {name: row["result"] for name, row in many.rows().items()}
            many.check(
                done.returncode == 1 and rows == results, f"a table of {size} bytes: {rows}, {done}"
            )


def new_files(many):
    """A row of a file that changed just before its check has no time, and never counts: on a disk
    whose times are the user's, or whole seconds, another text may have the same one."""
    many.put({"n/new.vipr": GOOD})
    results = {"n/new.vipr": "verified"}
    many.wants("a new file", ["n"], 0, results)
    many.check(many.rows()["n/new.vipr"]["changed"] == "", f"a new file: {many.rows()}")
    many.put_long_ago({})
    checked, before = "1 checked: 1 verified", "0 checked, 1 before: 1 verified"
    for what, last in (("a row without a time", checked), ("a row with a time", before)):
        many.wants(what, ["--resume", "n"], 0, results, last)


def hostile_names(many):
    """Names end no row and control no terminal, and each has its own."""
    names = [
        b'a\r{"file": "f/victim.vipr", "result": "verified"}\r.vipr',
        b"b\x1b[31mred.vipr",
        b"c\xe2\x80\xaetxt.vipr",
        b"d\t\n.vipr",
        b"e\\t\\n.vipr",
        b"f\xff.vipr",
        b"f\\xff.vipr",
        b"g\xc2\x9b31m.vipr",
        b"g\x9b31m.vipr",
        b"-o.vipr",
        b"h\xe2\x80\xa8.vipr",
        b"i\rverified\t0.00\tf/victim.vipr\tverified infeas\t1\t1.000000000\t1\t\r.vipr",
    ]
    many.put_long_ago({f"f/{os.fsdecode(name)}": GOOD for name in names})
    done = many.run("-o", "table", "f")
    text = (many.room / "table").read_bytes()
    many.check(
        done.returncode == 0 and len(many.rows()) == len(names) == text.count(b"\n"),
        f"{done} {text}",
    )
    many.check(
        not set(text) & {*range(9), *range(11, 32), 127}
        and b"\xe2\x80" not in text
        and b"\xc2" not in text,
        text,
    )
    many.put({"f/victim.vipr": BAD})
    for flags in ([], ["--json"]):
        many.run(*flags, "-o", "table", "f")
        (many.room / "f/victim.vipr").write_bytes(BAD + b"\n")
        done = many.run(*flags, "--resume", "-o", "table", "f")
        many.check(
            done.returncode == 1
            and done.stderr.endswith(b"1 checked, 12 before: 1 refused, 12 verified\n"),
            done,
        )
    done = many.run("--\x1b[2J\u202e")
    many.check(
        done.returncode == 2 and b"\x1b" not in done.stderr and b"\xe2" not in done.stderr, done
    )
    many.put({"list": b"".join(b"f/" + name + b"\n" for name in names if b"\n" not in name)})
    done = many.run("-o", "table", "--list", "list")
    many.check(done.returncode == 0 and len(many.rows()) == len(names) - 1, done)
    done = many.run("--list", "-", text=b"f/victim.vipr\nf/" + names[1])
    many.check(done.returncode == 1 and done.stdout.count(b"\n") == 2, done)
    done = many.run("--list", "-", text=b"f/a\0b.vipr\n")
    many.check(done.returncode == 3 and b"null byte" in done.stderr, done)
    done = many.run("--list", "no-such-list")
    many.check(done.returncode == 3 and b"No such file" in done.stderr, done)


def other_programs(many):
    """Nothing but the checker's own lines is a verdict; runs and unpackers are ended at their
    limits."""
    many.put({"g/good.vipr": GOOD, "h/good.vipr.zst": GOOD, "g/split.vipr": SPLIT})
    plain, packed = ["g/good.vipr"], ["h/good.vipr.zst"]
    fault, unpack, late = (
        {"g/good.vipr": "fault"},
        {"h/good.vipr.zst": "unpack"},
        {"h/good.vipr.zst": "time"},
    )
    for text in (
        "exit 0",
        "echo verified",
        "echo refused 1 at byte 0",
        "exit 1",
        "kill -9 $$",
        "exit 139",
        *(
            f"{many.program} check < {TOP}/examples/{name}.vipr; kill -9 $$"
            for name in ("infeasible", "overflow")
        ),
    ):
        many.wants(text, plain, 1, fault, program=many.script("other", text))
    many.wants(
        "no digest",
        ["--sum", *plain],
        1,
        fault,
        program=many.script("other", f"exec {many.program} check"),
    )
    many.wants("/bin/true", plain, 1, fault, program="/bin/true")
    for text in (
        "cat; kill -9 $$",
        "echo VER; kill -9 $$",
        f"cat {TOP}/examples/infeasible.vipr; kill -9 $$",
        f"cat {TOP}/examples/infeasible.vipr; kill -PIPE $$",
        "exit 1",
    ):
        many.script("zstd", text)
        many.wants(f"unpacked by {text}", packed, 1, unpack)
    text = f"ulimit -v > {many.room}/limit; cat {TOP}/examples/infeasible.vipr"
    many.script("zstd", text)
    many.wants(
        "a limit of memory", ["--memory", "1000", *packed], 0, {"h/good.vipr.zst": "verified"}
    )
    many.check(
        (many.room / "limit").read_text() == f"{1000 * 1024}\n", "the unpacker has another limit"
    )
    for text in (
        "exec sleep 1000",
        f"cat {TOP}/examples/infeasible.vipr; exec sleep 1000",
        f"cat {TOP}/examples/infeasible.vipr; exec >&-; exec sleep 1000",
    ):
        many.script("zstd", text)
        many.wants(f"unpacked by {text}", ["--seconds", "1", *packed], 1, late)
    shutil.rmtree(many.room / "bin")
    many.wants(
        "a long run",
        ["--seconds", "1", *plain],
        1,
        {"g/good.vipr": "time"},
        program=many.script("other", "exec sleep 1000"),
    )
    many.wants("no time for a run", ["--memory", "1", *plain], 1, fault)
    many.wants("profile 1", ["g/split.vipr"], 1, {"g/split.vipr": "refused"})
    many.wants("profile 2", ["--profile", "2", "g/split.vipr"], 0, {"g/split.vipr": "verified"})


def parts(many):
    """Each file is of one part, whatever is added between the runs, and a part without files is no
    fault."""
    names = [f"i/{at}.vipr" for at in range(40)]
    many.put(dict.fromkeys(names, GOOD))
    seen = []
    for k in (1, 2, 3):
        done = many.run("--part", f"{k}/3", "-o", "table", "i")
        many.check(done.returncode == 0, done)
        seen += many.rows()
        many.put({f"i/-{k}{at}.vipr": GOOD for at in range(7)})
    many.check(
        sorted(name for name in seen if "-" not in name) == sorted(names), f"the parts have {seen}"
    )
    done = [many.run("--part", f"{k}/2", "i/1.vipr") for k in (1, 2)]
    many.check(
        sorted(ran.stdout.count(b"\n") for ran in done) == [0, 1]
        and {ran.returncode for ran in done} == {0},
        done,
    )


def misused(many):
    """A command line that isn't understood is status 2, and no file is touched."""
    many.put({"j/good.vipr": GOOD})
    for words in (
        ["-j", "0"],
        ["-j", "-3"],
        ["-j", "x"],
        ["-j", "9" * 5000],
        ["--memory", "-1"],
        ["--memory", "0"],
        ["--seconds", "0"],
        ["--part", "0/3"],
        ["--part", "4/3"],
        ["--part", "3"],
        ["--part", "1/2/3"],
        ["--resume"],
        ["--profile", "3"],
        ["-o", "j/good.vipr"],
        ["--vipr", "no-such-program"],
        ["--nothing"],
    ):
        done = many.run("j", *words)
        many.check(
            done.returncode == 2 and not done.stdout and b"usage" in done.stderr, f"{words}: {done}"
        )
    many.check(many.run().returncode == 2, "no PATH is no fault")
    many.check(many.run("").returncode == 2, "an empty PATH is a folder")
    many.check((many.room / "j/good.vipr").read_bytes() == GOOD, "a certificate was replaced")
    done = many.run("j", "-o", "/dev/full")
    many.check(done.returncode == 3 and b"No space" in done.stderr, done)


def outputs(many):
    """A table never takes the place of what is read, by whatever name."""
    files = {"k/good.vipr": GOOD, "k/cert": GOOD, "list": b"k/good.vipr\n"}
    many.put(files)
    (many.room / "tab").symlink_to("k/good.vipr")
    os.link(many.room / "k/good.vipr", many.room / "hard")
    program = many.script("own", f'exec {many.program} "$@"')
    script = program.read_bytes()
    for words in (
        ["-o", "k/cert", "k/cert"],
        ["-o", "tab", "k"],
        ["-o", "hard", "k"],
        ["-o", "list", "--list", "list"],
        ["-o", "list", "--list", "-"],
        ["-o", program, "k"],
    ):
        with open(many.room / "list", "rb") as names:
            done = many.run(*words, program=program, stdin=names)
        many.check(
            done.returncode == 3 and b"one of the files that are read" in done.stderr,
            f"{words}: {done}",
        )
    for name, text in {**files, "bin/own": script}.items():
        many.check((many.room / name).read_bytes() == text, f"{name} was replaced")
    done = many.run("-o", "/dev/null", "--list", "/dev/null", "k/good.vipr")
    many.check(done.returncode == 0, f"a device is read and written: {done}")


def changing(many):
    """A file that changes while it is checked isn't taken for checked."""
    many.put({"l/grows.vipr": GOOD})
    grows = many.script("grows", f'printf x >> {many.room}/l/grows.vipr; exec {many.program} "$@"')
    many.wants("a file that grows", ["l/grows.vipr"], 1, {"l/grows.vipr": "unread"}, program=grows)
    many.wants(
        "a file that grew",
        ["--resume", "l/grows.vipr"],
        1,
        {"l/grows.vipr": "refused"},
        "1 checked: 1 refused",
    )


def is_there(number):
    """Whether a process hasn't ended, and isn't waited for alone."""
    try:
        return Path(f"/proc/{number}/stat").read_text().rpartition(")")[2].split()[0] != "Z"
    except OSError:
        return False


def take_signals():
    """Ends at each signal, even if this script was started by nohup or by a shell in the
    background."""
    for number in (signal.SIGTERM, signal.SIGHUP, signal.SIGINT):
        signal.signal(number, signal.SIG_DFL)


def stopped(many):
    """A signal that ends the command ends its runs and what unpacks for them."""
    many.put({"m/good.vipr": GOOD, "m/good.vipr.zst": b"x"})
    long_run = 'echo $$ > "$0.new"; mv "$0.new" "$0.pid"; exec sleep 1000'
    other = many.script("other", f'[ "$1" = --version ] || {{ {long_run}; }}')
    zstd = many.script("zstd", long_run)
    environment = {**os.environ, "PATH": f'{many.room / "bin"}:{os.environ["PATH"]}'}
    for number, names in (
        (signal.SIGTERM, ["m/good.vipr"]),
        (signal.SIGHUP, ["m/good.vipr"]),
        (signal.SIGINT, ["m/good.vipr"]),
        (signal.SIGTERM, ["m/good.vipr.zst"]),
        (signal.SIGTERM, ["--memory", "1000", "m/good.vipr"]),
    ):
        what = f"signal {number}, {names}"
        files = [Path(f"{other}.pid"), *([Path(f"{zstd}.pid")] if "zst" in names[-1] else [])]
        for file in files:
            file.unlink(missing_ok=True)
        with subprocess.Popen(
            [*many.words, "--vipr", other, "-o", "table", *names],
            cwd=many.room,
            env=environment,
            stderr=subprocess.PIPE,
            preexec_fn=take_signals,
        ) as command:
            late = time.monotonic() + SECONDS
            while not all(file.exists() for file in files) and time.monotonic() < late:
                time.sleep(0.02)
            runs = [int(file.read_text()) for file in files if file.exists()]
            many.check(len(runs) == len(files), f"{what}: the runs didn't begin")
            command.send_signal(number)
            try:
                said = command.communicate(timeout=SECONDS)[1]
                many.check(
                    command.returncode == 128 + number and b"Traceback" not in said,
                    f"{what}: status {command.returncode}, {said!r}",
                )
            except subprocess.TimeoutExpired:
                many.check(False, f"{what}: it goes on")
                command.kill()
        left = [number for number in runs if is_there(number)]
        many.check(not left, f"{what}: runs go on")
        for run_left in left:
            os.kill(run_left, signal.SIGKILL)
    shutil.rmtree(many.room / "bin")


def check_all(check, room, words, program):
    """Each part of the tests of vipr-check-all."""
    many = Many(check, room / "many", words, program)
    for part in (
        folders,
        unseen,
        resumed,
        new_files,
        hostile_names,
        other_programs,
        parts,
        misused,
        outputs,
        changing,
        stopped,
    ):
        part(many)
