"""Tries packed files, for tests/python.py: every command says of the same ones that they can't be
unpacked."""

import bz2
import gzip
import lzma
import shutil
import subprocess

from texts import TOP, run

CERTIFICATE = (TOP / "examples/plan.vipr").read_bytes()
MODEL = (TOP / "examples/plan.mps").read_bytes()
MORE = b"% no more text\n" * 100


def packed_by_zstd(text):
    """The text as a .zst file has it."""
    return subprocess.run(["zstd", "-cq"], input=text, capture_output=True, check=True).stdout


def packers():
    """What packs a text, by the suffix of the file."""
    found = {".gz": gzip.compress, ".bz2": bz2.compress, ".xz": lzma.compress}
    return {**found, ".zst": packed_by_zstd} if shutil.which("zstd") else found


def with_a_wrong_byte(packed):
    """A packed text of which a byte in the middle is another one."""
    middle = len(packed) // 2
    return packed[:middle] + bytes([packed[middle] ^ 255]) + packed[middle + 1 :]


def files(pack, text):
    """Packed files with what is behind their first stream, and whether they are whole."""
    whole, second = pack(text), pack(MORE)
    yield "one stream", whole, True
    yield "two streams", pack(text[:100]) + pack(text[100:]), True
    yield "rubbish behind", whole + b"rubbish!", False
    yield "a damaged second stream", whole + with_a_wrong_byte(second), False
    yield "a cut second stream", whole + second[:-9], False
    yield "a cut stream", whole[:-9], False
    yield "nothing", b"", False


def packed_files(check, room, words, program, has_library):
    """Tries each kind of file as a certificate and as a model, with each command."""
    for suffix, pack in packers().items():
        for what, data, is_whole in files(pack, CERTIFICATE):
            path = room / f"plan.vipr{suffix}"
            path.write_bytes(data)
            tried = {
                "stats": [path],
                "picture": [path],
                "html": [path, "-o", room / "page.html"],
                "compare-mps": [TOP / "examples/plan.mps", path],
                **({"audit": [TOP / "examples/plan.mps", path]} if has_library else {}),
            }
            for name, arguments in tried.items():
                done = run([*words[name], *arguments])
                is_told = done.returncode == 3 and b"not unpacked" in done.stderr
                check(
                    is_whole == (done.returncode == 0) != is_told,
                    f"{name} of {suffix}, {what}: {done}",
                )
            done = run([*words["check-all"], "--vipr", program, path])
            result = done.stdout.partition(b"\t")[0]
            check(
                result == (b"verified" if is_whole else b"unpack"),
                f"check-all of {suffix}, {what}: {done}",
            )
        for what, data, is_whole in files(pack, MODEL):
            path = room / f"plan.mps{suffix}"
            path.write_bytes(data)
            done = run([*words["compare-mps"], path, TOP / "examples/plan.vipr"])
            check(done.returncode == (0 if is_whole else 3), f"a model {suffix}, {what}: {done}")


def closed_streams(check, words, program):
    """A command without standard output ends as one that can't write, and never with the status of
    a verdict. A full standard error changes no status."""
    certificate = TOP / "examples/plan.vipr"
    arguments = {
        "audit": [TOP / "examples/plan.mps", certificate],
        "check-all": ["--vipr", program, certificate],
        "compare-mps": [TOP / "examples/plan.mps", certificate],
        "html": [certificate],
        "picture": [certificate],
        "stats": [certificate],
    }
    for name, given in arguments.items():
        line = 'exec "$@" >&-'
        done = run(["sh", "-c", line, "sh", *words[name], *given])
        check(
            done.returncode == 3 and done.stderr == b"standard output is closed\n",
            f"{name} >&-: {done}",
        )
        done = run(["sh", "-c", 'exec "$@" > /dev/full', "sh", *words[name], *given])
        check(done.returncode == 3, f"{name} > /dev/full: {done}")
        for paths in given, [*given[:-1], "no-such-file"]:
            wanted = run([*words[name], *paths]).returncode
            done = run(["sh", "-c", 'exec "$@" 2> /dev/full', "sh", *words[name], *paths])
            check(done.returncode == wanted, f"{name} {paths} 2> /dev/full: {done}, not {wanted}")
