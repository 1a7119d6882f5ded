#!/usr/bin/env python3
"""Builds and installs the library for C, links programs to it, and compares what they say with what
`vipr check` does.

usage: tests/library.py [PROGRAM]     crates/vipr/out/vipr without it

`make install-lib` installs it into a folder. tests/library.c, with the archive alone, makes each
call on all examples, by both profiles, in both forms and with less room than they need, on
beginnings of each and on a text of 20 MB; the call that checks on one of 300 MB; and with each of
its growths refused. On every conformance case vipr_is_verified, and is_verified of the Python
package, have to agree with the program. The callers of examples/c, cpp, python and rust check all
examples with the shared library, and so do those in C, C++ and Rust with the archive. Memcheck and
helgrind, if they are there, look at some of it. `make uninstall-lib` removes all of it.

Prints each difference, and last `library: N texts, F different`. What isn't built for want of a
compiler is named. The exit status is 1 if a text or a file differs.
"""
import hashlib
import os
import re
import shutil
import subprocess
import sys
import tempfile
from concurrent.futures import ThreadPoolExecutor
from pathlib import Path

from texts import TOP, UNPROVED, Checks, program, run, said_version
import kit

PROGRAM = program(sys.argv[1:])
COMPILERS = {"c": ("CC", "cc", "gcc"), "cpp": ("CXX", "c++", "g++"), "rust": ("CARGO", "cargo")}
# seconds for a run that makes many calls, or that valgrind looks at
LONG = 600
CHECKS = Checks("library", "texts")
fail = CHECKS.fail


def compiler(language):
    """The compiler of a language, or None."""
    variable, *names = COMPILERS[language]
    return os.environ.get(variable) or next(filter(None, map(shutil.which, names)), None)


def hand_back(top):
    """Puts the library that was built in a copy where `make lib` has it: later scripts needn't
    prove it once more."""
    for file in (top / "crates/vipr_c/out").glob("libvipr.*"):
        if top != TOP:
            shutil.copy2(file, TOP / file.relative_to(top))


def make(target, top, prefix):
    environment = {
        name: value
        for name, value in os.environ.items()
        if name not in ("MAKEFLAGS", "MFLAGS", "DESTDIR")
    }
    done = subprocess.run(
        ["make", "--no-print-directory", target, f"PREFIX={prefix}", f"PYTHON={sys.executable}"],
        cwd=top,
        env=environment,
        stdout=subprocess.PIPE,
        stderr=subprocess.STDOUT,
        text=True,
        check=False,
    )
    if done.returncode:
        fail(f"make {target}: {done.stdout}")
    return done.returncode == 0


def installed(prefix):
    return sorted(
        str(path.relative_to(prefix))
        for path in prefix.rglob("*")
        if path.is_file() or path.is_symlink()
    )


def version():
    """The version that the header names."""
    return re.search(r'define VIPR_VERSION "(.*)"', (TOP / "include/vipr.h").read_text())[1]


def look_at_files(prefix):
    """What is installed, and that each place that names a version names the program's."""
    number = version()
    libraries = [
        "libvipr.a",
        "libvipr.so",
        f'libvipr.so.{number.split(".")[0]}',
        f"libvipr.so.{number}",
    ]
    cmake = ["INSTALLED", "vipr-config-version.cmake", "vipr-config.cmake"]
    wanted = [
        "include/vipr.h",
        *(f"lib/{name}" for name in libraries),
        "lib/pkgconfig/vipr.pc",
        *(f"lib/cmake/vipr/{name}" for name in cmake),
    ]
    if installed(prefix) != sorted(wanted):
        fail(f"make install-lib leaves {installed(prefix)}")
    said, _ = said_version(PROGRAM)
    if said != f"vipr {number}":
        fail(f"include/vipr.h has the version {number}, and the program says {said!r}")
    if shutil.which("pkg-config"):
        environment = dict(os.environ, PKG_CONFIG_PATH=str(prefix / "lib/pkgconfig"))
        said = [
            word
            for flags in (["--modversion"], ["--cflags", "--libs"])
            for word in subprocess.run(
                ["pkg-config", *flags, "vipr"],
                env=environment,
                check=False,
                capture_output=True,
                text=True,
            ).stdout.split()
        ]
        if said != [number, f"-I{prefix}/include", f"-L{prefix}/lib", "-lvipr"]:
            fail(f"pkg-config says {said}")


def build(words, places=None):
    done = subprocess.run(
        list(map(str, words)),
        stdout=subprocess.PIPE,
        stderr=subprocess.STDOUT,
        text=True,
        check=False,
        env={**os.environ, **(places or {})},
    )
    if done.returncode:
        fail(f'{" ".join(map(str, words))}: {done.stdout}')
    return done.returncode == 0


def look_at_symbols(prefix):
    """Each call of the shared library has the version of its first release, which is its soname's
    number."""
    if shutil.which("nm"):
        said = run(["nm", "-D", "--defined-only", prefix / "lib/libvipr.so"]).stdout.decode()
        versions = set(re.findall(r"@@?(\w+)$", said, re.M))
        if versions != {f'VIPR_{version().split(".")[0]}'}:
            fail(f"the symbols have the versions {versions}")
        calls, listed = (
            set(re.findall(pattern, text, re.M))
            for pattern, text in (
                (r" T (\w+)@", said),
                (r"^ (vipr_\w+)@", (TOP / "debian/libvipr1.symbols").read_text()),
            )
        )
        if calls != listed:
            fail(f"debian/libvipr1.symbols has these too many or too few: {sorted(calls ^ listed)}")


def look_at_header(prefix, room):
    """The header alone, in the oldest C and C++ that it is for, without a warning."""
    for language, standard, name in (("c", "c89", "header.c"), ("cpp", "c++98", "header.cpp")):
        if compiler(language):
            (room / name).write_text('#include "vipr.h"\n')
            build(
                [
                    compiler(language),
                    f"-std={standard}",
                    "-pedantic-errors",
                    "-Wall",
                    "-Wextra",
                    "-Werror",
                    "-fsyntax-only",
                    f"-I{prefix}/include",
                    room / name,
                ]
            )


CMAKE = """cmake_minimum_required(VERSION 3.13)
project(caller C)
find_package(vipr {version} CONFIG REQUIRED)
foreach(kind vipr static)
  add_executable(by_${{kind}} "{source}")
  target_link_libraries(by_${{kind}} vipr::${{kind}})
endforeach()
"""


def by_cmake(prefix, room):
    """The caller in C, built by CMake with each target that it finds."""
    if not shutil.which("cmake"):
        print("library: cmake is not here, and what it finds was not tried")
        return
    folder = room / "cmake"
    folder.mkdir()
    source = TOP / "examples/c/check.c"
    (folder / "CMakeLists.txt").write_text(CMAKE.format(version=version(), source=source))
    words = ["cmake", "-S", folder, "-B", folder / "built", f"-DCMAKE_PREFIX_PATH={prefix}"]
    if build(words) and build(["cmake", "--build", folder / "built"]):
        for kind in ("vipr", "static"):
            yield f"c, {kind} by cmake", [folder / f"built/by_{kind}"]


def callers(prefix, room):
    """The callers of examples/, built where their compilers are there: what each is called, and its
    command."""
    header, lib = f"-I{prefix}/include", prefix / "lib"
    strict = ["-Wall", "-Wextra", "-Werror", "-O1", header]
    missing = [language for language in COMPILERS if not compiler(language)]
    for linked in ("shared", "archive"):
        end = [lib / "libvipr.a"] if linked == "archive" else [f"-L{lib}", "-lvipr"]
        sources = TOP / "examples"
        words = {
            "c": [sources / "c/check.c", "-std=c99", "-D_POSIX_C_SOURCE=200809L", *strict, *end],
            "cpp": [sources / "cpp/check.cpp", "-std=c++17", "-pthread", *strict, *end],
        }
        for language in ("c", "cpp"):
            program = room / f"{language}_{linked}"
            if language not in missing and build(
                [compiler(language), *words[language], "-o", program]
            ):
                yield f"{language}, {linked}", [program]
        # (in a copy, since cargo writes a lock file beside the manifest)
        copy = shutil.copytree(sources / "rust", room / f"rust_source_{linked}")
        crate = [
            compiler("rust"),
            "build",
            "--offline",
            "--quiet",
            "--release",
            "--manifest-path",
            copy / "Cargo.toml",
            "--target-dir",
            room / f"rust_{linked}",
        ]
        places = {
            "VIPR_LIB_DIR": str(lib),
            "RUSTFLAGS": "-D warnings",
            **({"VIPR_STATIC": "1"} if linked == "archive" else {}),
        }
        if "rust" not in missing and build(crate, places):
            yield f"rust, {linked}", [room / f"rust_{linked}/release/check"]
    if "c" not in missing:
        yield from by_cmake(prefix, room)
    yield "python", [sys.executable, TOP / "examples/python/check.py"]
    if missing:
        print(f'library: left out, for want of its compiler: {", ".join(missing)}')


def look_at_callers(prefix, room):
    """Each caller prints of all examples what `vipr check` does."""
    names = sorted((TOP / "examples").rglob("*.vipr"))
    lines = [", ".join(wanted(path).rstrip("\n").split("\n")) for path in names]
    expected = "".join(f"{path}: {line}\n" for path, line in zip(names, lines))
    environment = dict(
        os.environ,
        LD_LIBRARY_PATH=str(prefix / "lib"),
        PYTHONDONTWRITEBYTECODE="1",
        PYTHONPATH=str(TOP / "python"),
        VIPR_LIBRARY=str(prefix / f'lib/libvipr.so.{version().split(".")[0]}'),
    )
    count = 0
    for name, words in callers(prefix, room):
        for files, status, text in (
            (names, 1, expected),
            (names[:1], int(lines[0].startswith("refused")), None),
        ):
            done = subprocess.run(
                [*words, *files], env=environment, capture_output=True, text=True, check=False
            )
            count += len(files)
            if done.returncode != status or text not in (None, done.stdout):
                fail(f"the caller in {name} answers {done.returncode}: {done.stdout}{done.stderr}")
        for missing in (room, room / "missing"):
            done = subprocess.run(
                [*words, missing, names[0]],
                env=environment,
                capture_output=True,
                text=True,
                check=False,
            )
            if done.returncode != 2 or lines[0] not in done.stdout:
                fail(
                    f"the caller in {name} answers {done.returncode} for {missing}: {done.stdout}{done.stderr}"
                )
    return count


def texts(room):
    """The files to check, and whether each is whole: each example, its beginnings of some lengths,
    and a text of 20 MB."""
    large = room / "large.vipr"
    large.write_text(
        "VER 1.0 VAR 1 x INT 0 OBJ min 0 CON 1 0 a G 1 1 0 1 RTP range -inf inf SOL 0 DER 720000\n"
        + "d G 1 1 0 1 { lin 1 0 1 } -1\n" * 720_000
    )
    yield large, False
    for path in sorted((TOP / "examples").rglob("*.vipr")):
        yield path, True
        whole = path.read_bytes()
        for length in range(0, len(whole), 1 + len(whole) // 12):
            part = room / f"{path.stem}.{length}"
            part.write_bytes(whole[:length])
            yield part, False


def refusal(line):
    """Cause, place and number of a refusal."""
    found = re.match(rb"refused (\d+) at (?:(byte|SOL|DER) (\d+)|end)$", line)
    if not found:
        return [0, "nowhere", 0]
    place = {b"byte": "byte", b"SOL": "solution", b"DER": "derivation"}.get(found[2], "end")
    return [int(found[1]), place, int(found[3] or 0)]


def figures(line):
    found = re.match(rb"kept (\d+) removed (\d+) peak (\d+) (\d+)$", line)
    counts = map(int, found.groups()) if found else [0] * 4
    return [*refusal(line), *counts]


def answer(lines):
    """The numbers of the answer for the lines of `vipr explain`."""
    found = re.search(rb"^solutions (\d+) derived (\d+) peak (\d+)\ngoal (\d+|none)$", lines, re.M)
    if not found:
        return [*refusal(lines.split(b"\n")[0]), *[0] * 5]
    goal = [0, 0] if found[4] == b"none" else [1, int(found[4])]
    return [0, "nowhere", 0, *map(int, found.groups()[:3]), *goal]


def calls(path, whole):
    """The calls on a file: their words, and what each has to give: the status, the text and the
    numbers."""
    said = run([PROGRAM, "explain", path])
    yield ["verified", 1, 0], (said.returncode, b"", [])
    yield ["check", 1, 0], (said.returncode, b"", ["answer", *answer(said.stdout)])
    for profile in (1, 2) if whole else (1,):
        said, explained = (
            run([PROGRAM, call, "--profile", profile, path]) for call in ("check", "explain")
        )
        yield ["report", profile, 0], (
            said.returncode,
            said.stdout,
            ["answer", *answer(explained.stdout)],
        )
        yield ["explain", profile, 0], (explained.returncode, explained.stdout, [])
        long = run([PROGRAM, "explain", "--long", "--profile", profile, path])
        yield ["long", profile, 0], (long.returncode, long.stdout, [])
        for compact in (0, 1) if whole else (0,):
            said = run([PROGRAM, "tighten", "--profile", profile, *["--compact"] * compact, path])
            yield ["tighten", profile, compact], (
                said.returncode,
                said.stdout,
                ["figures", *figures(said.stderr.rstrip())],
            )
    for compact in (0, 1) if whole else (0,):
        said = run([PROGRAM, "show", *["--compact"] * compact, path])
        yield ["show", 1, compact], (
            said.returncode,
            said.stdout,
            ["answer", *refusal(said.stderr.rstrip()), *[0] * 5],
        )
    if whole:
        for profile in (0, 3):
            yield ["report", profile, 0], (2, b"", ["answer", 0, "nowhere", *[0] * 6])
            yield ["explain", profile, 0], (2, b"", [])
            yield ["long", profile, 0], (2, b"", [])
        yield ["tighten", 3, 0], (2, b"", ["figures", 0, "nowhere", *[0] * 5])


def answered(room, status, text, numbers):
    """What tests/library.c writes of a buffer with this room."""
    held = text[:room] + b"." * (room - len(text))
    words = ["status", status, "length", len(text), *numbers]
    return held + b"\n" + " ".join(map(str, words)).encode() + b"\n"


def ended(room, word):
    """The same for a word that has a 0 behind it, if there is room for that."""
    held = (word + b"\0")[:room]
    return held + b"." * (room - len(held)) + f"\nstatus 0 length {len(word)}\n".encode()


def compare(words, rows):
    """Makes the calls of the rows in one process, and compares what it writes: a row has a call's
    words and its answer."""
    of_rows = [word for row, _ in rows for word in row]
    said = run([*words, *of_rows], timeout=LONG)
    at = 0
    for row, expected in rows:
        found, at = said.stdout[at : at + len(expected)], at + len(expected)
        if found != expected:
            fail(f"{words[-1]}: {row}: {found[-300:]!r}, wanted {expected[-300:]!r}")
            return
    if said.returncode or said.stdout[at:] or said.stderr:
        fail(
            f"{words[-1]}: status {said.returncode}, {said.stdout[at:]!r} behind the last answer, {said.stderr!r}"
        )


def look_at_calls(program, path, whole):
    rows = []
    for words, wanted_of_it in calls(path, whole):
        length = len(wanted_of_it[1])
        for room in {0, 1, max(0, length - 1), length, length + 3} if whole else {length}:
            rows.append(([*words, room], answered(room, *wanted_of_it)))
    digest = hashlib.sha256(path.read_bytes()).hexdigest().encode()
    rows += [(["digest", 1, 0, room], ended(room, digest)) for room in (0, 63, 64, 65, 70)]
    compare([program, path], rows)


# prints what the Python package says of each file
ASK = """
import sys, vipr
for path in sys.argv[1:]:
    with open(path, "rb") as file:
        print(vipr.is_verified(file.read()))
"""


def said_by_python(prefix, cases):
    """What the Python package says of each case."""
    environment = os.environ | {
        "PYTHONPATH": str(TOP / "python"),
        "PYTHONDONTWRITEBYTECODE": "1",
        "VIPR_LIBRARY": str(prefix / "lib/libvipr.so"),
    }
    words = [sys.executable, "-c", ASK, *cases]
    return run(words, env=environment, timeout=LONG).stdout.decode().split()


def look_at_verified(program, prefix):
    """The call with the shortest statement, and that of the Python package, on every conformance
    case."""
    cases = sorted((TOP / "conformance").rglob("*.vipr"))

    def answers(path):
        verdict = run([PROGRAM, "check", path]).returncode
        said = run([program, path, "verified", 1, 0, 0]).stdout
        agrees = verdict in (0, 1) and said == answered(0, verdict, b"", [])
        return agrees, str(verdict == 0)

    with ThreadPoolExecutor(os.cpu_count()) as pool:
        found = list(pool.map(answers, cases))
    for path, (agrees, _) in zip(cases, found):
        if not agrees:
            fail(f"{path}: vipr_is_verified and `vipr check` differ")
    if said_by_python(prefix, cases) != [wanted for _, wanted in found]:
        fail("is_verified of the Python package and `vipr check` differ on conformance cases")
    return len(cases)


def look_at_names(program):
    names = dict(
        re.findall(r"^\| (\d+) \| ([A-Z]\w+) \|", (TOP / "docs/FORMAT.md").read_text(), re.M)
    )
    rows = []
    for cause in [*range(300), 2**32 - 1]:
        name = names.get(str(cause), "").encode()
        rows += [
            ([cause, room], ended(room, name)) for room in sorted({0, len(name), len(name) + 1, 20})
        ]
    compare([program, "name"], rows)
    versions = [ended(30, f"{version()}{word}".encode()) for word in ("", UNPROVED)]
    if run([program, "version", 30]).stdout not in versions or len(names) < 30:
        fail("the version, or too few names of causes")


def look_at_length(program, room):
    """The call that checks, on 300 MB: a comment in front of a proof."""
    path = room / "long"
    path.write_bytes(
        b"%" + b" " * 300_000_000 + b"\n" + (TOP / "examples/infeasible.vipr").read_bytes()
    )
    words, answer_of_it = next(calls(path, False))
    compare([program, path], [([*words, 0], answered(0, *answer_of_it))])
    path.unlink()


def look_at_memory(program, room):
    """Each growth refused in turn, and memcheck and helgrind, if they are there."""
    names = sorted((TOP / "examples").rglob("*.vipr"))
    for path in names:
        said = run([program, "growths", path], timeout=LONG)
        if said.returncode:
            fail(f"{path.name}: {said.stdout!r}")
    if not shutil.which("valgrind"):
        CHECKS.skip("valgrind", "memcheck and helgrind are left out")
        return
    front = ["valgrind", "-q", "--error-exitcode=9"]
    for path in (
        TOP / "examples/branch_and_bound.vipr",
        TOP / "examples/overflow.vipr",
        room / "infeasible.10",
    ):
        words = [
            word
            for call in (
                "verified",
                "check",
                "report",
                "explain",
                "long",
                "show",
                "digest",
                "tighten",
            )
            for word in (call, 1, 1, 100)
        ]
        said = run(
            [*front, "--leak-check=full", "--show-leak-kinds=all", program, path, *words],
            timeout=LONG,
        )
        if said.returncode or said.stderr:
            fail(f"memcheck of {path.name}: {said.stderr!r}")
    threads = room / "cpp_archive"
    if threads.exists():
        said = run([*front, "--tool=helgrind", threads, *names[:12]], timeout=LONG)
        if said.returncode == 9 or said.stderr:
            fail(f"helgrind: {said.stderr!r}")


def wanted(path):
    """What the program prints of a file."""
    return run([PROGRAM, "check", path]).stdout.decode()


def look_at_texts(prefix, room):
    program, count = room / "library", 0
    if not build(
        [
            compiler("c"),
            "-std=c99",
            "-Wall",
            "-Wextra",
            "-Werror",
            "-O1",
            f"-I{prefix}/include",
            TOP / "tests/library.c",
            prefix / "lib/libvipr.a",
            "-Wl,--wrap=malloc,--wrap=realloc,--wrap=free",
            "-o",
            program,
        ]
    ):
        return 0
    with ThreadPoolExecutor(os.cpu_count()) as pool:
        jobs = [pool.submit(look_at_calls, program, *part) for part in texts(room)]
        count = len([job.result() for job in jobs])
    count += look_at_verified(program, prefix)
    look_at_names(program)
    look_at_length(program, room)
    return count


def main():
    if not compiler("c"):
        CHECKS.skip("C compiler", "the library was not linked")
        return 0
    with tempfile.TemporaryDirectory(prefix="vipr-library-") as name:
        room, prefix = Path(name), Path(name) / "installed"
        # (a copy that takes over what `rt ci` proved, if there is such)
        top = kit.copied(room, "Makefile", "crates.txt", "crates", "include", "tools")
        if make("crates/vipr_c/out/libvipr.a", top, prefix) and make("install-lib", top, prefix):
            hand_back(top)
            look_at_files(prefix)
            look_at_header(prefix, room)
            look_at_symbols(prefix)
            CHECKS.count = look_at_texts(prefix, room) + look_at_callers(prefix, room)
            look_at_memory(room / "library", room)
            if make("uninstall-lib", top, prefix) and installed(prefix):
                fail(f"make uninstall-lib leaves {installed(prefix)}")
    return CHECKS.end() or int(not CHECKS.count)


sys.exit(main())
