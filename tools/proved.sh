#!/bin/sh
# Finds the program and the library that were proved: what was built here, and if nothing was, what
# the archive in release/ has, if it was proved from the sources that stand here.
#
# usage: tools/proved.sh program [FILE]      prints the file of the program
#        tools/proved.sh library [FOLDER]    prints the folder of libvipr.a and the shared library
#        tools/proved.sh built FILE FOLDER   fails unless both were proved and built here
#        tools/proved.sh digest              prints the digest of the sources
#
# FILE and FOLDER are where both are built. What was built has its SHA-256 beside it. The archive is
# unpacked into out/ once its SHA-256 is that of release/SHA256SUMS, the digest in its BUILD is that
# of the sources, and its files have the SHA-256 that it names.
#
# The sources are crates.txt, include/vipr.map, and each .rt and .antt file below crates/, but for
# those in a folder `out` and in vipr_tests, which is in no program. Their digest is the SHA-256 of
# the rows that sha256sum prints of them, in the order of their names as bytes.
#
# It needs coreutils, diffutils, findutils, grep, sed, tar and gzip. The Makefile and the Python
# package call it.
set -eu
export LC_ALL=C
cd "$(dirname "$0")/.."

stop() {
    printf '%s\n' "$1" >&2
    exit 1
}

digest() {
    find crates.txt include/vipr.map crates -name out -prune -o -path crates/vipr_tests -prune -o \
        -type f \( -name '*.rt' -o -name '*.antt' -o -name crates.txt -o -name vipr.map \) -print0 |
        sort -z | xargs -0 sha256sum | sha256sum | cut -d ' ' -f 1
}

# Stops unless a program has the SHA-256 beside it.
need_built_program() {
    (cd "$(dirname "$1")" && sha256sum --status -c vipr.sha256 2> /dev/null) ||
        stop "$1 isn't the program that was proved and built here: say make build"
}

# Stops unless both libraries of this version have the SHA-256 beside them.
need_built_library() {
    version=$(sed -n 's/.*\.version("\(.*\)").*/\1/p' crates/vipr_command/src/args.rt)
    (cd "$1" && grep -qs '  libvipr[.]a$' libvipr.sha256 &&
        grep -qs "  libvipr[.]so[.]$version\$" libvipr.sha256 &&
        sha256sum --status -c libvipr.sha256 2> /dev/null) ||
        stop "$1 hasn't the library that was proved and built here: say make lib"
}

# Whether a folder has the files of the archive, as they are there.
is_unpacked() {
    tar xzOf "$archive" "$name/SHA256SUMS" | cmp -s - "$1/SHA256SUMS" &&
        (cd "$1" && sha256sum --status -c SHA256SUMS 2> /dev/null)
}

# Unpacks the archive, and sets `place` to its folder. The word is the command that builds instead.
unpack() {
    set -- "$1" release/vipr-*-linux-x86_64.tar.gz
    archive=$2
    if [ $# -gt 2 ] || [ ! -f "$archive" ]; then
        stop "nothing was built here, and release/ has no archive, or several: say $1"
    fi
    [ "$(uname -s -m)" = 'Linux x86_64' ] || stop "$archive is for Linux on x86-64: say $1"
    name=$(basename "$archive" -linux-x86_64.tar.gz) place=out/$name
    sum=$(cd release && sha256sum "${archive#release/}")
    grep -qsxF "$sum" release/SHA256SUMS ||
        stop "$archive is damaged: release/SHA256SUMS has another SHA-256"
    build=$(tar xzOf "$archive" "$name/BUILD")
    printf '%s\n' "$build" | grep -qxF "sources: $(digest)" ||
        stop "nothing was built here, and $archive was proved from other sources: say $1"
    is_unpacked "$place" && return
    mkdir -p out
    room=$(mktemp -d out/unpacked.XXXXXX)
    trap 'rm -rf "$room"' EXIT
    tar xzf "$archive" --no-same-owner -C "$room"
    is_unpacked "$room/$name" ||
        stop "$archive is damaged: its files haven't the SHA-256 that it names"
    # (another run may have unpacked it meanwhile)
    is_unpacked "$place" || rm -rf "$place"
    mv -T "$room/$name" "$place" 2> /dev/null || is_unpacked "$place" ||
        stop "$place can't be written"
    commit=$(printf '%s\n' "$build" | sed -n 's/^commit: //p')
    printf '%s\n' "vipr ${name#vipr-} of commit $commit is unpacked from release/ into $place: \
make build proves the same bytes here" >&2
}

case ${1-} in
program)
    built=${2-crates/vipr/out/vipr}
    if [ -e "$built" ]; then
        need_built_program "$built"
        printf '%s\n' "$built"
    else
        unpack 'make build'
        printf '%s\n' "$place/bin/vipr"
    fi
    ;;
library)
    built=${2-crates/vipr_c/out}
    if [ -e "$built/libvipr.a" ]; then
        need_built_library "$built"
        printf '%s\n' "$built"
    else
        unpack 'make lib'
        printf '%s\n' "$place/lib"
    fi
    ;;
built)
    need_built_program "$2"
    need_built_library "$3"
    ;;
digest) digest ;;
*) stop 'usage: tools/proved.sh program [FILE] | library [FOLDER] | built FILE FOLDER | digest' ;;
esac
