#!/bin/sh
# Keeps a list of what `make install` or `make install-lib` put somewhere, and removes that.
#
# usage: tools/installed.sh list LIST NAME ..    writes the SHA-256 of each file into the list
#        tools/installed.sh remove LIST          removes the files that still have it, and the list
#
# Names begin with bin, share, include or lib. BIN, SHARE, INCLUDE and LIB are the folders that these
# stand for. A file of an earlier list stays listed. A file that somebody else put or changed there
# stays, and a folder of the pages or the library goes only if it is empty. The Makefile calls this.
set -eu
export LC_ALL=C

# The path of a name.
path_of() {
    case $1 in
    */../* | */..) ;;
    bin/*) printf '%s\n' "$BIN/${1#*/}" ;;
    share/*) printf '%s\n' "$SHARE/${1#*/}" ;;
    include/*) printf '%s\n' "$INCLUDE/${1#*/}" ;;
    lib/*) printf '%s\n' "$LIB/${1#*/}" ;;
    esac
}

# The SHA-256 of a file, or of where a link leads; nothing if there is neither.
sum_of() {
    if [ -L "$1" ]; then
        readlink -n -- "$1" | sha256sum
    elif [ -f "$1" ]; then
        sha256sum < "$1"
    fi | cut -d ' ' -f 1
}

# A row for each of these names.
rows_of() {
    for name in "$@"; do
        printf '%s  %s\n' "$(sum_of "$(path_of "$name")")" "$name"
    done
}

# Removes the folders of a name that are empty, up to the one that has the list.
remove_folders() {
    name=$1
    while [ "${name#"$own"/}" != "$name" ]; do
        name=${name%/*}
        rmdir -- "$(path_of "$name")" 2> /dev/null || return 0
    done
}

command=$1 list=$(path_of "$2") own=${2%/*}
shift 2
if [ "$command" = list ]; then
    new="$list.new"
    { rows_of "$@"; cat -- "$list" 2> /dev/null || :; } | sort -s -u -k 2,2 > "$new"
    mv -f -- "$new" "$list"
elif [ -f "$list" ]; then
    while read -r sum name; do
        path=$(path_of "$name")
        if [ -n "$path" ] && [ "$(sum_of "$path")" = "$sum" ]; then
            rm -f -- "$path"
            remove_folders "$name"
        elif [ -e "$path" ] || [ -L "$path" ]; then
            printf '%s\n' "$path stays, since it isn't what was installed"
        fi
    done < "$list"
    rm -f -- "$list"
    remove_folders "$own/INSTALLED"
    printf '%s\n' "what $list named is removed"
else
    printf '%s\n' "nothing is removed: there is no $list, which says what was installed"
fi
