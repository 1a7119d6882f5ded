# Completion of vipr for bash. Made by tools/manual.py from the program's help.
# Files are completed by bash itself, also names with spaces.
_vipr() {
    local word="${COMP_WORDS[COMP_CWORD]}" before="${COMP_WORDS[COMP_CWORD-1]}" words=""
    COMPREPLY=()
    if [ "$COMP_CWORD" -eq 1 ]; then
        compopt +o bashdefault +o default 2> /dev/null
        COMPREPLY=($(compgen -W "check explain show tighten help -h --help -V --version" -- "$word"))
        return
    fi
    # behind -- there are files alone
    [[ " ${COMP_WORDS[*]:1:COMP_CWORD-1} " == *" -- "* ]] && return
    # bash takes --profile=1 for three words
    if [ "$word" = "=" ]; then
        word=""
    elif [ "$before" = "=" ]; then
        before="${COMP_WORDS[COMP_CWORD-2]}"
    fi
    case "$before" in
        --profile) COMPREPLY=($(compgen -W "1 2" -- "$word")); return ;;
    esac
    case "${COMP_WORDS[1]}" in
        help) [ "$COMP_CWORD" -eq 2 ] && compopt +o bashdefault +o default 2> /dev/null && COMPREPLY=($(compgen -W "check explain show tighten" -- "$word")); return ;;
        check) words="--profile --sum -h --help" ;;
        explain) words="--profile --long --sum -h --help" ;;
        show) words="--compact -h --help" ;;
        tighten) words="--profile -o --out --compact -h --help" ;;
    esac
    if [ "${word#-}" != "$word" ]; then
        COMPREPLY=($(compgen -W "$words" -- "$word"))
    fi
}
complete -o bashdefault -o default -F _vipr vipr
