"""Makes a man page of each command, and its completions for bash, zsh and fish, from its parser and
the text of its module.

usage: python3 build_manual.py FOLDER     writes them below FOLDER, as /usr has them; the wheel has them, too
"""
import argparse
import importlib
import re
import sys
from pathlib import Path

PROJECT = (Path(__file__).resolve().parent / "pyproject.toml").read_text()
VERSION = re.search(r'^version = "(.*)"$', PROJECT, re.M)[1]
COMMANDS = dict(re.findall(r'^(vipr-[\w-]+) = "(.*):main"$', PROJECT, re.M))
STATUS = "The exit status is"


def parser_of(command):
    """What reads the words of a command."""
    return importlib.import_module(COMMANDS[command]).parser()


def files():
    """The files of all commands: path and text."""
    return {
        path: text
        for command in COMMANDS
        for path, text in files_of(command, parser_of(command)).items()
    }


def files_of(command, parser):
    """The man page and the completions of a command, by their paths."""
    return {
        f"share/man/man1/{command}.1": man(command, parser),
        f"share/bash-completion/completions/{command}": bash(command, parser),
        f"share/zsh/site-functions/_{command}": zsh(command, parser),
        f"share/fish/vendor_completions.d/{command}.fish": fish(command, parser),
    }


def options(parser):
    return [action for action in parser._actions if action.option_strings]


def arguments(parser):
    return [action for action in parser._actions if not action.option_strings]


def words_of(action):
    """The words that an option's value may be, with spaces between; none if it may be others."""
    return " ".join(map(str, action.choices or []))


def value_of(action):
    """The word that stands for an option's value; none if it takes none."""
    return "" if action.nargs == 0 else action.metavar or words_of(action).replace(" ", "|")


def is_file(action):
    """Whether a value is a file's name: one of another kind has a type, or is one of some words."""
    return not action.choices and action.type is None


# ---- the man page


def roff(text):
    """A text with its code in bold. No line begins with a request."""
    text = text.replace("\\", "\\e").replace("-", "\\-").replace("'", "\\(aq")
    return re.sub(r"`([^`]*)`", r"\\fB\1\\fR", text if text[:1] != "." else f"\\&{text}")


def usage(command, parser):
    yield f"\\fB{roff(command)}\\fR"
    for option in options(parser):
        yield f"[{flags(option, [option.option_strings[-1]])}]"
    for argument in arguments(parser):
        word = f"\\fI{roff(argument.metavar)}\\fR"
        yield word if argument.nargs is None else f"[{word} ..]"


def flags(action, words):
    """Flags as they are typed, and the value after them."""
    value = value_of(action)
    bold = ", ".join(f"\\fB{roff(word)}\\fR" for word in words)
    return bold + (f" \\fI{roff(value)}\\fR" if value else "")


def terms(paragraph):
    """The rows of a list: a term, and what it is."""
    rows = []
    for line in paragraph.split("\n"):
        if re.match("  ?[^ ]", line):
            rows.append(re.split("   *", line.strip(), maxsplit=1))
        else:
            rows[-1].append(line.strip())
    return [(term, " ".join(about)) for term, *about in rows]


def paragraphs(text):
    for paragraph in filter(None, text.split("\n\n")):
        if paragraph.startswith(" "):
            for term, about in terms(paragraph):
                yield from (".TP", f"\\fB{roff(term)}\\fR", roff(about))
        else:
            yield from (".PP", roff(paragraph.replace("\n", " ")))


def man(command, parser):
    first, _, rest = parser.description.strip().partition("\n\n")
    about, _, status = rest.partition(STATUS)
    statuses, _, behind = f"{STATUS}{status}".partition("\n\n")
    others = [other for other in ("vipr", *COMMANDS) if other != command]
    name = first.replace("\n", " ").rstrip(".")
    lines = [
        f'.\\" Made by build_manual.py from the parser of {command}.',
        f'.TH {command.upper()} 1 "" "vipr {VERSION}" "User commands"',
        ".SH NAME",
        f"{roff(command)} \\- {roff(name[0].lower() + name[1:])}",
        ".SH SYNOPSIS",
        " ".join(usage(command, parser)),
        ".SH DESCRIPTION",
        *paragraphs("\n\n".join(filter(None, [about.strip("\n"), behind]))),
        ".SH OPTIONS",
    ]
    for argument in arguments(parser):
        lines += [".TP", f"\\fI{roff(argument.metavar)}\\fR", roff(argument.help)]
    for option in options(parser):
        lines += [".TP", flags(option, option.option_strings), roff(option.help)]
    lines += [
        '.SH "EXIT STATUS"',
        roff(statuses.replace("\n", " ")),
        '.SH "SEE ALSO"',
        ", ".join(f"\\fB{roff(other)}\\fR(1)" for other in others),
    ]
    return "\n".join(lines) + "\n"


# ---- completions


def bash(command, parser):
    function = "_" + command.replace("-", "_")
    every = " ".join(word for option in options(parser) for word in option.option_strings)
    cases = []
    for option in options(parser):
        if option.choices:
            words = f'COMPREPLY=($(compgen -W "{words_of(option)}" -- "$word"))'
        elif option.nargs != 0 and not is_file(option):
            # (what isn't a file's name isn't completed to one)
            words = "compopt +o bashdefault +o default 2> /dev/null"
        else:
            continue
        cases.append(f'        {"|".join(option.option_strings)}) {words}; return ;;')
    return "\n".join(
        [
            f"# Completion of {command} for bash. Made by build_manual.py from its parser.",
            f"{function}() {{",
            '    local word="${COMP_WORDS[COMP_CWORD]}" before="${COMP_WORDS[COMP_CWORD-1]}"',
            "    COMPREPLY=()",
            "    # after -- there are files alone",
            '    [[ " ${COMP_WORDS[*]:1:COMP_CWORD-1} " == *" -- "* ]] && return',
            "    # bash takes --profile=1 for three words",
            '    if [ "$word" = "=" ]; then',
            '        word=""',
            '    elif [ "$before" = "=" ]; then',
            '        before="${COMP_WORDS[COMP_CWORD-2]}"',
            "    fi",
            *(['    case "$before" in', *cases, "    esac"] if cases else []),
            '    if [ "${word#-}" != "$word" ]; then',
            f'        COMPREPLY=($(compgen -W "{every}" -- "$word"))',
            "    fi",
            "}",
            f"complete -o bashdefault -o default -F {function} {command}",
            "",
        ]
    )


def zsh(command, parser):
    def quoted(text):
        return re.sub(r"([\[\]:\\])", r"\\\1", text).replace("'", "'\\''")

    def values(option):
        """What completes the value of an option: nothing if it takes none."""
        if option.nargs == 0:
            return ""
        if option.choices:
            action = f"({words_of(option)})"
        elif is_file(option):
            action = "_files"
        else:
            action = " "
        return f":{quoted(value_of(option))}:{action}"

    def ending(option, word):
        """How a word of an option ends: by what its value follows."""
        if option.nargs == 0:
            return ""
        return "=" if word.startswith("--") else "+"

    specs = []
    for option in options(parser):
        others = f'({" ".join(option.option_strings)})'
        once = "*" if isinstance(option, argparse._AppendAction) else others
        for word in option.option_strings:
            about = f"[{quoted(option.help)}]{values(option)}"
            specs.append(f"'{once}{word}{ending(option, word)}{about}'")
    for number, argument in enumerate(arguments(parser), 1):
        place = number if argument.nargs is None else "*"
        specs.append(f"'{place}:{quoted(argument.metavar)}:_files'")
    return "\n".join(
        [
            f"#compdef {command}",
            f"# Completion of {command} for zsh. Made by build_manual.py from its parser.",
            " \\\n    ".join(["_arguments -S", *specs]),
            "",
        ]
    )


def fish(command, parser):
    def quoted(text):
        return "'" + text.replace("\\", "\\\\").replace("'", "\\'") + "'"

    lines = [f"# Completion of {command} for fish. Made by build_manual.py from its parser."]
    for option in options(parser):
        words = " ".join(
            f"-l {word[2:]}" if word.startswith("--") else f"-s {word[1:]}"
            for word in option.option_strings
        )
        if option.nargs == 0:
            value = ""
        elif option.choices:
            value = f" -x -a {quoted(words_of(option))}"
        elif is_file(option):
            value = " -r -F"
        else:
            value = " -x"
        lines.append(f"complete -c {command} {words}{value} -d {quoted(option.help)}")
    return "\n".join(lines) + "\n"


def main():
    if len(sys.argv) != 2:
        print(__doc__.split("\n\n")[1])
        return 2
    for name, text in files().items():
        path = Path(sys.argv[1], name)
        path.parent.mkdir(parents=True, exist_ok=True)
        path.write_text(text)
    return 0


if __name__ == "__main__":
    sys.exit(main())
