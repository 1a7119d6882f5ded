"""The man page and the completions from the program's own help, and the exit statuses of docs/USE.md from the man page.
tools/write_pages.py writes them.

completions/vipr.bash, completions/_vipr (zsh) and completions/vipr.fish are made whole. In man/vipr.1 the parts between
`.\\" made: WORD` and `.\\" end` are made: the synopsis and the commands from the help, the causes from docs/FORMAT.md.
"""
import re
import subprocess

from sources import TOP, replaced

PROGRAM = TOP / "crates/vipr/out/vipr"
MAN, USE = TOP / "man/vipr.1", TOP / "docs/USE.md"
USE_MARKS = (
    "<!-- exit statuses: written by `tools/manual.py` from the man page -->",
    "<!-- end of the exit statuses -->",
)


def help_of(*words):
    """What `--help` after these words prints."""
    return subprocess.run(
        [PROGRAM, *words, "--help"], capture_output=True, text=True, check=True
    ).stdout


def section(text, head):
    """The rows of a part of the help: the word or the flags, and what they do."""
    if f"\n{head}:\n" not in text:
        return []
    body = text.split(f"\n{head}:\n", 1)[1].split("\n\n")[0]
    return [
        tuple(re.split(r"  +", row.strip(), maxsplit=1)) for row in body.split("\n") if row.strip()
    ]


class Command:
    """A command as its help describes it."""

    def __init__(self, name, about):
        self.name, self.about = name, about
        text = help_of(name)
        # the help calls the program by the name of its file
        self.usage = "vipr " + re.search(r"^Usage: \S+ (.*)$", text, re.M)[1]
        self.arguments = section(text, "Arguments")
        self.options = section(text, "Options")

    def flags(self):
        """Each option: its flags, whether a value follows, and what it does."""
        for words, about in self.options:
            flags = re.findall(r"--?[a-z][a-z-]*", words)
            yield flags, "<" in words, about


def values_in(about):
    """The values of an option, if its help names them as `1 (the default) or 2`; a file's name
    otherwise."""
    found = re.search(r": (\w+) \(the default\) or (\w+)$", about)
    return list(found.groups()) if found else []


def described():
    """What the help says of the program: a line, its commands, and its options."""
    text = help_of()
    return (
        text.split("\n")[0],
        [Command(*row) for row in section(text, "Commands") if row[0] != "help"],
        [
            (re.findall(r"--?[a-zA-Z][a-z-]*", words), about)
            for words, about in section(text, "Options")
        ],
    )


def bash(commands, options):
    names = [command.name for command in commands]
    flags = [flag for words, _ in options for flag in words]
    top = " ".join([*names, "help", *flags])
    lines = [
        "# Completion of vipr for bash. Made by tools/manual.py from the program's help.",
        "# Files are completed by bash itself, also names with spaces.",
        "_vipr() {",
        '    local word="${COMP_WORDS[COMP_CWORD]}" before="${COMP_WORDS[COMP_CWORD-1]}" words=""',
        "    COMPREPLY=()",
        '    if [ "$COMP_CWORD" -eq 1 ]; then',
        "        compopt +o bashdefault +o default 2> /dev/null",
        f'        COMPREPLY=($(compgen -W "{top}" -- "$word"))',
        "        return",
        "    fi",
        "    # behind -- there are files alone",
        '    [[ " ${COMP_WORDS[*]:1:COMP_CWORD-1} " == *" -- "* ]] && return',
    ]
    valued = {
        flag: values_in(about)
        for command in commands
        for flags, _, about in command.flags()
        for flag in flags
        if values_in(about)
    }
    if valued:
        lines += [
            "    # bash takes --profile=1 for three words",
            '    if [ "$word" = "=" ]; then',
            '        word=""',
            '    elif [ "$before" = "=" ]; then',
            '        before="${COMP_WORDS[COMP_CWORD-2]}"',
            "    fi",
            '    case "$before" in',
        ]
        lines += [
            f'        {flag}) COMPREPLY=($(compgen -W "{" ".join(values)}" -- "$word")); return ;;'
            for flag, values in sorted(valued.items())
        ]
        lines.append("    esac")
    lines.append('    case "${COMP_WORDS[1]}" in')
    lines.append(
        f'        help) [ "$COMP_CWORD" -eq 2 ] && compopt +o bashdefault +o default 2> /dev/null && '
        f'COMPREPLY=($(compgen -W "{" ".join(command.name for command in commands)}" -- "$word")); return ;;'
    )
    for command in commands:
        lines.append(
            f'        {command.name}) words="{" ".join(flag for flags, _, _ in command.flags() for flag in flags)}" ;;'
        )
    lines += [
        "    esac",
        '    if [ "${word#-}" != "$word" ]; then',
        '        COMPREPLY=($(compgen -W "$words" -- "$word"))',
        "    fi",
        "}",
        "complete -o bashdefault -o default -F _vipr vipr",
    ]
    return "\n".join(lines) + "\n"


def zsh_words(text):
    return text.replace("'", "'\\''").replace("[", "\\[").replace("]", "\\]").replace(":", "\\:")


def zsh(commands, options):
    lines = [
        "#compdef vipr",
        "# Completion of vipr for zsh. Made by tools/manual.py from the program's help.",
        "local -a commands",
        "commands=(",
    ]
    lines += [f"    '{command.name}:{zsh_words(command.about)}'" for command in commands]
    lines += [
        "    'help:Prints help of a command'",
        ")",
        "if (( CURRENT == 2 )); then",
        "    _describe command commands",
        "    compadd -- " + " ".join(flag for flags, _ in options for flag in flags),
        "    return",
        "fi",
        'local command="$words[2]"',
        "shift words",
        "(( CURRENT-- ))",
        'case "$command" in',
    ]
    for command in commands:
        specs = []
        for flags, value, about in command.flags():
            after = f"[{zsh_words(about)}]{zsh_value(value, about)}"
            specs += [f"'{flag}{zsh_joined(flag, value)}{after}'" for flag in flags]
        if command.arguments:
            specs.append("'1:file:_files'")
        lines.append(f'    {command.name}) _arguments {" ".join(specs)} ;;')
    lines.append(
        f"    help) _arguments '1:command:({' '.join(command.name for command in commands)})' ;;"
    )
    return "\n".join(lines + ["esac"]) + "\n"


def zsh_joined(flag, value):
    """What joins a flag to its value: it follows --out=, and -o in the same word or the next
    one."""
    if not value:
        return ""
    return "=" if flag.startswith("--") else "+"


def zsh_value(value, about):
    if not value:
        return ""
    return f':value:({" ".join(values_in(about))})' if values_in(about) else ":file:_files"


def fish(commands, options):
    quote = lambda text: "'" + text.replace("\\", "\\\\").replace("'", "\\'") + "'"
    lines = ["# Completion of vipr for fish. Made by tools/manual.py from the program's help."]
    for command in commands:
        lines.append(
            f"complete -c vipr -n __fish_use_subcommand -f -a {command.name} -d {quote(command.about)}"
        )
    lines.append(
        "complete -c vipr -n __fish_use_subcommand -f -a help -d 'Prints help of a command'"
    )
    names = " ".join(command.name for command in commands)
    lines.append(f"complete -c vipr -n '__fish_seen_subcommand_from help' -f -a '{names}'")
    for flags, about in options:
        lines.append(
            "complete -c vipr -n __fish_use_subcommand -f "
            + fish_flags(flags)
            + f" -d {quote(about)}"
        )
    for command in commands:
        for flags, value, about in command.flags():
            needs = (
                ""
                if not value
                else f" -x -a '{' '.join(values_in(about))}'"
                if values_in(about)
                else " -r -F"
            )
            lines.append(
                f"complete -c vipr -n '__fish_seen_subcommand_from {command.name}' "
                f"{fish_flags(flags)}{needs} -d {quote(about)}"
            )
    return "\n".join(lines) + "\n"


def fish_flags(flags):
    return " ".join(
        f"-l {flag[2:]}" if flag.startswith("--") else f"-s {flag[1:]}" for flag in flags
    )


def roff(text):
    return text.replace("\\", "\\e").replace("-", "\\-").replace("'", "\\(aq")


def usage_roff(usage):
    """A usage line: what is typed in bold, what stands for something in italics."""
    parts = []
    for word in usage.split():
        bare = word.strip("[]<>,")
        kind = "I" if bare.isupper() else "B"
        shown = (
            re.sub(re.escape(bare), lambda m: f"\\f{kind}{roff(bare)}\\fR", word, count=1)
            .replace("<", "")
            .replace(">", "")
        )
        parts.append(shown)
    return " ".join(parts)


def man_parts(commands, options):
    synopsis = []
    for command in commands:
        synopsis += [usage_roff(command.usage), ".br"]
    synopsis.append(
        "\\fBvipr\\fR " + " | ".join(f"\\fB{roff(flags[-1])}\\fR" for flags, _ in options)
    )
    rows = []
    for command in commands:
        rows += [".TP", usage_roff(command.usage), roff(command.about) + "."]
        for words, about in command.arguments + [
            o for o in command.options if "--help" not in o[0]
        ]:
            rows += [".RS", ".TP", usage_roff(words), roff(about) + ".", ".RE"]
    causes = []
    page = (TOP / "docs/FORMAT.md").read_text()
    for number, name, cells in re.findall(r"^\| (\d+) \| ([A-Z]\w*) \| (.*) \|$", page, re.M):
        when, *_, why = [
            re.sub(r"\[([^\]]*)\]\([^)]*\)|`", r"\1", cell) for cell in cells.split(" | ")
        ]
        causes += [
            ".TP",
            f"\\fB{number}\\fR {name}",
            roff(when[0].upper() + when[1:]) + ".",
            f"Often: {roff(why)}.",
        ]
    return {"synopsis": synopsis[:], "commands": rows, "causes": causes}


def man(parts):
    text = MAN.read_text()
    for word, lines in parts.items():
        start, end = f'.\\" made: {word}\n', '.\\" end\n'
        text = replaced(text, (start, end), start + "\n".join(lines) + "\n" + end)
    return text


def statuses():
    """docs/USE.md with the exit statuses of the man page."""
    part = (
        MAN.read_text().split(".SH EXIT STATUS\n", 1)[1].split(".SH ", 1)[0].replace("\\(aq", "'")
    )
    rows = [
        f'| {status} | {means.rstrip(".")} |'
        for status, means in re.findall(r"^\.B (\d)\n(.*)$", part, re.M)
    ]
    return replaced(
        USE.read_text(),
        USE_MARKS,
        "\n".join([USE_MARKS[0], "| Status | Means |", "|---|---|", *rows, USE_MARKS[1]]),
    )


def made():
    """Each file, by its path."""
    _, commands, options = described()
    return {
        TOP / "completions/vipr.bash": bash(commands, options),
        TOP / "completions/_vipr": zsh(commands, options),
        TOP / "completions/vipr.fish": fish(commands, options),
        MAN: man(man_parts(commands, options)),
        USE: statuses(),
    }
