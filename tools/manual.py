"""Man pages and completions of a command, made from its own help."""
import re
from collections.abc import Mapping

INDENTED = re.compile(r"(?m)^ +(?:-\w, )?(--[a-z-]+)")


def commands_in(text: str) -> list[str]:
    """The commands that the help of argparse lists."""
    return re.findall(r"(?m)^    ([a-z-]+)(?: |$)", text)


def as_shown(text: str) -> str:
    """A text as roff that a terminal shows line by line."""
    lines = []
    for line in text.splitlines():
        line = line.replace("\\", "\\e").replace("-", "\\-").replace("'", "\\(aq")
        lines.append(f"\\&{line}" if line.startswith(".") else line)
    return "\n".join([".nf", *lines, ".fi"])


def first_words(text: str) -> str:
    """The first sentence of a help that is no line of usage."""
    rest = re.sub(r"(?s)\A[Uu]sage:.*?\n\n", "", text)
    return rest.strip().splitlines()[0].rstrip(".")


def page(name: str, section: int, date: str, text: str, helps: Mapping[str, str]) -> str:
    """The man page of a command with commands of its own."""
    parts = [
        f'.TH {name.upper()} {section} "{date}" "clock auction"',
        f".SH NAME\n{name} \\- {first_words(text)}",
        f".SH SYNOPSIS\n.B {name}\nCOMMAND ...",
        f".SH DESCRIPTION\n{as_shown(text)}",
        ".SH COMMANDS",
        *(f".SS {name} {command}\n{as_shown(helps[command])}" for command in helps),
        ".SH SEE ALSO\n/usr/share/doc/clock\\-auction/docs/operators.md",
    ]
    return "\n".join(parts) + "\n"


def completion(name: str, helps: Mapping[str, str]) -> str:
    """Completions for bash: commands, then their options or names of files."""
    cases = "\n".join(
        f"        {command}) options='{' '.join(sorted(set(INDENTED.findall(helps[command]))))}' ;;"
        for command in helps
    )
    return f"""# Completions of {name} for bash.
_{name}() {{
    local current=${{COMP_WORDS[COMP_CWORD]}} options=''
    if [ "$COMP_CWORD" = 1 ]; then
        mapfile -t COMPREPLY < <(compgen -W '{' '.join(helps)} --help --version' -- "$current")
        return
    fi
    case ${{COMP_WORDS[1]}} in
{cases}
    esac
    if [[ $current == -* ]]; then
        mapfile -t COMPREPLY < <(compgen -W "$options" -- "$current")
    else
        mapfile -t COMPREPLY < <(compgen -f -- "$current")
    fi
}}
complete -o filenames -F _{name} {name}
"""
