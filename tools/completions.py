"""The completions of `sandpile` for bash, zsh and fish, made from the program's own help."""

from __future__ import annotations

import re
from collections.abc import Iterator
from pathlib import Path

import program_help

# What help says of a command or an option, by name.
Table = dict[str, str]


def options(program: Path, command: str) -> Iterator[tuple[str, bool, str]]:
    """The options of a command: name, whether a value follows, and what it does."""
    for spelled, meaning in program_help.options_of(program, command).items():
        name, _, value = spelled.partition("--")[2].partition(" ")
        yield name, bool(value), meaning


def for_bash(program: Path, table: Table) -> str:
    words = {name: " ".join(f"--{option}" for option, _, _ in options(program, name)) for name in table}
    cases = "\n".join(f"        {name}) words='{words[name]}' ;;" for name in table)
    return f"""# Completion of sandpile for bash.
_sandpile() {{
    local words
    case ${{COMP_WORDS[1]}} in
{cases}
        *) words='{' '.join(table)} --help --version' ;;
    esac
    mapfile -t COMPREPLY < <(compgen -W "$words" -- "${{COMP_WORDS[COMP_CWORD]}}")
}}
complete -F _sandpile sandpile
"""


def quoted(text: str) -> str:
    """A text in single quotes, without the signs that zsh reads in a description."""
    plain = re.sub(r"\[default: (\w+)\]", r"(default \1)", text)
    return "'" + re.sub(r"[\[\]']", "", plain.replace(":", ",")) + "'"


def for_zsh(program: Path, table: Table) -> str:
    names = "\n".join(f"        {quoted(name)[:-1]}:{quoted(text)[1:]}" for name, text in table.items())
    cases = "\n".join(
        f"        {name}) _arguments "
        + " ".join(
            f"'--{option}[{quoted(text)[1:-1]}]{':value: ' if value else ''}'" for option, value, text in options(program, name)
        )
        + " ;;"
        for name in table
    )
    return f"""#compdef sandpile
# Completion of sandpile for zsh.
_sandpile() {{
    local -a names=(
{names}
    )
    if (( CURRENT == 2 )); then
        _describe command names
        _arguments '--help[Print help]' '--version[Print version]'
        return
    fi
    local command=$words[2]
    shift words
    (( CURRENT-- ))
    case $command in
{cases}
    esac
}}
_sandpile "$@"
"""


def for_fish(program: Path, table: Table) -> str:
    lines = ["# Completion of sandpile for fish.", "complete -c sandpile -f"]
    lines.append("complete -c sandpile -n __fish_use_subcommand -l version -d 'Print version'")
    for name, text in table.items():
        lines.append(f"complete -c sandpile -n __fish_use_subcommand -a {name} -d {quoted(text)}")
        for option, value, meaning in options(program, name):
            takes = " -x" if value else ""
            lines.append(f"complete -c sandpile -n '__fish_seen_subcommand_from {name}' -l {option}{takes} -d {quoted(meaning)}")
    return "\n".join(lines) + "\n"
