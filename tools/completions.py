#!/usr/bin/env python3
"""Makes the completions of rock for a shell from its help text.

    rock --help | tools/completions.py bash >docs/completions/rock.bash
    rock --help | tools/completions.py zsh >docs/completions/_rock
    tools/completions.py --help

The help text comes on standard input, and the completions go to standard output. They offer the commands and the options,
and files where a command takes a NAME; zsh also says of each other word what it is. docs/completions/ has them as they are
made, and tests/install.sh compares them with the help text.

Exit status:
  0  the completions were written
  1  standard input is not the help text of rock, or standard output did not take the completions
  2  the words are wrong
At 1 and 2 one line on standard error says why.
"""
import re
import sys
from typing import NamedTuple

MADE = "made from its help text by tools/completions.py."


class Refused(Exception):
    """Why nothing is made, in words for the user."""


class Help(NamedTuple):
    """What the help text says: the words of each command, and what each command, word and option is."""

    usage: dict
    commands: dict
    words: dict
    options: dict

    def places(self, word):
        """The places of a word in the command lines, as 'list:2'."""
        return [f"{name}:{place}" for name, words in self.usage.items() for place, it in enumerate(words, 2) if it == word]


def read_help(text):
    usage = re.findall(r"(?m)^(?:Usage: | {7})rock (\w+)((?: <\w+>)+)$", text)
    found = Help(
        {name: re.findall(r"\w+", words) for name, words in usage},
        dict(section(text, "Commands", r"(\w+)")),
        dict(section(text, "Arguments", r"<(\w+)>")),
        dict(section(text, "Options", r"(--\w+)")),
    )
    words = {word for words in found.usage.values() for word in words}
    if not found.usage or list(found.usage) != list(found.commands) or words != set(found.words) or not found.options:
        raise Refused("standard input is not the help text of rock")
    return found


def section(text, heading, form):
    """The names and the sentences of a list in the help text."""
    rows = re.search(rf"(?m)^{heading}:\n((?: +.*\n)+)", text)
    return re.findall(rf"(?m)^ +{form} +(.*)$", rows.group(1) if rows else "")


def quoted(text):
    return "'" + text.replace("'", "'\\''") + "'"


def for_bash(said):
    first = " ".join([*said.commands, *said.options])
    return f"""\
# Completion of rock for bash, {MADE}
_rock() {{
    local word=${{COMP_WORDS[COMP_CWORD]}}
    COMPREPLY=()
    case ${{COMP_WORDS[1]}}:$COMP_CWORD in
    *:1) mapfile -t COMPREPLY < <(compgen -W {quoted(first)} -- "$word") ;;
    {" | ".join(said.places("NAME"))}) compopt -o default ;;
    esac
}}
complete -F _rock rock
"""


def message(said, word):
    """What zsh says at the places of a word. A % would stand for something there."""
    text = f"{word}: {said.words[word]}".replace("%", "%%")
    return f"    ({'|'.join(said.places(word))}) _message {quoted(text)} ;;"


def for_zsh(said):
    described = [[f"        {quoted(f'{name}:{text}')}" for name, text in rows.items()] for rows in (said.commands, said.options)]
    commands, options = ("\n".join(rows) for rows in described)
    messages = "\n".join(message(said, word) for word in said.words if word != "NAME")
    return f"""\
#compdef rock
# Completion of rock for zsh, {MADE}
_rock() {{
    local -a commands options
    commands=(
{commands}
    )
    options=(
{options}
    )
    if (( CURRENT == 2 )); then
        _describe -t commands command commands
        _describe -o -t options option options
        return
    fi
    case $words[2]:$(( CURRENT - 1 )) in
    ({'|'.join(said.places("NAME"))}) _files ;;
{messages}
    esac
}}
_rock "$@"
"""


def main():
    words = sys.argv[1:]
    if words == ["--help"]:
        print(__doc__.strip())
        return 0
    made = {"bash": for_bash, "zsh": for_zsh}
    if len(words) != 1 or words[0] not in made:
        print("completions.py: the only word is bash, zsh or --help", file=sys.stderr)
        return 2
    try:
        text = made[words[0]](read_help(sys.stdin.read()))
        with open(1, "w", encoding="ascii", closefd=False) as output:
            output.write(text)
    except (Refused, OSError, UnicodeError) as cause:
        print(f"completions.py: {cause}", file=sys.stderr)
        return 1
    return 0


if __name__ == "__main__":
    sys.exit(main())
