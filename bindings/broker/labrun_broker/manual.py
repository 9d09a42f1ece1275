"""The man page and the completions, made from the table of words."""

from __future__ import annotations

import argparse
import shlex
from typing import Any, Sequence

from .words import ABOUT, PROGRAM, STATUSES, Word


def arguments_of(word: Word) -> list[Any]:
    parser = argparse.ArgumentParser(add_help=False)
    word.add_arguments(parser)
    return parser._actions


def roff(text: str) -> str:
    text = text.replace("\\", "\\e").replace("-", "\\-").replace("'", "\\(aq").replace("`", "\\(ga")
    return f"\\&{text}" if text.startswith(".") else text


def for_man(words: Sequence[Word]) -> str:
    lines = [f'.TH {PROGRAM.upper()} 1 "" "labrun" "User Commands"', ".SH NAME", f"{PROGRAM} \\- {roff(ABOUT)}"]
    lines += [".SH SYNOPSIS", f".B {PROGRAM}", ".I WORD", "[argument ..]", ".SH WORDS"]
    for word in words:
        lines += [f".SS {word.name}", roff(word.help.capitalize()) + "."]
        for one in arguments_of(word):
            name = ", ".join(one.option_strings) or str(one.metavar or "|".join(one.choices or ()))
            value = f" {one.metavar or '|'.join(one.choices or ())}" if one.option_strings and one.nargs != 0 else ""
            lines += [".TP", f".B {roff(name + value)}", roff(one.help or "")]
    lines.append(".SH EXIT STATUS")
    for number, text in STATUSES:
        lines += [".TP", f".B {roff(number)}", roff(text)]
    return "\n".join([*lines, ".SH SEE ALSO", ".BR labrun (1)", ""])


def options_of(word: Word) -> str:
    given = [it for one in arguments_of(word) for it in (*one.option_strings, *(() if one.option_strings else one.choices or ()))]
    return " ".join(it for it in given if it != "-h")


def for_bash(words: Sequence[Word]) -> str:
    cases = "\n".join(f"        {word.name}) words={shlex.quote(options_of(word))} ;;" for word in words)
    return f"""# Completion of {PROGRAM}'s words, made from its table of words.
_{PROGRAM.replace('-', '_')}() {{
    local words
    if [ "$COMP_CWORD" = 1 ]; then
        words={shlex.quote(' '.join(it.name for it in words))}
    else
        case ${{COMP_WORDS[1]}} in
{cases}
        esac
    fi
    COMPREPLY=($(compgen -W "$words" -- "${{COMP_WORDS[COMP_CWORD]}}"))
}}
complete -o default -F _{PROGRAM.replace('-', '_')} {PROGRAM}
"""


def for_zsh(words: Sequence[Word]) -> str:
    names = "\n".join(f"        {shlex.quote(f'{it.name}:{it.help.replace(chr(58), chr(92) + chr(58))}')}" for it in words)
    cases = "\n".join(f"        {it.name}) compadd -- {options_of(it)}; _files ;;" for it in words)
    return f"""#compdef {PROGRAM}
# Completion of {PROGRAM}'s words, made from its table of words.
local -a words_of_it
words_of_it=(
{names}
)
if (( CURRENT == 2 )); then
    _describe word words_of_it
else
    case $words[2] in
{cases}
    esac
fi
"""
