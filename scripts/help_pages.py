"""What a program's --help says, as a man page and as completions for bash and zsh. scripts/install imports it."""

import re
import shlex
import subprocess


def help_of(program):
    ran = subprocess.run([program, "--help"], stdin=subprocess.DEVNULL, stdout=subprocess.PIPE)
    return ran.stdout.decode() if ran.returncode == 0 else None


def blocks_of(text):
    """The parts of a help, in its order: ("about", line), ("usage", line), ("rows", head, [(words, text)]), ("code", head, lines), or
    ("text", paragraph)."""
    parts = []
    for block in re.split(r"\n{2,}", text.strip("\n")):
        head, *lines = block.split("\n")
        if not parts:
            parts.append(("about", head))
        elif head.startswith("Usage: "):
            parts.append(("usage", head.removeprefix("Usage: ")))
        elif lines and all(it.startswith("  ") for it in lines):
            rows = [re.fullmatch(r"\s+(\S.*?)(?:\s{2,}(\S.*))?", it) for it in lines]
            if head.endswith(":") and rows[0] and rows[0][2]:
                table = []
                for line, row in zip(lines, rows):
                    if row[2]:
                        table.append((row[1], row[2]))
                    else:
                        # (a long text goes on below its first line)
                        table[-1] = (table[-1][0], f"{table[-1][1]} {line.strip()}")
                parts.append(("rows", head.rstrip(":"), table))
            else:
                parts.append(("code", head, [it.removeprefix("  ") for it in lines]))
        else:
            parts.append(("text", " ".join(it.strip() for it in block.split("\n"))))
    return parts


def words_of(text):
    """The words of the command line and the options, each with what it does."""
    rows = {part[1]: part[2] for part in blocks_of(text) if part[0] == "rows"}
    commands = [(words.split()[0], does) for words, does in rows.get("Commands", [])]
    options = [(re.search(r"--[\w-]+", words)[0], does) for words, does in rows.get("Options", []) if "--" in words]
    return commands, options


def roff(text):
    text = text.replace("\\", "\\e")
    for plain, written in (("-", "\\-"), ("'", "\\(aq"), ("`", "\\(ga"), ("^", "\\(ha"), ("~", "\\(ti")):
        text = text.replace(plain, written)
    return f"\\&{text}" if text.startswith((".", "'")) else text


def man_page(program, text, version, programs):
    """The help as a man page: each part of it, in its order, under the heads that man pages have."""
    heads = {"Statuses": "EXIT STATUS"}
    lines, is_description = [f'.TH {program.upper()} 1 "" "labrun {version}" "User Commands"'], False
    for kind, *part in blocks_of(text):
        if kind == "about":
            lines += [".SH NAME", f"{program} \\- {roff(part[0])}"]
        elif kind == "usage":
            lines += [".SH SYNOPSIS", f".B {roff(part[0])}"]
        elif kind == "rows":
            lines += [f".SH {heads.get(part[0], part[0].upper())}"]
            for words, does in part[1]:
                lines += [".TP", f".B {roff(words)}", roff(does)]
        elif kind == "code":
            head, colon, about = part[0].partition(": ")
            lines += [f".SH {head.rstrip(':').upper().rstrip('S')}S"] + ([roff(about)] if colon else [])
            lines += [".PP", ".nf", *map(roff, part[1]), ".fi"]
        else:
            lines += [".PP" if is_description else ".SH DESCRIPTION", roff(part[0])]
        is_description = kind == "text"
    others = [it for it in programs if it != program]
    return "\n".join([*lines, ".SH SEE ALSO", *[f".BR {it} (1)" for it in others], ""])


def for_bash(program, text):
    commands, options = words_of(text)
    first = " ".join(it for it, _ in [*commands, *options])
    return f"""# Completion of {program}'s words, made from its --help.
_{program}() {{
    local word=${{COMP_WORDS[COMP_CWORD]}}
    COMPREPLY=()
    if [ "$COMP_CWORD" = 1 ]; then
        COMPREPLY=($(compgen -W {shlex.quote(first)} -- "$word"))
    elif [[ $word == -* ]]; then
        COMPREPLY=($(compgen -W {shlex.quote(' '.join(it for it, _ in options))} -- "$word"))
    fi
}}
complete -o default -F _{program} {program}
"""


def for_zsh(program, text):
    commands, options = words_of(text)
    row = lambda word, does: "    " + "'" + (word + ":" + does.replace(":", "\\:")).replace("'", "'\\''") + "'"
    return "\n".join(
        [
            f"#compdef {program}",
            f"# Completion of {program}'s words, made from its --help.",
            "local -a words",
            "words=(",
            *[row(word, does) for word, does in [*commands, *options]],
            ")",
            "if (( CURRENT == 2 )); then",
            f"    _describe '{program} word' words",
            "else",
            "    _files",
            "fi",
            "",
        ]
    )
