#!/usr/bin/env python3
"""Writes what is made from the table of words, `release/words`.

    release/words.py --write            the parts SYNOPSIS, COMMANDS and OPTIONS of docs/crnt.1
    release/words.py --completions DIR  the completions of bash, zsh and fish, in the folders of an installation
    release/words.py                    whether docs/crnt.1 is as --write leaves it: a part of checks/run, by checks/release_test.py
"""

import re
import sys
from pathlib import Path
from typing import NamedTuple

ROOT = Path(__file__).resolve().parent.parent
TABLE = ROOT / "release" / "words"
PAGE = ROOT / "docs" / "crnt.1"


class Command(NamedTuple):
    name: str
    operand: str
    option: str
    reads: str
    sentences: list

    def summary(self):
        return self.sentences[0].rstrip(".")


class Option(NamedTuple):
    name: str
    value: str
    sentences: list

    def summary(self):
        first = self.sentences[0].rstrip(".")
        return first[0].lower() + first[1:]


class Word(NamedTuple):
    """A word that stands for an operand."""

    operand: str
    name: str
    sentences: list


def read_table(text):
    """The commands, the options and the words of operands of a table, in order."""
    commands, options, operands = [], [], []
    for block in re.split(r"\n\s*\n", re.sub(r"^#.*\n", "", text, flags=re.MULTILINE).strip()):
        head, *sentences = [line.strip() for line in block.splitlines()]
        words = ["" if word == "-" else word for word in head.split()]
        if head.startswith("--"):
            options.append(Option(*words, sentences))
        elif len(words) == 2:
            operands.append(Word(*words, sentences))
        else:
            commands.append(Command(*words, sentences))
    return commands, options, operands


def escaped(text):
    return text.replace("\\", "\\e").replace("-", "\\-")


def synopsis(commands, options):
    values = {option.name: option.value for option in options}
    for at, command in enumerate(commands):
        yield f".B crnt {command.name}"
        if command.operand:
            yield f".I {command.operand}"
        if command.option:
            yield f".RB [ {escaped(command.option)}"
            yield f".IR {values[command.option]} ]"
        if command.reads:
            yield ".B <"
            yield f".I {command.reads}"
        if at + 1 < len(commands):
            yield ".br"


def explained(commands, operands):
    for command in commands:
        yield ".TP"
        yield f'.BI {command.name} " {command.operand}"' if command.operand else f".B {command.name}"
        yield from map(escaped, command.sentences)
    for operand in dict.fromkeys(word.operand for word in operands):
        yield ".PP"
        yield f".I {operand}"
        yield "is one of these:"
        for word in operands:
            if word.operand == operand:
                yield ".TP"
                yield f".B {word.name}"
                yield from map(escaped, word.sentences)
    yield ".PP"
    yield "Any other words give a usage line."


def options_explained(commands, options):
    for option in options:
        yield ".TP"
        yield f'.BI {escaped(option.name)} " {option.value}" \\fR,\\ \\fB{escaped(option.name)}= {option.value}'
        yield from map(escaped, option.sentences)
        without = [command.name for command in commands if command.option != option.name]
        yield f".B {without[0]}"
        for name in without[1:]:
            yield "and"
            yield f".B {name}"
        yield "takes none." if len(without) == 1 else "take none."


def page_with(page, commands, options, operands):
    """The manual page with the parts that the table says."""
    parts = {"SYNOPSIS": synopsis(commands, options), "COMMANDS": explained(commands, operands), "OPTIONS": options_explained(commands, options)}
    for name, lines in parts.items():
        before, head, rest = page.partition(f".SH {name}\n")
        assert head, f"docs/crnt.1 has no part {name}"
        _, following, after = rest.partition(".SH ")
        page = before + head + "".join(f"{line}\n" for line in lines) + following + after
    return page


def bash(commands, options, operands):
    names = " ".join(command.name for command in commands)
    cases = ""
    for command in commands:
        words = " ".join(word.name for word in operands if word.operand == command.operand)
        no_options = "" if command.option else ' options=""'
        cases += f'            {command.name}) words="{words}"{no_options} ;;\n'
    for word in operands:
        cases += f'            {word.name}) words="" ;;\n'
    return f"""\
# Completes the words of crnt in bash.
_crnt() {{
    local at word=${{COMP_WORDS[COMP_CWORD]}} words="{names}" options="{' '.join(option.name for option in options)}"
    [ "${{COMP_WORDS[COMP_CWORD - 1]}}" != {options[0].name} ] || return
    for ((at = 1; at < COMP_CWORD; at++)); do
        case ${{COMP_WORDS[at]}} in
{cases}        esac
    done
    mapfile -t COMPREPLY < <(compgen -W "$words $options" -- "$word")
}}
complete -o default -F _crnt crnt
"""


def zsh(commands, options, operands):
    summaries = {command.name: command.summary().replace(":", r"\:") for command in commands}
    rows = " ".join(rf'{name}\:"{summary}"' for name, summary in summaries.items())
    words = " ".join(rf'{word.name}\:"{word.sentences[0].rstrip(".")}"' for word in operands)
    flags = " ".join(f"'{option.name}=[{option.summary()}]:{option.value}:'" for option in options)
    return f"""\
#compdef crnt
# Completes the words of crnt in zsh.
_arguments {flags} '1:command:(({rows}))' '2:number or part:(({words}))'
"""


def fish(commands, options, operands):
    lines = ["# Completes the words of crnt in fish.", "complete -c crnt -f"]
    for command in commands:
        lines.append(f"complete -c crnt -n __fish_use_subcommand -a {command.name} -d '{command.summary()}'")
    for word in operands:
        takers = " ".join(command.name for command in commands if command.operand == word.operand)
        lines.append(f"complete -c crnt -n '__fish_seen_subcommand_from {takers}' -a {word.name} -d '{word.sentences[0].rstrip('.')}'")
    for option in options:
        without = " ".join(command.name for command in commands if command.option != option.name)
        lines.append(f"complete -c crnt -n 'not __fish_seen_subcommand_from {without}' -l {option.name[2:]} -x -d '{option.summary()}'")
    return "\n".join(lines) + "\n"


COMPLETIONS = {"share/bash-completion/completions/crnt": bash, "share/zsh/site-functions/_crnt": zsh,
               "share/fish/vendor_completions.d/crnt.fish": fish}


def main(words):
    table = read_table(TABLE.read_text("utf-8"))
    if words[:1] == ["--completions"]:
        for name, written in COMPLETIONS.items():
            path = Path(words[1]) / name
            path.parent.mkdir(parents=True, exist_ok=True)
            path.write_text(written(*table), "utf-8")
        return 0
    page = PAGE.read_text("utf-8")
    wanted = page_with(page, *table)
    if words == ["--write"]:
        PAGE.write_text(wanted, "utf-8")
    elif page != wanted:
        print("docs/crnt.1 is not what release/words says: release/words.py --write")
        return 1
    return 0


if __name__ == "__main__":
    sys.exit(main(sys.argv[1:]))
