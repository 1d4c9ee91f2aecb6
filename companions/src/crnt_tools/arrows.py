"""Reads reactions as other tools and papers write them: `A --> B`, `2 A <=> B ; k1`, `∅ → X`, `k1, E + S -k-> ES`.

What a line may say in two ways is refused, so that no network is read that was not meant."""

from __future__ import annotations

import re
from dataclasses import dataclass
from fractions import Fraction
from typing import Sequence

from .errors import NotImported
from .model import Model, ModelReaction, Side

LABEL = r"(?:\[[^\]]*\]|\{[^}]*\}|\([^()]*\))?"
WORD = r"[^\s<>=+-]+"
#: Arrows by their direction. Of two that begin at one place the first in this table is taken.
ARROWS = (
    ("both", rf"<[=-]+>{LABEL}|<-+{WORD}-+>|<\s+-\s*>|<-\s+-?>|[⇌⇋⇄⇆↔⟷⇔⟺]{LABEL}"),
    ("both", r"\\(?:long)?leftrightarrow\b|\\rightleftharpoons\b|\\leftrightharpoons\b"),
    ("left", rf"<-+{LABEL}|<\s+-|<=+|<[–—−]|[←⟵⇐⟸]{LABEL}|\\(?:long)?leftarrow\b"),
    ("right", rf"(?<!\S)-+\[[^\]]*\]-*>|(?:(?<!\S)-|--)-*{WORD}-+>|[-–—−=~]+>{LABEL}|-\s+>|>>|[→⟶⇒⟹⇀⟼↦]{LABEL}"),
    ("right", r"\\xrightarrow(?:\[[^\]]*\])?\{[^}]*\}|\\(?:long)?rightarrow\b|\\to\b"),
)
#: Marks that are arrows only where a line has no other: `=`, and what is left of an arrow that was copied from a page.
WEAK = (
    ("both", r"(?<![:!<>=])==?(?!=)|(?<!\S)\*\)(?!\S)"), ("left", r"(?<!\S)<(?!\S)"), ("right", r"(?<!\S)[>à!](?!\S)"),
)
NOTHING = ("", "0", "0.0", "∅", "Ø", "ø", "⌀", "{}", "[]", "()", '""', r"\emptyset", r"\varnothing", "*", "$", ".")
COMMENT = re.compile(r"#|//|%|/\*.*?\*/|(?<=\s)--(?=\s)")
SUM = re.compile(r"\s*\d*\s*[A-Za-z_][\w']*(?:\s*\+\s*\d*\s*[A-Za-z_][\w']*)*\s*")
NAME_OF_LINE = re.compile(r"([A-Za-z_][\w.]*|\[\w+\]|\(\w+\)|\d+):\s+|\[(\w+)\]\s+(?=[^\s+<>=-])")
TWO_READINGS = re.compile(r"(?:\((?!1\))\d+\)|(?!1\.)\d+\.)\s+")
CONSTANT = r"k_\w+|k\w{0,4}"
RATE = re.compile(rf"{CONSTANT}|[\d.eE+-]+|\(.*\)|.*[*/^].*")
AFTER = re.compile(r"\s*(?:[:@{]|\s\[|\s\(|\\\\?\s*$|\.\s*$|\s[A-Za-z]\w*\s*=|\s!\s)")
LAST_WORD = re.compile(rf"(.*[^\s+])\s+({CONSTANT}|\d[\d.eE+-]*|\w+(?:\s*\*\s*\w+)+)\s*")
#: Antimony's mark of a species that is held constant. In a formula of LaTeX a dollar is something else.
HELD = re.compile(r"\$([A-Za-z_]\w*)")
AMOUNT = re.compile(r"\(?(\d+(?:\.\d*)?(?:[eE][+-]?\d+)?(?:/\d+)?|\.\d+)\)?\s*[*·×]?\s*")


@dataclass(frozen=True)
class Statement:
    """One arrow of a line, from left to right, or both ways."""

    left: Side
    right: Side
    reversible: bool


def without_comment(line: str) -> str:
    found = COMMENT.search(line)
    if found and found[0].startswith("/*"):
        return line[: found.start()] + line[found.end() :]
    return line[: found.start()] if found else line


class Arrows:
    """Finds the arrows of one table."""

    def __init__(self, table: Sequence[tuple[str, str]]):
        self.ways = [way for way, _ in table]
        self.pattern = re.compile("|".join(f"({pattern})" for _, pattern in table))

    def of(self, text: str) -> list[tuple[int, int, str]]:
        """Where the arrows of a text begin and end, and their directions."""
        return [(it.start(), it.end(), self.ways[(it.lastindex or 1) - 1]) for it in self.pattern.finditer(text)]


STRONG_ARROWS, WEAK_ARROWS = Arrows(ARROWS), Arrows(WEAK)


def arrows_in(text: str) -> Arrows:
    """The table whose arrows count in a text."""
    return STRONG_ARROWS if STRONG_ARROWS.of(text) else WEAK_ARROWS


def read_line(line: str) -> list[Statement] | None:
    """What a line states: nothing if it is empty or a comment, None if it states no reaction. Raises ValueError if it
    cannot be read, or in two ways."""
    body = re.sub(r"\\ce\{(.*)\}", r"\1", without_comment(line)).replace("$", " ").strip()
    if not body:
        return []
    table = arrows_in(body)
    found: list[Statement] = []
    pieces = [piece for piece in pieces_of(body) if not is_assignment(piece, table)]
    if not any(map(table.of, pieces)):
        return None
    for piece in pieces:
        if table.of(piece):
            found += chain(piece, table)
        elif not found and not RATE.fullmatch(piece.strip()):
            raise ValueError(f"{piece.strip()!r} before a comma may be a rate or a species: write + between species")
    return found


def is_assignment(piece: str, table: Arrows) -> bool:
    """`k1 = 0.5`, `v = k1*A` or `A = 0`: an equals sign, and one side that is no sum of species."""
    for start, end, _ in table.of(piece)[:1]:
        sides = (piece[:start], without_rate(piece[end:]))
        return set(piece[start:end]) == {"="} and not all(SUM.fullmatch(side) or side.strip() == "∅" for side in sides)
    return False


def pieces_of(body: str) -> list[str]:
    """What commas and semicolons divide, but for those within brackets."""
    pieces, depth = [""], 0
    for char in body:
        depth += (char in "([{") - (char in ")]}")
        if char in ";," and depth <= 0:
            pieces.append("")
        else:
            pieces[-1] += char
    return [piece for piece in pieces if piece.strip()]


def chain(piece: str, table: Arrows) -> list[Statement]:
    """The arrows of one statement; `A -> B -> C` has two."""
    named = NAME_OF_LINE.match(piece.lstrip())
    text = piece.lstrip()[named.end() :] if named else piece.strip()
    if TWO_READINGS.match(text):
        raise ValueError(f"{text.split()[0]!r} may be an amount or the number of the line")
    arrows = table.of(text)
    starts, ends = [0, *(end for _, end, _ in arrows)], [*(start for start, _, _ in arrows), len(text)]
    texts = [text[start:end] for start, end in zip(starts, ends)]
    texts[-1] = without_rate(texts[-1])
    if not all(part.strip() for part in texts[1:-1]):
        raise ValueError("nothing between two arrows")
    sides = [side_of(part) for part in texts]
    return [
        Statement(right, left, False) if way == "left" else Statement(left, right, way == "both")
        for left, (_, _, way), right in zip(sides, arrows, sides[1:])
    ]


def without_rate(text: str) -> str:
    """The last side without a rate constant, a note or a full stop after it."""
    found = AFTER.search(text, 1)
    if found and text[: found.start()].strip():
        text = text[: found.start()]
    last = LAST_WORD.fullmatch(text)
    return last[1] if last and not AMOUNT.fullmatch(last[1].split("+")[-1].strip()) else text


def side_of(text: str) -> Side:
    """The terms of a side."""
    text = text.strip()
    if text in NOTHING:
        return []
    product = re.fullmatch(r"(\d+)\s*\(([^()]*)\)", text)
    if product:
        return [(name, amount * int(product[1])) for name, amount in side_of(product[2])]
    return [term for part in terms_of(text) for term in ([] if part == "0" else [term_of(part)])]


def terms_of(text: str) -> list[str]:
    """What pluses divide. A plus that ends a word, as in `Ca2+ + A`, is a charge, and one within brackets is of the name."""
    parts, depth = [""], 0
    for at, char in enumerate(text):
        depth += (char in "([{") - (char in ")]}")
        after_word, before_word = at > 0 and not text[at - 1].isspace(), at + 1 < len(text) and not text[at + 1].isspace()
        if char == "+" and depth <= 0 and (before_word or not after_word):
            parts.append("")
        else:
            parts[-1] += char
    if not all(part.strip() for part in parts):
        raise ValueError(f"a plus in {text!r} is not between two species")
    return [part.strip() for part in parts]


def term_of(text: str) -> tuple[str, Fraction]:
    """A species and its amount: `A`, `2A`, `2 A`, `2*A`, `0.5 A`, `1/2 A`, `A*2`."""
    found, amount, name = AMOUNT.match(text), Fraction(1), text
    if found and re.match(r"[A-Za-z_\[\"'<(]|[^\x00-\x7f]", text[found.end() :]):
        amount, name = Fraction(found[1]), text[found.end() :]
    after = re.fullmatch(r"(\S+?)\s*\*\s*(\d+)", name)
    if after:
        amount, name = amount * int(after[2]), after[1]
    for opening, closing in (("[", "]"), ('"', '"'), ("'", "'"), ("<", ">"), ("(", ")")):
        if len(name) > 2 and name.startswith(opening) and name.endswith(closing):
            name = name[1:-1]
    if re.search(r"\s", name):
        raise ValueError(f"{text!r} is more than one species, with no + between")
    if re.match(r"[-–−]", name) or re.search(r"\^\d+$", name) or re.fullmatch(r"[\d./]*", name):
        raise ValueError(f"{text!r} is no species with a positive amount")
    return name, amount


def held_names(line: str) -> list[str]:
    """The species that a line marks as held constant, `$X -> A` or `species $X`."""
    body = without_comment(line)
    found = HELD.findall(body)
    return found if len(found) == body.count("$") and "\\" not in body else []


def goes_on(line: str, next_line: str) -> bool:
    """A reaction that goes on in the next line, as `A + B` and then `-> C`."""
    one, other = without_comment(line).strip(), without_comment(next_line).strip()
    arrows, after = arrows_in(one).of(one), arrows_in(other).of(other)
    ends_early = not one.endswith("++") and one.endswith("+") and not arrows or other.startswith("+") and not arrows
    cut_before = bool(after) and after[0][0] == 0 and not arrows and bool(SUM.fullmatch(one))
    cut_after = bool(arrows) and arrows[-1][1] == len(one) and not after and bool(SUM.fullmatch(other))
    return bool(one and other) and (ends_early or cut_before or cut_after)


def read(text: str, origin: str) -> Model:
    """The model that lines of reactions say. Raises NotImported with the line that cannot be read."""
    model, lines = Model(origin), text.splitlines()
    held = {name for line in lines for name in held_names(line)}
    for number, (line, next_line) in enumerate(zip(lines, [*lines[1:], ""]), 1):
        where = f"line {number}: {line.strip()}"
        try:
            statements = read_line(line)
            if goes_on(line, next_line):
                raise ValueError("the reaction goes on in the next line: write it on one")
        except ValueError as fault:
            raise NotImported(where, str(fault)) from None
        if statements is None:
            model.passed_over.append(f"no reaction was read in {where}")
        for statement in statements or []:
            for name, _ in [*statement.left, *statement.right]:
                model.add_species(name, held="held constant ($)" if name in held else "")
            model.reactions.append(ModelReaction(where, statement.left, statement.right, statement.reversible))
    return model
