"""What to write instead of a line that is refused. The program says the code; docs/FORMATS.md has more examples."""

from __future__ import annotations

from .model import legal_names, side_text, whole_sides
from .arrows import read_line
from .errors import NotImported
from .model import ModelReaction

#: For each code of a refusal, what helps.
CURES = {
    1: "both sides are the same complex: leave the line out, or say what changes",
    2: "a network has 60 species at most: split it, or leave species out",
    3: "a network has 160 complexes at most: split it",
    4: "a network has 240 reactions at most: split it",
    5: "the text states no reaction: write at least one, as `A -> B`",
    11: "outside comments only ASCII is read: write `->` for an arrow, `0` for nothing, and names of letters, digits and _",
    12: "a line that is no comment needs an arrow; a comment begins with #",
    13: "between two arrows or pluses there has to be a species; nothing at all is written 0, as in `0 -> A`",
    14: "a term is a name, or a number and a name, and + is between terms; a rate constant goes into a comment: `A -> B # k1`",
    15: "a name has at most 32 bytes: shorten it",
    16: "an amount is at least 1: leave the term out, or write 0 alone for nothing",
    17: "an amount is at most 99, repeats on a side added up",
    18: "the arrows are ->, <- and <->, names have letters, digits and _, amounts are whole numbers; all else goes into a "
        "comment after #",
    19: "a text has at most 2,097,152 bytes",
}


def suggestion(line: str) -> str:
    """The line as a network text would have it, if it can be read as other tools write reactions; else nothing."""
    try:
        statements = read_line(line)
    except ValueError:
        return ""
    made = []
    for statement in statements or []:
        names = legal_names({name: name for name, _ in [*statement.left, *statement.right]})
        try:
            left, right, scale = whole_sides(ModelReaction("", statement.left, statement.right))
        except NotImported:
            return ""
        if left == right or scale > 1:
            return ""
        made.append(f"{side_text(left, names)} {'<->' if statement.reversible else '->'} {side_text(right, names)}")
    return "; ".join(f"`{text}`" for text in made)


def cure(code: int, line: str) -> str:
    """What to write instead of a refused line."""
    general = CURES.get(code, "see docs/FORMATS.md")
    written = suggestion(line) if code >= 11 else ""
    return f"{general}. Perhaps: {written}" if written else general
