"""Reads BioNetGen's generated networks, the files `.net`: the blocks of species and of reactions."""

from __future__ import annotations

import re
from fractions import Fraction

from .errors import NotImported
from .model import Model, ModelReaction, Side

#: What begins in files of BioNetGen, and in those with rules alone.
BLOCKS = re.compile(r"^\s*begin (?:parameters|species|reactions|model|molecule types|seed species|reaction rules)\b", re.MULTILINE)
RULES = re.compile(r"^\s*begin (?:molecule types|seed species|reaction rules)\b", re.MULTILINE)
BLOCK = re.compile(r"begin (\w+)\s(.*?)^\s*end \1", re.MULTILINE | re.DOTALL)
SPECIES = re.compile(r"(\d+)\s+(\$?)(\S+)\s+\S.*")
REACTION = re.compile(r"(\d+)\s+([\d,]+)\s+([\d,]+)\s+(.*)")


def lines_of(text: str, name: str) -> list[str]:
    """The lines of a block, without comments at their ends."""
    return [line.strip() for found in BLOCK.finditer(text) if found[1] == name for line in found[2].splitlines()
            if line.strip() and not line.strip().startswith("#")]


def read(text: str, origin: str) -> Model:
    """The model of a `.net` file. Raises NotImported."""
    if RULES.search(text) and not lines_of(text, "reactions"):
        raise NotImported("the file", "it has rules and no generated network: let BioNetGen write one, by generate_network()")
    model = Model(f"{origin} (BioNetGen)")
    for line in lines_of(text, "species"):
        found = SPECIES.fullmatch(line)
        if not found:
            raise NotImported("species", f"the line {line!r} is no number, pattern and amount")
        model.add_species(found[1], found[3], "fixed ($)" if found[2] else "")
    for line in lines_of(text, "reactions"):
        found = REACTION.fullmatch(line)
        if not found:
            raise NotImported("reactions", f"the line {line!r} is no number, reactants, products and rate")
        where = f"reaction {found[1]}"
        left, right = (side_of(found[k], model, where) for k in (2, 3))
        model.reactions.append(ModelReaction(where, left, right, remark=f"rate {found[4]}"))
    return model


def side_of(text: str, model: Model, where: str) -> Side:
    """The species that a list of numbers names; 0 stands for nothing."""
    numbers = [number for number in text.split(",") if number != "0"]
    for number in numbers:
        if number not in model.species:
            raise NotImported(where, f"there is no species {number}")
    return [(number, Fraction(1)) for number in numbers]
