"""Models of other tools on their way to a network text: names made legal, amounts made whole, and where each came from."""

from __future__ import annotations

import math
import re
import unicodedata
from collections import Counter
from dataclasses import dataclass, field
from fractions import Fraction

from .errors import NotImported
from .network import MOST_AMOUNT, MOST_BYTES_OF_NAME, MOST_REACTIONS, MOST_SPECIES

#: A side of an arrow: the key of a species and how much of it, as the model has them, repeats and all.
Side = list[tuple[str, Fraction]]

LEGAL = re.compile(r"[A-Za-z_][A-Za-z0-9_]*")
MARKS = {"*": "_star", "'": "_prime", "′": "_prime", "″": "_prime2", "#": "_hash"}
CHARGE = re.compile(r"[+\-−⁺⁻]+$")
GREEK_CASES = re.compile(r"GREEK (SMALL|CAPITAL) LETTER (?:FINAL )?([A-Z]+)")


@dataclass
class ModelSpecies:
    """A species of a model: its key there, what it is called in comments, and, if its amount is held constant or set from
    outside, how."""

    key: str
    called: str
    held: str = ""


@dataclass
class ModelReaction:
    """A reaction of a model: where it is, and what is worth a comment."""

    where: str
    reactants: Side
    products: Side
    reversible: bool = False
    modifiers: list[str] = field(default_factory=list)
    remark: str = ""


@dataclass
class Model:
    """What was read of a file: `origin` is said at the head of the text, each remark in a comment below it, and each line
    that was passed over is a warning, too."""

    origin: str
    species: dict[str, ModelSpecies] = field(default_factory=dict)
    reactions: list[ModelReaction] = field(default_factory=list)
    remarks: list[str] = field(default_factory=list)
    passed_over: list[str] = field(default_factory=list)

    def add_species(self, key: str, called: str = "", held: str = "") -> None:
        self.species.setdefault(key, ModelSpecies(key, called or key, held))


@dataclass(frozen=True)
class Imported:
    """A network text, and for each species of the model that is in it the name that it has there."""

    text: str
    names: dict[str, str]
    warnings: tuple[str, ...]


def letters(char: str) -> str:
    """What stands for a character in a legal name."""
    if char in MARKS or char.isascii():
        return MARKS.get(char, char if char.isalnum() else "_")
    greek = GREEK_CASES.match(unicodedata.name(char, ""))
    if greek:
        return greek[2].lower() if greek[1] == "SMALL" else greek[2].capitalize()
    plain = unicodedata.normalize("NFKD", char).encode("ascii", "ignore").decode()
    return plain if plain.isalnum() else "_"


def legal_name(called: str) -> str:
    """A legal name that is near to this one; a charge at its end is said in words, and other marks are underscores."""
    body = CHARGE.sub("", called)
    name = body
    if not LEGAL.fullmatch(body):
        name = re.sub(r"__+", "_", "".join(map(letters, body))).rstrip("_")
    name += "".join("_plus" if char in "+⁺" else "_minus" for char in called[len(body) :])
    name = name if body.startswith("_") else name.lstrip("_")
    return (name if LEGAL.match(name) else f"X{name}")[:MOST_BYTES_OF_NAME]


def legal_names(called: dict[str, str]) -> dict[str, str]:
    """A legal name for each key, no two alike. Names that are legal already stay as they are."""
    kept = {key: name for key, name in called.items() if LEGAL.fullmatch(name) and len(name) <= MOST_BYTES_OF_NAME}
    alone = {name for name, times in Counter(kept.values()).items() if times == 1}
    taken, names = set(alone), {}
    for key, name in called.items():
        if kept.get(key) in alone:
            names[key] = name
            continue
        wanted, made, count = legal_name(name), "", 1
        while not made or made in taken:
            tail = "" if count == 1 else f"_{count}"
            made, count = wanted[: MOST_BYTES_OF_NAME - len(tail)] + tail, count + 1
        taken.add(made)
        names[key] = made
    return names


def whole_sides(reaction: ModelReaction) -> tuple[dict[str, int], dict[str, int], int]:
    """The amounts of both sides as whole numbers, repeats added up, and what they were multiplied by."""
    sums: list[dict[str, Fraction]] = []
    for side in (reaction.reactants, reaction.products):
        amounts: dict[str, Fraction] = {}
        for key, amount in side:
            if amount < 0:
                raise NotImported(reaction.where, f"the amount of {key} is negative")
            amounts[key] = amounts.get(key, Fraction(0)) + amount
        sums.append({key: amount for key, amount in amounts.items() if amount})
    scale = math.lcm(1, *(amount.denominator for side in sums for amount in side.values()))
    for side_sums in sums:
        for key, amount in side_sums.items():
            if amount * scale > MOST_AMOUNT:
                scaled = f", {amount * scale} where all amounts of the reaction are whole" if scale > 1 else ""
                raise NotImported(reaction.where, f"the amount of {key} is {amount}{scaled}; {MOST_AMOUNT} is the most")
    left, right = ({key: int(amount * scale) for key, amount in side.items()} for side in sums)
    return left, right, scale


def side_text(amounts: dict[str, int], names: dict[str, str]) -> str:
    return " + ".join(f"{n}{names[key]}" if n > 1 else names[key] for key, n in amounts.items()) or "0"


def comment(text: str) -> str:
    return " ".join(text.split())


def sum_text(side: Side, called: dict[str, str]) -> str:
    """A side as the model has it, for a comment."""
    return " + ".join(f"{amount if amount != 1 else ''} {called[key]}".strip() for key, amount in side) or "nothing"


def written(model: Model, keep_held: bool = False, keep_modifiers: bool = False) -> Imported:
    """The network text of a model. Species that are held constant are left out unless `keep_held`; modifiers are left out,
    or are put on both sides if `keep_modifiers`. Raises NotImported."""
    if not model.reactions:
        raise NotImported("the file", "it has no reaction")
    dropped = {key for key, it in model.species.items() if it.held and not keep_held}
    rows = [(reaction, *sides_kept(reaction, dropped, keep_modifiers)) for reaction in model.reactions]
    used = {key: None for _, left, right, _ in rows for key in [*left, *right]}
    called = {key: it.called for key, it in model.species.items()}
    names = legal_names({key: legal_key(model.species[key]) for key in used})
    lines = [f"# {comment(model.origin)}", *(f"# {comment(remark)}" for remark in [*model.remarks, *model.passed_over])]
    lines += species_lines(model, names, dropped)
    seen: dict[tuple[str, str], None] = {}
    for reaction, left, right, scale in rows:
        lines.append(reaction_line(reaction, side_text(left, names), side_text(right, names), scale, called))
        seen.update({(side_text(left, names), side_text(right, names)): None} if left != right else {})
    if not seen:
        alike = all(left == right for left, right, _ in map(whole_sides, model.reactions))
        raise NotImported("the file", "the two sides of each reaction are the same" if alike else
                          "no reaction is left once the species that are held constant are left out")
    return Imported("\n".join([*lines, ""]), names, (*model.passed_over, *warnings_of(len(names), len(seen))))


def legal_key(species: ModelSpecies) -> str:
    """What the name is made of: the key, where it is legal, else what the species is called."""
    return species.key if LEGAL.fullmatch(species.key) else species.called


def sides_kept(reaction: ModelReaction, dropped: set[str],
               keep_modifiers: bool) -> tuple[dict[str, int], dict[str, int], int]:
    left, right, scale = whole_sides(reaction)
    left, right = ({key: n for key, n in side.items() if key not in dropped} for side in (left, right))
    for key in reaction.modifiers if keep_modifiers else []:
        if key not in dropped:
            left[key], right[key] = left.get(key, 0) + 1, right.get(key, 0) + 1
    return left, right, scale


def species_lines(model: Model, names: dict[str, str], dropped: set[str]) -> list[str]:
    """A comment for each species: its name here, or why it has none."""
    width = max(map(len, names.values()), default=0)
    lines = ["#", "# species, each with what the model calls it"]
    for key, it in model.species.items():
        if key in names:
            lines.append(f"#   {names[key]:{width}}  {comment(it.called)}{f', {it.held}, kept' if it.held else ''}")
    for key, it in model.species.items():
        if key not in names:
            why = it.held if key in dropped else "in no reaction"
            lines.append(f"#   {'-':{width}}  {comment(it.called)}: left out, {why}")
    return [*lines, "#", "# reactions, each with what the model calls it"]


def reaction_line(reaction: ModelReaction, left: str, right: str, scale: int, called: dict[str, str]) -> str:
    """The line of a reaction with a comment on where it came from."""
    arrow = "<->" if reaction.reversible else "->"
    notes = [reaction.where]
    if scale > 1:
        sides = f"{sum_text(reaction.reactants, called)} to {sum_text(reaction.products, called)}"
        notes.append(f"all amounts times {scale}: {sides}")
    if reaction.modifiers:
        notes.append(f"modifiers {', '.join(called[key] for key in reaction.modifiers)}")
    if reaction.remark:
        notes.append(reaction.remark)
    note = comment("; ".join(notes))
    if left == right:
        return f"# left out, as both sides are {left}: {note}"
    return f"{left} {arrow} {right}  # {note}"


def warnings_of(species: int, reactions: int) -> list[str]:
    warnings = []
    if species > MOST_SPECIES:
        warnings.append(f"the network has {species} species; crnt reads {MOST_SPECIES} at most")
    if reactions > MOST_REACTIONS:
        warnings.append(f"the network has more than {MOST_REACTIONS} reactions, which is the most that crnt reads")
    return warnings
