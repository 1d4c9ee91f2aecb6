"""Networks as data, and their texts: the format of docs/FORMATS.md, "Network text"."""

from __future__ import annotations

import re
from dataclasses import dataclass
from functools import cached_property
from typing import Iterable, NamedTuple

from .errors import NotANetwork

Numbers = tuple[int, ...]

TOKEN = re.compile(r"[ \t]*(?:([0-9]+)|([A-Za-z_][A-Za-z0-9_]*)|(\+)|(<->|->|<-(?!>)))")
TERM = re.compile(r"([0-9]*)([A-Za-z_][A-Za-z0-9_]*)")
MOST_SPECIES, MOST_COMPLEXES, MOST_REACTIONS, MOST_AMOUNT, MOST_BYTES_OF_NAME = 60, 160, 240, 99, 32


class Term(NamedTuple):
    """A species and its amount in a complex."""

    species: str
    amount: int


@dataclass(frozen=True)
class Complex:
    """A side of an arrow: its terms in species order, none for the zero complex."""

    terms: tuple[Term, ...]

    def __str__(self) -> str:
        return " + ".join(f"{amount}{name}" if amount > 1 else name for name, amount in self.terms) or "0"

    @classmethod
    def of_text(cls, text: str) -> Complex:
        """The complex that a report or a canonical text writes so. Raises ValueError."""
        if text == "0":
            return cls(())
        terms = []
        for part in text.split(" + "):
            found = TERM.fullmatch(part)
            if not found:
                raise ValueError(f"{part!r} is no term")
            terms.append(Term(found[2], int(found[1] or 1)))
        complex_ = cls(tuple(terms))
        if str(complex_) != text:
            raise ValueError(f"{text!r} is not written as in a canonical text")
        return complex_

    def amount(self, species: str) -> int:
        """How much of the species is in the complex."""
        return next((amount for name, amount in self.terms if name == species), 0)


class Reaction(NamedTuple):
    """A reaction: its number, and the numbers of its reactant and its product among the complexes, all from 1."""

    number: int
    reactant: int
    product: int


@dataclass(frozen=True)
class Network:
    """A chemical reaction network, numbered as a report numbers it. `str` gives its canonical text."""

    species: tuple[str, ...]
    complexes: tuple[Complex, ...]
    reactions: tuple[Reaction, ...]

    @classmethod
    def of_text(cls, text: str) -> Network:
        """The network that a text spells. The program alone says why a text is refused; here the line has to do."""
        return of_statements(statements_of(text))

    def reaction_text(self, reaction: Reaction) -> str:
        return f"{self.complexes[reaction.reactant - 1]} -> {self.complexes[reaction.product - 1]}"

    def __str__(self) -> str:
        return "".join(f"{self.reaction_text(reaction)}\n" for reaction in self.reactions)

    @cached_property
    def amounts(self) -> tuple[Numbers, ...]:
        """For each complex the amounts of all species."""
        return tuple(tuple(complex_.amount(name) for name in self.species) for complex_ in self.complexes)

    @cached_property
    def vectors(self) -> tuple[Numbers, ...]:
        """For each reaction its vector: what it makes less what it consumes of each species."""
        return tuple(
            tuple(b - a for a, b in zip(self.amounts[reactant - 1], self.amounts[product - 1]))
            for _, reactant, product in self.reactions
        )


Side = dict[str, int]


def tokens_of(line: str) -> list[re.Match[str]] | None:
    """The tokens of a line without its comment, or None if some byte belongs to none."""
    found, at, body = [], 0, line.rstrip(" \t")
    while at < len(body):
        token = TOKEN.match(body, at)
        if not token:
            return None
        found.append(token)
        at = token.end()
    return found


def side_of(tokens: list[re.Match[str]]) -> Side | None:
    """The amounts by name of a side, or None if it is none."""
    text = "".join(token[0].strip(" \t") + " " for token in tokens).strip()
    if re.fullmatch("0+", text):
        return {}
    amounts: Side = {}
    for term in text.split("+"):
        found = re.fullmatch(r" *(?:([0-9]+) +)?([A-Za-z_][A-Za-z0-9_]*) *", term)
        if not found or int(found[1] or 1) < 1 or len(found[2]) > MOST_BYTES_OF_NAME:
            return None
        amounts[found[2]] = amounts.get(found[2], 0) + int(found[1] or 1)
    return amounts if max(amounts.values()) <= MOST_AMOUNT else None


def statements_of(text: str) -> Iterable[tuple[int, Side, Side]]:
    """What a text says, arrow by arrow: the line, the reactant and the product."""
    for number, line in enumerate(text.split("\n"), 1):
        body = line[:-1] if line.endswith("\r") else line
        body = body.split("#")[0]
        tokens = tokens_of(body)
        if tokens is None:
            raise NotANetwork(number, "a mark that belongs to no token")
        if not tokens:
            continue
        arrows = [at for at, token in enumerate(tokens) if token[4]]
        if not arrows:
            raise NotANetwork(number, "no arrow")
        bounds = [-1, *arrows, len(tokens)]
        sides = [side_of(tokens[a + 1 : b]) for a, b in zip(bounds, bounds[1:])]
        for left, at, right in zip(sides, arrows, sides[1:]):
            if left is None or right is None:
                raise NotANetwork(number, "a side that is none")
            if tokens[at][4] != "<-":
                yield number, left, right
            if tokens[at][4] != "->":
                yield number, right, left


def of_statements(statements: Iterable[tuple[int, Side, Side]]) -> Network:
    """The network that statements spell: all is numbered by first appearance, the reactant before the product."""
    said = list(statements)
    species: dict[str, None] = {}
    for _, reactant, product in said:
        species.update(dict.fromkeys([*reactant, *product]))
    complexes: dict[Complex, int] = {}
    reactions: dict[tuple[int, int], None] = {}
    order = {name: at for at, name in enumerate(species)}
    for line, reactant, product in said:
        numbers = []
        for side in (reactant, product):
            terms = tuple(Term(name, side[name]) for name in sorted(side, key=order.__getitem__))
            numbers.append(complexes.setdefault(Complex(terms), len(complexes) + 1))
        if numbers[0] == numbers[1]:
            raise NotANetwork(line, "both sides are the same complex")
        reactions[numbers[0], numbers[1]] = None
    if not reactions or len(species) > MOST_SPECIES or len(complexes) > MOST_COMPLEXES or len(reactions) > MOST_REACTIONS:
        raise NotANetwork(0, f"no reaction, or more than {MOST_SPECIES} species, {MOST_COMPLEXES} complexes or "
                             f"{MOST_REACTIONS} reactions")
    return Network(tuple(species), tuple(complexes), tuple(Reaction(k, *pair) for k, pair in enumerate(reactions, 1)))
