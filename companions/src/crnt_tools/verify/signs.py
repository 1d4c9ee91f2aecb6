"""Sign problems: what a prefix requires, and when multipliers exclude it. docs/CERTIFICATES.md, "Trees of signs" and "Trees of
signals". A sign is 1, -1 or 0; a number that has to meet none is free, None, and one that may not be negative has the sign
`NOT_NEGATIVE`."""

from __future__ import annotations

from dataclasses import dataclass
from typing import Optional, Protocol, Sequence

from ..network import Network, Numbers

Sign = Optional[int]
NOT_NEGATIVE = 2


def sign_of(number: int) -> int:
    return (number > 0) - (number < 0)


def product(one: Sequence[int], other: Sequence[int]) -> int:
    return sum(a * b for a, b in zip(one, other))


def combined(weights: Sequence[int], rows: Sequence[Sequence[int]]) -> list[int]:
    """The sum of the rows, each times its weight."""
    return [product(weights, column) for column in zip(*rows)]


def are_right(signs: Sequence[Sign], weights: Sequence[int]) -> bool:
    """The weights exclude numbers of these signs: each is of its number's sign, or 0, anything where that is 0, and 0 where the
    number is free; and some weight of a positive or negative number is not 0."""
    fitting = all(sign == 0 or (weight == 0 if sign is None else sign * weight >= 0)
                  for sign, weight in zip(signs, weights))
    return fitting and any(sign in (1, -1) and weight for sign, weight in zip(signs, weights))


class SignProblem(Protocol):
    """What a tree goes through: a sign for each of `length` places, the last of them those of the species."""

    length: int
    lists_a: int
    lists_b: int

    def is_flat(self, prefix: Sequence[int]) -> bool: ...

    def excludes_a(self, prefix: Sequence[int], multipliers: Sequence[int]) -> bool: ...

    def excludes_b(self, prefix: Sequence[int], multipliers: Sequence[int]) -> bool: ...


@dataclass(frozen=True)
class Change:
    """Part B of either problem: numbers of the species that the vectors make, with the signs of a prefix."""

    vectors: Sequence[Numbers]

    def excludes(self, signs: Sequence[Sign], multipliers: Sequence[int]) -> bool:
        return not any(product(multipliers, vector) for vector in self.vectors) and are_right(signs, multipliers)


class Concordance:
    """The sign problem of question 14, or, if it is strong, of question 15."""

    def __init__(self, network: Network, is_strong: bool):
        self.network, self.length = network, len(network.species)
        self.lists_a = self.lists_b = self.length
        self.part_b = Change(network.vectors)
        self.table = [table_signs(network, reaction.reactant, reaction.product, is_strong) for reaction in network.reactions]

    def is_flat(self, prefix: Sequence[int]) -> bool:
        return len(prefix) == self.length and not any(prefix)

    def required(self, signs: Sequence[Sign], row: dict[int, int]) -> Sign:
        """The sign that alpha needs at a reaction, from its table signs and those of the species."""
        products = set()
        for species, table_sign in row.items():
            sign = signs[species]
            if sign is None:
                return None
            products.add(table_sign * sign)
        if 1 in products:
            return None if -1 in products else 1
        return -1 if -1 in products else 0

    def excludes_a(self, prefix: Sequence[int], multipliers: Sequence[int]) -> bool:
        signs = [*prefix, *[None] * (self.length - len(prefix))]
        weights = [-product(multipliers, vector) for vector in self.network.vectors]
        return are_right([self.required(signs, row) for row in self.table], weights)

    def excludes_b(self, prefix: Sequence[int], multipliers: Sequence[int]) -> bool:
        return self.part_b.excludes([*prefix, *[None] * (self.length - len(prefix))], multipliers)

    def is_shown(self, alpha: Sequence[int], weights: Sequence[int]) -> bool:
        """The two lists show the network discordant: alpha, and the weights that make sigma."""
        sigma = combined(weights, self.network.vectors)
        if any(combined(alpha, self.network.vectors)) or not any(sigma):
            return False
        return all(self.goes(number, sigma, row) for number, row in zip(alpha, self.table))

    def goes(self, number: int, sigma: Sequence[int], row: dict[int, int]) -> bool:
        """At a reaction alpha goes with sigma."""
        products = {table_sign * sign_of(sigma[species]) for species, table_sign in row.items()}
        return sign_of(number) in products if number else (1 in products) == (-1 in products)


def table_signs(network: Network, reactant: int, product_: int, is_strong: bool) -> dict[int, int]:
    """The table signs of a reaction that are not 0, by species."""
    before, after = network.amounts[reactant - 1], network.amounts[product_ - 1]
    signs = [sign_of(a - b) if is_strong else sign_of(a) for a, b in zip(before, after)]
    return {species: sign for species, sign in enumerate(signs) if sign}


@dataclass(frozen=True)
class Pair:
    """A linked pair of a terminal class: its complexes, from 0, and the sum of g over the side of the second."""

    first: int
    second: int
    gathered: int


class Signals:
    """The sign problem of question 13 for a vector: shelves of the terminal classes, then the signs of mu. `top` has for
    each complex the number of its terminal class from 0, or None."""

    def __init__(self, network: Network, top: Sequence[int | None], pairs: Sequence[Pair]):
        self.network, self.top, self.pairs = network, top, pairs
        self.shelves = len({class_ for class_ in top if class_ is not None})
        self.length = self.shelves + len(network.species)
        self.lists_a, self.lists_b = len(network.complexes) + len(pairs), len(network.species)
        self.part_b = Change(network.vectors)

    def is_flat(self, prefix: Sequence[int]) -> bool:
        shelved = len(prefix) >= self.shelves and not any(prefix[: self.shelves])
        return shelved or (len(prefix) == self.length and not any(prefix[self.shelves :]))

    def filled(self, prefix: Sequence[int]) -> list[Sign]:
        return [*prefix, *[None] * (self.length - len(prefix))]

    def signs_a(self, prefix: Sequence[int]) -> list[Sign]:
        """The signs that are required of mu, m, the heights of the complexes above m, and those of the pairs."""
        filled = self.filled(prefix)
        heights = [0 if class_ is None else filled[class_] for class_ in self.top]
        steps: list[Sign] = []
        for pair in self.pairs:
            shelf = heights[pair.first]
            steps.append(shelf * sign_of(pair.gathered) if shelf else None)
        return [*filled[self.shelves :], None, *heights, *steps]

    def excludes_a(self, prefix: Sequence[int], multipliers: Sequence[int]) -> bool:
        amounts, complexes = self.network.amounts, len(self.network.complexes)
        rows = [*amounts, *([b - a for a, b in zip(amounts[it.first], amounts[it.second])] for it in self.pairs)]
        of_species = [-total for total in combined(multipliers, rows)]
        return are_right(self.signs_a(prefix), [*of_species, sum(multipliers[:complexes]), *multipliers])

    def excludes_b(self, prefix: Sequence[int], multipliers: Sequence[int]) -> bool:
        return self.part_b.excludes(self.filled(prefix)[self.shelves :], multipliers)

    def is_shown(self, shelves: Sequence[int], mu: Sequence[int], m: int, weights: Sequence[int]) -> bool:
        """These are a signal, where the weights make a list with the signs of mu."""
        made = combined(weights, self.network.vectors)
        if not any(mu) or list(map(sign_of, made)) != list(map(sign_of, mu)):
            return False
        heights = [product(mu, amounts) for amounts in self.network.amounts]
        numbers = [*mu, m, *(height - m for height in heights), *(heights[it.second] - heights[it.first] for it in self.pairs)]
        signs = self.signs_a([*shelves, *map(sign_of, mu)])
        return all(sign is None or sign_of(number) == sign for sign, number in zip(signs, numbers))


def children(prefix: Sequence[int]) -> list[list[int]]:
    """The prefixes with one sign more; below one of zeros the negative is left out."""
    return [[*prefix, sign] for sign in ((0, 1, -1) if any(prefix) else (0, 1))]
