"""The test of a document on endotactic networks, in the order of docs/CERTIFICATES.md, "Endotactic networks"."""

from __future__ import annotations

from ..network import Network, Numbers
from .checks import MOST_BUDGET
from .document import Document, bare, free, ranged, wide_vector
from .part import PartCheck
from .signs import NOT_NEGATIVE, Sign, are_right, children, combined, product

MOST_COORDINATES = 400


class Slopes(PartCheck):
    """A slope has a number for each species, and a height at each complex. Reactions and complexes are places from 0 here."""

    WORDS = tuple("yes no slope split flat cuta wide spent large end".split())

    def __init__(self, document: Document, network: Network):
        super().__init__(document, network)
        self.reactants = [it.reactant - 1 for it in network.reactions]
        self.distinct = sorted(set(self.reactants))
        #: The rows of the system of each reaction: the rises, the falls, and the heights of the other reactants above its own.
        self.rows = 2 * self.reactions + len(self.distinct) - 1

    def verdict(self) -> str:
        reaction = (1, self.reactions)
        forms = [ranged("no", reaction), wide_vector("wide", self.species, self.rows, reaction),
                 ranged("spent", reaction, (1, MOST_BUDGET)), bare("large")]
        if self.species + self.rows + 1 <= MOST_COORDINATES:
            forms.append(bare("yes"))
        place, numbers = self.document.record(*forms)
        if place == 0:
            slope = self.document.numbers(free("slope", self.species))
            self.require(73, self.is_against(slope, numbers[0] - 1))
            return f"no, reaction {numbers[0]}"
        if place == 4:
            for r in range(self.reactions):
                self.tree(r)
        return "yes" if place == 4 else "open"

    def is_against(self, slope: Numbers, r: int) -> bool:
        """It falls along the reaction, and rises along none that begins lower."""
        rises = [product(slope, vector) for vector in self.vectors]
        heights = [product(slope, self.network.amounts[c]) for c in self.reactants]
        return rises[r] < 0 and not any(rise > 0 and height < heights[r] for rise, height in zip(rises, heights))

    def tree(self, r: int) -> None:
        others = [c for c in self.distinct if c != self.reactants[r]]
        own = self.network.amounts[self.reactants[r]]
        above = [tuple(a - b for a, b in zip(self.network.amounts[c], own)) for c in others]
        rows = [*self.vectors, *(tuple(-x for x in vector) for vector in self.vectors), *above]
        due: list[list[int]] = [[]]
        while due:
            prefix = due.pop()
            place, numbers = self.document.record(bare("split"), bare("flat"), free("cuta", self.rows))
            if place == 0:
                self.require(71, len(prefix) <= len(others))
                due += reversed(children(prefix))
            elif place == 1:
                self.require(71, prefix[:1] == [0])
            else:
                signs = self.signs(r, prefix[0] if prefix else None, dict(zip(others, prefix[1:])))
                signs += [prefix[k] if k < len(prefix) else None for k in range(1, len(others) + 1)]
                self.require(72, not any(combined(numbers, rows)) and are_right(signs, numbers))

    def signs(self, r: int, first: Sign, heights: dict[int, int]) -> list[Sign]:
        """What is required of the rises and of the falls: that slopes are against the reaction, or that their negatives are."""
        rises = [NOT_NEGATIVE if first == 1 == heights.get(c) else None for c in self.reactants]
        falls = [NOT_NEGATIVE if first == -1 == heights.get(c) else None for c in self.reactants]
        rises[r] = first
        return [*rises, *falls]
