"""The test of a document on persistence, in the order of docs/CERTIFICATES.md, "Persistence by siphons"."""

from __future__ import annotations

from ..network import Network, Numbers
from .checks import MOST_BUDGET
from .document import Document, bare, free, listed, ranged, wide_vector
from .part import PartCheck
from .signs import combined, product


class Siphons(PartCheck):
    """Species are places from 0 here, and a prefix has `True` for each that is in."""

    WORDS = tuple("yes no wide spent vec cut siphon mult fork bad law void end".split())

    def __init__(self, document: Document, network: Network):
        super().__init__(document, network)
        held = [{s for s, amount in enumerate(amounts) if amount} for amounts in network.amounts]
        self.ends = [(held[it.reactant - 1], held[it.product - 1]) for it in network.reactions]

    def is_law(self, numbers: Numbers) -> bool:
        return all(product(numbers, vector) == 0 for vector in self.vectors)

    def verdict(self) -> str:
        place, _ = self.document.record(
            bare("yes"), bare("no"), wide_vector("wide", self.species, self.reactions, (1, 1)),
            wide_vector("wide", self.reactions, self.species, (2, 2)), ranged("spent", (1, MOST_BUDGET)))
        if place == 0:
            law = self.document.numbers(free("vec", self.species))
            self.require(53, min(law) > 0 and self.is_law(law))
            self.tree()
        elif place == 1:
            self.denial()
        return ("yes", "no", "open", "open", "open")[place]

    def denial(self) -> None:
        place, numbers = self.document.record(free("cut", self.reactions), listed("siphon", self.species, 0, 1))
        if place == 0:
            sums = combined(numbers, self.vectors)
            return self.require(53, max(sums) <= 0 and any(sums))
        line, members = self.document.number, {s for s, mark in enumerate(numbers) if mark}
        sums = combined(self.document.numbers(free("mult", self.reactions)), self.vectors)
        self.require(51, bool(members) and all(made.isdisjoint(members) or used & members for used, made in self.ends), line)
        self.require(52, all(sums[s] > 0 for s in members))

    def tree(self) -> None:
        due: list[tuple[bool, ...]] = [()]
        while due:
            prefix = due.pop()
            place, numbers = self.document.record(
                bare("fork"), ranged("bad", (1, self.reactions)), free("law", self.species), bare("void"))
            inside = {s for s, is_in in enumerate(prefix) if is_in}
            if place == 0:
                self.require(54, len(prefix) < self.species)
                due += [(*prefix, False), (*prefix, True)]
            elif place == 1:
                used, made = self.ends[numbers[0] - 1]
                self.require(54, bool(made & inside) and all(s < len(prefix) and not prefix[s] for s in used))
            elif place == 2:
                weighed = {s for s, weight in enumerate(numbers) if weight}
                self.require(53, min(numbers) >= 0 and bool(weighed) and weighed <= inside and self.is_law(numbers))
            else:
                self.require(54, len(prefix) == self.species and not inside)
