"""The test of a document on robustness, in the order of docs/CERTIFICATES.md, "Robustness"."""

from __future__ import annotations

from itertools import combinations

from .checks import Verifier
from .document import WORDS, bare, ranged
from .part import PartCheck


class Robustness(PartCheck):
    """The blocks have the words of certificates of version 1."""

    WORDS = tuple("line yes number none rests end".split())

    def verdict(self) -> str:
        document, verifier = self.document, Verifier(self.document)
        verifier.use(self.network)
        document.known = WORDS[1]
        verifier.q1()
        verifier.q2()
        verifier.q5()
        document.known, self.facts = self.WORDS, verifier.facts
        if self.facts.rank is None:
            document.record(bare("rests"))
            return "open"
        (is_line,) = document.numbers(ranged("line", (0, 1)))
        line = document.number
        place, numbers = document.record(
            ranged("yes", (1, self.species), (1, self.complexes), (1, self.complexes)), ranged("number", (0, self.complexes)),
            bare("none"))
        deficiency = self.complexes - max(self.facts.linkage) - self.facts.rank
        self.require(55, (is_line == 1) == (deficiency == 1), line)
        pair = self.pair()
        if deficiency != 1:
            self.require(56, (place, *numbers) == (1, deficiency))
            return f"hypotheses fail, deficiency {deficiency}\nconfluence space: no line"
        self.require(56, (place, *numbers) == ((0, *pair) if pair else (2,)))
        said = f"hypotheses hold, species {self.network.species[pair[0] - 1]}" if pair else "hypotheses fail, no pair"
        return f"{said}\nconfluence space: a line"

    def pair(self) -> tuple[int, int, int] | None:
        """The least pair of complexes of no terminal class that differ at one species alone, after that species."""
        outside = [c for c, k in enumerate(self.facts.strong) if k not in self.facts.terminal]
        for c, d in combinations(outside, 2):
            one, other = self.network.amounts[c], self.network.amounts[d]
            species = [s for s, (a, b) in enumerate(zip(one, other), 1) if a != b]
            if len(species) == 1:
                return species[0], c + 1, d + 1
        return None
