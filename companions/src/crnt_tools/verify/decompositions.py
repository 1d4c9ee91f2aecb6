"""The test of a document on the finest independent decomposition, in the order of docs/CERTIFICATES.md, "Independent decompositions"."""

from __future__ import annotations

from ..network import Numbers
from .checks import Block, Verifier, are_numbered
from .document import listed, ranged, wide_vector
from .part import PartCheck


class Decomposition(PartCheck):
    """Reactions and parts count from 1, as in the lines."""

    WORDS = tuple("rank wide base dual comb label up depth end".split())

    def verdict(self) -> str:
        place, numbers = self.document.record(
            ranged("rank", (1, min(self.species, self.reactions))), wide_vector("wide", self.species, self.reactions))
        return "open" if place else self.split(numbers[0])

    def split(self, rank: int) -> str:
        """How many parts there are, and their ranks."""
        document, reactions, block, verifier = self.document, self.reactions, Block(self.document), Verifier(self.document)
        verifier.use(self.network)
        base, combs = verifier.rank_records(block, range(1, reactions + 1), rank, (61, 62))
        ties = {frozenset((r, q)) for r, weights in combs.items() for q, weight in zip(base, weights) if weight}
        label = document.numbers(listed("label", reactions, 1, reactions))
        block.test(63, are_numbered(label, max(label)) and all(len({label[r - 1] for r in tie}) == 1 for tie in ties))
        up = document.numbers(listed("up", reactions, 0, reactions))
        depth = document.numbers(listed("depth", reactions, 0, reactions - 1))
        block.test(64, all(self.hangs(ties, label, up, depth, r) for r in range(1, reactions + 1)))
        block.end()
        ranks = [sum(label[r - 1] == k for r in base) for k in range(1, max(label) + 1)]
        return f"{len(ranks)}, ranks {' '.join(map(str, ranks))}"

    def hangs(self, ties: set[frozenset[int]], label: Numbers, up: Numbers, depth: Numbers, r: int) -> bool:
        """The least reaction of a part has 0 and 0, and each other one is tied to one whose depth is less by one."""
        above, deep = up[r - 1], depth[r - 1]
        if label.index(label[r - 1]) == r - 1:
            return (above, deep) == (0, 0)
        return frozenset((r, above)) in ties and deep == depth[above - 1] + 1
