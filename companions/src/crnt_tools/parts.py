"""One question more than the fifteen: what `crnt prove PART` writes, and what `crnt verify PART` says of it."""

from __future__ import annotations

import re
from dataclasses import dataclass

from .program import Text, answered, budget_words, network_of

#: The parts that the program knows.
PARTS = ("persist", "parts", "robust", "endo")
TITLE = re.compile(r"crn part ([a-z]+) 1\n")


@dataclass(frozen=True)
class Proof:
    """A part document that the program has verified. `said` is `yes`, `no` or `open`, or what else the line says after the part."""

    part: str
    said: str
    document: str

    @property
    def verdict(self) -> str:
        """The line that the program writes of the document."""
        return f"{self.part}: {self.said}"

    @property
    def is_open(self) -> bool:
        return self.said == "open"

    @property
    def network(self) -> str:
        """The network text of the document."""
        return network_of(self.document)


def is_part_document(text: bytes) -> bool:
    """Whether a text begins as a part document does."""
    return text.startswith(b"crn part ")


def prove(part: str, text: Text, budget: int | None = None) -> str:
    """The document on this part of the network that a text spells; `verified` takes it. Raises Refused."""
    return answered(["prove", part, *budget_words(budget)], text)


def verified(document: Text) -> Proof:
    """A part document, once the program has verified it. Raises Rejected if it has a fault."""
    text = document.decode("ascii", "replace") if isinstance(document, bytes) else document
    found = TITLE.match(text)
    # A title that says no part that is known is for the program to reject.
    part = found[1] if found and found[1] in PARTS else PARTS[0]
    said = answered(["verify", part], document)
    return Proof(part, said.strip().removeprefix(f"{part}: "), text)
