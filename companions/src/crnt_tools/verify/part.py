"""What the tests of each part share."""

from __future__ import annotations

from ..network import Network
from .document import Document


class PartCheck:
    """Reads and tests the lines of a part, which begin with its words."""

    WORDS: tuple[str, ...]

    def __init__(self, document: Document, network: Network):
        self.document, self.network, self.vectors = document, network, network.vectors
        self.species, self.complexes, self.reactions = len(network.species), len(network.complexes), len(network.reactions)

    def verdict(self) -> str:
        """What the lines say, as the program words it."""
        raise NotImplementedError

    def require(self, code: int, holds: bool, line: int | None = None) -> None:
        """A test at the line that was read last, or at another."""
        if not holds:
            raise self.document.fault(code, line)
