"""The test of a part document, in the order of docs/CERTIFICATES.md, "Parts"."""

from __future__ import annotations

from ..parts import Proof
from ..program import Text
from .checks import read_network
from .decompositions import Decomposition
from .document import Document, bare
from .part import PartCheck
from .robustness import Robustness
from .siphons import Siphons
from .slopes import Slopes

#: What tests the lines of each part.
CHECKS: dict[str, type[PartCheck]] = {
    "persist": Siphons,
    "parts": Decomposition,
    "robust": Robustness,
    "endo": Slopes,
}


def verify_part(text: Text) -> Proof:
    """A part document, each of whose lines is tested. Raises Rejected."""
    given = text.encode("utf-8", "surrogateescape") if isinstance(text, str) else text
    document = Document(given)
    title = document.line()
    part = next((part for part in CHECKS if title == f"crn part {part} 1".encode()), None)
    if part is None:
        raise document.fault(21)
    network, _ = read_network(document)
    document.known = CHECKS[part].WORDS
    said = CHECKS[part](document, network).verdict()
    document.numbers(bare("end"))
    document.end()
    return Proof(part, said, given.decode("ascii"))
