"""Reads what a verb is given: a network text, a report, a certificate or a part document."""

from __future__ import annotations

from .parts import Proof, is_part_document, verified
from .program import check, report
from .report import Report


def load(text: bytes, budget: int | None = None) -> Report:
    """The report on a text: that of a network, that of a certificate once the program has checked it, that of the network
    of a part document once the program has verified it, or the report itself."""
    if text.startswith(b"crn report "):
        return Report.of_text(text.decode("latin-1"))
    if text.startswith(b"crn certificate "):
        return check(text)
    if is_part_document(text):
        return report(verified(text).network, budget)
    return report(text, budget)


def proofs_in(text: bytes) -> tuple[Proof, ...]:
    """What a text shows beside its report: a part document, once the program has verified it."""
    return (verified(text),) if is_part_document(text) else ()
