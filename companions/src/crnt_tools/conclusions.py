"""What theory concludes from a report: the rows of docs/conclusions.json, whose head says how they are evaluated."""

from __future__ import annotations

import json
from dataclasses import dataclass
from functools import lru_cache
from pathlib import Path
from typing import Any, NamedTuple

from .parts import Proof
from .report import Report

FILE = "conclusions.json"


class Source(NamedTuple):
    """How a source is cited, and what it is."""

    cite: str
    text: str


@dataclass(frozen=True)
class Conclusion:
    """A row that applies to a report. `concludes` is empty where nothing follows; `rests_on` has the lines of the report."""

    id: str
    title: str
    kinetics: str
    concludes: str
    does_not_follow: tuple[str, ...]
    theorem: str
    sources: tuple[Source, ...]
    provided: str
    rests_on: tuple[str, ...]

    @property
    def sentence(self) -> str:
        """What follows, with the proviso in front if there is one."""
        if not self.provided:
            return f"{self.title}. {self.concludes}"
        return f"If the definitions agree, see below, {lowered(self.title)}: {lowered(self.concludes)}"


def lowered(text: str) -> str:
    return text[:1].lower() + text[1:]


@lru_cache(maxsize=None)
def data() -> dict[str, Any]:
    """The data file: the copy in an installed package, or the repository's own."""
    here = Path(__file__).resolve()
    places = [here.parent / FILE, here.parents[3] / "docs" / FILE]
    found: dict[str, Any] = json.loads(next(place for place in places if place.is_file()).read_text("utf-8"))
    return found


def holds(said: str, condition: dict[str, Any]) -> bool:
    """Whether a condition of a row holds of what its line says, as `hypotheses hold, weakly reversible`."""
    wanted = condition.get("says", condition.get("says_not"))
    begins: bool = said.split(", ")[: len(wanted)] == wanted
    return begins if "says" in condition else not begins


def line_of(report: Report, question: int) -> str:
    return f"Q{question} {report.verdicts[question - 1].title}: {report.said(question)}"


def conclude(report: Report) -> list[Conclusion]:
    """The rows that apply to a report, those from which nothing follows among them, in the order of the questions."""
    found = []
    for row in data()["rows"]:
        if all(holds(report.said(condition["question"]), condition) for condition in row["requires"]):
            lines = tuple(dict.fromkeys(line_of(report, condition["question"]) for condition in row["requires"]))
            found.append(conclusion(row, lines))
    return found


def conclude_part(proof: Proof) -> list[Conclusion]:
    """The rows that apply to the verdict of a part document; to an open one none does."""
    return [conclusion(row, (proof.verdict,)) for row in data()["parts"] if not proof.is_open
            and all(condition["part"] == proof.part and holds(proof.said, condition) for condition in row["requires"])]


def conclusion(row: dict[str, Any], lines: tuple[str, ...]) -> Conclusion:
    """A row that applies, with the lines on which it rests."""
    sources = tuple(Source(**data()["sources"][key]) for key in row["source"])
    return Conclusion(row["id"], row["title"], row["kinetics"], row["concludes"], tuple(row["does_not_follow"]), row["theorem"],
                      sources, row["provided"], lines)
