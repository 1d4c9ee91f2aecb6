"""The report as data, and data as the report, byte for byte: docs/FORMATS.md, "Report"."""

from __future__ import annotations

import dataclasses
import json
from dataclasses import dataclass, field
from functools import cached_property
from pathlib import Path
from typing import Any, Callable, ClassVar

from . import verdicts
from .errors import NotAReport
from .network import Complex, Network, Numbers, Reaction, Term
from .verdicts import (
    Below, Concordant, ConfluenceVector, Conservation, Deficiency, DeficiencyOne, DeficiencyZero, Failure, LinkageClasses,
    Malformed, Open, PositiveDependence, Rank, Regular, Reversible, Signal, SignalVerdict, StrongClasses,
    StronglyConcordant, Verdict, WeaklyReversible,
)

HEAD = "crn report 1"
KINDS: tuple[type[Verdict], ...] = (
    LinkageClasses, StrongClasses, Reversible, WeaklyReversible, Rank, Deficiency, PositiveDependence, Conservation,
    DeficiencyZero, DeficiencyOne, Regular, ConfluenceVector, SignalVerdict, Concordant, StronglyConcordant,
)
NEVER_OPEN = (1, 2, 3, 4)


@dataclass(frozen=True)
class Report:
    """A report: the species, the complexes, the number of reactions and fifteen verdicts, `q1` to `q15`.

    A report does not list the reactions. Where it was made of a text, `network` has them."""

    species: tuple[str, ...]
    complexes: tuple[Complex, ...]
    reaction_count: int
    q1: LinkageClasses
    q2: StrongClasses
    q3: Reversible
    q4: WeaklyReversible
    q5: Rank
    q6: Deficiency
    q7: PositiveDependence
    q8: Conservation
    q9: DeficiencyZero
    q10: DeficiencyOne
    q11: Regular
    q12: ConfluenceVector
    q13: SignalVerdict
    q14: Concordant
    q15: StronglyConcordant
    #: The network text that the report is on, if it is known.
    source: str | None = field(default=None, compare=False, repr=False)

    FORMAT: ClassVar[int] = 1

    @classmethod
    def of_text(cls, text: str, source: str | None = None) -> Report:
        """Reads a report. Raises NotAReport if the text is not one, byte for byte."""
        return Reader(text).report(source)

    def __str__(self) -> str:
        names = self.complex_texts
        lines = [HEAD, f"species {len(self.species)}: {' '.join(self.species)}",
                 f"complexes {len(names)}: {'; '.join(names)}", f"reactions {self.reaction_count}"]
        for verdict in self.verdicts:
            lines.append(f"Q{verdict.question} {verdict.title}: {self.said(verdict.question)}")
            below = verdict.open.below() if verdict.open else verdict.said(names)[1]
            lines += [f"  {line}" for line in below]
        return "\n".join([*lines, f"open: {self.open_count}", ""])

    @cached_property
    def complex_texts(self) -> tuple[str, ...]:
        return tuple(map(str, self.complexes))

    @cached_property
    def verdicts(self) -> tuple[Verdict, ...]:
        """The fifteen verdicts in order."""
        return tuple(getattr(self, f"q{k}") for k in range(1, len(KINDS) + 1))

    def said(self, question: int) -> str:
        """What the line of a question says after its title: `yes`, `hypotheses fail, deficiency 2`, `open, wide`."""
        verdict = self.verdicts[question - 1]
        return verdict.open.said if verdict.open else verdict.said(self.complex_texts)[0]

    def word(self, question: int) -> str:
        """The verdict in a word: a number for questions 1, 2, 5 and 6, else `yes`, `no`, `none` or `open`; of a theorem
        `yes` says that its hypotheses hold."""
        first = self.said(question).split(",")[0]
        return {"hypotheses hold": "yes", "hypotheses fail": "no", "not applicable": "none"}.get(first, first)

    @property
    def open_questions(self) -> Numbers:
        return tuple(verdict.question for verdict in self.verdicts if verdict.open)

    @property
    def open_count(self) -> int:
        return len(self.open_questions)

    @cached_property
    def network(self) -> Network | None:
        """The network with its reactions, if the report was made of a text."""
        if self.source is None:
            return None
        network = Network.of_text(self.source)
        if (network.species, network.complexes, len(network.reactions)) != (self.species, self.complexes, self.reaction_count):
            raise NotAReport(2, "the species, complexes and reactions of the text that it is on")
        return network

    @property
    def reactions(self) -> tuple[Reaction, ...]:
        """The reactions, if the report was made of a text; else none."""
        return self.network.reactions if self.network else ()

    def to_dict(self) -> dict[str, Any]:
        """The report as JSON has it; its schema is `schema()`. `from_dict` reads it again."""
        made: dict[str, Any] = {
            "format": f"crn report {self.FORMAT}",
            "species": list(self.species),
            "complexes": [{"text": str(it), "terms": [{"species": name, "amount": n} for name, n in it.terms]}
                          for it in self.complexes],
            "reaction_count": self.reaction_count,
            "reactions": [plain(reaction) for reaction in self.reactions] or None,
            "network": self.source,
        }
        for verdict in self.verdicts:
            head = {"question": verdict.question, "title": verdict.title, "said": self.said(verdict.question)}
            made[f"q{verdict.question}"] = {**head, **plain(verdict)}
        return {**made, "open": list(self.open_questions), "report": str(self)}

    @classmethod
    def from_dict(cls, data: dict[str, Any]) -> Report:
        """The report of such data. It is made of the verdicts; the text under `report` is not read."""
        complexes = tuple(Complex(tuple(Term(it["species"], it["amount"]) for it in one["terms"]))
                          for one in data["complexes"])
        answers: dict[str, Any] = {f"q{kind.question}": of_plain(kind, data[f"q{kind.question}"]) for kind in KINDS}
        return cls(tuple(data["species"]), complexes, data["reaction_count"], **answers, source=data.get("network"))


class Reader:
    """Reads the lines of a report one after another."""

    def __init__(self, text: str):
        self.text, self.at = text, 0
        self.lines = text.split("\n")
        self.places: dict[str, int] = {}

    def due(self, prefix: str) -> str:
        """The rest of the next line, which begins so."""
        line = self.lines[self.at] if self.at < len(self.lines) else ""
        if not line.startswith(prefix):
            raise NotAReport(self.at + 1, f"a line that begins with {prefix!r} is due")
        self.at += 1
        return line[len(prefix) :]

    def counted(self, word: str, separator: str) -> list[str]:
        """The members of a line such as `species 2: A B`."""
        count, _, rest = self.due(f"{word} ").partition(": ")
        members = rest.split(separator) if rest else []
        if count != str(len(members)):
            raise NotAReport(self.at, f"{count} {word}")
        return members

    def verdict(self, kind: type[Verdict]) -> Verdict:
        """The verdict of the next line and of those below it."""
        said = self.due(f"Q{kind.question} {kind.title}: ")
        head, end = self.at, self.at
        while end < len(self.lines) and self.lines[end].startswith("  "):
            end += 1
        below = Below([line[2:] for line in self.lines[head:end]], self.places)
        self.at = end
        try:
            is_open = said.startswith("open") and kind.question not in NEVER_OPEN
            verdict = kind(open=Open.read(said, below)) if is_open else kind.read(said, below)
            if below.left:
                raise Malformed("no further line below")
        except Malformed as wanted:
            raise NotAReport(head, str(wanted)) from None
        return verdict

    def report(self, source: str | None) -> Report:
        if self.due(HEAD):
            raise NotAReport(1, f"the line {HEAD!r}")
        species = self.counted("species", " ")
        names = self.counted("complexes", "; ")
        try:
            complexes = tuple(map(Complex.of_text, names))
            reactions = int(self.due("reactions "))
        except ValueError as wanted:
            raise NotAReport(self.at + 1, str(wanted)) from None
        self.places = {name: number for number, name in enumerate(names, 1)}
        answers: dict[str, Any] = {f"q{kind.question}": self.verdict(kind) for kind in KINDS}
        self.due("open: ")
        report = Report(tuple(species), complexes, reactions, **answers, source=source)
        if str(report) != self.text:
            raise NotAReport(first_difference(str(report), self.text), "the bytes of a report")
        return report


def first_difference(one: str, other: str) -> int:
    """The number of the first line in which two texts differ."""
    pairs = enumerate(zip(one.split("\n"), other.split("\n")), 1)
    return next((number for number, (a, b) in pairs if a != b), min(one.count("\n"), other.count("\n")) + 1)


def plain(value: Any) -> Any:
    """Data classes as dictionaries, tuples as lists."""
    if dataclasses.is_dataclass(value) and not isinstance(value, type):
        return {it.name: plain(getattr(value, it.name)) for it in dataclasses.fields(value)}
    if isinstance(value, Reaction):
        return dict(value._asdict())
    if isinstance(value, tuple):
        return [plain(member) for member in value]
    return value


#: The data classes within verdicts, by the field that holds them.
WITHIN: dict[str, Callable[..., Any]] = {
    "open": Open, "failure": Failure, "signal": Signal, "without_reverse": Reaction, "leaving": Reaction,
}


def of_plain(kind: type[Verdict], data: dict[str, Any]) -> Verdict:
    """The verdict that such a dictionary was made of."""
    return kind(**{it.name: of_field(it.name, data[it.name]) for it in dataclasses.fields(kind)})


def of_field(name: str, value: Any) -> Any:
    if isinstance(value, dict):
        return WITHIN[name](**{key: of_field(key, member) for key, member in value.items()})
    if isinstance(value, list):
        return tuple(of_field(name, member) for member in value)
    return value


def schema() -> dict[str, Any]:
    """The JSON schema of `Report.to_dict`."""
    found: dict[str, Any] = json.loads((Path(verdicts.__file__).parent / "report.schema.json").read_text("utf-8"))
    return found
