"""The verdicts of the fifteen questions as data, and the lines of a report that say them: docs/FORMATS.md, "Report".

All numbers of species, complexes, reactions and classes count from 1, as in a report. A field is None where the report
says nothing of it: the multipliers of a yes, say, or all of an open question but `open`.
"""

from __future__ import annotations

import re
from dataclasses import dataclass
from typing import ClassVar, Sequence

from .network import Numbers, Reaction

NUMBER = re.compile(r"0|-?[1-9][0-9]*")
SHELVES = ("upper", "middle", "lower")


class Malformed(ValueError):
    """A line says nothing that a report can say; the message is what was wanted."""


def numbers_of(text: str) -> Numbers:
    words = text.split(" ")
    if not all(NUMBER.fullmatch(word) for word in words):
        raise Malformed("numbers")
    return tuple(map(int, words))


def number_of(text: str) -> int:
    found = numbers_of(text)
    if len(found) != 1:
        raise Malformed("one number")
    return found[0]


def text_of(numbers: Sequence[int]) -> str:
    return " ".join(map(str, numbers))


def matched(pattern: str, text: str) -> re.Match[str]:
    """The match of the whole text; a `%` in the pattern stands for a number."""
    found = re.fullmatch(pattern.replace("%", "(0|-?[1-9][0-9]*)"), text)
    if not found:
        raise Malformed(pattern.replace("%", "N"))
    return found


class Below:
    """The lines below a head, without their two spaces, taken one by one; and the numbers of the report's complexes."""

    def __init__(self, lines: Sequence[str], places: dict[str, int]):
        self.left, self.places = list(lines), places

    def take(self, word: str) -> str:
        """What the next line says after `word: `."""
        if not self.left or not self.left[0].startswith(f"{word}: "):
            raise Malformed(f"a line below with {word!r}")
        return self.left.pop(0)[len(word) + 2 :]

    def numbers(self, word: str) -> Numbers:
        return numbers_of(self.take(word))

    def complex(self, text: str) -> int:
        if text not in self.places:
            raise Malformed(f"a complex of this network in place of {text!r}")
        return self.places[text]

    def members(self, text: str) -> Numbers:
        return tuple(map(self.complex, text.split("; ")))

    def reaction(self) -> Reaction:
        """The reaction that the next line names: `reaction 3: KS0 -> K + S1`."""
        if not self.left:
            raise Malformed("a reaction below")
        found = matched("reaction %: (.*) -> (.*)", self.left.pop(0))
        return Reaction(int(found[1]), self.complex(found[2]), self.complex(found[3]))


@dataclass(frozen=True)
class Open:
    """Why a question is open: `cause` is wide, rests or budget, and the other fields belong to one cause each."""

    cause: str
    rests_on: int | None = None
    budget: int | None = None
    system: int | None = None
    linkage_class: int | None = None
    index: int | None = None
    basis: Numbers | None = None

    @property
    def said(self) -> str:
        if self.cause == "rests":
            return f"open, rests on Q{self.rests_on}"
        return f"open, budget {self.budget}" if self.cause == "budget" else "open, wide"

    def below(self) -> list[str]:
        if self.cause != "wide":
            return []
        where = f" class {self.linkage_class}" if self.linkage_class else ""
        return [f"system {self.system}{where}", f"index {self.index}", f"basis: {text_of(self.basis or ())}"]

    @classmethod
    def read(cls, said: str, below: Below) -> Open:
        if said.startswith("open, rests on Q"):
            return cls("rests", rests_on=int(matched("open, rests on Q%", said)[1]))
        if said.startswith("open, budget"):
            return cls("budget", budget=int(matched("open, budget %", said)[1]))
        if said != "open, wide" or len(below.left) != 3:
            raise Malformed("open, with its cause")
        system = matched("system ([1-5])(?: class %)?", below.left.pop(0))
        index = matched("index %", below.left.pop(0))
        return cls("wide", system=int(system[1]), linkage_class=int(system[2]) if system[2] else None,
                   index=int(index[1]), basis=below.numbers("basis"))


@dataclass(frozen=True)
class Verdict:
    """What a report says of one question. Each subclass is one of the fifteen."""

    question: ClassVar[int]
    title: ClassVar[str]
    open: Open | None = None

    def said(self, complexes: Sequence[str]) -> tuple[str, list[str]]:
        """What the report says after `title: `, and the lines below, without their two spaces."""
        raise NotImplementedError

    @classmethod
    def read(cls, said: str, below: Below) -> Verdict:
        """The verdict of a decided question that such lines say. Raises Malformed."""
        raise NotImplementedError


@dataclass(frozen=True)
class LinkageClasses(Verdict):
    """Question 1: the linkage classes, each as the numbers of its complexes."""

    question: ClassVar[int] = 1
    title: ClassVar[str] = "linkage classes"
    classes: tuple[Numbers, ...] = ()

    def said(self, complexes: Sequence[str]) -> tuple[str, list[str]]:
        return str(len(self.classes)), class_lines("class", self.classes, (), complexes)

    @classmethod
    def read(cls, said: str, below: Below) -> LinkageClasses:
        classes, _ = classes_of("class", int(matched("%", said)[1]), below)
        return cls(classes=classes)


@dataclass(frozen=True)
class StrongClasses(Verdict):
    """Question 2: the strong linkage classes, each as the numbers of its complexes, and which of them are terminal."""

    question: ClassVar[int] = 2
    title: ClassVar[str] = "strong classes"
    classes: tuple[Numbers, ...] = ()
    terminal: Numbers = ()

    def said(self, complexes: Sequence[str]) -> tuple[str, list[str]]:
        lines = class_lines("strong", self.classes, self.terminal, complexes)
        return f"{len(self.classes)}, terminal {len(self.terminal)}", lines

    @classmethod
    def read(cls, said: str, below: Below) -> StrongClasses:
        counts = matched("%, terminal %", said)
        classes, terminal = classes_of("strong", int(counts[1]), below)
        if len(terminal) != int(counts[2]):
            raise Malformed(f"{counts[2]} terminal classes")
        return cls(classes=classes, terminal=terminal)


def class_lines(word: str, classes: Sequence[Numbers], terminal: Numbers, complexes: Sequence[str]) -> list[str]:
    return [
        f"{word} {k}: {'; '.join(complexes[c - 1] for c in members)}{' (terminal)' if k in terminal else ''}"
        for k, members in enumerate(classes, 1)
    ]


def classes_of(word: str, count: int, below: Below) -> tuple[tuple[Numbers, ...], Numbers]:
    """So many classes, and the numbers of those that are marked as terminal."""
    classes, terminal = [], []
    for k in range(1, count + 1):
        text = below.take(f"{word} {k}")
        members = text[: -len(" (terminal)")] if text.endswith(" (terminal)") else text
        if members != text:
            terminal.append(k)
        classes.append(below.members(members))
    return tuple(classes), tuple(terminal)


def reaction_line(reaction: Reaction, complexes: Sequence[str]) -> str:
    return f"reaction {reaction.number}: {complexes[reaction.reactant - 1]} -> {complexes[reaction.product - 1]}"


@dataclass(frozen=True)
class Reversible(Verdict):
    """Question 3: whether the reverse of each reaction is a reaction; after a no one without a reverse."""

    question: ClassVar[int] = 3
    title: ClassVar[str] = "reversible"
    reversible: bool | None = None
    without_reverse: Reaction | None = None

    def said(self, complexes: Sequence[str]) -> tuple[str, list[str]]:
        return yes_or_no(self.reversible), [reaction_line(self.without_reverse, complexes)] if self.without_reverse else []

    @classmethod
    def read(cls, said: str, below: Below) -> Reversible:
        return cls(reversible=True) if is_yes(said) else cls(reversible=False, without_reverse=below.reaction())


@dataclass(frozen=True)
class WeaklyReversible(Verdict):
    """Question 4: whether every linkage class is one strong class; after a no a reaction that leaves its strong class."""

    question: ClassVar[int] = 4
    title: ClassVar[str] = "weakly reversible"
    weakly_reversible: bool | None = None
    leaving: Reaction | None = None

    def said(self, complexes: Sequence[str]) -> tuple[str, list[str]]:
        return yes_or_no(self.weakly_reversible), [reaction_line(self.leaving, complexes)] if self.leaving else []

    @classmethod
    def read(cls, said: str, below: Below) -> WeaklyReversible:
        return cls(weakly_reversible=True) if is_yes(said) else cls(weakly_reversible=False, leaving=below.reaction())


def yes_or_no(holds: bool | None) -> str:
    return "yes" if holds else "no"


def is_yes(said: str) -> bool:
    if said not in ("yes", "no"):
        raise Malformed("yes or no")
    return said == "yes"


@dataclass(frozen=True)
class Rank(Verdict):
    """Question 5: the rank of the reaction vectors, and as many reactions whose vectors are independent."""

    question: ClassVar[int] = 5
    title: ClassVar[str] = "rank"
    rank: int | None = None
    independent_reactions: Numbers | None = None

    def said(self, complexes: Sequence[str]) -> tuple[str, list[str]]:
        return str(self.rank), [f"independent reactions: {text_of(self.independent_reactions or ())}"]

    @classmethod
    def read(cls, said: str, below: Below) -> Rank:
        return cls(rank=int(matched("%", said)[1]), independent_reactions=below.numbers("independent reactions"))


@dataclass(frozen=True)
class Deficiency(Verdict):
    """Question 6: the deficiency, and that of each linkage class."""

    question: ClassVar[int] = 6
    title: ClassVar[str] = "deficiency"
    deficiency: int | None = None
    class_deficiencies: Numbers | None = None

    def said(self, complexes: Sequence[str]) -> tuple[str, list[str]]:
        return f"{self.deficiency}, classes {text_of(self.class_deficiencies or ())}", []

    @classmethod
    def read(cls, said: str, below: Below) -> Deficiency:
        found = matched("%, classes (.*)", said)
        return cls(deficiency=int(found[1]), class_deficiencies=numbers_of(found[2]))


@dataclass(frozen=True)
class PositiveDependence(Verdict):
    """Question 7: whether the vectors, times positive numbers, add up to zero: such numbers, one for each reaction, or
    multipliers of the species that exclude them."""

    question: ClassVar[int] = 7
    title: ClassVar[str] = "positively dependent"
    positively_dependent: bool | None = None
    combination: Numbers | None = None
    multipliers: Numbers | None = None

    def said(self, complexes: Sequence[str]) -> tuple[str, list[str]]:
        return yes_or_no(self.positively_dependent), shown("positive combination", self.combination, self.multipliers)

    @classmethod
    def read(cls, said: str, below: Below) -> PositiveDependence:
        if is_yes(said):
            return cls(positively_dependent=True, combination=below.numbers("positive combination"))
        return cls(positively_dependent=False, multipliers=below.numbers("multipliers"))


@dataclass(frozen=True)
class Conservation(Verdict):
    """Question 8: whether the species have positive weights whose total no reaction changes: such weights, or multipliers
    of the reactions that exclude them."""

    question: ClassVar[int] = 8
    title: ClassVar[str] = "conservative"
    conservative: bool | None = None
    law: Numbers | None = None
    multipliers: Numbers | None = None

    def said(self, complexes: Sequence[str]) -> tuple[str, list[str]]:
        return yes_or_no(self.conservative), shown("positive law", self.law, self.multipliers)

    @classmethod
    def read(cls, said: str, below: Below) -> Conservation:
        if is_yes(said):
            return cls(conservative=True, law=below.numbers("positive law"))
        return cls(conservative=False, multipliers=below.numbers("multipliers"))


def shown(word: str, numbers: Numbers | None, multipliers: Numbers | None) -> list[str]:
    if numbers is not None:
        return [f"{word}: {text_of(numbers)}"]
    return [f"multipliers: {text_of(multipliers or ())}"]


@dataclass(frozen=True)
class DeficiencyZero(Verdict):
    """Question 9: whether the hypothesis of the Deficiency Zero Theorem holds, and which of its two cases it is; after a
    no the deficiency."""

    question: ClassVar[int] = 9
    title: ClassVar[str] = "deficiency zero theorem"
    hypotheses_hold: bool | None = None
    weakly_reversible: bool | None = None
    deficiency: int | None = None

    def said(self, complexes: Sequence[str]) -> tuple[str, list[str]]:
        if not self.hypotheses_hold:
            return f"hypotheses fail, deficiency {self.deficiency}", []
        return f"hypotheses hold, {'' if self.weakly_reversible else 'not '}weakly reversible", []

    @classmethod
    def read(cls, said: str, below: Below) -> DeficiencyZero:
        if said.startswith("hypotheses hold"):
            found = matched("hypotheses hold, (not )?weakly reversible", said)
            return cls(hypotheses_hold=True, weakly_reversible=found[1] is None)
        return cls(hypotheses_hold=False, deficiency=int(matched("hypotheses fail, deficiency %", said)[1]))


@dataclass(frozen=True)
class Failure:
    """The first hypothesis that fails. `what` is `terminal classes` (a linkage class has several: `number`), `class
    deficiency` (it has a greater one than 1: `number`), `sum` (the class deficiencies add up to `number`), `dependence`
    (the vectors are not positively dependent) or `cycle` (a reaction of a terminal class, and a walk round it)."""

    what: str
    linkage_class: int | None = None
    number: int | None = None
    reaction: int | None = None
    walk: Numbers | None = None

    def said(self) -> str:
        return {
            "terminal classes": f"class {self.linkage_class} has {self.number} terminal classes",
            "class deficiency": f"class {self.linkage_class} has deficiency {self.number}",
            "sum": f"class deficiencies sum to {self.number}",
            "dependence": "not positively dependent",
            "cycle": "a cycle in a terminal class",
        }[self.what]

    @classmethod
    def read(cls, said: str, below: Below) -> Failure:
        """What fails of questions 10 and 11."""
        if said.startswith("class deficiencies"):
            return cls("sum", number=int(matched("class deficiencies sum to %", said)[1]))
        if said == "not positively dependent":
            return cls("dependence")
        if said == "a cycle in a terminal class" and below.left:
            found = matched("reaction %, walk: (.*)", below.left.pop(0))
            return cls("cycle", reaction=int(found[1]), walk=below.members(found[2]))
        if said.endswith("terminal classes"):
            found = matched("class % has % terminal classes", said)
            return cls("terminal classes", int(found[1]), int(found[2]))
        found = matched("class % has deficiency %", said)
        return cls("class deficiency", int(found[1]), int(found[2]))


@dataclass(frozen=True)
class DeficiencyOne(Verdict):
    """Question 10: whether the hypotheses of the Deficiency One Theorem hold, and the first that fails."""

    question: ClassVar[int] = 10
    title: ClassVar[str] = "deficiency one theorem"
    hypotheses_hold: bool | None = None
    failure: Failure | None = None

    def said(self, complexes: Sequence[str]) -> tuple[str, list[str]]:
        return f"hypotheses fail, {self.failure.said()}" if self.failure else "hypotheses hold", []

    @classmethod
    def read(cls, said: str, below: Below) -> DeficiencyOne:
        if said == "hypotheses hold":
            return cls(hypotheses_hold=True)
        failure = Failure.read(matched("hypotheses fail, (.*)", said)[1], below)
        if failure.what in ("dependence", "cycle"):
            raise Malformed("a hypothesis of the Deficiency One Theorem")
        return cls(hypotheses_hold=False, failure=failure)


@dataclass(frozen=True)
class Regular(Verdict):
    """Question 11: whether the network is regular, and the first condition that fails."""

    question: ClassVar[int] = 11
    title: ClassVar[str] = "regular"
    regular: bool | None = None
    failure: Failure | None = None

    def said(self, complexes: Sequence[str]) -> tuple[str, list[str]]:
        if not self.failure:
            return "yes", []
        walk = [f"reaction {self.failure.reaction}, walk: {'; '.join(complexes[c - 1] for c in self.failure.walk)}"] \
            if self.failure.walk else []
        return f"no, {self.failure.said()}", walk

    @classmethod
    def read(cls, said: str, below: Below) -> Regular:
        if said == "yes":
            return cls(regular=True)
        failure = Failure.read(matched("no, (.*)", said)[1], below)
        if failure.what in ("class deficiency", "sum"):
            raise Malformed("a condition of regularity")
        return cls(regular=False, failure=failure)


@dataclass(frozen=True)
class ConfluenceVector(Verdict):
    """Question 12: the confluence vector, one number for each complex; or why there is not just one: `reason` is `not
    regular`, `no vector but zero` or `two independent vectors`, and after the last `vectors` has two."""

    question: ClassVar[int] = 12
    title: ClassVar[str] = "confluence vector"
    applicable: bool | None = None
    vector: Numbers | None = None
    reason: str | None = None
    vectors: tuple[Numbers, ...] | None = None

    def said(self, complexes: Sequence[str]) -> tuple[str, list[str]]:
        vectors = [self.vector] if self.vector is not None else list(self.vectors or ())
        head = "yes" if self.applicable else f"not applicable, {self.reason}"
        return head, [f"vector: {text_of(vector)}" for vector in vectors]

    @classmethod
    def read(cls, said: str, below: Below) -> ConfluenceVector:
        if said == "yes":
            return cls(applicable=True, vector=below.numbers("vector"))
        reason = matched("not applicable, (not regular|no vector but zero|two independent vectors)", said)[1]
        two = reason == "two independent vectors"
        vectors = (below.numbers("vector"), below.numbers("vector")) if two else None
        return cls(applicable=False, reason=reason, vectors=vectors)


@dataclass(frozen=True)
class Signal:
    """A signal: `turn` is 1 for the confluence vector and -1 for its negative, `shelves` has `upper`, `middle` or `lower`
    for each terminal strong class, `mu` a number for each species, and `m` is the height of the middle shelf."""

    turn: int
    shelves: tuple[str, ...]
    mu: Numbers
    m: int


@dataclass(frozen=True)
class SignalVerdict(Verdict):
    """Question 13: whether the confluence vector has a signal; `applicable` is false if there is no such vector."""

    question: ClassVar[int] = 13
    title: ClassVar[str] = "signal"
    applicable: bool | None = None
    has_signal: bool | None = None
    signal: Signal | None = None

    def said(self, complexes: Sequence[str]) -> tuple[str, list[str]]:
        if not self.applicable or self.signal is None:
            return "no" if self.applicable else "not applicable", []
        signal = self.signal
        return "yes", [f"turn: {signal.turn}", f"shelves: {' '.join(signal.shelves)}", f"mu: {text_of(signal.mu)}",
                       f"m: {signal.m}"]

    @classmethod
    def read(cls, said: str, below: Below) -> SignalVerdict:
        if said == "not applicable":
            return cls(applicable=False)
        if not is_yes(said):
            return cls(applicable=True, has_signal=False)
        turn, shelves = number_of(below.take("turn")), tuple(below.take("shelves").split(" "))
        if turn not in (1, -1) or not set(shelves) <= set(SHELVES):
            raise Malformed("a turn of 1 or -1, and shelves")
        signal = Signal(turn, shelves, below.numbers("mu"), number_of(below.take("m")))
        return cls(applicable=True, has_signal=True, signal=signal)


@dataclass(frozen=True)
class Concordant(Verdict):
    """Question 14: whether the network is concordant; after a no the two lists that show it is not."""

    question: ClassVar[int] = 14
    title: ClassVar[str] = "concordant"
    concordant: bool | None = None
    sigma: Numbers | None = None
    alpha: Numbers | None = None

    def said(self, complexes: Sequence[str]) -> tuple[str, list[str]]:
        return yes_or_no(self.concordant), discordance(self.sigma, self.alpha)

    @classmethod
    def read(cls, said: str, below: Below) -> Concordant:
        if is_yes(said):
            return cls(concordant=True)
        return cls(concordant=False, sigma=below.numbers("sigma"), alpha=below.numbers("alpha"))


@dataclass(frozen=True)
class StronglyConcordant(Verdict):
    """Question 15: the same of strong concordance."""

    question: ClassVar[int] = 15
    title: ClassVar[str] = "strongly concordant"
    strongly_concordant: bool | None = None
    sigma: Numbers | None = None
    alpha: Numbers | None = None

    def said(self, complexes: Sequence[str]) -> tuple[str, list[str]]:
        return yes_or_no(self.strongly_concordant), discordance(self.sigma, self.alpha)

    @classmethod
    def read(cls, said: str, below: Below) -> StronglyConcordant:
        if is_yes(said):
            return cls(strongly_concordant=True)
        return cls(strongly_concordant=False, sigma=below.numbers("sigma"), alpha=below.numbers("alpha"))


def discordance(sigma: Numbers | None, alpha: Numbers | None) -> list[str]:
    return [f"sigma: {text_of(sigma)}", f"alpha: {text_of(alpha)}"] if sigma is not None and alpha is not None else []
