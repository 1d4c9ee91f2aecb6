"""Looks for an order of lines and species in which the searches of questions 13 to 15 end.

A search gives the species their signs in the order in which they first appear, so its length depends on that order; what
is true of the network does not. Nothing here is decided: each order is tried by the program."""

from __future__ import annotations

import random
from dataclasses import dataclass, field
from typing import Callable, Iterator

from .draw import pairs_of
from .errors import CrntError
from .network import Complex, Network, Reaction, statements_of
from .program import report as report_of
from .report import Report

DEFAULT_BUDGET, DEFAULT_RESTARTS, SMALL = 20_000, 40, 10
#: A species in more lines than this is a hub: an enzyme, say, which would make all others neighbours.
MOST_LINES = 6
NO_HUBS = 10**6

#: A place for each species; hubs have none.
Places = dict[str, int]
#: The two complexes of a line.
Ends = frozenset[frozenset[tuple[str, int]]]


@dataclass(frozen=True)
class Trial:
    """An order that was tried: its name, the text and the report on it."""

    order: str
    text: str
    report: Report
    budget: int

    def __str__(self) -> str:
        return f"{self.order}, {self.budget} visits: {self.report.open_count or 'no'} open"


@dataclass
class Ordered:
    """What came of it: the best trial, reported with the whole budget, and all trials in their order."""

    best: Trial
    trials: list[Trial] = field(default_factory=list)


@dataclass(frozen=True)
class Line:
    """A line of a network text: a reaction, or two that are each other's reverse, and the comment behind it."""

    reactant: Complex
    product: Complex
    arrow: str
    comment: str

    def species(self) -> list[str]:
        return list(dict.fromkeys(name for name, _ in [*self.reactant.terms, *self.product.terms]))

    def text(self, places: Places) -> str:
        """The line with the terms of each side by place, and, if it goes both ways, the side of the first species first."""
        sides = [sorted(side.terms, key=lambda term: places.get(term.species, -1)) for side in (self.reactant, self.product)]
        if self.arrow == "<->":
            sides.sort(key=lambda terms: min((places.get(name, -1) for name, _ in terms), default=-1))
        left, right = (str(Complex(tuple(terms))) for terms in sides)
        return f"{left} {self.arrow} {right}{f'  # {self.comment}' if self.comment else ''}"


def lines_of(network: Network, text: str) -> list[Line]:
    """The lines of a network, each with the comments of the lines of the text that state it."""
    comments = [line.partition("#")[2].strip() for line in text.split("\n")]
    stated: dict[Ends, dict[str, None]] = {}
    for number, left, right in statements_of(text):
        ends = frozenset((frozenset(left.items()), frozenset(right.items())))
        stated.setdefault(ends, {})[comments[number - 1]] = None
    lines = []
    for pair in pairs_of(network):
        reactant, product = ends_of(network, pair[0])
        said = stated[frozenset((frozenset(reactant.terms), frozenset(product.terms)))]
        lines.append(Line(reactant, product, "<->" if len(pair) > 1 else "->", "; ".join(filter(None, said))))
    return lines


def ends_of(network: Network, reaction: Reaction) -> tuple[Complex, Complex]:
    return network.complexes[reaction.reactant - 1], network.complexes[reaction.product - 1]


def arranged(lines: list[Line], places: Places) -> str:
    """The lines by the last place of their species and then by the first: a line comes when all its species have come.
    Hubs come with the first line that has them."""

    def key(line: Line) -> tuple[int, int]:
        found = [places[name] for name in line.species() if name in places] or [-1]
        return max(found), min(found)

    return "".join(f"{line.text(places)}\n" for line in sorted(lines, key=key))


# ---- orders of the species

def neighbours(lines: list[Line], most_lines: int) -> dict[str, list[str]]:
    """For each species that is no hub those that share a line with it, from the one with the fewest such."""
    times: dict[str, int] = {}
    for line in lines:
        for name in line.species():
            times[name] = times.get(name, 0) + 1
    found: dict[str, dict[str, None]] = {name: {} for name in times if times[name] <= most_lines}
    for line in lines:
        members = [name for name in line.species() if name in found]
        for name in members:
            found[name].update(dict.fromkeys(other for other in members if other != name))
    return {name: sorted(others, key=lambda other: len(found[other])) for name, others in found.items()}


def levels_from(start: str, near: dict[str, list[str]]) -> list[str]:
    """The species that can be reached, breadth first."""
    order, seen = [start], {start}
    for name in order:
        fresh = [other for other in near[name] if other not in seen]
        seen.update(fresh)
        order += fresh
    return order


def by_levels(lines: list[Line], most_lines: int, start: Callable[[list[str]], str] | None = None) -> Places:
    """Species by breadth-first levels from an end of the network: from a species of few neighbours one goes three times to
    a farthest one, as in the Cuthill-McKee ordering of sparse matrices. `start` may choose another one."""
    near = neighbours(lines, most_lines)
    left, order = list(near), []
    while left:
        if start:
            first = start(left)
        else:
            first = min(left, key=lambda name: len(near[name]))
            for _ in range(3):
                first = levels_from(first, near)[-1]
        found = levels_from(first, near)
        order += found
        left = [name for name in left if name not in set(found)]
    return {name: place for place, name in enumerate(order)}


def by_closing(network: Network, dice: random.Random | None = None) -> Places:
    """Species so that reactants are complete as early as can be: each time one that completes most of them, then one that
    shares most reactions with those before, then one that begins fewest new ones; `dice` chooses among equals."""
    reactants, members = [], []
    for reaction in network.reactions:
        reactant, product = ends_of(network, reaction)
        reactants.append({name for name, _ in reactant.terms})
        members.append({name for name, _ in [*reactant.terms, *product.terms]})
    chosen: dict[str, int] = {}

    def worth(name: str) -> tuple[int, int, int, float]:
        completed = sum(name in side and all(other in chosen for other in side - {name}) for side in reactants)
        shared = [any(other in chosen for other in those) for those in members if name in those]
        return completed, sum(shared), -shared.count(False), dice.random() if dice else 0.0

    while len(chosen) < len(network.species):
        best = max((name for name in network.species if name not in chosen), key=worth)
        chosen[best] = len(chosen)
    return chosen


def by_linkage_class(network: Network, report: Report) -> Places:
    """Species by the linkage class in which they first come."""
    order: dict[str, int] = {}
    for members in report.q1.classes:
        for number in members:
            for name, _ in network.complexes[number - 1].terms:
                order.setdefault(name, len(order))
    return order


def orders(network: Network, lines: list[Line], report: Report, restarts: int, seed: int) -> Iterator[tuple[str, Places]]:
    """The orders that are tried, each with its name."""
    yield "by levels, hubs left out", by_levels(lines, MOST_LINES)
    yield "by levels", by_levels(lines, NO_HUBS)
    yield "by reactants complete", by_closing(network)
    yield "by linkage class", by_linkage_class(network, report)
    for number in range(1, restarts + 1):
        dice = random.Random(f"{seed} {number}")
        if number % 2:
            yield f"restart {number}, by levels", by_levels(lines, dice.choice((4, MOST_LINES, 9, NO_HUBS)), dice.choice)
        else:
            yield f"restart {number}, by reactants complete", by_closing(network, dice)


def order(text: str, budget: int | None = None, restarts: int = DEFAULT_RESTARTS, seed: int = 1) -> Ordered:
    """Tries orders until no line is open: first with a tenth of the budget, then with all of it. Raises Refused."""
    whole = budget or DEFAULT_BUDGET
    written = Trial("as written", text, report_of(text, whole), whole)
    found = Ordered(written, [written])
    if not is_spent(written.report) or written.report.network is None:
        return found
    network = written.report.network
    lines = lines_of(network, text)
    head = "".join(f"{line.strip()}\n" for line in text.split("\n") if line.strip().startswith("#"))
    for visits in (max(1, whole // SMALL), whole):
        for name, places in orders(network, lines, written.report, restarts if visits < whole else 0, seed):
            made = head + arranged(lines, places)
            trial = Trial(name, made, report_of(made, visits), visits)
            agree(written.report, trial.report)
            found.trials.append(trial)
            if trial.report.open_count < found.best.report.open_count:
                found.best = trial
            if not is_spent(trial.report):
                return reported(found, whole)
    return reported(found, whole)


def reported(found: Ordered, whole: int) -> Ordered:
    """The same, with the report on the best order by the whole budget."""
    best = found.best
    if best.budget < whole:
        found.best = Trial(best.order, best.text, report_of(best.text, whole), whole)
    return found


def is_spent(report: Report) -> bool:
    """Whether a line is open for its budget, which another order may help."""
    return any(verdict.open and verdict.open.cause == "budget" for verdict in report.verdicts)


def agree(one: Report, other: Report) -> None:
    """Two reports on one network say the same where neither is open."""
    same = set(one.species) == set(other.species) and one.reaction_count == other.reaction_count
    for question in range(1, 16):
        words = {one.word(question), other.word(question)} - {"open"}
        same = same and len(words) <= 1
    if not same:
        raise CrntError("two orders of one network have different verdicts: please report this with the text")


def as_text(found: Ordered, name: str) -> str:
    """The text in its best order; what was tried and the report are comments of it."""
    tried = [f"# tried: {trial}" for trial in found.trials]
    head = [f"# {name or 'the network'}, {found.best.order}: another order of the same lines, so of the same network; what "
            "is true of it is the same", *tried]
    report = [f"# {line}" for line in str(found.best.report).splitlines()]
    return "\n".join([*head, found.best.text.rstrip("\n"), *report, ""])
