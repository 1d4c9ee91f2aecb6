"""The test of each answer of a certificate, in the order of docs/CERTIFICATES.md, "Rejections". Species, complexes, reactions
and classes count from 1, as there."""

from __future__ import annotations

import math
import re
from dataclasses import dataclass, field
from typing import Any, Callable, Iterable, Optional, Sequence

from ..errors import NotANetwork, Rejected
from ..network import MOST_REACTIONS, Network, Numbers, Reaction
from ..program import Text
from ..report import Report
from ..verdicts import (
    Concordant, ConfluenceVector, Conservation, Deficiency, DeficiencyOne, DeficiencyZero, Failure, LinkageClasses, Open,
    PositiveDependence, Rank, Regular, Reversible, Signal, SignalVerdict, StrongClasses, StronglyConcordant,
    WeaklyReversible,
)
from .document import Document, Form, bare, free, listed, ranged, wide
from .signs import Concordance, Pair, SignProblem, Signals, children, combined, product

MOST_SHARED, MOST_NUMBERS, MOST_BUDGET = 4_096, 400, 100_000
SECTIONS = {1: "graph", 5: "rank", 7: "dependence", 9: "theorems", 11: "confluence", 14: "concordance"}
SHELVES = {1: "upper", 0: "middle", -1: "lower"}


@dataclass
class Facts:
    """What the answers so far say that later tests need. What is open, or not read yet, is None."""

    linkage: Numbers = ()
    strong: Numbers = ()
    terminal: tuple[int, ...] = ()
    weakly_reversible: bool = False
    rank: Optional[int] = None
    deficiency: Optional[Deficiency] = None
    dependent: Optional[bool] = None
    regular: Optional[bool] = None
    sides: list[Numbers] = field(default_factory=list)
    #: The verdict of question 12: decided, and its vector.
    confluence_is_open: bool = False
    vector: Optional[Numbers] = None


class Block:
    """The tests of the records below one head. A fault of meaning is one only if all lines of the block are well formed, so
    it is kept until they are read."""

    def __init__(self, document: Document):
        self.document = document
        self.faults: list[Rejected] = []

    def test(self, code: int, holds: bool) -> None:
        """This has to hold of the line that was read last."""
        if not holds:
            self.faults.append(self.document.fault(code))

    def end(self) -> None:
        """All lines are read: the first fault counts."""
        if self.faults:
            raise self.faults[0]


def verify(certificate: Text) -> Report:
    """The report of a certificate, whose every answer is tested. Raises Rejected."""
    text = certificate.encode("utf-8", "surrogateescape") if isinstance(certificate, str) else certificate
    return Verifier(Document(text)).report()


def read_network(document: Document) -> tuple[Network, str]:
    """The network of a document, and its text: the second line and those of the reactions."""
    head = re.fullmatch(r"network ([1-9][0-9]{0,2})", document.line().decode("latin-1"))
    if not head or int(head[1]) > MOST_REACTIONS:
        raise document.fault(22)
    text = "".join(document.line().decode("latin-1") + "\n" for _ in range(int(head[1])))
    try:
        network = Network.of_text(text)
    except NotANetwork:
        raise document.fault(22) from None
    if str(network) != text:
        raise document.fault(22)
    return network, text


class Verifier:
    """Reads a document from its first line to its last, and tests each answer."""

    def __init__(self, document: Document):
        self.document, self.facts = document, Facts()
        self.shared: list[Numbers] = []

    def use(self, network: Network) -> None:
        """The answers are those of this network."""
        self.network = network
        self.sizes = len(network.species), len(network.complexes), len(network.reactions)

    def report(self) -> Report:
        document = self.document
        document.version = {b"crn certificate 1": 1, b"crn certificate 2": 2}.get(document.line(), 0)
        if not document.version:
            raise document.fault(21)
        network, source = read_network(document)
        self.use(network)
        if document.version == 2:
            (count,) = document.numbers(ranged("vectors", (0, MOST_SHARED)))
            lists = Form(("vector",), lambda numbers: 1 <= len(numbers) <= MOST_NUMBERS, is_free=True)
            self.shared = [document.numbers(lists) for _ in range(count)]
        verdicts: dict[str, Any] = {}
        for question in range(1, 16):
            if document.version == 2 and question in SECTIONS:
                self.section(SECTIONS[question])
            verdicts[f"q{question}"] = getattr(self, f"q{question}")()
        document.record(bare("end"))
        document.end()
        net = self.network
        return Report(net.species, net.complexes, len(net.reactions), **verdicts, source=source)

    def section(self, name: str) -> None:
        self.document.record(bare("section", name))

    def require(self, holds: bool, code: int = 37) -> None:
        """A test at the head that was read last."""
        if not holds:
            raise self.document.fault(code)

    # ---- classes

    def q1(self) -> LinkageClasses:
        document, (_, complexes, reactions) = self.document, self.sizes
        block = Block(document)
        (count,) = document.numbers(ranged("q1", (1, complexes)))
        label = document.numbers(listed("label", complexes, 1, count))
        block.test(31, are_numbered(label, count) and all(
            label[it.reactant - 1] == label[it.product - 1] for it in self.network.reactions))
        up = document.numbers(listed("up", complexes, 0, reactions))
        depth = document.numbers(listed("depth", complexes, 0, complexes - 1))

        def hangs(reaction: Reaction, complex_: int) -> bool:
            ends = (reaction.reactant, reaction.product)
            return complex_ in ends and depth[complex_ - 1] == depth[sum(ends) - complex_ - 1] + 1

        block.test(31, self.is_forest(label, up, depth, hangs))
        block.end()
        self.facts.linkage = label
        return LinkageClasses(classes=members_of(label))

    def q2(self) -> StrongClasses:
        document, (_, complexes, reactions) = self.document, self.sizes
        block, net = Block(document), self.network
        head = Form(("q2",), lambda numbers: len(numbers) == 2 and 1 <= numbers[1] <= numbers[0] <= complexes)
        count, terminal = document.numbers(head)
        label = document.numbers(listed("label", complexes, 1, count))
        block.test(31, are_numbered(label, count))
        for word in ("from", "to"):
            self.strong_tree(block, word, label)
        level = document.numbers(listed("level", count, 0, complexes))
        between = [(label[it.reactant - 1], label[it.product - 1]) for it in net.reactions]
        block.test(31, all(level[a - 1] > level[b - 1] for a, b in between if a != b))
        exits = document.numbers(listed("exit", count, 0, reactions))
        left = {a for a, b in between if a != b}
        block.test(31, all(
            k not in left if exit_ == 0 else between[exit_ - 1][0] == k != between[exit_ - 1][1]
            for k, exit_ in enumerate(exits, 1)))
        block.test(36, exits.count(0) == terminal)
        block.end()
        self.facts.strong = label
        self.facts.terminal = tuple(k for k, exit_ in enumerate(exits, 1) if exit_ == 0)
        return StrongClasses(classes=members_of(label), terminal=self.facts.terminal)

    def strong_tree(self, block: Block, word: str, label: Numbers) -> None:
        """The records of the tree that leads from the first complex of each class to the others, or back to it."""
        _, complexes, reactions = self.sizes
        names = self.document.numbers(listed(word, complexes, 0, reactions))
        depth = self.document.numbers(listed(f"{word}depth", complexes, 0, complexes - 1))

        def hangs(reaction: Reaction, complex_: int) -> bool:
            own, other = (reaction.product, reaction.reactant) if word == "from" else (reaction.reactant, reaction.product)
            return own == complex_ and label[own - 1] == label[other - 1] and depth[own - 1] == depth[other - 1] + 1

        block.test(31, self.is_forest(label, names, depth, hangs))

    def is_forest(self, label: Numbers, names: Numbers, depth: Numbers, hangs: Callable[[Reaction, int], bool]) -> bool:
        """The first complex of each class has 0 and 0, and each other one hangs by the reaction that is named for it."""
        for complex_, (name, deep) in enumerate(zip(names, depth), 1):
            is_first = label.index(label[complex_ - 1]) == complex_ - 1
            if is_first and (name, deep) != (0, 0):
                return False
            if not is_first and not (name and hangs(self.network.reactions[name - 1], complex_)):
                return False
        return True

    # ---- reversibility

    def q3(self) -> Reversible:
        net, (_, _, reactions) = self.network, self.sizes
        place, numbers = self.document.record(bare("q3", "yes"), ranged("q3 no", (1, reactions)))
        pairs = {(it.reactant, it.product) for it in net.reactions}
        if place == 1:
            reaction = net.reactions[numbers[0] - 1]
            self.require((reaction.product, reaction.reactant) not in pairs)
            return Reversible(reversible=False, without_reverse=reaction)
        block = Block(self.document)
        back = self.document.numbers(listed("back", reactions, 1, reactions))
        block.test(32, all(
            net.reactions[b - 1][1:] == (it.product, it.reactant) for b, it in zip(back, net.reactions)))
        block.end()
        return Reversible(reversible=True)

    def q4(self) -> WeaklyReversible:
        net, strong = self.network, self.facts.strong
        place, numbers = self.document.record(bare("q4", "yes"), ranged("q4 no", (1, self.sizes[2])))
        leaves = [strong[it.reactant - 1] != strong[it.product - 1] for it in net.reactions]
        self.facts.weakly_reversible = place == 0
        self.require(leaves[numbers[0] - 1] if place else not any(leaves))
        if place:
            return WeaklyReversible(weakly_reversible=False, leaving=net.reactions[numbers[0] - 1])
        return WeaklyReversible(weakly_reversible=True)

    # ---- rank and deficiency

    def rank_records(self, block: Block, reactions: Sequence[int], rank: int,
                     codes: tuple[int, int] = (33, 34)) -> tuple[Numbers, dict[int, Numbers]]:
        """The base of the rank of some reactions, and for each other one the weights of the base, with the tests of what shows
        it, which have these codes."""
        document, vectors, species = self.document, self.network.vectors, self.sizes[0]
        combs: dict[int, Numbers] = {}
        base = document.numbers(Form(("base",), lambda numbers: len(numbers) == rank and set(numbers) <= set(reactions)
                                     and list(numbers) == sorted(set(numbers))))
        for own in base:
            dual = document.numbers(free("dual", species))
            block.test(codes[0], all((product(dual, vectors[r - 1]) != 0) == (r == own) for r in base))
        for r in reactions:
            if r not in base:
                scale, *weights = document.numbers(free("comb", 1 + rank))
                wanted, made = [scale * x for x in vectors[r - 1]], combined(weights, [vectors[b - 1] for b in base])
                block.test(codes[1], scale >= 1 and wanted == made)
                combs[r] = tuple(weights)
        return base, combs

    def q5(self) -> Rank:
        species, _, reactions = self.sizes
        place, numbers = self.document.record(ranged("q5", (1, min(species, reactions))), wide(5, 1, species, reactions))
        if place:
            return Rank(open=wide_of(numbers))
        block = Block(self.document)
        base, _ = self.rank_records(block, range(1, reactions + 1), numbers[0])
        block.end()
        self.facts.rank = numbers[0]
        return Rank(rank=numbers[0], independent_reactions=base)

    def q6(self) -> Deficiency:
        (species, complexes, _), facts = self.sizes, self.facts
        classes = [[it.number for it in self.network.reactions if facts.linkage[it.reactant - 1] == k]
                   for k in range(1, max(facts.linkage) + 1)]
        opened = [wide(6, 3, species, len(members), k) for k, members in enumerate(classes, 1)]
        place, numbers = self.document.record(
            listed("q6", 1 + len(classes), 0, complexes), ranged("q6 open rests", (5, 5)), *opened)
        if place:
            return Deficiency(open=Open("rests", rests_on=5) if place == 1 else wide_of(numbers))
        self.require(facts.rank is not None)
        total, *of_classes = numbers
        ranks = [facts.linkage.count(k) - 1 - d for k, d in enumerate(of_classes, 1)]
        possible = all(1 <= rank <= min(species, len(members)) for rank, members in zip(ranks, classes))
        self.require(total == complexes - len(classes) - (facts.rank or 0) and possible, 36)
        block = Block(self.document)
        for rank, members in zip(ranks, classes):
            self.rank_records(block, members, rank)
        block.end()
        facts.deficiency = Deficiency(deficiency=total, class_deficiencies=tuple(of_classes))
        return facts.deficiency

    # ---- positive vectors

    def positive(self, question: int, system: int, rows: Sequence[Numbers]) -> tuple[int, Numbers]:
        """Question 7 or 8: 0 and positive numbers whose product with each row is 0; 1 and multipliers of the rows that
        exclude them; or 2 and what is wide."""
        columns, word = len(rows[0]), f"q{question}"
        place, numbers = self.document.record(bare(word, "yes"), bare(word, "no"), wide(question, system, columns, len(rows)))
        if place == 2:
            return place, numbers
        block = Block(self.document)
        found = self.document.numbers(free("cut", len(rows)) if place else free("vec", columns))
        if place:
            sums = combined(found, rows)
            block.test(35, all(x <= 0 for x in sums) and any(sums))
        else:
            block.test(35, all(x > 0 for x in found) and not any(product(row, found) for row in rows))
        block.end()
        return place, found

    def q7(self) -> PositiveDependence:
        place, numbers = self.positive(7, 2, list(zip(*self.network.vectors)))
        if place == 2:
            return PositiveDependence(open=wide_of(numbers))
        self.facts.dependent = place == 0
        if place:
            return PositiveDependence(positively_dependent=False, multipliers=numbers)
        return PositiveDependence(positively_dependent=True, combination=numbers)

    def q8(self) -> Conservation:
        place, numbers = self.positive(8, 1, self.network.vectors)
        if place == 2:
            return Conservation(open=wide_of(numbers))
        if place:
            return Conservation(conservative=False, multipliers=numbers)
        return Conservation(conservative=True, law=numbers)

    # ---- the two theorems

    def q9(self) -> DeficiencyZero:
        complexes, facts = self.sizes[1], self.facts
        place, numbers = self.document.record(
            ranged("q9 yes", (0, 1)), ranged("q9 no", (1, complexes)), ranged("q9 open rests", (5, 5)))
        if place == 2:
            return DeficiencyZero(open=Open("rests", rests_on=5))
        self.require(facts.rank is not None)
        deficiency = complexes - max(facts.linkage) - (facts.rank or 0)
        if place:
            self.require(numbers[0] == deficiency, 36)
            return DeficiencyZero(hypotheses_hold=False, deficiency=deficiency)
        self.require(deficiency == 0 and bool(numbers[0]) == facts.weakly_reversible)
        return DeficiencyZero(hypotheses_hold=True, weakly_reversible=facts.weakly_reversible)

    def first_split(self) -> Numbers | None:
        """The least linkage class with several terminal strong classes, and how many it has."""
        facts = self.facts
        for k in range(1, max(facts.linkage) + 1):
            found = {s for s, of in zip(facts.strong, facts.linkage) if of == k and s in facts.terminal}
            if len(found) > 1:
                return k, len(found)
        return None

    def q10(self) -> DeficiencyOne:
        complexes, count = self.sizes[1], max(self.facts.linkage)
        two = (1, count), (2, complexes)
        place, numbers = self.document.record(
            bare("q10", "yes"), ranged("q10 no terminal", *two), ranged("q10 no class", *two),
            ranged("q10 no sum", (0, complexes)), ranged("q10 open rests", (6, 6)))
        if place == 4:
            return DeficiencyOne(open=Open("rests", rests_on=6))
        split = self.first_split()
        if place == 1:
            self.require(split == numbers)
            return DeficiencyOne(hypotheses_hold=False, failure=Failure("terminal classes", numbers[0], numbers[1]))
        self.require(split is None and self.facts.deficiency is not None)
        failure = failing_deficiency(self.facts.deficiency or Deficiency())
        said = Failure("class deficiency", numbers[0], numbers[1]) if place == 2 \
            else Failure("sum", number=numbers[0]) if place == 3 else None
        self.require(failure == said)
        return DeficiencyOne(hypotheses_hold=failure is None, failure=failure)

    # ---- regularity and the confluence vector

    def q11(self) -> Regular:
        (_, complexes, reactions), facts = self.sizes, self.facts
        place, numbers = self.document.record(
            bare("q11", "yes"), ranged("q11 no terminal", (1, max(facts.linkage)), (2, complexes)),
            bare("q11", "no", "dependence"), ranged("q11 no cycle", (1, reactions)), ranged("q11 open rests", (7, 7)))
        if place == 4:
            return Regular(open=Open("rests", rests_on=7))
        split, facts.regular = self.first_split(), place == 0
        if place == 1:
            self.require(split == numbers)
            return Regular(regular=False, failure=Failure("terminal classes", numbers[0], numbers[1]))
        self.require(split is None)
        if place == 3:
            return self.cycle(numbers[0])
        self.require(facts.dependent is (place == 0))
        if place == 2:
            return Regular(regular=False, failure=Failure("dependence"))
        self.read_sides()
        return Regular(regular=True)

    def cycle(self, number: int) -> Regular:
        """The answer that names a cycle: a walk round a reaction of a terminal class."""
        complexes, facts, reaction = self.sizes[1], self.facts, self.network.reactions[number - 1]
        a, b = reaction.reactant, reaction.product
        self.require(facts.dependent is not False and facts.strong[a - 1] == facts.strong[b - 1] in facts.terminal)
        block = Block(self.document)
        walk = self.document.numbers(Form(("walk",), lambda numbers: 2 <= len(numbers) <= complexes
                                          and all(1 <= number <= complexes for number in numbers)))
        links = {frozenset((it.reactant, it.product)) for it in self.network.reactions} - {frozenset((a, b))}
        block.test(32, (walk[0], walk[-1]) == (a, b) and all(
            frozenset(step) in links for step in zip(walk, walk[1:])))
        block.end()
        return Regular(regular=False, failure=Failure("cycle", reaction=number, walk=walk))

    def terminal_pairs(self) -> list[Reaction]:
        """The least reaction of each linked pair of complexes of one terminal strong class."""
        found: dict[frozenset[int], Reaction] = {}
        strong, terminal = self.facts.strong, self.facts.terminal
        for it in self.network.reactions:
            if strong[it.reactant - 1] == strong[it.product - 1] in terminal:
                found.setdefault(frozenset((it.reactant, it.product)), it)
        return list(found.values())

    def read_sides(self) -> None:
        complexes, block, linkage = self.sizes[1], Block(self.document), self.facts.linkage
        for pair in self.terminal_pairs():
            form = ranged("side", (pair.number, pair.number), *[(0, 1)] * complexes)
            marks = self.document.numbers(form)[1:]
            block.test(35, is_side(self.network, linkage, pair, marks))
            self.facts.sides.append(marks)
        block.end()

    def confluence_rows(self) -> list[list[int]]:
        """The rows of system 4: the amounts of each species, and the marks of each linkage class."""
        linkage = self.facts.linkage
        rows = [list(row) for row in zip(*self.network.amounts)]
        return rows + [[int(label == k) for label in linkage] for k in range(1, max(linkage) + 1)]

    def q12(self) -> ConfluenceVector:
        complexes, facts, rows = self.sizes[1], self.facts, self.confluence_rows()
        plane = Form(("q12", "none", "plane"), lambda numbers: len(numbers) == 2 and numbers[0] != numbers[1]
                     and all(1 <= number <= complexes for number in numbers))
        place, numbers = self.document.record(
            bare("q12", "yes"), bare("q12", "none", "regular"), bare("q12", "none", "zero"), plane,
            ranged("q12 open rests", (11, 11)), wide(12, 4, complexes, len(rows)))
        if place >= 4:
            facts.confluence_is_open = True
            return ConfluenceVector(open=Open("rests", rests_on=11) if place == 4 else wide_of(numbers))
        self.require(facts.regular is (place != 1))
        if place == 1:
            return ConfluenceVector(applicable=False, reason="not regular")
        block = Block(self.document)
        if place == 3:
            vectors = self.two_vectors(block, rows, *numbers)
            block.end()
            return ConfluenceVector(applicable=False, reason="two independent vectors", vectors=vectors)
        vector = self.read_vector(block, rows) if place == 0 else None
        self.read_ties(block, rows, next((c for c, x in enumerate(vector or ()) if x), None))
        block.end()
        facts.vector = vector
        if vector is None:
            return ConfluenceVector(applicable=False, reason="no vector but zero")
        return ConfluenceVector(applicable=True, vector=vector)

    def two_vectors(self, block: Block, rows: list[list[int]], c: int, d: int) -> tuple[Numbers, ...]:
        vectors = []
        for one, other in ((c, d), (d, c)):
            vector = self.document.numbers(free("vec", self.sizes[1]))
            in_space = not any(product(row, vector) for row in rows)
            block.test(35, in_space and vector[one - 1] != 0 and vector[other - 1] == 0)
            vectors.append(vector)
        return tuple(vectors)

    def read_vector(self, block: Block, rows: list[list[int]]) -> Numbers:
        facts = self.facts
        vector = self.document.numbers(free("vec", self.sizes[1]))
        sums = [sum(x for x, s in zip(vector, facts.strong) if s == k) for k in facts.terminal]
        first = next((x for x in vector if x), 0)
        block.test(35, not any(product(row, vector) for row in rows) and all(x >= 0 for x in sums)
                   and math.gcd(*vector) == 1 and (first > 0 or not facts.weakly_reversible))
        return vector

    def read_ties(self, block: Block, rows: list[list[int]], first: int | None) -> None:
        """A tie for each complex but the first where the vector is not 0."""
        for complex_ in range(self.sizes[1]):
            if complex_ != first:
                sums = combined(self.document.numbers(free("tie", len(rows))), rows)
                block.test(35, all((x != 0) == (c == complex_) for c, x in enumerate(sums) if c != first))

    # ---- signals and concordance

    def tree(self, problem: SignProblem) -> None:
        """The nodes of a tree, each tested when its line is read."""
        document = self.document
        due: list[list[int]] = [[]]
        forms = [bare("split"), bare("flat"), free("cuta", problem.lists_a), free("cutb", problem.lists_b)]
        if document.version == 2:
            forms += [ranged(word, (1, len(self.shared))) for word in ("refa", "refb")]
        while due:
            place, numbers = document.record(*forms, misplaced=43)
            prefix = due.pop()
            if place == 0:
                self.require(len(prefix) < problem.length, 42)
                due += reversed(children(prefix))
            elif place == 1:
                self.require(problem.is_flat(prefix), 42)
            else:
                multipliers = self.shared[numbers[0] - 1] if place > 3 else numbers
                is_a = place % 2 == 0
                self.require(len(multipliers) == (problem.lists_a if is_a else problem.lists_b), 46)
                excludes = problem.excludes_a if is_a else problem.excludes_b
                self.require(excludes(prefix, multipliers), 41)
        document.after_tree = True

    def signals(self, turn: int) -> Signals:
        """The sign problem of the confluence vector, or of its negative."""
        facts, vector = self.facts, self.facts.vector or ()
        top = [facts.terminal.index(s) if s in facts.terminal else None for s in facts.strong]
        pairs = [Pair(it.reactant - 1, it.product - 1, turn * product(marks, vector))
                 for it, marks in zip(self.terminal_pairs(), facts.sides)]
        return Signals(self.network, top, pairs)

    def q13(self) -> SignalVerdict:
        (species, complexes, reactions), facts = self.sizes, self.facts
        forms = [Form(("q13", "yes"), lambda numbers: tuple(numbers) in ((1,), (-1,))), bare("q13", "no"),
                 bare("q13", "none"), ranged("q13 open rests", (12, 12)), ranged("q13 open budget", (1, MOST_BUDGET)),
                 wide(13, 2, reactions, species)]
        if facts.vector is not None:
            forms.append(wide(13, 5, species + 1, complexes + len(facts.sides)))
        place, numbers = self.document.record(*forms)
        if place >= 3:
            return SignalVerdict(open=opened(place - 3, 12, numbers))
        has_vector = facts.vector is not None
        self.require(not facts.confluence_is_open and has_vector == (place != 2))
        if place == 2:
            return SignalVerdict(applicable=False)
        self.require(place == 1 or numbers[0] == 1 or facts.weakly_reversible)
        if place == 0:
            return self.read_signal(numbers[0])
        for turn in (1, -1) if facts.weakly_reversible else (1,):
            self.tree(self.signals(turn))
        return SignalVerdict(applicable=True, has_signal=False)

    def read_signal(self, turn: int) -> SignalVerdict:
        document, (species, _, reactions), block = self.document, self.sizes, Block(self.document)
        shelves = document.numbers(listed("shelves", len(self.facts.terminal), -1, 1))
        mu = document.numbers(free("mu", species))
        (m,) = document.numbers(free("m", 1))
        weights = document.numbers(free("weights", reactions))
        block.test(45, self.signals(turn).is_shown(shelves, mu, m, weights))
        block.end()
        return SignalVerdict(applicable=True, has_signal=True,
                             signal=Signal(turn, tuple(SHELVES[shelf] for shelf in shelves), mu, m))

    def concordance(self, question: int) -> tuple[Open | None, tuple[Numbers, Numbers] | None]:
        """Why question 14 or 15 is open, or sigma and alpha of a no; a yes has neither."""
        (species, _, reactions), word = self.sizes, f"q{question}"
        place, numbers = self.document.record(
            bare(word, "yes"), bare(word, "no"), ranged(f"{word} open budget", (1, MOST_BUDGET)),
            wide(question, 2, reactions, species))
        if place >= 2:
            return opened(place - 1, 0, numbers), None
        problem = Concordance(self.network, question == 15)
        if place == 0:
            self.tree(problem)
            return None, None
        block = Block(self.document)
        alpha = self.document.numbers(free("alpha", reactions))
        weights = self.document.numbers(free("weights", reactions))
        block.test(45, problem.is_shown(alpha, weights))
        block.end()
        return None, (tuple(combined(weights, self.network.vectors)), alpha)

    def q14(self) -> Concordant:
        open_, lists = self.concordance(14)
        if open_ or not lists:
            return Concordant(open=open_, concordant=None if open_ else True)
        return Concordant(concordant=False, sigma=lists[0], alpha=lists[1])

    def q15(self) -> StronglyConcordant:
        open_, lists = self.concordance(15)
        if open_ or not lists:
            return StronglyConcordant(open=open_, strongly_concordant=None if open_ else True)
        return StronglyConcordant(strongly_concordant=False, sigma=lists[0], alpha=lists[1])


def are_numbered(label: Numbers, count: int) -> bool:
    """Labels from 1 by first appearance, this many."""
    greatest = 0
    for it in label:
        if it > greatest + 1:
            return False
        greatest = max(greatest, it)
    return greatest == count


def members_of(label: Numbers) -> tuple[Numbers, ...]:
    """For each label the numbers of the complexes that have it."""
    return tuple(tuple(c for c, it in enumerate(label, 1) if it == k) for k in range(1, max(label) + 1))


def failing_deficiency(found: Deficiency) -> Failure | None:
    """The first hypothesis on the class deficiencies that fails."""
    classes: Iterable[int] = found.class_deficiencies or ()
    for k, deficiency in enumerate(classes, 1):
        if deficiency > 1:
            return Failure("class deficiency", k, deficiency)
    return None if sum(classes) == found.deficiency else Failure("sum", number=sum(classes))


def is_side(network: Network, linkage: Numbers, pair: Reaction, marks: Numbers) -> bool:
    """The marks are the side of a cut pair on which the product of this reaction is."""
    a, b = pair.reactant, pair.product
    within = not any(mark for mark, k in zip(marks, linkage) if k != linkage[a - 1])
    return (marks[a - 1], marks[b - 1]) == (0, 1) and within and all(
        marks[it.reactant - 1] == marks[it.product - 1]
        for it in network.reactions if {it.reactant, it.product} != {a, b})


def wide_of(numbers: Numbers) -> Open:
    """What is wide, from the numbers of an open head: the system, the class or 0, the index and the basis."""
    system, class_, index, *basis = numbers
    return Open("wide", system=system, linkage_class=class_ or None, index=index, basis=tuple(basis))


def opened(kind: int, rests_on: int, numbers: Numbers) -> Open:
    """Why a question is open: 0 rests on another, 1 the budget, else a wide vector."""
    if kind == 0:
        return Open("rests", rests_on=rests_on)
    return Open("budget", budget=numbers[0]) if kind == 1 else wide_of(numbers)
