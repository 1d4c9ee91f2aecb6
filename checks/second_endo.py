"""A second program for `prove endo` and `verify endo`, written from docs/FORMATS.md and docs/CERTIFICATES.md alone. Of one or two
species the slopes are gone through by their directions, of which finitely many differ; of more a linear system is solved for each
prefix of the search.

A slope is a number for each species. It falls along a reaction if its product with the reaction's vector is negative."""

from functools import cmp_to_key

from second_opinion import Rejected, free, is_basis, names_wide, none, product, small
from second_part import MAX_BUDGET, SecondProgram, line
from second_search import FREE, NONNEG, Part, children, has_kinds, kind_of, primitive

MOST_COORDINATES = 400
OUTCOMES = {"yes": "yes", "wide": "open", "spent": "open", "large": "open"}


def reactants(net):
    """The complexes that are reactants, ascending."""
    return sorted({y for y, _ in net.reactions})


def minus(one, other):
    return [a - b for a, b in zip(one, other)]


def is_lower(net, slope, q, r):
    """The reactant of q is lower than that of r."""
    return product(slope, net.complexes[net.reactions[q][0]]) < product(slope, net.complexes[net.reactions[r][0]])


def is_against(net, slope, r):
    """The slope falls along reaction r, and rises along none that begins lower."""
    rises = [product(slope, vector) for vector in net.vectors]
    return rises[r] < 0 and not any(rise > 0 and is_lower(net, slope, q, r) for q, rise in enumerate(rises))


def size(net):
    return len(net.names) + 2 * len(net.reactions) + len(reactants(net))


def turn_between(one, other):
    return one[0] * other[1] - one[1] * other[0]


def by_angle(one, other):
    """Directions of the plane in the order of their angles, from that of the first axis on."""
    halves = [v[1] < 0 or v[1] == 0 and v[0] < 0 for v in (one, other)]
    return halves[0] - halves[1] or -turn_between(one, other)


def directions(net):
    """Slopes of one or two species, one of each kind: what a slope says depends on the signs of its products with these vectors
    alone, and there is one here for each line on which such a product is 0, both ways, and one between any two neighbours."""
    if len(net.names) == 1:
        return [[1], [-1]]
    given = [net.complexes[c] for c in reactants(net)]
    vectors = [*net.vectors, *(minus(one, other) for one in given for other in given)]
    edges = {tuple(primitive([-sign * v[1], sign * v[0]])) for v in vectors if any(v) for sign in (1, -1)}
    edges = sorted(edges, key=cmp_to_key(by_angle))
    between = []
    for one, other in zip(edges, [*edges[1:], edges[0]]):
        # of two that are opposite the sum would be 0
        between.append([a + b for a, b in zip(one, other)] if turn_between(one, other) else [-one[1], one[0]])
    return [*map(list, edges), *between]


class Slopes:
    """The sign problem of reaction r: the slopes that are against it. The first choice is the sign of the rise along it, the others
    those of the heights of the further reactants above its own."""

    def __init__(self, net, r):
        self.net, self.r, own = net, r, net.reactions[r][0]
        self.others = [c for c in reactants(net) if c != own]
        self.length = 1 + len(self.others)
        falls = [[-x for x in vector] for vector in net.vectors]
        above = [minus(net.complexes[c], net.complexes[own]) for c in self.others]
        self.part = Part([*net.vectors, *falls, *above], len(net.names))
        slopes = [[0] * len(net.names), *directions(net)] if len(net.names) < 3 else []
        self.known = [(slope, self.part.values(slope)) for slope in slopes]

    def kinds(self, prefix):
        first, heights = (prefix[0] if prefix else None), dict(zip(self.others, prefix[1:]))
        rises, falls = [], []
        for q, (y, _) in enumerate(self.net.reactions):
            rises.append(kind_of(first) if q == self.r else NONNEG if first == 1 == heights.get(y) else FREE)
            falls.append(NONNEG if first == -1 == heights.get(y) else FREE)
        return [FREE] * self.part.width + rises + falls + [kind_of(heights.get(c)) for c in self.others]

    def closed(self, prefix):
        return prefix[:1] == [0]

    def solution(self, prefix):
        """A slope of these kinds, or none."""
        kinds = self.kinds(prefix)
        if not self.known:
            return self.part.solution(kinds)
        return next((slope for slope, values in self.known if has_kinds(kinds, values)), None)

    def search(self, most):
        """How the search ends, `found`, `refuted` or `spent`, with its visits, and the slope that it finds or the lines of its tree."""
        due, lines = [[]], []
        while due:
            prefix = due.pop()
            if len(lines) == most:
                return "spent", most, None
            found = None if self.closed(prefix) else self.solution(prefix)
            if found and len(prefix) == self.length:
                return "found", len(lines) + 1, [-prefix[0] * x for x in found]
            lines.append("split" if found else "flat" if self.closed(prefix) else prefix)
            if found:
                due += reversed(children(prefix))
        return "refuted", len(lines), lines


def shown(problem, node):
    """The line of a node; of a prefix without a solution the multipliers that exclude any."""
    return node if isinstance(node, str) else line("cuta", problem.part.multipliers(problem.kinds(node)))


class Endotactic(SecondProgram):
    name, words = "endo", "yes no slope split flat cuta wide spent large end".split()

    def tried(self, net, budget):
        """How the searches of the reactions end: the word, the reaction at which they do, from 0, what was found, and all visits."""
        left, trees = budget, []
        for r in range(len(net.reactions)):
            problem = Slopes(net, r)
            how, visits, found = problem.search(left)
            left -= visits
            if how != "refuted":
                return how, r, found, budget - left
            trees.append((problem, found))
        return "refuted", None, trees, budget - left

    def visits(self, net):
        return self.tried(net, MAX_BUDGET)[3]

    def lines(self, net, budget):
        if size(net) > MOST_COORDINATES:
            return ["large"]
        how, r, found, _ = self.tried(net, budget)
        if how == "spent":
            return [line("spent", [r + 1, budget])]
        if how == "found":
            return [line("no", [r + 1]), line("slope", found)]
        return ["yes", *(shown(problem, node) for problem, nodes in found for node in nodes)]

    def check(self, at, net):
        """The word, the numbers of its line, and how many nodes there are."""
        species, reactions, rows = len(net.names), len(net.reactions), 2 * len(net.reactions) + len(reactants(net)) - 1

        def wide(ns):
            return [] if ns[:1] and 1 <= ns[0] <= reactions and is_basis(ns[1:], species, rows) else None

        def spent(ns):
            return [] if len(ns) == 2 and 1 <= ns[0] <= reactions and 1 <= ns[1] <= MAX_BUDGET else None

        forms = [(["no"], small(1, 1, reactions)), (["wide"], wide), (["spent"], spent), (["large"], none), (["yes"], none)]
        place, numbers = at.record(forms if size(net) <= MOST_COORDINATES else forms[:-1])
        nodes = 0
        if place == 4:
            nodes = sum(self.check_tree(at, Slopes(net, r), rows) for r in range(reactions))
        if place == 0:
            _, slope = at.record([(["slope"], free(species, species))])
            if not is_against(net, slope, numbers[0] - 1):
                raise Rejected(73, at.number)
        return ("no", "wide", "spent", "large", "yes")[place], numbers, nodes

    def check_tree(self, at, problem, rows):
        """The nodes of a tree, each tested at its line, and how many there are."""
        forms, due, nodes = [(["split"], none), (["flat"], none), (["cuta"], free(rows, rows))], [[]], 0
        while due:
            place, numbers = at.record(forms)
            prefix, nodes = due.pop(), nodes + 1
            if place == 2:
                if not problem.part.excludes(problem.kinds(prefix), numbers):
                    raise Rejected(72, at.number)
            elif not (problem.closed(prefix) if place else len(prefix) < problem.length):
                raise Rejected(71, at.number)
            elif place == 0:
                due += reversed(children(prefix))
        return nodes

    def is_open(self, answer):
        return answer[0] in ("wide", "spent", "large")

    def said(self, net, answer):
        return f"endo: {OUTCOMES[answer[0]]}\n" if answer[0] != "no" else f"endo: no, reaction {answer[1][0]}\n"

    def wrong(self, net, answer, budget):
        word, numbers, nodes = answer
        if (word == "large") != (size(net) > MOST_COORDINATES):
            return "the size"
        if word == "large":
            return None
        how, r, _, visits = self.tried(net, budget)
        if word == "wide":
            at, index, *basis = numbers
            is_due = how == "refuted" or r >= at - 1
            return None if is_due and names_wide(Slopes(net, at - 1).part.rows, len(net.names), index, basis) else "no wide vector"
        at = None if r is None else r + 1
        wanted = {"refuted": ("yes", []), "found": ("no", [at]), "spent": ("spent", [at, budget])}[how]
        if (word, numbers) != wanted:
            return f"it should be {wanted}"
        if word == "yes" and nodes != visits:
            return f"there are {visits} visits"
        if len(net.names) > 2 or word == "spent":
            return None
        against = [q + 1 for q in range(len(net.reactions)) if any(is_against(net, slope, q) for slope in directions(net))]
        return None if against[:1] == numbers else f"slopes are against {against}"


PROGRAM = Endotactic()
prove, verify, judged = PROGRAM.prove, PROGRAM.verify, PROGRAM.judged
