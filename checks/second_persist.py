"""A second program for `prove persist` and `verify persist`, written from docs/FORMATS.md and docs/CERTIFICATES.md alone: siphons are
found among all sets of species, the visits of the search are counted by their definition, and a document is checked line by
line. It is for networks of few species, as there are 2^N sets.

A set of species is a number here, with the bit of each member."""

from second_opinion import Rejected, combined, free, is_basis, names_wide, none, product, rules_out, small
from second_part import MAX_BUDGET, SecondProgram, line
from second_search import FREE, POS, ZERO, Part, mask

OUTCOMES = {"yes": "yes", "no": "no", "wide": "open", "spent": "open"}


def support(law):
    """The species with a weight."""
    return mask(s for s, weight in enumerate(law) if weight)


class Siphons:
    """What there is to know of a network."""

    def __init__(self, net):
        self.net, self.count = net, len(net.names)
        held = [mask(s for s, amount in enumerate(amounts) if amount) for amounts in net.complexes]
        self.ends = [(held[y], held[z]) for y, z in net.reactions]
        self.changes, self.laws, self.covered = Part(net.by_species(), len(net.vectors)), [], []

    def marks(self, members):
        return [members >> s & 1 for s in range(self.count)]

    def conservation(self):
        """The system of positive weights that each reaction conserves, and the kinds of its coordinates."""
        return Part(self.net.vectors, self.count), [POS] * self.count + [ZERO] * len(self.net.vectors)

    def law(self):
        """Such weights, or none."""
        part, kinds = self.conservation()
        return part.solution(kinds)

    def cut(self):
        """Numbers of the reactions that exclude each such law."""
        part, kinds = self.conservation()
        return part.multipliers(kinds)

    def increasing(self, members):
        """The kinds of numbers of the reactions whose combination increases each member."""
        return [FREE] * self.changes.width + [POS if mark else FREE for mark in self.marks(members)]

    def cover(self, members):
        """Such numbers, or none: then there is a law within the set."""
        return self.changes.solution(self.increasing(members))

    def law_within(self, members):
        """Weights that are at least 0, not all 0, conserved, and 0 outside the set; or none."""
        if not members or any(members & ~covered == 0 for covered in self.covered):
            return None
        for law in self.laws:
            if support(law) & ~members == 0:
                return law
        if self.cover(members) is not None:
            self.covered.append(members)
            return None
        self.laws.append(self.changes.multipliers(self.increasing(members)))
        return self.laws[-1]

    def is_siphon(self, members):
        return bool(members) and all(reactant & members for reactant, product in self.ends if product & members)

    def is_persistent(self):
        """Conservative, and each siphon contains the species of a law."""
        sets = range(1, 1 << self.count)
        return self.law() is not None and all(self.law_within(members) for members in sets if self.is_siphon(members))

    def is_bad(self, inside, outside, r):
        reactant, product = self.ends[r]
        return bool(product & inside) and reactant & ~outside == 0

    def first_bad(self, inside, outside):
        return next((r for r in range(len(self.ends)) if self.is_bad(inside, outside, r)), None)

    def visits(self, most):
        """The visits of the search, one more than `most` if there are more; and the siphon that ends them, or none."""
        due, count = [(0, 0, 0)], 0
        while due:
            chosen, inside, outside = due.pop()
            count += 1
            if count > most:
                return count, None
            is_full = chosen == self.count
            if self.first_bad(inside, outside) is not None or self.law_within(inside) or is_full and not inside:
                continue
            if is_full:
                return count, inside
            due += [(chosen + 1, inside, outside | 1 << chosen), (chosen + 1, inside | 1 << chosen, outside)]
        return count, None

    def tree(self, chosen=0, inside=0, outside=0):
        """The lines of the tree of a prefix."""
        r = self.first_bad(inside, outside)
        if r is not None:
            return [line("bad", [r + 1])]
        if chosen == self.count and not inside:
            return ["void"]
        law = self.law_within(inside)
        if law:
            return [line("law", law)]
        return ["fork", *self.tree(chosen + 1, inside | 1 << chosen, outside), *self.tree(chosen + 1, inside, outside | 1 << chosen)]

    def answer(self, budget):
        """The lines of an answer. None of them is `wide`: the numbers here have no bound."""
        law = self.law()
        if law is None:
            return ["no", line("cut", self.cut())]
        count, siphon = self.visits(budget)
        if count > budget:
            return [f"spent {budget}"]
        if siphon:
            return ["no", line("siphon", self.marks(siphon)), line("mult", self.cover(siphon))]
        return ["yes", line("vec", law), *self.tree()]


# ---- the check of a document

def wide(system, columns, rows):
    """The numbers of an open line: the system, a coordinate and a basis."""
    return lambda ns: [] if ns[:1] == [system] and is_basis(ns[1:], columns, rows) else None


def is_law(net, x):
    return all(product(x, vector) == 0 for vector in net.vectors)


def check_tree(at, siphons):
    """The nodes, each tested at its line."""
    net, count = siphons.net, siphons.count
    forms = [(["fork"], none), (["bad"], small(1, 1, len(net.reactions))), (["law"], free(count, count)), (["void"], none)]
    due, nodes = [(0, 0, 0)], 0
    while due:
        place, numbers = at.record(forms)
        (chosen, inside, outside), nodes = due.pop(), nodes + 1
        if place == 2:
            if not (min(numbers) >= 0 and any(numbers) and support(numbers) & ~inside == 0 and is_law(net, numbers)):
                raise Rejected(53, at.number)
            continue
        if place == 0:
            holds = chosen < count
        elif place == 1:
            holds = siphons.is_bad(inside, outside, numbers[0] - 1)
        else:
            holds = chosen == count and not inside
        if not holds:
            raise Rejected(54, at.number)
        if place == 0:
            due += [(chosen + 1, inside, outside | 1 << chosen), (chosen + 1, inside | 1 << chosen, outside)]
    return nodes


def check_cover(at, siphons, marks):
    net, head = siphons.net, at.number
    members = mask(s for s, is_in in enumerate(marks) if is_in)
    _, numbers = at.record([(["mult"], free(len(net.vectors), len(net.vectors)))])
    if not siphons.is_siphon(members):
        raise Rejected(51, head)
    if any(is_in and total <= 0 for is_in, total in zip(marks, combined(numbers, net.vectors, siphons.count))):
        raise Rejected(52, at.number)


def check_answer(at, siphons):
    """The lines of the part: the word of the verdict, its numbers, and what was found below it."""
    net, count = siphons.net, siphons.count
    reactions = len(net.reactions)
    place, numbers = at.record([(["yes"], none), (["no"], none), (["wide"], wide(1, count, reactions)),
                                (["wide"], wide(2, reactions, count)), (["spent"], small(1, 1, MAX_BUDGET))])
    if place == 0:
        _, law = at.record([(["vec"], free(count, count))])
        if not (min(law) > 0 and is_law(net, law)):
            raise Rejected(53, at.number)
        return "yes", check_tree(at, siphons)
    if place == 1:
        place, found = at.record([(["cut"], free(reactions, reactions)), (["siphon"], small(count, 0, 1))])
        if place:
            check_cover(at, siphons, found)
        elif not rules_out(net.vectors, count, found):
            raise Rejected(53, at.number)
        return "no", ["cut", "siphon"][place]
    return ("spent", numbers[0]) if place == 4 else ("wide", numbers)


def is_wide(net, numbers):
    """The line `wide` names a wide vector of its system."""
    system, index, *basis = numbers
    rows = net.vectors if system == 1 else net.by_species()
    return names_wide(rows, len(net.names) if system == 1 else len(net.vectors), index, basis)


class Persistence(SecondProgram):
    name, words = "persist", "yes no wide spent vec cut siphon mult fork bad law void end".split()

    def check(self, at, net):
        return check_answer(at, Siphons(net))

    def said(self, net, answer):
        return f"persist: {OUTCOMES[answer[0]]}\n"

    def lines(self, net, budget):
        return Siphons(net).answer(budget)

    def visits(self, net):
        return Siphons(net).visits(MAX_BUDGET)[0]

    def wrong(self, net, answer, budget):
        (word, below), siphons = answer, Siphons(net)
        if word == "wide":
            return None if is_wide(net, below) else "no wide vector"
        if siphons.law() is None:
            return None if (word, below) == ("no", "cut") else "it is not conservative"
        visits, siphon = siphons.visits(budget)
        wanted = "spent" if visits > budget else "no" if siphon else "yes"
        if word != wanted or below == "cut":
            return f"it should be {wanted}"
        if word == "spent":
            return None if below == budget else "another budget"
        if siphons.is_persistent() != (word == "yes"):
            return "what all sets of species say"
        return "more nodes than the budget" if word == "yes" and below > budget else None


PROGRAM = Persistence()
prove, verify, judged = PROGRAM.prove, PROGRAM.verify, PROGRAM.judged
