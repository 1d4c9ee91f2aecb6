"""A second program for `prove parts` and `verify parts`, written from docs/FORMATS.md and docs/CERTIFICATES.md alone. The finest
independent decomposition of few reactions is found by its definition, among all their partitions; that of many by what each
reaction depends on."""

import functools

from second_opinion import Rejected, is_basis, names_wide, numbered, rank, rank_lines, rank_records, small
from second_part import SecondProgram, line

MOST_TRIED = 8  # reactions of which all partitions are gone through: there are 4,140 of 8
CODES = {33: 61, 34: 62}  # of the tests of a rank in certificates


def partitions(count):
    """All partitions of so many reactions: the label of each, numbered from 1 by first appearance."""
    made = [[]]
    for _ in range(count):
        made = [[*labels, label] for labels in made for label in range(1, max(labels, default=0) + 2)]
    return made


def parts_of(labels):
    """The reactions of each part, from 0."""
    return [[r for r, label in enumerate(labels) if label == k] for k in range(1, max(labels) + 1)]


def finest(vectors):
    """Of all independent partitions the one whose parts each lie within one part of every other."""
    @functools.cache
    def rank_of(part):
        return rank([vectors[r] for r in part])

    total = rank_of(tuple(range(len(vectors))))
    independent = [labels for labels in partitions(len(vectors)) if sum(rank_of(tuple(part)) for part in parts_of(labels)) == total]
    most = max(independent, key=max)
    assert all(len({labels[r] for r in part}) == 1 for labels in independent for part in parts_of(most))
    return most


def linked(ties):
    """Labels, links and depths of reactions that are joined by ties: breadth first, each part from its least reaction."""
    count = len(ties)
    label, up, depth = [0] * count, [0] * count, [0] * count
    for first in range(count):
        if label[first] == 0:
            label[first], due = max(label) + 1, [first]
            for r in due:
                for q in sorted(ties[r]):
                    if label[q] == 0:
                        label[q], up[q], depth[q] = label[r], r + 1, depth[r] + 1
                        due.append(q)
    return label, up, depth


def ties_of(base, combs, count):
    """For each reaction, from 0, those that it is tied to: one has a number that is not 0 at the other, which is in the base."""
    ties = [set() for _ in range(count)]
    for r, numbers in combs.items():
        for q, number in zip(base, numbers):
            if number:
                ties[r].add(q)
                ties[q].add(r)
    return ties


def are_linked(ties, label, up, depth):
    for r, own in enumerate(ties):
        is_least = label.index(label[r]) == r
        if not ((up[r], depth[r]) == (0, 0) if is_least else up[r] - 1 in own and depth[r] == depth[up[r] - 1] + 1):
            return False
    return True


class Decompositions(SecondProgram):
    name, words = "parts", "rank wide base dual comb label up depth end".split()

    def check(self, at, net):
        """The labels and the rank of each part, or the numbers of an open line."""
        species, reactions = len(net.names), len(net.reactions)
        place, numbers = at.record([(["rank"], small(1, 1, min(species, reactions))),
                                    (["wide"], lambda ns: [] if is_basis(ns, species, reactions) else None)])
        if place:
            return "wide", numbers
        base, combs, tests = rank_records(at, net, range(1, reactions + 1), numbers[0])
        _, label = at.record([(["label"], small(reactions, 1, reactions))])
        head = at.number
        _, up = at.record([(["up"], small(reactions, 0, reactions))])
        _, depth = at.record([(["depth"], small(reactions, 0, reactions - 1))])
        for code, number, holds in tests:
            if not holds:
                raise Rejected(CODES[code], number)
        ties = ties_of([r - 1 for r in base], {r - 1: numbers for r, numbers in combs.items()}, reactions)
        if not (numbered(label, max(label)) and all(label[r] == label[q] for r, own in enumerate(ties) for q in own)):
            raise Rejected(63, head)
        if not are_linked(ties, label, up, depth):
            raise Rejected(64, at.number)
        return "split", label, [sum(label[r - 1] == k for r in base) for k in range(1, max(label) + 1)]

    def said(self, net, answer):
        return f"parts: {len(answer[2])}, {line('ranks', answer[2])}\n" if answer[0] == "split" else "parts: open\n"

    def lines(self, net, budget):
        shown, base, combs = rank_lines(net)
        links = zip(("label", "up", "depth"), linked(ties_of(base, combs, len(net.reactions))))
        return [line("rank", [len(base)]), *shown, *(line(word, numbers) for word, numbers in links)]

    def wrong(self, net, answer, budget):
        if answer[0] == "wide":
            index, *basis = answer[1]
            return None if names_wide(net.vectors, len(net.names), index, basis) else "no wide vector"
        _, label, ranks = answer
        if len(net.reactions) <= MOST_TRIED:
            wanted = finest(net.vectors)
        else:
            _, base, combs = rank_lines(net)
            wanted, _, _ = linked(ties_of(base, combs, len(net.reactions)))
        if label != wanted:
            return f"the parts are {wanted}"
        own = [rank([net.vectors[r] for r in part]) for part in parts_of(label)]
        return None if ranks == own and sum(own) == rank(net.vectors) else f"the ranks are {own}"


PROGRAM = Decompositions()
prove, verify, judged = PROGRAM.prove, PROGRAM.verify, PROGRAM.judged
