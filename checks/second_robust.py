"""A second program for `prove robust` and `verify robust`, written from docs/FORMATS.md and docs/CERTIFICATES.md alone: the deficiency
by ranks, terminal classes by closing relations, and the pairs of complexes by their definition."""

import second_opinion
from second_opinion import Rejected, Verdicts, check_linkage, check_rank, check_strong, is_licensed, none, rank_lines, small
from second_part import SecondProgram, line

BLOCKS = second_opinion.HEADS + second_opinion.ROWS + second_opinion.TREE[1]


def differing(one, two):
    """The species at which two complexes differ, from 1."""
    return [s for s, (a, b) in enumerate(zip(one, two), 1) if a != b]


def is_terminal(strong, left, c):
    return strong[c] not in left


def pairs(net, strong, left):
    """All pairs of complexes of no terminal class that differ at one species alone: the species and the complexes, from 1."""
    outside = [c for c in range(len(net.complexes)) if not is_terminal(strong, left, c)]
    for c in outside:
        for d in outside:
            species = differing(net.complexes[c], net.complexes[d])
            if c < d and len(species) == 1:
                yield species[0], c + 1, d + 1


def case(net, deficiency, strong, left):
    """The case that holds of a network: a word and its numbers."""
    if deficiency != 1:
        return "number", deficiency
    return next((("yes", *pair) for pair in pairs(net, strong, left)), ("none",))


def tree(classes, arcs):
    """For each complex the reaction by which it hangs, from 1, and its depth: breadth first, in each class from its first complex.
    An arc goes from a complex to another, by a reaction."""
    up, depth = [0] * len(classes), [0] * len(classes)
    for first in range(len(classes)):
        if classes.index(classes[first]) == first:
            due = [first]
            for c in due:
                for y, z, r in arcs:
                    if y == c and classes[z] == classes[c] and z not in due:
                        up[z], depth[z] = r, depth[c] + 1
                        due.append(z)
    return up, depth


def block_lines(net):
    """The blocks of questions 1, 2 and 5 in version 1."""
    v, ahead = Verdicts(net), [(y, z, r) for r, (y, z) in enumerate(net.reactions, 1)]
    back = [(z, y, r) for y, z, r in ahead]
    count = max(v.strong)
    up, depth = tree(v.linkage, ahead + back)
    lines = [line("q1", [max(v.linkage)]), line("label", v.linkage), line("up", up), line("depth", depth)]
    lines += [line("q2", [count, count - len(v.left)]), line("label", v.strong)]
    for word, arcs in (("from", ahead), ("to", back)):
        up, depth = tree(v.strong, arcs)
        lines += [line(word, up), line(f"{word}depth", depth)]
    reached = second_opinion.closed(count, [(v.strong[y] - 1, v.strong[z] - 1) for y, z in net.reactions])
    leaving = {v.strong[y]: r for y, z, r in ahead if v.strong[y] != v.strong[z]}
    lines += [line("level", [len(row) - 1 for row in reached]), line("exit", [leaving.get(k, 0) for k in range(1, count + 1)])]
    shown, base, _ = rank_lines(net)
    return [*lines, line("q5", [len(base)]), *shown]


class Robustness(SecondProgram):
    name, words = "robust", "line yes number none rests end".split()

    def check(self, at, net):
        """The case that is said: a word and its numbers, or `rests` and what the block of question 5 says. The blocks have the words
        of certificates."""
        known, species, complexes = {}, len(net.names), len(net.complexes)
        at.known = BLOCKS
        check_linkage(at, net, known)
        check_strong(at, net, known)
        said = check_rank(at, net, known)
        at.known = self.words
        if "rank" not in known:
            at.record([(["rests"], none)])
            return "rests", said
        _, (b,) = at.record([(["line"], small(1, 0, 1))])
        head = at.number

        def names_pair(ns):
            return [] if len(ns) == 3 and 1 <= ns[0] <= species and all(1 <= c <= complexes for c in ns[1:]) else None

        place, numbers = at.record([(["yes"], names_pair), (["number"], small(1, 0, complexes)), (["none"], none)])
        deficiency = complexes - max(known["linkage"]) - known["rank"]
        if b != (deficiency == 1):
            raise Rejected(55, head)
        found = (("yes", "number", "none")[place], *numbers)
        if found != case(net, deficiency, known["strong"], known["left"]):
            raise Rejected(56, at.number)
        return found

    def is_open(self, answer):
        return answer[0] == "rests"

    def said(self, net, answer):
        word, *numbers = answer
        if word == "rests":
            return "robust: open\n"
        if word == "number":
            return f"robust: hypotheses fail, deficiency {numbers[0]}\nconfluence space: no line\n"
        why = f"hold, species {net.names[numbers[0] - 1]}" if word == "yes" else "fail, no pair"
        return f"robust: hypotheses {why}\nconfluence space: a line\n"

    def lines(self, net, budget):
        v = Verdicts(net)
        word, *numbers = case(net, v.deficiencies[0], v.strong, v.left)
        return [*block_lines(net), line("line", [int(v.deficiencies[0] == 1)]), line(word, numbers)]

    def wrong(self, net, answer, budget):
        v = Verdicts(net)
        if answer[0] == "rests":
            return None if is_licensed(v, 5, answer[1], budget) else "no wide vector"
        wanted = case(net, v.deficiencies[0], v.strong, v.left)
        if answer != wanted:
            return f"the case is {wanted}"
        is_line = len(v.confluence[0]) == 1
        return None if ("a line" in self.said(net, answer)) == is_line else "the confluence space"


PROGRAM = Robustness()
prove, verify, judged = PROGRAM.prove, PROGRAM.verify, PROGRAM.judged
