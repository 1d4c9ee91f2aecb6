#!/usr/bin/env python3
"""Tests the second program by itself: verdicts of networks that were worked out by hand, with a budget that leaves a search
open and without, a certificate of `A <-> B` in both versions with edits of both, blocks on signals by hand, the lines of
`sample`, and the search against a try of every pattern of signs."""

import itertools
import random
import sys

import ends
import second_opinion
import second_search
from tally import Tally

TWO_SITES = """\
S0 + K <-> KS0
KS0 -> S1 + K
S1 + K <-> KS1
KS1 -> S2 + K
S2 + F <-> FS2
FS2 -> S1 + F
S1 + F <-> FS1
FS1 -> S0 + F
"""


def lines_of(*rest, count=15):
    """Lines of questions, each by its number and words."""
    return [f"{second_opinion.TITLES[question]}: {words}" for question, words in rest] + [f"open: {15 - count}"]


def numbered(first, *words):
    """The words of the questions from `first` on."""
    return list(enumerate(words, first))


def worked():
    """A text, a budget, and the lines that its report has to have."""
    zero, one, none = "hypotheses fail, deficiency {}", "hypotheses fail, class deficiencies sum to {}", "not applicable"
    hold, regular = "hypotheses hold", "not applicable, not regular"
    yield "A -> B\n", 20_000, lines_of(*numbered(
        1, "1", "2, terminal 1", "no", "no", "1", "0, classes 0", "no", "yes", f"{hold}, not weakly reversible", hold,
        "no, not positively dependent", regular, none, "yes", "yes"))
    ends = numbered(1, "1", "1, terminal 1", "yes", "yes", "1", "0, classes 0", "yes", "yes", f"{hold}, weakly reversible",
                    hold, "yes", "not applicable, no vector but zero", none)
    yield "A <-> B\n", 8, lines_of(*ends, (14, "yes"), (15, "yes"))
    yield "A <-> B\n", 7, lines_of(*ends, (14, "open, budget 7"), (15, "open, budget 7"), count=13)
    yield "A <-> 2A\nA + B <-> C\nC <-> B\n", 20_000, lines_of(*numbered(
        1, "2", "2, terminal 2", "yes", "yes", "2", "1, classes 0 0", "yes", "no", zero.format(1), one.format(0), "yes",
        "yes", "yes", "no", "yes")) + ["  vector: 1 -1 1 0 -1", "  turn: -1"]
    # Edelstein's vector has no signal by 17 visits, its negative has one by fewer; questions 14 and 15 need 21 and 22.
    yield EDELSTEIN, 17, lines_of((13, "yes"), *numbered(14, "open, budget 17", "open, budget 17"), count=13)
    yield EDELSTEIN, 16, lines_of(*numbered(13, "open, budget 16", "open, budget 16", "open, budget 16"), count=12)
    yield "0 <-> A\nA -> B\n2A + B -> 3A\n", 20_000, lines_of(*numbered(
        1, "2", "4, terminal 2", "no", "no", "2", "1, classes 0 0", "yes", "no", zero.format(1), one.format(0), "yes",
        "yes", "no", "yes", "yes")) + ["  vector: 0 -1 1 -1 1", "complexes 5: 0; A; B; 2A + B; 3A"]
    yield "2A <-> A + B\nA + B <-> 2B\n", 20_000, lines_of(*numbered(
        1, "1", "1, terminal 1", "yes", "yes", "1", "1, classes 1", "yes", "yes", zero.format(1), hold, "yes", "yes", "no",
        "no", "yes")) + ["  vector: 1 -2 1"]
    yield "A -> 2A\nA -> 0\n", 20_000, lines_of(*numbered(
        1, "1", "3, terminal 2", "no", "no", "1", "1, classes 1", "yes", "no", zero.format(1),
        "hypotheses fail, class 1 has 2 terminal classes", "no, class 1 has 2 terminal classes", regular, none, "no", "yes"))
    yield TWO_SITES, 20_000, lines_of(*numbered(
        1, "2", "6, terminal 2", "no", "no", "6", "2, classes 0 0", "yes", "yes", zero.format(2), one.format(0), "yes",
        "not applicable, two independent vectors", none, "no", "no"))
    yield TWO_SITES, 1, lines_of((14, "open, budget 1"), (15, "open, budget 1"), count=13)
    yield "A -> B\nB -> C\nC -> A\n", 20_000, lines_of(*numbered(
        1, "1", "1, terminal 1", "no", "yes", "2", "0, classes 0", "yes", "yes", f"{hold}, weakly reversible", hold,
        "no, a cycle in a terminal class", regular, none, "yes", "yes")) + ["  reaction 1, walk: A; C; B"]
    powers = "".join(f"X{i} -> 99X{i + 1}\n" for i in range(1, 10))
    yield powers, 20_000, lines_of(*numbered(
        5, "9", "0, classes" + " 0" * 9, "no", "yes")) + lines_of(*numbered(14, "yes", "yes"))
    side = " + ".join(f"S{i}" for i in range(1, 61))
    yield f"{side} -> 0\n", 20_000, lines_of((14, "yes"))
    yield "A -> 2A\nB -> 2B\n", 20_000, lines_of(*numbered(
        5, "2", "0, classes 0 0")) + lines_of(*numbered(9, f"{hold}, not weakly reversible", hold))
    yield "A -> B\nB -> A\nC -> 2C\n2C -> C\n", 20_000, lines_of(*numbered(
        11, "yes", "not applicable, no vector but zero"))
    yield "A <-> B -> C <- D\n", 20_000, lines_of((2, "3, terminal 1"), *numbered(5, "3", "0, classes 0"))
    times = ["0", "A", *(f"{i}A" for i in range(2, 100))]
    ladder = "".join(f"{y} -> {z}\n" for y, z in zip(times, times[1:]))
    yield ladder, 20_000, lines_of((5, "1"), (6, "98, classes 98"), (10, "hypotheses fail, class 1 has deficiency 98"),
                                   (14, "yes"), (15, "yes"))
    more = ["B", *(f"{i}B" for i in range(2, 61))]
    yield ladder + "".join(f"{y} -> {z}\n" for y, z in zip(more, more[1:])), 20_000, lines_of(
        (1, "2"), (5, "2"), (6, "156, classes 98 58"), (10, "hypotheses fail, class 1 has deficiency 98"), (14, "yes"),
        (15, "yes"))
    chain = "".join(f"E + S{i - 1} <-> C{i}\nC{i} -> E + S{i}\n" for i in range(1, 9))
    yield chain, 20_000, lines_of(*numbered(1, "1", "9, terminal 1", "no", "no", "16", "0, classes 0", "no", "yes",
        f"{hold}, not weakly reversible", hold, "no, not positively dependent", regular, none, "yes", "no"))


def reports():
    for text, budget, wanted in worked():
        status, out = second_opinion.report(text.encode(), budget)
        lines = out.decode().splitlines()
        missing = [line for line in wanted if line not in lines]
        wrong = second_opinion.judged(text.encode(), status, out, budget)
        yield f"the report of {text[:40]!r} with a budget of {budget}", not missing and not wrong, (missing, wrong)


def samples():
    """The lines of `sample`, by hand: the enzyme comes back from each step, so E and the C(i) add up to a constant, and so do
    the S(i) and the C(i); only the last S is terminal."""
    for number, sizes, verdicts in [
        (1, "4 species, 3 complexes, 3 reactions", "1 2 no no 2 0 no yes yes yes no none none yes yes"),
        (8, "18 species, 17 complexes, 24 reactions", "1 9 no no 16 0 no yes yes yes no none none yes no"),
    ]:
        wanted = 0, f"sample {number}: {sizes}\nverdicts: {verdicts}\ncheck: accepted\n".encode()
        seen = second_opinion.sample(number)
        yield f"sample {number}", seen == wanted, seen
    seen = second_opinion.sample(8, 50)
    yield "sample 8 with a budget of 50", seen[0] == 1 and b" none none open open\n" in seen[1], seen


# ---- certificates

def checked(lines):
    return second_opinion.check("".join(f"{line}\n" for line in lines).encode())


def certificates():
    wanted = 0, second_opinion.report(b"A <-> B\n")[1]
    second, _ = ends.second_version(ends.ENDS)
    yield "the lines of version 2", (len(second), second[4:8]) == (68, ["vectors 3", "vector 0 1", "vector 1 0", "vector 1 1"]) \
        and second[49:58] == "q14 yes,split,split,flat,refa 1,split,refa 2,refb 3,refa 2".split(","), second
    yield "the report of A <-> B", wanted[1].decode() == ends.REPORT, wanted
    numbers = ends.replaced(second, 54, 54, ["cuta 0 1"])
    for name, lines in [("version 1", ends.ENDS), ("version 2", second), ("version 2, numbers in a node", numbers)]:
        yield f"the certificate of A <-> B, {name}", checked(lines) == wanted, checked(lines)
    for name, lines, code, place in [*ends.edited(), *ends.second_edited(), *ends.opened_edited()]:
        answer = f"rejected {code} {second_opinion.NAMES[code]} at line {place}\n".encode()
        yield f"A <-> B where {name}", checked(lines) == (3, answer), (checked(lines), code, place)
    for size, document, code, place in ends.truncated():
        seen = second_opinion.check(document)
        yield f"the first {size} bytes", seen == (3, f"rejected {code} {second_opinion.NAMES[code]} at line {place}\n".encode()), seen
    yield "the open certificate", checked(ends.OPENED) == (0, ends.OPENED_REPORT.encode()), checked(ends.OPENED)
    for name, lines in ends.opened_others():
        yield name, checked(lines)[0] == 0, checked(lines)
    yield from of_other_networks()
    yield from own_certificates()


def own_certificates():
    """The blocks that the second program writes itself pass its own check, which shares no more than the systems."""
    for text, _, _ in worked():
        net = second_opinion.read_network(text)
        if len(net.names) > 12 or len(net.reactions) > 40:
            continue
        at = second_opinion.Reading("".join(f"{line}\n" for line in second_opinion.blocks_after(net, 9)).encode())
        at.version, known, wrong = 1, known_of(net), []
        try:
            for question, check in second_opinion.BLOCKS:
                if question > 8 and check(at, net, known) != second_opinion.own_lines(second_opinion.Verdicts(net), question, 100_000):
                    wrong.append(question)
        except second_opinion.Rejected as fault:
            wrong.append((fault.code, fault.line))
        yield f"its own certificate of {text[:40]!r}", not wrong and at.at == len(at.text), wrong


def tree_of(problem, prefix=()):
    """The nodes of a tree that leaves no full prefix feasible, with multipliers found here. The problem has small numbers."""
    prefix = list(prefix)
    if problem.closed(prefix):
        return ["flat"]
    for word, part, kinds in [("cuta", problem.a, problem.kinds_a), ("cutb", problem.b, problem.kinds_b)]:
        if part.solution(kinds(prefix)) is None:
            u = next(u for most in (1, 2, 3) for u in itertools.product(range(-most, most + 1), repeat=len(part.rows))
                     if part.excludes(kinds(prefix), u))
            return [f"{word} {' '.join(map(str, u))}"]
    return ["split"] + [node for child in second_search.children(prefix) for node in tree_of(problem, child)]


EDELSTEIN = "A <-> 2A\nA + B <-> C\nC <-> B\n"


def of_other_networks():
    """The blocks of questions 11 to 15 for Edelstein's network and others, by hand, after those that any proof has."""
    for name, text, first, blocks, wanted in [
        ("Edelstein's signal", EDELSTEIN, 13, ["q13 yes -1", "shelves 1 -1", "mu 6 -2 2", "m 5", "weights 1 0 0 0 0 1"], 0),
        ("Edelstein's signal, m 6", EDELSTEIN, 13, ["q13 yes -1", "shelves 1 -1", "mu 6 -2 2", "m 6", "weights 1 0 0 0 0 1"], 45),
        ("Edelstein's signal, turn 1", EDELSTEIN, 13, ["q13 yes 1", "shelves 1 -1", "mu 6 -2 2", "m 5", "weights 1 0 0 0 0 1"], 45),
        ("Edelstein's pair", EDELSTEIN, 14, ["q14 no", "alpha 3 1 3 1 1 -1", "weights 1 0 0 0 0 1"], 0),
        ("Edelstein's pair, wrong", EDELSTEIN, 14, ["q14 no", "alpha 3 1 3 1 1 1", "weights 1 0 0 0 0 1"], 45),
        ("three on a line, a pair", "2A <-> A + B\nA + B <-> 2B\n", 14, ["q14 no", "alpha 1 2 0 -1", "weights 0 1 0 0"], 0),
        ("two ways to end, a pair", "A -> 2A\nA -> 0\n", 14, ["q14 no", "alpha 1 1", "weights 1 0"], 0),
    ]:
        net = second_opinion.read_network(text)
        known = known_of(net)
        at = second_opinion.Reading("".join(f"{line}\n" for line in blocks).encode())
        at.version = 1
        try:
            dict(second_opinion.BLOCKS)[first](at, net, known)
            code = 0
        except second_opinion.Rejected as fault:
            code = fault.code if fault.line == len(blocks) else -1
        yield name, code == wanted, code
    net = second_opinion.read_network("2A <-> A + B\nA + B <-> 2B\n")
    known = known_of(net)
    nodes = [node for turn in (1, -1) for node in tree_of(second_opinion.Verdicts(net).signals(turn))]
    for name, blocks, wanted in [
        ("two trees", nodes, (0, 0)), ("two trees and a node less", nodes[:-1], (43, len(nodes) + 1)),
        ("one tree and no other", [*nodes[: len(nodes) // 2], "end"], (43, len(nodes) // 2 + 2)),
    ]:
        at = second_opinion.Reading("".join(f"{line}\n" for line in ["q13 no", *blocks]).encode())
        at.version = 1
        try:
            second_opinion.check_signal(at, net, known)
            seen = 0, 0
        except second_opinion.Rejected as fault:
            seen = fault.code, fault.line
        yield f"no signal: {name}", seen == wanted, seen


def known_of(net):
    """What the blocks up to question 12 would have said."""
    v = second_opinion.Verdicts(net)
    vector = v.confluence_vector if second_opinion.has_vector(v) else None
    sides = [[int(c in second_opinion.side_of(net, *net.reactions[r])) for c in range(len(net.complexes))] for r in v.pairs]
    return {"linkage": v.linkage, "strong": v.strong, "left": v.left, "weak": v.is_weak(), "rank": len(v.base()),
            "deficiencies": v.deficiencies, "dependent": v.dependent[0], "confluence": vector, "sides": sides}


# ---- the search

def random_texts(count):
    chance = random.Random(20_261_129)
    for _ in range(count):
        names = "ABCD"[: chance.randint(1, 4)]
        sides = [" + ".join(f"{chance.randint(1, 2)}{name}" for name in names if chance.random() < 0.5) or "0" for _ in range(5)]
        lines = [chance.sample(sides, 2) for _ in range(chance.randint(1, 5))]
        text = "".join(f"{y} {chance.choice(['->', '<->'])} {z}\n" for y, z in lines if y != z)
        net = second_opinion.read_network(text)
        if net:
            yield text, net


def patterns(problem):
    """The full feasible prefixes, each tried by itself, with nothing kept from one to the next."""
    for prefix in itertools.product((0, 1, -1), repeat=problem.length):
        problem.a.solutions, problem.a.cuts, problem.b.solutions, problem.b.cuts = [], [], [], []
        if second_search.feasible(problem, list(prefix)):
            yield prefix


def searches():
    for text, net in random_texts(150):
        v = second_opinion.Verdicts(net)
        problems = [second_search.Concordance(net, is_strong) for is_strong in (False, True)]
        if second_opinion.has_vector(v):
            problems += [v.signals(turn) for turn in (1, -1)]
        for problem in problems:
            how, _, found = second_search.search(problem, 100_000)
            tried = next(patterns(problem), None)
            yield f"the search on {text!r}", (how == "found") == (tried is not None), (how, found, tried)
            if found:
                pattern, a, b = found
                shown = second_search.has_kinds(problem.kinds_a(pattern), problem.a.values(a)) \
                    and second_search.has_kinds(problem.kinds_b(pattern), problem.b.values(b))
                yield f"what shows it on {text!r}", shown, found


def main():
    tally = Tally("second program")
    for name, good, seen in [*reports(), *samples(), *certificates(), *searches()]:
        tally.count(name, good, seen)
    return tally.end()


if __name__ == "__main__":
    sys.exit(main())
