"""A second program for what `crnt` answers, written from docs/FORMATS.md, docs/CERTIFICATES.md and docs/DEFINITIONS.md alone and sharing
nothing with it: the network that a text spells, the verdicts by their definitions, the judgement of a report, and the
check of a certificate.

It is slow and plain on purpose: classes are found by closing relations, ranks by elimination with fractions, positive
vectors by the simplex method and the least index first, concordance and signals by their visit lists (`second_search`);
tests are made in the order in which FORMATS lists them. The end-to-end checks compare it with the program.
"""

import functools
import math
import re
from fractions import Fraction

import second_search
from second_search import cleared, independent, kernel, primitive

# the questions that the program answers: all that follows here, in end_to_end.py and in the benches goes by this list
BUILT = list(range(1, 16))

BUDGET = 20_000  # of a search, if none is said
MAX_SPECIES, MAX_COMPLEXES, MAX_REACTIONS, MAX_AMOUNT, MAX_NAME = 60, 160, 240, 99, 32
MAX_LINE, MAX_SHARED, MAX_NUMBERS = 16_384, 4_096, 400
FREE, WIDE = 2**72, 2**62

NAMES = {
    21: "BadHeader", 22: "BadNetwork", 23: "UnknownWord", 24: "BadField", 25: "NumberWide", 26: "WrongOrder",
    27: "EndsEarly", 28: "AfterEnd", 29: "DocumentTooLong", 30: "LineTooLong", 31: "WrongClasses", 32: "WrongWalk",
    33: "NotIndependent", 34: "NotSpanned", 35: "BadVector", 36: "WrongNumber", 37: "WrongVerdict", 41: "BadLeaf",
    42: "NodeNotAllowed", 43: "TreeEndsEarly", 44: "TreeGoesOn", 45: "BadEvidence", 46: "WrongShape",
    51: "NotSiphon", 52: "NotCovered", 53: "BadLaw", 54: "BadNode", 55: "WrongLine", 56: "WrongCase", 61: "NotIndependent",
    62: "NotSpanned", 63: "WrongParts", 64: "BadLink", 71: "BadNode", 72: "BadLeaf", 73: "BadSlope",
}

HEADS = [f"q{k}" for k in range(1, 16)]
ROWS = (
    "label up depth from to fromdepth todepth level exit back base dual comb vec cut side walk tie shelves mu m "
    "weights alpha end"
).split()
TREE = {1: ["split", "flat", "cuta", "cutb"], 2: ["split", "flat", "cuta", "cutb", "refa", "refb"]}
OF_VERSION_2 = ["vectors", "vector", "section"]

TOKEN = re.compile(r"[ \t]*(?:(\d+)|([A-Za-z_][A-Za-z_0-9]*)|(\+)|(<->|->|<-(?!>)))")


# ---- networks

class Network:
    def __init__(self, names, complexes, reactions):
        self.names, self.complexes, self.reactions = names, complexes, reactions
        self.vectors = [[b - a for a, b in zip(complexes[y], complexes[z])] for y, z in reactions]

    def by_species(self):
        """For each species what each reaction adds of it."""
        return [[vector[s] for vector in self.vectors] for s in range(len(self.names))]

    def side(self, c):
        terms = [name if a == 1 else f"{a}{name}" for name, a in zip(self.names, self.complexes[c]) if a]
        return " + ".join(terms) or "0"

    def line(self, r):
        return f"{self.side(self.reactions[r][0])} -> {self.side(self.reactions[r][1])}"

    def canonical(self):
        return "".join(f"{self.line(r)}\n" for r in range(len(self.reactions)))


def tokens(line):
    found, at = [], 0
    line = line.rstrip(" \t")
    while at < len(line):
        token = TOKEN.match(line, at)
        if not token:
            return None
        found.append(token)
        at = token.end()
    return found


def amounts_of(terms):
    """The amounts by name of a side, or None."""
    if len(terms) == 1 and terms[0][1]:
        return {} if int(terms[0][1]) == 0 else None
    amounts, at = {}, 0
    while True:
        number = 1
        if at < len(terms) and terms[at][1]:
            number, at = int(terms[at][1]), at + 1
        if at >= len(terms) or not terms[at][2] or not 1 <= number <= MAX_AMOUNT or len(terms[at][2]) > MAX_NAME:
            return None
        amounts[terms[at][2]] = amounts.get(terms[at][2], 0) + number
        at += 1
        if at == len(terms):
            return amounts if max(amounts.values()) <= MAX_AMOUNT else None
        if not terms[at][3]:
            return None
        at += 1


def read_network(text):
    """The network that a text of ASCII spells, or None if it spells none."""
    statements = []
    for line in text.split("\n"):
        line = line.removesuffix("\r").split("#")[0]
        found = tokens(line)
        if found is None or re.search(r"[^\t -~]", line):
            return None
        if not found:
            continue
        sides, arrows = [[]], []
        for token in found:
            if token[4]:
                arrows.append(token[4])
                sides.append([])
            else:
                sides[-1].append(token)
        sides = [amounts_of(side) for side in sides]
        if not arrows or None in sides:
            return None
        for left, arrow, right in zip(sides, arrows, sides[1:]):
            if arrow != "<-":
                statements.append((left, right))
            if arrow != "->":
                statements.append((right, left))
    names, complexes, reactions = [], [], []
    for sides in statements:
        for side in sides:
            names += [name for name in side if name not in names]
    for left, right in statements:
        both = [tuple(side.get(name, 0) for name in names) for side in (left, right)]
        for amounts in both:
            if amounts not in complexes:
                complexes.append(amounts)
        reaction = complexes.index(both[0]), complexes.index(both[1])
        if reaction[0] == reaction[1]:
            return None
        if reaction not in reactions:
            reactions.append(reaction)
    if not reactions or len(names) > MAX_SPECIES or len(complexes) > MAX_COMPLEXES or len(reactions) > MAX_REACTIONS:
        return None
    return Network(names, complexes, reactions)


# ---- linear algebra over fractions

def product(a, b):
    return sum(x * y for x, y in zip(a, b))


def combined(weights, rows, width):
    """The combination of the rows with these weights."""
    return [sum(w * row[i] for w, row in zip(weights, rows)) for i in range(width)]


def rank(rows):
    return len(independent(rows))


def solution(columns, target):
    """The one list of weights with which the independent columns add up to the target, or None."""
    rows = [[Fraction(column[i]) for column in columns] + [Fraction(t)] for i, t in enumerate(target)]
    for k in range(len(columns)):
        at = next((i for i in range(k, len(rows)) if rows[i][k]), None)
        if at is None:
            return None
        rows[k], rows[at] = rows[at], rows[k]
        rows[k] = [x / rows[k][k] for x in rows[k]]
        for i, row in enumerate(rows):
            if i != k and row[k]:
                rows[i] = [x - row[k] * y for x, y in zip(row, rows[k])]
    return None if any(row[-1] for row in rows[len(columns) :]) else [row[-1] for row in rows[: len(columns)]]


def whole(fractions):
    """The least whole multiple with the same signs: whole numbers without a common divisor."""
    least = math.lcm(*(Fraction(x).denominator for x in fractions))
    numbers = [int(x * least) for x in fractions]
    return [x // (math.gcd(*numbers) or 1) for x in numbers]


def positive(rows, width):
    """Whether positive numbers have the product 0 with each row: yes and such numbers, or no and multipliers of the rows
    whose combination has no positive entry and is not zero."""
    places = independent(rows)
    is_yes, numbers = second_search.positive([rows[place] for place in places], width)
    if is_yes:
        return True, numbers
    multipliers = [0] * len(rows)
    for number, place in zip(numbers, places):
        multipliers[place] = number
    return False, multipliers


def is_positive(rows, x):
    return all(y > 0 for y in x) and all(product(row, x) == 0 for row in rows)


def rules_out(rows, width, u):
    """The multipliers show that no positive numbers have the product 0 with each row."""
    sums = combined(u, rows, width)
    return all(y <= 0 for y in sums) and any(sums)


def has_one_row_cut(rows):
    """A single row rules positive numbers out: it has entries of one sign, and not only zeros."""
    return any(any(row) and (all(y <= 0 for y in row) or all(y >= 0 for y in row)) for row in rows)


def names_wide(rows, width, index, basis):
    """Whether this basis and coordinate of the system (x, Ax) name a primitive vector with an entry of 2^62 or more."""
    lines = [[int(i == k) for i in range(width)] for k in range(width)] + rows
    members = [lines[b - 1] for b in basis]
    if len(basis) != width or rank(members) != width:
        return False
    if index in basis:
        # the x whose coordinates in the basis are 0, but for this one
        x = solution(list(zip(*members)), [int(b == index) for b in basis])
        vector = [product(line, x) for line in lines]
    else:
        # how this coordinate depends on the basis
        vector = [Fraction(1), *solution(members, lines[index - 1])]
    return any(abs(entry) >= WIDE for entry in whole(vector))


# ---- verdicts by their definitions

def closed(count, pairs):
    """For each complex the set of those that a walk along the pairs leads to, itself among them."""
    reached = [{c} for c in range(count)]
    grows = True
    while grows:
        grows = False
        for y, z in pairs:
            for row in reached:
                if y in row and z not in row:
                    row.add(z)
                    grows = True
    return reached


def labelled(classes):
    """Labels from 1 by first appearance, for the class of each complex."""
    first = [min(members) for members in classes]
    order = sorted(set(first))
    return [order.index(c) + 1 for c in first]


class Verdicts:
    """What holds of a network, by the definitions."""

    def __init__(self, net):
        count = len(net.complexes)
        links = net.reactions + [(z, y) for y, z in net.reactions]
        self.net = net
        self.linkage = labelled(closed(count, links))
        reached = closed(count, net.reactions)
        self.strong = labelled([{z for z in reached[y] if y in reached[z]} for y in range(count)])
        self.left = {self.strong[y] for y, z in net.reactions if self.strong[y] != self.strong[z]}
        self.irreversible = [r for r, (y, z) in enumerate(net.reactions) if (z, y) not in net.reactions]
        self.leaving = [r for r, (y, z) in enumerate(net.reactions) if self.strong[y] != self.strong[z]]

    def members(self, k):
        """The reactions of linkage class k, from 0."""
        return [r for r, (y, z) in enumerate(self.net.reactions) if self.linkage[y] == k]

    def base(self):
        """The first reactions, from 0, on whose vectors all vectors depend."""
        return independent(self.net.vectors)

    def of_class(self, k):
        return [self.net.vectors[r] for r in self.members(k)]

    @functools.cached_property
    def deficiencies(self):
        """The deficiency, and those of the linkage classes."""
        count = max(self.linkage)
        classes = [self.linkage.count(k) - 1 - rank(self.of_class(k)) for k in range(1, count + 1)]
        return len(self.linkage) - count - len(self.base()), classes

    @functools.cached_property
    def dependent(self):
        return positive(self.net.by_species(), len(self.net.reactions))

    @functools.cached_property
    def conservative(self):
        return positive(self.net.vectors, len(self.net.names))

    def is_weak(self):
        return not self.leaving

    @functools.cached_property
    def split(self):
        """The first linkage class with several terminal classes, and how many, or None."""
        return first_split(self.linkage, self.strong, self.left)

    @functools.cached_property
    def pairs(self):
        """The first reaction, from 0, of each linked pair of complexes within a terminal class."""
        return terminal_pairs(self.net, self.strong, self.left)

    @functools.cached_property
    def rounds(self):
        """For each such reaction whose complexes are no cut pair: the reaction, and a walk round."""
        found = ((r, walk_round(self.net, *self.net.reactions[r])) for r in self.pairs)
        return [(r, walk) for r, walk in found if walk]

    @functools.cached_property
    def confluence(self):
        """Independent vectors that span the confluence space, and the rows of system 4."""
        rows = confluence_rows(self.net, self.linkage)
        return kernel(rows, len(self.linkage)), rows

    @functools.cached_property
    def confluence_vector(self):
        """The normal confluence vector, in a regular network whose space is a line."""
        [g] = self.confluence[0]
        gathers = gathering(g, self.strong, self.left)
        turned = next(x for x in g if x) < 0 if self.is_weak() else any(x < 0 for x in gathers)
        return [-x for x in g] if turned else g

    @functools.cache
    def searched(self, question, budget):
        """How the search of question 14 or 15 ends."""
        return second_search.search(second_search.Concordance(self.net, question == 15), budget)

    def signals(self, turn):
        """The sign problem of the confluence vector, or of its negative."""
        return signal_problem(self.net, self.strong, self.left, self.pairs, [turn * x for x in self.confluence_vector])

    @functools.cache
    def signal(self, budget):
        """How the search for a signal ends: `found` with the turn, the pattern and the solutions, `refuted` or `spent`; and
        the visits of the longer of its one or two searches."""
        most = 0
        for turn in (1, -1) if self.is_weak() else (1,):
            how, visits, found = second_search.search(self.signals(turn), budget)
            most = max(most, visits)
            if how != "refuted":
                return how, most, (turn, *found) if found else None
        return "refuted", most, None

    def visits(self, question):
        """The visits of the longest search of question 13, 14 or 15: the least budget that decides it. Zero where it needs no
        search."""
        if question == 13:
            return self.signal(100_000)[1] if has_vector(self) else 0
        return self.searched(question, 100_000)[1]


def first_split(linkage, strong, left):
    for k in range(1, max(linkage) + 1):
        terminal = {label for label, of in zip(strong, linkage) if of == k and label not in left}
        if len(terminal) > 1:
            return k, len(terminal)
    return None


def terminal_pairs(net, strong, left):
    """The first reaction, from 0, of each linked pair within a strong class that is not left."""
    seen, first = set(), []
    for r, (y, z) in enumerate(net.reactions):
        if strong[y] == strong[z] and strong[y] not in left and (z, y) not in seen:
            seen.add((y, z))
            first.append(r)
    return first


def without(net, y, z):
    """The links but those between these two complexes, both ways."""
    links = [pair for pair in net.reactions if set(pair) != {y, z}]
    return links + [(b, a) for a, b in links]


def walk_round(net, y, z):
    """A walk along links from y to z without a step between the two, or None."""
    walks, links, due = {y: [y]}, without(net, y, z), [y]
    for here in due:
        for a, b in links:
            if a == here and b not in walks:
                walks[b] = [*walks[a], b]
                due.append(b)
    return walks.get(z)


def side_of(net, y, z):
    """The complexes that links join to z without a step between y and z."""
    found, grows = {z}, True
    while grows:
        more = {b for a, b in without(net, y, z) if a in found} - found
        found, grows = found | more, bool(more)
    return found


def confluence_rows(net, linkage):
    """The amounts of each species in the complexes, and then the marks of each linkage class."""
    amounts = [[amounts[s] for amounts in net.complexes] for s in range(len(net.names))]
    return amounts + [[int(label == k) for label in linkage] for k in range(1, max(linkage) + 1)]


def gathering(g, strong, left):
    """The sums of g over the strong classes that are not left."""
    return [sum(x for x, label in zip(g, strong) if label == k) for k in sorted(set(strong) - set(left))]


def tops_of(strong, left):
    """For each complex the number, from 0, of its terminal class, or None."""
    terminal = sorted(set(strong) - set(left))
    return [terminal.index(label) if label in terminal else None for label in strong]


def signal_problem(net, strong, left, pairs, g, sides=None):
    """The sign problem of a list g. `pairs` are reactions, from 0; `sides` has marks for each, if they are known."""
    named = []
    for i, r in enumerate(pairs):
        y, z = net.reactions[r]
        side = [c for c, mark in enumerate(sides[i]) if mark] if sides else side_of(net, y, z)
        named.append((y, z, sum(g[c] for c in side)))
    return second_search.Signals(net, tops_of(strong, left), named)


TITLES = {
    1: "Q1 linkage classes", 2: "Q2 strong classes", 3: "Q3 reversible", 4: "Q4 weakly reversible", 5: "Q5 rank",
    6: "Q6 deficiency", 7: "Q7 positively dependent", 8: "Q8 conservative", 9: "Q9 deficiency zero theorem",
    10: "Q10 deficiency one theorem", 11: "Q11 regular", 12: "Q12 confluence vector", 13: "Q13 signal", 14: "Q14 concordant",
    15: "Q15 strongly concordant",
}
SHELVES = {1: "upper", 0: "middle", -1: "lower"}
POSITIVE = {7: "positive combination", 8: "positive law"}


def numbers_text(numbers):
    return " ".join(str(number) for number in numbers)


def answer(question, words, *details):
    """The line of a question and those below it."""
    return [f"{TITLES[question]}: {words}", *(f"  {detail}" for detail in details)]


def class_details(net, title, labels, mark=lambda k: ""):
    return [
        f"{title} {k}: {'; '.join(net.side(c) for c in range(len(labels)) if labels[c] == k)}{mark(k)}"
        for k in range(1, max(labels) + 1)
    ]


def no_by_reaction(net, question, r):
    """The reaction counts from 0."""
    return answer(question, "no", f"reaction {r + 1}: {net.line(r)}")


def yes_or_no(question, is_yes, numbers):
    return answer(question, "yes" if is_yes else "no",
                  f"{POSITIVE[question] if is_yes else 'multipliers'}: {numbers_text(numbers)}")


def deficiency_lines(total, classes):
    return answer(6, f"{total}, classes {numbers_text(classes)}")


def wide_lines(question, system, of_class, index, basis):
    where = f"system {system} class {of_class}" if of_class else f"system {system}"
    return answer(question, "open, wide", where, f"index {index}", f"basis: {numbers_text(basis)}")


def split_lines(question, k, count):
    return answer(question, f"{'no, ' if question == 11 else 'hypotheses fail, '}class {k} has {count} terminal classes")


def zero_lines(deficiency, is_weak):
    if deficiency:
        return answer(9, f"hypotheses fail, deficiency {deficiency}")
    return answer(9, f"hypotheses hold, {'' if is_weak else 'not '}weakly reversible")


def one_lines(total, classes):
    """For a network in which each linkage class has one terminal class."""
    large = next(((k, d) for k, d in enumerate(classes, 1) if d > 1), None)
    if large:
        return answer(10, f"hypotheses fail, class {large[0]} has deficiency {large[1]}")
    return answer(10, "hypotheses hold" if sum(classes) == total else f"hypotheses fail, class deficiencies sum to {sum(classes)}")


def round_lines(net, r, walk):
    """The reaction and the complexes count from 0."""
    sides = "; ".join(net.side(c) for c in walk)
    return answer(11, "no, a cycle in a terminal class", f"reaction {r + 1}, walk: {sides}")


def plane_lines(one, two):
    return answer(12, "not applicable, two independent vectors", *(f"vector: {numbers_text(g)}" for g in (one, two)))


def signal_lines(turn, shelves, mu, m):
    return answer(13, "yes", f"turn: {turn}", f"shelves: {' '.join(SHELVES[shelf] for shelf in shelves)}",
                  f"mu: {numbers_text(mu)}", f"m: {m}")


def pair_lines(question, change, alpha):
    return answer(question, "no", f"sigma: {numbers_text(change)}", f"alpha: {numbers_text(alpha)}")


def head_lines(net):
    return [
        "crn report 1",
        f"species {len(net.names)}: {' '.join(net.names)}",
        f"complexes {len(net.complexes)}: {'; '.join(net.side(c) for c in range(len(net.complexes)))}",
        f"reactions {len(net.reactions)}",
    ]


def own_lines(v, question, budget=BUDGET):
    """The lines of a question as this program answers it; another reaction, base or vector may be as good."""
    net = v.net
    if question == 1:
        return answer(1, max(v.linkage), *class_details(net, "class", v.linkage))
    if question == 2:
        strong = class_details(net, "strong", v.strong, lambda k: "" if k in v.left else " (terminal)")
        return answer(2, f"{max(v.strong)}, terminal {max(v.strong) - len(v.left)}", *strong)
    if question in (3, 4):
        against = v.irreversible if question == 3 else v.leaving
        return no_by_reaction(net, question, against[0]) if against else answer(question, "yes")
    if question == 5:
        return answer(5, len(v.base()), f"independent reactions: {numbers_text(r + 1 for r in v.base())}")
    if question == 6:
        return deficiency_lines(*v.deficiencies)
    if question in (7, 8):
        return yes_or_no(question, *(v.dependent if question == 7 else v.conservative))
    if question == 9:
        return zero_lines(v.deficiencies[0], v.is_weak())
    if question in (10, 11) and v.split:
        return split_lines(question, *v.split)
    if question == 10:
        return one_lines(*v.deficiencies)
    if question == 11:
        return own_regular(v, v.dependent[0])
    return own_confluence(v) if question == 12 else own_signal(v, budget) if question == 13 else own_pair(v, question, budget)


def own_regular(v, is_dependent):
    if is_dependent:
        return round_lines(v.net, *v.rounds[0]) if v.rounds else answer(11, "yes")
    return answer(11, "no, not positively dependent")


def is_regular(v):
    return not v.split and v.dependent[0] and not v.rounds


def own_confluence(v):
    if not is_regular(v):
        return answer(12, "not applicable, not regular")
    vectors, _ = v.confluence
    if len(vectors) > 1:
        return plane_lines(*vectors[:2])
    if not vectors:
        return answer(12, "not applicable, no vector but zero")
    return answer(12, "yes", f"vector: {numbers_text(v.confluence_vector)}")


def own_signal(v, budget):
    if not has_vector(v):
        return answer(13, "not applicable")
    how, _, found = v.signal(budget)
    if how == "found":
        turn, prefix, (*mu, m), _ = found
        return signal_lines(turn, prefix[: len(prefix) - len(mu)], mu, m)
    return answer(13, "no" if how == "refuted" else f"open, budget {budget}")


def own_pair(v, question, budget):
    how, _, found = v.searched(question, budget)
    if how == "found":
        _, alpha, weights = found
        return pair_lines(question, combined(weights, v.net.vectors, len(v.net.names)), alpha)
    return answer(question, "yes" if how == "refuted" else f"open, budget {budget}")


def sample_text(number):
    """One enzyme turns S0 into S1, S1 into S2, .., each by way of a complex of the two."""
    return "".join(f"E + S{i - 1} <-> C{i}\nC{i} -> E + S{i}\n" for i in range(1, number + 1))


def word_of(question, line):
    """The word for a verdict in the line of `sample` on verdicts, from the question's own line."""
    words = line.split(": ", 1)[1]
    if words.startswith(("open", "not applicable")):
        return "open" if words.startswith("open") else "none"
    if question in (1, 2, 5, 6):
        return words.split(",")[0]
    return "yes" if words.startswith(("yes", "hypotheses hold")) else "no"


def sample(number, budget=BUDGET):
    """The status and the bytes with which `sample` answers this number, if no system is wide."""
    net = read_network(sample_text(number))
    v = Verdicts(net)
    words = [word_of(question, own_lines(v, question, budget)[0]) for question in BUILT]
    sizes = f"{len(net.names)} species, {len(net.complexes)} complexes, {len(net.reactions)} reactions"
    lines = [f"sample {number}: {sizes}", f"verdicts: {' '.join(words)}", "check: accepted"]
    return int("open" in words), "".join(f"{line}\n" for line in lines).encode()


def is_open(lines):
    return lines[0].split(": ")[1].startswith("open")


def report_of(net, said=None, budget=BUDGET):
    """The report; `said` gives the lines of questions whose answer is known."""
    v, said = Verdicts(net), said or {}
    blocks = [said.get(question) or own_lines(v, question, budget) for question in BUILT]
    lines = head_lines(net) + [line for block in blocks for line in block]
    return "".join(f"{line}\n" for line in [*lines, f"open: {sum(map(is_open, blocks))}"])


# ---- the judgement of a report: verdicts that are fixed have to be right, and each list that is named is looked at

def numbers_after(title, line):
    """The numbers of an indented line with this title, or None."""
    found = re.fullmatch(rf"  {title}: ((?:0|-?[1-9][0-9]*)(?: (?:0|-?[1-9][0-9]*))*)", line)
    return [int(number) for number in found[1].split()] if found else None


def wide_of(lines):
    """The system, class, index and basis of an open answer, or None."""
    if len(lines) != 4:
        return None
    where = re.fullmatch(r"  system ([1-5])(?: class ([1-9][0-9]*))?", lines[1])
    index, basis = re.fullmatch(r"  index ([1-9][0-9]*)", lines[2]), numbers_after("basis", lines[3])
    return (int(where[1]), int(where[2] or 0), int(index[1]), basis) if where and index and basis else None


def rests_on(v, question, opened):
    """The open question that leaves this one open, or None."""
    if question in (6, 9):
        before, leaves = 5, True
    elif question in (10, 11):
        before, leaves = question - 4, not v.split and not (question == 11 and v.rounds)
    else:
        before, leaves = {12: 11, 13: 12}.get(question), True
    return before if before in opened and leaves else None


def has_vector(v):
    return is_regular(v) and len(v.confluence[0]) == 1


def system_rows(v, question, system, of_class):
    """The matrix of a system that may leave the question open, or None."""
    if question == 6:
        return v.of_class(of_class) if system == 3 and 1 <= of_class <= max(v.linkage) else None
    if (question, system) in ((5, 1), (8, 1)) and not of_class:
        return v.net.vectors
    if (question, system) in ((7, 2), (14, 2), (15, 2)) or (question, system) == (13, 2) and has_vector(v):
        return None if of_class else v.net.by_species()
    if (question, system) == (12, 4) and is_regular(v):
        return None if of_class else v.confluence[1]
    return v.signals(1).a.rows if (question, system, of_class) == (13, 5, 0) and has_vector(v) else None


def is_licensed(v, question, lines, budget):
    """An open answer that rests on no other has its cause: the visits of its search exceed the budget, or the basis and the
    index that it names are those of a wide vector of the question's own system. Of questions 7 and 8 no single row decides
    it."""
    if lines[0].endswith(f": open, budget {budget}"):
        if question == 13:
            return len(lines) == 1 and has_vector(v) and v.signal(budget)[0] == "spent"
        return len(lines) == 1 and question in (14, 15) and v.searched(question, budget)[0] == "spent"
    found = wide_of(lines) if lines[0].endswith(": open, wide") else None
    if found is None:
        return False
    system, of_class, index, basis = found
    rows = system_rows(v, question, system, of_class)
    if rows is None:
        return False
    width = len(rows[0])
    in_range = all(1 <= b <= width + len(rows) for b in [index, *basis]) and sorted(set(basis)) == basis
    free_of_cuts = question not in (7, 8) or not has_one_row_cut(rows)
    return in_range and free_of_cuts and names_wide(rows, width, index, basis)


def is_right(v, question, lines, opened, budget):
    """The lines of a question are right: as this program has them, with another list that is as good, or open with a
    cause."""
    before = rests_on(v, question, opened)
    if before:
        return lines == answer(question, f"open, rests on Q{before}")
    if question > 4 and is_open(lines):
        return is_licensed(v, question, lines, budget)
    own = own_regular(v, True) if question == 11 and 7 in opened and not v.split else own_lines(v, question, budget)
    if lines[0] != own[0] or len(lines) != len(own):
        return False
    if question < 5:
        against = {3: v.irreversible, 4: v.leaving}.get(question)
        return any(lines == no_by_reaction(v.net, question, r) for r in against) if against else lines == own
    if len(own) == 1:
        return True
    shown = {5: is_base, 7: is_dependence, 8: is_conservation, 11: is_round, 12: is_confluence, 13: is_signal}
    return shown.get(question, is_discordance)(v, question, lines)


def is_base(v, question, lines):
    base = numbers_after("independent reactions", lines[1])
    return base and base == sorted(set(base)) and base[0] >= 1 and base[-1] <= len(v.net.reactions) \
        and len(base) == len(v.base()) == rank([v.net.vectors[r - 1] for r in base])


def free_list(title, line, length):
    """The numbers of a line with this title, as many as they have to be and not too great, or None."""
    numbers = numbers_after(title, line)
    return numbers if numbers and len(numbers) == length and all(abs(x) < FREE for x in numbers) else None


def is_shown(rows, question, lines):
    is_yes = lines[0].endswith(": yes")
    numbers = free_list(POSITIVE[question] if is_yes else "multipliers", lines[1], len(rows[0] if is_yes else rows))
    return numbers and (is_positive(rows, numbers) if is_yes else rules_out(rows, len(rows[0]), numbers))


def is_dependence(v, question, lines):
    return is_shown(v.net.by_species(), question, lines)


def is_conservation(v, question, lines):
    return is_shown(v.net.vectors, question, lines)


def is_round(v, question, lines):
    found = re.fullmatch(r"  reaction ([1-9]\d*), walk: (.*)", lines[1])
    if not found or int(found[1]) > len(v.net.reactions):
        return False
    sides = [v.net.side(c) for c in range(len(v.net.complexes))]
    r, walk = int(found[1]) - 1, found[2].split("; ")
    return all(side in sides for side in walk) and is_way_round(v.net, v.strong, v.left, r, [sides.index(side) for side in walk])


def is_way_round(net, strong, left, r, walk):
    """The reaction is within a terminal class, and the walk goes from its reactant to its product by links that are not
    between these two. All count from 0."""
    y, z = net.reactions[r]
    steps, links = list(zip(walk, walk[1:])), without(net, y, z)
    return strong[y] == strong[z] and strong[y] not in left and 2 <= len(walk) <= len(net.complexes) \
        and (walk[0], walk[-1]) == (y, z) and all(step in links for step in steps)


def is_confluence(v, question, lines):
    vectors = [free_list("vector", line, len(v.linkage)) for line in lines[1:]]
    if len(vectors) == 1:
        return vectors[0] == v.confluence_vector
    return None not in vectors and all(product(row, g) == 0 for row in v.confluence[1] for g in vectors) \
        and any(a and not b for a, b in zip(*vectors)) and any(b and not a for a, b in zip(*vectors))


def is_signal(v, question, lines):
    turn, shelves = re.fullmatch(r"  turn: (1|-1)", lines[1]), re.fullmatch(r"  shelves: (.*)", lines[2])
    mu, m = free_list("mu", lines[3], len(v.net.names)), free_list("m", lines[4], 1)
    if not (turn and shelves and mu and m) or turn[1] == "-1" and not v.is_weak():
        return False
    names, problem = {name: shelf for shelf, name in SHELVES.items()}, v.signals(int(turn[1]))
    shelves = [names.get(word) for word in shelves[1].split(" ")]
    if None in shelves or len(shelves) != problem.shelves or not any(mu):
        return False
    prefix = shelves + [sign_of(x) for x in mu]
    return second_search.has_kinds(problem.kinds_a(prefix), problem.a.values([*mu, *m])) and problem.is_stoichiometric(mu)


def sign_of(x):
    return (x > 0) - (x < 0)


def is_discordance(v, question, lines):
    """The change is a combination of the vectors, the numbers cancel, and they go together."""
    net, problem = v.net, second_search.Concordance(v.net, question == 15)
    change, alpha = numbers_after("sigma", lines[1]), free_list("alpha", lines[2], len(v.net.reactions))
    if not (change and alpha) or len(change) != len(net.names) or not any(change) or not problem.goes(alpha, change):
        return False
    return not any(combined(alpha, net.vectors, len(net.names))) and rank(net.vectors) == rank([*net.vectors, change])


def judged(text, status, out, budget=BUDGET):
    """What is wrong with the report of a text that spells a network, and with its status; nothing if all is right."""
    net = read_network(text.decode("latin-1"))
    v, lines = Verdicts(net), out.decode("latin-1").split("\n")
    head = head_lines(net)
    if lines[: len(head)] != head or lines[-1] != "":
        return ["the head or the end"]
    wrong, at, opened = [], len(head), []
    for question in BUILT:
        end = at + 1
        while end < len(lines) and lines[end].startswith("  "):
            end += 1
        block, at = lines[at:end], end
        if not block or not block[0].startswith(f"{TITLES[question]}: ") or not is_right(v, question, block, opened, budget):
            wrong.append(TITLES[question])
        elif is_open(block):
            opened.append(question)
    if lines[at:] != [f"open: {len(opened)}", ""]:
        wrong.append("the last line")
    if status != (1 if opened else 0):
        wrong.append("the status")
    return wrong


# ---- the check of a certificate

class Rejected(Exception):
    def __init__(self, code, line):
        self.code, self.line = code, line

    def said(self):
        return f"rejected {self.code} {NAMES[self.code]} at line {self.line}\n"


class Reading:
    """A document, read line by line."""

    def __init__(self, text):
        self.text, self.at, self.number, self.version = text, 0, 0, 0
        self.shared, self.after_tree = [], False

    def due(self, early=27):
        self.number += 1
        end = self.text.find(b"\n", self.at)
        if (end if end >= 0 else len(self.text)) - self.at > MAX_LINE:
            raise Rejected(30, self.number)
        if end < 0:
            raise Rejected(early, self.number)
        line, self.at = self.text[self.at : end], end + 1
        return line

    def words(self):
        """The words of the document's version."""
        return HEADS + ROWS + TREE[self.version] + (OF_VERSION_2 if self.version == 2 else [])

    def opening(self, titles):
        """The network: its lines and the two before them, of which the first is a title that gives the version."""
        self.version = titles.get(self.due())
        if not self.version:
            raise Rejected(21, 1)
        second = self.due().decode("latin-1")
        if not re.fullmatch(r"network [1-9][0-9]{0,2}", second) or int(second[8:]) > MAX_REACTIONS:
            raise Rejected(22, 2)
        lines = b"".join([self.due() + b"\n" for _ in range(int(second[8:]))]).decode("latin-1")
        net = read_network(lines)
        if not net or net.canonical() != lines:
            raise Rejected(22, self.number)
        return net

    def ending(self):
        """The last line, after which nothing may follow."""
        self.record([(["end"], none)])
        rest = self.text[self.at :]
        if rest:
            end = rest.find(b"\n")
            raise Rejected(30 if (end if end >= 0 else len(rest)) > MAX_LINE else 28, self.number + 1)

    def record(self, forms, misplaced=26):
        """The place of the form and the numbers of the next line. A form is a list of words and a test of numbers."""
        line, after_tree = self.due(43 if misplaced == 43 else 27), self.after_tree
        self.after_tree = False
        word = line.split(b" ")[0].decode("latin-1")
        if word not in self.words():
            raise Rejected(23, self.number)
        if all(form[0][0] != word for form in forms):
            raise Rejected(44 if after_tree and word in TREE[self.version] else misplaced, self.number)
        fields = line.decode("latin-1").split(" ")
        wide = False
        for place, (words, test) in enumerate(forms):
            spelled = fields[len(words) :]
            if fields[: len(words)] != words or not all(re.fullmatch(r"0|-?[1-9][0-9]*", it) for it in spelled):
                continue
            numbers = [number_of(it) for it in spelled]
            free = test(numbers)
            if free is None:
                continue
            if all(abs(number) < FREE for number in free):
                return place, numbers
            wide = True
        raise Rejected(25 if wide else 24, self.number)


def number_of(text):
    """The number, or one that is too great to be any (Python bounds the digits that it reads)."""
    return int(text) if len(text) < 100 else (FREE if text[0] != "-" else -FREE)


def small(count, least, greatest):
    return lambda ns: [] if len(ns) == count and all(least <= n <= greatest for n in ns) else None


def free(fewest, most):
    return lambda ns: ns if fewest <= len(ns) <= most else None


def none(ns):
    return None if ns else []


def wide(system, columns, rows):
    """The numbers of an open head of this system, without a class: its number, 0, a coordinate and a basis."""
    def test(ns):
        return [] if ns[:2] == [system, 0] and is_basis(ns[2:], columns, rows) else None
    return test


def is_basis(ns, columns, rows):
    """A coordinate and an ascending basis of a system with this many columns and rows."""
    rising = all(a < b for a, b in zip(ns[1:], ns[2:]))
    return len(ns) == 1 + columns and rising and all(1 <= n <= columns + rows for n in ns)


def members(count, of):
    """So many of these numbers, ascending."""
    def test(ns):
        return [] if len(ns) == count and set(ns) <= set(of) and ns == sorted(set(ns)) else None
    return test


def numbered(labels, count):
    greatest = 0
    for label in labels:
        if label > greatest + 1:
            return False
        greatest = max(greatest, label)
    return greatest == count and labels[0] == 1


def is_tree(net, labels, names, depth, hangs):
    for c, label in enumerate(labels):
        if labels.index(label) == c:
            good = names[c] == 0 and depth[c] == 0
        else:
            good = names[c] > 0 and hangs(net.reactions[names[c] - 1], c)
        if not good:
            return False
    return True


def check_linkage(at, net, known):
    complexes, reactions = len(net.complexes), len(net.reactions)
    _, (count,) = at.record([(["q1"], small(1, 1, complexes))])
    head = at.number
    _, label = at.record([(["label"], small(complexes, 1, count))])
    _, up = at.record([(["up"], small(complexes, 0, reactions))])
    _, depth = at.record([(["depth"], small(complexes, 0, complexes - 1))])
    if not (numbered(label, count) and all(label[y] == label[z] for y, z in net.reactions)):
        raise Rejected(31, head + 1)

    def hangs(reaction, c):
        return c in reaction and depth[c] == depth[sum(reaction) - c] + 1

    if not is_tree(net, label, up, depth, hangs):
        raise Rejected(31, head + 3)
    known["linkage"] = label


def check_strong(at, net, known):
    complexes, reactions = len(net.complexes), len(net.reactions)

    def count_and_part(ns):
        return [] if len(ns) == 2 and 1 <= ns[1] <= ns[0] <= complexes else None

    _, (count, terminal) = at.record([(["q2"], count_and_part)])
    head = at.number
    _, label = at.record([(["label"], small(complexes, 1, count))])
    trees = []
    for word in ("from", "to"):
        _, names = at.record([([word], small(complexes, 0, reactions))])
        _, depth = at.record([([f"{word}depth"], small(complexes, 0, complexes - 1))])
        trees.append((names, depth))
    _, level = at.record([(["level"], small(count, 0, complexes))])
    _, leaves = at.record([(["exit"], small(count, 0, reactions))])
    if not numbered(label, count):
        raise Rejected(31, head + 1)
    for part, own, (names, depth) in ((3, 1, trees[0]), (5, 0, trees[1])):

        def hangs(reaction, c, own=own, depth=depth):
            other = reaction[1 - own]
            return reaction[own] == c and label[other] == label[c] and depth[c] == depth[other] + 1

        if not is_tree(net, label, names, depth, hangs):
            raise Rejected(31, head + part)
    between = [(label[y], label[z]) for y, z in net.reactions if label[y] != label[z]]
    if not all(level[j - 1] > level[k - 1] for j, k in between):
        raise Rejected(31, head + 6)
    for k in range(1, count + 1):
        if leaves[k - 1] == 0:
            good = all(j != k for j, _ in between)
        else:
            y, z = net.reactions[leaves[k - 1] - 1]
            good = label[y] == k and label[z] != k
        if not good:
            raise Rejected(31, head + 7)
    if leaves.count(0) != terminal:
        raise Rejected(36, head + 7)
    known["strong"], known["left"] = label, {k for k, r in enumerate(leaves, 1) if r}


def check_reversible(at, net, known):
    reactions = len(net.reactions)
    place, numbers = at.record([(["q3", "yes"], none), (["q3", "no"], small(1, 1, reactions))])
    if place:
        y, z = net.reactions[numbers[0] - 1]
        if (z, y) in net.reactions:
            raise Rejected(37, at.number)
        return no_by_reaction(net, 3, numbers[0] - 1)
    _, back = at.record([(["back"], small(reactions, 1, reactions))])
    if any(net.reactions[b - 1] != (z, y) for b, (y, z) in zip(back, net.reactions)):
        raise Rejected(32, at.number)
    return answer(3, "yes")


def check_weak(at, net, known):
    place, numbers = at.record([(["q4", "yes"], none), (["q4", "no"], small(1, 1, len(net.reactions)))])
    leaves, known["weak"] = [known["strong"][y] != known["strong"][z] for y, z in net.reactions], not place
    if not (leaves[numbers[0] - 1] if place else not any(leaves)):
        raise Rejected(37, at.number)
    return no_by_reaction(net, 4, numbers[0] - 1) if place else answer(4, "yes")


def rank_records(at, net, reactions, count):
    """The records of the rank of these reactions, which count from 1, as far as they are read: the base, for each other
    reaction the numbers of its combination, and each test with its code and line."""
    species = len(net.names)
    _, base = at.record([(["base"], members(count, reactions))])
    vectors, tests, combs = [net.vectors[r - 1] for r in base], [], {}
    for i in range(count):
        _, dual = at.record([(["dual"], free(species, species))])
        tests.append((33, at.number, all((product(dual, v) != 0) == (i == k) for k, v in enumerate(vectors))))
    for r in reactions:
        if r in base:
            continue
        _, (most, *others) = at.record([(["comb"], free(1 + count, 1 + count))])
        is_sum = [most * x for x in net.vectors[r - 1]] == combined(others, vectors, species)
        tests.append((34, at.number, most >= 1 and is_sum))
        combs[r] = others
    return base, combs, tests


def hold(tests):
    for code, line, holds in tests:
        if not holds:
            raise Rejected(code, line)


def check_rank(at, net, known):
    species, reactions = len(net.names), len(net.reactions)
    place, numbers = at.record([
        (["q5"], small(1, 1, min(species, reactions))), (["q5", "open", "wide"], wide(1, species, reactions)),
    ])
    if place:
        return wide_lines(5, 1, 0, numbers[2], numbers[3:])
    base, _, tests = rank_records(at, net, range(1, reactions + 1), numbers[0])
    hold(tests)
    known["rank"] = numbers[0]
    return answer(5, numbers[0], f"independent reactions: {numbers_text(base)}")


def check_deficiency(at, net, known):
    species, complexes, label = len(net.names), len(net.complexes), known["linkage"]
    count = max(label)
    classes = [[r for r, (y, _) in enumerate(net.reactions, 1) if label[y] == k] for k in range(1, count + 1)]

    def wide_class(ns):
        of_class = ns[:1] == [3] and len(ns) > 1 and 1 <= ns[1] <= count
        return [] if of_class and is_basis(ns[2:], species, len(classes[ns[1] - 1])) else None

    place, numbers = at.record([
        (["q6"], small(1 + count, 0, complexes)), (["q6", "open", "wide"], wide_class),
        (["q6", "open", "rests"], small(1, 5, 5)),
    ])
    if place == 1:
        return wide_lines(6, 3, numbers[1], numbers[2], numbers[3:])
    if place == 2:
        return answer(6, "open, rests on Q5")
    if "rank" not in known:
        raise Rejected(37, at.number)
    ranks = [label.count(k) - 1 - d for k, d in enumerate(numbers[1:], 1)]
    possible = all(1 <= s <= min(species, len(reactions)) for s, reactions in zip(ranks, classes))
    if numbers[0] != complexes - count - known["rank"] or not possible:
        raise Rejected(36, at.number)
    tests = []
    for s, reactions in zip(ranks, classes):
        tests += rank_records(at, net, reactions, s)[-1]
    hold(tests)
    known["deficiencies"] = numbers[0], numbers[1:]
    return deficiency_lines(numbers[0], numbers[1:])


def check_positive(at, question, system, rows):
    """Question 7 or 8: positive numbers with the product 0 with each row, or multipliers of the rows."""
    columns, word = len(rows[0]), f"q{question}"
    place, numbers = at.record([
        ([word, "yes"], none), ([word, "no"], none), ([word, "open", "wide"], wide(system, columns, len(rows))),
    ])
    if place == 2:
        return wide_lines(question, system, 0, numbers[2], numbers[3:])
    length = [columns, len(rows)][place]
    _, numbers = at.record([([["vec", "cut"][place]], free(length, length))])
    if not (rules_out(rows, columns, numbers) if place else is_positive(rows, numbers)):
        raise Rejected(35, at.number)
    return yes_or_no(question, not place, numbers)


def check_dependent(at, net, known):
    lines = check_positive(at, 7, 2, net.by_species())
    known["dependent"] = None if is_open(lines) else lines[0].endswith(": yes")
    return lines


def check_conservative(at, net, known):
    return check_positive(at, 8, 1, net.vectors)


def check_zero(at, net, known):
    complexes = len(net.complexes)
    place, numbers = at.record([
        (["q9", "yes"], small(1, 0, 1)), (["q9", "no"], small(1, 1, complexes)), (["q9", "open", "rests"], small(1, 5, 5)),
    ])
    if place == 2:
        return answer(9, "open, rests on Q5")
    if "rank" not in known:
        raise Rejected(37, at.number)
    deficiency = complexes - max(known["linkage"]) - known["rank"]
    if place == 0 and (deficiency != 0 or bool(numbers[0]) != known["weak"]):
        raise Rejected(37, at.number)
    if place == 1 and numbers[0] != deficiency:
        raise Rejected(36, at.number)
    return zero_lines(deficiency, known["weak"])


def two_in(first, second):
    """Two numbers, each in its range."""
    return lambda ns: [] if len(ns) == 2 and all(a <= n <= b for n, (a, b) in zip(ns, (first, second))) else None


def check_one(at, net, known):
    complexes, count = len(net.complexes), max(known["linkage"])
    of_class = two_in((1, count), (2, complexes))
    place, numbers = at.record([
        (["q10", "yes"], none), (["q10", "no", "terminal"], of_class), (["q10", "no", "class"], of_class),
        (["q10", "no", "sum"], small(1, 0, complexes)), (["q10", "open", "rests"], small(1, 6, 6)),
    ])
    if place == 4:
        return answer(10, "open, rests on Q6")
    split = first_split(known["linkage"], known["strong"], known["left"])
    if place == 1:
        lines = split_lines(10, *numbers)
        said = split and lines == split_lines(10, *split)
    else:
        lines = [
            answer(10, "hypotheses hold"), None, answer(10, "hypotheses fail, class {} has deficiency {}".format(*numbers, 0, 0)),
            answer(10, "hypotheses fail, class deficiencies sum to {}".format(*numbers, 0)),
        ][place]
        said = not split and "deficiencies" in known and lines == one_lines(*known["deficiencies"])
    if not said:
        raise Rejected(37, at.number)
    return lines


def check_regular(at, net, known):
    complexes, reactions, count = len(net.complexes), len(net.reactions), max(known["linkage"])
    place, numbers = at.record([
        (["q11", "yes"], none), (["q11", "no", "terminal"], two_in((1, count), (2, complexes))),
        (["q11", "no", "dependence"], none), (["q11", "no", "cycle"], small(1, 1, reactions)),
        (["q11", "open", "rests"], small(1, 7, 7)),
    ])
    known["regular"] = [True, False, False, False, None][place]
    if place == 4:
        return answer(11, "open, rests on Q7")
    strong, left = known["strong"], known["left"]
    split, dependent = first_split(known["linkage"], strong, left), known["dependent"]
    if place == 1:
        holds = split == tuple(numbers)
    elif place == 3:
        y, z = net.reactions[numbers[0] - 1]
        holds = not split and dependent is not False and strong[y] == strong[z] and strong[y] not in left
    else:
        holds = not split and dependent is (place == 0)
    if not holds:
        raise Rejected(37, at.number)
    if place == 1:
        return split_lines(11, *split)
    if place == 2:
        return answer(11, "no, not positively dependent")
    if place == 3:
        r = numbers[0] - 1
        _, walk = at.record([(["walk"], lambda ns: [] if small(len(ns), 1, complexes)(ns) == [] and 2 <= len(ns) <= complexes else None)])
        if not is_way_round(net, strong, left, r, [c - 1 for c in walk]):
            raise Rejected(32, at.number)
        return round_lines(net, r, [c - 1 for c in walk])
    return check_sides(at, net, known)


def check_sides(at, net, known):
    """One record for each linked pair within a terminal class; they are kept for question 13."""
    pairs, label, tests = terminal_pairs(net, known["strong"], known["left"]), known["linkage"], []
    known["sides"] = []
    for r in pairs:
        _, (_, *marks) = at.record([(["side"], lambda ns, r=r: [] if ns[:1] == [r + 1] and small(len(net.complexes), 0, 1)(ns[1:]) == [] else None)])
        y, z = net.reactions[r]
        holds = (marks[y], marks[z]) == (0, 1) and not any(mark for mark, k in zip(marks, label) if k != label[y]) \
            and all(marks[a] == marks[b] for a, b in net.reactions if {a, b} != {y, z})
        tests.append((35, at.number, holds))
        known["sides"].append(marks)
    hold(tests)
    return answer(11, "yes")


def two_apart(complexes):
    return lambda ns: [] if len(ns) == 2 and ns[0] != ns[1] and all(1 <= n <= complexes for n in ns) else None


def check_confluence(at, net, known):
    complexes, rows = len(net.complexes), confluence_rows(net, known["linkage"])
    place, numbers = at.record([
        (["q12", "yes"], none), (["q12", "none", "regular"], none), (["q12", "none", "zero"], none),
        (["q12", "none", "plane"], two_apart(complexes)), (["q12", "open", "wide"], wide(4, complexes, len(rows))),
        (["q12", "open", "rests"], small(1, 11, 11)),
    ])
    known["confluence"] = "open" if place > 3 else None
    if place > 3:
        return wide_lines(12, 4, 0, numbers[2], numbers[3:]) if place == 4 else answer(12, "open, rests on Q11")
    if known["regular"] is not (place != 1):
        raise Rejected(37, at.number)
    if place == 1:
        return answer(12, "not applicable, not regular")
    in_space = lambda g: all(product(row, g) == 0 for row in rows)
    if place == 3:
        c, d = numbers[0] - 1, numbers[1] - 1
        vectors, tests = [], []
        for one, other in ((c, d), (d, c)):
            _, g = at.record([(["vec"], free(complexes, complexes))])
            tests.append((35, at.number, in_space(g) and g[one] != 0 and g[other] == 0))
            vectors.append(g)
        hold(tests)
        return plane_lines(*vectors)
    g, tests, least = [], [], complexes
    if place == 0:
        _, g = at.record([(["vec"], free(complexes, complexes))])
        least = next((c for c, x in enumerate(g) if x), 0)
        gathers = all(x >= 0 for x in gathering(g, known["strong"], known["left"]))
        normal = in_space(g) and math.gcd(*g) == 1 and gathers and not (known["weak"] and g[least] < 0)
        tests.append((35, at.number, normal))
    for c in range(complexes):
        if c == least:
            continue
        _, multipliers = at.record([(["tie"], free(len(rows), len(rows)))])
        ties = combined(multipliers, rows, complexes)
        tests.append((35, at.number, all((x != 0) == (k == c) for k, x in enumerate(ties) if k != least)))
    hold(tests)
    known["confluence"] = g or None
    return answer(12, "yes", f"vector: {numbers_text(g)}") if g else answer(12, "not applicable, no vector but zero")


def check_tree(at, problem):
    """The nodes of a tree that leaves no full prefix feasible, each tested at its line."""
    due = [[]]
    species = len(problem.b.rows)
    forms = [(["split"], none), (["flat"], none), (["cuta"], free(len(problem.a.rows), len(problem.a.rows))),
             (["cutb"], free(species, species))]
    if at.version == 2:
        forms += [([word], small(1, 1, len(at.shared))) for word in ("refa", "refb")]
    while due:
        place, numbers = at.record(forms, 43)
        prefix = due.pop()
        if place == 0:
            if len(prefix) == problem.length:
                raise Rejected(42, at.number)
            due += reversed(second_search.children(prefix))
        elif place == 1:
            if not problem.closed(prefix):
                raise Rejected(42, at.number)
        else:
            is_a = place % 2 == 0
            part = problem.a if is_a else problem.b
            numbers = at.shared[numbers[0] - 1] if place > 3 else numbers
            if len(numbers) != len(part.rows):
                raise Rejected(46, at.number)
            if not part.excludes(problem.kinds_a(prefix) if is_a else problem.kinds_b(prefix), numbers):
                raise Rejected(41, at.number)
    at.after_tree = True


def check_signal(at, net, known):
    species, reactions, g = len(net.names), len(net.reactions), known["confluence"]
    has_g = g not in (None, "open")
    pairs = terminal_pairs(net, known["strong"], known["left"]) if has_g else []
    fifth = wide(5, species + 1, len(net.complexes) + len(pairs))
    place, numbers = at.record([
        (["q13", "yes"], lambda ns: [] if ns in ([1], [-1]) else None), (["q13", "no"], none), (["q13", "none"], none),
        (["q13", "open", "wide"], wide(2, reactions, species)),
        (["q13", "open", "wide"], fifth if has_g else lambda ns: None),
        (["q13", "open", "budget"], small(1, 1, 100_000)), (["q13", "open", "rests"], small(1, 12, 12)),
    ])
    if place > 4:
        return answer(13, f"open, budget {numbers[0]}" if place == 5 else "open, rests on Q12")
    if place > 2:
        return wide_lines(13, numbers[0], 0, numbers[2], numbers[3:])
    if g == "open" or has_g is not (place != 2) or (place == 0 and numbers == [-1] and not known["weak"]):
        raise Rejected(37, at.number)
    if place == 2:
        return answer(13, "not applicable")

    def problem(turn):
        turned = [turn * x for x in g]
        return signal_problem(net, known["strong"], known["left"], pairs, turned, known["sides"])

    if place == 1:
        for turn in (1, -1) if known["weak"] else (1,):
            check_tree(at, problem(turn))
        return answer(13, "no")
    signals = problem(numbers[0])
    _, shelves = at.record([(["shelves"], small(signals.shelves, -1, 1))])
    _, mu = at.record([(["mu"], free(species, species))])
    _, (m,) = at.record([(["m"], free(1, 1))])
    _, weights = at.record([(["weights"], free(reactions, reactions))])
    hold([(45, at.number, signals.shows(shelves, mu, m, weights))])
    return signal_lines(numbers[0], shelves, mu, m)


def check_pair(at, net, question):
    species, reactions, word = len(net.names), len(net.reactions), f"q{question}"
    place, numbers = at.record([
        ([word, "yes"], none), ([word, "no"], none), ([word, "open", "wide"], wide(2, reactions, species)),
        ([word, "open", "budget"], small(1, 1, 100_000)),
    ])
    if place > 1:
        return wide_lines(question, 2, 0, numbers[2], numbers[3:]) if place == 2 else answer(question, f"open, budget {numbers[0]}")
    problem = second_search.Concordance(net, question == 15)
    if place == 0:
        check_tree(at, problem)
        return answer(question, "yes")
    _, alpha = at.record([(["alpha"], free(reactions, reactions))])
    _, weights = at.record([(["weights"], free(reactions, reactions))])
    hold([(45, at.number, problem.shows(alpha, weights))])
    return pair_lines(question, combined(weights, net.vectors, species), alpha)


def check_concordant(at, net, known):
    return check_pair(at, net, 14)


def check_strongly_concordant(at, net, known):
    return check_pair(at, net, 15)


BLOCKS = [
    (1, check_linkage), (2, check_strong), (3, check_reversible), (4, check_weak), (5, check_rank),
    (6, check_deficiency), (7, check_dependent), (8, check_conservative), (9, check_zero), (10, check_one),
    (11, check_regular), (12, check_confluence), (13, check_signal), (14, check_concordant), (15, check_strongly_concordant),
]
SECTIONS = {1: "graph", 5: "rank", 7: "dependence", 9: "theorems", 11: "confluence", 14: "concordance"}


def tree_lines(problem):
    """The nodes of a tree that leaves no full prefix feasible. It is there if the search finds none."""
    due, lines = [[]], []
    while due:
        prefix = due.pop()
        if problem.closed(prefix):
            lines.append("flat")
        elif (u := problem.a.multipliers(problem.kinds_a(prefix))) is not None:
            lines.append(f"cuta {numbers_text(u)}")
        elif (u := problem.b.multipliers(problem.kinds_b(prefix))) is not None:
            lines.append(f"cutb {numbers_text(u)}")
        else:
            lines.append("split")
            due += reversed(second_search.children(prefix))
    return lines


def rank_lines(net):
    """The records of the rank of all reactions: the first independent ones, what shows that, and how the others depend on them;
    and for each of these the numbers."""
    base = independent(net.vectors)
    vectors, combs = [net.vectors[r] for r in base], {}
    lines = [f"base {numbers_text(r + 1 for r in base)}"]
    for i, own in enumerate(vectors):
        others = kernel(vectors[:i] + vectors[i + 1 :], len(net.names))
        lines.append(f"dual {numbers_text(next(dual for dual in others if product(dual, own)))}")
    for r, vector in enumerate(net.vectors):
        if r not in base:
            most, *combs[r] = whole([Fraction(1), *solution(vectors, vector)])
            lines.append(f"comb {numbers_text([most, *combs[r]])}")
    return lines, base, combs


def confluence_block(v):
    if not is_regular(v):
        return ["q12 none regular"]
    (vectors, rows), count = v.confluence, len(v.linkage)
    if len(vectors) > 1:
        one, two = vectors[:2]
        c = next(k for k in range(count) if one[k] and not two[k])
        d = next(k for k in range(count) if two[k] and not one[k])
        return [f"q12 none plane {c + 1} {d + 1}", *(f"vec {numbers_text(g)}" for g in (one, two))]
    g = v.confluence_vector if vectors else []
    least, ties = next((c for c, x in enumerate(g) if x), None), []
    for c in range(count):
        if c != least:
            sums = [[row[k] for row in rows] + [-int(k == c)] for k in range(count) if k != least]
            ties.append(next(tie[:-1] for tie in kernel(sums, len(rows) + 1) if tie[-1]))
    shown = ["q12 yes", f"vec {numbers_text(g)}"] if g else ["q12 none zero"]
    return shown + [f"tie {numbers_text(tie)}" for tie in ties]


def signal_block(v):
    if not has_vector(v):
        return ["q13 none"]
    how, _, found = v.signal(100_000)
    if how == "found":
        turn, prefix, (*mu, m), weights = found
        shelves = prefix[: len(prefix) - len(mu)]
        rows = [("shelves", shelves), ("mu", mu), ("m", [m]), ("weights", weights)]
        return [f"q13 yes {turn}", *(f"{word} {numbers_text(numbers)}" for word, numbers in rows)]
    return ["q13 no"] + [line for turn in ((1, -1) if v.is_weak() else (1,)) for line in tree_lines(v.signals(turn))]


def blocks_after(net, first):
    """The blocks of the built questions from this one on, from the ninth, in version 1, as this program shows them."""
    v = Verdicts(net)
    total, classes = v.deficiencies
    large = next(((k, d) for k, d in enumerate(classes, 1) if d > 1), None)
    split = v.split and "no terminal {} {}".format(*v.split)
    one = "no class {} {}".format(*large) if large else "yes" if sum(classes) == total else f"no sum {sum(classes)}"
    blocks = {9: [f"q9 no {total}" if total else f"q9 yes {int(v.is_weak())}"], 10: [f"q10 {split or one}"]}
    if split or not v.dependent[0]:
        blocks[11] = [f"q11 {split or 'no dependence'}"]
    elif v.rounds:
        r, walk = v.rounds[0]
        blocks[11] = [f"q11 no cycle {r + 1}", f"walk {numbers_text(c + 1 for c in walk)}"]
    else:
        sides = [(r + 1, side_of(net, *net.reactions[r])) for r in v.pairs]
        blocks[11] = ["q11 yes", *(f"side {r} {numbers_text(int(c in side) for c in range(len(v.linkage)))}" for r, side in sides)]
    blocks[12], blocks[13] = confluence_block(v), signal_block(v)
    for question in (14, 15):
        problem = second_search.Concordance(net, question == 15)
        how, _, found = second_search.search(problem, 100_000)
        shown = [f"alpha {numbers_text(found[1])}", f"weights {numbers_text(found[2])}"] if found else tree_lines(problem)
        blocks[question] = [f"q{question} {'no' if found else 'yes'}", *shown]
    return [line for question in BUILT if question >= first for line in blocks[question]]


def check_document(text):
    at = Reading(text)
    net = at.opening({b"crn certificate 1": 1, b"crn certificate 2": 2})
    known, said = {}, {}
    if at.version == 2:
        _, (count,) = at.record([(["vectors"], small(1, 0, MAX_SHARED))])
        at.shared = [at.record([(["vector"], free(1, MAX_NUMBERS))])[1] for _ in range(count)]
    for question, check in BLOCKS:
        if question not in BUILT:
            continue
        if at.version == 2 and question in SECTIONS:
            at.record([(["section", SECTIONS[question]], none)])
        said[question] = check(at, net, known)
    at.ending()
    return net, said


def check(text):
    """The status and the bytes with which `check` answers a document."""
    try:
        net, said = check_document(text)
    except Rejected as fault:
        return 3, fault.said().encode()
    return 0, report_of(net, said).encode()


def report(text, budget=BUDGET):
    """A status and bytes with which `report` may answer a text that spells a network."""
    out = report_of(read_network(text.decode("latin-1")), None, budget).encode()
    return int(not out.endswith(b"\nopen: 0\n")), out
