"""Sign problems for the second program: whether lists with given signs are in two spaces, and the search over prefixes.

A matrix of n columns gives the vectors (x, Ax); its coordinates are the columns and then the rows. Kinds say which
coordinates have to be positive, negative or zero; the others are free. `Part` finds a solution or multipliers that exclude
any, by the simplex method with whole numbers, and keeps both: a solution is one of later prefixes too if it breaks none of their
signs, and so are multipliers. Nothing depends on what is kept but the time.
"""

import math

POS, NEG, ZERO, NONNEG, FREE = "+", "-", "0", ">", "*"


def primitive(row):
    """The row without the common divisor of its entries."""
    divisor = math.gcd(*row)
    return [x // divisor for x in row] if divisor > 1 else row


def cleared(row, at, by):
    """A positive multiple of the row, less one of another that is positive at this place, so that it is 0 there."""
    return primitive([x * by[at] - row[at] * y for x, y in zip(row, by)]) if row[at] else row


def kernel(rows, width):
    """Independent whole vectors that span those whose product with each row is zero."""
    kept = []
    for row in rows:
        for at, other in kept:
            row = cleared(row, at, other)
        at = next((i for i, x in enumerate(row) if x), None)
        if at is not None:
            row = row if row[at] > 0 else [-x for x in row]
            kept = [(place, cleared(other, at, row)) for place, other in kept] + [(at, row)]
    pivots, found = {at for at, _ in kept}, []
    for place in range(width):
        if place not in pivots:
            scale = math.lcm(*(row[at] for at, row in kept if row[place])) if kept else 1
            vector = [0] * width
            vector[place] = scale
            for at, row in kept:
                vector[at] = -row[place] * scale // row[at]
            found.append(primitive(vector))
    return found


def positive(rows, width, firm=None):
    """Positive numbers whose product with each of the independent rows is 0, or multipliers of the rows whose combination
    has no positive entry and is not zero: yes or no, and the numbers. The first phase of the simplex method, with the least
    index first. From place `firm` on a number may be 0, and a combination that is zero before it shows nothing."""
    firm = width if firm is None else firm
    sums = [sum(row[:firm]) for row in rows]
    signs = [1 if total <= 0 else -1 for total in sums]
    table = [
        [sign * x for x in row] + [int(i == k) for i in range(len(rows))] + [-sign * total]
        for k, (sign, row, total) in enumerate(zip(signs, rows, sums))
    ]
    basis = [width + k for k in range(len(rows))]
    goal = [sum(column) for column in zip(*table)] or [0] * (width + 1)
    while (enter := next((j for j in range(width) if goal[j] > 0), None)) is not None:
        leave = None
        for k, row in enumerate(table):
            if row[enter] > 0:
                order = row[-1] * table[leave][enter] - table[leave][-1] * row[enter] if leave is not None else -1
                if order < 0 or (order == 0 and basis[k] < basis[leave]):
                    leave = k
        basis[leave] = enter
        table = [row if k == leave else cleared(row, enter, table[leave]) for k, row in enumerate(table)]
        goal = cleared(goal, enter, table[leave])
    if goal[-1] == 0:
        scale = math.lcm(*(row[k] for k, row in zip(basis, table) if k < width))
        found = [scale] * firm + [0] * (width - firm)
        for k, row in zip(basis, table):
            if k < width:
                found[k] += row[-1] * scale // row[k]
        return True, primitive(found)
    return False, primitive([sign * goal[width + k] for k, sign in enumerate(signs)])


def mask(places):
    return sum(1 << place for place in places)


def masks(kinds):
    """The places that have to be positive, those that have to be negative, those that have to be zero, and those that may
    not be negative."""
    return [mask(i for i, kind in enumerate(kinds) if kind == wanted) for wanted in (POS, NEG, ZERO, NONNEG)]


class Part:
    """One of the two systems of a sign problem."""

    def __init__(self, rows, width):
        self.rows, self.width = rows, width
        self.lines = [[int(i == k) for i in range(width)] for k in range(width)] + rows
        self.solutions, self.cuts, self.known = [], [], {}

    def values(self, x):
        return list(x) + [sum(a * b for a, b in zip(row, x)) for row in self.rows]

    def signs_of(self, u):
        """The places where the vector (-uA, u) is positive, and where it is negative."""
        if u not in self.known:
            dual = [-sum(a * row[k] for a, row in zip(u, self.rows)) for k in range(self.width)] + list(u)
            self.known[u] = tuple(mask(i for i, x in enumerate(dual) if sign * x > 0) for sign in (1, -1))
        return self.known[u]

    def excludes(self, kinds, u):
        """The multipliers exclude every solution, by their definition: (-uA, u) is at least 0 where a positive number is
        asked for or one that is not negative, at most 0 where a negative one is, 0 where nothing is, and it is not 0 everywhere
        where a positive or a negative number is asked for."""
        up, down = self.signs_of(tuple(u))
        plus, minus, zero, weak = masks(kinds)
        return not (up & ~(plus | zero | weak) or down & ~(minus | zero)) and bool(up & plus | down & minus)

    def solution(self, kinds):
        """An x of which each coordinate is of its kind, or None."""
        plus, minus, zero, weak = masks(kinds)
        for up, down in self.cuts:
            signed = (up & plus) | (down & minus)
            if signed and not (up & ~(plus | zero | weak) or down & ~(minus | zero)):
                return None
        found, seen_plus, seen_minus = [0] * self.width, 0, 0
        for up, down, x in self.solutions:
            if not ((up | down) & zero or down & (plus | weak) or up & minus) and (up & plus & ~seen_plus or down & minus & ~seen_minus):
                found = [a + b for a, b in zip(found, x)]
                seen_plus, seen_minus = seen_plus | (up & plus), seen_minus | (down & minus)
        if seen_plus == plus and seen_minus == minus:
            return found
        return self.solved(kinds)

    def multipliers(self, kinds):
        """Multipliers u that exclude every solution, or None."""
        self.vector = None
        return self.vector[self.width :] if self.solved(kinds) is None else None

    def solved(self, kinds):
        signed = [i for i, kind in enumerate(kinds) if kind in (POS, NEG)]
        if not signed:
            return [0] * self.width
        firm, zeros = len(signed), [i for i, kind in enumerate(kinds) if kind == ZERO]
        signed += [i for i, kind in enumerate(kinds) if kind == NONNEG]
        chosen = signed + zeros
        flips = [-1 if kinds[i] == NEG else 1 for i in signed]
        # what is orthogonal to all (x, Ax) and is 0 on the free coordinates
        duals = kernel([[self.lines[i][k] for i in chosen] for k in range(self.width)], len(chosen))
        rows = [[flip * dual[at] for at, flip in enumerate(flips)] for dual in duals]
        places = independent(rows)
        is_yes, numbers = positive([rows[place] for place in places], len(signed), firm)
        if not is_yes:
            cut = [-sum(u * duals[place][at] for u, place in zip(numbers, places)) for at in range(len(chosen))]
            ups = mask(chosen[at] for at, entry in enumerate(cut) if entry > 0)
            downs = mask(chosen[at] for at, entry in enumerate(cut) if entry < 0)
            self.cuts.append((ups, downs))
            self.vector = [0] * len(self.lines)
            for at, entry in zip(chosen, cut):
                self.vector[at] = entry
            return None
        # an x whose signed coordinates are these numbers, times a positive one, and whose zero coordinates are 0
        target = [flip * number for flip, number in zip(flips, numbers)] + [0] * len(zeros)
        rows = [self.lines[i] + [-value] for i, value in zip(chosen, target)]
        *x, scale = next(vector for vector in kernel(rows, self.width + 1) if vector[-1])
        x = [entry if scale > 0 else -entry for entry in x]
        values = self.values(x)
        ups, downs = (mask(i for i, value in enumerate(values) if sign * value > 0) for sign in (1, -1))
        self.solutions.append((ups, downs, x))
        return x


def independent(rows):
    """The places of the rows that do not depend on those before them."""
    kept, places = [], []
    for place, row in enumerate(rows):
        for pivot, other in kept:
            row = cleared(row, pivot, other)
        pivot = next((i for i, x in enumerate(row) if x), None)
        if pivot is not None:
            kept.append((pivot, row if row[pivot] > 0 else [-x for x in row]))
            places.append(place)
    return places


def kind_of(option):
    """The kind that an option asks for: 0, 1 or -1, or None where it is not chosen yet."""
    return {None: FREE, 0: ZERO, 1: POS, -1: NEG}[option]


def kind_of_products(products):
    """The kind of a reaction's number, where products of table and change have these signs."""
    if 1 in products:
        return FREE if -1 in products else POS
    return NEG if -1 in products else ZERO


class Concordance:
    """The sign problem of a table: the choices are the signs of the species' changes."""

    def __init__(self, net, is_strong):
        species = range(len(net.names))
        rows = [[vector[s] for vector in net.vectors] for s in species]
        self.length, self.a, self.b = len(net.names), Part(rows, len(net.vectors)), Part(rows, len(net.vectors))
        self.table = []
        for y, z in net.reactions:
            reactant, product = net.complexes[y], net.complexes[z]
            signs = [(reactant[s] > product[s]) - (reactant[s] < product[s]) if is_strong else int(reactant[s] > 0)
                     for s in species]
            self.table.append([(s, sign) for s, sign in enumerate(signs) if sign])

    def kinds_a(self, prefix):
        kinds = []
        for reaction in self.table:
            chosen = all(s < len(prefix) for s, _ in reaction)
            kinds.append(kind_of_products({sign * prefix[s] for s, sign in reaction}) if chosen else FREE)
        return kinds + [ZERO] * len(self.a.rows)

    def kinds_b(self, prefix):
        rows = [kind_of(prefix[s] if s < len(prefix) else None) for s in range(self.length)]
        return [FREE] * self.b.width + rows

    def closed(self, prefix):
        return len(prefix) == self.length and not any(prefix)

    def shows(self, alpha, weights):
        """The numbers and weights show that the network is not concordant by this table."""
        rows = self.b.rows
        sums = [sum(a * x for a, x in zip(row, alpha)) for row in rows]
        change = [sum(a * x for a, x in zip(row, weights)) for row in rows]
        return not any(sums) and any(change) and self.goes(alpha, change)

    def goes(self, alpha, change):
        for number, reaction in zip(alpha, self.table):
            products = {sign * ((change[s] > 0) - (change[s] < 0)) for s, sign in reaction}
            sign = (number > 0) - (number < 0)
            if sign not in products if sign else (1 in products) != (-1 in products):
                return False
        return True


class Signals:
    """The sign problem of signals: the choices are the shelves of the terminal classes and then the signs of mu.
    `tops` has for each complex its terminal class, from 0, or None; `pairs` has for each pair its two complexes and the sum
    of g over the side of the second."""

    def __init__(self, net, tops, pairs):
        self.shelves, self.species = len({top for top in tops if top is not None}), len(net.names)
        self.length, self.tops, self.pairs = self.shelves + self.species, tops, pairs
        rows = [list(amounts) + [-1] for amounts in net.complexes]
        rows += [[b - a for a, b in zip(net.complexes[y], net.complexes[z])] + [0] for y, z, _ in pairs]
        self.a = Part(rows, self.species + 1)
        self.b = Part([[vector[s] for vector in net.vectors] for s in range(self.species)], len(net.vectors))

    def shelf(self, prefix, top):
        return (prefix[top] if top < len(prefix) else None) if top is not None else 0

    def kinds_a(self, prefix):
        signs = [prefix[self.shelves + s] if self.shelves + s < len(prefix) else None for s in range(self.species)]
        complexes = [self.shelf(prefix, top) for top in self.tops]
        kinds = [kind_of(option) for option in [*signs, None, *complexes]]
        for y, _, h in self.pairs:
            shelf = self.shelf(prefix, self.tops[y])
            kinds.append(kind_of(shelf * ((h > 0) - (h < 0))) if shelf else FREE)
        return kinds

    def kinds_b(self, prefix):
        signs = [prefix[self.shelves + s] if self.shelves + s < len(prefix) else None for s in range(self.species)]
        return [FREE] * self.b.width + [kind_of(sign) for sign in signs]

    def closed(self, prefix):
        shelved = len(prefix) >= self.shelves and not any(prefix[: self.shelves])
        return shelved or (len(prefix) == self.length and not any(prefix[self.shelves :]))

    def shows(self, shelves, mu, m, weights):
        """The lists are a signal, by its definition."""
        prefix = list(shelves) + [(x > 0) - (x < 0) for x in mu]
        return any(mu) and has_kinds(self.kinds_a(prefix), self.a.values([*mu, m])) \
            and has_kinds(self.kinds_b(prefix), self.b.values(weights))

    def is_stoichiometric(self, mu):
        """Some combination of the vectors has the signs of mu."""
        prefix = [0] * self.shelves + [(x > 0) - (x < 0) for x in mu]
        return self.b.solution(self.kinds_b(prefix)) is not None


def has_kinds(kinds, values):
    of_kind = {POS: lambda x: x > 0, NEG: lambda x: x < 0, ZERO: lambda x: x == 0, NONNEG: lambda x: x >= 0, FREE: lambda x: True}
    return all(of_kind[kind](value) for kind, value in zip(kinds, values))


def children(prefix):
    """The next prefixes: below one of zeros minus is left out."""
    return [[*prefix, option] for option in ((0, 1, -1) if any(prefix) else (0, 1))]


def feasible(problem, prefix):
    """Solutions of both parts, or None."""
    if problem.closed(prefix):
        return None
    a = problem.a.solution(problem.kinds_a(prefix))
    b = problem.b.solution(problem.kinds_b(prefix)) if a is not None else None
    return (a, b) if b is not None else None


def search(problem, budget):
    """`found`, the pattern and the solutions; or `refuted`; or `spent`; each with the number of visits, which is one more
    than the budget where it is spent."""
    due, visits = [[]], 0
    while due:
        prefix, visits = due.pop(), visits + 1
        if visits > budget:
            return "spent", visits, None
        found = feasible(problem, prefix)
        if found and len(prefix) == problem.length:
            return "found", visits, (prefix, *found)
        if found:
            due += reversed(children(prefix))
    return "refuted", visits, None
