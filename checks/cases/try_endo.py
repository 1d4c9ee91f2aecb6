"""What is tried of endotactic networks."""

import second_endo
from second_endo import PROGRAM, Slopes, reactants
from second_part import MAX_BUDGET, line, random_wide
from second_search import NONNEG, ZERO, Part

from .wrong_forms import ALL_OPEN, ENDLESS, LATE, OTHER_COUNT, all_good, change, method, of_documents, of_rejections

HEADING = "Endotactic networks"
COUNT = 60
KINDS, CODES = ["endo: yes", "endo: no", "endo: open"], [71, 72, 73]


def kind(said):
    """What is said, but for the reaction."""
    return said.split("\n")[0].split(", reaction")[0]


def network(dice):
    """A text of up to 6 reactions, mostly of one or two species; many lead inwards, so that no slope is against them."""
    names, most = "ABC"[: dice.choice([1, 2, 2, 2, 3])], dice.choice([2, 2, 3])
    lines = []
    while len(lines) < dice.randint(1, 4):
        sides = [[dice.randint(0, most) for _ in names] for _ in range(2)]
        if dice.random() < 0.5:
            # towards the middle
            sides[1] = [a + (dice.random() < 0.7) * ((2 * a < most) - (2 * a > most)) for a in sides[0]]
        left, right = (" + ".join(f"{a if a > 1 else ''}{name}" for name, a in zip(names, side) if a) or "0" for side in sides)
        if left != right:
            lines.append(f"{left} {dice.choice(['->', '->', '<->'])} {right}\n")
    return "".join(lines)


def opened(net, dice):
    """The line of an open answer."""
    r, rows = dice.randint(1, len(net.reactions)), 2 * len(net.reactions) + len(reactants(net)) - 1
    return [dice.choice(["large", line("spent", [r, dice.randint(1, MAX_BUDGET)]), line("wide", [r, *random_wide(dice, len(net.names), rows)])])]


HEAD = "crn part endo 1\nnetwork 2\nA -> B\nB -> A\n"
YES = (f"{HEAD}yes\nsplit\nflat\nsplit\ncuta 1 0 0 0 -1\ncuta 1 1 0 0 0\ncuta 1 0 0 0 -1\n"
       "split\nflat\nsplit\ncuta 0 1 0 0 -1\ncuta 1 1 0 0 0\ncuta 0 1 0 0 -1\nend\n")
NO = "crn part endo 1\nnetwork 2\nA -> 2A\nA -> 0\nno 1\nslope -1\nend\n"
SPENT, WIDE, LARGE = f"{HEAD}spent 2 11\nend\n", f"{HEAD}wide 1 7 1 2\nend\n", f"{HEAD}large\nend\n"
# By hand. With the first sign plus, the three children of that prefix are excluded one by one: along A -> B a slope rises by w_B - w_A,
# which is the height of B above A.
PROOFS = [("A <-> B\n", 12, 0, YES), ("A <-> B\n", 11, 1, SPENT), ("A <-> B\n", 5, 1, f"{HEAD}spent 1 5\nend\n"), ("A -> 2A\nA -> 0\n", 9, 0, NO)]
VERDICTS = [
    (YES, "", "", "endo: yes"), (NO, "", "", "endo: no, reaction 1"), (SPENT, "", "", "endo: open"), (WIDE, "", "", "endo: open"),
    (LARGE, "", "", "endo: open"), (NO, "no 1\nslope -1", "no 2\nslope 7", "endo: no, reaction 2"),
    (YES, "cuta 1 1 0 0 0", "cuta 1 0 0 0 0", "rejected 72 BadLeaf at line 10"), (YES, "cuta 1 0 0 0 -1", "cuta 0 0 0 0 0", "rejected 72 BadLeaf at line 9"),
    (YES, "cuta 1 1 0 0 0", "cuta -1 -1 0 0 0", "rejected 72 BadLeaf at line 10"), (YES, "cuta 1 1 0 0 0", "split", "rejected 71 BadNode at line 10"),
    (YES, "cuta 1 1 0 0 0", "flat", "rejected 71 BadNode at line 10"), (YES, "flat\nsplit", "split\nsplit", "rejected 71 BadNode at line 8"),
    (YES, "cuta 1 0 0 0 -1", "flat", "rejected 71 BadNode at line 9"), (YES, "flat", "cuta 1 0 0 0 0", "rejected 72 BadLeaf at line 7"),
    (YES, "yes\n", "yes\nend\n", "rejected 26 WrongOrder at line 6"), (YES, "cuta 0 1 0 0 -1\nend", "end", "rejected 26 WrongOrder at line 17"),
    (YES, "end\n", "flat\nend\n", "rejected 26 WrongOrder at line 18"), (YES, "cuta 1 1 0 0 0", "cutb 1 1", "rejected 23 UnknownWord at line 10"),
    (YES, "cuta 1 1 0 0 0", "cuta 1 1 0 0", "rejected 24 BadField at line 10"), (YES, "cuta 1 1 0 0 0", f"cuta {2**72} 1 0 0 0", "rejected 25 NumberWide at line 10"),
    (NO, "slope -1", "slope 1", "rejected 73 BadSlope at line 6"), (NO, "slope -1", "slope 0", "rejected 73 BadSlope at line 6"),
    (NO, "no 1", "no 2", "rejected 73 BadSlope at line 6"), (NO, "no 1", "no 3", "rejected 24 BadField at line 5"),
    (NO, "slope -1", "slope -1 0", "rejected 24 BadField at line 6"), (SPENT, "spent 2 11", "spent 3 11", "rejected 24 BadField at line 5"),
    (SPENT, "spent 2 11", "spent 2 0", "rejected 24 BadField at line 5"), (SPENT, "spent 2 11", "spent 2 100001", "rejected 24 BadField at line 5"),
    (WIDE, "wide 1 7", "wide 1 8", "rejected 24 BadField at line 5"), (WIDE, "wide 1 7 1 2", "wide 1 7 2 1", "rejected 24 BadField at line 5"),
    (LARGE, "large", "large 1", "rejected 24 BadField at line 5"), (YES, "end\n", "", "rejected 27 EndsEarly at line 18"),
]


def first_alone(was, of, net, budget):
    """As if the first reaction were the only one."""
    how, visits, found = Slopes(net, 0).search(budget)
    return how, 0 if how != "refuted" else None, [(Slopes(net, r), found) for r in range(len(net.reactions))] if how == "refuted" else found, visits


def without_rises(was, of, prefix):
    """Only the chosen signs are required."""
    return [second_endo.FREE if kind == NONNEG else kind for kind in was(of, prefix)]


def turned(was, of, most):
    how, visits, found = was(of, most)
    return how, visits, [-x for x in found] if how == "found" else found


def one_less(was, of, most):
    how, visits, found = was(of, most - 1)
    return how, visits + 1, found


WRONG = {
    "the first reaction alone is tried": method(type(PROGRAM), "tried", first_alone),
    "a reactant that is as high is lower": method(second_endo, "is_lower", lambda was, net, w, q, r: not was(net, w, r, q)),
    "each reactant is lower": method(second_endo, "is_lower", lambda was, *given: True),
    "no reactant is lower": method(second_endo, "is_lower", lambda was, *given: False),
    "rises are not required": method(Slopes, "kinds", without_rises),
    "the slope is not turned": method(Slopes, "search", turned),
    "minus is left out": method(second_endo, "children", lambda was, prefix: was(prefix)[:2]),
    "a prefix that begins with zero is not closed": method(Slopes, "closed", lambda was, of, prefix: False),
    "every prefix with a zero is closed": method(Slopes, "closed", lambda was, of, prefix: 0 in prefix),
    "multipliers may all be zero": method(Part, "excludes", lambda was, of, kinds, u: was(of, kinds, u) or not any(u)),
    "combinations need not be zero": method(Part, "excludes", lambda was, of, kinds, u: was(of, [ZERO] * of.width + kinds[of.width :], u)),
    "a visit is left out": method(Slopes, "search", one_less),
    "the reaction is one more": of_documents("no 1", "no 2"),
    "the tree has a node more": of_documents("flat\n", "flat\nflat\n"),
    "an open answer is a no": change(lambda words, status, out: (status, out.replace("endo: open", "endo: no, reaction 1"))),
    "the last line is left out": ENDLESS,
    "the reactions are counted wrong": OTHER_COUNT,
    "everything is open": ALL_OPEN,
    "every document is good": all_good("endo: yes\n"),
    "a fault is a line late": LATE,
    "a leaf has the code of certificates": of_rejections("72 BadLeaf", "41 BadLeaf"),
    "a slope has the code of a leaf": of_rejections("73 BadSlope", "72 BadLeaf"),
}
