"""What is tried of the finest independent decomposition."""

import second_parts
from second_part import line, random_wide
from second_parts import MOST_TRIED, PROGRAM

from .wrong_forms import ALL_OPEN, ENDLESS, LATE, OTHER_COUNT, all_good, change, method, of_documents, of_rejections

HEADING = "Independent decompositions"
COUNT = 150
KINDS, CODES = ["parts: one", "parts: several", "parts: open"], [61, 62, 63, 64]


def kind(said):
    """What is said, but for how many parts there are and their ranks."""
    return "parts: one" if said.startswith("parts: 1,") else "parts: several" if ", ranks " in said else said.split("\n")[0]


def network(dice):
    """A text with up to 8 reactions, mostly of two or three groups of species, among which reactions rarely go."""
    names, groups = "ABCDEF"[: dice.randint(1, 6)], dice.randint(1, 3)
    lines = {}
    for _ in range(dice.randint(1, MOST_TRIED)):
        own = names[dice.randrange(groups)::groups] if dice.random() < 0.8 else names
        sides = [" + ".join(f"{amount if amount > 1 else ''}{name}" for name in own if (amount := dice.choice([0, 0, 1, 1, 2]))) or "0"
                 for _ in range(2)]
        if sides[0] != sides[1]:
            lines[f"{sides[0]} -> {sides[1]}\n"] = None
    return "".join(lines) or "0 -> A\n"


def opened(net, dice):
    """The line of an open answer."""
    return [line("wide", random_wide(dice, len(net.names), len(net.reactions)))]


HEAD = "crn part parts 1\nnetwork 4\n0 -> A\nA -> 0\nA -> B\n2A + B -> 3A\n"
TWO = f"{HEAD}rank 2\nbase 1 3\ndual 1 1\ndual 0 1\ncomb 1 -1 0\ncomb 1 0 -1\nlabel 1 1 2 2\nup 0 1 0 3\ndepth 0 1 0 1\nend\n"
WIDE = f"{HEAD}wide 1 1 2\nend\n"
CYCLE = ("crn part parts 1\nnetwork 3\nA -> B\nB -> C\nC -> A\nrank 2\nbase 1 2\ndual 1 0 0\ndual 0 0 1\n"
         "comb 1 -1 -1\nlabel 1 1 1\nup 0 3 1\ndepth 0 2 1\nend\n")

# By hand: the vectors of A and B are (1, 0), (-1, 0), (-1, 1), (1, -1).
PROOFS = [("0 <-> A\nA -> B\n2A + B -> 3A\n", 1, 0, TWO)]
VERDICTS = [
    (TWO, "", "", "parts: 2, ranks 1 1"), (WIDE, "", "", "parts: open"), (CYCLE, "", "", "parts: 1, ranks 2"),
    (TWO, "label 1 1 2 2", "label 1 2 3 3", "rejected 63 WrongParts at line 13"),
    (TWO, "label 1 1 2 2", "label 2 2 1 1", "rejected 63 WrongParts at line 13"),
    (TWO, "label 1 1 2 2", "label 1 1 3 3", "rejected 63 WrongParts at line 13"),
    # one part is independent, and not the finest
    (TWO, "label 1 1 2 2", "label 1 1 1 1", "rejected 64 BadLink at line 15"),
    (TWO, "up 0 1 0 3", "up 0 1 0 1", "rejected 64 BadLink at line 15"), (TWO, "up 0 1 0 3", "up 1 1 0 3", "rejected 64 BadLink at line 15"),
    (TWO, "depth 0 1 0 1", "depth 0 2 0 1", "rejected 64 BadLink at line 15"),
    (TWO, "depth 0 1 0 1", "depth 0 1 1 1", "rejected 64 BadLink at line 15"),
    # in the cycle reactions 1 and 2 are tied to 3 alone
    (CYCLE, "up 0 3 1\ndepth 0 2 1", "up 0 1 1\ndepth 0 1 1", "rejected 64 BadLink at line 13"),
    (TWO, "dual 1 1", "dual 1 0", "rejected 61 NotIndependent at line 9"), (TWO, "dual 0 1", "dual 1 0", "rejected 61 NotIndependent at line 10"),
    (TWO, "comb 1 -1 0", "comb 1 1 0", "rejected 62 NotSpanned at line 11"), (TWO, "comb 1 0 -1", "comb 0 0 0", "rejected 62 NotSpanned at line 12"),
    # all lines are read before a test, and the tests go by lines
    (TWO, "dual 1 1", "dual 1 0", "rejected 61 NotIndependent at line 9"),
    (TWO, "dual 1 1\ndual 0 1\ncomb 1 -1 0\ncomb 1 0 -1\nlabel 1", "dual 1 0\ndual 0 1\ncomb 1 -1 0\ncomb 1 0 -1\nlabel 5",
     "rejected 24 BadField at line 13"),
    (TWO, "rank 2", "rank 3", "rejected 24 BadField at line 7"), (TWO, "rank 2", "rank 1", "rejected 24 BadField at line 8"),
    (TWO, "base 1 3", "base 3 1", "rejected 24 BadField at line 8"), (TWO, "depth 0 1 0 1", "depth 0 4 0 1", "rejected 24 BadField at line 15"),
    (TWO, "rank 2\n", "rank 2\nwide 1 1 2\n", "rejected 26 WrongOrder at line 8"), (TWO, "rank 2\n", "vec 1 1\n", "rejected 23 UnknownWord at line 7"),
    (TWO, "comb 1 -1 0", f"comb {2**72} -1 0", "rejected 25 NumberWide at line 11"), (WIDE, "wide 1", "wide 7", "rejected 24 BadField at line 7"),
    (WIDE, "wide 1 1 2", "wide 1 2 1", "rejected 24 BadField at line 7"), (WIDE, "wide 1 1 2", "wide 1 1", "rejected 24 BadField at line 7"),
    (TWO, "parts 1", "persist 1", "rejected 21 BadHeader at line 1"),
]


def one_part(was, ties):
    """All reactions in one part, each hanging by the one before."""
    count = len(ties)
    return [1] * count, [*range(count)], [*range(count)]


WRONG = {
    "all reactions are in one part": method(second_parts, "linked", one_part),
    "each reaction is a part": method(second_parts, "linked", lambda was, ties: was([set() for _ in ties])),
    "a tie counts one way alone": method(second_parts, "ties_of", lambda was, base, combs, count: [
        own if r in base else set() for r, own in enumerate(was(base, combs, count))]),
    "links name the first reaction of their part": method(second_parts, "linked", lambda was, ties: (
        was(ties)[0], [u and was(ties)[0].index(k) + 1 for k, u in zip(was(ties)[0], was(ties)[1])], was(ties)[2])),
    "labels need not be even": method(second_parts, "ties_of", lambda was, base, combs, count: [
        own | set(range(count)) for own in was(base, combs, count)]),
    "links are not tested": method(second_parts, "are_linked", lambda was, *given: True),
    "the ranks are the sizes": method(type(PROGRAM), "said", lambda was, of, net, answer: was(of, net, (
        *answer[:2], [answer[1].count(k) for k in range(1, max(answer[1]) + 1)]) if answer[0] == "split" else answer)),
    "parts count from the last": of_documents("label 1", "label 2"),
    "the rank is one more": of_documents("rank 1", "rank 2"),
    "a combination is twice another": of_documents("comb 1", "comb 2"),
    "an open answer is decided": change(lambda words, status, out: (status, out.replace("open", "1, ranks 1"))),
    "the last line is left out": ENDLESS,
    "the reactions are counted wrong": OTHER_COUNT,
    "everything is open": ALL_OPEN,
    "every document is good": all_good("parts: 1, ranks 1\n"),
    "a fault is a line late": LATE,
    "a dual has the code of certificates": of_rejections("61 NotIndependent", "33 NotIndependent"),
    "labels have the code of links": of_rejections("63 WrongParts", "64 BadLink"),
}
