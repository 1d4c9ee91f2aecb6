"""What is tried of persistence by siphons."""

from second_part import MAX_BUDGET, line, random_wide
from second_persist import PROGRAM, Siphons

from .wrong_forms import ALL_OPEN, ENDLESS, LATE, OTHER_COUNT, all_good, change, method, of_documents, of_rejections

HEADING = "Persistence by siphons"
COUNT, MOST_SPECIES = 60, 12
KINDS, CODES = ["persist: yes", "persist: no", "persist: open"], [51, 52, 53, 54]


def kind(said):
    return said.split("\n")[0]


def random_side(dice, count):
    names = dice.sample(range(count), min(count, dice.choice([0, 1, 1, 1, 2, 2, 3])))
    return {s: dice.choice([1, 1, 1, 2]) for s in sorted(names)}


def side_text(side):
    return " + ".join(f"{amount if amount > 1 else ''}X{s}" for s, amount in side.items()) or "0"


def network(dice):
    """A text with up to 12 species, whose reactions mostly conserve a weight of each species."""
    count = dice.randint(1, MOST_SPECIES)
    weights, lines, is_balanced = [dice.randint(1, 2) for _ in range(count)], [], dice.random() < 0.8
    while len(lines) < dice.randint(1, 2 * count):
        for _ in range(60):
            left, right = random_side(dice, count), random_side(dice, count)
            sums = [sum(weights[s] * amount for s, amount in side.items()) for side in (left, right)]
            if left != right and (not is_balanced or left and sums[0] == sums[1]):
                lines.append(f"{side_text(left)} {dice.choice(['->', '->', '<->'])} {side_text(right)}\n")
                break
        else:
            is_balanced = False
    return "".join(lines)


def opened(net, dice):
    """The line of an open answer."""
    species, reactions = len(net.names), len(net.reactions)
    return dice.choice([[line("spent", [dice.randint(1, MAX_BUDGET)])], [line("wide", [1, *random_wide(dice, species, reactions)])],
                        [line("wide", [2, *random_wide(dice, reactions, species)])]])


PAIR = "crn part persist 1\nnetwork 2\nA -> B\nB -> A\n"
YES = f"{PAIR}yes\nvec 1 1\nfork\nfork\nlaw 1 1\nbad 2\nfork\nbad 1\nvoid\nend\n"
NO = "crn part persist 1\nnetwork 2\n2A -> A + B\nA + B -> 2A\nno\nsiphon 1 0\nmult -1 0\nend\n"
SPENT = f"{PAIR}spent 6\nend\n"

# By hand, as docs/CERTIFICATES.md has them: a text, a budget, the status, and the document.
PROOFS = [("A <-> B\n", 7, 0, YES), ("A <-> B\n", 6, 1, SPENT), ("2A <-> A + B\n", 7, 0, NO)]
# A document, what stands in place of a part of it, and the answer.
VERDICTS = [
    (YES, "", "", "persist: yes"), (NO, "", "", "persist: no"), (SPENT, "", "", "persist: open"),
    (YES, "vec 1 1", "vec 1 2", "rejected 53 BadLaw at line 6"), (YES, "bad 2", "law 1 1", "rejected 53 BadLaw at line 10"),
    (YES, "bad 2", "void", "rejected 54 BadNode at line 10"), (YES, "void", "fork", "rejected 54 BadNode at line 13"),
    (YES, "void", "end", "rejected 26 WrongOrder at line 13"), (NO, "siphon 1 0", "siphon 0 1", "rejected 51 NotSiphon at line 6"),
    (NO, "mult -1 0", "mult 1 0", "rejected 52 NotCovered at line 7"),
    # a species that is not chosen counts as neither
    (YES, "fork\nfork\nlaw 1 1", "fork\nbad 2", "rejected 54 BadNode at line 8"),
]

WRONG = {
    "a species that is not chosen counts as out": method(
        Siphons, "is_bad", lambda was, of, inside, outside, r: bool(of.ends[r][1] & inside) and of.ends[r][0] & inside == 0),
    "a law may reach outside its set": method(
        Siphons, "law_within", lambda was, of, members: was(of, members) or (of.law() if members else None)),
    "a set without members is a siphon": method(Siphons, "is_siphon", lambda was, of, members: not members or was(of, members)),
    "a law needs no conservation": method(Siphons, "law", lambda was, of: [1] * of.count),
    "a visit is left out": method(Siphons, "visits", lambda was, of, most: (was(of, most)[0] - 1, was(of, most)[1])),
    "a spent budget ends with 0": change(lambda words, status, out: (0 if words[0] == "prove" else status, out)),
    "the siphon has one member less": of_documents("siphon 1", "siphon 0"),
    "the siphon is the other way round": of_documents("siphon 0", "siphon 1"),
    "the law is one more": of_documents("vec 1", "vec 2"),
    "the second child comes first": method(
        Siphons, "tree", lambda was, of, *prefix: [it.replace("bad 1", "bad 2") for it in was(of, *prefix)]),
    "the last line is left out": ENDLESS,
    "the reactions are counted wrong": OTHER_COUNT,
    "everything is open": ALL_OPEN,
    "every document is good": all_good("persist: yes\n"),
    "a fault is a line late": LATE,
    "a law has the code of a node": of_rejections("53 BadLaw", "54 BadNode"),
    "a cover has the code of a siphon": of_rejections("52 NotCovered", "51 NotSiphon"),
}
