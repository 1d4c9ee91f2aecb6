"""What is tried of the hypotheses of robustness."""

import second_robust
from second_opinion import Verdicts
from second_part import line, random_wide
from second_robust import PROGRAM, block_lines

from .wrong_forms import ALL_OPEN, ENDLESS, LATE, OTHER_COUNT, all_good, change, method, of_documents, of_rejections

HEADING = "Robustness"
COUNT = 150
KINDS = ["robust: hypotheses hold", "robust: hypotheses fail, deficiency", "robust: hypotheses fail, no pair", "robust: open"]
CODES = [31, 33, 34, 36, 55, 56]


def kind(said):
    """What is said, but for the species and the deficiency."""
    first = said.split("\n")[0]
    return next((kind for kind in KINDS if first.startswith(kind)), first)


def network(dice):
    """A text of few complexes, many of which differ at one species alone; half of them have the deficiency 1."""
    wants_one = dice.random() < 0.5
    for _ in range(30):
        names, complexes = "ABCD"[: dice.randint(1, 4)], set()
        while len(complexes) < dice.randint(2, 7):
            made = [dice.choice([0, 0, 1, 1, 2]) for _ in names]
            complexes.add(tuple(made))
            if dice.random() < 0.5:
                made[dice.randrange(len(names))] += 1
                complexes.add(tuple(made))
        sides = [" + ".join(f"{a if a > 1 else ''}{name}" for name, a in zip(names, made) if a) or "0" for made in sorted(complexes)]
        pairs = {tuple(dice.sample(sides, 2)) for _ in range(dice.randint(1, len(sides) + 1))}
        text = "".join(f"{y} -> {z}\n" for y, z in sorted(pairs))
        if not wants_one or Verdicts(second_robust.second_opinion.read_network(text)).deficiencies[0] == 1:
            break
    return text


def opened(net, dice):
    """The lines of an open answer: the rank may be open."""
    blocks = block_lines(net)
    at = next(k for k, it in enumerate(blocks) if it.startswith("q5 "))
    return [*blocks[:at], line("q5 open wide", [1, 0, *random_wide(dice, len(net.names), len(net.reactions))]), "rests"]


HEAD = "crn part robust 1\nnetwork 2\nA + B -> 2B\nB -> A\n"
BLOCKS = ("q1 2\nlabel 1 1 2 2\nup 0 1 0 2\ndepth 0 1 0 1\n"
          "q2 4 2\nlabel 1 2 3 4\nfrom 0 0 0 0\nfromdepth 0 0 0 0\nto 0 0 0 0\ntodepth 0 0 0 0\nlevel 1 0 1 0\nexit 1 0 2 0\n")
RANK = "q5 1\nbase 1\ndual -1 0\ncomb 1 -1\n"
HOLD = f"{HEAD}{BLOCKS}{RANK}line 1\nyes 1 1 3\nend\n"
OPEN = f"{HEAD}{BLOCKS}q5 open wide 1 0 1 1 2\nrests\nend\n"
NUMBER = ("crn part robust 1\nnetwork 1\nA -> B\nq1 1\nlabel 1 1\nup 0 1\ndepth 0 1\nq2 2 1\nlabel 1 2\nfrom 0 0\nfromdepth 0 0\nto 0 0\n"
          "todepth 0 0\nlevel 1 0\nexit 1 0\nq5 1\nbase 1\ndual -1 0\nline 0\nnumber 0\nend\n")
# 4 complexes, 2 classes and rank 1; all complexes are of a terminal class
NO_PAIR = ("crn part robust 1\nnetwork 4\n0 -> A\nA -> 0\n2A -> 3A\n3A -> 2A\nq1 2\nlabel 1 1 2 2\nup 0 1 0 3\ndepth 0 1 0 1\n"
           "q2 2 2\nlabel 1 1 2 2\nfrom 0 1 0 3\nfromdepth 0 1 0 1\nto 0 2 0 4\ntodepth 0 1 0 1\nlevel 0 0\nexit 0 0\n"
           "q5 1\nbase 1\ndual 1\ncomb 1 -1\ncomb 1 1\ncomb 1 -1\nline 1\nnone\nend\n")
HOLDS, A_LINE = "robust: hypotheses hold, species A", "confluence space: a line"

PROOFS = []
VERDICTS = [
    (HOLD, "", "", f"{HOLDS}\n{A_LINE}"), (OPEN, "", "", "robust: open"), (NO_PAIR, "", "", f"robust: hypotheses fail, no pair\n{A_LINE}"),
    (NUMBER, "", "", "robust: hypotheses fail, deficiency 0\nconfluence space: no line"),
    (HOLD, "yes 1 1 3", "yes 2 1 3", "rejected 56 WrongCase at line 22"), (HOLD, "yes 1 1 3", "yes 1 3 1", "rejected 56 WrongCase at line 22"),
    # 2B and A are of terminal classes
    (HOLD, "yes 1 1 3", "yes 2 2 3", "rejected 56 WrongCase at line 22"), (HOLD, "yes 1 1 3", "none", "rejected 56 WrongCase at line 22"),
    (HOLD, "yes 1 1 3", "number 1", "rejected 56 WrongCase at line 22"), (HOLD, "line 1", "line 0", "rejected 55 WrongLine at line 21"),
    # both lines are read before either is tested
    (HOLD, "line 1\nyes 1 1 3", "line 0\nyes 1 1 5", "rejected 24 BadField at line 22"),
    (HOLD, "line 1\nyes 1 1 3", "line 0\nnone", "rejected 55 WrongLine at line 21"), (HOLD, "line 1", "line 2", "rejected 24 BadField at line 21"),
    (NUMBER, "line 0", "line 1", "rejected 55 WrongLine at line 19"), (NUMBER, "number 0", "number 1", "rejected 56 WrongCase at line 20"),
    (NUMBER, "number 0", "number 3", "rejected 24 BadField at line 20"), (NUMBER, "number 0", "none", "rejected 56 WrongCase at line 20"),
    (NO_PAIR, "none", "yes 1 1 2", "rejected 56 WrongCase at line 26"), (NO_PAIR, "none", "rests", "rejected 26 WrongOrder at line 26"),
    (OPEN, "rests", "line 1", "rejected 26 WrongOrder at line 18"), (OPEN, "rests", "base 1", "rejected 23 UnknownWord at line 18"),
    (HOLD, "line 1", "rests", "rejected 26 WrongOrder at line 21"), (HOLD, "line 1", "q6 1 1 0", "rejected 23 UnknownWord at line 21"),
    # the words of the blocks are those of certificates
    (HOLD, "q1 2", "line 1", "rejected 23 UnknownWord at line 5"), (HOLD, "q1 2", "split", "rejected 26 WrongOrder at line 5"),
    (HOLD, "q1 2", "section graph", "rejected 23 UnknownWord at line 5"), (HOLD, "q5 1", "q3 yes", "rejected 26 WrongOrder at line 17"),
    (HOLD, "label 1 1 2 2", "label 1 2 3 4", "rejected 24 BadField at line 6"), (HOLD, "depth 0 1 0 1", "depth 0 2 0 1", "rejected 31 WrongClasses at line 8"),
    (HOLD, "q2 4 2", "q2 4 3", "rejected 36 WrongNumber at line 16"), (HOLD, "dual -1 0", "dual 0 0", "rejected 33 NotIndependent at line 19"),
    (HOLD, "comb 1 -1", "comb 1 1", "rejected 34 NotSpanned at line 20"), (HOLD, "end\n", "", "rejected 27 EndsEarly at line 23"),
]

WRONG = {
    "complexes of terminal classes make a pair": method(second_robust, "is_terminal", lambda was, *given: False),
    "the last pair is named": method(second_robust, "pairs", lambda was, *given: reversed([*was(*given)])),
    "the first complex may be the later one": method(second_robust, "pairs", lambda was, *given: ((s, d, c) for s, c, d in was(*given))),
    "complexes may differ at two species": method(second_robust, "differing", lambda was, one, two: was(one, two)[:1]),
    "a difference is one more": method(second_robust, "differing", lambda was, one, two: [s for s in was(one, two) if one[s - 1] < two[s - 1]]),
    "the deficiency is not asked for": method(
        second_robust, "case", lambda was, net, deficiency, *given: was(net, 1 if deficiency == 2 else deficiency, *given)),
    "another species is named": change(lambda words, status, out: (status, out.replace("species A", "species B"))),
    "there is always a line": change(lambda words, status, out: (status, out.replace("no line", "a line"))),
    "an open answer is none": change(lambda words, status, out: (status, out.replace("robust: open\n", "robust: hypotheses fail, no pair\n"))),
    "the line is not said": of_documents("line 1", "line 0"),
    "the last line is left out": ENDLESS,
    "the reactions are counted wrong": OTHER_COUNT,
    "everything is open": ALL_OPEN,
    "every document is good": all_good("robust: open\n"),
    "a fault is a line late": LATE,
    "a case has the code of a line": of_rejections("56 WrongCase", "55 WrongLine"),
}
