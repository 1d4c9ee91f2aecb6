"""Certificates with another answer in the place of one of their own. The answers were worked out by hand."""

from .networks import EDELSTEIN, TWO_SITES
from .runs import DONE, is_judged, run

# Edelstein's network with its first two reactions in the other order, so that the signal is for the vector itself.
MIRRORED = "2A <-> A\nA + B <-> C\nC <-> B\n"

# Two terminal classes with no links, whose confluence vector has no signal.
CROSSING = "A -> B\n2B -> 2A\n"

# Amounts of one species in a row: the confluence space is a plane.
AMOUNTS = "0 <-> A <-> 2A <-> 3A\n"

# Two reactions from one complex.
FORK = "A -> B\nA -> C\n"

# A cycle that a reaction leaves, whose product comes back in another linkage class.
LEFT = """\
A -> B
B -> C
C -> A
C -> D
2D -> 2C
"""

# Two linkage classes of deficiency 0, whose vectors are multiples of one.
TWICE = "A <-> B\n2A <-> 2B\n"

# Each group: a network, how its own answer begins and how the line after it begins, and the answers that come in its
# place: what an answer shows, its lines, and its fault with the line of the answer that has it, if it has one.
GROUPS = [
    (
        "A -> B\nB -> C\nB -> A\n",
        "q5 ",
        "q6 ",
        [
            (
                "a base of two",
                "q5 2\nbase 1 2\ndual 1 0 0\ndual 1 1 0\ncomb 1 -1 0\n",
                None,
            ),
            (
                "a dual that is not zero on the other vector",
                "q5 2\nbase 1 2\ndual 1 0 0\ndual 1 0 1\ncomb 1 -1 0\n",
                ("33 NotIndependent", 4),
            ),
            (
                "a combination of the other vector",
                "q5 2\nbase 1 2\ndual 1 0 0\ndual 1 1 0\ncomb 1 0 -1\n",
                ("34 NotSpanned", 5),
            ),
        ],
    ),
    (
        "A -> B\n",
        "q7 ",
        "q8 ",
        [
            ("no weight falls", "q7 no\ncut 0 0\n", ("35 BadVector", 2)),
            ("a weight rises", "q7 no\ncut 0 1\n", ("35 BadVector", 2)),
        ],
    ),
    (
        "A -> 2A\n",
        "q8 ",
        "section theorems",
        [
            ("a species falls", "q8 no\ncut -1\n", None),
            ("no species falls", "q8 no\ncut 0\n", ("35 BadVector", 2)),
            ("a species rises", "q8 no\ncut 1\n", ("35 BadVector", 2)),
        ],
    ),
    (
        "A -> B\n",
        "q9 ",
        "q10 ",
        [
            ("the case", "q9 yes 0\n", None),
            ("the other case", "q9 yes 1\n", ("37 WrongVerdict", 1)),
        ],
    ),
    (
        "A <-> 2A <-> 3A\n",
        "q9 ",
        "q10 ",
        [
            ("the deficiency", "q9 no 1\n", None),
            ("another", "q9 no 2\n", ("36 WrongNumber", 1)),
            ("a yes", "q9 yes 1\n", ("37 WrongVerdict", 1)),
        ],
    ),
    (
        TWICE,
        "q10 ",
        "section confluence",
        [
            ("the sum", "q10 no sum 0\n", None),
            ("another sum", "q10 no sum 1\n", ("37 WrongVerdict", 1)),
            ("a yes", "q10 yes\n", ("37 WrongVerdict", 1)),
        ],
    ),
    (
        FORK,
        "q10 ",
        "section confluence",
        [
            ("the class", "q10 no terminal 1 2\n", None),
            ("another number", "q10 no terminal 1 3\n", ("37 WrongVerdict", 1)),
            ("a yes", "q10 yes\n", ("37 WrongVerdict", 1)),
        ],
    ),
    (
        AMOUNTS,
        "q10 ",
        "section confluence",
        [
            ("the class", "q10 no class 1 2\n", None),
            ("another number", "q10 no class 1 3\n", ("37 WrongVerdict", 1)),
            ("a yes", "q10 yes\n", ("37 WrongVerdict", 1)),
        ],
    ),
    (
        FORK,
        "q11 ",
        "q12 ",
        [
            ("the class", "q11 no terminal 1 2\n", None),
            ("another number", "q11 no terminal 1 3\n", ("37 WrongVerdict", 1)),
            ("a class with two terminal ones", "q11 no dependence\n", ("37 WrongVerdict", 1)),
        ],
    ),
    (LEFT, "q11 ", "q12 ", [("a way round outside terminal classes", "q11 no cycle 1\nwalk 1 3 2\n", ("37 WrongVerdict", 1))]),
    (
        CROSSING,
        "q11 ",
        "q12 ",
        [
            ("a way round between classes", "q11 no cycle 1\n", ("37 WrongVerdict", 1)),
            ("a side of no pair", "q11 yes\nside 1 0 1 0 0\n", ("26 WrongOrder", 2)),
        ],
    ),
    (
        AMOUNTS,
        "q11 ",
        "q12 ",
        [
            (
                "three sides",
                "q11 yes\nside 1 0 1 1 1\nside 3 0 0 1 1\nside 5 0 0 0 1\n",
                None,
            ),
            ("another pair", "q11 yes\nside 1 0 1 1 1\nside 5 0 0 1 1\n", ("24 BadField", 3)),
            (
                "a mark on the wrong side",
                "q11 yes\nside 1 0 1 1 1\nside 3 0 1 1 1\nside 5 0 0 0 1\n",
                ("35 BadVector", 3),
            ),
            ("a side too few", "q11 yes\nside 1 0 1 1 1\nside 3 0 0 1 1\n", ("26 WrongOrder", 4)),
        ],
    ),
    (
        CROSSING,
        "q12 ",
        "q13 ",
        [
            (
                "a vector",
                "q12 yes\nvec -2 2 -1 1\ntie 0 0 1 0\ntie 0 1 -1 0\ntie 1 0 0 0\n",
                None,
            ),
            (
                "a vector that is not primitive",
                "q12 yes\nvec -4 4 -2 2\ntie 0 0 1 0\ntie 0 1 -1 0\ntie 1 0 0 0\n",
                ("35 BadVector", 2),
            ),
            (
                "a vector that scatters",
                "q12 yes\nvec 2 -2 1 -1\ntie 0 0 1 0\ntie 0 1 -1 0\ntie 1 0 0 0\n",
                ("35 BadVector", 2),
            ),
            (
                "a tie of two complexes",
                "q12 yes\nvec -2 2 -1 1\ntie 0 0 1 0\ntie 0 1 0 0\ntie 1 0 0 0\n",
                ("35 BadVector", 4),
            ),
            (
                "a tie too few",
                "q12 yes\nvec -2 2 -1 1\ntie 0 0 1 0\ntie 0 1 -1 0\n",
                ("26 WrongOrder", 5),
            ),
            (
                "a tie too many",
                "q12 yes\nvec -2 2 -1 1\ntie 0 0 1 0\ntie 0 1 -1 0\ntie 1 0 0 0\ntie 1 0 0 0\n",
                ("26 WrongOrder", 6),
            ),
        ],
    ),
    (
        AMOUNTS,
        "q12 ",
        "q13 ",
        [
            ("two vectors", "q12 none plane 1 4\nvec 1 -2 1 0\nvec 0 1 -2 1\n", None),
            ("two complexes that are one", "q12 none plane 4 4\n", ("24 BadField", 1)),
            ("a vector that is zero there", "q12 none plane 1 4\nvec 0 1 -2 1\nvec 0 1 -2 1\n", ("35 BadVector", 2)),
            ("the first vector twice", "q12 none plane 1 4\nvec 1 -2 1 0\nvec 1 -2 1 0\n", ("35 BadVector", 3)),
        ],
    ),
    (
        EDELSTEIN,
        "q13 ",
        "section concordance",
        [
            (
                "a signal for the negative",
                "q13 yes -1\nshelves 1 -1\nmu 6 -2 2\nm 5\nweights 1 0 0 0 0 1\n",
                None,
            ),
            (
                "another m",
                "q13 yes -1\nshelves 1 -1\nmu 6 -2 2\nm 6\nweights 1 0 0 0 0 1\n",
                ("45 BadEvidence", 5),
            ),
            (
                "the other turn",
                "q13 yes 1\nshelves 1 -1\nmu 6 -2 2\nm 5\nweights 1 0 0 0 0 1\n",
                ("45 BadEvidence", 5),
            ),
            ("a shelf above the upper one", "q13 yes -1\nshelves 2 -1\n", ("24 BadField", 2)),
            ("a shelf too few", "q13 yes -1\nshelves 1\n", ("24 BadField", 2)),
            ("no shelves", "q13 yes -1\nmu 6 -2 2\n", ("26 WrongOrder", 2)),
            (
                "two levels",
                "q13 yes -1\nshelves 1 -1\nmu 6 -2 2\nm 5 5\n",
                ("24 BadField", 4),
            ),
            ("none beside a vector", "q13 none\n", ("37 WrongVerdict", 1)),
            ("lists of a signal below a no", "q13 no\nshelves 1 -1\n", ("43 TreeEndsEarly", 2)),
            ("a wide system 5", "q13 open wide 5 0 12 9 10 11 12\n", None),
            ("a coordinate past system 5", "q13 open wide 5 0 13 9 10 11 12\n", ("24 BadField", 1)),
        ],
    ),
    (
        MIRRORED,
        "q13 ",
        "section concordance",
        [
            (
                "a signal for the vector",
                "q13 yes 1\nshelves 1 -1\nmu 4 -2 1\nm 3\nweights -3 0 1 0 0 0\n",
                None,
            ),
        ],
    ),
    (
        CROSSING,
        "q13 ",
        "section concordance",
        [
            (
                "one tree",
                """\
q13 no
split
split
flat
cuta -2 2 -1 1
split
cuta -2 2 -1 1
cuta -2 2 -1 1
split
cuta 1 2 -1 -2
cuta 1 2 -1 -2
split
cuta 0 1 -1 0
cuta 1 0 -1 0
cutb -1 -1
""",
                None,
            ),
            (
                "a second tree",
                """\
q13 no
split
split
flat
cuta -2 2 -1 1
split
cuta -2 2 -1 1
cuta -2 2 -1 1
split
cuta 1 2 -1 -2
cuta 1 2 -1 -2
split
cuta 0 1 -1 0
cuta 1 0 -1 0
cutb -1 -1
split
""",
                ("44 TreeGoesOn", 16),
            ),
            (
                "a signal for the negative",
                "q13 yes -1\nshelves 1 1\nmu 0 0\nm 0\nweights 0 0\n",
                ("37 WrongVerdict", 1),
            ),
        ],
    ),
    (
        "A <-> B\n",
        "q13 ",
        "section concordance",
        [
            ("no vector", "q13 no\n", ("37 WrongVerdict", 1)),
            ("a wide system 2", "q13 open wide 2 0 4 3 4\n", None),
        ],
    ),
    (AMOUNTS, "q14 ", "q15 ", [("a pair", "q14 no\nalpha 0 1 2 1 1 1\nweights 1 0 0 0 0 0\n", None)]),
    (
        AMOUNTS,
        "q15 ",
        "end\n",
        [("a pair of the other table", "q15 no\nalpha 0 1 2 1 1 1\nweights 1 0 0 0 0 0\n", ("45 BadEvidence", 3))],
    ),
]

# Each row: a network, how the first answer begins that is replaced, the end that comes in its place, and the end of the report.
# The signal and the pairs were worked out by hand.
OTHER_ANSWERS = [
    (
        EDELSTEIN,
        "q14 ",
        "q14 no\nalpha 3 1 3 1 1 -1\nweights 1 0 0 0 0 1\nq15 open budget 1\nend\n",
        "\nQ14 concordant: no\n  sigma: 1 -1 1\n  alpha: 3 1 3 1 1 -1\nQ15 strongly concordant: open, budget 1\nopen: 1\n",
    ),
    (
        EDELSTEIN,
        "q13 ",
        """\
q13 yes -1
shelves 1 -1
mu 6 -2 2
m 5
weights 1 0 0 0 0 1
section concordance
q14 open wide 2 0 1 1 2 3 4 5 6
q15 open budget 1
end
""",
        """\

Q13 signal: yes
  turn: -1
  shelves: upper lower
  mu: 6 -2 2
  m: 5
Q14 concordant: open, wide
  system 2
  index 1
  basis: 1 2 3 4 5 6
Q15 strongly concordant: open, budget 1
open: 2
""",
    ),
    (
        "A -> 2A\nA -> 0\n",
        "q14 ",
        "q14 no\nalpha 1 1\nweights 1 0\nq15 open budget 100000\nend\n",
        "\nQ14 concordant: no\n  sigma: 1\n  alpha: 1 1\nQ15 strongly concordant: open, budget 100000\nopen: 1\n",
    ),
    (
        TWO_SITES,
        "q14 ",
        "q14 open budget 1\nq15 open budget 1\nend\n",
        "\nQ14 concordant: open, budget 1\nQ15 strongly concordant: open, budget 1\nopen: 2\n",
    ),
]


def certificate_of(program, network):
    return run(program, ["certify"], network)[1].decode("ascii")


def tries(program):
    for network, head, following, rows in GROUPS:
        before, _, rest = certificate_of(program, network).partition(f"\n{head}")
        _, _, after = rest.partition(f"\n{following}")
        for name, answer, fault in rows:
            document = f"{before}\n{answer}{following}{after}"
            if fault:
                fault = f"{fault[0]} at line {before.count(chr(10)) + 1 + fault[1]}"
            yield f"{name} on {network!r}", *is_judged(program, document, fault)
    for network, head, end, last in OTHER_ANSWERS:
        before, _, _ = certificate_of(program, network).partition(f"\n{head}")
        status, out, _ = run(program, ["check"], f"{before}\n{end}")
        yield f"{end!r:.60} on {network!r:.60}", status == DONE and out.endswith(last.encode()), (status, out)
