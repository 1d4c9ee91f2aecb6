"""Reports, and texts that are refused."""

from .networks import ELEVEN, NINE, THROUGH, TWELVE, TWO_SITES
from .runs import DONE, OPEN_LEFT, ends_so, has_in_turn, is_refused, is_reported, run

# The report of `A -> B`. Other multipliers and another positive law would do as well.
ROW = """\
crn report 1
species 2: A B
complexes 2: A; B
reactions 1
Q1 linkage classes: 1
  class 1: A; B
Q2 strong classes: 2, terminal 1
  strong 1: A
  strong 2: B (terminal)
Q3 reversible: no
  reaction 1: A -> B
Q4 weakly reversible: no
  reaction 1: A -> B
Q5 rank: 1
  independent reactions: 1
Q6 deficiency: 0, classes 0
Q7 positively dependent: no
  multipliers: 1 0
Q8 conservative: yes
  positive law: 1 1
Q9 deficiency zero theorem: hypotheses hold, not weakly reversible
Q10 deficiency one theorem: hypotheses hold
Q11 regular: no, not positively dependent
Q12 confluence vector: not applicable, not regular
Q13 signal: not applicable
Q14 concordant: yes
Q15 strongly concordant: yes
open: 0
"""

# In these the lines of a base, of multipliers, of positive vectors, of a walk, of two vectors and of a pair that shows
# discordance are left out: several would do.
TWO_CLASSES = """\
crn report 1
species 5: X B A C Y
complexes 5: X; B; A; C; Y
reactions 3
Q1 linkage classes: 2
  class 1: X; B; Y
  class 2: A; C
Q2 strong classes: 5, terminal 2
  strong 1: X
  strong 2: B (terminal)
  strong 3: A
  strong 4: C (terminal)
  strong 5: Y
Q3 reversible: no
  reaction 1: X -> B
Q4 weakly reversible: no
  reaction 1: X -> B
Q5 rank: 3
Q6 deficiency: 0, classes 0 0
Q7 positively dependent: no
Q8 conservative: yes
Q9 deficiency zero theorem: hypotheses hold, not weakly reversible
Q10 deficiency one theorem: hypotheses hold
Q11 regular: no, not positively dependent
Q12 confluence vector: not applicable, not regular
Q13 signal: not applicable
Q14 concordant: yes
Q15 strongly concordant: yes
open: 0
"""

TWICE_A = """\
crn report 1
species 2: A B
complexes 2: 2A; B
reactions 1
Q1 linkage classes: 1
  class 1: 2A; B
Q2 strong classes: 2, terminal 1
  strong 1: 2A
  strong 2: B (terminal)
Q3 reversible: no
  reaction 1: 2A -> B
Q4 weakly reversible: no
  reaction 1: 2A -> B
Q5 rank: 1
Q6 deficiency: 0, classes 0
Q7 positively dependent: no
Q8 conservative: yes
Q9 deficiency zero theorem: hypotheses hold, not weakly reversible
Q10 deficiency one theorem: hypotheses hold
Q11 regular: no, not positively dependent
Q12 confluence vector: not applicable, not regular
Q13 signal: not applicable
Q14 concordant: yes
Q15 strongly concordant: yes
open: 0
"""

BOTH_WAYS = """\
crn report 1
species 2: X Y
complexes 2: 3X + 2Y; 0
reactions 2
Q1 linkage classes: 1
  class 1: 3X + 2Y; 0
Q2 strong classes: 1, terminal 1
  strong 1: 3X + 2Y; 0 (terminal)
Q3 reversible: yes
Q4 weakly reversible: yes
Q5 rank: 1
Q6 deficiency: 0, classes 0
Q7 positively dependent: yes
Q8 conservative: no
Q9 deficiency zero theorem: hypotheses hold, weakly reversible
Q10 deficiency one theorem: hypotheses hold
Q11 regular: yes
Q12 confluence vector: not applicable, no vector but zero
Q13 signal: not applicable
Q14 concordant: yes
Q15 strongly concordant: yes
open: 0
"""

LARGEST = """\
crn report 1
species 2: A B
complexes 2: A; 99B
reactions 1
Q1 linkage classes: 1
  class 1: A; 99B
Q2 strong classes: 2, terminal 1
  strong 1: A
  strong 2: 99B (terminal)
Q3 reversible: no
  reaction 1: A -> 99B
Q4 weakly reversible: no
  reaction 1: A -> 99B
Q5 rank: 1
Q6 deficiency: 0, classes 0
Q7 positively dependent: no
Q8 conservative: yes
Q9 deficiency zero theorem: hypotheses hold, not weakly reversible
Q10 deficiency one theorem: hypotheses hold
Q11 regular: no, not positively dependent
Q12 confluence vector: not applicable, not regular
Q13 signal: not applicable
Q14 concordant: yes
Q15 strongly concordant: yes
open: 0
"""

CHAIN = """\
crn report 1
species 4: A B C D
complexes 4: A; B; C; D
reactions 4
Q1 linkage classes: 1
  class 1: A; B; C; D
Q2 strong classes: 3, terminal 1
  strong 1: A; B
  strong 2: C (terminal)
  strong 3: D
Q3 reversible: no
  reaction 3: B -> C
Q4 weakly reversible: no
  reaction 3: B -> C
Q5 rank: 3
Q6 deficiency: 0, classes 0
Q7 positively dependent: no
Q8 conservative: yes
Q9 deficiency zero theorem: hypotheses hold, not weakly reversible
Q10 deficiency one theorem: hypotheses hold
Q11 regular: no, not positively dependent
Q12 confluence vector: not applicable, not regular
Q13 signal: not applicable
Q14 concordant: yes
Q15 strongly concordant: yes
open: 0
"""

BACK = """\
crn report 1
species 2: B A
complexes 2: B; A
reactions 1
Q1 linkage classes: 1
  class 1: B; A
Q2 strong classes: 2, terminal 1
  strong 1: B
  strong 2: A (terminal)
Q3 reversible: no
  reaction 1: B -> A
Q4 weakly reversible: no
  reaction 1: B -> A
Q5 rank: 1
Q6 deficiency: 0, classes 0
Q7 positively dependent: no
Q8 conservative: yes
Q9 deficiency zero theorem: hypotheses hold, not weakly reversible
Q10 deficiency one theorem: hypotheses hold
Q11 regular: no, not positively dependent
Q12 confluence vector: not applicable, not regular
Q13 signal: not applicable
Q14 concordant: yes
Q15 strongly concordant: yes
open: 0
"""

GROWTH = """\
crn report 1
species 2: A B
complexes 4: A; 2A; B; 2B
reactions 2
Q1 linkage classes: 2
  class 1: A; 2A
  class 2: B; 2B
Q2 strong classes: 4, terminal 2
  strong 1: A
  strong 2: 2A (terminal)
  strong 3: B
  strong 4: 2B (terminal)
Q3 reversible: no
  reaction 1: A -> 2A
Q4 weakly reversible: no
  reaction 1: A -> 2A
Q5 rank: 2
Q6 deficiency: 0, classes 0 0
Q7 positively dependent: no
Q8 conservative: no
Q9 deficiency zero theorem: hypotheses hold, not weakly reversible
Q10 deficiency one theorem: hypotheses hold
Q11 regular: no, not positively dependent
Q12 confluence vector: not applicable, not regular
Q13 signal: not applicable
Q14 concordant: yes
Q15 strongly concordant: yes
open: 0
"""

# Each row: what it shows, a text, and its report.
REPORTS = [
    ("one reaction", "A -> B", ROW),
    (
        "empty lines, a line that comes twice",
        "\nA -> B\n\nA -> B\n",
        ROW,
    ),
    ("comments and blanks", "# one\n\tA->B # two\r\n \t\n", ROW),
    ("two classes, one against a reaction", "X -> B\nA -> C\nY -> B\n", TWO_CLASSES),
    ("two lines that say one reaction", "A+A->B\r\n2A -> B\r\n", TWICE_A),
    ("both ways, and the zero complex", "  3X+2Y<->  0 # x", BOTH_WAYS),
    ("the largest amount", "A -> 99B", LARGEST),
    ("three arrows", "A <-> B -> C <- D", CHAIN),
    ("an arrow to the left", "A <- B", BACK),
    ("two species that grow", "A -> 2A\nB -> 2B\n", GROWTH),
]

# Networks of the literature.
LITERATURE = [
    (
        "Edelstein",
        "A <-> 2A\nA + B <-> C\nC <-> B\n",
        """\
crn report 1
species 3: A B C
complexes 5: A; 2A; A + B; C; B
reactions 6
Q1 linkage classes: 2
  class 1: A; 2A
  class 2: A + B; C; B
Q2 strong classes: 2, terminal 2
  strong 1: A; 2A (terminal)
  strong 2: A + B; C; B (terminal)
Q3 reversible: yes
Q4 weakly reversible: yes
Q5 rank: 2
Q6 deficiency: 1, classes 0 0
Q7 positively dependent: yes
Q8 conservative: no
Q9 deficiency zero theorem: hypotheses fail, deficiency 1
Q10 deficiency one theorem: hypotheses fail, class deficiencies sum to 0
Q11 regular: yes
Q12 confluence vector: yes
  vector: 1 -1 1 0 -1
Q13 signal: yes
  turn: -1
Q14 concordant: no
Q15 strongly concordant: yes
open: 0
""",
    ),
    (
        "Brusselator",
        "0 <-> A\nA -> B\n2A + B -> 3A\n",
        """\
crn report 1
species 2: A B
complexes 5: 0; A; B; 2A + B; 3A
reactions 4
Q1 linkage classes: 2
  class 1: 0; A; B
  class 2: 2A + B; 3A
Q2 strong classes: 4, terminal 2
  strong 1: 0; A
  strong 2: B (terminal)
  strong 3: 2A + B
  strong 4: 3A (terminal)
Q3 reversible: no
  reaction 3: A -> B
Q4 weakly reversible: no
  reaction 3: A -> B
Q5 rank: 2
Q6 deficiency: 1, classes 0 0
Q7 positively dependent: yes
Q8 conservative: no
Q9 deficiency zero theorem: hypotheses fail, deficiency 1
Q10 deficiency one theorem: hypotheses fail, class deficiencies sum to 0
Q11 regular: yes
Q12 confluence vector: yes
  vector: 0 -1 1 -1 1
Q13 signal: no
Q14 concordant: yes
Q15 strongly concordant: yes
open: 0
""",
    ),
    (
        "two steps at one deficient class",
        "2A <-> A + B\nA + B <-> 2B\n",
        """\
crn report 1
species 2: A B
complexes 3: 2A; A + B; 2B
reactions 4
Q1 linkage classes: 1
  class 1: 2A; A + B; 2B
Q2 strong classes: 1, terminal 1
  strong 1: 2A; A + B; 2B (terminal)
Q3 reversible: yes
Q4 weakly reversible: yes
Q5 rank: 1
Q6 deficiency: 1, classes 1
Q7 positively dependent: yes
Q8 conservative: yes
Q9 deficiency zero theorem: hypotheses fail, deficiency 1
Q10 deficiency one theorem: hypotheses hold
Q11 regular: yes
Q12 confluence vector: yes
  vector: 1 -2 1
Q13 signal: no
Q14 concordant: no
Q15 strongly concordant: yes
open: 0
""",
    ),
    (
        "growth and decay",
        "A -> 2A\nA -> 0\n",
        """\
crn report 1
species 1: A
complexes 3: A; 2A; 0
reactions 2
Q1 linkage classes: 1
  class 1: A; 2A; 0
Q2 strong classes: 3, terminal 2
  strong 1: A
  strong 2: 2A (terminal)
  strong 3: 0 (terminal)
Q3 reversible: no
  reaction 1: A -> 2A
Q4 weakly reversible: no
  reaction 1: A -> 2A
Q5 rank: 1
Q6 deficiency: 1, classes 1
Q7 positively dependent: yes
Q8 conservative: no
Q9 deficiency zero theorem: hypotheses fail, deficiency 1
Q10 deficiency one theorem: hypotheses fail, class 1 has 2 terminal classes
Q11 regular: no, class 1 has 2 terminal classes
Q12 confluence vector: not applicable, not regular
Q13 signal: not applicable
Q14 concordant: no
Q15 strongly concordant: yes
open: 0
""",
    ),
    (
        "two-site futile cycle",
        """\
# two-site futile cycle
S0 + K <-> KS0
KS0 -> S1 + K
S1 + K <-> KS1
KS1 -> S2 + K
S2 + F <-> FS2
FS2 -> S1 + F
S1 + F <-> FS1
FS1 -> S0 + F
""",
        """\
crn report 1
species 9: S0 K KS0 S1 KS1 S2 F FS2 FS1
complexes 10: S0 + K; KS0; K + S1; KS1; K + S2; S2 + F; FS2; S1 + F; FS1; S0 + F
reactions 12
Q1 linkage classes: 2
  class 1: S0 + K; KS0; K + S1; KS1; K + S2
  class 2: S2 + F; FS2; S1 + F; FS1; S0 + F
Q2 strong classes: 6, terminal 2
  strong 1: S0 + K; KS0
  strong 2: K + S1; KS1
  strong 3: K + S2 (terminal)
  strong 4: S2 + F; FS2
  strong 5: S1 + F; FS1
  strong 6: S0 + F (terminal)
Q3 reversible: no
  reaction 3: KS0 -> K + S1
Q4 weakly reversible: no
  reaction 3: KS0 -> K + S1
Q5 rank: 6
Q6 deficiency: 2, classes 0 0
Q7 positively dependent: yes
Q8 conservative: yes
Q9 deficiency zero theorem: hypotheses fail, deficiency 2
Q10 deficiency one theorem: hypotheses fail, class deficiencies sum to 0
Q11 regular: yes
Q12 confluence vector: not applicable, two independent vectors
Q13 signal: not applicable
Q14 concordant: no
Q15 strongly concordant: no
open: 0
""",
    ),
    (
        "nine steps of 99",
        "X1 -> 99X2\nX2 -> 99X3\nX3 -> 99X4\nX4 -> 99X5\nX5 -> 99X6\nX6 -> 99X7\nX7 -> 99X8\nX8 -> 99X9\nX9 -> 99X10\n",
        """\
crn report 1
species 10: X1 X2 X3 X4 X5 X6 X7 X8 X9 X10
complexes 18: X1; 99X2; X2; 99X3; X3; 99X4; X4; 99X5; X5; 99X6; X6; 99X7; X7; 99X8; X8; 99X9; X9; 99X10
reactions 9
Q1 linkage classes: 9
  class 1: X1; 99X2
  class 2: X2; 99X3
  class 3: X3; 99X4
  class 4: X4; 99X5
  class 5: X5; 99X6
  class 6: X6; 99X7
  class 7: X7; 99X8
  class 8: X8; 99X9
  class 9: X9; 99X10
Q2 strong classes: 18, terminal 9
  strong 1: X1
  strong 2: 99X2 (terminal)
  strong 3: X2
  strong 4: 99X3 (terminal)
  strong 5: X3
  strong 6: 99X4 (terminal)
  strong 7: X4
  strong 8: 99X5 (terminal)
  strong 9: X5
  strong 10: 99X6 (terminal)
  strong 11: X6
  strong 12: 99X7 (terminal)
  strong 13: X7
  strong 14: 99X8 (terminal)
  strong 15: X8
  strong 16: 99X9 (terminal)
  strong 17: X9
  strong 18: 99X10 (terminal)
Q3 reversible: no
  reaction 1: X1 -> 99X2
Q4 weakly reversible: no
  reaction 1: X1 -> 99X2
Q5 rank: 9
Q6 deficiency: 0, classes 0 0 0 0 0 0 0 0 0
Q7 positively dependent: no
Q8 conservative: yes
Q9 deficiency zero theorem: hypotheses hold, not weakly reversible
Q10 deficiency one theorem: hypotheses hold
Q11 regular: no, not positively dependent
Q12 confluence vector: not applicable, not regular
Q13 signal: not applicable
Q14 concordant: yes
Q15 strongly concordant: yes
open: 0
""",
    ),
    (
        "a cycle of three",
        "A -> B\nB -> C\nC -> A\n",
        """\
crn report 1
species 3: A B C
complexes 3: A; B; C
reactions 3
Q1 linkage classes: 1
  class 1: A; B; C
Q2 strong classes: 1, terminal 1
  strong 1: A; B; C (terminal)
Q3 reversible: no
  reaction 1: A -> B
Q4 weakly reversible: yes
Q5 rank: 2
Q6 deficiency: 0, classes 0
Q7 positively dependent: yes
Q8 conservative: yes
Q9 deficiency zero theorem: hypotheses hold, weakly reversible
Q10 deficiency one theorem: hypotheses hold
Q11 regular: no, a cycle in a terminal class
Q12 confluence vector: not applicable, not regular
Q13 signal: not applicable
Q14 concordant: yes
Q15 strongly concordant: yes
open: 0
""",
    ),
    (
        "both ways",
        "A <-> B\n",
        """\
crn report 1
species 2: A B
complexes 2: A; B
reactions 2
Q1 linkage classes: 1
  class 1: A; B
Q2 strong classes: 1, terminal 1
  strong 1: A; B (terminal)
Q3 reversible: yes
Q4 weakly reversible: yes
Q5 rank: 1
Q6 deficiency: 0, classes 0
Q7 positively dependent: yes
Q8 conservative: yes
Q9 deficiency zero theorem: hypotheses hold, weakly reversible
Q10 deficiency one theorem: hypotheses hold
Q11 regular: yes
Q12 confluence vector: not applicable, no vector but zero
Q13 signal: not applicable
Q14 concordant: yes
Q15 strongly concordant: yes
open: 0
""",
    ),
    (
        "a vector that is zero alone",
        "A -> B\nB -> A\nC -> 2C\n2C -> C\n",
        """\
crn report 1
species 3: A B C
complexes 4: A; B; C; 2C
reactions 4
Q1 linkage classes: 2
  class 1: A; B
  class 2: C; 2C
Q2 strong classes: 2, terminal 2
  strong 1: A; B (terminal)
  strong 2: C; 2C (terminal)
Q3 reversible: yes
Q4 weakly reversible: yes
Q5 rank: 2
Q6 deficiency: 0, classes 0 0
Q7 positively dependent: yes
Q8 conservative: no
Q9 deficiency zero theorem: hypotheses hold, weakly reversible
Q10 deficiency one theorem: hypotheses hold
Q11 regular: yes
Q12 confluence vector: not applicable, no vector but zero
Q13 signal: not applicable
Q14 concordant: no
Q15 strongly concordant: yes
open: 0
""",
    ),
]

# Each row: a text, and the line that refuses it.
FAULTS = [
    (b"", "refused 5 NoReaction at line 0\n"),
    (b"# nothing", "refused 5 NoReaction at line 0\n"),
    (b"A -> A", "refused 1 SelfReaction at line 1\n"),
    (b"A -> 100B", "refused 17 CoefficientTooLarge at line 1\n"),
    (b"60A + 40A -> B", "refused 17 CoefficientTooLarge at line 1\n"),
    (b"\xc8 -> B", "refused 11 NotAscii at line 1\n"),
    (b"A B", "refused 12 NoArrow at line 1\n"),
    (b" -> B", "refused 13 EmptySide at line 1\n"),
    (b"A + -> B", "refused 13 EmptySide at line 1\n"),
    (b"2 -> A", "refused 14 BadName at line 1\n"),
    (b"A B -> C", "refused 14 BadName at line 1\n"),
    (b"aaaaaaaaaaaaaaaaaaaaaaaaaaaaaaaaa -> B", "refused 15 NameTooLong at line 1\n"),
    (b"0A -> B", "refused 16 ZeroCoefficient at line 1\n"),
    (b"A -> B -> B", "refused 1 SelfReaction at line 1\n"),
    (b"A -> -> B", "refused 13 EmptySide at line 1\n"),
    (b"<- B", "refused 13 EmptySide at line 1\n"),
    (b"A < - B", "refused 18 StrayMark at line 1\n"),
    (b"A => B", "refused 18 StrayMark at line 1\n"),
    (b"A -> B\n\nB -> B\nA", "refused 1 SelfReaction at line 3\n"),
]

# Each row: what it shows, the text, and parts of its report. Whether the rank is open or not, and with it the
# deficiencies, depends on the order of pivots: both may be.
WIDE = [
    (
        "every law has an entry of 99^11 or more",
        ELEVEN,
        [
            "\nQ7 positively dependent: no\n  multipliers: ",
            "\nQ8 conservative: open, wide\n  system 1\n  index ",
            """\

Q11 regular: no, not positively dependent
Q12 confluence vector: not applicable, not regular
Q13 signal: not applicable
""",
        ],
    ),
    (
        "one row rules conservation out",
        TWELVE,
        [
            "\nQ7 positively dependent: no\n  multipliers: ",
            "\nQ8 conservative: no\n  multipliers: ",
            """\

Q11 regular: no, not positively dependent
Q12 confluence vector: not applicable, not regular
Q13 signal: not applicable
""",
        ],
    ),
    (
        "every positive dependence has an entry of 99^10 or more",
        THROUGH,
        [
            "\nQ7 positively dependent: open, wide\n  system 2\n  index ",
            "\nQ11 regular: open, rests on Q7\nQ12 confluence vector: open, rests on Q11\nQ13 signal: open, rests on Q12\n",
        ],
    ),
]

# The search for `A <-> B` visits 8 prefixes for each table. For `A -> B` it visits 5 for the plain table, and 8 for the
# strong one. Each row: the words, the text, how the run ends, and the end of its report.
BUDGETS = [
    (
        "report --budget 8",
        "A <-> B",
        DONE,
        "\nQ14 concordant: yes\nQ15 strongly concordant: yes\nopen: 0\n",
    ),
    (
        "report --budget 7",
        "A <-> B",
        OPEN_LEFT,
        "\nQ14 concordant: open, budget 7\nQ15 strongly concordant: open, budget 7\nopen: 2\n",
    ),
    (
        "report --budget=5",
        "A -> B",
        OPEN_LEFT,
        "\nQ14 concordant: yes\nQ15 strongly concordant: open, budget 5\nopen: 1\n",
    ),
    (
        "report --budget 4",
        "A -> B",
        OPEN_LEFT,
        "\nQ14 concordant: open, budget 4\nQ15 strongly concordant: open, budget 4\nopen: 2\n",
    ),
    (
        "certify --budget 7",
        "A <-> B",
        OPEN_LEFT,
        "\nsection concordance\nq14 open budget 7\nq15 open budget 7\nend\n",
    ),
    (
        "report --budget 1",
        TWO_SITES,
        OPEN_LEFT,
        "\nQ14 concordant: open, budget 1\nQ15 strongly concordant: open, budget 1\nopen: 2\n",
    ),
    # of two confluence vectors the first prefix alone is visited
    (
        "report --budget 1",
        "2A <-> A + B\nA + B <-> 2B\n",
        OPEN_LEFT,
        "\nQ13 signal: open, budget 1\nQ14 concordant: open, budget 1\nQ15 strongly concordant: open, budget 1\nopen: 3\n",
    ),
]

# The first class is nothing from each species, the second eleven steps that make 99 of the next from one.
NAMES = "ABCDEFGHIJKL"
STEPS = ["2A", *("A" + "".join(f" + 98{name}" for name in NAMES[1:k]) + f" + 99{NAMES[k]}" for k in range(1, 12))]
WIDE_CLASS = "".join(f"{name} -> 0\n" for name in NAMES) + " -> ".join(STEPS) + "\n"

# Each row: the text, and parts of its report. Another order of exchanges may decide the last.
PARTS = [
    ("B -> C\nA -> 2A -> 3A\n", ["\nQ6 deficiency: 1, classes 0 1\n", "\nQ10 deficiency one theorem: hypotheses hold\n"]),
    (
        "B -> 2B -> 3B\nA -> 2A -> 3A -> 4A\n",
        ["\nQ6 deficiency: 3, classes 1 2\n", "\nQ10 deficiency one theorem: hypotheses fail, class 2 has deficiency 2\n"],
    ),
    (
        "A -> 2A -> 3A -> 4A\nB -> 2B\nB -> 3B\n",
        ["\nQ6 deficiency: 3, classes 2 1\n", "\nQ10 deficiency one theorem: hypotheses fail, class 2 has 2 terminal classes\n"],
    ),
    (
        "A -> 2A -> 3A -> 4A\nA + B -> 2A + B\n",
        ["\nQ6 deficiency: 3, classes 2 0\n", "\nQ10 deficiency one theorem: hypotheses fail, class 1 has deficiency 2\n"],
    ),
    (
        "A -> B\nC -> D\nC -> E\n",
        [
            "\nQ10 deficiency one theorem: hypotheses fail, class 2 has 2 terminal classes\n"
            "Q11 regular: no, class 2 has 2 terminal classes\n",
        ],
    ),
    # both fail: dependence comes first
    ("A -> B\nB -> C\nC -> A\nD -> E\n", ["\nQ11 regular: no, not positively dependent\n"]),
    # both the vector and its negative have signals: the vector comes first
    (
        "3A <-> A + C\nA + C <-> 4C\nC + B <-> A + B\n",
        ["\nQ12 confluence vector: yes\n  vector: 2 -1 -1 5 -5\nQ13 signal: yes\n  turn: 1\n"],
    ),
    (WIDE_CLASS, ["\nQ6 deficiency: open, wide\n  system 3 class 2\n  index ", "\nQ10 deficiency one theorem: open, rests on Q6\n"]),
]


def law_of(report):
    """The numbers of the positive law that a report shows."""
    _, _, rest = report.partition(b"  positive law: ")
    return [int(number) for number in rest.split(b"\n")[0].split()]


def has_parts(program, text, parts):
    """Whether the report has these parts, one after another, and counts the questions that it leaves open."""
    status, out, _ = run(program, ["report"], text)
    lines = out.decode("ascii").splitlines()
    count = sum(line.startswith("Q") and ": open, " in line for line in lines)
    good = has_in_turn(out, parts) and lines[-1] == f"open: {count}" and status == (OPEN_LEFT if count else DONE)
    return good, (status, out)


def tries(program):
    yield "the simplest network has its whole report", *ends_so(program, "report", "A -> B", DONE, ROW)
    for name, text, want in [*REPORTS, *LITERATURE]:
        yield f"report: {name}", *is_reported(program, text, want)
    for text, want in FAULTS:
        yield f"report: {text}", *is_refused(program, text, want)
    for name, text, parts in WIDE:
        yield name, *has_parts(program, text, parts)
    for text, parts in PARTS:
        yield f"parts of the report of {text!r:.60}", *has_parts(program, text, parts)
    for line, text, status, end in BUDGETS:
        got, out, _ = run(program, line.split(), text)
        yield f"{line}: {text!r:.60}", got == status and out.endswith(end.encode()), (got, out)
    law = law_of(run(program, ["report"], NINE)[1])
    yield "the law of a chain of nine, whose entries pass 2^58", law[0] == 99**9 * law[-1] > 0, law
