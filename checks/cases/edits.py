"""Edits of a document of `A <-> B`, in both versions."""

from .runs import DONE, ends_so, is_judged

# The lines of a good document of `A <-> B` in version 1.
BOTH_WAYS = """\
crn certificate 1
network 2
A -> B
B -> A
q1 1
label 1 1
up 0 1
depth 0 1
q2 1 1
label 1 1
from 0 1
fromdepth 0 1
to 0 2
todepth 0 1
level 0
exit 0
q3 yes
back 2 1
q4 yes
q5 1
base 1
dual -1 0
comb 1 -1
q6 0 0
base 1
dual -1 0
comb 1 -1
q7 yes
vec 1 1
q8 yes
vec 1 1
q9 yes 1
q10 yes
q11 yes
side 1 0 1
q12 none zero
tie 1 0 0
tie 0 1 0
q13 none
q14 yes
split
split
flat
cuta 0 1
split
cuta 1 0
cutb 1 1
cuta 1 0
q15 yes
split
split
flat
cuta 0 1
split
cuta 1 0
cutb 1 1
cuta 1 0
end
""".splitlines()

# The same in version 2, in which the lists of the cuts are shared.
SHARED = """\
crn certificate 2
network 2
A -> B
B -> A
vectors 3
vector 0 1
vector 1 0
vector 1 1
section graph
q1 1
label 1 1
up 0 1
depth 0 1
q2 1 1
label 1 1
from 0 1
fromdepth 0 1
to 0 2
todepth 0 1
level 0
exit 0
q3 yes
back 2 1
q4 yes
section rank
q5 1
base 1
dual -1 0
comb 1 -1
q6 0 0
base 1
dual -1 0
comb 1 -1
section dependence
q7 yes
vec 1 1
q8 yes
vec 1 1
section theorems
q9 yes 1
q10 yes
section confluence
q11 yes
side 1 0 1
q12 none zero
tie 1 0 0
tie 0 1 0
q13 none
section concordance
q14 yes
split
split
flat
refa 1
split
refa 2
refb 3
refa 2
q15 yes
split
split
flat
refa 1
split
refa 2
refb 3
refa 2
end
""".splitlines()

# The report of both, with the base, the combination and the law that they name.
REPORT = """\
crn report 1
species 2: A B
complexes 2: A; B
reactions 2
Q1 linkage classes: 1
  class 1: A; B
Q2 strong classes: 1, terminal 1
  strong 1: A; B (terminal)
Q3 reversible: yes
Q4 weakly reversible: yes
Q5 rank: 1
  independent reactions: 1
Q6 deficiency: 0, classes 0
Q7 positively dependent: yes
  positive combination: 1 1
Q8 conservative: yes
  positive law: 1 1
Q9 deficiency zero theorem: hypotheses hold, weakly reversible
Q10 deficiency one theorem: hypotheses hold
Q11 regular: yes
Q12 confluence vector: not applicable, no vector but zero
Q13 signal: not applicable
Q14 concordant: yes
Q15 strongly concordant: yes
open: 0
"""

END = len(BOTH_WAYS)

# Each row: how many lines of version 1 come before the edit, the edit, the lines that it takes the place of are up to
# this one, and the fault.
EDITS = [
    (0, "crn certificate 2\n", 1, "26 WrongOrder at line 5"),
    (0, "crn certificate 3\n", 1, "21 BadHeader at line 1"),
    (2, "A  -> B\n", 3, "22 BadNetwork at line 4"),
    (4, "foo\n", 5, "23 UnknownWord at line 5"),
    (4, "", 5, "26 WrongOrder at line 5"),
    (5, "label 1 01\n", 6, "24 BadField at line 6"),
    (6, "up 0 0\n", 7, "31 WrongClasses at line 8"),
    (7, "depth 0 2\n", 8, "24 BadField at line 8"),
    (8, "q2 1 2\n", 9, "24 BadField at line 9"),
    (15, "exit 1\n", 16, "31 WrongClasses at line 16"),
    (17, "back 1 1\n", 18, "32 WrongWalk at line 18"),
    (18, "q4 no 1\n", 19, "37 WrongVerdict at line 19"),
    (21, "dual 0 0\n", 22, "33 NotIndependent at line 22"),
    (22, "comb 1 1\n", 23, "34 NotSpanned at line 23"),
    (23, "q6 1 0\n", 24, "36 WrongNumber at line 24"),
    (28, "vec 1 2\n", 29, "35 BadVector at line 29"),
    # 2^70, and then 2^72
    (28, "vec 1180591620717411303424 1\n", 29, "35 BadVector at line 29"),
    (28, "vec 4722366482869645213696 1\n", 29, "25 NumberWide at line 29"),
    (30, "vec 1 2\n", 31, "35 BadVector at line 31"),
    (31, "q9 yes 0\n", 32, "37 WrongVerdict at line 32"),
    (31, "q9 no 1\n", 32, "36 WrongNumber at line 32"),
    (32, "q10 no sum 1\n", 33, "37 WrongVerdict at line 33"),
    (33, "q11 no dependence\n", 35, "37 WrongVerdict at line 34"),
    (33, "q11 no cycle 1\nwalk 1 2\n", 35, "32 WrongWalk at line 35"),
    (34, "side 1 1 0\n", 35, "35 BadVector at line 35"),
    (34, "side 2 1 0\n", 35, "24 BadField at line 35"),
    (34, "", 35, "26 WrongOrder at line 35"),
    (35, "q12 none regular\n", 38, "37 WrongVerdict at line 36"),
    (35, "q12 yes\nvec 1 -1\ntie 0 1 0\n", 38, "35 BadVector at line 37"),
    (35, "q12 none plane 1 2\nvec 1 0\nvec 0 1\n", 38, "35 BadVector at line 37"),
    (35, "q12 none plane 3 1\n", 38, "24 BadField at line 36"),
    (35, "q12 open wide 4 0 6 1 2\n", 38, "24 BadField at line 36"),
    (35, "q12 open wide 2 0 1 1 2\n", 38, "24 BadField at line 36"),
    (36, "tie 0 0 0\n", 37, "35 BadVector at line 37"),
    (37, "tie 0 0 1\n", 38, "35 BadVector at line 38"),
    (37, "tie 0 1\n", 38, "24 BadField at line 38"),
    (38, "", 39, "26 WrongOrder at line 39"),
    (38, "q13 none 1\n", 39, "24 BadField at line 39"),
    (38, "q13 no\n", 39, "37 WrongVerdict at line 39"),
    (38, "q13 yes 1\n", 39, "37 WrongVerdict at line 39"),
    (38, "q13 yes 2\n", 39, "24 BadField at line 39"),
    (38, "q13 open rests 11\n", 39, "24 BadField at line 39"),
    # question 12 gives no vector, so there is no system 5
    (38, "q13 open wide 5 0 1 1 2 3\n", 39, "24 BadField at line 39"),
    # the lines of a block pass the tests of their text before the first test of what they mean
    (21, "dual 0 0\ncomb 1\n", 23, "24 BadField at line 23"),
    # only the first 6, only the first 20, and only the first 36
    (6, "", END, "27 EndsEarly at line 7"),
    (20, "", END, "27 EndsEarly at line 21"),
    (36, "", END, "27 EndsEarly at line 37"),
    # a word of version 2
    (43, "refa 1\n", 44, "23 UnknownWord at line 44"),
]

# How lines may be spelled, and how not. Each row: how many lines of version 1 come before one, what is in its place, and the
# fault. A line whose form is good has a fault of what it says, there or further on.
SPELLINGS = [
    # classes are numbered from 1
    *((5, line, "24 BadField at line 6") for line in [
        "label 1 0", "label 1 -0", "label 1 +1", "label 1 3", "label 1", "label 1 1 1", "label  1 1", "label 1 1 ", "label",
    ]),
    *((5, line, "23 UnknownWord at line 6") for line in ["foo 1 1", "", " label 1 1", "label\t1 1", "refa 1", "section graph"]),
    *((5, line, "26 WrongOrder at line 6") for line in ["up 1 1", "split"]),
    # of two classes two levels are due
    (8, "q2 2 1", "24 BadField at line 15"),
    *((8, line, "24 BadField at line 9") for line in ["q2 3 1", "q2 yes"]),
    (8, "q3 yes", "26 WrongOrder at line 9"),
    # 2^72 - 1, 2^72 and 10^68
    (28, "vec 4722366482869645213695 -4722366482869645213695", "35 BadVector at line 29"),
    *((28, line, "25 NumberWide at line 29") for line in ["vec 1 -4722366482869645213696", "vec 1 1" + 68 * "0"]),
    *((28, line, "24 BadField at line 29") for line in ["vec 4722366482869645213696 01", "vec 4722366482869645213696"]),
    (28, "split", "26 WrongOrder at line 29"),
    *((34, line, "24 BadField at line 35") for line in ["side 1 0 2", "side 1 0", "side 0 1"]),
    (34, "walk 1 2", "26 WrongOrder at line 35"),
    (35, "q12 yes", "26 WrongOrder at line 37"),
    (35, "q12 none plane 2 1", "26 WrongOrder at line 37"),
    (35, "q12 open rests 11", "26 WrongOrder at line 37"),
    *((35, line, "24 BadField at line 36") for line in [
        "q12 none plane 2 2", "q12 none plane 0 1", "q12 no", "q12 open rests 7",
    ]),
    (35, "q11 yes", "26 WrongOrder at line 36"),
]

# The lines that version 2 has more than version 1 before question 14.
MORE = 10

# Each row: how many lines of version 1 come before the edit, the edit, the lines that it takes the place of are up to
# this one, and the fault and its line in version 1. All are from question 14 on, in words of both versions.
TREE_EDITS = [
    (40, "flat\n", 41, "42 NodeNotAllowed", 41),
    (40, "cutb 1 1\n", 41, "41 BadLeaf", 41),
    (43, "cuta 0 -1\n", 44, "41 BadLeaf", 44),
    (43, "cuta 0 0\n", 44, "41 BadLeaf", 44),
    (43, "flat\n", 44, "42 NodeNotAllowed", 44),
    (43, "split\n", 44, "42 NodeNotAllowed", 44),
    (43, "cuta 0\n", 44, "24 BadField", 44),
    (43, "split 1\n", 44, "24 BadField", 44),
    # 2^72
    (43, "cuta 0 4722366482869645213696\n", 44, "25 NumberWide", 44),
    (43, "tie 1 0 0\n", 44, "43 TreeEndsEarly", 44),
    (43, "q15 yes\n", 44, "43 TreeEndsEarly", 44),
    (43, "foo\n", 44, "23 UnknownWord", 44),
    (43, "tree\n", 44, "23 UnknownWord", 44),
    # only the lines before the children of the prefix plus
    (45, "", END, "43 TreeEndsEarly", 46),
    # not zero on a free column
    (46, "cutb 1 0\n", 47, "41 BadLeaf", 47),
    (46, "cutb 1\n", 47, "24 BadField", 47),
    (46, "cutb 1 4722366482869645213696\n", 47, "25 NumberWide", 47),
    # the last node of the tree is removed, or one is added
    (47, "", 48, "43 TreeEndsEarly", 48),
    (48, "cuta 1 0\n", 48, "44 TreeGoesOn", 49),
    (48, "split\n", 48, "44 TreeGoesOn", 49),
    # a pair that shows nothing
    (39, "q14 no\nalpha 1 1\nweights 1 0\n", 48, "45 BadEvidence", 42),
    (39, "q14 no\nalpha 0 0\nweights 1 1\n", 48, "45 BadEvidence", 42),
    (39, "q14 no\nweights 1 0\nalpha 1 1\n", 48, "26 WrongOrder", 41),
    # the same for the strong table
    (52, "cuta 0 -1\n", 53, "41 BadLeaf", 53),
    (55, "cutb 1 0\n", 56, "41 BadLeaf", 56),
    (56, "", 57, "43 TreeEndsEarly", 57),
    (57, "cuta 1 0\n", 57, "44 TreeGoesOn", 58),
    (48, "q15 no\nalpha 1 1\nweights 1 0\n", 57, "45 BadEvidence", 51),
    # the end is removed, comes twice, or has no LF
    (57, "", 58, "27 EndsEarly", 58),
    (58, "end\n", 58, "28 AfterEnd", 59),
    (57, "end", 58, "27 EndsEarly", 58),
]

# Each row is as in `EDITS`, of lines of version 2.
SHARED_EDITS = [
    (0, "crn certificate 3\n", 1, "21 BadHeader at line 1"),
    (4, "", 5, "26 WrongOrder at line 5"),
    (5, "vector\n", 6, "24 BadField at line 6"),
    # a line has at most 400 numbers, of any length
    (5, f"vector {500 * '7'}\n", 6, "25 NumberWide at line 6"),
    (5, f"vector{401 * ' 7'}\n", 6, "24 BadField at line 6"),
    (8, "section rank\n", 9, "24 BadField at line 9"),
    (48, "", 49, "26 WrongOrder at line 49"),
    (48, "section confluence\n", 49, "24 BadField at line 49"),
    (53, "refa 2\n", 54, "41 BadLeaf at line 54"),
    (53, "refb 1\n", 54, "41 BadLeaf at line 54"),
    (53, "refa 0\n", 54, "24 BadField at line 54"),
    (53, "refa 4\n", 54, "24 BadField at line 54"),
    (53, "refa 1 1\n", 54, "24 BadField at line 54"),
    # a list that is shared has another length than the cut that names it
    (5, "vector 0 1 0\n", 6, "46 WrongShape at line 54"),
    (5, "vector 0\n", 6, "46 WrongShape at line 54"),
    (5, f"vector{400 * ' 7'}\n", 6, "46 WrongShape at line 54"),
    (56, "refa 3\n", 57, "41 BadLeaf at line 57"),
    (57, "", 58, "43 TreeEndsEarly at line 58"),
]

# Each row: what it shows, the lines, how many of them come before an edit, the edit, and those that it takes the place
# of are up to this one.
GOOD = [
    ("version 1", BOTH_WAYS, 0, "", 0),
    ("version 2", SHARED, 0, "", 0),
    ("a cut with its own numbers", SHARED, 53, "cuta 0 1\n", 54),
    ("another cut of the same prefix", BOTH_WAYS, 43, "cuta -3 4\n", 44),
]


def edited(lines, before, text, after):
    """The lines up to the first place, then this text, and then the lines from the second place on."""
    return "".join(f"{line}\n" for line in lines[:before]) + text + "".join(f"{line}\n" for line in lines[after:])


def ends_early(document, length):
    """The fault of the first bytes of the document of version 1: in a tree, or elsewhere."""
    line = document[:length].count("\n") + 1
    is_in_a_tree = 41 <= line <= 48 or 50 <= line <= 57
    return f"{'43 TreeEndsEarly' if is_in_a_tree else '27 EndsEarly'} at line {line}"


def tries(program):
    for before, line, fault in SPELLINGS:
        yield f"a spelling is rejected: {line!r}", *is_judged(program, edited(BOTH_WAYS, before, f"{line}\n", before + 1), fault)
    for lines, rows in [(BOTH_WAYS, EDITS), (SHARED, SHARED_EDITS)]:
        for before, text, after, fault in rows:
            yield f"an edit is rejected: {text!r} after {before} lines", *is_judged(program, edited(lines, before, text, after), fault)
    for version, lines, more in [(1, BOTH_WAYS, 0), (2, SHARED, MORE)]:
        for before, text, after, name, at in TREE_EDITS:
            document = edited(lines, before + more, text, after + more)
            yield f"an edit is rejected in version {version}: {text!r} after {before} lines", \
                *is_judged(program, document, f"{name} at line {at + more}")
    for name, lines, before, text, after in GOOD:
        yield f"a document is accepted: {name}", *ends_so(program, "check", edited(lines, before, text, after), DONE, REPORT)
    document = edited(BOTH_WAYS, 0, "", 0)
    for length in range(len(document)):
        yield f"the first {length} bytes are rejected", *is_judged(program, document[:length], ends_early(document, length))
