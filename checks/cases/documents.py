"""Documents that were written by hand, with one part in place of another."""

from .runs import DONE, REJECTED, ends_so

# The document of `A <-> B -> C` in version 2.
DOCUMENT = """\
crn certificate 2
network 3
A -> B
B -> A
B -> C
vectors 0
section graph
q1 1
label 1 1 1
up 0 1 3
depth 0 1 2
q2 2 1
label 1 1 2
from 0 1 0
fromdepth 0 1 0
to 0 2 0
todepth 0 1 0
level 1 0
exit 3 0
q3 no 3
q4 no 3
section rank
q5 2
base 1 3
dual 1 0 0
dual 0 0 1
comb 1 -1 0
q6 0 0
base 1 3
dual 1 0 0
dual 0 0 1
comb 1 -1 0
section dependence
q7 no
cut 1 1 0
q8 yes
vec 1 1 1
section theorems
q9 yes 0
q10 yes
section confluence
q11 no dependence
q12 none regular
q13 none
section concordance
q14 yes
split
split
split
flat
cutb 1 1 1
cuta -1 1 0
split
cuta 1 0 0
cuta 1 1 0
cuta 1 -1 0
q15 yes
split
split
split
flat
cuta 0 -1 0
cuta -1 0 0
split
cuta 1 0 0
split
cuta 1 1 0
cutb 1 1 1
cuta 1 1 0
cuta 1 0 0
end
"""

REPORT_OF_DOCUMENT = """\
crn report 1
species 3: A B C
complexes 3: A; B; C
reactions 3
Q1 linkage classes: 1
  class 1: A; B; C
Q2 strong classes: 2, terminal 1
  strong 1: A; B
  strong 2: C (terminal)
Q3 reversible: no
  reaction 3: B -> C
Q4 weakly reversible: no
  reaction 3: B -> C
Q5 rank: 2
  independent reactions: 1 3
Q6 deficiency: 0, classes 0
Q7 positively dependent: no
  multipliers: 1 1 0
Q8 conservative: yes
  positive law: 1 1 1
Q9 deficiency zero theorem: hypotheses hold, not weakly reversible
Q10 deficiency one theorem: hypotheses hold
Q11 regular: no, not positively dependent
Q12 confluence vector: not applicable, not regular
Q13 signal: not applicable
Q14 concordant: yes
Q15 strongly concordant: yes
open: 0
"""

# Each line of version 2 that version 1 has not, or the first, and what is there in version 1.
FIRST_VERSION = [
    ("certificate 2\nnetwork 3", "certificate 1\nnetwork 3"),
    ("vectors 0\nsection graph\n", ""),
    ("section rank\n", ""),
    ("section dependence\n", ""),
    ("section theorems\n", ""),
    ("section confluence\n", ""),
    ("section concordance\n", ""),
]

# Each row: what it shows, a part of the document, and what comes in its place.
OTHER_PROOFS = [
    ("other levels", "level 1 0", "level 3 2"),
    ("another dual", "dual 1 0 0", "dual -7 0 0"),
    ("a multiple of a combination", "comb 1 -1 0", "comb 3 -3 0"),
    ("a shared list that nothing names", "vectors 0", "vectors 1\nvector 0 -5 7"),
]

# Each row: a part of the document, what comes in its place, and the line that says the fault.
FAULTS = [
    ("certificate 2", "certificate 3", "rejected 21 BadHeader at line 1\n"),
    ("network 3", "network 03", "rejected 22 BadNetwork at line 2\n"),
    ("network 3", "network 4", "rejected 22 BadNetwork at line 6\n"),
    ("B -> A", "B  -> A", "rejected 22 BadNetwork at line 5\n"),
    ("B -> C", "B -> A", "rejected 22 BadNetwork at line 5\n"),
    ("vectors 0\n", "", "rejected 26 WrongOrder at line 6\n"),
    ("vectors 0", "vectors 1", "rejected 26 WrongOrder at line 7\n"),
    ("section graph", "section rank", "rejected 24 BadField at line 7\n"),
    ("section graph\n", "", "rejected 26 WrongOrder at line 7\n"),
    ("q1 1", "q1 0", "rejected 24 BadField at line 8\n"),
    ("q1 1", "q1 2", "rejected 31 WrongClasses at line 9\n"),
    ("q1 1", "q1  1", "rejected 24 BadField at line 8\n"),
    ("label 1 1 1", "label 1 1 01", "rejected 24 BadField at line 9\n"),
    ("label 1 1 1", "label 1 1", "rejected 24 BadField at line 9\n"),
    ("label 1 1 1", "label 2 1 1", "rejected 24 BadField at line 9\n"),
    ("up 0 1 3", "up 0 1 1", "rejected 31 WrongClasses at line 11\n"),
    ("up 0 1 3", "upp 0 1 3", "rejected 23 UnknownWord at line 10\n"),
    ("q2 2 1", "q2 2 2", "rejected 36 WrongNumber at line 19\n"),
    ("label 1 1 2", "label 1 1 1", "rejected 31 WrongClasses at line 13\n"),
    ("level 1 0", "level 0 0", "rejected 31 WrongClasses at line 18\n"),
    ("exit 3 0", "exit 0 0", "rejected 31 WrongClasses at line 19\n"),
    ("q3 no 3", "q3 no 1", "rejected 37 WrongVerdict at line 20\n"),
    ("q4 no 3", "q4 yes", "rejected 37 WrongVerdict at line 21\n"),
    ("q4 no 3", "q5 1", "rejected 26 WrongOrder at line 21\n"),
    ("section rank", "section graph", "rejected 24 BadField at line 22\n"),
    ("q5 2", "q5 0", "rejected 24 BadField at line 23\n"),
    ("q5 2", "q5 4", "rejected 24 BadField at line 23\n"),
    ("q5 2", "q5 3", "rejected 24 BadField at line 24\n"),
    ("base 1 3", "base 3 1", "rejected 24 BadField at line 24\n"),
    ("dual 1 0 0", "dual 0 0 0", "rejected 33 NotIndependent at line 25\n"),
    ("comb 1 -1 0", "comb 1 1 0", "rejected 34 NotSpanned at line 27\n"),
    ("comb 1 -1 0", "comb 0 0 0", "rejected 34 NotSpanned at line 27\n"),
    ("q6 0 0", "q6 1 0", "rejected 36 WrongNumber at line 28\n"),
    ("q6 0 0", "q6 0 2", "rejected 36 WrongNumber at line 28\n"),
    # a base of one reaction is due
    ("q6 0 0", "q6 0 1", "rejected 24 BadField at line 29\n"),
    ("section dependence\n", "", "rejected 26 WrongOrder at line 33\n"),
    ("q7 no", "q7 maybe", "rejected 24 BadField at line 34\n"),
    ("cut 1 1 0", "cut 1 0 0", "rejected 35 BadVector at line 35\n"),
    ("cut 1 1 0", "cut 0 0 0", "rejected 35 BadVector at line 35\n"),
    ("vec 1 1 1", "vec 1 1 2", "rejected 35 BadVector at line 37\n"),
    ("vec 1 1 1", "vec 0 0 0", "rejected 35 BadVector at line 37\n"),
    # 2^72
    ("vec 1 1 1", "vec 4722366482869645213696 1 1", "rejected 25 NumberWide at line 37\n"),
    ("section theorems\n", "", "rejected 26 WrongOrder at line 38\n"),
    ("q9 yes 0", "q9 yes 1", "rejected 37 WrongVerdict at line 39\n"),
    ("q9 yes 0", "q9 yes 2", "rejected 24 BadField at line 39\n"),
    ("q9 yes 0", "q9 no 1", "rejected 36 WrongNumber at line 39\n"),
    ("q9 yes 0", "q9 no 0", "rejected 24 BadField at line 39\n"),
    ("q10 yes", "q10 no terminal 1 2", "rejected 37 WrongVerdict at line 40\n"),
    ("q10 yes", "q10 no terminal 2 2", "rejected 24 BadField at line 40\n"),
    ("q10 yes", "q10 no class 1 2", "rejected 37 WrongVerdict at line 40\n"),
    ("q10 yes", "q10 no sum 0", "rejected 37 WrongVerdict at line 40\n"),
    ("q10 yes", "q10 open rests 5", "rejected 24 BadField at line 40\n"),
    ("section confluence\n", "", "rejected 26 WrongOrder at line 41\n"),
    ("section confluence", "section theorems", "rejected 24 BadField at line 41\n"),
    ("q11 no dependence", "q11 yes", "rejected 37 WrongVerdict at line 42\n"),
    ("q11 no dependence", "q11 no terminal 1 2", "rejected 37 WrongVerdict at line 42\n"),
    ("q11 no dependence", "q11 no terminal 2 2", "rejected 24 BadField at line 42\n"),
    ("q11 no dependence", "q11 no cycle 1\nwalk 1 2", "rejected 37 WrongVerdict at line 42\n"),
    ("q11 no dependence", "q11 no cycle 4", "rejected 24 BadField at line 42\n"),
    ("q11 no dependence", "q11 open rests 7", "rejected 37 WrongVerdict at line 43\n"),
    ("q11 no dependence", "q11 open rests 6", "rejected 24 BadField at line 42\n"),
    ("q12 none regular", "q12 none zero\ntie 1 0 0 0\ntie 0 1 0 0\ntie 0 0 1 0", "rejected 37 WrongVerdict at line 43\n"),
    ("q12 none regular", "q12 none plane 1 1", "rejected 24 BadField at line 43\n"),
    ("q12 none regular", "q12 open rests 7", "rejected 24 BadField at line 43\n"),
    ("q13 none\n", "", "rejected 26 WrongOrder at line 44\n"),
    ("q13 none", "q13 no", "rejected 37 WrongVerdict at line 44\n"),
    ("q13 none", "q13 open budget 0", "rejected 24 BadField at line 44\n"),
    ("section concordance\n", "", "rejected 26 WrongOrder at line 45\n"),
    ("section concordance", "section confluence", "rejected 24 BadField at line 45\n"),
    ("q14 yes", "q15 yes", "rejected 26 WrongOrder at line 46\n"),
    ("q14 yes", "q14 yes 1", "rejected 24 BadField at line 46\n"),
    ("q14 yes", "q14 open rests 5", "rejected 24 BadField at line 46\n"),
    ("q14 yes", "q14 open budget 0", "rejected 24 BadField at line 46\n"),
    ("q14 yes", "q14 open budget 100001", "rejected 24 BadField at line 46\n"),
    ("q14 yes", "q14 open wide 1 0 1 1 2 3", "rejected 24 BadField at line 46\n"),
    # what follows an open head is no tree's
    ("q14 yes", "q14 open budget 1", "rejected 26 WrongOrder at line 47\n"),
    ("flat", "split", "rejected 42 NodeNotAllowed at line 50\n"),
    ("cutb 1 1 1", "cutb 1 1", "rejected 24 BadField at line 51\n"),
    ("cutb 1 1 1", "refb 1", "rejected 24 BadField at line 51\n"),
    ("cutb 1 1 1", "cutb 1 1 2", "rejected 41 BadLeaf at line 51\n"),
    ("cuta -1 1 0", "flat", "rejected 42 NodeNotAllowed at line 52\n"),
    ("cuta 1 -1 0\nq15 yes\n", "q15 yes\n", "rejected 43 TreeEndsEarly at line 56\n"),
    ("q15 yes\n", "cutb 1 1 1\nq15 yes\n", "rejected 44 TreeGoesOn at line 57\n"),
    ("cuta 1 0 0\nend\n", "end\n", "rejected 43 TreeEndsEarly at line 70\n"),
    ("end\n", "cuta 1 0 0\nend\n", "rejected 44 TreeGoesOn at line 71\n"),
    ("end\n", "End\n", "rejected 23 UnknownWord at line 71\n"),
    ("end\n", "", "rejected 27 EndsEarly at line 71\n"),
    ("end\n", "end", "rejected 27 EndsEarly at line 71\n"),
    ("end\n", "end\n\n", "rejected 28 AfterEnd at line 72\n"),
]

# A CR is a byte of its line, and no field, word or name has one.
RETURNS = [
    ("crn certificate 2\n", "crn certificate 2\r\n", "rejected 21 BadHeader at line 1\n"),
    ("network 3\n", "network 3\r\n", "rejected 22 BadNetwork at line 2\n"),
    ("A -> B\n", "A -> B\r\n", "rejected 22 BadNetwork at line 5\n"),
    ("q1 1\n", "q1 1\r\n", "rejected 24 BadField at line 8\n"),
    ("q3 no 3\n", "q3 no 3\r\n", "rejected 24 BadField at line 20\n"),
    ("end\n", "end\r\n", "rejected 23 UnknownWord at line 71\n"),
]

# Each row: what it shows, how the line starts, how long it is, and the line that says the fault.
LONG_LINES = [
    ("a number with too many digits", "label ", 16_384, "rejected 24 BadField at line 9\n"),
    ("one byte more", "label ", 16_385, "rejected 30 LineTooLong at line 9\n"),
    ("a word that is not known", "label", 16_384, "rejected 23 UnknownWord at line 9\n"),
    ("such a word with one byte more", "label", 16_385, "rejected 30 LineTooLong at line 9\n"),
]

# The document of `2A <-> A + B <-> 2B` in version 1. Its trees of question 13 put the one terminal class on the middle
# shelf, and rule the upper one out by the two cut pairs, which ask for opposite signs of one difference.
LINE = """\
crn certificate 1
network 4
2A -> A + B
A + B -> 2A
A + B -> 2B
2B -> A + B
q1 1
label 1 1 1
up 0 1 3
depth 0 1 2
q2 1 1
label 1 1 1
from 0 1 3
fromdepth 0 1 2
to 0 2 4
todepth 0 1 2
level 0
exit 0
q3 yes
back 2 1 4 3
q4 yes
q5 1
base 1
dual -1 0
comb 1 -1
comb 1 1
comb 1 -1
q6 1 1
base 1
dual -1 0
comb 1 -1
comb 1 1
comb 1 -1
q7 yes
vec 1 1 1 1
q8 yes
vec 1 1
q9 no 1
q10 yes
q11 yes
side 1 0 1 1
side 3 0 0 1
q12 yes
vec 1 -2 1
tie 1 0 0
tie 1 -1 0
q13 no
split
flat
cuta 0 0 0 -1 1
split
flat
cuta 0 0 0 1 -1
q14 no
alpha 1 2 0 -1
weights 0 1 0 0
q15 yes
split
split
flat
cuta -1 0
split
cuta 1 0
cutb 1 1
cuta 1 0
end
"""

REPORT_OF_LINE = """\
crn report 1
species 2: A B
complexes 3: 2A; A + B; 2B
reactions 4
Q1 linkage classes: 1
  class 1: 2A; A + B; 2B
Q2 strong classes: 1, terminal 1
  strong 1: 2A; A + B; 2B (terminal)
Q3 reversible: yes
Q4 weakly reversible: yes
Q5 rank: 1
  independent reactions: 1
Q6 deficiency: 1, classes 1
Q7 positively dependent: yes
  positive combination: 1 1 1 1
Q8 conservative: yes
  positive law: 1 1
Q9 deficiency zero theorem: hypotheses fail, deficiency 1
Q10 deficiency one theorem: hypotheses hold
Q11 regular: yes
Q12 confluence vector: yes
  vector: 1 -2 1
Q13 signal: no
Q14 concordant: no
  sigma: 1 -1
  alpha: 1 2 0 -1
Q15 strongly concordant: yes
open: 0
"""

# Each row: a part of that document, what comes in its place, and the line that says the fault.
LINE_FAULTS = [
    # of a weakly reversible network the first entry that is not zero is positive
    ("vec 1 -2 1", "vec -1 2 -1", "rejected 35 BadVector at line 44\n"),
    ("vec 1 -2 1", "vec 2 -4 2", "rejected 35 BadVector at line 44\n"),
    ("vec 1 -2 1", "vec 1 -1 0", "rejected 35 BadVector at line 44\n"),
    ("vec 1 -2 1", "vec 1 -2", "rejected 24 BadField at line 44\n"),
    ("tie 1 -1 0", "tie 1 0 0", "rejected 35 BadVector at line 46\n"),
    ("tie 1 -1 0", "tie 0 0 0", "rejected 35 BadVector at line 46\n"),
    ("tie 1 -1 0\n", "", "rejected 26 WrongOrder at line 46\n"),
    ("vec 1 -2 1\ntie 1 0 0\n", "tie 1 0 0\n", "rejected 26 WrongOrder at line 44\n"),
    ("side 3 0 0 1", "side 3 1 0 1", "rejected 35 BadVector at line 42\n"),
    ("side 3 0 0 1", "side 2 0 0 1", "rejected 24 BadField at line 42\n"),
    ("side 3 0 0 1", "side 3 0 0 2", "rejected 24 BadField at line 42\n"),
    ("side 3 0 0 1\n", "", "rejected 26 WrongOrder at line 42\n"),
    ("q12 yes\nvec 1 -2 1", "q12 none zero\ntie 1 0 0", "rejected 35 BadVector at line 44\n"),
    (
        "q12 yes\nvec 1 -2 1\ntie 1 0 0\ntie 1 -1 0",
        "q12 none plane 1 2\nvec 1 -2 1\nvec 0 1 -1",
        "rejected 35 BadVector at line 44\n",
    ),
    ("q12 yes\nvec 1 -2 1\ntie 1 0 0\ntie 1 -1 0", "q12 none regular", "rejected 37 WrongVerdict at line 43\n"),
    ("q13 no", "q13 none", "rejected 37 WrongVerdict at line 47\n"),
    ("flat\ncuta 0 0 0 -1 1", "flat\ncuta 0 0 0 1 -1", "rejected 41 BadLeaf at line 50\n"),
    ("cuta 0 0 0 -1 1", "cuta 0 0 0 -1", "rejected 24 BadField at line 50\n"),
    ("cuta 0 0 0 -1 1", "flat", "rejected 42 NodeNotAllowed at line 50\n"),
    # the sums of the second tree are those of the negative of the vector
    ("cuta 0 0 0 1 -1", "cuta 0 0 0 -1 1", "rejected 41 BadLeaf at line 53\n"),
    ("split\nflat\ncuta 0 0 0 1 -1\n", "", "rejected 43 TreeEndsEarly at line 51\n"),
    ("cuta 0 0 0 1 -1\n", "cuta 0 0 0 1 -1\nflat\n", "rejected 44 TreeGoesOn at line 54\n"),
    (
        "q13 no\n",
        "q13 yes 1\nshelves 0\nmu 1 1\nm 2\nweights 0 0 0 0\nq13 no\n",
        "rejected 45 BadEvidence at line 51\n",
    ),
    ("alpha 1 2 0 -1", "alpha 1 2 0 1", "rejected 45 BadEvidence at line 56\n"),
    ("alpha 1 2 0 -1", "alpha 1 2 0", "rejected 24 BadField at line 55\n"),
    ("weights 0 1 0 0", "weights 0 0 0 0", "rejected 45 BadEvidence at line 56\n"),
    # the numbers of the pair do not show discordance by the other table
    ("q14 no", "q14 open budget 1\nq15 no", "rejected 45 BadEvidence at line 57\n"),
    ("q14 no", "q14 yes", "rejected 43 TreeEndsEarly at line 55\n"),
    ("alpha 1 2 0 -1\n", "", "rejected 26 WrongOrder at line 55\n"),
]

# The document of a cycle of three reactions in version 1. It leaves both questions on concordance open.
CYCLE = """\
crn certificate 1
network 3
A -> B
B -> C
C -> A
q1 1
label 1 1 1
up 0 1 2
depth 0 1 2
q2 1 1
label 1 1 1
from 0 1 2
fromdepth 0 1 2
to 0 2 3
todepth 0 2 1
level 0
exit 0
q3 no 1
q4 yes
q5 2
base 1 2
dual -1 0 0
dual 0 0 1
comb 1 -1 -1
q6 0 0
base 1 2
dual -1 0 0
dual 0 0 1
comb 1 -1 -1
q7 yes
vec 1 1 1
q8 yes
vec 1 1 1
q9 yes 1
q10 yes
q11 no cycle 1
walk 1 3 2
q12 none regular
q13 none
q14 open budget 20000
q15 open budget 20000
end
"""

REPORT_OF_CYCLE = """\
crn report 1
species 3: A B C
complexes 3: A; B; C
reactions 3
Q1 linkage classes: 1
  class 1: A; B; C
Q2 strong classes: 1, terminal 1
  strong 1: A; B; C (terminal)
Q3 reversible: no
  reaction 1: A -> B
Q4 weakly reversible: yes
Q5 rank: 2
  independent reactions: 1 2
Q6 deficiency: 0, classes 0
Q7 positively dependent: yes
  positive combination: 1 1 1
Q8 conservative: yes
  positive law: 1 1 1
Q9 deficiency zero theorem: hypotheses hold, weakly reversible
Q10 deficiency one theorem: hypotheses hold
Q11 regular: no, a cycle in a terminal class
  reaction 1, walk: A; C; B
Q12 confluence vector: not applicable, not regular
Q13 signal: not applicable
Q14 concordant: open, budget 20000
Q15 strongly concordant: open, budget 20000
open: 2
"""

# Each row: a part of that document, what comes in its place, and the line that says the fault.
CYCLE_FAULTS = [
    ("walk 1 3 2", "walk 1 2", "rejected 32 WrongWalk at line 37\n"),
    ("walk 1 3 2", "walk 1 3", "rejected 32 WrongWalk at line 37\n"),
    ("walk 1 3 2", "walk 1", "rejected 24 BadField at line 37\n"),
    ("walk 1 3 2", "walk 1 4 2", "rejected 24 BadField at line 37\n"),
    ("q11 no cycle 1", "q11 no cycle 2", "rejected 32 WrongWalk at line 37\n"),
    ("q11 no cycle 1\nwalk 1 3 2", "q11 yes\nside 1 0 1 1\nside 2 0 0 1\nside 3 1 0 0", "rejected 35 BadVector at line 37\n"),
    ("q11 no cycle 1\nwalk 1 3 2", "q11 no dependence", "rejected 37 WrongVerdict at line 36\n"),
]

# The document of `A <-> B` in version 1 up to question 4.
GRAPH_OF_BOTH_WAYS = """\
crn certificate 1
network 2
A -> B
B -> A
q1 1
label 1 1
up 0 1
depth 0 1
q2 1 1
label 1 1
from 0 1
fromdepth 0 1
to 0 2
todepth 0 1
level 0
exit 0
q3 yes
back 2 1
q4 yes
"""

REPORT_OF_BOTH_WAYS = """\
crn report 1
species 2: A B
complexes 2: A; B
reactions 2
Q1 linkage classes: 1
  class 1: A; B
Q2 strong classes: 1, terminal 1
  strong 1: A; B (terminal)
Q3 reversible: yes
Q4 weakly reversible: yes
"""

# Each row: the answers from question 5 on, and their lines of the report.
ANSWERS = [
    (
        "decided",
        """\
q5 1
base 1
dual -1 0
comb 1 -1
q6 0 0
base 1
dual -1 0
comb 1 -1
q7 yes
vec 1 1
q8 yes
vec 1 1
q9 yes 1
q10 yes
q11 yes
side 1 0 1
q12 none zero
tie 1 0 0
tie 0 1 0
q13 none
q14 yes
split
split
flat
cuta 0 1
split
cuta 1 0
cutb 1 1
cuta 1 0
q15 yes
split
split
flat
cuta 0 1
split
cuta 1 0
cutb 1 1
cuta 1 0
end
""",
        """\
Q5 rank: 1
  independent reactions: 1
Q6 deficiency: 0, classes 0
Q7 positively dependent: yes
  positive combination: 1 1
Q8 conservative: yes
  positive law: 1 1
Q9 deficiency zero theorem: hypotheses hold, weakly reversible
Q10 deficiency one theorem: hypotheses hold
Q11 regular: yes
Q12 confluence vector: not applicable, no vector but zero
Q13 signal: not applicable
Q14 concordant: yes
Q15 strongly concordant: yes
open: 0
""",
    ),
    (
        "open",
        """\
q5 open wide 1 0 1 1 2
q6 open rests 5
q7 open wide 2 0 1 1 2
q8 open wide 1 0 1 1 2
q9 open rests 5
q10 open rests 6
q11 open rests 7
q12 open rests 11
q13 open rests 12
q14 open budget 1
q15 open budget 1
end
""",
        """\
Q5 rank: open, wide
  system 1
  index 1
  basis: 1 2
Q6 deficiency: open, rests on Q5
Q7 positively dependent: open, wide
  system 2
  index 1
  basis: 1 2
Q8 conservative: open, wide
  system 1
  index 1
  basis: 1 2
Q9 deficiency zero theorem: open, rests on Q5
Q10 deficiency one theorem: open, rests on Q6
Q11 regular: open, rests on Q7
Q12 confluence vector: open, rests on Q11
Q13 signal: open, rests on Q12
Q14 concordant: open, budget 1
Q15 strongly concordant: open, budget 1
open: 11
""",
    ),
    (
        "wide systems of confluence and concordance, and the greatest budget",
        """\
q5 1
base 1
dual -1 0
comb 1 -1
q6 0 0
base 1
dual -1 0
comb 1 -1
q7 yes
vec 1 1
q8 yes
vec 1 1
q9 yes 1
q10 yes
q11 yes
side 1 0 1
q12 open wide 4 0 5 1 2
q13 open rests 12
q14 open wide 2 0 1 1 2
q15 open budget 100000
end
""",
        """\
Q5 rank: 1
  independent reactions: 1
Q6 deficiency: 0, classes 0
Q7 positively dependent: yes
  positive combination: 1 1
Q8 conservative: yes
  positive law: 1 1
Q9 deficiency zero theorem: hypotheses hold, weakly reversible
Q10 deficiency one theorem: hypotheses hold
Q11 regular: yes
Q12 confluence vector: open, wide
  system 4
  index 5
  basis: 1 2
Q13 signal: open, rests on Q12
Q14 concordant: open, wide
  system 2
  index 1
  basis: 1 2
Q15 strongly concordant: open, budget 100000
open: 4
""",
    ),
]

# Open heads are of their own question, and deficiencies are open or decided as the rank is.
FAULTY_ANSWERS = [
    ("q5 open wide 2 0 1 1 2\n", "rejected 24 BadField at line 20\n"),
    ("q5 open wide 1 0 5 1 2\n", "rejected 24 BadField at line 20\n"),
    ("q5 open wide 1 0 1 1\n", "rejected 24 BadField at line 20\n"),
    ("q5 open budget 1\n", "rejected 24 BadField at line 20\n"),
    ("q5 open wide 1 0 1 1 2\nq6 open rests 4\n", "rejected 24 BadField at line 21\n"),
    ("q5 open wide 1 0 1 1 2\nq6 0 0\n", "rejected 37 WrongVerdict at line 21\n"),
    ("q5 open wide 1 0 1 1 2\nq6 open wide 3 2 1 1 2\n", "rejected 24 BadField at line 21\n"),
    (
        "q5 1\nbase 1\ndual 0 0\ncomb 1 -1\nend\n",
        "rejected 33 NotIndependent at line 22\n",
    ),
    (
        "q5 1\nbase 1\ndual -1 0\ncomb 1 1\nend\n",
        "rejected 34 NotSpanned at line 23\n",
    ),
]


def edited(document, old, new):
    """The document with one part of it in place of another, where it first is."""
    assert old in document
    return document.replace(old, new, 1)


def tries(program):
    first = DOCUMENT
    for old, new in FIRST_VERSION:
        first = edited(first, old, new)
    for name, document, report in [("in version 2", DOCUMENT, REPORT_OF_DOCUMENT), ("in version 1", first, REPORT_OF_DOCUMENT),
                                   ("two trees and a pair", LINE, REPORT_OF_LINE), ("a way round", CYCLE, REPORT_OF_CYCLE),
                                   *((name, edited(DOCUMENT, old, new), REPORT_OF_DOCUMENT) for name, old, new in OTHER_PROOFS),
                                   *((name, GRAPH_OF_BOTH_WAYS + blocks, REPORT_OF_BOTH_WAYS + lines) for name, blocks, lines in ANSWERS)]:
        yield f"a document is accepted: {name}", *ends_so(program, "check", document, DONE, report)
    for document, rows in [(DOCUMENT, [*FAULTS, *RETURNS]), (LINE, LINE_FAULTS), (CYCLE, CYCLE_FAULTS)]:
        for old, new, want in rows:
            yield f"a document is rejected: {new!r} for {old!r}", *ends_so(program, "check", edited(document, old, new), REJECTED, want)
    for blocks, want in FAULTY_ANSWERS:
        yield f"a document is rejected: {blocks!r}", *ends_so(program, "check", GRAPH_OF_BOTH_WAYS + blocks, REJECTED, want)
    for name, start, length, want in LONG_LINES:
        document = edited(DOCUMENT, "label 1 1 1", start.ljust(length, "1"))
        yield f"a document is rejected: {name}", *ends_so(program, "check", document, REJECTED, want)
