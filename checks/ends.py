"""The certificate of `A <-> B`, by hand, and edits of it with their answers, for the checks of both programs."""

import re

import second_opinion

ENDS = """\
crn certificate 1
network 2
A -> B
B -> A
q1 1
label 1 1
up 0 1
depth 0 1
q2 1 1
label 1 1
from 0 1
fromdepth 0 1
to 0 2
todepth 0 1
level 0
exit 0
q3 yes
back 2 1
q4 yes
q5 1
base 1
dual -1 0
comb 1 -1
q6 0 0
base 1
dual -1 0
comb 1 -1
q7 yes
vec 1 1
q8 yes
vec 1 1
q9 yes 1
q10 yes
q11 yes
side 1 0 1
q12 none zero
tie 1 0 0
tie 0 1 0
q13 none
q14 yes
split
split
flat
cuta 0 1
split
cuta 1 0
cutb 1 1
cuta 1 0
q15 yes
split
split
flat
cuta 0 1
split
cuta 1 0
cutb 1 1
cuta 1 0
end
""".splitlines()

REPORT = """\
crn report 1
species 2: A B
complexes 2: A; B
reactions 2
Q1 linkage classes: 1
  class 1: A; B
Q2 strong classes: 1, terminal 1
  strong 1: A; B (terminal)
Q3 reversible: yes
Q4 weakly reversible: yes
Q5 rank: 1
  independent reactions: 1
Q6 deficiency: 0, classes 0
Q7 positively dependent: yes
  positive combination: 1 1
Q8 conservative: yes
  positive law: 1 1
Q9 deficiency zero theorem: hypotheses hold, weakly reversible
Q10 deficiency one theorem: hypotheses hold
Q11 regular: yes
Q12 confluence vector: not applicable, no vector but zero
Q13 signal: not applicable
Q14 concordant: yes
Q15 strongly concordant: yes
open: 0
"""

# the same with questions 5 to 15 open
OPENED = [*ENDS[:19], *"""\
q5 open wide 1 0 1 1 2
q6 open rests 5
q7 open wide 2 0 1 1 2
q8 open wide 1 0 1 1 2
q9 open rests 5
q10 open rests 6
q11 open rests 7
q12 open rests 11
q13 open rests 12
q14 open budget 1
q15 open budget 1
end
""".splitlines()]

OPENED_REPORT = REPORT[: REPORT.index("Q5")] + """\
Q5 rank: open, wide
  system 1
  index 1
  basis: 1 2
Q6 deficiency: open, rests on Q5
Q7 positively dependent: open, wide
  system 2
  index 1
  basis: 1 2
Q8 conservative: open, wide
  system 1
  index 1
  basis: 1 2
Q9 deficiency zero theorem: open, rests on Q5
Q10 deficiency one theorem: open, rests on Q6
Q11 regular: open, rests on Q7
Q12 confluence vector: open, rests on Q11
Q13 signal: open, rests on Q12
Q14 concordant: open, budget 1
Q15 strongly concordant: open, budget 1
open: 11
"""

# the number of a line, what is there instead or nothing, and the code and the line of the fault
EDITS = [
    (3, "A  -> B", 22, 4), (5, "foo", 23, 5), (5, None, 26, 5), (6, "label 1 01", 24, 6), (7, "up 0 0", 31, 8),
    (9, "q2 1 2", 24, 9), (16, "exit 1", 31, 16), (18, "back 1 1", 32, 18), (19, "q4 no 1", 37, 19),

    (20, "q5 2", 24, 21), (20, "q5 3", 24, 20), (20, "q5 0", 24, 20), (20, "q5 yes", 24, 20), (20, "q5 open", 24, 20),
    (20, "q6 0 0", 26, 20), (21, None, 26, 21), (21, "base 3", 24, 21), (21, "base 0", 24, 21), (21, "base 1 2", 24, 21),
    (21, "base", 24, 21), (22, "dual 0 0", 33, 22), (22, "dual 1 1", 33, 22), (22, "dual -1", 24, 22),
    (22, "dual -1 0 0", 24, 22), (22, "dual 4722366482869645213696 0", 25, 22), (22, "dual -4722366482869645213696 0", 25, 22),
    (22, "comb 1 -1", 26, 22), (23, "comb 1 1", 34, 23), (23, "comb 0 0", 34, 23), (23, "comb -1 1", 34, 23),
    (23, "comb 2 -1", 34, 23), (23, "comb 1", 24, 23), (23, None, 26, 23),
    (24, "q6 1 0", 36, 24), (24, "q6 0 1", 36, 24), (24, "q6 0 2", 36, 24), (24, "q6 1 1", 36, 24), (24, "q6 0 3", 24, 24),
    (24, "q6 0", 24, 24), (24, "q6 0 0 0", 24, 24), (24, "q6 -1 0", 24, 24), (25, "base 3", 24, 25), (26, "dual 0 0", 33, 26),
    (26, "dual 1 1", 33, 26), (27, "comb 1 1", 34, 27), (27, "comb 0 0", 34, 27), (27, None, 26, 27),
    (28, "q7 no", 26, 29), (28, "q7", 24, 28), (28, "q7 no 1", 24, 28), (29, "vec 1 2", 35, 29), (29, "vec 0 0", 35, 29),
    (29, "vec -1 -1", 35, 29), (29, "vec 1", 24, 29), (29, "vec 1180591620717411303424 1", 35, 29),
    (29, "vec 4722366482869645213696 1", 25, 29), (29, "cut 1 0", 26, 29),
    (30, "q8 no", 26, 31), (31, "vec 1 2", 35, 31), (31, "vec 0 0", 35, 31), (31, "vec 1 0", 35, 31),
    (31, "vec 4722366482869645213695 4722366482869645213694", 35, 31), (31, "vec 1 01", 24, 31),

    (32, "q9 yes 0", 37, 32), (32, "q9 no 1", 36, 32), (32, "q9 no 0", 24, 32), (32, "q9 no 2", 36, 32), (32, "q9 no 3", 24, 32),
    (32, "q9 yes 2", 24, 32), (32, "q9 yes", 24, 32), (32, "q9 1", 24, 32), (32, "q9 yes 1 1", 24, 32), (32, "q9 yes 01", 24, 32),
    (33, "q10 no terminal 1 2", 37, 33), (33, "q10 no class 1 2", 37, 33), (33, "q10 no sum 0", 37, 33),
    (33, "q10 no sum 1", 37, 33), (33, "q10 no terminal 2 2", 24, 33), (33, "q10 no terminal 1 1", 24, 33),
    (33, "q10 no class 1 1", 24, 33), (33, "q10 no class 1 3", 24, 33), (33, "q10 no sum 3", 24, 33), (33, "q10 no", 24, 33),
    (33, "q10 yes 1", 24, 33), (33, "q10 no 1", 24, 33),

    (34, "q11 no dependence", 37, 34), (34, "q11 no terminal 1 2", 37, 34), (34, "q11 no cycle 3", 24, 34),
    (34, "q11 no terminal 2 2", 24, 34), (34, "q11 no cycle 1", 26, 35), (34, "q11 no", 24, 34), (34, "q11 yes 1", 24, 34),
    (35, "side 2 0 1", 24, 35), (35, "side 1 1 0", 35, 35), (35, "side 1 1 1", 35, 35), (35, "side 1 0 0", 35, 35),
    (35, "side 1 0 2", 24, 35), (35, "side 1 0", 24, 35), (35, "side 0 1", 24, 35), (35, None, 26, 35), (35, "walk 1 2", 26, 35),
    (36, "q12 none regular", 37, 36), (36, "q12 yes", 26, 37), (36, "q12 none plane 1 1", 24, 36),
    (36, "q12 none plane 1 3", 24, 36), (36, "q12 none plane 1 2", 26, 37), (36, "q12 no", 24, 36), (36, "q12 none", 24, 36),
    (37, "tie 0 1 0", 35, 37), (37, "tie 1 1 0", 35, 37), (37, "tie 1 0", 24, 37), (37, "tie 1 0 0 0", 24, 37),
    (37, "tie 4722366482869645213696 0 0", 25, 37), (38, "tie 0 0 1", 35, 38), (38, "tie 0 0 0", 35, 38), (38, None, 26, 38),

    (39, "q13 no", 37, 39), (39, "q13 yes 1", 37, 39), (39, "q13 yes -1", 37, 39), (39, "q13 yes 2", 24, 39), (39, "q13 yes", 24, 39),
    (39, "q13 none 1", 24, 39), (39, "q13 open wide 5 0 1 1 2 3", 24, 39),

    (41, "flat", 42, 41), (41, "cutb 1 1", 41, 41), (43, "flat 1", 24, 43), (43, "cuta 0 1", 41, 43), (43, "split", 42, 43),
    (44, "cuta 0 -1", 41, 44), (44, "cuta 0 0", 41, 44), (44, "flat", 42, 44), (44, "split", 42, 44), (44, "refa 1", 23, 44),
    (44, "refb 1", 23, 44), (44, "cuta 0 1 0", 24, 44), (44, "cuta 0", 24, 44), (44, "cuta 0 4722366482869645213696", 25, 44),
    (44, "tie 1 0 0", 43, 44), (44, "q15 yes", 43, 44), (44, "end", 43, 44), (44, "foo", 23, 44), (44, "split 1", 24, 44),
    (47, "cutb 1 0", 41, 47), (47, "cutb -1 -1", 41, 47), (47, "cuta 1 0", 41, 47), (48, None, 43, 48), (48, "cuta 0 1", 41, 48),
    (53, "cuta 0 -1", 41, 53), (57, None, 43, 57), (56, "cutb 1 0", 41, 56),
]

# further lines in the place of others: what is done, the first and the last line, the new ones, the code and its line
BLOCK_EDITS = [
    ("a node is added after the first tree", 48, 48, ["cuta 1 0", "cuta 1 0"], 44, 49),
    ("a node is added after the second tree", 57, 57, ["cuta 1 0", "cuta 1 0"], 44, 58),
    ("a split is added where no tree ended", 39, 39, ["q13 none", "split"], 26, 40),
    ("a wrong pair", 40, 48, ["q14 no", "alpha 1 1", "weights 1 0"], 45, 42),
    ("a pair without a change", 40, 48, ["q14 no", "alpha 0 0", "weights 1 1"], 45, 42),
    ("a pair in another order", 40, 48, ["q14 no", "weights 1 0", "alpha 1 1"], 26, 41),
    ("a pair with a number less", 40, 48, ["q14 no", "alpha 1", "weights 1 0"], 24, 41),
    ("a wrong pair for the strong table", 49, 57, ["q15 no", "alpha 1 1", "weights 1 0"], 45, 51),
    ("question 9 is decided over an open one", 20, 27, ["q5 open wide 1 0 1 1 2", "q6 open rests 5"], 37, 26),
    ("question 10 is decided over an open one", 24, 27, ["q6 open rests 5"], 37, 30),
    ("question 11 is a yes over an open one", 28, 29, ["q7 open wide 2 0 1 1 2"], 37, 33),
    ("question 12 is decided over an open one", 34, 35, ["q11 open rests 7"], 37, 35),
    ("question 13 is decided over an open one", 36, 38, ["q12 open rests 11"], 37, 37),
]

# the number of a line of the open certificate, and a head there that is refused as a field
OPENED_EDITS = [
    (20, "q5 open wide 2 0 1 1 2"), (20, "q5 open wide 1 1 1 1 2"), (20, "q5 open wide 1 0 0 1 2"),
    (20, "q5 open wide 1 0 5 1 2"), (20, "q5 open wide 1 0 1 1 1"), (20, "q5 open wide 1 0 1 2 1"),
    (20, "q5 open wide 1 0 1 1"), (20, "q5 open wide 1 0 1 1 2 3"), (20, "q5 open wide 1 0 1 0 2"),
    (20, "q5 open wide 1 0 1 1 5"), (20, "q5 open wide"), (20, "q5 open rests 5"), (20, "q5 open budget 1"),
    (20, "q5 open Wide 1 0 1 1 2"), (20, "q5 open wide 01 0 1 1 2"),
    (21, "q6 open rests 4"), (21, "q6 open rests"), (21, "q6 open rests 5 5"), (21, "q6 open wide 1 0 1 1 2"),
    (21, "q6 open wide 3 0 1 1 2"), (21, "q6 open wide 3 2 1 1 2"), (21, "q6 open wide 3 1 5 1 2"),
    (21, "q6 open wide 3 1 1 1 5"), (21, "q6 open budget 1"),
    (22, "q7 open wide 1 0 1 1 2"), (22, "q7 open rests 5"), (22, "q7 open budget 1"), (22, "q7 open wide 2 0 1 2 2"),
    (23, "q8 open wide 2 0 1 1 2"), (23, "q8 open rests 7"), (23, "q8 open budget 20000"), (23, "q8 open wide 1 0 1 1 2 3"),
    (24, "q9 open rests 6"), (24, "q9 open wide 1 0 1 1 2"), (24, "q9 open budget 1"), (24, "q9 open"),
    (25, "q10 open rests 5"), (25, "q10 open wide 3 1 1 1 2"), (25, "q10 open rests 6 6"),
    (26, "q11 open rests 2"), (26, "q11 open wide 2 0 1 1 2"), (26, "q11 open rests 10"),
    (27, "q12 open rests 7"), (27, "q12 open wide 2 0 1 1 2"), (27, "q12 open wide 4 0 6 1 2"), (27, "q12 open wide 4 0 1 1 2 3"),
    (27, "q12 open wide 4 1 1 1 2"),
    (28, "q13 open rests 11"), (28, "q13 open wide 4 0 1 1 2"), (28, "q13 open wide 5 0 1 1 2 3"), (28, "q13 open budget 0"),
    (28, "q13 open budget 100001"),
    (29, "q14 open budget 0"), (29, "q14 open budget 100001"), (29, "q14 open budget 01"), (29, "q14 open rests 5"),
    (29, "q14 open wide 1 0 1 1 2"), (29, "q14 open wide 2 0 1 1 2 3"), (30, "q15 open budget"), (30, "q15 open rests 14"),
]

# open heads that are as good
OPENED_OTHERS = [
    (20, "q5 open wide 1 0 4 3 4"), (20, "q5 open wide 1 0 2 1 4"), (21, "q6 open wide 3 1 4 1 2"),
    (21, "q6 open wide 3 1 1 2 3"), (22, "q7 open wide 2 0 3 2 4"), (23, "q8 open wide 1 0 4 1 3"),
    (27, "q12 open wide 4 0 5 1 3"), (28, "q13 open wide 2 0 4 1 3"), (28, "q13 open budget 100000"),
    (29, "q14 open budget 100000"), (29, "q14 open wide 2 0 1 1 2"), (30, "q15 open wide 2 0 4 3 4"),
]


# the number of a line of the second version, what is there instead or nothing, the code and its line
SECOND_EDITS = [
    (5, None, 26, 5), (9, "section rank", 24, 9), (9, "section", 24, 9), (25, "section dependence", 24, 25), (6, "vector", 24, 6),
    (34, "section theorems", 24, 34), (39, "section theorem", 24, 39), (42, "section theorems", 24, 42),
    (48, "q13 no", 37, 48), (48, "q13 yes 1", 37, 48), (48, "q13 yes -1", 37, 48), (48, "q13 yes 2", 24, 48), (48, "q13 yes", 24, 48),
    (48, "q13 none 1", 24, 48), (48, "q13 open wide 5 0 1 1 2 3", 24, 48), (48, None, 26, 48), (48, "section confluence", 26, 48),
    (48, "shelves 1", 26, 48), (48, "refa 1", 26, 48), (49, "section confluence", 24, 49), (49, None, 26, 49),
    (54, "refa 2", 41, 54), (54, "refa 4", 24, 54), (54, "refa 0", 24, 54), (54, "refa 1 1", 24, 54), (54, "refb 1", 41, 54),
    (6, "vector 0 1 0", 46, 54), (57, "refa 3", 41, 57), (58, None, 43, 58), (53, "refa 1", 41, 53), (1, "crn certificate 3", 21, 1),
]


def second_version(lines):
    """A certificate of version 1 in version 2, with its sections, and with a table of what its tree nodes multiply by; and
    for each line, counted from 1, its number there."""
    lists = list(dict.fromkeys(line.split(" ", 1)[1] for line in lines if re.match("cut[ab] ", line)))
    count = int(lines[1].split(" ")[1]) if lines[1].startswith("network ") else 0
    made, numbers = ["crn certificate 2"], {1: 1}
    for at, line in enumerate(lines[1:], 2):
        word, _, rest = line.partition(" ")
        if at == 3 + count:
            made += [f"vectors {len(lists)}", *(f"vector {entry}" for entry in lists)]
        if re.fullmatch(r"q\d+", word) and int(word[1:]) in second_opinion.SECTIONS:
            made.append(f"section {second_opinion.SECTIONS[int(word[1:])]}")
        made.append(f"ref{word[3]} {lists.index(rest) + 1}" if re.match("cut[ab] ", line) else line)
        numbers[at] = len(made)
    return made, numbers


def replaced(lines, first, last, new):
    return lines[: first - 1] + new + lines[last:]


def edited():
    """What is changed in the certificate in version 1, the lines, and the code and the line of the fault."""
    for at, line, code, place in EDITS:
        yield f"line {at} is {line}", replaced(ENDS, at, at, [] if line is None else [line]), code, place
    for name, first, last, new, code, place in BLOCK_EDITS:
        yield name, replaced(ENDS, first, last, new), code, place
    yield "the end is there twice", [*ENDS, "end"], 28, len(ENDS) + 1
    yield "the line of labels is too long", replaced(ENDS, 6, 6, ["label" + " 1" * 8190]), 30, 6
    yield "the line of labels is as long as can be", replaced(ENDS, 6, 6, ["label" + " 1" * 8189 + " "]), 24, 6


def second_edited():
    """The same of the certificate in version 2."""
    full, _ = second_version(ENDS)
    for at, line, code, place in SECOND_EDITS:
        yield f"version 2, line {at} is {line}", replaced(full, at, at, [] if line is None else [line]), code, place


def opened_edited():
    """The same of the open certificate: each is refused as a field."""
    for at, line in OPENED_EDITS:
        yield f"the open certificate where line {at} is {line}", replaced(OPENED, at, at, [line]), 24, at


def opened_others():
    for at, line in OPENED_OTHERS:
        yield f"the open certificate where line {at} is {line}", replaced(OPENED, at, at, [line])


def truncated():
    """For each length the first bytes of the certificate, and the code and the line of the fault."""
    document, word = "".join(f"{line}\n" for line in ENDS).encode(), set(second_opinion.TREE[2])
    in_tree = [line.split(" ")[0] in word for line in ENDS]
    for size in range(len(document)):
        at = document[:size].count(b"\n")
        yield size, document[:size], 43 if in_tree[at] else 27, at + 1
