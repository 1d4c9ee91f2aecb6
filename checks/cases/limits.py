"""Networks and texts at the limits, and one above them; and sides of very many terms."""

from .reports import ROW
from .runs import DONE, decided_lines, ends_so, has_in_turn, is_refused, is_reported, run

MAX_TEXT = 2_097_152

# what the reports of networks of one or two species end with, from question 11 on
REST = """\
Q11 regular: no, not positively dependent
Q12 confluence vector: not applicable, not regular
Q13 signal: not applicable
Q14 concordant: yes
Q15 strongly concordant: yes
open: 0
"""


def some(amount, name):
    """So much of a species, as a side."""
    return {0: "0", 1: name}.get(amount, f"{amount}{name}")


def all_of(least, most, name):
    """The sides with from the one to the other amount of a species."""
    return "; ".join(some(amount, name) for amount in range(least, most + 1))


def jump(start, end, name):
    return f"{some(start, name)} -> {some(end, name)}\n"


def ladder(least, most, name):
    """The lines that add one to each amount of a species from the one to the other."""
    return "".join(jump(amount, amount + 1, name) for amount in range(least, most))


def jumps(lines):
    """This many lines, each from one of seventeen amounts of A to another."""
    pairs = [(start, end) for start in range(17) for end in range(17) if start != end]
    return "".join(jump(start, end, "A") for start, end in pairs[:lines])


def sixty_species():
    """The report of a network by which the sum of sixty species becomes nothing."""
    names = [f"S{number}" for number in range(1, 61)]
    total = " + ".join(names)
    return f"""\
crn report 1
species 60: {' '.join(names)}
complexes 2: {total}; 0
reactions 1
Q1 linkage classes: 1
  class 1: {total}; 0
Q2 strong classes: 2, terminal 1
  strong 1: {total}
  strong 2: 0 (terminal)
Q3 reversible: no
  reaction 1: {total} -> 0
Q4 weakly reversible: no
  reaction 1: {total} -> 0
Q5 rank: 1
Q6 deficiency: 0, classes 0
Q7 positively dependent: no
Q8 conservative: no
Q9 deficiency zero theorem: hypotheses hold, not weakly reversible
Q10 deficiency one theorem: hypotheses hold
{REST}"""


def strong_classes():
    """The lines of the strong classes of a hundred amounts of A and sixty of B, of which the last of each is terminal."""
    sides = [some(amount, "A") for amount in range(100)] + [some(amount, "B") for amount in range(1, 61)]
    ends = {"99A": " (terminal)", "60B": " (terminal)"}
    return "".join(f"  strong {number}: {side}{ends.get(side, '')}\n" for number, side in enumerate(sides, 1))


def many_complexes():
    """The report of a hundred and sixty complexes."""
    first, second = all_of(0, 99, "A"), all_of(1, 60, "B")
    return f"""\
crn report 1
species 2: A B
complexes 160: {first}; {second}
reactions 158
Q1 linkage classes: 2
  class 1: {first}
  class 2: {second}
Q2 strong classes: 160, terminal 2
{strong_classes()}Q3 reversible: no
  reaction 1: 0 -> A
Q4 weakly reversible: no
  reaction 1: 0 -> A
Q5 rank: 2
Q6 deficiency: 156, classes 98 58
Q7 positively dependent: no
Q8 conservative: no
Q9 deficiency zero theorem: hypotheses fail, deficiency 156
Q10 deficiency one theorem: hypotheses fail, class 1 has deficiency 98
{REST}"""


# The end of the report of a hundred amounts of one species.
LADDER = f"""\
Q5 rank: 1
Q6 deficiency: 98, classes 98
Q7 positively dependent: no
Q8 conservative: no
Q9 deficiency zero theorem: hypotheses fail, deficiency 98
Q10 deficiency one theorem: hypotheses fail, class 1 has deficiency 98
{REST}"""


def many_reactions():
    """The report of two hundred and forty reactions."""
    sides, joined = all_of(0, 16, "A"), all_of(0, 14, "A")
    return f"""\
crn report 1
species 1: A
complexes 17: {sides}
reactions 240
Q1 linkage classes: 1
  class 1: {sides}
Q2 strong classes: 3, terminal 2
  strong 1: {joined}
  strong 2: 15A (terminal)
  strong 3: 16A (terminal)
Q3 reversible: no
  reaction 15: 0 -> 15A
Q4 weakly reversible: no
  reaction 15: 0 -> 15A
Q5 rank: 1
Q6 deficiency: 15, classes 15
Q7 positively dependent: yes
Q8 conservative: no
Q9 deficiency zero theorem: hypotheses fail, deficiency 15
Q10 deficiency one theorem: hypotheses fail, class 1 has 2 terminal classes
Q11 regular: no, class 1 has 2 terminal classes
Q12 confluence vector: not applicable, not regular
Q13 signal: not applicable
Q14 concordant: no
Q15 strongly concordant: yes
open: 0
"""


def networks(program):
    """Networks at a limit, with their reports, and with one thing more."""
    total = " + ".join(f"S{number}" for number in range(1, 61))
    yield "sixty species", *is_reported(program, f"{total} -> 0", sixty_species())
    yield "one species more", *is_refused(program, f"{total} + S61 -> 0", "refused 2 TooManySpecies at line 1\n")
    text = ladder(0, 99, "A") + ladder(1, 60, "B")
    yield "a hundred and sixty complexes", *is_reported(program, text, many_complexes())
    yield "one complex more", *is_refused(program, text + jump(60, 61, "B"), "refused 3 TooManyComplexes at line 159\n")
    out = run(program, ["report"], ladder(0, 99, "A"))[1]
    ending = LADDER.splitlines()
    yield "a hundred amounts of one species", decided_lines(out.decode("ascii"))[-len(ending):] == ending, out
    yield "two hundred and forty reactions", *is_reported(program, jumps(240), many_reactions())
    yield "one reaction more", *is_refused(program, jumps(241), "refused 4 TooManyReactions at line 241\n")
    text = "A -> B\n".ljust(MAX_TEXT, "#")
    yield "a text of the greatest length", *ends_so(program, "report", text, DONE, ROW)
    yield "one byte more", *is_refused(program, text + "#", "refused 19 TextTooLong at line 0\n")
    text = "A -> B\n#".ljust(MAX_TEXT, " ")
    yield "a text of the greatest length, of blanks", *ends_so(program, "report", text, DONE, ROW)
    yield "one blank more", *is_refused(program, text + " ", "refused 19 TextTooLong at line 0\n")


def amount(number, name):
    """A number and a name, or `0` if the number is zero."""
    return f"{number}{name}" if number else "0"


def line(name, start, arrow, end):
    return f"{amount(start, name)}{arrow}{amount(end, name)}\n"


def all_to_all():
    """All reactions between fifteen amounts of A, from each to the sixteenth, and from that to all but the first."""
    for i in range(15):
        yield from (line("A", i, " -> ", j) for j in range(15) if i != j)
        yield line("A", i, " -> ", 15)
        if i:
            yield line("A", 15, " -> ", i)


def chain(arrows):
    return " -> ".join(["0", *(amount(number, "A") for number in range(1, arrows + 1))])


def species(count):
    return "+".join(f"S{number}" for number in range(count)) + " -> 0\n"


# Ends of a line whose first side has thousands of terms of A: what comes last, the text, and the fault.
ENDS = [
    ("its sum alone", "A -> B", "17 CoefficientTooLarge"),
    ("a zero after it", "A -> 0B", "16 ZeroCoefficient"),
    ("a long name after it", "A -> aaaaaaaaaaaaaaaaaaaaaaaaaaaaaaaaa", "15 NameTooLong"),
    ("two names at its end", "A B -> C", "14 BadName"),
    ("no product", "A ->", "13 EmptySide"),
    ("no term at its end", "-> B", "13 EmptySide"),
    ("a stray mark at its end", "= -> B", "18 StrayMark"),
    ("a zero after another arrow", "A -> B -> 0C", "16 ZeroCoefficient"),
    ("no arrow", "A", "12 NoArrow"),
]

# So many rounds of so many names on one side: what it shows, the rounds, the names, and the fault, if there is one.
ROUNDS = [
    ("the longest side of a network", 99, 60, None),
    ("sums of 100", 100, 61, "17 CoefficientTooLarge"),
    ("sums of more than 100 in a longer side", 140, 61, "17 CoefficientTooLarge"),
    ("too many names within the limit", 99, 84, "2 TooManySpecies"),
]

# Two sums, and the fault of the reactions between them. A sum is: how many terms, of how many names, in steps from one to
# another, each with this amount.
SIDES = [
    ("the same", (61, 61, 1, 1), (61, 61, 1, 1), "1 SelfReaction"),
    ("the other way round", (61, 61, 1, 1), (61, 61, 60, 1), "1 SelfReaction"),
    ("a number in two terms", (61, 61, 1, 2), (122, 61, 7, 1), "1 SelfReaction"),
    ("another number", (61, 61, 1, 1), (61, 61, 1, 2), "2 TooManySpecies"),
    ("a name on one side", (60, 61, 1, 1), (61, 61, 1, 1), "2 TooManySpecies"),
    ("very many names", (1000, 1000, 1, 2), (1000, 1000, 7, 2), "1 SelfReaction"),
    ("each in two terms", (1000, 1000, 1, 2), (2000, 1000, 7, 1), "1 SelfReaction"),
    ("a number less", (1000, 1000, 1, 2), (1999, 1000, 7, 1), "2 TooManySpecies"),
    ("a name for another", (1000, 1000, 1, 2), (2000, 999, 7, 1), "2 TooManySpecies"),
    ("nothing", (1000, 1000, 1, 2), (0, 1000, 7, 1), "2 TooManySpecies"),
]

# A text, and its fault, if it has one.
SUMS = [
    ("99A -> 0", None),
    ("50A + 49A -> 0", None),
    ("50A + 50A -> 0", "17 CoefficientTooLarge"),
    ("50A + 50B -> 0", None),
    ("99B + 99A -> 0", None),
    ("50A + 99B + 49A -> 0", None),
    ("50A + B + 50A -> 0", "17 CoefficientTooLarge"),
    ("99B + A + B -> 0", "17 CoefficientTooLarge"),
    ("99A1 + 99A -> 0", None),
    ("50A1 + 99A + 50A1 -> 0", "17 CoefficientTooLarge"),
    ("A + B -> B + A", "1 SelfReaction"),
]


def total(terms, names, step, number):
    return "+".join(f"{number}S{i * step % names}" for i in range(terms)) or "0"


def texts(program):
    """Texts, and the first fault of each, if it has one."""
    complexes = "".join([*(line("A", i, " -> ", i + 1) for i in range(99)), *(line("B", i, " -> ", i + 1) for i in range(1, 60))])
    yield "a hundred and sixty complexes, 1 written out", complexes, None
    yield "one complex more, 1 written out", complexes + line("B", 60, " -> ", 61), "3 TooManyComplexes at line 159"
    reactions = "".join(all_to_all())
    yield "two hundred and thirty-nine reactions", reactions, None
    yield "two reactions more", reactions + line("A", 16, " <-> ", 15), "4 TooManyReactions at line 240"
    yield "a chain that comes back and a reaction of a complex with itself", chain(99) + " -> 0 -> B\nA -> A", "1 SelfReaction at line 2"
    yield "a chain of a hundred", chain(100), "17 CoefficientTooLarge at line 1"
    yield "sixty species in a sum", species(60), None
    yield "sixty-one species in a sum", species(61), "2 TooManySpecies at line 1"
    for name, end, fault in ENDS:
        for count in [8_191, 20_000]:
            yield f"{count} terms and {name}", count * "A+" + end, f"{fault} at line 1"
    for name, rounds, names, fault in ROUNDS:
        side = "+".join(rounds * [f"S{number}" for number in range(names)])
        yield name, f"{side} -> 0\n", fault and f"{fault} at line 1"
    for name, left, right, fault in SIDES:
        for first, second in [(left, right), (right, left)]:
            yield f"two sums: {name}", f"{total(*first)} -> {total(*second)}", f"{fault} at line 1"
    for text, fault in SUMS:
        yield f"the sums of {text}", text, fault and f"{fault} at line 1"


def path_and_back():
    """A path through all complexes that a network can have, and back along the first 81 of its reactions."""
    sides = [some(1 + i // 52, chr(ord("A") + i % 52 + 6 * (i % 52 // 26))) for i in range(160)]
    forward = [f"{left} -> {right}\n" for left, right in zip(sides, sides[1:])]
    return "".join([*forward, *(f"{right} -> {left}\n" for left, right in zip(sides[:81], sides[1:82]))])


def tries(program):
    yield from networks(program)
    # the first 82 complexes are in one strong class
    parts = ["\ncomplexes 160: ", "\nreactions 240\nQ1 linkage classes: 1\n", "\nQ2 strong classes: 79, terminal 1\n"]
    out = run(program, ["report", "--budget", "1"], path_and_back())[1]
    yield "the largest network has its classes", has_in_turn(out, parts), out
    for name, text, fault in texts(program):
        if fault:
            yield name, *is_refused(program, text, f"refused {fault}\n")
        else:
            seen = run(program, ["report", "--budget", "1"], text)
            yield name, seen[0] in (0, 1) and seen[1].startswith(b"crn report 1\n"), seen
    out = run(program, ["report"], chain(99))[1]
    yield "a chain is as many statements", out.startswith(b"crn report 1\nspecies 1: A\ncomplexes 100: ") and b"\nreactions 99\n" in out, out
