"""Proofs of parts, and their documents with one line in place of another."""

import re

from .runs import DONE, OPEN_LEFT, REFUSED, REJECTED, ends_so, run

HEAD = "crn part persist 1\nnetwork 2\nA -> B\nB -> A\n"
# The one law of `A <-> B` is a total of equal weights. With both species in it is within the set; with only one of them in, the
# reaction to that one has no reactant in; and with none in the set is empty. That is seven prefixes, each a node.
YES = HEAD + "yes\nvec 1 1\nfork\nfork\nlaw 1 1\nbad 2\nfork\nbad 1\nvoid\nend\n"
SPENT = HEAD + "spent 6\nend\n"
# A alone is a siphon of `2A <-> A + B`, and the second reaction gives one of it more. B alone is none: the first reaction makes B of A.
NO = "crn part persist 1\nnetwork 2\n2A -> A + B\nA + B -> 2A\nno\nsiphon 1 0\nmult 0 1\nend\n"
# A species that comes from nothing is in no law.
NO_LAW = "crn part persist 1\nnetwork 1\n0 -> A\nno\ncut -1\nend\n"

# Each row: words, a text, and the document, in which a line of numbers may have any positive multiple of these.
PROOFS = [
    ("prove persist --budget 7", "A <-> B", YES),
    ("prove persist", "A <-> B", YES),
    ("prove persist", "0 -> A", NO_LAW),
]

# A line of free numbers of a document with small ones.
FREE_LINE = re.compile(rb"^(vec|law|cut)((?: -?\d+)+)$", re.MULTILINE)

# The words of a budget of 6, which is one less than the search on `A <-> B` needs.
LITTLE = ["prove persist --budget 6", "prove persist --budget=6", "prove --budget 6 persist", "prove --budget=6 persist",
          "--budget 6 prove persist", "--budget=000006 prove persist"]

# Each row: a document of `persist`, and its verdict.
VERDICTS = [
    (YES, "persist: yes\n"),
    (NO, "persist: no\n"),
    (NO_LAW, "persist: no\n"),
    (SPENT, "persist: open\n"),
    # what an open line says is not tested: system 1 has two rows and two columns here, as has system 2
    (HEAD + "wide 1 3 1 2\nend\n", "persist: open\n"),
    (HEAD + "wide 2 1 3 4\nend\n", "persist: open\n"),
    # other numbers that show the same, and a tree with more nodes than the search makes
    (YES.replace("vec 1 1", "vec 3 3").replace("law 1 1", "law 2 2"), "persist: yes\n"),
    (NO.replace("mult 0 1", "mult -3 -2"), "persist: no\n"),
    (YES.replace("vec 1 1", "vec 4722366482869645213695 4722366482869645213695"), "persist: yes\n"),
]

# Each row: a document, a part of it and what stands there instead, and the fault.
EDITS = [
    (YES, "crn part persist 1", "crn part persist 2", "21 BadHeader at line 1"),
    (YES, "crn part persist 1", "crn part  1", "21 BadHeader at line 1"),
    (YES, "crn part persist 1", "crn certificate 2", "21 BadHeader at line 1"),
    (YES, "network 2", "network 0", "22 BadNetwork at line 2"),
    (YES, "network 2", "network 02", "22 BadNetwork at line 2"),
    (YES, "network 2", "network 3", "22 BadNetwork at line 5"),
    (YES, "B -> A\n", "B  -> A\n", "22 BadNetwork at line 4"),
    (YES, "B -> A\n", "A -> B\n", "22 BadNetwork at line 4"),
    (YES, "yes\n", "Yes\n", "23 UnknownWord at line 5"),
    (YES, "yes\n", "split\n", "23 UnknownWord at line 5"),
    (YES, "yes\n", "\n", "23 UnknownWord at line 5"),
    (YES, "vec 1 1", "vek 1 1", "23 UnknownWord at line 6"),
    (YES, "yes\n", "end\n", "26 WrongOrder at line 5"),
    (YES, "yes\nvec", "yes\ncut", "26 WrongOrder at line 6"),
    (YES, "void\nend", "end", "26 WrongOrder at line 13"),
    (YES, "void\nend", "void\nvoid\nend", "26 WrongOrder at line 14"),
    (YES, "yes\n", "yes 1\n", "24 BadField at line 5"),
    (YES, "yes\n", "yes \n", "24 BadField at line 5"),
    (YES, "vec 1 1", "vec 1", "24 BadField at line 6"),
    (YES, "vec 1 1", "vec 1 1 1", "24 BadField at line 6"),
    (YES, "vec 1 1", "vec 1 01", "24 BadField at line 6"),
    (YES, "bad 2", "bad 3", "24 BadField at line 10"),
    (YES, "bad 2", "bad 0", "24 BadField at line 10"),
    (NO, "siphon 1 0", "siphon 2 0", "24 BadField at line 6"),
    (SPENT, "spent 6", "spent 0", "24 BadField at line 5"),
    (SPENT, "spent 6", "spent 100001", "24 BadField at line 5"),
    (SPENT, "spent 6", "wide 3 1 1 2", "24 BadField at line 5"),
    (SPENT, "spent 6", "wide 1 5 1 2", "24 BadField at line 5"),
    (SPENT, "spent 6", "wide 1 1 2 1", "24 BadField at line 5"),
    (YES, "vec 1 1", "vec 4722366482869645213696 1", "25 NumberWide at line 6"),
    (YES, "law 1 1", "law 1 -4722366482869645213696", "25 NumberWide at line 9"),
    (YES, "end\n", "", "27 EndsEarly at line 14"),
    (YES, "end\n", "end", "27 EndsEarly at line 14"),
    (YES, "end\n", "end\nend\n", "28 AfterEnd at line 15"),
    (YES, "end\n", "end\n\n", "28 AfterEnd at line 15"),
    (YES, "vec 1 1", "vec 1 " + 16_384 * "1", "30 LineTooLong at line 6"),
    (NO, "siphon 1 0", "siphon 0 1", "51 NotSiphon at line 6"),
    (NO, "siphon 1 0", "siphon 0 0", "51 NotSiphon at line 6"),
    # the marks are tested before the numbers, and both after the line of the numbers
    (NO, "siphon 1 0\nmult 0 1", "siphon 0 1\nmult 1 0", "51 NotSiphon at line 6"),
    (NO, "siphon 1 0\nmult 0 1", "siphon 0 1\nmult 1", "24 BadField at line 7"),
    (NO, "mult 0 1", "mult 1 0", "52 NotCovered at line 7"),
    (NO, "mult 0 1", "mult 1 1", "52 NotCovered at line 7"),
    (YES, "vec 1 1", "vec 1 2", "53 BadLaw at line 6"),
    (YES, "vec 1 1", "vec 0 0", "53 BadLaw at line 6"),
    (YES, "vec 1 1", "vec -1 -1", "53 BadLaw at line 6"),
    (YES, "law 1 1", "law 0 0", "53 BadLaw at line 9"),
    (YES, "law 1 1", "law 1 0", "53 BadLaw at line 9"),
    (YES, "law 1 1", "law -1 -1", "53 BadLaw at line 9"),
    # the law is not within the set {A}
    (YES, "bad 2\nfork", "law 1 1\nfork", "53 BadLaw at line 10"),
    (NO_LAW, "cut -1", "cut 0", "53 BadLaw at line 5"),
    (NO_LAW, "cut -1", "cut 1", "53 BadLaw at line 5"),
    (YES, "bad 2", "bad 1", "54 BadNode at line 10"),
    # neither species is chosen yet
    (YES, "fork\nfork\nlaw 1 1\nbad 2\nfork\nbad 1\nvoid", "bad 1", "54 BadNode at line 7"),
    (YES, "fork\nfork\nlaw 1 1\nbad 2\nfork\nbad 1\nvoid", "void", "54 BadNode at line 7"),
    (YES, "bad 2\nfork", "void\nfork", "54 BadNode at line 10"),
    (YES, "void\n", "fork\n", "54 BadNode at line 13"),
    (YES, "void\n", "bad 1\n", "54 BadNode at line 13"),
]

VERDICTS_OF = dict(VERDICTS)


def with_small_numbers(document):
    """A document whose lines of free numbers have 1 and -1 in place of positive and negative ones that are all equal."""
    def small(found):
        numbers = [int(it) for it in found[2].split()]
        size = max(1, *(abs(it) for it in numbers))
        return found[1] + b"".join(b" %d" % (it // size if it % size == 0 else it) for it in numbers)
    return FREE_LINE.sub(small, document)


def tries(program):
    for line, text, want in PROOFS:
        status, out, err = run(program, line.split(), text)
        yield f"{line} on {text}", (status, with_small_numbers(out), err) == (DONE, want.encode(), b""), (status, out)
        yield f"what {line} writes on {text} is verified", *ends_so(program, "verify persist", out, DONE, VERDICTS_OF[want])
    # which numbers cover the siphon is free, if the second is greater
    status, out, err = run(program, ["prove", "persist"], "2A <-> A + B")
    found = re.fullmatch(NO.replace("+", r"\+").replace("mult 0 1", r"mult (-?\d+) (-?\d+)"), out.decode("ascii"))
    yield "2A <-> A + B has a covered siphon", status == DONE and found and int(found[1]) < int(found[2]), (status, out)
    for line in LITTLE:
        yield line, *ends_so(program, line, "A <-> B", OPEN_LEFT, SPENT)
    yield "a text with a fault has no proof", *ends_so(program, "prove persist", "A -> A", REFUSED, "refused 1 SelfReaction at line 1\n")
    yield "no text has no proof", *ends_so(program, "prove persist", "", REFUSED, "refused 5 NoReaction at line 0\n")
    for document, verdict in VERDICTS:
        yield f"{document!r} is verified", *ends_so(program, "verify persist", document, DONE, verdict)
    for document, old, new, fault in EDITS:
        edited = document.replace(old, new, 1)
        good, seen = ends_so(program, "verify persist", edited, REJECTED, f"rejected {fault}\n")
        yield f"{edited[:400]!r} is rejected", edited != document and good, seen
    # a document that ends early, before one of its lines or in it
    for count in range(len(YES)):
        line = YES[:count].count("\n") + 1
        yield f"the first {count} bytes of a document", *ends_so(program, "verify persist", YES[:count], REJECTED, f"rejected 27 EndsEarly at line {line}\n")
    yield "a certificate is no document of a part", *ends_so(program, "verify persist", run(program, ["certify"], "A -> B")[1], REJECTED, "rejected 21 BadHeader at line 1\n")
    yield "a document of a part is no certificate", *ends_so(program, "check", YES, REJECTED, "rejected 21 BadHeader at line 1\n")

