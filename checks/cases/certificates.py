"""Certificates, and what `check` says of them."""

from .networks import EDELSTEIN, ELEVEN, NINE, THROUGH, TWELVE, TWO_SITES
from .runs import DONE, OPEN_LEFT, REFUSED, ends_so, has_in_turn, run

# Each row: what it shows, the text, how its certificate starts, and parts that follow, one after another.
STARTS = [
    (
        "both ways",
        "A <-> B",
        "crn certificate 2\nnetwork 2\nA -> B\nB -> A\nvectors ",
        [
            "\nsection graph\nq1 1\nlabel 1 1\nup 0 ",
            "\nexit 0\nq3 yes\nback 2 1\nq4 yes\nsection rank\nq5 1\nbase ",
            "\nq6 0 0\nbase ",
            "\nsection dependence\nq7 yes\nvec ",
            "\nq8 yes\nvec ",
            "\nsection theorems\nq9 yes 1\nq10 yes\nsection confluence\nq11 yes\nside 1 0 1\nq12 none zero\ntie ",
            "\nq13 none\nsection concordance\nq14 yes\nsplit\nsplit\nflat\nref",
            "\nq15 yes\nsplit\nsplit\nflat\nref",
        ],
    ),
    (
        "one reaction",
        "A -> B",
        "crn certificate 2\nnetwork 1\nA -> B\nvectors ",
        [
            "\nsection graph\nq1 1\nlabel 1 1\nup 0 1\ndepth 0 1\nq2 2 1\nlabel 1 2\nfrom 0 0\nfromdepth 0 0\nto 0 0\ntodepth 0 0\n"
            "level ",
            "\nexit 1 0\nq3 no 1\nq4 no 1\nsection rank\nq5 1\nbase 1\ndual ",
            "\nq6 0 0\nbase 1\ndual ",
            "\nsection dependence\nq7 no\ncut ",
            "\nq8 yes\nvec ",
            "\nsection theorems\nq9 yes 0\nq10 yes\nsection confluence\nq11 no dependence\nq12 none regular\nq13 none\n"
            "section concordance\nq14 yes\nsplit\nsplit\nflat\nref",
            "\nq15 yes\nsplit\nsplit\nflat\nref",
        ],
    ),
    (
        "amounts and the zero complex",
        "  3X+2Y<->  0 # x",
        "crn certificate 2\nnetwork 2\n3X + 2Y -> 0\n0 -> 3X + 2Y\nvectors ",
        [
            "\nsection graph\nq1 1\n",
            "\nexit 0\nq3 yes\nback 2 1\nq4 yes\nsection rank\nq5 1\nbase ",
            "\nq6 0 0\nbase ",
            "\nsection dependence\nq7 yes\nvec ",
            "\nq8 no\ncut ",
            "\nsection theorems\nq9 yes 1\nq10 yes\nsection confluence\nq11 yes\nside 1 0 1\nq12 none zero\ntie ",
            "\nq13 none\nsection concordance\nq14 yes\nsplit\nsplit\nflat\nref",
            "\nq15 yes\nsplit\nsplit\nflat\nref",
        ],
    ),
    (
        "a confluence vector",
        "2A <-> A + B\nA + B <-> 2B\n",
        "crn certificate 2\nnetwork 4\n2A -> A + B\nA + B -> 2A\nA + B -> 2B\n2B -> A + B\nvectors ",
        [
            "\nsection confluence\nq11 yes\nside 1 0 1 1\nside 3 0 0 1\nq12 yes\nvec 1 -2 1\ntie ",
            "\ntie ",
            "\nq13 no\nsplit\nflat\nrefa ",
            "\nsplit\nflat\nrefa ",
            "\nsection concordance\nq14 no\nalpha ",
            "\nweights ",
            "\nq15 yes\nsplit\nsplit\nflat\nref",
        ],
    ),
]

# Networks whose certificates are accepted with their reports.
ROUNDS = [
    "A -> B",
    "A <-> B",
    "A+A->B\r\n2A -> B\r\n",
    "A <-> B -> C <- D",
    "0 <-> A\nA -> B\n2A + B -> 3A\n",
    "A -> 2A\nA -> 0\n",
    EDELSTEIN,
    "2A <-> A + B\nA + B <-> 2B\n",
    "A -> B\nB -> C\nC -> A\n",
    NINE,
    ELEVEN,
    TWELVE,
    THROUGH,
    "A -> B\nB -> A\nC -> 2C\n2C -> C\n",
    "  3X+2Y<->  0 # x",
    TWO_SITES,
]

# Each row: what it shows, a text, and the canonical text of its network, which its certificate begins with.
CANONICAL = [
    ("one reaction", "A -> B", "A -> B\n"),
    ("a repeat by amounts", "A+A->B\r\n2A -> B\r\n", "2A -> B\n"),
    ("both ways and the zero complex", "  3X+2Y<->  0 # x", "3X + 2Y -> 0\n0 -> 3X + 2Y\n"),
    ("the greatest amount", "A -> 99B", "A -> 99B\n"),
    ("zeros are one zero", "00 -> A", "0 -> A\n"),
    ("zeros before a number", "007A -> B", "7A -> B\n"),
    ("a number apart from its name", "2\tA -> B", "2A -> B\n"),
    ("a name that ends in a digit", "99X2 -> 0", "99X2 -> 0\n"),
    ("an underscore", "_->b_1", "_ -> b_1\n"),
    ("the species of a side in order", "A -> B + C\nC + B -> A", "A -> B + C\nB + C -> A\n"),
    ("lines without statements", "\n # c\nA -> B\n\t\nB -> A", "A -> B\nB -> A\n"),
    ("a reaction that is there already", "A <-> B\nB -> A\n", "A -> B\nB -> A\n"),
    ("an arrow to the left", "A <- B", "B -> A\n"),
    ("names in the order of the statement", "A + B<-C + D", "C + D -> A + B\n"),
    (
        "three arrows",
        "A <-> B -> C <- D",
        "A -> B\nB -> A\nB -> C\nD -> C\n",
    ),
    ("a circle", "A -> 2B -> 0 -> A # round", "A -> 2B\n2B -> 0\n0 -> A\n"),
    ("a repeat within a line", "A -> B <- A <-> B", "A -> B\nB -> A\n"),
    ("a name of 32 bytes", "aaaaaaaaaaaaaaaaaaaaaaaaaaaaaaaa -> 0", "aaaaaaaaaaaaaaaaaaaaaaaaaaaaaaaa -> 0\n"),
]


def tries(program):
    for name, text, start, parts in STARTS:
        status, out, _ = run(program, ["certify"], text)
        good = status == DONE and out.startswith(start.encode()) and out.endswith(b"\nend\n") and has_in_turn(out, parts)
        yield f"certify: {name}", good, (status, out)
    yield "a text with a fault is not certified", *ends_so(program, "certify", "A -> A", REFUSED, "refused 1 SelfReaction at line 1\n")
    for text in ROUNDS:
        report, certificate = run(program, ["report"], text)[1], run(program, ["certify"], text)[1]
        yield f"its certificate is accepted with its report: {text!r:.60}", *ends_so(program, "check", certificate, DONE, report)
    for name, text, canonical in CANONICAL:
        out = run(program, ["certify"], text)[1].decode("ascii")
        start = f"crn certificate 2\nnetwork {canonical.count(chr(10))}\n{canonical}vectors "
        yield f"the canonical text: {name}", out.startswith(start), out
    status, out, _ = run(program, ["certify", "--budget", "1"], TWO_SITES)
    checked, _, _ = run(program, ["check"], out)
    yield "a certificate of open searches is accepted", (status, checked) == (OPEN_LEFT, DONE), (status, checked)
