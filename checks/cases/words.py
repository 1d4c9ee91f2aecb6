"""Words that are a command, and words that are none."""

from .runs import DONE, OPEN_LEFT, USAGE, ends_so, has_in_turn, run

USAGE_LINE = (
    "usage: crnt report | certify | check | sample K | prove PART | verify PART, with --budget N except for check and verify\n"
)

# Command lines that say no command, with the name of the program first.
USAGES = [
    "crnt",
    "report",
    "crnt frobnicate",
    "crnt Report",
    "crnt report --budget 0",
    "crnt report --budget 100001",
    "crnt report --budget 12x",
    "crnt report 3",
    "crnt check --budget 5",
    "crnt sample",
    "crnt sample 0",
    "crnt sample 20",
    "crnt report --",
    "crnt certify report",
    "crnt certify 3",
    "crnt certify -- 3",
    "crnt certify --budget 0",
    "crnt report -- 3",
    "crnt report --budget 5 -- 3",
    "crnt --budget=5",
    "crnt --budget 5 --budget=5",
    "crnt report --budget=5 --budget=6 --budget=7",
    "crnt report --budget=5=6",
    "crnt report 5 --budget",
    "crnt report 3 --budget 5",
    "crnt --budget 5 report 3",
    "crnt report --Budget 5",
    "crnt report -budget 5",
    "crnt report --help",
    "crnt help",
    "crnt -V",
    "crnt report -",
    "crnt report ",
    "crnt sample --budget 5",
    "crnt sample 001",
    "crnt sample +1",
    "crnt sample -1",
    "crnt sample one",
    "crnt sample ",
    "crnt sample 1 2",
    "crnt sample -- 1",
    "crnt sample 1 --budget 0",
    "crnt sample 1 --budget 5 --budget 6",
    "crnt 1 sample",
    "crnt check 1",
    "crnt prove",
    "crnt verify",
    "crnt prove ",
    "crnt verify ",
    "crnt prove nothing",
    "crnt verify nothing",
    "crnt prove Persist",
    "crnt prove persist1",
    "crnt Prove persist",
    "crnt persist",
    "crnt persist prove",
    "crnt report persist",
    "crnt check persist",
    "crnt sample persist",
    "crnt prove 1",
    "crnt prove persist persist",
    "crnt prove persist 7",
    "crnt prove -- persist",
    "crnt prove persist --",
    "crnt prove --budget 7",
    "crnt prove persist --budget",
    "crnt prove persist --budget 0",
    "crnt prove persist --budget 100001",
    "crnt prove persist --budget 6 --budget 7",
    "crnt verify persist persist",
    "crnt verify -- persist",
    "crnt verify persist --budget 7",
    "crnt verify --budget=7 persist",
    "crnt --budget 7 verify persist",
    "",
]

# The words of a command with a budget of 7, which is one less than the search for `A <-> B` needs.
FORMS = ["{} --budget 7", "{} --budget=7", "--budget 7 {}", "--budget=7 {}", "{} --budget 000007"]

# What a report and a certificate then end with.
ENDS = {
    "report": "\nQ14 concordant: open, budget 7\nQ15 strongly concordant: open, budget 7\nopen: 2\n",
    "certify": "\nq14 open budget 7\nq15 open budget 7\nend\n",
}

# The futile cycle of nine sites, the steps of the kinase first. The search for question 14 has more visits than any budget.
NINE_SITES = "".join(
    f"S{site - 1} + K <-> KS{site} -> S{site} + K\n" for site in range(1, 10)
) + "".join(f"S{site} + F <-> FS{site} -> S{site - 1} + F\n" for site in range(1, 10))

# Each row: the words, and the budget that they say.
BUDGETS = [("report", 20_000), ("report --budget 19999", 19_999), ("report --budget 100000", 100_000)]

# Each row: the words, and the summary. For eight steps the sizes are 1 + 9 + 8 species, 9 + 8 complexes and three
# reactions a step; no step can be undone, so there is no positive combination.
SUMMARIES = [
    (
        "sample 1",
        "sample 1: 4 species, 3 complexes, 3 reactions\nverdicts: 1 2 no no 2 0 no yes yes yes no none none yes yes\n"
        "check: accepted\n",
    ),
    (
        "sample 8",
        "sample 8: 18 species, 17 complexes, 24 reactions\nverdicts: 1 9 no no 16 0 no yes yes yes no none none yes no\n"
        "check: accepted\n",
    ),
]


def tries(program):
    for line in USAGES:
        name, *words = line.split(" ")
        seen = run(program, words, "A -> B", name)
        yield f"the words {line!r} are no command", seen == (USAGE, USAGE_LINE.encode(), b""), seen
    for command, end in ENDS.items():
        for form in FORMS:
            line = form.format(command)
            status, out, _ = run(program, line.split(" "), "A <-> B")
            yield f"{line} has a budget of 7", status == OPEN_LEFT and out.endswith(end.encode()), (status, out)
        # the first word is the name of the program
        seen = run(program, [command], "A <-> B", "report")
        yield f"report {command} is {command}", seen == run(program, [command], "A <-> B"), seen
    for line, budget in BUDGETS:
        status, out, _ = run(program, line.split(), NINE_SITES)
        good = status == OPEN_LEFT and f"\nQ14 concordant: open, budget {budget}\n".encode() in out
        yield f"{line} has a budget of {budget}", good, (status, out)
    for line, want in SUMMARIES:
        for _ in range(2):
            yield f"{line} is summarized alike each time", *ends_so(program, line, "", DONE, want)
    # one visit decides no search
    status, out, _ = run(program, ["sample", "--budget", "1", "08"], "A")
    parts = ["sample 8: ", "\nverdicts: 1 9 no no 16 0 no yes yes yes no none none open open\ncheck: accepted\n"]
    yield "a small budget leaves questions of a sample open", status == OPEN_LEFT and has_in_turn(out, parts), (status, out)
