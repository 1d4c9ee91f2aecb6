#!/usr/bin/env bash
# Measures the searches of questions 13 to 15, most at the greatest budget, beside a plain Rust program that does the same with
# nothing proved, on long searches and along the futile cycle of 1 to 12 sites: the least time of several runs, counts of
# instructions by valgrind, which are the same whatever else the machine does, how many prefixes are visited, and the most
# memory; `check` reads from a pipe. The start of the process is in all of these. First it has each of the two check what
# the other certifies.
# Then, for each report, what the searches do: visits of prefixes, decisions (vectors of given signs for which a solver is
# asked), pool hits (what was found before served again) and exchanges. The yardstick counts these itself; of the
# program, valgrind counts the calls of the functions that do them. It counts exchanges of all questions, and as pool
# hits the times that a kept vector was looked for and no solver was asked after it; ? if the compiler has put the functions
# that are counted into their callers.
# Not part of the checks: times depend on the machine.
#
#     benches/search.sh [RUNS [WORD]]       WORD: only networks with this word in their name, as `cycle` for the futile cycle
#     CRNT_PROGRAM=FILE benches/search.sh   measures this program, and builds none; so CRNT_YARDSTICK for the other one
. "$(dirname "$0")/programs.sh"

python3 - "$program" "${yardstick:?needs rustc}" "${1:-5}" "${2:-}" <<'PYTHON'
import sys

sys.path.insert(0, "benches")
import texts
from measure import ASKED, answer, differ, instructions, instructions_and_calls, least_seconds, megabytes, put_heads, put_row, ratio, same, source_of, machine

program, yardstick, runs, word = sys.argv[1], sys.argv[2], int(sys.argv[3]), sys.argv[4]


def commands(name, budget):
    options = [] if name == "check" else ["--budget", str(budget)]
    return [[program, name, *options], [yardstick, name, *options, ASKED]]


def agree(name, text, budget):
    """The answers to one text, which are the same but for what is free."""
    answers = [answer(command, text) for command in commands("report", budget)]
    certificates = [answer(command, text)[1] for command in commands("certify", budget)]
    if not same(answers[0], answers[-1]):
        differ(name, text, answers)
    for (_, report), certificate in zip(answers, certificates):
        for command in commands("check", budget):
            checked = answer(command, certificate)
            if checked != (0, report):
                differ(name, certificate, [checked, (0, report)])
    return certificates[0]


def work_of_yardstick(text, budget):
    """Visits, decisions, pool hits and exchanges, as it counts them."""
    return [int(count) for count in answer([yardstick, "work", "--budget", str(budget), ASKED], text)[1].split()]


def work_of_program(text, budget, visits):
    """The same by calls. The visits are those of any program: the problem alone decides them."""
    with source_of(text) as source:
        _, calls = instructions_and_calls(commands("report", budget)[0], source)
    count = lambda name: calls.get(name, 0)
    decisions, looked = calls.get("crn_farkas::solver::Solver::alternative"), calls.get("crn_sign::pool::Pool::find")
    hits = None if None in (decisions, looked) else looked - decisions
    return [visits, decisions, hits, count("crn_tab::tableau::Tableau::pivot")]


def measured(name, command, text, budget, visits, piped=False):
    both = commands(command, budget)
    with source_of(text) as source:
        seconds = least_seconds(both, source, runs)
        counts = [instructions(words, source) for words in both]
        memory = [megabytes(words, source, piped) for words in both]
    row = [name, command, f"{len(text):,}", visits]
    for values, form in ((seconds, lambda x: f"{x:.4f}"), (counts, lambda x: f"{x / 1e6:,.1f}" if x else "?")):
        row += [form(value) for value in values] + [ratio(*values)]
    put_row(row + memory)


print(f"questions {ASKED}, budget 100,000 if a row names no other, {runs} runs each, {machine()}\n")
print("""The names are those of `benches/texts.py`: `futile6` and `futile9` are the futile cycles of six and nine sites with all steps
of the kinase first; `rand40` is the random reversible network of 40 species, `dense` the random network of 34 species with
amounts up to 3, and `copies4` four copies of a motif. The searches for a signal of `signal8` show that there is none, and that of
`signal9` spends the budget; `negative8` spends it for the negative of its vector, which itself has no signal.
""")
pair = ["yardstick", "ratio"]
heads = ["network", "command", "bytes", "visits", "least time, s", *pair, "million instructions", *pair, "most memory, MB"]
put_heads(heads + pair[:1], words=2)
if not word:
    measured("nothing: the start alone", "report", b"", texts.MAX_BUDGET, "0")
works = []
for name, text, is_certified, budget in [*texts.searches(), *texts.growth()]:
    if word in name:
        text = text.encode()
        certificate = agree(name, text, budget)
        work = work_of_yardstick(text, budget)
        visits = f"{work[0]:,}"
        works += [(name, "program", work_of_program(text, budget, work[0])), (name, "yardstick", work)]
        measured(name, "report", text, budget, visits)
        if is_certified:
            measured(name, "certify", text, budget, visits)
            measured(name, "check", certificate, budget, visits, piped=True)
            measured(f"{name}, version 1", "check", texts.first_version(certificate), budget, visits, piped=True)
print("""
The visits of both are those that the yardstick counts, as the problem alone decides them. Of the program, decisions are
calls of `Solver::alternative`, pool hits are look-ups of kept vectors after which no solver was asked, past multipliers
not among them, and exchanges are those of all questions. The yardstick counts its own.
""")
put_heads(["network", "by", "visits", "decisions", "pool hits", "exchanges"], words=2)
for name, by, counts in works:
    put_row([name, by, *("?" if count is None else f"{count:,}" for count in counts)])
PYTHON
