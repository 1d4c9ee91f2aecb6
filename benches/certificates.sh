#!/usr/bin/env bash
# Measures `certify` and `check` beside a plain Rust program that does the same with nothing proved: calls a second by
# the least time of several runs, counts of instructions by valgrind, which are the same whatever else the machine
# does, and the most memory of `check` as it reads from a pipe. The start of the process is in all of these; the first
# row shows it alone. First it has each of the two check what the other certifies, and compares their answers on
# damaged certificates; it ends where they differ, but for what an answer leaves free.
# Not part of the checks: times depend on the machine. Without rustc the program is measured alone.
#
#     benches/certificates.sh [RUNS [WORD]]       WORD: only rows with this word in their name
#     CRNT_PROGRAM=FILE benches/certificates.sh   measures this program, and builds none; so CRNT_YARDSTICK for the other one
. "$(dirname "$0")/programs.sh"

python3 - "$program" "$yardstick" "${1:-20}" "${2:-}" <<'PYTHON'
import glob
import random
import sys

sys.path.insert(0, "benches")
import texts
from measure import ASKED, answer, differ, instructions, least_seconds, megabytes, put_heads, put_row, ratio, same, source_of, machine

program, yardstick, runs, word = sys.argv[1], sys.argv[2], int(sys.argv[3]), sys.argv[4]


def commands(name):
    return [[program, name]] + ([[yardstick, name, ASKED]] if yardstick else [])


def agree(name, text, answers, is_same=same):
    if any(not is_same(answers[0], other) for other in answers):
        differ(name, text, answers)
    return answers[0][0]


def cross_check(name, text):
    """Certificates of one text by each program, which both accept with the report that their writer gives."""
    agree(name, text, [answer(command, text) for command in commands("report")])
    certificates = []
    for certify, report in zip(commands("certify"), commands("report")):
        status, out = answer(report, text)
        written = answer(certify, text)
        if written[0] != status or status > 1:
            agree(name, text, [written, (status, out)], is_same=lambda x, y: x == y)
            continue
        certificates.append(written[1])
        for check in commands("check"):
            agree(name, written[1], [answer(check, written[1]), (0, out)], is_same=lambda x, y: x == y)
    return certificates


if yardstick and not word:
    certificates = []
    for seed in range(600):
        certificates += cross_check(f"random text {seed}", texts.random_text(seed).encode("latin-1"))
    for seed in range(150):
        certificates += cross_check(f"random network {seed}", texts.random_network(seed).encode())
    print(f"{len(certificates)} certificates of random networks are accepted by both, with the report of their writer")
    short = [document for document in certificates if len(document) < 4000]
    first = [texts.first_version(document) for document in short]
    dice, statuses = random.Random(1), []
    for number in range(3000):
        document = texts.damaged(dice.choice(dice.choice([short, first])), dice)
        answers = [answer(command, document) for command in commands("check")]
        statuses.append(agree(f"damaged certificate {number}", document, answers, is_same=lambda x, y: x == y))
    print(f"{len(statuses)} damaged ones have the same answer from both, {statuses.count(3)} of them a rejection\n")

print(f"questions {ASKED}, {runs} runs each, {machine()}\n")


def measured(name, command, inputs, piped=False):
    """A row: the sums over the inputs, and the most memory."""
    both = commands(command)
    least, counts, memory = [0.0] * len(both), [0] * len(both), [[] for _ in both]
    for text in inputs:
        with source_of(text) as source:
            taken = least_seconds(both, source, runs)
            counted = [instructions(words, source) for words in both]
            memory = [[*known, megabytes(words, source, piped)] for known, words in zip(memory, both)]
        least = [sum(pair) for pair in zip(least, taken)]
        counts = [None if None in pair else sum(pair) for pair in zip(counts, counted)]
    calls = [len(inputs) / seconds for seconds in least]
    row = [name, command or "(none)", f"{sum(map(len, inputs)):,}", f"{calls[0]:,.0f}"]
    row += [f"{calls[1]:,.0f}", ratio(*reversed(calls))] if yardstick else []
    row += ["?" if count is None else f"{count / len(inputs) / 1000:,.0f}" for count in counts]
    row += [ratio(*counts)] if yardstick else []
    put_row(row + [max(known, key=lambda shown: float(shown) if shown != "?" else 0.0) for known in memory])


heads = ["input", "command", "bytes", "calls a second"] + (["yardstick", "ratio"] if yardstick else [])
heads += ["thousand instructions a call"] + (["yardstick", "ratio"] if yardstick else [])
put_heads(heads + ["most memory, MB"] + (["yardstick, MB"] if yardstick else []), words=2)
examples = [open(name, "rb").read() for name in sorted(glob.glob("examples/networks/*.crn"))]
rows = [(f"{len(examples)} networks of examples/networks", examples)]
rows += [(name, [text.encode()]) for name, text in texts.networks()]
if not word:
    measured("nothing: the start alone", "", [b""])
for name, inputs in rows:
    if word in name:
        documents = [answer(commands("certify")[0], text)[1] for text in inputs]
        measured(name, "certify", inputs)
        measured(name, "check", documents, piped=True)
# neither concordant nor strongly concordant, so no list is shared
plain = answer(commands("certify")[0], texts.futile(2).encode())[1].decode()
for name, document in texts.documents(plain):
    if word in name:
        agree(name, document.encode(), [answer(command, document.encode()) for command in commands("check")])
        measured(name, "check", [document.encode()], piped=True)
PYTHON
