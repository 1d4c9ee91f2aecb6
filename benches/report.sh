#!/usr/bin/env bash
# Measures `report` on large network texts beside a plain Rust program that answers the same with nothing proved, and
# prints a table: the least time of several runs of each, their ratio, and the greatest memory; and, on demand, the
# counts of instructions by valgrind, which are the same whatever else the machine does. First it tries both on many
# random texts, and ends where they don't write the same, but for what an answer leaves free.
# Not part of the checks: times depend on the machine. Without rustc the program is measured alone.
#
#     benches/report.sh [RUNS [WORD]]       WORD: only texts with this word in their name
#     CRNT_PROGRAM=FILE benches/report.sh   measures this program, and builds none; so CRNT_YARDSTICK for the other one
#     COUNT=1 benches/report.sh             counts instructions too
. "$(dirname "$0")/programs.sh"

python3 - "$program" "$yardstick" "${1:-10}" "${2:-}" "${COUNT:-}" <<'PYTHON'
import sys

sys.path.insert(0, "benches")
import texts
from measure import ASKED, answer, differ, instructions, least_seconds, megabytes, put_heads, put_row, ratio, same, source_of, machine

program, yardstick, runs, word, counts = sys.argv[1], sys.argv[2], int(sys.argv[3]), sys.argv[4], sys.argv[5]
commands = [[program, "report"]] + ([[yardstick, "report", ASKED]] if yardstick else [])


def agree(name, text):
    answers = [answer(command, text) for command in commands]
    if any(not same(answers[0], other) for other in answers):
        differ(name, text, answers)
    return answers[0][0]


if yardstick and not word:
    statuses = [agree(f"random text {seed}", texts.random_text(seed).encode("latin-1")) for seed in range(3000)]
    statuses += [agree(f"random network {seed}", texts.random_network(seed).encode()) for seed in range(300)]
    print(f"{len(statuses)} random texts have the same answer from both, {len(statuses) - statuses.count(2)} of them a report\n")

print(f"questions {ASKED}, {runs} runs each, {machine()}\n")
heads = ["text", "bytes", "status", "least time, ms", "most memory, MB"]
if yardstick:
    heads += ["yardstick, ms", "ratio", "yardstick, MB"]
if counts:
    heads += ["million instructions"] + (["yardstick", "ratio"] if yardstick else [])
put_heads(heads)
for name, text in texts.cases():
    if word not in name:
        continue
    status = agree(name, text.encode())
    with source_of(text.encode()) as source:
        least = [seconds * 1000 for seconds in least_seconds(commands, source, runs)]
        memory = [megabytes(command, source) for command in commands]
        counted = [instructions(command, source) for command in commands] if counts else []
    row = [name, f"{len(text):,}", str(status), f"{least[0]:.1f}", memory[0]]
    if yardstick:
        row += [f"{least[1]:.1f}", ratio(*least), memory[1]]
    row += [f"{count / 1e6:.1f}" if count else "?" for count in counted]
    if len(counted) == 2:
        row.append(ratio(*counted))
    put_row(row)
PYTHON
