#!/usr/bin/env bash
# Measures `prove PART`, at the greatest budget, beside a plain Rust program that does the same with nothing proved, on networks
# that suit the part (`proved` of `benches/texts.py`). The least time of several runs, and counts of instructions by valgrind, which
# are the same whatever else the machine does; the start of the process is in both. The second program of the part verifies the
# documents of both first, and it ends where their verdicts differ.
# Not part of the checks: times depend on the machine.
#
#     benches/prove.sh [PART|all [RUNS [WORD]]]   WORD: only networks with this word in their name
#     CRNT_PROGRAM=FILE benches/prove.sh          measures this program, and builds none; so CRNT_YARDSTICK for the other one
. "$(dirname "$0")/programs.sh"

python3 - "$program" "${yardstick:?needs rustc}" "${1:-all}" "${2:-5}" "${3:-}" <<'PYTHON'
import sys

sys.path.insert(0, "benches")
import texts
from measure import answer, differ, instructions, least_seconds, megabytes, put_heads, put_row, ratio, source_of, machine
from prove import PARTS

program, yardstick, wanted, runs, word = *sys.argv[1:4], int(sys.argv[4]), sys.argv[5]


def verdict(part, name, text, commands):
    """What both say, and the lines of the program's document below the network."""
    answers = [answer(command, text) for command in commands]
    judged = [PARTS[part].PROGRAM.verify(document) for _, document in answers]
    if judged[0] != judged[1] or judged[0][0]:
        differ(name, text, [*answers, *judged])
    lines = answers[0][1].count(b"\n") - 2 - int(answers[0][1].split(b"\n")[1].split()[1])
    return judged[0][1].decode().strip().replace("\n", "; "), lines


print(f"budget {texts.MAX_BUDGET:,}, {runs} runs each, {machine()}")
pair = ["yardstick", "ratio"]
for part in PARTS if wanted == "all" else [wanted]:
    words = ["prove", part, "--budget", str(texts.MAX_BUDGET)]
    commands = [[program, *words], [yardstick, *words]]
    print()
    put_heads(["network", "verdict", "bytes", "lines", "least time, ms", *pair, "million instructions", *pair, "most memory, MB", "yardstick"], words=2)
    for name, text in texts.proved()[part]:
        if word in name:
            text = text.encode()
            said, lines = verdict(part, name, text, commands)
            with source_of(text) as source:
                seconds = least_seconds(commands, source, runs)
                counts = [instructions(command, source) for command in commands]
                memory = [megabytes(command, source) for command in commands]
            row = [name, said, f"{len(text):,}", f"{lines:,}"]
            for values, form in ((seconds, lambda x: f"{1000 * x:.1f}"), (counts, lambda x: f"{x / 1e6:,.2f}" if x else "?")):
                row += [form(value) for value in values] + [ratio(*values)]
            put_row(row + memory)
PYTHON
