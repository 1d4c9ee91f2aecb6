#!/usr/bin/env python3
"""Compares `prove PART` and `verify PART` with the second programs on random networks.

    checks/prove.py PROGRAM [PART|all [COUNT [SEED]]]     COUNT networks of each part: 2000 is the long form

Each answer of `prove` is judged by the second program of its part; its document is verified, and so are one of an open answer
and damaged forms of both, whose rejections the two have to name by the same code and line."""

import random
import subprocess
import sys
from pathlib import Path

from cases import try_endo, try_parts, try_persist, try_robust
from cases.runs import SECONDS
from second_opinion import read_network
from second_part import BUDGET, MAX_BUDGET
from tally import Tally

# what there is to try of each part
PARTS = {it.PROGRAM.name: it for it in [
    try_persist,
    try_parts,
    try_robust,
    try_endo,
]}
DAMAGES = 6
WIDE = 2**72


def with_number(fields, dice):
    """The fields of a line with one number changed, or with all of them 0."""
    numbers = [k for k, field in enumerate(fields) if field.lstrip("-").isdigit()]
    if numbers and dice.random() < 0.2:
        return [fields[0], *["0"] * (len(fields) - 1)]
    for k in dice.sample(numbers, min(1, len(numbers))):
        was, other = int(fields[k]), fields[dice.choice(numbers)]
        fields[k] = str(dice.choice([was + 1, was - 1, 1 - was, -was, was + 2, other, other, WIDE, 1 - WIDE]))
    return fields


def damaged(document, words, dice):
    """The document with one change to its lines or its bytes, mostly below the network."""
    lines = document.decode().splitlines()
    at = dice.randrange(len(lines)) if dice.random() < 0.2 else dice.randrange(2 + int(lines[1].split(" ")[1]), len(lines))
    fields, deed = lines[at].split(" "), dice.randrange(10)
    if deed < 5:
        lines[at] = " ".join(with_number(fields, dice))
    elif deed == 5:
        lines[at] = " ".join([dice.choice([*words, "split", ""]), *fields[1:]])
    elif deed == 6:
        del lines[at]
    elif deed == 7:
        lines.insert(at, lines[at])
    elif deed == 8:
        lines[at] += dice.choice([" ", " 0", " 1", "\r"])
    else:
        return document[: dice.randrange(len(document))]
    return "".join(f"{line}\n" for line in lines).encode()


def with_lines(document, lines):
    """The document with these lines below its network."""
    head = document.split(b"\n")[: 2 + int(document.split(b"\n")[1].split(b" ")[1])]
    return b"\n".join([*head, *(line.encode() for line in lines), b"end\n"])


def tries(part, answer, count, seed):
    """What is tried, whether it is right, and what was seen; `answer` gives the status and the bytes of words on a text."""
    dice, second = random.Random(seed), PARTS[part].PROGRAM
    for number in range(count):
        text = PARTS[part].network(dice).encode()
        net = read_network(text.decode())
        visits = second.visits(net)
        budget = dice.choice([BUDGET, MAX_BUDGET, *([visits, max(1, visits - 1)] if visits else [])])
        status, document = answer(["prove", part, "--budget", str(budget)], text)
        wrong = second.judged(text, status, document, budget)
        yield f"prove {part} on network {number} with budget {budget}", not wrong, wrong, text, document
        if wrong:
            continue
        opened = with_lines(document, PARTS[part].opened(net, dice))
        whole = [document, document, document, opened]
        for form in [document, opened, *(damaged(dice.choice(whole), second.words, dice) for _ in range(DAMAGES))]:
            seen, wanted = answer(["verify", part], form), second.verify(form)
            yield f"verify {part} on network {number}", seen == wanted, seen, wanted, form


def main():
    program = str(Path(sys.argv[1]).resolve())
    parts = [*PARTS] if sys.argv[2:3] in ([], ["all"]) else [sys.argv[2]]
    count, seed = (int(words[0]) if words else default for words, default in [(sys.argv[3:], 0), (sys.argv[4:], 1)])

    def answer(words, text):
        done = subprocess.run([program, *words], input=text, capture_output=True, timeout=SECONDS)
        return done.returncode, done.stdout + done.stderr

    status = 0
    for part in parts:
        tally = Tally(f"prove {part}")
        for name, good, *seen in tries(part, answer, count or PARTS[part].COUNT, seed):
            tally.count(name, good, *seen)
        status |= tally.end()
    return status


if __name__ == "__main__":
    sys.exit(main())
