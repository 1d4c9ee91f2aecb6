#!/usr/bin/env python3
"""Tries the yardstick beside the second programs of the checks: reports of small random networks and of those of
examples/networks, at several budgets, which the second program judges; their certificates, which both check; damaged
certificates of either version, on which both have to say the same; and part documents of random networks, which the second
program of the part judges. It ends at the first difference, and writes the input to /tmp/differs.

    benches/agree.py [COUNT]
"""

import glob
import os
import random
import subprocess
import sys
import tempfile

HERE = os.path.dirname(os.path.abspath(__file__))
sys.path[:0] = [HERE, os.path.join(HERE, "..", "checks")]

import prove
import second_opinion
import texts


def answer(program, words, text):
    """The status of a run, and what it wrote; a run that says anything else ends all."""
    done = subprocess.run([program, *words], input=text, capture_output=True)
    if done.stderr:
        differ(text, done.stderr)
    return done.returncode, done.stdout


def differ(text, *seen):
    with open("/tmp/differs", "wb") as file:
        file.write(text)
    sys.exit(f"{seen}; the input is in /tmp/differs")


def tried(program, text, budget):
    """The certificate of a network whose report is judged, and which both programs accept with that report."""
    words = ["--budget", str(budget)]
    status, report = answer(program, ["report", *words], text)
    wrong = second_opinion.judged(text, status, report, budget)
    if wrong:
        differ(text, budget, wrong, report)
    same_status, certificate = answer(program, ["certify", *words], text)
    for checked in (answer(program, ["check"], certificate), second_opinion.check(certificate)):
        if checked != (0, report) or same_status != status:
            differ(certificate, budget, checked, (0, report))
    return certificate


def damaged(certificates, dice):
    """One of the certificates with a slip or two, most of them in the later questions."""
    certificate = dice.choice(certificates)
    if dice.random() < 0.5:
        certificate = texts.first_version(certificate)
    at = certificate.find(b"q11") if dice.random() < 0.7 else 0
    return certificate[:at] + texts.damaged(certificate[at:], dice)


def proofs(program, part, count):
    """How many part documents are right, of so many random networks at budgets about that of their search."""
    it, dice = prove.PARTS[part], random.Random(count)
    for _ in range(count):
        text = it.network(dice).encode()
        visits = it.PROGRAM.visits(second_opinion.read_network(text.decode()))
        budget = dice.choice([20_000, *([visits, max(1, visits - 1)] if visits else [])])
        status, document = answer(program, ["prove", part, "--budget", str(budget)], text)
        wrong = it.PROGRAM.judged(text, status, document, budget)
        if wrong:
            differ(text, part, budget, wrong, document)
    return count


def main(count):
    with tempfile.TemporaryDirectory() as folder:
        program = os.path.join(folder, "yardstick")
        subprocess.run([os.path.join(HERE, "yardstick", "build"), program], check=True)
        certificates = []
        for seed in range(count):
            text = texts.small_network(seed)
            if second_opinion.read_network(text):
                budget = random.Random(seed).choice([1, 2, 5, 8, 20, 50])
                certificates += [tried(program, text.encode(), each) for each in (20_000, budget)]
        names = sorted(glob.glob(os.path.join(HERE, "..", "examples", "networks", "*.crn")))
        for name in names:
            with open(name, "rb") as file:
                text = file.read()
            certificates += [tried(program, text, budget) for budget in (20_000, 50)]
        print(f"{len(certificates)} reports are right, and both programs accept their certificates")
        short, dice, statuses = [it for it in certificates if len(it) < 6000], random.Random(count), []
        for _ in range(3 * count):
            text = damaged(short, dice)
            both = answer(program, ["check"], text), second_opinion.check(text)
            if both[0] != both[1]:
                differ(text, *both)
            statuses.append(both[0][0])
        print(f"{len(statuses)} damaged certificates have the same answer from both, {statuses.count(3)} of them a rejection")
        for part in prove.PARTS:
            print(f"{proofs(program, part, count)} documents on {part} are right")


main(int(sys.argv[1]) if len(sys.argv) > 1 else 300)
