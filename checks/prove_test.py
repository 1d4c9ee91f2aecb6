#!/usr/bin/env python3
"""Tests that the random tests of parts can fail: each second program in the place of `crnt` passes its own and meets every
verdict and every fault, and each of its wrong forms fails."""

import re
import sys
from pathlib import Path

import prove
from second_opinion import NAMES
from tally import Tally

SEED = 1
CERTIFICATES = Path(__file__).resolve().parent.parent / "docs" / "CERTIFICATES.md"
# a line of a document, or one with these words, what stands in place of it, and the fault
EDIT = re.compile(r"^\| (?:line (\d+), )?`([^`]*)` \| `([^`]*)` \| `(\d+ \w+)` at (\d+) \|$", re.MULTILINE)
# the faults that a document of any part may have
FAULTS = [21, 22, 23, 24, 25, 26, 27, 28]


def answer_of(second):
    """What the second program answers to words."""
    return lambda words, text: second.verify(text) if words[0] == "verify" else second.prove(text, int(words[3]))


def edits(part):
    """The edits that CERTIFICATES shows of the part's worked documents, which are some of those by hand."""
    it = prove.PARTS[part]
    section = CERTIFICATES.read_text("utf-8").partition(f"\n### {it.HEADING}\n")[2].split("\n### ")[0]
    rows, good = EDIT.findall(section), [document for document, old, *_ in it.VERDICTS if not old]
    yield f"{part}: CERTIFICATES has edits", len(rows) > 3, rows
    for number, old, new, fault, line in rows:
        found = []
        for lines in (document.splitlines() for document in good):
            at = int(number) - 1 if number else next((k for k, line in enumerate(lines) if line == old), -1)
            if 0 <= at < len(lines) and lines[at] == old:
                edited = "".join(f"{line}\n" for line in [*lines[:at], new, *lines[at + 1 :]])
                found.append(it.PROGRAM.verify(edited.encode()))
        yield f"{part}: {new!r} for {old!r}", (3, f"rejected {fault} at line {line}\n".encode()) in found, found


def tries(part):
    it, seen = prove.PARTS[part], set()
    answer = answer_of(it.PROGRAM)

    def noted(words, text):
        status, out = answer(words, text)
        seen.update(it.kind(out.decode()).split(" at line")[:1] if words[0] == "verify" else [])
        return status, out

    for name, good, *found in prove.tries(part, noted, it.COUNT, SEED):
        yield f"of the second program: {name}", good, *found
    wanted = {*it.KINDS, *(f"rejected {code} {NAMES[code]}" for code in [*FAULTS, *it.CODES])}
    yield f"{part}: the quick size meets every verdict and fault", wanted <= seen, wanted - seen
    yield from edits(part)
    for name, wrong in it.WRONG.items():
        failed = next((name for name, good, *_ in prove.tries(part, wrong(answer), it.COUNT, SEED) if not good), None)
        yield f"{part}: finds that {name}", failed, failed
    for text, budget, status, document in it.PROOFS:
        found = it.PROGRAM.prove(text.encode(), budget)
        yield f"{part}: proves {text!r} with budget {budget}", found == (status, document.encode()), found
    for document, old, new, said in it.VERDICTS:
        status, out = it.PROGRAM.verify(document.replace(old, new, 1).encode())
        yield f"{part}: {said} for {new!r}", (status, out.decode()) == (3 if said.startswith("rejected") else 0, f"{said}\n"), out


def main():
    tally = Tally("prove, the test")
    for part in sys.argv[1:] or prove.PARTS:
        for name, good, *seen in tries(part):
            tally.count(name, good, *seen)
    return tally.end()


if __name__ == "__main__":
    sys.exit(main())
