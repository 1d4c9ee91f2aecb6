#!/usr/bin/env python3
"""Tries `wrong_programs.py` in a small repository with a toolchain of its own, which answers what a file says."""

import contextlib
import io
import os
import sys

from small_repository import repository_of
from tally import Tally
from wrong_programs import Wrong, try_them

EDIT = "wrong/crn_low/counts_twice.edit"
SOURCE = "crates/crn_low/src/count.rt"
FILES = {
    SOURCE: "n += 1;\nn\n",
    "crates/crn_low/specs/Lib.antt": "",
    "crates/crn_low/proofs/Lib.antt": "",
    "crates/crn_top/src/lib.rt": "",
    EDIT: "file: src/count.rt\nold: n += 1;\nnew: n += 2;\n",
    # it answers for each wrong program that is in its place
    "tools/rt": '#!/bin/sh\nfor it in crates/$2/must-fail/*.edit; do echo "rt: must-fail $2/$(basename "$it"): $(cat answer)"; done\n',
    "answer": "refused, as it must be: src/count.rt:2:1: error",
}

# what is said of an edit, and whether a clause refused it
ANSWERS = [
    ("refused, as it must be: src/count.rt:2:1: error", True),
    ("refused, as it must be (only because a proof file names what the edit took away)", False),
    ("refused, as it must be, but only by a limit", False),
    ("NOT REFUSED: the crate is still proved with this edit", False),
    ("BAD EDIT: an 'old:' text is in src/count.rt 0 times, and not once", False),
]

# an edit, and whether it applies
EDITS = [
    ("it changes one line", FILES[EDIT], True),
    ("it changes the second of two lines, which the first has made", FILES[EDIT] + "old: n += 2;\nnew: n += 3;\n", True),
    ("it takes a line away", "file: src/count.rt\nold: n += 1;\nnew:\n", True),
    ("its text is not there", "file: src/count.rt\nold: n += 3;\nnew: n += 2;\n", False),
    ("its text is there twice", "file: src/count.rt\nold: n\nnew: m\n", False),
    ("its file is not there", "file: src/counts.rt\nold: n\nnew: m\n", False),
    ("it names no file", "old: n += 1;\nnew: n += 2;\n", False),
    ("it has no old text", "file: src/count.rt\nnew: n += 2;\n", False),
    ("it says nothing", "", False),
]


def tries(answer):
    """Whether what rt answers is written down, and the folder of the crate is as it was."""
    with repository_of({**FILES, "answer": answer}) as root:
        (root / "tools/rt").chmod(0o755)
        os.environ["PATH"] = f"{root / 'tools'}:{os.environ['PATH']}"
        wrong = Wrong(root)
        assert wrong.stale() == ["crn_low"]
        with contextlib.redirect_stdout(io.StringIO()):
            status = try_them(wrong, wrong.stale())
        assert not (root / "crates/crn_low/must-fail").exists()
        return status == 0 and wrong.record.read_text() == f"crn_low {wrong.sum_of('crn_low')} 1 refused\n" and not wrong.stale()


def is_stale_after(file, text):
    """Whether a crate whose wrong programs were tried has to have them tried again once this file has this text."""
    with repository_of(FILES) as root:
        wrong = Wrong(root)
        wrong.write_down(["crn_low"])
        (root / file).write_text(text)
        return wrong.stale() == ["crn_low"]


def main():
    tally = Tally("wrong programs, tried")
    for answer, is_refused in ANSWERS:
        tally.count(f"written down: {answer}", tries(answer) == is_refused)
    for file, asks in [(SOURCE, True), ("crates/crn_low/specs/Lib.antt", True), ("crates/crn_low/src/new.rt", True), (EDIT, True),
                       ("wrong/crn_low/another.edit", True), ("crates/crn_top/src/lib.rt", False)]:
        tally.count(f"{'asks' if asks else 'does not ask'} for another trial after a change of {file}", is_stale_after(file, "new") == asks)
    for name, file, text in [("a comment", SOURCE, f"// adds one\n{FILES[SOURCE]}"), ("a proof", "crates/crn_low/proofs/Lib.antt", "mod Counts\n")]:
        tally.count(f"does not ask for another trial after a change of {name}", not is_stale_after(file, text))
    for name, text, applies in EDITS:
        with repository_of({**FILES, EDIT: text}) as root:
            why = Wrong(root).misapplied(root / EDIT)
            tally.count(name, (why is None) == applies, why)
    return tally.end()


if __name__ == "__main__":
    sys.exit(main())
