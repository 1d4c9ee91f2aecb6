"""Calls the program `crnt`, which alone decides, and reads its answers."""

from __future__ import annotations

import os
import re
import shutil
import subprocess
import sys
import threading
from pathlib import Path
from typing import Union

from .cures import cure
from .errors import ProgramFault, ProgramMissing, Refused, Rejected
from .report import Report

#: A text of a network or of a certificate. Bytes are taken as they are; a `str` is written as UTF-8.
Text = Union[str, bytes]

#: After so long a terminal is told that the program is still at work.
SILENT_SECONDS = 5
REFUSAL = re.compile(r"refused ([0-9]+) ([A-Za-z]+) at line ([0-9]+)\n")
REJECTION = re.compile(r"rejected ([0-9]+) ([A-Za-z]+) at line ([0-9]+)\n")


def find() -> str:
    """The program: what the variable CRNT names, or the launcher of the clone in which this package is, or the `crnt` on
    the path."""
    named = os.environ.get("CRNT")
    if named:
        found = shutil.which(named)
        if not found:
            raise ProgramMissing(f"the variable CRNT names {named}, which is no program")
        return found
    root = Path(__file__).resolve().parents[3]
    if (root / "crates.txt").is_file() and (root / "crnt").is_file():
        return str(root / "crnt")
    on_path = shutil.which("crnt")
    if not on_path:
        raise ProgramMissing("no program crnt was found; name it by the variable CRNT, or put it on the path")
    return on_path


def call(words: list[str], text: Text) -> tuple[int, bytes]:
    """The status with which the program ends on this text, and what it writes. Raises ProgramFault if the status goes
    with no answer."""
    given = text.encode("utf-8", "surrogateescape") if isinstance(text, str) else text
    program = find()
    notice = threading.Timer(SILENT_SECONDS, print, [f"{program} is still at work (the launcher of a clone may be building "
                                                     "the program)"], {"file": sys.stderr})
    if sys.stderr and sys.stderr.isatty():
        notice.start()
    try:
        done = subprocess.run([program, *words], input=given, capture_output=True, check=False)
    except OSError as fault:
        raise ProgramMissing(f"{program} cannot be run: {fault.strerror}") from None
    finally:
        notice.cancel()
    if done.returncode not in (0, 1, 2, 3):
        raise ProgramFault(done.returncode, done.stderr.decode("utf-8", "replace").strip().split("\n")[-1])
    return done.returncode, done.stdout


def answered(words: list[str], text: Text) -> str:
    """What the program writes with status 0 or 1; else the refusal or the rejection is raised."""
    status, written = call(words, text)
    said = written.decode("ascii")
    if status in (0, 1):
        return said
    found = (REFUSAL if status == 2 else REJECTION).fullmatch(said)
    if not found:
        raise ProgramFault(status, f"it wrote {said[:60]!r}")
    code, name, line = int(found[1]), found[2], int(found[3])
    if status == 3:
        raise Rejected(code, name, line)
    raise Refused(code, name, line, cure(code, line_of(text, line)))


def line_of(text: Text, number: int) -> str:
    lines = (text.decode("utf-8", "replace") if isinstance(text, bytes) else text).split("\n")
    return lines[number - 1].rstrip("\r") if 1 <= number <= len(lines) else ""


def budget_words(budget: int | None) -> list[str]:
    return [] if budget is None else ["--budget", str(budget)]


def report(text: Text, budget: int | None = None) -> Report:
    """The report on the network that a text spells. Searches stop after `budget` visits, 20,000 if none is said and
    100,000 at most. Raises Refused if the text spells no network."""
    source = text.decode("utf-8", "replace") if isinstance(text, bytes) else text
    return Report.of_text(answered(["report", *budget_words(budget)], text), source)


def certify(text: Text, budget: int | None = None) -> str:
    """The certificate of the verdicts on the network that a text spells; `check` or `verify` takes it. Raises Refused."""
    return answered(["certify", *budget_words(budget)], text)


def check(certificate: Text) -> Report:
    """The report of a certificate that the program has checked. Raises Rejected if it has a fault."""
    document = certificate.decode("ascii", "replace") if isinstance(certificate, bytes) else certificate
    return Report.of_text(answered(["check"], certificate), network_of(document))


def network_of(document: str) -> str:
    """The network text of a good certificate."""
    lines = document.split("\n", 242)
    return "".join(f"{line}\n" for line in lines[2 : 2 + int(lines[1].split(" ")[1])])
