"""Runs of the built program in the tables beside this file."""

import subprocess
import tempfile

DONE, OPEN_LEFT, REFUSED, REJECTED, USAGE, READ_FAULT, WRITE_FAULT, NO_WORDS = 0, 1, 2, 3, 4, 5, 6, 8
SECONDS = 120

# lines of a report that give one of several: a base, multipliers, a vector, a walk, a signal, a pair that shows discordance
ONE_OF_SEVERAL = ("  independent reactions: ", "  multipliers: ", "  positive ", "  shelves: ", "  mu: ", "  m: ", "  sigma: ", "  alpha: ")


def as_bytes(text):
    return text if isinstance(text, bytes) else text.encode("ascii")


def run(program, words, text, name="crnt"):
    """The status and what was written, where standard input is a file that holds `text`, and the program is called by this name."""
    with tempfile.TemporaryFile() as source:
        source.write(as_bytes(text))
        source.seek(0)
        done = subprocess.run([name, *words], executable=program, stdin=source, capture_output=True, timeout=SECONDS)
    return done.returncode, done.stdout, done.stderr


def ends_so(program, line, text, status, want):
    """Whether these words end so on a text and write just this, and what was seen."""
    seen = run(program, line.split(), text)
    return seen == (status, as_bytes(want), b""), seen


def is_refused(program, text, line):
    return ends_so(program, "report", text, REFUSED, line)


def is_judged(program, document, fault):
    """Whether a document is rejected for this fault, or accepted if that is none."""
    if fault:
        return ends_so(program, "check", document, REJECTED, f"rejected {fault}\n")
    seen = run(program, ["check"], document)
    return seen[0] == DONE, seen


def has_in_turn(text, parts):
    """Whether a text has these parts, one after another."""
    for part in parts:
        _, found, text = text.partition(as_bytes(part))
        if not found:
            return False
    return True


def decided_lines(report):
    """The lines of a report that the network alone decides."""
    kept, is_plane = [], False
    for line in report.splitlines():
        is_plane = line.endswith(": not applicable, two independent vectors") or is_plane and line.startswith("  vector: ")
        is_free = is_plane and line.startswith("  vector: ") or line.startswith(ONE_OF_SEVERAL) or ", walk: " in line
        if not is_free:
            kept.append(line)
    return kept


def is_reported(program, text, want):
    """Whether every question on a text is decided, and its report is this one but for the lines that it does not decide."""
    status, out, err = run(program, ["report"], text)
    good = status == DONE and err == b"" and decided_lines(out.decode("ascii")) == decided_lines(want)
    return good, (status, out)
