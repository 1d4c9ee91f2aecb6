#!/usr/bin/env python3
"""Runs the built program with memory that is refused, on devices that fail, and on documents that are cut.

    checks/hostile.py PROGRAM          several thousand runs
    checks/hostile.py PROGRAM few      a part of checks/run: reads and writes alone, of one input for each command

Each request for memory of a run is refused in turn, each read of standard input and each write of standard output fails in
turn, with small pieces and with large ones, and each document ends at each of its bytes. What a run then may answer is said
by docs/FORMATS.md: no memory is status 7, or 8 if it was the words that could not be taken, with nothing written; a read
fault is 5, with nothing written; a write fault is 6, with a proper prefix; a document that is cut has the fault that the
second program finds. The calls are refused by `refuse.c`, which a C compiler compiles and the loader puts before the C
library. Without a C compiler nothing is run.
"""

import os
import shutil
import subprocess
import sys
import tempfile
from pathlib import Path

import ends
import prove
import second_opinion
from end_to_end import NETWORKS, NO_WORDS, READ_FAULT, REJECTED, SECONDS, WRITE_FAULT, first_version, joined
from tally import Tally

NO_MEMORY = 7
HERE = Path(__file__).resolve().parent
PROOF = prove.PARTS["persist"].PROGRAM.prove(b"A <-> B\n")[1]
COMPILER = next(filter(None, map(shutil.which, ["cc", "gcc", "clang"])), None)
# more requests or calls than any run makes
MOST_CALLS = 100_000
# The beginning of a document, the most bytes of a read, the read after the one that brings the first fault, and the line that
# says it. The last of the reads of 4,096 bytes brings the byte by which a line is too long.
FAULTS_FIRST = [
    (b"crn certificate 3\n", 64, 2, b"rejected 21 BadHeader at line 1\n"),
    (b"crn certificate 3\n", 1, 19, b"rejected 21 BadHeader at line 1\n"),
    (b"crn certificate 3\n", 18, 2, b"rejected 21 BadHeader at line 1\n"),
    (b"crn certificate 2\nnetwork 0\n", 1, 29, b"rejected 22 BadNetwork at line 2\n"),
    (b"crn certificate 2\nnetwork 0\n", 64, 2, b"rejected 22 BadNetwork at line 2\n"),
    (b"", 4_096, 6, b"rejected 30 LineTooLong at line 1\n"),
]
# How many bytes come before a tail, the most bytes of a read, and the line that says the first fault.
LENGTHS = [
    (16_384, b"\nab", 4_096, b"rejected 21 BadHeader at line 1\n"),
    (16_384, b"\nab", 7, b"rejected 21 BadHeader at line 1\n"),
    (16_384, b"", 64, b"rejected 27 EndsEarly at line 1\n"),
    (16_385, b"\nab", 4_096, b"rejected 30 LineTooLong at line 1\n"),
    (16_385, b"\nab", 1, b"rejected 30 LineTooLong at line 1\n"),
    (16_385, b"", 64, b"rejected 30 LineTooLong at line 1\n"),
]


class Hostile:
    """A program, and the library that refuses its calls."""

    def __init__(self, program, folder):
        self.program, self.library, self.mark = program, f"{folder}/refuse.so", f"{folder}/refused"
        subprocess.run([COMPILER, "-O1", "-shared", "-fPIC", "-o", self.library, HERE / "refuse.c"], check=True)

    def run(self, words, text, **refusals):
        """The status, what was written, and whether a call was refused. A pipe would give what is there, so standard input is
        a file, and so is standard output, of which nothing is then lost. `taken` says how many bytes were read."""
        if os.path.exists(self.mark):
            os.unlink(self.mark)
        environment = {"LD_PRELOAD": self.library, "REFUSED": self.mark, **{name: str(n) for name, n in refusals.items()}}
        with tempfile.TemporaryFile() as source, tempfile.TemporaryFile() as sink:
            source.write(text)
            source.seek(0)
            done = subprocess.run([self.program, *words], stdin=source, stdout=sink, stderr=subprocess.PIPE, env=environment,
                                  timeout=SECONDS)
            self.taken = os.lseek(source.fileno(), 0, os.SEEK_CUR)
            sink.seek(0)
            return (done.returncode, sink.read(), done.stderr), os.path.exists(self.mark)

    def each(self, name, words, text, refused, may_be, calls=None, **others):
        """A run for each call that can be refused, until there is no such call: each ends as it may, and the last as if nothing
        was refused. `calls` says how many there are, where that is known."""
        wanted, _ = self.run(words, text)
        for at in range(1, MOST_CALLS):
            seen, was_refused = self.run(words, text, **{refused: at}, **others)
            if not was_refused:
                yield f"{name}: no call is left after {at - 1}", seen == wanted and at - 1 in (calls or range(1, at)), seen
                return
            yield f"{name}: call {at}", may_be(at, seen, wanted), seen
        yield f"{name}: the calls come to an end", False, MOST_CALLS


def is_out_of_memory(_, seen, wanted):
    """Nothing is written; or the request was for a smaller copy of a list, and the list stays where it is."""
    return seen in [(NO_MEMORY, b"", b""), (NO_WORDS, b"", b""), wanted]


def is_read_fault(_, seen, __):
    return seen == (READ_FAULT, b"", b"")


def is_write_fault_after(most):
    """A proper prefix of what was to be written, no longer than the calls before took: nothing is written after the fault."""
    def may_be(at, seen, wanted):
        status, out, err = seen
        return status == WRITE_FAULT and err == b"" and wanted[1].startswith(out) and len(out) < len(wanted[1]) \
            and (most is None or len(out) <= most * (at - 1))
    return may_be


def inputs(program):
    """What a run is called, its words, and its text."""
    edelstein = (NETWORKS / "edelstein.crn").read_bytes()
    document = subprocess.run([program, "certify"], input=edelstein, capture_output=True, check=True).stdout
    sites = (NETWORKS / "two_site_futile_cycle.crn").read_bytes()
    three = b"2A <-> A + B\nA + B <-> 2B\n"
    trees = subprocess.run([program, "certify"], input=three, capture_output=True, check=True).stdout
    yield "report on one reaction", ["report"], b"A -> B\n"
    yield "certify on Edelstein's network", ["certify"], edelstein
    yield "check of Edelstein's network", ["check"], document
    yield "check of Edelstein's network in version 1", ["check"], first_version(document)
    yield "check of two trees of signals", ["check"], trees
    yield "check of A <-> B", ["check"], joined(ends.ENDS)
    yield "report on the two-site futile cycle", ["report"], sites
    yield "a refused text", ["report"], b"A => B\n"
    yield "a rejected document", ["check"], document.replace(b"\nq3 yes\n", b"\nq3 no 1\n")
    for part, it in prove.PARTS.items():
        yield f"prove {part} on the two-site futile cycle", ["prove", part], sites
        yield f"verify {part} of A <-> B", ["verify", part], it.PROGRAM.prove(b"A <-> B\n")[1]
    yield "a rejected part document", ["verify", "persist"], PROOF.replace(b"bad 2", b"bad 1")
    yield "no command", ["frobnicate"], b""
    yield "sample 3", ["sample", "3"], b""


def refusals(hostile):
    """Each request for memory, each read and each write refused in turn."""
    for name, words, text in inputs(hostile.program):
        yield from hostile.each(f"memory, {name}", words, text, "REFUSE_MEMORY", is_out_of_memory)
        if words[0] in ("report", "certify", "check", "prove", "verify"):
            for most in (None, 64, 7):
                bound = {"MOST_READ": most} if most else {}
                yield from hostile.each(f"reads of at most {most}, {name}", words, text, "FAIL_READ", is_read_fault, **bound)
        for most in (None, 64, 7):
            bound = {"MOST_WRITTEN": most} if most else {}
            yield from hostile.each(f"writes of at most {most}, {name}", words, text, "FAIL_WRITE", is_write_fault_after(most), **bound)


def few(hostile):
    """Each read and each write of one input for each command fails in turn."""
    sites = (NETWORKS / "two_site_futile_cycle.crn").read_bytes()
    yield from what_is_read(hostile)
    for name, words, text, most in [
        ("report on the two-site futile cycle", ["report"], sites, 7), ("report on one reaction", ["report"], b"A -> B\n", 1),
        ("check of A <-> B", ["check"], joined(ends.ENDS), 64),
        ("certify on one reaction", ["certify"], b"A -> B\n", 7), ("verify persist of A <-> B", ["verify", "persist"], PROOF, 7),
        ("prove persist on the two-site futile cycle", ["prove", "persist"], sites, 7),
    ]:
        # as few reads as give all bytes, and one more that says that none is left
        reads = [-(-len(text) // most) + 1]
        yield from hostile.each(f"reads of at most {most}, {name}", words, text, "FAIL_READ", is_read_fault, reads, MOST_READ=most)
    for name, words, text, most in [
        ("report on one reaction", ["report"], b"A -> B\n", 1), ("sample 1", ["sample", "1"], b"", 7),
        ("check of A <-> B", ["check"], joined(ends.ENDS), 7), ("no command", ["frobnicate"], b"", 7),
        ("prove persist on A <-> B", ["prove", "persist"], b"A <-> B\n", 7), ("verify persist of A <-> B", ["verify", "persist"], PROOF, 7),
    ]:
        may_be = is_write_fault_after(most)
        yield from hostile.each(f"writes of at most {most}, {name}", words, text, "FAIL_WRITE", may_be, MOST_WRITTEN=most)


def what_is_read(hostile):
    """Nothing is read after a read that failed, nor by `check` after the read that brings the first fault; a line is as long as
    the limit and no longer."""
    seen, _ = hostile.run(["report"], b"A -> B", MOST_READ=1, FAIL_READ=2)
    yield "a read fails: nothing more is read", (seen, hostile.taken) == ((READ_FAULT, b"", b""), 1), (seen, hostile.taken)
    for begins, most, after, line in FAULTS_FIRST:
        text, name = begins + 32_768 * b"x", f"{line.decode().strip()}, reads of at most {most}"
        seen, was_refused = hostile.run(["check"], text, MOST_READ=most, FAIL_READ=after)
        good = seen == (REJECTED, line, b"") and not was_refused and hostile.taken == most * (after - 1)
        yield f"{name}: nothing more is read", good, (seen, hostile.taken)
        seen, _ = hostile.run(["check"], text, MOST_READ=most, FAIL_READ=after - 1)
        good = seen == (READ_FAULT, b"", b"") and hostile.taken == most * (after - 2)
        yield f"{name}: the read before fails", good, (seen, hostile.taken)
    for count, tail, most, line in LENGTHS:
        seen, _ = hostile.run(["check"], count * b"a" + tail, MOST_READ=most)
        yield f"a line of {count} bytes before {tail}, reads of at most {most}", seen == (REJECTED, line, b""), seen


def pieces(hostile):
    """Small pieces that do not fail change nothing."""
    for name, words, text in inputs(hostile.program):
        wanted, _ = hostile.run(words, text)
        for most in (1, 7, 64):
            seen, _ = hostile.run(words, text, MOST_READ=most, MOST_WRITTEN=most)
            yield f"pieces of at most {most}, {name}", seen == wanted, (seen, wanted)


def cuts(program):
    """Documents that end at each of their bytes."""
    for name, words, text in inputs(program):
        judge = second_opinion.check if words[0] == "check" else prove.PARTS[words[1]].PROGRAM.verify if words[0] == "verify" else None
        if judge and judge(text)[0] == 0:
            for at in range(len(text)):
                done = subprocess.run([program, *words], input=text[:at], capture_output=True, timeout=SECONDS)
                seen, wanted = (done.returncode, done.stdout, done.stderr), (*judge(text[:at]), b"")
                yield f"{name}, cut at byte {at}", seen == wanted and seen[0] == 3, (seen, wanted)


def main():
    program, are_few = str(Path(sys.argv[1]).resolve()), sys.argv[2:] == ["few"]
    tally = Tally("hostile")
    if COMPILER is None:
        print("hostile: not run, as there is no C compiler")
        return 0 if are_few else 1
    with tempfile.TemporaryDirectory() as folder:
        hostile = Hostile(program, folder)
        for name, good, seen in few(hostile) if are_few else [*refusals(hostile), *what_is_read(hostile), *pieces(hostile), *cuts(program)]:
            tally.count(name, good, seen)
    return tally.end()


if __name__ == "__main__":
    sys.exit(main())
