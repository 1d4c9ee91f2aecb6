"""Many networks to one table, a row each, on all processors."""

from __future__ import annotations

import csv
import io
import os
import sys
import time
from concurrent.futures import ThreadPoolExecutor
from dataclasses import dataclass
from pathlib import Path
from typing import Iterator, TextIO

from .errors import CrntError
from .parts import prove, verified
from .program import find
from .program import report as report_of
from .report import Report

#: The columns that say what came of a file, and those of its report.
OF_FILE = ("file", "status", "message")
OF_REPORT = (
    "species", "complexes", "reactions", "q1_linkage_classes", "q2_strong_classes", "q2_terminal", "q3_reversible",
    "q4_weakly_reversible", "q5_rank", "q6_deficiency", "q6_class_deficiencies", "q7_positively_dependent",
    "q8_conservative", "q9_deficiency_zero", "q10_deficiency_one", "q11_regular", "q12_confluence_vector", "q13_signal",
    "q14_concordant", "q15_strongly_concordant", "open",
)
COLUMNS = (*OF_FILE, *OF_REPORT)


def columns(parts: tuple[str, ...]) -> tuple[str, ...]:
    """The columns of a table with a column more for each part."""
    return (*COLUMNS, *parts)


@dataclass(frozen=True)
class Job:
    """A file to report on, where its report is kept, if anywhere, and the parts that are proved of it."""

    file: str
    budget: int | None
    reports: str | None
    parts: tuple[str, ...] = ()


def row_of(report: Report) -> list[str]:
    """The cells of a report: sizes, and each verdict in a word or a number."""
    classes = " ".join(map(str, report.q6.class_deficiencies or ())) or "open"
    cells = [str(len(report.species)), str(len(report.complexes)), str(report.reaction_count)]
    for question in range(1, 16):
        cells.append(report.word(question))
        cells += [str(len(report.q2.terminal))] if question == 2 else [classes] if question == 6 else []
    return [*cells, str(report.open_count)]


def row(job: Job) -> list[str]:
    """The row of a file. Whatever is wrong with it is said in the row."""
    try:
        text = Path(job.file).read_bytes()
        report = report_of(text, job.budget)
        answers = [verified(prove(part, text, job.budget)) for part in job.parts]
        if job.reports:
            kept = Path(job.reports) / (job.file.replace(os.sep, "_") + ".report")
            kept.write_text(str(report), "ascii")
    except CrntError as fault:
        return failed(job, fault.status, str(fault))
    except OSError as fault:
        return failed(job, 5, fault.strerror or str(fault))
    except Exception as fault:  # whatever it is, the other rows go on
        return failed(job, 70, f"{type(fault).__name__}: {fault}")
    is_open = report.open_count > 0 or any(proof.is_open for proof in answers)
    return [job.file, str(int(is_open)), "", *row_of(report), *(proof.said.split("\n")[0] for proof in answers)]


def failed(job: Job, status: int, message: str) -> list[str]:
    return [job.file, str(status), message, *[""] * (len(OF_REPORT) + len(job.parts))]


def rows_in_order(jobs: list[Job], at_once: int) -> Iterator[list[str]]:
    """The rows of all jobs in their order. Threads are enough, as the work is done by the program."""
    pool = ThreadPoolExecutor(at_once)
    try:
        yield from pool.map(row, jobs)
    finally:
        pool.shutdown(cancel_futures=True)


def begun(path: Path, separator: str, parts: tuple[str, ...]) -> set[str]:
    """The files whose rows a table has already. A last row that is cut off is taken away."""
    text = path.read_bytes()
    kept = text[: text.rfind(b"\n") + 1]
    rows = list(csv.reader(io.StringIO(kept.decode("utf-8", "surrogateescape"), newline=""), delimiter=separator))
    if kept and tuple(rows[0]) != columns(parts):
        raise CrntError(f"{path} is no table of this version: name another file")
    if kept != text:
        path.write_bytes(kept)
    return {cells[0] for cells in rows[1:]}


class Progress:
    """A bar on a terminal: how many of how many, how long it will take, and how many rows are no plain report."""

    WIDTH = 30

    def __init__(self, total: int, stream: TextIO):
        self.total, self.stream, self.done, self.statuses = total, stream, 0, {0: 0}
        self.begun = self.shown = time.monotonic()
        self.is_on = stream.isatty() and total > 0

    def step(self, status: int) -> None:
        self.done += 1
        self.statuses[status] = self.statuses.get(status, 0) + 1
        now = time.monotonic()
        if self.is_on and (now - self.shown > 0.1 or self.done == self.total):
            self.shown = now
            left = (now - self.begun) / self.done * (self.total - self.done)
            bar = "#" * (self.WIDTH * self.done // self.total)
            bad = sum(count for it, count in self.statuses.items() if it > 1)
            self.stream.write(f"\r[{bar:{self.WIDTH}}] {self.done}/{self.total}, {self.statuses.get(1, 0)} open, {bad} without "
                              f"a report, {left:.0f} s left ")
            self.stream.flush()

    def end(self) -> None:
        if self.is_on:
            self.stream.write("\n")


def make_table(files: list[str], target: str | None, budget: int | None = None, processes: int | None = None,
               resume: bool = False, reports: str | None = None, separator: str = ",", parts: tuple[str, ...] = ()) -> int:
    """Writes the table of these files to a file, or to standard output, and gives the greatest status of its new rows.
    With `resume` the rows that the file has already stay, and the others are added. Each of `parts` has a column more.
    Raises CrntError."""
    find()  # without a program no row would say more than that
    seen: set[str] = set()
    if target and os.path.exists(target) and os.path.getsize(target):
        if not resume:
            raise CrntError(f"{target} is there already: --resume goes on with it")
        seen = begun(Path(target), separator, parts)
    if reports:
        Path(reports).mkdir(parents=True, exist_ok=True)
    jobs = [Job(file, budget, reports, parts) for file in dict.fromkeys(files) if file not in seen]
    with opened(target) as out:
        writer, progress, worst = csv.writer(out, delimiter=separator, lineterminator="\n"), Progress(len(jobs), sys.stderr), 0
        if not target or not os.path.getsize(target):
            writer.writerow(columns(parts))
        for cells in rows_in_order(jobs, processes or os.cpu_count() or 1):
            writer.writerow(cells)
            out.flush()
            worst = max(worst, int(cells[1]))
            progress.step(int(cells[1]))
        progress.end()
    return worst


def opened(target: str | None) -> TextIO:
    """The file to add rows to, or standard output. A name of a file need not be UTF-8."""
    return open(target or 1, "a", encoding="utf-8", errors="surrogateescape", newline="", closefd=bool(target))
