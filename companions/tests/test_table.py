"""Tables of many networks."""

import csv
import os
import pty
import subprocess
import sys
import time
from pathlib import Path

import crnt_tools as ct
import support
from crnt_tools.table import COLUMNS

FIELDS = {
    "q1_linkage_classes": lambda r: len(r.q1.classes), "q2_strong_classes": lambda r: len(r.q2.classes),
    "q2_terminal": lambda r: len(r.q2.terminal), "q5_rank": lambda r: r.q5.rank, "q6_deficiency": lambda r: r.q6.deficiency,
    "q3_reversible": lambda r: r.q3.reversible, "q4_weakly_reversible": lambda r: r.q4.weakly_reversible,
    "q7_positively_dependent": lambda r: r.q7.positively_dependent, "q8_conservative": lambda r: r.q8.conservative,
    "q9_deficiency_zero": lambda r: r.q9.hypotheses_hold, "q10_deficiency_one": lambda r: r.q10.hypotheses_hold,
    "q11_regular": lambda r: r.q11.regular, "q14_concordant": lambda r: r.q14.concordant,
    "q15_strongly_concordant": lambda r: r.q15.strongly_concordant, "open": lambda r: r.open_count,
    "q13_signal": lambda r: r.q13.has_signal if r.q13.applicable else "none",
    "q12_confluence_vector": lambda r: True if r.q12.applicable else "none",
}


def rows(text, separator=","):
    return list(csv.DictReader(text.splitlines(), delimiter=separator))


def cell(value):
    return {True: "yes", False: "no"}.get(value, str(value)) if isinstance(value, bool) else str(value)


def test_all_examples():
    status, out, err = support.command(["table", *support.examples()])
    found = rows(out)
    yield "done", (status, err) == (0, ""), status, err
    yield "a row for each in their order", [row["file"] for row in found] == [str(path) for path in support.examples()]
    for row, path in zip(found, support.examples()):
        report = ct.report(path.read_bytes())
        yield f"{path.name}: sizes", [row["species"], row["complexes"], row["reactions"]] == [
            str(len(report.species)), str(len(report.complexes)), str(report.reaction_count)]
        for name, value in FIELDS.items():
            yield f"{path.name}: {name}", row[name] == cell(value(report)), row[name]
        yield f"{path.name}: class deficiencies", row["q6_class_deficiencies"] == " ".join(
            map(str, report.q6.class_deficiencies))
    yield "all verdicts", {name.partition("_")[0] for name in COLUMNS if name[0] == "q"} == {f"q{k}" for k in range(1, 16)}


def test_bad_files():
    """One bad file never ends the rest."""
    with support.folder() as name:
        folder = Path(name)
        (folder / "good.crn").write_text("A <-> B\n")
        (folder / "refused.crn").write_text("A => B\n")
        (folder / "bytes.crn").write_bytes(bytes(range(256)))
        (folder / "with, comma.crn").write_text("A -> B\n")
        (folder / "folder.crn").mkdir()
        files = ["bytes.crn", "refused.crn", "none.crn", "folder.crn", "good.crn", "with, comma.crn"]
        status, out, err = support.command(["table", *files], folder=name)
        found = rows(out)
        yield "all rows", [row["file"] for row in found] == files, out
        yield "their statuses", [row["status"] for row in found] == ["2", "2", "5", "5", "0", "0"], out
        yield "the greatest status", status == 5 and err == ""
        yield "what to write", "`A -> B`" in found[1]["message"], found[1]["message"]
        status, out, _ = support.command(["table", "--tsv", "--budget", "1"], "good.crn\nrefused.crn\n".encode(), folder=name)
        yield "names from standard input, tabs", [row["status"] for row in rows(out, "\t")] == ["1", "2"] and status == 2
        yield "open questions", rows(out, "\t")[0]["q14_concordant"] == "open"
        status, _, _ = support.command(["table", "good.crn", "--reports", "kept", "-o", "t.tsv"], folder=name)
        yield "reports are kept", (folder / "kept/good.crn.report").read_text() == str(ct.report("A <-> B\n"))
        yield "tabs by the name", "\t" in (folder / "t.tsv").read_text()
        status, _, err = support.command(["table", "good.crn", "-o", "t.tsv"], folder=name)
        yield "no table is written over", status == 70 and "--resume" in err, status, err
        status, _, err = support.command(["table", "good.crn", "-o", "none/t.tsv"], folder=name)
        yield "a file that cannot be written", status == 6 and "none/t.tsv" in err, status, err
        latin = b"caf\xe9.crn"
        Path(os.fsdecode(bytes(folder) + b"/" + latin)).write_text("A -> B\n")
        for words, text in (([], b"good.crn\n" + latin), ([b"good.crn", latin], b"")):
            done = subprocess.run([sys.executable, "-m", "crnt_tools", "table", "-o", "l.csv", "--resume", *words], input=text,
                                  cwd=name, capture_output=True)
            made = (folder / "l.csv").read_bytes()
            yield f"a name that is no UTF-8, {words}", done.returncode == 0 and made.count(b"\n" + latin + b",0,") == 1, done, made
        (folder / "other.csv").write_text("a,b\n1,2\n")
        status, _, err = support.command(["table", "good.crn", "-o", "other.csv", "--resume"], folder=name)
        yield "another table", status == 70 and "no table" in err, err


def test_resume():
    """A table that was cut off anywhere is gone on with, and is then the whole one."""
    with support.folder() as name:
        folder, files = Path(name), [str(path) for path in support.examples()]
        support.command(["table", *files, "-o", "whole.csv"], folder=name)
        whole = (folder / "whole.csv").read_bytes()
        for size in (0, 10, len(whole) // 3, len(whole) // 2, len(whole) - 1, len(whole)):
            (folder / "part.csv").write_bytes(whole[:size])
            status, _, err = support.command(["table", *files, "-o", "part.csv", "--resume"], folder=name)
            yield f"{size} bytes were there", status == 0 and (folder / "part.csv").read_bytes() == whole, err
        changed = whole.replace(b"brusselator.crn,0,", b"brusselator.crn,9,")
        (folder / "part.csv").write_bytes(changed)
        support.command(["table", *files, "-o", "part.csv", "--resume"], folder=name)
        yield "rows that are there stay", (folder / "part.csv").read_bytes() == changed


def test_killed():
    """A run that is killed leaves whole rows, and is gone on with."""
    with support.folder() as name:
        folder = Path(name)
        files = [str(folder / f"{k}.crn") for k in range(400)]
        for k, file in enumerate(files):
            Path(file).write_text(support.random_text(k))
        words = [sys.executable, "-m", "crnt_tools", "table", *files, "-o", str(folder / "t.csv")]
        run = subprocess.Popen(words)
        while run.poll() is None and (not (folder / "t.csv").exists() or (folder / "t.csv").stat().st_size < 5000):
            time.sleep(0.01)
        run.kill()
        run.wait()
        before = (folder / "t.csv").read_bytes()
        yield "it was not done", before.count(b"\n") < 401, before.count(b"\n")
        support.command(["table", *files, "-o", "t.csv", "--resume"], folder=name)
        found = rows((folder / "t.csv").read_text())
        yield "then all rows are there once", [row["file"] for row in found] == files
        yield "those before stay", (folder / "t.csv").read_bytes().startswith(before[: before.rfind(b"\n") + 1])


def test_progress():
    """On a terminal there is a bar; elsewhere nothing."""
    main, other = pty.openpty()
    words = [sys.executable, "-m", "crnt_tools", "table", *map(str, support.examples())]
    done = subprocess.run(words, stdout=subprocess.PIPE, stderr=other, timeout=120)
    os.close(other)
    shown = os.read(main, 100_000).decode()
    os.close(main)
    count = len(support.examples())
    yield "a bar", f"[{'#' * 30}] {count}/{count}" in shown and done.returncode == 0, shown


def long_ten_thousand():
    """10,000 networks of the size of the examples."""
    with support.folder() as name:
        folder = Path(name)
        texts = [path.read_bytes() for path in support.examples()]
        files = []
        for k in range(10_000):
            files.append(f"{k}.crn")
            (folder / files[-1]).write_bytes(texts[k % len(texts)])
        begun = time.monotonic()
        status, _, err = support.command(["table", "-o", "t.csv"], "\n".join(files).encode(), folder=name)
        seconds = time.monotonic() - begun
        print(f"table: 10,000 networks in {seconds:.1f} s on {os.cpu_count()} processors, load {os.getloadavg()[0]:.1f}")
        found = rows((folder / "t.csv").read_text())
        yield "all rows", len(found) == 10_000 and status == 0 and all(row["status"] == "0" for row in found), err
        yield "under a minute", seconds < 60, seconds
