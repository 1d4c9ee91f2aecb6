"""The command: its words, statuses, streams and errors."""

import contextlib
import io
import json
import os
import pty
import re
import subprocess
import sys
import xml.etree.ElementTree as xml
from pathlib import Path

import crnt_tools as ct
import support
from crnt_tools import cli, explain

VERBS = ("json", "explain", "import", "draw", "order", "table", "verify")
PAIR, WIDE = b"A <-> B\n", "".join(f"X{k} -> 99X{k + 1}\n" for k in range(1, 11)).encode()
EDELSTEIN = support.NETWORKS / "edelstein.crn"


def test_help():
    status, out, _ = support.command(["--help"])
    yield "the verbs", status == 0 and all(re.search(rf"^    {verb} +[A-Z]", out, re.MULTILINE) for verb in VERBS), out
    for verb in VERBS:
        status, out, _ = support.command([verb, "--help"])
        yield f"{verb} has examples", status == 0 and f"crnt-tools {verb}" in out.split("examples:")[1], out
        yield f"{verb} says the statuses", "status: 0 done" in out
    status, out, _ = support.command(["--version"])
    yield "the version", out == f"crnt-tools {ct.__version__}\n"


def test_examples_of_help():
    """Each example of the help that needs no other tool is run, on files of these names."""
    with support.folder() as name:
        folder = Path(name)
        for file in ("two_site", "edelstein", "long", "model"):
            (folder / f"{file}.crn").write_bytes(EDELSTEIN.read_bytes())
        (folder / "two_species.crn").write_bytes(b"A -> B\n")
        (folder / "networks").mkdir()
        (folder / "networks/a.crn").write_bytes(PAIR)
        (folder / "egfr.net").write_text(
            "begin species\n1 A() 1\n2 B() 1\nend species\nbegin reactions\n1 1 2 k\nend reactions\n")
        (folder / "models").mkdir()
        (folder / "model.xml").write_bytes(SBML)
        (folder / "models/m.xml").write_bytes(SBML)
        bin_ = folder / "bin"
        bin_.mkdir()
        (bin_ / "crnt-tools").write_text(f"#!/bin/sh\nexec {sys.executable} -m crnt_tools \"$@\"\n")
        (bin_ / "crnt").write_text(f'#!/bin/sh\nexec "{ct.find()}" "$@"\n')
        for tool in bin_.iterdir():
            tool.chmod(0o755)
        environment = {**os.environ, "PATH": f"{bin_}:{os.environ['PATH']}"}
        for verb in VERBS:
            help_ = support.command([verb, "--help"])[1].split("examples:\n")[1].split("\nstatus:")[0]
            for line in help_.splitlines():
                if needs_missing(line):
                    continue
                done = subprocess.run(["bash", "-o", "pipefail", "-c", line.strip()], cwd=name, env=environment,
                                      capture_output=True, timeout=60)
                yield line.strip(), done.returncode == 0, done.stderr.decode()


def needs_missing(line):
    """A tool or library that an example needs and that is not there."""
    import shutil
    needed = [tool for tool in ("jq",) if re.search(rf"\b{tool}\b", line)] + (["dot"] if "draw" in line and "dot" not in line else [])
    if ".xml" in line:
        try:
            import libsbml  # noqa: F401
        except ImportError:
            return True
    return any(not shutil.which(tool) for tool in needed)


SBML = b"""<?xml version="1.0"?><sbml xmlns="http://www.sbml.org/sbml/level2/version4" level="2" version="4"><model id="m">
<listOfCompartments><compartment id="c"/></listOfCompartments><listOfSpecies><species id="A" compartment="c"/>
<species id="B" compartment="c"/></listOfSpecies><listOfReactions><reaction id="r"><listOfReactants><speciesReference
species="A"/></listOfReactants><listOfProducts><speciesReference species="B"/></listOfProducts></reaction></listOfReactions>
</model></sbml>
"""


def test_statuses():
    cases = [
        (["json"], PAIR, 0, "", ""), (["json", "--budget", "7"], PAIR, 1, '"open": [14, 15]', ""),
        (["json"], b"A => B\n", 2, "", "crnt-tools: standard input: refused 18 StrayMark at line 1: "),
        (["json"], b"crn certificate 2\n", 3, "", "rejected 27 EndsEarly at line 2"),
        (["json"], b"crn report 1\n", 3, "", "no report of crnt, at line 2"),
        (["json", "none.crn"], b"", 5, "", "crnt-tools: none.crn: No such file"),
        (["json", "."], b"", 5, "", "Is a directory"), (["json", "--budget", "0"], PAIR, 4, "", "a number from 1 to 100000"),
        (["json", "--budget", "100001"], PAIR, 4, "", "a number from 1 to 100000"), ([], b"", 4, "", "VERB"),
        (["foo"], b"", 4, "", "invalid choice"), (["explain"], WIDE, 1, "WHAT IS OPEN", ""),
        (["explain", "--html", "--markdown"], PAIR, 4, "", "not allowed with"),
        (["explain", "-o", "none/x.html"], PAIR, 6, "", "none/x.html: No such file"),
        (["import"], b"note\n", 2, "", "it has no reaction"), (["import"], b"A, B -> C\n", 2, "", "write + between species"),
        (["import", "a.net", "b.net"], b"", 4, "", "say --into FOLDER"),
        (["draw", "--view", "species"], str(ct.report(PAIR)).encode(), 2, "", "does not list the reactions"),
        (["order"], b"A -> A\n", 2, "", "refused 1 SelfReaction"), (["order"], WIDE, 1, "as written", ""),
        (["verify"], b"crn certificate 1\nx\n", 3, "", "rejected 22 BadNetwork at line 2"),
        (["verify"], ct.certify(PAIR).encode(), 0, "crn report 1", ""),
        (["table", "--processes", "0"], b"", 4, "", "a number from 1"),
    ]
    for words, text, status, out, err in cases:
        found = support.command(words, text)
        yield f"{words} {text[:20]!r}", found[0] == status and out in found[1] and err in found[2] and (not err or not found[1]), found
    found = support.command(["json"], PAIR, CRNT="/none")
    yield "no program", found[0] == 70 and "the variable CRNT" in found[2], found
    found = support.command(["draw", "--format", "svg"], PAIR, PATH="/none", CRNT=ct.find())
    yield "no dot", found[0] == 70 and "apt-get install graphviz" in found[2], found


def test_streams():
    for verb in ("json", "explain", "order"):
        by_name, by_stream = support.command([verb, EDELSTEIN]), support.command([verb], EDELSTEIN.read_bytes())
        by_dash = support.command([verb, "-"], EDELSTEIN.read_bytes())
        yield f"{verb} reads standard input", by_stream[0] == 0 and by_stream == by_dash
        yield f"{verb} names the file", by_name[0] == 0 and (verb == "json" or "edelstein.crn" in by_name[1])
    full = subprocess.run(f"{sys.executable} -m crnt_tools explain {EDELSTEIN} > /dev/full", shell=True, capture_output=True)
    for verb, way, said in (("json", "<&-", 5), ("table", "<&-", 5), ("json", ">&-", 6), ("table", ">&-", 6), ("json", "2>&-", 0)):
        file = EDELSTEIN if "<" not in way else ""
        closed = subprocess.run(["bash", "-c", f"{sys.executable} -m crnt_tools {verb} {file} {way}"], capture_output=True)
        yield f"{verb} {way}", closed.returncode == said and b"Traceback" not in closed.stderr, closed
    yield "a full device", full.returncode == 6 and b"No space left" in full.stderr and b"Traceback" not in full.stderr, full
    gone = subprocess.run(["bash", "-c", f"{sys.executable} -m crnt_tools json {EDELSTEIN} {EDELSTEIN} | true; echo ${{PIPESTATUS[0]}}"],
                          capture_output=True)
    yield "a reader that is gone", gone.stdout in (b"0\n", b"6\n") and b"Traceback" not in gone.stderr, gone


def test_slow_program():
    """A long text and a program that is slow to read it: it gets all, and a terminal is told that it is at work."""
    code = ("import crnt_tools.program as it; it.SILENT_SECONDS = 0.2; "
            "print(it.report('A -> B\\n' + '# long\\n' * 30_000).q6.deficiency)")
    with support.folder() as name:
        slow = Path(name) / "slow"
        slow.write_text(f'#!/bin/sh\nsleep 1\nexec "{ct.find()}" "$@"\n')
        slow.chmod(0o755)
        main, terminal = pty.openpty()
        done = subprocess.run([sys.executable, "-c", code], env={**os.environ, "CRNT": str(slow)}, stdout=subprocess.PIPE,
                              stderr=terminal, timeout=240)
        os.write(terminal, b"end")
        said = os.read(main, 10_000).decode()
        yield "the report", done.stdout == b"0\n", done
        yield "the notice", "slow is still at work" in said, said


def test_json():
    report = ct.report(EDELSTEIN.read_bytes())
    status, out, _ = support.command(["json", EDELSTEIN])
    yield "the report", json.loads(out) == json.loads(json.dumps(report.to_dict())) and out.count("\n") == 1
    yield "over several lines", json.loads(support.command(["json", EDELSTEIN, "--indent"])[1]) == json.loads(out)
    of_report = json.loads(support.command(["json"], str(report).encode())[1])
    yield "of a report", of_report["report"] == str(report) and of_report["network"] is None and of_report["reactions"] is None
    of_certificate = json.loads(support.command(["json"], ct.certify(EDELSTEIN.read_bytes()).encode())[1])
    yield "of a certificate", of_certificate["report"] == str(report) and len(of_certificate["reactions"]) == 6
    status, out, err = support.command(["json", EDELSTEIN, "none.crn", EDELSTEIN])
    lines = [json.loads(line) for line in out.splitlines()]
    yield "one object a line", [line["file"] for line in lines] == [str(EDELSTEIN), "none.crn", str(EDELSTEIN)]
    yield "a bad file among them", lines[1]["error"]["status"] == 5 and status == 5 and "none.crn" in err
    status, out, _ = support.command(["json", EDELSTEIN, "/dev/stdin"], b"A => B\n")
    refused = json.loads(out.splitlines()[1])["error"]
    yield "a refusal as data", (refused["code"], refused["line"]) == (18, 1) and "`A -> B`" in refused["what_to_write"], out
    schema = ct.schema()
    yield "the schema has the file, too", not list(support.faults(lines[0], schema, schema))


def test_explain():
    report = ct.report(EDELSTEIN.read_bytes())
    for words, form in (([], explain.as_text), (["--markdown"], explain.as_markdown), (["--html"], explain.as_html)):
        yield f"{words}", support.command(["explain", EDELSTEIN, *words])[1] == form(report, "edelstein.crn")
    with support.folder() as name:
        support.command(["explain", EDELSTEIN, "--html", "-o", f"{name}/e.html"])
        yield "to a file", (Path(name) / "e.html").read_text() == explain.as_html(report, "edelstein.crn")


def test_draw():
    with support.folder() as name:
        for suffix, begins in (("svg", b"<?xml"), ("png", b"\x89PNG"), ("pdf", b"%PDF"), ("dot", b"// crn report 1")):
            status, _, err = support.command(["draw", EDELSTEIN, "-o", f"{name}/e.{suffix}"])
            if status == 70 and suffix != "dot":
                raise support.Skipped("dot, of Graphviz, is not there")
            yield f"by the name .{suffix}", status == 0 and (Path(name) / f"e.{suffix}").read_bytes().startswith(begins), err
        root = xml.fromstring((Path(name) / "e.svg").read_bytes())
        yield "the SVG is sound", root.tag.endswith("svg")


def test_import():
    with support.folder() as name:
        folder = Path(name)
        (folder / "a.txt").write_text("A --> B\n")
        (folder / "b.txt").write_text("A <=> B\nA B -> C\n")
        (folder / "c.txt").write_text("A => B\nk1 = 3\n")
        status, out, err = support.command(["import", "a.txt", "b.txt", "c.txt", "--into", "made"], folder=name)
        made = {path.name: str(ct.Network.of_text(path.read_text())) for path in (folder / "made").iterdir()}
        yield "into a folder", made == {"a.crn": "A -> B\n", "c.crn": "A -> B\n"}, made
        yield "what was passed over is said", status == 2 and "no reaction was read in line 2: k1 = 3" in err, err
        (folder / "more").mkdir()
        (folder / "more/a.txt").write_text("B --> A\n")
        support.command(["import", "a.txt", "more/a.txt", "--into", "two"], folder=name)
        yield "two of one name", (folder / "two/a.crn").exists() and "B -> A" in (folder / "two/a_2.crn").read_text()
        status, _, err = support.command(["import", folder / "b.txt"])
        yield "what is refused is said", f"crnt-tools: {folder}/b.txt: line 2: A B -> C: " in err and err.count("b.txt") == 1, err


def test_calls():
    """`main` as a function, as other Python programs call it."""
    with contextlib.redirect_stderr(io.StringIO()) as err:
        status = cli.main(["verify", os.devnull])
    yield "a status", status == 3 and "rejected 27 EndsEarly" in err.getvalue()
