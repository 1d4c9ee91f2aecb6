#!/usr/bin/env python3
"""Writes again what is stored of the program's output: the reports, certificates and part documents of `examples`, the report that
the gate compares, and those that the documents show; `NAME.v1.cert` is in version 1. Each report and each part document is judged
by a second program first, and each certificate is checked by one.

    checks/stored.py PROGRAM     after a question was built, or an answer's free lines have changed
"""

import re
import subprocess
import sys
from pathlib import Path

import prove
import second_opinion
from end_to_end import first_version, network_in

ROOT = Path(__file__).resolve().parent.parent
NETWORKS = ROOT / "examples" / "networks"
# what the gate runs the program on, and what it has to write
GATE = ROOT / "crates" / "crnt"
# the documents that show reports
SHOWN = ["README.md", "docs/FORMATS.md", "docs/crnt.1"]
REPORT = re.compile(r"^crn report 1\n(?:.*\n)*?open: .*\n", re.MULTILINE)


def written(program, command, text):
    done = subprocess.run([program, *command.split()], input=text, capture_output=True, check=False)
    if done.returncode > 1 or done.stderr:
        sys.exit(f"{command} ends with {done.returncode}: {done.stdout[:200]!r}")
    return done.returncode, done.stdout


def accepted(program, command, text, second, what):
    """What the command writes of the text, if the second program finds nothing wrong with it."""
    status, out = written(program, command, text)
    wrong = second.judged(text, status, out)
    if wrong:
        sys.exit(f"{what} is wrong: {wrong}")
    return out


def report_of(program, name, text):
    return accepted(program, "report", text, second_opinion, f"the report of {name}")


def certificate_of(program, name, text):
    _, out = written(program, "certify", text)
    status, report = second_opinion.check(out)
    if (status, report) != (0, report_of(program, name, text)):
        sys.exit(f"the certificate of {name} does not give its report: {report[:200]!r}")
    return out


def proof_of(program, part, name, text):
    return accepted(program, f"prove {part}", text, prove.PARTS[part].PROGRAM, f"the document {name}")


def head_of(report):
    """The lines of a report that say the network, but for the numbering of its reactions."""
    return report.split("\nQ1 ")[0]


def in_document(program, path, texts):
    """The document with each report that it shows written again: of the example with the same network, or, in the manual, of
    the text that it shows."""
    document = (ROOT / path).read_text("utf-8")
    is_manual = path.endswith(".1")

    def again(found):
        if is_manual:
            shown = re.search(r"^\.nf\n(.*?)^\.fi$", document, re.MULTILINE | re.DOTALL)[1].replace("\\-", "-").encode()
            return report_of(program, path, shown).decode().replace("-", "\\-")
        reports = [report_of(program, path, text).decode() for text in texts]
        same = {report for report in reports if head_of(report) == head_of(found[0])}
        if len(same) != 1:
            sys.exit(f"{len(same)} examples have the network that {path} shows: {head_of(found[0])}")
        return same.pop()

    return REPORT.sub(again, document)


def main():
    program = str(Path(sys.argv[1]).resolve())
    networks = {network: network.read_bytes() for network in sorted(NETWORKS.glob("*.crn"))}
    for network, text in networks.items():
        network.with_suffix(".report").write_bytes(report_of(program, network.stem, text))
    for certificate in sorted((ROOT / "examples" / "certificates").glob("*.cert")):
        name, _, version = certificate.stem.partition(".")
        written_now = certificate_of(program, name, (NETWORKS / f"{name}.crn").read_bytes())
        certificate.write_bytes(first_version(written_now) if version == "v1" else written_now)
    for part in prove.PARTS:
        for document in sorted((ROOT / "examples" / "certificates").glob(f"*.{part}")):
            document.write_bytes(proof_of(program, part, document.name, network_in(document.read_bytes())))
    (GATE / "stdout").write_bytes(report_of(program, "the gate", (GATE / "stdin").read_bytes()))
    for path in SHOWN:
        (ROOT / path).write_text(in_document(program, path, networks.values()), "utf-8")


if __name__ == "__main__":
    sys.exit(main())
