"""Reports, refusals and statuses as data."""

import json
import os
import stat
from pathlib import Path

import crnt_tools as ct
import ends
import support
from crnt_tools.cures import CURES

FORMATS = (support.ROOT / "docs" / "FORMATS.md").read_text("utf-8")

#: A text that is refused with each code, and the line; those of limits are long.
REFUSED = [
    (1, "SelfReaction", "A -> A\n", 1), (5, "NoReaction", "# nothing\n", 0), (11, "NotAscii", "∅ -> A\n", 1),
    (12, "NoArrow", "A -> B\nB\n", 2), (13, "EmptySide", "A + -> B\n", 1), (14, "BadName", "0 + A -> B\n", 1),
    (15, "NameTooLong", f"{'a' * 33} -> B\n", 1), (16, "ZeroCoefficient", "0A -> B\n", 1),
    (17, "CoefficientTooLarge", "60A + 40A -> B\n", 1), (18, "StrayMark", "A -> B\nA => B\n", 2),
    (19, "TextTooLong", "#" * 2_097_153, 0),
    (2, "TooManySpecies", "".join(f"S{k} -> S{k + 1}\n" for k in range(60)), 60),
    (3, "TooManyComplexes", "".join(f"{k // 90 + 1}A + {k % 90 + 1}B -> C\n" for k in range(160)), 160),
    (4, "TooManyReactions", "".join(f"X{i} -> X{j}\n" for i in range(17) for j in range(17) if i != j), 241),
]


def test_examples():
    for path in support.examples():
        text, wanted = path.read_text("utf-8"), path.with_suffix(".report").read_text("ascii")
        report = ct.report(text)
        yield path.name, str(report) == wanted, str(report)
        yield f"{path.name}, the stored report", str(ct.Report.of_text(wanted)) == wanted
        yield f"{path.name}, its network", str(ct.Network.of_text(str(report.network))) == str(report.network)
        yield f"{path.name}, its certificate", ct.check(ct.certify(text)) == report


def test_fields():
    report = ct.report((support.NETWORKS / "edelstein.crn").read_bytes())
    signal = report.q13.signal
    yield "the deficiency", report.q6.deficiency == 1 and report.q6.class_deficiencies == (0, 0)
    yield "the signal", signal and signal.shelves == ("upper", "lower") and len(signal.mu) == 3, signal
    yield "the classes", report.q1.classes == ((1, 2), (3, 4, 5)) and report.q2.terminal == (1, 2)
    yield "the complexes", [str(it) for it in report.complexes] == ["A", "2A", "A + B", "C", "B"]
    yield "the amounts", report.complexes[1].amount("A") == 2 and report.complexes[1].amount("B") == 0
    yield "the reactions", report.reactions[0] == ct.Reaction(1, 1, 2) and len(report.reactions) == report.reaction_count
    yield "the words", [report.word(k) for k in (5, 9, 13)] == ["2", "no", "yes"]
    report = ct.report("A -> B\nB -> A\nC -> D\n")
    yield "the reaction without a reverse", report.q3.without_reverse == ct.Reaction(3, 3, 4)
    report = ct.report("A -> B -> C -> A\n")
    yield "a walk", report.q11.failure and report.q11.failure.what == "cycle" and report.q11.failure.walk == (1, 3, 2)


def test_open_reports():
    yield "all that can be open", str(ct.Report.of_text(ends.OPENED_REPORT)) == ends.OPENED_REPORT
    yield "the causes", ct.Report.of_text(ends.OPENED_REPORT).open_questions == tuple(range(5, 16))
    wide = "".join(f"X{k} -> 99X{k + 1}\n" for k in range(1, 11))
    report = ct.report(wide)
    opened = report.q8.open
    yield "what is wide", opened and (opened.cause, opened.system, opened.index) == ("wide", 1, 1), opened
    yield "the basis", opened and opened.basis == tuple(range(11, 22))
    yield "what rests on it", report.q6.open == ct.Open("rests", rests_on=5), report.q6
    text = f"0 -> X1\n{wide}X11 -> 0\n"
    yield "a class in a system", str(ct.report(text)) == str(ct.Report.of_text(str(ct.report(text))))
    report = ct.report("A <-> B\n", budget=7)
    yield "the budget", report.q14.open == ct.Open("budget", budget=7) and report.open_count == 2
    yield "no budget", ct.report("A <-> B\n", budget=8).open_count == 0
    yield "a certificate with open questions", ct.check(ct.certify("A <-> B\n", budget=7)) == ct.report("A <-> B\n", budget=7)
    for system in ("system 3 class 1", "system 4", "system 5"):
        name = {"system 3 class 1": "Q6 deficiency", "system 4": "Q12 confluence vector", "system 5": "Q13 signal"}[system]
        lines = ends.OPENED_REPORT.split("\n")
        at = next(k for k, line in enumerate(lines) if line.startswith(name))
        lines[at : at + 1] = [f"{name}: open, wide", f"  {system}", "  index 1", "  basis: 1 2"]
        changed = "\n".join(lines)
        yield system, str(ct.Report.of_text(changed)) == changed


def test_refusals():
    codes = set()
    for code, name, text, line in REFUSED:
        codes.add(code)
        try:
            ct.report(text)
            yield f"{name} is refused", False
        except ct.Refused as it:
            yield name, (it.code, it.name, it.line) == (code, name, line) and bool(it.what_to_write), it
        try:
            ct.Network.of_text(text)
            yield f"{name}: the text spells no network", code == 19
        except ct.NotANetwork:
            yield f"{name}: the text spells no network", True
    yield "all codes of FORMATS", codes == set(CURES) and all(f"| {code} | `" in FORMATS for code in codes)
    try:
        ct.report("A -> B\nE + S <=> ES ; kf, kr\n")
    except ct.Refused as it:
        yield "what to write", "`E + S <-> ES`" in it.what_to_write, it.what_to_write
    try:
        ct.check("crn certificate 3\n")
        yield "a rejection", False
    except ct.Rejected as it:
        yield "a rejection", (it.code, it.name, it.line) == (21, "BadHeader", 1)


def test_programs():
    """Programs that end with other statuses, or are not there."""
    with support.folder() as name:
        fake = Path(name) / "crnt"
        for status in (4, 5, 6, 7, 8, 70):
            fake.write_text(f"#!/bin/sh\necho 'usage: no' ; echo 'crnt: no toolchain' >&2; exit {status}\n")
            fake.chmod(stat.S_IRWXU)
            try:
                with_program(str(fake), lambda: ct.report("A -> B\n"))
                yield f"status {status}", False
            except ct.ProgramFault as it:
                yield f"status {status}", it.status == status and "no toolchain" in str(it)
        for written, status in (("crn report 2", 0), ("crn report 1", 1), ("refused", 2), ("rejected 1 at line", 3)):
            fake.write_text(f"#!/bin/sh\necho '{written}'\nexit {status}\n")
            try:
                with_program(str(fake), lambda: ct.report("A -> B\n"))
                yield f"{written} is no answer", False
            except (ct.NotAReport, ct.ProgramFault):
                yield f"{written} is no answer", True
        try:
            with_program(f"{name}/none", lambda: ct.report("A -> B\n"))
            yield "no program", False
        except ct.ProgramMissing as it:
            yield "no program", "CRNT names" in str(it), it
        fake.write_text("#!/bin/sh\nexit 0\n")
        yield "CRNT comes first", with_program(str(fake), ct.find) == str(fake)
        yield "then the launcher of the clone", with_program("", ct.find) == str(support.ROOT / "crnt")


def with_program(program, work):
    before = os.environ.get("CRNT")
    os.environ["CRNT"] = program
    try:
        return work()
    finally:
        if before is None:
            del os.environ["CRNT"]
        else:
            os.environ["CRNT"] = before


def test_no_reports():
    """Each line of a report changed, and each left out, is no report, unless the change is of a list's numbers."""
    whole = (support.NETWORKS / "edelstein.report").read_text("ascii")
    lines = whole.split("\n")
    for at, line in enumerate(lines[:-1]):
        for changed in ([], [line + " "], [f" {line}"], [line.replace(":", "", 1)] if ":" in line else ["x"]):
            text = "\n".join([*lines[:at], *changed, *lines[at + 1 :]])
            yield f"line {at + 1} is {changed}", refuses(text), text[-300:]
    for text in ("", "crn report 1\n", whole[:-1], whole + "\n", whole.replace("report 1", "report 2"), "A -> B\n",
                 whole.replace("open: 0", "open: 1"), whole.replace("species 3", "species 03"),
                 whole.replace("Q7 positively dependent: yes", "Q7 positively dependent: maybe")):
        yield f"{text[:40]!r} .. {text[-20:]!r}", refuses(text)


def refuses(text):
    try:
        ct.Report.of_text(text)
    except ct.NotAReport:
        return True
    return False


def test_thousand_networks():
    """Report to data to JSON to data to report, byte for byte, and the schema holds."""
    schema = ct.schema()
    for seed in range(1000):
        text = support.random_text(seed)
        report = ct.report(text, budget=[None, 5, 50][seed % 3])
        data = json.loads(json.dumps(report.to_dict()))
        again = ct.Report.from_dict(data)
        wrong = list(support.faults(data, schema, schema))
        same = str(again) == str(report) == data["report"] and again == report and again.to_dict() == data
        network = report.network
        names = network and (network.species, network.complexes) == (report.species, report.complexes)
        yield f"network {seed}", same and not wrong and names, wrong[:3], text


def test_schema():
    schema = ct.schema()
    whole = ct.report("A <-> B\n").to_dict()
    yield "the schema fits", not list(support.faults(whole, schema, schema))
    yield "open reports fit", not list(support.faults(ct.Report.of_text(ends.OPENED_REPORT).to_dict(), schema, schema))
    for path in support.examples():
        data = ct.report(path.read_bytes()).to_dict()
        yield f"{path.name} fits", not list(support.faults(data, schema, schema))
    for name in whole:
        less = {key: value for key, value in whole.items() if key != name}
        yield f"without {name} it does not", list(support.faults(less, schema, schema))
        if name.startswith("q"):
            for inner in whole[name]:
                less = {**whole, name: {key: value for key, value in whole[name].items() if key != inner}}
                yield f"without {name}.{inner} it does not", list(support.faults(less, schema, schema))
    yield "nor with more", list(support.faults({**whole, "more": 1}, schema, schema))
    try:
        import jsonschema
    except ImportError:
        raise support.Skipped("the Python module jsonschema, which has the whole language of schemas, is not there") from None
    jsonschema.Draft202012Validator.check_schema(schema)
    jsonschema.Draft202012Validator(schema).validate(whole)
