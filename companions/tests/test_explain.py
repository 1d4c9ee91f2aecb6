"""What is concluded: the rows that apply, and the three forms in which they are said."""

import json
import shutil
import subprocess
import xml.etree.ElementTree as xml
from html.parser import HTMLParser

import crnt_tools as ct
import support
from crnt_tools import explain
from crnt_tools.conclusions import conclude, data

#: A network, and the rows from which something follows for it, by hand from docs/CONCLUSIONS.md.
FOLLOWS = {
    "A <-> B\n": {
        "weakly-reversible", "rank", "positively-dependent", "conservative", "deficiency-zero-weakly-reversible",
        "deficiency-one-weakly-reversible", "concordant"},
    "A -> B\n": {
        "rank", "not-positively-dependent", "conservative", "deficiency-zero-not-weakly-reversible",
        "deficiency-one-not-weakly-reversible", "concordant"},
    "A <-> 2A\nA + B <-> C <-> B\n": {
        "weakly-reversible", "rank", "positively-dependent", "not-conservative", "regular-of-deficiency-one", "signal",
        "not-concordant"},
    "2A <-> A + B <-> 2B\n": {
        "weakly-reversible", "rank", "positively-dependent", "conservative", "regular-of-deficiency-one", "no-signal",
        "deficiency-one-weakly-reversible", "not-concordant"},
    "0 <-> A\n0 <-> B\nA + B <-> C\n": {
        "weakly-reversible", "rank", "positively-dependent", "not-conservative", "deficiency-zero-weakly-reversible",
        "deficiency-one-weakly-reversible", "concordant"},
}

#: The same evaluation in JavaScript, from the head of the data file alone.
SCRIPT = """
const [data, texts] = JSON.parse(require('fs').readFileSync(0, 'utf8'));
const applies = (row, said) => row.requires.every(c => {
  const parts = said[c.question].split(', '), wanted = c.says ?? c.says_not;
  return wanted.every((part, k) => parts[k] === part) === ('says' in c);
});
const said = text => Object.fromEntries([...text.matchAll(/^Q(\\d+) [^:]*: (.*)$/gm)].map(m => [m[1], m[2]]));
console.log(JSON.stringify(texts.map(t => data.rows.filter(row => applies(row, said(t))).map(row => row.id))));
"""


def test_rows():
    for text, wanted in FOLLOWS.items():
        found = {it.id for it in conclude(ct.report(text)) if it.concludes}
        yield text, found == wanted, found ^ wanted
    seen = set()
    for path in support.examples():
        seen |= {it.id for it in conclude(ct.report(path.read_bytes()))}
    seen |= {it.id for text in FOLLOWS for it in conclude(ct.report(text))}
    yield "each row applies to some network", seen == {row["id"] for row in data()["rows"]}, {r["id"] for r in data()["rows"]} - seen


def test_each_question_has_its_row():
    """Every line of a report is spoken of, decided or open."""
    for path in [*support.examples()]:
        report = ct.report(path.read_bytes(), budget=2)
        questions = {row["requires"][0]["question"] for row in data()["rows"] if row["id"] in {it.id for it in conclude(report)}}
        spoken = questions | set(report.open_questions) | {2}
        yield path.name, spoken == set(range(1, 16)), set(range(1, 16)) - spoken
        text = explain.as_text(report)
        yield f"{path.name}, open", all(f"Q{k} " in text for k in report.open_questions) and ("WHAT IS OPEN" in text) == bool(
            report.open_count)


def test_javascript():
    """The conditions mean the same to a browser."""
    node = shutil.which("node")
    if not node:
        raise support.Skipped("node, which runs JavaScript, is not there")
    reports = [ct.report(path.read_bytes()) for path in support.examples()]
    given = json.dumps([data(), [str(report) for report in reports]])
    done = subprocess.run([node, "-e", SCRIPT], input=given.encode(), capture_output=True, timeout=60)
    found = json.loads(done.stdout or b"[]")
    for path, report, ids in zip(support.examples(), reports, found):
        yield path.name, ids == [it.id for it in conclude(report)], ids
    yield "all of them", len(found) == len(reports), done.stderr


def test_nothing_more_is_said():
    """Each sentence of an explanation is in the data file or in the report."""
    for path in support.examples():
        report = ct.report(path.read_bytes())
        known = json.dumps(data(), ensure_ascii=False).replace('\\"', '"').lower()
        for section in explain.sections_of(report):
            for item in section.items:
                rows = [text for label, texts in item.rows if label not in ("because", "theorem") for text in texts]
                parts = [part for part in item.sentence.split(". ") if part] if not item.sentence.startswith("Q") else []
                for said in [*rows, *parts]:
                    clean = said.rstrip(".").split(": ", 1)[-1]
                    yield f"{path.name}: {said[:40]!r}", clean.lower() in known or any(
                        clean in f"Q{v.question} {v.title}: {report.said(v.question)}" for v in report.verdicts), said


def test_provisos():
    """What rests on a proviso has it in front."""
    for network, kinetics in (("edelstein", "Under mass action"), ("edelstein", "About the structure alone")):
        report = ct.report((support.NETWORKS / f"{network}.crn").read_bytes())
        [section] = [it for it in explain.sections_of(report) if it.heading == kinetics]
        provided = [item for item in section.items if "provided that" in dict(item.rows)]
        yield kinetics, len(provided) == 1 and provided[0].sentence.startswith("If the definitions agree, see below, t"), provided
    others = [it for it in conclude(report) if not it.provided]
    yield "others stand alone", others and not any("definitions agree" in it.sentence for it in others)


def test_forms():
    for path in support.examples():
        report = ct.report(path.read_bytes())
        text, markdown, page = (form(report, path.name) for form in (explain.as_text, explain.as_markdown, explain.as_html))
        for name, it in (("text", text), ("Markdown", markdown)):
            yield f"{path.name} as {name} shows the report", str(report) in it
        found = conclude(report)
        flat = " ".join(text.split()).replace("'", "`")
        for it in found:
            said = it.sentence if it.concludes else it.rests_on[0]
            yield f"{path.name}: {it.id}", said in markdown, said
            yield f"{path.name}: {it.id} as text", said.replace("'", "`") in flat, said
            yield f"{path.name}: {it.id} as a page", not it.concludes or it.title[1:] in page, said
        yield f"{path.name}: lines are short", max(map(len, text.split("THE REPORT")[0].split("\n"))) <= 100
        yield f"{path.name}: the page is sound", sound(page) is None, sound(page)


def sound(page):
    """Why a page is no sound HTML, if it is none: each element is closed in its turn."""
    void, found = {"meta", "br", "hr"}, []

    class Parser(HTMLParser):
        def __init__(self):
            super().__init__()
            self.open = []

        def handle_starttag(self, tag, attributes):
            if tag not in void:
                self.open.append(tag)

        def handle_endtag(self, tag):
            if not self.open or self.open.pop() != tag:
                found.append(f"</{tag}> at {self.getpos()}")

    parser = Parser()
    parser.feed(page)
    return found[:3] or parser.open or None


def test_page_has_pictures():
    if not shutil.which("dot"):
        raise support.Skipped("dot, of Graphviz, is not there")
    report = ct.report((support.NETWORKS / "edelstein.crn").read_bytes())
    page = explain.as_html(report, "edelstein.crn")
    pictures = page.split("<svg")[1:]
    yield "two pictures", len(pictures) == 2
    for k, picture in enumerate(pictures, 1):
        root = xml.fromstring("<svg" + picture.split("</svg>")[0] + "</svg>")
        yield f"picture {k} can be read", root.tag.endswith("svg") and len(list(root.iter())) > 20
    yield "it needs no other file", "http" not in page.replace("http://www.w3.org/", "") and "src=" not in page
    of_report = explain.as_html(ct.Report.of_text(str(report)))
    yield "a report alone has one", of_report.count("<svg") == 1
