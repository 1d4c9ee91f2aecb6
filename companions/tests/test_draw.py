"""Pictures: they are made, opened and looked into."""

import re
import shutil
import struct
import xml.etree.ElementTree as xml
import zlib

import crnt_tools as ct
import support
from crnt_tools import draw

SVG = "{http://www.w3.org/2000/svg}"


def test_dot_texts():
    """What is in the DOT text follows from the report and the network."""
    for path in support.examples():
        report = ct.report(path.read_bytes())
        text, network = draw.complexes_dot(report), report.network
        pairs = {frozenset((it.reactant, it.product)) for it in network.reactions}
        both = len(network.reactions) - len(pairs)
        yield f"{path.name}: frames", len(re.findall(r"subgraph cluster_\d+ ", text)) == len(report.q1.classes)
        yield f"{path.name}: terminal frames", text.count('label="terminal"') == len(report.q2.terminal)
        yield f"{path.name}: complexes", len(re.findall(r"^ +c\d+ \[", text, re.MULTILINE)) == len(report.complexes)
        yield f"{path.name}: arrows", text.count(" -> c") == len(pairs) and text.count("dir=both") == both
        yield f"{path.name}: the report", all(f"// {line}\n" in text for line in str(report).splitlines())
        numbers = [int(it) for found in re.findall(r'-> c\d+ \[label="([\d, ]+)"', text) for it in found.split(", ")]
        yield f"{path.name}: numbers", sorted(numbers) == list(range(1, report.reaction_count + 1))
        text = draw.species_dot(report)
        yield f"{path.name}: species", text.count("shape=ellipse") == len(report.species)
        yield f"{path.name}: boxes", text.count("shape=box") == len(pairs)
        terms = sum(len(network.complexes[it[0] - 1].terms) + len(network.complexes[it[1] - 1].terms) for it in map(sorted, pairs))
        yield f"{path.name}: edges", len(re.findall(r"^  [sr]\d+ -> ", text, re.MULTILINE)) == terms
    report = ct.Report.of_text(str(ct.report("A <-> 2A\n")))
    yield "a report alone has no arrows", "->" not in re.sub("//.*", "", draw.complexes_dot(report))
    try:
        draw.species_dot(report)
        yield "and no picture of species", False
    except ct.NetworkNeeded:
        yield "and no picture of species", True


def picture(name, format_, dot=draw.complexes_dot):
    if not shutil.which("dot"):
        raise support.Skipped("dot, of Graphviz, is not there")
    return draw.picture(dot(ct.report((support.NETWORKS / name).read_bytes())), format_)


def test_svg():
    for path in support.examples():
        for dot in (draw.complexes_dot, draw.species_dot):
            report = ct.report(path.read_bytes())
            root = xml.fromstring(picture(path.name, "svg", dot))
            kinds = [group.get("class") for group in root.iter(f"{SVG}g")]
            pairs = {frozenset((it.reactant, it.product)) for it in report.reactions}
            nodes = len(report.complexes) if dot is draw.complexes_dot else len(report.species) + len(pairs)
            yield f"{path.name}: nodes", kinds.count("node") == nodes, kinds.count("node")
            shown = {text.text for text in root.iter(f"{SVG}text")}
            names = report.complex_texts if dot is draw.complexes_dot else report.species
            yield f"{path.name}: names", set(names) <= shown, set(names) - shown


#: A network of two species, and a slope against its second reaction: along it the slope falls from 2 to 0.
SLOPE = "crn part endo 1\nnetwork 2\nA -> 2A\nA + B -> 0\nno 2\nslope -1 3\nend\n"


def test_slope():
    proof = ct.Proof("endo", "no, reaction 2", SLOPE)
    text = draw.slope_dot(proof)
    at = {name: (float(x), float(y)) for name, x, y in re.findall(r'^  (\w+) \[.*pos="([-\d.]+),([-\d.]+)!"', text, re.MULTILINE)}
    yield "complexes are at their amounts", [at[f"c{c}"] for c in range(1, 5)] == [(1, 0), (2, 0), (1, 1), (0, 0)], at
    heights = {name: -x + 3 * y for name, (x, y) in at.items()}
    level = [abs(heights[name] - heights["c3"]) < 1e-4 for name in ("low", "high", "start")]
    yield "the line is at the height of the reactant, and the arrow goes up", all(level) and heights["up"] > heights["c3"], heights
    yield "the reaction is marked", 'c3 -> c4 [label="2", color="#c53030"]' in text and text.count("#c53030") == 1, text
    for what, other in [("three species", SLOPE.replace("A -> 2A", "A -> C")), ("a yes", SLOPE.replace("no 2\nslope -1 3", "large"))]:
        try:
            yield what, False, draw.slope_dot(ct.Proof("endo", "", other))
        except ct.SlopeNeeded:
            yield what, True
    if not shutil.which("dot"):
        raise support.Skipped("dot, of Graphviz, is not there")
    root = xml.fromstring(draw.picture(text, "svg"))
    shown = {text.text for text in root.iter(f"{SVG}text")}
    yield "names", {"A", "2A", "A + B", "0", "1", "2"} <= shown, shown


def pixels(png):
    """The width and height of a PNG, and how many different lines of pixels it has."""
    width, height, depth, kind = struct.unpack(">IIBB", png[16:26])
    data, at = b"", 8
    while at < len(png):
        size, name = struct.unpack(">I4s", png[at : at + 8])
        data += png[at + 8 : at + 8 + size] if name == b"IDAT" else b""
        at += 12 + size
    rows, stride = zlib.decompress(data), width * {2: 3, 6: 4, 0: 1, 3: 1}[kind] * depth // 8 + 1
    return width, height, len({rows[k : k + stride] for k in range(0, len(rows), stride)}), len(rows) == stride * height


def test_png():
    for name in ("edelstein.crn", "mapk_cascade.crn"):
        made = picture(name, "png")
        width, height, different, whole = pixels(made)
        yield name, made[:8] == b"\x89PNG\r\n\x1a\n" and whole and min(width, height) > 50 and different > 20, (width, height)


def test_pdf():
    made = picture("edelstein.crn", "pdf")
    yield "a PDF", made[:5] == b"%PDF-" and b"%%EOF" in made[-30:] and len(made) > 2000
    if shutil.which("pdftotext"):
        import subprocess
        text = subprocess.run(["pdftotext", "-", "-"], input=made, capture_output=True).stdout.decode()
        yield "with the complexes in it", "A + B" in text and "linkage class 1" in text, text
