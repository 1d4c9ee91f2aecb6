#!/usr/bin/env python3
"""Makes of the page a page that tests itself in whatever browser opens it, and may run it in Firefox.

    selftest.py ROOT PROGRAM PAGE OUT [FIREFOX]

PROGRAM is the program as it runs on a machine, with whose answers the page's are compared. OUT gets the page that tests
itself; it says at its end how many tests passed. With FIREFOX, the browser is started without a window and that line is read.
"""

import base64
import hashlib
import json
import pathlib
import random
import re
import subprocess
import sys
import tempfile
import time

HERE = pathlib.Path(__file__).resolve().parent
sys.path.insert(0, str(HERE))
sys.dont_write_bytecode = True

from same import damaged, native, typed_texts  # noqa: E402

SECONDS = 1200


def coded(data):
    return base64.b64encode(data).decode()


def parts_of(report):
    """The verdict of each question, in parts."""
    return {int(number): said.split(", ") for number, said in re.findall(r"^Q(\d+) [a-z ]+: (.*)$", report, re.M)}


def titles(conclusions, report):
    """The titles of the rows that conclude something from a report, as the file of conclusions says how to evaluate it."""
    parts = parts_of(report)

    def holds(condition):
        said = parts[condition["question"]]
        if "says" in condition:
            return said[: len(condition["says"])] == condition["says"]
        return said[: len(condition["says_not"])] != condition["says_not"]

    return [row["title"] for row in conclusions["rows"] if row["concludes"] and all(map(holds, row["requires"]))]


def listed(report, head):
    """What a line of a report lists after its head and a number."""
    return re.search(rf"^{head} \d+: (.*)$", report, re.M)[1]


def evidence(report, certificate):
    """For each question parts of sentences that its evidence has to have, from the report's lists and the certificate's lines."""
    parts, lines = parts_of(report), certificate.splitlines()
    complexes = listed(report, "complexes").split("; ")
    classes = [it.split("; ") for it in re.findall(r"^  class \d+: (.*)$", report, re.M)]
    strong = re.findall(r"^  strong \d+: (.*?)( \(terminal\))?$", report, re.M)
    reactions = lines[2 : 2 + int(lines[1].split()[1])]
    ends = [tuple(it.split(" -> ")) for it in reactions]
    terminal = [sum(bool(mark) and it.split("; ")[0] in members for it, mark in strong) for members in classes]
    trees, number = {k: 0 for k in (13, 14, 15)}, 0
    for line in lines:
        number = int(line.split()[0][1:]) if re.match(r"q\d", line) else number
        if line.split()[0] in ("split", "flat", "cuta", "cutb", "refa", "refb"):
            trees[number] += 1
    below = {k: [] for k in range(1, 16)}
    for line in report.splitlines():
        if line.startswith("Q"):
            at = int(re.match(r"Q(\d+)", line)[1])
        elif line.startswith("  "):
            below[at].append(line)
    found = {1: ["; ".join(it) for it in classes], 2: [it for it, _ in strong], 10: [], 12: []}
    found[3] = [f"{a} <-> {b}" for at, (a, b) in enumerate(ends) if (b, a) in ends[at + 1 :]] if parts[3] == ["yes"] else [below[3][0].split(": ")[1]]
    found[4] = [f"{a} -> {b}back by {b} -> " for a, b in ends if (b, a) not in ends] if parts[4] == ["yes"] else [below[4][0].split(": ")[1]]
    if parts[5][0] != "open":
        found[5] = [f"reaction {k}" for k in below[5][0].split(": ")[1].split()]
    if parts[6][0] != "open":
        numbers = list(map(int, parts[6][1].split()[1:]))
        found[6] = [f"{len(complexes)} − {len(classes)} − {parts[5][0]} = {parts[6][0]}"] + [f"{len(members)} − 1 − {len(members) - 1 - it} = {it}" for members, it in zip(classes, numbers)]
        found[9] = [found[6][0], "asked to be 0"]
        found[10] = [f"they are {', '.join(map(str, numbers))}", f"the deficiency is {parts[6][0]}"]
    numbered = lambda k: below[k][0].split(": ")[1].split()
    if parts[7][0] != "open":
        found[7] = numbered(7) + (reactions if parts[7] == ["yes"] else [])
    if parts[8][0] != "open":
        found[8] = [it for it in listed(report, "species").split()] if parts[8] == ["yes"] else numbered(8) + reactions
    several = [f"class {at + 1} has {count}" for at, count in enumerate(terminal) if count > 1]
    found[10] += several[:1] or ["each has one"]
    found[11] = (several[:1] or ["each has one"]) + ["positively dependent", "cut pair"]
    if parts[11] == ["no", "a cycle in a terminal class"]:
        found[11].append(below[11][0].split("walk: ")[1].replace("; ", " – "))
    of_vectors = {"yes": ["add up to nothing", "terminal strong classes"], "no vector but zero": ["tie"], "two independent vectors": ["neither of which"], "not regular": ["question 11", "positively dependent"]}
    found[12] = of_vectors.get(parts[12][-1], [])
    for k in (13, 14, 15):
        if trees[k]:
            found[k] = [f"a tree of {trees[k]} node"]
        elif parts[k] == ["no"]:
            found[k] = numbered(k)[:1] + reactions + ["sigma is"]
    if parts[13] == ["yes"]:
        found[13] = ["middle shelf has the height"] + complexes
    for k in range(1, 16):
        if parts[k][0] == "open":
            found[k] = {"wide": ["2^62"], "budget": ["lists of signs"], "rests": ["question", "open"]}[parts[k][1].split()[0]]
            species = listed(report, "species").split()
            named = {"  system 1": species + reactions, "  system 2": reactions + species}.get((below[k] or [""])[0])
            if named:
                found[k] += [named[int(it) - 1] for it in re.findall(r"\d+", " ".join(below[k][1:]))]
    return {k: found.get(k, []) for k in range(1, 16)}


def long_search():
    """A network whose search takes seconds."""
    dice = random.Random(1)
    side = lambda: " + ".join(f"{dice.randint(1, 3)}X{dice.randint(1, 34)}" for _ in range(2))
    return "".join(f"{side()} -> {side()}\n" for _ in range(67))


def kinase_first(sites):
    """A futile cycle, all steps of the kinase before those of the phosphatase: the search is long in this order."""
    kinase = [f"S{i} + K <-> A{i}\nA{i} -> S{i + 1} + K\n" for i in range(sites)]
    phosphatase = [f"S{i + 1} + F <-> B{i}\nB{i} -> S{i} + F\n" for i in range(sites)]
    return "".join(kinase + phosphatase)


def sixty_species():
    """Enzymes one after another, and back: as large as a network of the field gets here."""
    forth = [f"E{i} + S{i} <-> C{i} -> E{i} + S{i + 1}\n" for i in range(12)]
    back = [f"S{i + 1} + F{i} <-> D{i} -> S{i} + F{i}\n" for i in range(10)]
    return "".join(forth + back) + "0 -> S0\nS12 -> 0\nE0 + E1 <-> X0 <-> X1\nS3 + S4 <-> Y0 <-> 2Y0\n"


def wide_numbers():
    return "".join(f"X{i} -> 99X{i + 1}\n" for i in range(1, 11))


def kinds(program, report):
    """Files that are no network texts: what is said of each, and what a button that is shown leads to: a report, a good
    certificate, or what is said then."""
    pair, certificate = report(b"A -> B\n"), native(program, ["certify"], b"A -> B\n")[1]
    rows = [
        ("a byte order mark", b"\xef\xbb\xbfA -> B\n", "a byte order mark", pair),
        ("UTF-16", "\ufeffA -> B\n".encode("utf-16-le"), "UTF-16", pair),
        ("UTF-16, the other way round", "\ufeffA -> B\n".encode("utf-16-be"), "UTF-16", pair),
        ("line ends of an old Macintosh", b"A -> B\rB -> C\r", "CR at the ends", report(b"A -> B\nB -> C\n")),
        ("two CR", b"A -> B\r\r\n", "two CR", pair),
        ("no-break spaces", "A\u00a0->\u00a0B\n".encode(), "no-break spaces", pair),
        ("a comment and line ends of an old Macintosh", b"# made\rA -> B\r", "CR at the ends", pair),
        ("marks that are not seen", "A\u200b -> B\n".encode(), "not seen", pair),
        ("another letter, and a no-break space in a comment", "\u03b1 -> B # a\u00a0b\n".encode(), "names of letters", ""),
        ("a mark, and an arrow of another kind", b"\xef\xbb\xbfA => B\n", "a byte order mark", "refused 18 StrayMark at line 1"),
        ("SBML with a mark", b'\xef\xbb\xbf<?xml version="1.0"?>\n', "a byte order mark", "crnt-tools import"),
        ("SBML", b'<?xml version="1.0"?>\n<sbml>\n', "crnt-tools import", ""),
        ("BioNetGen", b"# made\nbegin parameters\n 1 k 2\nend parameters\n", "BioNetGen", ""),
        ("Antimony", b"J1: A -> B; k1*A\n", "Antimony", ""),
        ("JSON", b'{"reactions": ["A -> B"]}\n', "JSON", ""),
        ("a table", b"A,B,1\nB,C,2\n", "a table", ""),
        ("a PDF", b"%PDF-1.7\n%\xe2\xe3\n", "no text", ""),
        ("a report", pair.encode(), "a report", ""),
        ("a certificate", certificate, "a certificate", "the certificate is good"),
        ("a certificate with a mark", b"\xef\xbb\xbf" + certificate, "a certificate", "Convert and check it"),
    ]
    return [{"name": name, "text": coded(text), "says": says, "leads": leads} for name, text, says, leads in rows]


def documents(program, report):
    """Files that are no certificates, or not as one is written: as above, and how the program rejects each."""
    pair, certificate = report(b"A -> B\n"), native(program, ["certify"], b"A -> B\n")[1]
    rows = [
        ("CR before LF", certificate.replace(b"\n", b"\r\n"), "CR before LF", pair),
        ("a byte order mark", b"\xef\xbb\xbf" + certificate, "a byte order mark", pair),
        ("UTF-16", ("\ufeff" + certificate.decode()).encode("utf-16-le"), "UTF-16", pair),
        ("no last LF", certificate[:-1], "no LF after its last line", pair),
        ("nothing", b"", "empty", ""),
        ("its first half", certificate[: len(certificate) // 2], "only a part of it", pair),
        ("its last line cut off", certificate[: certificate.index(b"\nend\n") + 1], "only a part of it", pair),
        ("a network in its place", b"A -> B\n", "no certificate", pair),
        ("a report in its place", pair.encode(), "a report", ""),
        ("SBML in its place", b'<?xml version="1.0"?>\n', "crnt-tools import", ""),
        ("another number", certificate.replace(b"q5 1", b"q5 2"), "", ""),
    ]
    return [{"name": name, "text": coded(text), "says": says, "leads": leads, "line": native(program, ["check"], text)[1].decode()} for name, text, says, leads in rows]


def proved(root):
    """Networks of which each part is asked, each with a budget."""
    texts = [("A <-> B", "A <-> B\n", "20000"), ("A <-> B with 6 visits", "A <-> B\n", "6"), ("2A <-> A + B", "2A <-> A + B\n", "20000")]
    texts += [(file.stem, file.read_text(), "20000") for file in sorted((root / "examples/networks").glob("*.crn"))]
    for part in SAID:
        yield from ((part, *text) for text in texts)


def proof_of(program, part, name, text, budget):
    """What the program says of a part, and what the page has to say of it."""
    out = native(program, ["prove", part, "--budget", budget], text.encode())[1].decode()
    lines = out.splitlines()
    count = int(lines[1].split()[1])
    reactions, own = lines[2 : 2 + count], [line.split() for line in lines[2 + count : -1]]
    species = list(dict.fromkeys(re.findall(r"[A-Za-z_]\w*", " ".join(reactions))))
    verdict = native(program, ["verify", part], out.encode())[1].decode()
    return {"part": part, "name": f"{name}: {part}", "text": text, "budget": budget, "document": out, "says": SAID[part](species, reactions, own), "verdict": verdict}


def said_of_persistence(species, reactions, own):
    """The members of a siphon, the reactions of a combination, and the species of each law."""
    of = lambda names, numbers: [name for name, number in zip(names, numbers) if number != "0"]
    says = []
    for word, *numbers in own:
        if word in ("vec", "law"):
            says += of(species, numbers)
        elif word == "siphon":
            says.append(", ".join(of(species, numbers)) + ".")
        elif word in ("cut", "mult"):
            says += of(reactions, numbers)
    return says


def said_of_decompositions(species, reactions, own):
    """The parts with their reactions, and each reaction that depends on others."""
    numbers = {word: list(map(int, numbers)) for word, *numbers in own}
    if "rank" not in numbers:
        return ["2^62"]
    parts = [[text for text, label in zip(reactions, numbers["label"]) if label == k + 1] for k in range(max(numbers["label"]))]
    says = ["; ".join(members) for members in parts] if len(parts) > 1 else [f"their rank is {numbers['rank'][0]}"]
    return says + [f"({text})= " for at, text in enumerate(reactions) if at + 1 not in numbers["base"]]


def said_of_robustness(species, reactions, own):
    """The deficiency, and the two complexes with the species in which they differ."""
    said, complexes = {word: numbers for word, *numbers in own}, list(dict.fromkeys(" -> ".join(reactions).split(" -> ")))
    if "rests" in said:
        return ["open"]
    left = len(complexes) - int(said["q1"][0]) - int(said["q5"][0])
    pair = [f"{complexes[int(said['yes'][1]) - 1]} and {complexes[int(said['yes'][2]) - 1]} ", f"in {species[int(said['yes'][0]) - 1]} alone"] if "yes" in said else []
    return [f"= {left};", *pair]


def said_of_slopes(species, reactions, own):
    """The reaction with its slope, or how many leaves the trees have."""
    word, *numbers = own[0]
    if word == "no":
        return [reactions[int(numbers[0]) - 1], *(name + (f"+{it}" if int(it) > 0 else it) for name, it in zip(species, own[1][1:]))]
    leaves = [sum(line[0] == leaf for line in own) for leaf in ("cuta", "flat")]
    return {"yes": [f"{it:,} lea" for it in leaves], "wide": ["2^62"], "spent": ["visits"], "large": ["too large"]}[word]


# The parts, with what the page has to say of a document.
SAID = {"persist": said_of_persistence, "parts": said_of_decompositions, "robust": said_of_robustness, "endo": said_of_slopes}


def unproved(program):
    """Part documents with a fault."""
    good = native(program, ["prove", "persist"], b"A <-> B\n")[1]
    for old, new in ((b"bad 2", b"bad 1"), (b"vec 1 1", b"vec 1 2"), (b"persist 1", b"nothing 1"), (b"void\n", b""), (b"end\n", b""), (b"\n", b"\r\n")):
        yield f"{new!r} for {old!r}", good.replace(old, new)


def jobs(root, program):
    dice = random.Random(11)
    report = lambda text, *words: native(program, ["report", *words], text)[1].decode()
    conclusions = json.loads((root / "docs/conclusions.json").read_text())
    texts = {file.stem: file.read_text() for file in sorted((root / "examples/networks").glob("*.crn"))}
    texts["sixty species"], texts["wide numbers"] = sixty_species(), wide_numbers()
    examples, bad = [], []
    for name, text in texts.items():
        said = report(text.encode())
        certificate = native(program, ["certify"], text.encode())[1]
        reactions = int(re.search(r"^reactions (\d+)$", said, re.M)[1])
        of_certificate = native(program, ["check"], certificate)[1].decode()
        assert of_certificate == said
        examples.append({"name": name, "text": text, "report": said, "certificate": coded(certificate), "titles": titles(conclusions, said), "reactions": reactions, "evidence": evidence(said, certificate.decode())})
        document = damaged(certificate, dice)
        status, line = native(program, ["check"], document)
        if status == 3:
            bad.append({"name": f"{name}, damaged", "text": coded(document), "line": line.decode()})
    refused = []
    for at, text in enumerate([*typed_texts(root), b"A -> B\nB => C\n", b"\n\n# a\nA + -> C\n", bytes(range(256)), b""]):
        status, line = native(program, ["report"], text)
        if status == 2:
            refused.append({"name": repr(text)[:60], "text": coded(text), "line": line.decode()})
    files = [b"\xef\xbb\xbfA -> B\n", b"A -> B\rB -> C\r", b"A -> B\r\r\n", b"A -> \xff\n", b"A -> B\r\nB -> C\r\n", b"", b"A -> B" + b" " * 3000000]
    random_bytes = [dice.randbytes(dice.randrange(1, 200)) for _ in range(20)]
    random_text = [bytes(dice.choice(b"AB 12+-><\n\r\t#\0") for _ in range(dice.randrange(1, 80))) for _ in range(20)]
    like_documents = [b"crn certificate 2", b"crn certificate 1\nnetwork 0\n", b"crn certificate 2\n" + dice.randbytes(50), b"\0" * 1000, b"\n" * 3000]
    search, order = long_search(), kinase_first(9)
    quick, whole = report(search.encode(), "--budget", "1000"), report(search.encode(), "--budget", "100000")
    assert quick != whole and "open, budget" in quick, "the search is not long"
    assert "open, budget" in report(order.encode()), "the search is not long in this order"
    words = [(b, "A <-> B\n") for b in ("7", "8", "1", "100000", "0", "100001", "x", "")]
    answer = lambda out: out[1].decode() if out[0] < 2 else None
    return {
        "examples": examples,
        "damaged": bad,
        "refused": refused,
        "files": [{"name": repr(it[:20]), "text": coded(it), "said": report(it)} for it in files],
        "bytes": [
            {"name": repr(it[:30]), "text": coded(it), "said": report(it), "rejected": native(program, ["check"], it)[1].decode()}
            for it in [*random_bytes, *random_text, *like_documents]
        ],
        "kinds": kinds(program, report),
        "documents": documents(program, report),
        "search": {"text": search, "quick": quick, "whole": whole, "order": {"text": order}},
        "reports": [{"budget": b, "text": t, "report": answer(native(program, ["report", "--budget", b], t.encode()))} for b, t in words],
        "proofs": [proof_of(program, *asked) for asked in proved(root)],
        "unproved": [{"name": name, "text": coded(text), "line": native(program, ["verify", "persist"], text)[1].decode()} for name, text in unproved(program)],
        "samples": [{"steps": k, "out": answer(native(program, ["sample", k], b""))} for k in ("1", "8", "19", "0", "20", "")],
    }


def make(root, program, page, out):
    """The page with its tests: the script of tests has to be allowed by the page's own policy."""
    text = page.read_text()
    script = (HERE / "selftest.js").read_text() + "selftest(JSON.parse(document.getElementById('jobs').textContent));\n"
    digest = base64.b64encode(hashlib.sha256(script.encode()).digest()).decode()
    text, count = re.subn(r"script-src ", f"script-src 'sha256-{digest}' ", text, count=1)
    assert count == 1
    data = json.dumps(jobs(root, program)).replace("</", "<\\/").replace("<!--", "<\\u0021--")
    head, _, tail = text.rpartition("</body>")
    out.write_text(f'{head}<script type="application/json" id="jobs">{data}</script><script>{script}</script></body>{tail}')


def in_firefox(firefox, page):
    """What the page says of its tests in Firefox, line by line."""
    with tempfile.TemporaryDirectory() as profile:
        prefs = {"browser.dom.window.dump.enabled": "true", "browser.shell.checkDefaultBrowser": "false", "datareporting.policy.dataSubmissionEnabled": "false", "app.update.enabled": "false"}
        pathlib.Path(profile, "user.js").write_text("".join(f'user_pref("{name}", {value});\n' for name, value in prefs.items()))
        words = [firefox, "--headless", "--no-remote", "--profile", profile, page.resolve().as_uri()]
        said = []
        with tempfile.TemporaryFile("w+") as out:
            process = subprocess.Popen(words, stdin=subprocess.DEVNULL, stdout=out, stderr=subprocess.DEVNULL)
            try:
                end = time.time() + SECONDS
                while time.time() < end and process.poll() is None:
                    time.sleep(0.5)
                    out.seek(0)
                    said = [line.strip() for line in out if re.match(r"FAILED |selftest: ", line)]
                    if said and said[-1].startswith("selftest: "):
                        return said
            finally:
                process.terminate()
                process.wait(30)
        return [*said, "FAILED the page's tests in Firefox did not end", "selftest: 0 passed, 1 failed"]


def main():
    root, program, page, out = (pathlib.Path(it).resolve() for it in sys.argv[1:5])
    make(root, program, page, out)
    if len(sys.argv) < 6:
        print(f"open {out} in a browser; it says what passed")
        return 0
    said = in_firefox(sys.argv[5], out)
    print("\n".join(said))
    return 0 if re.search(r" 0 failed", said[-1]) else 1


if __name__ == "__main__":
    sys.exit(main())
