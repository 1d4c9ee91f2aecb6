#!/usr/bin/env python3
"""Makes the page, one HTML file, of the module, the sources beside this file, the documents and the examples.

    build.py ROOT MODULE PAGE

ROOT is the top of the repository. What follows from verdicts is taken from docs/conclusions.json, what to write instead of
a refused line from the tables of docs/, and the examples from examples/networks, so there is one source of each.
"""

import ast
import base64
import hashlib
import json
import pathlib
import re
import subprocess
import sys

HERE = pathlib.Path(__file__).resolve().parent

# Each after those that it imports from.
SCRIPTS = ["run", "program", "report", "conclusions", "cures", "order", "explain", "evidence", "layered", "springs", "picture", "pointer", "proof", "persist", "decomposition", "robust", "endo", "proofs", "view", "files", "faults", "page"]


# ---- the documents


def section(root, heading):
    """The part of the documents below a heading, up to the next one of its level."""
    for file in sorted((root / "docs").rglob("*.md")):
        found = re.search(rf"^(#+) {re.escape(heading)}$", file.read_text(), re.M)
        if found:
            rest = file.read_text()[found.end() :]
            return re.split(rf"^#{{1,{len(found[1])}}} ", rest, flags=re.M)[0]
    sys.exit(f"no document has the heading {heading!r}")


def rows(text):
    """The rows of the tables in a text, as lists of cells; a bar inside a cell is written with a backslash."""
    for line in text.splitlines():
        if line.startswith("|"):
            yield [cell.strip().replace(r"\|", "|") for cell in re.split(r"(?<!\\)\|", line.strip())[1:-1]]


def sentence(text):
    return text[:1].upper() + text[1:] + "."


def cures(root):
    """The rows of the tables of what people type, and what each code means."""
    found = []
    for row in rows(section(root, "If your text is refused")):
        code = re.match(r"(\d+) `\w+`(?: at line 0)?(?:: (.*))?$", row[1]) if len(row) == 3 else None
        # What a file holds as a whole is told of by the page itself.
        if code and row[0].startswith("`"):
            typed = [text.replace(r"\n", "\n") for text in re.findall(r"`([^`]*)`", row[0])]
            found.append({"code": int(code[1]), "typed": typed, "note": code[2] or "", "write": row[2].replace(r"\n", "\n")})
    meanings = {row[0]: sentence(row[2]) for row in rows(section(root, "Refusals")) if len(row) == 3 and row[0].isdigit()}
    assert len(found) > 40 and len(meanings) > 12, "the tables of refusals are not where they were"
    return {"rows": found, "meanings": meanings, "advice": advice(root)}


def advice(root):
    """What helps for each code, as the companions say it, too."""
    tree = ast.parse((root / "companions/src/crnt_tools/cures.py").read_text())
    values = [it.value for it in tree.body if isinstance(it, ast.Assign) and it.targets[0].id == "CURES"]
    return {code: sentence(text) for code, text in ast.literal_eval(values[0]).items()}


def rejections(root):
    """What each code of a rejection means: the tests of a line's form, and those of the meaning of a record."""
    forms, tests, code = {}, [], None
    for row in rows(section(root, "Rejections") + section(root, "Parts")):
        if len(row) == 3 and row[0].isdigit():
            forms.setdefault(row[0], []).append(sentence(row[2]))
        elif len(row) == 3 and re.match(r"\d+", row[2]):
            code = int(re.match(r"\d+", row[2])[0])
            tests.append({"record": row[0], "test": sentence(row[1]), "code": code})
    assert len(forms) > 10 and len(tests) > 60, "the tables of rejections are not where they were"
    return {"forms": forms, "tests": tests}


def described(text):
    """The first sentence of the comment at the head of a network text, and what is said of it elsewhere."""
    comment = " ".join(line.lstrip("# ") for line in text.splitlines() if line.startswith("#"))
    return re.split(r"(?<=[a-z0-9)])\. (?=[A-Z])", comment)[0].rstrip(".") + "." if comment else ""


def examples(root):
    """The networks: each with its name, a title and a sentence."""
    tables = {}
    for row in rows((root / "examples/networks/README.md").read_text()):
        for name in re.findall(r"`(\w+)\.crn`", row[0]) if len(row) >= 2 else []:
            tables.setdefault(name, row[1])
    found = []
    for file in sorted((root / "examples/networks").glob("*.crn")):
        text, title = file.read_text(), file.stem.replace("_", " ")
        plain = re.sub(r"[`*]|\]\([^)]*\)|\[", "", tables.get(file.stem, ""))
        says = described(text) or sentence(plain.rstrip("."))
        assert says != ".", f"nothing is said of {file.name}"
        found.append({"name": file.stem, "title": title[:1].upper() + title[1:], "says": says, "text": text})
    return found


# ---- the script


def script():
    """The modules in one script: without their imports, as all names are in one place then."""
    parts, names = [], {}
    for module in SCRIPTS:
        text = (HERE / f"script/{module}.js").read_text()
        for other in re.findall(r"^import .* from '\./(\w+)\.js';$", text, re.M):
            assert SCRIPTS.index(other) < SCRIPTS.index(module), f"{module} comes before {other}, from which it imports"
        text = re.sub(r"^import .*;\n", "", text, flags=re.M)
        assert "import" not in re.findall(r"^\w+", text, re.M), f"an import of {module} is on more than one line"
        text = re.sub(r"^export ", "", text, flags=re.M)
        for name in re.findall(r"^(?:async )?(?:function|const|let|class) (\w+)", text, re.M):
            assert name not in names, f"{name} is in {names.get(name)} and in {module}"
            names[name] = module
        parts.append(text)
    return "'use strict';\n" + "\n".join(parts)


# ---- the page


def crates_below(root, crate):
    """The crates of this repository that a crate is made of, itself among them."""
    named = dict(re.findall(r"^(\w+)[^:#\n]*:(.*)$", (root / "crates.txt").read_text(), re.M))
    found, todo = set(), [crate]
    while todo:
        name = todo.pop()
        if name in named and name not in found:
            found.add(name)
            todo += named[name].split()
    return sorted(found)


def sources(root):
    """The files that the program is made of."""
    folders = [root / "crates" / crate / part for crate in crates_below(root, "crn_page") for part in ("src", "specs", "proofs")]
    return sorted(file for folder in folders for file in folder.rglob("*") if file.is_file())


def sum_of(root):
    """The sum of the program's sources: SHA-256 over the lines `SUM  PATH` of all files, as sha256sum writes them."""
    lines = [f"{hashlib.sha256(file.read_bytes()).hexdigest()}  {file.relative_to(root)}\n" for file in sources(root)]
    return hashlib.sha256("".join(lines).encode()).hexdigest()


def toolchain():
    return subprocess.run(["rt", "version"], capture_output=True, text=True, check=True).stdout.strip().splitlines()[0]


def digest(text):
    return f"'sha256-{base64.b64encode(hashlib.sha256(text.encode()).digest()).decode()}'"


def in_script(value):
    """JSON that cannot end the script element that holds it."""
    return json.dumps(value, ensure_ascii=False, separators=(",", ":")).replace("</", "<\\/").replace("<!--", "<\\u0021--")


def main():
    root, module, page = (pathlib.Path(it).resolve() for it in sys.argv[1:4])
    style, code = (HERE / "style.css").read_text(), script()
    assert "</script" not in code and "</style" not in style
    heap = [line for line in (HERE / "heap.c").read_text().splitlines() if line.strip() and not line.strip().startswith("//")]
    data = {
        "examples": examples(root),
        "conclusions": json.loads((root / "docs/conclusions.json").read_text()),
        "cures": cures(root),
        "rejections": rejections(root),
    }
    parts = {
        "%SCRIPT_HASH%": digest(code),
        "%STYLE_HASH%": digest(style),
        "%STYLE%": style,
        "%HEAP_LINES%": str(len(heap)),
        "%ABOUT%": f"Sources {sum_of(root)[:16]}, module {hashlib.sha256(module.read_bytes()).hexdigest()[:16]}, proved with {toolchain()}.",
        "%DATA%": in_script(data),
        "%MODULE%": base64.b64encode(module.read_bytes()).decode(),
        "%SCRIPT%": code,
    }
    made = (HERE / "page.html").read_text()
    for mark, text in parts.items():
        assert made.count(mark) == 1, mark
        made = made.replace(mark, text)
    page.write_text(made)
    print(f"{page.name}: {len(made.encode())} bytes, of which the module is {module.stat().st_size} before base64")


if __name__ == "__main__":
    main()
