#!/usr/bin/env python3
"""The conclusions are one: the tables, the bullets on what no line is about and the sources of docs/CONCLUSIONS.md are
those of docs/conclusions.json, and the file's own references hold. With --write it writes them into the document again."""

import json
import re
import sys
from pathlib import Path

from tally import Tally

ROOT = Path(__file__).resolve().parent.parent
DATA, DOCUMENT = ROOT / "docs" / "conclusions.json", ROOT / "docs" / "CONCLUSIONS.md"
HEAD = "| if the report says | kinetics | what follows | what does not | theorem |\n|---|---|---|---|---|\n"
FIELDS = ["id", "title", "requires", "kinetics", "concludes", "does_not_follow", "theorem", "source", "provided"]


def condition(it):
    """A condition in words: the line, and how it begins or doesn't."""
    said = ", ".join(it.get("says", it.get("says_not")))
    if "part" in it:
        return f"`{it['part']}` not `{said}`" if "says_not" in it else f"`{it['part']}: {said}`"
    if "says_not" in it:
        return f"Q{it['question']} not `{said}`"
    return f"Q{it['question']} `{said}`" if said else f"Q{it['question']}"


def table_row(row, sources):
    follows = row["concludes"] or "Nothing."
    if row["provided"]:
        follows = f"If the definitions agree, see above: {follows[0].lower()}{follows[1:]}"
    cited = "; ".join(sources[key]["cite"] for key in row["source"])
    theorem = ": ".join(part for part in (row["theorem"], cited) if part)
    cells = [" and ".join(map(condition, row["requires"])), row["kinetics"] if row["kinetics"] != "none" else "",
             follows, " ".join(row["does_not_follow"]), theorem]
    return "| " + " | ".join(cells) + " |\n"


def table(data, heading):
    """The table below a heading: the rows whose first condition is on one of its lines, or those on its part."""
    part = re.fullmatch(r"### Part `(\w+)`", heading)
    if part:
        return HEAD + "".join(table_row(row, data["sources"]) for row in data["parts"] if row["requires"][0]["part"] == part[1])
    lines = [int(number) for number in re.findall(r"Q(\d+)", heading)]
    rows = [row for row in data["rows"] if row["requires"][0]["question"] in lines]
    return HEAD + "".join(table_row(row, data["sources"]) for row in rows)


def bullets(data):
    """The two lists of bullets, each with the heading above it."""
    for it in data["no_line_is_about"]:
        cited = "".join(f" {data['sources'][key]['text']}" for key in it["source"])
        yield "## What no line is about", f"- **{it['title']}.** {it['text']}{cited}\n"
    for source in data["sources"].values():
        yield "## Sources", f"- {source['text']}\n"


def written(data, document):
    """The document with the tables and bullets of the data."""
    parts = re.split(r"^(##+ .*\n)", document, flags=re.MULTILINE)
    for at in range(1, len(parts), 2):
        heading, body = parts[at].strip(), parts[at + 1]
        if heading.startswith(("### Q", "### Part ")):
            body = re.sub(r"^\| if the report says .*\n(?:\|.*\n)*", lambda _: table(data, heading), body, flags=re.MULTILINE)
        own = "".join(line for of, line in bullets(data) if of == heading)
        parts[at + 1] = re.sub(r"^- (?:.*\n)(?:- .*\n)*", lambda _: own, body, count=1, flags=re.MULTILINE) if own else body
    return "".join(parts)


def claims(data, document):
    new = written(data, document)
    for old, wanted in zip(document.splitlines(), new.splitlines()):
        yield f"CONCLUSIONS has the line {wanted[:60]!r}", old == wanted
    yield "CONCLUSIONS has as many lines", document == new
    shown = re.findall(r"Q(\d+)", " ".join(re.findall(r"^### (Q.*)", document, re.MULTILINE)))
    first = {row["requires"][0]["question"] for row in data["rows"]}
    yield "each of the fifteen questions has its heading", sorted(map(int, shown)) == list(range(1, 16))
    yield "each heading has a table", document.count(HEAD) == len(re.findall(r"^### (?:Q|Part )", document, re.MULTILINE))
    yield "each question has a row that begins with it", {k for k in range(1, 16)} <= first | {2}
    shown = re.findall(r"^### Part `(\w+)`$", document, re.MULTILINE)
    yield "each part has its heading", shown == list(dict.fromkeys(row["requires"][0]["part"] for row in data["parts"]))
    rows = [*data["rows"], *data["parts"]]
    yield "the head has the fields", list(data["fields"]) == FIELDS
    for row in rows:
        yield f"{row['id']} has the fields of the head", list(row) == FIELDS
        yield f"{row['id']} has a kinetics of the head", row["kinetics"] in data["kinetics"]
        yield f"{row['id']} has sources that are there", all(key in data["sources"] for key in row["source"])
        yield f"{row['id']} names no theorem where nothing follows", bool(row["concludes"]) == bool(row["theorem"])
        place = "part" if row in data["parts"] else "question"
        for it in row["requires"]:
            yield f"{row['id']} asks for a line", set(it) in ({place, "says"}, {place, "says_not"}) \
                and (place == "part" and it["part"] == row["requires"][0]["part"] or place == "question" and 1 <= it["question"] <= 15)
    yield "each row has an id of its own", len({row["id"] for row in rows}) == len(rows)


def main():
    data, document = json.loads(DATA.read_text("utf-8")), DOCUMENT.read_text("utf-8")
    if sys.argv[1:] == ["--write"]:
        DOCUMENT.write_text(written(data, document), "utf-8")
        return 0
    tally = Tally("conclusions")
    for claim, holds in claims(data, document):
        tally.count(claim, holds)
    return tally.end()


if __name__ == "__main__":
    sys.exit(main())
