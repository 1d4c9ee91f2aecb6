"""What theory concludes from a report, in words for a chemist: as plain text, as Markdown, or as one HTML page.

All that is said is in docs/conclusions.json or in the report."""

from __future__ import annotations

import html
import re
import textwrap
from dataclasses import dataclass, field
from typing import Sequence

from . import draw
from .conclusions import Conclusion, conclude, conclude_part, data, line_of
from .errors import ToolMissing
from .parts import Proof
from .report import Report

PREAMBLE = ("crnt proves the lines of the report at the end of this page, and the verdict of a part document, and nothing "
            "else. Conclusions are theorems of the literature, quoted from the sources named; whether their conditions on "
            "kinetics hold is for you to judge. Whatever is said about steady states is said within one stoichiometric "
            "compatibility class.")
#: The kinetics of conclusions, from the widest, and what is said above them.
HEADINGS = {
    "any": "Whatever the kinetics",
    "weakly monotonic": "For every weakly monotonic kinetics, mass action included",
    "mass action": "Under mass action",
    "some weakly monotonic": "For some weakly monotonic kinetics",
    "none": "About the structure alone",
}


@dataclass(frozen=True)
class Item:
    """A sentence, and what belongs to it: each row is a label and its texts."""

    sentence: str
    rows: tuple[tuple[str, tuple[str, ...]], ...] = ()


@dataclass
class Section:
    """A heading, a paragraph if there is one, and items."""

    heading: str
    text: str = ""
    items: list[Item] = field(default_factory=list)


def sections_of(report: Report, proofs: Sequence[Proof] = ()) -> list[Section]:
    """The explanation of a report, and of part documents on the same network."""
    found = [*conclude(report), *(it for proof in proofs for it in conclude_part(proof))]
    sections = []
    for kinetics, heading in HEADINGS.items():
        items = [item_of(it) for it in found if it.concludes and it.kinetics == kinetics]
        if items:
            sections.append(Section(heading, data()["kinetics"][kinetics] if kinetics != "none" else "", items))
    opened = [line_of(report, k) for k in report.open_questions] + [proof.verdict for proof in proofs if proof.is_open]
    if opened:
        sections.append(Section("What is open", "", [open_item(line) for line in opened]))
    silent = [Item("; ".join(it.rests_on), (("what does not follow", it.does_not_follow),)) for it in found if not it.concludes]
    silent += [Item(proof.verdict.replace("\n", "; ")) for proof in proofs if not proof.is_open and not conclude_part(proof)]
    sections.append(Section("Lines from which nothing follows by themselves", "", silent))
    sections.append(Section("What no line is about", "", [
        Item(f"{it['title']}. {it['text']}") for it in data()["no_line_is_about"]]))
    sections.append(Section("Words", "", [Item(f"{word}: {text}") for word, text in data()["words"].items()]))
    cited = dict.fromkeys(source for it in found for source in it.sources)
    sections.append(Section("Sources", "", [Item(f"{source.cite}: {source.text}") for source in cited]))
    return sections


def item_of(it: Conclusion) -> Item:
    cited = ", ".join(source.cite for source in it.sources)
    rows: list[tuple[str, tuple[str, ...]]] = [("because", it.rests_on), ("theorem", (f"{it.theorem} ({cited})",))]
    if it.provided:
        rows.append(("provided that", (it.provided,)))
    if it.does_not_follow:
        rows.append(("what does not follow", it.does_not_follow))
    return Item(it.sentence, tuple(rows))


def open_item(line: str) -> Item:
    return Item(line, (("what does not follow", tuple(data()["open"]["does_not_follow"])),))


def title_of(report: Report, name: str) -> str:
    sizes = f"{len(report.species)} species, {len(report.complexes)} complexes, {report.reaction_count} reactions"
    return f"{name}: {sizes}" if name else sizes


def as_text(report: Report, name: str = "", proofs: Sequence[Proof] = ()) -> str:
    """The explanation as plain text."""
    lines = [title_of(report, name), "", *wrapped(PREAMBLE, "", "")]
    for section in sections_of(report, proofs):
        lines += ["", section.heading.upper()]
        lines += wrapped(section.text, "", "") if section.text else []
        for item in section.items:
            lines += wrapped(item.sentence, "- ", "  ")
            for label, texts in item.rows:
                lines += wrapped(f"{label}: {' '.join(texts) if label != 'because' else '; '.join(texts)}", "    ", "      ")
    return "\n".join([*lines, "", "THE REPORT", "", str(report)])


def wrapped(text: str, first: str, other: str) -> list[str]:
    plain = text.replace("`", "'")
    return textwrap.wrap(plain, 100, initial_indent=first, subsequent_indent=other, break_long_words=False,
                         break_on_hyphens=False)


def as_markdown(report: Report, name: str = "", proofs: Sequence[Proof] = ()) -> str:
    """The explanation as Markdown."""
    lines = [f"# {title_of(report, name)}", "", PREAMBLE]
    for section in sections_of(report, proofs):
        lines += ["", f"## {section.heading}", ""]
        lines += [section.text, ""] if section.text else []
        for item in section.items:
            lines.append(f"- {item.sentence}")
            for label, texts in item.rows:
                said = "; ".join(f"`{text}`" for text in texts) if label == "because" else " ".join(texts)
                lines.append(f"  - *{label}*: {said}")
    return "\n".join([*lines, "", "## The report", "", "```", f"{report}```", ""])


STYLE = """\
body { font: 16px/1.5 system-ui, sans-serif; max-width: 60rem; margin: 2rem auto; padding: 0 1rem; color: #1a202c; }
h1 { font-size: 1.5rem; } h2 { font-size: 1.15rem; margin-top: 2rem; border-bottom: 1px solid #cbd5e0; }
dl { margin: .3rem 0 1rem 1rem; font-size: .9rem; } dt { color: #4a5568; } dd { margin: 0 0 .3rem 1rem; }
pre { background: #f7fafc; border: 1px solid #e2e8f0; padding: .8rem; overflow-x: auto; font-size: .85rem; }
figure { margin: 1rem 0; overflow-x: auto; } figure svg { max-width: 100%; height: auto; }
li > p { margin: .2rem 0; } .note { color: #4a5568; }
@media print { body { margin: 0; max-width: none; } }
"""


def as_html(report: Report, name: str = "", proofs: Sequence[Proof] = ()) -> str:
    """The explanation as one HTML page that needs no other file, with the pictures where Graphviz can make them."""
    title = html.escape(title_of(report, name))
    parts = [f"<h1>{title}</h1>", f'<p class="note">{html.escape(PREAMBLE)}</p>', *pictures(report)]
    for section in sections_of(report, proofs):
        parts.append(f"<h2>{html.escape(section.heading)}</h2>")
        parts += [f'<p class="note">{marked(section.text)}</p>'] if section.text else []
        parts.append("<ul>" + "".join(f"<li><p>{marked(item.sentence)}</p>{rows_html(item)}</li>\n" for item in section.items)
                     + "</ul>")
    if report.source is not None:
        parts.append(f"<h2>The network</h2>\n<pre>{html.escape(report.source)}</pre>")
    parts.append(f"<h2>The report</h2>\n<pre>{html.escape(str(report))}</pre>")
    return (f'<!DOCTYPE html>\n<html lang="en">\n<head>\n<meta charset="utf-8">\n<title>{title}</title>\n'
            f"<style>\n{STYLE}</style>\n</head>\n<body>\n" + "\n".join(parts) + "\n</body>\n</html>\n")


def marked(text: str) -> str:
    """The text for HTML, what is between backticks as code."""
    return re.sub(r"`([^`]*)`", r"<code>\1</code>", html.escape(text, quote=False))


def rows_html(item: Item) -> str:
    if not item.rows:
        return ""
    rows = []
    for label, texts in item.rows:
        said = [f"<code>{html.escape(text)}</code>" if label == "because" else marked(text) for text in texts]
        rows.append(f"<dt>{label}</dt>" + "".join(f"<dd>{text}</dd>" for text in said))
    return f"<dl>{''.join(rows)}</dl>"


def pictures(report: Report) -> list[str]:
    """The pictures as figures, or a note on what is missing."""
    made = []
    for caption, dot in (("Complexes and reactions", draw.complexes_dot), ("Species and reactions", draw.species_dot)):
        if dot is draw.species_dot and report.network is None:
            continue
        try:
            svg = draw.picture(dot(report), "svg").decode("utf-8")
        except ToolMissing as missing:
            return [f'<p class="note">{html.escape(str(missing))}</p>']
        made.append(f"<h2>{caption}</h2>\n<figure>{svg[svg.index('<svg') :]}</figure>")
    return made
