#!/usr/bin/env python3
"""Reads the documents and the crates.

The documents: their links lead somewhere, to the heading that they name; the definitions and contracts that they name are
there, the reports that they show are stored reports, what they count is as many as they say, they have no more words than their
budget, and they cite nothing that is not in the repository. The definitions pages name every definition that a public contract
reaches. The crates: what one may cite of another, the lines of clauses, and who may depend on whom (`structure.py`)."""

import re
import sys
from pathlib import Path

import structure
from sources import Repository
from tally import Tally

ROOT = Path(__file__).resolve().parent.parent
MOST_README = 1_500
MOST_WORDS = 62_000

# what README says of the proof
ROWS = ["`report`", "`certify`", "`check`", "`prove`, `verify`", "openness", "completeness", "every call returns"]

LINK = re.compile(r"\]\(([^)#:]+)(?:#[^)]*)?\)")
ANCHOR = re.compile(r"\]\(([^)#:]*)#([^)]+)\)")
HEADING = re.compile(r"^#+ (.*)$", re.MULTILINE)
TOOLCHAIN = re.compile(r"`(rattle-kit-\w+)")
REPORT = re.compile(r"^```\n(crn report 1\n.*?)^```", re.MULTILINE | re.DOTALL)
SHOWN = re.compile(r"^```antt\n(.*?)^```", re.MULTILINE | re.DOTALL)
FILE = re.compile(r"`((?:crates/)?(?:crn_\w+|crnt)/(?:src|specs|proofs)/[\w/]+\.(?:rt|antt))`")
# a number of a text that readers don't have, as a definition's or a theorem's
CITATION = re.compile(r"\b(?:[RDLHW][1-9][0-9]?|T[1-5](?:\.[0-9])?)\b")


def is_defined(repository, file, name):
    """Whether a file defines the name, which may be TYPE::FUNCTION."""
    if file.endswith(".antt"):
        return name in repository.definitions(file)
    text = repository.text(file)
    owner, _, own = name.rpartition("::")
    has_owner = not owner or re.search(rf"\b(?:impl|struct|trait)\b.*\b{owner}\b", text)
    return bool(has_owner and re.search(rf"\b(?:fn|struct|enum|trait|const|type) {own}\b", text))


def anchors(text):
    """The names by which links lead to the headings of a document."""
    return {re.sub(r"[^\w\- ]", "", heading.lower()).replace(" ", "-") for heading in HEADING.findall(text)}


def document_claims(repository, document, text, reports):
    root = repository.root
    for target in LINK.findall(text):
        yield f"the link to {target}", (document.parent / target).exists()
    for target, name in ANCHOR.findall(text):
        file = document.parent / target if target else document
        yield f"the link to {target}#{name}", file.is_file() and name in anchors(file.read_text())
    for path in sorted(set(FILE.findall(text))):
        yield f"the file {path}", repository.exists(path.removeprefix("crates/"))
    for path, names in structure.PLACE.findall(text):
        for name in structure.QUOTED.findall(names) if repository.exists(path) else []:
            yield f"{name} in {path}", is_defined(repository, path, name)
    for shown in SHOWN.findall(text):
        texts = (file.read_text() for file in repository.root.glob("crates/*/specs/**/*.antt"))
        yield f"the definition that begins {shown.splitlines()[0]!r}", any(shown in text for text in texts)
    for report in REPORT.findall(text):
        yield f"the report that begins {report[13:40]!r}", report in reports
    for citation in CITATION.findall(text):
        yield f"no citation of {citation}", False


def contracts_are_there(repository, proved):
    """What the tables of what is proved name is in its crate, or in one of its crates."""
    for line in proved.splitlines():
        cells = [cell.strip() for cell in line.strip().strip("|").split("|")]
        is_row = line.startswith("|") and len(cells) == 3 and re.fullmatch(r"`crn_\w+`(?:, `crn_\w+`)*", cells[1])
        crates = re.findall(r"crn_\w+", cells[1]) if is_row else []
        for name in structure.QUOTED.findall(cells[2]) if crates else []:
            files = [file for crate in crates for file in repository.files(crate, "src", ".rt")]
            own = name if name[0].isupper() else name.split("::")[-1]
            yield f"{' or '.join(crates)} has {name}", any(is_defined(repository, file, own) for file in files)


def words_are_few(root, documents):
    """README and all documents together have at most as many words as they may."""
    words = {document: len(document.read_text().split()) for document in documents}
    readme, total = words[root / "README.md"], sum(words.values())
    yield f"README has {readme} words, at most {MOST_README}", readme <= MOST_README
    yield f"the documents have {total} words, at most {MOST_WORDS}", total <= MOST_WORDS


def proof_has_its_rows(readme):
    """README says in a row each what is proved of the commands, of openness, of completeness, and that every call returns."""
    for row in ROWS:
        yield f"README has the row {row}", f"\n| {row} | " in readme


def toolchain_is_one(readme, proved):
    """README and the trust base name one toolchain."""
    named = [TOOLCHAIN.findall(text) for text in (readme, proved)]
    yield f"README names the toolchain {named[0]}, PROVED {named[1]}", len(named[0]) == 1 and named[0] == named[1]


def numbers_are_counted(root, documents):
    """The example networks are as many as the documents say."""
    counts = {
        r"(\d+) networks (?:of examples/networks|with their reports)": len([*root.glob("examples/networks/*.crn")]),
        r"Of the (\d+) files": len([*root.glob("examples/networks/*.crn")]),
    }
    for document in documents:
        for pattern, count in counts.items():
            for said in re.findall(pattern, document.read_text()):
                yield f"{document.relative_to(root)} says {said} where there are {count}", int(said) == count


def claims(root):
    """All that is asked: where, what, and whether it holds."""
    folders = ["*.md", "docs/**/*.md", "examples/**/*.md", "benches/*.md", "companions/**/*.md", "page/*.md"]
    documents = sorted(document for folder in folders for document in root.glob(folder))
    reports = {path.read_text() for path in root.glob("examples/networks/*.report")}
    repository = Repository(root)
    readme, proved = ((root / name).read_text() for name in ["README.md", "docs/PROVED.md"])
    for claim, holds in contracts_are_there(repository, proved):
        yield "docs/PROVED.md", claim, holds
    for document in documents:
        for claim, holds in document_claims(repository, document, document.read_text(), reports):
            yield str(document.relative_to(root)), claim, holds

    pages = [path.read_text() for path in [root / "docs/DEFINITIONS.md", *root.glob("docs/definitions/*.md")]]
    architecture = (root / "docs/ARCHITECTURE.md").read_text()
    rules = {
        "numbers": numbers_are_counted(root, documents),
        "words": words_are_few(root, documents),
        "rows": proof_has_its_rows(readme),
        "toolchain": toolchain_is_one(readme, proved),
        "definitions": structure.definitions_are_on_the_pages(repository, pages),
        "public definitions": structure.public_definitions_are_on_the_pages(repository, pages),
        "readers": structure.public_definitions_have_readers(repository),
        "helpers": structure.helpers_are_in_their_files(repository, pages),
        "citations": structure.citations_are_true(repository, pages),
        "reading path": structure.lines_are_counted(repository, pages[0]),
        "doors": structure.doors_are_kept(repository),
        "negation": structure.negation_is_said_in_one_way(repository),
        "clauses": structure.clauses_are_short(repository),
        "files": structure.files_have_their_form(repository),
        "solver": structure.checkers_stand_on_no_solver(repository),
        "groups": structure.groups_agree(repository, {"ARCHITECTURE": architecture}),
        "trust base": structure.ported_crates_are_named(repository, proved),
    }
    for rule, found in rules.items():
        for claim, holds in found:
            yield rule, claim, holds


def main():
    """`documents.py [ROOT]`, where ROOT is the top of the repository that is read: this one, if none is given."""
    root = Path(sys.argv[1]).resolve() if len(sys.argv) > 1 else ROOT
    tally = Tally("documents")
    for place, claim, holds in claims(root):
        tally.count(f"{place}: {claim}", holds)
    return tally.end()


if __name__ == "__main__":
    sys.exit(main())
