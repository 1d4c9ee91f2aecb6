"""Rules on the crates themselves: which definitions readers have to know, what a crate may cite of another one, how
long the lines of a clause are, and which crates may depend on which."""

import re

from sources import NAME, Definition, clause_lines

LONGEST_CLAUSE_LINE = 100
INNER = "-- For the contracts of private functions alone."
CITED = re.compile(r"\bRattle\.(\w+)\.(specs|proofs)\.([\w.]+)")

# Whatever group `crates.txt` puts them in, these may never depend on those.
CHECKERS = {"crn_cert", "crn_ctext", "crn_check", "crn_ctree"}
SOLVERS = {
    "crn_tab",
    "crn_farkas",
    "crn_rank",
    "crn_defi",
    "crn_reg",
    "crn_sign",
    "crn_conc",
    "crn_shelf",
    "crn_solve",
}

# A row of a definitions page names a file and then definitions in it, and helpers of these in a clause "with: ..".
PLACE = re.compile(r"`(\w+/(?:specs|src)/[\w/]+\.(?:antt|rt))`: ((?:`[\w:']+`(?:, | and )?)+)")
HELPERS = re.compile(r"\bwith: ((?:`[\w']+`(?:, | and )?)+)")
QUOTED = re.compile(r"`([\w:']+)`")


def rows(page):
    """The paragraphs of a page; a table only points to them."""
    text = "\n".join(line for line in page.splitlines() if not line.startswith("|"))
    return re.split(r"\n\s*\n", text)


def named_on(pages, repository):
    """The definitions that rows of these pages name."""
    found = set()
    for page in pages:
        for row in rows(page):
            files = []
            for file, names in PLACE.findall(row):
                files.append(file)
                found.update(Definition(file, name) for name in QUOTED.findall(names))
            for names in HELPERS.findall(row):
                for name in QUOTED.findall(names):
                    helpers = [Definition(file, name) for file in files]
                    found.update(helper for helper in helpers if repository.is_there(helper))
    return found


def definitions_are_on_the_pages(repository, pages):
    """Each definition that a public contract reaches has a row, and none of them is an inner one."""
    named = named_on(pages, repository)
    for definition, cause in sorted(repository.reached_from(repository.cited_by_contracts()).items()):
        yield f"{definition} has a row in a definitions page (cited by {cause})", definition in named
        yield f"{definition} is no inner definition (cited by {cause})", not definition.is_inner


def definitions_outside_inner(repository):
    """Each definition of specs/ that is not in specs/Inner."""
    for crate in repository.crates.needs:
        for file in repository.files(crate, "specs", ".antt"):
            for name in repository.definitions(file):
                definition = Definition(file, name)
                if not definition.is_inner:
                    yield definition


def public_definitions_are_on_the_pages(repository, pages):
    """So has each other definition that other crates may cite."""
    named = named_on(pages, repository)
    for definition in definitions_outside_inner(repository):
        yield f"{definition} has a row, or is an inner definition", definition in named


# lines of a part that are due in order: the parts to come have such
NOT_READ_YET = Definition("crn_ctext/specs/Parts.antt", "asks_parts")


def public_definitions_have_readers(repository):
    """Each definition outside specs/Inner is reached by a public contract, or by what another crate cites."""
    starts = dict(repository.cited_by_contracts())
    for crate in repository.crates.needs:
        folders = [("src", ".rt"), ("specs", ".antt"), ("proofs", ".antt")]
        for file in (file for folder, ending in folders for file in repository.files(crate, folder, ending)):
            for target, _ in repository.imports(file).values():
                if not target.file.startswith(f"{crate}/") and repository.is_there(target):
                    starts.setdefault(target, file)
    reached = repository.reached_from(starts)
    for definition in definitions_outside_inner(repository):
        is_read = definition in reached or definition == NOT_READ_YET
        yield f"{definition} is read outside, or is an inner definition", is_read
    yield "a definition is excused only while nothing reads it", NOT_READ_YET not in reached


def helpers_are_in_their_files(repository, pages):
    """Each helper that a row lists is in a file that the row names."""
    for page in pages:
        for row in rows(page):
            files = [file for file, _ in PLACE.findall(row)]
            for names in HELPERS.findall(row):
                for name in QUOTED.findall(names):
                    there = any(repository.is_there(Definition(file, name)) for file in files)
                    yield f"the helper {name} is in a file of its row ({row[:40]!r})", there


def citations_are_true(repository, pages):
    """What a row says it is cited by reaches one of the definitions of the row."""
    contracts = repository.contracts()
    for row in (row for page in pages for row in rows(page)):
        cited_by = re.search(r"Cited by (.*?)(?:\. [A-Z`]|$)", row, re.DOTALL)
        for name in dict.fromkeys(QUOTED.findall(PLACE.sub(r"\2", cited_by.group(1)))) if cited_by else []:
            starts = {Definition(file, name) for file in repository.files_with(name)}
            for item, definitions in contracts.items():
                if item == name or item.startswith(f"{name}::") or item.startswith(f"{name},"):
                    starts |= definitions
            reached = set(repository.reached_from(dict.fromkeys(starts)))
            yield f"{name} cites a definition of the row {row[:40]!r}", bool(reached & named_on([row], repository))


def lines_are_counted(repository, page):
    """Each row of the table that begins the page says how many lines its definitions have, with all that they reach."""
    for line in page.splitlines():
        cells = [cell.strip() for cell in line.strip().strip("|").split("|")]
        if not line.startswith("|") or len(cells) != 3 or not cells[2].isdecimal():
            continue
        starts = {Definition(file, name) for file, names in PLACE.findall(cells[1]) for name in QUOTED.findall(names)}
        starts = {start: cells[0] for start in starts if repository.is_there(start)}
        count = sum(repository.lines_of(definition) for definition in repository.reached_from(starts))
        yield f"the definitions of {cells[0]} have {count} lines", int(cells[2]) == count


def doors_are_kept(repository):
    """Of another crate only its public definitions and its lemmas for callers are cited."""
    for crate in repository.crates.needs:
        folders = [("src", ".rt"), ("specs", ".antt"), ("proofs", ".antt")]
        for file in (file for folder, ending in folders for file in repository.files(crate, folder, ending)):
            for owner, part, rest in CITED.findall(repository.plain(file)):
                if owner == crate or owner not in repository.crates.needs:
                    continue
                top = rest.split(".")[0]
                if part == "proofs":
                    yield f"{file} cites of {owner}'s proofs only CallerLemmas, not {rest}", top == "CallerLemmas"
                else:
                    yield f"{file} cites no inner definition of {owner} ({rest})", top != "Inner"


def negation_is_said_in_one_way(repository):
    """Definitions and clauses say that something does not hold by `→ ⊥`."""
    for crate in repository.crates.needs:
        files = repository.files(crate, "specs", ".antt") + repository.files(crate, "src", ".rt")
        for file in files:
            for number, line in enumerate(repository.plain(file).splitlines(), 1):
                if "¬" in line or "⊥" in line:
                    yield f"{file}:{number} says `→ ⊥` and not `¬`", "¬" not in line


def clauses_are_short(repository):
    for crate in repository.crates.needs:
        for file in repository.files(crate, "src", ".rt"):
            for number, line in clause_lines(repository.text(file)):
                length = len(line)
                yield f"{file}:{number}: a clause line has {length} columns", length <= LONGEST_CLAUSE_LINE


def files_have_their_form(repository):
    """The files that every crate has look alike, and definitions and exported items say what they are."""
    for crate in repository.crates.needs:
        has_items = re.search(r"\b(?:fn|struct|enum|trait|impl|type|const)\b", repository.plain(f"{crate}/src/lib.rt"))
        yield f"{crate}/src/lib.rt has mods and uses alone", not has_items
        open_modules = set(re.findall(r"^pub mod (\w+)", repository.text(f"{crate}/proofs/Lib.antt"), re.MULTILINE))
        others = ", ".join(sorted(open_modules - {"CallerLemmas"}))
        yield f"{crate}/proofs/Lib.antt opens no module but CallerLemmas ({others})", not others
        for file in repository.files(crate, "specs", ".antt"):
            if "/specs/Inner/" in file:
                yield f"{file} says at its head whom it is for", repository.text(file).startswith(INNER)
            for name in without_sentence(repository.text(file)):
                yield f"{name} in {file} has a sentence above it", False
        for name, item in repository.public_items(crate).items():
            if item.crate == crate:
                yield f"{name} in {item.file} has a doc comment", is_documented(repository.text(item.file), item.name)


def without_sentence(text):
    """The definitions of a file of specs/ that have no comment right above them."""
    above = ""
    for line in text.splitlines():
        head = re.match(rf"(?:abbrev|unfoldable) (?:pub )?(?!pub\b)({NAME})|(?:pub )?(?:record|data) ({NAME})", line)
        if head and head.group(1) != "mutual" and (not above.startswith("--") or above.startswith("-- ----")):
            yield head.group(1) or head.group(2)
        above = line


def is_documented(text, name):
    """Whether the item of this name has a doc comment above it and its attributes."""
    lines = text.splitlines()
    for place, line in enumerate(lines):
        if re.match(rf"\s*pub (?:(?:extern \"C\" )?fn|const|struct|enum|trait|type) {name}\b", line):
            above = place - 1
            while above > 0 and re.match(r"\s*#\[.*\]$", lines[above]):
                above -= 1
            return above >= 0 and lines[above].strip().startswith("///")
    return False


def checkers_stand_on_no_solver(repository):
    crates = repository.crates
    solvers = (SOLVERS | set(crates.groups.get("solver", []))) & set(crates.needs)
    checkers = (CHECKERS | set(crates.groups.get("certificate", []))) & set(crates.needs)
    checkers |= {crate for crate in crates.needs if crate.endswith("_check")}
    for crate in sorted(checkers):
        for below in sorted(crates.reached(crate)):
            yield f"{crate} depends on no crate of the solver ({below})", below not in solvers


def groups_of(document, names):
    """The groups and their crates in the tables of a document, in order."""
    found = {}
    for line in document.splitlines():
        cells = [cell.strip() for cell in line.strip().strip("|").split("|")]
        if line.startswith("|") and len(cells) > 1 and cells[0] in names:
            found.setdefault(cells[0], []).extend(re.findall(r"`(crnt|crn_\w+)`", cells[1]))
    return found


def groups_agree(repository, documents):
    """`crates.txt` and these documents have the same groups with the same crates, in the same order."""
    wanted = repository.crates.groups
    for name, text in documents.items():
        found = groups_of(text, set(wanted))
        yield f"{name} has the groups {', '.join(wanted)} in this order", list(found) == list(wanted)
        for group, crates in wanted.items():
            yield f"{name} has in the group {group} the crates {', '.join(crates)}", found.get(group) == crates


def ported_crates_are_named(repository, proved):
    """The trust base names each crate of the toolchain that the repository depends on."""
    for name in sorted({need for needs in repository.crates.needs.values() for need in needs}):
        if name not in repository.crates.needs:
            yield f"the trust base names {name}", f"`{name}`" in proved
