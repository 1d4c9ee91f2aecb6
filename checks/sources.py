"""Reads the crates: what `crates.txt` says of them, the definitions of `specs/`, the public contracts of `src/`, and
which definitions those contracts reach. It reads by text, and takes a name for what the file's imports say it is."""

import re
from dataclasses import dataclass, field
from functools import cache
from pathlib import Path

NAME = r"[\w']+(?:-[\w']+)*"
HEAD = re.compile(rf"(?:abbrev|unfoldable) (?:pub )?(?!pub\b)({NAME})|(?:pub )?(?:record|data) ({NAME})|(?:pub )?({NAME}) :")
HEAD_INSIDE = re.compile(rf"  (?:pub )?()()({NAME}) :")
IMPORT = re.compile(r"\b(pub )?use (Rattle\.[\w.]+?)(?:\.\{([^}]*)\}|(?=[\s;]))")
RUST_IMPORT = re.compile(r"^\s*(pub )?use (\w+(?:::\w+)*)(?:::\{([^}]*)\})?;", re.MULTILINE)
ITEM_HEAD = re.compile(r"^(pub(?:\([\w ]+\))? )?(?:(?:extern\s+)?fn|const|struct|enum|trait|type) (\w+)", re.MULTILINE)
DECLARED = re.compile(r"^ *(pub(?:\([\w ]+\))? )?(?:const|struct|enum|trait|type) (\w+)", re.MULTILINE)
BRACE = re.compile(r"[{}]")
GROUP = re.compile(r"# (\w+)(?:: .*)?$")


# ---- crates.txt


@dataclass
class Crates:
    """The crates in their order: each one's group, and the crates that it depends on."""

    groups: dict[str, list[str]] = field(default_factory=dict)
    needs: dict[str, list[str]] = field(default_factory=dict)

    def reached(self, crate):
        """The crates of the repository that this one depends on, directly or not."""
        seen, todo = set(), [crate]
        while todo:
            for need in self.needs[todo.pop()]:
                if need in self.needs and need not in seen:
                    seen.add(need)
                    todo.append(need)
        return seen


def read_crates(root):
    crates, group = Crates(), ""
    for line in (root / "crates.txt").read_text().splitlines():
        heading = GROUP.match(line)
        if heading:
            group = heading.group(1)
        elif ":" in line and not line.startswith("#"):
            name, _, needs = line.partition(":")
            crates.groups.setdefault(group, []).append(name.split()[0])
            crates.needs[name.split()[0]] = needs.split()
    return crates


def module_of(file):
    """The module that a source file is, as the names of its path: none for the root file."""
    parts = file.removesuffix(".rt").split("/")[2:]
    return [] if parts == ["lib"] else parts


# ---- text


def without(text, *patterns):
    """The text with spaces in the place of what the patterns match, so that places and lines stay."""
    return re.sub("|".join(patterns), lambda m: re.sub(r"[^\n]", " ", m.group()), text)


STRING = r'b?"(?:\\.|[^"\\])*"'
CHAR = r"(?<!\w)b?'(?:\\[^']+|[^'\\\n])'"


def plain_rust(text):
    return re.sub(
        "|".join([r"//[^\n]*", r"/\*.*?\*/", STRING, CHAR]),
        lambda m: re.sub(r"[^\n]", " ", m.group()),
        text,
        flags=re.DOTALL,
    )


def plain_antt(text):
    return without(text, STRING, r"--[^\n]*")


def end_of_block(text, start):
    """The place after the brace that closes the one at `start`."""
    depth = 0
    for brace in BRACE.finditer(text, start):
        depth += 1 if brace.group() == "{" else -1
        if depth == 0:
            return brace.end()
    return len(text)


def names_used(text):
    """The names in a formula, without labels, binders, and fields that follow a dot."""
    text = re.sub(rf"(?:(?<=[{{;])|^)\s*(?:pub\s+)?{NAME}\s*=(?!=)", " ", text, flags=re.MULTILINE)
    text = re.sub(rf"^\s+pub\s+{NAME}\s*:", " ", text, flags=re.MULTILINE)
    for match in re.finditer(NAME, text):
        is_field = re.search(r"[\w')]\.$", text[max(0, match.start() - 2) : match.start()])
        if not is_field or match.group()[0].isupper():
            yield match.group()


# ---- definitions


@dataclass(frozen=True, order=True)
class Definition:
    """A definition of `specs/`, or a type, trait or constant of `src/`, by its file below `crates/` and its name."""

    file: str
    name: str

    @property
    def crate(self):
        return self.file.split("/")[0]

    @property
    def is_inner(self):
        return bool(re.search(r"/specs/Inner(?:/|\.antt$)", self.file))

    def __str__(self):
        return f"{self.name} in {self.file}"


class Repository:
    def __init__(self, root):
        self.root = root
        self.crates = read_crates(root)

    # files, as paths below `crates/`

    def files(self, crate, folder, ending):
        base = self.root / "crates"
        return sorted(str(p.relative_to(base)) for p in (base / crate / folder).rglob(f"*{ending}"))

    @cache
    def text(self, file):
        path = self.root / "crates" / file
        return path.read_text() if path.is_file() else ""

    @cache
    def plain(self, file):
        return plain_antt(self.text(file)) if file.endswith(".antt") else plain_rust(self.text(file))

    def exists(self, file):
        return (self.root / "crates" / file).is_file()

    # imports

    @cache
    def imports(self, file):
        """The names that a file imports, each with what it stands for, and whether the import is `pub`."""
        found = {}
        for is_public, path, names in IMPORT.findall(self.plain(file)):
            for name in names.split(","):
                name, _, alias = (part.strip() for part in name.partition(" as "))
                if name and (target := self.of_path(path, name)):
                    found[alias or name] = (target, bool(is_public))
        if file.endswith(".rt"):
            found.update(self.rust_imports(file))
        return found

    def of_path(self, path, name):
        """The definition that a path of a specification leads to."""
        parts = path.split(".")[1:]
        if len(parts) < 3 or parts[1] != "specs" or parts[0] not in self.crates.needs:
            return None
        if parts[2] != "declared":
            return self.exported(f"{parts[0]}/specs/{'/'.join(parts[2:])}.antt", name)
        inside = [part for part in parts[3:] if part != "TheVariants"]
        if inside[-1] == "TheConstants":
            return Definition(f"{parts[0]}/src/{'/'.join(inside[:-1])}.rt", name)
        return Definition(f"{parts[0]}/src/{'/'.join(inside[:-1]) or 'lib'}.rt", inside[-1])

    def exported(self, file, name):
        """The definition that a file of specs/ has, or passes on, under this name."""
        if name in self.definitions(file):
            return Definition(file, name)
        target, is_public = self.imports(file).get(name, (None, False))
        return target if is_public else None

    @cache
    def rust_imports(self, file):
        """The items that a source file imports by `use`, each with where it is, and whether the import is `pub`."""
        found = {}
        crate, module = file.split("/")[0], module_of(file)
        for is_public, path, names in RUST_IMPORT.findall(self.plain(file)):
            parts = path.split("::")
            listed = names.split(",") if names else [parts.pop()]
            if not parts:
                continue
            owner = parts[0] if parts[0] in self.crates.needs else crate
            if parts[0] == owner:
                inside = parts[1:]
            elif parts[0] in ("crate", "self", "super"):
                inside = {"crate": [], "self": module, "super": module[:-1]}[parts[0]] + parts[1:]
            else:
                inside = module + parts
            for name in listed:
                name, _, alias = (part.strip() for part in name.partition(" as "))
                target = self.item(owner, inside, name) if name else None
                if target:
                    found[alias or name] = (target, bool(is_public))
        return found

    def item(self, crate, module, name):
        """The item of this name in a module, which may pass it on from another one."""
        file = f"{crate}/src/{'/'.join(module) or 'lib'}.rt"
        if not self.exists(file):
            return None
        if name in self.items(file):
            return Definition(file, name)
        passed_on = re.search(rf"\buse [\w:]+(?:::\{{[^}}]*\b{name}\b[^}}]*\}}|::{name});", self.plain(file))
        return self.rust_imports(file).get(name, (None, False))[0] if passed_on else None

    @cache
    def public_items(self, crate):
        """What the root file of a crate exports: each name with the file that has it."""
        root = f"{crate}/src/lib.rt"
        found = {name: target for name, (target, is_public) in self.rust_imports(root).items() if is_public}
        for module in re.findall(r"^pub mod (\w+);", self.plain(root), re.MULTILINE):
            place = f"{crate}/src/{module}.rt"
            for is_public, name in ITEM_HEAD.findall(self.plain(place)):
                if is_public == "pub ":
                    found[name] = Definition(place, name)
        return found

    @cache
    def items(self, file):
        """The names of the items of a source file: types, traits, constants and functions."""
        return {name for _, name in ITEM_HEAD.findall(self.plain(file))}

    # definitions

    @cache
    def definitions(self, file):
        """The definitions of a file of specs/, each with the text that follows its name."""
        found, current, is_mutual = {}, None, False
        for line in self.plain(file).splitlines(keepends=True):
            if not line.startswith(" ") and line.strip():
                is_mutual = bool(re.match(r"(?:\w+ )?mutual$", line))
            head = HEAD_INSIDE.match(line) if is_mutual else HEAD.match(line)
            if is_mutual and not line.startswith(" ") or re.match(r"(?:pub )?(?:use|mod) ", line):
                current = None
            elif head:
                current = head.group(1) or head.group(2) or head.group(3)
                found[current] = line[head.end() :]
            elif current and line.strip():
                found[current] += line
        return found

    def lines_of(self, definition):
        """The lines of a definition of specs/; a type or a constant of the code counts for none."""
        if not definition.file.endswith(".antt"):
            return 0
        return sum(1 for line in self.definitions(definition.file)[definition.name].splitlines() if line.strip())

    @cache
    def declared(self, file):
        """The types, traits and constants that a file of src/ declares."""
        return {name for _, name in DECLARED.findall(self.plain(file))}

    def is_there(self, definition):
        if definition.file.endswith(".antt"):
            return definition.name in self.definitions(definition.file)
        return definition.name in self.declared(definition.file)

    def resolved(self, file, name):
        """What a name means in a file, or None for a word of the standard library or a bound variable."""
        if file.endswith(".antt") and name in self.definitions(file):
            return Definition(file, name)
        if name in self.imports(file):
            target = self.imports(file)[name][0]
            return target if self.is_there(target) else None
        if file.endswith(".rt") and name in self.declared(file):
            return Definition(file, name)
        return None

    def reached_from(self, starts):
        """The definitions that these reach, each with the one that led to it."""
        led, todo = dict(starts), list(starts)
        while todo:
            at = todo.pop()
            for target in self.cited_in(at):
                if target not in led:
                    led[target] = f"{at.name} in {at.file}"
                    todo.append(target)
        return led

    @cache
    def cited_in(self, definition):
        """The definitions that a definition of specs/ cites itself."""
        if not definition.file.endswith(".antt"):
            return []
        names = dict.fromkeys(names_used(self.definitions(definition.file)[definition.name]))
        targets = (self.resolved(definition.file, name) for name in names)
        return [target for target in targets if target]

    # public contracts

    def public_clauses(self, crate):
        """The clauses of public functions, traits, views and invariants: where each is, and its text."""
        public = self.public_items(crate)
        for file in self.files(crate, "src", ".rt"):
            exported = {target.name for target in public.values() if target.file == file}
            types = {target.name for target in public.values()}
            yield from clauses_of(file, self.plain(file), exported, types)

    @cache
    def public_citations(self):
        """What each public contract cites: the file, the item, and the definition."""
        found = []
        for crate in self.crates.needs:
            for file, item, clause in self.public_clauses(crate):
                targets = (self.resolved(file, name) for name in names_used(clause))
                found += [(file, item, target) for target in targets if target]
        return found

    def cited_by_contracts(self):
        """The definitions that public contracts cite, each with one place that does."""
        return {target: f"{file}: {item}" for file, item, target in reversed(self.public_citations())}

    def contracts(self):
        """The items with public contracts, as `FUNCTION`, `TYPE::FUNCTION` or `TYPE, MEMBER`, and what they cite."""
        found = {}
        for _, item, target in self.public_citations():
            found.setdefault(item, set()).add(target)
        return found

    def files_with(self, name):
        """The files of specs/ that have a definition of this name."""
        return self.files_by_name().get(name, [])

    @cache
    def files_by_name(self):
        found = {}
        for crate in self.crates.needs:
            for file in self.files(crate, "specs", ".antt"):
                for name in self.definitions(file):
                    found.setdefault(name, []).append(file)
        return found


# ---- items of a source file


ITEM = re.compile(
    r"(?P<test>#\[cfg\(test\)\]\s*(?:pub )?mod \w+ \{)"
    r"|(?P<impl>\bimpl\b[^{;]*\{)"
    r"|(?P<trait>(?:pub )?\btrait \w+[^{;]*\{)"
    r"|(?P<struct>(?:pub )?\bstruct \w+[^{;(]*\{)"
    r"|(?P<fn>(?P<pub>pub(?:\([\w ]+\))? )?(?:unsafe )?(?:extern\s+)?fn \w+)"
)


def clauses_of(file, text, exported, types):
    """The clauses of the items that a file exports: the file, the item's name and the clause."""
    place = 0
    while item := ITEM.search(text, place):
        if item.lastgroup == "fn" or item.group("fn"):
            name = item.group("fn").split()[-1]
            clauses, place = header(text, item.end())
            if item.group("pub") == "pub " and name in exported:
                for clause in clauses:
                    yield file, name, clause
            continue
        end = end_of_block(text, item.end() - 1)
        inside = text[item.end() : end - 1]
        if item.group("trait"):
            name = re.search(r"trait (\w+)", item.group()).group(1)
            if name in exported:
                yield from members(file, name, inside, True)
        elif item.group("struct"):
            name = re.search(r"struct (\w+)", item.group()).group(1)
            if name in exported:
                yield from members(file, name, inside, False)
        elif item.group("impl"):
            owner = re.sub(r"<[^<>]*(?:<[^<>]*>[^<>]*)*>", "", item.group()[4:-1]).split(" where ")[0]
            name = owner.split(" for ")[-1].strip().lstrip("&").split("::")[-1]
            if name in types:
                yield from members(file, name, inside, " for " in owner)
        place = end


def members(file, owner, text, all_public):
    """The clauses in a block of a trait, a struct or an impl: of ghost members, and of functions that are public."""
    for ghost in re.finditer(r"\bghost (?!use\b)(\w+)\s*[=:]\s*\{", text):
        end = end_of_block(text, ghost.end() - 1)
        yield file, f"{owner}, {ghost.group(1)}", text[ghost.end() : end - 1]
    for function in re.finditer(r"(pub(?:\([\w ]+\))? )?(?:unsafe )?fn (\w+)", text):
        if all_public or function.group(1) == "pub ":
            for clause in header(text, function.end())[0]:
                yield file, f"{owner}::{function.group(2)}", clause


HEADER_MARK = re.compile(r"(?P<clause>\b(?:requires|ensures)\b(?:\s+\w+)?\s*\{)|[()\[\]{};]")


def header(text, place):
    """The clauses of a function whose name ends at `place`, and the place after its body."""
    clauses, depth = [], 0
    while mark := HEADER_MARK.search(text, place):
        place = mark.end()
        if mark.group("clause"):
            end = end_of_block(text, place - 1)
            clauses.append(text[place : end - 1])
            place = end
        elif mark.group() in "([":
            depth += 1
        elif mark.group() in ")]":
            depth -= 1
        elif depth == 0:
            return clauses, end_of_block(text, place - 1) if mark.group() == "{" else place
    return clauses, len(text)


def clause_lines(text):
    """The lines of a source file that belong to a clause, counted from 1, with their text."""
    plain = plain_rust(text)
    lines = text.splitlines()
    found = set()
    starts = [
        *re.finditer(r"(?<!\w)(?:requires|ensures)(?:\s+\w+)?\s*\{", plain),
        *re.finditer(r"(?<!\w)ghost (?!use\b)\w+\s*[=:]\s*\{", plain),
    ]
    for start in starts:
        end = end_of_block(plain, start.end() - 1)
        first = plain.count("\n", 0, start.start())
        last = plain.count("\n", 0, end - 1)
        found.update(range(first, last + 1))
    return [(number + 1, lines[number]) for number in sorted(found)]
