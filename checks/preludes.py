#!/usr/bin/env python3
"""Checks that the proofs of a crate import names of other crates and of specs once, in `proofs/Prelude.antt`, from which each
file takes names by one line. Crates whose proofs have no lemmas, and so no `Lib.antt`, have none.

    preludes.py [ROOT]              checks all crates; ROOT is the top of the repository that is read: this one, if none is given
    preludes.py --write CRATE..     writes the Preludes of these crates, and the lines that take names of them, anew

A name that means two things in a crate is the Prelude's in one of them, and is imported from its place in the other. A module
that is imported whole, by `as`, stays in its file. What a proof unfolds is passed on by `unfoldable pub use`. The doors,
`CallerLemmas.antt`, pass lemmas on, and are not read."""

import re
import sys
from collections import Counter, defaultdict
from pathlib import Path

from tally import Tally

ROOT = Path(__file__).resolve().parent.parent
HEAD = "-- What this crate's proofs use of other crates and of its specs.\n"
LINE = re.compile(r"((?:unfoldable )?(?:pub )?)use (Rattle\.[^\s{]+)\.\{(.*)\}\n")
OTHER = re.compile(r"use [^\s{]+(?:\.\{[^{}]*\}| as \S+)?\n")
UNFOLDED = re.compile(r"unfolding (.*)\n")


def items_of(line):
    """The module of an import by a list of names, and each name with that of the module: none of a line that is not one."""
    found = LINE.fullmatch(line)
    if not found:
        return "", {}
    pairs = (item.strip().partition(" as ") for item in found[3].split(",") if item.strip())
    return found[2], {renamed or name: name for name, _, renamed in pairs}


def import_line(module, items):
    """The import of these names of a module, each with the module's name for it."""
    return f"use {module}.{{{', '.join(name if name == of else f'{of} as {name}' for name, of in items)}}}\n"


def lines_of(text):
    """The lines of a text, in whatever order, with a name once where an import has it twice."""
    lines = []
    for line in text.splitlines(keepends=True):
        module, items = items_of(line)
        lines.append(LINE.match(line)[1] + import_line(module, items.items()) if module else line)
    return sorted(lines)


class Proofs:
    """The proofs of a crate: `prelude` has the place of each name of its Prelude, `files` the lines of each other file."""

    def __init__(self, root, crate):
        self.folder = root / "crates" / crate / "proofs"
        self.own = f"Rattle.{crate}.proofs."
        self.path = self.folder / "Prelude.antt"
        lines = self.path.read_text().splitlines(keepends=True) if self.path.exists() else []
        self.prelude = {}
        for module, items in map(items_of, lines):
            self.prelude.update({name: (module, of) for name, of in items.items()})
        unread = ("Lib.antt", "CallerLemmas.antt", "Prelude.antt")
        paths = sorted(path for path in self.folder.rglob("*.antt") if path.name not in unread)
        self.files = {path: path.read_text().splitlines(keepends=True) for path in paths}

    def is_from_outside(self, line):
        """Whether a line imports from the Prelude, from specs or from another crate."""
        module = items_of(line)[0]
        return bool(module) and (module == f"{self.own}Prelude" or not module.startswith(self.own))

    def taken(self, lines):
        """Each name that a file takes from outside, with the place that it is of."""
        found = []
        for line in filter(self.is_from_outside, lines):
            module, items = items_of(line)
            if module == f"{self.own}Prelude":
                found += [(name, self.prelude[of]) for name, of in items.items() if of in self.prelude]
            else:
                found += [(name, (module, of)) for name, of in items.items()]
        return list(dict.fromkeys(found))

    def chosen(self):
        """The place of each name in the Prelude: the one that it has, or that which most files take."""
        counts = defaultdict(Counter)
        for lines in self.files.values():
            for name, place in self.taken(lines):
                counts[name][place] += 1
        places = {}
        for name, count in counts.items():
            first = min(count, key=lambda place: (-count[place], place))
            places[name] = self.prelude[name] if self.prelude.get(name) in count else first
        return places

    def unread(self):
        """The imports that are of no form that is read: those of more than one line, say."""
        for path, lines in self.files.items():
            for line in lines:
                if line.startswith("use ") and not LINE.fullmatch(line) and not OTHER.fullmatch(line):
                    yield path, line.strip()

    def unfolded(self, places):
        """The names of the Prelude, with these places, that a proof unfolds."""
        names = set()
        for lines in self.files.values():
            taken = dict(self.taken(lines))
            for found in filter(None, map(UNFOLDED.fullmatch, lines)):
                names.update(name for name in found[1].split() if name in taken and taken[name] == places[name])
        return names

    def written(self):
        """What the Prelude and the other files should be."""
        places, modules = self.chosen(), defaultdict(list)
        unfolded = self.unfolded(places)
        for name, (module, of) in sorted(places.items()):
            modules[module, "unfoldable pub" if name in unfolded else "pub"].append((name, of))
        passed_on = (f"{how} {import_line(module, items)}" for (module, how), items in sorted(modules.items()))
        yield self.path, HEAD + "".join(passed_on)
        for path, lines in self.files.items():
            taken = self.taken(lines)
            ours = [(name, name) for name, place in taken if places[name] == place]
            others = defaultdict(list)
            for name, (module, of) in taken:
                if places[name] != (module, of):
                    others[module].append((name, of))
            head = [import_line(f"{self.own}Prelude", ours)] if ours else []
            head += [import_line(module, items) for module, items in others.items()]
            at = next((at for at, line in enumerate(lines) if self.is_from_outside(line)), 0)
            rest = [line for line in lines[at:] if not self.is_from_outside(line)]
            yield path, "".join([*lines[:at], *head, *rest])

    def write(self):
        for path, text in self.written():
            if not path.exists() or path.read_text() != text:
                path.write_text(text)
        listed = self.folder / "Lib.antt"
        if "mod Prelude\n" not in listed.read_text():
            listed.write_text(f"{listed.read_text().rstrip()}\nmod Prelude\n".lstrip())


def check(root):
    tally = Tally("preludes")
    crates = [listed.parts[-3] for listed in sorted(root.glob("crates/*/proofs/Lib.antt"))]
    tally.count(f"{root} has crates with proofs", crates)
    for crate in crates:
        proofs = Proofs(root, crate)
        for path, line in proofs.unread():
            tally.count(f"{path.relative_to(root)} imports by one line: {line}", False)
        for path, text in proofs.written():
            is_so = path.exists() and lines_of(path.read_text()) == lines_of(text)
            tally.count(f"{path.relative_to(root)} is as preludes.py --write {crate} has it", is_so)
    return tally.end()


def main():
    if sys.argv[1:2] == ["--write"]:
        for crate in sys.argv[2:]:
            Proofs(ROOT, crate).write()
        return 0
    return check(Path(sys.argv[1]).resolve() if len(sys.argv) > 1 else ROOT)


if __name__ == "__main__":
    sys.exit(main())
