#!/usr/bin/env python3
"""The wrong programs that the merge gate does not try: `wrong/CRATE/DEED.edit`, in the form of those under `must-fail/`.

    checks/wrong_programs.py              whether each of them applies, and was tried on the crate as it is: a part of checks/run
    checks/wrong_programs.py CRATE..      tries those of these crates, and writes down in wrong/tried that they were refused
    checks/wrong_programs.py --changed    tries those of the crates that are not as wrong/tried has them

Whoever changes a crate tries them and commits wrong/tried with the change. The merge gate believes that file, and holds only
that nobody forgot. A change of a crate below does not count: what stands above rests on its contracts.
"""

import hashlib
import re
import shutil
import signal
import subprocess
import sys
from pathlib import Path

from tally import Tally

ROOT = Path(__file__).resolve().parent.parent
PARTS = ["src", "specs"]
COMMENT = re.compile(rb"^\s*(?:--|//).*\n", re.MULTILINE)
# refused by a clause, and not only because a proof names what the edit took away, or because the prover gave up
REFUSED = re.compile(r"rt: must-fail (\w+)/(\S+)\.edit: refused, as it must be(?!.*only because)(?!.*only by a limit)")


class Wrong:
    """The wrong programs of a repository, and what is written down of them."""

    def __init__(self, root):
        self.root, self.folder, self.record = root, root / "wrong", root / "wrong" / "tried"

    def crates(self):
        return sorted(it.name for it in self.folder.iterdir() if it.is_dir()) if self.folder.is_dir() else []

    def edits(self, crate):
        return sorted((self.folder / crate).glob("*.edit"))

    def sum_of(self, crate):
        """A sum of what the crate says and does, and of its wrong programs, by name and content: its sources and definitions, but no
        comment, and no proof, as a wrong program shows what a contract excludes, however it is proved of the right one."""
        found = hashlib.sha256()
        files = [it for part in PARTS for it in (self.root / "crates" / crate / part).rglob("*") if it.is_file()]
        for file in sorted([*files, *self.edits(crate)]):
            found.update(repr((str(file.relative_to(self.root)), COMMENT.sub(b"", file.read_bytes()))).encode())
        return found.hexdigest()

    def tried(self):
        """The sum at which the wrong programs of each crate were last tried."""
        lines = self.record.read_text().splitlines() if self.record.is_file() else []
        return dict(line.split()[:2] for line in lines)

    def write_down(self, crates):
        """Adds that the wrong programs of these crates were refused, on the crates as they are."""
        sums = {crate: sum for crate, sum in self.tried().items() if crate in self.crates()}
        sums |= {crate: self.sum_of(crate) for crate in crates}
        self.record.write_text("".join(f"{it} {sums[it]} {len(self.edits(it))} refused\n" for it in sorted(sums)))

    def stale(self):
        """The crates whose wrong programs were not tried on them as they are."""
        tried = self.tried()
        return [it for it in self.crates() if tried.get(it) != self.sum_of(it)]

    def misapplied(self, edit):
        """Why an edit cannot be applied, if it cannot: the rules are those of `rt`."""
        texts, path, old = {}, "", None
        for line in edit.read_text("utf-8").splitlines():
            if line.startswith("file: "):
                path = line.removeprefix("file: ").strip()
            elif line.startswith("old: "):
                old = line.removeprefix("old: ")
            elif line.startswith("new:"):
                file = self.root / "crates" / edit.parent.name / path
                if old is None or not file.is_file():
                    return f"it names no old text, or no file ({path})"
                text = texts.get(path, file.read_text("utf-8"))
                if text.count(old) != 1:
                    return f"an old text is in {path} {text.count(old)} times, and not once"
                texts[path], old = text.replace(old, line.removeprefix("new:").removeprefix(" ")), None
        return None if texts else "it has no old and new text"

    def try_crate(self, crate):
        """Tries the wrong programs of a crate, which are under `must-fail/` meanwhile, and gives those that no clause refused."""
        place = self.root / "crates" / crate / "must-fail"
        there = [place / edit.name for edit in self.edits(crate)]
        place.mkdir(exist_ok=True)
        try:
            for edit, copy in zip(self.edits(crate), there):
                shutil.copy(edit, copy)
            done = subprocess.run(["rt", "must-fail", crate], cwd=self.root, capture_output=True, text=True, errors="replace")
        finally:
            for copy in there:
                copy.unlink(missing_ok=True)
            if not any(place.iterdir()):
                place.rmdir()
        print(done.stdout + done.stderr, end="", flush=True)
        refused = {found.groups() for found in map(REFUSED.match, done.stdout.splitlines()) if found}
        return [edit for edit in self.edits(crate) if (crate, edit.stem) not in refused]


def try_them(wrong, crates):
    """Tries those of these crates, writes down each crate of which all are refused, and gives the status to end with."""
    status = 0
    for crate in crates:
        if not wrong.edits(crate):
            print(f"there is no wrong program of {crate} under wrong/")
            status = 1
            continue
        left = wrong.try_crate(crate)
        if not left:
            wrong.write_down([crate])
        for edit in left:
            status = 1
            print(f"NOT REFUSED by a clause: {edit.relative_to(wrong.root)}")
    return status


def main(words):
    wrong = Wrong(ROOT)
    if words:
        # so that the wrong programs leave the crate's folder though somebody ends this
        signal.signal(signal.SIGTERM, lambda *_: sys.exit(1))
        return try_them(wrong, wrong.stale() if words == ["--changed"] else words)
    tally = Tally("wrong programs")
    stale = wrong.stale()
    for crate in wrong.crates():
        for edit in wrong.edits(crate):
            why = wrong.misapplied(edit)
            tally.count(f"{crate}/{edit.name} applies", not why, why)
        tally.count(f"those of {crate} were tried on it as it is", crate not in stale, "checks/wrong_programs.py --changed")
    return tally.end()


if __name__ == "__main__":
    sys.exit(main(sys.argv[1:]))
