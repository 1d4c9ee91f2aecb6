#!/usr/bin/env python3
"""Breaks the imports of a small crate's proofs: `preludes.py` has to find each break, and to mend it."""

import contextlib
import io
import sys

import preludes
from small_repository import repository_of
from tally import Tally

STEPS = "crates/crn_tab/proofs/Steps.antt"
PRELUDE = "crates/crn_tab/proofs/Prelude.antt"

FILES = {
    "crates/crn_tab/proofs/Lib.antt": "pub mod CallerLemmas\nmod Steps\nmod Prelude\n",
    "crates/crn_tab/proofs/CallerLemmas.antt": "pub use Rattle.crn_tab.proofs.Steps.{step}\n",
    PRELUDE: f"""\
{preludes.HEAD}pub use Rattle.crn_vec.proofs.CallerLemmas.{{sum as total}}
pub use Rattle.std.proofs.Common.{{suc, ℕ}}
unfoldable pub use Rattle.std.specs.List.{{IsDistinct}}
""",
    STEPS: """\
-- Steps.
use Rattle.crn_tab.proofs.Prelude.{ℕ, suc, total, IsDistinct}
use Rattle.std.specs.Other as other

pub step : ℕ
unfolding IsDistinct
step = suc total
""",
    "crates/crn_tab/proofs/row/put/Answers.antt": """\
use Rattle.crn_tab.proofs.Prelude.{ℕ}
use Rattle.crn_tab.specs.Rows.{suc}
use Rattle.crn_tab.proofs.Steps.{step}
use Rattle.crn_tab.proofs.row.put.Goals as goal
""",
}

# What is changed, and the files that are then not as they should be.
BREAKS = [
    ("a file imports past the Prelude", STEPS, "Prelude.{ℕ, suc, total, IsDistinct}\n",
     "Prelude.{suc, total, IsDistinct}\nuse Rattle.std.proofs.Common.{ℕ}\n", {STEPS}),
    ("what is unfolded is not passed on so", PRELUDE, "unfoldable ", "", {PRELUDE}),
    ("what is not unfolded is passed on as if it were", STEPS, "unfolding IsDistinct\n", "", {PRELUDE}),
    ("a name is not in the Prelude", STEPS, "use Rattle.std.specs.Other as other\n",
     "use Rattle.std.proofs.Common.{zero}\n", {STEPS, PRELUDE}),
    ("nothing uses a name of the Prelude", PRELUDE, "{suc, ℕ}", "{suc, zero, ℕ}", {PRELUDE}),
    ("a file takes names by two lines", STEPS, "Prelude.{ℕ, suc, total, IsDistinct}\n",
     "Prelude.{ℕ, suc, IsDistinct}\nuse Rattle.crn_tab.proofs.Prelude.{total}\n", {STEPS}),
]

# What is changed, and the status that the check then ends with.
STATUSES = [
    ("nothing is changed", STEPS, "-- Steps.\n", "-- Steps, taken.\n", 0),
    ("a name that the Prelude has not got", STEPS, "{ℕ, suc, total, IsDistinct}", "{ℕ, suc, total, zero, IsDistinct}", 1),
    ("an import of two lines", STEPS, "use Rattle.std.specs.Other as other\n", "use Rattle.std.specs.Other.{\n  other}\n", 1),
    ("imports in another order", PRELUDE, "pub use Rattle.std.proofs.Common.{suc, ℕ}\nunfoldable pub use Rattle.std.specs.List.{IsDistinct}\n",
     "unfoldable pub use Rattle.std.specs.List.{IsDistinct}\npub use Rattle.std.proofs.Common.{suc, ℕ}\n", 0),
    ("a name that is there twice", STEPS, "{ℕ, suc, total, IsDistinct}", "{ℕ, suc, total, IsDistinct, suc}", 0),
]


def broken(root):
    return {str(path.relative_to(root)) for path, text in preludes.Proofs(root, "crn_tab").written() if path.read_text() != text}


def status(files):
    """How the check of a repository of these files ends."""
    with repository_of(files) as root, contextlib.redirect_stdout(io.StringIO()):
        return preludes.check(root)


def main():
    tally = Tally("preludes, broken")
    with repository_of(FILES) as root:
        tally.count("nothing is broken", not broken(root), broken(root))
    for name, file, old, new, files in BREAKS:
        changed = FILES[file].replace(old, new)
        with repository_of({**FILES, file: changed}) as root:
            found = broken(root)
            preludes.Proofs(root, "crn_tab").write()
            tally.count(name, changed != FILES[file] and found == files and not broken(root), sorted(found))
    for name, file, old, new, wanted in STATUSES:
        changed = FILES[file].replace(old, new)
        tally.count(name, changed != FILES[file] and status({**FILES, file: changed}) == wanted)
    tally.count("no crate", status({"crates.txt": ""}) == 1)
    with repository_of({file: text for file, text in FILES.items() if file != PRELUDE}) as root:
        (root / "crates/crn_tab/proofs/Lib.antt").write_text("pub mod CallerLemmas\nmod Steps\n")
        (root / STEPS).write_text("-- Steps.\nuse Rattle.std.proofs.Common.{suc, ℕ}\n")
        (root / "crates/crn_tab/proofs/row/put/Answers.antt").write_text("use Rattle.std.proofs.Common.{ℕ}\n")
        preludes.Proofs(root, "crn_tab").write()
        tally.count("a first Prelude is listed", "mod Prelude\n" in (root / "crates/crn_tab/proofs/Lib.antt").read_text())
        written = f"{preludes.HEAD}pub use Rattle.std.proofs.Common.{{suc, ℕ}}\n"
        tally.count("a first Prelude", (root / PRELUDE).read_text() == written)
    return tally.end()


if __name__ == "__main__":
    sys.exit(main())
