#!/usr/bin/env python3
"""Breaks each rule of `documents.py` in a small repository that keeps all of them: each break has to be seen."""

import sys

import documents
from small_repository import repository_of
from tally import Tally

SOURCE = "crates/crn_low/src/count.rt"
PAGE = "docs/DEFINITIONS.md"
SPECS = "crates/crn_low/specs/Count.antt"
KEPT = "docs/definitions/kept.md"
USES = "crates/crn_tab/proofs/Uses.antt"
VIEW = "crates/crn_low/specs/Kept.antt"
MAP = "docs/ARCHITECTURE.md"
README = "README.md"
PROVED = "docs/PROVED.md"
INNER = "crates/crn_low/specs/Inner/Steps.antt"

FILES = {
    "crates.txt": """\
# ground: numbers
crn_low:
# certificate: checkers
crn_cert: crn_low
crn_part_check: crn_cert crn_low
# solver: solvers
crn_tab: crn_low itoa
""",
    "crates/crn_low/src/lib.rt": "//! Counts.\n\nmod count;\n\npub use count::{Counter, HasCount, MOST, count_of};\n",
    SOURCE: """\
ghost use Rattle.std.specs.Prelude.{◌≡◌, ℕ};
ghost use Rattle.crn_low.specs.Count.{IsCount};
ghost use Rattle.crn_low.specs.Inner.Steps.{IsStep};

/// The greatest count.
pub const MOST: u32 = 9;

/// Counts.
pub struct Counter {
    n: u32,
}

impl Model for Counter {
    ghost use Rattle.crn_low.specs.Kept.{KeptCounter};

    ghost Value = { KeptCounter };

    ghost view = { λ s. record { n = s.n } };
}

/// What has a count.
pub trait HasCount {
    ghost count: { Self → ℕ };

    /// The count.
    fn count(&self) -> u32
        ensures { result ≡ count self.now };
}

/// The count after a number.
pub fn count_of(n: u32) -> u32
    ensures { IsCount n result }
{
    step(n)
}

// The text "}" in a string, and '{' as a byte, are no braces.
fn step(n: u32) -> u32
    ensures next { IsStep n result }
{
    n + 1
}
""",
    "crates/crn_low/specs/Lib.antt": "pub mod Count\npub mod Kept\npub mod Inner\n",
    SPECS: """\
-- Counts.
use Rattle.std.specs.Prelude.{◌≡◌, ℕ, suc}
use Rattle.crn_low.specs.declared.count.TheConstants.{MOST}

-- the next number
abbrev pub next : ℕ → ℕ
next n = suc n

-- the count after a number
abbrev pub IsCount : ℕ → ℕ → Type 0
IsCount n count = (count ≡ next n) × (count ≡ MOST)
""",
    VIEW: "-- What contracts see.\n\n-- a counter\npub record KeptCounter : Type 0 where\n  pub n : ℕ\n",
    "crates/crn_low/specs/Inner.antt": "pub mod Steps\n",
    INNER: """\
-- For the contracts of private functions alone.
use Rattle.std.specs.Prelude.{◌≡◌, ℕ}

-- one step
abbrev pub IsStep : ℕ → ℕ → Type 0
IsStep n m = m ≡ n
""",
    "crates/crn_low/proofs/Lib.antt": "pub mod CallerLemmas\nmod Steps\n",
    "crates/crn_low/proofs/CallerLemmas.antt": "-- For callers.\npub same : ℕ\nsame = 0\n",
    "crates/crn_low/proofs/Steps.antt": "-- Steps.\npub step : ℕ\nstep = 0\n",
    "crates/crn_tab/src/lib.rt": "//! A solver.\n",
    USES: "-- Uses.\nuse Rattle.crn_low.proofs.CallerLemmas.{same}\n",
    "crates/crn_cert/src/lib.rt": "//! Answers.\n",
    "crates/crn_part_check/src/lib.rt": "//! A checker.\n",
    README: """\
[definitions](docs/DEFINITIONS.md) There are 1 networks with their reports. By `rattle-kit-1`; see the [rest](docs/PROVED.md#what-else).

| | |
|---|---|
| `report` | one |
| `certify` | two |
| `check` | three |
| `prove`, `verify` | likewise |
| openness | four |
| completeness | five |
| every call returns | six |

```
crn report 1
open: 0
```
""",
    PROVED: """\
| what holds | crate | contract |
|---|---|---|
| It counts. | `crn_low` | `count_of`, view of `Counter` |

## What else?

It rests on `itoa` and `rattle-kit-1 logic 2`.
""",
    MAP: """\
| group | crate | what it does |
|---|---|---|
| ground | `crn_low` | counts, `crn_low/src/count.rt` |
| certificate | `crn_cert` | answers |
| certificate | `crn_part_check` | checks |
| solver | `crn_tab` | solves |
""",
    PAGE: """\
| line | definitions | lines of definitions |
|---|---|---:|
| `open` | `crn_low/specs/Count.antt`: `IsCount` | 4 |

**Count.** The number after it. `crn_low/specs/Count.antt`: `IsCount`, with: `next`. Limit `crn_low/src/count.rt`: `MOST`.
Cited by `crn_low/src/count.rt`: `count_of`.
""",
    KEPT: """\
**Counter.** Its number. `crn_low/specs/Kept.antt`: `KeptCounter`.

```antt
-- a counter
pub record KeptCounter : Type 0 where
  pub n : ℕ
```
""",
    "examples/networks/one.report": "crn report 1\nopen: 0\n",
    "examples/networks/one.crn": "A -> B\n",
}

# what is broken; the file; the text there; the text in its place; the rule or document that says so
BREAKS = [
    ("a link leads nowhere", README, PAGE, "docs/DEFINITION.md", README),
    ("a link leads to no heading", README, "#what-else", "#what", README),
    ("README leaves out what is proved of openness", README, "| openness | four |\n", "", "rows"),
    ("the documents name two toolchains", PROVED, "rattle-kit-1 ", "rattle-kit-2 ", "toolchain"),
    ("a contract is not in its crate", PROVED, "`count_of`", "`counts`", PROVED),
    ("a file is not there", KEPT, "Kept.antt", "Keep.antt", KEPT),
    ("a name is not in its file", PAGE,
     "Count.antt`: `IsCount`, with", "Count.antt`: `IsCounted`, with", PAGE),
    ("a definition is shown that is not there", KEPT, "pub n : ℕ", "pub n : ℤ", KEPT),
    ("a file in a table is not there", MAP, "crn_low/src/count.rt", "crn_low/src/counts.rt", MAP),
    ("a definition says no by the other sign", SPECS, "count ≡ MOST", "¬ count ≡ MOST", "negation"),
    ("a report is not a stored one", README, "open: 0", "open: 1", README),
    ("the networks are miscounted", README, "There are 1 networks", "There are 2 networks", "numbers"),
    ("README is too long", README, "There are", "There are " + "very " * documents.MOST_README, "words"),
    ("the documents are too long", PROVED, "It rests", "It " + "very " * documents.MOST_WORDS + "rests", "words"),
    ("a text outside is cited", README, "[definitions]", "By T2.1 the [definitions]", README),
    ("a cited definition has no row", PAGE,
     "`crn_low/specs/Count.antt`: `IsCount`, with: `next`.", "", "definitions"),
    ("a definition below a cited one has no row", PAGE, ", with: `next`", "", "definitions"),
    ("a constant has no row", PAGE, "`crn_low/src/count.rt`: `MOST`", "", "definitions"),
    ("what a view shows has no row", KEPT, "`crn_low/specs/Kept.antt`: `KeptCounter`", "", "definitions"),
    ("what a trait cites has no row", SOURCE,
     "result ≡ count self.now", "IsStep self.now result", "definitions"),
    ("a public contract cites an inner definition", SOURCE,
     "IsCount n result", "IsStep n result", "definitions"),
    ("a definition that nothing cites is neither inner nor has a row", VIEW,
     "-- a counter", "-- two\nabbrev pub two : ℕ\ntwo = 2\n\n-- a counter", "public definitions"),
    ("a definition that nothing cites is no inner one", VIEW,
     "-- a counter", "-- two\nabbrev pub two : ℕ\ntwo = 2\n\n-- a counter", "readers"),
    ("a definition has no sentence", SPECS, "-- the next number\n", "", "files"),
    ("an inner file does not say so", INNER,
     "-- For the contracts of private functions alone.\n", "", "files"),
    ("an exported item has no doc comment", SOURCE, "/// The greatest count.\n", "", "files"),
    ("the root file has an item", "crates/crn_low/src/lib.rt",
     "mod count;", "mod count;\n\npub fn none() {}", "files"),
    ("a proof is open to other crates", "crates/crn_low/proofs/Lib.antt",
     "mod Steps", "pub mod Steps", "files"),
    ("a helper is not in the files of its row", PAGE, "with: `next`", "with: `next`, `last`", "helpers"),
    ("a row says that it is cited where it is not", KEPT, "`KeptCounter`.\n", "`KeptCounter`. Cited by `count_of`.\n", "citations"),
    ("the lines of definitions are miscounted", PAGE, "| 4 |", "| 3 |", "reading path"),
    ("a proof cites another crate's lemma past its door", USES,
     "CallerLemmas.{same}", "Steps.{step}", "doors"),
    ("a crate cites another's inner definition", USES,
     "proofs.CallerLemmas.{same}", "specs.Inner.Steps.{IsStep}", "doors"),
    ("a clause line is too long", SOURCE, "ensures next {", f"ensures next {{{' ' * 100}", "clauses"),
    ("a line within a clause is too long", SOURCE,
     "ensures next { ", f"ensures next {{\n{' ' * 100}", "clauses"),
    ("a ghost member is too long", SOURCE, "{ Self → ℕ }", f"{{ Self →{' ' * 100}ℕ }}", "clauses"),
    ("a checker depends on a solver", "crates.txt",
     "crn_cert: crn_low", "crn_cert: crn_low crn_tab", "solver"),
    ("a part's checker depends on one by way of another", "crates.txt",
     "crn_low:\n", "crn_low: crn_tab\n", "solver"),
    ("a solver hides in another group", "crates.txt",
     "# solver: solvers\n", "crn_cert: crn_tab\n# ground: more\n", "solver"),
    ("ARCHITECTURE has a crate in another group", MAP, "| solver | `crn_tab`", "| ground | `crn_tab`", "groups"),
    ("the trust base leaves out a crate", PROVED, "`itoa`", "a crate", "trust base"),
    ("ARCHITECTURE has another order", MAP, "| certificate | `crn_cert` | answers |\n", "", "groups"),
]


def failures(files):
    """The rules that a repository of these files breaks."""
    with repository_of(files) as root:
        return {place for place, _, holds in documents.claims(root) if not holds}


def main():
    tally = Tally("documents, broken")
    tally.count("nothing is broken", not failures(FILES), failures(FILES))
    for name, file, old, new, rule in BREAKS:
        changed = FILES[file].replace(old, new)
        found = failures({**FILES, file: changed})
        tally.count(name, changed != FILES[file] and rule in found, sorted(found))
    return tally.end()


if __name__ == "__main__":
    sys.exit(main())
