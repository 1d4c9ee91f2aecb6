#!/usr/bin/env python3
"""Plants lemmas in a small repository: each copy that `lemmas.py` looks for has to be found, and nothing else."""

import sys

import lemmas
from small_repository import repository_of
from tally import Tally

USES = """\
use Rattle.std.specs.Prelude.{◌≡◌, ◌<◌, ◌≤ℤ◌, ◌+ℤ◌, ℕ, ℤ, List, length, get_or}
use Rattle.crn_vec.specs.Lists.{IsIn}
"""

FILES = {
    "crates.txt": "# ground: lists\ncrn_vec:\ncrn_io:\n# solver: solvers\ncrn_tab: crn_vec\ncrn_sign: crn_vec\n",
    "crates/crn_vec/proofs/Lists.antt": f"""\
-- Members and sums.
{USES}
pub at_in : {{A : Type 0}} (xs : List A) (i : ℕ) (d : A) → i < length xs → IsIn (get_or xs i d) xs
at_in xs i d lt = ?

-- a sum of two numbers in order
sum_same : (x y : ℤ) → x ≤ℤ y → IsIn x (y ∷ []) → (x +ℤ y) +ℤ x ≡ y
    +ℤ (x +ℤ y)
sum_same x y h i = ?
""",
    "crates/crn_vec/proofs/CallerLemmas.antt": "pub use Rattle.crn_vec.proofs.Lists.{at_in}\n",
    "crates/crn_tab/proofs/CallerLemmas.antt": "pub use Rattle.crn_vec.proofs.CallerLemmas.{at_in}\n",
}

# What is planted in crn_sign, and whether it is a copy.
PLANTED = [
    ("a copy", "at_in : {A : Type 0} (xs : List A) (i : ℕ) (d : A) → i < length xs → IsIn (get_or xs i d) xs", True),
    ("other names", "there : {B : Type 0} (ys : List B) (k : ℕ) (e : B) → k < length ys → IsIn (get_or ys k e) ys", True),
    ("a type of members", "there : (xs : List ℤ) (i : ℕ) (d : ℤ) → i < length xs → IsIn (get_or xs i d) xs", True),
    ("a premise with a name", "there : (xs : List ℕ) (i d : ℕ) (lt : i < length xs) → IsIn (get_or xs i d) xs", True),
    ("another order of variables", "there : (i d : ℕ) (xs : List ℕ) → i < length xs → IsIn (get_or xs i d) xs", True),
    ("another order of premises", "s : (x y : ℤ) → IsIn x (y ∷ []) → x ≤ℤ y → (x +ℤ y) +ℤ x ≡ y +ℤ (x +ℤ y)", True),
    ("the sides exchanged", "s : (x y : ℤ) → x ≤ℤ y → IsIn x (y ∷ []) → y +ℤ (x +ℤ y) ≡ (x +ℤ y) +ℤ x", True),
    ("parentheses", "s : (x y : ℤ) → (x ≤ℤ y) → (IsIn x (y ∷ [])) → ((x +ℤ y) +ℤ x ≡ (y +ℤ (x +ℤ y)))", True),
    ("all at once", "pub s : (b a : ℤ) (i : IsIn a (b ∷ [])) → (a ≤ℤ b) → b +ℤ (a +ℤ b) ≡ ((a +ℤ b) +ℤ a)", True),
    ("a premise more", "s : (x y : ℤ) → x ≤ℤ y → y ≤ℤ x → IsIn x (y ∷ []) → (x +ℤ y) +ℤ x ≡ y +ℤ (x +ℤ y)", False),
    ("another statement", "s : (x y : ℤ) → x ≤ℤ y → IsIn y (x ∷ []) → (x +ℤ y) +ℤ x ≡ y +ℤ (x +ℤ y)", False),
    ("a definition", "length_of : List ℕ → ℕ", False),
]


def found(files):
    """The copies that are found in a repository of these files."""
    with repository_of(files) as root:
        return [places for places, is_once in lemmas.copies(root) if not is_once]


def main():
    tally = Tally("lemmas, planted")
    tally.count("nothing is planted", not found(FILES), found(FILES))
    for name, planted, is_copy in PLANTED:
        copied = found({**FILES, "crates/crn_sign/proofs/Marks.antt": f"-- Marks.\n{USES}\n{planted}\n"})
        both = [[place.split(":")[0].split("/")[1] for place in places] for places in copied]
        tally.count(name, both == ([["crn_sign", "crn_vec"]] if is_copy else []), copied)
    own = FILES["crates/crn_vec/proofs/Lists.antt"]
    alike = {"crates/crn_tab/proofs/Rows.antt": own, "crates/crn_sign/proofs/Marks.antt": own}
    tally.count("three crates", [len(places) for places in found({**FILES, **alike})] == [3, 3])
    tally.count("no crate in common", not found({**FILES, "crates/crn_io/proofs/Lines.antt": own}))
    tests = own.replace("crn_vec.specs.Lists", "crn_tab.specs.Marks")
    of_marks = {"crates/crn_tab/proofs/Rows.antt": tests, "crates/crn_sign/proofs/Marks.antt": tests}
    tally.count("a definition of another crate", not found({**FILES, **of_marks}))
    prelude, taken = "crates/crn_sign/proofs/Prelude.antt", "use Rattle.crn_sign.proofs.Prelude.{IsIn, List, ℕ, get_or, length, ◌<◌}\n"
    by_prelude = {"crates/crn_sign/proofs/Marks.antt": f"-- Marks.\n{taken}\n{PLANTED[0][1]}\n"}
    passed_on = "".join(f"pub {line}\n" for line in USES.splitlines())
    tally.count("by the Prelude", len(found({**FILES, **by_prelude, prelude: passed_on})) == 1)
    of_marks_passed_on = passed_on.replace("crn_vec.specs.Lists", "crn_tab.specs.Marks")
    tally.count("another definition by the Prelude", not found({**FILES, **by_prelude, prelude: of_marks_passed_on}))
    answers = "crates/crn_tab/proofs/row/put/Answers.antt"
    tally.count("the answers of a function", not found({**FILES, answers: own}))
    return tally.end()


if __name__ == "__main__":
    sys.exit(main())
