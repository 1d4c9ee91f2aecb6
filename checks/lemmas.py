#!/usr/bin/env python3
"""Finds lemmas on lists, numbers, vectors and sums that are in two crates.

The statement of a lemma is on these alone if all its constants are of the toolchain's libraries or of `crn_vec`. Two
statements are the same if they differ only in the names of variables, the order of premises, parentheses, the sides of
equations and the types of members. Such a lemma is there once, in a crate that the others depend on, and they cite it at
that crate's door; a door that passes a lemma on by `pub use` states nothing. Answers of functions are not read."""

import re
import sys
from pathlib import Path

from sources import read_crates
from tally import Tally

ROOT = Path(__file__).resolve().parent.parent
LISTS = "crn_vec"

HEAD = re.compile(r"^(?:abbrev |unfoldable )?(?:pub )?([^\s(){}:]+) : (.*)$")
IMPORT = re.compile(r"^(?:unfoldable )?(?:pub )?use ([^\s{]+)\.\{(.*)\}$", re.MULTILINE)
TOKEN = re.compile(r"[\w'’₀-₉]+(?:-[\w'’₀-₉]+)*|\.\d+|[(){}\[\],.:]|[^\s\w(){}\[\],.:]+")
WORD = re.compile(r"[^\W\d]")
OPEN, CLOSE = "({[", ")}]"
# What makes the type of a bound name a premise, and not the type of a variable; a definition has none of it.
RELATIONS = re.compile(r"[≡≢≤<∣¬↔∈⊥]|\b(?:Is|Are|Has|Have|All|Decides)(?:[A-Z]\w*)?\b")


def statements(text):
    """The lemmas of a file: the line, the name and the statement of each."""
    lines = [line.partition("--")[0].rstrip() for line in text.splitlines()]
    for at, line in enumerate(lines):
        head = HEAD.match(line)
        if head:
            end = at + 1
            while end < len(lines) and lines[end].startswith(" "):
                end += 1
            statement = " ".join([head.group(2), *lines[at + 1 : end]])
            is_definition = "Type" in statement.split("→")[-1] or not RELATIONS.search(statement)
            if not is_definition:
                yield at + 1, head.group(1), statement


def parts(tokens, separator):
    """The tokens between the separators that are outside brackets."""
    found, depth = [[]], 0
    for token in tokens:
        depth += (token in OPEN) - (token in CLOSE)
        if token == separator and depth == 0:
            found.append([])
        else:
            found[-1].append(token)
    return found


def end_of(tokens, start):
    """The place of the bracket that closes the one at a place."""
    depth = 0
    for at in range(start, len(tokens)):
        depth += (tokens[at] in OPEN) - (tokens[at] in CLOSE)
        if depth == 0:
            return at
    return len(tokens) - 1


def bound(tokens, at):
    """The names that the bracket at a place binds, and where their type begins."""
    stop = at + 1
    while stop < len(tokens) and WORD.match(tokens[stop]):
        stop += 1
    is_binder = tokens[at] in "({" and stop > at + 1 and stop < len(tokens) and tokens[stop] == ":"
    return (tokens[at + 1 : stop], stop + 1) if is_binder else ([], 0)


def variables(tokens):
    found = set()
    for at, token in enumerate(tokens):
        found.update(bound(tokens, at)[0])
        if token == "λ":
            found.update(tokens[at + 1 : tokens.index(".", at)])
    return found - {"(", ")", "{", "}", ":"}


def without_types(tokens):
    """A term without the types of the names that it binds, and without parentheses."""
    found, at = [], 0
    while at < len(tokens):
        names, _ = bound(tokens, at)
        found += names or ([tokens[at]] if tokens[at] not in "()" else [])
        at = end_of(tokens, at) + 1 if names else at + 1
    return found


def premises(part):
    """What a part before an arrow requires: nothing, if it binds variables."""
    names, start = bound(part, 0)
    if not names:
        return [part]
    end = end_of(part, 0)
    own = [part[start:end]] * len(names) if RELATIONS.search(" ".join(part[start:end])) else []
    return own + (premises(part[end + 1 :]) if end + 1 < len(part) else [])


def turned(term):
    """A term, and, if it is an equation, the same with its sides exchanged, both without types and parentheses."""
    while term and term[0] == "(" and end_of(term, 0) == len(term) - 1:
        term = term[1:-1]
    sides = parts(term, "≡")
    ways = [sides, sides[::-1]] if len(sides) == 2 and len(parts(term, "→")) == len(parts(term, "×")) == 1 else [sides]
    return [without_types([token for side in way for token in ["≡", *side]][1:]) for way in ways]


def named(term, numbers, grows):
    """A term with numbers for its variables: as they come, or a mark for one that has none yet."""
    found = []
    for token in term:
        if token in numbers and numbers[token] is None and grows:
            numbers[token] = sum(number is not None for number in numbers.values())
        is_known = token in numbers and numbers[token] is not None
        found.append(f"_{numbers[token]}" if is_known else "_" if token in numbers else token)
    return " ".join(found)


def form(statement):
    """What the statement has in common with all that are the same, and its constants."""
    tokens = TOKEN.findall(statement)
    names = variables(tokens)
    *before, last = parts(tokens, "→")
    required = [premise for part in before for premise in premises(part)]
    ways = []
    for conclusion in turned(last):
        numbers = dict.fromkeys(names)
        said = named(conclusion, numbers, True)
        rest = [min(named(way, dict(numbers), False) for way in turned(premise)) for premise in required]
        ways.append((said, *sorted(rest)))
    words = {token for term in [last, *required] for token in without_types(term)} - names
    return min(ways), {word for word in words if WORD.match(word)}


def imports(text, prelude):
    """Where each name that a file imports comes from, as the names of the module's path; `prelude` says it of its names."""
    found = {}
    for module, items in IMPORT.findall(text):
        path = module.split(".")
        for item in items.split(", "):
            name, _, renamed = item.partition(" as ")
            found[renamed or name] = prelude.get(name, path) if path[-1] == "Prelude" else path
    return found


def is_of_lists(constants, text, crate, prelude):
    """Whether a file has these constants of the toolchain or of `crn_vec`, and none of its own or of another crate."""
    owners = imports(text, prelude)
    own = set(re.findall(r"^(?:abbrev |unfoldable )?(?:pub )?(?:record |data )?([^\s(){}:]+) [:(]", text, re.MULTILINE))
    for word in constants:
        path = owners.get(word, [])
        is_elsewhere = len(path) > 1 and path[0] == "Rattle" and path[1].startswith("crn") and path[1] != LISTS
        if is_elsewhere or (word in own and word not in owners and crate != LISTS):
            return False
    return True


def lemmas(root):
    """The lemmas on lists, numbers, vectors and sums alone, by their form: the crate and the place of each."""
    found, preludes = {}, {}
    for path in root.glob("crates/*/proofs/Prelude.antt"):
        preludes[path.parts[-3]] = imports(path.read_text(), {})
    for path in sorted(root.glob("crates/*/proofs/*.antt")):
        crate, text = path.relative_to(root).parts[1], path.read_text()
        for line, name, statement in statements(text) if path.stem not in ("Lib", "CallerLemmas") else []:
            same, constants = form(statement)
            if is_of_lists(constants, text, crate, preludes.get(crate, {})):
                found.setdefault(same, []).append((crate, f"{name} in {path.relative_to(root)}:{line}"))
    return found


def copies(root):
    """For each lemma the places where it is, and whether these are only in crates that have no crate in common."""
    crates = read_crates(root)
    known = {crate: {crate, *crates.reached(crate)} for crate in crates.needs}
    for places in lemmas(root).values():
        owners = {crate for crate, _ in places}
        yield [place for _, place in places], all(not known[a] & known[b] for a in owners for b in owners - {a})


def main():
    """`lemmas.py [ROOT]`, where ROOT is the top of the repository that is read: this one, if none is given."""
    tally = Tally("lemmas")
    for places, is_once in copies(Path(sys.argv[1]).resolve() if len(sys.argv) > 1 else ROOT):
        tally.count(f"a lemma is in one crate alone: {' and '.join(places)}", is_once)
    return tally.end()


if __name__ == "__main__":
    sys.exit(main())
