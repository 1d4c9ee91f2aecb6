"""What the tests share: counting, networks by chance, and a small validator of JSON schemas."""

import inspect
import os
import random
import re
import subprocess
import sys
import tempfile
import traceback
from pathlib import Path

ROOT = Path(__file__).resolve().parents[2]
COMPANIONS = ROOT / "companions"
NETWORKS = ROOT / "examples" / "networks"
SBML_EXAMPLES = Path("/usr/share/doc/libsbml5-examples/examples")
sys.path.insert(0, str(ROOT / "checks"))


class Skipped(Exception):
    """What a test needs is not there."""


class Tally:
    """The count. Each failure is printed at once, with what was seen."""

    def __init__(self, is_long=False):
        self.is_long, self.passed, self.failed, self.skipped, self.times = is_long, 0, 0, [], []

    def count(self, name, good, *seen):
        if good:
            self.passed += 1
            return
        self.failed += 1
        print(": ".join([f"FAILED {name}", *(f"{it!r:.600}" for it in seen)]), flush=True)

    def took(self, name, seconds):
        self.times.append(f"{name.removeprefix('test_')} {seconds:.0f} s")

    def end(self):
        for name, why in self.skipped:
            print(f"skipped {name}: {why}")
        print(f"companions: {', '.join(self.times)}")
        print(f"companions: {self.passed} passed, {self.failed} failed, {len(self.skipped)} skipped")
        return 1 if self.failed else 0


def run(module, tally):
    """Runs the tests of a module: each function whose name begins with `test` yields names and whether each holds, and
    what was seen. Those that begin with `long` are run if that is asked for."""
    for name, function in inspect.getmembers(module, inspect.isfunction):
        if function.__module__ != module.__name__ or not name.startswith(("test_", "long_")):
            continue
        if name.startswith("long_") and not tally.is_long:
            continue
        at = f"{module.__name__.removeprefix('test_')}: {name}"
        try:
            for claim, good, *seen in function():
                tally.count(f"{at}: {claim}", good, *seen)
        except Skipped as why:
            tally.skipped.append((at, str(why)))
        except Exception:
            tally.count(at, False, traceback.format_exc()[-1500:])


def command(words, text=b"", folder=None, **environment):
    """The status, the output and the errors of `crnt-tools` with these words."""
    done = subprocess.run([sys.executable, "-m", "crnt_tools", *map(str, words)], input=text, capture_output=True, cwd=folder,
                          env={**os.environ, **environment}, timeout=300)
    return done.returncode, done.stdout.decode(), done.stderr.decode()


def folder():
    return tempfile.TemporaryDirectory(prefix="crnt-tools.")


def examples():
    return sorted(NETWORKS.glob("*.crn"))


def random_text(seed):
    """A small network by chance, often with the zero complex, repeats and reverses."""
    dice = random.Random(f"small {seed}")
    names = [f"X{k}" for k in range(1, dice.randint(1, 6) + 1)]

    def side():
        terms = [f"{dice.choice(['', '', '2', '3'])}{name}" for name in names if dice.random() < 1.4 / len(names)]
        return " + ".join(terms) or "0"

    lines = []
    while len(lines) < dice.randint(1, 9):
        left, right = side(), side()
        if left != right:
            lines.append(f"{left} {dice.choice(['->', '<->', '<-'])} {right}")
    return "".join(f"{line}\n" for line in lines)


def shuffled_chain(sites, seed):
    """A phosphorylation chain with kinase and phosphatase, its lines in an order by chance."""
    lines = []
    for i in range(sites):
        lines += [f"S{i} + K <-> KS{i}", f"KS{i} -> S{i + 1} + K", f"S{i + 1} + F <-> FS{i + 1}", f"FS{i + 1} -> S{i} + F"]
    random.Random(seed).shuffle(lines)
    return "".join(f"{line}\n" for line in lines)


def large_random_text(seed):
    """A network by chance of 14 to 45 species: of reversible bindings, of reactions between complexes, or of enzymes."""
    dice = random.Random(seed)
    kind, count = dice.choice(["reversible", "directed", "enzymes"]), dice.randint(14, 45)
    names, lines = [f"X{k}" for k in range(1, count + 1)], []
    if kind == "reversible":
        for _ in range(int(count * dice.uniform(0.9, 1.6))):
            a, b, c = dice.sample(names, 3)
            lines.append(f"{a} + {b} <-> {c}")
    elif kind == "directed":
        complexes = [dice.sample(names, dice.choice([1, 2, 2, 3])) for _ in range(int(count * dice.uniform(1.2, 2.2)))]
        for _ in range(int(count * dice.uniform(1.2, 3))):
            a, b = dice.sample(complexes, 2)
            if sorted(a) != sorted(b):
                lines.append(f"{' + '.join(a)} -> {' + '.join(b)}")
    else:
        enzymes = [f"E{k}" for k in range(1, max(2, count // 6) + 1)]
        for k in range(1, count // 3 + 1):
            enzyme, (a, b) = dice.choice(enzymes), dice.sample(names[: count // 2], 2)
            lines += [f"{a} + {enzyme} <-> C{k}", f"C{k} -> {b} + {enzyme}"]
        for _ in range(count // 8):
            a, b = dice.sample(names[: count // 2], 2)
            lines.append(f"{a} <-> {b}")
        dice.shuffle(lines)
    return "".join(f"{line}\n" for line in lines)


KINDS = {"object": dict, "array": list, "string": str, "null": type(None), "boolean": bool, "integer": int}


def faults(value, schema, root, at="$"):
    """What is wrong with a value by a JSON schema, as far as the schema of a report goes in its words."""
    known = {"$ref", "type", "properties", "required", "additionalProperties", "items", "anyOf", "enum", "const", "minimum",
             "maximum", "minItems", "maxItems", "description", "title", "$schema", "$defs"}
    for word in set(schema) - known:
        yield f"{at}: the validator does not know {word}"
    if "$ref" in schema:
        yield from faults(value, root["$defs"][schema["$ref"].rsplit("/", 1)[1]], root, at)
    if "anyOf" in schema and not any(not list(faults(value, one, root)) for one in schema["anyOf"]):
        yield f"{at}: none of the alternatives"
    if "enum" in schema and value not in schema["enum"] or "const" in schema and value != schema["const"]:
        yield f"{at}: {value!r} is another value"
    kind = KINDS.get(schema.get("type"))
    if kind and (not isinstance(value, kind) or kind is int and isinstance(value, bool)):
        yield f"{at}: {value!r:.40} is no {schema['type']}"
    elif kind is int and not schema.get("minimum", value) <= value <= schema.get("maximum", value):
        yield f"{at}: {value} is out of range"
    elif kind is list:
        if not schema.get("minItems", 0) <= len(value) <= schema.get("maxItems", len(value)):
            yield f"{at}: {len(value)} members"
        for k, member in enumerate(value):
            yield from faults(member, schema.get("items", {}), root, f"{at}[{k}]")
    elif kind is dict:
        for name in set(schema.get("required", [])) - set(value):
            yield f"{at}: no {name}"
        for name, member in value.items():
            if name in schema.get("properties", {}):
                yield from faults(member, schema["properties"][name], root, f"{at}.{name}")
            elif schema.get("additionalProperties") is False:
                yield f"{at}: {name} is not in the schema"


def blocks(document, language):
    """The code of a document in this language, in order."""
    return re.findall(rf"^```{language}\n(.*?)^```", document, re.MULTILINE | re.DOTALL)
