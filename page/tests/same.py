#!/usr/bin/env python3
"""Compares the module, under Node, with the program on a machine: the status and every byte.

    same.py ROOT PROGRAM MODULE
"""

import base64
import json
import pathlib
import random
import re
import shutil
import subprocess
import sys

BUDGETS = ("", "1", "7", "100000")
HERE = pathlib.Path(__file__).resolve().parent


class Module:
    """The module under Node, which answers one run after another."""

    def __init__(self, module):
        words = ["node", HERE / "host.js", module, "--serve"]
        self.node = subprocess.Popen([str(it) for it in words], stdin=subprocess.PIPE, stdout=subprocess.PIPE)

    def run(self, words, text):
        job = {"words": words, "text": base64.b64encode(text).decode()}
        self.node.stdin.write(json.dumps(job).encode() + b"\n")
        self.node.stdin.flush()
        line = self.node.stdout.readline()
        if not line:
            sys.exit(f"node ended at {words} of {text[:60]!r}")
        done = json.loads(line)
        return done["status"], base64.b64decode(done["out"])

    def close(self):
        self.node.stdin.close()
        self.node.wait()


def native(program, words, text):
    done = subprocess.run([program, *words], input=text, capture_output=True)
    return done.returncode, done.stdout


def with_budget(command, budget):
    return [*command, "--budget", budget] if budget else command


def typed_texts(root):
    """The texts in the tables of what people type."""
    for file in sorted((root / "docs").rglob("*.md")):
        part = file.read_text().partition("\n## If your text is refused\n")[2].split("\n## ", 1)[0]
        for line in part.splitlines():
            if line.startswith("| `"):
                for typed in re.findall(r"`([^`]*)`", line.replace(r"\|", "|")):
                    text = typed.encode().replace(rb"\n", b"\n").replace(rb"\r", b"\r")
                    yield re.sub(rb"\\x([0-9A-F]{2})", lambda it: bytes([int(it[1], 16)]), text)


def network(dice):
    species = dice.randint(2, 12)
    term = lambda: f"{dice.randint(1, 2)}X{dice.randint(1, species)}"
    side = lambda: " + ".join(term() for _ in range(dice.randint(0, 2))) or "0"
    arrow = lambda: dice.choice(["->", "<->"])
    return "".join(f"{side()} {arrow()} {side()}\n" for _ in range(dice.randint(1, 15))).encode()


def damaged(document, dice):
    lines = document.split(b"\n")
    place, kind = dice.randrange(len(lines)), dice.randrange(3)
    if kind == 0:
        del lines[place]
    elif kind == 1:
        lines[place] += b" 1"
    else:
        lines[place] = lines[place].replace(b"1", b"2") or b"x"
    return b"\n".join(lines)


def wrong_words():
    """Words that are no command, or say one in an unusual way."""
    yield from ([], [""], ["report", ""], ["--", "report"], ["report", "report"], ["réport"], ["a\nb"], ["--help"])
    yield from (["--budget=7", "report"], ["report", "--budget=000007"], ["report", "--budget", "0"], ["report", "--budget", "100001"])
    yield from (["check", "--budget", "5"], ["certify", "--budget", "x"], ["report", "--budget", "5", "--budget", "5"])
    yield from (["sample"], ["sample", "0"], ["sample", "1"], ["sample", "08"], ["sample", "19"], ["sample", "20"], ["sample", "3", "--budget", "7"], ["sample", "--budget=7", "3"])
    yield from (["prove"], ["verify"], ["prove", "endo"], ["verify", "persist", "--budget", "7"], ["prove", "--budget=7", "persist"])


def jobs(root, program):
    dice = random.Random(7)
    documents = [file.read_bytes() for file in sorted((root / "examples/certificates").glob("*.cert"))]
    for file in sorted((root / "examples/networks").glob("*.crn")):
        text = file.read_bytes()
        documents.append(native(program, ["certify"], text)[1])
        for command in ("report", "certify"):
            for budget in BUDGETS:
                yield with_budget([command], budget), text
    for document in documents:
        yield ["check"], document
        for _ in range(6):
            yield ["check"], damaged(document, dice)
    for file in sorted((root / "examples/networks").glob("*.crn")):
        text = file.read_bytes()
        for budget in BUDGETS:
            yield with_budget(["prove", "persist"], budget), text
        proof = native(program, ["prove", "persist"], text)[1]
        for document in (proof, *(damaged(proof, dice) for _ in range(3))):
            yield ["verify", "persist"], document
    for text in typed_texts(root):
        yield ["report"], text
    for _ in range(200):
        yield ["report", "--budget", "50"], bytes(dice.choice(b"AB12+-> <\n#x") for _ in range(dice.randrange(60)))
    for _ in range(100):
        yield ["report", "--budget", "500"], network(dice)
        yield ["certify", "--budget", "500"], network(dice)
    chain = b"".join(b"X%d -> 99X%d\n" % (i, i + 1) for i in range(1, 11))
    for text in (b"", b"\n", b"A -> B" + b" " * 2097152, b"A" * 33 + b" -> B", chain, bytes(range(256))):
        for command in ("report", "certify", "check"):
            yield [command], text
    for words in wrong_words():
        yield words, b"A -> B"


def main():
    root, program, module = sys.argv[1:4]
    if not shutil.which("node"):
        print("same: skipped, there is no node")
        return 0
    served, count, failed = Module(module), 0, 0
    for words, text in jobs(pathlib.Path(root), program):
        count += 1
        if served.run(words, text) != native(program, words, text):
            failed += 1
            print(f"FAILED {words} of {text[:60]!r}")
    served.close()
    print(f"same: {count - failed} passed, {failed} failed")
    return bool(failed)


if __name__ == "__main__":
    sys.exit(main())
