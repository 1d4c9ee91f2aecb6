"""The second check of certificates: the answers of the program and of CERTIFICATES."""

import random
import re

import crnt_tools as ct
import ends
import support
from crnt_tools.verify import verify
from crnt_tools.verify.document import NAMES

CERTIFICATES = (support.ROOT / "docs" / "CERTIFICATES.md").read_text("utf-8")


def answer(check, document):
    """The report of a certificate, or the rejection line."""
    try:
        return str(check(document))
    except ct.Rejected as it:
        return f"rejected {it.code} {it.name} at line {it.line}\n"


def text_of(lines):
    return "".join(f"{line}\n" for line in lines)


def test_examples():
    for path in support.examples():
        report, certificate = ct.report(path.read_bytes()), ct.certify(path.read_bytes())
        yield path.name, verify(certificate) == report and answer(verify, certificate) == str(report)
    for path in (support.ROOT / "examples" / "certificates").glob("*.cert"):
        yield path.name, answer(verify, path.read_bytes()) == answer(ct.check, path.read_bytes())


def test_edits_of_one_certificate():
    yield "the certificate", answer(verify, text_of(ends.ENDS)) == ends.REPORT
    yield "in version 2", answer(verify, text_of(ends.second_version(ends.ENDS)[0])) == ends.REPORT
    yield "with all open", answer(verify, text_of(ends.OPENED)) == ends.OPENED_REPORT
    for edits in (ends.edited, ends.second_edited, ends.opened_edited):
        for name, lines, code, line in edits():
            said = answer(verify, text_of(lines))
            yield name, said == f"rejected {code} {NAMES[code]} at line {line}\n", said
    for name, lines in ends.opened_others():
        yield name, answer(verify, text_of(lines)).startswith("crn report 1\n")
    for size, document, code, line in ends.truncated():
        yield f"its first {size} bytes", answer(verify, document) == f"rejected {code} {NAMES[code]} at line {line}\n"


def test_edits_of_formats():
    """The worked certificate of CERTIFICATES with each edit that its table has."""
    worked = re.search(r"^```\n( 1 crn certificate 2\n.*?)^```", CERTIFICATES, re.MULTILINE | re.DOTALL)[1]
    lines = [line[3:] for line in worked.splitlines()]
    yield "the worked certificate", answer(verify, text_of(lines)).startswith("crn report 1\n")
    rows = re.findall(r"^\| line (\d+) is (?:`([^`]*)`(?:, [^|]*)?|removed) \| `(\d+ \w+)` at (\d+) \|$", CERTIFICATES, re.MULTILINE)
    for number, line, fault, place in rows:
        at, wanted = int(number), f"rejected {fault} at line {place}"
        changed = [*lines[: at - 1], *([line] if line else []), *lines[at:]]
        yield f"line {at} is {line or 'removed'}", answer(verify, text_of(changed)) == f"{wanted}\n", wanted
    yield "all rows of the table", len(rows) > 30, len(rows)
    yield "a line after the end", answer(verify, text_of([*lines, "end"])) == "rejected 28 AfterEnd at line 75\n"


def test_random_certificates():
    """Certificates of networks by chance, whole and damaged: both checkers say the same."""
    for seed in range(60):
        certificate = ct.certify(support.random_text(seed))
        yield f"certificate {seed}", answer(verify, certificate) == answer(ct.check, certificate)
        for place in range(4):
            damaged = damage(certificate, random.Random(f"{seed} {place}"))
            yield f"certificate {seed}, damaged {place}", answer(verify, damaged) == answer(ct.check, damaged), damaged


def damage(certificate, dice):
    """A number or a word of some line changed, or a line left out, twice or in another place."""
    lines = certificate.split("\n")
    at, kind = dice.randrange(len(lines) - 1), dice.random()
    words = lines[at].split(" ")
    if kind < 0.6 and len(words) > 1:
        k = dice.randrange(1, len(words))
        words[k] = dice.choice(["0", "1", "-1", "2", words[k] + "0", "4722366482869645213696"])
        lines[at] = " ".join(words)
    elif kind < 0.75:
        del lines[at]
    elif kind < 0.9:
        lines.insert(at, lines[at])
    else:
        other = dice.randrange(len(lines) - 1)
        lines[at], lines[other] = lines[other], lines[at]
    return "\n".join(lines)


def test_lengths():
    """Lines and documents that are too long."""
    lines = list(ends.ENDS)
    lines[5] = "label" + " 1" * 8190
    yield "a long line", answer(verify, text_of(lines)) == "rejected 30 LineTooLong at line 6\n"
    yield "a long line after the end", answer(verify, text_of(ends.ENDS) + "x" * 20_000).startswith("rejected 30")
    yield "bytes that are no text", answer(verify, b"\xff\xfe\n") == "rejected 21 BadHeader at line 1\n"
    yield "nothing", answer(verify, b"") == "rejected 27 EndsEarly at line 1\n"
