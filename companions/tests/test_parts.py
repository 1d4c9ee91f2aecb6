"""Part documents: what is proved, verified, concluded and tabulated."""

import random

import crnt_tools as ct
import support
import prove as random_test
from crnt_tools import explain
from crnt_tools.conclusions import conclude_part, data
from crnt_tools.loading import load, proofs_in
from crnt_tools.parts import PARTS
from crnt_tools.verify import verify_part

#: A part, a network, a budget, what is said, and the rows that apply.
ANSWERS = [
    ("persist", "A <-> B\n", None, "yes", ["persistent"]),
    ("persist", "A <-> B\n", 6, "open", []),
    ("persist", "2A <-> A + B\n", None, "no", ["not-persistent-by-siphons"]),
    ("persist", "0 -> A\n", None, "no", ["not-persistent-by-siphons"]),
    ("parts", "0 <-> A -> B\n2A + B -> 3A\n", None, "2, ranks 1 1", ["independent-parts"]),
    ("parts", "A -> B\n", None, "1, ranks 1", ["one-part"]),
    ("robust", "A + B -> 2B\nB -> A\n", None, "hypotheses hold, species A\nconfluence space: a line", ["robust"]),
    ("robust", "A -> B\n", None, "hypotheses fail, deficiency 0\nconfluence space: no line", ["not-robust"]),
    ("endo", "A <-> B\n", None, "yes", ["endotactic"]),
    ("endo", "A <-> B\n", 11, "open", []),
    ("endo", "A -> 2A\nA -> 0\n", None, "no, reaction 1", ["not-endotactic"]),
]


def test_answers():
    for part, text, budget, said, rows in ANSWERS:
        proof = ct.verified(ct.prove(part, text, budget))
        yield f"{part} of {text!r} with budget {budget}", (proof.part, proof.said, proof.is_open) == (part, said, said == "open"), proof
        yield f"the verdict {part} on {text!r}", proof.verdict == f"{part}: {said}", proof.verdict
        found = [it.id for it in conclude_part(proof)]
        yield f"what follows for {text!r} with budget {budget}", found == rows, found
        yield f"the network of {text!r}", str(ct.report(proof.network)) == str(ct.report(text)), proof.network
    seen = {row for *_, rows in ANSWERS for row in rows}
    yield "each row on parts applies to some network", seen == {row["id"] for row in data()["parts"]}, seen


def test_faults():
    document = ct.prove("persist", "A <-> B\n")
    for old, new, fault in [("persist 1", "nothing 1", (21, "BadHeader", 1)), ("bad 2", "bad 1", (54, "BadNode", 10)),
                            ("vec 1 1", "vec 1 2", (53, "BadLaw", 6)), ("end\n", "", (27, "EndsEarly", 14))]:
        try:
            seen = ct.verified(document.replace(old, new))
        except ct.Rejected as rejected:
            seen = (rejected.code, rejected.name, rejected.line)
        yield f"{new!r} for {old!r}", seen == fault, seen
    try:
        seen = ct.prove("persist", "A => B\n")
    except ct.Refused as refused:
        seen = (refused.code, refused.line)
    yield "a text that is refused", seen == (18, 1), seen


def test_explained():
    for part, text, budget, said, rows in ANSWERS:
        document = ct.prove(part, text, budget).encode()
        report, proofs, line = load(document), proofs_in(document), f"{part}: {said}".split("\n")[0]
        yield f"the report with the document of {text!r}", str(report) == str(ct.report(text)), report
        for form in (explain.as_text, explain.as_markdown, explain.as_html):
            page = form(report, "", proofs)
            yield f"{form.__name__} has the verdict {part} on {text!r}", line in page, page
            yield f"{form.__name__} has it because of the document on {text!r}", line not in form(report, "")
        [*of_proof] = conclude_part(proofs[0])
        flat = " ".join(explain.as_text(report, "", proofs).split()).replace("'", "`")
        for it in of_proof:
            yield f"it says {it.id}", all(line in flat for line in ([it.sentence] if it.concludes else it.does_not_follow)), flat


def test_without_conclusion():
    """A verdict that no row is about is said all the same."""
    proof = ct.Proof("parts", "2, ranks 1 1", "crn part parts 1\nnetwork 1\nA -> B\n")
    for form in (explain.as_text, explain.as_markdown, explain.as_html):
        yield form.__name__, "parts: 2, ranks 1 1" in form(ct.report(proof.network), "", [proof])


def test_commands():
    with support.folder() as folder:
        files = []
        for number, (text, budget, said) in enumerate(it[1:4] for it in ANSWERS if it[0] == "persist"):
            status, out, _ = support.command(["explain"], ct.prove("persist", text, budget).encode())
            yield f"explain on {text!r} with budget {budget}", status == (said == "open") and f"persist: {said}" in out, (status, out)
            files.append(f"{folder}/{number}.crn")
            with open(files[-1], "w", encoding="ascii") as file:
                file.write(text)
        status, out, err = support.command(["explain"], b"crn part persist 1\nnetwork 1\n")
        yield "explain on half a document", status == 3 and "rejected 27 EndsEarly at line 3" in err, (status, err)
        status, out, _ = support.command(["table", "--prove", "persist", *files])
        rows = [line.split(",") for line in out.splitlines()]
        yield "the table has a column more", status == 0 and [row[-1] for row in rows] == ["persist", "yes", "yes", "no", "no"], out
        status, out, _ = support.command(["table", "--prove", "persist", "--budget", "6", files[0]])
        yield "an open verdict in the table", status == 1 and out.splitlines()[1].endswith(",open"), (status, out)
        status, _, err = support.command(["table", "--prove", "nothing", files[0]])
        yield "a part that is not there", status == 4, (status, err)


def answer(check, document):
    try:
        return check(document).verdict
    except ct.Rejected as fault:
        return f"rejected {fault.code} {fault.name} at line {fault.line}"


def test_second_check():
    """Documents on networks by chance, whole, of open answers and damaged: this package, the second program of the checks and the
    program say the same."""
    for part in PARTS:
        it, dice, seen = random_test.PARTS[part], random.Random(part), set()
        for number in range(30):
            document = ct.prove(part, it.network(dice)).encode()
            opened = random_test.with_lines(document, it.opened(it.PROGRAM.check_document(document)[0], dice))
            damaged = (random_test.damaged(dice.choice([document, opened]), it.PROGRAM.words, dice) for _ in range(5))
            for form in [document, opened, *damaged]:
                said, wanted = answer(verify_part, form), it.PROGRAM.verify(form)[1].decode().rstrip("\n")
                seen.add(it.kind(said).split(" at ")[0])
                yield f"{part}: document {number}", said == wanted == answer(ct.verified, form), said, wanted, form
        yield f"{part}: verdicts and faults", {*it.KINDS, "rejected 24 BadField", "rejected 26 WrongOrder"} <= seen, seen
    status, out, _ = support.command(["verify"], ct.prove("persist", "A <-> B\n").encode())
    yield "the command", (status, out) == (0, "persist: yes\n"), (status, out)


def test_rows():
    """The documents by hand of the checks, with one line in place of another."""
    for part in PARTS:
        for document, old, new, said in random_test.PARTS[part].VERDICTS:
            edited = document.replace(old, new, 1)
            # here a document says itself of which part it is
            if edited.startswith(random_test.PARTS[part].PROGRAM.title()):
                seen = answer(verify_part, edited)
                yield f"{part}: {said} for {new!r}", seen == said, seen
