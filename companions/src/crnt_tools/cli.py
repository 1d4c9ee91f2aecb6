"""The command `crnt-tools`: a verb for each thing that the package does."""

from __future__ import annotations

import argparse
import json
import os
import sys
from pathlib import Path
from typing import Any, Callable, NoReturn, Sequence

from . import __version__, draw, explain, importing, order, table
from .errors import CrntError, Refused, SlopeNeeded
from .loading import load, proofs_in
from .parts import PARTS, is_part_document
from .verify import verify, verify_part

DONE, OPEN_LEFT, USAGE, READ_FAULT, WRITE_FAULT, INTERRUPTED = 0, 1, 4, 5, 6, 130
STATUSES = """\
status: 0 done, 1 done with an open question, 2 refused, 3 rejected, 4 wrong words, 5 a file cannot be read,
6 a file cannot be written, 70 a program or library is missing; of several files the greatest.
"""
MOST_BUDGET = 100_000
BUDGET = "visits of a search, 20000 if nothing is said, 100000 at most"
DESCRIPTION = """\
Hands the answers of crnt, a proved program on chemical reaction networks, to people and to other tools. Each verb calls
the program, which alone decides; this package is not proved.
"""


class Parser(argparse.ArgumentParser):
    """Ends with the program's status for wrong words."""

    def error(self, message: str) -> NoReturn:
        self.print_usage(sys.stderr)
        self.exit(USAGE, f"crnt-tools: {message}\n")


class Unreadable(CrntError):
    """A file that cannot be read."""

    status = READ_FAULT


class Unwritable(CrntError):
    """A file that cannot be written."""

    status = WRITE_FAULT


class WrongWords(CrntError):
    """Words that do not go together."""

    status = USAGE


# ---- reading and writing

def read(file: str) -> bytes:
    """The bytes of a file; `-` is standard input."""
    try:
        with open(0 if file == "-" else file, "rb", closefd=file != "-") as stream:
            return stream.read()
    except OSError as fault:
        raise Unreadable(f"{fault.strerror}: name a file that can be read, or - for standard input") from None


def write(target: str | None, text: str | bytes) -> None:
    """Writes to a file, or to standard output."""
    made = text.encode("utf-8", "surrogateescape") if isinstance(text, str) else text
    try:
        with open(target or 1, "wb", closefd=bool(target)) as stream:
            stream.write(made)
    except OSError as fault:
        raise Unwritable(f"{target or 'standard output'}: {fault.strerror}") from None


def complain(file: str, fault: CrntError) -> int:
    """Says what is wrong, and gives the status."""
    print(f"crnt-tools: {said_name(file)}: {fault}", file=sys.stderr)
    return fault.status


def said_name(file: str) -> str:
    return "standard input" if file == "-" else file


def for_each(files: Sequence[str], work: Callable[[str], int]) -> int:
    """Does the work for each file, standard input if there is none, and goes on if one is faulty."""
    worst = DONE
    for file in files or ["-"]:
        try:
            worst = max(worst, work(file))
        except Unwritable:
            raise
        except CrntError as fault:
            worst = max(worst, complain(file, fault))
    return worst


def name_of(file: str) -> str:
    return "" if file == "-" else Path(file).name


# ---- the verbs

def do_json(given: argparse.Namespace) -> int:
    def work(file: str) -> int:
        head = {"file": file} if len(given.files) > 1 else {}
        try:
            report = load(read(file), given.budget)
        except CrntError as fault:
            if len(given.files) > 1:
                write(None, json.dumps({**head, "error": error_data(fault)}) + "\n")
            raise
        data = {**head, **report.to_dict()}
        write(None, json.dumps(data, indent=2 if given.indent else None) + "\n")
        return OPEN_LEFT if report.open_count else DONE

    return for_each(given.files, work)


def error_data(fault: CrntError) -> dict[str, Any]:
    data: dict[str, Any] = {"status": fault.status, "message": str(fault)}
    if isinstance(fault, Refused):
        data.update(code=fault.code, name=fault.name, line=fault.line, what_to_write=fault.what_to_write)
    return data


def do_explain(given: argparse.Namespace) -> int:
    def work(file: str) -> int:
        text = read(file)
        report, proofs = load(text, given.budget), proofs_in(text)
        write(given.output, given.form(report, name_of(file), proofs))
        return OPEN_LEFT if report.open_count or any(proof.is_open for proof in proofs) else DONE

    return for_each([given.file], work)


def do_import(given: argparse.Namespace) -> int:
    targets: set[str] = set()

    def work(file: str) -> int:
        origin = name_of(file) or said_name(file)
        made = importing.import_text(read(file), origin, given.format, given.boundary == "keep", given.modifiers == "keep")
        for warning in made.warnings:
            print(f"crnt-tools: {said_name(file)}: {warning}", file=sys.stderr)
        target = given.output
        if given.into:
            target = fresh(str(Path(given.into) / Path(origin).stem), targets)
        write(target, made.text)
        return DONE

    if given.into:
        Path(given.into).mkdir(parents=True, exist_ok=True)
    elif len(given.files) > 1:
        raise WrongWords("several models are several networks: say --into FOLDER")
    return for_each(given.files, work)


def fresh(stem: str, taken: set[str]) -> str:
    """The name of a network text that was not given yet, as models of several folders may have one name."""
    made, count = f"{stem}.crn", 1
    while made in taken:
        count += 1
        made = f"{stem}_{count}.crn"
    taken.add(made)
    return made


def do_draw(given: argparse.Namespace) -> int:
    suffix = Path(given.output or "").suffix[1:]
    format_ = given.format or (suffix if suffix in draw.FORMATS else "svg")

    def work(file: str) -> int:
        text = read(file)
        if given.view == "slope":
            proofs = proofs_in(text)
            if not proofs:
                raise SlopeNeeded("a slope is drawn of a document of crnt prove endo")
            write(given.output, draw.picture(draw.slope_dot(proofs[0]), format_))
            return DONE
        report = load(text, given.budget)
        dot = draw.species_dot(report) if given.view == "species" else draw.complexes_dot(report)
        write(given.output, draw.picture(dot, format_))
        return OPEN_LEFT if report.open_count else DONE

    return for_each([given.file], work)


def do_order(given: argparse.Namespace) -> int:
    def work(file: str) -> int:
        text = read(file).decode("utf-8", "surrogateescape")
        found = order.order(text, given.budget, given.restarts, given.seed)
        write(given.output, order.as_text(found, name_of(file)))
        return OPEN_LEFT if found.best.report.open_count else DONE

    return for_each([given.file], work)


def do_table(given: argparse.Namespace) -> int:
    files = given.files or os.fsdecode(read("-")).split("\n")
    separator = "\t" if given.tsv or (given.output or "").endswith(".tsv") else ","
    try:
        return table.make_table([file for file in files if file], given.output, given.budget, given.processes,
                                given.resume, given.reports, separator, tuple(dict.fromkeys(given.prove)))
    except OSError as fault:
        raise Unwritable(f"{fault.filename or 'standard output'}: {fault.strerror}") from None


def do_verify(given: argparse.Namespace) -> int:
    def work(file: str) -> int:
        text = read(file)
        write(None, f"{verify_part(text).verdict}\n" if is_part_document(text) else str(verify(text)))
        return DONE

    return for_each(given.files, work)


# ---- the words

def number(least: int, most: int | None = None) -> Callable[[str], int]:
    """Reads a number of a range."""

    def read_number(word: str) -> int:
        found = int(word) if word.isascii() and word.isdigit() else -1
        if found < least or most is not None and found > most:
            up_to = f" to {most}" if most is not None else " on"
            raise argparse.ArgumentTypeError(f"a number from {least}{up_to}, not {word!r}")
        return found

    return read_number


def parser() -> Parser:
    made = Parser(prog="crnt-tools", description=DESCRIPTION, epilog=STATUSES, formatter_class=argparse.RawTextHelpFormatter)
    made.add_argument("--version", action="version", version=f"crnt-tools {__version__}")
    verbs = made.add_subparsers(metavar="VERB", required=True, parser_class=Parser)

    def verb(name: str, work: Callable[[argparse.Namespace], int], says: str, examples: str) -> Parser:
        added: Parser = verbs.add_parser(name, help=says, description=says, epilog=f"examples:\n{examples}\n{STATUSES}",
                                         formatter_class=argparse.RawTextHelpFormatter)
        added.set_defaults(work=work)
        return added

    def options(of: Parser, several: bool, what: str, searches: bool = True) -> None:
        if several:
            of.add_argument("files", nargs="*", metavar="FILE", help=f"{what}; none or - is standard input")
        else:
            of.add_argument("file", nargs="?", default="-", metavar="FILE", help=f"{what}; none or - is standard input")
        if searches:
            of.add_argument("--budget", type=number(1, MOST_BUDGET), metavar="N", help=BUDGET)

    network = "a network text, a report, a certificate or a part document"
    it = verb("json", do_json, "The report as JSON, one object a line.", """\
  crnt-tools json two_site.crn > two_site.json
  crnt-tools json *.crn | jq -r 'select(.q14.concordant) | .file'
  echo 'A <-> B' | crnt-tools json --indent""")
    options(it, True, network)
    it.add_argument("--indent", action="store_true", help="over several lines, for reading")

    it = verb("explain", do_explain, "What theory concludes from the report, and what does not follow.", """\
  crnt-tools explain edelstein.crn
  crnt-tools explain edelstein.crn --html -o edelstein.html
  crnt report < edelstein.crn | crnt-tools explain --markdown
  crnt prove persist < edelstein.crn | crnt-tools explain""")
    options(it, False, network)
    forms = it.add_mutually_exclusive_group()
    forms.add_argument("--markdown", dest="form", action="store_const", const=explain.as_markdown, help="as Markdown")
    forms.add_argument("--html", dest="form", action="store_const", const=explain.as_html,
                       help="as one page with the pictures of the network")
    it.set_defaults(form=explain.as_text)
    it.add_argument("-o", "--output", metavar="FILE", help="where to write, instead of standard output")

    it = verb("import", do_import, "The network text of another tool's model, with comments on where each line is from.", """\
  crnt-tools import model.xml > model.crn
  crnt-tools import model.xml --boundary keep | crnt report
  crnt-tools import egfr.net -o egfr.crn
  echo 'E + S <=> ES --> E + P ; kf, kr, kcat' | crnt-tools import
  crnt-tools import models/*.xml --into networks""")
    options(it, True, "SBML of level 2 or 3, a .net of BioNetGen, or lines with arrows", searches=False)
    it.add_argument("--format", choices=importing.FORMATS, help="what the file is, if its name and first lines do not show it")
    it.add_argument("--boundary", choices=("drop", "keep"), default="drop",
                    help="leave out species that are held constant or set from outside (so if nothing is said), or keep them")
    it.add_argument("--modifiers", choices=("drop", "keep"), default="drop",
                    help="leave out modifiers (so if nothing is said), or put them on both sides of their reaction")
    places = it.add_mutually_exclusive_group()
    places.add_argument("-o", "--output", metavar="FILE", help="where to write, instead of standard output")
    places.add_argument("--into", metavar="FOLDER", help="write NAME.crn there for each file")

    it = verb("draw", do_draw, "The picture of the complexes, or of species and reactions, by Graphviz.", """\
  crnt-tools draw edelstein.crn -o edelstein.svg
  crnt-tools draw edelstein.crn --view species -o species.png
  crnt report < edelstein.crn | crnt-tools draw --format dot
  crnt prove endo < two_species.crn | crnt-tools draw --view slope -o slope.svg""")
    options(it, False, network)
    it.add_argument("--view", choices=("complexes", "species", "slope"), default="complexes",
                    help="what to draw: complexes in frames of their classes (so if nothing is said), species and reactions, or\n"
                         "the slope of two species that a document of crnt prove endo has")
    it.add_argument("--format", choices=draw.FORMATS, help="by the name of the output, or svg; dot is the text for Graphviz")
    it.add_argument("-o", "--output", metavar="FILE", help="where to write, instead of standard output")

    it = verb("order", do_order, "The same network in an order of lines and species that lets the searches end.", """\
  crnt-tools order long.crn -o short.crn
  crnt-tools order long.crn --restarts 200 | crnt report""")
    options(it, False, "a network text")
    it.add_argument("--restarts", type=number(0), default=order.DEFAULT_RESTARTS, metavar="N",
                    help=f"how many orders by chance are tried after the others, {order.DEFAULT_RESTARTS} if nothing is said")
    it.add_argument("--seed", type=number(0), default=1, metavar="N", help="another number gives other orders by chance")
    it.add_argument("-o", "--output", metavar="FILE", help="where to write, instead of standard output")

    it = verb("table", do_table, "A row for each network, with all verdicts, on all processors.", """\
  crnt-tools table networks/*.crn -o verdicts.csv
  crnt-tools table networks/*.crn -o verdicts.csv --resume
  find networks -name '*.crn' | crnt-tools table --tsv > verdicts.tsv""")
    it.add_argument("files", nargs="*", metavar="FILE", help="network texts; if none, their names are read from standard input")
    it.add_argument("--budget", type=number(1, MOST_BUDGET), metavar="N", help=BUDGET)
    it.add_argument("-o", "--output", metavar="FILE", help="where to write, instead of standard output")
    it.add_argument("--resume", action="store_true", help="go on with the table that is there: its rows stay as they are")
    it.add_argument("--tsv", action="store_true", help="tabs between the cells; so for an output FILE.tsv, too")
    it.add_argument("--prove", metavar="PART", action="append", default=[], choices=PARTS,
                    help=f"a column more, with the verified answer of crnt prove PART; PART is {' or '.join(PARTS)}")
    it.add_argument("--reports", metavar="FOLDER", help="keep the report of each network there, as FILE.report")
    it.add_argument("--processes", type=number(1), metavar="N",
                    help="how many at a time, one for each processor if nothing is said")

    it = verb("verify", do_verify, "Checks a certificate or a part document by a second checker, in Python, and prints what it says.", """\
  crnt certify < edelstein.crn | crnt-tools verify""")
    options(it, True, "a certificate or a part document", searches=False)
    return made


def main(words: Sequence[str] | None = None) -> int:
    """Does what the words say, and gives the status to end with."""
    given = parser().parse_args(words)
    try:
        status: int = given.work(given)
    except CrntError as fault:
        print(f"crnt-tools: {fault}", file=sys.stderr)
        return fault.status
    except KeyboardInterrupt:
        return INTERRUPTED
    return status


def run() -> NoReturn:
    """The command: ends the process with the status."""
    sys.stderr = sys.stderr or open(os.devnull, "w", encoding="utf-8")
    sys.exit(main())
