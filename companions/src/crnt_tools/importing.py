"""Reads the files of other tools and writes network texts."""

from __future__ import annotations

import codecs
import re

from . import arrows, bionetgen, sbml
from .errors import NotImported
from .model import Imported, Model, written

READERS = {"sbml": sbml.read, "bionetgen": bionetgen.read, "arrows": arrows.read}
FORMATS = tuple(READERS)
UTF_16 = (codecs.BOM_UTF16_LE, codecs.BOM_UTF16_BE)
XML_ENCODING = re.compile(r"""(<\?xml[^>]*?\sencoding\s*=\s*["'])([\w.:-]+)""")


def characters(text: bytes) -> str:
    """The characters of a file: of UTF-16 if it begins with that mark, of what XML says, or of UTF-8. Where XML says an
    encoding, it says UTF-8 afterwards. Raises NotImported."""
    said = XML_ENCODING.search(text[:200].decode("latin-1"))
    encoding = "utf-16" if text.startswith(UTF_16) else said[2] if said else "utf-8"
    try:
        found = text.decode(encoding, "replace").lstrip("\ufeff")
    except (LookupError, UnicodeError):
        raise NotImported("the head", f"no encoding {encoding} is known: save it as UTF-8") from None
    if "\0" in found:
        raise NotImported("the file", "it has bytes of value 0, as no text in UTF-8 has: save it as UTF-8")
    return XML_ENCODING.sub(r"\1UTF-8", found, 1)


def format_of(text: str, name: str = "") -> str:
    """Which of the formats a file has, by its name or its first lines."""
    start = text[:2000].lstrip().lower()
    if "<sbml" in start or start.startswith("<?xml") or name.endswith((".xml", ".sbml")):
        return "sbml"
    return "bionetgen" if name.endswith((".net", ".bngl")) or bionetgen.BLOCKS.search(text) else "arrows"


def read_model(text: bytes, origin: str, format_: str | None = None) -> Model:
    """The model of a file. `origin` is what comments call it. Raises NotImported."""
    found = characters(text)
    return READERS[format_ or format_of(found, origin)](found, origin)


def import_text(text: bytes, origin: str, format_: str | None = None, keep_held: bool = False,
                keep_modifiers: bool = False) -> Imported:
    """The network text of a file of another tool. Raises NotImported."""
    return written(read_model(text, origin, format_), keep_held, keep_modifiers)
