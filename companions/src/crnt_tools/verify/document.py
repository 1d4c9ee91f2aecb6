"""A certificate line by line: its words, its numbers and their ranges. docs/CERTIFICATES.md, "Records" and "Rejections"."""

from __future__ import annotations

import re
from dataclasses import dataclass
from typing import Callable, Sequence

from ..errors import Rejected
from ..network import Numbers

NAMES = {
    21: "BadHeader", 22: "BadNetwork", 23: "UnknownWord", 24: "BadField", 25: "NumberWide", 26: "WrongOrder",
    27: "EndsEarly", 28: "AfterEnd", 29: "DocumentTooLong", 30: "LineTooLong", 31: "WrongClasses", 32: "WrongWalk",
    33: "NotIndependent", 34: "NotSpanned", 35: "BadVector", 36: "WrongNumber", 37: "WrongVerdict", 41: "BadLeaf",
    42: "NodeNotAllowed", 43: "TreeEndsEarly", 44: "TreeGoesOn", 45: "BadEvidence", 46: "WrongShape",
    51: "NotSiphon", 52: "NotCovered", 53: "BadLaw", 54: "BadNode", 55: "WrongLine", 56: "WrongCase", 61: "NotIndependent",
    62: "NotSpanned", 63: "WrongParts", 64: "BadLink", 71: "BadNode", 72: "BadLeaf", 73: "BadSlope",
}
NUMBER = re.compile(r"0|-?[1-9][0-9]*")
MOST_BYTES_OF_LINE, MOST_BYTES, WIDE = 16_384, 2**32, 2**72
WORDS_OF_TREES = ("split", "flat", "cuta", "cutb")
WORDS = {
    1: (*(f"q{k}" for k in range(1, 16)), *WORDS_OF_TREES, *(
        "label up depth from to fromdepth todepth level exit back base dual comb vec cut side walk tie shelves mu m "
        "weights alpha end").split()),
}
WORDS[2] = (*WORDS[1], "vectors", "vector", "section", "refa", "refb")


@dataclass(frozen=True)
class Form:
    """A record that is due: its words, the test of its numbers, and whether these only have to be below 2^72."""

    words: tuple[str, ...]
    fits: Callable[[Sequence[int]], bool]
    is_free: bool = False


def bare(*words: str) -> Form:
    """A record without numbers."""
    return Form(words, lambda numbers: not numbers)


def ranged(words: str, *ranges: tuple[int, int]) -> Form:
    """A record with a number in each of these ranges, the bounds included."""
    return Form(tuple(words.split(" ")), lambda numbers: len(numbers) == len(ranges) and all(
        least <= number <= most for number, (least, most) in zip(numbers, ranges)))


def listed(word: str, count: int, least: int, most: int) -> Form:
    """A record with so many numbers of one range."""
    return ranged(word, *[(least, most)] * count)


def free(word: str, count: int) -> Form:
    """A record with so many free numbers."""
    return Form((word,), lambda numbers: len(numbers) == count, is_free=True)


def wide_vector(words: str, columns: int, rows: int, *first: tuple[int, int]) -> Form:
    """An open line: a number in each of the ranges, and then a coordinate and a basis of a system."""

    def fits(numbers: Sequence[int]) -> bool:
        head, rest, basis = numbers[: len(first)], numbers[len(first) :], numbers[len(first) + 1 :]
        in_range = len(head) == len(first) and all(least <= number <= most for number, (least, most) in zip(head, first))
        ascending = all(a < b for a, b in zip(basis, basis[1:]))
        return in_range and len(basis) == columns and ascending and all(1 <= number <= columns + rows for number in rest)

    return Form(tuple(words.split(" ")), fits)


def wide(question: int, system: int, columns: int, rows: int, class_: int = 0) -> Form:
    """An open head that names a coordinate and a basis of a system."""
    return wide_vector(f"q{question} open wide", columns, rows, (system, system), (class_, class_))


class Document:
    """Reads the lines of a certificate, or of a part document, whose words are known. `number` is that of the line which was
    read last."""

    def __init__(self, text: bytes, known: Sequence[str] = ()):
        self.text, self.at, self.number, self.version, self.known = text, 0, 0, 0, known
        self.after_tree = False

    def fault(self, code: int, line: int | None = None) -> Rejected:
        return Rejected(code, NAMES[code], self.number if line is None else line)

    def line(self, ends_early: int = 27) -> bytes:
        """The next line, without its LF."""
        self.number += 1
        end = self.text.find(b"\n", self.at)
        length = (end if end >= 0 else len(self.text)) - self.at
        if self.at + min(length + (end >= 0), MOST_BYTES_OF_LINE + 1) >= MOST_BYTES:
            raise self.fault(29)
        if length > MOST_BYTES_OF_LINE:
            raise self.fault(30)
        if end < 0:
            raise self.fault(ends_early)
        line, self.at = self.text[self.at : end], end + 1
        return line

    def words(self, misplaced: int) -> list[str]:
        """The words of the next line, the first of which has to be a word of the version or of the part."""
        words = self.line(43 if misplaced == 43 else 27).decode("latin-1").split(" ")
        if words[0] not in (self.known or WORDS[self.version]):
            raise self.fault(23)
        return words

    def record(self, *forms: Form, misplaced: int = 26) -> tuple[int, Numbers]:
        """Which of the forms the next line has, and its numbers. `misplaced` is the code for a word that is not due."""
        words, after_tree = self.words(misplaced), self.after_tree
        self.after_tree = False
        if all(form.words[0] != words[0] for form in forms):
            goes_on = after_tree and (words[0] in WORDS_OF_TREES or words[0] in ("refa", "refb"))
            raise self.fault(44 if goes_on else misplaced)
        code = 24
        for place, form in enumerate(forms):
            spelled = words[len(form.words) :]
            if tuple(words[: len(form.words)]) != form.words or not all(map(NUMBER.fullmatch, spelled)):
                continue
            numbers = tuple(map(number_of, spelled))
            if form.fits(numbers):
                if not form.is_free or all(abs(number) < WIDE for number in numbers):
                    return place, numbers
                code = 25
        raise self.fault(code)

    def numbers(self, form: Form) -> Numbers:
        """The numbers of the next line, which has this form."""
        return self.record(form)[1]

    def end(self) -> None:
        """Nothing follows the last line."""
        if self.at < len(self.text):
            end = self.text.find(b"\n", self.at)
            length = (end if end >= 0 else len(self.text)) - self.at
            self.number += 1
            if self.at + min(length + (end >= 0), MOST_BYTES_OF_LINE + 1) >= MOST_BYTES:
                raise self.fault(29)
            raise self.fault(30 if length > MOST_BYTES_OF_LINE else 28)


def number_of(spelled: str) -> int:
    """The number, or one that is too great to be any: Python bounds the digits that it reads."""
    if len(spelled) > 100:
        return -WIDE if spelled[0] == "-" else WIDE
    return int(spelled)
