"""What can go wrong, each with what it needs to be put right."""

from __future__ import annotations


class CrntError(Exception):
    """The base of all errors of this package; `status` is what the command `crnt-tools` ends with."""

    status = 70


class Refused(CrntError):
    """The text spells no network: the program's answer with status 2."""

    status = 2

    def __init__(self, code: int, name: str, line: int, what_to_write: str):
        super().__init__(f"refused {code} {name} at line {line}: {what_to_write}")
        self.code, self.name, self.line, self.what_to_write = code, name, line, what_to_write


class Rejected(CrntError):
    """The certificate has a fault: the program's answer with status 3, or that of `verify`."""

    status = 3

    def __init__(self, code: int, name: str, line: int):
        super().__init__(f"rejected {code} {name} at line {line}")
        self.code, self.name, self.line = code, name, line


#: What each status of the program means that comes with no report, refusal or rejection.
FAULTS = {
    4: "the words are no command: the program is of another version than this package",
    5: "a read of standard input failed",
    6: "a write to standard output failed",
    7: "memory ran out",
    8: "the words could not be read",
    70: "the launcher could not build the program; run it in a terminal to see why",
}


class ProgramFault(CrntError):
    """The program ended with a status that goes with no answer; a negative one is a signal of the system."""

    def __init__(self, status: int, why: str = ""):
        super().__init__(f"crnt ended with status {status}: {why or FAULTS.get(status, 'no such status is known')}")
        self.status = status


class ProgramMissing(CrntError):
    """There is no program to call."""


class NotAReport(CrntError):
    """A text that should be a report is none; `line` counts from 1."""

    status = 3

    def __init__(self, line: int, wanted: str):
        super().__init__(f"no report of crnt, at line {line}: {wanted}")
        self.line, self.wanted = line, wanted


class NotANetwork(CrntError):
    """A text that should be a network text is none; `line` counts from 1. The program's refusal says more."""

    status = 2

    def __init__(self, line: int, why: str):
        super().__init__(f"no network text, at line {line}: {why}")
        self.line, self.why = line, why


class NotImported(CrntError):
    """A model that no network text can stand for; `where` names the line or the element."""

    status = 2

    def __init__(self, where: str, why: str):
        super().__init__(f"{where}: {why}")
        self.where, self.why = where, why


class NetworkNeeded(CrntError):
    """The reactions are needed, and a report does not list them."""

    status = 2


class SlopeNeeded(CrntError):
    """A picture of a slope is asked for, and there is none, or not of two species."""

    status = 2


class ToolMissing(CrntError):
    """Another program or library is needed and not there."""
