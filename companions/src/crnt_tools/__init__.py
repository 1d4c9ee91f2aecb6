"""Calls `crnt`, a proved program that reads a chemical reaction network and reports what reaction network theory says
about its structure, and hands its answers to Python. This package decides nothing and is not proved.

    >>> import crnt_tools as ct
    >>> report = ct.report("A <-> 2A\\nA + B <-> C <-> B\\n")
    >>> report.q6.deficiency
    1
    >>> report.q13.signal.shelves
    ('upper', 'lower')
"""

from .errors import (
    CrntError, NetworkNeeded, NotANetwork, NotAReport, NotImported, ProgramFault, ProgramMissing, Refused, Rejected, SlopeNeeded,
    ToolMissing,
)
from .network import Complex, Network, Reaction, Term
from .parts import Proof, prove, verified
from .program import certify, check, find, report
from .report import Report, schema
from .verdicts import Failure, Open, Signal, Verdict

__version__ = "1.0.0"

__all__ = [
    "Complex", "CrntError", "Failure", "Network", "NetworkNeeded", "NotANetwork", "NotAReport", "NotImported", "Open", "ProgramFault",
    "ProgramMissing", "Proof", "Reaction", "Refused", "Rejected", "Report", "Signal", "SlopeNeeded", "Term", "ToolMissing", "Verdict",
    "certify", "check", "find", "prove", "report", "schema", "verified",
]
