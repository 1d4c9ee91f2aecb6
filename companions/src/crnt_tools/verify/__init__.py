"""A second check of certificates, written from docs/CERTIFICATES.md and docs/FORMATS.md alone and sharing no code with the program.

    >>> import crnt_tools as ct
    >>> from crnt_tools.verify import verify
    >>> verify(ct.certify("A <-> B\\n")).q8.law
    (1, 1)

`verify` takes a certificate of either version and gives the report of its network and verdicts, or raises `Rejected` with
the code and the line of its first fault: the answers of `crnt check`. To write a checker of your own, read `document.py`
for the lines, `checks.py` for the test of each answer, `signs.py` for trees, and `parts.py` for part documents, which
`verify_part` takes. It is not proved.
"""

from .checks import verify
from .parts import verify_part

__all__ = ["verify", "verify_part"]
