"""A small repository in a folder of its own, for the tests of the checks that read a whole one."""

import tempfile
from contextlib import contextmanager
from pathlib import Path


@contextmanager
def repository_of(files):
    """The top of a repository that holds these files, by their paths from there. It is gone at the end of the block."""
    with tempfile.TemporaryDirectory() as folder:
        root = Path(folder)
        for name, text in files.items():
            (root / name).parent.mkdir(parents=True, exist_ok=True)
            (root / name).write_text(text)
        yield root
