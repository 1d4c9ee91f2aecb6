"""Runs the tests: see companions/test."""

import argparse
import importlib
import os
import shutil
import subprocess
import sys
import time
from pathlib import Path

import support

HERE = Path(__file__).resolve().parent
#: The Debian packages by what they bring: a command, or a file.
PACKAGES = {
    "dot": "graphviz", "parallel": "parallel", "rsync": "rsync", "gcc": "gcc", "Rscript": "r-base-core", "mypy": "mypy",
    "node": "nodejs", "jq": "jq", "sbatch": "slurm-client", "/usr/sbin/slurmctld": "slurmctld", "/usr/sbin/slurmd": "slurmd",
    "/usr/sbin/munged": "munge",
    "/usr/lib/python3/dist-packages/libsbml": "python3-sbml5",
    "/usr/lib/python3/dist-packages/jsonschema": "python3-jsonschema",
    "/usr/share/doc/libsbml5-examples/examples": "libsbml5-examples",
    "/usr/share/doc/python3-venv": "python3-venv",
}
APT = ["-q", "-o", "Acquire::Retries=0", "-o", "Acquire::http::Timeout=20", "-o", "Acquire::https::Timeout=20"]


def is_there(brought: str) -> bool:
    return Path(brought).exists() if brought.startswith("/") else shutil.which(brought) is not None


def install() -> None:
    """Installs what is missing. Where that cannot be, the tests that need it are skipped by name."""
    missing = [package for brought, package in PACKAGES.items() if not is_there(brought)]
    if not missing or not shutil.which("apt-get") or os.geteuid():
        return
    apt_get("update")
    for package in missing:
        apt_get("install", "-y", "--no-install-recommends", package)
    # libSBML is on the path by a .pth file, which Python reads only when it starts
    os.execv(sys.executable, [sys.executable, __file__, *(word for word in sys.argv[1:] if word != "--install")])


def apt_get(*words: str) -> None:
    environment = {**os.environ, "DEBIAN_FRONTEND": "noninteractive"}
    try:
        done = subprocess.run(["apt-get", *APT, *words], env=environment, stdin=subprocess.DEVNULL, capture_output=True,
                              timeout=300)
    except subprocess.TimeoutExpired:
        print(f"companions: apt-get {' '.join(words)} took too long")
        return
    if done.returncode:
        print(f"companions: apt-get {' '.join(words)} failed: {done.stderr.decode(errors='replace').strip()[-200:]}")


def main() -> int:
    given = argparse.ArgumentParser()
    given.add_argument("program", nargs="?")
    for option in ("--install", "--long"):
        given.add_argument(option, action="store_true")
    given.add_argument("--only", default="")
    words = given.parse_args()
    if words.install:
        install()
    if words.program:
        os.environ["CRNT"] = str(Path(words.program).resolve())
    tally = support.Tally(is_long=words.long)
    for path in sorted(HERE.glob("test_*.py")):
        if words.only in path.stem:
            begun = time.monotonic()
            support.run(importlib.import_module(path.stem), tally)
            tally.took(path.stem, time.monotonic() - begun)
    return tally.end()


if __name__ == "__main__":
    sys.exit(main())
