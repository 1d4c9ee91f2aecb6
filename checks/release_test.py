#!/usr/bin/env python3
"""Packs, installs and removes a release of a program.

    checks/release_test.py PROGRAM

The files that are here are committed in a folder of their own with this program, so neither a commit nor a clone of this
repository is needed.
"""

import hashlib
import os
import re
import shutil
import subprocess
import sys
import tarfile
import tempfile
from pathlib import Path

import prove
from documents import LINK
from tally import Tally

ROOT = Path(__file__).resolve().parent.parent
PROGRAM = "release/crnt-x86_64-linux-gnu"
SOURCE = "crates/crnt/src/main.rt"
PACKED = ["README.md", "CHANGELOG.md", "LICENSE-MIT", "LICENSE-APACHE", "benches", "companions", "docs", "examples", "page", "release"]
LIBRARIES = ["/lib64/ld-linux-x86-64.so.2", "/lib/x86_64-linux-gnu/libc.so.6"]
NETWORK = "examples/networks/two_site_futile_cycle"
TIME = 1_700_000_000
NOBODY = 65_534
SECONDS = 120


def done(words, folder, text=b"", **how):
    """The status and what was written, or none and why nothing ran."""
    try:
        ended = subprocess.run(words, cwd=folder, input=text, stdout=subprocess.PIPE, stderr=subprocess.STDOUT, timeout=SECONDS, **how)
    except OSError as error:
        return None, str(error)
    return ended.returncode, ended.stdout.decode(errors="replace")


def as_a_user(home):
    """How to run as somebody whose home this is, and who is not root."""
    how = {"env": {"HOME": str(home), "PATH": os.environ["PATH"]}}
    return {**how, "user": NOBODY, "group": NOBODY, "extra_groups": []} if os.geteuid() == 0 else how


def commit(folder, program):
    """A repository in this folder of the documents that are here, with this program and one source, committed at one time."""
    for name in PACKED:
        if (ROOT / name).is_dir():
            shutil.copytree(ROOT / name, folder / name, ignore=shutil.ignore_patterns("__pycache__"))
        else:
            shutil.copy(ROOT / name, folder / name)
    shutil.copy(program, folder / PROGRAM)
    source = folder / SOURCE
    source.parent.mkdir(parents=True)
    source.write_text("")
    (folder / "crates.txt").write_text("crnt:\n")
    (folder / "HANDLES").write_text("")
    _, of_sources = done([folder / "release" / "sum"], folder)
    of_program = hashlib.sha256(Path(program).read_bytes()).hexdigest()
    (folder / "release" / "built").write_text(f"{of_sources.strip()}\n{of_program}\nthe toolchain\n")
    done(["git", "init", "-q"], folder)
    commit_all(folder, "A release")


def commit_all(folder, message):
    at = f"{TIME} +0000"
    how = {"env": {**os.environ, "GIT_AUTHOR_DATE": at, "GIT_COMMITTER_DATE": at}}
    git = ["git", "-c", "user.name=crnt", "-c", "user.email=crnt", "-c", "commit.gpgsign=false"]
    for words in [["git", "add", "-A", "-f"], [*git, "commit", "-q", "-m", message]]:
        status, said = done(words, folder, **how)
        assert status == 0, said


def packs(folder, program):
    """The same commit gives the same bytes, wherever and whenever it is packed; what is not committed is not packed."""
    first, second = folder / "first", folder / "a second clone"
    first.mkdir()
    commit(first, program)
    done(["git", "clone", "-q", str(first), str(second)], folder)
    (second / "README.md").write_text("not committed")
    written = []
    for clone, mask in [(first, 0o022), (second, 0o077)]:
        into = folder / f"from {clone.name}"
        into.mkdir()
        status, said = done([clone / "release" / "make", str(into)], folder, umask=mask)
        yield f"release/make packs, from the folder {clone.name!r}", status == 0, said
        written.append([it for it in into.iterdir()])
    archives = [it.read_bytes() for [it] in written]
    yield "the same commit gives the same bytes", archives[0] == archives[1], list(map(len, archives))
    yield "no time or name is in the gzip header", archives[0][3:8] == b"\0\0\0\0\0", archives[0][:10]
    yield from entries(written[0][0])
    for changed, what, reason in [(SOURCE, "a program of other sources", "not of the sources of this commit"),
                                  (PROGRAM, "a program that release/built does not name", "is not the one")]:
        was = (first / changed).read_bytes()
        (first / changed).write_bytes(b"another")
        commit_all(first, "Another")
        status, said = done([first / "release" / "make", str(folder)], folder)
        yield f"release/make refuses {what}", status == 1 and reason in said, said
        (first / changed).write_bytes(was)


def entries(archive):
    with tarfile.open(archive) as packed:
        found = packed.getmembers()
    names = [it.name for it in found]
    yield "the names are sorted", names == sorted(names), names
    [top] = {name.split("/")[0] for name in names}
    yield "all is in one folder, of the archive's name", archive.name == f"{top}.tar.gz", top
    ids = {(it.uid, it.gid, it.uname, it.gname, it.mtime) for it in found}
    yield "owner and time are fixed", ids == {(0, 0, "", "", TIME)}, ids
    modes = {(it.isdir(), it.mode) for it in found}
    yield "everybody may read all, and its owner alone may write", modes <= {(True, 0o755), (False, 0o755), (False, 0o644)}, modes
    wanted = ["bin/crnt", "share/man/man1/crnt.1", "share/bash-completion/completions/crnt", "share/zsh/site-functions/_crnt",
              "share/fish/vendor_completions.d/crnt.fish", "install.sh", "LICENSE-MIT", "LICENSE-APACHE", "SHA256SUMS"]
    missing = [it for it in wanted if f"{top}/{it}" not in names]
    yield "the program, the manual page, completions and licences are there", not missing, missing


def unpacked(archive, folder):
    folder.mkdir()
    with tarfile.open(archive) as packed:
        packed.extractall(folder)
    [top] = folder.iterdir()
    for path in [folder, *folder.rglob("*")]:
        if os.geteuid() == 0:
            os.chown(path, NOBODY, NOBODY)
    return top


def installs(folder, archive):
    """As a new user does: unpack, install below the home, run, remove."""
    home = folder / "home"
    top = unpacked(archive, home)
    prefix = home / ".local"
    how = as_a_user(home)
    status, said = done(["./install.sh"], top, **how)
    yield "installs below ~/.local", status == 0 and f"installed: {prefix}/bin/crnt" in said, said
    yield "says that the program is not on the path, and what to type", "is not on your path" in said and "to remove it" in said, said
    seen = done([prefix / "bin/crnt", "report"], "/", (ROOT / f"{NETWORK}.crn").read_bytes(), **how)
    yield "the installed program reports", seen == (0, (ROOT / f"{NETWORK}.report").read_text()), seen
    shown = [line for line in said.splitlines() if line.startswith("to try it: ")]
    status, out = done(["sh", "-c", "".join(shown).removeprefix("to try it: ")], "/", **how)
    yield "what it says to try works", status == 0 and out.startswith("crn report 1\n"), out
    yield "says how zsh finds its completions", f"fpath=({prefix}/share/zsh/site-functions $fpath)" in said, said
    yield from completes(prefix / "share/bash-completion/completions/crnt")
    yield from links_lead_somewhere(prefix / "share/doc/crnt", (prefix / "share/man/man1/crnt.1").read_text())
    yield from has_companions(prefix, how)
    (prefix / "bin").mkdir(parents=True, exist_ok=True)
    (prefix / "bin" / "of another").write_text("")
    was = sorted(prefix.rglob("*"))
    yield from installs_over(prefix, top, how)
    seen = sorted(prefix.rglob("*"))
    yield "installs over an older version with nothing of it left", seen == was, set(seen) ^ set(was)
    status, said = done([prefix / "share/doc/crnt/uninstall.sh"], "/", **how)
    left = sorted(str(it.relative_to(prefix)) for it in prefix.rglob("*"))
    yield "removes all that it installed, and nothing else", (status, left) == (0, ["bin", "bin/of another"]), (status, said, left)
    seen = done([top / "install.sh", "below here"], home, **how)
    there = home / "below here"
    yield "takes a relative folder from where one is", seen[0] == 0 and (there / "bin/crnt").is_file(), seen
    seen = done([there / "share/doc/crnt/uninstall.sh"], "/", **how)
    yield "and removes it again", seen[0] == 0 and not list(there.iterdir()), seen
    yield from refuses_to_install(folder, archive)


def installs_over(prefix, top, how):
    """Installs over a version that has more files."""
    documents = prefix / "share/doc/crnt"
    for name in ["docs/OLD.md", "old folder/OLD.md"]:
        done(["sh", "-ec", 'mkdir -p "${1%/*}"; : >"$1"; echo "share/doc/crnt/$1" >>installed', "sh", name], documents, **how)
    again = done(["./install.sh", str(prefix)], top, **how)
    yield "installs again", again[0] == 0, again
    listed = (documents / "installed").read_text().splitlines()
    there = sorted(str(it.relative_to(prefix)) for it in prefix.rglob("*") if it.is_file() and it.name != "of another" and it.suffix != ".pyc")
    yield "lists what it installed, each file once", sorted(listed) == there, set(listed) ^ set(there)


def has_companions(prefix, how):
    """The companions that README calls, with the installed program."""
    environment = {**how["env"], "PATH": f"{prefix}/bin:{how['env']['PATH']}"}
    seen = done(["companions/crnt-tools", "explain"], prefix / "share/doc/crnt", b"A -> B\n", **{**how, "env": environment})
    yield "crnt-tools finds the installed program", seen[0] == 0 and "weakly reversible" in seen[1], seen


def refuses_to_install(folder, archive):
    home = folder / "another home"
    top = unpacked(archive, home)
    how = as_a_user(home)
    blocked = home / "a file"
    blocked.write_text("")
    status, said = done(["./install.sh", str(blocked / "below")], top, **how)
    yield "refuses a folder that cannot be made", status == 1 and "name another folder" in said, said
    program = top / "bin/crnt"
    was = program.read_bytes()
    program.write_bytes(was + b"\0")
    status, said = done(["./install.sh"], top, **how)
    yield "refuses a file that is not as it was packed", status == 1 and "unpack the archive again" in said, said
    program.write_text("#!/bin/sh\necho \"version 'GLIBC_2.34' not found\"\nexit 1\n")
    sums = top / "SHA256SUMS"
    sums.write_text(sums.read_text().replace(hashlib.sha256(was).hexdigest(), hashlib.sha256(program.read_bytes()).hexdigest()))
    status, said = done(["./install.sh"], top, **how)
    yield "refuses where the program does not run", status == 1 and "2.34 or later" in said and "GLIBC_2.34" in said, said
    yield "leaves nothing where it refuses", not (home / ".local").exists(), list(home.iterdir())


def completes(file):
    """What bash completes after some words."""
    parts = " ".join(prove.PARTS)
    ask = 'source "$1"; shift; COMP_WORDS=("$@"); COMP_CWORD=$(($# - 1)); _crnt; echo "${COMPREPLY[*]}"'
    for words, wanted in [(["crnt", ""], "report certify check sample prove verify --budget"), (["crnt", "c"], "certify check"),
                          (["crnt", "prove", ""], f"{parts} --budget"), (["crnt", "verify", ""], parts),
                          *((["crnt", "prove", part, ""], "--budget") for part in prove.PARTS), (["crnt", "verify", "persist", ""], ""),
                          (["crnt", "report", ""], "--budget"), (["crnt", "check", ""], ""), (["crnt", "report", "--budget", ""], "")]:
        seen = done(["bash", "-c", ask, "bash", str(file), *words], "/")
        yield f"bash completes {words}", seen == (0, f"{wanted}\n"), seen


def links_lead_somewhere(documents, page):
    """What the documents and the manual page name is there."""
    lost = [(str(document.relative_to(documents)), target) for document in sorted(documents.rglob("*.md"))
            for target in LINK.findall(document.read_text()) if not (document.parent / target).exists()]
    yield "each link of a document that is installed leads somewhere", not lost, lost
    named = set(re.findall(r"^\.IR? ((?:docs|examples)/[\w./]*\w)", page, re.MULTILINE))
    lost = [name for name in named if not (documents / name).exists()]
    yield "what the manual page names is installed", named and not lost, lost or named
    [codes] = re.findall(r"^whose codes are in\n\.IR (\S+) \.$", page, re.MULTILINE)
    yield "the manual page says where the codes of rejections are", "## Rejections\n" in (documents / codes).read_text(), codes
    for name in ["docs/pictures", "docs/conclusions.json", "LICENSE-MIT", "LICENSE-APACHE"]:
        yield f"{name} is installed", (documents / name).exists(), name


def needs_the_c_library_alone(folder, program):
    """In an empty root with the loader and the C library, and nothing else."""
    root = folder / "empty root"
    for name in LIBRARIES:
        (root / name[1:]).parent.mkdir(parents=True, exist_ok=True)
        shutil.copy(name, root / name[1:])
    (root / "bin").mkdir()
    shutil.copy(program, root / "bin/crnt")
    enter = ["chroot"] if os.geteuid() == 0 else ["unshare", "--map-root-user", "chroot"]
    text, report = (ROOT / f"{NETWORK}.crn").read_bytes(), (ROOT / f"{NETWORK}.report").read_text()
    seen = done([*enter, str(root), "/bin/crnt", "report"], "/", text)
    yield "reports in a root with the C library alone", seen == (0, report), seen
    status, certificate = done([*enter, str(root), "/bin/crnt", "certify"], "/", text)
    seen = done([*enter, str(root), "/bin/crnt", "check"], "/", certificate.encode())
    yield "checks its certificate there", (status, seen) == (0, (0, report)), seen


def words_are_one_table(program):
    seen = done([ROOT / "release/words.py"], "/")
    yield "docs/crnt.1 is as release/words says", seen == (0, ""), seen
    heads = [block.split("\n")[0].split() for block in (ROOT / "release/words").read_text().split("\n\n")[1:]]
    commands = [head[:2] for head in heads if len(head) == 4]
    named = " | ".join(name if operand == "-" else f"{name} {operand}" for name, operand in commands)
    seen = done([program], "/")
    yield "the program's usage line names the commands of release/words", seen[0] == 4 and f" {named}, with " in seen[1], (named, seen)


def tries(folder, program):
    yield from words_are_one_table(program)
    yield from packs(folder, program)
    archives = list((folder / "from first").iterdir())
    if archives:
        yield from installs(folder, archives[0])
    yield from needs_the_c_library_alone(folder, program)


def main():
    tally = Tally("release, packed")
    with tempfile.TemporaryDirectory(prefix="crnt-release-") as name:
        folder = Path(name)
        folder.chmod(0o755)
        for name, good, seen in tries(folder, Path(sys.argv[1]).resolve()):
            tally.count(name, good, seen)
    return tally.end()


if __name__ == "__main__":
    sys.exit(main())
