#!/usr/bin/env python3
"""Tries the launcher `crnt` on a small repository with a toolchain and a program of its own, so that nothing is proved.

The `rt` there writes down each call, fails if a file says so, and copies the program to where the real one lies.
"""

import hashlib
import os
import pty
import re
import shutil
import signal
import subprocess
import sys
import tempfile
import time
from pathlib import Path

from tally import Tally

ROOT = Path(__file__).resolve().parent.parent
LIMITS = ROOT / "crates" / "crn_vec" / "src" / "limits.rt"
SECONDS = 60

RT = """#!/bin/sh
if [ "$1" = version ]; then echo version >>"$CALLS"; echo "toolchain $VERSION"; exit; fi
echo "$(basename "$PWD") $*" >>"$CALLS"
echo "what rt says"
if [ -e "$PWD/src/broken" ]; then exit 1; fi
if [ "$1" = ci ]; then
    for name in crates/*; do
        if [ -e "$name/src/broken" ]; then exit 1; fi
        case $name in
            # as rt says of what an earlier run on the machine proved
            crates/low) echo "rt: low is kept: an earlier run on this machine proved the same files over the same libraries" ;;
            *) echo "rt: $(basename "$name") proved" ;;
        esac
    done
    mkdir -p crates/crnt/out && cp "$PROGRAM" crates/crnt/out/crnt
    exit
fi
if [ "$1" = run ]; then mkdir -p out; cp "$PROGRAM" out/crnt; shift 2; exec out/crnt "$@"; fi
"""

PROGRAM = """#!/bin/sh
if [ "$STATUS" = slow ]; then sleep 2; exit; fi
case $1 in report | check | verify) ;; *) echo usage; exit 4 ;; esac
cat
if [ "$STATUS" = killed ]; then kill -9 $$; fi
if [ "$STATUS" = number ]; then echo $$; exit; fi
exit "${STATUS:-3}"
"""

# what must not run: a program beside a copied launcher, or one in the folder where somebody is
DECOY = """#!/bin/sh
echo decoy
"""

CRATES = """# the lowest first
low:
aside: low
middle: low clap # a library of the kit
crnt status=4: middle
"""

BUILD = ["version", "repository ci"]
OVER_KEPT_WORK = ["version", "low lib", "middle lib", "crnt run -- build"]


def put_script(path, text):
    path.write_text(text)
    path.chmod(0o755)


class Repository:
    """A repository in a folder of its own, with a launcher, four crates, and a toolchain in PATH."""

    def __init__(self, folder):
        self.root = folder / "a repository"
        self.calls = folder / "calls"
        self.tools = folder / "tools"
        for name in ["low", "aside", "middle", "crnt"]:
            for kind in ["src", "specs"]:
                (self.root / "crates" / name / kind).mkdir(parents=True)
            self.source(name).write_text("")
        for kind in ["specs", "proofs"]:
            (self.root / "crates" / "low" / kind).mkdir(exist_ok=True)
            (self.root / "crates" / "low" / kind / "Lib.antt").write_text("")
        (self.root / "crates.txt").write_text(CRATES)
        (self.root / "HANDLES").write_text("Handles allowed: none.\n")
        shutil.copy(ROOT / "crnt", self.root / "crnt")
        (self.root / "release").mkdir()
        for name in ["build", "crates", "sum"]:
            shutil.copy(ROOT / "release" / name, self.root / "release" / name)
        (self.root / "checks").mkdir()
        shutil.copy(ROOT / "checks" / "release", self.root / "checks" / "release")
        self.tools.mkdir()
        put_script(self.tools / "rt", RT)
        put_script(folder / "program", PROGRAM)
        self.path = f"{self.tools}:{os.environ['PATH']}"
        self.environment = dict(os.environ, CALLS=str(self.calls), PROGRAM=str(folder / "program"), PATH=self.path,
                                VERSION="1")
        self.age()

    def source(self, name):
        return self.root / "crates" / name / "src" / "lib.rt"

    def age(self):
        """All that is there becomes an hour old."""
        for path in [self.root, *self.root.rglob("*")]:
            at = path.stat().st_mtime - 3600
            os.utime(path, (at, at))

    def command(self, words, launcher):
        self.calls.write_text("")
        return [launcher or self.root / "crnt", *words]

    def called(self):
        return self.calls.read_text().splitlines()

    def run(self, words, where=None, launcher=None, **changes):
        """The status, both outputs and the calls of rt, if no stream is a terminal."""
        done = subprocess.run(self.command(words, launcher), input=b"text", capture_output=True,
                              env={**self.environment, **changes}, cwd=where or self.root, timeout=SECONDS)
        return done.returncode, done.stdout, done.stderr.decode(), self.called()

    def run_on_a_terminal(self, words, typed=None, interrupt=None, **changes):
        """The status, standard output and what the terminal shows, if standard error is a terminal. It is standard
        input too if something is typed. After this many seconds all that runs is interrupted, as by Ctrl-C."""
        ours, theirs = pty.openpty()
        stdin = subprocess.PIPE if typed is None else theirs
        child = subprocess.Popen(self.command(words, None), stdin=stdin, stdout=subprocess.PIPE, stderr=theirs,
                                 env={**self.environment, **changes}, cwd=self.root, start_new_session=True)
        os.close(theirs)
        if typed is not None:
            os.write(ours, typed)
        if interrupt is not None:
            time.sleep(interrupt)
            os.killpg(child.pid, signal.SIGINT)
        out, _ = child.communicate(None if typed is not None else b"text", timeout=SECONDS)
        shown = b""
        try:
            while piece := os.read(ours, 4096):
                shown += piece
        except OSError:  # the last holder of the other end has gone
            pass
        os.close(ours)
        return child.returncode, out, shown.decode().replace("\r\n", "\n")


def tries(repository, folder):
    yield from builds(repository, folder)
    yield from builds_again(repository)
    yield from doubts(repository, folder)
    yield from toolchains(repository, folder)
    yield from copies(repository, folder)
    yield from terminals(repository)
    yield from ships(repository, folder)
    yield from failures(repository, folder)


QUIET = (3, b"text", "", [])


def builds(repository, folder):
    status, out, err, calls = repository.run(["report"])
    yield "builds a program that is missing, the lowest crate first", calls == BUILD, calls
    yield "says how many crates are proved, and the time", \
        "3 crates are proved and a program is built, which takes half an hour to an hour" in err, err
    yield "says which crates are proved, and how many are left", \
        "crnt: low is proved, 1 to go\ncrnt: middle is proved, 0 to go\n" in err and "what rt says" not in err, err
    yield "hands on streams and status", (status, out) == (3, b"text"), (status, out)

    seen = repository.run(["report"])
    yield "is quiet if the program is up to date", seen == QUIET, seen
    seen = repository.run(["report"], where="/")
    yield "works from any folder", seen == QUIET, seen
    link = folder / "link"
    link.symlink_to(repository.root / "crnt")
    seen = repository.run(["report"], launcher=link)
    yield "works through a link", seen == QUIET, seen
    seen = repository.run(["report"], where="/", launcher="crnt", PATH=f"{repository.root}:{repository.path}")
    yield "works from the path", seen == QUIET, seen
    seen = repository.run([])
    yield "hands on an empty list of words", seen == (4, b"usage\n", "", []), seen


def builds_again(repository):
    repository.age()
    repository.source("middle").write_text("changed")
    _, _, err, calls = repository.run(["report"])
    yield "builds if a source is newer", calls == BUILD and "has changed" in err, (calls, err)
    repository.age()
    repository.source("aside").unlink()
    _, _, _, calls = repository.run(["report"])
    yield "builds if a source has gone", calls == BUILD, calls
    repository.age()
    (repository.root / "crates" / "aside" / "specs").rmdir()
    _, _, _, calls = repository.run(["report"])
    yield "builds if a folder of sources has gone", calls == BUILD, calls
    repository.age()
    (repository.root / "crates" / "aside" / "specs").mkdir()
    _, _, _, calls = repository.run(["report"])
    yield "builds if a folder of sources is new", calls == BUILD, calls
    put_script(repository.root / "crates" / "crnt" / "out" / "crnt", PROGRAM)
    _, _, _, calls = repository.run(["report"])
    yield "builds if somebody else built the program", calls == BUILD, calls
    (repository.root / "crates" / "crnt" / "out" / "built").unlink()
    _, _, _, calls = repository.run(["report"])
    yield "builds if nothing says how the program was built", calls == BUILD, calls


def ships(repository, folder):
    """The repository ships a program of its sources."""
    seen = gate_compares(repository)
    yield "the gate finds that no program is shipped", seen[0] == 1, seen
    gate_compares(repository, "--write")
    seen = gate_compares(repository)
    yield "the gate finds what was written", seen == (0, "release: 3 passed, 0 failed\n"), seen
    program = Path(repository.environment["PROGRAM"])
    was = program.read_text()
    program.write_text(f"{was}\n# other bytes\n")
    seen = gate_compares(repository)
    yield "the gate finds that another program was built", seen[0] == 1 and "checks/release --write" in seen[1], seen
    version = repository.environment["VERSION"]
    repository.environment["VERSION"] = "another"
    seen = gate_compares(repository)
    good = seen[0] == 0 and seen[1].endswith("release: 2 passed, 0 failed, 1 skipped\n") and "toolchain another" in seen[1]
    yield "the gate compares no bytes of two toolchains, and says so", good, seen
    repository.environment["VERSION"] = version
    program.write_text(was)
    repository.age()
    yield from ships_at_once(repository, folder)
    yield from ships_its_sources_alone(repository)
    yield from refusals(repository, folder)
    shutil.rmtree(repository.root / "crates" / "crnt" / "out")
    for name in [SHIPPED, "built"]:
        (repository.root / "release" / name).unlink()
    repository.run(["report"])


SHIPPED = "crnt-x86_64-linux-gnu"
AT_ONCE = (3, b"text", "", ["version"])


def gate_compares(repository, *words):
    """The status and the output of checks/release over the program that rt would have built."""
    done = subprocess.run([repository.root / "checks" / "release", *words, repository.environment["PROGRAM"]],
                          capture_output=True, env=repository.environment, timeout=SECONDS)
    return done.returncode, done.stdout.decode()


def run_fresh(repository, **changes):
    """What a run gives where nothing has been built."""
    shutil.rmtree(repository.root / "crates" / "crnt" / "out", ignore_errors=True)
    return repository.run(["report"], **changes)


def without_toolchain(folder):
    """A path with the common tools of Unix and no rt."""
    bare = folder / "common tools alone"
    if not bare.is_dir():
        bare.mkdir()
        for tool in ["awk", "cat", "chmod", "cp", "cut", "dirname", "find", "ls", "mkdir", "mv", "rm", "sed", "sha256sum", "sort",
                     "touch", "tr", "uname", "xargs"]:
            (bare / tool).symlink_to(shutil.which(tool))
    return str(bare)


def ships_at_once(repository, folder):
    """The shipped program answers with nothing built, with a toolchain and without."""
    out = repository.root / "crates" / "crnt" / "out"
    seen = run_fresh(repository)
    yield "runs the shipped program with nothing built", seen == AT_ONCE, seen
    seen = repository.run(["report"])
    yield "then runs a copy of it at once", seen == QUIET and (out / "crnt").is_file(), seen
    seen = run_fresh(repository, PATH=without_toolchain(folder))
    yield "needs no toolchain for it", seen == QUIET, seen
    seen = repository.run(["report"], PATH=without_toolchain(folder))
    yield "needs none the next time", seen == QUIET, seen
    seen = repository.run(["report"])
    yield "asks a toolchain that has come for its version", seen == AT_ONCE, seen
    shutil.rmtree(out)
    out.write_text("no folder")
    seen = repository.run(["report"])
    yield "runs it where it is if nothing can be written", seen == QUIET, seen
    out.unlink()


def ships_its_sources_alone(repository):
    """The shipped program runs as long as it and its sources are as they were."""
    for what, path, changed in [("a source", "crates/low/src/lib.rt", "changed"), ("a definition", "crates/low/specs/Lib.antt", "changed"),
                                ("a proof", "crates/low/proofs/Lib.antt", "changed"), ("a new file", "crates/low/specs/New.antt", ""),
                                ("the list of crates", "crates.txt", CRATES.replace("clap", "")), ("the handles", "HANDLES", "")]:
        file = repository.root / path
        was = file.read_text() if file.exists() else None
        file.write_text(changed)
        _, _, err, calls = run_fresh(repository)
        yield f"builds if {what} is not that of the shipped program", calls == BUILD and "from other sources" in err, (calls, err)
        seen = gate_compares(repository)
        yield f"the gate finds that {what} has changed", seen[0] == 1 and "checks/release --write" in seen[1], seen
        file.unlink()
        if was is not None:
            file.write_text(was)
        seen = run_fresh(repository)
        yield f"runs the shipped program again once {what} is as it was", seen == AT_ONCE, seen
    repository.source("aside").write_text("// no crate of the program")
    seen = run_fresh(repository)
    yield "runs it though a crate has changed that the program does not depend on", seen == AT_ONCE, seen


def refusals(repository, folder):
    """Why the shipped program may not run. With a toolchain one is built; without it the launcher says why, and what to do."""
    shipped = repository.root / "release" / SHIPPED
    built = repository.root / "release" / "built"
    was, lines = shipped.read_text(), built.read_text().splitlines()
    bare = without_toolchain(folder)

    def tool_that(name, body):
        only = folder / f"another {name}"
        only.mkdir(exist_ok=True)
        put_script(only / name, f"#!/bin/sh\n{body}\n")
        return only

    def refused(what, reason, remedy, first=None):
        """Tries it with a toolchain and without; `first` is a folder that comes first on the path."""
        path = "" if first is None else f"{first}:"
        _, _, err, calls = run_fresh(repository, PATH=path + repository.path)
        yield f"builds if {what}", calls == BUILD and reason in err, (calls, err)
        status, out, err, calls = run_fresh(repository, PATH=path + bare)
        said = f"{reason}; " in err and "its command rt is not on the path" in err
        seen = (status, out, calls, said)
        yield f"ends with 70 if {what} and there is no toolchain", seen == (70, b"", [], True), (seen, err)
        yield f"says what to do without a toolchain if {what}", f"; {remedy}" in err and "not public" in err, err

    from_git = f"in {repository.root} type: git checkout -- release"
    source = repository.source("low").read_text()
    repository.source("low").write_text("changed")
    yield from refused("the shipped program is stale", "built from other sources than those that are here",
                       f"see in {repository.root} what has changed, by git status")
    repository.source("low").write_text(source)
    arm = tool_that("uname", "echo Linux aarch64")
    yield from refused("the processor is another", "needs Linux on x86-64, and this is Linux aarch64", "run it on such a machine, or in a container", arm)
    unreadable = tool_that("sha256sum", 'echo "sha256sum: a source: Permission denied" >&2; exit 1')
    yield from refused("the sources cannot be read", "the sources or the shipped program cannot be read",
                       f"their owner makes them readable by: chmod -R a+rX '{repository.root}'", unreadable)
    shipped.chmod(0o644)
    yield from refused("the shipped program may not be executed", "may not be executed", f"allow it by: chmod +x '{shipped}'")
    shipped.unlink()
    yield from refused("the shipped program is not there", f"the shipped program, {shipped}, is not there", from_git)
    put_script(shipped, was + "# another byte\n")
    yield from refused("the shipped program is another", "not the one that release/built names", from_git)
    seen = gate_compares(repository)
    yield "the gate finds another program", seen[0] == 1 and "release/ is not" in seen[1], seen
    put_script(shipped, "#!/bin/sh\necho \"version 'GLIBC_2.34' not found\" >&2\nexit 1\n")
    sum_of = hashlib.sha256(shipped.read_bytes()).hexdigest()
    built.write_text("\n".join([lines[0], sum_of, lines[2]]) + "\n")
    reason = "needs the GNU C library 2.34 or later, and does not run here (version 'GLIBC_2.34' not found)"
    yield from refused("the C library is too old", reason, "run it on a newer system (Debian 12")
    built.write_text(lines[0] + "\n")
    yield from refused("the record of the shipped program is cut short", "release/built, the record of the program that is shipped, cannot be read", from_git)


def doubts(repository, folder):
    """Some tool that the launcher calls fails or is not there."""
    def failing(tool):
        only = folder / f"{tool} fails"
        only.mkdir(exist_ok=True)
        put_script(only / tool, "#!/bin/sh\nexit 1\n")
        return f"{only}:{repository.path}"

    status, out, _, calls = repository.run(["report"], PATH=failing("find"))
    yield "builds if find fails", (status, out, calls) == (3, b"text", BUILD), (status, out, calls)
    seen = repository.run(["report"], PATH=failing("ls"))
    yield "asks the toolchain if ls fails", seen == (3, b"text", "", ["version"]), seen
    status, out, err, calls = repository.run(["report"], launcher=folder / "link", PATH=failing("readlink"))
    yield "ends with 70 if readlink fails on a link", (status, out, calls) == (70, b"", []), (status, out, err, calls)
    seen = repository.run(["report"], PATH=failing("readlink"))
    yield "needs no readlink if there is no link", seen == QUIET, seen
    for tool in ["ls", "awk", "mktemp", "touch"]:
        repository.source("low").write_text(f"changed before {tool} fails")
        status, out, err, calls = repository.run(["report"], PATH=failing(tool))
        yield f"ends with 70 if {tool} fails at a build", (status, out) == (70, b""), (status, out, err, calls)
        status, _, _, calls = repository.run(["report"])
        yield f"builds after {tool} failed", (status, calls) == (3, BUILD), (status, calls)

    bare = folder / "find and ls alone"
    bare.mkdir()
    for tool in ["find", "ls", "cat"]:
        (bare / tool).symlink_to(shutil.which(tool))
    elsewhere = folder / "elsewhere"
    (elsewhere / "crates" / "crnt" / "out").mkdir(parents=True)
    (elsewhere / "crates.txt").write_text(CRATES)
    put_script(elsewhere / "crates" / "crnt" / "out" / "crnt", DECOY)
    seen = repository.run(["report"], where=elsewhere, PATH=str(bare))
    yield "knows its folder without dirname, and runs without a toolchain what is up to date", seen == QUIET, seen
    (bare / "find").unlink()
    status, out, err, calls = repository.run(["report"], PATH=str(bare))
    yield "ends with 70 if there is no find and no toolchain", (status, out, calls) == (70, b"", []), (status, out, calls)


def toolchains(repository, folder):
    rt = repository.tools / "rt"
    put_script(rt, RT + "# the same version from another file\n")
    seen = repository.run(["report"])
    yield "asks a toolchain of another file for its version", seen == (3, b"text", "", ["version"]), seen
    seen = repository.run(["report"])
    yield "asks it once", seen == QUIET, seen
    put_script(rt, RT)
    _, _, err, calls = repository.run(["report"], VERSION="2")
    yield "builds if the toolchain has changed", calls == ["version", *BUILD], calls
    yield "says that the toolchain has changed", "the toolchain has changed" in err, err
    seen = repository.run(["report"], VERSION="2")
    yield "runs what the new toolchain built", seen == QUIET, seen
    repository.environment["VERSION"] = "2"

    other = folder / "other tools"
    other.mkdir()
    put_script(other / "rt", "#!/bin/sh\nexit 1\n")
    status, out, err, _ = repository.run(["report"], PATH=f"{other}:{repository.path}")
    yield "ends with 70 if another toolchain says no version", (status, out) == (70, b""), (status, out, err)
    status, _, _, calls = repository.run(["report"])
    yield "builds with the first toolchain again", (status, calls) == (3, BUILD), (status, calls)


def copies(repository, folder):
    copy = folder / "a copy" / "crnt"
    (copy.parent / "crates" / "crnt" / "out").mkdir(parents=True)
    put_script(copy.parent / "crates" / "crnt" / "out" / "crnt", DECOY)
    shutil.copy(repository.root / "crnt", copy)
    status, out, err, calls = repository.run(["report"], launcher=copy)
    yield "ends with 70 if it was copied", (status, out, calls) == (70, b"", []), (status, out, calls)
    yield "says that it is a copy, and how to make a link", "is a copy" in err and "ln -s" in err, err


def terminals(repository):
    for status, hint in [(1, "Open answers"), (2, "If your text is refused"), (3, "Rejections"), (4, "crnt report < FILE"), (5, "standard input"),
                         (6, "the output"), (7, "memory"), (8, "arguments")]:
        seen = repository.run_on_a_terminal(["report"], STATUS=str(status))
        good = seen[:2] == (status, b"text") and seen[2].count("\n") == 1 and hint in seen[2]
        yield f"explains the status {status} at a terminal in one line", good, seen
        seen = repository.run(["report"], STATUS=str(status))
        yield f"says nothing of the status {status} if there is no terminal", seen == (status, b"text", "", []), seen
    for words, status in [("report", "1"), ("report", "2"), ("check", "3"), ("verify persist", "3")]:
        _, _, shown = repository.run_on_a_terminal(words.split(), STATUS=status)
        found = re.search(r'/(docs/.*), "(.*)"$', shown.strip())
        there = found and f"## {found[2]}\n" in (ROOT / found[1]).read_text("utf-8")
        is_own = found and (found[2] == "Parts") == words.startswith("verify")
        yield f"names a section that is there for the status {status} of {words}", there and is_own, shown
    seen = repository.run_on_a_terminal(["report"], STATUS="0")
    yield "says nothing of the status 0 at a terminal", seen == (0, b"text", ""), seen
    status, out, shown = repository.run_on_a_terminal([])
    yield "says at a terminal what to type instead of no words", (status, out) == (4, b"usage\n") and "report < FILE" in shown, \
        (status, out, shown)

    for words in [["report"], ["report", "--budget", "5"], ["--budget=5", "report"], ["prove", "persist"], ["prove", "--budget", "5", "persist"],
                  ["prove", "persist", "--budget=5"], ["--budget=5", "prove", "persist"], ["verify", "persist"]]:
        status, out, shown = repository.run_on_a_terminal(words, typed=b"A -> B\n\x04")
        yield f"says how to end what is typed: {words}", "Ctrl-D" in shown, shown
    status, out, shown = repository.run_on_a_terminal(["report"], typed=b"A -> B\n\x04")
    yield "hands on what is typed", (status, out) == (3, b"A -> B\n"), (status, out, shown)
    for words in [[], ["report", "file"], ["--help"], ["prove"], ["verify", "persist", "--budget", "5"], ["prove", "persist", "file"]]:
        _, _, shown = repository.run_on_a_terminal(words, typed=b"\x04")
        yield f"says nothing of typing if nothing is read: {words}", "Ctrl-D" not in shown, shown

    yield from searches(repository)

    environment = {**repository.environment, "STATUS": "number"}
    with subprocess.Popen(repository.command(["report"], None), stdin=subprocess.DEVNULL, stdout=subprocess.PIPE,
                          stderr=subprocess.PIPE, env=environment) as child:
        seen = child.communicate(timeout=SECONDS)
    yield "gives its place to the program if there is no terminal", seen == (b"%d\n" % child.pid, b""), seen
    for seen in [repository.run_on_a_terminal(["report"], STATUS="killed"), repository.run(["report"], STATUS="killed")]:
        yield "ends by the signal that ends the program", seen[0] == -9, seen
    repository.source("low").write_text("changed for the terminal")
    status, out, shown = repository.run_on_a_terminal(["report"])
    yield "builds at a terminal too", (status, out, repository.called()) == (3, b"text", BUILD), (status, out, shown)


def searches(repository):
    """What is said while a search goes on."""
    [default] = re.findall(r"DEFAULT_BUDGET: u32 = ([\d_]+);", LIMITS.read_text("utf-8"))
    for words, budget in [(["report"], default.replace("_", "")), (["certify", "--budget", "7"], "7"), (["--budget=30", "report"], "30"),
                          (["prove", "--budget", "8", "persist"], "8")]:
        status, out, shown = repository.run_on_a_terminal(words, STATUS="slow")
        err = f"crnt: still at work; each search makes at most {budget} visits (another number: --budget N)\n"
        yield f"says at a terminal that a search goes on: {words}", (status, out, shown) == (0, b"", err), shown
    for words in [["check"], ["verify", "persist"], ["report", "file"]]:
        _, _, shown = repository.run_on_a_terminal(words, STATUS="slow")
        yield f"says of no budget if there is none: {words}", "still at work" not in shown, shown
    _, _, shown = repository.run_on_a_terminal(["report"], typed=b"", STATUS="slow")
    yield "says of no budget if a text is typed", "still at work" not in shown, shown
    seen = repository.run(["report"], STATUS="slow")
    yield "says nothing of a search if there is no terminal", seen == (0, b"", "", []), seen
    seen = repository.run_on_a_terminal(["report"], interrupt=0.5, STATUS="slow")
    yield "says nothing of a search that is interrupted", (seen[0], seen[2]) == (-2, ""), seen


def failures(repository, folder):
    repository.age()
    repository.source("low").write_text("changed")
    broken = repository.root / "crates" / "middle" / "src" / "broken"
    kept = repository.root / "crates" / "low" / "out" / "incremental"
    for is_kept, wanted, said in [(False, BUILD, "was not built"), (True, OVER_KEPT_WORK, "middle was not proved")]:
        if is_kept:
            kept.mkdir(parents=True)
            repository.source("low").write_text("changed over kept work")
        broken.write_text("")
        status, out, err, calls = repository.run(["report"])
        yield "ends with 70 if a crate is not proved", (status, out, calls) == (70, b"", wanted[:3]), (status, out, calls)
        yield "shows the log of what failed", said in err and "what rt says" in err, err
        broken.unlink()
        status, _, err, calls = repository.run(["report"])
        yield "tries again after a failure", (status, calls) == (3, wanted), (status, calls)
    yield "says which crate is being proved over kept work", "crnt: proving middle (2 of 3)" in err, err
    shutil.rmtree(kept)

    shutil.rmtree(repository.root / "crates" / "crnt" / "out")
    bare = folder / "bare"
    bare.mkdir()
    status, out, err, _ = repository.run(["report"], PATH=str(bare))
    yield "ends with 70 if there is no program and no toolchain", \
        (status, out) == (70, b"") and "rt is not on the path" in err, (status, err)
    done = subprocess.run([repository.root / "release" / "build"], capture_output=True, timeout=SECONDS,
                          env={**repository.environment, "PATH": without_toolchain(folder)})
    yield "release/build ends with 70 if there is no toolchain", \
        (done.returncode, done.stdout) == (70, b"") and b"rt is not on the path" in done.stderr, done
    (repository.root / "crates.txt").write_text("low:\n")
    status, out, err, calls = repository.run(["report"])
    yield "ends with 70 if crates.txt has no crnt", (status, out, calls) == (70, b"", []), (status, err, calls)


def main():
    # A shell that starts this in the background has it ignore the signal, and what it runs would ignore it too.
    signal.signal(signal.SIGINT, signal.default_int_handler)
    tally = Tally("launcher")
    with tempfile.TemporaryDirectory() as name:
        folder = Path(name)
        for name, good, seen in tries(Repository(folder), folder):
            tally.count(name, good, seen)
    return tally.end()


if __name__ == "__main__":
    sys.exit(main())
