"""docs/RECIPES.md and companions/README.md: what they show is run as it is written there."""

import contextlib
import csv
import os
import re
import shutil
import socket
import subprocess
import sys
import time
from pathlib import Path

import crnt_tools as ct
import support

RECIPES = (support.ROOT / "docs" / "RECIPES.md").read_text("utf-8")
README = (support.COMPANIONS / "README.md").read_text("utf-8")
MODEL = support.COMPANIONS / "examples" / "edelstein.xml"


def section(document, title):
    return document.split(f"\n## {title}\n")[1].split("\n## ")[0]


def blocks(title, language="sh"):
    return support.blocks(section(RECIPES, title), language)


def needs(*tools):
    for tool in tools:
        if not shutil.which(tool, path=f"{os.environ['PATH']}:/usr/sbin:/sbin"):
            raise support.Skipped(f"{tool} is not there")


@contextlib.contextmanager
def desk(most=None):
    """A folder with networks, all examples or fewer, the model, and `crnt` and `crnt-tools` on the path."""
    with support.folder() as name:
        folder = Path(name)
        (folder / "bin").mkdir()
        (folder / "bin/crnt").symlink_to(Path(ct.find()).resolve())
        tools = f'#!/bin/sh\nexec "{sys.executable}" -m crnt_tools "$@"\n'
        (folder / "bin/crnt-tools").write_text(tools)
        (folder / "bin/crnt-tools").chmod(0o755)
        (folder / "networks").mkdir()
        for path in support.examples()[:most]:
            shutil.copy(path, folder / "networks")
        (folder / "networks/refused.crn").write_text("A => B\n")
        (folder / "networks/open.crn").write_text("".join(f"X{k} -> 99X{k + 1}\n" for k in range(1, 11)))
        shutil.copy(MODEL, folder)
        shutil.copy(support.NETWORKS / "edelstein.crn", folder)
        yield folder


def shell(script, folder, **more):
    environment = {**os.environ, "PATH": f"{folder}/bin:{os.environ['PATH']}", "CRNT": ct.find(), **more}
    done = subprocess.run(["bash", "-c", script], cwd=folder, env=environment, capture_output=True, timeout=600)
    return done.returncode, done.stdout.decode(), done.stderr.decode()


def reports_are_right(folder, place):
    """The reports that a recipe made are those of the networks."""
    for path in sorted((folder / "networks").glob("*.crn")):
        made = (folder / place.format(path.stem)).read_text("ascii")
        wanted = "refused 18 StrayMark at line 1\n" if path.stem == "refused" else str(ct.report(path.read_bytes()))
        yield f"{place.format(path.stem)}", made == wanted, made[:80]


def test_table():
    with desk() as folder:
        [script] = [it for it in blocks("Many networks on one machine") if "crnt-tools table" in it]
        status, _, err = shell(script, folder)
        whole = (folder / "verdicts.csv").read_bytes()
        yield "the table", status == 2 and whole.count(b"\n") == len(support.examples()) + 3, err
        (folder / "verdicts.csv").write_bytes(whole[: len(whole) // 2])
        shell(script, folder)
        yield "it goes on", (folder / "verdicts.csv").read_bytes() == whole


def test_parallel():
    needs("parallel")
    with desk() as folder:
        listing, *scripts = [it for it in blocks("Many networks on one machine") if "crnt-tools" not in it]
        shell(listing, folder)
        status, _, err = shell(scripts[0], folder)
        yield "as many as are not 0", status == 2, status, err
        yield from reports_are_right(folder, "reports/{}.report")
        _, out, _ = shell(scripts[1], folder)
        yield "the refused ones", out == "crnt report < networks/refused.crn > reports/refused.report\n", out
        add_network(folder)
        before = (folder / "reports.log").read_text().count("\n")
        (folder / "reports/triangle.report").write_text("kept\n")
        shell(scripts[0], folder)
        yield "it goes on", (folder / "reports.log").read_text().count("\n") == before + 1
        yield "what is done is not done again", (folder / "reports/triangle.report").read_text() == "kept\n"
        yield "the new one is done", (folder / "reports/new.report").is_file()


def add_network(folder):
    """One network more, at the end of the list."""
    (folder / "networks/new.crn").write_text("A <-> B\n")
    with open(folder / "networks.txt", "a") as listed:
        listed.write("networks/new.crn\n")


#: What stands for ssh: the command runs in a network namespace and a home of its own, with the shell and the home of
#: whom it runs as in its environment, whatever the caller has there. What each host is told to do is kept in a log.
HOST = """\
#!/bin/sh
while :; do case $1 in -[BbcDEeFIiJLlmOopQRSWw]) shift 2 ;; -*) shift ;; *) break ;; esac; done
host=$1; shift
[ "$1" = -- ] && shift
export home="{folder}/$host" command="$*" HOME=~root SHELL=/bin/sh
printf '%s\\n' "$command" >> "$home.log"
{lost}
exec unshare -mn sh -c 'mount --bind "$home" "$HOME" && cd && unset home && exec sh -c "$command"'
"""
HOSTS = ("alpha", "beta")


def make_hosts(folder, lost=""):
    """Two hosts on this machine, which `ssh alpha` and `ssh beta` reach. `lost` is shell that may end a call before."""
    needs("rsync", "unshare")
    if os.geteuid() or subprocess.run(["unshare", "-mn", "true"], capture_output=True).returncode:
        raise support.Skipped("only root can have hosts on one machine, by unshare")
    for host in HOSTS:
        (folder / host).mkdir(exist_ok=True)
    (folder / "bin/ssh").write_text(HOST.format(folder=folder, lost=lost))
    (folder / "bin/ssh").chmod(0o755)


def logged(folder):
    """The lines of the log of GNU parallel, in cells: the second is the host and the seventh the status."""
    return [line.split("\t") for line in (folder / "hosts.log").read_text().splitlines()[1:]]


def removal_is_whole(removal, folder):
    """The last command leaves nothing on a host, and before it nothing was taken away there."""
    told = "".join((folder / f"{host}.log").read_text() for host in HOSTS)
    yield "no call takes away what others need", "rmdir" not in told and "rm -" not in told
    yield "the folder is there", all((folder / host / "crnt-work").is_dir() for host in HOSTS)
    yield "it is taken away", (removed := shell(removal, folder))[0] == 0, removed
    left = [str(path) for host in HOSTS for path in (folder / host).rglob("*")]
    yield "nothing is left there", not left, left[:3]


def test_several_hosts():
    needs("parallel")
    with desk(8) as folder:
        make_hosts(folder)
        script, missing, removal = blocks("Over several hosts")
        shell("ls networks/*.crn > networks.txt", folder)
        status, _, err = shell(script, folder)
        yield "as many as are not 0", status == 2, status, err[-500:]
        log = logged(folder)
        yield "both hosts worked", {line[1] for line in log} == set(HOSTS), log
        yield "the statuses", sorted(line[6] for line in log) == ["0"] * 8 + ["1", "2"], log
        yield from reports_are_right(folder, "networks/{}.report")
        add_network(folder)
        shell(script, folder)
        yield "it goes on", len(logged(folder)) == len(log) + 1, logged(folder)
        _, out, err = shell(f"rm crnt-program; crnt() {{ echo called; }}; {missing}", folder)
        yield "none is missing", not out + err, out, err
        yield from reports_are_right(folder, "networks/{}.report")
        yield from removal_is_whole(removal, folder)


def test_lost_host():
    """A host that is lost in between: other calls make what it did not."""
    needs("parallel")
    for when, lost, statuses in (
        ("before the first call", '[ $host = beta ] && [ -e "$home/crnt-work/crnt-program" ] && exit 255', {"255"}),
        ("before a report is back", 'case "$host $command" in "beta "*--sender*) exit 255 ;; esac', {"0", "1", "2"}),
    ):
        with desk(8) as folder:
            make_hosts(folder, lost)
            script, missing, removal = blocks("Over several hosts")
            shell("ls networks/*.crn > networks.txt", folder)
            shell(script, folder)
            of_beta = [line for line in logged(folder) if line[1] == "beta"]
            yield f"{when}: the log", of_beta and {line[6] for line in of_beta} <= statuses, logged(folder)
            made = len(list((folder / "networks").glob("*.report")))
            yield f"{when}: what beta had is missing", made == 10 - len(of_beta), made, len(of_beta)
            again = script.replace("4/alpha,4/beta", "4/alpha").replace("--resume ", "--resume-failed ")
            status, _, err = shell(again, folder)
            yield f"{when}: as many as are not 0", status == 2, status, err[-300:]
            hosts = {line[1] for line in logged(folder)[10:]}
            yield f"{when}: alpha makes the failed ones again", hosts == {"alpha"}, logged(folder)
            lacking = 10 - len(list((folder / "networks").glob("*.report")))
            yield f"{when}: what the log knows", lacking == [line[6] for line in of_beta].count("0"), lacking, logged(folder)
            shell(missing, folder)
            yield from reports_are_right(folder, "networks/{}.report")
            make_hosts(folder)
            yield from removal_is_whole(removal, folder)


def test_slurm_array():
    """The script of the array, each task as Slurm would start it."""
    with desk() as folder:
        [script], [join] = blocks("A Slurm array", "slurm"), blocks("A Slurm array")
        shell("ls networks/*.crn > networks.txt", folder)
        tasks = re.search(r"--array=0-(\d+)", script)
        yield "what Slurm is told", tasks and all(line.startswith("#SBATCH --") for line in script.splitlines()[1:6])
        count = int(tasks[1]) + 1
        statuses = {shell(script, folder, SLURM_ARRAY_TASK_COUNT=str(count), SLURM_ARRAY_TASK_ID=str(task),
                          SLURM_CPUS_PER_TASK="2")[0] for task in range(count)}
        yield "the statuses", statuses == {0, 1, 2}, statuses
        shell(join, folder)
        with open(folder / "verdicts.csv", newline="") as table:
            made = list(csv.reader(table))
        shell("crnt-tools table networks/*.crn -o all.csv", folder)
        with open(folder / "all.csv", newline="") as table:
            wanted = list(csv.reader(table))
        yield "the tables are one", made[0] == wanted[0] and sorted(made[1:]) == sorted(wanted[1:]), len(made), len(wanted)


SLURM = """\
ClusterName=test
SlurmctldHost={host}
SlurmUser=root
AuthType=auth/munge
AuthInfo=socket={folder}/munge.socket
StateSaveLocation={folder}/state
SlurmdSpoolDir={folder}/spool
SlurmctldPidFile={folder}/slurmctld.pid
SlurmdPidFile={folder}/slurmd.pid
SlurmctldPort={ports[0]}
SlurmdPort={ports[1]}
ProctrackType=proctrack/pgid
TaskPlugin=task/none
SelectType=select/cons_tres
SelectTypeParameters=CR_CPU
MpiDefault=none
ReturnToService=2
SlurmdParameters=config_overrides
AccountingStorageType=accounting_storage/none
NodeName={host} CPUs=8 RealMemory=500 State=UNKNOWN
PartitionName=all Nodes=ALL Default=YES MaxTime=INFINITE State=UP
"""


@contextlib.contextmanager
def cluster(folder):
    """A Slurm of one node, this machine; the settings that tell its commands where it is."""
    needs("slurmctld", "slurmd", "munged", "sbatch")
    if os.geteuid():
        raise support.Skipped("only root can start slurmctld")
    folder.chmod(0o755)
    for name in ("state", "spool"):
        (folder / name).mkdir()
    key = folder / "munge.key"
    key.write_bytes(os.urandom(128))
    key.chmod(0o600)
    host = socket.gethostname().split(".")[0]
    (folder / "slurm.conf").write_text(SLURM.format(host=host, folder=folder, ports=[free_port(), free_port()]))
    settings = {**os.environ, "SLURM_CONF": str(folder / "slurm.conf")}
    running, quiet = [], {"stdout": subprocess.DEVNULL, "stderr": subprocess.DEVNULL, "env": settings}
    munge = [f"--{what}={folder}/munge.{what.split('-')[0]}" for what in ("key-file", "socket", "pid-file", "log-file", "seed-file")]
    try:
        for words in (["munged", "--foreground", "--force", *munge], ["slurmctld", "-D"], ["slurmd", "-D"]):
            running.append(subprocess.Popen([shutil.which(words[0], path="/usr/sbin:/usr/bin"), *words[1:]], **quiet))
            time.sleep(1)
        for _ in range(40):
            state = subprocess.run(["sinfo", "-h", "-o", "%t"], capture_output=True, env=settings, timeout=30)
            if state.stdout.strip() in (b"idle", b"mix"):
                break
            time.sleep(0.5)
        else:
            raise support.Skipped(f"no Slurm of one node could be started: {state.stderr.decode()[:100]}")
        yield str(folder / "slurm.conf")
    finally:
        for process in reversed(running):
            process.terminate()
            process.wait()


def free_port():
    with socket.socket() as free:
        free.bind(("127.0.0.1", 0))
        return free.getsockname()[1]


def test_slurm_itself():
    """The array under a Slurm of one node."""
    with desk() as folder, cluster(folder) as conf:
        [script] = blocks("A Slurm array", "slurm")
        (folder / "verdicts.slurm").write_text(script)
        shell("ls networks/*.crn > networks.txt", folder)
        status, out, err = shell("sbatch --wait verdicts.slurm", folder, SLURM_CONF=conf)
        shell(blocks("A Slurm array")[0], folder)
        yield "the table", (folder / "verdicts.csv").read_text().count("\n") == len(support.examples()) + 3, out, err


def test_walk():
    """From SBML to a conclusion: each command is run, and what is shown is what it writes."""
    part = section(RECIPES, "From SBML to a conclusion")
    try:
        import libsbml  # noqa: F401
    except ImportError:
        raise support.Skipped("libsbml (Debian: python3-sbml5) is not there") from None
    with desk() as folder:
        (folder / "edelstein.crn").unlink()
        found = re.findall(r"^```(sh)?\n(.*?)^```", part, re.MULTILINE | re.DOTALL)
        yield "commands and outputs", len(found) > 6
        out = ""
        for language, text in found:
            if language:
                status, out, err = shell(f"set -e -o pipefail; {text}", folder)
                yield text.splitlines()[0], status == 0, err
            else:
                yield f"what is shown, {text[:30]!r}", out == text, out
        page = (folder / "edelstein.html").read_text("utf-8")
        yield "the page", "two positive steady states for" in page and "crn report 1" in page
        network = ct.Network.of_text((support.NETWORKS / "edelstein.crn").read_text("utf-8"))
        yield "it is the network of the examples", str(ct.Network.of_text((folder / "edelstein.crn").read_text())) == str(network)


def test_order():
    with desk() as folder:
        [script] = blocks("If a search does not end")
        yield "the command", shell(script, folder)[0] == 0 and (folder / "ordered.crn").is_file()


def call_from(language, suffix, run):
    with desk() as folder:
        [code] = support.blocks(RECIPES, language)
        (folder / f"deficiency.{suffix}").write_text(code)
        (folder / "bad.crn").write_text("A => B\n")
        for file, wanted in (("edelstein.crn", (0, "Q6 deficiency: 1, classes 0 0\n")), ("networks/open.crn", (1, "open")),
                             ("bad.crn", (2, "refused 18 StrayMark at line 1\n"))):
            status, out, err = shell(run.format(file=file), folder)
            yield file, status == wanted[0] and (out == wanted[1] or wanted[1] == "open" and "Q6 deficiency: open" in out), out, err


def test_c():
    needs("gcc")
    yield from call_from("c", "c", "gcc -Wall -Wextra -Werror -o deficiency deficiency.c && ./deficiency < {file}")


def test_r():
    needs("Rscript")
    yield from call_from("r", "R", "Rscript deficiency.R {file}")


def test_julia():
    needs("julia")
    yield from call_from("julia", "jl", "julia deficiency.jl {file}")


def test_readme():
    """The commands and the Python of the package's README."""
    with desk() as folder:
        (folder / "model.xml").write_bytes(MODEL.read_bytes())
        (folder / "long.crn").write_text(support.shuffled_chain(9, 1))
        shell("crnt certify < edelstein.crn > edelstein.cert", folder)
        for script in support.blocks(README, "sh"):
            if "pip install" in script or "apt-get" in script or "companions/test" in script:
                continue
            missing = not shutil.which("dot") and "draw" in script or "import" in script and not has_libsbml()
            if not missing:
                status, _, err = shell(f"set -e -o pipefail; {script}", folder)
                yield script.splitlines()[0], status == 0, err
        for code in support.blocks(README, "python"):
            done = subprocess.run([sys.executable, "-c", code], cwd=folder, capture_output=True)
            shown = re.findall(r"# prints (.*)", code)
            yield code.splitlines()[0], done.returncode == 0 and done.stdout.decode().splitlines() == shown, done


def has_libsbml():
    try:
        import libsbml  # noqa: F401
    except ImportError:
        return False
    return True


def test_words_of_documents():
    for name, document, most in (("companions/README.md", README, 1100), ("docs/RECIPES.md", RECIPES, 1250)):
        yield f"{name} is short", len(document.split()) <= most, len(document.split())
    for verb in ("json", "explain", "import", "draw", "order", "table", "verify"):
        yield f"README has {verb}", f"`{verb}`" in README
