"""What the measuring scripts share: the two programs, their answers, times, memory and counts of instructions."""

import os
import platform
import re
import shutil
import subprocess
import sys
import tempfile
import time

sys.path.insert(0, os.path.join(os.path.dirname(os.path.abspath(__file__)), "..", "checks"))
from second_opinion import BUILT

# The questions that the program answers, for the other one.
ASKED = ",".join(map(str, BUILT))
TIME = "/usr/bin/time"
# Where an answer leaves a choice, the line that shows it begins with one of these.
CHOICES = (b"  reaction ", b"  independent reactions: ", b"  positive combination: ", b"  positive law: ", b"  multipliers: ", b"  sigma: ",
           b"  alpha: ", b"  turn: ", b"  shelves: ", b"  mu: ", b"  m: ")


def machine():
    return f"on {platform.machine()}, {os.cpu_count()} processors, {platform.system()} {platform.release()}"


def answer(command, text):
    """The status of a run, and what it wrote."""
    done = subprocess.run(command, input=text, stdout=subprocess.PIPE)
    return done.returncode, done.stdout


def fixed(done):
    """An answer without the lines that one network leaves free. Such a line of a refusal or rejection is none."""
    status, out = done
    # a confluence vector is fixed, two independent vectors of the confluence space are not
    out = re.sub(rb"(?<= two independent vectors\n)(?:  vector: .*\n)+", b"", out)
    return status, b"".join(line for line in out.splitlines(True) if not line.startswith(CHOICES))


def decided(done):
    """The lines of a report that say what is decided, without those that are free; not the number of open questions."""
    lines, is_open = [], False
    for line in fixed(done)[1].splitlines():
        is_open = line.startswith(b"Q") and b": open, " in line or is_open and line.startswith(b"  ")
        if not is_open and not line.startswith(b"open: "):
            lines.append(line)
    return lines


def same(one, other):
    """Whether two answers to one text are one, but for free choices and for what either of them leaves open."""
    if max(one[0], other[0]) > 1:
        return one == other
    if one[0] == other[0] == 0:
        return fixed(one) == fixed(other)
    both = [set(decided(done)) for done in (one, other)]
    titles = [{line.split(b":")[0] for line in lines if line.startswith(b"Q")} for lines in both]
    # What only one of them decides can't be compared.
    return all(line in both[1] or line.split(b":")[0] not in titles[1] for line in both[0] if line.startswith(b"Q"))


def least_seconds(commands, source, runs):
    """For each command the least seconds of several runs, in turns. The time to start the process is in it."""
    least = [float("inf")] * len(commands)
    for _ in range(runs):
        for place, command in enumerate(commands):
            source.seek(0)
            begin = time.perf_counter()
            subprocess.run(command, stdin=source, stdout=subprocess.DEVNULL)
            least[place] = min(least[place], time.perf_counter() - begin)
    return least


def instructions(command, source, profile="/dev/null"):
    """How many instructions a run takes, the start of the process included, or None without valgrind."""
    if not shutil.which("valgrind"):
        return None
    source.seek(0)
    words = ["valgrind", "--tool=callgrind", f"--callgrind-out-file={profile}", *command]
    done = subprocess.run(words, stdin=source, stdout=subprocess.DEVNULL, stderr=subprocess.PIPE)
    count = re.search(rb"Collected : (\d+)", done.stderr)
    return int(count[1]) if count else None


def instructions_and_calls(command, source):
    """The instructions of a run, and how often each function is called that the compiler has not inlined."""
    with tempfile.NamedTemporaryFile("r") as profile:
        count = instructions(command, source, profile.name)
        names, calls, called = {}, {}, None
        for line in profile:
            named = re.match(r"(c?)fn=(\(\d+\))(?: (.*))?", line)
            if named:
                names.setdefault(named[2], named[3])
                # callgrind tells the inner calls of a recursive function apart by a number
                called = names[named[2]].split("'")[0] if named[1] else None
            elif called and line.startswith("calls="):
                calls[called] = calls.get(called, 0) + int(line[6:].split()[0])
        return count, calls


def megabytes(command, source, piped=False):
    """The most memory of one run, by GNU time, which starts the program from a small process of its own."""
    if not os.access(TIME, os.X_OK):
        return "?"
    source.seek(0)
    with tempfile.NamedTemporaryFile("r") as said:
        words = [TIME, "-q", "-f", "%M", "-o", said.name, *command]
        if piped:
            feeder = subprocess.Popen(["cat"], stdin=source, stdout=subprocess.PIPE)
            subprocess.run(words, stdin=feeder.stdout, stdout=subprocess.DEVNULL)
            feeder.stdout.close()
            feeder.wait()
        else:
            subprocess.run(words, stdin=source, stdout=subprocess.DEVNULL)
        return f"{int(said.read()) / 1024:.1f}"


def source_of(text):
    """A file of its own that holds these bytes."""
    source = tempfile.TemporaryFile()
    source.write(text)
    source.flush()
    return source


def ratio(one, other):
    return f"{one / other:.2f}" if one is not None and other else "?"


def put_row(cells):
    print("| " + " | ".join(cells) + " |", flush=True)


def put_heads(heads, words=1):
    """The head of a table, whose first columns hold words and whose others hold numbers."""
    put_row(heads)
    print("|" + "---|" * words + "---:|" * (len(heads) - words), flush=True)


def differ(name, text, answers):
    """Ends with two answers that should be one."""
    with open("/tmp/differs", "wb") as file:
        file.write(text)
    shown = " and ".join(str((status, out[:2000])) for status, out in answers)
    sys.exit(f"{name}: {shown}; the input is in /tmp/differs")
