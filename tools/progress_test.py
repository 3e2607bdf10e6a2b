#!/usr/bin/env python3
"""Tests what is told of a run that takes long, with small programs in its place."""

import contextlib
import os
import pty
import re
import subprocess
import sys
import tempfile
import time
from pathlib import Path

import progress

FAILED = []


def expect(what, found, wanted):
    if found != wanted:
        FAILED.append(what)
        print(f"progress: {what}: {found!r} where {wanted!r} was wanted")


def started(program, out):
    return subprocess.Popen([sys.executable, "-c", program], stdout=out, stderr=subprocess.DEVNULL)


def told_of(program, command, out, seconds=0):
    """The lines that are put of a run of this program."""
    run, told = started(program, out), []
    progress.tell(progress.Run(run.pid, command), told.append, lambda: 200, seconds, each=0.1)
    run.wait()
    return [text.removeprefix("\r").removesuffix("\x1b[K") for text in told]


SLOW = "import time, sys\nfor n in range(4): print(n, flush=True); time.sleep(0.15)\n"


def lists_are_counted(folder):
    with open(folder / "out", "wb") as out:
        told = told_of(SLOW, "explore", out)
    counts = [int(text.split(", ")[1].split()[0]) for text in told[:-1]]
    expect("the records of a report are counted", (counts == sorted(counts), counts[-1], " records, " in told[0]), (True, 4, True))
    expect("nothing is left at the end", told[-1], "")


def others_are_measured(folder):
    with open(folder / "out", "wb") as out:
        told = told_of("import time\ntime.sleep(0.3)\n", "ask", out, seconds=7)
    expect("the seconds before are counted", re.fullmatch(r"symnet ask: 7 seconds, \d+ MB of memory; Ctrl-C ends it", told[0]) is not None, True)
    told = told_of("import os, time\nos.write(1, b'x' * 60000)\ntime.sleep(0.5)\n", "explore", subprocess.PIPE)
    expect("what goes into a pipe is told in bytes", told[-2].split(", ")[1], "0.1 MB written")


def what_has_ended_is_not_told_of():
    told = []
    run = started("", subprocess.DEVNULL)
    while Path("/proc", str(run.pid), "stat").read_text().rpartition(")")[2].split()[0] != "Z":
        time.sleep(0.01)
    progress.tell(progress.Run(run.pid, "ask"), told.append, lambda: 80, 2)
    run.wait()
    progress.tell(progress.Run(run.pid, "ask"), told.append, lambda: 80, 2)
    expect("a run that has ended is not told of", told, [])


def lines_fit_the_terminal():
    run = started("import time\ntime.sleep(0.3)\n", subprocess.DEVNULL)
    expect("a line is no wider than the terminal", len(progress.shown(progress.Run(run.pid, "compare"), 3, 20)), 20)
    run.kill()
    run.wait()


def everything(control):
    """What was written to a terminal that is closed."""
    shown = b""
    with contextlib.suppress(OSError):
        while part := os.read(control, 4096):
            shown += part
    return shown


def stands_on_a_terminal():
    """The process itself, on a terminal that no one looks at."""
    run = started("import time\ntime.sleep(0.6)\n", subprocess.DEVNULL)
    control, terminal = pty.openpty()
    beside = subprocess.run([sys.executable, progress.__file__, str(run.pid), "loops", "2"], stdin=subprocess.DEVNULL, stderr=terminal, check=False)
    run.wait()
    os.close(terminal)
    shown = everything(control)
    os.close(control)
    expect("it ends with the run", beside.returncode, 0)
    expect("its line stands on the terminal, and is taken away", (shown.startswith(b"\rsymnet loops: "), shown.endswith(b"\r\x1b[K")), (True, True))


def wrong_words():
    ran = subprocess.run([sys.executable, progress.__file__, "x", "ask", "2"], capture_output=True, check=False)
    expect("a process that is no number", (ran.returncode, ran.stdout), (2, b""))


with tempfile.TemporaryDirectory() as name:
    lists_are_counted(Path(name))
    others_are_measured(Path(name))
what_has_ended_is_not_told_of()
lines_fit_the_terminal()
stands_on_a_terminal()
wrong_words()
print(f"progress: {len(FAILED)} faults")
sys.exit(bool(FAILED))
