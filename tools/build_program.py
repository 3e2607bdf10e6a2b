#!/usr/bin/env python3
"""Builds the program of a crate, proved, with all crates below it, and shows on standard error how far it is.

    tools/build_program.py [CRATE]          (symnet_cli) the program is then crates/CRATE/out/CRATE

It runs `rt ci`, the gate, over a copy of the crates that the program needs, without the wrong bodies that the gate tries: so it proves these
crates, lowest first and some side by side, and builds the program. What is proved is kept beside the kit, crate by crate: a build that was
interrupted goes on where it was, and the gate of the whole repository takes these proofs too.

The copy stands in a folder of the user's cache, since the gate allows one crates.txt in a checkout, and is removed at the end. As many crates are
proved side by side as there are processors, at most four, and one for each two GB of free memory; RT_JOBS in the environment says another number.
"""

import contextlib
import fcntl
import hashlib
import os
import re
import shutil
import signal
import subprocess
import sys
import threading
import time
from pathlib import Path

import build_plan

TOP = Path(__file__).resolve().parent.parent
# The most crates side by side, and the KB of memory that each has.
LANES, ROOM = 4, 2_000_000
# How often the line is written: on a terminal, and elsewhere.
EVERY, SELDOM = 1.0, 60.0
ENDS = re.compile(r"rt: (\w+) (?:(is kept): an earlier run .*|proved)$")


def say(text):
    print(f"symnet: {text}", file=sys.stderr, flush=True)


def lanes():
    """How many crates are proved side by side."""
    asked = os.environ.get("RT_JOBS", "")
    if asked.isdigit() and int(asked):
        return int(asked)
    with contextlib.suppress(OSError):
        free = int(re.search(r"MemAvailable:\s+(\d+)", Path("/proc/meminfo").read_text())[1])
        return max(1, min(LANES, len(os.sched_getaffinity(0)), free // ROOM))
    return 1


def cache():
    """The folder of the user's cache for all builds."""
    return Path(os.environ.get("XDG_CACHE_HOME") or Path.home() / ".cache").absolute() / "symnet-build"


def room_of(top):
    """The folder for the copy of this checkout."""
    return cache() / hashlib.sha256(str(top).encode()).hexdigest()[:16]


def copy(top, to, below):
    """Copies the lines of crates.txt that the program needs, and these crates."""
    shutil.rmtree(to, ignore_errors=True)
    # the gate runs at the top of a repository
    (to / ".git").mkdir(parents=True)
    (to / "crates.txt").write_text("".join(f"{line}\n" for line in build_plan.lines((top / "crates.txt").read_text(), below)))
    if (top / "HANDLES").is_file():
        shutil.copyfile(top / "HANDLES", to / "HANDLES")
    for name in below:
        for it in (top / "crates" / name).iterdir():
            target = to / "crates" / name / it.name
            target.parent.mkdir(parents=True, exist_ok=True)
            if it.is_file():
                shutil.copyfile(it, target)
            elif it.name not in ("out", "must-fail"):
                shutil.copytree(it, target)


def held(session):
    """The bytes of memory that the processes of a session hold, 0 where the system does not tell."""
    total, page = 0, os.sysconf("SC_PAGE_SIZE")
    for stat in Path("/proc").glob("[0-9]*/stat"):
        with contextlib.suppress(OSError, IndexError):
            fields = stat.read_text().rpartition(")")[2].split()
            total += int(fields[21]) * page if int(fields[3]) == session else 0
    return total


class Line:
    """The line on standard error: written anew on a terminal, and seldom elsewhere."""

    def __init__(self):
        self.is_terminal, self.last, self.is_open = sys.stderr.isatty(), float("-inf"), False

    def show(self, text, now):
        if now - self.last < (EVERY if self.is_terminal else SELDOM):
            return
        self.last = now
        if self.is_terminal:
            width = os.get_terminal_size(sys.stderr.fileno()).columns or 80
            print(f"\r{text[:width - 1]}\x1b[K", end="", file=sys.stderr, flush=True)
            self.is_open = True
        else:
            print(text, file=sys.stderr, flush=True)

    def close(self):
        if self.is_open:
            print("\r\x1b[K", end="", file=sys.stderr, flush=True)
            self.is_open = False


def read(lines, log, progress):
    """Keeps what the gate prints, and notes which crates have ended."""
    for line in lines:
        log.write(line)
        ended = ENDS.match(line.rstrip("\n"))
        if ended:
            progress.end(ended[1], time.monotonic(), bool(ended[2]))


def watch(ran, repo, progress, line, started):
    """Shows how far the gate is until it ends; returns its status, and the most memory that it held."""
    most = 0
    while True:
        most = max(most, held(ran.pid))
        for name in progress.below:
            # the gate makes this folder when it begins with the crate
            if (repo / "crates" / name / "out").is_dir():
                progress.begin(name, time.monotonic())
        line.show(progress.line(started, time.monotonic()), time.monotonic())
        with contextlib.suppress(subprocess.TimeoutExpired):
            return ran.wait(EVERY), most


def gate(repo, log, progress, lock):
    """Runs the gate over the copy, and returns its status, and the most memory that it held."""
    line, started = Line(), time.monotonic()
    line.show(progress.line(started, started), started)
    how = {"stdin": subprocess.DEVNULL, "stdout": subprocess.PIPE, "stderr": subprocess.STDOUT, "text": True, "errors": "replace"}
    # a session of its own: it ends at once where this one is interrupted, and with it all that it runs
    ran = subprocess.Popen(["rt", "ci"], cwd=repo, env={**os.environ, "RT_JOBS": str(progress.lanes)}, start_new_session=True, pass_fds=[lock], **how)
    reader = threading.Thread(target=read, args=(ran.stdout, log, progress), daemon=True)
    reader.start()
    try:
        return watch(ran, repo, progress, line, started)
    finally:
        line.close()
        ran.terminate()
        ran.wait()
        reader.join(10)


def told(text, is_built):
    """What a reader needs of what the gate printed: its notes, and where the build failed all except what is of crates that were proved."""
    if is_built:
        return [it for it in text.splitlines() if it.startswith("rt: note: ")]
    shown, block, name = [], [], None
    for it in text.splitlines():
        if it.startswith("== "):
            shown, block, name = shown + block, [it], it[3:]
        elif it == f"rt: {name} proved":
            block, name = [], None
        elif not ENDS.match(it):
            block.append(it)
    return shown + block


def take(repo, crate, top, began, file=None):
    """Puts the program, or another file that was made of the crate, into the checkout, as old as what it was built of."""
    name = file or crate
    made, to = repo / "crates" / crate / "out" / name, top / "crates" / crate / "out" / name
    if not made.is_file():
        return False
    to.parent.mkdir(exist_ok=True)
    new = to.with_name(f"{name}.new")
    shutil.copyfile(made, new)
    new.chmod(0o755)
    os.utime(new, (began, began))
    new.replace(to)
    return True


def build(crate, room, lock, product="program", make=take):
    """Builds the program in a folder, and returns whether it is built; with `make` what is made of the crate there once it is proved."""
    began, started = time.time(), time.monotonic()
    below = build_plan.closure(build_plan.crates((TOP / "crates.txt").read_text()), crate)
    progress = build_plan.Progress(below, build_plan.measured(build_plan.SECONDS.read_text()), lanes())
    say(f"building the {product}: its {len(below)} crates are proved, {progress.lanes} at a time. What is proved is kept, so a build that")
    say("is interrupted goes on where it was.")
    copy(TOP, room / "repo", below)
    with open(room / "log", "w+", encoding="utf-8") as log:
        status, most = gate(room / "repo", log, progress, lock)
        log.seek(0)
        is_built = status == 0 and make(room / "repo", crate, TOP, began)
        for it in told(log.read(), is_built):
            print(it, file=sys.stderr)
    if is_built:
        say(f"the {product} is built, after {int(time.monotonic() - started) // 60} minutes, with at most {most / 1e9:.1f} GB of memory")
    return is_built


def interrupted(number, _frame):
    sys.exit(128 + number)


def build_alone(crate, product="program", make=take):
    """Builds the program in the folder of this checkout, once no other build is at work there; returns whether it is built."""
    if not shutil.which("rt"):
        say("there is no `rt` on the path: the README, \"The kit\", says what has to be there")
        return False
    for it in (signal.SIGINT, signal.SIGTERM, signal.SIGHUP):
        signal.signal(it, interrupted)
    room = room_of(TOP)
    room.mkdir(parents=True, exist_ok=True)
    with open(room / "lock", "w", encoding="utf-8") as lock:
        try:
            fcntl.flock(lock, fcntl.LOCK_EX | fcntl.LOCK_NB)
        except BlockingIOError:
            say("another build of this checkout is at work; waiting for it")
            fcntl.flock(lock, fcntl.LOCK_EX)
        try:
            return build(crate, room, lock.fileno(), product, make)
        finally:
            shutil.rmtree(room / "repo", ignore_errors=True)


def main(words):
    if len(words) > 1 or any(it.startswith("-") for it in words):
        print(__doc__, end="", file=sys.stderr)
        return 2
    return 0 if build_alone(words[0] if words else "symnet_cli") else 1


if __name__ == "__main__":
    sys.exit(main(sys.argv[1:]))
