#!/usr/bin/env python3
"""Compiles the program without its proofs, where that was not done before of the same sources, and prints the name of its file.

    tools/build_unproved.py

Programs stand in a folder of the user's cache, each under a sum of its sources, for all checkouts; nothing is written into the checkout, so no build or gate there
is disturbed. One is compiled at a time, of a copy of the sources, and moved to its place once it answers. Nothing of it is proved.

How: `rt try` compiles a program with no proof, and with checks before each operation that may go wrong. This compiles in the same way as far as the module that
goes to the kit's clang, takes the checks of memory out, compiles the module, and links it as a proved program is linked. The other checks stay: a sum past its type,
an index out of range, a failed unwrap ends the program (SIGILL).
"""

import contextlib
import fcntl
import hashlib
import os
import shutil
import signal
import subprocess
import sys
import tempfile
import threading
import time
from pathlib import Path
from typing import Iterator, List, TextIO

import build_program
from checkout import TOP
from kit_module import Stop, as_text, keep_unproved, kit, run, without_memory_checks

CRATE = "symnet_cli"
# What the program is compiled by, which counts as its sources do.
SCRIPTS = ("tools/build_unproved.py", "tools/kit_module.py")
# What it takes: about so many minutes of one processor, and GB of memory.
MINUTES, MEMORY = 5, 3
# How many programs are kept.
KEPT = 8


def say(text: str) -> None:
    print(f"symnet: {text}", file=sys.stderr, flush=True)


def sources(top: Path) -> List[str]:
    """The names of the files that the program is compiled of, and by."""
    return sorted(["crates.txt", *SCRIPTS, *(str(it.relative_to(top)) for it in top.glob("crates/*/src/**/*.rt"))])


def sum_of(top: Path) -> str:
    """The sum of these files, as the script at the top has it too: that of the lines that sha256sum writes of them."""
    lines = (f"{hashlib.sha256((top / name).read_bytes()).hexdigest()}  {name}\n" for name in sources(top))
    return hashlib.sha256("".join(lines).encode()).hexdigest()


def cache() -> Path:
    """The folder of all programs."""
    return build_program.cache() / "unproved"


def place(folder: Path, of: str) -> Path:
    """Where the program of a sum stands."""
    return folder / of / "symnet"


# ---- one build


def copy(top: Path, to: Path) -> None:
    """Copies the sources, so that a change while they are compiled changes nothing."""
    for name in sources(top):
        (to / name).parent.mkdir(parents=True, exist_ok=True)
        shutil.copyfile(top / name, to / name)


def compiled(repo: Path, work: Path) -> Path:
    """The program, of a copy of the sources."""
    rattle = kit()
    module, text, ready, code, program = (work / it for it in ("kept.bc", "module.ll", "ready.ll", "module.o", "symnet"))
    keep_unproved(rattle, repo / "crates" / CRATE, "src/main.rt", work, module)
    as_text(rattle, module, text)
    with open(text, errors="surrogateescape") as lines, open(ready, "w", errors="surrogateescape") as out:
        out.writelines(without_memory_checks(lines))
    tools = rattle / "toolchain"
    words = [tools / "bin/clang", "--target=x86_64-unknown-linux-gnu", f"--sysroot={tools}", "--no-default-config", "-march=x86-64"]
    words += ["-ffunction-sections", "-fdata-sections", "-fPIE", "-O2", "-mllvm", "-trap-unreachable", "-mllvm", "-no-trap-after-noreturn"]
    run([*words, "-c", "-x", "ir", ready, "-o", code], "compiling")
    words = [rattle / "bin/rattle-link", "--target", "x86_64-unknown-linux-gnu", "--toolchain", tools, "-o", program, code]
    run([*words, rattle / "c/libos_c.a", rattle / "c/liblibc_c.a"], "linking")
    return program


def check(program: Path) -> None:
    """That the program runs: without words it shows its usage."""
    ran = subprocess.run([program], stdin=subprocess.DEVNULL, stdout=subprocess.PIPE, stderr=subprocess.PIPE, errors="replace", check=False)
    if ran.returncode != 2 or not ran.stderr.startswith("symnet: usage\n"):
        raise Stop(f"the program that was compiled does not run (status {ran.returncode}):\n{ran.stderr[-3000:]}")


@contextlib.contextmanager
def shown(started: float) -> Iterator[None]:
    """Shows how long it takes until what stands inside is done."""
    line, is_done = build_program.Line(), threading.Event()

    def show() -> None:
        while not is_done.is_set():
            now = time.monotonic()
            line.show(f"symnet: compiling the program without its proofs; {int(now - started) // 60} minutes gone", now)
            is_done.wait(build_program.EVERY)

    shower = threading.Thread(target=show, daemon=True)
    shower.start()
    try:
        yield
    finally:
        is_done.set()
        shower.join()
        line.close()


def build(folder: Path) -> Path:
    """Compiles the program, puts it into the folder, and returns its place."""
    started = time.monotonic()
    say(f"the program is not built of these sources. It is compiled without its proofs, once: about {MINUTES} minutes of one processor and {MEMORY} GB of memory.")
    with tempfile.TemporaryDirectory(prefix="work-", dir=folder) as room:
        work = Path(room)
        copy(TOP, work / "repo")
        made = place(folder, sum_of(work / "repo"))
        with shown(started):
            program = compiled(work / "repo", work)
        check(program)
        made.parent.mkdir(exist_ok=True)
        program.replace(made)
    say(f"the program is compiled, after {(time.monotonic() - started) / 60:.1f} minutes")
    return made


# ---- one at a time


def lock(file: TextIO) -> None:
    """Waits until no other build of this user is at work."""
    try:
        fcntl.flock(file, fcntl.LOCK_EX | fcntl.LOCK_NB)
    except BlockingIOError:
        say("the program is being compiled by another call; waiting for it")
        fcntl.flock(file, fcntl.LOCK_EX)


def clear(folder: Path) -> None:
    """Removes what builds left that were killed, and the oldest programs, so that there is room for one more."""
    for it in folder.glob("work-*"):
        shutil.rmtree(it, ignore_errors=True)
    programs = sorted(folder.glob("*/symnet"), key=lambda it: it.stat().st_mtime)
    for it in programs[:1 - KEPT]:
        shutil.rmtree(it.parent, ignore_errors=True)


def program() -> Path:
    """The program of these sources; it is compiled first where it is not there."""
    folder = cache()
    found = place(folder, sum_of(TOP))
    if found.is_file():
        return found
    folder.mkdir(parents=True, exist_ok=True)
    with open(folder / "lock", "w", encoding="utf-8") as file:
        lock(file)
        if not found.is_file():
            clear(folder)
            found = build(folder)
        return found


def main(words: List[str]) -> int:
    if words:
        print(__doc__, end="", file=sys.stderr)
        return 2
    for it in (signal.SIGINT, signal.SIGTERM, signal.SIGHUP):
        signal.signal(it, build_program.interrupted)
    try:
        print(program())
    except (Stop, OSError, subprocess.SubprocessError) as reason:
        say(f"the program could not be compiled: {reason}")
        return 1
    return 0


if __name__ == "__main__":
    sys.exit(main(sys.argv[1:]))
