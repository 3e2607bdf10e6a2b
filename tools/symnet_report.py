#!/usr/bin/env python3
"""Reads what symnet writes into plain objects, and prints it for people.

    tools/symnet_report.py WRITTEN [FILE ..] [OPTION ..]

The reader is the module `symnet.report` of the package in python/, whose head says the words, as --help does; nothing has to be installed or built for it.
What an answer does not say by itself it runs by the library or the program that is built, else by the program that ./symnet compiled of these sources.
"""

import os
import signal
import sys
from pathlib import Path
from typing import List, Optional

import build_unproved
from checkout import TOP

sys.path.insert(0, str(TOP / "python"))
from symnet import engine  # noqa: E402
from symnet.library import NotBuilt  # noqa: E402
from symnet.report import main  # noqa: E402


def compiled() -> Optional[Path]:
    """The program that ./symnet compiled of these sources, without its proofs; None where it has not yet."""
    try:
        place = build_unproved.place(build_unproved.cache(), build_unproved.sum_of(TOP))
    except OSError:
        return None
    return place if place.is_file() else None


def name_program(words: List[str]) -> None:
    """Names that program for the reader where nothing else is built or named, and other files are given with what was written."""
    if len(words) < 2 or "--only-read" in words:
        return
    try:
        engine.is_library()
    except NotBuilt:
        program = compiled()
        if program is not None:
            os.environ["SYMNET"] = str(program)


if __name__ == "__main__":
    # A reader that has seen enough, as `head`, ends this program quietly.
    if hasattr(signal, "SIGPIPE"):
        signal.signal(signal.SIGPIPE, signal.SIG_DFL)
    name_program(sys.argv[1:])
    sys.exit(main(sys.argv[1:]))
