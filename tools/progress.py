#!/usr/bin/env python3
"""Says on a terminal how far a run is.

  tools/progress.py PID COMMAND SECONDS   stands beside the process PID, which has answered COMMAND for so many seconds and shares this one's standard error

At once, and then each second, one line stands there: the seconds, what was written so far, the memory, and the key that ends the run. It is
overwritten by the next one, and nothing is left of it where the run ends. The run itself is not touched: what is told is read from /proc.
"""

import os
import signal
import stat
import sys
import time
from pathlib import Path

# Seconds between two lines, and between two looks whether the run has ended.
EACH, LOOK = 1.0, 0.05
# Commands that write a line for each of these, as they find them.
LISTS = {"explore": "records", "walk": "walks"}


class Run:
    """A process that is at work, as /proc shows it."""

    def __init__(self, pid, command):
        self.folder, self.command = Path("/proc", str(pid)), command
        self.lines, self.read = 0, 0

    def is_there(self):
        """Whether it still works: one that has ended waits there for the process that started it."""
        try:
            return (self.folder / "stat").read_text().rpartition(")")[2].split()[0] not in "ZX"
        except OSError:
            return False

    def _lines_in(self, file):
        """How many lines stand in a file that grows; what was counted before is not read again."""
        with open(file, "rb") as text:
            text.seek(self.read)
            while part := text.read(1 << 20):
                self.lines += part.count(b"\n")
                self.read += len(part)
        return self.lines

    def written(self):
        """What was written of a list, in words: its members where it goes to a file, else its bytes. Other commands write at their end."""
        if self.command not in LISTS:
            return ""
        out = self.folder / "fd/1"
        if stat.S_ISREG(out.stat().st_mode):
            return f"{self._lines_in(out):,} {LISTS[self.command]}, "
        count = next(int(line.split()[1]) for line in (self.folder / "io").read_text().splitlines() if line.startswith("wchar"))
        return f"{count / 1e6:,.1f} MB written, "

    def memory(self):
        """The memory that it holds, in MB."""
        pages = int((self.folder / "statm").read_text().split()[1])
        return pages * os.sysconf("SC_PAGE_SIZE") / 1e6


def shown(run, seconds, width):
    """The line, no wider than this."""
    return f"symnet {run.command}: {seconds:,.0f} seconds, {run.written()}{run.memory():,.0f} MB of memory; Ctrl-C ends it"[:width]


def tell(run, put, width, before, each=EACH):
    """Puts a line from time to time until the run has ended, and takes the last one away. It is at work for `before` seconds already."""
    begin, due, is_open = time.monotonic() - before, 0.0, False
    while run.is_there():
        seconds = time.monotonic() - begin
        if seconds >= due:
            due = seconds + each
            try:
                put(f"\r{shown(run, seconds, width())}\x1b[K")
            except (OSError, StopIteration):
                break
            is_open = True
        time.sleep(LOOK)
    if is_open:
        put("\r\x1b[K")


def main(words):
    if len(words) != 3 or not (words[0].isdecimal() and words[2].isdecimal()):
        print(__doc__, end="", file=sys.stderr)
        return 2
    # The key ends the run, and not this process, which takes its line away.
    signal.signal(signal.SIGINT, signal.SIG_IGN)
    try:
        tell(Run(int(words[0]), words[1]), lambda text: print(text, end="", file=sys.stderr, flush=True), lambda: os.get_terminal_size(2).columns - 1, int(words[2]))
    except OSError:
        pass  # the terminal is gone
    return 0


if __name__ == "__main__":
    sys.exit(main(sys.argv[1:]))
