"""What a build of a program has to prove, how far it is, and about how long it still takes."""

import heapq
from pathlib import Path

# The processor seconds that the proof of each crate took, measured once, and those of a crate that is not there.
SECONDS = Path(__file__).resolve().parent / "build_seconds.txt"
OTHER = 40.0
# After this many planned seconds the pace of this machine counts for as much as that of the machine that was measured.
TRUST = 60.0


def crates(text):
    """What each line of a crates.txt says: the crate, and the libraries that it depends on, lowest crate first."""
    found = {}
    for line in text.splitlines():
        name, colon, below = line.partition("#")[0].partition(":")
        if colon:
            found[name.split()[0]] = below.split()
    return found


def lines(text, wanted):
    """The lines of a crates.txt that are of these crates, with their settings."""
    return [line for line in (it.partition("#")[0].strip() for it in text.splitlines()) if line and line.partition(":")[0].split()[0] in wanted]


def closure(every, name):
    """The crate and all crates below it with what each depends on, in the order of `every`."""
    wanted, left = set(), [name]
    while left:
        it = left.pop()
        if it in every and it not in wanted:
            wanted.add(it)
            left += every[it]
    return {it: every[it] for it in every if it in wanted}


def measured(text):
    """The seconds of each crate in a text of lines `NAME SECONDS`."""
    rows = (line.split() for line in text.splitlines() if line.strip() and not line.startswith("#"))
    return {name: float(seconds) for name, seconds in rows}


def chains(seconds, below):
    """For each crate the seconds of the longest chain of crates that begins with it. `seconds` has the lowest crate first."""
    found = dict(seconds)
    for name in reversed(list(seconds)):
        for it in below[name]:
            if it in found:
                found[it] = max(found[it], seconds[it] + found[name])
    return found


def seconds_left(seconds, below, at_work, lanes):
    """How long it takes to prove crates on this many lanes: those at work first, then whichever is ready with the longest chain behind it.
    `seconds` has what is left of each crate, lowest first."""
    chain = chains(seconds, below)
    waiting = sorted((it for it in seconds if it not in at_work), key=lambda it: -chain[it])
    running = [(seconds[it], it) for it in at_work]
    heapq.heapify(running)
    lacking, now = set(seconds), 0.0
    while lacking:
        for it in [it for it in waiting if not lacking.intersection(below[it])][:max(lanes - len(running), 0)]:
            waiting.remove(it)
            heapq.heappush(running, (now + seconds[it], it))
        if not running:
            break
        now, ended = heapq.heappop(running)
        lacking.remove(ended)
    return now


class Progress:
    """How far a build is. Times are seconds of any clock."""

    def __init__(self, below, seconds, lanes):
        self.below, self.lanes = below, lanes
        self.seconds = {it: seconds.get(it, OTHER) for it in below}
        self.began, self.done = {}, set()
        self.planned = self.taken = 0.0

    def begin(self, name, now):
        """A crate is at work."""
        if name in self.seconds and name not in self.done:
            self.began.setdefault(name, now)

    def end(self, name, now, is_kept):
        """A crate is proved; where an earlier build proved it, it says nothing of the pace."""
        if name in self.seconds and name not in self.done:
            if not is_kept:
                self.planned += self.seconds[name]
                self.taken += now - self.began.get(name, now)
            self.began.pop(name, None)
            self.done.add(name)

    def left(self, now):
        """About how many seconds are left."""
        pace = (self.taken + TRUST) / (self.planned + TRUST)
        left = {it: pace * self.seconds[it] for it in self.seconds if it not in self.done}
        for it, began in self.began.items():
            # a crate that takes longer than planned takes a little longer still
            left[it] = max(left[it] - (now - began), 0.05 * left[it])
        return seconds_left(left, self.below, list(self.began), self.lanes)

    def line(self, started, now):
        """One line of all this."""
        gone, left = int(now - started) // 60, round(self.left(now) / 60)
        about = f"about {left} left" if left else "less than one left"
        works = f"; at work: {', '.join(self.began)}" if self.began else ""
        return f"symnet: {len(self.done)} of {len(self.seconds)} crates proved; {gone} minutes gone, {about}{works}"
