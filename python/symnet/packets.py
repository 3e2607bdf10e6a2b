"""Packets in words: by the names of their fields, with values as people write them."""

import re
from typing import List, Optional, Sequence, Tuple

from .fields import kind_of, name_of, value_text
from .inputs import Job

_METADATA = re.compile(r"(?:global|local) (\w+):\w+( \(\d+\))?", re.ASCII)
_COUNTED = re.compile(r"(.*?)( \(\d+\))?", re.DOTALL)

# The widest part of a row for which the other rows leave room.
WIDEST = 40


def bare(target: str) -> str:
    """The name of metadata without its scope and its width; anything else as it is."""
    found = _METADATA.fullmatch(target)
    return f"{found[1]}{found[2] or ''}" if found else target


def uncounted(target: str) -> Tuple[str, str]:
    """What a choice sets without the count of those that set it before, and that count as it stands behind it."""
    found = _COUNTED.fullmatch(target)
    return (found[1], found[2] or "") if found else (target, "")


def named(job: Job, symbol: int, choices: Sequence[str] = ()) -> Tuple[str, str]:
    """The name of a value of a packet, and what it is in the job. `choices` are what is set on its way, where that is known."""
    target = job.target(symbol, choices)
    if symbol < len(job.fields):
        return name_of(target), target
    target, count = uncounted(target)
    return bare(name_of(target)) + count, target


def columns(rows: Sequence[Sequence[str]], indent: str = "") -> List[str]:
    """The rows as lines, each column as wide as its widest part; a part that is wider than most makes no other row wider."""
    widths = [max((len(row[column]) for row in rows if len(row[column]) <= WIDEST), default=0) for column in range(len(rows[0]))] if rows else []
    return [indent + "  ".join(part.ljust(width) for part, width in zip(row, widths)).rstrip() for row in rows]


def packet_lines(values: Sequence[int], job: Optional[Job], indent: str = "", choices: Sequence[str] = ()) -> List[str]:
    """A line for each value of a packet: its name, the value as people write it, and the raw forms of both where they differ. `choices` are what is set on its way."""
    if job is None:
        return [indent + "values " + " ".join(map(str, values))]
    rows = []
    for symbol, value in enumerate(values):
        name, target = named(job, symbol, choices)
        shown = value_text(kind_of(target), value)
        rows.append((name, shown, "" if name == target or symbol >= len(job.fields) else target, "" if shown == str(value) else str(value)))
    return columns(rows, indent)


def packet_words(values: Sequence[int], job: Job, choices: Sequence[str] = ()) -> str:
    """A packet in one line, by names."""
    names = [named(job, symbol, choices) for symbol in range(len(values))]
    return ", ".join(f"{name} {value_text(kind_of(target), value)}" for (name, target), value in zip(names, values))
