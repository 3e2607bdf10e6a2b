"""A packet by the names of its fields: `path.packet["source"]` is an address, and `path.packet["TTL"]` a number."""

import ipaddress
import re
from collections.abc import Mapping
from functools import cached_property
from typing import Dict, Iterator, List, Optional, Sequence, Tuple, Union

from .fields import kind_of, value_text
from .inputs import LIST_FIELDS, Job, NotInput, read_job
from .library import Text, as_bytes
from .packets import bare, named, uncounted

Value = Union[int, str, ipaddress.IPv4Address, ipaddress.IPv6Address]

# What a short name may stand for: the first of these that the packet has.
_SHORT = {"source": ("source address", "ethernet source"), "destination": ("destination address", "ethernet destination")}


class JobText:
    """The text of a job, which is read when a name of it is asked for."""

    def __init__(self, text: Text):
        self.text = as_bytes(text)

    @cached_property
    def job(self) -> Optional[Job]:
        """The job; None where the text has not the outline of one."""
        try:
            return read_job(self.text.decode("utf-8", "replace"))
        except NotInput:
            return None

    def packet(self, values: Sequence[int], choices: Sequence[str] = ()) -> "Packet":
        job = self.job
        names = [(f"symbol {symbol}",) * 2 if job is None else named(job, symbol, choices) for symbol in range(len(values))]
        return Packet([(*name, value) for name, value in zip(names, values)])


def _value(kind: Optional[str], value: int) -> Value:
    """A value as Python has it: addresses as objects, those of Ethernet as text."""
    if kind == "ip4" and value < 1 << 32:
        return ipaddress.IPv4Address(value)
    if kind == "ip6" and value < 1 << 128:
        return ipaddress.IPv6Address(value)
    return value_text(kind, value) if kind == "mac" else value


def _plain(text: str) -> str:
    """A name or a reference, as it is compared: `head L3 + 0x60:32` has other blanks than `head L3+96:32`, and is the same."""
    text = re.sub(r"0x[0-9A-Fa-f]+", lambda found: str(int(found[0], 16)), text)
    return re.sub(r"\s*([+\-:$])\s*", r"\1", re.sub(r"\s+", " ", text.strip())).lower()


class Packet(Mapping[str, Value]):
    """The values of a packet: by the name of the field (`source address`), by its reference in the job (`head L3+96:32`), by the bare name of metadata (`mark`), and
    `source` and `destination` for the addresses. Case does not count. Iteration gives the names in the order of the job. Addresses of IP are objects of
    `ipaddress`, those of Ethernet texts; all else is a number. A choice on the way has the name of what it sets."""

    def __init__(self, values: Sequence[Tuple[str, str, int]]):
        """Of each value its name, what it is in the job, and the number."""
        self._rows: List[Tuple[str, str, Optional[str], int]] = []
        self._places: Dict[str, int] = {}
        for at, (name, target, value) in enumerate(values):
            self._rows.append((target if _plain(name) in self._places else name, target, kind_of(target), value))
            for key in (name, target, bare(target), target + uncounted(name)[1]):
                self._places.setdefault(_plain(key), at)

    def _place(self, key: str) -> int:
        plain = _plain(key)
        return next(self._places[it] for it in (plain, *_SHORT.get(plain, ())) if it in self._places)

    def __getitem__(self, key: str) -> Value:
        try:
            _, _, kind, value = self._rows[self._place(key)]
        except StopIteration:
            raise KeyError(f"{key}: the packet has {', '.join(self)}") from None
        return _value(kind, value)

    def __iter__(self) -> Iterator[str]:
        return (name for name, _, _, _ in self._rows)

    def __len__(self) -> int:
        return len(self._rows)

    def __repr__(self) -> str:
        return f"Packet({self})"

    def __str__(self) -> str:
        return ", ".join(f"{name} {value_text(kind, value)}" for name, _, kind, value in self._rows)

    def row(self) -> Dict[str, Union[int, str]]:
        """The values as a plain dict: numbers as numbers, all else as people write it."""
        return {name: value if kind in (None, "number") else value_text(kind, value) for name, _, kind, value in self._rows}


def list_packet(values: Sequence[int]) -> Packet:
    """A packet as filter lists read it."""
    targets = ("head L3+72:8", "head L3+96:32", "head L3+128:32", "head L4+0:16", "head L4+16:16")
    return Packet([(name, target, value) for (name, _, _), target, value in zip(LIST_FIELDS, targets, values)])
