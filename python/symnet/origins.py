"""What decided on a way: the routes, rules and entries of the boxes that a job was imported of, by the map that `symnet import` writes beside it."""

import json
import re
from dataclasses import dataclass
from ipaddress import IPv4Network
from typing import Any, Dict, List, Optional, Sequence, Tuple

from .inputs import Job, NotInput
from .records import Path
from .ways import Met, box_of, follow

VERSION = 1
_DESTINATION = "head L3+128:32"
_FIELDS = {"Ethernet destination": "head L2+0:48"}
_HEAD = re.compile(r"head (\w+)([+-]\d+):(\d+)", re.ASCII)
# How many places are named where several may have decided.
_NAMED = 3


@dataclass(frozen=True)
class Place:
    """A place of an output, and what stands there."""

    file: str
    line: int
    column: int
    text: str

    def __str__(self) -> str:
        where = f"{self.file}:{self.line}" + (f":{self.column}" if self.column else "")
        return f"{self.text} ({where})" if self.text else where


@dataclass(frozen=True)
class Item:
    """The places of an item of the job; of a test with several of them each one's own values of a field."""

    places: Tuple[Place, ...]
    name: str
    values: Tuple[Tuple[int, int], ...]


@dataclass(frozen=True)
class Origins:
    """A map that was read: items by the lines of the job's text, the rows of tables by their boxes, and of each box of the job the one of the network that it is a part of."""

    items: Dict[int, Item]
    tables: Dict[str, Tuple[Tuple[IPv4Network, Place], ...]]
    boxes: Dict[str, str]

    def decided(self, job: Job, path: Path, values: Optional[Sequence[int]] = None) -> List[str]:
        """What decided on the path, in order: a line for each route, rule or entry, with its box. `values` are those of the packet, where the path has none."""
        values = path.values if values is None else values
        made: List[str] = []
        # a path that is cut has not begun the code of its last port
        places = path.places[:-1] if path.end == "cut" else path.places
        for met in follow(job, path.decisions, places).met:
            named = self._table(met, job, path, values) if met.line == 0 else self._item(met, job, path, values)
            line = f"{self._box(met.place)}: {named}" if named else ""
            if line and made[-1:] != [line]:
                made.append(line)
        return made

    def _box(self, place: str) -> str:
        """The box of a port, as the outputs name it."""
        return self.boxes.get(box_of(place), box_of(place))

    def _item(self, met: Met, job: Job, path: Path, values: Optional[Sequence[int]]) -> str:
        item = self.items.get(met.line)
        if item is None or met.side == "else":
            return ""
        value = _value(job, path, values, _FIELDS.get(item.name, "")) if item.values else None
        if value is not None:
            found = [place for place, (low, high) in zip(item.places, item.values) if low <= value <= high]
            return str(found[0]) if found else ""
        shown = " or ".join(map(str, item.places[:_NAMED]))
        return shown if len(item.places) <= _NAMED else f"one of {len(item.places):,}, as {shown}"

    def _table(self, met: Met, job: Job, path: Path, values: Optional[Sequence[int]]) -> str:
        """The route of the longest prefix that has the destination."""
        rows = self.tables.get(box_of(met.place))
        value = _value(job, path, values, _DESTINATION)
        if rows is None or value is None:
            return ""
        found = [(network.prefixlen, place) for network, place in rows if int(network.network_address) <= value <= int(network.broadcast_address)]
        return str(max(found, key=lambda it: it[0])[1]) if found else f"no route of {len(rows):,}"


def _value(job: Job, path: Path, values: Optional[Sequence[int]], target: str) -> Optional[int]:
    """The value of a field of a packet, where nothing in the job changes the field; of a walk that which it has at the end."""
    if target not in job.fields or job.tokens is None or f"set {target} " in job.tokens.text:
        return None
    return _carried(path, target) if values is None else values[job.fields.index(target)]


def _carried(path: Path, target: str) -> Optional[int]:
    """The number that a field has at the end of a path; None where it is not known."""
    found = _HEAD.fullmatch(target)
    base = dict(path.fields.tags).get(found[1]) if found else None
    if found is None or base is None:
        return None
    cells = next((cells for address, cells in path.fields.heads if address == base + int(found[2])), ())
    return cells[-1].constant if cells and cells[-1].width == int(found[3]) and not cells[-1].parts else None


def is_map(text: str) -> bool:
    return text.lstrip().startswith('{"symnet_map"')


def _place(one: Any) -> Place:
    return Place(str(one["file"]), int(one["line"]), int(one.get("column", 0)), str(one["text"]))


def read_map(text: str) -> Origins:
    """The map; NotInput where the text is none."""
    try:
        whole = json.loads(text)
        if whole["symnet_map"] != VERSION:
            raise NotInput(f"a map of version {whole['symnet_map']}, and this reader knows version {VERSION}")
        places = [_place(it) for it in whole["sources"]]
        items = {int(it["line"]): Item(tuple(places[number] for number in it["sources"]), str(it.get("field", "")), tuple((int(low), int(high)) for low, high in it.get("values", [])))
                 for it in whole["items"].values()}
        tables = {str(name): tuple((IPv4Network(prefix), places[number]) for prefix, _, number in rows) for name, rows in whole["tables"].items()}
        return Origins(items, tables, {str(name): str(it) for name, it in whole["boxes"].items()})
    except (AttributeError, IndexError, KeyError, TypeError, ValueError, RecursionError) as error:
        raise NotInput(f"no map of an import: {error}") from None


def decided_lines(job: Optional[Job], path: Path, values: Optional[Sequence[int]] = None, indent: str = "    ") -> List[str]:
    """What decided on the path, where the job has a map. `values` are those of the packet, where the path has none."""
    if job is None or job.origins is None:
        return []
    found = job.origins.decided(job, path, values)
    return [f"{indent}{line}" for line in found]
