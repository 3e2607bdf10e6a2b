"""The map of a job's items to the files and lines that they come from, as a file of JSON beside the job."""

import json
from typing import Any, Dict, List

from .model import Source
from .printer import Job

VERSION = 1


class _Sources:
    """The places, each once."""

    def __init__(self) -> None:
        self.numbers: Dict[Source, int] = {}

    def number(self, source: Source) -> int:
        return self.numbers.setdefault(source, len(self.numbers))

    def listed(self) -> List[Dict[str, Any]]:
        return [{"file": it.file, "line": it.line, **({"column": it.column} if it.column else {}), "text": it.text} for it in self.numbers]


def map_text(job: Job) -> str:
    """The text of the map. `items` are by their numbers (docs/language.md); of a test with several places `values` has the values that are each one's own. `tables`
    are by the names of their boxes: each row is a prefix, its port and its place."""
    sources = _Sources()
    items: Dict[str, Any] = {}
    for number, origin in job.printed.origins.items():
        items[str(number)] = {"line": job.printed.lines[number], "sources": [sources.number(it) for it in origin.sources],
                              **({"field": origin.name, "values": [list(it) for it in origin.values]} if origin.values else {})}
    tables = {table.name: [[row.prefix, row.port, sources.number(row.source)] for row in table.rows] for table in job.tables}
    whole = {"symnet_map": VERSION, "hosts": job.hosts, "hops": job.hops, "boxes": job.owners, "places": job.places, "items": items, "tables": tables, "sources": sources.listed()}
    rows = [f"{json.dumps(name)}: {_rows(value)}" for name, value in whole.items()]
    return "{" + ",\n".join(rows) + "}\n"


def _rows(value: Any) -> str:
    """A member of the map, with a line for each of its own."""
    if isinstance(value, list) and value and isinstance(value[0], dict):
        return "[\n" + ",\n".join(json.dumps(it) for it in value) + "]"
    if isinstance(value, dict) and value:
        return "{\n" + ",\n".join(f"{json.dumps(name)}: {json.dumps(it)}" for name, it in value.items()) + "}"
    return json.dumps(value)
