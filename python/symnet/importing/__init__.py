"""`symnet import DIR`: a job of what the boxes of a network print themselves (docs/import.md). Nothing of it is proved.

    found = symnet.importing.import_folder("office")
    found.text                  the job
    found.files                 the tables that it names
    found.save("office-job")    writes both, and the map of each item to the file and the line that it comes from
    report = symnet.explore(found.text, files=found.files, hops=found.hops)
    found.decided(report.paths[0])      names the routes and rules that decided
"""

from dataclasses import dataclass
from functools import cached_property
from pathlib import Path
from typing import Any, Dict, List, Tuple, Union

from ..inputs import Job, read_job
from ..origins import Origins, read_map
from ..records import Path as Walked
from .folder import read_folder
from .mapping import map_text
from .model import Refused, Source
from .printer import print_network

__all__ = ["JOB", "MAP", "Imported", "Refused", "Source", "import_folder"]

# The names of the files that are written beside the tables.
JOB, MAP = "net.sefl", "net.map"


@dataclass(frozen=True)
class Imported:
    """A network as a job: its text, the tables that it names, and the map of its items to places of the outputs. `hops` are enough for a way through each box, `notes` say
    what was read and decides no packet of the job."""

    text: str
    files: Dict[str, str]
    map: str
    hosts: Tuple[str, ...]
    hops: int
    notes: Tuple[str, ...]
    boxes: Tuple[str, ...]

    @cached_property
    def _read(self) -> Tuple[Job, Origins]:
        return read_job(self.text), read_map(self.map)

    def decided(self, path: Walked) -> List[str]:
        """What decided on a path of a report or a walk of this job: a line for each route, rule or entry, with its box and its place."""
        job, origins = self._read
        return origins.decided(job, path)

    def save(self, folder: Union[str, Path]) -> List[Path]:
        """Writes the job, its tables and the map into a folder, from which the program may be run on it."""
        place = Path(folder)
        place.mkdir(parents=True, exist_ok=True)
        made = []
        for name, text in {JOB: self.text, MAP: self.map, **self.files}.items():
            (place / name).write_text(text, encoding="utf-8")
            made.append(place / name)
        return made


def import_folder(folder: Union[str, Path], **options: Any) -> Imported:
    """Reads a folder of outputs; Refused at the first thing that no job can say. `style` is that of the tables of routes."""
    place = Path(folder)
    network = read_folder(place)
    job = print_network(network, place.resolve().name, **options)
    return Imported(job.text, job.files, map_text(job), tuple(job.hosts), job.hops, tuple(network.notes), tuple(network.boxes))
