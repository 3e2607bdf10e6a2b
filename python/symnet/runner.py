"""What an answer does not say by itself is run: the walks of its packet, and the records of its job, over the files of the disk."""

import os
import tempfile
import warnings
from pathlib import Path as File
from typing import Dict, List, Optional, Sequence, Tuple

from . import engine
from .library import NotBuilt
from .records import NotReport, Path, Report, read_report
from .refusal import DONE, PARTIAL

# The most hops of a walk. A question is of the first arrival at a port, so a walk may go on behind it.
MOST_HOPS = 256


class Runner:
    """Runs commands under bounds, as `--hops=32`. What does not run, or is refused, is not known; nothing is said of it."""

    def __init__(self, bounds: Sequence[str] = ()):
        self.bounds = list(bounds)
        self.known: Dict[Tuple[str, Tuple[int, ...], bool], Sequence[Path]] = {}

    def _written(self, *words: str) -> Optional[Report]:
        try:
            with warnings.catch_warnings():
                # whoever made the answer was told what the program is
                warnings.simplefilter("ignore")
                ended = engine.on_disk([os.fsencode(it) for it in words])
            return read_report(ended.output) if ended.status in (DONE, PARTIAL) else None
        except (NotBuilt, NotReport, OSError, RuntimeError, ValueError):
            return None

    def report(self, job: str) -> Optional[Report]:
        """The report of a job."""
        return self._written("explore", *self.bounds, "--", job)

    def walks(self, job: str, values: Sequence[int], is_bound: bool = False) -> Sequence[Path]:
        """The walks of a packet, within the bound of hops or as far as any may go."""
        key = job, tuple(values), is_bound
        if key not in self.known:
            bounds: List[str] = [it for it in self.bounds if it.startswith("--hops")] if is_bound else [f"--hops={MOST_HOPS}"]
            with tempfile.TemporaryDirectory(prefix="symnet-") as room:
                packet = File(room, "packet")
                packet.write_text(" ".join(map(str, values)))
                made = self._written("walk", *bounds, "--", job, str(packet))
            self.known[key] = () if made is None else made.paths
        return self.known[key]
