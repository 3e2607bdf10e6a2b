"""SymNet: symbolic execution of SEFL network models, by the library of the verified program, or by the program itself.

    import symnet
    report = symnet.explore(open("ttl.sefl").read())
    for path in report.paths:
        print(path.end, path.places, path.packet)

`symnet.report`, `symnet.answers`, `symnet.causes`, `symnet.inputs` and `symnet.fields` read what the program writes and show it in words; they need no library, and no program.
"""

import importlib
from types import ModuleType

from .answers import Answer, Compared, ComparedRules, Fate, ListSide, Loops, NotAnswer, Part, Visit
from .commands import Asked, Confirmed, Grown, RefusedPacket, Rules, ask, compare, compare_rules, explore, grow, loops, model, replay, rules, run, walk, walk_each
from .expected import NotExpected, Unmet, expect
from .inputs import NotInput
from .jobs import Net
from .library import Ended, NotBuilt
from .packet import Packet
from .refusal import Refusal
from .records import Cell, Fields, NotReport, Path, Pruned, Report, Unexplored
from .sefl import canonical

__all__ = ["Answer", "Asked", "Cell", "Compared", "ComparedRules", "Confirmed", "Ended", "Fate", "Fields", "Grown", "ListSide", "Loops", "Net", "NotAnswer", "NotBuilt",
           "NotExpected", "NotInput", "NotReport", "Packet", "Part", "Path", "Pruned", "Refusal", "RefusedPacket", "Report", "Rules", "Unexplored", "Unmet", "Visit", "ask", "canonical", "compare", "compare_rules", "expect", "explore", "grow",
           "loops", "model", "replay", "rules", "run", "walk", "walk_each"]


def __getattr__(name: str) -> ModuleType:
    """The reader and the importer, which are imported when they are asked for: `python -m symnet.report` runs the first."""
    if name in ("report", "importing"):
        return importlib.import_module(f".{name}", __name__)
    raise AttributeError(f"module {__name__!r} has no attribute {name!r}")
