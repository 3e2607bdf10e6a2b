"""The way of a path through a job: the boxes on it, the instruction of each decision, and what is chosen on it."""

from dataclasses import dataclass
from typing import Iterator, List, Optional, Sequence, Tuple, Union

from .inputs import Job, NotInput, Statement

Decision = Union[str, int]
# The most choices on a way that are followed.
MOST = 1000
# What a decision may be at an instruction.
_SIDES = {"if": ("then", "else"), "constrain": ("pass", "broken")}


@dataclass(frozen=True)
class Met:
    """What was met at a port that steers: the line of an instruction in the job's text, 0 for the tests of a table; and the side of a test that was taken."""

    place: str
    line: int
    side: str = ""


@dataclass(frozen=True)
class Followed:
    """The instruction of each decision, as far as they are known, what the choices on the way set, and all that steers on it."""

    decided: Tuple[str, ...]
    choices: Tuple[str, ...]
    met: Tuple[Met, ...] = ()


def box_of(place: str) -> str:
    """The box of a port, as `in r.0`."""
    return place.partition(" ")[2].partition(".")[0]


def boxes(places: Sequence[str]) -> List[str]:
    """The boxes on a way, in order. A box that a packet comes back to at once stands twice."""
    found: List[str] = []
    for number, place in enumerate(places):
        if number == 0 or place.startswith("in ") or box_of(place) != box_of(places[number - 1]):
            found.append(box_of(place))
    return found


def way(places: Sequence[str]) -> str:
    """The boxes on a way in a line."""
    return " > ".join(boxes(places))


class _Lost(Exception):
    """The code and the decisions do not fit, or what the code does is not known."""


class _Walk:
    """A walk along decisions that are given."""

    def __init__(self, job: Job, decisions: Sequence[Decision]):
        self.job, self.decisions = job, decisions
        self.decided: List[str] = []
        self.choices: List[str] = []
        self.met: List[Met] = []

    def take(self, text: str) -> Decision:
        """The next decision, which is that of an instruction."""
        if len(self.decided) == len(self.decisions):
            raise _Lost
        self.decided.append(text)
        return self.decisions[len(self.decided) - 1]

    def table(self, place: str, style: str) -> None:
        """A box with a table: its tests come one after another, up to the first that is true or up to the copy; its output ports test in one style alone."""
        if place.startswith("out "):
            if style == "egress":
                self.take(f"the table of {box_of(place)}")
            return
        self.met.append(Met(place, 0))
        while self.take(f"the table of {box_of(place)}") == "else":
            pass

    def port(self, place: str) -> None:
        """The code of a port."""
        name = box_of(place)
        node = self.job.nodes.get(name)
        if node is None:
            raise _Lost
        if node.style is not None:
            self.table(place, node.style)
            return
        waiting = [iter(self.job.code(place) or ())]
        while waiting:
            step = next(waiting[-1], None)
            if step is None:
                waiting.pop()
            elif step.word in ("forward", "fork", "fail"):
                self.met.append(Met(place, step.line))
                if step.word == "fork":
                    self.take(step.text)
                return
            else:
                waiting += self.enter(step, place)

    def enter(self, step: Statement, place: str) -> List[Iterator[Statement]]:
        """What is run of an instruction that does not end its code: the block that is taken, if it has one."""
        if step.word in _SIDES:
            side = self.take(step.text)
            self.met.append(Met(place, step.line, str(side)))
            if side not in _SIDES[step.word]:
                raise _Lost
            if side == "broken":
                raise _Lost
            return [iter(step.blocks[_SIDES["if"].index(side)])] if step.word == "if" else []
        if step.word == "for" or len(self.choices) == MOST:
            raise _Lost
        if step.chosen is not None:
            self.choices.append(step.chosen)
        return [iter(step.blocks[0])] if step.word == "{" else []


def follow(job: Optional[Job], decisions: Sequence[Decision], places: Sequence[str]) -> Followed:
    """What is met on a way, as far as the job's text tells it: a loop over names, and what is behind it, is not known."""
    if job is None:
        return Followed((), ())
    walk = _Walk(job, decisions)
    try:
        for place in places:
            walk.port(place)
    except (_Lost, NotInput):
        pass
    return Followed(tuple(walk.decided), tuple(walk.choices), tuple(walk.met))
