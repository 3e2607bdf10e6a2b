"""The text of a job in the making: boxes with their code, tables, links, the injection and questions; and of each item of the text where it comes from.

Items are numbered as docs/language.md says: from 0, in the order in which they begin in the text.
"""

from dataclasses import dataclass, field
from ipaddress import IPv4Network
from typing import Dict, Iterable, List, NamedTuple, Optional, Sequence, Tuple, Union

from .model import Ranges, Refused, Source

# The most that may be nested, and the most instructions of a job (docs/grammar.md, docs/statuses.md).
DEEPEST, MOST = 60, 1_000_000
_REFERENCES = {"TTL": "head L3+64:8", "protocol": "head L3+72:8", "source address": "head L3+96:32", "destination address": "head L3+128:32",
               "source port": "head L4+0:16", "destination port": "head L4+16:16", "Ethernet destination": "head L2+0:48", "Ethernet source": "head L2+48:48",
               "Ethernet type": "head L2+96:16", "VLAN": "global vlan:12", "arrival": "global arrival:16", "host": "global host:16"}
_LONGEST_MESSAGE, LONGEST_COMMENT = 140, 4000


class Origin(NamedTuple):
    """Where an item comes from. Where several places stand behind one test, each has the values of the field that are its own."""

    sources: Tuple[Source, ...]
    name: str = ""
    values: Tuple[Tuple[int, int], ...] = ()


@dataclass(frozen=True)
class Do:
    """An instruction without blocks."""

    text: str
    origin: Optional[Origin] = None


@dataclass(frozen=True)
class If:
    test: str
    then: "Sequence[Step]"
    other: "Sequence[Step]" = ()
    origin: Optional[Origin] = None


Step = Union[Do, If]


def reference(name: str) -> str:
    return _REFERENCES[name]


def is_in(name: str, ranges: Ranges) -> str:
    """The test that a field has one of these values."""
    if len(ranges) == 1 and ranges[0][0] == ranges[0][1]:
        return f"{reference(name)} == {ranges[0][0]}"
    return f"{reference(name)} in {{{', '.join(str(low) if low == high else f'{low}..{high}' for low, high in ranges)}}}"


def message(text: str, most: int = _LONGEST_MESSAGE) -> str:
    """A text that a `fail` or a comment may have, whatever was read."""
    plain = text.replace('"', "'")
    if not plain.isprintable():
        plain = "".join(it if it.isprintable() else " " for it in plain)
    return plain if len(plain) <= most else f"{plain[:most - 2]}.."


def fail(text: str, source: Optional[Source] = None) -> Do:
    return Do(f'fail "{message(text)}";', Origin((source,)) if source else None)


def forward(port: int) -> Do:
    return Do(f"forward {port};")


# ---------------------------------------------------------------- boxes


@dataclass
class Node:
    """A box with code: of each port, as `in 0`, its steps."""

    name: str
    inputs: int
    outputs: int
    code: Dict[str, Sequence[Step]]
    origin: Optional[Origin] = None


class Row(NamedTuple):
    """A row of a table of routes."""

    prefix: str
    port: int
    source: Source


@dataclass
class Table:
    """A box with a table of routes."""

    name: str
    ports: int
    rows: List[Row]
    style: str

    @property
    def file(self) -> str:
        return f"{self.name}.fib"

    @property
    def items(self) -> int:
        """How many items of the job its node is: the node, its code, a test with its `forward` for each row or for each port that has addresses, and a `fail`."""
        tests = len(self.rows) if self.style == "chain" else len({self.rows[at].port for at in self.deciding()})
        return 3 + 2 * tests

    def deciding(self) -> Iterable[int]:
        """The rows that decide an address: those whose longer prefixes leave one."""
        prefixes = [IPv4Network(row.prefix) for row in self.rows]
        open_: List[Tuple[int, int, int]] = []
        covered = [0] * len(prefixes)
        for at in sorted(range(len(prefixes)), key=lambda it: (int(prefixes[it].network_address), prefixes[it].prefixlen)):
            low, size = int(prefixes[at].network_address), prefixes[at].num_addresses
            while open_ and open_[-1][1] <= low:
                open_.pop()
            if open_:
                covered[open_[-1][2]] += size
            open_.append((low, low + size, at))
        return [at for at, prefix in enumerate(prefixes) if covered[at] < prefix.num_addresses]

    @property
    def text(self) -> str:
        """The file of the table: each row with a comment that says where it comes from."""
        rows = (f"{row.prefix} {row.port}  # {message(f'{row.source.place}: {row.source.text}')}".rstrip(": ") for row in self.rows)
        return "".join(f"{line.encode('ascii', 'replace').decode()}\n" for line in (f"ports {self.ports}", *rows))


Port = Tuple[str, int]


@dataclass
class JobText:
    """The parts of a job."""

    nodes: List[Union[Node, Table]] = field(default_factory=list)
    links: List[Tuple[Port, Port]] = field(default_factory=list)
    start: Port = ("", 0)
    tags: List[Tuple[str, str]] = field(default_factory=list)
    fields: List[str] = field(default_factory=list)
    wheres: List[str] = field(default_factory=list)
    # each question, and what it asks in words
    asks: List[Tuple[str, str]] = field(default_factory=list)
    head: List[str] = field(default_factory=list)


class Printed(NamedTuple):
    """The text, and of its items those that come from a place of a file; of each box with a table its item."""

    text: str
    origins: Dict[int, Origin]
    lines: Dict[int, int]


class _Printer:
    def __init__(self) -> None:
        self.lines: List[str] = []
        self.item = 0
        self.origins: Dict[int, Origin] = {}
        self.line_of: Dict[int, int] = {}

    def begin(self, line: str, origin: Optional[Origin] = None) -> None:
        """A line that begins an item."""
        self.lines.append(line)
        self.line_of[self.item] = len(self.lines)
        if origin is not None:
            self.origins[self.item] = origin
        self.item += 1

    def steps(self, steps: Iterable[Step], depth: int) -> None:
        blanks = "  " * depth
        for step in steps:
            if isinstance(step, Do):
                self.begin(f"{blanks}{step.text}", step.origin)
                continue
            self.begin(f"{blanks}if {step.test} {{", step.origin)
            self.steps(step.then, depth + 1)
            self.lines.append(f"{blanks}}} else {{")
            self.steps(step.other, depth + 1)
            self.lines.append(f"{blanks}}}")

    def node(self, node: Union[Node, Table]) -> None:
        if isinstance(node, Table):
            self.begin(f'node {node.name} = fib "{node.file}" {node.style};')
            # the code that the table becomes has items, too
            self.item += node.items - 1
            return
        self.begin(f"node {node.name} {node.inputs} -> {node.outputs} {{", node.origin)
        for port, steps in node.code.items():
            self.begin(f"  {port} {{")
            self.steps(steps, 2)
            self.lines.append("  }")
        self.lines.append("}")


def printed(job: JobText) -> Printed:
    """The text of the job, in the canonical form except for its comments."""
    out = _Printer()
    out.lines += [*(f"// {message(line, LONGEST_COMMENT)}" for line in job.head), "symnet 2;"]
    for node in job.nodes:
        out.node(node)
    for source, target in job.links:
        out.begin(f"link {source[0]}.{source[1]} -> {target[0]}.{target[1]};")
    out.begin(f"inject {job.start[0]}.{job.start[1]} {{")
    for line in (*(f"tag {name} = {address}" for name, address in job.tags), *(f"field {it}" for it in job.fields), *(f"where {it}" for it in job.wheres)):
        out.begin(f"  {line};")
    out.lines.append("}")
    for question, words in job.asks:
        out.lines.append(f"// {words}")
        out.begin(f"ask {question};")
    if out.item > MOST:
        raise Refused(Source("the job", 0), f"it has {out.item:,} items, and the program takes {MOST:,}: take fewer boxes at a time")
    return Printed("\n".join([*out.lines, ""]), out.origins, out.line_of)
