"""Jobs that a program makes: boxes, links, the injection and the questions, from tables and lists.

    net = symnet.Net()
    net.router("core", [("10.1.0.0/16", 0), ("0.0.0.0/0", 1)])
    net.filter("acl", ["permit TCP 0.0.0.0/0 198.51.100.0/24 any 443"])
    net.link("core.1", "acl.0")
    net.inject("core.0", tags={"L3": 112, "L4": "L3+160"}, fields=["TTL", "protocol", "source address", "destination address", "source port", "destination port"],
               where=["source address in 10.1.0.0/16"])
    net.ask("reach out acl.0 with destination port == 22")
    print(net.text)
    answers = symnet.ask(net)

The text is the canonical one of the job. Code, conditions and questions are written as in a job, or with names of fields, addresses and protocols (`symnet.spoken`).
"""

from itertools import groupby
from pathlib import Path
from typing import Dict, Iterable, List, Mapping, Optional, Sequence, Tuple, Union

from .inputs import Rule, read_list
from .sefl import address_text, code_lines, condition_text, name_text, net_lines, place_text, question_text
from .spoken import Given, mac_number, number, prefix, protocol, reference, unspoken

Port = Union[str, Tuple[str, int]]
# Rows of a table: an address or a prefix, and the port that it leaves by.
Rows = Union[Mapping[str, int], Iterable[Tuple[str, int]]]
Code = Union[str, Sequence[str]]

# The fields of a filter list, as `model acl` reads them.
_LIST_FIELDS = ("head L3+72:8", "head L3+96:32", "head L3+128:32", "head L4+0:16", "head L4+16:16")


def _port(port: Port) -> str:
    return place_text(port if isinstance(port, str) else f"{port[0]}.{port[1]}")


def _test(rule: Rule) -> str:
    """The test whether a rule contains a packet."""
    return " and ".join(f"{field} in {{{low if low == high else f'{low}..{high}'}}}" for field, (low, high) in zip(_LIST_FIELDS, rule.ranges))


def filter_code(rules: Sequence[Rule], style: str = "grouped") -> str:
    """The code of a filter list, as `model acl` prints it in this style."""
    if style not in ("chain", "grouped"):
        raise ValueError(f"{style!r} is no style of a filter list: chain, grouped")
    runs = [[rule] for rule in rules] if style == "chain" else [list(run) for _, run in groupby(rules, lambda it: it.permits)]
    tests = [(" or ".join(map(_test, run)), "forward 0;" if run[0].permits else 'fail "denied";') for run in runs]
    return " ".join([*(f"if {test} {{ {deed} }} else {{ }}" for test, deed in tests), 'fail "denied";'])


class Net:
    """A job in the making. Its boxes, links, fields and questions stand in the text in the order in which they were made. `version` is that of IP: in 6 the names of
    addresses are those of its header. What is no text of a job raises NotInput or ValueError as it is made; what breaks another rule, as a link of a port
    that is not there, the program refuses."""

    def __init__(self, version: int = 4):
        if version not in (4, 6):
            raise ValueError(f"{version} is no version of IP: 4, 6")
        self.version = version
        # The tables that the job names.
        self.files: Dict[str, str] = {}
        self._nodes: List[str] = []
        self._links: List[str] = []
        self._injection: List[str] = []
        self._asks: List[str] = []

    # ------------------------------------------------ boxes and links

    def node(self, name: str, inputs: int = 1, outputs: int = 1, code: Optional[Mapping[str, Code]] = None) -> "Net":
        """A box with the code of its ports: `{"in 0": "if TTL <= 1 { fail \\"dead\\"; } else { forward 0; }"}`. A port without code has none."""
        lines = [f"node {name_text(name)} {int(inputs)} -> {int(outputs)} {{"]
        for port, given in (code or {}).items():
            text = given if isinstance(given, str) else "\n".join(given)
            lines += [f"  {port} {{", *(f"    {line}" for line in code_lines(unspoken(text, self.version))), "  }"]
        self._nodes += net_lines("\n".join([*lines, "}"]))[0]
        return self

    def forwarder(self, name: str) -> "Net":
        """A box that hands on what comes, by its one output port."""
        return self.node(name, 1, 1, {"in 0": "forward 0;"})

    def sink(self, name: str) -> "Net":
        """A box without an output port, where packets end."""
        return self.node(name, 1, 0)

    def router(self, name: str, routes: Rows, ports: Optional[int] = None, style: str = "grouped") -> "Net":
        """A router by its table: a row is a prefix and the output port. It has as many ports as the rows name, or `ports`."""
        return self._table("fib", name, [(prefix(net), port) for net, port in _rows(routes)], ports, style)

    def switch(self, name: str, addresses: Rows, ports: Optional[int] = None, style: str = "grouped") -> "Net":
        """A switch by its table: a row is an address of Ethernet and the output port."""
        rows = [(":".join(f"{byte:02x}" for byte in mac_number(address).to_bytes(6, "big")), port) for address, port in _rows(addresses)]
        return self._table("mac", name, rows, ports, style)

    def _table(self, kind: str, name: str, rows: List[Tuple[str, int]], ports: Optional[int], style: str) -> "Net":
        count = max([0, *(port for _, port in rows)]) + 1 if ports is None else ports
        file = f"{name_text(name)}.{kind}"
        self._nodes += net_lines(f'node {name} = {kind} "{file}" {style};')[0]
        self.files[file] = "".join([f"ports {int(count)}\n", *(f"{address} {int(port)}\n" for address, port in rows)])
        return self

    def filter(self, name: str, rules: Union[str, Sequence[str]], style: str = "grouped") -> "Net":
        """The box of a filter list: its text, or its rules (docs/filter-lists.md), in which a protocol may have its name. What is permitted leaves by output 0."""
        lines = rules.split("\n") if isinstance(rules, str) else list(rules)
        return self.node(name, 1, 1, {"in 0": filter_code(read_list("\n".join(map(_rule, lines))), style)})

    def add(self, text: str) -> "Net":
        """Nodes and links as text, as those that `symnet.model` returns."""
        nodes, links = net_lines(unspoken(text, self.version))
        self._nodes += nodes
        self._links += links
        return self

    def link(self, source: Port, target: Port) -> "Net":
        """A link from an output port to an input port, each as `r.0` or `("r", 0)`."""
        self._links.append(f"link {_port(source)} -> {_port(target)};")
        return self

    def links(self, rows: Iterable[Tuple[Port, Port]]) -> "Net":
        """Links, each a pair of ports."""
        for source, target in rows:
            self.link(source, target)
        return self

    # ------------------------------------------------ packets and questions

    def inject(self, port: Port, tags: Optional[Mapping[str, Union[int, str]]] = None, fields: Iterable[str] = (), given: Optional[Mapping[str, Given]] = None,
               where: Iterable[str] = ()) -> "Net":
        """The packets: the port that they enter by, the addresses of tags, the fields that may have any value, those with a given value, and what is known of the
        unknown ones."""
        lines = [f"tag {name_text(name)} = {address_text(str(address))};" for name, address in (tags or {}).items()]
        lines += [f"field {reference(name, self.version)};" for name in fields]
        lines += [f"field {reference(name, self.version)} = {number(value, name, self.version)};" for name, value in (given or {}).items()]
        lines += [f"where {condition_text(unspoken(test, self.version))};" for test in where]
        self._injection = [f"inject {_port(port)} {{", *(f"  {line}" for line in lines), "}"]
        return self

    def ask(self, question: str) -> "Net":
        """A question, as `reach out r.0 with destination port == 22`."""
        self._asks.append(f"ask {question_text(unspoken(question, self.version))};")
        return self

    @property
    def text(self) -> str:
        """The canonical text of the job."""
        if not self._injection:
            raise ValueError("the job has no injection: call inject")
        return "\n".join(["symnet 2;", *self._nodes, *self._links, *self._injection, *self._asks, ""])

    def save(self, folder: Union[str, Path], name: str = "net.sefl") -> Path:
        """Writes the job and its tables into a folder, from which the program may be run on it, and returns the file of the job."""
        place = Path(folder, name)
        for file, text in {name: self.text, **self.files}.items():
            Path(folder, file).write_text(text)
        return place

    def __str__(self) -> str:
        return self.text


def _rows(rows: Rows) -> Iterable[Tuple[str, int]]:
    return rows.items() if isinstance(rows, Mapping) else rows


def _rule(line: str) -> str:
    """A rule with the number of its protocol."""
    words = line.split("#")[0].split()
    found = protocol(words[1]) if len(words) > 1 else None
    return line if found is None else " ".join([words[0], str(found), *words[2:]])
