"""What is read of a network's boxes, apart from the files that it was read of and from the job that is printed of it."""

from dataclasses import dataclass, field
from ipaddress import IPv4Address, IPv4Interface, IPv4Network
from typing import Dict, FrozenSet, List, NamedTuple, Optional, Tuple

# Values of a field: ranges in ascending order, each with its least and its greatest value, with a gap before the next.
Ranges = Tuple[Tuple[int, int], ...]

# The width of each field in bits.
WIDTHS = {"TTL": 8, "protocol": 8, "source address": 32, "destination address": 32, "source port": 16, "destination port": 16,
          "Ethernet destination": 48, "Ethernet source": 48, "Ethernet type": 16, "VLAN": 12}


class Source(NamedTuple):
    """Where something was read: the file, from the folder that is imported, the line and, where a line has several things, the column, both from 1; and what
    stands there, as its tool or its user writes it."""

    file: str
    line: int
    text: str = ""
    column: int = 0

    @property
    def place(self) -> str:
        return f"{self.file}:{self.line}:{self.column}" if self.column else f"{self.file}:{self.line}"


class Refused(Exception):
    """What a file says and a job cannot say, or what is no file of its kind. Line 0 is that of a whole file or folder."""

    def __init__(self, source: Source, what: str):
        super().__init__(f"{source.place if source.line else source.file}: {what}")
        self.source, self.what = source, what


# ---------------------------------------------------------------- sets of values


def ranges_of(parts: "List[Tuple[int, int]]") -> Ranges:
    """The values of all parts."""
    made: List[Tuple[int, int]] = []
    for low, high in sorted(parts):
        if made and low <= made[-1][1] + 1:
            made[-1] = made[-1][0], max(made[-1][1], high)
        else:
            made.append((low, high))
    return tuple(made)


def others(ranges: Ranges, width: int) -> Ranges:
    """The values that are not in the ranges."""
    made, begin = [], 0
    for low, high in ranges:
        made += [(begin, low - 1)] if begin < low else []
        begin = high + 1
    return tuple([*made, (begin, (1 << width) - 1)] if begin < 1 << width else made)


def common(left: Ranges, right: Ranges) -> Ranges:
    """The values that are in both."""
    made, first, second = [], 0, 0
    while first < len(left) and second < len(right):
        low, high = max(left[first][0], right[second][0]), min(left[first][1], right[second][1])
        made += [(low, high)] if low <= high else []
        if left[first][1] < right[second][1]:
            first += 1
        else:
            second += 1
    return tuple(made)


def has(ranges: Ranges, value: int) -> bool:
    return any(low <= value <= high for low, high in ranges)


def of_network(network: IPv4Network) -> Tuple[int, int]:
    return int(network.network_address), int(network.broadcast_address)


# ---------------------------------------------------------------- filters


@dataclass(frozen=True)
class Match:
    """The packets of a test: of each named field the values that it may have, and the interfaces by which they may come and go; None is any. A packet for the box itself
    goes by an interface without a name."""

    fields: Tuple[Tuple[str, Ranges], ...] = ()
    comes: Optional[FrozenSet[str]] = None
    goes: Optional[FrozenSet[str]] = None

    @property
    def is_empty(self) -> bool:
        return any(not ranges for _, ranges in self.fields) or (self.comes is not None and not self.comes) or (self.goes is not None and not self.goes)

    def values(self, name: str) -> Optional[Ranges]:
        return dict(self.fields).get(name)

    def meet(self, other: "Match") -> "Match":
        """The packets of both."""
        fields = dict(self.fields)
        for name, ranges in other.fields:
            fields[name] = common(fields[name], ranges) if name in fields else ranges
        return Match(tuple(fields.items()), _both(self.comes, other.comes), _both(self.goes, other.goes))

    def has(self, packet: Dict[str, int], comes: str, goes: str = "") -> bool:
        return (all(has(ranges, packet[name]) for name, ranges in self.fields) and (self.comes is None or comes in self.comes) and
                (self.goes is None or goes in self.goes))


def _both(left: Optional[FrozenSet[str]], right: Optional[FrozenSet[str]]) -> Optional[FrozenSet[str]]:
    return right if left is None else left if right is None else left & right


ANY = Match()


def test(name: str, parts: "List[Tuple[int, int]]", is_not: bool = False) -> Match:
    """The packets whose field has one of these values, or none of them."""
    ranges = ranges_of(parts)
    return Match(((name, others(ranges, WIDTHS[name]) if is_not else ranges),))


def product(groups: "List[List[Match]]") -> "List[Match]":
    """The packets that are in one match of each group, without matches that have none."""
    made = [ANY]
    for group in groups:
        made = [both for left in made for both in (left.meet(right) for right in group) if not both.is_empty]
    return made


# What becomes of the packets of a rule. A jump comes back behind the rule, a goto to the place behind the jump that led to the rule's chain.
ACCEPT, DROP, REJECT, JUMP, GOTO, RETURN = "accept", "drop", "reject", "jump", "goto", "return"


@dataclass(frozen=True)
class Rule:
    """A rule: its packets are those of any of the matches."""

    matches: Tuple[Match, ...]
    action: str
    source: Source
    # the chain of a jump or a goto
    target: str = ""


@dataclass
class Chain:
    """Rules in their order, and what becomes of a packet that none of them decides: a base chain accepts or drops it, any other returns it."""

    name: str
    rules: List[Rule]
    policy: str
    source: Source


@dataclass
class Filter:
    """Base chains that packets meet one after another, each with the chains that it may jump to."""

    base: Chain
    chains: Dict[str, Chain] = field(default_factory=dict)


# ---------------------------------------------------------------- boxes


@dataclass
class Interface:
    """An interface of a router. `below` is the interface that it stands on, and `vlan` its VLAN there, where it has one. It takes frames for its address and for those of its ports."""

    name: str
    source: Source
    mac: Optional[int] = None
    addresses: List[IPv4Interface] = field(default_factory=list)
    is_up: bool = True
    below: str = ""
    vlan: int = 0
    # of a bridge of the box, the addresses of its ports
    port_macs: Tuple[int, ...] = ()
    inbound: List[Filter] = field(default_factory=list)
    outbound: List[Filter] = field(default_factory=list)


class Hop(NamedTuple):
    """An interface, and the next router behind it; None where the destination itself is there."""

    interface: str
    gateway: Optional[IPv4Address] = None


LOCAL = "local"
# The most routes of a router, which are the rows of its table (docs/statuses.md).
MOST_ROUTES = 200_000


@dataclass(frozen=True)
class Route:
    """Where packets for the prefix go: to hops of equal cost, to the box itself (`local`), or nowhere, by a kind as `blackhole`."""

    prefix: IPv4Network
    source: Source
    hops: Tuple[Hop, ...] = ()
    kind: str = ""


@dataclass
class Router:
    """A router: the first filters are met by each packet that comes, then by those that are forwarded and by those for the box itself."""

    interfaces: Dict[str, Interface]
    routes: List[Route]
    arriving: List[Filter] = field(default_factory=list)
    forwarded: List[Filter] = field(default_factory=list)
    delivered: List[Filter] = field(default_factory=list)
    # whether packets that are forwarded have their TTL counted down
    counts_down: bool = True
    # Packets with these sources, or for these destinations, are dropped before a route is looked up.
    no_sources: Ranges = ()
    no_destinations: Ranges = ()


@dataclass
class BridgePort:
    """A port of a switch: the VLAN of frames that come without a tag (0 is none), the VLANs that it carries, and those whose frames leave without a tag."""

    name: str
    source: Source
    pvid: int = 0
    vlans: FrozenSet[int] = frozenset()
    untagged: FrozenSet[int] = frozenset()


@dataclass(frozen=True)
class Entry:
    """An entry of a table of addresses: frames of the VLAN for the address leave by the port. Of an address of the box itself `device` is the interface that has it."""

    mac: int
    vlan: int
    port: str
    source: Source
    device: str = ""


@dataclass
class Bridge:
    """A switch. Without VLANs (`has_vlans`) tags go through unchanged. A port `itself` leads to the box."""

    name: str
    ports: List[BridgePort]
    entries: List[Entry]
    has_vlans: bool
    source: Source
    # addresses that it does not forward
    reserved: Ranges = ()


ITSELF = "itself"


OUTPUT, SET, COUNT_DOWN, RESUBMIT = "output", "set", "count down", "resubmit"


@dataclass(frozen=True)
class Action:
    """An action of a flow: to send out by a port, to set a field, to count the TTL down, or to go on in another table."""

    kind: str
    name: str = ""
    value: int = 0


@dataclass(frozen=True)
class Flow:
    """A flow: the one with the greatest priority of those that have a packet decides."""

    table: int
    priority: int
    match: Match
    actions: Tuple[Action, ...]
    source: Source


@dataclass
class FlowSwitch:
    """A switch by flows, which name its ports as the topology does."""

    flows: List[Flow]
    ports: List[str]
    source: Source


@dataclass
class Box:
    """A box of the network: a router, switches, or both, where a switch of the box is an interface of its router."""

    name: str
    source: Source
    router: Optional[Router] = None
    bridges: List[Bridge] = field(default_factory=list)
    flow_switch: Optional[FlowSwitch] = None


@dataclass(frozen=True)
class Host:
    """A host at an interface of a box, with its addresses where they are known."""

    name: str
    box: str
    interface: str
    source: Source
    address: Optional[IPv4Address] = None
    mac: Optional[int] = None


@dataclass(frozen=True)
class Link:
    """A link between two interfaces, each a box and a name."""

    ends: Tuple[Tuple[str, str], Tuple[str, str]]
    source: Source


@dataclass
class Network:
    """All of it."""

    boxes: Dict[str, Box]
    links: List[Link]
    hosts: List[Host]
    # what was read and decides no packet of the job, in words
    notes: List[str] = field(default_factory=list)
