"""What the printers of all kinds of boxes share: names of nodes, the ports of interfaces, and what is known of the whole network."""

from ipaddress import IPv4Address
from typing import Dict, List, NamedTuple, Optional, Set, Tuple

from .code import Port
from .model import Refused, Source


class Built(NamedTuple):
    """The ports of a box's interfaces: of each the input port, and the output ports that lead out by it."""

    inputs: Dict[str, Port]
    outputs: Dict[str, List[Port]]


class Surroundings(NamedTuple):
    """Whether the packets of the job have an Ethernet header and a VLAN, whether they have an IP header, and the Ethernet addresses that are known of those of IPv4."""

    has_frames: bool
    has_packets: bool
    macs: Dict[IPv4Address, Optional[int]]


class Names:
    """Names of nodes: those of boxes and hosts as the user has them, with `_` for `-`, and others made of them."""

    def __init__(self) -> None:
        self.taken: Set[str] = set()
        self.given: Dict[str, str] = {}
        self.parts: Dict[Tuple[str, str], str] = {}

    def reserve(self, name: str, source: Source) -> None:
        """Takes the name of a box or of a host."""
        made = name.replace("-", "_")
        if made in self.taken:
            raise Refused(source, f"{name} is {made} in the job, and so is another box or host: names of a job have no `-`")
        self.taken.add(made)
        self.given[name] = made

    def of(self, name: str) -> str:
        return self.given[name]

    def take(self, name: str) -> str:
        """A name that no node has."""
        made, number = name, 1
        while made in self.taken:
            number += 1
            made = f"{name}_{number}"
        self.taken.add(made)
        return made

    def part(self, box: str, part: str) -> str:
        """The name of a node of a box."""
        made = self.take(f"{self.given[box]}_{part}")
        self.parts[box, part] = made
        return made

    def made(self, box: str, part: str) -> str:
        return self.parts[box, part]

    def owners(self) -> Dict[str, str]:
        """Of each node of a box or a host whose it is."""
        return {**{made: name for name, made in self.given.items()}, **{made: box for (box, _), made in self.parts.items()}}
