"""Draws networks for kernel_test.py, each from a seed: routers with routes, bridges, hosts at the edges. kernel_filters.py draws the filters.

A plan says what is set up, in the words of `ip`, `bridge`, `nft` and `iptables-restore`; nothing of it is read again but by the kernel.
"""

import random
from dataclasses import dataclass, field
from ipaddress import IPv4Address, IPv4Interface, IPv4Network
from typing import Dict, List, NamedTuple, Optional, Set, Tuple

# What kinds of networks there are, in turn. The last one wants a kernel that knows VLANs.
KINDS = ("tree", "loop", "switch", "home", "vlans")
TREE, LOOP, SWITCH, HOME, VLANS = KINDS
# The address of Ethernet of each neighbor that the topology does not name.
STRANGER = "02:ff:00:00:00:01"

End = Tuple[str, str]


class Abilities(NamedTuple):
    """What the machine has: the tools of filters, and the parts of its kernel."""

    nft: bool
    iptables: bool
    bridges: bool
    vlans: bool


@dataclass
class Interface:
    """An interface of a box. One with a VLAN stands on the interface `below`; one with a `bridge` is a port of that."""

    name: str
    mac: str
    addresses: List[IPv4Interface] = field(default_factory=list)
    is_up: bool = True
    below: str = ""
    vlan: int = 0
    bridge: str = ""
    is_bridge: bool = False
    # of a bridge, the reserved addresses that it forwards, as bits
    forwarded: int = 0
    # of a port of a bridge that looks at VLANs, the words of `bridge vlan add`
    vlans: List[str] = field(default_factory=list)
    # of a port of a bridge, or of the bridge itself, the words of `bridge fdb add` for each station
    stations: List[str] = field(default_factory=list)

    @property
    def has_wire(self) -> bool:
        return not self.below and not self.is_bridge


@dataclass
class Box:
    """A box: its interfaces, the words of `ip route add` for each route, and what its filters are loaded from."""

    name: str
    interfaces: Dict[str, Interface] = field(default_factory=dict)
    routes: List[str] = field(default_factory=list)
    nft: str = ""
    iptables: str = ""
    is_router: bool = True
    has_vlans: bool = False

    def gateways(self, interface: str) -> Set[str]:
        words = [it.split() for it in self.routes]
        return {row[at + 1] for row in words for at, word in enumerate(row[:-3]) if word == "via" and row[at + 2:at + 4] == ["dev", interface]}


@dataclass
class Host:
    name: str
    at: End
    mac: str
    address: Optional[IPv4Address] = None
    is_up: bool = True


@dataclass
class Values:
    """The values that the configuration names, at whose borders packets are drawn."""

    addresses: Set[int] = field(default_factory=set)
    ports: Set[int] = field(default_factory=set)
    protocols: Set[int] = field(default_factory=lambda: {1, 6, 17})
    ttls: Set[int] = field(default_factory=set)

    def prefix(self, network: IPv4Network) -> None:
        low, high = int(network.network_address), int(network.broadcast_address)
        self.span(low, high)
        self.addresses |= {min(low + 1, high), max(high - 1, low)}

    def span(self, low: int, high: int) -> None:
        self.addresses |= {it for it in (low - 1, low, high, high + 1) if 0 <= it < 1 << 32}


@dataclass
class Plan:
    seed: int
    kind: str
    boxes: Dict[str, Box] = field(default_factory=dict)
    links: List[Tuple[End, End]] = field(default_factory=list)
    hosts: List[Host] = field(default_factory=list)
    # the interfaces that lead out of the network
    edges: List[End] = field(default_factory=list)
    values: Values = field(default_factory=Values)

    def interface(self, end: End) -> Interface:
        return self.boxes[end[0]].interfaces[end[1]]

    @property
    def stations(self) -> Dict[IPv4Address, str]:
        """The addresses of Ethernet that the import may know."""
        found = {one.ip: it.mac for box in self.boxes.values() for it in box.interfaces.values() for one in it.addresses}
        return {**found, **{it.address: it.mac for it in self.hosts if it.address is not None}}

    @property
    def topology(self) -> str:
        lines = [f"{a}.{b} {c}.{d}" for (a, b), (c, d) in self.links]
        lines += [f"host {it.name} {'.'.join(it.at)}{f' {it.address} {it.mac}' if it.address else ''}" for it in self.hosts]
        return "\n".join(lines) + "\n"


class _Drawer:
    def __init__(self, seed: int, kind: str):
        self.drawn = random.Random(f"{seed} {kind}")
        self.plan = Plan(seed, kind)
        self.macs = self.nets = 0
        # of each router the segments that it is on: the network, with the interface
        self.on: Dict[str, List[Tuple[IPv4Network, str]]] = {}
        # the routers of each segment, with their addresses there
        self.routers: Dict[IPv4Network, List[Tuple[str, IPv4Address]]] = {}

    # ------------------------------------------------ parts

    def mac(self) -> str:
        self.macs += 1
        return f"02:00:00:00:{self.macs >> 8:02x}:{self.macs & 255:02x}"

    def network(self, least: int = 30) -> IPv4Network:
        """A network of its own for a segment, with so many addresses that a prefix of `least` bits has."""
        self.nets += 1
        low = int(IPv4Address("10.0.0.0")) + (self.nets << 12)
        made = IPv4Network((low, self.drawn.randint(22, least)))
        self.plan.values.prefix(made)
        return made

    def box(self, name: str, is_router: bool = True) -> Box:
        made = self.plan.boxes[name] = Box(name, is_router=is_router)
        self.on[name] = []
        return made

    def wire(self, box: Box, **more: object) -> Interface:
        """A further interface with a wire."""
        name = f"eth{sum(it.has_wire for it in box.interfaces.values())}"
        made = box.interfaces[name] = Interface(name, self.mac(), **more)  # type: ignore[arg-type]
        return made

    def address(self, box: Box, interface: Interface, network: IPv4Network) -> None:
        """Gives a router an address of a segment."""
        taken = {one.ip for it in self.plan.boxes.values() for face in it.interfaces.values() for one in face.addresses}
        taken |= {it.address for it in self.plan.hosts if it.address}
        ip = next(it for it in network.hosts() if it not in taken)
        interface.addresses.append(IPv4Interface((ip, network.prefixlen)))
        self.on[box.name].append((network, interface.name))
        self.routers.setdefault(network, []).append((box.name, ip))
        self.plan.values.span(int(ip), int(ip))

    def host(self, box: Box, interface: Interface, network: Optional[IPv4Network]) -> Host:
        name = f"h{len(self.plan.hosts) + 1}"
        taken = {it.address for it in self.plan.hosts}
        ip = next(it for it in reversed(list(network.hosts())) if it not in taken) if network else None
        made = Host(name, (box.name, interface.name), self.mac(), ip)
        self.plan.hosts.append(made)
        if ip is not None:
            self.plan.values.span(int(ip), int(ip))
        return made

    def link(self, one: Box, other: Box) -> str:
        """A wire between two routers, with a network of its own; returns the words of a route from the first to the second."""
        network, ends = self.network(), []
        for box in (one, other):
            interface = self.wire(box)
            self.address(box, interface, network)
            ends.append((box.name, interface.name))
        self.plan.links.append((ends[0], ends[1]))
        return f"via {self.routers[network][-1][1]} dev {ends[0][1]}"

    def lan(self, box: Box) -> None:
        """A host at a router, with a network of its own."""
        network, interface = self.network(29), self.wire(box)
        self.address(box, interface, network)
        if self.drawn.random() < 0.3:
            interface.addresses.append(IPv4Interface((int(network.network_address) + (1 << 11) + 1, 24)))
        host = self.host(box, interface, network)
        # the first two hosts are always there
        if len(self.plan.hosts) > 2 and self.drawn.random() < 0.2:
            interface.is_up, host.is_up = self.drawn.choice(((False, True), (True, False)))

    def edge(self, box: Box) -> None:
        """An interface that leads out."""
        network, interface = self.network(), self.wire(box)
        self.address(box, interface, network)
        self.plan.edges.append((box.name, interface.name))

    # ------------------------------------------------ kinds of networks

    def tree(self, count: int) -> None:
        """Routers in a tree, and sometimes one link more."""
        routers = [self.box(f"r{number + 1}") for number in range(count)]
        for number, router in enumerate(routers[1:], 1):
            self.link(router, self.drawn.choice(routers[:number]))
        if count > 1 and self.drawn.random() < 0.4:
            self.link(*self.drawn.sample(routers, 2))
        for router in routers:
            for _ in range(self.drawn.choice((0, 1, 1, 2))):
                self.lan(router)
        while len(self.plan.hosts) < 2:
            self.lan(self.drawn.choice(routers))
        self.edge(self.drawn.choice(routers))

    def circle(self) -> None:
        """Routers in a ring, which all send what they do not know to the next one."""
        routers = [self.box(f"r{number + 1}") for number in range(self.drawn.choice((2, 3)))]
        for one, other in zip(routers, routers[1:] + routers[:1]):
            one.routes.append(f"default {self.link(one, other)}")
        for router in routers[:2]:
            self.lan(router)
        self.edge(routers[-1])

    def bridge(self, box: Box, has_vlans: bool = False) -> Interface:
        box.has_vlans = has_vlans
        made = box.interfaces["br0"] = Interface("br0", self.mac(), is_bridge=True, forwarded=self.drawn.choice((0, 0, 1 << 14, 0xFFF8)))
        return made

    def port(self, box: Box, vlans: Tuple[str, ...] = ()) -> Interface:
        return self.wire(box, bridge="br0", vlans=list(vlans))

    def switched(self) -> None:
        """Hosts and routers at one or two bridges."""
        network = self.network(28)
        switches = [self.box(f"sw{number + 1}", False) for number in range(self.drawn.choice((1, 2)))]
        for switch in switches:
            self.bridge(switch)
        ports = {it.name: {} for it in switches}  # type: Dict[str, Dict[str, str]]
        trunks: Dict[str, str] = {}
        if len(switches) == 2:
            ends = [(it.name, self.port(it).name) for it in switches]
            self.plan.links.append((ends[0], ends[1]))
            trunks = dict(ends)
        for _ in range(self.drawn.choice((2, 3))):
            switch = self.drawn.choice(switches)
            port = self.port(switch)
            ports[switch.name][self.host(switch, port, network).mac] = port.name
        for number in range(self.drawn.choice((1, 2))):
            router, switch = self.box(f"r{number + 1}"), self.drawn.choice(switches)
            interface, port = self.wire(router), self.port(switch)
            self.address(router, interface, network)
            self.plan.links.append(((router.name, interface.name), (switch.name, port.name)))
            ports[switch.name][interface.mac] = port.name
            self.lan(router)
        self.learn(ports, trunks)

    def learn(self, ports: Dict[str, Dict[str, str]], trunks: Dict[str, str]) -> None:
        """Entries of the tables of bridges for most stations; the rest are flooded."""
        for name, box in self.plan.boxes.items():
            for where, known in ports.items():
                for mac, port in known.items():
                    out = port if where == name else trunks.get(name)
                    if name in ports and out and self.drawn.random() < 0.7:
                        box.interfaces[out].stations.append(mac)

    def homely(self) -> None:
        """A router with a bridge of its own, which has an address; and a second one behind it."""
        home, far = self.box("home"), self.box("far")
        network = self.network(28)
        bridge = self.bridge(home)
        ports: Dict[str, Dict[str, str]] = {"home": {}}
        for _ in range(2):
            port = self.port(home)
            ports["home"][self.host(home, port, network).mac] = port.name
        self.address(home, bridge, network)
        if self.drawn.random() < 0.5:
            # by custom a bridge has the address of one of its ports
            bridge.mac = next(it.mac for it in home.interfaces.values() if it.bridge)
        self.link(home, far)
        self.lan(far)
        if self.drawn.random() < 0.5:
            self.edge(far)
        self.learn(ports, {})

    def tagged(self) -> None:
        """A bridge with VLANs, and a router on a trunk."""
        switch, router = self.box("sw1", False), self.box("r1")
        self.bridge(switch, True)
        numbers = self.drawn.sample(range(2, 4000), 2)
        networks = [self.network(28) for _ in numbers]
        trunk, port = self.wire(router), self.port(switch, tuple(map(str, numbers)))
        self.plan.links.append(((router.name, trunk.name), (switch.name, port.name)))
        for vlan, network in zip(numbers, networks):
            name = f"{trunk.name}.{vlan}"
            router.interfaces[name] = Interface(name, trunk.mac, below=trunk.name, vlan=vlan)
            self.address(router, router.interfaces[name], network)
            port.stations += [f"{trunk.mac} vlan {vlan}"] if self.drawn.random() < 0.7 else []
        for number in range(3):
            vlan, network = numbers[number % 2], networks[number % 2]
            words = self.drawn.choice((f"{vlan} pvid untagged", f"{vlan} pvid untagged", f"{vlan} pvid", f"{vlan}"))
            more = [str(numbers[1 - number % 2])] if self.drawn.random() < 0.3 else []
            its = self.port(switch, (words, *more))
            mac = self.host(switch, its, network).mac
            its.stations += [f"{mac} vlan {vlan}"] if self.drawn.random() < 0.7 else []
        self.lan(router)

    # ------------------------------------------------ routes

    def reach(self) -> None:
        """Routes of each router to each segment, by the fewest routers between."""
        for name in self.on:
            known = {network for network, _ in self.on[name]}
            waiting = [(name, "")]
            seen = {name}
            while waiting:
                at, first = waiting.pop(0)
                for network, _ in self.on[at]:
                    if network not in known and first:
                        known.add(network)
                        if self.drawn.random() < 0.9:
                            self.plan.boxes[name].routes.append(f"{network} {first}")
                for hop, words in self.hops(at):
                    if hop not in seen:
                        seen.add(hop)
                        waiting.append((hop, first or words))

    def hops(self, name: str) -> List[Tuple[str, str]]:
        """The next routers of a router, in the words of a route."""
        return [(other, f"via {ip} dev {interface}") for network, interface in self.on[name] for other, ip in self.routers[network]
                if other != name and self.plan.boxes[name].interfaces[interface].is_up]

    def prefix(self) -> IPv4Network:
        """A prefix around an address that is named already, or anywhere."""
        address = self.drawn.choice(sorted(self.plan.values.addresses)) if self.drawn.random() < 0.85 else self.drawn.getrandbits(32)
        made = IPv4Network((address, self.drawn.choice((0, 1, 8, 16, 20, 23, 24, 25, 27, 29, 30, 31, 32, 32))), strict=False)
        self.plan.values.prefix(made)
        return made

    def further(self, box: Box) -> None:
        """Routes to anywhere, also such as lead back, or to nowhere."""
        ways = [words for _, words in self.hops(box.name)]
        for place, name in self.plan.edges:
            if place == box.name:
                network = next(net for net, interface in self.on[place] if interface == name)
                ways.append(f"via {next(it for it in reversed(list(network.hosts())))} dev {name}")
        for number in range(self.drawn.randint(1, 9)):
            prefix, chance = self.prefix(), self.drawn.random()
            if chance < 0.2:
                words = f"{self.drawn.choice(('blackhole', 'unreachable', 'prohibit', 'throw'))} {prefix}"
            elif chance < 0.3 and self.on[box.name]:
                words = f"{prefix} dev {self.drawn.choice(self.on[box.name])[1]}"
            elif chance < 0.36:
                words = f"local {prefix} dev lo"
            elif chance < 0.5 and len(ways) > 1:
                words = f"{prefix} nexthop {' nexthop '.join(self.drawn.sample(ways, 2))}"
            elif ways:
                words = f"{prefix} {self.drawn.choice(ways)}"
            else:
                continue
            box.routes.append(f"{words} metric {number}" if self.drawn.random() < 0.7 and not words.startswith("local") else words)


def draw(seed: int, able: Abilities) -> Optional[Plan]:
    """The network of a seed, without its filters; None where the kernel has not what it wants."""
    kind = KINDS[seed % len(KINDS)]
    if (kind in (SWITCH, HOME) and not able.bridges) or (kind == VLANS and not able.vlans):
        return None
    drawer = _Drawer(seed, kind)
    if kind == TREE:
        drawer.tree(drawer.drawn.choice((1, 2, 3, 4)))
    elif kind == LOOP:
        drawer.circle()
    elif kind == SWITCH:
        drawer.switched()
    elif kind == HOME:
        drawer.homely()
    else:
        drawer.tagged()
    drawer.reach()
    for box in drawer.plan.boxes.values():
        if box.is_router:
            drawer.further(box)
    return drawer.plan
