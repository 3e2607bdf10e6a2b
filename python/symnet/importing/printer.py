"""Prints a network as a job: boxes in the forms that the language has today. Another form of a box changes this module and those of the boxes alone."""

from ipaddress import IPv4Address
from typing import Dict, List, NamedTuple, Optional, Tuple

from .code import If, JobText, Node, Origin, Printed, Step, Table, forward, printed
from .flows import print_flows
from .model import Box, Network, Refused, Source
from .parts import Built, Names, Surroundings
from .routers import print_router
from .switches import print_bridge

# The most questions of a job (docs/statuses.md).
_QUESTIONS = 256
# For how many hosts each pair has its question.
_PAIRS = 12
IPV4 = 0x0800


class Job(NamedTuple):
    """A job, the tables beside it by their names, and what its parts are."""

    text: str
    files: Dict[str, str]
    printed: Printed
    tables: List[Table]
    # of each port of the job what it is in the network, as `in r1.0`
    places: Dict[str, str]
    # of each node the box or the host that it is a part of
    owners: Dict[str, str]
    hosts: List[str]
    hops: int


def _addresses(network: Network) -> Dict[IPv4Address, Optional[int]]:
    """The Ethernet addresses that are known of those of IPv4; None where two boxes have one address."""
    found: Dict[IPv4Address, Optional[int]] = {}

    def add(address: IPv4Address, mac: Optional[int]) -> None:
        found[address] = mac if found.get(address, mac) == mac else None

    for box in network.boxes.values():
        for interface in box.router.interfaces.values() if box.router else ():
            for one in interface.addresses:
                add(one.ip, interface.mac)
    for host in network.hosts:
        if host.address is not None:
            add(host.address, host.mac)
    return found


def _surroundings(network: Network) -> Surroundings:
    boxes = network.boxes.values()
    has_frames = any(box.bridges or box.flow_switch for box in boxes) or any(it.below for box in boxes if box.router for it in box.router.interfaces.values())
    has_packets = any(box.router or box.flow_switch for box in boxes)
    return Surroundings(has_frames, has_packets, _addresses(network))


def _print_box(box: Box, job: JobText, names: Names, around: Surroundings, style: str, places: Dict[str, str], tables: List[Table]) -> Built:
    """The nodes of a box, and the ports of its interfaces."""
    built = Built({}, {})
    if box.router:
        built = print_router(box, job, names, around, style, places)
    for bridge in box.bridges:
        inner = print_bridge(box, bridge, job, names, places, bool(box.router and bridge.name in box.router.interfaces))
        own = bridge.name
        if own in built.inputs:
            # the switch is an interface of the router
            job.links += [(port, built.inputs[own]) for port in inner.outputs.pop(own)]
            job.links += [(port, inner.inputs[own]) for port in built.outputs.pop(own, [])]
            del built.inputs[own], inner.inputs[own]
        built = Built({**built.inputs, **inner.inputs}, {**built.outputs, **inner.outputs})
    if box.flow_switch:
        built = print_flows(box, box.flow_switch, job, names, places)
    tables += [it for it in job.nodes if isinstance(it, Table) and it not in tables]
    return built


def _host(name: str, job: JobText, places: Dict[str, str], origin: Origin) -> None:
    job.nodes.append(Node(name, 2, 2, {"in 0": [forward(0)], "in 1": [forward(1)]}, origin))
    places.update({f"in {name}.0": f"host {name}, arriving", f"out {name}.0": f"host {name}", f"in {name}.1": f"host {name}, sending", f"out {name}.1": f"host {name}, sending"})


def _entry(hosts: List[str], job: JobText, names: Names, places: Dict[str, str]) -> None:
    """Where packets enter: at the one host, or at a box that tells by the number of the host which one it is."""
    if len(hosts) == 1:
        job.start = hosts[0], 1
        return
    if len(hosts) > 1024:
        raise Refused(Source("topology", 0), f"it has {len(hosts):,} hosts, and a box of a job has at most 1,024 ports: take fewer hosts at a time")
    name = names.take("entry")
    code: List[Step] = [If(f"global host:16 == {number}", [forward(number)]) for number in range(len(hosts) - 1)]
    job.nodes.append(Node(name, 1, len(hosts), {"in 0": [*code, forward(len(hosts) - 1)]}))
    job.links += [((name, number), (host, 1)) for number, host in enumerate(hosts)]
    places.update({f"out {name}.{number}": f"what host {host} sends" for number, host in enumerate(hosts)})
    places[f"in {name}.0"] = "what any host sends"
    job.start = name, 0
    job.fields.append("global host:16")
    job.wheres.append(f"global host:16 < {len(hosts)}")


def _fields(job: JobText, around: Surroundings) -> None:
    job.tags += [("L2", "0")] if around.has_frames else []
    job.tags += [("L3", "112"), ("L4", "L3+160")] if around.has_packets else []
    if around.has_frames:
        job.fields += ["global vlan:12 = 0", "head L2+0:48", "head L2+48:48", f"head L2+96:16 = {IPV4}" if around.has_packets else "head L2+96:16"]
    if around.has_packets:
        job.fields += ["head L3+64:8", "head L3+72:8", "head L3+96:32", "head L3+128:32", "head L4+0:16", "head L4+16:16"]


def _ask(network: Network, hosts: List[str], job: JobText, around: Surroundings, selves: List[Tuple[str, str]], edges: List[Tuple[str, str]]) -> None:
    """The questions that are commonly asked, with the words of each."""
    asks = job.asks
    address = {host.name: host.address for host in network.hosts}
    for at, name in enumerate(hosts):
        host = network.hosts[at]
        is_for = [f"head L3+128:32 == {int(host.address)}"] if around.has_packets and host.address is not None else []
        whose = f" for {host.address}" if is_for else ""
        senders = [it for it in range(len(hosts)) if it != at]
        if len(hosts) > _PAIRS or len(hosts) == 1:
            asks.append((_reach(f"in {name}.0", is_for), f"does a packet{whose} come to host {name}?"))
            continue
        for sender in senders:
            origin = address[network.hosts[sender].name]
            is_from = [f"head L3+96:32 == {int(origin)}"] if around.has_packets and origin is not None else []
            asks.append((_reach(f"in {name}.0", [f"global host:16 == {sender}", *is_from, *is_for]), f"does a packet of host {hosts[sender]}{whose} come to host {name}?"))
    for name, place in selves:
        ssh = "head L3+72:8 == 6 and head L4+16:16 == 22"
        asks.append((f"reach {place} with {ssh}", f"does a packet of ssh come to {name} itself?"))
    for name, place in edges:
        asks.append((f"reach {place}", f"does a packet leave the network by {name}?"))
    for name in hosts:
        for words, target in (("source address", "head L3+96:32"), ("destination address", "head L3+128:32")) if around.has_packets else ():
            asks.append((f"visible {target} at in {name}.0", f"does each packet come to host {name} with the {words} that it was sent with?"))
    del asks[_QUESTIONS:]


def _reach(place: str, tests: List[str]) -> str:
    return f"reach {place} with {' and '.join(tests)}" if tests else f"reach {place}"


def print_network(network: Network, folder: str, style: str = "grouped") -> Job:
    """The job of a network. `style` is that of tables of routes (docs/formats.md, "Tables")."""
    job, names, around = JobText(), Names(), _surroundings(network)
    places: Dict[str, str] = {}
    tables: List[Table] = []
    for name, source in [*((it.name, it.source) for it in network.boxes.values()), *((it.name, it.source) for it in network.hosts)]:
        names.reserve(name, source)
    hosts = [names.of(host.name) for host in network.hosts]
    built = {name: _print_box(box, job, names, around, style, places, tables) for name, box in network.boxes.items()}
    for host, name in zip(network.hosts, hosts):
        _host(name, job, places, Origin((host.source,)))
    _entry(hosts, job, names, places)
    linked = set()
    for link in network.links:
        for (one, first), (other, second) in (link.ends, link.ends[::-1]):
            job.links += [(port, built[other].inputs[second]) for port in built[one].outputs.get(first, [])]
            linked.add((one, first))
    for host, name in zip(network.hosts, hosts):
        job.links.append(((name, 1), built[host.box].inputs[host.interface]))
        job.links += [(port, (name, 0)) for port in built[host.box].outputs.get(host.interface, [])]
        linked.add((host.box, host.interface))
    _fields(job, around)
    # behind the filters of what is for the router itself
    selves = [(name, f"out {names.made(name, 'self')}.0") for name, box in network.boxes.items() if box.router]
    edges = [(places[f"out {port[0]}.{port[1]}"], f"out {port[0]}.{port[1]}") for name, it in built.items() for interface, ports in it.outputs.items()
             if (name, interface) not in linked for port in ports]
    _ask(network, hosts, job, around, selves, edges)
    hops = min(256, max(16, 4 + len(job.nodes)))
    job.head = _head(folder, network, hosts, hops)
    made = printed(job)
    return Job(made.text, {it.file: it.text for it in tables}, made, tables, places, names.owners(), hosts, hops)


def _head(folder: str, network: Network, hosts: List[str], hops: int) -> List[str]:
    """The comment that the job begins with."""
    boxes = ", ".join(network.boxes)
    lines = [f"The network of {folder}, as its boxes print it: {boxes}. Made by `symnet import`.", "Give `--cases all`, and `--hops` where a way is longer than 16 boxes of this job."]
    if len(hosts) > 1:
        lines.append("Packets enter at each host: " + ", ".join(f"{name} is global host:16 == {number}" for number, name in enumerate(hosts)) + ".")
    return [*lines, *network.notes]
