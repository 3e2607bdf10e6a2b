"""Switches as boxes of a job: an input and an output port for each port of the switch.

The VLAN of a frame is the metadata `vlan`, 0 for a frame without a tag. A frame for an address of the table goes to its port, every other to all ports of its VLAN; none goes
out by the port that it came by (IEEE 802.1Q, 8.6).
"""

from typing import Dict, List, Optional, Sequence, Tuple

from .code import Do, If, JobText, Node, Origin, Step, fail, forward, is_in
from .model import ITSELF, Box, Bridge, BridgePort, Entry, Refused, ranges_of
from .parts import Built, Names

_PORTS = 1024
# The most ranges of a job (docs/statuses.md).
_RANGES = 4_000_000


class _Printer:
    def __init__(self, bridge: Bridge, has_itself: bool, own: Optional[int]):
        """`own` is the address of the switch as an interface of its box's router."""
        self.bridge, self.own = bridge, own
        self.ports = bridge.ports if has_itself else bridge.ports[:-1]
        self.has_itself = has_itself
        self.number = {port.name: number for number, port in enumerate(self.ports)}
        self.by_vlan: Dict[int, Dict[str, List[Entry]]] = {}
        for entry in bridge.entries:
            self.by_vlan.setdefault(entry.vlan, {}).setdefault(entry.port, []).append(entry)
        carried = {vlan for port in bridge.ports for vlan in port.vlans}
        self.groups: Dict[Tuple[str, ...], List[int]] = {}
        self.alone: List[int] = []
        for vlan in sorted(carried):
            if vlan in self.by_vlan:
                self.alone.append(vlan)
            else:
                # VLANs without entries are alike where the same ports carry them
                self.groups.setdefault(tuple(it.name for it in self.ports if vlan in it.vlans), []).append(vlan)

    def arriving(self, port: BridgePort) -> List[Step]:
        """The code of an input port."""
        made: List[Step] = [If(is_in("Ethernet destination", self.bridge.reserved), [fail("an address that no switch forwards")])]
        if not self.bridge.has_vlans:
            if not port.vlans:
                return [fail(f"the port {port.name} does not forward")]
            return [*made, *self.forwarding(port, 0)]
        if not port.vlans:
            return [fail(f"the port {port.name} carries no VLAN", port.source)]
        untagged = [Do(f"set global vlan:12 = {port.pvid};")] if port.pvid else [fail(f"a frame without a tag at {port.name}", port.source)]
        made.append(If(is_in("VLAN", ((0, 0),)), untagged, (), Origin((port.source,))))
        parts = [[vlan] for vlan in self.alone if vlan in port.vlans] + [vlans for names, vlans in self.groups.items() if port.name in names]
        for vlans in sorted(parts):
            made.append(If(is_in("VLAN", ranges_of([(it, it) for it in vlans])), self.forwarding(port, vlans[0]), (), Origin((port.source,))))
        return [*made, fail(f"a VLAN that {port.name} does not carry", port.source)]

    def forwarding(self, port: BridgePort, vlan: int) -> List[Step]:
        """What is done with a frame of the VLAN that came by the port."""
        made: List[Step] = []
        entries = self.by_vlan.get(vlan, {})
        names = [it.name for it in self.bridge.ports]
        for name in sorted(entries, key=lambda it: names.index(it) if it in names else len(names)):
            for mine in self.apart(port, entries[name]):
                made.append(If(is_in("Ethernet destination", ranges_of([(it.mac, it.mac) for it in mine])), [self.towards(port, name, vlan, mine)], (), _origin(mine)))
        others = [number for name, number in self.number.items() if name != port.name and vlan in self.ports[number].vlans]
        flood = f"fork {', '.join(map(str, others))};" if len(others) > 1 else f"forward {others[0]};" if others else ""
        return [*made, Do(flood) if flood else fail("no other port carries the VLAN")]

    def is_elsewhere(self, port: BridgePort, entry: Entry) -> bool:
        """Whether an entry is of another port of the box: the router of the box takes such a frame by that port alone."""
        return self.has_itself and entry.port == ITSELF and entry.mac != self.own and entry.device not in ("", port.name)

    def apart(self, port: BridgePort, entries: Sequence[Entry]) -> List[List[Entry]]:
        """Entries of one port, in parts that are alike for a frame that came by the other one."""
        parts = [[it for it in entries if self.is_elsewhere(port, it) == is_elsewhere] for is_elsewhere in (False, True)]
        return [it for it in parts if it]

    def towards(self, port: BridgePort, name: str, vlan: int, entries: Sequence[Entry]) -> Step:
        """What is done with a frame that the table sends to the port of this name."""
        if name == port.name:
            return fail("its port is the one that it came by", entries[0].source)
        if self.is_elsewhere(port, entries[0]):
            return fail("a frame for another port of the box", entries[0].source)
        if name == ITSELF and not self.has_itself:
            return fail("a frame for the switch itself", entries[0].source)
        if name not in self.number:
            raise Refused(entries[0].source, f"an entry for {name}, which is no port of {self.bridge.name}")
        if vlan not in self.ports[self.number[name]].vlans:
            return fail(f"its port {name} does not carry the VLAN", entries[0].source)
        return forward(self.number[name])

    def leaving(self, port: BridgePort) -> List[Step]:
        """The code of an output port: the tag is taken off where the port sends frames of the VLAN without one."""
        untagged = port.untagged & port.vlans
        if not self.bridge.has_vlans or not untagged:
            return []
        take = Do("set global vlan:12 = 0;", Origin((port.source,)))
        return [take] if untagged == port.vlans else [If(is_in("VLAN", ranges_of([(it, it) for it in untagged])), [take], (), Origin((port.source,)))]


def _origin(entries: Sequence[Entry]) -> Origin:
    return Origin(tuple(it.source for it in entries), "Ethernet destination", tuple((it.mac, it.mac) for it in entries))


def print_bridge(box: Box, bridge: Bridge, job: JobText, names: Names, places: Dict[str, str], has_itself: bool) -> Built:
    """Adds the node of a switch to the job. `has_itself` says that the switch is an interface of its box's router, which then has the name of the switch."""
    out = _Printer(bridge, has_itself, box.router.interfaces[bridge.name].mac if box.router and has_itself else None)
    if len(out.ports) > _PORTS:
        raise Refused(box.source, f"the switch {bridge.name} has {len(out.ports):,} ports, and a box of a job has at most {_PORTS:,}")
    if len(out.ports) * len(bridge.entries) > _RANGES:
        raise Refused(bridge.source, f"{len(bridge.entries):,} entries for {len(out.ports):,} ports come to more than {_RANGES:,} tests")
    is_alone = not box.router and len(box.bridges) == 1
    name = names.of(box.name) if is_alone else names.part(box.name, "".join(it if it.isascii() and it.isalnum() else "_" for it in bridge.name))
    code: Dict[str, Sequence[Step]] = {f"in {number}": out.arriving(port) for number, port in enumerate(out.ports)}
    code.update({f"out {number}": steps for number, port in enumerate(out.ports) if (steps := out.leaving(port))})
    job.nodes.append(Node(name, len(out.ports), len(out.ports), code, Origin((box.source,))))
    own = {port.name: bridge.name if port.name == ITSELF else port.name for port in out.ports}
    places.update({f"{side} {name}.{number}": f"{box.name}.{own[port.name]}" for number, port in enumerate(out.ports) for side in ("in", "out")})
    return Built({own[port.name]: (name, number) for number, port in enumerate(out.ports)}, {own[port.name]: [(name, number)] for number, port in enumerate(out.ports)})
