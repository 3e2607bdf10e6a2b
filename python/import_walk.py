"""What becomes of one packet in a network that was imported, by plain evaluation of what was read: import_test.py compares it with the walks of the job.

A packet is a dict of its fields by the names of `symnet.importing.model.WIDTHS`.
"""

from typing import Dict, FrozenSet, List, Optional, Set, Tuple

from symnet.importing.model import (ACCEPT, COUNT_DOWN, DROP, GOTO, ITSELF, JUMP, LOCAL, OUTPUT, REJECT, RETURN, SET, Box, Bridge, Filter, FlowSwitch, Hop, Network, Router, has)

Packet = Dict[str, int]
# Where a packet ends: at a host, at a box itself, or behind an interface without a link; with its fields. What is dropped ends nowhere.
End = Tuple[str, str, Tuple[Tuple[str, int], ...]]


def frozen(packet: Packet) -> Tuple[Tuple[str, int], ...]:
    return tuple(sorted(packet.items()))


def accepts(filter_: Filter, packet: Packet, comes: str, goes: str = "") -> bool:
    """Whether a filter lets the packet through."""

    def run(chain) -> Optional[bool]:
        for rule in chain.rules:
            if not any(match.has(packet, comes, goes) for match in rule.matches):
                continue
            if rule.action in (ACCEPT, DROP, REJECT):
                return rule.action == ACCEPT
            if rule.action == RETURN:
                return None
            found = run(filter_.chains[rule.target])
            if found is not None or rule.action == GOTO:
                return found
            assert rule.action == JUMP
        return None

    found = run(filter_.base)
    return found if found is not None else filter_.base.policy == ACCEPT


class Walker:
    def __init__(self, network: Network, has_frames: bool):
        self.network, self.has_frames = network, has_frames
        self.peers: Dict[Tuple[str, str], Tuple[str, str]] = {}
        for link in network.links:
            self.peers[link.ends[0]], self.peers[link.ends[1]] = link.ends[1], link.ends[0]
        self.hosts = {(it.box, it.interface): it.name for it in network.hosts}
        self.macs = {one.ip: it.mac for box in network.boxes.values() if box.router for it in box.router.interfaces.values() for one in it.addresses}
        self.macs.update({it.address: it.mac for it in network.hosts if it.address})

    def ends(self, host: str, packet: Packet) -> Set[End]:
        start = next(it for it in self.network.hosts if it.name == host)
        found: Set[End] = set()
        waiting: List[Tuple[str, str, Packet]] = [(start.box, start.interface, dict(packet))]
        for _ in range(3000):
            if not waiting:
                return found
            name, interface, now = waiting.pop()
            for out, left in self.box(self.network.boxes[name], interface, now, found):
                there = name, out
                if there in self.hosts:
                    found.add(("host", self.hosts[there], frozen(left)))
                elif there in self.peers:
                    waiting.append((*self.peers[there], left))
                else:
                    found.add(("edge", f"{name}.{out}", frozen(left)))
        raise AssertionError("the packet goes round")

    def box(self, box: Box, interface: str, packet: Packet, found: Set[End]) -> List[Tuple[str, Packet]]:
        if box.flow_switch:
            return self.flows(box.flow_switch, 0, interface, packet)
        for bridge in box.bridges:
            if interface in [it.name for it in bridge.ports]:
                return self.inside(box, bridge, self.bridge(box, bridge, interface, packet), found)
        assert box.router
        made = self.router(box.name, box.router, interface, packet, found)
        for bridge in box.bridges:
            into = [left for out, left in made if out == bridge.name]
            made = [it for it in made if it[0] != bridge.name] + [it for left in into for it in self.inside(box, bridge, self.bridge(box, bridge, ITSELF, left), found)]
        return made

    def inside(self, box: Box, bridge: Bridge, made: List[Tuple[str, Packet]], found: Set[End]) -> List[Tuple[str, Packet]]:
        """What comes of frames that a switch sends to the router of its box."""
        there = [it for it in made if it[0] != ITSELF]
        for out, left in made:
            if out == ITSELF:
                there += self.box(box, bridge.name, left, found)
        return there

    # ------------------------------------------------ routers

    def router(self, name: str, router: Router, wire: str, packet: Packet, found: Set[End]) -> List[Tuple[str, Packet]]:
        interface = router.interfaces[wire]
        if self.has_frames:
            if interface.mac is not None and packet["Ethernet destination"] not in (interface.mac, *interface.port_macs):
                return []
            above = [it for it in router.interfaces.values() if it.below == wire and it.vlan == packet["VLAN"]]
            if packet["VLAN"] and not above:
                return []
            interface = above[0] if above else interface
        comes = interface.name
        if not interface.is_up or not all(accepts(it, packet, comes) for it in [*router.arriving, *interface.inbound]):
            return []
        if has(router.no_sources, packet["source address"]) and not (packet["source address"] == 0 and packet["destination address"] == 0xFFFFFFFF):
            return []
        if has(router.no_destinations, packet["destination address"]):
            return []
        routes = [it for it in router.routes if int(it.prefix.network_address) <= packet["destination address"] <= int(it.prefix.broadcast_address)]
        if not routes:
            return []
        route = max(routes, key=lambda it: it.prefix.prefixlen)
        if route.kind == LOCAL and all(accepts(it, packet, comes) for it in router.delivered):
            found.add(("itself", name, frozen(packet)))
        return [made for hop in route.hops for made in self.hop(router, hop, comes, dict(packet))]

    def hop(self, router: Router, hop: Hop, comes: str, packet: Packet) -> List[Tuple[str, Packet]]:
        interface = router.interfaces[hop.interface]
        if not interface.is_up:
            return []
        if router.counts_down:
            if packet["TTL"] <= 1:
                return []
            packet["TTL"] -= 1
        if not all(accepts(it, packet, comes, hop.interface) for it in [*router.forwarded, *interface.outbound]):
            return []
        if self.has_frames:
            target = hop.gateway or next((it for it in self.macs if int(it) == packet["destination address"]), None)
            assert interface.mac is not None and self.macs.get(target) is not None, "an address that is not known"
            packet.update({"Ethernet source": interface.mac, "Ethernet destination": self.macs[target], "VLAN": interface.vlan})
        return [(interface.below or interface.name, packet)]

    # ------------------------------------------------ switches

    def bridge(self, box: Box, bridge: Bridge, name: str, packet: Packet) -> List[Tuple[str, Packet]]:
        has_itself = bool(box.router and bridge.name in box.router.interfaces)
        ports = {it.name: it for it in bridge.ports if it.name != ITSELF or has_itself}
        if has(bridge.reserved, packet["Ethernet destination"]):
            return []
        vlan = packet["VLAN"] if bridge.has_vlans else 0
        if bridge.has_vlans and vlan == 0:
            vlan = ports[name].pvid
        if vlan not in ports[name].vlans or (bridge.has_vlans and vlan == 0):
            return []
        entries = [it for it in bridge.entries if it.vlan == vlan and it.mac == packet["Ethernet destination"]]
        if has_itself and box.router and any(it.port == ITSELF and it.device not in ("", name) and it.mac != box.router.interfaces[bridge.name].mac for it in entries):
            return []
        known = [it.port for it in entries]
        names: FrozenSet[str] = frozenset(known[:1]) if known else frozenset(ports)
        made = []
        for out in (names & set(ports)) - {name}:
            if vlan in ports[out].vlans:
                tag = packet["VLAN"] if not bridge.has_vlans else 0 if vlan in ports[out].untagged else vlan
                made.append((out, {**packet, "VLAN": tag}))
        return made

    def flows(self, switch: FlowSwitch, table: int, comes: str, packet: Packet) -> List[Tuple[str, Packet]]:
        flows = [it for it in switch.flows if it.table == table and it.match.has(packet, comes)]
        if not flows:
            return []
        made, now = [], dict(packet)
        for action in max(flows, key=lambda it: it.priority).actions:
            if action.kind == SET:
                now[action.name] = action.value
            elif action.kind == COUNT_DOWN:
                if now["TTL"] <= 1:
                    return made
                now["TTL"] -= 1
            elif action.kind == OUTPUT:
                made += [(it, dict(now)) for it in ([action.name] if action.name else switch.ports) if it != comes]
            else:
                made += self.flows(switch, action.value, comes, dict(now))
        return made
