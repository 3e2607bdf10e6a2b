"""A folder of outputs: a folder for each box, and the file of the topology. It is read into a `Network`, whatever its boxes print."""

import re
from pathlib import Path
from typing import Callable, Dict, FrozenSet, List, Optional, Tuple

from . import asa, bridge, ios, iptables, junos, linux, nftables, openflow
from .model import LOCAL, Box, Bridge, Interface, Network, Refused, Router, Source
from .sources import Text, read
from .topology import NAME, read_topology

TOPOLOGY = ("topology", "topology.txt")
# The files of a box by their names without what stands behind a dot, and what prints each.
FILES = {
    "ip-addr": "ip -j addr", "ip-route": "ip -j route show table all", "ip-rule": "ip -j rule", "nft": "nft -j list ruleset", "iptables-save": "iptables-save",
    "bridge-fdb": "bridge -j fdb", "bridge-vlan": "bridge -j vlan", "bridge-link": "bridge -j link", "ovs-flows": "ovs-ofctl dump-flows BRIDGE",
    "ios-config": "show running-config", "ios-route": "show ip route", "asa-config": "show running-config", "asa-route": "show route",
    "junos-config": "show configuration | display set", "junos-route": "show route",
}
# The files of one kind of box; a box has files of one kind.
_KINDS: Dict[str, FrozenSet[str]] = {
    "Linux": frozenset(("ip-addr", "ip-route", "ip-rule", "nft", "iptables-save", "bridge-fdb", "bridge-vlan", "bridge-link")), "Open vSwitch": frozenset(("ovs-flows",)),
    "IOS": frozenset(("ios-config", "ios-route")), "ASA": frozenset(("asa-config", "asa-route")), "Junos": frozenset(("junos-config", "junos-route")),
}

Files = Dict[str, Text]
_FILE = re.compile(r"[A-Za-z0-9._-]{1,100}")


def _need(files: Files, name: str, box: Source) -> Text:
    if name not in files:
        raise Refused(box, f"it has no file {name}, which `{FILES[name]}` prints")
    return files[name]


# ---------------------------------------------------------------- boxes


def _linux(name: str, files: Files, box: Source, notes: List[str]) -> Box:
    made = Box(name, box)
    devices = linux.read_addresses(files["ip-addr"]) if "ip-addr" in files else None
    made.bridges = _bridges(files, devices, box)
    if "ip-rule" in files:
        linux.check_rules(files["ip-rule"])
    routing = [it for it in ("ip-route", "nft", "iptables-save") if it in files]
    if not routing:
        if not made.bridges:
            raise Refused(box, "no file says what the box does with packets: ip-route, bridge-fdb, ovs-flows, or those of another system")
        return made
    _need(files, "ip-route", box)
    if devices is None:
        raise Refused(box, f"it has no file ip-addr, which `{FILES['ip-addr']}` prints")
    table = linux.read_routes(files["ip-route"], notes)
    routes = table.routes
    if any(it.kind == LOCAL for it in routes):
        routes.append(linux.everyone(files["ip-route"]))
    else:
        raise Refused(files["ip-route"].source(1), "no route of the table local: `ip -j route show table all` prints those, too")
    router = Router(_interfaces(devices, made), routes, no_sources=linux.source_limits(devices.interfaces, table), no_destinations=linux.NO_DESTINATIONS)
    _filters(router, files, notes)
    made.router = router
    return made


def _bridges(files: Files, devices: Optional[linux.Devices], box: Source) -> List[Bridge]:
    if not any(it in files for it in ("bridge-fdb", "bridge-vlan", "bridge-link")):
        return []
    rows = bridge.read_table(_need(files, "bridge-fdb", box))
    vlans = bridge.read_vlans(files["bridge-vlan"]) if "bridge-vlan" in files else {}
    ports = bridge.read_ports(files["bridge-link"]) if "bridge-link" in files else None
    known = {row.bridge for row in rows} | (set(ports.bridge_of.values()) if ports else set())
    masters = {name: of for name, of in devices.masters.items() if of in known} if devices else {}
    return bridge.bridges(rows, vlans, ports, masters, devices.settings if devices else {}, Source(files["bridge-fdb"].name, 1, "the table of the switch"))


def _interfaces(devices: linux.Devices, box: Box) -> Dict[str, Interface]:
    """The interfaces of the router: those that are a part of a switch of the box are ports of that."""
    bridges = {it.name for it in box.bridges}
    for name, master in devices.masters.items():
        if master not in bridges:
            raise Refused(devices.interfaces[name].source, f"the interface {name} is a part of {master}, and no file says how: a bridge has the file bridge-fdb, and a job has no other kind")
    found = {name: it for name, it in devices.interfaces.items() if name not in devices.masters and name != "lo"}
    for name in bridges & set(found):
        macs = {devices.interfaces[port].mac for port, master in devices.masters.items() if master == name}
        found[name].port_macs = tuple(sorted(it for it in macs if it is not None and it != found[name].mac))
    return found


def _filters(router: Router, files: Files, notes: List[str]) -> None:
    names = [*router.interfaces]
    if "nft" in files and "iptables-save" in files:
        raise Refused(files["iptables-save"].source(1), "the box has the files nft and iptables-save: where iptables writes into nft, both tell of the same rules, "
                                                        "and else which come first is not said")
    if "nft" in files:
        read_rules = nftables.read_nft(files["nft"], names, notes)
        router.arriving, router.forwarded, router.delivered = read_rules.arriving, read_rules.forwarded, read_rules.delivered
    if "iptables-save" in files:
        router.forwarded, router.delivered = iptables.read_iptables(files["iptables-save"], names)


def _openflow(name: str, files: Files, box: Source, _: List[str]) -> Box:
    return Box(name, box, flow_switch=openflow.read_flows(files["ovs-flows"]))


def _ios(name: str, files: Files, box: Source, _: List[str]) -> Box:
    return Box(name, box, router=ios.read_ios(_need(files, "ios-config", box), _need(files, "ios-route", box)))


def _asa(name: str, files: Files, box: Source, _: List[str]) -> Box:
    return Box(name, box, router=asa.read_asa(_need(files, "asa-config", box), _need(files, "asa-route", box)))


def _junos(name: str, files: Files, box: Source, _: List[str]) -> Box:
    return Box(name, box, router=junos.read_junos(_need(files, "junos-config", box), _need(files, "junos-route", box)))


_READERS: Dict[str, Callable[[str, Files, Source, List[str]], Box]] = {"Linux": _linux, "Open vSwitch": _openflow, "IOS": _ios, "ASA": _asa, "Junos": _junos}


def _files(folder: Path, name: str) -> Files:
    """The files of a box, by what prints them."""
    found: Files = {}
    for file in sorted((folder / name).iterdir()):
        kind, place = file.name.split(".")[0], f"{name}/{file.name}"
        if file.name.startswith("."):
            continue
        if not _FILE.fullmatch(file.name):
            raise Refused(Source(name, 0), "a file whose name has other characters than letters, digits, `_`, `-` and dots")
        if kind not in FILES or not file.is_file():
            raise Refused(Source(place, 0), f"no file that is read: their names are {', '.join(sorted(FILES))}, with any ending behind a dot")
        if kind in found:
            raise Refused(Source(place, 0), f"the box has {found[kind].name} already: one file has all that `{FILES[kind]}` prints")
        found[kind] = read(folder, place)
    return found


def _box(folder: Path, name: str, notes: List[str]) -> Box:
    whole = Source(name, 0)
    if not NAME.fullmatch(name):
        raise Refused(whole, "the name of a box has letters, digits, `_` and `-`, begins with a letter, and has at most 40 of them")
    files = _files(folder, name)
    if not files:
        raise Refused(whole, "the folder of a box has no file")
    kinds = {kind for kind, names in _KINDS.items() if names & set(files)}
    if len(kinds) > 1:
        raise Refused(whole, f"its files are of boxes of several kinds: {' and '.join(sorted(kinds))}")
    return _READERS[kinds.pop()](name, files, whole, notes)


# ---------------------------------------------------------------- the network


def interfaces_of(box: Box) -> List[str]:
    """The interfaces that the topology may name: those with a wire."""
    found = [name for name, it in box.router.interfaces.items() if not it.below] if box.router else []
    for one in box.bridges:
        found = [it for it in found if it != one.name] + [it.name for it in one.ports[:-1]]
    return [*found, *(box.flow_switch.ports if box.flow_switch else [])]


def _check(network: Network, ends: List[Tuple[str, str, Source]]) -> None:
    """Refused where the topology names what is not there."""
    named = set()
    for name, interface, source in ends:
        if name not in network.boxes:
            raise Refused(source, f"there is no folder {name}")
        box = network.boxes[name]
        if box.flow_switch and interface not in box.flow_switch.ports:
            box.flow_switch.ports.append(interface)
        known = interfaces_of(box)
        if interface not in known:
            raise Refused(source, f"{name} has no interface {interface} with a wire: it has {', '.join(known) or 'none'}")
        named.add(name)
    for name, box in network.boxes.items():
        if name not in named:
            raise Refused(box.source, "no line of the topology names an interface of the box")


def read_folder(folder: Path) -> Network:
    """Reads the network; Refused at the first thing that no job can say, or that is not what it should be."""
    try:
        inside = sorted(folder.iterdir())
    except OSError as error:
        raise Refused(Source(str(folder), 0), f"it is no folder that can be read: {error.strerror}") from None
    found = [it.name for it in inside if it.name in TOPOLOGY]
    if len(found) != 1:
        raise Refused(Source(str(folder), 0), "the folder has one file of the topology, with the name `topology` or `topology.txt`")
    network = Network({}, *read_topology(read(folder, found[0])))
    for it in inside:
        if it.is_dir() and not it.name.startswith("."):
            network.boxes[it.name] = _box(folder, it.name, network.notes)
        elif it.name not in TOPOLOGY and not it.name.startswith("."):
            raise Refused(Source(it.name, 0), "no file that is read: beside the topology stand folders, one for each box")
    if not network.boxes:
        raise Refused(Source(str(folder), 0), "the folder has no folder of a box")
    if not network.hosts:
        raise Refused(Source(found[0], 0), "the topology has no host, so no packet enters the network: `host h1 r1.eth1` is one")
    ends = [(*end, link.source) for link in network.links for end in link.ends] + [(it.box, it.interface, it.source) for it in network.hosts]
    _check(network, ends)
    for host in network.hosts:
        if host.name in network.boxes:
            raise Refused(host.source, f"a box has the name {host.name} already")
    return network

