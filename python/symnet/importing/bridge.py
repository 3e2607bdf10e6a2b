"""`bridge -j fdb`, `bridge -j vlan` and `bridge -j link` of a Linux bridge."""

from typing import Any, Dict, List, NamedTuple, Optional, Tuple

from .model import ITSELF, Bridge, BridgePort, Entry, Ranges, Refused, Source, ranges_of
from .sources import Text, members, shaped, told
from .topology import mac_of

# The greatest number of a VLAN (IEEE 802.1Q, 9.6): 4,095 is reserved, and 0 says that there is none.
LAST_VLAN = 4094
_GROUP = 1 << 40
# Addresses that no bridge forwards (IEEE 802.1Q, table 8-1). The first one is that of spanning trees.
_RESERVED = range(0x0180C2000000, 0x0180C2000010)
# The last of those that no setting of Linux lets through: those of pauses and of link aggregation.
_ALWAYS = 2


class Settings(NamedTuple):
    """What `ip -d -j addr` says of a bridge, and what it begins with: whether it looks at VLANs (None: whether it has some), whether it builds spanning trees, and
    the reserved addresses that it forwards all the same, as bits."""

    has_vlans: Optional[bool] = None
    has_trees: bool = False
    forwarded: int = 0

    @property
    def reserved(self) -> Ranges:
        """The addresses that it does not forward. Without spanning trees Linux forwards their frames, so that trees of others find loops through it."""
        return ranges_of([(it, it) for number, it in enumerate(_RESERVED) if (self.has_trees if number == 0 else number <= _ALWAYS or not self.forwarded >> number & 1)])


class _Member(NamedTuple):
    """A VLAN of a port: whether frames without a tag are of it, and whether its frames leave without a tag."""

    pvid: bool
    untagged: bool


class Ports(NamedTuple):
    """The ports of the bridges of a box, as `bridge -j link` has them: their bridge, and whether they forward."""

    bridge_of: Dict[str, str]
    stopped: Dict[str, str]


def _vlan(number: Any, source: Source) -> int:
    if not isinstance(number, int) or isinstance(number, bool) or not 1 <= number <= LAST_VLAN:
        raise Refused(source, f"VLAN {number}: a VLAN has a number from 1 to {LAST_VLAN:,}")
    return number


def read_vlans(text: Text) -> Dict[str, BridgePort]:
    """The VLANs of each port, by its name; the bridge itself is one of them."""
    found: Dict[str, BridgePort] = {}
    for item, source in members(text):
        shaped(item, dict, source, "a port")
        name = shaped(item.get("ifname"), str, source, "a port")
        source = told(source, f"VLANs of {name}")
        if name in found:
            raise Refused(source, f"the port {name} is listed a second time")
        of: Dict[int, _Member] = {}
        for one in shaped(item.get("vlans", []), list, source, "the VLANs of a port"):
            shaped(one, dict, source, "a VLAN")
            flags = shaped(one.get("flags", []), list, source, "a VLAN")
            if "tunnel_id" in one or "tunnel" in one:
                raise Refused(source, "a VLAN of a tunnel, which a job does not have")
            first = _vlan(one.get("vlan"), source)
            last = _vlan(one.get("vlanEnd", first), source)
            for number in range(first, last + 1):
                of[number] = _Member("PVID" in flags, "Egress Untagged" in flags)
        pvids = [number for number, it in of.items() if it.pvid]
        if len(pvids) > 1:
            raise Refused(source, f"the port {name} has two VLANs for frames without a tag, {pvids[0]} and {pvids[1]}")
        found[name] = BridgePort(name, source, pvids[0] if pvids else 0, frozenset(of), frozenset(number for number, it in of.items() if it.untagged))
    return found


def read_ports(text: Text) -> Ports:
    """The ports of `bridge -j link`, and of `ip -j link`, which has the same members."""
    made = Ports({}, {})
    for item, source in members(text):
        shaped(item, dict, source, "a port")
        name = item.get("ifname")
        if not isinstance(name, str):
            raise Refused(source, "a port without a name")
        source = told(source, f"port {name}")
        if isinstance(item.get("master"), str):
            made.bridge_of[name] = item["master"]
        for word, what in (("hairpin", "sends frames out by the port that they came by"), ("isolated", "is kept apart from other ports"), ("locked", "takes known stations alone"),
                           ("neigh_suppress", "answers for others"), ("vlan_tunnel", "is the end of a tunnel"), ("mcast_to_unicast", "changes frames")):
            if item.get(word) is True:
                raise Refused(source, f"the port {name} {what} ({word}), which is not read")
        for word in ("flood", "mcast_flood", "bcast_flood"):
            if item.get(word) is False:
                raise Refused(source, f"the port {name} does not flood ({word} off), which is not read")
        state = item.get("state", "forwarding")
        if state != "forwarding":
            made.stopped[name] = str(state)
    return made


class _Row(NamedTuple):
    mac: int
    vlan: int
    port: str
    bridge: str
    source: Source
    device: str


def _row(item: Any, source: Source) -> Optional[_Row]:
    """A row of the table; None where no frame is forwarded by it: addresses that a device takes for itself alone, and groups."""
    shaped(item, dict, source, "an entry")
    mac, name = mac_of(str(item.get("mac"))), shaped(item.get("ifname"), str, source, "an entry")
    if mac is None:
        raise Refused(source, f"'{item.get('mac')}' is no address of Ethernet")
    source = told(source, " ".join(str(it) for it in (item["mac"], "dev", name, *(["vlan", item["vlan"]] if "vlan" in item else []), *(["master", item["master"]] if "master" in item else []),
                                                     item.get("state", ""))))
    flags = shaped(item.get("flags", []), list, source, "an entry")
    if "dst" in item or "vni" in item or "via" in item or "nhid" in item:
        raise Refused(source, "an entry of a tunnel, which a job does not have")
    if "blackhole" in flags:
        raise Refused(source, "an entry whose frames are dropped (blackhole), which is not read")
    vlan = _vlan(item["vlan"], source) if "vlan" in item else 0
    master = item.get("master")
    is_own = item.get("state") == "permanent"
    if mac & _GROUP:
        if master is not None and not is_own:
            raise Refused(source, "an entry for a group, whose frames go to some ports alone: it is not read")
        return None
    if master is None:
        return None
    return _Row(mac, vlan, ITSELF if is_own or name == master else name, str(master), source, name)


def read_table(text: Text) -> List[_Row]:
    """The rows of `bridge -j fdb` by which frames are forwarded."""
    made: Dict[Tuple[int, int, str], _Row] = {}
    for item, source in members(text):
        row = _row(item, source)
        if row is None:
            continue
        key = row.mac, row.vlan, row.bridge
        if key in made and made[key].port != row.port:
            raise Refused(row.source, f"an entry for an address that line {made[key].source.line} sends to another port")
        made.setdefault(key, row)
    return list(made.values())


def bridges(rows: List[_Row], vlans: Dict[str, BridgePort], ports: Optional[Ports], masters: Dict[str, str], settings: Dict[str, Settings], whole: Source) -> List[Bridge]:
    """The bridges of a box. Which port is whose stands in the table, in `bridge -j link` or in `ip -j addr` (`masters`)."""
    bridge_of = {row.source.text.split(" dev ")[1].split()[0]: row.bridge for row in rows}
    bridge_of = {name: bridge for name, bridge in bridge_of.items() if name != bridge}
    bridge_of.update(masters)
    if ports is not None:
        bridge_of.update(ports.bridge_of)
    names = sorted({*bridge_of.values()})
    unknown = [port for name, port in vlans.items() if name not in bridge_of and name not in names]
    if unknown and len(names) <= 1:
        # a single bridge has all ports
        names = names or ["bridge"]
        bridge_of.update({port.name: names[0] for port in unknown if not _is_bridge(port, vlans, bridge_of)})
    elif unknown:
        raise Refused(unknown[0].source, f"the port {unknown[0].name} is of a bridge that no file names: `bridge -j link` does")
    made = []
    for name in names:
        own_settings = settings.get(name, Settings())
        has_vlans = bool(vlans) if own_settings.has_vlans is None else own_settings.has_vlans
        listed = [_port(port, vlans, ports, has_vlans, whole) for port in sorted(bridge_of, key=_natural) if bridge_of[port] == name]
        own = [_port(name, vlans, None, has_vlans, whole)] if name in vlans or not has_vlans else [BridgePort(ITSELF, whole)]
        listed.append(BridgePort(ITSELF, own[0].source, own[0].pvid, own[0].vlans, own[0].untagged))
        entries = [Entry(row.mac, row.vlan, row.port, row.source, row.device) for row in rows if row.bridge == name]
        made.append(Bridge(name, listed, entries, has_vlans, whole, own_settings.reserved))
    return made


def _is_bridge(port: BridgePort, vlans: Dict[str, BridgePort], bridge_of: Dict[str, str]) -> bool:
    """Whether a name that no file gives to a bridge is that of the bridge itself: Linux calls it so by custom."""
    return port.name.startswith("br") and port.name not in bridge_of and len(vlans) > 1


def _port(name: str, vlans: Dict[str, BridgePort], ports: Optional[Ports], has_vlans: bool, whole: Source) -> BridgePort:
    if ports is not None and name in ports.stopped:
        # it neither takes nor sends
        return BridgePort(name, whole, 0, frozenset(), frozenset())
    if not has_vlans:
        return BridgePort(name, whole, 0, frozenset([0]), frozenset([0]))
    if name not in vlans:
        raise Refused(whole, f"the port {name} has no VLAN in `bridge -j vlan`, and no line there names it")
    return vlans[name]


def _natural(name: str) -> List[Tuple[int, str]]:
    """The order of names in which eth10 stands behind eth9."""
    parts, digits = [], ""
    for letter in [*name, ""]:
        if letter.isdigit():
            digits += letter
        else:
            parts += [(int(digits), "")] if digits else []
            parts += [(0, letter)] if letter else []
            digits = ""
    return [(it[0], it[1]) for it in parts]
