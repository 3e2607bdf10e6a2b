"""`ip -j addr`, `ip -j route show table all` and `ip -j rule` of Linux."""

from ipaddress import IPv4Address, IPv4Interface, IPv4Network
from typing import Any, Dict, List, NamedTuple, Optional, Tuple

from .bridge import Settings
from .model import LOCAL, MOST_ROUTES, Hop, Interface, Ranges, Refused, Route, Source, of_network, ranges_of
from .sources import Text, members, shaped, told
from .topology import mac_of

_DROPS = ("blackhole", "unreachable", "prohibit")
# Members of a route that say nothing of where a packet goes: who made it, what source the box itself takes, and what is told to TCP.
_SILENT = {"dst", "dev", "gateway", "via", "type", "table", "protocol", "scope", "prefsrc", "metric", "flags", "nexthops", "tos", "nhid", "pref", "expires", "cache", "metrics",
           "mtu", "advmss", "initcwnd", "initrwnd", "rtt", "window", "hoplimit", "weight", "uid", "quickack", "error"}
_RULES = ({"priority": 0, "src": "all", "table": "local"}, {"priority": 32766, "src": "all", "table": "main"}, {"priority": 32767, "src": "all", "table": "default"})
# What a Linux box drops before it looks a route up, as the kernel does from version 5.3 on: sources of groups and of all, and its own addresses; destinations of groups,
# which are no part of the routes that are read, and those of the box itself that come from outside.
NO_SOURCES: Ranges = ranges_of([of_network(IPv4Network(it)) for it in ("0.0.0.0/32", "127.0.0.0/8", "224.0.0.0/4", "255.255.255.255/32")])
NO_DESTINATIONS: Ranges = ranges_of([of_network(IPv4Network(it)) for it in ("0.0.0.0/32", "127.0.0.0/8", "224.0.0.0/4")])


# ---------------------------------------------------------------- interfaces


class Devices(NamedTuple):
    """What `ip -j addr` says: the interfaces by their names, the interface that each is a part of (a bridge, a bond), and the settings of bridges."""

    interfaces: Dict[str, Interface]
    masters: Dict[str, str]
    settings: Dict[str, Settings]


def read_addresses(text: Text) -> Devices:
    """The interfaces of `ip -j addr`."""
    found: Dict[str, Interface] = {}
    masters: Dict[str, str] = {}
    settings: Dict[str, Settings] = {}
    below: Dict[str, Tuple[str, Any, Source]] = {}
    for item, source in members(text):
        shaped(item, dict, source, "an interface")
        if not item:
            # `ip -j addr show dev ..` and some versions write an empty object for what they leave out
            continue
        name = shaped(item.get("ifname"), str, source, "an interface")
        source = told(source, f"interface {name}")
        if name in found:
            raise Refused(source, f"the interface {name} is listed a second time")
        flags = shaped(item.get("flags", []), list, source, "an interface")
        found[name] = Interface(name, source, mac_of(str(item.get("address", ""))), _addresses(item, source), "UP" in flags)
        if isinstance(item.get("master"), str):
            masters[name] = item["master"]
        info = item.get("linkinfo")
        if isinstance(info, dict) and info.get("info_kind") == "bridge" and isinstance(info.get("info_data"), dict):
            settings[name] = _settings(info["info_data"], source)
        _check_port(info, source)
        if isinstance(item.get("link"), str):
            below[name] = item["link"], item.get("linkinfo"), source
    for name, (other, info, source) in below.items():
        _stand_on(found, name, other, info, source, below)
    return Devices(found, masters, settings)


def _mask(data: Any, source: Source) -> int:
    """The reserved addresses that a bridge or a port forwards, which `ip` writes as hexadecimal digits."""
    try:
        return int(str(data.get("group_fwd_mask", "0")), 16)
    except ValueError:
        raise Refused(source, f"group_fwd_mask: '{data['group_fwd_mask']}' is no mask") from None


def _settings(data: Any, source: Source) -> Settings:
    return Settings(data.get("vlan_filtering") == 1, data.get("stp_state", 0) != 0, _mask(data, source))


def _check_port(info: Any, source: Source) -> None:
    """Refused where the port of a bridge forwards reserved addresses that the bridge does not."""
    data = info.get("info_slave_data") if isinstance(info, dict) and info.get("info_slave_kind") == "bridge" else None
    if isinstance(data, dict) and _mask(data, source):
        raise Refused(source, "a port that forwards reserved addresses (group_fwd_mask), which is not read")


def _addresses(item: Any, source: Source) -> List[IPv4Interface]:
    made = []
    for one in shaped(item.get("addr_info", []), list, source, "an interface"):
        if isinstance(one, dict) and one.get("family") == "inet":
            try:
                made.append(IPv4Interface(f"{one['local']}/{one['prefixlen']}"))
            except (KeyError, ValueError):
                raise Refused(source, "an address has not the form that `ip -j addr` writes") from None
    return made


def _stand_on(found: Dict[str, Interface], name: str, other: str, info: Any, source: Source, below: Dict[str, Tuple[str, Any, Source]]) -> None:
    """Notes on what an interface stands. The two ends of a pair name one another, and stand on nothing."""
    if name in below and below.get(other, ("",))[0] == name:
        return
    kind = info.get("info_kind") if isinstance(info, dict) else None
    if kind == "vlan":
        number = info.get("info_data", {}).get("id") if isinstance(info.get("info_data"), dict) else None
        if not isinstance(number, int) or not 1 <= number <= 4094:
            raise Refused(source, f"VLAN {number}: a VLAN has a number from 1 to 4,094")
        if info["info_data"].get("protocol", "802.1Q") != "802.1Q":
            raise Refused(source, f"the interface {name} takes tags of {info['info_data']['protocol']}, and a job has those of 802.1Q")
        found[name].below, found[name].vlan = other, number
    elif kind is None and other in found:
        raise Refused(source, f"the interface {name} stands on {other}, and the file does not say how: `ip -d -j addr` does")
    elif kind is not None and kind != "veth":
        raise Refused(source, f"the interface {name} is of the kind {kind}, which a job does not have")


# ---------------------------------------------------------------- routes


def _prefix(text: str, source: Source) -> Optional[IPv4Network]:
    """The prefix of a route; None where it is one of IPv6."""
    if ":" in text:
        return None
    try:
        return IPv4Network("0.0.0.0/0" if text == "default" else text)
    except ValueError:
        raise Refused(source, f"'{text}' is no prefix of IPv4") from None


def _gateway(item: Any, source: Source) -> Optional[IPv4Address]:
    """The next router of a route or of one of its hops. One of IPv6 is known by no address of the job."""
    text = item.get("gateway")
    if text is None:
        return None
    try:
        return IPv4Address(text)
    except ValueError:
        raise Refused(source, f"'{text}' is no address of a next router") from None


def _hop(item: Any, source: Source) -> Optional[Hop]:
    """Where a packet goes; None where the kernel takes the hop for dead."""
    shaped(item, dict, source, "a route")
    flags = shaped(item.get("flags", []), list, source, "a route")
    if "dead" in flags:
        return None
    if "encap" in item or "via" in item or "onlink" in flags and "gateway" not in item:
        raise Refused(source, "an encapsulation, or a next router of another family")
    return Hop(shaped(item.get("dev"), str, source, "a route without an interface"), _gateway(item, source))


def _route(item: Any, prefix: IPv4Network, source: Source) -> Optional[Route]:
    kind = item.get("type", "unicast")
    if item.get("tos"):
        raise Refused(source, "a route for one type of service: a job routes by the destination alone")
    if "nhid" in item:
        raise Refused(source, "a next hop object: its hops stand in no file that is read")
    strange = sorted(set(item) - _SILENT)
    if strange:
        raise Refused(source, f"a route with '{strange[0]}', which is not read")
    if kind in _DROPS:
        return Route(prefix, source, kind=kind)
    if kind == "throw":
        return Route(prefix, source, kind="no route")
    if kind in ("local", "broadcast"):
        return Route(prefix, source, kind=LOCAL)
    if kind != "unicast":
        raise Refused(source, f"a route of the type {kind}")
    hops = [_hop(one, source) for one in shaped(item["nexthops"], list, source, "a route")] if "nexthops" in item else [_hop(item, source)]
    alive = tuple(dict.fromkeys(hop for hop in hops if hop is not None))
    if any("linkdown" in one.get("flags", []) for one in (item, *item.get("nexthops", []))):
        if len(alive) > 1:
            raise Refused(source, "one of several hops has no carrier (linkdown); whether it is taken depends on a setting of the kernel that no file has")
        return Route(prefix, source, kind="the interface has no carrier") if alive else None
    return Route(prefix, source, alive) if alive else None


def route_words(item: Any) -> str:
    """A route in the words of `ip route`."""
    words = [str(item["type"])] if item.get("type", "unicast") != "unicast" else []
    words.append(str(item.get("dst")))
    hops = item.get("nexthops")
    for one in hops if isinstance(hops, list) and hops else [item]:
        if isinstance(one, dict):
            words += ["nexthop"] if one is not item else []
            words += [f"{word} {one[name]}" for name, word in (("gateway", "via"), ("dev", "dev")) if name in one]
    words += [f"{name} {item[name]}" for name in ("metric", "table") if name in item]
    return " ".join(words)


class Table(NamedTuple):
    """The routes that decide, of which the one with the longest prefix does; and whether a route of the type local was added to those that the kernel makes of addresses."""

    routes: List[Route]
    has_added: bool


def read_routes(text: Text, notes: List[str]) -> Table:
    """The routes of `ip -j route` that decide: of equal prefixes of one table the one with the least metric, and of equal prefixes of both tables that of local. The kernel
    keeps local and main as one table, from version 4.1 on, as long as no rule was added: so a longer prefix of main comes before a shorter one of local."""
    best: Dict[str, Dict[IPv4Network, Tuple[int, Route]]] = {"local": {}, "main": {}}
    of_ipv6, has_added = 0, False
    for item, source in members(text):
        shaped(item, dict, source, "a route")
        if not item:
            continue
        source = told(source, route_words(item))
        prefix = _prefix(shaped(item.get("dst"), str, source, "a route"), source)
        if prefix is None:
            of_ipv6 += 1
            continue
        table = str(item.get("table", "main"))
        if table in ("254", "255"):
            table = "main" if table == "254" else "local"
        if table not in best:
            raise Refused(source, f"a route of the table {table}: which packets are looked up there is policy routing, and a job has none")
        route = _route(item, prefix, source)
        has_added = has_added or (item.get("type") == "local" and item.get("protocol") != "kernel")
        metric = shaped(item.get("metric", 0), int, source, "a route")
        if route is not None and (prefix not in best[table] or metric < best[table][prefix][0]):
            best[table][prefix] = metric, route
            if len(best["local"]) + len(best["main"]) > MOST_ROUTES:
                raise Refused(source, f"a table of more than {MOST_ROUTES:,} routes")
    if of_ipv6:
        notes.append(f"{text.name}: {of_ipv6:,} routes of IPv6, which decide no packet of IPv4")
    local, main = ({prefix: route for prefix, (_, route) in of.items()} for of in best.values())
    return Table([*local.values(), *(route for prefix, route in main.items() if prefix not in local)], has_added)


def check_rules(text: Text) -> None:
    """Refused where `ip -j rule` has others than the three that each box begins with."""
    for item, source in members(text):
        shaped(item, dict, source, "a rule")
        plain = {name: value for name, value in item.items() if name != "protocol"}
        if plain not in _RULES:
            words = " ".join(f"{name} {value}" for name, value in plain.items())
            raise Refused(told(source, words), f"policy routing: a job has no rule `{words}`")


def everyone(text: Text) -> Route:
    """Packets for all neighbors (RFC 919) are for the box itself; the kernel does not list this among its routes."""
    return Route(IPv4Network("255.255.255.255/32"), text.source(1, "255.255.255.255, which the kernel takes for its own"), kind=LOCAL)


def _own(routes: List[Route]) -> List[Tuple[int, int]]:
    """The addresses that routes of the box itself decide: those within no longer prefix of another kind."""
    made: List[Tuple[int, int]] = []
    # the prefixes around the place `at`, the longest last: where each ends, and whether it is of the box itself
    around: List[Tuple[int, bool]] = []
    at = 0
    spans = [(*of_network(it.prefix), it.kind == LOCAL) for it in sorted(routes, key=lambda it: (int(it.prefix.network_address), it.prefix.prefixlen))]
    for low, high, is_own in [*spans, (1 << 32, 1 << 32, False)]:
        while around and around[-1][0] < low:
            end, was_own = around.pop()
            made += [(at, end)] if was_own and at <= end else []
            at = max(at, end + 1)
        made += [(at, low - 1)] if around and around[-1][1] and at < low else []
        around.append((high, is_own))
        at = low
    return made


def source_limits(interfaces: Dict[str, Interface], table: Table) -> Ranges:
    """The sources that a Linux box takes from no neighbor: the ones of above, and its own addresses. Where a route of the type local was added, the kernel looks each source
    up (fib_validate_source), and takes none that routes of the types local and broadcast decide."""
    own = [(int(it.ip), int(it.ip)) for interface in interfaces.values() for it in interface.addresses]
    return ranges_of([*NO_SOURCES, *own, *(_own(table.routes) if table.has_added else [])])
