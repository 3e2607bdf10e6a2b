"""Juniper Junos: the filters of `family inet` and the interfaces of `show configuration | display set`, and `show route`."""

import re
import shlex
from ipaddress import IPv4Address, IPv4Interface, IPv4Network
from typing import Dict, List, NamedTuple, Optional, Set, Tuple

from .cisco import own_routes
from .model import ACCEPT, DROP, LOCAL, REJECT, Chain, Filter, Hop, Interface, Match, Ranges, Refused, Route, Router, Rule, Source, common, of_network, others, product, ranges_of, test
from .numbers import ICMP_TYPES, PROTOCOLS, icmp_range, number
from .sources import Text

_PORTS: Dict[str, int] = {
    "ftp-data": 20, "ftp": 21, "ssh": 22, "telnet": 23, "smtp": 25, "tacacs": 49, "domain": 53, "dhcp": 67, "bootps": 67, "bootpc": 68, "tftp": 69, "finger": 79,
    "http": 80, "kerberos-sec": 88,
    "pop3": 110, "sunrpc": 111, "ident": 113, "nntp": 119, "ntp": 123, "netbios-ns": 137, "netbios-dgm": 138, "netbios-ssn": 139, "imap": 143, "snmp": 161,
    "snmptrap": 162, "bgp": 179,
    "ldap": 389, "https": 443, "syslog": 514, "rip": 520, "ldp": 646, "radius": 1812, "radacct": 1813, "nfsd": 2049, "msdp": 639, "xdmcp": 177, "biff": 512,
    "exec": 512, "login": 513, "who": 513,
    "cmd": 514, "printer": 515, "talk": 517, "klogin": 543, "kshell": 544, "socks": 1080, "zephyr-srv": 2102, "mobileip-agent": 434, "timed": 525, "krb-prop": 754,
    "ekshell": 2106, "eklogin": 2105,
}
_TYPES = {**ICMP_TYPES, "unreachable": 3, "timestamp": 13, "mask-request": 17, "mask-reply": 18, "router-advertisement": 9, "router-solicit": 10}
_SIDES = {"source-address": ("source address",), "destination-address": ("destination address",), "address": ("source address", "destination address"),
          "source-prefix-list": ("source address",), "destination-prefix-list": ("destination address",), "prefix-list": ("source address", "destination address"),
          "source-port": ("source port",), "destination-port": ("destination port",), "port": ("source port", "destination port")}
_SILENT_ACTIONS = ("count", "log", "syslog", "sample", "forwarding-class", "loss-priority", "port-mirror")
_ACTIONS = {"accept": ACCEPT, "discard": DROP, "reject": REJECT}
_SILENT_UNIT = ("description", "family inet6", "family iso", "family mpls", "bandwidth", "traps", "no-traps", "mtu", "family inet mtu", "family inet no-redirects",
                "family inet primary")
_SILENT_INTERFACE = ("description", "mtu", "speed", "link-mode", "gigether-options auto-negotiation", "gigether-options no-auto-negotiation",
                     "ether-options auto-negotiation", "hold-time", "traps", "no-traps",
                     "flow-control", "no-flow-control", "vlan-tagging", "gigether-options no-flow-control", "optics-options", "damping")
_NEVER: Ranges = ranges_of([of_network(IPv4Network(it)) for it in ("0.0.0.0/32", "127.0.0.0/8", "224.0.0.0/4", "255.255.255.255/32")])


class _Value(NamedTuple):
    text: str
    source: Source


class _Term:
    """A term of a filter: its conditions by their names, and its actions."""

    def __init__(self, name: str, source: Source):
        self.name, self.source = name, source
        self.conditions: Dict[str, List[_Value]] = {}
        self.action = ""
        self.is_next = False


class _Filters:
    def __init__(self) -> None:
        self.terms: Dict[str, Dict[str, _Term]] = {}
        self.prefixes: Dict[str, List[IPv4Network]] = {}
        self.sources: Dict[str, Source] = {}

    # ------------------------------------------------ lines

    def line(self, words: List[str], source: Source) -> None:
        """A line `set firewall ..`, without these two words."""
        words = words[2:] if words[:2] == ["family", "inet"] else words
        if words[:1] == ["family"]:
            return
        if words[:1] != ["filter"] or len(words) < 3:
            if words[:1] in (["policer"], ["three-color-policer"]):
                return
            raise Refused(source, "a part of the firewall that is not read")
        name, rest = words[1], words[2:]
        self.sources.setdefault(name, source)
        terms = self.terms.setdefault(name, {})
        if rest[0] != "term" or len(rest) < 3:
            if rest[0] in ("interface-specific", "enhanced-mode"):
                return
            raise Refused(source, f"`{' '.join(rest)}` of a filter, which is not read")
        term = terms.setdefault(rest[1], _Term(rest[1], source))
        if rest[2] == "from" and len(rest) >= 4:
            term.conditions.setdefault(rest[3], []).append(_Value(" ".join(rest[4:]), source))
        elif rest[2] == "then":
            self.then(term, rest[3:], source)
        else:
            raise Refused(source, f"`{' '.join(rest[2:])}` of a term, which is not read")

    def then(self, term: _Term, words: List[str], source: Source) -> None:
        word = words[0] if words else ""
        if word in _ACTIONS and not term.action:
            term.action = _ACTIONS[word]
        elif words == ["next", "term"]:
            term.is_next = True
        elif word not in _SILENT_ACTIONS:
            why = {"policer": "a limit of rate", "routing-instance": "policy routing", "next-ip": "policy routing", "next-interface": "policy routing",
                   "dscp": "a change of the packet", "next": "another filter"}.get(word)
            raise Refused(source, f"`then {' '.join(words)}`: {why or 'an action'}, which a job does not have")

    # ------------------------------------------------ tests

    def filter(self, name: str, source: Source) -> Filter:
        """The filter of a name; what no term decides is discarded."""
        if name not in self.terms:
            raise Refused(source, f"no filter of the file has the name {name}")
        rules = []
        for term in self.terms[name].values():
            if term.is_next and not term.action:
                continue
            matches = self.matches(term)
            # without an action that decides a term accepts
            rules.append(Rule(tuple(matches), term.action or ACCEPT, term.source._replace(text=f"filter {name} term {term.name}")))
        return Filter(Chain(name, rules, DROP, self.sources[name]._replace(text=f"the end of the filter {name}")))

    def matches(self, term: _Term) -> List[Match]:
        groups: List[List[Match]] = []
        icmp: Dict[str, List[_Value]] = {}
        for name, values in term.conditions.items():
            if name in ("icmp-type", "icmp-code"):
                icmp[name] = values
            elif name in _SIDES and "port" in name:
                spans = [self.span(it, _PORTS, 65535) for it in values]
                groups.append([test(field, spans) for field in _SIDES[name]])
            elif name in _SIDES:
                ranges = self.addresses(name, values)
                groups.append([Match(((field, ranges),)) for field in _SIDES[name]])
            elif name in ("protocol", "protocol-except"):
                groups.append([test("protocol", [self.span(it, PROTOCOLS, 255) for it in values], name != "protocol")])
            elif name == "ttl":
                groups.append([test("TTL", [self.span(it, {}, 255) for it in values])])
            else:
                raise Refused(values[0].source, f"`from {name}`: a test that a job does not have")
        return product([*groups, *([[self.icmp(icmp, term)]] if icmp else [])])

    def icmp(self, found: Dict[str, List[_Value]], term: _Term) -> Match:
        """The test of types and codes of ICMP, which Junos takes at their place whatever the protocol is."""
        if "icmp-type" not in found:
            raise Refused(term.source, "a code of ICMP without its type")
        kinds = [self.span(it, _TYPES, 255) for it in found["icmp-type"]]
        codes = [self.span(it, {}, 255) for it in found.get("icmp-code", [])]
        parts = [(icmp_range(low)[0], icmp_range(high)[1]) for low, high in kinds] if not codes else [
            (kind << 8 | low, kind << 8 | high) for first, last in kinds for kind in range(first, last + 1) for low, high in codes]
        return test("source port", parts)

    def span(self, value: _Value, names: Dict[str, int], most: int) -> Tuple[int, int]:
        low, is_range, high = value.text.partition("-") if value.text not in names else (value.text, "", "")
        ends = [names[it] if it in names else number(it, most) for it in ([low, high] if is_range else [low])]
        if None in ends or not value.text:
            raise Refused(value.source, f"`{value.text}` is no value that is known here")
        first, last = ends[0], ends[-1]
        assert first is not None and last is not None
        if first > last:
            raise Refused(value.source, f"`{value.text}`: a range that ends before it begins")
        return first, last

    def addresses(self, name: str, values: List[_Value]) -> Ranges:
        """The addresses of a condition: of the prefixes that have one the longest decides, which may be an exception (`except`)."""
        listed: List[Tuple[IPv4Network, bool]] = []
        for value in values:
            words = value.text.split()
            is_except = words[-1:] == ["except"]
            word = words[0] if words else ""
            if "prefix-list" in name:
                if word not in self.prefixes:
                    raise Refused(value.source, f"no prefix list of the file has the name {word}")
                listed += [(it, is_except) for it in self.prefixes[word]]
                continue
            try:
                listed.append((IPv4Network(word, strict=False), is_except))
            except ValueError:
                raise Refused(value.source, f"`{word}` is no prefix of IPv4, or its mask has holes") from None
        found: Ranges = ()
        for network, is_except in sorted(listed, key=lambda it: it[0].prefixlen):
            part = ranges_of([of_network(network)])
            found = common(found, others(part, 32)) if is_except else ranges_of([*found, *part])
        return found


# ---------------------------------------------------------------- interfaces


class _Config:
    def __init__(self) -> None:
        self.filters = _Filters()
        self.interfaces: Dict[str, Interface] = {}
        self.groups: List[Tuple[str, str, str, Source]] = []
        self.down: Set[str] = set()

    def line(self, line: str, source: Source) -> None:
        if not line.strip() or line.startswith("#"):
            return
        try:
            words = shlex.split(line)
        except ValueError:
            raise Refused(source, "a quotation that does not end") from None
        if words[0] == "deactivate" and words[1:2] in (["interfaces"], ["firewall"], ["policy-options"]):
            raise Refused(source, "a part that is not active, which is not read")
        if words[0] not in ("set", "deactivate"):
            raise Refused(source, "no line that `show configuration | display set` writes")
        if words[0] != "set" or len(words) < 3:
            return
        if words[1] == "firewall":
            self.filters.line(words[2:], source)
        elif words[1:3] == ["policy-options", "prefix-list"] and len(words) >= 4:
            self.prefix(words[3:], source)
        elif words[1] == "interfaces":
            self.interface(words[2], words[3:], source)
        elif words[1] in ("security", "routing-instances", "logical-systems", "services", "bridge-domains", "vlans", "groups", "apply-groups"):
            self.other(words[1], source)

    def other(self, name: str, source: Source) -> None:
        why = {"security": "zones and policies with states of connections", "routing-instances": "tables of routes of their own",
               "logical-systems": "boxes inside the box",
               "services": "services that change packets", "bridge-domains": "a bridge", "vlans": "a switch"}.get(name, "groups that other parts take over")
        raise Refused(source, f"`set {name}`: {why}, which a job does not have")

    def prefix(self, words: List[str], source: Source) -> None:
        listed = self.filters.prefixes.setdefault(words[0], [])
        if len(words) > 1 and ":" not in words[1]:
            try:
                listed.append(IPv4Network(words[1], strict=False))
            except ValueError:
                raise Refused(source, f"`{words[1]}` is no prefix") from None

    def interface(self, name: str, words: List[str], source: Source) -> None:
        if words[:1] != ["unit"] or len(words) < 2:
            text = " ".join(words)
            if text == "disable":
                self.down.add(name)
            elif words and not text.startswith(_SILENT_INTERFACE):
                raise Refused(source, f"`{text}` of an interface, which is not read")
            return
        unit = f"{name}.{words[1]}"
        made = self.interfaces.setdefault(unit, Interface(unit, source._replace(text=f"interface {unit}")))
        self.unit(made, words[2:], source)

    def unit(self, made: Interface, words: List[str], source: Source) -> None:
        text = " ".join(words)
        if words[:3] == ["family", "inet", "address"] and len(words) == 4:
            try:
                made.addresses.append(IPv4Interface(words[3]))
            except ValueError:
                raise Refused(source, f"`{words[3]}` is no address of IPv4") from None
        elif words[:3] == ["family", "inet", "filter"] and len(words) == 5 and words[3] in ("input", "output"):
            self.groups.append((made.name, words[3], words[4], source))
        elif words[:1] == ["vlan-id"] and len(words) == 2:
            found = number(words[1], 4094)
            if not found:
                raise Refused(source, f"VLAN {words[1]}: a VLAN has a number from 1 to 4,094")
            made.vlan = found
        elif text == "disable":
            made.is_up = False
        elif text != "family inet" and text and not text.startswith(_SILENT_UNIT):
            raise Refused(source, f"`{text}` of an interface, which is not read")

    def finish(self) -> List[Filter]:
        """Gives the interfaces their filters, and returns those of the box itself, which stand at lo0."""
        own: List[Filter] = []
        for name, side, filter_name, source in self.groups:
            made = self.filters.filter(filter_name, source)
            if name.startswith("lo0."):
                if side == "input":
                    own.append(made)
                continue
            (self.interfaces[name].inbound if side == "input" else self.interfaces[name].outbound).append(made)
        for interface in self.interfaces.values():
            wire = interface.name.rpartition(".")[0]
            interface.is_up = interface.is_up and wire not in self.down
        tagged = [it for it in self.interfaces.values() if it.vlan]
        for interface in tagged:
            wire = interface.name.rpartition(".")[0]
            self.interfaces.setdefault(wire, Interface(wire, interface.source))
            interface.below = wire
        return own


# ---------------------------------------------------------------- routes


_PREFIX = re.compile(r"(\d+\.\d+\.\d+\.\d+/\d+)\s*(?:([*+-])?\[([A-Za-z0-9_-]+)/\d+(?:/\d+)?\].*)?")
_ENTRY = re.compile(r"\s+([*+-])?\[([A-Za-z0-9_-]+)/\d+(?:/\d+)?\].*")
_HOP = re.compile(r"\s+(>)?\s*(?:to (\d+\.\d+\.\d+\.\d+) )?via ([A-Za-z0-9./:-]+)(.*)")


class _Found(NamedTuple):
    prefix: IPv4Network
    protocol: str
    source: Source
    hops: List[Tuple[bool, Hop]]
    drops: List[str]


def _read_table(text: Text) -> List[_Found]:
    """The active route of each prefix of the table inet.0."""
    found: List[_Found] = []
    table, prefix, is_active = "", None, False
    where: Optional[Source] = None
    for line, source in text.lines():
        name = re.match(r"(\S+): \d+ destinations", line)
        start, entry, hop = _PREFIX.fullmatch(line), _ENTRY.fullmatch(line), _HOP.fullmatch(line)
        if name:
            table = name[1]
        elif table and table != "inet.0" or not line.strip() or re.match(r"([+=*-] = |\S+[>#] )|\{master", line):
            continue
        elif start or (entry and prefix is not None):
            flag, protocol = (start[2], start[3]) if start else (entry[1], entry[2]) if entry else (None, "")
            if start:
                prefix, where = IPv4Network(start[1]), source
            is_active = flag in ("*", "+")
            if is_active and prefix is not None and where is not None:
                found.append(_Found(prefix, protocol or "", where, [], []))
        elif not is_active:
            continue
        elif hop and found:
            if hop[4].strip():
                raise Refused(source, f"`{hop[4].strip()}` behind a hop, which a job does not have")
            found[-1].hops.append((hop[1] == ">", Hop(hop[3], IPv4Address(hop[2]) if hop[2] else None)))
        elif line.strip() in ("Discard", "Reject", "Receive", "MultiRecv") or re.match(r"\s+Local( via \S+)?$", line) or re.match(r"\s+AS path: ", line):
            found[-1].drops.extend([line.split()[0]] if "AS path" not in line else [])
        else:
            raise Refused(source, "no line of `show route` that is read")
    return found


def read_routes(text: Text) -> List[Route]:
    """The routes of `show route`."""
    made = []
    for it in _read_table(text):
        kind = it.drops[0] if it.drops else ""
        if kind in ("Local", "Receive", "MultiRecv"):
            made.append(Route(it.prefix, it.source, kind=LOCAL))
        elif kind:
            made.append(Route(it.prefix, it.source, kind="dropped by a route" if kind == "Discard" else "rejected by a route"))
        elif len(it.hops) == 1:
            made.append(Route(it.prefix, it.source, (it.hops[0][1],)))
        else:
            raise Refused(it.source, f"{len(it.hops)} next hops: whether one or all of them are taken depends on a policy that this output does not have")
    return made


def read_junos(config: Text, routes: Text) -> Router:
    """A router by its configuration and its routes."""
    read = _Config()
    for line, source in config.lines():
        read.line(line, source)
    own = read.finish()
    if not read.interfaces:
        raise Refused(config.source(1), "no interface: `show configuration | display set` prints them")
    return Router(read.interfaces, own_routes(read.interfaces, read_routes(routes)), delivered=own, no_sources=_NEVER, no_destinations=_NEVER)
