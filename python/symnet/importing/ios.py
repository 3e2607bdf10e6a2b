"""Cisco IOS: the access lists and the interfaces of `show running-config`, and `show ip route`."""

from ipaddress import IPv4Interface, IPv4Network
from typing import Dict, List, Optional, Tuple

from .cisco import WITH_PORTS, Words, is_icmp, of_protocol, own_routes, read_routes
from .model import ACCEPT, ANY, DROP, Chain, Filter, Interface, Match, Ranges, Refused, Router, Rule, Source, of_network, product, ranges_of, test
from .sources import Text

# Lines of an interface that change nothing of where a packet goes, by their first words.
_SILENT = ("description", "no ", "duplex", "speed", "negotiation", "media-type", "bandwidth", "delay", "mtu", "ip mtu", "load-interval", "cdp", "lldp", "keepalive",
           "logging", "ipv6",
           "ip ospf", "ip rip", "ip hello-interval", "ip hold-time", "ip authentication", "ip summary-address", "isis", "ip router", "ip tcp adjust-mss",
           "ip proxy-arp", "ip redirects", "ip unreachables",
           "ip helper-address", "snmp", "carrier-delay", "hold-queue", "arp timeout", "spanning-tree", "clock", "mop", "ntp", "ip address dhcp", "bfd",
           "ip route-cache", "ip flow", "load-balancing", "fair-queue", "tx-ring-limit", "power")
# What is no part of a job, by the first words of a line; it may stand in an interface or at the left edge.
_WHY = {"ip nat": "address translation", "ip policy": "policy routing", "service-policy": "a policy of its own", "zone-member": "zones with states of connections",
        "zone-pair": "zones with states of connections",
        "ip vrf": "a table of routes of its own (VRF)", "vrf": "a table of routes of its own (VRF)", "crypto map": "encryption", "tunnel": "a tunnel",
        "switchport": "a port of a switch", "channel-group": "a bundle of interfaces",
        "ip verify": "a test of the way back", "ip inspect": "states of connections", "standby": "an address that two boxes share",
        "vrrp": "an address that two boxes share", "glbp": "an address that two boxes share",
        "bridge-group": "a bridge", "ip unnumbered": "an interface without an address of its own", "xconnect": "a wire through the network",
        "no ip routing": "a box that does not route",
        "ip virtual-reassembly": "the joining of fragments", "rate-limit": "a limit of rate", "ip tcp intercept": "answers in the server's place"}
_GLOBAL = ("ip nat inside", "ip nat outside", "no ip routing", "zone-pair", "ip tcp intercept")
# Sources and destinations that no router of the kind forwards: groups, and all neighbors.
NO_SOURCES: Ranges = ranges_of([of_network(IPv4Network("224.0.0.0/4")), of_network(IPv4Network("255.255.255.255/32"))])
NO_DESTINATIONS: Ranges = ranges_of([*NO_SOURCES, of_network(IPv4Network("127.0.0.0/8"))])

Lists = Dict[str, Chain]


def _is(line: str, words: str) -> bool:
    return line == words.strip() or line.startswith(words if words.endswith(" ") else f"{words} ")


# ---------------------------------------------------------------- access lists


def _address(words: Words, field: str) -> Match:
    """The test of an address: any, one host, or an address with the bits that may differ."""
    if words.skip("any"):
        return ANY
    if words.skip("host"):
        one = words.address()
        return test(field, [(one, one)])
    if words.first in ("object-group", "addrgroup"):
        raise words.fault("a group of objects, which is not read of IOS")
    base, wild = words.address(), words.address()
    if wild & (wild + 1):
        raise words.fault("a wildcard with holes: its addresses are no range")
    return test(field, [(base & ~wild & 0xFFFFFFFF, base | wild)])


def _standard(words: Words) -> List[List[Match]]:
    """The tests of an entry of a standard list: its source."""
    if len(words.words) == 1 or (len(words.words) > 1 and words.words[1] == "log"):
        if words.first not in ("any", "host"):
            one = words.address()
            return [[test("source address", [(one, one)])]]
    return [[_address(words, "source address")]]


def _extended(words: Words) -> List[List[Match]]:
    protocol = words.protocol()
    made = [[of_protocol(protocol)]]
    for side in ("source", "destination"):
        made.append([_address(words, f"{side} address")])
        ports = words.ports(f"{side} port")
        if ports is not None and protocol not in WITH_PORTS:
            raise words.fault("ports of a protocol that is neither TCP nor UDP")
        made += [[ports]] if ports is not None else []
    return [*made, [words.icmp()]] if is_icmp(protocol) else made


def _entry(text: str, is_standard: bool, source: Source) -> Optional[Rule]:
    """A rule of a list; None where the line is none."""
    # `show ip access-lists` counts the packets of a rule
    words = Words(text.split(" (")[0].split(), source)
    if words.first.isdigit():
        words.next("a number")
    action = words.next("permit or deny")
    if action == "remark":
        return None
    if action not in ("permit", "deny"):
        raise words.fault(f"'{action}' is nothing that an access list has in a job")
    groups = _standard(words) if is_standard else _extended(words)
    while words.skip("log", "log-input"):
        pass
    if words.words:
        known = {"established": "a state of a connection", "reflect": "a list that packets make", "evaluate": "a list that packets make",
                 "time-range": "times of day", "fragments": "fragments",
                 "dscp": "a mark of service", "precedence": "a mark of service", "tos": "a mark of service", "option": "options of the IP header",
                 "match-all": "flags of TCP", "match-any": "flags of TCP", "ttl": "the time to live"}
        raise words.fault(f"`{' '.join(words.words)}`: {known.get(words.first, 'a test')}, which a job does not have here")
    return Rule(tuple(product(groups)), ACCEPT if action == "permit" else DROP, source)


def _is_standard(name: str) -> bool:
    return name.isdigit() and (int(name) < 100 or 1300 <= int(name) < 2000)


class _Config:
    """What is read of the configuration, line by line."""

    def __init__(self) -> None:
        self.lists: Lists = {}
        self.is_standard: Dict[str, bool] = {}
        self.interfaces: Dict[str, Interface] = {}
        # of each interface and side the list, and where that is said
        self.groups: List[Tuple[str, str, str, Source]] = []
        self.open: Tuple[str, str] = ("", "")

    def list_of(self, name: str, is_standard: bool, source: Source) -> Chain:
        self.is_standard.setdefault(name, is_standard)
        return self.lists.setdefault(name, Chain(name, [], DROP, source))

    def line(self, line: str, source: Source) -> None:
        text = line.strip()
        if not text or text.startswith("!"):
            return
        is_inside = line[0] == " " or (text[0].isdigit() and self.open[0] == "list")
        if not is_inside:
            self.left(text, source)
        elif self.open[0] == "list":
            self.entry(self.open[1], text, source)
        elif self.open[0] == "interface":
            self.inside(self.interfaces[self.open[1]], text, source)

    def entry(self, name: str, text: str, source: Source) -> None:
        made = _entry(text, self.is_standard[name], source)
        if made is not None:
            self.lists[name].rules.append(made)

    def left(self, text: str, source: Source) -> None:
        """A line at the left edge."""
        self.open = ("", "")
        words = text.split()
        lower = [it.lower() for it in words]
        for part in _GLOBAL:
            if _is(text, part):
                raise Refused(source, f"`{text}`: {_WHY.get(part, _WHY.get(part.rsplit(' ', 1)[0], 'a change of packets'))}, which a job does not have")
        if lower[:2] == ["ip", "access-list"] and len(words) == 4 and lower[2] in ("standard", "extended"):
            self.list_of(words[3], lower[2] == "standard", source)
            self.open = ("list", words[3])
        elif lower[1:4] == ["ip", "access", "list"] and len(words) == 5 and lower[0] in ("standard", "extended"):
            self.list_of(words[4], lower[0] == "standard", source)
            self.open = ("list", words[4])
        elif lower[0] == "access-list" and len(words) > 2:
            self.list_of(words[1], _is_standard(words[1]), source)
            self.entry(words[1], " ".join(words[2:]), source)
        elif lower[0] == "interface" and len(words) >= 2:
            name = "".join(words[1:]) if len(words) == 3 and words[2][0].isdigit() else words[1]
            parent, dot, _ = name.partition(".")
            self.interfaces[name] = Interface(name, source, below=parent if dot else "")
            self.open = ("interface", name)
        else:
            self.open = ("other", text)

    def inside(self, interface: Interface, text: str, source: Source) -> None:
        """A line of an interface."""
        words = Words(text.split(), source)
        if _is(text, "ip address") and text.split()[2:3] != ["dhcp"]:
            words.words[:2] = []
            try:
                interface.addresses.append(IPv4Interface(f"{words.next('an address')}/{words.next('a mask')}"))
            except ValueError:
                raise Refused(source, "no address of IPv4 with its mask") from None
        elif _is(text, "ip access-group") and len(words.words) == 4 and words.words[3] in ("in", "out"):
            self.groups.append((interface.name, words.words[3], words.words[2], source))
        elif text == "shutdown":
            interface.is_up = False
        elif _is(text, "encapsulation dot1Q"):
            words.words[:2] = []
            interface.vlan = words.number(4094, "a VLAN from 1 to 4,094")
            if words.skip("native"):
                interface.vlan = 0
        elif not any(text.startswith(it) for it in _SILENT):
            why = next((why for part, why in _WHY.items() if _is(text, part)), "")
            raise Refused(source, f"`{text}`: {why}, which a job does not have" if why else f"`{text}`: a line of an interface that is not read")

    def finish(self) -> Dict[str, Interface]:
        """The interfaces, with their filters."""
        for name, side, list_name, source in self.groups:
            if not self.lists.get(list_name) or not self.lists[list_name].rules:
                raise Refused(source, f"the access list {list_name} has no rule in the file")
            filters = self.interfaces[name].inbound if side == "in" else self.interfaces[name].outbound
            filters.append(Filter(self.lists[list_name]))
        for interface in self.interfaces.values():
            if interface.below and interface.below not in self.interfaces:
                raise Refused(interface.source, f"an interface of {interface.below}, which is not in the file")
        return self.interfaces


def read_ios(config: Text, routes: Text) -> Router:
    """A router by its configuration and its routes."""
    read = _Config()
    for line, source in config.lines():
        read.line(line, source)
    interfaces = read.finish()
    if not interfaces:
        raise Refused(config.source(1), "no interface: `show running-config` prints them")
    return Router(interfaces, own_routes(interfaces, read_routes(routes)), no_sources=NO_SOURCES, no_destinations=NO_DESTINATIONS)
