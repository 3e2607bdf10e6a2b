"""Cisco ASA: the access lists, objects and interfaces of `show running-config`, and `show route`.

Packets are those that begin a connection: what belongs to one that is there passes without its lists. Interfaces have the names of `nameif`.
"""

from ipaddress import IPv4Interface, IPv4Network
from typing import Any, Dict, FrozenSet, List, Optional, Tuple

from .cisco import OPERATORS, WITH_PORTS, Words, is_icmp, of_protocol, own_routes, read_routes
from .model import ACCEPT, ANY, DROP, GOTO, Chain, Filter, Interface, Match, Ranges, Refused, Router, Rule, Source, of_network, product, ranges_of, test
from .sources import Text

# Sources and destinations that the box forwards never: groups, all, and its own net.
_NEVER: Ranges = ranges_of([of_network(IPv4Network(it)) for it in ("0.0.0.0/32", "127.0.0.0/8", "224.0.0.0/4", "255.255.255.255/32")])
_SILENT = ("description", "no ", "duplex", "speed", "delay", "ipv6", "mtu", "ospf", "authentication", "management-only", "media-type", "flowcontrol", "hold-time",
           "hello-interval", "!")
_WHY = {"channel-group": "a bundle of interfaces", "bridge-group": "a bridge", "member-interface": "a bundle of interfaces", "policy-route": "policy routing",
        "zone-member": "zones", "vxlan": "a tunnel", "tunnel": "a tunnel"}
_GLOBAL = {"nat": "address translation", "static": "address translation", "global": "address translation", "crypto map": "encryption",
           "firewall transparent": "a box that does not route",
           "policy-list": "policy routing", "ip verify": "a test of the way back", "context": "boxes inside the box", "mode multiple": "boxes inside the box"}


class _Objects:
    """The objects and groups of objects, each as what it stands for."""

    def __init__(self) -> None:
        # of addresses: pairs of the least and the greatest
        self.networks: Dict[str, List[Tuple[int, int]]] = {}
        self.protocols: Dict[str, List[Optional[int]]] = {}
        # of ports: pairs, and of services: matches with the protocol
        self.ports: Dict[str, List[Tuple[int, int]]] = {}
        self.services: Dict[str, List[Tuple[Optional[int], List[List[Match]]]]] = {}

    def addresses(self, words: Words) -> List[Tuple[int, int]]:
        """The addresses that stand next: any, a host, an object, a group, or an address and its mask."""
        if words.skip("any", "any4"):
            return [(0, 0xFFFFFFFF)]
        if words.skip("any6"):
            return []
        if words.skip("host"):
            one = words.address()
            return [(one, one)]
        if words.skip("object", "object-group"):
            name = words.next("a name")
            if name not in self.networks:
                raise words.fault(f"no object or group of addresses before it has the name {name}")
            return self.networks[name]
        if words.first == "interface":
            raise words.fault("`interface`: the address of an interface, which is not read here")
        return [_masked(words)]

    def protocol(self, words: Words) -> List[Tuple[Optional[int], List[List[Match]]]]:
        """What stands where a protocol does: the protocols, and what their packets have to be besides."""
        if words.first not in ("object", "object-group"):
            return [(words.protocol(), [])]
        words.next("object")
        name = words.next("a name")
        if name in self.services:
            return self.services[name]
        if name in self.protocols:
            return [(it, []) for it in self.protocols[name]]
        raise words.fault(f"no object or group of protocols or services before it has the name {name}")

    def port_test(self, words: Words, field: str) -> Optional[Match]:
        """A test of ports, where one stands next."""
        if words.first in ("object-group", "object") and len(words.words) > 1 and words.words[1] in self.ports:
            words.words[:1] = []
            return test(field, self.ports[words.next("a name")])
        return words.ports(field) if words.first in OPERATORS else None


def _masked(words: Words) -> Tuple[int, int]:
    """An address and its mask."""
    base, mask = words.address(), words.address()
    free = ~mask & 0xFFFFFFFF
    if free & (free + 1):
        raise words.fault("a mask with holes: its addresses are no range")
    return base & mask, base & mask | free


# ---------------------------------------------------------------- the configuration


class _Config:
    def __init__(self) -> None:
        self.objects = _Objects()
        self.lists: Dict[str, Chain] = {}
        self.is_standard: FrozenSet[str] = frozenset()
        self.interfaces: Dict[str, Interface] = {}
        self.levels: Dict[str, int] = {}
        self.groups: List[Tuple[str, str, str, Source]] = []
        self.section: Tuple[str, str, str] = ("", "", "")
        self.pending: Optional[Interface] = None
        self.level: Optional[int] = None
        self.same = {"inter-interface": False, "intra-interface": False}

    def line(self, line: str, source: Source) -> None:
        text = line.strip()
        if not text or text.startswith((":", "!")):
            return
        words = Words(text.split(), source)
        if line[0] != " ":
            self.close()
            self.left(text, words)
        elif self.section[0] == "interface":
            self.inside(text, words)
        elif self.section[0] in ("object", "object-group"):
            self.member(words)

    # ------------------------------------------------ interfaces

    def close(self) -> None:
        """Takes the interface that was read; one without a name forwards nothing."""
        if self.pending is not None and self.pending.name in self.levels:
            self.interfaces[self.pending.name] = self.pending
        self.pending = None

    def inside(self, text: str, words: Words) -> None:
        """A line of an interface."""
        made = self.pending
        assert made is not None
        if words.skip("nameif"):
            made.name = words.next("a name")
            if made.name in self.levels:
                raise words.fault(f"an earlier interface has the name {made.name}")
            self.levels[made.name] = 100 if made.name == "inside" else 0
        elif words.skip("security-level"):
            self.levels[made.name] = words.number(100, "a level up to 100")
        elif text.startswith("ip address ") and words.words[2] not in ("dhcp", "pppoe"):
            words.words[:2] = []
            try:
                made.addresses.append(IPv4Interface(f"{words.next('an address')}/{words.next('a mask')}"))
            except ValueError:
                raise words.fault("no address of IPv4 with its mask") from None
        elif text == "shutdown":
            made.is_up = False
        elif words.skip("vlan"):
            if not self.section[1].lower().startswith("vlan"):
                made.vlan = words.number(4094, "a VLAN from 1 to 4,094")
                raise words.fault("an interface in a VLAN of another one, which is not read")
        elif not text.startswith((*_SILENT, "ip address ")):
            why = next((why for part, why in _WHY.items() if text.startswith(part)), "")
            raise words.fault(f"`{text}`: {why}, which a job does not have" if why else f"`{text}`: a line of an interface that is not read")

    # ------------------------------------------------ objects

    def member(self, words: Words) -> None:
        """A line of an object or of a group."""
        kind, name, protocol = self.section
        word = words.next("a word")
        objects = self.objects
        if word == "description":
            return
        if kind == "object" and word == "nat":
            raise words.fault("address translation, which a job does not have")
        if name in objects.networks:
            objects.networks[name] += self.network_member(word, words)
        elif name in objects.services and kind == "object-group" and protocol:
            raise words.fault("a group of services that has ports of another form")
        elif name in objects.ports:
            objects.ports[name] += self.port_member(word, words)
        elif name in objects.protocols:
            objects.protocols[name] += self.group(objects.protocols, words) if word == "group-object" else [words.protocol()]
        elif name in objects.services:
            objects.services[name] += self.service_member(word, words)

    def group(self, of: Dict[str, List[Any]], words: Words) -> List[Any]:
        name = words.next("a name")
        if name not in of:
            raise words.fault(f"no group of this kind before it has the name {name}")
        return of[name]

    def network_member(self, word: str, words: Words) -> List[Tuple[int, int]]:
        if word in ("group-object",):
            return self.group(self.objects.networks, words)
        if word == "network-object":
            return self.objects.addresses(words)
        if word == "host":
            one = words.address()
            return [(one, one)]
        if word == "subnet":
            return [_masked(words)]
        if word == "range":
            low, high = words.address(), words.address()
            if low > high:
                raise words.fault("a range that ends before it begins")
            return [(low, high)]
        raise words.fault(f"`{word}` is no address that is read, as one by its name (fqdn) has none in the file")

    def port_member(self, word: str, words: Words) -> List[Tuple[int, int]]:
        if word == "group-object":
            return self.group(self.objects.ports, words)
        if word != "port-object" or words.first not in ("eq", "range"):
            raise words.fault("behind a group of ports stand lines `port-object eq PORT` and `port-object range PORT PORT`")
        found = words.ports("destination port")
        return list(found.values("destination port") or ()) if found else []

    def service_member(self, word: str, words: Words) -> List[Tuple[Optional[int], List[List[Match]]]]:
        if word == "group-object":
            return self.group(self.objects.services, words)
        if word == "service-object" and words.first == "object":
            words.next("object")
            return self.group(self.objects.services, words)
        if word not in ("service", "service-object"):
            raise words.fault(f"`{word}` is no service that is read")
        found: List[Tuple[Optional[int], List[List[Match]]]] = []
        name = words.first
        numbers = [6, 17] if name == "tcp-udp" and words.skip("tcp-udp") else [words.protocol()]
        kept = list(words.words)
        for number in numbers:
            words.words = list(kept)
            tests: List[List[Match]] = []
            if is_icmp(number):
                tests.append([words.icmp()])
            for side in ("source", "destination"):
                if words.skip(side):
                    one = words.ports(f"{side} port")
                    tests += [[one]] if one else []
            found.append((number, tests))
        if words.words:
            raise words.fault(f"`{' '.join(words.words)}` behind a service")
        return found

    # ------------------------------------------------ the left edge

    def left(self, text: str, words: Words) -> None:
        self.section = ("", "", "")
        for part, why in _GLOBAL.items():
            if text == part or text.startswith(f"{part} ") or (part == "nat" and text.startswith("nat (")):
                raise words.fault(f"`{text}`: {why}, which a job does not have")
        word = words.next("a word")
        if word == "interface":
            name = "".join(words.words)
            self.pending, self.section = Interface("", words.source), ("interface", name, "")
        elif word in ("object", "object-group"):
            self.open_object(word, words)
        elif word == "access-list":
            self.entry(words)
        elif word == "access-group":
            self.access_group(words)
        elif text.startswith("same-security-traffic permit ") and words.words[-1] in self.same:
            self.same[words.words[-1]] = True

    def open_object(self, word: str, words: Words) -> None:
        kind, name = words.next("a kind"), words.next("a name")
        protocol = words.next("a protocol") if words.words else ""
        self.section = (word, name, protocol)
        objects = self.objects
        services: Any = objects.ports if protocol and word == "object-group" else objects.services
        known: Dict[str, Any] = {"network": objects.networks, "protocol": objects.protocols, "service": services}
        if kind not in known:
            raise words.fault(f"a group of the kind {kind}, which a job does not have")
        known[kind].setdefault(name, [])

    def entry(self, words: Words) -> None:
        """A rule of an access list."""
        name = words.next("the list's name")
        if words.skip("line"):
            words.next("a number")
        if words.skip("remark") or words.first == "standard":
            # a standard list is for tables of routes
            self.is_standard |= {name} if words.first == "standard" else frozenset()
            return
        if not words.skip("extended"):
            raise words.fault("an access list that is not extended")
        chain = self.lists.setdefault(name, Chain(name, [], DROP, words.source))
        action = words.next("permit or deny")
        if action not in ("permit", "deny"):
            raise words.fault(f"'{action}' where permit or deny should stand")
        services = self.objects.protocol(words)
        if words.first in ("user", "user-group", "object-group-user", "security-group", "object-group-security"):
            raise words.fault("users and groups of users, which a job does not have")
        tests = self.tests(services, words)
        if words.skip("log"):
            while words.words and words.first not in ("inactive", "time-range"):
                words.next("a word")
        if words.skip("inactive"):
            return
        if words.words:
            raise words.fault(f"`{' '.join(words.words)}`: {'times of day' if words.first == 'time-range' else 'a test'}, which a job does not have here")
        matches = [match for groups in tests for match in product(groups)]
        chain.rules.append(Rule(tuple(matches), ACCEPT if action == "permit" else DROP, words.source))

    def tests(self, services: List[Tuple[Optional[int], List[List[Match]]]], words: Words) -> List[List[List[Match]]]:
        """The tests of a rule, for each of its services."""
        sides: List[List[Match]] = []
        ports: List[List[Match]] = []
        for side in ("source", "destination"):
            sides.append([test(f"{side} address", self.objects.addresses(words))])
            found = self.objects.port_test(words, f"{side} port")
            ports += [[found]] if found is not None else []
        if ports and not all(number in WITH_PORTS for number, _ in services):
            raise words.fault("ports of a protocol that is neither TCP nor UDP")
        icmp = [[words.icmp()]] if all(is_icmp(number) for number, _ in services) else []
        return [[[of_protocol(number)], *more, *sides, *ports, *icmp] for number, more in services]

    def access_group(self, words: Words) -> None:
        name, side = words.next("the list's name"), words.next("a side")
        if side not in ("in", "out") or not words.skip("interface"):
            raise words.fault("only `access-group LIST in interface NAME` and `.. out interface NAME` are read")
        interface = words.next("the interface's name")
        if words.words:
            raise words.fault(f"`{' '.join(words.words)}` behind the interface: it is not read")
        self.groups.append((interface, side, name, words.source))

    # ------------------------------------------------ the end

    def finish(self) -> List[Filter]:
        """Gives the interfaces the lists of what leaves by them, and returns what each packet meets that is forwarded: the list of the interface that it came by, which
        packets for the box itself do not meet, and the levels of security."""
        self.close()
        lists: Dict[str, bool] = {}
        jumps: List[Rule] = []
        for interface, side, name, source in self.groups:
            if interface not in self.interfaces:
                raise Refused(source, f"no interface has the name {interface}")
            if name not in self.lists:
                raise Refused(source, f"the access list {name} has no extended rule in the file")
            if side == "out":
                self.interfaces[interface].outbound.append(Filter(self.lists[name]))
                continue
            lists[interface] = True
            jumps.append(Rule((Match(comes=frozenset([interface])),), GOTO, source, name))
        ended = {name: Chain(name, [*it.rules, Rule((ANY,), DROP, it.source._replace(text=f"the end of the access list {name}"))], it.policy, it.source) for name, it in self.lists.items()}
        arriving = [Filter(Chain("access groups", jumps, ACCEPT, jumps[0].source), ended)] if jumps else []
        return [*arriving, self.security(lists)]

    def security(self, lists: Dict[str, bool]) -> Filter:
        """From where to where no list decides: to a lower level packets pass, to a higher one none; to the same one, and back by the same interface, where it is said."""
        rules: List[Rule] = []
        for name, interface in self.interfaces.items():
            level = self.levels[name]
            higher = frozenset(it for it in self.interfaces if self.levels[it] > level and not lists.get(name))
            equal = frozenset(it for it in self.interfaces if it != name and self.levels[it] == level and not self.same["inter-interface"])
            back = frozenset([name]) if not self.same["intra-interface"] else frozenset()
            goes = higher | equal | back
            if goes:
                told = interface.source._replace(text=f"no packet goes from {name}, security-level {level}, to {', '.join(sorted(goes))}")
                rules.append(Rule((Match(comes=frozenset([name]), goes=goes),), DROP, told))
        first = next(iter(self.interfaces.values())).source if self.interfaces else Source("", 0)
        return Filter(Chain("levels of security", rules, ACCEPT, first))


def read_asa(config: Text, routes: Text) -> Router:
    """A box by its configuration and its routes."""
    read = _Config()
    for line, source in config.lines():
        read.line(line, source)
    filters = read.finish()
    if not read.interfaces:
        raise Refused(config.source(1), "no interface with a name (nameif)")
    return Router(read.interfaces, own_routes(read.interfaces, read_routes(routes)), forwarded=filters, counts_down=False, no_sources=_NEVER, no_destinations=_NEVER)
