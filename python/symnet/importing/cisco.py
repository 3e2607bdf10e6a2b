"""What access lists and tables of routes of IOS and of ASA have in common: words of a line from front to back, ports, types of ICMP, and the lines of `show ip route`."""

import re
from ipaddress import IPv4Address, IPv4Network
from typing import Dict, List, NamedTuple, Optional, Sequence, Tuple

from .model import ANY, LOCAL, Hop, Interface, Match, Refused, Route, Source, test
from .numbers import ICMP, TCP, UDP, icmp_range, number
from .sources import Text

PROTOCOLS: Dict[str, int] = {"icmp": 1, "igmp": 2, "ipinip": 4, "tcp": 6, "igrp": 9, "udp": 17, "gre": 47, "esp": 50, "ipsec": 50, "ahp": 51, "ah": 51, "icmp6": 58,
                             "eigrp": 88, "ospf": 89,
                             "nos": 94, "pim": 103, "pcp": 108, "snp": 109, "sctp": 132, "pptp": 47}
# Names of ports, as both systems write them; where TCP and UDP differ, by the protocol.
_PORTS: Dict[str, int] = {
    "echo": 7, "discard": 9, "daytime": 13, "chargen": 19, "ftp-data": 20, "ftp": 21, "ssh": 22, "telnet": 23, "smtp": 25, "time": 37, "nameserver": 42,
    "whois": 43, "tacacs": 49, "tacacs-ds": 65,
    "domain": 53, "bootps": 67, "bootpc": 68, "tftp": 69, "gopher": 70, "finger": 79, "www": 80, "http": 80, "hostname": 101, "pop2": 109, "pop3": 110,
    "sunrpc": 111, "ident": 113,
    "nntp": 119, "ntp": 123, "netbios-ns": 137, "netbios-dgm": 138, "netbios-ssn": 139, "netbios-ss": 139, "imap4": 143, "snmp": 161, "snmptrap": 162, "xdmcp": 177,
    "bgp": 179,
    "irc": 194, "dnsix": 195, "mobile-ip": 434, "ldap": 389, "https": 443, "pim-auto-rp": 496, "isakmp": 500, "exec": 512, "biff": 512, "login": 513, "who": 513,
    "syslog": 514, "cmd": 514,
    "rsh": 514, "lpd": 515, "talk": 517, "rip": 520, "uucp": 540, "klogin": 543, "kshell": 544, "rtsp": 554, "ldaps": 636, "kerberos": 750, "lotusnotes": 1352,
    "citrix-ica": 1494,
    "sqlnet": 1521, "radius": 1645, "radius-acct": 1646, "h323": 1720, "pptp": 1723, "nfs": 2049, "ctiqbe": 2748, "non500-isakmp": 4500, "sip": 5060, "aol": 5190,
    "secureid-udp": 5510,
    "pcanywhere-data": 5631, "pcanywhere-status": 5632, "drip": 3949, "cifs": 3020,
}
_ICMP: Dict[str, Tuple[int, Optional[int]]] = {
    "echo-reply": (0, None), "unreachable": (3, None), "net-unreachable": (3, 0), "host-unreachable": (3, 1), "protocol-unreachable": (3, 2),
    "port-unreachable": (3, 3),
    "packet-too-big": (3, 4), "source-route-failed": (3, 5), "network-unknown": (3, 6), "host-unknown": (3, 7), "administratively-prohibited": (3, 13),
    "source-quench": (4, None),
    "redirect": (5, None), "alternate-address": (6, None), "echo": (8, None), "router-advertisement": (9, None), "router-solicitation": (10, None),
    "time-exceeded": (11, None),
    "ttl-exceeded": (11, 0), "reassembly-timeout": (11, 1), "parameter-problem": (12, None), "timestamp-request": (13, None), "timestamp-reply": (14, None),
    "information-request": (15, None), "information-reply": (16, None), "mask-request": (17, None), "mask-reply": (18, None), "traceroute": (30, None),
    "conversion-error": (31, None),
    "mobile-redirect": (32, None),
}
OPERATORS = ("eq", "neq", "lt", "gt", "range")
WITH_PORTS = (TCP, UDP)


class Words:
    """The words of a line, from front to back."""

    def __init__(self, words: Sequence[str], source: Source):
        self.words, self.source = list(words), source

    def fault(self, what: str) -> Refused:
        return Refused(self.source, what)

    @property
    def first(self) -> str:
        return self.words[0] if self.words else ""

    def next(self, what: str) -> str:
        if not self.words:
            raise self.fault(f"it ends where {what} should stand")
        return self.words.pop(0)

    def skip(self, *words: str) -> bool:
        """Takes the next word, if it is one of these."""
        if self.first not in words or not self.words:
            return False
        self.words.pop(0)
        return True

    def address(self) -> int:
        word = self.next("an address")
        try:
            return int(IPv4Address(word))
        except ValueError:
            raise self.fault(f"'{word}' is no address of IPv4") from None

    def port(self) -> int:
        word = self.next("a port")
        found = _PORTS[word] if word in _PORTS else number(word, 65535)
        if found is None:
            raise self.fault(f"'{word}' is no port that is known")
        return found

    def is_port(self) -> bool:
        return self.first in _PORTS or self.first.isdigit()

    def ports(self, field: str) -> Optional[Match]:
        """A test of ports, where one stands next."""
        if self.first not in OPERATORS:
            return None
        sign = self.next("a relation")
        if sign == "range":
            low, high = self.port(), self.port()
            return test(field, [(min(low, high), max(low, high))])
        found = [self.port()]
        while sign in ("eq", "neq") and self.words and self.is_port():
            found.append(self.port())
        if sign in ("eq", "neq"):
            return test(field, [(it, it) for it in found], sign == "neq")
        low, high = (0, found[0] - 1) if sign == "lt" else (found[0] + 1, 65535)
        return test(field, [(low, high)] if low <= high else [])

    def protocol(self) -> Optional[int]:
        """The number of a protocol; None where it is any."""
        word = self.next("a protocol")
        if word in ("ip", "ipv4"):
            return None
        found = PROTOCOLS[word] if word in PROTOCOLS else number(word, 255)
        if found is None:
            raise self.fault(f"'{word}' is no protocol that is known")
        return found

    def icmp(self) -> Match:
        """A type of ICMP, and its code, where they stand next."""
        if self.first in _ICMP:
            kind, code = _ICMP[self.next("a type of ICMP")]
        elif self.first.isdigit():
            kind, code = self.number(255, "a type of ICMP"), self.number(255, "a code of ICMP") if self.first.isdigit() else None
        else:
            return ANY
        return test("source port", [icmp_range(kind, code)])

    def number(self, most: int, what: str) -> int:
        word = self.next(what)
        found = number(word, most)
        if found is None:
            raise self.fault(f"'{word}' is not {what}")
        return found


def of_protocol(protocol: Optional[int]) -> Match:
    return ANY if protocol is None else test("protocol", [(protocol, protocol)])


def is_icmp(protocol: Optional[int]) -> bool:
    return protocol == ICMP


# ---------------------------------------------------------------- tables of routes


_NUMBERS = r"\d+\.\d+\.\d+\.\d+"
_ROUTE = re.compile(rf"(?P<code>[A-Za-z][A-Za-z0-9*+%&~ ]{{0,14}}?)\s+(?P<prefix>{_NUMBERS}(?:/\d+)?)(?: (?P<mask>{_NUMBERS}))?(?=\s|$)(?P<rest>.*)")
_CONTAINER = re.compile(rf"\s*({_NUMBERS})(/\d+)? is (variably )?subnetted")
_MORE = re.compile(r"\s+(?P<rest>\[\d+/\d+\] via .*|is directly connected.*)")
_VIA = re.compile(rf"\s*(?:\[\d+/\d+\]\s+)?via ({_NUMBERS})(.*)")
_TIME = re.compile(r"\d+:\d+:\d+|\d+[ywdhms]\d*[wdhms]?\d*|never")
# A code with its meaning, or a prompt.
_LEGEND = re.compile(r"[A-Za-z0-9*+%&~]{1,3}\d? - |[\w.-]+[#>]")
_NULL = "Null0"


class _Row(NamedTuple):
    prefix: IPv4Network
    is_local: bool
    # of each hop its interface, "" where it is not said, and the next router
    hops: List[Tuple[str, Optional[IPv4Address]]]
    source: Source


def _interface(rest: str) -> str:
    """The interface at the end of a hop, or nothing."""
    parts = [it.strip() for it in rest.split(",") if it.strip()]
    return parts[-1] if parts and not _TIME.fullmatch(parts[-1]) else ""


def _hop(rest: str, source: Source) -> Optional[Tuple[str, Optional[IPv4Address]]]:
    """A hop, as it stands behind a prefix; None where nothing stands there."""
    if not rest.strip():
        return None
    if "(" in rest or "tag" in rest.split():
        raise Refused(source, "a hop in another table of routes, or with a label")
    via = _VIA.fullmatch(rest)
    if via:
        return _interface(via[2]), IPv4Address(via[1])
    if "is directly connected" in rest or "is a summary" in rest:
        return _interface(rest.replace("is directly connected", "").replace("is a summary", "")), None
    raise Refused(source, "no line that `show ip route` writes")


def _is_legend(line: str) -> bool:
    """Whether a line is of the head of the table."""
    text = line.strip()
    return not text or text.startswith(("Codes:", "Gateway of last resort",
    "Default gateway")) or re.match(r"[A-Za-z0-9*+%&~]{1,3}\d? - ", text) is not None or re.match(r"[\w.-]+[#>]", text) is not None


def _prefix(text: str, mask: Optional[str], length: str, source: Source) -> IPv4Network:
    whole = f"{text}/{mask}" if mask else text if "/" in text else f"{text}{length}"
    try:
        if "/" in whole:
            return IPv4Network(whole)
    except ValueError:
        pass
    raise Refused(source, f"'{text}' is no prefix of IPv4, or no line says its length")


def _rows(text: Text) -> List[_Row]:
    rows: List[_Row] = []
    length = ""
    for line, source in text.lines():
        found, container, more = _ROUTE.fullmatch(line), _CONTAINER.match(line), _MORE.fullmatch(line)
        if container:
            length = "" if container[3] else container[2] or ""
        elif re.match(r"\s*Routing (Table|entry)", line):
            raise Refused(source, "a table of routes of its own (VRF), which a job does not have")
        elif _is_legend(line):
            continue
        elif found:
            prefix = _prefix(found["prefix"], found["mask"], length, source)
            hop = _hop(found["rest"], source)
            rows.append(_Row(prefix, found["code"].split()[0] == "L", [hop] if hop else [], source))
        elif more and rows:
            hop = _hop(more["rest"], source)
            rows[-1].hops.extend([hop] if hop else [])
        else:
            raise Refused(source, "no line that `show ip route` writes")
    return rows


class _Resolver:
    """Finds the interface of a next router by the routes."""

    def __init__(self, rows: Sequence[_Row]):
        self.rows: Dict[IPv4Network, _Row] = {it.prefix: it for it in rows if not it.is_local}

    def hops(self, row: _Row, depth: int = 0) -> Tuple[List[Hop], bool]:
        """The hops of a row, and whether one of them leads nowhere."""
        made: List[Hop] = []
        is_null = False
        for interface, gateway in row.hops:
            if interface == _NULL:
                is_null = True
            elif interface:
                made.append(Hop(interface, gateway))
            elif gateway is None or depth == 8:
                raise Refused(row.source, "a hop without an interface, and no other route has its next router")
            else:
                under, nowhere = self.hops(self.covering(gateway, row), depth + 1)
                made += [it if it.gateway else Hop(it.interface, gateway) for it in under]
                is_null = is_null or nowhere
        return list(dict.fromkeys(made)), is_null

    def covering(self, address: IPv4Address, row: _Row) -> _Row:
        """The row with the longest prefix that has the address."""
        for size in range(32, -1, -1):
            found = self.rows.get(IPv4Network((int(address) >> (32 - size) << (32 - size), size)))
            if found is not None and found is not row:
                return found
        raise Refused(row.source, f"no route has its next router {address}")


def read_routes(text: Text) -> List[Route]:
    """The routes of `show ip route`. A next router without an interface is looked up in the other routes, as the box does."""
    rows = _rows(text)
    resolver = _Resolver(rows)
    made: Dict[IPv4Network, Route] = {}
    for row in rows:
        if not row.hops and not row.is_local:
            raise Refused(row.source, "a route without a hop")
        if row.is_local:
            made[row.prefix] = Route(row.prefix, row.source, kind=LOCAL)
            continue
        hops, is_null = resolver.hops(row)
        if is_null and hops:
            raise Refused(row.source, f"a route to {_NULL} and to an interface, too")
        made.setdefault(row.prefix, Route(row.prefix, row.source, tuple(hops), "dropped by a route to Null0" if is_null else ""))
    return list(made.values())


def own_routes(interfaces: Dict[str, Interface], routes: Sequence[Route]) -> List[Route]:
    """The routes, with the addresses of the box, and the first and the last address of each of its nets, which it takes for its own."""
    own: Dict[IPv4Network, Route] = {}
    for interface in interfaces.values():
        for address in interface.addresses if interface.is_up else ():
            ends = [address.ip, *([address.network[0], address.network[-1]] if address.network.prefixlen < 31 else [])]
            for one in ends:
                prefix = IPv4Network(one)
                own[prefix] = Route(prefix, interface.source._replace(text=f"{one}, which {interface.name} takes for its own"), kind=LOCAL)
    mine = {it.prefix for it in routes if it.kind == LOCAL}
    return [it for it in routes if it.kind == LOCAL or it.prefix not in own] + [it for prefix, it in own.items() if prefix not in mine]
