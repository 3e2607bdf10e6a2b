"""The file of the topology: which interface is linked to which, and where the hosts are.

    r1.eth0 r2.eth3                     a link
    host h1 r1.eth1                     a host
    host h2 r2.eth1 10.2.0.5 02:00:00:00:00:05      with its addresses, in any order, where they are known

`#` begins a comment, and empty lines are skipped.
"""

import re
from ipaddress import IPv4Address
from typing import Dict, List, Optional, Tuple

from .model import Host, Link, Refused, Source
from .sources import Text

# What a box and a host may be called: the name stands in the job, and others are made of it.
NAME = re.compile(r"[A-Za-z_][A-Za-z0-9_-]{0,39}")
_MAC = re.compile(r"[0-9a-f]{1,2}(:[0-9a-f]{1,2}){5}", re.IGNORECASE)

End = Tuple[str, str]


def mac_of(text: str) -> Optional[int]:
    """The number of an Ethernet address; None where the text is none."""
    return int("".join(part.zfill(2) for part in text.split(":")), 16) if _MAC.fullmatch(text) else None


def _end(word: str, source: Source) -> End:
    box, dot, interface = word.partition(".")
    if not dot or not interface or not NAME.fullmatch(box):
        raise Refused(source, f"'{word}' is no interface: a box's name, a dot and the name of its interface should stand here, as r1.eth0")
    return box, interface


def _addresses(words: List[str], source: Source) -> Tuple[Optional[IPv4Address], Optional[int]]:
    address, mac = None, None
    for word in words:
        if (number := mac_of(word)) is not None and mac is None:
            mac = number
            continue
        try:
            read = IPv4Address(word)
        except ValueError:
            read = None
        if read is None or address is not None:
            raise Refused(source, f"'{word}' is no address of the host: one of IPv4 and one of Ethernet may stand here")
        address = read
    return address, mac


def read_topology(text: Text) -> Tuple[List[Link], List[Host]]:
    """The links and the hosts."""
    links: List[Link] = []
    hosts: List[Host] = []
    used: Dict[End, Source] = {}
    names: Dict[str, Source] = {}

    def take(end: End, source: Source) -> End:
        if end in used:
            raise Refused(source, f"the interface {end[0]}.{end[1]} is named already in line {used[end].line}: an interface has one link or one host")
        used[end] = source
        return end

    for line, source in text.lines():
        words = line.split("#")[0].split()
        if not words:
            continue
        if words[0] == "host":
            if len(words) < 3 or not NAME.fullmatch(words[1]):
                raise Refused(source, "behind `host` stand the host's name and the interface that it is at, as `host h1 r1.eth1`")
            if words[1] in names:
                raise Refused(source, f"the host {words[1]} is named already in line {names[words[1]].line}")
            names[words[1]] = source
            box, interface = take(_end(words[2], source), source)
            hosts.append(Host(words[1], box, interface, source, *_addresses(words[3:], source)))
        elif len(words) == 2:
            ends = [_end(word, source) for word in words]
            links.append(Link((take(ends[0], source), take(ends[1], source)), source))
        else:
            raise Refused(source, "a line has two interfaces, as `r1.eth0 r2.eth3`, or a host, as `host h1 r1.eth1`")
    return links, hosts
