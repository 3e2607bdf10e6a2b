"""What people write in place of references and numbers: `source address in 10.1.0.0/16` for `head L3+96:32 in {167837696..167903231}`. The names are those of
docs/language.md, "Where the headers are"."""

import ipaddress
import re
from typing import Dict, Optional, Tuple, Union

from .fields import POSITIONS, PROTOCOLS, TYPES
from .sefl import target_text

Given = Union[int, str, ipaddress.IPv4Address, ipaddress.IPv6Address]

_NUMBERS = {name: number for named in (PROTOCOLS, TYPES) for number, name in named.items() if name.isalnum() and not name[0].isdigit()}
_MAC = re.compile(r"[0-9A-Fa-f]{1,2}(?::[0-9A-Fa-f]{1,2}){5}", re.ASCII)
_NAMES = "|".join(r"\s+".join(name.split()) for name in sorted({name for name, _ in POSITIONS.values()}, key=len, reverse=True))
_IP4 = r"[0-9]{1,3}(?:\.[0-9]{1,3}){3}"
_IP6 = r"(?<![\w:])[0-9A-Fa-f:]*::[0-9A-Fa-f:]*(?![\w:])"
_PARTS = re.compile(
    # texts, comments, and names that are of the job: they stand as they are
    r'"[^"]*"|//[^\n]*|\b(?:head|global|local|tag|retag|untag|for|node|link|inject)\s+[A-Za-z_]\w*|(?:\$|->)\s*\w+|\b(?:in|out)\s+[A-Za-z_]\w*\s*\.\s*\w+'
    rf"|(?P<inside>\bin\s+)?(?P<net>(?:{_IP4}|{_IP6})/[0-9]{{1,3}})|(?P<ip4>{_IP4})|(?P<mac>\b{_MAC.pattern}(?![\w:]))|(?P<ip6>{_IP6})|(?P<name>\b(?:{_NAMES})\b)|(?P<word>\b(?:{'|'.join(_NUMBERS)})\b)",
    re.ASCII | re.IGNORECASE)


def _places(version: int) -> Dict[str, Tuple[str, str]]:
    """The reference and the kind of each name, in the header of this version of IP."""
    found: Dict[str, Tuple[str, str]] = {}
    for (tag, offset, width), (name, kind) in POSITIONS.items():
        if kind != f"ip{10 - version}":
            found.setdefault(name.lower(), (f"head {tag}+{offset}:{width}", kind))
    return found


_OF_VERSION = {version: _places(version) for version in (4, 6)}


def mac_number(text: str) -> int:
    """The number of an address of Ethernet."""
    if not _MAC.fullmatch(text):
        raise ValueError(f"{text!r} is no address of Ethernet")
    return int("".join(part.zfill(2) for part in text.split(":")), 16)


def reference(name: str, version: int = 4) -> str:
    """The reference of a field: by its name, or as the job has it."""
    place = _OF_VERSION[version].get(" ".join(name.split()).lower())
    return place[0] if place else target_text(name)


def number(value: Given, name: str = "", version: int = 4) -> int:
    """The number of a value: of an address, a protocol by its name, or a number itself. `name` is that of its field."""
    if not isinstance(value, str):
        return int(value)
    kind = _OF_VERSION[version].get(name.lower(), ("", ""))[1]
    words = {it.lower(): at for named, its in ((PROTOCOLS, "protocol"), (TYPES, "type")) if kind in (its, "") for at, it in named.items()}
    if value.lower() in words:
        return words[value.lower()]
    if _MAC.fullmatch(value):
        return mac_number(value)
    if re.fullmatch("0x[0-9A-Fa-f]+|[0-9]+", value):
        return int(value, 0) if value.startswith("0x") else int(value)
    return int(ipaddress.ip_address(value))


def unspoken(text: str, version: int = 4) -> str:
    """The text of a job for a text with names of fields, addresses and protocols."""
    def written(found: "re.Match[str]") -> str:
        if found["name"]:
            return _OF_VERSION[version][" ".join(found["name"].split()).lower()][0]
        if found["net"]:
            net = ipaddress.ip_network(found["net"], strict=False)
            ranged = f"{int(net.network_address)}..{int(net.broadcast_address)}"
            return f"in {{{ranged}}}" if found["inside"] else ranged
        if found["word"]:
            return str({name.lower(): at for name, at in _NUMBERS.items()}[found["word"].lower()])
        address = found["ip4"] or found["ip6"]
        return str(int(ipaddress.ip_address(address))) if address else str(mac_number(found["mac"])) if found["mac"] else found[0]

    return _PARTS.sub(written, text)


def prefix(net: Union[str, ipaddress.IPv4Network]) -> str:
    """A prefix as tables have it; an address is one of all its bits."""
    return str(ipaddress.IPv4Network(net, strict=False))


def protocol(word: str) -> Optional[int]:
    """The number of a protocol's name."""
    return next((at for at, name in PROTOCOLS.items() if name.lower() == word.lower()), None)
