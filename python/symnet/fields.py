"""Names of header fields, and their values as people write them: addresses with dots and colons, protocols by name.

The positions are those of docs/language.md, "Where the headers are". A reference that is none of them keeps its raw form.
"""

import ipaddress
import re
from typing import Dict, Optional, Tuple

# By tag, offset and width: the field's name, and the kind of its values.
POSITIONS: Dict[Tuple[str, int, int], Tuple[str, str]] = {
    ("L2", 0, 48): ("Ethernet destination", "mac"), ("L2", 48, 48): ("Ethernet source", "mac"), ("L2", 96, 16): ("Ethernet type", "type"),
    ("L2", 112, 3): ("VLAN priority", "number"), ("L2", 115, 1): ("VLAN drop eligible", "number"), ("L2", 116, 12): ("VLAN", "number"),
    ("L2", 128, 16): ("type behind the VLAN tag", "type"),
    ("L3", 64, 8): ("TTL", "number"), ("L3", 72, 8): ("protocol", "protocol"), ("L3", 80, 16): ("header checksum", "number"),
    ("L3", 96, 32): ("source address", "ip4"), ("L3", 128, 32): ("destination address", "ip4"),
    ("L3", 48, 8): ("next header", "protocol"), ("L3", 56, 8): ("hop limit", "number"),
    ("L3", 64, 128): ("source address", "ip6"), ("L3", 192, 128): ("destination address", "ip6"),
    ("L4", 0, 16): ("source port", "number"), ("L4", 16, 16): ("destination port", "number"),
}
PROTOCOLS = {1: "ICMP", 4: "IP in IP", 6: "TCP", 17: "UDP", 47: "GRE", 50: "ESP", 58: "ICMPv6", 89: "OSPF"}
TYPES = {0x0800: "IPv4", 0x0806: "ARP", 0x8100: "802.1Q", 0x86DD: "IPv6"}
ADDRESS_BITS = {"ip4": 32, "ip6": 128}

_TARGET = re.compile(r"head\s+([A-Za-z_]\w*)\s*([+-])\s*(\w+)\s*:\s*(\w+)$", re.ASCII)
_CODE = re.compile(r'"[^"]*"|head\s+[A-Za-z_]\w*\s*[+-]\s*\w+\s*:\s*\w+|\w+\s*\.\.\s*\w+|\w+|==|!=|<=|>=|[^\s\w]', re.ASCII)
_BEFORE_VALUE = ("==", "!=", "<=", ">=", "<", ">", "{", ",", "=")


def number_of(text: str) -> int:
    """The number that a job's text writes, decimal or behind `0x`; ValueError where it writes none."""
    return int(text, 16) if text.startswith("0x") else int(text)


def position_of(target: str) -> Optional[Tuple[str, str]]:
    """The name and the kind of the field at this reference of a job, as `head L3+96:32`; None where the table has none."""
    found = _TARGET.match(target.strip())
    if not found:
        return None
    try:
        offset = number_of(found[3]) * (-1 if found[2] == "-" else 1)
        return POSITIONS.get((found[1], offset, number_of(found[4])))
    except ValueError:
        return None


def name_of(target: str) -> str:
    position = position_of(target)
    return position[0] if position else target


def kind_of(target: str) -> Optional[str]:
    position = position_of(target)
    return position[1] if position else None


def value_text(kind: Optional[str], value: int) -> str:
    """The value as people write it, by the kind of its field; a value that the kind cannot have stays a number."""
    if kind == "ip4" and value < 1 << 32:
        return str(ipaddress.IPv4Address(value))
    if kind == "ip6" and value < 1 << 128:
        return ipaddress.IPv6Address(value).compressed
    if kind == "mac" and value < 1 << 48:
        return ":".join(f"{byte:02x}" for byte in value.to_bytes(6, "big"))
    if kind == "protocol":
        return PROTOCOLS.get(value, str(value))
    if kind == "type":
        return TYPES.get(value, f"0x{value:04x}")
    return str(value)


def range_text(kind: Optional[str], low: int, high: int) -> str:
    """A range of values: a prefix where its addresses are just those of one."""
    size = high - low + 1
    if size == 1:
        return value_text(kind, low)
    if kind in ADDRESS_BITS and size > 0 and size & (size - 1) == 0 and low % size == 0:
        return f"{value_text(kind, low)}/{ADDRESS_BITS[kind] - size.bit_length() + 1}"
    return f"{value_text(kind, low)}..{value_text(kind, high)}"


def code_text(text: str) -> str:
    """An instruction or a question with names for the references of the table, and with their values as people write them."""
    kind, before = None, ""

    def shown(found: "re.Match[str]") -> str:
        nonlocal kind, before
        part, last = found[0], before
        before = part
        if part.startswith("head") and _TARGET.match(part):
            kind = kind_of(part)
            return name_of(part)
        if part in ("and", "or", "not"):
            kind = None
        if kind is None or last not in _BEFORE_VALUE or not part[0].isdigit():
            return part
        try:
            ends = [number_of(end.strip()) for end in part.split("..")]
        except ValueError:
            return part
        return value_text(kind, ends[0]) if len(ends) == 1 else range_text(kind, ends[0], ends[1])

    return _CODE.sub(shown, text)
