"""Names of protocols and of types of ICMP, and numbers and addresses as filters write them."""

from ipaddress import AddressValueError, IPv4Address, IPv4Network, NetmaskValueError
from typing import Dict, Optional, Tuple

# As /etc/protocols has them, in the names of iptables and nft (IANA, "Protocol Numbers").
PROTOCOLS: Dict[str, int] = {
    "hopopt": 0, "icmp": 1, "igmp": 2, "ggp": 3, "ipencap": 4, "ipv4": 4, "ipip": 4, "st": 5, "tcp": 6, "egp": 8, "igp": 9, "pup": 12, "udp": 17, "hmp": 20,
    "xns-idp": 22,
    "rdp": 27, "iso-tp4": 29, "dccp": 33, "xtp": 36, "ddp": 37, "idpr-cmtp": 38, "ipv6": 41, "ipv6-route": 43, "ipv6-frag": 44, "idrp": 45, "rsvp": 46, "gre": 47,
    "esp": 50, "ipv6-crypt": 50, "ah": 51, "ipv6-auth": 51, "skip": 57, "ipv6-icmp": 58, "icmpv6": 58, "icmp6": 58, "ipv6-nonxt": 59, "ipv6-opts": 60, "rspf": 73,
    "vmtp": 81, "eigrp": 88,
    "ospf": 89, "ospfigp": 89, "ax.25": 93, "etherip": 97, "encap": 98, "pim": 103, "ipcomp": 108, "comp": 108, "vrrp": 112, "l2tp": 115, "isis": 124, "sctp": 132,
    "fc": 133,
    "mobility-header": 135, "udplite": 136, "mpls-in-ip": 137, "manet": 138, "hip": 139, "shim6": 140, "wesp": 141, "rohc": 142,
}
# RFC 792 and its followers, in the names of nft and iptables.
ICMP_TYPES: Dict[str, int] = {
    "echo-reply": 0, "destination-unreachable": 3, "source-quench": 4, "redirect": 5, "echo-request": 8, "router-advertisement": 9, "router-solicitation": 10,
    "time-exceeded": 11, "parameter-problem": 12, "timestamp-request": 13, "timestamp-reply": 14, "info-request": 15, "info-reply": 16,
    "address-mask-request": 17, "address-mask-reply": 18,
}
TCP, UDP, ICMP = 6, 17, 1


def number(text: str, most: int) -> Optional[int]:
    """The decimal number, or None where the text is none up to the most."""
    return int(text) if text.isascii() and text.isdigit() and len(text) <= 10 and int(text) <= most else None


def protocol(text: str) -> Optional[int]:
    return PROTOCOLS[text] if text in PROTOCOLS else number(text, 255)


def span(text: str, sign: str, most: int = 65535) -> Optional[Tuple[int, int]]:
    """A number, or two with a sign between them, either of which may be left out."""
    low, is_range, high = text.partition(sign)
    first = number(low, most) if low or not is_range else 0
    last = first if not is_range else number(high, most) if high else most
    return (first, last) if first is not None and last is not None and first <= last else None


def network(text: str) -> Optional[Tuple[int, int]]:
    """The addresses of a prefix: `10.0.0.0/8`, `10.0.0.0/255.0.0.0` or one address. None where the text is none, or its mask has holes."""
    try:
        found = IPv4Network(text, strict=False)
    except (AddressValueError, NetmaskValueError, ValueError):
        return None
    if "/" in text and "." in text.partition("/")[2] and str(found.netmask) != text.partition("/")[2]:
        return None
    return int(found.network_address), int(found.broadcast_address)


def address(text: str) -> Optional[int]:
    try:
        return int(IPv4Address(text))
    except AddressValueError:
        return None


def icmp_range(kind: int, code: Optional[int] = None) -> Tuple[int, int]:
    """The first 16 bits behind the IP header of ICMP's messages of a type, and of a code: they stand where the source port of TCP does."""
    return (kind << 8, kind << 8 | 255) if code is None else (kind << 8 | code, kind << 8 | code)
