"""Packets for kernel_test.py: drawn at the borders of what a configuration names, written as frames, sent, and caught where they come out.

A packet is a dict of its fields by the names of `symnet.importing.model.WIDTHS`, as in python/import_walk.py; what is caught has the form of an `End` there.
"""

import random
import select
import socket
import struct
import time
from dataclasses import dataclass, field
from typing import Dict, NamedTuple, Sequence, Set, Tuple

from kernel_plan import STRANGER, Plan
from kernel_spaces import OUTSIDE, ends_outside, inside

Packet = Dict[str, int]
End = Tuple[str, str, Tuple[Tuple[str, int], ...]]
IPV4, TAGGED, UDP = 0x0800, 0x8100, 17
ETHERNET = ("VLAN", "Ethernet destination", "Ethernet source", "Ethernet type")
# Behind 20 bytes of a header of ports stand these and the number of the packet; what answers a packet of ours has them further behind.
_MARK = b"symnet"
_ALL_PROTOCOLS, _AUXDATA, _PACKET, _OUTGOING, _HAS_TAG = 3, 8, 263, 4, 1 << 4
_RECEIVE_FORCE = 33


class Sent(NamedTuple):
    """A packet, and the host that sends it."""

    host: int
    packet: Packet


# ---------------------------------------------------------------- drawing


class PacketDrawer:
    """Draws packets at the borders of the values that a plan names."""

    def __init__(self, plan: Plan, has_frames: bool):
        self.drawn, self.plan = random.Random(f"{plan.seed} packets"), plan
        self.has_frames = has_frames
        values = plan.values
        self.addresses = sorted(values.addresses | {0x7F000001, 0xE0000001, 0xE0000005, 0xFFFFFFFF, 1, 0xF0000001})
        self.ports = sorted(values.ports | {0, 1, 65535, 0x0800})
        self.protocols = sorted(values.protocols | {255})
        self.ttls = sorted(values.ttls | {0, 1, 2, 3})
        self.known = [int(it.address) for it in plan.hosts if it.address] or self.addresses
        faces = [it for box in plan.boxes.values() for it in box.interfaces.values()]
        stations = [it.mac for it in plan.hosts] + [it.mac for it in faces]
        self.macs = [as_number(it) for it in [*stations, STRANGER, "ff:ff:ff:ff:ff:ff", "01:00:5e:00:00:05", *(f"01:80:c2:00:00:0{it}" for it in "012ef")]]
        self.vlans = sorted({it.vlan for it in faces if it.vlan} | {int(words.split()[0]) for it in faces for words in it.vlans} | {1, 4094})
        self.hosts = [number for number, it in enumerate(plan.hosts) if it.is_up]

    def often(self, part: float, likely: Sequence[int], others: Sequence[int]) -> int:
        return self.drawn.choice(likely if self.drawn.random() < part else others)

    def packet(self) -> Sent:
        number = self.drawn.choice(self.hosts)
        host = self.plan.hosts[number]
        made = {
            "source address": self.often(0.6, [int(host.address)] if host.address else self.known, self.addresses),
            "destination address": self.often(0.5, self.known, self.addresses), "protocol": self.often(0.6, (6, 17), self.protocols),
            "TTL": self.often(0.6, (64, 9), self.ttls), "source port": self.drawn.choice(self.ports), "destination port": self.drawn.choice(self.ports)}
        return Sent(number, {**made, **self.frame(number, made)})

    def random(self) -> Sent:
        """A packet whose fields are any."""
        number = self.drawn.choice(self.hosts)
        bits = {"source address": 32, "destination address": 32, "TTL": 8, "source port": 16, "destination port": 16}
        made = {name: self.drawn.getrandbits(width) for name, width in bits.items()}
        return Sent(number, {**made, "protocol": self.drawn.choice(self.protocols), **self.frame(number, made)})

    def frame(self, number: int, packet: Packet) -> Packet:
        """The fields of Ethernet: most frames are for the station that a host would send them to, where that is known."""
        host = self.plan.hosts[number]
        if not self.has_frames:
            return {}
        face = self.plan.interface(host.at)
        near = [] if face.bridge else [as_number(face.mac)]
        near += [as_number(mac) for ip, mac in self.plan.stations.items() if int(ip) == packet["destination address"]]
        near += [as_number(it.mac) for box in self.plan.boxes.values() if box.is_router for it in box.interfaces.values() if it.addresses]
        return {"VLAN": self.often(0.7, [0], self.vlans), "Ethernet type": IPV4, "Ethernet source": self.often(0.8, [as_number(host.mac)], self.macs[:3]),
                "Ethernet destination": self.often(0.7, near, self.macs)}


def as_number(mac: str) -> int:
    return int(mac.replace(":", ""), 16)


# ---------------------------------------------------------------- frames


def _sum(data: bytes) -> int:
    """The checksum of an IP header (RFC 1071)."""
    total = sum(struct.unpack(f"!{len(data) // 2}H", data))
    while total >> 16:
        total = (total & 0xFFFF) + (total >> 16)
    return ~total & 0xFFFF


def _ip(packet: Packet, number: int) -> bytes:
    """The packet of IPv4. Behind the ports stands what a packet of TCP or UDP would have."""
    length = struct.pack("!HHI", 24 + len(_MARK), 0, 0) if packet["protocol"] == UDP else bytes(8)
    ports = struct.pack("!HH", packet["source port"], packet["destination port"])
    rest = ports + length + b"\x50\x10\xff\xff" + bytes(4) + _MARK + struct.pack("!I", number)

    def header(checksum: int) -> bytes:
        return struct.pack("!BBHHHBBHII", 0x45, 0, 20 + len(rest), number & 0xFFFF, 0, packet["TTL"], packet["protocol"], checksum, packet["source address"], packet["destination address"])

    return header(_sum(header(0))) + rest


def frame(sent: Sent, number: int, plan: Plan) -> bytes:
    """The frame of a packet. In a network without switches it is for the box that the host is at."""
    packet, host = sent.packet, plan.hosts[sent.host]
    target = packet.get("Ethernet destination", as_number(plan.interface(host.at).mac))
    tag = struct.pack("!HH", TAGGED, packet["VLAN"]) if packet.get("VLAN") else b""
    return target.to_bytes(6, "big") + packet.get("Ethernet source", as_number(host.mac)).to_bytes(6, "big") + tag + struct.pack("!H", IPV4) + _ip(packet, number)


def read_ip(data: bytes) -> "Tuple[int, Packet]":
    """The number and the fields of a packet of ours; the number is -1 where it is none."""
    if len(data) < 40 + len(_MARK) + 4 or data[0] != 0x45 or data[40:40 + len(_MARK)] != _MARK:
        return -1, {}
    number = struct.unpack_from("!I", data, 40 + len(_MARK))[0]
    if struct.unpack_from("!H", data, 4)[0] != number & 0xFFFF:
        return -1, {}
    source, destination, one, other = struct.unpack_from("!IIHH", data, 12)
    return number, {"TTL": data[8], "protocol": data[9], "source address": source, "destination address": destination, "source port": one, "destination port": other}


# ---------------------------------------------------------------- sending and catching


@dataclass
class Caught:
    """What came of each packet, by its number."""

    ends: Dict[int, Set[End]] = field(default_factory=dict)

    def add(self, number: int, kind: str, name: str, packet: Packet) -> None:
        self.ends.setdefault(number, set()).add((kind, name, tuple(sorted(packet.items()))))


class Wire:
    """The sockets at all hosts and ways out, and of what routers take for themselves."""

    def __init__(self, plan: Plan, has_frames: bool, protocols: Set[int]):
        self.plan, self.has_frames, self.caught = plan, has_frames, Caught()
        self.poll = select.epoll()
        self.outside: Dict[int, Tuple[socket.socket, str, str]] = {}
        self.own: Dict[int, Tuple[socket.socket, str]] = {}
        self.sockets: Dict[str, socket.socket] = {}
        hosts = {it.name for it in plan.hosts}
        with inside(OUTSIDE):
            for name, place in ends_outside(plan).items():
                made = socket.socket(socket.AF_PACKET, socket.SOCK_RAW, socket.htons(_ALL_PROTOCOLS))
                made.bind((name, _ALL_PROTOCOLS))
                made.setsockopt(_PACKET, _AUXDATA, 1)
                self.sockets[name] = made
                self.outside[self.listen(made)] = made, "host" if name in hosts else "edge", place
        for box in plan.boxes.values():
            if box.is_router:
                with inside(box.name):
                    for protocol in sorted(protocols - {0}):
                        made = socket.socket(socket.AF_INET, socket.SOCK_RAW, protocol)
                        self.own[self.listen(made)] = made, box.name

    def listen(self, made: socket.socket) -> int:
        try:
            made.setsockopt(socket.SOL_SOCKET, _RECEIVE_FORCE, 4 << 20)
        except OSError:
            made.setsockopt(socket.SOL_SOCKET, socket.SO_RCVBUF, 4 << 20)
        made.setblocking(False)
        self.poll.register(made, select.EPOLLIN)
        return made.fileno()

    def close(self) -> None:
        for made, *_ in [*self.outside.values(), *self.own.values()]:
            made.close()
        self.poll.close()

    def send(self, sent: Sent, number: int) -> None:
        try:
            self.sockets[self.plan.hosts[sent.host].name].send(frame(sent, number, self.plan))
        except OSError:
            # the interface has no carrier
            pass

    def catch(self, quiet: float) -> None:
        """Takes what comes, until nothing came for so many seconds."""
        end = time.monotonic() + quiet
        while (left := end - time.monotonic()) > 0:
            for place, _ in self.poll.poll(left):
                if self.take(place):
                    end = time.monotonic() + quiet

    def take(self, place: int) -> bool:
        """Takes what waits at a socket; whether a packet of ours was there."""
        is_ours = False
        while True:
            try:
                if place in self.own:
                    made, box = self.own[place]
                    number, packet = read_ip(made.recv(2048))
                    if number >= 0:
                        self.caught.add(number, "itself", box, packet)
                else:
                    number = self.take_frame(*self.outside[place])
            except BlockingIOError:
                return is_ours
            except OSError:
                # an interface that is down says so once
                continue
            is_ours = is_ours or number >= 0

    def take_frame(self, made: socket.socket, kind: str, name: str) -> int:
        data, control, _, (_, _, way, *_) = made.recvmsg(2048, 64)
        if way == _OUTGOING or len(data) < 14:
            return -1
        vlan, at = 0, 12
        for level, what, value in control:
            if (level, what) == (_PACKET, _AUXDATA):
                status, _, _, _, _, tag = struct.unpack_from("IIIHHH", value)
                vlan = tag & 0xFFF if status & _HAS_TAG else 0
        if struct.unpack_from("!H", data, at)[0] == TAGGED:
            vlan, at = struct.unpack_from("!H", data, 14)[0] & 0xFFF, 16
        if struct.unpack_from("!H", data, at)[0] != IPV4:
            return -1
        number, packet = read_ip(data[at + 2:])
        if number >= 0:
            if self.has_frames:
                packet.update({"Ethernet destination": int.from_bytes(data[:6], "big"), "Ethernet source": int.from_bytes(data[6:12], "big"), "Ethernet type": IPV4, "VLAN": vlan})
            self.caught.add(number, kind, name, packet)
        return number


def without_frame(end: End) -> End:
    """An end at a box itself, of which the kernel shows no frame."""
    kind, name, fields = end
    return (kind, name, tuple(it for it in fields if it[0] not in ETHERNET)) if kind == "itself" else end
