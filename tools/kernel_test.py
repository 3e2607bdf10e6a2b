#!/usr/bin/env python3
"""Compares the program with the Linux kernel: networks are drawn and set up in network namespaces, `symnet import` makes jobs of what their boxes print, and packets are
sent into the kernel and walked through the jobs. Each has to end at the same places with the same headers, except as docs/import.md says ("What the job does not say").

    tools/kernel_test.py [--seeds A..B] [--packets N] [--keep FOLDER]

--seeds: the networks that are drawn, one of each seed (0..9 where it is not given); --packets: how many packets each is sent (100); --keep: writes there what the boxes print,
and the jobs. The program is the one that SYMNET names, else the proved one of the checkout, else the one that tools/build_unproved.py made of these sources. What the machine has
not is left out, and a line says so. Nothing of the machine's own network is used or changed.
"""

import itertools
import json
import os
import re
import signal
import sys
import tempfile
import warnings
from collections import Counter
from concurrent.futures import ThreadPoolExecutor
from ipaddress import IPv4Address
from pathlib import Path
from typing import Dict, FrozenSet, Iterator, List, NamedTuple, Optional, Sequence, Set, Tuple

import build_unproved
import kernel_spaces
from checkout import PROGRAM, TOP, is_current
from kernel_filters import add_filters
from kernel_packets import End, PacketDrawer, Sent, Wire, as_number, without_frame
from kernel_plan import STRANGER, Abilities, Plan, draw

sys.path.insert(0, str(TOP / "python"))
import symnet  # noqa: E402
from import_test import FIELDS, ended  # noqa: E402
from symnet import importing, inputs  # noqa: E402

WHO = "kernel_test"
# How many packets are in the kernel at a time, how long nothing comes before no more is awaited, and how long where some are missing.
AT_ONCE, QUIET, LONG = 32, 0.03, 0.5
# The most hops of a walk, and a time to live that ends a walk through a loop before.
HOPS, SHORT_TTL = 256, 16
GROUP, ALL_SYSTEMS = 1 << 40, 0xE0000001


class Asked(NamedTuple):
    seeds: range
    packets: int
    keep: Optional[Path]


def read_words(words: List[str]) -> Optional[Asked]:
    """What is asked for; None where the words have no reading."""
    found = {"--seeds": "0..9", "--packets": "100", "--keep": ""}
    if len(words) % 2 or not set(words[::2]) <= set(found):
        return None
    found.update(zip(words[::2], words[1::2]))
    seeds = re.fullmatch(r"(\d+)\.\.(\d+)", found["--seeds"])
    if not seeds or not found["--packets"].isdigit():
        return None
    return Asked(range(int(seeds[1]), int(seeds[2]) + 1), int(found["--packets"]), Path(found["--keep"]) if found["--keep"] else None)


def program() -> Optional[Path]:
    """The program that is compared; None where none is built."""
    named = os.environ.get("SYMNET")
    unproved = build_unproved.place(build_unproved.cache(), build_unproved.sum_of(TOP))
    places = [Path(named).resolve()] if named else [PROGRAM] * is_current(PROGRAM) + [unproved]
    return next((it for it in places if it.is_file()), None)


def is_no_station(mac: int) -> bool:
    """Whether an address of Ethernet is one that no station sends from."""
    return mac == 0 or bool(mac & GROUP)


# ---------------------------------------------------------------- the job


class Job:
    """The job of a network, and how packets go through it."""

    def __init__(self, folder: Path, plan: Plan):
        self.plan = plan
        self.made = importing.import_folder(folder)
        self.map = json.loads(self.made.map)
        self.has_frames = "tag L2" in self.made.text
        self.text = self.made.text.replace("field global vlan:12 = 0;", "field global vlan:12;")
        self.fields = inputs.read_job(self.text).fields
        # the broadcast addresses of each box, of which the kernel takes no packet that it would send back
        self.broadcasts = {box: {int(IPv4Address(it["dst"])) for it in json.loads((folder / box / "ip-route.json").read_text()) if it.get("type") == "broadcast"}
                           for box, it in plan.boxes.items() if it.is_router}

    def values(self, sent: Sent) -> List[int]:
        """The numbers of a packet; a stranger's address is that of each neighbor whose address the job leaves open."""
        given = [sent.host if it == "global host:16" else sent.packet[FIELDS[it]] for it in self.fields]
        return given + [as_number(STRANGER)] * HOPS

    def walk(self, sent: Sent) -> "symnet.Report":
        return symnet.walk(self.text, self.values(sent), files=self.made.files, hops=HOPS)

    def examples(self, most: int) -> List[Sent]:
        """Packets of the paths that the program finds, in a row of those."""
        paths = [it for it in symnet.explore(self.text, files=self.made.files, hops=24, limit=3000).paths if it.values is not None]
        return [self.sent(it.values) for it in paths[::max(1, len(paths) // most)] if it.values is not None]

    def sent(self, values: Sequence[int]) -> Sent:
        found = dict(zip(self.fields, values))
        fields = {FIELDS[it]: value for it, value in found.items() if it in FIELDS}
        host = found.get("global host:16", 0)
        if self.has_frames:
            fields["Ethernet type"] = 0x0800
            if is_no_station(fields["Ethernet source"]):
                fields["Ethernet source"] = as_number(self.plan.hosts[host].mac)
        return Sent(host, fields)

    def ways(self, report: "symnet.Report") -> "Set[FrozenSet[End]]":
        """Where a packet may end: for each way that boxes may choose among hops of equal cost, the places that it comes to."""
        ends = [(ended(path, self.map, self.has_frames), set(self.choices(path.places))) for path in report.paths]
        nodes: Dict[str, Set[str]] = {}
        for _, chosen in ends:
            for node, port in chosen:
                nodes.setdefault(node, set()).add(port)
        found = set()
        for ports in itertools.product(*map(sorted, nodes.values())):
            # a box takes the same hop for a packet each time that it comes by
            one = set(zip(nodes, ports))
            found.add(frozenset(without_frame(end) for end, chosen in ends if end and chosen <= one))
        return found

    @staticmethod
    def choices(places: Sequence[str]) -> Iterator[Tuple[str, str]]:
        for place in places:
            found = re.fullmatch(r"out (\w+_equal\d+)\.(\d+)", place)
            if found:
                yield found[1], found[2]

    def turns_back(self, path: "symnet.Path", source: int) -> bool:
        """Whether a packet from a broadcast address of a box leaves that by the interface that it came by."""
        comes: Dict[str, str] = {}
        for place in path.places:
            box, _, interface = self.map["places"].get(place, "").split(",")[0].partition(".")
            if place.startswith("in ") and interface:
                comes[box] = interface
            elif interface and comes.get(box) == interface and source in self.broadcasts.get(box, ()):
                return True
        return False

    def is_documented(self, sent: Sent, report: "symnet.Report") -> bool:
        """Whether docs/import.md says of a packet that the job differs ("What the job does not say")."""
        source, destination = sent.packet["source address"], sent.packet["destination address"]
        return source == destination == 0 or is_no_station(sent.packet.get("Ethernet source", 1)) or any(self.turns_back(it, source) for it in report.paths)


# ---------------------------------------------------------------- one network


class Compared(NamedTuple):
    packets: int
    arrived: int
    loops: int
    left_out: int
    differences: List[str]


def drawn_packets(job: Job, plan: Plan, count: int) -> List[Sent]:
    """A third from the program's report, and the others drawn."""
    drawer = PacketDrawer(plan, job.has_frames)
    up = {number for number, it in enumerate(plan.hosts) if it.is_up}
    found = [it for it in job.examples(count // 3) if it.host in up and it.packet["protocol"]]
    found += [drawer.random() for _ in range(count // 10)]
    return found + [drawer.packet() for _ in range(count - len(found))]


def walked(job: Job, sent: Sent) -> "Tuple[Sent, symnet.Report, bool]":
    """The walks of a packet. One that goes round for longer than a walk may be, or in too many ways, gets a short time to live."""
    try:
        report = job.walk(sent)
        if not any(it.end == "cut" for it in report.paths):
            return sent, report, False
    except symnet.Refusal as fault:
        if not fault.text.startswith("symnet: too many walks"):
            raise
    short = Sent(sent.host, {**sent.packet, "TTL": sent.packet["TTL"] % SHORT_TTL})
    return short, job.walk(short), True


def is_wanted(found: "Set[End]", ways: "Set[FrozenSet[End]]", sent: Sent) -> bool:
    """Whether a packet came where it should. What a router takes for itself of frames to groups, and of packets for groups that it has joined, the job drops."""
    if sent.packet.get("Ethernet destination", 0) & GROUP or sent.packet["destination address"] == ALL_SYSTEMS:
        found = {it for it in found if it[0] != "itself"}
    return frozenset(found) in ways


def send(wire: Wire, packets: Sequence[Sent], wanted: "Sequence[Set[FrozenSet[End]]]", first: int) -> None:
    """Sends all packets, and once more those of which something is missing."""
    for begin in range(0, len(packets), AT_ONCE):
        for number in range(begin, min(begin + AT_ONCE, len(packets))):
            wire.send(packets[number], first + number)
        wire.catch(QUIET)
    wire.catch(4 * QUIET)
    for _ in range(2):
        for number, sent in enumerate(packets):
            if not is_wanted(wire.caught.ends.get(first + number, set()), wanted[number], sent):
                wire.send(sent, first + number)
                wire.catch(LONG)


def shown(ends: "Set[End] | FrozenSet[End]") -> str:
    return ", ".join(f"{kind} {name} {told(dict(fields))}" for kind, name, fields in sorted(ends)) or "nowhere"


def told(packet: Dict[str, int]) -> str:
    """A packet in words."""
    def value(name: str, number: int) -> str:
        return str(IPv4Address(number)) if name.endswith("address") else f"{number:012x}" if name in ("Ethernet source", "Ethernet destination") else str(number)

    return "[" + " ".join(f"{name.replace(' ', '-')}={value(name, number)}" for name, number in packet.items() if name != "Ethernet type") + "]"


def compare(plan: Plan, count: int, folder: Path) -> Compared:
    """Sends packets into a network, and walks them through its job."""
    with kernel_spaces.network(plan):
        kernel_spaces.write_outputs(plan, folder)
        job = Job(folder, plan)
        job.made.save(f"{folder}-job")
        packets = drawn_packets(job, plan, count)
        with ThreadPoolExecutor(os.cpu_count()) as pool:
            walks = list(pool.map(lambda it: walked(job, it), packets))
        known = [it for it in walks if not job.is_documented(it[0], it[1])]
        wanted = [job.ways(report) for _, report, _ in known]
        packets = [it for it, _, _ in known]
        kernel_spaces.neighbors(plan, sorted({str(IPv4Address(it.packet["destination address"])) for it in packets}), job.has_frames)
        wire = Wire(plan, job.has_frames, {it.packet["protocol"] for it in packets})
        try:
            send(wire, packets, wanted, 0)
        finally:
            wire.close()
    differences = []
    for number, (sent, ways) in enumerate(zip(packets, wanted)):
        found = wire.caught.ends.get(number, set())
        if not is_wanted(found, ways, sent):
            differences.append(f"seed {plan.seed} ({plan.kind}): of {plan.hosts[sent.host].name} {told(sent.packet)}\n  the program: {' or '.join(map(shown, ways))}\n  the kernel:  {shown(found)}")
    return Compared(len(packets), sum(bool(it) for it in wire.caught.ends.values()), sum(it for _, _, it in known), len(walks) - len(known), differences)


# ---------------------------------------------------------------- all of them


def missing(able: Abilities) -> str:
    """What is left out, in words."""
    names = {"nft": "filters of nftables", "iptables": "filters of iptables", "bridges": "bridges", "vlans": "VLANs"}
    return ", ".join(words for name, words in names.items() if not getattr(able, name))


def run_all(asked: Asked, able: Abilities, room: Path) -> bool:
    """Whether nothing differs."""
    totals: "Counter[str]" = Counter()
    if missing(able):
        print(f"{WHO}: left out, since this machine has no tools or no part of the kernel for it: {missing(able)}")
    for seed in asked.seeds:
        plan = draw(seed, able)
        if plan is None:
            continue
        add_filters(plan, able)
        try:
            found = compare(plan, asked.packets, room / f"{plan.kind}-{seed}")
        except (kernel_spaces.Failed, importing.Refused, symnet.Refusal) as fault:
            found = Compared(0, 0, 0, 0, [f"seed {seed} ({plan.kind}): {fault}"])
        totals.update({"networks": 1, "packets": found.packets, "arrived": found.arrived, "loops": found.loops, "left out": found.left_out, "differences": len(found.differences)})
        for it in found.differences:
            print(f"{WHO}: {it}", flush=True)
    print(f"{WHO}: {totals['networks']} networks, {totals['packets']:,} packets, of which {totals['arrived']:,} came somewhere and {totals['loops']:,} went round; "
          f"{totals['left out']:,} left out as docs/import.md says; {totals['differences']:,} differences")
    return not totals["differences"]


def main(words: List[str]) -> int:
    asked = read_words(words)
    if asked is None:
        print(__doc__, end="", file=sys.stderr)
        return 2
    reason = "" if kernel_spaces.is_apart() else kernel_spaces.why_not()
    found = program()
    if not reason and found is None:
        reason = "no program is built of these sources"
    if reason:
        print(f"{WHO}: nothing was compared with the kernel: {reason}")
        return 0
    os.environ["SYMNET"] = str(found)
    os.environ.pop("SYMNET_LIBRARY", None)
    kernel_spaces.isolate([__file__, *words])
    for it in (signal.SIGTERM, signal.SIGHUP):
        signal.signal(it, lambda number, _: sys.exit(128 + number))
    warnings.simplefilter("ignore")
    with tempfile.TemporaryDirectory(prefix="symnet-") as room:
        if asked.keep:
            asked.keep.mkdir(parents=True, exist_ok=True)
        is_same = run_all(asked, kernel_spaces.abilities(), asked.keep or Path(room))
    print(f"{WHO}: {'passed' if is_same else 'failed'}")
    return 0 if is_same else 1


if __name__ == "__main__":
    sys.exit(main(sys.argv[1:]))
