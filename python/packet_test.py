"""Tests of packets by name and of rows for python/test."""

import ipaddress
import json
import pickle
import sys
import types
from pathlib import Path

import symnet
from symnet.fields import name_of
from symnet.packet import JobText, Packet, list_packet
from symnet.records import read_report

TOP = Path(__file__).resolve().parent.parent
OFFICE = TOP / "examples/branch-office/office.sefl"


def packet_of(targets):
    return Packet([(name_of(target), target, value) for target, value in targets])


def check_names(expect):
    """Each name of a value, and its kind."""
    targets = [("head L3+96:32", 0x0A010000), ("head L3 + 128 : 32", 1), ("head L3+64:128", 2**64), ("head L2+48:48", 2), ("head L3+72:8", 17), ("global mark:16", 3), ("local port:16", 4), ("local port:16 (2)", 5), ("head 0x10:8", 6),
               ("head L4+16:16", 53), ("choice 0", 9)]
    packet = packet_of(targets)
    for key, wanted in (("source", ipaddress.IPv4Address("10.1.0.0")), ("Source Address", ipaddress.IPv4Address("10.1.0.0")), ("head L3+0x60:32", ipaddress.IPv4Address("10.1.0.0")), ("destination", ipaddress.IPv4Address(1)),
                        ("head L3+64:128", ipaddress.IPv6Address(2**64)), ("Ethernet source", "00:00:00:00:00:02"), ("protocol", 17), ("mark", 3), ("global mark:16", 3), ("port", 4), ("port (2)", 5), ("local port:16 (2)", 5), ("head 16:8", 6),
                        ("destination port", 53), ("choice 0", 9)):
        expect(f"a packet's {key}", packet[key] if key in packet else "nothing", wanted)
    expect("a packet's names", (len(packet), list(packet)[-4:], "absent" in packet, packet.get("absent")), (11, ["local port:16 (2)", "head 0x10:8", "destination port", "choice 0"], False, None))
    expect("a packet in words", str(packet).split(", ")[4], "protocol UDP")
    try:
        packet["absent"]
        expect("a name that is none", "a value", "KeyError")
    except KeyError as error:
        expect("a name that is none", "the packet has source address" in str(error), True)
    expect("a switch's packet", packet_of([("head L2+0:48", 1), ("head L2+48:48", 2)])["source"], "00:00:00:00:00:02")
    expect("a packet of a list", (list_packet([6, 1, 2, 3, 4])["destination port"], str(list_packet([6, 1, 2, 3, 4])["source"])), (4, "0.0.0.1"))
    twice = JobText("symnet 2; node a 1 -> 1 { in 0 { set local m:8 = any; } } inject a.0 { field global m:8; }").packet([1, 2, 3])
    expect("names that are taken", (list(twice), twice["m"], twice["local m:8"], twice["m (2)"]), (["global m:8", "local m:8", "m (2)"], 1, 2, 3))
    expect("the reader by its name", symnet.report.read_report is read_report, True)
    expect("a job that is none", list(JobText("no job").packet([1])), ["symbol 0"])


def check_rows(expect):
    """Paths as plain dicts, and as a table of pandas."""
    report = read_report(OFFICE.with_suffix(".json").read_bytes(), OFFICE.read_bytes())
    rows = report.rows()
    expect("rows", [row["record"] for row in rows], [0, 1, 3, 7, 10, 11, 12])
    expect("a row", [rows[2][key] for key in ("end", "at", "message", "boxes", "undecided", "source address", "protocol", "TTL", "outside_port")],
           ["delivered", "out host.0", "", ["ttl", "routes", "nat", "filter", "server", "filter", "nat", "ttl", "host"], None, "10.1.0.0", "UDP", 2, 1024])
    expect("a row that failed", [rows[0][key] for key in ("end", "at", "message", "site")], ["failed", "in ttl.0", "time exceeded", 3])
    expect("rows are plain", json.loads(json.dumps(rows)), rows)
    expect("a report from another process", pickle.loads(pickle.dumps(report)).rows(), rows)
    walks = read_report((TOP / "examples/ttl.walks.json").read_bytes())
    expect("rows of walks", [(row["end"], row["message"]) for row in walks.rows()], [("failed", "dead")])
    kept = sys.modules.get("pandas")
    sys.modules["pandas"] = types.SimpleNamespace(DataFrame=lambda rows: ("a table", rows))
    expect("a table of pandas", report.to_pandas(), ("a table", rows))
    sys.modules["pandas"] = None
    try:
        report.to_pandas()
        expect("without pandas", "a table", "ImportError")
    except ImportError as error:
        expect("without pandas", "rows()" in str(error), True)
    if kept is None:
        del sys.modules["pandas"]
    else:
        sys.modules["pandas"] = kept


def check_run(expect):
    """With something that runs: packets of what the commands answer."""
    files = {"routes.fib": OFFICE.with_name("routes.fib").read_bytes()}
    report, asked = symnet.explore(OFFICE.read_bytes(), files=files), symnet.ask(OFFICE.read_bytes(), files=files)
    expect("a path's packet", (str(report.paths[2].packet["source"]), report.paths[2].packet["outside_port"]), ("10.1.0.0", 1024))
    expect("an answer's packet", (str(asked.answers[0].packet["source"]), asked.answers[0].packet["outside_port"], asked.answers[1].packet), ("10.1.0.0", 1024, None))
    changes = TOP / "examples/filter-change"
    found = symnet.compare(*((changes / f"{name}.sefl").read_bytes() for name in ("before", "dropped")))
    expect("a difference's packet", (str(found.packet["destination"]), found.packet["destination port"]), ("198.51.100.25", 22))
    permit, deny = "permit 6 10.0.0.0/8 0.0.0.0/0 any 80\n", "deny any 10.0.0.0/8 0.0.0.0/0 any any\n"
    expect("packets of lists", (str(symnet.compare_rules(permit + deny, deny + permit).packet["source"]), symnet.rules(permit).fates[0].packet["destination port"]), ("10.0.0.0", 80))


def check(expect):
    check_names(expect)
    check_rows(expect)
