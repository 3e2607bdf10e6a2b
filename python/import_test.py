#!/usr/bin/env python3
"""Tests of `symnet import`: networks of imports/ become jobs, whose walks are those of a plain evaluation (import_walk.py); and what no job can say is refused by its file and line.

    python/import_test.py       by itself; python/test runs it too, with the walks through what it has built
"""

import io
import json
import random
import sys
import tempfile
import time
from contextlib import redirect_stderr, redirect_stdout
from ipaddress import IPv4Address, IPv4Network
from pathlib import Path

HERE = Path(__file__).resolve().parent
if __name__ == "__main__":
    sys.path.insert(0, str(HERE))
import import_walk  # noqa: E402
import symnet  # noqa: E402
from symnet import importing, inputs, origins  # noqa: E402
from symnet.importing import command, folder, model, sources  # noqa: E402

IMPORTS = HERE / "imports"
EXAMPLE = HERE.parent / "examples/imported"
# The networks whose stations are all known, so that each packet has its walks without a choice.
WALKED = ("linux", "ios", "asa", "junos", "flows", "switches", "home")


def names():
    return sorted(it.name for it in IMPORTS.iterdir() if it.is_dir())


# ---------------------------------------------------------------- jobs


def check_jobs(expect):
    """Each network becomes a job in the canonical form, whose map names places that are there."""
    for name in names():
        found = importing.import_folder(IMPORTS / name)
        bare = "".join(line for line in found.text.splitlines(keepends=True) if not line.startswith("//"))
        expect(f"import {name}: its text is canonical", symnet.canonical(found.text) == bare, True)
        check_map(expect, name, found, IMPORTS / name)
    made = importing.import_folder(EXAMPLE / "outputs")
    for file, text in {importing.JOB: made.text, importing.MAP: made.map, **made.files}.items():
        expect(f"examples/imported: {file}", (EXAMPLE / file).read_text() == text, True)


def check_map(expect, name, found, place):
    """That the map's lines of the job begin its items, and that each source has its place and its words in the file."""
    whole = json.loads(found.map)
    lines = found.text.split("\n")
    wrong = [item for item, it in whole["items"].items() if not lines[it["line"] - 1].strip().startswith(("node", "if", "forward", "fork", "fail", "set"))]
    expect(f"import {name}: items of the map", wrong, [])
    for it in whole["sources"]:
        file = place / it["file"]
        if it["line"] == 0:
            expect(f"import {name}: {it['file']}", file.exists(), True)
            continue
        line = file.read_text().split("\n")[it["line"] - 1]
        part = line[it["column"] - 1:] if it.get("column") else line
        first = part.split('"')[1] if part.startswith("{") else part.split()[0]
        expect(f"import {name}: {it['file']}:{it['line']}:{it.get('column')}", bool(first), True)
    expect(f"import {name}: the reader of maps", len(origins.read_map(found.map).items), len({it["line"] for it in whole["items"].values()}))


def check_places(expect):
    """Columns of members, in one line and in several."""
    text = sources.Text("f", '[{"a":1},{"a":2},\n  {"a":3}]\n [ ]\n[{"a":4}]')
    expect("places of members", [(value["a"], it.line, it.column) for value, it in sources.members(text)], [(1, 1, 2), (2, 1, 10), (3, 2, 3), (4, 4, 2)])


def check_ranges(expect):
    """Sets of values, against sets of Python."""
    drawn = random.Random(4)
    for _ in range(300):
        left, right = ([tuple(sorted(drawn.choices(range(16), k=2))) for _ in range(drawn.randrange(4))] for _ in range(2))
        one, other = model.ranges_of(left), model.ranges_of(right)
        members = [{it for low, high in parts for it in range(low, high + 1)} for parts in (one, other)]
        expect("ranges", members[0], {it for low, high in left for it in range(low, high + 1)})
        expect("common ranges", {it for low, high in model.common(one, other) for it in range(low, high + 1)}, members[0] & members[1])
        expect("other ranges", {it for low, high in model.others(one, 4) for it in range(low, high + 1)}, set(range(16)) - members[0])


# ---------------------------------------------------------------- refusals

ADDR = '[{"ifname":"eth0","flags":["UP"],"address":"02:00:00:00:00:01","addr_info":[{"family":"inet","local":"10.0.0.1","prefixlen":24}]},{"ifname":"eth1","flags":["UP"],"addr_info":[]}]'
ROUTE = '[{"type":"local","dst":"10.0.0.1","dev":"eth0","table":"local"},\n{"dst":"10.0.0.0/24","dev":"eth0"}%s]'
TOPOLOGY = "host a r1.eth0\nhost b r1.eth1\n"
LINUX = {"topology": TOPOLOGY, "r1/ip-addr.json": ADDR, "r1/ip-route.json": ROUTE % ""}
SAVE = "*filter\n:INPUT ACCEPT [0:0]\n:FORWARD DROP [0:0]\n%s\nCOMMIT\n"
NFT = '{"nftables":[{"table":{"family":"inet","name":"t"}},\n{"chain":{"family":"inet","table":"t","name":"c","type":"filter","hook":"forward","prio":0}}%s\n]}'
NFT_RULE = ',\n{"rule":{"family":"inet","table":"t","chain":"c","expr":[%s]}}'
FDB = '[{"mac":"02:00:00:00:00:05","ifname":"eth0","vlan":10,"master":"br0"},\n{"mac":"02:00:00:00:00:06","ifname":"eth1","vlan":10,"master":"br0"}]'
VLAN = '[{"ifname":"eth0","vlans":[{"vlan":%s,"flags":["PVID"]}]},{"ifname":"eth1","vlans":[{"vlan":10}]}]'
SWITCH = {"topology": TOPOLOGY, "r1/bridge-fdb.json": FDB, "r1/bridge-vlan.json": VLAN % 10}
IOS = "interface Gi0\n ip address 10.0.0.1 255.255.255.0\n%s\ninterface Gi1\n"
IOS_ROUTE = "C  10.0.0.0/24 is directly connected, Gi0\n"
CISCO = {"topology": "host a r1.Gi0\nhost b r1.Gi1\n", "r1/ios-config": IOS % "!", "r1/ios-route": IOS_ROUTE}
ASA = "interface G0\n nameif in\n security-level 100\n ip address 10.0.0.1 255.255.255.0\ninterface G1\n nameif out\n security-level 0\n%s\n"
FIREWALL = {"topology": "host a r1.in\nhost b r1.out\n", "r1/asa-config": ASA % "!", "r1/asa-route": "C 10.0.0.0 255.255.255.0 is directly connected, in\n"}
JUNOS = "set interfaces ge-0 unit 0 family inet address 10.0.0.1/24\nset interfaces ge-1 unit 0 family inet filter input f\n%s\nset firewall family inet filter f term t then accept\n"
JUNIPER = {"topology": "host a r1.ge-0.0\nhost b r1.ge-1.0\n", "r1/junos-config": JUNOS % "#", "r1/junos-route": "inet.0: 1 destinations\n\n10.0.0.0/24 *[Direct/0] 1d\n > via ge-0.0\n"}
FLOWS = {"topology": "host a r1.1\nhost b r1.2\n", "r1/ovs-flows": " priority=5,ip actions=output:2\n"}


def linux(**files):
    return {**LINUX, **{f"r1/{name.replace('_', '-')}": text for name, text in files.items()}}


def rule(line):
    return linux(iptables_save=SAVE % line)


def nft(parts):
    return linux(nft=NFT % (NFT_RULE % parts))


def match(left, right="1", op="=="):
    return f'{{"match":{{"op":"{op}","left":{left},"right":{right}}}}},{{"accept":null}}'


def acl(line):
    return {**CISCO, "r1/ios-config": IOS % f" ip access-group 101 in\naccess-list 101 {line}"}


def asa(line):
    return {**FIREWALL, "r1/asa-config": ASA % line}


def junos(line):
    return {**JUNIPER, "r1/junos-config": JUNOS % line}


def flow(line):
    return {**FLOWS, "r1/ovs-flows": f"NXST_FLOW reply (xid=0x4):\n {line}\n"}


# What is refused: the files, the place, and a part of what is said.
REFUSED = (
    ("no topology", {"r1/ip-addr.json": ADDR}, "", "one file of the topology"),
    ("two topologies", {**LINUX, "topology.txt": TOPOLOGY}, "", "one file of the topology"),
    ("no box", {"topology": TOPOLOGY}, "", "no folder of a box"),
    ("no host", {**LINUX, "topology": "# nothing\n"}, "topology", "no host"),
    ("a folder without files", {**LINUX, "r2/": ""}, "r2", "has no file"),
    ("a file beside the folders", {**LINUX, "notes": ""}, "notes", "no file that is read"),
    ("a file of another kind", {**LINUX, "r1/dmesg.txt": ""}, "r1/dmesg.txt", "no file that is read"),
    ("two files of a kind", {**LINUX, "r1/ip-addr.txt": ADDR}, "r1/ip-addr.txt", "already"),
    ("files of two kinds", {**LINUX, "r1/ios-config": "interface Gi0\n"}, "r1", "several kinds"),
    ("a file with an odd name", {**LINUX, "r1/ip-rule.\nx": "[]"}, "r1", "other characters"),
    ("a name that no job has", {**LINUX, "r 2/ip-addr": ADDR}, "r 2", "name of a box"),
    ("a box without a line", {**LINUX, "r2/ip-addr.json": ADDR, "r2/ip-route.json": ROUTE % ""}, "r2", "no line of the topology"),
    ("a line without a box", {**LINUX, "topology": TOPOLOGY + "r2.eth0 r3.eth0\n"}, "topology:3", "no folder r2"),
    ("an interface twice", {**LINUX, "topology": "host a r1.eth0\n# a comment\nr1.eth0 r1.eth1\n"}, "topology:3", "named already in line 1"),
    ("an interface that is not there", {**LINUX, "topology": TOPOLOGY + "host c r1.eth7\n"}, "topology:3", "no interface eth7"),
    ("a host twice", {**LINUX, "topology": "host a r1.eth0\nhost a r1.eth1\n"}, "topology:2", "named already in line 1"),
    ("a host with the name of a box", {**LINUX, "topology": "host r1 r1.eth0\n"}, "topology:1", "a box has the name"),
    ("a line of three words", {**LINUX, "topology": "r1.eth0 r1.eth1 r1.eth2\n"}, "topology:1", "two interfaces"),
    ("a name without an interface", {**LINUX, "topology": "r1 r1.eth1\n"}, "topology:1", "no interface"),
    ("an address of a host", {**LINUX, "topology": "host a r1.eth0 10.0.0.300\n"}, "topology:1", "no address"),
    ("names that become one", {**LINUX, "topology": "host r-2 r1.eth0\nhost r_2 r1.eth1\n"}, "topology:2", "another box or host"),
    ("no text", {**LINUX, "r1/ip-addr.json": b"[\n\xff]"}, "r1/ip-addr.json:2", "UTF-8"),
    ("an empty file", {**LINUX, "r1/ip-addr.json": ""}, "r1/ip-addr.json", "empty"),
    ("no JSON", {**LINUX, "r1/ip-addr.json": "[\n{\n"}, "r1/ip-addr.json:3", "no JSON"),
    ("JSON that is cut off", {**LINUX, "r1/ip-addr.json": ADDR[:-1]}, "r1/ip-addr.json:1", "comma"),
    ("another form of JSON", {**LINUX, "r1/ip-addr.json": '{"a":1}'}, "r1/ip-addr.json:1", "JSON list"),
    ("deep JSON", {**LINUX, "r1/ip-addr.json": "[" * 200000}, "r1/ip-addr.json:1", "too deep"),
    ("a long number", {**LINUX, "r1/ip-addr.json": f"[{'9' * 10000}]"}, "r1/ip-addr.json:1", "too many digits"),
    ("a member of another kind", {**LINUX, "r1/ip-addr.json": "[7]"}, "r1/ip-addr.json:1", "form"),
    ("a VLAN of 4095", {**LINUX, "r1/ip-addr.json": ADDR[:-1] + ',{"ifname":"eth0.5","link":"eth0","linkinfo":{"info_kind":"vlan","info_data":{"id":4095}}}]'}, "r1/ip-addr.json:1", "1 to 4,094"),
    ("how it stands on another one", {**LINUX, "r1/ip-addr.json": ADDR[:-1] + ',{"ifname":"eth0.5","link":"eth0"}]'}, "r1/ip-addr.json:1", "ip -d -j addr"),
    ("a macvlan", {**LINUX, "r1/ip-addr.json": ADDR[:-1] + ',{"ifname":"m","link":"eth0","linkinfo":{"info_kind":"macvlan"}}]'}, "r1/ip-addr.json:1", "macvlan"),
    ("a bond", {**LINUX, "r1/ip-addr.json": ADDR[:-1] + ',{"ifname":"eth2","master":"bond0"}]'}, "r1/ip-addr.json:1", "part of bond0"),
    ("an interface listed twice", {**LINUX, "r1/ip-addr.json": ADDR + ADDR}, "r1/ip-addr.json:1", "second time"),
    ("no addresses", {"topology": TOPOLOGY, "r1/ip-route.json": ROUTE % ""}, "r1", "no file ip-addr"),
    ("no routes", {"topology": TOPOLOGY, "r1/ip-addr.json": ADDR, "r1/nft.json": NFT % ""}, "r1", "no file ip-route"),
    ("no table local", {**LINUX, "r1/ip-route.json": '[{"dst":"10.0.0.0/24","dev":"eth0"}]'}, "r1/ip-route.json:1", "table all"),
    *((f"a route with {what}", {**LINUX, "r1/ip-route.json": ROUTE % f',\n{{"dst":"10.2.0.0/16",{part}}}'}, "r1/ip-route.json:3", said) for what, part, said in (
        ("a table", '"dev":"eth0","table":"100"', "policy routing"), ("a type of service", '"dev":"eth0","tos":"0x10"', "type of service"), ("an object", '"nhid":7', "next hop object"),
        ("a hop without carrier", '"nexthops":[{"dev":"eth0","flags":["linkdown"]},{"dev":"eth1","flags":[]}]', "linkdown"), ("a tunnel", '"dev":"eth0","encap":"mpls"', "encap"), ("another type", '"type":"nat","dev":"eth0"', "type nat"),
        ("no interface", '"gateway":"10.0.0.9"', "without an interface"), ("another interface", '"dev":"eth9"', "none of the interfaces"), ("a strange word", '"dev":"eth0","realm":"5"', "realm"),
        ("another family", '"dev":"eth0","via":{"family":"inet6","host":"fe80::1"}', "another family"))),
    ("no prefix", {**LINUX, "r1/ip-route.json": ROUTE % ',\n{"dst":"10.2.0.0/33","dev":"eth0"}'}, "r1/ip-route.json:3", "no prefix"),
    ("a rule of routing", linux(ip_rule='[{"priority":0,"src":"all","table":"local"},\n{"priority":9,"src":"10.0.0.0","srclen":8,"table":"100"}]'), "r1/ip-rule:2", "policy routing"),
    *((f"iptables: {line}", rule(f"-A FORWARD {line}"), "r1/iptables-save:4", said) for line, said in (
        ("-m conntrack --ctstate ESTABLISHED -j ACCEPT", "state of a connection"), ("-m state --state NEW -j ACCEPT", "state of a connection"), ("-m mark --mark 1 -j DROP", "a mark"),
        ("-m limit --limit 5/min -j ACCEPT", "limit of rate"), ("-p tcp -m tcp --tcp-flags SYN SYN -j DROP", "flags of TCP"), ("-p tcp --syn -j DROP", "flags of TCP"), ("-f -j DROP", "fragments"),
        ("-s 10.0.0.0/255.0.255.0 -j DROP", "holes"), ("-j MARK --set-mark 5", "MARK"), ("-j nowhere", "no chain of the file"), ("-g nowhere", "no chain of the file"), ("-j INPUT", "way of its own"),
        ("-p tcp --dport 99999 -j DROP", "no port"), ("-p tcp --dport 9:5 -j DROP", "no port"), ("-p nothing -j DROP", "no protocol"), ("-m set --match-set a src -j DROP", "ipset"), ("-j ACCEPT -j DROP", "second target"),
        ('-m comment --comment "open -j DROP', "quotation"), ("-m ttl --ttl-lt 0 -j DROP", "time to live"), ("--dport", "missing"), ("-j LOG --odd", "no option"), ("-x", "no test"))),
    ("iptables: another table", linux(iptables_save="*nat\n:POSTROUTING ACCEPT [0:0]\n-A POSTROUTING -o eth0 -j MASQUERADE\nCOMMIT\n"), "r1/iptables-save:3", "address translation"),
    ("iptables: a policy elsewhere", linux(iptables_save="*mangle\n:FORWARD DROP [0:0]\nCOMMIT\n"), "r1/iptables-save:2", "only the table filter"),
    ("iptables: a chain twice", linux(iptables_save=SAVE % "" + SAVE % ""), "r1/iptables-save:7", "already"),
    ("iptables: a strange line", rule("hello"), "r1/iptables-save:4", "no line"),
    ("iptables: no chain", rule("-A other -j DROP"), "r1/iptables-save:4", "no line before it names"),
    ("iptables: a circle", rule(":a - [0:0]\n-A FORWARD -j a\n-A a -s 10.0.0.0/8 -j a"), "r1/iptables-save:6", "jumps to itself"),
    ("two filters", {**rule("-A FORWARD -j ACCEPT"), "r1/nft": NFT % ""}, "r1/iptables-save:1", "not said"),
    ("nft as text", linux(nft="table inet t {\n chain c {\n  th dport 53 tcp sport 1 accept\n }\n}\n"), "r1/nft:1", "two ways"),
    *((f"nft: {said}", nft(parts), "r1/nft:3", said) for parts, said in (
        (match('{"ct":{"key":"state"}}', '"established"', "in"), "state of a connection"), (match('{"meta":{"key":"mark"}}'), "a mark"), ('{"limit":{"rate":5}},{"accept":null}', "limit of rate"),
        ('{"jump":{"target":"nowhere"}}', "no chain of its table"), ('{"masquerade":null}', "address translation"), ('{"mangle":{}}', "change of the packet"), ('{"xt":null}', "another tool"),
        (match('{"payload":{"protocol":"tcp","field":"flags"}}'), "tcp flags"), (match('{"&":[{"payload":{"protocol":"ip","field":"saddr"}},255]}'), "some bits"), (match('{"fib":{"result":"type"}}'), "fib"),
        (match('{"payload":{"protocol":"ip","field":"saddr"}}', '"@gone"'), "not in its table"), (match('{"payload":{"protocol":"tcp","field":"dport"}}', "70000"), "no value"),
        (match('{"payload":{"protocol":"ip","field":"saddr"}}', '"host.example"'), "no value"), (match('{"meta":{"key":"l4proto"}}', '"nothing"'), "no value"),
        (match('{"payload":{"base":"nh","offset":8,"len":8}}'), "@nh,8,8"), (match('{"payload":{"protocol":"ip","field":"dscp"}}'), "ip dscp"), ('{"match":5}', "form"), ("7", "form"),
        ('{"vmap":{"key":{"meta":{"key":"iifname"}},"data":{"set":[["eth0",{"accept":null}]]}}},{"drop":null}', "behind a map"), ('{"vmap":{"key":{"meta":{"key":"iifname"}},"data":"@gone"}}', "not in its table"),
        (match('{"payload":{"protocol":"ip","field":"saddr"}}', '{"range":["10.0.0.9","10.0.0.1"]}'), "no values"), (match('{"payload":{"protocol":"tcp","field":"dport"}}', "[1,2]", "<"), "no value"))),
    ("nft: a set by time", linux(nft=NFT % ',\n{"set":{"family":"inet","table":"t","name":"s","type":"ipv4_addr","timeout":60}}'), "r1/nft:3", "by time"),
    ("nft: translation", linux(nft=NFT.replace('"filter"', '"nat"') % (NFT_RULE % '{"accept":null}')), "r1/nft:3", "not of the type filter"),
    ("nft: another family", linux(nft=NFT.replace("inet", "bridge") % ""), "r1/nft:1", "family bridge"),
    ("nft: the way in", linux(nft=NFT.replace("forward", "ingress") % ""), "r1/nft:2", "ingress"),
    ("nft: a flow table", linux(nft=NFT % ',\n{"flowtable":{"family":"inet","table":"t","name":"f"}}'), "r1/nft:3", "flowtable"),
    ("a VLAN of 4095", {**SWITCH, "r1/bridge-vlan.json": VLAN % 4095}, "r1/bridge-vlan.json:1", "1 to 4,094"),
    ("a VLAN of 0", {**SWITCH, "r1/bridge-vlan.json": VLAN % 0}, "r1/bridge-vlan.json:1", "1 to 4,094"),
    ("a VLAN of an entry", {**SWITCH, "r1/bridge-fdb.json": FDB.replace("10", "4095", 1)}, "r1/bridge-fdb.json:1", "1 to 4,094"),
    ("a port past the switch's", {**SWITCH, "r1/bridge-fdb.json": FDB.replace("eth1", "eth9")}, "r1/bridge-fdb.json:1", "eth9"),
    ("an address at two ports", {**SWITCH, "r1/bridge-fdb.json": FDB.replace("0:06", "0:05")}, "r1/bridge-fdb.json:2", "another port"),
    ("no address", {**SWITCH, "r1/bridge-fdb.json": FDB.replace("00:06", "00:0g")}, "r1/bridge-fdb.json:2", "no address"),
    ("a tunnel's entry", {**SWITCH, "r1/bridge-fdb.json": FDB.replace('"vlan":10', '"dst":"10.0.0.1"')}, "r1/bridge-fdb.json:1", "tunnel"),
    ("no table of addresses", {"topology": TOPOLOGY, "r1/bridge-vlan.json": VLAN % 10}, "r1", "no file bridge-fdb"),
    ("a port that sends back", {**SWITCH, "r1/bridge-link.json": '[{"ifname":"eth0","master":"br0","hairpin":true}]'}, "r1/bridge-link.json:1", "hairpin"),
    ("two VLANs without a tag", {**SWITCH, "r1/bridge-vlan.json": '[{"ifname":"eth0","vlans":[{"vlan":1,"flags":["PVID"]},{"vlan":2,"flags":["PVID"]}]}]'}, "r1/bridge-vlan.json:1", "two VLANs"),
    *((f"IOS: {line}", acl(line), "r1/ios-config:4", said) for line, said in (
        ("permit tcp any any established", "state of a connection"), ("permit ip 10.0.0.0 0.255.0.255 any", "holes"), ("permit tcp any any eq nothing", "no port"), ("permit ip any any time-range x", "times of day"),
        ("permit ip any", "ends where"), ("evaluate x", "nothing that an access list"), ("permit ip object-group A any", "group of objects"), ("permit ip any eq 5 any", "neither TCP nor UDP"), ("permit what any any", "no protocol"),
        ("permit ip any any fragments", "fragments"), ("permit ip any any dscp ef", "mark of service"), ("permit tcp any any range 5", "ends where"), ("permit ip host 10.0.0.256 any", "no address"))),
    *((f"IOS: {line}", {**CISCO, "r1/ios-config": IOS % f" {line}"}, "r1/ios-config:3", said) for line, said in (
        ("ip nat inside", "address translation"), ("ip policy route-map x", "policy routing"), ("ip access-group gone in", "no rule"), ("switchport mode access", "port of a switch"), ("odd words", "not read"),
        ("encapsulation dot1Q 4095", "4,094"), ("ip address 10.0.0.1 255.0.255.0", "no address"), ("vrf forwarding x", "VRF"))),
    ("IOS: translation", {**CISCO, "r1/ios-config": IOS % "ip nat inside source list 1 interface Gi0 overload"}, "r1/ios-config:3", "address translation"),
    ("IOS: no interface", {**CISCO, "r1/ios-config": "hostname r1\n"}, "r1/ios-config:1", "no interface"),
    ("IOS: no routes", {name: text for name, text in CISCO.items() if "route" not in name}, "r1", "no file ios-route"),
    *((f"routes of IOS: {line}", {**CISCO, "r1/ios-route": f"{IOS_ROUTE}{line}\n"}, "r1/ios-route:2", said) for line, said in (
        ("hello", "no line"), ("S 10.9.0.0/16 [1/0] via 192.0.2.1", "no route has its next router"), ("S 10.9.0.0/40 [1/0] via 10.0.0.9", "no prefix"), ("S 10.9.0.0 [1/0] via 10.0.0.9", "no line says its length"), ("Routing Table: red", "VRF"),
        ("S 10.9.0.0/16", "without a hop"), ("B 10.9.0.0/16 [20/0] via 10.0.0.9 (red), 1d, Gi0", "another table"), ("C 10.9.0.0/16 is directly connected, Gi7", "none of the interfaces"))),
    *((f"ASA: {line}", asa(line), "r1/asa-config:8", said) for line, said in (
        ("nat (in,out) source dynamic any interface", "address translation"), ("access-list a extended permit ip 10.0.0.0 255.0.255.0 any", "holes"), ("access-list a extended permit tcp object gone any", "before it"),
        ("access-list a extended permit tcp any any time-range x", "times of day"), ("access-group gone in interface in", "no extended rule"), ("access-list a webtype permit url x", "not extended"),
        ("access-group a global", "only"), ("access-list a extended permit udp any object-group gone any", "before it"), ("crypto map m interface out", "encryption"))),
    *((f"Junos: {line}", junos(f"set firewall family inet filter f term t {line}"), "r1/junos-config:3", said) for line, said in (
        ("from tcp-established", "a test that"), ("from protocol nothing", "no value"), ("from source-address 10.0.0.0/40", "no prefix"), ("from source-prefix-list gone", "no prefix list"), ("then policer p", "limit of rate"),
        ("from destination-port 9-5", "ends before"), ("from icmp-code 5", "without its type"), ("then next-ip 10.0.0.1", "policy routing"), ("from fragment-offset 5", "a test that"))),
    ("Junos: zones", junos("set security zones x"), "r1/junos-config:3", "zones"),
    ("Junos: not active", junos("deactivate interfaces ge-0"), "r1/junos-config:3", "not active"),
    ("Junos: no filter", junos("set interfaces ge-0 unit 0 family inet filter output gone"), "r1/junos-config:3", "no filter"),
    ("Junos: braces", {**JUNIPER, "r1/junos-config": "interfaces {\n"}, "r1/junos-config:1", "display set"),
    ("Junos: a VLAN", junos("set interfaces ge-0 unit 5 vlan-id 4095"), "r1/junos-config:3", "1 to 4,094"),
    ("Junos: several hops", {**JUNIPER, "r1/junos-route": JUNIPER["r1/junos-route"] + "10.2.0.0/16 *[OSPF/10] 1d\n > to 10.0.0.2 via ge-0.0\n   to 10.0.0.3 via ge-0.0\n"}, "r1/junos-route:5", "2 next hops"),
    *((f"flow: {line}", flow(line), "r1/ovs-flows:2", said) for line, said in (
        ("priority=5 actions=NORMAL", "learns"), ("priority=5,ct_state=+new actions=drop", "no test"), ("priority=5,reg0=1 actions=drop", "no test"), ("priority=5,ip,nw_src=10.0.0.0/255.0.255.0 actions=drop", "holes"),
        ("priority=5 actions=resubmit(,1),output:2", "not the last"), ("priority=5 actions=group:5", "groups"), ("priority=5 actions=CONTROLLER:65535", "outside the switch"), ("priority=5,dl_vlan=4095 actions=drop", "1 to 4,094"),
        ("idle_timeout=5,ip actions=drop", "ends by time"), ("priority=5 actions=mod_vlan_vid:4095", "1 to 4,094"), ("priority=x actions=drop", "no priority"), ("hello", "no line"))),
    ("flows of one priority", flow("priority=5,ip actions=output:1\n priority=5,tcp actions=output:2"), "r1/ovs-flows:3", "not said"),
    ("no flow", {**FLOWS, "r1/ovs-flows": "\n"}, "r1/ovs-flows:1", "no flow"),
)


def write(place, files):
    for name, text in files.items():
        file = place / name
        if name.endswith("/"):
            file.mkdir(parents=True)
            continue
        file.parent.mkdir(parents=True, exist_ok=True)
        file.write_bytes(text if isinstance(text, bytes) else text.encode())


def refusal(files):
    """The place and the words of what is said of these files."""
    with tempfile.TemporaryDirectory() as room:
        write(Path(room, "net"), files)
        try:
            importing.import_folder(Path(room, "net"))
            return "", "nothing is refused"
        except importing.Refused as fault:
            where = f"{fault.source.file}:{fault.source.line}" if fault.source.line else "" if fault.source.file == str(Path(room, "net")) else fault.source.file
            return where, fault.what


def check_refusals(expect):
    for good in (LINUX, SWITCH, CISCO, FIREWALL, JUNIPER, FLOWS, linux(nft=NFT % ""), rule("-A FORWARD -j ACCEPT")):
        expect("what the refusals begin with", refusal(good)[1], "nothing is refused")
    for what, files, place, said in REFUSED:
        found = refusal(files)
        expect(f"import: {what}", (found[0], said in found[1], found[1] if said not in found[1] else ""), (place, True, ""))
    expect("import: a folder that is not there", "no folder" in str(raised(lambda: importing.import_folder("/nowhere"))), True)


def raised(call):
    try:
        call()
    except importing.Refused as fault:
        return fault
    return None


def check_broken(expect):
    """Files that are cut off, or have a byte changed, are read or refused; nothing else is raised."""
    drawn = random.Random(7)
    for name in names():
        files = {str(it.relative_to(IMPORTS / name)): it.read_bytes() for it in (IMPORTS / name).rglob("*") if it.is_file()}
        for _ in range(12):
            file = drawn.choice(sorted(files))
            data = bytearray(files[file])
            at = drawn.randrange(len(data))
            broken = bytes(data[:at]) if drawn.random() < 0.4 else bytes(data[:at]) + drawn.choice([b"", b"}", b'"', b"9", b"x", b"\n", b"[", b"-"]) + bytes(data[at + drawn.randrange(3):])
            try:
                refusal({**files, file: broken})
            except Exception as error:  # noqa: BLE001
                expect(f"import {name}: {file} broken at {at}", repr(error), "read or refused")


def check_large(expect):
    """A file of 64 MiB and one byte is refused, and one of 64 MiB is looked through; tables of many rows take their time once."""
    begun = time.process_time()
    full = sources.LARGEST
    found = refusal({**LINUX, "r1/ip-addr.json": b" " * (full + 1)})
    expect("import: a file past 64 MiB", found, ("r1/ip-addr.json", "it has more than 67,108,864 bytes, the most that is read of a file"))
    expect("import: a file of 64 MiB", refusal({**LINUX, "r1/ip-addr.json": b"[" + b" " * (full - 1)})[0], "r1/ip-addr.json:1")
    rows = "".join(f',{{"dst":"{net}","dev":"eth0"}}' for net in list(IPv4Network("20.0.0.0/8").subnets(new_prefix=22))[:16000])
    expect("import: 16,000 routes", refusal({**LINUX, "r1/ip-route.json": ROUTE % rows})[1], "nothing is refused")
    lines = "\n".join(f"-A FORWARD -s 10.{it >> 8}.{it & 255}.0/24 -p tcp -m tcp --dport {it} -j ACCEPT" for it in range(3000))
    expect("import: 3,000 rules", refusal(rule(lines))[1], "nothing is refused")
    expect("import: large files within 40 seconds", time.process_time() - begun < 40, True)


# ---------------------------------------------------------------- what rules have


def packet(protocol=6, source="10.0.0.5", destination="10.2.0.9", sport=40000, dport=80, ttl=64):
    return {"protocol": protocol, "source address": int(IPv4Address(source)), "destination address": int(IPv4Address(destination)), "source port": sport, "destination port": dport, "TTL": ttl}


def icmp(kind, code=0, **others):
    return packet(1, sport=kind << 8 | code, **others)


# Of each system lines, a packet, and whether it passes: what no line has is dropped.
RULES = (
    ("iptables", "-s 10.0.0.0/8 -j ACCEPT", packet(), True), ("iptables", "! -s 10.0.0.0/8 -j ACCEPT", packet(), False), ("iptables", "-s 10.0.0.0/255.255.255.252 -j ACCEPT", packet(), False),
    ("iptables", "-p tcp -m tcp --dport 80:90 -j ACCEPT", packet(), True), ("iptables", "-p tcp -m tcp --dport 81: -j ACCEPT", packet(), False), ("iptables", "-p tcp -m tcp ! --dport 80 -j ACCEPT", packet(), False),
    ("iptables", "-p udp -m udp --dport 80 -j ACCEPT", packet(), False), ("iptables", "-p tcp -m multiport --ports 22,80 -j ACCEPT", packet(), True), ("iptables", "-p tcp -m multiport ! --ports 22,80 -j ACCEPT", packet(), False),
    ("iptables", "-p tcp -m multiport ! --ports 22,81 -j ACCEPT", packet(), True), ("iptables", "-p tcp -m multiport --sports 22,80 -j ACCEPT", packet(), False), ("iptables", "-i eth+ -j ACCEPT", packet(), True),
    ("iptables", "-i eth1 -j ACCEPT", packet(), False), ("iptables", "! -i eth1 -o eth1 -j ACCEPT", packet(), True), ("iptables", "-o eth0 -j ACCEPT", packet(), False), ("iptables", "-p icmp -m icmp --icmp-type 8 -j ACCEPT", icmp(8), True),
    ("iptables", "-p icmp -m icmp --icmp-type 8/1 -j ACCEPT", icmp(8), False), ("iptables", "-p icmp -m icmp ! --icmp-type 8 -j ACCEPT", icmp(3), True), ("iptables", "-p icmp -m icmp --icmp-type any -j ACCEPT", icmp(77), True),
    ("iptables", "-m ttl --ttl-gt 63 -j ACCEPT", packet(), True), ("iptables", "-m ttl ! --ttl-eq 64 -j ACCEPT", packet(), False), ("iptables", "-m iprange --src-range 10.0.0.1-10.0.0.5 -j ACCEPT", packet(), True),
    ("iptables", "-m iprange ! --dst-range 10.2.0.0-10.2.0.9 -j ACCEPT", packet(), False), ("iptables", "-j LOG --log-prefix x\n-A FORWARD -j ACCEPT", packet(), True), ("iptables", "-s 10.0.0.5\n-A FORWARD -j ACCEPT", packet(), True),
    ("iptables", "-j a\n-A FORWARD -j ACCEPT\n-A a -s 10.0.0.5 -j RETURN\n-A a -j DROP", packet(), True), ("iptables", "-g a\n-A FORWARD -j ACCEPT\n-A a -s 10.0.0.5 -j RETURN\n-A a -j DROP", packet(), False),
    ("iptables", "-j a\n-A FORWARD -j ACCEPT\n-A a -s 10.0.0.6 -j RETURN\n-A a -j DROP", packet(), False), ("iptables", "-p 0 -j ACCEPT", packet(), True), ("iptables", "-p all -j ACCEPT", packet(47), True),
    ("nft", match('{"payload":{"protocol":"tcp","field":"dport"}}', '{"set":[22,{"range":[79,81]}]}'), packet(), True), ("nft", match('{"payload":{"protocol":"tcp","field":"dport"}}', "80", "!="), packet(), False),
    ("nft", match('{"payload":{"protocol":"udp","field":"dport"}}', "80", "!="), packet(), False), ("nft", match('{"payload":{"protocol":"th","field":"dport"}}', "80"), packet(132), True),
    ("nft", match('{"payload":{"protocol":"ip","field":"saddr"}}', '{"prefix":{"addr":"10.0.0.0","len":30}}', "!="), packet(), True), ("nft", match('{"meta":{"key":"l4proto"}}', '{"set":["udp","gre"]}'), packet(47), True),
    ("nft", match('{"payload":{"protocol":"ip","field":"ttl"}}', "64", "<"), packet(), False), ("nft", match('{"payload":{"protocol":"ip","field":"ttl"}}', "64", "<="), packet(), True), ("nft", match('{"payload":{"protocol":"ip","field":"ttl"}}', "0", "<"), packet(), False),
    ("nft", match('{"payload":{"protocol":"icmp","field":"type"}}', '"echo-request"'), icmp(8, 3), True), ("nft", match('{"payload":{"protocol":"icmp","field":"type"}}', '"echo-request"', "!="), icmp(8), False),
    ("nft", match('{"payload":{"protocol":"icmp","field":"type"}}', '"echo-request"'), packet(sport=2048), False), ("nft", match('{"payload":{"base":"th","offset":0,"len":32}}', str(40000 << 16 | 80)), packet(), True),
    ("nft", match('{"meta":{"key":"nfproto"}}', '"ipv6"'), packet(), False), ("nft", match('{"meta":{"key":"nfproto"}}', '"ipv6"', "!="), packet(), True), ("nft", match('{"payload":{"protocol":"ip6","field":"saddr"}}', '"::1"', "!="), packet(), False),
    ("nft", match('{"meta":{"key":"oifname"}}', '"eth*"'), packet(), True), ("nft", match('{"meta":{"key":"iifname"}}', '{"set":["eth0","lo"]}', "!="), packet(), False),
    ("nft", '{"vmap":{"key":{"payload":{"protocol":"tcp","field":"dport"}},"data":{"set":[[80,{"drop":null}],[81,{"accept":null}]]}}}]}},{"rule":{"family":"inet","table":"t","chain":"c","expr":[{"accept":null}', packet(), False),
    ("nft", match('{"concat":[{"payload":{"protocol":"ip","field":"daddr"}},{"payload":{"protocol":"tcp","field":"dport"}}]}', '{"set":[{"concat":["10.2.0.9",81]},{"concat":["10.2.0.8",80]}]}'), packet(), False),
    ("nft", match('{"concat":[{"payload":{"protocol":"ip","field":"daddr"}},{"payload":{"protocol":"tcp","field":"dport"}}]}', '{"set":[{"concat":["10.2.0.9",{"range":[79,81]}]}]}'), packet(), True),
    ("ios", "permit tcp any any eq www", packet(), True), ("ios", "permit tcp any any eq 22 www 443", packet(), True), ("ios", "permit tcp any eq www any", packet(), False), ("ios", "permit tcp any any neq 80", packet(), False),
    ("ios", "permit tcp any any lt 80", packet(), False), ("ios", "permit tcp any any gt 79", packet(), True), ("ios", "permit tcp any any range 79 80", packet(), True), ("ios", "permit ip 10.0.0.0 0.0.0.7 any", packet(), True),
    ("ios", "permit ip 10.0.0.0 0.0.0.3 any", packet(), False), ("ios", "permit ip host 10.0.0.5 host 10.2.0.9 log", packet(), True), ("ios", "permit udp any any", packet(), False), ("ios", "permit 47 any any", packet(47), True),
    ("ios", "permit icmp any any echo", icmp(8), True), ("ios", "permit icmp any any port-unreachable", icmp(3, 3), True), ("ios", "permit icmp any any 3 4", icmp(3, 3), False), ("ios", "deny ip any any\naccess-list 101 permit ip any any", packet(), False),
    ("ios", "remark permit ip any any", packet(), None), ("ios", "permit ip any any (12 matches)", packet(), True), ("ios", "permit tcp 10.0.0.0 0.255.255.255 gt 1023 10.2.0.0 0.0.255.255 eq 80", packet(), True),
    ("standard", "permit 10.0.0.0 0.0.0.255", packet(), True), ("standard", "permit 10.0.0.5", packet(), True), ("standard", "permit host 10.0.0.6", packet(), False), ("standard", "deny 10.0.0.5 log\naccess-list 7 permit any", packet(), False),
    ("asa", "permit tcp 10.0.0.0 255.255.255.0 any eq https", packet(), False), ("asa", "permit tcp 10.0.0.0 255.255.255.0 any eq www", packet(), True), ("asa", "permit tcp any4 host 10.2.0.9 range 79 81 log disable", packet(), True),
    ("asa", "permit tcp any any eq www inactive", packet(), False), ("asa", "permit object-group SVC any object-group SRV", packet(), True), ("asa", "permit object-group SVC any object-group SRV", packet(17, dport=53), True),
    ("asa", "permit object-group SVC any object-group SRV", packet(17), False), ("asa", "permit object-group SVC any object-group SRV", packet(destination="10.2.0.10"), False), ("asa", "permit object-group SVC any object-group SRV", icmp(8), True),
    ("asa", "permit tcp any object NET object-group WEB", packet(), True), ("asa", "permit tcp any object NET object-group WEB", packet(dport=8081), False), ("asa", "permit object-group PR any any", packet(47), True), ("asa", "permit object-group PR any any", packet(17), False),
    ("asa", "permit tcp object RANGE any", packet(), True), ("asa", "permit tcp object RANGE any", packet(source="10.0.0.8"), False), ("asa", "permit tcp any6 any", packet(), False),
    ("junos", "from protocol tcp;from destination-port http", packet(), True), ("junos", "from protocol tcp;from destination-port 443;from destination-port 80-81", packet(), True), ("junos", "from port 80", packet(), True), ("junos", "from source-port 80", packet(), False),
    ("junos", "from source-address 10.0.0.0/8;from source-address 10.0.0.4/30 except", packet(), False), ("junos", "from source-address 10.0.0.0/8;from source-address 10.0.0.4/30 except;from source-address 10.0.0.5/32", packet(), True),
    ("junos", "from source-address 10.0.0.4/30 except", packet(), False), ("junos", "from address 10.2.0.0/16", packet(), True), ("junos", "from source-prefix-list P", packet(), True), ("junos", "from destination-prefix-list P", packet(), False),
    ("junos", "from protocol icmp;from icmp-type echo-request", icmp(8), True), ("junos", "from protocol icmp;from icmp-type 3;from icmp-code 4", icmp(3, 3), False), ("junos", "from protocol-except udp", packet(), True), ("junos", "from ttl 63-64", packet(), True),
    ("flows", "tcp,tp_dst=80", packet(), True), ("flows", "udp", packet(), False), ("flows", "ip,nw_src=10.0.0.0/24", packet(), True), ("flows", "ip,nw_src=10.0.0.0/255.255.255.252", packet(), False), ("flows", "tcp,tp_dst=0x50/0xfff0", packet(), True),
    ("flows", "tcp,tp_dst=0x60/0xfff0", packet(), False), ("flows", "in_port=1", packet(), True), ("flows", "in_port=2", packet(), False), ("flows", "icmp,icmp_type=8,icmp_code=0", icmp(8), True), ("flows", "arp", packet(), False), ("flows", "ip,nw_ttl=64", packet(), True),
    ("flows", "dl_vlan=0xffff", packet(), True), ("flows", "dl_vlan=5", packet(), False), ("flows", "dl_dst=02:00:00:00:00:00/ff:ff:ff:00:00:00", packet(), True),
)
OBJECTS = """object network NET
 subnet 10.2.0.0 255.255.0.0
object network RANGE
 range 10.0.0.1 10.0.0.7
object-group network SRV
 network-object host 10.2.0.9
object-group service WEB tcp
 port-object eq www
 port-object range 8000 8080
object-group service SVC
 service-object tcp destination eq www
 service-object tcp-udp destination eq domain
 service-object icmp echo
object-group protocol PR
 protocol-object gre
access-list a extended """


def passes(system, lines, given):
    """Whether a packet that comes by the first interface and goes by the second passes these lines; None where they are refused."""
    with tempfile.TemporaryDirectory() as room:
        net = Path(room, "net")
        junos_lines = "\n".join(f"set firewall family inet filter f term t {it}" for it in lines.split(";"))
        write(net, {"iptables": lambda: rule(f":a - [0:0]\n-A FORWARD {lines}"), "nft": lambda: linux(nft=NFT.replace('"prio":0', '"prio":0,"policy":"drop"') % (NFT_RULE % lines)), "ios": lambda: acl(lines),
                    "standard": lambda: {**CISCO, "r1/ios-config": IOS % f" ip access-group 7 in\naccess-list 7 {lines}"}, "asa": lambda: asa(f"{OBJECTS}{lines}\naccess-group a in interface in\nsame-security-traffic permit inter-interface"),
                    "junos": lambda: junos(f"set policy-options prefix-list P 10.0.0.0/24\n{junos_lines}"), "flows": lambda: flow(f"priority=9,{lines} actions=output:2")}[system]())
        try:
            box = folder.read_folder(net).boxes["r1"]
        except importing.Refused:
            return None
        if box.flow_switch:
            return box.flow_switch.flows[0].match.has({**given, "VLAN": 0, "Ethernet type": 0x0800, "Ethernet destination": 0x020000000005}, "1")
        faces = [*box.router.interfaces]
        filters = [*box.router.forwarded] if system in ("iptables", "nft") else [*box.router.forwarded][:1] if system == "asa" else box.router.interfaces[faces[system == "junos"]].inbound
        return all(import_walk.accepts(it, given, faces[0], faces[1]) for it in filters)


def check_rules(expect):
    for system, lines, given, wanted in RULES:
        expect(f"import: {system}: {lines}, {given}", passes(system, lines, given), wanted)
    for files, what in ((linux(nft=NFT.replace("forward", "input") % (NFT_RULE % match('{"meta":{"key":"oifname"}}', '"eth1"', "!=").replace("accept", "drop"))), "nft"),
                        (rule("-A INPUT -j a\n:a - [0:0]\n-A a ! -o eth1 -j DROP"), "iptables")):
        with tempfile.TemporaryDirectory() as room:
            write(Path(room, "net"), files)
            delivered = folder.read_folder(Path(room, "net")).boxes["r1"].router.delivered
            expect(f"import: {what}: no interface that it goes by", all(import_walk.accepts(it, packet(), "eth0") for it in delivered), False)


# ---------------------------------------------------------------- what a Linux kernel showed (tools/kernel_test.py)

OWN = '[{"type":"local","dst":"10.0.0.1","dev":"eth0","table":"local","protocol":"kernel"},{"type":"broadcast","dst":"10.0.0.255","dev":"eth0","table":"local","protocol":"kernel"},%s{"dst":"10.0.0.0/24","dev":"eth0"}]'
WIDE = '{"type":"local","dst":"10.0.0.0/8","dev":"lo","table":"local"},'
BRIDGED = ('[{"ifname":"br0","flags":["UP"],"address":"02:00:00:00:00:01","addr_info":[{"family":"inet","local":"10.0.0.1","prefixlen":24}],"linkinfo":{"info_kind":"bridge","info_data":{%s}}},'
           '{"ifname":"eth0","flags":["UP"],"master":"br0","address":"02:00:00:00:00:02","addr_info":[]%s},{"ifname":"eth1","flags":["UP"],"master":"br0","address":"02:00:00:00:00:03","addr_info":[]}]')
PORTS = ('[{"mac":"02:00:00:00:00:01","ifname":"br0","master":"br0","state":"permanent"},{"mac":"02:00:00:00:00:02","ifname":"eth0","master":"br0","state":"permanent"},'
         '{"mac":"02:00:00:00:00:03","ifname":"eth1","master":"br0","state":"permanent"}]')


def bridged(settings="", port=""):
    """A router with a bridge of its own, and these settings of the bridge and of a port."""
    return {"topology": TOPOLOGY, "r1/ip-addr.json": BRIDGED % (settings, port), "r1/ip-route.json": (OWN % "").replace("eth0", "br0"), "r1/bridge-fdb.json": PORTS}


def read(files):
    with tempfile.TemporaryDirectory() as room:
        write(Path(room, "net"), files)
        return folder.read_folder(Path(room, "net"))


def check_kernel(expect):
    """Local and main are one table; where a route of the type local was added, no source may be of such a route, or a broadcast; reserved addresses; addresses of ports."""
    for added, destination, wanted in ((WIDE, "10.0.0.5", ""), (WIDE, "10.0.1.5", "local"), (WIDE.replace("10.0.0.0/8", "10.0.0.0/24"), "10.0.0.5", "local"), ("", "10.0.1.5", "no route")):
        router = read({**LINUX, "r1/ip-route.json": OWN % added}).boxes["r1"].router
        found = [it for it in router.routes if IPv4Address(destination) in it.prefix]
        expect(f"import: the route of {destination} with {added}", max(found, key=lambda it: it.prefix.prefixlen).kind if found else "no route", wanted)
    for added, source, wanted in ((WIDE, "10.0.1.5", True), (WIDE, "10.0.0.5", False), (WIDE, "10.0.0.255", True), ("", "10.0.0.255", False), ("", "10.0.0.1", True), (WIDE.replace('"lo"', '"lo","protocol":"kernel"'), "10.0.1.5", False)):
        router = read({**LINUX, "r1/ip-route.json": OWN % added}).boxes["r1"].router
        expect(f"import: no source {source} with {added}", model.has(router.no_sources, int(IPv4Address(source))), wanted)
    for settings, wanted in (("", range(1, 16)), ('"stp_state":0', range(1, 16)), ('"stp_state":1', range(16)), ('"group_fwd_mask":"4008"', set(range(1, 16)) - {3, 14}), ('"group_fwd_mask":"ffff"', (1, 2))):
        reserved = read(bridged(settings)).boxes["r1"].bridges[0].reserved
        expect(f"import: addresses that no bridge forwards with {settings}", {it - 0x0180C2000000 for low, high in reserved for it in range(low, high + 1)}, set(wanted))
    expect("import: a port that forwards reserved addresses", refusal(bridged(port=',"linkinfo":{"info_slave_kind":"bridge","info_slave_data":{"group_fwd_mask":"8"}}'))[0], "r1/ip-addr.json:1")
    expect("import: a mask that is none", refusal(bridged('"group_fwd_mask":"x"'))[0], "r1/ip-addr.json:1")
    walker = import_walk.Walker(read(bridged()), True)
    for number, wanted in ((1, {"itself"}), (2, {"itself"}), (3, set()), (9, {"host"})):
        came = walker.ends("a", {**packet(destination="10.0.0.1"), "VLAN": 0, "Ethernet destination": 0x020000000000 + number})
        expect(f"import: a frame for 02:00:00:00:00:0{number} at eth0", {it[0] for it in came}, wanted)


# ---------------------------------------------------------------- the command


def said(words):
    out, err = io.StringIO(), io.StringIO()
    with redirect_stdout(out), redirect_stderr(err):
        status = command.main(words)
    return status, out.getvalue(), err.getvalue()


def check_command(expect):
    with tempfile.TemporaryDirectory() as room:
        status, out, err = said([str(IMPORTS / "ios"), "--to", f"{room}/job", "--style=chain"])
        expect("import: the command", (status, err, "2 boxes, 2 hosts" in out, sorted(it.name for it in Path(room, "job").iterdir())), (0, "", True, ["c1_routes.fib", "c2_routes.fib", "net.map", "net.sefl"]))
        expect("import: a style", " chain;" in Path(room, "job/net.sefl").read_text(), True)
        write(Path(room, "bad"), {**LINUX, "topology": "host a r1.eth0\nhost b r1.eth0\n"})
        status, out, err = said([f"{room}/bad", f"--to={room}/none"])
        expect("import: a refusal", (status, out, err), (10, "", "symnet: topology:2: the interface r1.eth0 is named already in line 1: an interface has one link or one host\nhost b r1.eth0\n"))
        expect("import: nothing is written then", Path(room, "none").exists(), False)
        Path(room, "file").write_text("")
        expect("import: a folder that cannot be written", said([str(IMPORTS / "ios"), "--to", f"{room}/file/x"])[0], 5)
    for words in ([], ["a", "b"], ["a", "--style", "other"], ["a", "--to"], ["--odd", "a"]):
        status, out, err = said(words)
        expect(f"import: the words {words}", (status, out, err.split("\n")[0]), (2, "", "symnet: usage"))
    expect("import: help", said(["--help"])[0], 0)


# ---------------------------------------------------------------- walks

FIELDS = {"global vlan:12": "VLAN", "head L2+0:48": "Ethernet destination", "head L2+48:48": "Ethernet source", "head L2+96:16": "Ethernet type", "head L3+64:8": "TTL", "head L3+72:8": "protocol",
          "head L3+96:32": "source address", "head L3+128:32": "destination address", "head L4+0:16": "source port", "head L4+16:16": "destination port"}
_AT = {"Ethernet destination": 0, "Ethernet source": 48, "TTL": 176, "protocol": 184, "source address": 208, "destination address": 240, "source port": 272, "destination port": 288}


class Drawer:
    """Draws packets that lie at the edges of what the network's tests have."""

    def __init__(self, network, drawn):
        self.drawn = drawn
        self.ends = {name: {0, 1, (1 << width) - 1} for name, width in model.WIDTHS.items()}
        self.ends["protocol"] |= {6, 17, 1}
        self.ends["TTL"] |= {2, 5, 64}
        for box in network.boxes.values():
            for chain in self.chains(box):
                self.add([match for rule in chain.rules for match in rule.matches])
            if box.router:
                for route in box.router.routes:
                    self.ends["destination address"] |= {end for one in model.of_network(route.prefix) for end in (one, min(one + 1, 0xFFFFFFFF))}
                self.ends["Ethernet destination"] |= {it.mac for it in box.router.interfaces.values() if it.mac}
            self.add([it.match for it in box.flow_switch.flows] if box.flow_switch else [])
            for bridge in box.bridges:
                self.ends["Ethernet destination"] |= {it.mac for it in bridge.entries} | {0x0180C2000000, (1 << 48) - 1}
                self.ends["VLAN"] |= {vlan for port in bridge.ports for vlan in (*port.vlans, port.pvid)}
        self.known = [int(it.address) for it in network.hosts if it.address] or [0x0A000001]
        self.macs = [it.mac for box in network.boxes.values() if box.router for it in box.router.interfaces.values() if it.mac] or [0]
        self.add([])

    def chains(self, box):
        if not box.router:
            return []
        filters = [*box.router.arriving, *box.router.forwarded, *box.router.delivered, *(it for face in box.router.interfaces.values() for it in (*face.inbound, *face.outbound))]
        return [chain for it in filters for chain in (it.base, *it.chains.values())]

    def add(self, matches):
        for match in matches:
            for name, ranges in match.fields:
                self.ends[name] |= {end for low, high in ranges for end in (low, high, low - 1, high + 1) if 0 <= end < 1 << model.WIDTHS[name]}
        self.sorted = {name: sorted(ends) for name, ends in self.ends.items()}

    def packet(self, names, given):
        made = {name: self.drawn.choice(self.sorted[name]) for name in names}
        # most packets should not be dropped at once
        likely = {"TTL": 64, "destination address": self.drawn.choice(self.known), "protocol": self.drawn.choice((1, 6, 17)), "Ethernet destination": self.drawn.choice(self.macs), "VLAN": 0}
        made.update({name: value for name, value in likely.items() if name in made and self.drawn.random() < 0.6})
        return {**made, **given}


def ended(path, found, has_frames):
    """Where a walk of the job ends, as import_walk has it; None where the packet is dropped."""
    if path.end != "delivered":
        return None
    told = found["places"][path.last]
    kind, name = ("host", told[5:]) if told.startswith("host ") else ("itself", told.removesuffix(" itself")) if told.endswith(" itself") else ("edge", told.split(",")[0])
    cells = {address: held[-1].constant for address, held in path.fields.heads if held}
    fields = {it: cells[at] for it, at in _AT.items() if at in cells}
    if has_frames:
        fields["Ethernet type"] = cells[96]
        fields["VLAN"] = next(held[-1].constant for owner, it, held in path.fields.metas if it == "vlan")
    return kind, name, tuple(sorted(fields.items()))


def check_walks(expect, count):
    """Packets drawn at the edges of the tests: the walks of the job end where the plain evaluation says."""
    total = reached = 0
    for name in WALKED:
        network = folder.read_folder(IMPORTS / name)
        made = importing.import_folder(IMPORTS / name)
        found = json.loads(made.map)
        job = inputs.read_job(made.text)
        has_frames = "tag L2" in made.text
        given = {"Ethernet type": 0x0800} if has_frames else {}
        walker = import_walk.Walker(network, has_frames)
        drawer = Drawer(network, random.Random(name))
        text = made.text.replace("field global vlan:12 = 0;", "field global vlan:12;")
        fields = inputs.read_job(text).fields
        for _ in range(count):
            host = drawer.drawn.randrange(len(made.hosts))
            packet = drawer.packet([FIELDS[it] for it in fields if it in FIELDS], given)
            if drawer.drawn.random() < 0.5 and network.hosts[host].address:
                packet["source address"] = int(network.hosts[host].address)
            try:
                wanted = walker.ends(made.hosts[host], packet)
            except AssertionError as error:
                if "not known" in str(error):
                    continue
                raise
            values = [host if it == "global host:16" else packet[FIELDS[it]] for it in fields]
            report = symnet.walk(text, values, files=made.files, hops=100)
            came = {ended(path, found, has_frames) for path in report.paths} - {None}
            expect(f"import {name}: the packet {packet} of {made.hosts[host]}", came, wanted)
            total, reached = total + 1, reached + bool(wanted)
        expect(f"import {name}: hosts", len(job.fields) > 0, True)
    return total, reached


def check_example(expect):
    """The questions of the example, and what decided, by the reader."""
    made = importing.import_folder(EXAMPLE / "outputs")
    asked = symnet.ask(made.text, files=made.files, hops=32)
    expect("examples/imported: its answers", {it.answer for it in asked.answers} <= {"yes", "no"}, True)
    report = symnet.explore(made.text, files=made.files, hops=32)
    path = next(it for it in report.paths if it.end == "delivered" and it.last == "out web.0" and it.places[0] == "in entry.0" and it.values[0] == 0)
    lines = made.decided(path)
    expect("examples/imported: what decided", [it for it in lines if "permit tcp" in it or "via 10.9.0.2" in it],
           ["gate: 10.1.0.0/16 via 10.9.0.2 dev eth0 (gate/ip-route.json:1:120)", "core: permit tcp any host 10.1.20.80 eq www 443 (core/ios-config.txt:39)"])


def check_sites(expect):
    """The items that reports name are those of the map: a drop's message stands in the line of its item."""
    for name in names():
        for style in ("grouped", "chain"):
            made = importing.import_folder(IMPORTS / name, style=style)
            items, lines = json.loads(made.map)["items"], made.text.split("\n")
            report = symnet.explore(made.text, files=made.files, hops=40)
            drops = [path for path in report.paths if path.message and path.message.startswith(("dropped by", "rejected by")) and "route" not in path.message]
            wrong = [path.end for path in drops if path.message not in lines[items.get(str(path.site), {"line": 1})["line"] - 1]]
            expect(f"import {name}, {style}: items of drops", wrong, [])


def check(expect):
    """What needs nothing that is built."""
    for part in (check_jobs, check_places, check_ranges, check_rules, check_kernel, check_refusals, check_broken, check_large, check_command):
        part(expect)


def check_run(expect, count=60):
    """What needs the library or the program."""
    check_example(expect)
    check_sites(expect)
    total, reached = check_walks(expect, count)
    print(f"python: {total} packets of imported networks were walked, and {reached} of them came somewhere")


if __name__ == "__main__":
    wrong = []

    def told(what, found, wanted):
        if found != wanted:
            wrong.append(what)
            print(f"import: {what}: wanted {str(wanted)[:700]}, found {str(found)[:700]}")

    if "--run" not in sys.argv:
        check(told)
    if "--run" in sys.argv:
        check_run(told, int(sys.argv[-1]) if sys.argv[-1].isdigit() else 60)
    print("import: failed" if wrong else "import: passed")
    sys.exit(1 if wrong else 0)
