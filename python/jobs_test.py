"""Tests of jobs that a program makes, and of the canonical text, for python/test."""

import ipaddress
import random
import tempfile
from pathlib import Path

import symnet
from symnet import sefl
from symnet.inputs import NotInput, Tokens
from symnet.jobs import Net, filter_code
from symnet.spoken import number, reference, unspoken

TOP = Path(__file__).resolve().parent.parent
EXAMPLES = TOP / "examples"
# Each part of the grammar, in another spelling than the canonical one.
SPELLED = """symnet 2; // a comment { with ; signs
node  a 0x1->2{in 0{allocate head -0:8;deallocate head - 16 : 0x8;set head L3 + 0x40:8=(head L3-0:8)+(1-(2+3));set $v:8=any;tag T=-5;retag T=T-3;untag T;
constrain true;constrain[not[1==1 and 2!=2]or[[3<3 or 4<=4]]]and not not 5>5 and[6>=6];fail"x // y ; {";
if head 1:1 in{1..1,2..0x3}{}else{noop;{}}for v in"^a"{fork;fork 0,1;}forward 0;}out 1{}}
node t=fib"t.fib"egress;
link a.0->t.0;link a . 1->t.0;
inject a.0{tag L3=112;field head L3+64:8;field global m:8=0x10;where 1==1 or[2==2 or 3==3];}
ask reach in a.0 with[true];ask reach out a.1 with 1==1;ask invariant $v:8 at in a.0;ask visible local in:8 at out a.1;
"""
CANONICAL = """symnet 2;
node a 1 -> 2 {
  in 0 {
    allocate head 0:8;
    deallocate head -16:8;
    set head L3+64:8 = head L3+0:8 + (1 - (2 + 3));
    set $v:8 = any;
    tag T = -5;
    retag T = T-3;
    untag T;
    constrain true;
    constrain [not [1 == 1 and 2 != 2] or [3 < 3 or 4 <= 4]] and not not 5 > 5 and 6 >= 6;
    fail "x // y ; {";
    if head 1:1 in {1, 2..3} {
    } else {
      noop;
      {
      }
    }
    for v in "^a" {
      fork;
      fork 0, 1;
    }
    forward 0;
  }
  out 1 {
  }
}
node t = fib "t.fib" egress;
link a.0 -> t.0;
link a.1 -> t.0;
inject a.0 {
  tag L3 = 112;
  field head L3+64:8;
  field global m:8 = 16;
  where 1 == 1 or [2 == 2 or 3 == 3];
}
ask reach in a.0;
ask reach out a.1 with 1 == 1;
ask invariant $v:8 at in a.0;
ask visible local in:8 at out a.1;
"""


def spaced(text, draw):
    """The tokens of a text with other blanks and comments between them."""
    return "".join(token.text + draw.choice((" ", "\n", "\t ", " // x; {\n", "\r\n")) for token in Tokens(text).tokens)


def refused(what, expect, call, *parts, **named):
    try:
        call(*parts, **named)
        expect(what, "an answer", "a refusal")
    except (NotInput, ValueError):
        pass


def check_canonical(expect):
    """The canonical text: of each part of the grammar, of the examples in other spellings, and of what the program prints."""
    draw = random.Random(3)
    expect("a canonical text", sefl.canonical(SPELLED), CANONICAL)
    expect("version 1", sefl.canonical("symnet 1; node a 1 -> 0 { in 0 { tag T = 1; } } inject a.0 { tag T = 2; }").split("\n")[3:7:3], ["    retag T = 1;", "inject a.0 {"])
    for file in sorted(EXAMPLES.rglob("*.sefl")):
        text = sefl.canonical(file.read_text())
        expect(f"{file.name}: its canonical text is its own", sefl.canonical(text), text)
        expect(f"{file.name}: in another spelling", sefl.canonical(spaced(file.read_text(), draw)), text)
    for file in sorted([*EXAMPLES.rglob("*.node"), *EXAMPLES.rglob("*.net")]):
        expect(f"{file.name}: as the program prints it", sefl.canonical_net(file.read_text()), file.read_text())
    job = EXAMPLES.joinpath("branch-office/office.sefl").read_text()
    tokens = [token.text for token in Tokens(job).tokens]
    end = len(tokens) - 1 - tokens[::-1].index("}")
    for at in draw.sample(range(end), 100):
        refused(f"the first {at} tokens of a job", expect, sefl.canonical, " ".join(tokens[:at]))
    for text in ("", "symnet 3;", "symnet 2; inject a.0 { } }", "symnet 2; inject a.0 { field head L3:8; }", "symnet 2; inject a.0 { where 1; }", "symnet 2; inject a.0 { } ask reach a.0;",
                 "symnet 2; node a 1 -> 1 { in 0 { goto 1; } } inject a.0 { }", f"symnet 2; inject a.0 {{ where {'not ' * 5000}true; }}", f"symnet 2; inject a.0 {{ where {'[' * 5000}true; }}",
                 f"symnet 2; node a 1 -> 1 {{ in 0 {'{' * 5000}", f"symnet 2; inject a.0 {{ where 1 == {'(' * 5000}1; }}", f"symnet 2; node a {'9' * 5000} -> 1 {{ }}"):
        refused(f"{text[:60]!r}", expect, sefl.canonical, text)


def check_spoken(expect):
    """Names, addresses and protocols in place of references and numbers."""
    for text, wanted in (
            ("source address in 10.1.0.0/16", "head L3+96:32 in {167837696..167903231}"), ("Destination  Address in {10.0.0.0/31, 10.0.0.9}", "head L3+128:32 in {167772160..167772161, 167772169}"),
            ("protocol == TCP and TTL <= 1", "head L3+72:8 == 6 and head L3+64:8 <= 1"), ("Ethernet destination == 02:00:00:00:00:01", "head L2+0:48 == 2199023255553"), ("Ethernet type == ARP", "head L2+96:16 == 2054"),
            ("global protocol:8 == local TTL:8", "global protocol:8 == local TTL:8"), ("head TTL+8:8 == $TCP:8", "head TTL+8:8 == $TCP:8"), ('fail "TTL of TCP";', 'fail "TTL of TCP";'), ("// TTL\n", "// TTL\n"), ("node TTL 1 -> 1 { } link TTL.0 -> TCP.0;", "node TTL 1 -> 1 { } link TTL.0 -> TCP.0;"),
            ("reach in TCP.0 with TTL == 1", "reach in TCP.0 with head L3+64:8 == 1"), ("in 0 { }", "in 0 { }"), ("forward 1;", "forward 1;"), ("head L3+64:8 == 0x10", "head L3+64:8 == 0x10")):
        expect(f"{text!r} as a job has it", unspoken(text), wanted)
    low = int(ipaddress.ip_address("2001:db8::"))
    expect("addresses of IPv6", unspoken("source address in 2001:db8::/127 and destination address == ::1 and hop limit > 0", 6), f"head L3+64:128 in {{{low}..{low + 1}}} and head L3+192:128 == 1 and head L3+56:8 > 0")
    for name, version, wanted in (("source address", 4, "head L3+96:32"), ("source address", 6, "head L3+64:128"), ("ttl", 4, "head L3+64:8"), ("head L3 + 0x0:8", 4, "head L3+0:8"), ("global mark:16", 4, "global mark:16")):
        expect(f"the reference of {name}", reference(name, version), wanted)
    for value, name, wanted in ((6, "protocol", 6), ("TCP", "protocol", 6), ("udp", "protocol", 17), ("ARP", "Ethernet type", 0x806), ("10.0.0.1", "source address", 0x0A000001), (ipaddress.ip_address("::2"), "", 2), ("0x10", "", 16),
                                ("2:0:0:0:0:1", "Ethernet source", 2199023255553)):
        expect(f"the number of {value}", number(value, name), wanted)
    for what, call in (("an address that is none", lambda: unspoken("source address == 300.0.0.1")), ("a value that is none", lambda: number("x")), ("a field that is none", lambda: reference("no such field"))):
        refused(what, expect, call)


def made():
    """A net with a box of each kind."""
    net = Net()
    net.router("core", {"10.1.0.0/16": 0, "0.0.0.0/0": 1}, ports=3).switch("floor", [("02:0:0:0:0:1", 0), ("02:00:00:00:00:02", 1)], style="chain")
    net.filter("acl", ["# a list", "permit TCP 0.0.0.0/0 198.51.100.0/24 any 443", "permit 17 0.0.0.0/0 0.0.0.0/0 any 53", "deny any 0.0.0.0/0 0.0.0.0/0 any any"], style="chain")
    net.node("ttl", 1, 1, {"in 0": ["if TTL <= 1 { fail \"TTL\"; } else { }", "set TTL = TTL - 1;", "forward 0;"], "out 0": "constrain TTL != 0;"}).forwarder("lan").sink("end")
    net.add("node more 1 -> 1 { } link more.0 -> end.0;").link("core.1", ("acl", 0)).links([("core.0", "ttl.0"), (("ttl", 0), "lan.0")])
    net.inject("core.0", tags={"L3": 112, "L4": "L3+160"}, fields=["TTL", "source address", "destination address", "head L4+0:16", "destination port"], given={"protocol": "TCP"}, where=["source address in 10.2.0.0/16"])
    return net.ask("reach out acl.0 with destination port == 22").ask("reach out acl.0").ask("visible source address at in acl.0")


def check_net(expect):
    """A net prints the canonical text of its job."""
    net = made()
    expect("a net's text is canonical", sefl.canonical(net.text), net.text)
    expect("a net's tables", net.files, {"core.fib": "ports 3\n10.1.0.0/16 0\n0.0.0.0/0 1\n", "floor.mac": "ports 2\n02:00:00:00:00:01 0\n02:00:00:00:00:02 1\n"})
    expect("a net's nodes", [line.split()[1] for line in net.text.split("\n") if line.startswith("node ")], ["core", "floor", "acl", "ttl", "lan", "end", "more"])
    expect("a net's links", [line for line in net.text.split("\n") if line.startswith("link ")], ["link more.0 -> end.0;", "link core.1 -> acl.0;", "link core.0 -> ttl.0;", "link ttl.0 -> lan.0;"])
    expect("a net as text", str(net), net.text)
    with tempfile.TemporaryDirectory() as room:
        expect("a net's files", (net.save(room).read_text(), {it.name for it in Path(room).iterdir()}), (net.text, {"net.sefl", "core.fib", "floor.mac"}))
    for what, call in (("no injection", lambda: Net().text), ("a name that is none", lambda: Net().forwarder("a b")), ("a name with more behind it", lambda: Net().sink("a 1 -> 1 { } node b")), ("code with more behind it", lambda: Net().node("a", code={"in 0": "noop; } in 1 {"})),
                       ("a port that is none", lambda: Net().node("a", code={"on 0": ""})), ("a link that is none", lambda: Net().link("a", "b.0")), ("a prefix that is none", lambda: Net().router("a", [("10.0.0.0/40", 0)])),
                       ("an address that is none", lambda: Net().switch("a", [("02:00", 0)])), ("a rule that is none", lambda: Net().filter("a", "allow all")), ("a style that is none", lambda: Net().filter("a", "", style="egress")),
                       ("a style of a table that is none", lambda: Net().router("a", [], style="tree")), ("a condition that is none", lambda: Net().inject("a.0", where=["TTL"])), ("a question that is none", lambda: Net().ask("reach a.0")),
                       ("a condition with more behind it", lambda: Net().inject("a.0", where=["TTL == 1; where TTL == 2"])), ("a version that is none", lambda: Net(5)), ("an address of a tag that is none", lambda: Net().inject("a.0", tags={"L3": "L2"}))):
        refused(what, expect, call)


def check_run(expect):
    """With something that runs: what a net prints is accepted, its boxes are those that the program prints of the same lists, and canonical texts answer as their
    jobs do."""
    net = made()
    expect("a net is asked", [it.answer for it in symnet.ask(net).answers], ["no", "yes", "yes"])
    expect("a net is compared", (symnet.compare(net, net).answer, symnet.loops(net).complete, symnet.replay(net, symnet.explore(net)).undecided), ("same", True, 0))
    expect("a net's report is whole", symnet.replay(net, symnet.explore(net), records="whole"), symnet.replay(net, symnet.explore(net)))
    try:
        expect("a report without its refuted sides is not whole", symnet.replay(net, symnet.explore(net, pruned="count"), records="whole"), "a refusal")
    except symnet.Refusal as fault:
        expect("a report without its refuted sides is not whole", fault.text.split()[:3], ["symnet:", "not", "confirmed"])
    packets = [path.values for path in symnet.explore(net).paths if path.values is not None]
    walked = symnet.walk_each(net, [*packets, [0], b"x", " ".join(map(str, packets[0]))])
    expect("many packets are walked", [it.text for it in walked[:len(packets)]], [symnet.walk(net, it).text for it in packets])
    expect("packets are refused each by itself", walked[len(packets):-1], [symnet.RefusedPacket("bad packet", 1), symnet.RefusedPacket("bad packet", 4)])
    expect("a packet as text among many", walked[-1].text, walked[0].text)
    expect("no packets", symnet.walk_each(net, []), [])
    expect("a packet of a net", str(symnet.explore(net).paths[0].packet["source"]), "10.2.0.0")
    other = made().router("end2", {"0.0.0.0/0": 0})
    expect("two nets with a table each", symnet.compare(net, other).answer, "same")
    other.files["core.fib"] = "ports 3\n"
    refused("two tables of a name", expect, symnet.compare, net, other)
    for style in ("chain", "grouped"):
        for listed in ((EXAMPLES / "border-filter/border.acl").read_text(), "", "permit any 0.0.0.0/0 0.0.0.0/0 any any\n"):
            text = Net().filter("acl", listed, style).inject("acl.0").text
            expect(f"a list of {len(listed)} bytes, {style}", text[len("symnet 2;\n"):text.index("inject")], symnet.model("acl", listed, style=style))
    expect("code of a list", filter_code([]), 'fail "denied";')
    for name in ("campus/campus", "tunnel/tunnel", "ipv6/ipv6", "leak/leak"):
        text = (EXAMPLES / f"{name}.sefl").read_text()
        files = {it.name: it.read_bytes() for it in (EXAMPLES / name).parent.iterdir() if it.suffix in (".mac", ".fib")}
        expect(f"{name}: its canonical text", symnet.explore(sefl.canonical(text), files=files).text, symnet.explore(text, files=files).text)


def check(expect):
    check_canonical(expect)
    check_spoken(expect)
    check_net(expect)
