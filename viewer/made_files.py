"""Files that are written by hand for viewer/test: what symnet writes of small networks and filter lists, and what is none of it."""

import json


def written(value):
    """The JSON text as symnet writes it."""
    return json.dumps(value, separators=(",", ":"), sort_keys=True) + "\n"


def path(decisions, places, end, values, heads=(), tags=()):
    fields = {"heads": [list(head) for head in heads], "metas": [], "tags": [list(tag) for tag in tags]}
    return {"decisions": decisions, "end": end, "fields": fields, "kind": "path", "places": places, "verdict": {"sat": values}}


def report(records, hops=16, **bound):
    return written({**bound, "hops": hops, "limit": 10000, "records": records, "refuted": 0, "state": "done", "symnet": 1})


# A ring of a and b, where UDP goes round for ever; c sends to itself, and takes one from the TTL each time.
RING = """symnet 2;
node a 1 -> 1 { in 0 { forward 0; } }
node b 1 -> 2 { in 0 { if head L3+72:8 == 17 { forward 0; } else { forward 1; } } }
node c 1 -> 1 {
  in 0 {
    if head L3+64:8 <= 1 { fail "ttl"; } else { }
    set head L3+64:8 = head L3+64:8 - 1;
    forward 0;
  }
}
link a.0 -> b.0;
link b.0 -> a.0;
link b.1 -> c.0;
link c.0 -> c.0;
inject a.0 { tag L3 = 112; field head L3+64:8; field head L3+72:8; }
// is there an ask ; in this comment?
ask reach in c.0 with head L3+72:8 in {1, 6..6};
ask reach in b.0;
"""
ROUND = ["in a.0", "out a.0", "in b.0", "out b.0", "in a.0"]
RING_REPORT = report([
    path(["then", "then"], ROUND + ROUND[1:], "cut", [0, 17]),
    {"before": {"sat": [0, 17]}, "decisions": ["then", "else"], "kind": "pruned", "refutation": [["empty", 1, [0, 1]]]},
    path(["else", "then"], ["in a.0", "out a.0", "in b.0", "out b.1", "in c.0"], {"fault": 9, "site": 11, "text": "ttl"}, [0, 0]),
    path(["else", "else", "else"], ["in a.0", "out a.0", "in b.0", "out b.1", "in c.0", "out c.0", "in c.0", "out c.0", "in c.0"], "cut", [3, 0]),
], hops=4)
RING_LOOPS = written({"loops": [{"first": 4, "number": 0}], "open": [3], "symnet": 1})
RING_VISITS = written({"loops": [{"first": 4, "number": 0}], "open": [{"number": 3, "visits": [
    {"place": 4, "values": [3, 0], "why": "cell"}, {"place": 6, "why": "layout"}]}], "symnet": 1})

# Two rules that decide and one that is hidden by one of them; then halves of all addresses, which hide what is behind them.
LIST = ("# a border\n"
        "permit 6 10.0.0.0/8 0.0.0.0/0 any 80   # the web\n"
        "\n"
        "deny\tany 10.0.0.9/8 0.0.0.0/0 any any\r\n"
        "permit 17 10.1.0.0/16 0.0.0.0/0 any 53\n"
        "permit any 0.0.0.0/1 0.0.0.0/0 any any\n"
        "permit any 128.0.0.0/1 0.0.0.0/0 any any\n"
        "deny any 0.0.0.0/0 192.0.2.0/24 1024-65535 any")
DECIDING = [{"rule": "decides", "values": values} for values in (
    [6, 0x0A000000, 0, 0, 80], [0, 0x0A000000, 0, 0, 0], [0, 0, 0, 0, 0], [17, 0x80000000, 0, 0, 0])]
BY_ONE = {"cover": [["inside", 1]], "rule": "hidden"}
BY_TWO = {"cover": [["cut", 1, 0x80000000], ["inside", 3], ["inside", 4]], "rule": "hidden"}
RULES = written({"rules": [DECIDING[0], DECIDING[1], BY_ONE, DECIDING[2], DECIDING[3], BY_TWO], "symnet": 1})

# Of that list and of one rule that permits all: what becomes of a packet in each; and of two lists that permit the same.
LISTS_DIFFER = written({"answer": "other", "left": {"action": "deny", "rule": 1}, "right": {"action": "permit", "rule": 0}, "symnet": 1, "values": DECIDING[1]["values"]})
LISTS_ARE_SAME = written({"answer": "same", "covers": [{"cover": [["right", 0]], "left": 2, "ranges": [[0, 255], [0, 9], [0, 9], [0, 9], [0, 9]], "right": 1}], "symnet": 1})

# Of the job of examples/branch-office: its six unknown fields, and a choice.
OTHER = written({"answer": "other", "number": 3, "side": "left", "symnet": 1, "values": [2, 17, 167837696, 134744072, 0, 53, 1024]})

# A box with a test of two sums behind one of one field, and a `where`; and a report with a path for each cause why it may be undecided.
SUMS = """symnet 2;
node r 1 -> 1 {
  in 0 {
    if head L3+64:8 <= 1 { fail "ttl"; } else { }
    if head L4+0:16 + head L4+16:16 == 7 { forward 0; } else { }
  }
}
inject r.0 {
  tag L3 = 112; tag L4 = 272;
  field head L3+64:8; field head L4+0:16; field head L4+16:16;
  where head L4+0:16 - head L4+16:16 in {1..9};
}
ask reach out r.0;
"""


def undecided(decisions, places, end, why):
    return {**path(decisions, places, end, []), "verdict": {"undecided": why}}


SUMS_RECORDS = [
    undecided(["then"], ["in r.0"], {"fault": 9, "site": 3, "text": "ttl"}, {"cause": "cases", "count": 2**64 - 1}),
    undecided(["else", "then"], ["in r.0", "out r.0"], "delivered", {"cause": "outside", "pick": 2, "values": [2, 0, 0]}),
    undecided(["else", "else"], ["in r.0"], "stopped", {"cause": "outside", "pick": 0, "values": [2, 0, 0]}),
    undecided(["else"], ["in r.0"], "stopped", {"cause": "coupled", "count": 70}),
    path(["else"], ["in r.0"], "stopped", [2, 1, 0]),
]
SUMS_REPORT = report(SUMS_RECORDS)
# The same with another bound on choices of cases, and a path more that has too many.
SUMS_BOUND = report([*SUMS_RECORDS, SUMS_RECORDS[0]], cases=1000000)
SUMS_UNKNOWN = written({"answers": [{"answer": "unknown", "numbers": [0, 1, 4]}], "symnet": 1})

# A refuted side whose steps split a test and a member of another one.
SPLITS = report([{"before": None, "decisions": [], "kind": "pruned", "refutation": [["split", 2], ["split", 0, [1, 0]], ["cycle", [0, 1]]]}])

# A net before and after a change, a packet that shows the difference, and what becomes of it in each.
BEFORE = """symnet 2;
node edge 1 -> 2 { in 0 { if head L3+128:32 in {167772160..184549375} { forward 0; } else { forward 1; } } }
node filter 1 -> 1 { in 0 { forward 0; } }
node host 1 -> 1 { in 0 { forward 0; } }
link edge.0 -> filter.0;
link filter.0 -> host.0;
inject edge.0 { tag L3 = 112; tag L4 = 272; field head L3+128:32; field head L4+16:16; }
"""
AFTER = BEFORE.replace("node filter 1 -> 1 { in 0 {", 'node filter 1 -> 1 { in 0 { if head L4+16:16 == 22 { fail "no ssh"; } else { }')
WAY_BEFORE = ["in edge.0", "out edge.0", "in filter.0", "out filter.0", "in host.0", "out host.0"]


def one_walk(decisions, places, end):
    fields = {"heads": [[240, [[32, 167772160]]], [288, [[16, 22]]]], "metas": [], "tags": [["L3", 112], ["L4", 272]]}
    return written({"symnet": 1, "walks": [{"decisions": decisions, "end": end, "fields": fields, "places": places}]})


WALK_BEFORE = one_walk(["then"], WAY_BEFORE, "delivered")
WALK_AFTER = one_walk(["then", "then"], WAY_BEFORE[:3], {"fault": 9, "site": 9, "text": "no ssh"})
DIFFERENCE = written({"answer": "other", "number": 0, "side": "left", "symnet": 1, "values": [167772160, 22]})

# Addresses of IPv6 with runs of zeros in all places.
IP6 = [0, 1, 0x20010DB8000100000000000000000000, 0x00010000000000020000000000000003, 0x00010000000000020003000400050000, 2**128 - 1, 0x00010002000300040005000600070008]


def all_positions(positions, more):
    """A report of one path that carries a cell of each position, and the cells (tag, offset, width, value) behind further addresses of their tags."""
    bases = {"L2": 0, "L3": 4096, "L4": 8192}
    tags = [[tag, base] for tag, base in bases.items()]
    cells = [(bases[tag] + offset, width, (1 << width) * 2 // 3) for tag, offset, width in positions]
    for number, (tag, offset, width, value) in enumerate(more):
        base = 16384 + 1024 * number
        tags.append([tag, base])
        cells.append((base + offset, width, value))
    # A place that is an address's with another width is no position.
    cells.append((bases["L3"] + 96, 16, 7))
    heads = [[address, [[width, value if value < 2**64 else str(value), []]]] for address, width, value in cells]
    return report([path([], ["in r.0"], "stopped", [], heads, tags)])


# Files that are refused by page and reader, each with a part of what is said of it.
BAD_ANSWERS = {
    "cut.rules": ('{"rules":[{"rule":"decides","val', "no JSON"),
    "words.rules": ("rules", "no JSON"),
    "no-list.rules": ('{"rules":7,"symnet":1}', "list"),
    "version.rules": ('{"rules":[],"symnet":2}', "no report"),
    "fate.rules": (written({"rules": [DECIDING[0], {"rule": "lost"}], "symnet": 1}), "rule 1"),
    "number.rules": (written({"rules": [7], "symnet": 1}), "rule 0"),
    "four.rules": (written({"rules": [{"rule": "decides", "values": [6, 0, 0, 0]}], "symnet": 1}), "rule 0"),
    "protocol.rules": (written({"rules": [{"rule": "decides", "values": [256, 0, 0, 0, 0]}], "symnet": 1}), "256 is no protocol"),
    "port.rules": (written({"rules": [{"rule": "decides", "values": [6, 0, 0, 65536, 0]}], "symnet": 1}), "65536 is no source port"),
    "address.rules": (written({"rules": [{"rule": "decides", "values": [6, 0, 2**32, 0, 0]}], "symnet": 1}), "4294967296 is no destination address"),
    "negative.rules": (written({"rules": [{"rule": "decides", "values": [-1, 0, 0, 0, 0]}], "symnet": 1}), "rule 0"),
    "later.rules": (written({"rules": [DECIDING[0], {"cover": [["inside", 1]], "rule": "hidden"}], "symnet": 1}), "rule 1, which is no earlier one"),
    "short.rules": (written({"rules": [DECIDING[0], {"cover": [["cut", 1, 9], ["inside", 0]], "rule": "hidden"}], "symnet": 1}), "ends too soon"),
    "empty.rules": (written({"rules": [DECIDING[0], {"cover": [], "rule": "hidden"}], "symnet": 1}), "ends too soon"),
    "long.rules": (written({"rules": [DECIDING[0], {"cover": [["inside", 0], ["inside", 0]], "rule": "hidden"}], "symnet": 1}), "behind its end"),
    "sixth.rules": (written({"rules": [DECIDING[0], {"cover": [["cut", 5, 1]], "rule": "hidden"}], "symnet": 1}), "neither inside nor cut"),
    "at-zero.rules": (written({"rules": [DECIDING[0], {"cover": [["cut", 0, 0]], "rule": "hidden"}], "symnet": 1}), "cuts the protocol at 0"),
    "past.rules": (written({"rules": [DECIDING[0], {"cover": [["cut", 3, 65536]], "rule": "hidden"}], "symnet": 1}), "cuts the source port at 65536"),
    "step.rules": (written({"rules": [DECIDING[0], {"cover": [7], "rule": "hidden"}], "symnet": 1}), "rule 1"),
    "loops.json": ('{"loops":[{"first":1}],"open":[],"symnet":1}', "answer of loops"),
    "open.json": ('{"loops":[],"open":["x"],"symnet":1}', "answer of loops"),
    "visits.json": ('{"loops":[],"open":[{"number":3,"visits":[{"place":4,"why":"mood"}]}],"symnet":1}', "answer of loops"),
    "no-open.json": ('{"loops":[],"symnet":1}', "answer of loops"),
    "compared.json": ('{"answer":"maybe","symnet":1}', "answer of compare"),
    "side.json": ('{"answer":"other","number":1,"side":"up","symnet":1,"values":[]}', "answer of compare"),
    "no-values.json": ('{"answer":"other","number":1,"side":"left","symnet":1}', "answer of compare"),
    "asked.json": ('{"answers":[{"answer":"yes"},{"answer":"perhaps"}],"symnet":1}', "answer 1"),
    "no-number.json": ('{"answers":[{"answer":"unknown"}],"symnet":1}', "answer 0"),
    "values.json": ('{"answers":[{"answer":"no","number":1,"values":[1,"x"]}],"symnet":1}', "answer 0"),
}

BAD_LISTS = {
    "action.acl": ("allow any 0.0.0.0/0 0.0.0.0/0 any any\n", "line 1 of the filter list is no rule"),
    "five.acl": ("permit any 0.0.0.0/0 0.0.0.0/0 any\n", "line 1 of the filter list is no rule"),
    "seven.acl": ("permit any 0.0.0.0/0 0.0.0.0/0 any any any\n", "line 1 of the filter list is no rule"),
    "protocol.acl": ("# first\npermit 256 0.0.0.0/0 0.0.0.0/0 any any\n", "line 2 of the filter list is no rule: '256' is no protocol"),
    "zero.acl": ("permit 06 0.0.0.0/0 0.0.0.0/0 any any\n", "'06' is no protocol"),
    "length.acl": ("permit 6 0.0.0.0/33 0.0.0.0/0 any any\n", "'0.0.0.0/33' is no source address"),
    "length-zero.acl": ("permit 6 0.0.0.0/08 0.0.0.0/0 any any\n", "'0.0.0.0/08' is no source address"),
    "part.acl": ("permit 6 0.0.0.0/0 0.0.256.0/8 any any\n", "'0.0.256.0/8' is no destination address"),
    "any.acl": ("permit 6 any 0.0.0.0/0 any any\n", "'any' is no source address"),
    "reversed.acl": ("permit 6 0.0.0.0/0 0.0.0.0/0 any any\n\npermit 6 0.0.0.0/0 0.0.0.0/0 any 9-5\n", "line 3 of the filter list is no rule: '9-5' is no destination port"),
    "port.acl": ("permit 6 0.0.0.0/0 0.0.0.0/0 65536 any\n", "'65536' is no source port"),
    "open-port.acl": ("permit 6 0.0.0.0/0 0.0.0.0/0 1- any\n", "'1-' is no source port"),
    "ascii.acl": ("permit 6 0.0.0.0/0 0.0.0.0/0 any any # caf\u00e9\n", "it is not ASCII"),
    "limit.acl": ("permit 6 0.0.0.0/0 0.0.0.0/0 any any\n" * 1025, "line 1025 of the filter list is past the limit"),
}

# Answers that are good alone, and are of other files than those given with them.
MISFITS = [
    ("rules of another list", "few.rules", written({"rules": [DECIDING[0]], "symnet": 1}), ["list.acl"], "the answer has 1 rules, and the filter list 6"),
    ("a packet of another list", "packet.rules", RULES.replace("[6,167772160,0,0,80]", "[6,167772160,0,0,81]"), ["list.acl"], "of another filter list"),
    ("a verdict on another list", "verdict.rules", LISTS_DIFFER.replace('"rule":1', '"rule":2'), ["list.acl"], "of another filter list"),
    ("a cover of another list", "cover.rules", RULES.replace('[["inside",1]]', '[["inside",0]]'), ["list.acl"], "of another filter list"),
    ("a record that is not cut", "other.loops.json", '{"loops":[{"first":0,"number":2}],"open":[],"symnet":1}', ["ring.json"], "record 2 of the report is no path that is cut"),
    ("a record past the last", "past.loops.json", '{"loops":[],"open":[12],"symnet":1}', ["ring.json"], "record 12 of the report is no path that is cut"),
    ("a place where no round begins", "place.loops.json", '{"loops":[{"first":1,"number":0}],"open":[],"symnet":1}', ["ring.json"], "at its place 1"),
    ("the last place itself", "last.loops.json", '{"loops":[{"first":8,"number":0}],"open":[],"symnet":1}', ["ring.json"], "at its place 8"),
    ("answers of another job", "asks.json", '{"answers":[{"answer":"no"}],"symnet":1}', ["ring.sefl"], "the job has 2 questions, and the answer 1"),
    ("a packet of another job", "short.json", '{"answer":"other","number":1,"side":"right","symnet":1,"values":[2]}', ["ring.sefl"], "the job has 2 unknown fields"),
]
