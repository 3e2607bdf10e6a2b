"""Tests of the reader for python/test: that it prints nothing which a terminal could read as a command, and that what has a wrong shape gives a message."""

import html
import io
import json
import os
import random
import re
import subprocess
import sys
import tempfile
import time
from pathlib import Path

from symnet import answer_words, answers, engine, inputs, library, picture, program, report, sefl, ways
from symnet.plain import plain, wrapped

TOP = Path(__file__).resolve().parent.parent
sys.path += [str(TOP / "viewer"), str(TOP / "tools")]
import build_unproved  # noqa: E402
import made_files  # noqa: E402
import symnet_report  # noqa: E402

# Each character that may not reach a terminal, by its number, and some beside them that may.
UNSEEN = [*range(0x20), *range(0x7f, 0xa0), 0x61c, 0x200e, 0x200f, *range(0x2028, 0x202f), *range(0x2066, 0x206a), 0xd800, 0xdfff]
SEEN = "a~\u00a0\u00e9\u200d\u2030\u2065\u206a\ud7ff\ue000\U0001f600"
# A title, a colour, a text for the clipboard and a turned direction, each as a control character or in the one character of C1.
ESCAPES = "\x1b]0;title\x07\x1b[31mred\x9b2J\x1b]52;c;aGk=\x07\u202eevil\u2066\x7f\u061c\u200f\u2028"


def ran(*words, given=b"", encoding="utf-8"):
    """The reader on these words, as if it were a program: its status, what it prints, and what it says."""
    kept = sys.stdin, sys.stdout, sys.stderr
    files = [io.TextIOWrapper(io.BytesIO(text), encoding, errors) for text, errors in ((given, "strict"), (b"", "strict"), (b"", "backslashreplace"))]
    sys.stdin, sys.stdout, sys.stderr = files
    try:
        status = report.main([str(it) for it in words])
    finally:
        sys.stdin, sys.stdout, sys.stderr = kept
    for it in files[1:]:
        it.flush()
    return status, files[1].buffer.getvalue(), files[2].buffer.getvalue()


def is_plain(text):
    """Whether a text of bytes has no such character except line ends."""
    return all(plain(line) == line for line in text.decode().split("\n"))


def path(text, decision='"then"', place='"in a.0"', verdict='{"sat":[1]}'):
    """A path with a text wherever one may stand."""
    fields = f'{{"heads":[],"metas":[[{text},{text},[]]],"tags":[[{text},1]]}}'
    return f'{{"decisions":[{decision}],"end":{{"fault":9,"site":1,"text":{text}}},"fields":{fields},"kind":"path","places":[{place}],"verdict":{verdict}}}'


def listed(*records):
    return f'{{"hops":1,"limit":1,"records":[{",".join(records)}],"refuted":0,"state":"partial","symnet":1}}'


# What strangers write: of each its bytes and the files beside it, all of them with escapes.
def forged():
    message = json.dumps(ESCAPES + "\n")
    job = f"symnet 2; node a 1 -> 1 {{ }} inject a.0 {{ field head 0:8; }}\n// {ESCAPES.replace(chr(0x2028), '')}\nask reach in a.0;"
    yield "a report", listed(path(message)), {}
    yield "a report with a job", listed(path(message)), {"job.sefl": job}
    yield "a decision", listed(path('""', decision=message)), {}
    yield "a port", listed(path('""', place=message)), {}
    yield "a cause", listed(path('""', verdict=f'{{"undecided":{{"cause":{message}}}}}')), {}
    yield "a value", listed(path('""', verdict=f'{{"sat":[{message}]}}')), {}
    yield "a comment of a job", '{"answers":[{"answer":"yes","number":0,"values":[1]}],"symnet":1}', {"job.sefl": job}
    yield "an answer that is none", f'{{"answers":[{{"answer":{message}}}],"symnet":1}}', {}
    yield "a kind that is none", f'{{"symnet":1,"records":[{{"kind":{message}}}]}}', {}
    yield "a cause of a visit", f'{{"loops":[],"open":[{{"number":3,"visits":[{{"cause":{message},"place":4,"why":"unknown"}}]}}],"symnet":1}}', {}
    yield "a key that is missing", f'{{"loops":[{{{message}:1}}],"open":[],"symnet":1}}', {}
    yield "no JSON", ESCAPES, {}
    yield "a filter list", '{"rules":[],"symnet":1}', {"list.acl": f"permit {ESCAPES} 0.0.0.0/0 0.0.0.0/0 any any"}
    yield "a job that is none", '{"rules":[],"symnet":1}', {"job.sefl": f"symnet 2; {ESCAPES}"}
    yield "a word of a job", '{"rules":[],"symnet":1}', {"job.sefl": 'symnet 2; node a "\x9b" {'}
    yield "the name of a file", "{}", {f"{ESCAPES.replace('/', '')}.acl": "permit"}


def check_plain(expect):
    expect("characters that are not shown", plain("".join(map(chr, UNSEEN))), "?" * len(UNSEEN))
    expect("characters that are shown", plain(SEEN), SEEN)
    with tempfile.TemporaryDirectory() as room:
        for what, text, files in forged():
            for name, other in files.items():
                Path(room, name).write_text(other)
            status, printed, said = ran("-", *(Path(room, name) for name in files), given=text.encode())
            expect(f"{what}: how it ends", status in (0, 14), True)
            expect(f"{what}: what is printed", is_plain(printed) and is_plain(said), True)
    status, printed, said = ran(f"absent{ESCAPES}.json")
    expect("a file that is not there", (status, is_plain(said), b"absent" in said), (3, True, True))
    answer = listed(path('"caf\\u00e9 \\ud83d"')).encode()
    expect("a terminal that knows no such letter", ran("-", given=answer, encoding="ascii")[0], 0)


# ---------------------------------------------------------------- wrong shapes


# What may stand anywhere in place of what should: of each kind of JSON, and past each bound.
ODD = (None, True, -1, 0, 7, 2**64, 10**45, 1.5, float("inf"), float("nan"), "", "x", "9" * 50, "\ud800", [], [[]], [0], {}, {"fault": 9}, {"a": []}, "then", "in a.0", 9)


def places_of(value, way=()):
    """The way to each part of a value of JSON."""
    yield way
    for key, part in value.items() if isinstance(value, dict) else enumerate(value) if isinstance(value, list) else ():
        yield from places_of(part, (*way, key))


def with_odd(value, way, odd):
    """The value with another one at the end of a way; without the part, where that is no value."""
    if not way:
        return odd
    made = dict(value) if isinstance(value, dict) else list(value)
    if odd is ODD and len(way) == 1:
        del made[way[0]]
    else:
        made[way[0]] = with_odd(value[way[0]], way[1:], odd)
    return made


def written():
    """What the program writes, with the files that it is of: made by hand, and of the examples."""
    ring, listed_ring = ["ring.sefl"], ["ring.json"]
    for text, names in ((made_files.RING_REPORT, ring), (made_files.RING_LOOPS, listed_ring), (made_files.RING_VISITS, ring), (made_files.RULES, ["list.acl"]), (made_files.RULES, []), (made_files.LISTS_DIFFER, ["list.acl"]),
                        (made_files.LISTS_ARE_SAME, []), (made_files.OTHER, []), (made_files.SUMS_REPORT, ["sums.sefl"]), (made_files.SUMS_UNKNOWN, ["sums.sefl", "sums.json"]), (made_files.SPLITS, []), (made_files.WALK_AFTER, []),
                        ((TOP / "examples/ttl.json").read_text(), []), ('{"answer":"unknown","left":[1],"right":[],"symnet":1}', []), ((TOP / "examples/branch-office/office.answers").read_text(), ["office.sefl"])):
        yield json.loads(text), names


def files_named(names):
    texts = {"ring.sefl": made_files.RING, "ring.json": made_files.RING_REPORT, "list.acl": made_files.LIST, "sums.sefl": made_files.SUMS, "sums.json": made_files.SUMS_REPORT,
             "office.sefl": (TOP / "examples/branch-office/office.sefl").read_text(), "choosing.sefl": CHOOSING, "choosing.json": CHOOSING_REPORT,
             "before.sefl": made_files.BEFORE, "after.sefl": made_files.AFTER}
    given = report.Inputs()
    for name in names:
        given.add(name, texts[name].encode())
    return given


def check_shapes(expect):
    """Each part of what the program writes stands aside for other values: what comes of it is words or a message, and nothing else."""
    draw, count = random.Random(7), 0
    for whole, names in written():
        given, parts = files_named(names), list(places_of(whole))
        for way in parts if len(parts) < 60 else draw.sample(parts, 60):
            for odd in (ODD, *ODD):
                if not way and odd is ODD:
                    continue
                text = json.dumps(with_odd(whole, way, odd))
                count += 1
                for with_pruned in (False, True):
                    try:
                        report.shown(text, given, with_pruned)
                    except (report.NotReport, answers.NotAnswer) as error:
                        if len(str(error)) > 300:
                            expect(f"{text[:200]}: a long message", len(str(error)), 300)
                    except Exception as error:  # noqa: BLE001
                        expect(f"{text[:300]} at {way}", repr(error), "a message")
    expect(f"{count} odd values", count > 10000, True)


def check_jobs(expect):
    """Jobs and lists with parts left out, doubled and exchanged: what comes of them is words or a message."""
    draw, written_of = random.Random(11), ((CHOOSING, CHOOSING_REPORT), (made_files.RING, '{"answers":[{"answer":"yes","number":0,"values":[0,17]},{"answer":"no"}],"symnet":1}'), (made_files.SUMS, made_files.SUMS_REPORT), (made_files.LIST, made_files.RULES))
    for count in range(800):
        text, answer = written_of[count % len(written_of)]
        parts = re.findall(r"\s+|\w+|\W", text)
        for _ in range(draw.randrange(1, 6)):
            at, to = draw.randrange(len(parts)), draw.randrange(len(parts))
            parts[at] = draw.choice(("", parts[at] * 2, parts[to], draw.choice(("{", "}", ";", '"', "any", "if", "in", "0x", "9" * 5000, "\x00", "\ud800"))))
        spoiled = "".join(parts)
        try:
            given = report.Inputs(report=report.read_report(made_files.RING_REPORT))
            given.add("a.acl" if text == made_files.LIST else "a.sefl", spoiled.encode(errors="surrogatepass"))
            report.shown(answer, given)
            if answer == CHOOSING_REPORT:
                report.shown(answer, given, record=0)
                sefl.canonical(spoiled)
        except (report.NotReport, answers.NotAnswer, inputs.NotInput):
            pass
        except Exception as error:  # noqa: BLE001
            expect(f"a spoiled file: {spoiled[:400]!r}", repr(error), "a message")


# ---------------------------------------------------------------- words


class Known:
    """What a program would answer: a report, and the walks of packets in each job."""

    def __init__(self, made=None, walks=None):
        self.made, self.given = made, walks or {}

    def report(self, _):
        return None if self.made is None else report.read_report(self.made)

    def walks(self, job, _, is_bound=False):
        return report.read_report(self.given[job]).paths if job in self.given else ()


def lines_of(text, *names, runner=None, **how):
    given = files_named(names)
    given.runner = runner
    return report.shown(text, given, **how).split("\n")


# Two boxes that choose: what a path chooses is told by its decisions alone.
CHOOSING = """symnet 2;
node a 1 -> 2 {
  in 0 {
    for v in "^x" { noop; }
    allocate global mark:16;
    { if head L3+72:8 in {6, 17} { set global mark:16 = any; } else { allocate local set:8; set local set:8 = any; } }
    fork 0, 1;
  }
  out 0 { constrain head L3+72:8 != 1; }
}
node t = fib "t.fib" egress;
node b 1 -> 1 { in 0 { set global mark:16 = any; forward 0; } }
link a.0 -> t.0;
link t.0 -> b.0;
inject a.0 { tag L3 = 112; field head L3+72:8; }
ask reach in b . 0x0;
"""
CHOOSING_WAY = ["in a.0", "out a.0", "in t.0", "out t.0", "in b.0", "out b.0"]
CHOOSING_REPORT = made_files.report([made_files.path(["then", 0, "pass", 0, "pass"], CHOOSING_WAY, "delivered", [6, 1, 2]), made_files.path(["else", 1], CHOOSING_WAY[:1] + ["out a.1"], "delivered", [1, 3])])


def check_records(expect):
    """A summary, a paragraph for each record, and one record with all that it has."""
    shown = lines_of(made_files.RING_REPORT, "ring.sefl")
    expect("a summary", shown[:5], ["3 paths; 1 refuted side (--pruned shows them)", "  1 cut at in a.0: record 0", "  1 failed at in c.0, item 11: ttl: record 2", "  1 cut at in c.0: record 3", ""])
    expect("a paragraph", shown[5:10], ["record 0: cut at in a.0", "  way: a > b > a > b > a", "  decisions: then, then", "  packet: TTL 0, protocol UDP", ""])
    expect("refuted sides", lines_of(made_files.RING_REPORT, with_pruned=True)[10:13], ["record 1: refuted, no packet comes here", "  decisions: then, else", ""])
    one = lines_of(CHOOSING_REPORT, "choosing.sefl", record=0)
    expect("one record: its decisions", one[one.index("  decisions") + 1:][:5], ["    then  if protocol in {TCP, UDP}", "    0     fork 0, 1", "    pass  constrain protocol != ICMP", "    0     the table of t", "    pass  the table of t"])
    expect("choices by what they set", [" ".join(line.split()[:4]) for line in one[-2:]], ["mark 1", "mark (2) 2"])
    expect("another choice", lines_of(CHOOSING_REPORT, "choosing.sefl")[-1], "  packet: protocol ICMP, set 3")
    twice = CHOOSING.replace("set global mark:16 = any; } else", "set head L3+72:8 = any; } else")
    given = report.Inputs(jobs=[("twice.sefl", inputs.read_job(twice))])
    expect("a choice of an unknown field", report.shown(CHOOSING_REPORT, given).split("\n")[7], "  packet: protocol TCP, protocol (2) ICMP, mark 2")
    expect("a way that is not known", lines_of('{"answer":"other","number":0,"side":"left","symnet":1,"values":[6,1,2]}', "choosing.sefl")[2], "  choice 0  1")
    carried = lines_of((TOP / "examples/branch-office/office.json").read_text(), "office.sefl", record=3)
    expect("what a record carries", [" ".join(line.split()) for line in carried[-9:-6]], ["TTL 63 head L3+64:8", "protocol {protocol} = UDP head L3+72:8", "source address {destination address} = 0.0.0.0 head L3+96:32"])
    lowered = lines_of((TOP / "examples/ttl.json").read_text().replace('[8,0,[[0,1]]]', '[8,255,[[0,255]]]'), record=1)
    expect("a sum", " ".join(lowered[-1].split()), "TTL - {symbol 0} - 1 = 253 head L3+64:8")
    for text, number in ((made_files.RING_REPORT, 4), (made_files.RULES, 0)):
        try:
            lines_of(text, record=number)
            expect("a record that is not there", "words", "a message")
        except report.NotReport:
            pass
    ends = lines_of(made_files.report([made_files.path([], [f"in r.{number}"], "stopped", []) for number in range(100)]))
    expect("many ends", ends[:42][1::20] + ends[41:43], ["  1 stopped at in r.0: record 0", "  1 stopped at in r.20: record 20", "  and 60 other ends", "  and 60 other ends", ""])
    wide = made_files.report([made_files.path(["else"] * 5000, ["in r.0"], "stopped", []), *[made_files.path([], ["in r.0"], "stopped", [])] * 50])
    expect("a long record pads no other", len("".join(lines_of(wide))) < 10000, True)
    job = CHOOSING.replace("inject a.0 { tag L3 = 112;", f"inject a.0 {{ tag L3 = 112; field global {'long' * 500}:8;")
    given = report.Inputs(jobs=[("job.sefl", inputs.read_job(job))])
    long = report.shown(made_files.report([made_files.path(["else", 1], CHOOSING_WAY[:1] + ["out a.1"], "delivered", [1, 2, 3])]), given, record=0).split("\n")
    expect("a long name pads no other", [" ".join(line.split()) for line in long if len(line) < 100 and line.startswith("    ")][-2:], ["protocol 2 head L3+72:8", "set 3"])


def check_lists(expect):
    """Of a filter list first how many rules are hidden, then a paragraph for each rule."""
    given = report.Inputs()
    given.add("list.acl", b"permit any 0.0.0.0/0 0.0.0.0/0 any any\npermit 6 10.0.0.0/8 0.0.0.0/0 any 80\ndeny any 0.0.0.0/0 0.0.0.0/0 any any\n")
    answer = made_files.written({"rules": [{"rule": "decides", "values": [6, 2**24, 2, 1, 80]}, {"cover": [["inside", 0]], "rule": "hidden"}, {"cover": [["inside", 0]], "rule": "hidden"}], "symnet": 1})
    lines = report.shown(answer, given).split("\n")
    expect("the rules of a list", lines[:3], ["3 rules, 2 hidden: 1, 2", "rule 0, line 1: permit any 0.0.0.0/0 0.0.0.0/0 any any", "  decides protocol TCP, from 1.0.0.0 port 1 to 0.0.0.2 port 80"])
    expect("a hidden rule", lines[-3:], ["rule 2, line 3: deny any 0.0.0.0/0 0.0.0.0/0 any any", "  hidden by rule 0, DANGEROUS: it denies, and 0 permits", "    rule 0 has all of its packets"])
    many = made_files.written({"rules": [{"rule": "decides", "values": [0] * 5}, *[{"cover": [["inside", 0]], "rule": "hidden"}] * 100], "symnet": 1})
    expect("many hidden rules", report.shown(many, report.Inputs()).split("\n")[0], f"101 rules, 100 hidden: {', '.join(map(str, range(1, 21)))} and 80 more")


def check_cuts(expect):
    """Of a comparison how many paths are cut, where that was counted."""
    def cut(counts):
        return lines_of('{"answer":"same","cut":%s,"symnet":1}' % counts)
    expect("nothing is said of cuts", lines_of('{"answer":"same","symnet":1}'), ["same: each packet of the injection is delivered at the same ports with the same header, within the bound of hops"])
    expect("no path is cut", cut("[0,0]"), ["same: each packet of the injection is delivered at the same ports with the same header", "  no path is cut at the bound of hops, so it holds of walks of any length"])
    expect("paths are cut", cut("[1,20]")[1:], ["  1 path of the first network and 20 paths of the second are cut at the bound of hops: raise --hops to look further"])
    for counts in ("[1]", "[1,2,3]", "[1,-1]", '"1"'):
        try:
            expect(f"cuts that are none: {counts}", answers.read_compared({"answer": "same", "cut": json.loads(counts), "symnet": 1}), "a message")
        except answers.NotAnswer:
            pass


def check_ways(expect):
    """The way of an answer, the boxes of a loop, and where a packet leaves."""
    answer = made_files.written({"answers": [{"answer": "yes", "number": 0, "values": [6, 1, 2]}], "symnet": 1})
    wanted = ["  yes, shown by record 0 with the packet", "    protocol  TCP  head L3+72:8  6", "    mark      1", "    mark (2)  2", "  the way: a > t > b"]
    expect("the way by the report", lines_of(answer, "choosing.sefl", "choosing.json")[-5:], wanted)
    walks = made_files.written({"symnet": 1, "walks": [{key: record[key] for key in ("decisions", "end", "fields", "places")} for record in json.loads(CHOOSING_REPORT)["records"]]})
    expect("the way by a walk", lines_of(answer, "choosing.sefl", runner=Known(walks={"choosing.sefl": walks}))[-5:], wanted)
    twice = walks.replace('"walks":[', f'"walks":[{json.dumps(json.loads(walks)["walks"][0])},')
    expect("the way by two walks", lines_of(answer, "choosing.sefl", runner=Known(walks={"choosing.sefl": twice}))[-1], "  the way of one of 2 walks: a > t > b")
    expect("no way", lines_of(answer, "choosing.sefl", runner=Known())[-1], "    choice 1  2")
    expect("ports of questions", [answer_words.place_of(it) for it in ("reach in b . 0x0", "reach out b.1 with global in:8 in {1..2}", "visible head L3+72:8 at in a.0", "invariant global in:8 at out b.2", "reach", f"reach in b.{'9' * 5000}")],
           ["in b.0", "out b.1", "in a.0", "out b.2", "", ""])
    for what, runner, names in (("a report", None, ["ring.json"]), ("a job", Known(made_files.RING_REPORT), [])):
        shown = lines_of(made_files.RING_LOOPS, "ring.sefl", *names, runner=runner)
        expect(f"a loop by {what}", shown[:3], ["record 0: packets go a, b, a .. for ever", f"  one round: {' > '.join(made_files.ROUND)}", "  such a packet: TTL 0, protocol UDP"])
    routed = made_files.RING.replace("L3+72:8", "L3+128:32")
    given = report.Inputs(jobs=[("ring.sefl", inputs.read_job(routed))], report=report.read_report(made_files.RING_REPORT.replace("[0,17]", "[0,167772160]")))
    expect("a loop of an address", report.shown(made_files.RING_LOOPS, given).split("\n")[0], "record 0: packets for 10.0.0.0 go a, b, a .. for ever")
    for made in (None, CHOOSING_REPORT, made_files.RING_REPORT.replace('"in a.0"],"verdict"', '"in b.0"],"verdict"')):
        shown = lines_of(made_files.RING_LOOPS, "ring.sefl", runner=Known(made))
        expect("a loop of other bounds", (shown[0], shown[-1].split(" is ")[0]), ("record 0: goes round for ever, from place 4 on", "the boxes of a round are named where the report of explore"))
    expect("a round in a round", answer_words.one_round(["a", "b", "a", "b", "a"]), ["a", "b", "a"])
    expect("a round that is none", answer_words.one_round(["a", "b", "a", "c", "a"]), ["a", "b", "a", "c", "a"])
    both = Known(walks={"before.sefl": made_files.WALK_BEFORE, "after.sefl": made_files.WALK_AFTER})
    expect("where it leaves", lines_of(made_files.DIFFERENCE, "before.sefl", "after.sefl", runner=both)[3:], ["  first network: delivered at out host.0 (edge > filter > host)", "  second network: failed at in filter.0, item 9: no ssh (edge > filter)"])
    other = made_files.WALK_BEFORE.replace("[16,22]", "[16,23]").replace("[[240,", "[[0,[[8]]],[240,")
    both = Known(walks={"before.sefl": made_files.WALK_BEFORE, "after.sefl": other})
    expect("what it has there", lines_of(made_files.DIFFERENCE, "before.sefl", "after.sefl", runner=both)[5:],
           ["  at out host.0 bit 0 is not there in the first network, and not set in the second", "  at out host.0 destination port is 22 in the first network, and 23 in the second"])


def check_sizes(expect):
    """What a stranger's job and report take: no more than their sizes."""
    noops, many = "noop; " * 20000, 2000
    job = f'symnet 2; node a 1 -> 1 {{ in 0 {{ {noops} set global m:8 = any; forward 0; }} }} inject a.0 {{ field global m:8 {"= any" * 20000}; }}'
    given = report.Inputs(jobs=[("job", inputs.read_job(job))])
    began = time.process_time()
    report.shown(made_files.report([made_files.path([], ["in a.0"], "stopped", [1])] * many), given)
    expect("a long code, many paths: seconds", time.process_time() - began < 5, True)
    deep = inputs.read_job("symnet 2; node a 1 -> 1 { in 0 { " + "{" * 100000 + "}" * 100000 + " } } inject a.0 { }")
    expect("a deep code", ways.follow(deep, ["then"], ["in a.0"]).decided, ())


def check_widths(expect):
    """Lines are as wide as they may be."""
    for text in ("a b", "  " + "word " * 60, "      " + "x" * 300, ""):
        for width in (None, 1, 40, 72):
            cut = wrapped(text, width)
            expect(f"{text[:20]!r} in {width}: its words", " ".join(cut).split(), text.split())
            expect(f"{text[:20]!r} in {width}: its lines", width is None or all(len(line) <= max(width, 26) or "xx" in line for line in cut), True)
    with tempfile.TemporaryDirectory() as room:
        place = Path(room, "ring.json")
        place.write_text(made_files.RING_REPORT)
        for words in (["--narrow"], ["--record", "3", "--narrow"], ["--pruned"]):
            status, printed, said = ran(place, *words)
            expect(f"the reader with {words}", (status, said, max(map(len, printed.decode().split("\n"))) <= 72 or words == ["--pruned"]), (0, b"", True))
        for words in ([], ["--record"], ["--record", "x"], ["--record", "-1"], ["--hops", "9" * 50], ["--nothing"], ["\x1b[31m", "--\x1b"], ["a", "-"]):
            status, printed, said = ran(*words)
            expect(f"the reader with {words}", (status, printed, is_plain(said), said.startswith(b"usage: symnet_report.py WRITTEN [FILE ..]")), (2, b"", True, True))


def check_acts(expect):
    """One rule permits, and several permit."""
    rules = [inputs.read_list(f"{first} any 0.0.0.0/1 0.0.0.0/0 any any\n{second} any 128.0.0.0/1 0.0.0.0/0 any any\n{third} any 1.0.0.0/8 0.0.0.0/0 any any\n") for first, second, third in (("permit", "deny", "permit"), ("deny", "deny", "deny"))]
    one, two = [["inside", 0]], [["cut", 1, 2**24 + 9], ["inside", 0], ["inside", 1]]
    for cover, listed_rules, words in ((one, rules[0], "by rule 0, which permits as it does"), (one, rules[1], "by rule 0, which denies as it does"), (two, rules[1], "by rules 0, 1, which deny as it does")):
        fate = answers.Fate(None, tuple(answers.Part(step[1], listed_rules[2].ranges) for step in cover if step[0] == "inside"))
        expect(words, answer_words._hidden_words(2, fate, listed_rules), words)


PIPED = re.compile(r" {4}(?:\S*/)?symnet (.*?) \| (?:\S*/)?symnet_report\.py (.*)")


def documented():
    """What the documents show of the reader: the words of the program, those of the reader, and the lines below them."""
    for page in [TOP / "README.md", *sorted((TOP / "docs").glob("*.md")), *sorted((TOP / "examples").glob("*/README.md"))]:
        lines = page.read_text().split("\n")
        for at, line in enumerate(lines):
            found = PIPED.fullmatch(line)
            if found:
                end = next(below for below in range(at + 1, len(lines) + 1) if below == len(lines) or (lines[below] and not lines[below].startswith("    ")) or "symnet " in lines[below])
                # results of tests are not written by a test
                yield page, found[1].split(), re.sub(r"--junit \S+", "", found[2]).split(), [it[4:] for it in lines[at + 1:end] if it.strip() not in ("", "..")]


def check_documents(expect):
    """What the documents show of the reader is what it prints."""
    count = 0
    for page, words, others, wanted in documented():
        names = [it for it in [*words, *others] if "." in it]
        folder = next((it for it in sorted((TOP / "examples").iterdir()) if all((it / name).is_file() for name in names)), None)
        if folder is None or not wanted:
            continue
        os.chdir(folder)
        printed = iter(ran(*others, given=engine.on_disk([it.encode() for it in words]).output)[1].decode().split("\n"))
        missing = [line for line in wanted if line not in printed]
        expect(f"{page.relative_to(TOP)}: {' '.join(words)}, in words", missing, [])
        count += 1
    expect("documents that show the reader", count >= 3, True)


def check_run(expect):
    """With something that runs: what the reader prints of the examples, without a report."""
    kept = os.getcwd()
    try:
        for folder, words, files, part in (
                ("branch-office", "ask office.sefl", ["office.sefl"], "  the way: ttl > routes > nat > filter > server > filter > nat > ttl > host\n"), ("routing-loop", "loops loop.sefl", ["loop.sefl"], "record 8: packets for 10.0.0.0 go east, west, east .. for ever\n"),
                ("filter-change", "compare before.sefl dropped.sefl", ["before.sefl", "dropped.sefl"], "  first network: failed at in filter.0, item 17: partner (filter)\n  second network: delivered at out filter.0 (filter)\n"),
                ("route-summary", "compare before.sefl wide.sefl", ["before.sefl", "wide.sefl"], "  first network: delivered at out core.0 (ttl > core)\n  second network: delivered at out core.1 (ttl > core)\n")):
            os.chdir(TOP / "examples" / folder)
            given = engine.on_disk([it.encode() for it in words.split()]).output
            status, printed, _ = ran("-", *files, given=given)
            expect(f"{words}, in words", (status, part in printed.decode()), (0, True))
            expect(f"{words}, in words, without a run", part in ran("-", *files, "--only-read", given=given)[1].decode(), False)
        check_documents(expect)
    finally:
        os.chdir(kept)


def check_notebook(expect):
    """What a notebook is given: a frame that runs scripts alone, in which no text ends a script."""
    hostile = "// <!--<script></script><script>evil()</script>\n"
    shown = report.Report((), shown=picture.Texts({"report": b"{}", "job": hostile.encode()}, {}))._repr_html_()
    page = html.unescape(shown.split('srcdoc="')[1].split('"')[0])
    given = page[page.index("<script>showOnly("):]
    expect("a notebook's frame", (shown.startswith('<iframe sandbox="allow-scripts" srcdoc="'), "evil()<" in page, given.index("</script>") > given.index("\\n\"]")), (True, False, True))
    expect("a notebook's texts", json.loads(given[len("<script>showOnly(..."):given.index(");</script>")]), [[["report", "{}"], ["job", hostile]], []])
    kept, picture.PLACES = picture.PLACES, (Path(__file__),)
    expect("a page that is none", report.Report((), shown=picture.Texts({}, {}))._repr_html_(), None)
    picture.PLACES = kept


def check_program(expect):
    """The reader as a program."""
    run = subprocess.run([sys.executable, str(TOP / "tools/symnet_report.py"), "-"], input=b'{"answer":"same","symnet":1}', capture_output=True, timeout=60, check=False)
    expect("the reader is asked for help", (ran("--help")[0], ran("-h")[1].startswith(b"Reads what symnet writes")), (0, True))
    expect("the reader as a program", (run.returncode, run.stdout.split(b":")[0], run.stderr), (0, b"same", b""))
    # what ./symnet compiled is taken where nothing else is built or named
    with tempfile.TemporaryDirectory() as room:
        kept = {name: os.environ.pop(name, None) for name in ("XDG_CACHE_HOME", "SYMNET", "SYMNET_LIBRARY")}
        os.environ["XDG_CACHE_HOME"] = room
        place = build_unproved.place(build_unproved.cache(), build_unproved.sum_of(TOP))
        try:
            expect("no program that was compiled", symnet_report.compiled(), None)
            place.parent.mkdir(parents=True)
            place.write_text("")
            expect("a program that was compiled", symnet_report.compiled(), place)
            is_built = library.place() is not None or program.place() is not None
            for words, wanted in ((["-"], None), (["-", "a.sefl", "--only-read"], None), (["-", "a.sefl"], None if is_built else str(place))):
                os.environ.pop("SYMNET", None)
                symnet_report.name_program(words)
                expect(f"{words}: what runs", os.environ.get("SYMNET"), wanted)
        finally:
            for name, value in kept.items():
                os.environ.pop(name, None)
                os.environ.update({} if value is None else {name: value})
    for what, text, part in (("nested too deep", "[" * 200000, "nested too deep"), ("a huge number", '{"symnet":1,"hops":%s}' % ("9" * 100000), "no report: it has a number with more digits"), ("no UTF-8", b"{\xff", "its byte 1 begins no character")):
        try:
            report.read_report(text)
            expect(what, "a report", "a message")
        except report.NotReport as error:
            expect(f"{what}: {error}", part in str(error) or what == "a huge number" and str(error).startswith("no report: "), True)


def check(expect):
    check_plain(expect)
    check_shapes(expect)
    check_jobs(expect)
    check_records(expect)
    check_lists(expect)
    check_cuts(expect)
    check_ways(expect)
    check_sizes(expect)
    check_widths(expect)
    check_acts(expect)
    check_notebook(expect)
    check_program(expect)
