"""Tests of where things stand on the page, for viewer/test: the picture of a network, its ports, links and folds, zoom and pan; the names of paths; a phone's width;
files of wrong shape, of which nothing is drawn; and how long a large report takes to open. Each looks at the places of elements in Chromium."""

import itertools
import json
import random
import urllib.parse

import made_files
from checkout import TOP

FABRIC = ("/examples/fabric/fabric.json", "/examples/fabric/fabric.sefl")
OFFICE = "/examples/branch-office/office"
# Processor seconds in which the large report has to be open, or how many times as long as this loop, for machines that are slow or busy.
SECONDS, LOOPS = 1.0, 20
LOOP = "(() => { let sum = 0; for (let at = 0; at < 2e7; at += 1) sum = (sum + at) | 0; return sum; })()"

# What is drawn, in pixels: boxes, ports with the middle of their words, and 25 points of each link.
DRAWN = """(() => {
  const round = (value) => Math.round(value * 10) / 10;
  const rect = (it) => { const { left, top, right, bottom } = it.getBoundingClientRect(); return { left: round(left), top: round(top), right: round(right), bottom: round(bottom) }; };
  const scale = document.querySelector("svg.picture").getScreenCTM();
  const points = (path) => { const length = path.getTotalLength(); return Array.from({ length: 25 }, (_, at) => { const { x, y } = path.getPointAtLength(length * at / 24).matrixTransform(scale); return [round(x), round(y)]; }); };
  return { scale: scale.a,
    boxes: [...document.querySelectorAll("svg.picture .node")].map((it) => ({ name: it.dataset.box, ...rect(it.querySelector(".box")), words: rect(it.querySelector(".name")) })),
    ports: [...document.querySelectorAll("svg.picture .port")].map((it) => ({ place: it.dataset.place, text: it.textContent, ...rect(it) })),
    links: [...document.querySelectorAll("svg.picture .link")].map((it) => ({ from: it.dataset.from, to: it.dataset.to, isBoth: it.classList.contains("both"), points: points(it.querySelector(".wire")), head: rect(it.querySelector(".head")) })),
    window: rect(document.querySelector("svg.picture")) };
})()"""


def box_of(place):
    return place.split(" ")[1].rsplit(".", 1)[0]


def meet(one, two, room=0.0):
    """Whether two rectangles have a point in common."""
    return one["left"] < two["right"] - room and two["left"] < one["right"] - room and one["top"] < two["bottom"] - room and two["top"] < one["bottom"] - room


class Looked:
    """The page in a browser: opened with files, at a size, and asked for values."""

    def __init__(self, expect, browser, address, folder):
        self.expect, self.browser, self.address, self.folder = expect, browser, address, folder
        self.opened = 0

    def size(self, width, height):
        self.browser.call("Emulation.setDeviceMetricsOverride", width=width, height=height, deviceScaleFactor=1, mobile=width < 600)

    def open(self, **words):
        self.opened += 1
        query = urllib.parse.urlencode({**words, "opened": self.opened}, doseq=True)
        self.browser.open(f"{self.address}/viewer/index.html?{query}")
        self.browser.until(f"location.search.endsWith('opened={self.opened}') && document.body && document.body.dataset.ready === 'yes'")
        self.expect(f"{words}: message", self.value("byId('message').textContent"), "")

    def show(self, files):
        """Shows these files, by name and text, in place of what was shown before."""
        self.browser.value(f"byId('filter').value = ''; shownPicture = null; showOnly({json.dumps(list(files.items()))})")

    def value(self, expression):
        return self.browser.value(expression)


def check_drawing(expect, name, drawn):
    """Boxes lie apart; each port stands in its box, at the end of its link, and no two on one spot; no link crosses a box that is not its own."""
    boxes = {it["name"]: it for it in drawn["boxes"]}
    scale = drawn["scale"]
    expect(f"{name}: boxes that meet", [(a["name"], b["name"]) for a, b in itertools.combinations(drawn["boxes"], 2) if meet(a, b)], [])
    ports = [it for it in drawn["ports"] if it["text"]]
    expect(f"{name}: ports on one spot", [(a["place"], b["place"]) for a, b in itertools.combinations(ports, 2) if meet(a, b, 1.5 * scale)], [])
    outside = [it["place"] for it in ports for box in (boxes.get(box_of(it["place"])),)
               if box is not None and not (box["left"] <= it["left"] and it["right"] <= box["right"] and box["top"] <= it["top"] + 2 * scale and it["bottom"] - 2 * scale <= box["bottom"])]
    expect(f"{name}: ports outside of their boxes", outside, [])
    expect(f"{name}: ports on the names of boxes", [it["place"] for it in ports for box in drawn["boxes"] if meet(it, box["words"], 1)], [])
    far, crossed, labelled = [], [], {it["place"] for it in ports}
    for link in drawn["links"]:
        first, last = link["points"][0], link["points"][-1]
        ends = (link["from"], first), (link["to"], last)
        for place, (x, y) in ends if not link["isBoth"] else ():
            if box_of(place) not in boxes and place not in labelled:
                continue
            near = [it for it in ports if it["place"] == place and abs((it["top"] + it["bottom"]) / 2 - y) < 5 * scale and min(abs(it["left"] - x), abs(it["right"] - x)) < 9 * scale]
            if not near:
                far.append(place)
        for x, y in link["points"]:
            crossed += [(link["from"], link["to"], it["name"]) for it in drawn["boxes"]
                        if it["name"] not in (box_of(link["from"]), box_of(link["to"])) and it["left"] + 1 < x < it["right"] - 1 and it["top"] + 1 < y < it["bottom"] - 1]
    expect(f"{name}: ports that are not at the ends of their links", far, [])
    expect(f"{name}: boxes that a link crosses", sorted(set(crossed)), [])


def node(name, ins, outs):
    return f"node {name} {ins} -> {outs} {{ }}\n"


def made_job(links, entry):
    """A job of boxes and links: pairs of names with their ports."""
    names = {}
    for (box, out), (other, into) in links:
        names.setdefault(box, [1, 1])[1] = max(names.setdefault(box, [1, 1])[1], out + 1)
        names.setdefault(other, [1, 1])[0] = max(names.setdefault(other, [1, 1])[0], into + 1)
    nodes = "".join(node(name, *sides) for name, sides in names.items())
    lines = "".join(f"link {box}.{out} -> {other}.{into};\n" for (box, out), (other, into) in links)
    return f"symnet 2;\n{nodes}{lines}inject {entry}.0 {{ tag L3 = 112; field head L3+64:8; }}\n"


def drawn_path(places):
    return made_files.report([made_files.path([], places, "stopped", [0])])


def random_links(seed, count):
    """Links of a network of that many boxes: each box is reached, most links have their way back, and some lead far."""
    draw, links, used = random.Random(seed), [], {}

    def port(box, side):
        used[(box, side)] = used.get((box, side), -1) + 1
        return used[(box, side)]

    def link(a, b):
        links.append(((f"n{a}", port(a, "out")), (f"n{b}", port(b, "in"))))
    for box in range(1, count):
        other = draw.randrange(max(0, box - 12), box)
        link(other, box)
        if draw.random() < 0.6:
            link(box, other)
    for _ in range(count // 2):
        link(draw.randrange(count), draw.randrange(count))
    return links


NETS = {
    "a chain with a way round": ([(("a", 0), ("b", 0)), (("b", 0), ("c", 0)), (("c", 0), ("d", 0)), (("a", 1), ("d", 1)), (("d", 0), ("a", 1))], "a"),
    "a ring of three": ([(("a", 0), ("b", 0)), (("b", 0), ("c", 0)), (("c", 0), ("a", 0))], "a"),
    "a box that sends to itself": ([(("a", 0), ("b", 0)), (("b", 0), ("b", 1)), (("b", 1), ("a", 1))], "a"),
    "many links between two": ([((a, port), (b, port)) for port in range(12) for a, b in (("west", "east"), ("east", "west"))], "west"),
    "peers in a layer": ([(("top", at), (f"leaf{at}", 0)) for at in range(4)] + [(("leaf0", 0), ("leaf3", 1)), (("leaf3", 0), ("leaf0", 1)), (("leaf1", 0), ("leaf2", 1))], "top"),
    "a box that is not reached": ([(("a", 0), ("b", 0)), (("lost", 0), ("b", 1)), (("far", 0), ("lost", 0))], "a"),
    "forty boxes at random": (random_links(7, 40), "n0"),
    "sixty boxes at random": (random_links(11, 60), "n0"),
}


def test_drawings(look):
    look.size(1400, 900)
    look.open(report=FABRIC[0], job=FABRIC[1])
    look.value("shownPicture.show('all')")
    fabric = look.value(DRAWN)
    look.expect("fabric: boxes", len(fabric["boxes"]), 44)
    for name, (links, entry) in NETS.items():
        look.show({"net.sefl": made_job(links, entry), "net.json": drawn_path([f"in {entry}.0"])})
        look.value("shownPicture.show('all'); shownPicture.zoom(1 / shownPicture.view.scale)")
        drawn = look.value(DRAWN)
        check_drawing(look.expect, name, drawn)
        look.expect(f"{name}: links", len(drawn["links"]), len(links))
    for name in ("branch-office/office", "campus/campus", "fabric/fabric", "leak/leak", "click-border/border", "routing-loop/loop"):
        look.show({it: (TOP / f"examples/{name}{it}").read_text() for it in (".sefl", ".json")})
        look.value("shownPicture.show('all'); shownPicture.zoom(1 / shownPicture.view.scale)")
        check_drawing(look.expect, name, look.value(DRAWN))


def test_sides(look):
    """A link to a box further right leaves at the right side of its box, and the way back of the same cable is on the same line."""
    look.show({"net.sefl": made_job([(("a", 3), ("b", 5)), (("b", 5), ("a", 3)), (("b", 0), ("c", 0)), (("c", 7), ("a", 0))], "a"), "net.json": drawn_path(["in a.0", "out a.3", "in b.5"])})
    drawn = look.value(DRAWN)
    boxes = {it["name"]: it for it in drawn["boxes"]}
    ports = {it["place"]: it for it in drawn["ports"]}
    middle = lambda it: (it["left"] + it["right"]) / 2  # noqa: E731
    for place, side in (("out a.3", "right"), ("in b.5", "left"), ("out b.0", "right"), ("in c.0", "left"), ("out c.7", "left")):
        box, port = boxes[box_of(place)], ports[place]
        look.expect(f"{place} is on the {side}", (middle(port) > middle(box)) == (side == "right"), True)
    cable = [it["points"] for it in drawn["links"] if it["isBoth"]]
    look.expect("a cable is one line", (len(cable), cable[0] == cable[1]), (2, True))
    marked = look.value("[...document.querySelectorAll('.link')].filter((it) => it.querySelector('.wire.on')).map((it) => it.dataset.from)")
    look.expect("one direction of a cable is on the way", marked, ["out a.3"])
    look.expect("ports on the way", look.value("[...document.querySelectorAll('.port.on')].map((it) => `${it.dataset.place} ${it.textContent}`).sort()"), ["in a.0 0", "in b.5 5", "out a.3 3"])


def test_view(look):
    """The picture is zoomed about the pointer and moved by it; `all` shows all, `way` the way."""
    look.size(1400, 900)
    look.show({it: (TOP / f"examples/fabric/fabric{it}").read_text() for it in (".sefl", ".json")})

    def inside(names):
        drawn = look.value(DRAWN)
        window = drawn["window"]
        return all(window["left"] <= it["left"] and it["right"] <= window["right"] and window["top"] <= it["top"] and it["bottom"] <= window["bottom"] for it in drawn["boxes"] if not names or it["name"] in names)
    look.value("[...document.querySelectorAll('.controls button')].find((it) => it.textContent === 'all').click()")
    look.expect("all boxes are seen", inside(()), True)
    look.value("[...document.querySelectorAll('.controls button')].find((it) => it.textContent === 'way').click()")
    look.expect("the way is seen", inside(look.value("boxesOf(state.job, state.report.records[state.chosen])")), True)
    window = look.value(DRAWN)["window"]
    x, y = (window["left"] + window["right"]) / 2 + 70, (window["top"] + window["bottom"]) / 2 - 30
    under = "(() => { const at = new DOMPoint(%f, %f).matrixTransform(document.querySelector('svg.picture').getScreenCTM().inverse()); return [Math.round(at.x), Math.round(at.y), shownPicture.view.scale]; })()" % (x, y)
    before = look.value(under)
    look.browser.call("Input.dispatchMouseEvent", type="mouseWheel", x=x, y=y, deltaX=0, deltaY=-120, modifiers=2)
    look.browser.until(f"shownPicture.view.scale > {before[2]}")
    after = look.value(under)
    look.expect("zoom keeps the point under the pointer", (abs(after[0] - before[0]) <= 2, abs(after[1] - before[1]) <= 2, after[2] > before[2] * 1.2), (True, True, True))
    place = "shownPicture.drawn.boxes[0].rectangle.getBoundingClientRect().x"
    at = look.value(place)
    for kind, dx in (("mousePressed", 0), ("mouseMoved", 30), ("mouseMoved", 60), ("mouseReleased", 60)):
        look.browser.call("Input.dispatchMouseEvent", type=kind, x=x + dx, y=y, button="left", buttons=0 if kind == "mouseReleased" else 1, clickCount=1)
    look.browser.until(f"Math.abs({place} - {at} - 60) < 2")
    look.expect("dragging moves the picture", abs(look.value(place) - at - 60) < 2, True)
    look.value("shownPicture.show('all')")
    box = next(it for it in look.value(DRAWN)["boxes"] if it["name"] == "core_3")
    for kind in ("mousePressed", "mouseReleased"):
        look.browser.call("Input.dispatchMouseEvent", type=kind, x=(box["left"] + box["right"]) / 2, y=(box["top"] + box["bottom"]) / 2, button="left", buttons=1 if kind == "mousePressed" else 0, clickCount=1)
    look.browser.until("byId('filter').value !== ''")
    visits = sum("in core_3.0" in it.get("places", ()) for it in json.loads((TOP / "examples/fabric/fabric.json").read_text())["records"])
    look.expect("a click on a box leaves the paths that come to it", look.value("[byId('filter').value, [...document.querySelectorAll('[data-count]')].reduce((sum, it) => sum + Number(it.dataset.count), 0)]"), ["in core_3.", visits])


def test_alone(look):
    """Where neither the network nor the way with what is round it can be read, the way is drawn alone; `all` draws all."""
    links = [(("hub", port), (f"leaf{port}", 0)) for port in range(90)] + [((f"leaf{port}", 0), (f"end{port}", 0)) for port in range(90)]
    look.show({"net.sefl": made_job(links, "hub"), "net.json": made_files.report([made_files.path([], ["in hub.0", f"out hub.{port}", f"in leaf{port}.0", f"out leaf{port}.0", f"in end{port}.0"], "stopped", [0]) for port in (0, 88)])})
    names = "[...document.querySelectorAll('svg.picture .node')].map((it) => it.dataset.box)"
    look.expect("the way alone", look.value(names), ["hub", "leaf0", "end0"])
    look.value("document.querySelectorAll('.record')[1].click()")
    look.expect("the way of another path alone", look.value(names), ["hub", "leaf88", "end88"])
    look.value("shownPicture.choose('all')")
    look.expect("all boxes", len(look.value(names)), 181)
    check_drawing(look.expect, "a hub", look.value(f"(() => {{ shownPicture.zoom(1 / shownPicture.view.scale); return {DRAWN}; }})()"))


FOLDING = [(("r", 0), ("r_nat", 0)), (("r_nat", 0), ("one", 0)), (("one", 0), ("two", 0)), (("two", 0), ("three", 0)), (("three", 0), ("s", 0)), (("s", 0), ("r", 1)), (("s", 1), ("r", 2))]


def test_folds(look):
    """Helper boxes fold into the box that they are named after, and rows of boxes that only pass packets on into one; the way stays marked."""
    look.show({"net.sefl": made_job(FOLDING, "r"), "net.json": drawn_path(["in r.0", "out r.0", "in r_nat.0", "out r_nat.0", "in one.0", "out one.0", "in two.0"])})
    names = "[...document.querySelectorAll('svg.picture .node')].map((it) => it.dataset.box)"
    look.expect("boxes before folding", sorted(look.value(names)), ["one", "r", "r_nat", "s", "three", "two"])
    look.value("document.querySelector('.fold').click()")
    look.expect("boxes once folded", sorted(look.value(names)), ["3 boxes", "r", "s"])
    drawn = look.value(DRAWN)
    check_drawing(look.expect, "folded", drawn)
    look.expect("the port of a folded box has its name", sorted(it["text"] for it in drawn["ports"]), ["", "", "0", "0", "0", "1", "1", "2", "nat.0"])
    look.expect("boxes on the way", look.value("[...document.querySelectorAll('.node')].filter((it) => it.querySelector('.box.on')).map((it) => it.dataset.box).sort()"), ["3 boxes", "r"])
    look.value("document.querySelector('.fold').click()")
    look.expect("boxes once unfolded", len(look.value(names)), 6)
    # of an imported network each box with all of its helpers, also those that are linked with helpers alone
    look.show({it: (TOP / "examples/imported" / it).read_text() for it in ("net.sefl", "net.map", "net.walks.json")})
    look.expect("the imported network: its fold", look.value("document.querySelector('.fold').parentNode.textContent"), " fold 6 helper boxes")
    look.value("document.querySelector('.fold').click(); shownPicture.show('all'); shownPicture.zoom(1 / shownPicture.view.scale)")
    look.expect("the imported network: boxes once folded", sorted(look.value(names)), ["core", "desk", "entry", "floor", "gate", "internet", "web"])
    check_drawing(look.expect, "the imported network, folded", look.value(DRAWN))
    nested = [(("r", 0), ("r_a", 0)), (("r_a", 0), ("r_b", 0)), (("r_b", 0), ("r_b_in", 0)), (("r_b_in", 0), ("s", 0)), (("s", 0), ("s_b", 0)), (("s_b", 0), ("r_c", 0))]
    look.show({"net.sefl": made_job(nested, "r"), "net.json": drawn_path(["in r.0"])})
    look.value("document.querySelector('.fold').click()")
    look.expect("helpers of helpers, and one that is linked with another box alone", look.value(names), ["r", "s", "r_c"])


ROWS = "[...document.querySelectorAll('.record')].map((it) => it.textContent)"


def test_names(look):
    """A path is named by its way and its traffic; the first that is shown is of the open group; a way stands on one line."""
    look.size(1400, 900)
    look.open(report=f"{OFFICE}.json", job=f"{OFFICE}.sefl", table="/examples/branch-office/routes.fib")
    rows = look.value(ROWS)
    look.expect("office: the first rows", rows[:3], [
        "3: ttl, routes, nat, filter, server, filter, nat, ttl, host; UDP port 53, not to 10.1.0.0/16",
        "7: ttl, routes, nat, filter, server, filter, nat, ttl, host; TCP port 80, 443 or 993, not to 10.1.0.0/16",
        "1: ttl, routes, lan; to 10.1.0.0/16 \u2014 delivered at out lan.0"])
    look.expect("office: groups", look.value("[...document.querySelectorAll('#groups summary')].map((it) => it.textContent)"),
                ["delivered at out host.0 (2)", "ends with one path each (5)", "pruned: no packet takes them (7)"])
    look.expect("office: the record that is shown", (look.value("byId('title').textContent"), look.value("document.querySelector('details[open] .record.chosen').dataset.number")), ("Path 3", "3"))
    look.expect("office: a refuted side", rows[7], "2: ttl, routes, nat, filter, server, filter, nat, ttl; never if TTL <= 1: true: the first block")
    look.open(report=f"{OFFICE}.json", job=f"{OFFICE}.sefl")
    look.expect("office without its table", look.value(ROWS)[:1], ["3: ttl, routes, nat, filter, server, filter, nat, ttl, host; UDP port 53"])
    heights = look.value("(() => { const way = byId('way'), hops = [...way.querySelectorAll('.hop')].map((it) => it.getBoundingClientRect().top); return [new Set(hops).size, hops.length, way.getBoundingClientRect().height]; })()")
    look.expect("office: the way stands on one line", (heights[0], heights[1], heights[2] < 50), (1, 9, True))
    look.open(report=f"{OFFICE}.json", job=f"{OFFICE}.sefl", answer=f"{OFFICE}.answers")
    look.expect("office: a choice in the packet", look.value("[...[...document.querySelectorAll('#packet tr')].at(-1).children].map((it) => it.textContent)"), ["outside_port", "1024", "local outside_port:16", ""])
    look.expect("office: a choice in what is carried", look.value("[...[...document.querySelectorAll('#fields tr')].at(-1).children].slice(0, 3).map((it) => it.textContent)"), ["local outside_port of nat", "{outside_port}", "= 1024"])
    look.expect("office: a choice in an answer", look.value("document.querySelector('#answers td:nth-child(5)').textContent.includes('destination port 53, outside_port 1024')"), True)
    look.value("(() => { byId('filter').value = 'where outside_port 1024'; showGroups(); })()")
    look.expect("office: paths by a choice", look.value("[...document.querySelectorAll('.record')].map((it) => it.dataset.number)"), ["3", "7", "10"])
    look.value("byId('filter').value = ''")
    look.open(report=FABRIC[0], job=FABRIC[1], record=148)
    look.expect("fabric: the chosen row is seen", look.value("(() => { const [list, row] = [byId('records'), document.querySelector('.record.chosen')].map((it) => it.getBoundingClientRect()); return [row.top >= list.top, row.bottom <= list.bottom]; })()"), [True, True])
    look.open(report="/examples/border-filter/border.json", job="/examples/border-filter/border.sefl")
    look.expect("border: a path", look.value(ROWS)[10], "18: acl; TCP from 192.0.2.0/25 to 198.51.100.0/24 port 22")
    look.open(report="/examples/leak/leak.json")
    look.expect("leak without its job", [it.split(" \u2014 ")[0] for it in look.value(ROWS)][:1], ["1: edge, join, others"])


def test_choices(look):
    """A choice has the name of what it sets, with a count where that was set before or is an unknown field; behind a loop over names it has its number."""
    job = ("symnet 2;\nnode r 1 -> 1 { in 0 { %s set head L3+72:8 = any; allocate global in:8; set global in:8 = any; set global in:8 = any; forward 0; } }\n"
           "inject r.0 { tag L3 = 112; field head L3+72:8; }\n")
    for code, names in (("", ["protocol", "protocol (2)", "in", "in (2)"]), ('for v in "^x" { noop; }', ["protocol", "choice 0", "choice 1", "choice 2"])):
        look.show({"r.sefl": job % code, "r.json": made_files.report([made_files.path([], ["in r.0", "out r.0"], "delivered", [6, 17, 3, 4])])})
        look.expect(f"{code}: choices", look.value("[...document.querySelectorAll('#packet tr')].map((it) => it.children[0].textContent)"), names)
    look.expect("the value of a choice", look.value("byId('message').textContent + symbolName(symbolsOf(null, null), 1)"), "symbol 1")


def test_rounds(look):
    """A path that goes round is named by one round, and one round is told, however often the path comes round."""
    links, way = [(("top", 0), ("a", 0)), (("a", 0), ("b", 0)), (("b", 0), ("a", 0))], ["in top.0", "out top.0", *["in a.0", "out a.0", "in b.0", "out b.0"] * 5, "in a.0"]
    files = {"net.sefl": made_job(links, "top"), "net.json": made_files.report([made_files.path([], way, "cut", [0])])}
    for first in (2, 6, 14):
        look.show({**files, "net.loops": made_files.written({"loops": [{"first": first, "number": 0}], "open": [], "symnet": 1})})
        look.expect(f"a round from place {first}: its path", look.value(ROWS), ["0: top, a, b, a .. for ever"])
        look.expect(f"a round from place {first}: one round", look.value("[document.querySelector('#loops td:nth-child(2)').textContent, byId('round').textContent]"),
                    ["in a.0 \u2192 out a.0 \u2192 in b.0 \u2192 out b.0 \u2192 in a.0 again", "0 a 0 \u2192 0 b 0 \u2192 0 a"])
        look.expect(f"a round from place {first}: its boxes", look.value("[...document.querySelectorAll('.node')].filter((it) => it.querySelector('.box.round')).map((it) => it.dataset.box)"), ["a", "b"])
    look.show({"list.acl": made_files.LIST, "list.rules": made_files.RULES})
    look.expect("rules after a report: what is left of it", look.value("['network', 'detail', 'groups', 'undecided'].map((name) => byId(name).childNodes.length)"), [0] * 4)


def test_counts(look):
    """Sides that no packet takes are told by the report's own count, where none of them is listed and where some are."""
    summary = lambda report: look.show({"r.json": report}) or look.value("byId('summary').textContent.split(', ').slice(0, 3).join(', ')")  # noqa: E731
    path, pruned = made_files.path([], ["in r.0"], "stopped", [0]), {"before": {"sat": [0]}, "decisions": ["else"], "kind": "pruned", "refutation": [["empty", 0, [0, 1]]]}
    for records, refuted, words in (([path], 1187, "1 path, 1,187 pruned sides (only counted)"), ([path, pruned], 1187, "1 path, 1,187 pruned sides (1,186 of them only counted)"),
                                    ([path, pruned], 1, "1 path, 1 pruned side, 0 unexplored; done: these are all; 16 hops"), ([path], 0, "1 path, 0 pruned sides, 0 unexplored; done: these are all; 16 hops")):
        told = summary(made_files.written({**json.loads(made_files.report(records)), "refuted": refuted}))
        look.expect(f"{refuted} refuted", told[:len(words)], words)


# Of each record with a packet: whether the packet has the traffic by which the record is named. Numbers of those that have not.
OTHERS = """(() => state.report.records.flatMap((record, number) => {
  const values = packetOf(record);
  if (values === null || record.verdict.sat === undefined) return [];
  const { known } = trafficOf(state.job, state.tables, record);
  return [...known].every(([symbol, set]) => set.some(([low, high]) => low <= BigInt(values[symbol]) && BigInt(values[symbol]) <= high)) ? [] : [number];
}))()"""


def test_traffic(look):
    """In each example the packet of each path has the traffic by which the path is named."""
    for written in sorted(it for it in (TOP / "examples").rglob("*.json") if it.parent.parent.name != "outputs"):
        job = written.with_name(written.name.split(".")[0] + ".sefl")
        if "records" not in json.loads(written.read_text()) or not job.exists():
            continue
        tables = {it.name: it.read_text() for it in job.parent.iterdir() if it.suffix in (".fib", ".mac")}
        look.show({job.name: job.read_text(), **tables, written.name: written.read_text()})
        look.expect(f"{written.name}: packets without the traffic of their path", look.value(OTHERS), [])


# Conditions, with the sets to which they narrow the fields where they are true and where they are false; null is none. Protocol and destination are unknown.
CONDITIONS = {
    "head L3+72:8 == 6": ("TCP", "not TCP"), "6 == head L3+72:8": ("TCP", "not TCP"), "not head L3+72:8 != 17": ("UDP", "not UDP"), "true": ("", ""),
    "head L3+72:8 in {6, 17} and head L3+128:32 in {167772160..184549375}": ("TCP or UDP to 10.0.0.0/8", ""),
    "head L3+72:8 == 6 or head L3+72:8 == 17": ("TCP or UDP", "not TCP or UDP"), "not [head L3+72:8 == 6 or head L3+128:32 > 9]": ("to 0.0.0.0..0.0.0.9, not TCP", ""),
    "head L3+72:8 == 6 or head L3+128:32 == 7": ("", "not TCP, not to 0.0.0.7"), "head L3+72:8 + 1 == 7": ("TCP", "not TCP"), "head 184:8 - 1 == 16": ("UDP", "not UDP"),
    "head L3+72:8 + head L3+72:8 == 7": ("", ""), "local and:8 == 6 and head L3+72:8 == 6": ("TCP", ""), "global in:8 in {4} or head L3+72:8 == 6": ("TCP", "not TCP"),
    "head L3+72:8 < 300": ("", ""), "head L3+72:8 >= 6 and not head L3+72:8 >= 7": ("TCP", "not TCP"), "(head L3+72:8) == (6)": ("", ""), "[true] and head L3+72:8 <= 6 and 6 <= head L3+72:8": ("TCP", "not TCP"),
}


# Code before the test of the protocol for TCP, and what the test says then of the injected fields where it is true.
CODES = {
    "set head L3+72:8 = 6;": "", "set head L3+72:8 = head L3+72:8 + 5;": "ICMP", "set head L3+72:8 = any;": "",
    "allocate local kept:8; set local kept:8 = head L3+72:8; set head L3+72:8 = 6; set head L3+72:8 = local kept:8;": "TCP",
    "tag L3 = L3-160; allocate head L3+72:8; set head L3+72:8 = 6;": "", "tag L3 = L3-160; allocate head L3+72:8; set head L3+72:8 = 6; deallocate head L3+72:8; untag L3;": "TCP",
    "allocate head L3+72:8; set head L3+72:8 = 6;": "", "retag L3 = 112;": "TCP", "tag L9 = L3+64; set head L9+8:8 = 4;": "", "set global in:8 = head L3+72:8; set head L3+72:8 = global in:8;": "TCP",
}


def test_other_job(look):
    """A path is not named by the traffic of a job that is not its own."""
    office = (TOP / f"{OFFICE[1:]}.json").read_text()
    for what, job in (("another job", made_files.RING), ("a job with its names", 'symnet 2;\nnode ttl 2 -> 2 { in 0 { constrain head L3+64:8 > 9; forward 0; } }\ninject ttl.0 { tag L3 = 112; field head L3+64:8; }\n')):
        look.show({"other.sefl": job, "office.json": office})
        look.expect(f"{what}: names", look.value("[0, 3].map((number) => nameOfRecord(number)).map(({ way, traffic }) => [way, traffic])"),
                    [["ttl", ""], ["ttl, routes, nat, filter, server, filter, nat, ttl, host", ""]])


def test_conditions(look):
    """What tests say of fields, where they are true and where they are false, also where code has changed what stands there."""
    for code, wanted in CODES.items():
        job = (f"symnet 2;\nnode r 1 -> 1 {{ in 0 {{ {code} if head L3+72:8 == 6 {{ forward 0; }} else {{ }} }} }}\n"
               "inject r.0 { tag L3 = 112; field head L3+72:8; field global in:8 = 3; }\n")
        look.show({"r.sefl": job, "r.json": made_files.report([made_files.path(["then"], ["in r.0", "out r.0"], "delivered", [0])])})
        look.expect(f"{code}: traffic", look.value("nameOfRecord(0).traffic"), wanted)
    for condition, wanted in CONDITIONS.items():
        job = (f"symnet 2;\nnode r 1 -> 2 {{ in 0 {{ if {condition} {{ forward 0; }} else {{ forward 1; }} }} }}\n"
               "inject r.0 { tag L3 = 112; field head L3+72:8; field head L3+128:32; field global in:8 = 3; }\n")
        look.show({"r.sefl": job, "r.json": made_files.report([made_files.path([side], ["in r.0", f"out r.{port}"], "delivered", [0, 0]) for port, side in enumerate(("then", "else"))])})
        look.expect(f"{condition}: traffic", (look.value("byId('message').textContent"), *look.value("[0, 1].map((number) => nameOfRecord(number).traffic)")), ("", *wanted))


# What the program writes of a box with a table in each style: the decisions of each path, its port where it leaves, its packet, and how the page names its traffic.
TABLES = {"t.fib": "ports 2\n10.0.0.0/8 0\n10.1.0.0/16 1\n", "t.mac": "ports 2\n02:00:00:00:00:01 0\n02:00:00:00:00:02 1\n"}
WIDE_ROW, INNER_ROW, FIRST, SECOND = "to 10.0.0.0/16 or 10.2.0.0..10.255.255.255", "to 10.1.0.0/16", "to 02:00:00:00:00:01", "to 02:00:00:00:00:02"
NEITHER = "not to 02:00:00:00:00:01..02:00:00:00:00:02"
OF_MACS = [(["then"], 0, 2 << 40 | 1, FIRST), (["else", "then"], 1, 2 << 40 | 2, SECOND), (["else", "else", 0], 0, 0, NEITHER), (["else", "else", 1], 1, 0, NEITHER)]
STYLES = {
    ("fib", "chain"): [(["then"], 1, 167837696, INNER_ROW), (["else", "then"], 0, 167772160, WIDE_ROW), (["else", "else"], None, 0, "not to 10.0.0.0/8")],
    ("fib", "grouped"): [(["then"], 0, 167772160, WIDE_ROW), (["else", "then"], 1, 167837696, INNER_ROW), (["else", "else"], None, 0, "not to 10.0.0.0/8")],
    ("fib", "egress"): [([0, "pass"], 0, 167772160, WIDE_ROW), ([0, "broken"], 0, 0, f"not {WIDE_ROW}"), ([1, "pass"], 1, 167837696, INNER_ROW), ([1, "broken"], 1, 0, f"not {INNER_ROW}")],
    ("mac", "chain"): OF_MACS, ("mac", "grouped"): OF_MACS,
    ("mac", "egress"): [([0, "pass"], 0, 0, f"not {SECOND}"), ([0, "broken"], 0, 2 << 40 | 2, SECOND), ([1, "pass"], 1, 0, f"not {FIRST}"), ([1, "broken"], 1, 2 << 40 | 1, FIRST)],
}


def test_tables(look):
    """The decisions of tables say which addresses a path has, in each style; a side that ends within a table's tests says no more than these."""
    for (kind, style), paths in STYLES.items():
        job = f'symnet 2;\nnode t = {kind} "t.{kind}" {style};\ninject t.0 {{ tag L2 = 0; tag L3 = 112; field head L2+0:48; field head L3+128:32; }}\n'
        records = [made_files.path(decisions, ["in t.0", *([] if port is None else [f"out t.{port}"])], "stopped" if port is None or decisions[-1] == "broken" else "delivered",
                                   [value, 0] if kind == "mac" else [0, value]) for decisions, port, value, _ in paths]
        untried = [{"decisions": ["else"], "kind": "unexplored"}] if style != "egress" else []
        look.show({"t.sefl": job, f"t.{kind}": TABLES[f"t.{kind}"], "t.json": made_files.report([*records, *untried])})
        names = look.value("state.report.records.map((record, number) => nameOfRecord(number).traffic)")
        look.expect(f"{kind} {style}: the traffic of its paths", names, [words for *_, words in paths] + [""] * len(untried))
        look.expect(f"{kind} {style}: packets without the traffic of their path", look.value(OTHERS), [])
        if untried:
            look.expect(f"{kind} {style}: one test of two", look.value("stepsOf(state.job, state.report.records.at(-1)).map(decisionWords)"), ["its address is in none of the first 1 test of the table"])


# Elements that stand out at the right of the window, except in what scrolls.
WIDE = """(() => {
  const scrolls = (it) => it !== document.body && it !== document.documentElement && (["auto", "scroll", "hidden"].includes(getComputedStyle(it).overflowX) || it.tagName === "svg" || scrolls(it.parentElement));
  return [document.scrollingElement.scrollWidth > innerWidth, ...[...document.querySelectorAll("body *")].filter((it) => it.getBoundingClientRect().right > innerWidth + 1 && !scrolls(it.parentElement)).map((it) => it.id || it.className || it.tagName)];
})()"""


def test_phone(look):
    """At the width of a phone all stands below one another, and nothing sticks out."""
    look.size(390, 844)
    for words in ({"report": FABRIC[0], "job": FABRIC[1]}, {"report": f"{OFFICE}.json", "job": f"{OFFICE}.sefl", "answer": f"{OFFICE}.answers"}):
        look.open(**words)
        look.expect(f"{words}: what sticks out", look.value(WIDE), [False])
        lists, picture = (look.value(f"(() => {{ const {{ left, right, top, bottom }} = document.querySelector('{it}').getBoundingClientRect(); return [left, right, top, bottom]; }})()") for it in ("#records", "svg.picture"))
        look.expect(f"{words}: the picture below the list", picture[2] >= lists[3], True)
        look.expect(f"{words}: the picture is as wide as the window", picture[1] - picture[0] > 320, True)
        drawn = look.value(DRAWN)
        window, first = drawn["window"], next(it for it in drawn["boxes"] if it["name"] == look.value("boxesOf(state.job, state.report.records[state.chosen])[0]"))
        look.expect(f"{words}: the numbers of ports can be read", drawn["scale"] >= 0.69, True)
        look.expect(f"{words}: the way is seen from its beginning", window["left"] <= first["left"] and first["right"] <= window["right"] and window["top"] <= first["top"] and first["bottom"] <= window["bottom"], True)
        look.expect(f"{words}: what is wider than its table", look.value("[...document.querySelectorAll('#decisions, #answers')].filter((it) => it.scrollWidth > it.clientWidth + 1).map((it) => it.id)"), [])
    look.expect("rows of the packet on one line", look.value("[...document.querySelectorAll('#packet tr')].filter((it) => it.getBoundingClientRect().height > 30).length"), 0)
    look.open(list="/examples/border-filter/border.acl", answer="/examples/border-filter/border.rules")
    look.expect("rules: what sticks out", look.value(WIDE), [False])
    look.expect("rules: those on several lines", look.value("[...document.querySelectorAll('#rules tr:not(.hidden):not(:first-child)')].filter((it) => it.getBoundingClientRect().height > 30).length"), 0)
    look.size(1400, 900)
    look.open(report=f"{OFFICE}.json", job=f"{OFFICE}.sefl", answer=f"{OFFICE}.answers")
    columns = look.value("[...document.querySelectorAll('#answers tr')].map((row) => [...row.children].map((it) => it.textContent === '' ? null : it.getBoundingClientRect()).map((it) => it && [it.left, it.right, it.top]))")
    look.expect("answers: their columns begin at one place", [len({row[column][0] for row in columns if row[column]}) for column in range(5)], [1] * 5)
    look.expect("answers: the raw form below the question", [(row[5][0] == row[1][0], row[5][2] > row[1][2]) for row in columns if row[5]], [(True, True)] * sum(row[5] is not None for row in columns))


ODD = [None, -1, 0, 1.5, 2**60, "x", "constructor", True, [], {}, [[]], {"a": 1}, 10**40]


def spoiled(value):
    """The value with one part replaced by each odd value, or left out, or named anew."""
    if isinstance(value, dict):
        for key in value:
            yield {it: value[it] for it in value if it != key}
            yield from ({**value, key: it} for it in ODD)
            yield from ({**value, key: it} for it in spoiled(value[key]))
    elif isinstance(value, list):
        for at, part in enumerate(value[:3]):
            yield value[:at] + value[at + 1:]
            yield from (value[:at] + [it] + value[at + 1:] for it in [*ODD, *spoiled(part)])


# Shows each of these texts alone. Of each what is wrong: an error, a page without a message and without a record, or a part of one beside a message.
SPOILED = """(() => {
  const wrong = [];
  for (const text of %s) {
    let what = "";
    byId("detail").replaceChildren(); byId("groups").replaceChildren(); byId("answer").replaceChildren(); byId("summary").textContent = "";
    try {
      showOnly([["job.sefl", %s], ["spoiled.json", text]]);
      const message = byId("message").textContent, isShown = byId("summary").textContent !== "", isWhole = byId("detail").children.length > 0 || byId("answer").children.length > 0;
      if (message.includes("cannot be shown")) what = message;
      else if (isShown !== isWhole) what = "a part of the page";
      else if (!isShown && message === "") what = "no message";
    } catch (error) { what = `an error: ${error.stack}`; }
    if (what !== "") wrong.push(`${what}: ${text}`);
  }
  return [wrong.length, wrong.slice(0, 3)];
})()"""


def spoiled_texts():
    """Reports and answers of each kind, with one part spoiled."""
    path = made_files.path(["then"], ["in r.0", "out r.0"], "delivered", [7, 17], heads=[[176, [[8, 3, [[0, 1]]]]]], tags=[["L3", 112]])
    path["fields"]["metas"] = [[None, "mark", [[16, 4, []]]]]
    failed = {**path, "end": {"fault": 9, "site": 3, "text": "dead"}, "verdict": {"undecided": {"cause": "outside", "pick": 0, "values": [1, 2]}}}
    pruned = {"before": {"sat": [1, 2]}, "decisions": ["else"], "kind": "pruned", "refutation": [["empty", 0, [0, 1]], ["split", 1, [0]], ["cycle", [0]], ["domain", 1]]}
    report = {"hops": 16, "limit": 10, "records": [path], "refuted": 0, "state": "done", "symnet": 1}
    walk = {"decisions": ["then"], "end": "delivered", "fields": {"heads": [[176, [[8, 3]]]], "metas": [], "tags": []}, "places": ["in r.0", "out r.0"]}
    wholes = [report, {**report, "records": [failed]}, {**report, "records": [pruned], "cases": 7}, {**report, "records": [{"decisions": [0], "kind": "unexplored"}]},
              {"symnet": 1, "walks": [walk]}, json.loads(made_files.RING_VISITS), json.loads(made_files.RULES), json.loads(made_files.OTHER), json.loads(made_files.LISTS_DIFFER),
              {"answers": [{"answer": "yes", "number": 0, "values": [1, 2]}, {"answer": "unknown", "numbers": [0]}], "symnet": 1}]
    return [made_files.written(it) for whole in wholes for it in (whole, *spoiled(whole))]


def test_spoiled(look):
    texts = spoiled_texts()
    for at in range(0, len(texts), 500):
        look.expect("spoiled files", look.value(SPOILED % (json.dumps(texts[at:at + 500]), json.dumps(made_files.RING))), [0, []])
    return len(texts)


def large_files():
    """A job of 300 boxes, a tree with links both ways and some that lead far, and a report of 10,000 paths through it."""
    count, draw = 300, random.Random(5)
    links = [((f"n{(box - 1) // 3}", (box - 1) % 3), (f"n{box}", 0)) for box in range(1, count)]
    links += [((f"n{box}", 3), (f"n{(box - 1) // 3}", 1 + (box - 1) % 3)) for box in range(1, count)]
    links += [((f"n{box}", 4), (f"n{draw.randrange(count)}", 4)) for box in range(0, count, 10)]
    names = sorted({box for (box, _), _ in links}, key=lambda it: int(it[1:]))
    test = "if head L3+128:32 in {%d..%d} { forward 0; } else { } if head L3+128:32 in {%d..%d} { forward 1; } else { forward 2; }"
    nodes = "".join(f"node {it} 5 -> 5 {{ in 0 {{ {test % (at << 20, (at << 20) + 65535, (at << 20) + 65536, (at << 20) + 131071)} }} }}\n" for at, it in enumerate(names))
    fields = "tag L3 = 112; field head L3+72:8; field head L3+96:32; field head L3+128:32;"
    job = f"symnet 2;\n{nodes}{''.join(f'link {a}.{p} -> {b}.{q};' for (a, p), (b, q) in links)}inject n0.0 {{ {fields} }}\n"
    records = []
    for number in range(10000):
        box, decisions, places = 0, [], ["in n0.0"]
        while True:
            turn = draw.randrange(3)
            decisions += [["then"], ["else", "then"], ["else", "else"]][turn]
            places.append(f"out n{box}.{turn}")
            box = 3 * box + 1 + turn
            if box >= count:
                break
            places.append(f"in n{box}.0")
        heads = [[184, [[8, 0, [[0, 1]]]]], [208, [[32, 0, [[1, 1]]]]], [240, [[32, 0, [[2, 1]]]]]]
        records.append(made_files.path(decisions, places, "delivered", [0, 0, number], heads=heads, tags=[["L3", 112]]))
    return job, made_files.report(records, cases=2**64 - 1)


def test_large(look):
    """10,000 paths and 300 boxes open in a second of a processor."""
    job, report = large_files()
    (look.folder / "net.sefl").write_text(job)
    (look.folder / "net.json").write_text(report)
    look.size(1400, 900)
    look.open()
    took, loop = [], []
    look.browser.call("Performance.enable", timeDomain="threadTicks")
    texts = "window.texts = (async () => { window.texts = [['net.sefl', await (await fetch('/made/net.sefl')).text()], ['net.json', await (await fetch('/made/net.json')).text()]]; return 0; })()"
    look.value(texts)
    seconds = lambda: next(it["value"] for it in look.browser.call("Performance.getMetrics")["metrics"] if it["name"] == "TaskDuration")  # noqa: E731
    for _ in range(2):
        before = seconds()
        look.value(LOOP)
        loop.append(seconds() - before)
        before = seconds()
        look.value("new Promise((done) => { shownPicture = null; showOnly(window.texts); requestAnimationFrame(() => setTimeout(done, 0)); })")
        took.append(seconds() - before)
    look.expect("large: message", look.value("byId('message').textContent"), "")
    look.expect("large: boxes and records", look.value("[document.querySelectorAll('svg.picture .node').length, document.querySelectorAll('.record').length, [...document.querySelectorAll('[data-count]')].reduce((sum, it) => sum + Number(it.dataset.count), 0)]")[2], 10000)
    look.expect(f"large: it opened in {min(took):.2f} seconds of a processor, beside {min(loop):.2f} for a loop", min(took) < max(SECONDS, LOOPS * min(loop)), True)
    choose = look.value("(() => { const begin = performance.now(); for (let number = 0; number < 20; number += 1) choose(number * 400); return (performance.now() - begin) / 20; })()")
    return f"10,000 paths and 300 boxes ({len(report) / 1e6:.1f} MB) opened in {min(took):.2f} seconds of a processor (a loop of 20 million sums beside it: {min(loop):.2f}), another path is shown after {choose:.0f} ms"


def test(expect, browser, address, folder):
    look = Looked(expect, browser, address, folder)
    test_drawings(look)
    test_sides(look)
    test_view(look)
    test_alone(look)
    test_folds(look)
    test_names(look)
    test_choices(look)
    test_rounds(look)
    test_counts(look)
    test_traffic(look)
    test_other_job(look)
    test_conditions(look)
    test_tables(look)
    test_phone(look)
    spoiled_count = test_spoiled(look)
    print(f"viewer: {spoiled_count:,} spoiled files; {test_large(look)}")
    browser.call("Emulation.clearDeviceMetricsOverride")
