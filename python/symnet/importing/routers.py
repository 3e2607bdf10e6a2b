"""Routers as boxes of a job. Of a router r1 with a filter come

    r1          an input port for each interface: what is dropped before a route is looked up
    r1_routes   the table: the longest prefix that has the destination
    r1_exit     an input port for each way out: the time to live, the filters, the frame
    r1_self     what is for the router itself
"""

from typing import Dict, List, NamedTuple, Optional, Sequence, Tuple

from .chains import Context, filter_code, tests_arrival
from .code import Do, If, JobText, Node, Origin, Port, Row, Step, Table, fail, is_in
from .model import LOCAL, MOST_ROUTES, Box, Filter, Hop, Interface, Refused, Route, Router, common, has, ranges_of
from .parts import Built, Names, Surroundings

# The most ports of a box.
_PORTS = 1024
_COUNT_DOWN = (If("head L3+64:8 <= 1", [fail("the time to live is over")]), Do("set head L3+64:8 = head L3+64:8 - 1;"))


class _Ways(NamedTuple):
    """The ways out of a router: hops, and kinds of drops; of each route its number, with those of equal hops and the router itself behind them."""

    hops: List[Hop]
    kinds: List[str]
    equals: List[Tuple[Hop, ...]]
    has_local: bool

    def port(self, route: Route) -> int:
        """The port of the table."""
        if route.kind == LOCAL:
            return len(self.hops) + len(self.kinds) + len(self.equals)
        if route.kind:
            return len(self.hops) + self.kinds.index(route.kind)
        if len(route.hops) > 1:
            return len(self.hops) + len(self.kinds) + self.equals.index(route.hops)
        return self.hops.index(route.hops[0])

    @property
    def count(self) -> int:
        return len(self.hops) + len(self.kinds) + len(self.equals) + self.has_local


def _ways(routes: Sequence[Route], has_frames: bool) -> Tuple[_Ways, List[Route]]:
    """The ways, and the routes that lead along them. Without Ethernet headers the next router behind an interface makes no difference."""
    plain = routes if has_frames else [it if not it.hops else Route(it.prefix, it.source, tuple(dict.fromkeys(Hop(hop.interface) for hop in it.hops))) for it in routes]
    hops = dict.fromkeys(hop for it in plain for hop in it.hops)
    kinds = dict.fromkeys(it.kind for it in plain if it.kind and it.kind != LOCAL)
    equals = dict.fromkeys(it.hops for it in plain if len(it.hops) > 1)
    return _Ways([*hops], [*kinds], [*equals], any(it.kind == LOCAL for it in plain)), [*plain]


class _Printer:
    def __init__(self, box: Box, router: Router, job: JobText, names: Names, around: Surroundings, places: Dict[str, str]):
        self.box, self.router, self.job, self.names, self.around, self.places = box, router, job, names, around, places
        self.numbers = {name: number for number, name in enumerate(router.interfaces)}
        inbound = [filter_ for it in router.interfaces.values() for filter_ in it.inbound]
        outbound = [filter_ for it in router.interfaces.values() for filter_ in it.outbound]
        self.has_arrival = tests_arrival([*router.arriving[1:], *router.forwarded, *router.delivered, *outbound])
        if inbound and router.arriving:
            raise Refused(box.source, "filters of the box and filters of its interfaces")
        self.wired = [it for it in router.interfaces.values() if not it.below]
        self.above = {name: [it for it in router.interfaces.values() if it.below == name] for name in router.interfaces}
        if len(self.wired) > _PORTS:
            raise Refused(box.source, f"it has {len(self.wired):,} interfaces, and a box of a job has at most {_PORTS:,} ports")

    # ------------------------------------------------ in

    def entry(self) -> Port:
        """The node that packets enter; returns its port towards the table."""
        name = self.names.of(self.box.name)
        code: Dict[str, Sequence[Step]] = {f"in {number}": self.arriving(it) for number, it in enumerate(self.wired)}
        for number, it in enumerate(self.wired):
            self.places[f"in {name}.{number}"] = f"{self.box.name}.{it.name}"
        stages = max(1, len(self.router.arriving))
        if stages == 1:
            code["out 0"] = self.limits()
        self.places[f"out {name}.0"] = f"{self.box.name}, towards its routes"
        self.job.nodes.append(Node(name, len(self.wired), 1, code, Origin((self.box.source,))))
        last = name, 0
        for number in range(1, stages):
            node = self.names.part(self.box.name, f"arriving{number + 1}")
            steps = {"in 0": filter_code(self.router.arriving[number], Context(self.numbers), 0), **({"out 0": self.limits()} if number == stages - 1 else {})}
            self.job.nodes.append(Node(node, 1, 1, steps))
            self.job.links.append((last, (node, 0)))
            last = node, 0
        return last

    def arriving(self, interface: Interface) -> List[Step]:
        """The code of an input port."""
        if not self.around.has_frames:
            return self.taken(interface)
        made: List[Step] = []
        if interface.mac is not None:
            taken = ranges_of([(it, it) for it in (interface.mac, *interface.port_macs)])
            test = is_in("Ethernet destination", taken) if interface.port_macs else f"head L2+0:48 == {interface.mac}"
            made.append(If(test, (), [fail("a frame for another station")], Origin((interface.source,))))
        made += [If(is_in("VLAN", ((it.vlan, it.vlan),)), self.taken(it), (), Origin((it.source,))) for it in self.above[interface.name]]
        made.append(If(is_in("VLAN", ((0, 0),)), (), [fail(f"no interface has the VLAN on {interface.name}")]))
        return [*made, *self.taken(interface)]

    def taken(self, interface: Interface) -> List[Step]:
        """What is done with a packet that came by the interface."""
        if not interface.is_up:
            return [fail(f"the interface {interface.name} is down", interface.source)]
        filters = self.router.arriving or interface.inbound
        arrival = [Do("allocate global arrival:16;"), Do(f"set global arrival:16 = {self.numbers[interface.name]};")] if self.has_arrival else []
        return [*arrival, *filter_code(filters[0] if filters else None, Context(self.numbers, interface.name), 0)]

    def limits(self) -> List[Step]:
        """What is dropped before a route is looked up."""
        made: List[Step] = []
        no_source = fail("a source address that no neighbor may have")
        rest = common(self.router.no_sources, ((1, 0xFFFFFFFF),))
        if rest:
            made.append(If(is_in("source address", rest), [no_source]))
        if has(self.router.no_sources, 0):
            # a station that has no address yet asks all neighbors for one
            made.append(If(is_in("source address", ((0, 0),)), [If(is_in("destination address", ((0xFFFFFFFF,) * 2,)), (), [no_source])]))
        if self.router.no_destinations:
            made.append(If(is_in("destination address", self.router.no_destinations), [fail("a destination address that is not forwarded")]))
        return made

    # ------------------------------------------------ the table

    def table(self, style: str) -> _Ways:
        ways, routes = _ways(self.router.routes, self.around.has_frames)
        if ways.count > _PORTS:
            raise Refused(self.box.source, f"its routes lead to {ways.count:,} next routers, and a box of a job has at most {_PORTS:,} ports")
        if len(routes) > MOST_ROUTES:
            raise Refused(routes[MOST_ROUTES].source, f"a table of more than {MOST_ROUTES:,} routes")
        rows = [Row(str(it.prefix), ways.port(it), it.source) for it in routes]
        self.job.nodes.append(Table(self.names.part(self.box.name, "routes"), max(1, ways.count), rows, style))
        return ways

    # ------------------------------------------------ out

    def exits(self, ways: _Ways) -> Dict[str, List[Port]]:
        """The nodes behind the table; returns the ports that lead out by each interface."""
        routes = self.names.made(self.box.name, "routes")
        filters = [[*self.router.forwarded, *self.interface(it).outbound] for it in ways.hops]
        stages = max([1, *map(len, filters)])
        names = [self.names.part(self.box.name, "exit" if number == 0 else f"exit{number + 1}") for number in range(stages)]
        for stage, name in enumerate(names):
            self.stage(name, stage, stage == stages - 1, ways, filters)
        for number, hop in enumerate(ways.hops):
            chain = [(routes, number), *((name, number) for name in names)]
            self.job.links += [(chain[at], (names[at], number)) for at in range(stages)]
            self.places[f"out {names[-1]}.{number}"] = f"{self.box.name}.{hop.interface}{f', to {hop.gateway}' if hop.gateway else ''}"
        for number in range(len(ways.hops), len(ways.hops) + len(ways.kinds)):
            self.job.links.append(((routes, number), (names[0], number)))
        self.equals(ways, routes, names[0])
        self.itself(ways, routes)
        outputs: Dict[str, List[Port]] = {}
        for number, hop in enumerate(ways.hops):
            outputs.setdefault(self.wire(hop.interface), []).append((names[-1], number))
        return outputs

    def interface(self, hop: Hop) -> Interface:
        if hop.interface not in self.router.interfaces:
            source = next(it.source for it in self.router.routes if any(one.interface == hop.interface for one in it.hops))
            raise Refused(source, f"a route by {hop.interface}, which is none of the interfaces {', '.join(self.router.interfaces)}")
        return self.router.interfaces[hop.interface]

    def wire(self, name: str) -> str:
        """The interface with a wire that another one stands on."""
        return self.router.interfaces[name].below or name

    def stage(self, name: str, stage: int, is_last: bool, ways: _Ways, filters: List[List[Filter]]) -> None:
        """A node with the filters of one stage, an input and an output port for each hop."""
        code: Dict[str, Sequence[Step]] = {}
        for number, hop in enumerate(ways.hops):
            mine = filters[number]
            steps = filter_code(mine[stage] if stage < len(mine) else None, Context(self.numbers, None, hop.interface), number)
            first = [*_COUNT_DOWN, *steps] if stage == 0 and self.router.counts_down else steps
            code[f"in {number}"] = first if self.interface(hop).is_up else [fail(f"the interface {hop.interface} is down", self.interface(hop).source)]
        if stage == 0:
            code.update({f"in {len(ways.hops) + number}": [fail(kind)] for number, kind in enumerate(ways.kinds)})
        if is_last:
            code.update({f"out {number}": steps for number, hop in enumerate(ways.hops) if (steps := self.leaving(hop))})
        self.job.nodes.append(Node(name, len(ways.hops) + (len(ways.kinds) if stage == 0 else 0), len(ways.hops), code, Origin((self.box.source,))))

    def leaving(self, hop: Hop) -> List[Step]:
        """The frame that leaves by the interface."""
        made: List[Step] = [Do("deallocate global arrival:16;")] if self.has_arrival else []
        if not self.around.has_frames:
            return made
        interface = self.router.interfaces[hop.interface]
        made.append(Do(f"set head L2+48:48 = {'any' if interface.mac is None else interface.mac};"))
        made.append(Do(f"set global vlan:12 = {interface.vlan};"))
        if hop.gateway is not None:
            mac = self.around.macs.get(hop.gateway)
            return [*made, Do(f"set head L2+0:48 = {'any' if mac is None else mac};")]
        known = sorted((int(address), mac) for address, mac in self.around.macs.items() if mac is not None and any(address in it.network for it in interface.addresses))
        if not known:
            return [*made, Do("set head L2+0:48 = any;")]
        each = [If(f"head L3+128:32 == {address}", [Do(f"set head L2+0:48 = {mac};")]) for address, mac in known]
        return [*made, If(is_in("destination address", tuple((address, address) for address, _ in known)), each, [Do("set head L2+0:48 = any;")])]

    def equals(self, ways: _Ways, routes: str, exit_: str) -> None:
        """A copy to each of several hops of equal cost."""
        for number, hops in enumerate(ways.equals):
            name = self.names.part(self.box.name, f"equal{number + 1}")
            self.job.nodes.append(Node(name, 1, len(hops), {"in 0": [Do(f"fork {', '.join(map(str, range(len(hops))))};")]}))
            self.job.links.append(((routes, len(ways.hops) + len(ways.kinds) + number), (name, 0)))
            self.job.links += [((name, at), (exit_, ways.hops.index(hop))) for at, hop in enumerate(hops)]

    def itself(self, ways: _Ways, routes: str) -> None:
        """What is for the router itself."""
        name = self.names.part(self.box.name, "self")
        stages = max(1, len(self.router.delivered))
        last: Optional[Port] = (routes, ways.count - 1) if ways.has_local else None
        for number in range(stages):
            node = name if number == stages - 1 else self.names.part(self.box.name, f"local{number + 1}")
            steps = filter_code(self.router.delivered[number] if self.router.delivered else None, Context(self.numbers), 0)
            code: Dict[str, Sequence[Step]] = {"in 0": steps}
            if self.has_arrival and number == stages - 1:
                code["out 0"] = [Do("deallocate global arrival:16;")]
            self.job.nodes.append(Node(node, 1, 1, code, Origin((self.box.source,))))
            self.job.links += [(last, (node, 0))] if last else []
            last = node, 0
        self.places.update({f"in {name}.0": f"{self.box.name} itself", f"out {name}.0": f"{self.box.name} itself"})


def print_router(box: Box, job: JobText, names: Names, around: Surroundings, style: str, places: Dict[str, str]) -> Built:
    """Adds the nodes of a router to the job."""
    router = box.router
    assert router is not None
    out = _Printer(box, router, job, names, around, places)
    last = out.entry()
    ways = out.table(style)
    job.links.append((last, (names.made(box.name, "routes"), 0)))
    outputs = out.exits(ways)
    name = names.of(box.name)
    return Built({it.name: (name, number) for number, it in enumerate(out.wired)}, {it.name: outputs.get(it.name, []) for it in out.wired})
