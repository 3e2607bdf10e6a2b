"""Switches by flows as boxes of a job: a box for each table, whose output ports do what a flow does before it sends a packet out or on to another table."""

from typing import Dict, List, Sequence, Tuple

from .code import Do, If, JobText, Node, Origin, Port, Step, fail, is_in, reference
from .chains import Context
from .model import COUNT_DOWN, OUTPUT, RESUBMIT, SET, WIDTHS, Action, Box, Flow, FlowSwitch, Refused
from .parts import Built, Names

_PORTS = 1024
# A way out of a table: what is done before, and where it leads: a port by its name, or a table.
_Way = Tuple[Tuple[Action, ...], str, int]


class _Table:
    """The ways out of a table, in their order."""

    def __init__(self, number: int, switch: FlowSwitch):
        self.number, self.switch = number, switch
        self.numbers = {name: at for at, name in enumerate(switch.ports)}
        self.ways: Dict[_Way, int] = {}

    def code(self) -> List[Step]:
        context = Context(self.numbers)
        made: List[Step] = []
        flows = sorted((it for it in self.switch.flows if it.table == self.number), key=lambda it: -it.priority)
        _check(flows)
        for flow in flows:
            test = context.test([flow.match])
            if test is None:
                continue
            step = self.sending(flow)
            if test == "":
                return [*made, step]
            made.append(If(test, [step], (), Origin((flow.source,))))
        return [*made, fail(f"no flow of table {self.number} has the packet")]

    def sending(self, flow: Flow) -> Step:
        """What is done with a packet of the flow."""
        before: List[Action] = []
        ports: List[int] = []
        for action in flow.actions:
            if action.kind in (SET, COUNT_DOWN):
                before.append(action)
                continue
            targets = [it for it in self.switch.ports] if action.kind == OUTPUT and action.name == "" else [action.name]
            for name in targets:
                way = (tuple(before), name if action.kind == OUTPUT else "", action.value)
                ports.append(self.ways.setdefault(way, len(self.ways)))
        if not ports:
            return fail(f"dropped by {flow.source.place}: {flow.source.text}", flow.source)
        if len(self.ways) > _PORTS:
            raise Refused(flow.source, f"the flows of table {self.number} have more than {_PORTS:,} ways out, and a box of a job has at most so many ports")
        return Do(f"fork {', '.join(map(str, ports))};" if len(ports) > 1 else f"forward {ports[0]};", Origin((flow.source,)))

    def leaving(self, way: _Way) -> List[Step]:
        """The code of a way out."""
        before, name, _ = way
        made: List[Step] = []
        for action in before:
            if action.kind == SET:
                made.append(Do(f"set {reference(action.name)} = {action.value};"))
            else:
                made += [If("head L3+64:8 <= 1", [fail("the time to live is over")]), Do("set head L3+64:8 = head L3+64:8 - 1;")]
        if name == "":
            return made
        # a packet does not leave by the port that it came by
        own = If(is_in("arrival", ((self.numbers[name],) * 2,)), [fail("its port is the one that it came by")])
        return [*made, own, Do("deallocate global arrival:16;")]


# How many pairs of flows of one priority are looked at.
_PAIRS = 1_000_000


def _check(flows: Sequence[Flow]) -> None:
    """Refused where two flows of one priority have a packet in common: which of them decides is not said."""
    groups: Dict[int, List[Flow]] = {}
    for flow in flows:
        groups.setdefault(flow.priority, []).append(flow)
    for same in groups.values():
        _check_group(same)


def _check_group(flows: Sequence[Flow]) -> None:
    """The flows are swept along the field that cuts them in most parts, so that few pairs meet."""
    field = max(WIDTHS, key=lambda name: len({it.match.values(name) for it in flows}))

    def ends(flow: Flow) -> Tuple[int, int]:
        ranges = flow.match.values(field)
        return (ranges[0][0], ranges[-1][1]) if ranges else (0, (1 << WIDTHS[field]) - 1)

    open_: List[Flow] = []
    pairs = 0
    for flow in sorted(flows, key=lambda it: ends(it)[0]):
        open_ = [it for it in open_ if ends(it)[1] >= ends(flow)[0]]
        pairs += len(open_)
        if pairs > _PAIRS:
            raise Refused(flow.source, f"more than {_PAIRS:,} pairs of flows of the priority {flow.priority} may have packets in common")
        for other in open_:
            if flow.actions != other.actions and not flow.match.meet(other.match).is_empty:
                first, second = sorted((flow, other), key=lambda it: it.source.line)
                raise Refused(second.source, f"it has packets in common with the flow of line {first.source.line}, which has the same priority: which of them decides is not said")
        open_.append(flow)


def print_flows(box: Box, switch: FlowSwitch, job: JobText, names: Names, places: Dict[str, str]) -> Built:
    """Adds the nodes of a switch by flows to the job."""
    name, ports = names.of(box.name), switch.ports
    if len(ports) > _PORTS:
        raise Refused(box.source, f"it has {len(ports):,} ports, and a box of a job has at most {_PORTS:,}")
    numbers = sorted({0, *(it.table for it in switch.flows), *(action.value for it in switch.flows for action in it.actions if action.kind == RESUBMIT)})
    tables = {number: _Table(number, switch) for number in numbers}
    nodes = {number: names.part(box.name, f"table{number}") for number in numbers}
    entering = {f"in {at}": [Do("allocate global arrival:16;"), Do(f"set global arrival:16 = {at};"), Do("forward 0;")] for at in range(len(ports))}
    job.nodes.append(Node(name, len(ports), 1, entering, Origin((box.source,))))
    job.links.append(((name, 0), (nodes[0], 0)))
    places.update({f"in {name}.{at}": f"{box.name}.{port}" for at, port in enumerate(ports)})
    outputs: Dict[str, List[Port]] = {it: [] for it in ports}
    for number, table in tables.items():
        code: Dict[str, Sequence[Step]] = {"in 0": table.code()}
        code.update({f"out {at}": steps for way, at in table.ways.items() if (steps := table.leaving(way))})
        job.nodes.append(Node(nodes[number], 1, len(table.ways), code, Origin((box.source,))))
        for (_, port, to), at in table.ways.items():
            if port == "":
                job.links.append(((nodes[number], at), (nodes[to], 0)))
            else:
                outputs[port].append((nodes[number], at))
                places[f"out {nodes[number]}.{at}"] = f"{box.name}.{port}"
    return Built({it: (name, at) for at, it in enumerate(ports)}, outputs)
