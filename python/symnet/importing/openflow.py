"""`ovs-ofctl dump-flows BRIDGE` of Open vSwitch. The ports are named as the flows name them: by numbers, or by names with `--names`."""

import re
from typing import Dict, List, Optional, Tuple

from .model import ANY, COUNT_DOWN, OUTPUT, RESUBMIT, SET, WIDTHS, Action, Flow, FlowSwitch, Match, Refused, Source, test
from .numbers import icmp_range, network
from .sources import Text
from .topology import mac_of

# Words before the match of a flow that decide nothing: counters, and how long it is there or was not used.
_SILENT = ("cookie", "duration", "n_packets", "n_bytes", "idle_age", "hard_age", "reset_counts", "importance", "send_flow_rem", "check_overlap", "no_packet_counts",
           "no_byte_counts")
_TIMES = ("idle_timeout", "hard_timeout")
_IPV4 = 0x0800
_TYPES: Dict[str, Tuple[int, Optional[int]]] = {"ip": (_IPV4, None), "icmp": (_IPV4, 1), "tcp": (_IPV4, 6), "udp": (_IPV4, 17), "sctp": (_IPV4, 132),
                                                "arp": (0x0806, None), "rarp": (0x8035, None),
                                                "ipv6": (0x86DD, None), "tcp6": (0x86DD, 6), "udp6": (0x86DD, 17), "sctp6": (0x86DD, 132), "icmp6": (0x86DD, 58),
                                                "mpls": (0x8847, None), "mplsm": (0x8848, None)}
_FIELDS = {"dl_src": "Ethernet source", "eth_src": "Ethernet source", "dl_dst": "Ethernet destination", "eth_dst": "Ethernet destination",
           "dl_type": "Ethernet type", "eth_type": "Ethernet type",
           "nw_src": "source address", "ip_src": "source address", "nw_dst": "destination address", "ip_dst": "destination address", "nw_proto": "protocol",
           "ip_proto": "protocol",
           "nw_ttl": "TTL", "tp_src": "source port", "tcp_src": "source port", "udp_src": "source port", "tp_dst": "destination port",
           "tcp_dst": "destination port", "udp_dst": "destination port"}
_SETS = {"mod_dl_src": "Ethernet source", "mod_dl_dst": "Ethernet destination", "mod_nw_src": "source address", "mod_nw_dst": "destination address",
         "mod_tp_src": "source port",
         "mod_tp_dst": "destination port", "mod_nw_ttl": "TTL", "mod_vlan_vid": "VLAN"}
_WHY = {"NORMAL": "the switch learns addresses by itself", "CONTROLLER": "a decision outside the switch", "controller": "a decision outside the switch",
        "learn": "flows that packets make", "ct": "states of connections",
        "group": "groups, which stand in another output", "meter": "a limit of rate", "IN_PORT": "the way back by the port of arrival",
        "in_port": "the way back by the port of arrival"}
_NO_VLAN = 0xFFFF
_PORT = re.compile(r'"[^"]+"|[A-Za-z0-9_.-]+')


class _Reader:
    """Reads one flow."""

    def __init__(self, source: Source):
        self.source = source
        self.table, self.priority = 0, 32768
        self.match = ANY

    def fault(self, what: str) -> Refused:
        return Refused(self.source, what)

    # ------------------------------------------------ the match

    def part(self, part: str) -> None:
        """A part of the words before the actions."""
        name, sign, value = part.partition("=")
        if name in _SILENT:
            return
        if name in ("table", "priority"):
            found = self.number(value, 65535, name)
            self.table, self.priority = (found, self.priority) if name == "table" else (self.table, found)
        elif name in _TIMES:
            raise self.fault(f"`{part}`: a flow that ends by time")
        elif not sign and name in _TYPES:
            kind, protocol = _TYPES[name]
            self.meet(test("Ethernet type", [(kind, kind)]))
            self.meet(ANY if protocol is None else test("protocol", [(protocol, protocol)]))
        elif name == "in_port":
            self.meet(Match(comes=frozenset([self.port(value)])))
        elif name in ("dl_vlan", "vlan_vid"):
            vlan = self.number(value, _NO_VLAN, "VLAN")
            if vlan > 4094 and vlan != _NO_VLAN:
                raise self.fault(f"VLAN {vlan}: a VLAN has a number from 1 to 4,094")
            self.meet(test("VLAN", [(0, 0) if vlan == _NO_VLAN else (vlan, vlan)]))
        elif part == "vlan_tci=0x0000":
            self.meet(test("VLAN", [(0, 0)]))
        elif name in ("icmp_type", "icmp_code"):
            self.icmp(name, value)
        elif name in _FIELDS:
            self.meet(test(_FIELDS[name], [self.values(_FIELDS[name], value)]))
        else:
            raise self.fault(f"`{part}` is no test that a job has")

    def meet(self, match: Match) -> None:
        self.match = self.match.meet(match)

    def icmp(self, name: str, value: str) -> None:
        found = self.number(value, 255, name)
        if name == "icmp_type":
            self.meet(test("source port", [icmp_range(found)]))
            return
        kinds = self.match.values("source port")
        if kinds is None or len(kinds) != 1:
            raise self.fault("a code of ICMP without its type before it")
        self.meet(test("source port", [icmp_range(kinds[0][0] >> 8, found)]))

    def number(self, text: str, most: int, what: str) -> int:
        try:
            found = int(text, 0)
        except ValueError:
            found = -1
        if not 0 <= found <= most:
            raise self.fault(f"'{text}' is no {what} up to {most:,}")
        return found

    def values(self, name: str, text: str) -> Tuple[int, int]:
        """The values of a field: one, or those under a mask without holes."""
        base, is_masked, mask = text.partition("/")
        if name.endswith("address"):
            found = network(text)
            if found is None:
                raise self.fault(f"`{text}`: no prefix of IPv4, or a mask with holes")
            return found
        width = WIDTHS[name]
        first, bits = self.value(name, base), self.value(name, mask) if is_masked else (1 << width) - 1
        free = ~bits & ((1 << width) - 1)
        if free & (free + 1):
            raise self.fault(f"`{text}`: a mask with holes, whose values are no range")
        return first & bits, first & bits | free

    def value(self, name: str, text: str) -> int:
        if name.startswith("Ethernet") and name != "Ethernet type":
            found = mac_of(text)
            if found is None:
                raise self.fault(f"'{text}' is no address of Ethernet")
            return found
        if name.endswith("address"):
            ends = network(text)
            if ends is None or ends[0] != ends[1]:
                raise self.fault(f"'{text}' is no address of IPv4")
            return ends[0]
        return self.number(text, (1 << WIDTHS[name]) - 1, name)

    def port(self, text: str) -> str:
        if not _PORT.fullmatch(text):
            raise self.fault(f"'{text}' is no port")
        return text.strip('"')

    # ------------------------------------------------ the actions

    def actions(self, text: str) -> List[Action]:
        made: List[Action] = []
        parts = _parts(text)
        for at, part in enumerate(parts):
            word, _, value = part.partition(":")
            name = word.split("(")[0].split("=")[0]
            if part == "drop" and len(parts) == 1:
                continue
            if name in ("resubmit", "goto_table"):
                made.append(self.resubmit(part, at == len(parts) - 1))
            elif name in _SETS:
                made.append(self.set(_SETS[name], value, part))
            elif part in ("strip_vlan", "pop_vlan"):
                made.append(Action(SET, "VLAN", 0))
            elif part == "dec_ttl":
                made.append(Action(COUNT_DOWN))
            elif name == "set_field":
                made.append(self.set_field(value, part))
            elif part in ("FLOOD", "ALL", "flood", "all"):
                made.append(Action(OUTPUT))
            elif name in _WHY:
                raise self.fault(f"`{part}`: {_WHY[name]}, which a job does not have")
            elif name == "output" or (_PORT.fullmatch(part) and (part.isdigit() or part.startswith('"') or part == "LOCAL")):
                made.append(Action(OUTPUT, self.port(value if name == "output" else part)))
            else:
                raise self.fault(f"`{part}` is no action that a job has")
        return made

    def set(self, name: str, text: str, part: str) -> Action:
        value = self.value(name, text)
        if name == "VLAN" and not 1 <= value <= 4094:
            raise self.fault(f"`{part}`: a VLAN has a number from 1 to 4,094")
        return Action(SET, name, value)

    def set_field(self, value: str, part: str) -> Action:
        text, arrow, name = value.rpartition("->")
        if not arrow or name not in _FIELDS or "/" in text:
            raise self.fault(f"`{part}` sets what a job does not have")
        return Action(SET, _FIELDS[name], self.value(_FIELDS[name], text))

    def resubmit(self, part: str, is_last: bool) -> Action:
        found = re.fullmatch(r"resubmit\(,(\d+)\)|goto_table:(\d+)", part)
        if not found:
            raise self.fault(f"`{part}`: only another table may be looked into, as resubmit(,1)")
        if not is_last:
            raise self.fault(f"`{part}` is not the last action: what the other table does to the packet would hold for those behind it")
        return Action(RESUBMIT, value=self.number(found[1] or found[2], 254, "table"))


def _parts(text: str) -> List[str]:
    """The parts between commas that stand in no brackets."""
    parts, depth = [""], 0
    for letter in text:
        depth += {"(": 1, ")": -1}.get(letter, 0)
        if letter == "," and depth == 0:
            parts.append("")
        else:
            parts[-1] += letter
    return [it.strip() for it in parts if it.strip()]


def _flow(line: str, source: Source) -> Flow:
    head, _, actions = line.partition("actions=")
    reader = _Reader(source)
    for part in _parts(re.sub(r"(?<=[^,\s])\s+(?=\S)", ",", head.strip())):
        reader.part(part)
    return Flow(reader.table, reader.priority, reader.match, tuple(reader.actions(actions.strip())), source)


def read_flows(text: Text) -> FlowSwitch:
    """The flows, and the ports that they name."""
    flows: List[Flow] = []
    for line, source in text.lines():
        if "actions=" in line:
            told = source._replace(text=re.sub(r"\b(cookie|duration|n_packets|n_bytes|idle_age|hard_age)=[^, ]*,? *", "", source.text))
            flows.append(_flow(line, told))
        elif line.strip() and not re.match(r"\s*(NXST|OFPST)_FLOW reply", line):
            raise Refused(source, "no line that `ovs-ofctl dump-flows` writes")
    if not flows:
        raise Refused(text.source(1), "no flow")
    named = [name for it in flows for name in sorted(it.match.comes or ())] + [action.name for it in flows for action in it.actions if action.kind == OUTPUT and action.name]
    return FlowSwitch(flows, list(dict.fromkeys(named)), flows[0].source)
