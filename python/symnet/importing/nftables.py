"""`nft -j list ruleset`: the chains of type filter that packets meet which come from outside.

Tables of the families ip and inet are read; those of ip6 and arp have no packet of the job. What changes packets, or reads more than a job's packet has, is refused by its
place: states, marks, limits, address translation. So is `nft list` as text, which can be read in two ways.
"""

import json
from typing import Any, Callable, Dict, List, NamedTuple, Optional, Sequence, Set, Tuple

from .model import ACCEPT, ANY, DROP, GOTO, JUMP, REJECT, RETURN, WIDTHS, Chain, Filter, Match, Refused, Rule, Source, product, test
from .numbers import ICMP, ICMP_TYPES, PROTOCOLS, address, icmp_range, number
from .sources import Text, members, shaped, told

# The hooks that packets meet which come from outside, in their order on the way; and those that no such packet meets.
PREROUTING, INPUT, FORWARD, POSTROUTING = "prerouting", "input", "forward", "postrouting"
_HOOKS = (PREROUTING, INPUT, FORWARD, POSTROUTING)
_FAMILIES, _OTHER_FAMILIES = ("ip", "inet"), ("ip6", "arp")
_SILENT = ("counter", "log", "comment")
_VERDICTS = {"accept": ACCEPT, "drop": DROP, "reject": REJECT, "return": RETURN, "jump": JUMP, "goto": GOTO}
_WHY = {"ct": "a state of a connection", "limit": "a limit of rate", "quota": "a limit of volume", "mangle": "a change of the packet",
        "masquerade": "address translation",
        "snat": "address translation", "dnat": "address translation", "redirect": "address translation", "queue": "a decision outside the kernel",
        "xt": "a part that another tool wrote",
        "notrack": "an exception from the tracking of connections", "dup": "a copy of the packet", "fwd": "another way of the packet",
        "set": "a set that packets change",
        "map": "a map that packets change", "flow": "a shortcut of the kernel", "synproxy": "an answer in the server's place", "tproxy": "another way of the packet",
        "meter": "a limit of rate", "ct count": "a count of connections", "secmark": "a mark", "ct helper": "a state of a connection",
        "ct timeout": "a state of a connection"}
_KEYS = {("ip", "saddr"): "source address", ("ip", "daddr"): "destination address", ("ip", "protocol"): "protocol", ("ip", "ttl"): "TTL",
         **{(kind, name): field for kind in ("tcp", "udp", "udplite", "sctp", "dccp", "th") for name, field in (("sport", "source port"), ("dport",
         "destination port"))}}
_ORDERS = ("<", ">", "<=", ">=")
# The priorities that nft writes by name in some versions.
_PRIORITIES = {"raw": -300, "mangle": -150, "dstnat": -100, "filter": 0, "security": 50, "srcnat": 100}


class _Key(NamedTuple):
    """What a test reads: a field, `comes`, `goes`, `family` or `type of ICMP`; and what the packet has to be for it."""

    name: str
    needs: Match = ANY


def _flags(body: Any) -> Set[str]:
    """The flags of a part of the ruleset; some versions write a single one without a list."""
    flags = body.get("flags", [])
    return {str(it) for it in flags} if isinstance(flags, list) else {str(flags)}


def _compact(value: Any) -> str:
    return json.dumps(value, separators=(",", ":"))


class _Table:
    """A table's named sets, as their elements."""

    def __init__(self) -> None:
        self.sets: Dict[str, Tuple[Any, Source]] = {}
        self.maps: Dict[str, Tuple[Any, Source]] = {}
        self.chains: Dict[str, Chain] = {}


class _Reader:
    """Reads the expressions of one rule."""

    def __init__(self, table: _Table, interfaces: Sequence[str], source: Source):
        self.table, self.interfaces, self.source = table, interfaces, source

    def fault(self, what: str) -> Refused:
        return Refused(self.source, what)

    def rules(self, parts: Any) -> List[Rule]:
        """The rules that one of nft comes to: one, or one for each element of a map of verdicts."""
        groups: List[List[Match]] = []
        made: List[Rule] = []
        is_mapped = False
        for part in shaped(parts, list, self.source, "a rule"):
            kind, body = self.single(part, "a part of a rule")
            if is_mapped and kind not in _SILENT:
                raise self.fault(f"`{kind}` behind a map of verdicts, which is not read")
            if kind == "match":
                groups.append(self.match(body))
            elif kind == "vmap":
                is_mapped = True
                for matches, verdict in self.verdict_map(body):
                    action, target = self.verdict(verdict)
                    made += [Rule(tuple(product([*groups, matches])), action, self.source, target)] if action else []
            elif kind in _VERDICTS:
                action, target = self.verdict(part)
                return [*made, Rule(tuple(product(groups)), action, self.source, target)]
            elif kind == "continue":
                return made
            elif kind not in _SILENT:
                raise self.fault(f"{_WHY[kind]} (`{kind}`), which a job does not have" if kind in _WHY else f"`{kind}` is nothing that a job has")
        return made

    def single(self, part: Any, what: str) -> Tuple[str, Any]:
        """The one member of an object."""
        if not isinstance(part, dict) or len(part) != 1:
            raise self.fault(f"{what} has not the form that nft writes: {_compact(part)[:80]}")
        return next(iter(part.items()))

    def verdict(self, part: Any) -> Tuple[str, str]:
        kind, body = self.single(part, "a verdict")
        if kind == "continue":
            return "", ""
        if kind not in _VERDICTS:
            raise self.fault(f"`{kind}` is no verdict that a job has")
        target = shaped(body.get("target") if isinstance(body, dict) else None, str, self.source, "a jump") if kind in ("jump", "goto") else ""
        return _VERDICTS[kind], target

    # ------------------------------------------------ what is read

    def key(self, left: Any) -> _Key:
        kind, body = self.single(left, "the left side of a test")
        if kind == "meta":
            return self.meta(body.get("key") if isinstance(body, dict) else None)
        if kind == "payload" and isinstance(body, dict):
            return self.payload(body)
        raise self.fault(f"{_WHY[kind]} (`{kind}`), which a job does not have" if kind in _WHY else f"a test of `{kind}`, which a job does not have")

    def meta(self, key: Any) -> _Key:
        found = {"iifname": "comes", "iif": "comes", "oifname": "goes", "oif": "goes", "l4proto": "protocol", "nfproto": "family",
                 "protocol": "family"}.get(str(key))
        if found is None:
            raise self.fault("a mark, which a job does not have" if key == "mark" else f"a test of `meta {key}`, which a job does not have")
        return _Key(found)

    def payload(self, body: Dict[str, Any]) -> _Key:
        kind, name = str(body.get("protocol")), str(body.get("field"))
        if (kind, name) in _KEYS:
            return _Key(_KEYS[kind, name], ANY if kind in ("ip", "th") else test("protocol", [(PROTOCOLS[kind], PROTOCOLS[kind])]))
        if (kind, name) == ("icmp", "type"):
            return _Key("type of ICMP", test("protocol", [(ICMP, ICMP)]))
        if kind in ("ip6", "icmpv6"):
            return _Key("never")
        if body.get("base") == "th" and (body.get("offset"), body.get("len")) == (0, 32):
            # nft joins the two ports where they are tested one behind the other
            return _Key("both ports")
        what = f"{kind} {name}" if "protocol" in body else f"@{body.get('base')},{body.get('offset')},{body.get('len')}"
        raise self.fault(f"a test of `{what}`, which a job does not have")

    # ------------------------------------------------ tests

    def match(self, body: Any) -> List[Match]:
        if not isinstance(body, dict) or not {"op", "left", "right"} <= set(body):
            raise self.fault("a test has not the form that nft writes")
        left, right, sign = body["left"], body["right"], body["op"]
        if sign not in ("==", "!=", "in", *_ORDERS):
            raise self.fault(f"a test with `{sign}`, which a job does not have")
        if isinstance(left, dict) and "concat" in left:
            if sign not in ("==", "in"):
                raise self.fault("joined fields that are tested for another relation than being in a set")
            return [both for one in self.elements(right) for both in self.joined(left["concat"], one)]
        if isinstance(left, dict) and any(it in left for it in ("&", "|", "^", "<<", ">>")):
            raise self.fault("a test of some bits of a field, which a job does not have")
        return self.test(self.key(left), sign, right)

    def joined(self, keys: Any, one: Any) -> List[Match]:
        """The packets of one element of a set of joined fields."""
        values = one.get("concat") if isinstance(one, dict) else None
        if not isinstance(keys, list) or not isinstance(values, list) or len(keys) != len(values):
            raise self.fault("joined fields whose number is not that of the values")
        return product([self.test(self.key(key), "==", value) for key, value in zip(keys, values)])

    def elements(self, right: Any) -> List[Any]:
        """The elements of a set, or the value as the only one."""
        if isinstance(right, str) and right.startswith("@"):
            if right[1:] not in self.table.sets:
                raise self.fault(f"the set {right}, which is not in its table")
            right = {"set": self.table.sets[right[1:]][0]}
        if isinstance(right, dict) and "set" in right:
            found = right["set"] if isinstance(right["set"], list) else [right["set"]]
            return [self.element(it) for it in found]
        return [right]

    def element(self, one: Any) -> Any:
        if isinstance(one, dict) and "elem" in one:
            body = one["elem"]
            if not isinstance(body, dict) or set(body) - {"val", "comment", "counter"}:
                raise self.fault("an element of a set that ends by time, or has more than a value")
            return body.get("val")
        return one

    def test(self, key: _Key, sign: str, right: Any) -> List[Match]:
        """The packets for which the test is true: in one of the matches."""
        found = self.elements(right)
        is_not = sign == "!="
        if key.name == "never":
            return []
        if key.name in ("comes", "goes"):
            return self.interface(key.name, found, is_not, sign)
        if key.name == "family":
            is_ipv4 = any(it in ("ipv4", "ip", 2, 0x0800) for it in found)
            return [ANY] if is_ipv4 != is_not else []
        if key.name == "both ports":
            return self.both_ports(found, is_not, sign)
        if key.name == "type of ICMP":
            parts = [icmp_range(low)[:1] + icmp_range(high)[1:] for low, high in (self.span(it, "type of ICMP", 255) for it in self.ordered(found, sign, "type of ICMP", 255))]
            return [test("source port", parts, is_not).meet(key.needs)]
        width = WIDTHS[key.name]
        parts = [part for it in self.ordered(found, sign, key.name, (1 << width) - 1) for part in [self.span(it, key.name, (1 << width) - 1)]]
        return [test(key.name, parts, is_not).meet(key.needs)]

    def ordered(self, found: List[Any], sign: str, name: str, most: int) -> List[Any]:
        """The values, or for an order those that are below or above the one value."""
        if sign not in _ORDERS:
            return found
        low, high = self.span(found[0], name, most) if len(found) == 1 else (0, 1)
        if low != high:
            raise self.fault("an order of more than one value")
        ends = {"<": (0, low - 1), "<=": (0, low), ">": (low + 1, most), ">=": (low, most)}[sign]
        return [ends] if ends[0] <= ends[1] else []

    def interface(self, side: str, found: List[Any], is_not: bool, sign: str) -> List[Match]:
        if sign in _ORDERS or not all(isinstance(it, str) for it in found):
            raise self.fault("an interface that is not given by its name")
        # where a packet goes by none, as in the hook input, its name is empty, which a test with != has
        named = frozenset(it for it in (*self.interfaces, "") if any(it == one or (one.endswith("*") and it.startswith(one[:-1])) for one in found) != is_not)
        return [Match(comes=named) if side == "comes" else Match(goes=named)]

    def both_ports(self, found: List[Any], is_not: bool, sign: str) -> List[Match]:
        if is_not or sign in _ORDERS or not all(isinstance(it, int) and 0 <= it < 1 << 32 for it in found):
            raise self.fault("a test of the first 32 bits behind the IP header that is not for a value")
        return [test("source port", [(it >> 16,) * 2]).meet(test("destination port", [(it & 0xFFFF,) * 2])) for it in found]

    def span(self, one: Any, name: str, most: int) -> Tuple[int, int]:
        """The least and the greatest value of an element."""
        if isinstance(one, tuple):
            return one
        if isinstance(one, dict) and "range" in one and isinstance(one["range"], list) and len(one["range"]) == 2:
            low, high = (self.value(it, name, most) for it in one["range"])
            if low <= high:
                return low, high
        elif isinstance(one, dict) and "prefix" in one and isinstance(one["prefix"], dict):
            size = 32 - shaped(one["prefix"].get("len"), int, self.source, "a prefix")
            if name in ("source address", "destination address") and 0 <= size <= 32:
                low = self.value(one["prefix"].get("addr"), name, most) >> size << size
                return low, low + (1 << size) - 1
        else:
            return (self.value(one, name, most),) * 2
        raise self.fault(f"`{_compact(one)[:60]}` are no values of the {name}")

    def value(self, one: Any, name: str, most: int) -> int:
        found: Optional[int] = None
        if isinstance(one, int) and not isinstance(one, bool):
            found = one if 0 <= one <= most else None
        elif isinstance(one, str):
            named = {"protocol": PROTOCOLS, "type of ICMP": ICMP_TYPES}.get(name, {})
            found = address(one) if name.endswith("address") else named.get(one, number(one, most))
        if found is None:
            raise self.fault(f"`{_compact(one)[:60]}` is no value of the {name} that is known")
        return found

    def verdict_map(self, body: Any) -> List[Tuple[List[Match], Any]]:
        """The elements of a map: which packets, and what becomes of them. No packet is in two of them."""
        if not isinstance(body, dict) or not {"key", "data"} <= set(body):
            raise self.fault("a map has not the form that nft writes")
        data = body["data"]
        if isinstance(data, str) and data.startswith("@"):
            if data[1:] not in self.table.maps:
                raise self.fault(f"the map {data}, which is not in its table")
            rows = self.table.maps[data[1:]][0]
        else:
            rows = data.get("set") if isinstance(data, dict) else None
        made = []
        for row in shaped(rows, list, self.source, "a map"):
            if not isinstance(row, list) or len(row) != 2:
                raise self.fault("a map has not the form that nft writes")
            key, one = body["key"], self.element(row[0])
            matches = self.joined(key["concat"], one) if isinstance(key, dict) and "concat" in key else self.test(self.key(key), "==", one)
            made.append((matches, row[1]))
        return made


# ---------------------------------------------------------------- the ruleset


class _Base(NamedTuple):
    hook: str
    priority: int
    order: int
    table: Tuple[str, str]
    chain: Chain


class _Ruleset:
    def __init__(self, interfaces: Sequence[str], notes: List[str]):
        self.interfaces, self.notes = interfaces, notes
        self.tables: Dict[Tuple[str, str], _Table] = {}
        self.bases: List[_Base] = []
        self.rules: List[Tuple[Tuple[str, str], str, Any, Source]] = []
        # chains that no packet meets which comes from outside
        self.unmet: Dict[Tuple[str, str, str], bool] = {}
        self.others = 0

    def item(self, item: Any, source: Source) -> None:
        if not isinstance(item, dict) or len(item) != 1:
            raise Refused(source, "a part of the ruleset has not the form that nft writes")
        kind, body = next(iter(item.items()))
        shaped(body, dict, source, f"a {kind}")
        family = body.get("family", "ip")
        if kind == "metainfo":
            return
        if family in _OTHER_FAMILIES:
            self.others += kind == "rule"
            return
        source = told(source, _words(kind, body))
        if family not in _FAMILIES:
            raise Refused(source, f"a {kind} of the family {family}, which is not read")
        key = family, str(body.get("name" if kind == "table" else "table"))
        table = self.tables.setdefault(key, _Table())
        takes: Dict[str, Callable[[Tuple[str, str], _Table, Any, Source], None]] = {"table": self.table, "chain": self.chain, "rule": self.rule, "set": self.set,
                                                                                    "map": self.map}
        if kind in takes:
            takes[kind](key, table, body, source)
        elif kind not in ("counter", "element"):
            raise Refused(source, f"{_WHY[kind]} (`{kind}`), which a job does not have" if kind in _WHY else f"a {kind}, which a job does not have")

    def table(self, _: Tuple[str, str], __: _Table, body: Any, source: Source) -> None:
        if "dormant" in _flags(body):
            raise Refused(source, "a table that is dormant, which is not read")

    def chain(self, key: Tuple[str, str], table: _Table, body: Any, source: Source) -> None:
        name = shaped(body.get("name"), str, source, "a chain")
        hook = body.get("hook")
        policy = body.get("policy", "accept")
        if policy not in ("accept", "drop"):
            raise Refused(source, f"the policy {policy}, which is none of nft's")
        made = Chain(name, [], RETURN if hook is None else ACCEPT if policy == "accept" else DROP, source)
        table.chains[name] = made
        if hook is None:
            return
        if hook not in _HOOKS:
            self.unmet[(*key, name)] = True
            if hook == "ingress":
                raise Refused(source, "a chain of the hook ingress, which is not read")
            return
        priority = body.get("prio", 0)
        priority = _PRIORITIES.get(priority, priority) if isinstance(priority, str) else priority
        self.bases.append(_Base(hook, shaped(priority, int, source, "a chain's priority"), len(self.bases), key, made))
        if body.get("type") != "filter":
            # such a chain is good as long as it has no rule
            self.unmet[(*key, name)] = False

    def rule(self, key: Tuple[str, str], _: _Table, body: Any, source: Source) -> None:
        chain = shaped(body.get("chain"), str, source, "a rule")
        where = (*key, chain)
        if self.unmet.get(where) is False:
            raise Refused(source, "a rule of a chain that is not of the type filter: address translation, or another way of the packet")
        if where not in self.unmet:
            self.rules.append((key, chain, body.get("expr"), source))

    def set(self, _: Tuple[str, str], table: _Table, body: Any, source: Source) -> None:
        self.elements(table.sets, body, source)

    def map(self, _: Tuple[str, str], table: _Table, body: Any, source: Source) -> None:
        self.elements(table.maps, body, source)

    def elements(self, into: Dict[str, Tuple[Any, Source]], body: Any, source: Source) -> None:
        if "timeout" in body or _flags(body) & {"timeout", "dynamic"}:
            raise Refused(source, "a set whose elements come and go by time or by packets, which a job does not have")
        into[str(body.get("name"))] = body.get("elem", []), source

    def read_rules(self) -> None:
        for key, name, parts, source in self.rules:
            table = self.tables[key]
            if name not in table.chains:
                raise Refused(source, f"a rule of the chain {name}, which no part before it names")
            for rule in _Reader(table, self.interfaces, source).rules(parts):
                if rule.target and rule.target not in table.chains:
                    raise Refused(source, f"a jump to {rule.target}, which is no chain of its table")
                table.chains[name].rules.append(rule)

    def filters(self, *hooks: str) -> List[Filter]:
        """What packets meet at these hooks, in its order."""
        found = sorted((it for it in self.bases if it.hook in hooks), key=lambda it: (hooks.index(it.hook), it.priority, it.order))
        return [Filter(it.chain, self.tables[it.table].chains) for it in found]


def _words(kind: str, body: Any) -> str:
    """A part of the ruleset by a few words."""
    if kind != "rule":
        return " ".join(str(it) for it in (kind, body.get("family"), body.get("table"), body.get("name")) if it is not None)
    parts = [_part_words(it) for it in body.get("expr", []) if isinstance(it, dict) and len(it) == 1] if isinstance(body.get("expr"), list) else []
    return f"{body.get('family')} {body.get('table')} {body.get('chain')}: {' '.join(filter(None, parts))}"


def _part_words(part: Any) -> str:
    kind, body = next(iter(part.items()))
    if kind == "match" and isinstance(body, dict):
        sign = "" if body.get("op") in ("==", "in") else f"{body.get('op')} "
        return f"{_value_words(body.get('left'))} {sign}{_value_words(body.get('right'))}"
    if kind == "vmap" and isinstance(body, dict):
        return f"{_value_words(body.get('key'))} vmap .."
    if kind in _SILENT:
        return ""
    return f"{kind} {body['target']}" if isinstance(body, dict) and "target" in body else kind


def _value_words(value: Any) -> str:
    if not isinstance(value, dict) or len(value) != 1:
        return str(value) if not isinstance(value, (dict, list)) else _compact(value)
    kind, body = next(iter(value.items()))
    if kind == "set":
        return f"{{ {', '.join(_value_words(it) for it in (body if isinstance(body, list) else [body]))} }}"
    if kind == "range" and isinstance(body, list):
        return "-".join(_value_words(it) for it in body)
    if kind == "concat" and isinstance(body, list):
        return " . ".join(_value_words(it) for it in body)
    if isinstance(body, dict):
        if kind == "prefix":
            return f"{body.get('addr')}/{body.get('len')}"
        if kind == "elem":
            return _value_words(body.get("val"))
        if kind == "payload" and "protocol" in body:
            return f"{body['protocol']} {body.get('field')}"
        if kind == "meta":
            key = str(body.get("key"))
            return key if key in ("iifname", "iif", "oifname", "oif") else f"meta {key}"
    return _compact(value)


class Nft(NamedTuple):
    """What packets meet before they are routed, what those meet that are forwarded, and what those that are for the box itself."""

    arriving: List[Filter]
    forwarded: List[Filter]
    delivered: List[Filter]


def read_nft(text: Text, interfaces: Sequence[str], notes: List[str]) -> Nft:
    """The filters of `nft -j list ruleset`. `interfaces` are those of the box."""
    if text.text.lstrip().startswith("table "):
        raise Refused(text.source(1), "`nft list ruleset` as text, which can be read in two ways, as `th dport 53` beside a protocol: write `nft -j list ruleset`")
    ruleset = _Ruleset(interfaces, notes)
    for item, source in members(text, "nftables"):
        ruleset.item(item, source)
    ruleset.read_rules()
    if ruleset.others:
        notes.append(f"{text.name}: {ruleset.others:,} rules of tables of ip6 and arp, which decide no packet of IPv4")
    return Nft(ruleset.filters(PREROUTING), ruleset.filters(FORWARD, POSTROUTING), ruleset.filters(INPUT))
