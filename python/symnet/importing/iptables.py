"""`iptables-save`: the chains of the table filter.

What changes packets, or reads more than a job's packet has, is refused by its line: states, marks, limits, address translation. So are jumps to chains that are not there.
"""

import fnmatch
import shlex
from typing import Callable, Dict, List, Optional, Sequence, Tuple

from .model import ACCEPT, ANY, DROP, GOTO, JUMP, REJECT, RETURN, Chain, Filter, Match, Refused, Rule, Source, product, test
from .numbers import ICMP_TYPES, address, icmp_range, network, number, protocol, span
from .sources import Text

# The chains that packets meet which come from outside: those that are forwarded, and those for the box itself.
FORWARD, INPUT = "FORWARD", "INPUT"
_POLICIES = {"ACCEPT": ACCEPT, "DROP": DROP}
_ACTIONS = {"ACCEPT": ACCEPT, "DROP": DROP, "REJECT": REJECT, "RETURN": RETURN}
# Targets that decide nothing, and options behind them.
_SILENT = ("LOG", "NFLOG", "ULOG", "TRACE", "AUDIT")
_SILENT_OPTIONS = ("--log-prefix", "--log-level", "--nflog-prefix", "--nflog-group", "--nflog-threshold", "--nflog-size", "--nflog-range", "--type",
                   "--ulog-prefix", "--ulog-nlgroup")
_SILENT_FLAGS = ("--log-tcp-sequence", "--log-tcp-options", "--log-ip-options", "--log-uid", "--log-macdecode")
_MODULES = ("tcp", "udp", "udplite", "sctp", "dccp", "multiport", "comment", "iprange", "ttl", "icmp")
_PORTS = {"--sport": "source port", "--source-port": "source port", "--sports": "source port", "--source-ports": "source port",
          "--dport": "destination port", "--destination-port": "destination port", "--dports": "destination port", "--destination-ports": "destination port"}
_WHY = {"state": "a state of a connection", "conntrack": "a state of a connection", "mark": "a mark", "connmark": "a mark", "limit": "a limit of rate",
        "hashlimit": "a limit of rate",
        "set": "a set that stands in another output (ipset)", "tcp_flags": "flags of TCP", "recent": "a state of earlier packets",
        "addrtype": "a type of addresses", "physdev": "ports of a bridge"}


class _Reader:
    """Reads the words of a rule from front to back."""

    def __init__(self, words: List[str], source: Source, interfaces: Sequence[str]):
        self.words, self.source, self.interfaces = words, source, interfaces
        self.groups: List[List[Match]] = []
        self.action, self.target = "", ""

    def fault(self, what: str) -> Refused:
        return Refused(self.source, what)

    def value(self, word: str) -> str:
        if not self.words:
            raise self.fault(f"a value is missing behind {word}")
        return self.words.pop(0)

    def read(self) -> None:
        while self.words:
            is_not = self.words[0] == "!"
            word = self.words.pop(0) if not is_not else self.value(self.words.pop(0))
            if word in _OPTIONS:
                _OPTIONS[word](self, word, is_not)
            elif word in ("-j", "--jump", "-g", "--goto") and not is_not:
                self.verdict(self.value(word), word in ("-g", "--goto"))
            elif word in ("-m", "--match") and not is_not:
                self.module(self.value(word))
            elif word == "--comment" and not is_not:
                self.value(word)
            else:
                raise self.fault(f"`-j {self.target}` is no target that a job has" if self.target else f"`{word}` is no test that a job has")

    def module(self, name: str) -> None:
        if name not in _MODULES:
            raise self.fault(f"{_WHY[name]} (-m {name}): a job has none" if name in _WHY else f"`-m {name}` is no test that a job has")

    def verdict(self, word: str, is_goto: bool) -> None:
        if self.action or self.target:
            raise self.fault("a second target")
        if word in _ACTIONS and not is_goto:
            self.action = _ACTIONS[word]
            if word == "REJECT" and self.words[:1] == ["--reject-with"]:
                self.words[:2] = []
        elif word in _SILENT and not is_goto:
            self.action = "none"
            while self.words:
                option = self.words.pop(0)
                if option in _SILENT_OPTIONS:
                    self.value(option)
                elif option not in _SILENT_FLAGS:
                    raise self.fault(f"`{option}` is no option of {word} that is read")
        else:
            self.action, self.target = GOTO if is_goto else JUMP, word

    # ------------------------------------------------ tests

    def network(self, word: str, is_not: bool) -> None:
        found = [network(part) for part in self.value(word).split(",")]
        if None in found:
            raise self.fault(f"{word}: no prefix of IPv4, or a mask with holes")
        self.groups.append([test("source address" if word in ("-s", "--source", "--src") else "destination address", [it for it in found if it], is_not)])

    def protocol(self, word: str, is_not: bool) -> None:
        text = self.value(word)
        found = None if text == "all" else protocol(text)
        if text != "all" and found is None:
            raise self.fault(f"`{text}` is no protocol that is known")
        if found is None or found == 0:
            # 0 stands for all protocols
            self.groups.append([] if is_not else [ANY])
        else:
            self.groups.append([test("protocol", [(found, found)], is_not)])

    def interface(self, word: str, is_not: bool) -> None:
        text = self.value(word)
        pattern = f"{fnmatch_quoted(text[:-1])}*" if text.endswith("+") else fnmatch_quoted(text)
        # where a packet is for the box itself `-o` looks at no name, which a test with `!` has
        named = frozenset(it for it in (*self.interfaces, "") if fnmatch.fnmatchcase(it, pattern) != is_not)
        self.groups.append([Match(comes=named) if word in ("-i", "--in-interface") else Match(goes=named)])

    def ports(self, word: str, is_not: bool) -> None:
        found = self._spans(word)
        self.groups.append([test(_PORTS[word], found, is_not)])

    def both_ports(self, word: str, is_not: bool) -> None:
        found = self._spans(word)
        either = [test("source port", found, is_not), test("destination port", found, is_not)]
        self.groups += [[it] for it in either] if is_not else [either]

    def _spans(self, word: str) -> List[Tuple[int, int]]:
        found = [span(part, ":") for part in self.value(word).split(",")]
        if None in found:
            raise self.fault(f"{word}: no port, and no range of ports")
        return [it for it in found if it]

    def addresses(self, word: str, is_not: bool) -> None:
        low, _, high = self.value(word).partition("-")
        ends = address(low), address(high or low)
        if ends[0] is None or ends[1] is None or ends[0] > ends[1]:
            raise self.fault(f"{word}: no range of addresses")
        self.groups.append([test("source address" if word == "--src-range" else "destination address", [(ends[0], ends[1])], is_not)])

    def ttl(self, word: str, is_not: bool) -> None:
        found = number(self.value(word), 255)
        if found is None or (found == 0 and word == "--ttl-lt") or (found == 255 and word == "--ttl-gt"):
            raise self.fault(f"{word}: no time to live that a packet can have")
        ends = {"--ttl-eq": (found, found), "--ttl-lt": (0, found - 1), "--ttl-gt": (found + 1, 255)}[word]
        self.groups.append([test("TTL", [ends], is_not)])

    def icmp(self, word: str, is_not: bool) -> None:
        text = self.value(word)
        kind, has_code, code = text.partition("/")
        if text in ("any", "255"):
            self.groups.append([] if is_not else [ANY])
            return
        found = ICMP_TYPES.get(kind, number(kind, 255)), number(code, 255) if has_code else None
        if found[0] is None or (has_code and found[1] is None):
            raise self.fault(f"`{text}` is no type of ICMP that is known")
        self.groups.append([test("source port", [icmp_range(found[0], found[1])], is_not)])

    def refuse(self, word: str, _: bool) -> None:
        why = {"--syn": "tcp_flags", "--tcp-flags": "tcp_flags", "--tcp-option": "tcp_flags", "--state": "state", "--ctstate": "conntrack",
               "--mark": "mark"}.get(word)
        raise self.fault(f"`{word}`: {_WHY[why]}, which a job does not have" if why else f"`{word}`: fragments, which a job does not have")


def fnmatch_quoted(text: str) -> str:
    """A name as a pattern that has it alone."""
    return "".join(f"[{it}]" if it in "*?[" else it for it in text)


_OPTIONS: Dict[str, Callable[[_Reader, str, bool], None]] = {
    **dict.fromkeys(("-s", "--source", "--src", "-d", "--destination", "--dst"), _Reader.network), **dict.fromkeys(("-p", "--protocol"), _Reader.protocol),
    **dict.fromkeys(("-i", "--in-interface", "-o", "--out-interface"), _Reader.interface), **dict.fromkeys(_PORTS, _Reader.ports), "--ports": _Reader.both_ports,
    "--src-range": _Reader.addresses, "--dst-range": _Reader.addresses, **dict.fromkeys(("--ttl-eq", "--ttl-lt", "--ttl-gt"), _Reader.ttl),
    "--icmp-type": _Reader.icmp,
    **dict.fromkeys(("--syn", "--tcp-flags", "--tcp-option", "--state", "--ctstate", "--mark", "-f", "--fragment"), _Reader.refuse),
}


def _rule(words: List[str], source: Source, interfaces: Sequence[str]) -> Optional[Rule]:
    """The rule of the words behind its chain's name; None where it decides nothing."""
    reader = _Reader(words, source, interfaces)
    reader.read()
    if reader.action in ("", "none"):
        return None
    return Rule(tuple(product(reader.groups)), reader.action, source, reader.target)


def _words(line: str, source: Source) -> List[str]:
    try:
        return shlex.split(line)
    except ValueError:
        raise Refused(source, "a quotation that does not end") from None


class _Tables:
    """What is read of the lines: the chains of the table filter, by their names."""

    def __init__(self, interfaces: Sequence[str]):
        self.table = ""
        self.interfaces = interfaces
        self.chains: Dict[str, Chain] = {}

    def chain(self, line: str, source: Source) -> None:
        words = line[1:].split()
        if len(words) < 2:
            raise Refused(source, "a chain and its policy should stand here, as `:FORWARD DROP [0:0]`")
        name, policy = words[:2]
        if self.table != "filter":
            if policy not in ("ACCEPT", "-"):
                raise Refused(source, f"the policy {policy} in the table {self.table}: only the table filter may drop packets")
            return
        if name in self.chains:
            raise Refused(source, f"the chain {name} is there already: two outputs of iptables-save in one file, or rules of both backends")
        if policy not in (*_POLICIES, "-"):
            raise Refused(source, f"`{policy}` is no policy")
        self.chains[name] = Chain(name, [], _POLICIES.get(policy, RETURN), source)

    def rule(self, line: str, source: Source) -> None:
        words = _words(line, source)
        if words and words[0].startswith("["):
            words.pop(0)
        if self.table != "filter":
            what = {"nat": "address translation", "mangle": "changes of packets", "raw": "exceptions from the tracking of connections"}.get(self.table, "rules")
            raise Refused(source, f"a rule of the table {self.table or 'without a name'}: {what}, which a job does not have")
        if len(words) < 2 or words[1] not in self.chains:
            raise Refused(source, "a rule of a chain that no line before it names")
        if words[1] == "OUTPUT":
            return
        made = _rule(words[2:], source, self.interfaces)
        if made is not None:
            self.chains[words[1]].rules.append(made)

    def line(self, line: str, source: Source) -> None:
        if line.startswith("*"):
            self.table = line[1:].strip()
        elif line.startswith(":"):
            self.chain(line, source)
        elif line.startswith(("-A ", "[")):
            self.rule(line, source)
        elif line.strip() == "COMMIT":
            self.table = ""
        elif line.strip() and not line.startswith("#"):
            raise Refused(source, "no line that iptables-save writes")


def read_iptables(text: Text, interfaces: Sequence[str]) -> Tuple[List[Filter], List[Filter]]:
    """What forwarded packets meet, and what packets for the box itself meet. `interfaces` are those of the box."""
    tables = _Tables(interfaces)
    for line, source in text.lines():
        tables.line(line, source)
    for chain in tables.chains.values():
        for rule in chain.rules:
            if rule.target and rule.target not in tables.chains:
                raise Refused(rule.source, f"a jump to {rule.target}: no chain of the file, and no target that a job has")
            if rule.target in (FORWARD, INPUT, "OUTPUT"):
                raise Refused(rule.source, f"a jump to the chain {rule.target}, which begins a way of its own")

    def base(name: str) -> List[Filter]:
        return [Filter(tables.chains[name], tables.chains)] if name in tables.chains else []

    return base(FORWARD), base(INPUT)
