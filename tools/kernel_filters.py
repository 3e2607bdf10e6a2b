"""Draws filters for kernel_test.py: rulesets of nftables, as `nft -f` reads them, and of iptables, as `iptables-restore` does.

Rules have values of the plan and further ones, which are put down in the plan, so that packets are drawn at their borders.
"""

import random
from ipaddress import IPv4Address, IPv4Network
from typing import Callable, List, Sequence

from kernel_plan import Abilities, Plan, Values

_PROTOCOLS = {"icmp": 1, "tcp": 6, "udp": 17, "gre": 47, "sctp": 132}
_TYPES = {"echo-reply": 0, "echo-request": 8, "destination-unreachable": 3, "time-exceeded": 11}


class _Values:
    """Draws values, and puts them down."""

    def __init__(self, drawn: random.Random, values: Values, interfaces: Sequence[str]):
        self.drawn, self.values, self.interfaces = drawn, values, list(interfaces)

    def chance(self, part: float) -> bool:
        return self.drawn.random() < part

    def number(self, most: int, into: "set[int]") -> int:
        made = self.drawn.choice((self.drawn.randint(0, most), self.drawn.randint(0, min(most, 1024))))
        into |= {it for it in (made - 1, made, made + 1) if 0 <= it <= most}
        return made

    def port(self) -> int:
        ports = sorted(self.values.ports)
        return self.drawn.choice(ports) if ports and self.chance(0.5) else self.number(65535, self.values.ports)

    def ports(self) -> "tuple[int, int]":
        low, high = sorted((self.port(), self.port()))
        return low, high

    def ttl(self) -> int:
        return self.number(self.drawn.choice((8, 70, 254)), self.values.ttls)

    def protocol(self) -> str:
        name = self.drawn.choice([*_PROTOCOLS, "tcp", "udp"])
        self.values.protocols |= {_PROTOCOLS[name], _PROTOCOLS[name] + 1}
        return name

    def address(self) -> IPv4Address:
        made = self.drawn.choice(sorted(self.values.addresses))
        self.values.span(made, made)
        return IPv4Address(made)

    def prefix(self) -> IPv4Network:
        made = IPv4Network((int(self.address()), self.drawn.choice((8, 16, 20, 24, 28, 30, 31, 32))), strict=False)
        self.values.prefix(made)
        return made

    def span(self) -> "tuple[IPv4Address, IPv4Address]":
        low, high = sorted((self.address(), self.address()))
        return low, high

    def apart(self, draw: "Callable[[], tuple[int, int]]") -> "List[tuple[int, int]]":
        """Ranges without a value in common, as the elements of a set have to be."""
        found: List[tuple[int, int]] = []
        for low, high in (draw() for _ in range(self.drawn.randint(1, 4))):
            if all(high < other[0] or low > other[1] for other in found):
                found.append((low, high))
        return found

    def interface(self) -> str:
        return self.drawn.choice(self.interfaces)

    def sign(self, text: str, plain: str = "") -> str:
        return text if self.chance(0.25) else plain


# ---------------------------------------------------------------- nftables


class _Nft(_Values):
    def addresses(self) -> str:
        kind = self.drawn.randrange(4)
        if kind == 0:
            return str(self.prefix())
        if kind == 1:
            return "-".join(map(str, self.span()))
        if kind == 2:
            return str(self.address())

        def drawn() -> "tuple[int, int]":
            one = self.prefix()
            return int(one.network_address), int(one.broadcast_address)

        return f"{{ {', '.join(f'{IPv4Address(low)}-{IPv4Address(high)}' for low, high in self.apart(drawn))} }}"

    def port_test(self) -> str:
        if self.chance(0.25):
            return f"{self.drawn.choice(('<', '>', '<=', '>='))} {max(1, min(self.port(), 65534))}"
        if self.chance(0.4):
            low, high = self.ports()
            return f"{self.sign('!= ')}{low}-{high}" if low < high else f"{self.sign('!= ')}{low}"
        if self.chance(0.5):
            return f"{self.sign('!= ')}{self.port()}"
        return f"{self.sign('!= ')}{{ {', '.join(f'{low}-{high}' if low < high else str(low) for low, high in self.apart(self.ports))} }}"

    def tests(self, hook: str) -> str:
        made = []
        if self.chance(0.5):
            made.append(f"ip {self.drawn.choice(('saddr', 'daddr'))} {self.sign('!= ')}{self.addresses()}")
        if self.chance(0.15):
            made.append(f"ip ttl {self.drawn.choice(('', '!= ', '< ', '> '))}{max(1, self.ttl())}")
        if self.chance(0.25):
            # packets for the box itself leave by no interface, and those before the routes have none yet
            way = self.drawn.choice(("iifname", "iifname", "oifname")) if hook in ("forward", "postrouting") else "iifname"
            made.append(f"{way} {self.sign('!= ')}\"{self.interface() if self.chance(0.8) else 'eth*'}\"")
        if self.chance(0.12):
            made.append(f"ip daddr . tcp dport {{ {self.address()} . {self.port()}, {self.prefix()} . {'-'.join(map(str, self.ports()))} }}")
        elif self.chance(0.5):
            made.append(f"{self.drawn.choice(('tcp', 'udp', 'th'))} {self.drawn.choice(('sport', 'dport'))} {self.port_test()}")
            made = [f"meta l4proto {{ tcp, udp }} {it}" if it.startswith("th ") else it for it in made]
        elif self.chance(0.3):
            made.append(f"{self.drawn.choice(('ip protocol', 'meta l4proto'))} {self.sign('!= ')}{self.protocol()}")
        elif self.chance(0.2):
            made.append(f"icmp type {self.sign('!= ')}{self.drawn.choice(list(_TYPES))}")
        return " ".join(made or [f"ip saddr {self.addresses()}"])

    def verdict(self, hook: str, below: Sequence[str]) -> str:
        if below and self.chance(0.3):
            return f"{self.drawn.choice(('jump', 'jump', 'goto'))} {self.drawn.choice(below)}"
        if hook not in ("input", "forward", "postrouting", "prerouting") and self.chance(0.2):
            return "return"
        return self.drawn.choice(("accept", "accept", "drop", "drop", "reject" if hook in ("input", "forward") else "drop"))

    def rule(self, hook: str, below: Sequence[str]) -> str:
        middle = self.drawn.choice(("", "", " counter"))
        if self.chance(0.1):
            parts = [f"{low}-{high} : {self.verdict('any', below)}" if low < high else f"{low} : {self.verdict('any', below)}" for low, high in self.apart(self.ports)]
            return f"{self.drawn.choice(('tcp', 'udp'))} dport vmap {{ {', '.join(parts)} }}"
        comment = ' comment "drawn"' if self.chance(0.1) else ""
        return f"{self.tests(hook)}{middle} {self.verdict(hook, below)}{comment}".strip()

    def text(self) -> str:
        lines: List[str] = []
        for number in range(self.drawn.choice((1, 1, 2))):
            lines.append(f"table {self.drawn.choice(('ip', 'inet'))} t{number} {{")
            below: List[str] = []
            for name in ("c1", "c2")[:self.drawn.choice((0, 1, 2))]:
                # chains that others jump to may be met at each hook, and so look at what all hooks know
                lines += [f"chain {name} {{", *(self.rule("any", below) for _ in range(self.drawn.randint(1, 4))), "}"]
                below.append(name)
            for hook in ("prerouting", "input", "forward", "postrouting"):
                if self.chance(0.9 if hook == "forward" else 0.3):
                    policy = self.drawn.choice(("accept", "accept", "drop" if hook in ("forward", "input") else "accept"))
                    lines.append(f"chain {hook} {{ type filter hook {hook} priority {self.drawn.choice((-10, 0, 10))}; policy {policy};")
                    lines += [*(self.rule(hook, below) for _ in range(self.drawn.randint(1, 7))), "}"]
            lines.append("}")
        return "\n".join(lines) + "\n"


# ---------------------------------------------------------------- iptables


class _Iptables(_Values):
    def port_words(self, protocol: str) -> str:
        if self.chance(0.3):
            side = self.drawn.choice(("--sports", "--dports", "--ports"))
            return f" -m multiport {self.sign('! ')}{side} {','.join(f'{low}:{high}' if low < high else str(low) for low, high in self.apart(self.ports))}"
        low, high = self.ports()
        return f" {self.sign('! ')}{self.drawn.choice(('--sport', '--dport'))} {low}:{high}" if self.chance(0.6) else f" --dport {low}"

    def tests(self, chain: str) -> str:
        made = ""
        for option in ("-s", "-d"):
            made += f" {self.sign('! ')}{option} {self.prefix()}" if self.chance(0.3) else ""
        if self.chance(0.12):
            made += f" -m iprange {self.sign('! ')}{self.drawn.choice(('--src-range', '--dst-range'))} {'-'.join(map(str, self.span()))}"
        if self.chance(0.12):
            made += f" -m ttl {self.drawn.choice(('--ttl-eq', '--ttl-lt', '--ttl-gt'))} {max(1, self.ttl())}"
        if self.chance(0.25):
            way = self.drawn.choice(("-i", "-o")) if chain == "FORWARD" else "-i"
            made += f" {self.sign('! ')}{way} {self.interface() if self.chance(0.8) else 'eth+'}"
        if self.chance(0.5):
            protocol = self.drawn.choice(("tcp", "udp"))
            made += f" -p {protocol}{self.port_words(protocol)}"
        elif self.chance(0.3):
            made += f" {self.sign('! ')}-p {self.protocol()}"
        elif self.chance(0.2):
            made += f" -p icmp -m icmp {self.sign('! ')}--icmp-type {self.drawn.choice(list(_TYPES.values()))}"
        return made or f" -s {self.prefix()}"

    def verdict(self, chain: str, below: Sequence[str]) -> str:
        if below and self.chance(0.3):
            return f"{self.drawn.choice(('-j', '-j', '-g'))} {self.drawn.choice(below)}"
        words = ("ACCEPT", "ACCEPT", "DROP", "DROP", "REJECT", "RETURN")
        return f"-j {self.drawn.choice(words[:5] if chain in ('INPUT', 'FORWARD') else words)}"

    def text(self) -> str:
        policies = [self.drawn.choice(("ACCEPT", "ACCEPT", "DROP")) for _ in range(2)]
        below: List[str] = []
        rules: List[str] = []
        for name in ("one", "two")[:self.drawn.choice((0, 1, 2))]:
            rules += [f"-A {name}{self.tests(name)} {self.verdict(name, below)}" for _ in range(self.drawn.randint(1, 4))]
            below.append(name)
        for chain in ("INPUT", "FORWARD"):
            rules += [f"-A {chain}{self.tests(chain)} {self.verdict(chain, below)}" for _ in range(self.drawn.randint(0, 8))]
        return "\n".join(["*filter", f":INPUT {policies[0]} [0:0]", f":FORWARD {policies[1]} [0:0]", ":OUTPUT ACCEPT [0:0]",
                          *(f":{it} - [0:0]" for it in below), *rules, "COMMIT"]) + "\n"


def add_filters(plan: Plan, able: Abilities) -> None:
    """Gives most routers of a plan a filter of one of the tools that are there."""
    drawn = random.Random(f"{plan.seed} filters")
    kinds = ["nft"] * able.nft + ["iptables"] * able.iptables
    for box in plan.boxes.values():
        if not box.is_router or not kinds or drawn.random() < 0.3:
            continue
        names = [it.name for it in box.interfaces.values() if not it.bridge]
        if drawn.choice(kinds) == "nft":
            box.nft = _Nft(drawn, plan.values, names).text()
        else:
            box.iptables = _Iptables(drawn, plan.values, names).text()
