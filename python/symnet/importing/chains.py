"""Filters as code: the tests of a chain's rules in their order, with the chains that they jump to in the place of the jumps.

A packet that is accepted leaves the code by `forward`. One that a chain returns goes on behind the code of that chain, so what stands behind a `return` in a chain becomes
the other side of its test.
"""

from typing import Dict, List, Optional, Sequence, Tuple

from .code import DEEPEST, Do, If, Origin, Step, fail, forward, is_in
from .model import ACCEPT, DROP, GOTO, JUMP, REJECT, RETURN, Filter, Match, Refused, Rule, ranges_of

# The most tests that the chains of one filter may come to, with a copy for each jump.
_MOST = 200_000


class Context:
    """What is known where a filter stands: the interface that a packet came by, or the numbers that tell it by the metadata `arrival`; and the one that it
    goes by, which is known wherever there is one, and has no name where there is none."""

    def __init__(self, numbers: Dict[str, int], comes: Optional[str] = None, goes: str = ""):
        self.numbers, self.comes, self.goes = numbers, comes, goes

    def conjunction(self, match: Match) -> Optional[str]:
        """The test of a match; None where no packet has it, and nothing where each has it."""
        if match.is_empty or (match.goes is not None and self.goes not in match.goes):
            return None
        parts = []
        if match.comes is not None and self.comes is None:
            numbers = [self.numbers[it] for it in match.comes if it in self.numbers]
            if not numbers:
                return None
            parts += [is_in("arrival", ranges_of([(it, it) for it in numbers]))] if len(numbers) < len(self.numbers) else []
        elif match.comes is not None and self.comes not in match.comes:
            return None
        parts += [is_in(name, ranges) for name, ranges in match.fields]
        return " and ".join(parts)

    def test(self, matches: Sequence[Match]) -> Optional[str]:
        """The test of any of the matches, in the same way."""
        found = [it for it in (self.conjunction(match) for match in matches) if it is not None]
        return None if not found else "" if "" in found else " or ".join(found)


class _Chains:
    def __init__(self, filter_: Filter, context: Context, port: int):
        self.filter, self.context, self.port = filter_, context, port
        self.count = 0

    def verdict(self, rule: Rule, open_: Tuple[str, ...], depth: int) -> List[Step]:
        """What is done with a packet of the rule."""
        if rule.action == ACCEPT:
            return [Do(f"forward {self.port};", Origin((rule.source,)))]
        if rule.action in (DROP, REJECT):
            word = "dropped" if rule.action == DROP else "rejected"
            return [fail(f"{word} by {rule.source.place}: {rule.source.text}".rstrip(": "), rule.source)]
        if rule.action == RETURN:
            return []
        if rule.target in open_:
            raise Refused(rule.source, f"the chain {rule.target} jumps to itself")
        return self.body(rule.target, (*open_, rule.target), depth)

    def body(self, name: str, open_: Tuple[str, ...], depth: int) -> List[Step]:
        """The code of a chain; a packet that the chain returns runs off its end."""
        chain = self.filter.base if name == "" else self.filter.chains[name]
        return self.rules(chain.rules, open_, depth)

    def rules(self, rules: Sequence[Rule], open_: Tuple[str, ...], depth: int) -> List[Step]:
        made: List[Step] = []
        into = made
        for rule in rules:
            test = self.context.test(rule.matches)
            if test is None:
                continue
            self.count += 1
            if self.count > _MOST:
                raise Refused(rule.source, f"the chains come to more than {_MOST:,} tests, each jump with a copy of its chain")
            if depth > DEEPEST - 4:
                raise Refused(rule.source, f"jumps and returns that nest more than {DEEPEST} deep")
            leaves = rule.action in (GOTO, RETURN)
            if test == "":
                into += self.verdict(rule, open_, depth)
                if rule.action != JUMP:
                    return made
                continue
            then = self.verdict(rule, open_, depth + 1)
            if leaves:
                rest: List[Step] = []
                into.append(If(test, then, rest, Origin((rule.source,))))
                into, depth = rest, depth + 1
            else:
                into.append(If(test, then, (), Origin((rule.source,))))
        return made

    def whole(self) -> List[Step]:
        base = self.filter.base
        code = self.body("", (base.name,), 3)
        if code and isinstance(code[-1], Do):
            # a rule without a test decides each packet that comes to it
            return code
        if base.policy == ACCEPT:
            return [*code, Do(f"forward {self.port};", Origin((base.source,)))]
        return [*code, fail(f"dropped by the policy of {base.name}, {base.source.place}", base.source)]


def filter_code(filter_: Optional[Filter], context: Context, port: int) -> List[Step]:
    """The code of a filter: a packet that it accepts leaves by the port. Without a filter each packet does."""
    return [forward(port)] if filter_ is None else _Chains(filter_, context, port).whole()


def tests_arrival(filters: Sequence[Filter]) -> bool:
    """Whether a rule reads the interface that a packet came by."""
    return any(match.comes is not None for it in filters for chain in (it.base, *it.chains.values()) for rule in chain.rules for match in rule.matches)
