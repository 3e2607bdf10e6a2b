"""Reads the answers of `symnet ask`, `rules`, `loops` and `compare` into plain objects."""

from dataclasses import dataclass, field
from typing import Any, Callable, Dict, List, Optional, Sequence, Tuple

from .inputs import LIST_FIELDS, Ranges, Rule, has_packet, has_part
from .packet import JobText, Packet, list_packet
from .picture import Pictured, Texts
from .shape import Made, Misshaped, Written, a_count, a_list, a_text, a_value, an_object, member, named, one_of, some


class NotAnswer(Exception):
    """The text is no answer, or it is one of other files than those given; the message says why."""


@dataclass(frozen=True)
class Answer:
    """An answer to a question of a job: yes, no or unknown, the record and the packet that show it, the records that leave it open."""

    answer: str
    number: Optional[int] = None
    values: Tuple[int, ...] = ()
    open: Tuple[int, ...] = ()
    job: Optional[JobText] = field(default=None, repr=False, compare=False)

    @property
    def packet(self) -> Optional[Packet]:
        """The packet that shows it, by the names of the job."""
        return None if self.number is None else (self.job or JobText("")).packet(self.values)


@dataclass(frozen=True)
class Part:
    """Packets of a hidden rule, by the range of each field, and the earlier rule that has them all."""

    rule: int
    ranges: Ranges


@dataclass(frozen=True)
class Fate:
    """What becomes of a rule: the packet that it decides, or the parts in which earlier rules have all of its packets."""

    values: Optional[Tuple[int, ...]]
    parts: Tuple[Part, ...] = ()

    @property
    def packet(self) -> Optional[Packet]:
        """The packet that it decides, by names."""
        return None if self.values is None else list_packet(self.values)

    @property
    def hiders(self) -> List[int]:
        return sorted({part.rule for part in self.parts})


@dataclass(frozen=True)
class Visit:
    """An earlier visit of the last port of a cut path that shows no loop: its place, why, and the values or the cause."""

    place: int
    why: str
    values: Tuple[int, ...] = ()
    cause: str = ""


@dataclass(frozen=True)
class Loops(Pictured):
    """Cut paths by the numbers of their records: those that go round for ever, each with the place where a round begins, and the others, each with
    its visits where they are told."""

    first: Dict[int, int]
    open: Dict[int, Tuple[Visit, ...]]
    # False where the exploration ended at its limit, so that more paths may be cut.
    complete: bool = True
    shown: Optional[Texts] = field(default=None, repr=False, compare=False)


@dataclass(frozen=True)
class Compared(Pictured):
    """What a comparison says: same, other, unknown or partial; the path and the packet that show a difference; the undecided paths of both sides."""

    answer: str
    side: str = ""
    number: int = 0
    values: Tuple[int, ...] = ()
    left: Tuple[int, ...] = ()
    right: Tuple[int, ...] = ()
    # How many paths of each network are cut at the bound of hops; None where they are not counted.
    cut: Optional[Tuple[int, int]] = None
    shown: Optional[Texts] = field(default=None, repr=False, compare=False)
    job: Optional[JobText] = field(default=None, repr=False, compare=False)

    @property
    def packet(self) -> Optional[Packet]:
        """The packet that shows a difference, by the names of the job."""
        return (self.job or JobText("")).packet(self.values) if self.answer == "other" else None


@dataclass(frozen=True)
class ListSide:
    """What a filter list does with a packet, and the number of the rule that says so; None where no rule contains it."""

    permits: bool
    rule: Optional[int]


@dataclass(frozen=True)
class ComparedRules:
    """What a comparison of two filter lists says: same, with so many covers; or other, with a packet and what each list does with it."""

    answer: str
    values: Tuple[int, ...] = ()
    left: Optional[ListSide] = None
    right: Optional[ListSide] = None
    covers: int = 0

    @property
    def packet(self) -> Optional[Packet]:
        """The packet that shows a difference, by names."""
        return list_packet(self.values) if self.answer == "other" else None


def _asked(value: object) -> Answer:
    answer = an_object(value)
    said = one_of(member(answer, "answer"), ("yes", "no", "unknown"))
    if said == "unknown":
        return Answer(said, open=some(a_count, member(answer, "numbers")))
    return Answer(said, a_count(answer["number"]), some(a_value, member(answer, "values"))) if "number" in answer else Answer(said)


def read_asked(whole: Written) -> List[Answer]:
    """The answers of `ask`, one for each question."""
    return [_numbered("answer", number, _asked, answer) for number, answer in enumerate(_listed(whole, "answers"))]


def _visit(value: object) -> Visit:
    visit = an_object(value)
    place, why = a_count(member(visit, "place")), one_of(member(visit, "why"), ("choice", "layout", "cell", "unknown"))
    if why == "cell":
        return Visit(place, why, values=some(a_value, member(visit, "values")))
    return Visit(place, why, cause=a_text(member(visit, "cause"))) if why == "unknown" else Visit(place, why)


def _open(path: object) -> Tuple[int, Tuple[Visit, ...]]:
    """A path without a loop: its number alone, or with its visits."""
    if isinstance(path, dict):
        return a_count(member(path, "number")), some(_visit, member(path, "visits"))
    return a_count(path), ()


def _loop(value: object) -> Tuple[int, int]:
    loop = an_object(value)
    return a_count(member(loop, "number")), a_count(member(loop, "first"))


def read_loops(whole: Written) -> Loops:
    """The answer of `loops`."""
    try:
        return Loops(dict(some(_loop, member(whole, "loops"))), dict(some(_open, member(whole, "open"))))
    except Misshaped as error:
        raise NotAnswer(f"the answer of loops has not its form: {error}") from None


def _cut(value: object) -> Tuple[int, int]:
    """How many paths of each of two networks are cut."""
    counts = some(a_count, value)
    if len(counts) != 2:
        raise Misshaped(f"{named(value)} has not two counts")
    return counts[0], counts[1]


def read_compared(whole: Written) -> Compared:
    """The answer of `compare`."""
    try:
        said = one_of(member(whole, "answer"), ("same", "other", "unknown", "partial"))
        cut = _cut(whole["cut"]) if "cut" in whole else None
        if said == "unknown":
            return Compared(said, left=some(a_count, member(whole, "left")), right=some(a_count, member(whole, "right")), cut=cut)
        if said == "other":
            side = one_of(member(whole, "side"), ("left", "right"))
            return Compared(said, side, a_count(member(whole, "number")), some(a_value, member(whole, "values")), cut=cut)
        return Compared(said, cut=cut)
    except Misshaped as error:
        raise NotAnswer(f"the answer of compare has not its form: {error}") from None


def read_rules(whole: Written, rules: Optional[Sequence[Rule]] = None) -> List[Fate]:
    """The answer of `rules`; with the filter list, if it is given, NotAnswer where the answer is of another list."""
    fates = _listed(whole, "rules")
    if rules is not None and len(rules) != len(fates):
        raise NotAnswer(f"the answer has {len(fates)} rules, and the filter list {len(rules)}")
    return [_numbered("rule", number, lambda fate, at=number: _fate(an_object(fate), at, rules), fate) for number, fate in enumerate(fates)]


def _list_packet(values: object) -> Tuple[int, ...]:
    """The five values of a packet that filter lists read."""
    packet = some(a_count, values)
    if len(packet) != len(LIST_FIELDS):
        raise NotAnswer(f"its packet has {len(packet)} values")
    for value, (name, _, greatest) in zip(packet, LIST_FIELDS):
        if value > greatest:
            raise NotAnswer(f"{named(value)} is no {name}")
    return packet


def _list_side(value: object, values: Tuple[int, ...], rules: Optional[Sequence[Rule]]) -> ListSide:
    side = an_object(value)
    action, rule = one_of(member(side, "action"), ("permit", "deny")), member(side, "rule")
    number = None if rule is None else a_count(rule)
    if rules is not None and next((at for at, it in enumerate(rules) if has_packet(it.ranges, values)), None) != number:
        raise NotAnswer("the answer is of another filter list: in this one the rule does not decide the packet that is shown")
    return ListSide(action == "permit", number)


def read_compared_rules(whole: Written, left: Optional[Sequence[Rule]] = None, right: Optional[Sequence[Rule]] = None) -> ComparedRules:
    """The answer of `rules` on two filter lists; with these, if they are given, NotAnswer where the answer is of others. Covers are counted only."""
    try:
        said = one_of(member(whole, "answer"), ("same", "other"))
        if said == "same":
            return ComparedRules(said, covers=len(a_list(member(whole, "covers"))))
        values = _list_packet(member(whole, "values"))
        return ComparedRules(said, values, _list_side(member(whole, "left"), values, left), _list_side(member(whole, "right"), values, right))
    except Misshaped as error:
        raise NotAnswer(f"the answer of rules on two lists has not its form: {error}") from None


def is_of_lists(whole: Written) -> bool:
    """Whether an answer is of `rules` on two filter lists, and none of `compare`: it has covers, or what becomes of its packet in each list."""
    return "answer" in whole and ("covers" in whole or isinstance(whole.get("left"), dict))


def _fate(fate: Written, number: int, rules: Optional[Sequence[Rule]]) -> Fate:
    if one_of(member(fate, "rule"), ("decides", "hidden")) == "decides":
        values = _list_packet(member(fate, "values"))
        if rules is not None and next((at for at, rule in enumerate(rules) if has_packet(rule.ranges, values)), None) != number:
            raise NotAnswer("the answer is of another filter list: in this one the rule does not decide the packet that is shown for it")
        return Fate(values)
    whole = rules[number].ranges if rules is not None else tuple((0, greatest) for _, _, greatest in LIST_FIELDS)
    parts = _parts(a_list(member(fate, "cover")), whole, number)
    for part in parts:
        if rules is not None and not has_part(rules[part.rule].ranges, part.ranges):
            raise NotAnswer(f"the answer is of another filter list: in this one rule {part.rule} does not hide what its cover says")
    return Fate(None, parts)


def _parts(cover: List[Any], whole: Ranges, number: int) -> Tuple[Part, ...]:
    """The parts that a cover tells apart: each step is of the first part that is left."""
    left, parts = [whole], []
    for step in cover:
        if not left:
            raise NotAnswer("its cover goes on behind its end")
        part = left.pop()
        if not isinstance(step, list) or not step:
            raise NotAnswer("a step of its cover is no list")
        kind, numbers = step[0], some(a_count, step[1:])
        if kind == "inside" and len(numbers) == 1:
            if numbers[0] >= number:
                raise NotAnswer(f"its cover names rule {numbers[0]}, which is no earlier one")
            parts.append(Part(numbers[0], part))
        elif kind == "cut" and len(numbers) == 2 and numbers[0] < len(LIST_FIELDS):
            field, at = numbers
            low, high = part[field]
            if not low < at <= high:
                raise NotAnswer(f"its cover cuts the {LIST_FIELDS[field][0]} at {at}, which is not in {low}..{high}")
            left += [_side(part, field, at, high), _side(part, field, low, at - 1)]
        else:
            raise NotAnswer("a step of its cover is neither inside nor cut")
    if left:
        raise NotAnswer("its cover ends too soon")
    return tuple(parts)


def _side(part: Ranges, field: int, low: int, high: int) -> Ranges:
    return part[:field] + ((low, high),) + part[field + 1:]


def _listed(whole: Written, name: str) -> List[Any]:
    """The list of this name that an answer has."""
    listed = whole.get(name)
    if not isinstance(listed, list):
        raise NotAnswer(f"{named(listed)} where the list of {name} should be")
    return listed


def _numbered(what: str, number: int, read: Callable[[Any], Made], value: object) -> Made:
    try:
        return read(value)
    except (Misshaped, NotAnswer) as error:
        raise NotAnswer(f"{what} {number}: {error}") from None
