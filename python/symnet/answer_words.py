"""The answers of `symnet ask`, `rules`, `loops` and `compare` in words, with names for fields and values as people write them."""

import re
from typing import Callable, List, Mapping, Optional, Sequence, Tuple

from .answers import Answer, Compared, ComparedRules, Fate, ListSide, Loops, NotAnswer, Visit
from .causes import HINT, visit_cause
from .fields import code_text, number_of, position_of, range_text, value_text
from .inputs import LIST_FIELDS, Job, Ranges, Rule
from .origins import decided_lines
from .packets import columns, packet_lines, packet_words
from .records import Path
from .report_words import differences, end_words
from .ways import boxes, follow, way

# What is known of a path by its number.
Ways = Callable[[int, Sequence[int]], Sequence[Path]]
# How many walks of a packet are told.
WALKS = 20


def _plural(count: int, one: str, many: str) -> str:
    return f"{count} {one if count == 1 else many}"


def _fits(values: Sequence[int], job: Optional[Job]) -> None:
    if job is not None and len(values) < len(job.fields):
        raise NotAnswer(f"the job has {_plural(len(job.fields), 'unknown field', 'unknown fields')}, and a packet {len(values)}: it is of another job")


_PLACE = re.compile(r"\b(in|out) ([A-Za-z_]\w*) ?\. ?(0x[0-9A-Fa-f]+|\d+)", re.ASCII)


# The digits of a port number, at most.
_LONGEST = 12


def place_of(question: str) -> str:
    """The port that a question asks of, as a report has it."""
    found = _PLACE.findall(question)
    if not found:
        return ""
    side, name, port = found[0] if question.startswith("reach") else found[-1]
    return f"{side} {name}.{number_of(port)}" if len(port) <= _LONGEST else ""


def asked_lines(answers: Sequence[Answer], job: Optional[Job], why: Optional[Callable[[Sequence[int]], List[str]]] = None, ways: Optional[Ways] = None) -> List[str]:
    """What is said of all answers, one after another."""
    return [line for lines in asked_parts(answers, job, why, ways) for line in lines]


def asked_parts(answers: Sequence[Answer], job: Optional[Job], why: Optional[Callable[[Sequence[int]], List[str]]] = None, ways: Optional[Ways] = None) -> List[List[str]]:
    """Each question of the job with its text, its answer, the packet that shows it and its way, where `ways` tells the paths of it; below an unknown one what `why`
    says of the records that leave it open. A list of lines for each."""
    if job is not None and len(job.asks) != len(answers):
        raise NotAnswer(f"the job has {_plural(len(job.asks), 'question', 'questions')}, and the answer {len(answers)}: it is of another job")
    return [_asked_lines(number, answer, job, why, ways) for number, answer in enumerate(answers)]


def _asked_lines(number: int, answer: Answer, job: Optional[Job], why: Optional[Callable[[Sequence[int]], List[str]]], ways: Optional[Ways]) -> List[str]:
    lines = [f"question {number}" if job is None else f"question {number}: {code_text(job.asks[number].text)}"]
    if job is not None:
        raw, note = job.asks[number].text, job.asks[number].note
        lines += [f"  {note}"] if note else []
        lines += [f"  {raw}"] if raw != code_text(raw) else []
    if answer.answer == "unknown":
        return [*lines, f"  unknown: left open by {_records(answer.open)}", *(f"    {line}" for line in ([HINT] if why is None else why(answer.open)))]
    if answer.number is None:
        return [*lines, f"  {answer.answer}"]
    _fits(answer.values, job)
    return [*lines, f"  {answer.answer}, shown by record {answer.number} with the packet", *_shown_lines(answer.number, answer.values, job, number, ways)]


def _shown_lines(number: int, values: Sequence[int], job: Optional[Job], question: int, ways: Optional[Ways]) -> List[str]:
    """The packet that shows an answer, and its way to the port that is asked of."""
    place = place_of(job.asks[question].text) if job is not None else ""
    paths = [path for path in ways(number, values) if place in path.places] if ways is not None and place else []
    if not paths:
        return packet_lines(values, job, "    ")
    there = paths[0].places[:paths[0].places.index(place) + 1]
    which = "the way" if len(paths) == 1 else f"the way of one of {len(paths)} walks"
    decided = decided_lines(job, paths[0], values)
    return [*packet_lines(values, job, "    ", follow(job, paths[0].decisions, paths[0].places).choices), f"  {which}: {way(there)}", *(["  decided by", *decided] if decided else [])]


def _records(numbers: Sequence[int]) -> str:
    return f"{'record' if len(numbers) == 1 else 'records'} {', '.join(map(str, numbers))}"


def _visit_lines(visit: Visit, job: Optional[Job], choices: Sequence[str]) -> List[str]:
    """Why an earlier visit shows no loop, with the packet that shows it."""
    why = {"choice": "a value was chosen after it", "layout": "other tags or cells were there", "cell": "a cell had another value, as with the packet",
           "unknown": f"it is undecided whether a cell had another value ({visit_cause(visit.cause)})"}[visit.why]
    return [f"  at place {visit.place} {why}", *(packet_lines(visit.values, job, "    ", choices) if visit.values else [])]


def loops_lines(loops: Loops, cut_paths: Optional[Mapping[int, Path]], job: Optional[Job] = None) -> List[str]:
    """Each cut path: the boxes and the ports of one round, where the cut paths of a report are given; or that it is only cut, with what differed at each earlier
    visit of its last port."""
    lines = []
    for number in sorted([*loops.first, *loops.open]):
        if cut_paths is not None and number not in cut_paths:
            raise NotAnswer(f"record {number} of the report is no path that is cut: the answer is of another job or other hops, or the report was made with --pruned count")
        if number not in loops.first:
            lines.append(f"record {number}: only cut; no round was found, and more hops may show where it ends")
            path = (cut_paths or {}).get(number)
            choices = follow(job, path.decisions, path.places).choices if path is not None else ()
            lines += [line for visit in loops.open[number] for line in _visit_lines(visit, job, choices)]
            continue
        first = loops.first[number]
        if cut_paths is None:
            lines.append(f"record {number}: goes round for ever, from place {first} on")
            continue
        path = cut_paths[number]
        if not is_round(path, first):
            raise NotAnswer(f"record {number} of the report does not end where a round begins at its place {first}: the answer is of another job or other hops")
        lines += _round_lines(number, path, first, job)
    if loops.first and cut_paths is None:
        lines.append("the boxes of a round are named where the report of explore is given, made under the bounds of loops")
    return lines or ["no path is cut"]


def is_round(path: Path, first: int) -> bool:
    """Whether the path comes at its end to the port of this place."""
    return first < len(path.places) - 1 and path.places[first] == path.places[-1]


def _round_lines(number: int, path: Path, first: int, job: Optional[Job]) -> List[str]:
    """The boxes of a loop, its ports, and a packet that goes round."""
    ports = one_round(path.places[first:])
    length = len(ports) - 1
    while first > 0 and path.places[first - 1] == path.places[first - 1 + length]:
        first, ports = first - 1, path.places[first - 1:first + length]
    before, rounds = boxes(path.places[:first]), boxes(ports)
    ahead = f"by {', '.join(before)} and then " if before else ""
    choices = follow(job, path.decisions, path.places).choices
    targets = [] if job is None else [(position_of(job.target(symbol)), value) for symbol, value in enumerate(path.values or ())]
    destinations = [value_text(position[1], value) for position, value in targets if position and position[0] == "destination address"]
    packets = f"packets for {destinations[0]}" if destinations else "packets"
    lines = [f"record {number}: {packets} go {ahead}{', '.join(rounds)} .. for ever", f"  one round: {' > '.join(ports)}"]
    if job is None or not path.values:
        return lines
    return [*lines, f"  such a packet: {packet_words(path.values, job, choices)}"]


def one_round(places: Sequence[str]) -> Sequence[str]:
    """The shortest part of ports that go round, which comes again and again: its last port is its first."""
    size = len(places) - 1
    lengths = (length for length in range(1, size + 1) if size % length == 0 and places[length] == places[0])
    return next((places[:length + 1] for length in lengths if places[length:] == places[:-length]), places)


_SIDES = {"left": ("first network", "second"), "right": ("second network", "first")}


def compared_lines(compared: Compared, job: Optional[Job], walks: Optional[Mapping[str, Sequence[Path]]] = None) -> List[str]:
    """What a comparison says, with the packet that shows a difference; where its walks are given, by the side of the network, what becomes of it in each."""
    if compared.answer == "same":
        bound = "" if compared.cut == (0, 0) else ", within the bound of hops"
        return [f"same: each packet of the injection is delivered at the same ports with the same header{bound}", *_cut_lines(compared)]
    if compared.answer == "partial":
        return ["partial: an exploration reached its limit of records, so nothing is known; raise --limit, or narrow the injection by where lines"]
    if compared.answer == "unknown":
        sides = [f"{_records(numbers)} of the {_SIDES[side][0]}" for side, numbers in (("left", compared.left), ("right", compared.right)) if numbers]
        return [f"unknown: no difference was found, and of {' and '.join(sides)} it is undecided whether the other network delivers the same", f"  {HINT}", *_cut_lines(compared)]
    _fits(compared.values, job)
    has, lacks = _SIDES[compared.side]
    known = (walks or {}).get(compared.side, ())
    choices = follow(job, known[0].decisions, known[0].places).choices if len(known) == 1 else ()
    return [f"other: path {compared.number} of the {has} delivers this packet, and the {lacks} does not deliver the same", *packet_lines(compared.values, job, "  ", choices),
            *_walk_lines(walks or {}), *_cut_lines(compared)]


def _cut_lines(compared: Compared) -> List[str]:
    """How many paths are cut at the bound of hops, where that was counted and some are."""
    if compared.cut is None:
        return []
    if compared.cut == (0, 0):
        return ["  no path is cut at the bound of hops, so it holds of walks of any length"]
    first, second = (_plural(count, "path", "paths") for count in compared.cut)
    return [f"  {first} of the first network and {second} of the second are cut at the bound of hops: raise --hops to look further"]


def _walk_lines(walks: Mapping[str, Sequence[Path]]) -> List[str]:
    """Where a packet ends in each network, and what its header has where it leaves both by one port."""
    lines = []
    for side, (network, _) in _SIDES.items():
        lines += [f"  {network}: {end_words(path)} ({way(path.places)})" for path in walks.get(side, ())[:WALKS]]
        more = len(walks.get(side, ())) - WALKS
        lines += [f"  {network}: and {more} walks more"] if more > 0 else []
    return lines + differences(*(walks.get(side, ())[:WALKS] for side in _SIDES))


def rules_lines(fates: Sequence[Fate], rules: Optional[Sequence[Rule]]) -> List[str]:
    """How many rules are hidden; then for each rule its text, and a packet that it decides, or the rules that hide it and which of its packets each of them has."""
    hidden = [number for number, fate in enumerate(fates) if fate.values is None]
    listed = ", ".join(map(str, hidden[:HIDDEN])) + (f" and {len(hidden) - HIDDEN:,} more" if len(hidden) > HIDDEN else "")
    lines = [f"{_plural(len(fates), 'rule', 'rules')}, {len(hidden)} hidden{f': {listed}' if hidden else ''}"]
    for number, fate in enumerate(fates):
        lines.append(f"rule {number}" if rules is None else f"rule {number}, line {rules[number].line}: {rules[number].text}")
        if fate.values is None:
            lines += [f"  hidden {_hidden_words(number, fate, rules)}", *_part_lines(fate, rules[number].ranges if rules is not None else None)]
        else:
            protocol, source, destination, source_port, port = (value_text(kind, value) for value, (_, kind, _) in zip(fate.values, LIST_FIELDS))
            lines.append(f"  decides protocol {protocol}, from {source} port {source_port} to {destination} port {port}")
    return lines


def compared_rules_lines(compared: ComparedRules, left: Optional[Sequence[Rule]], right: Optional[Sequence[Rule]]) -> List[str]:
    """What a comparison of two filter lists says: with a packet that shows a difference, and the rule of each list that decides it."""
    if compared.answer == "same" or compared.left is None or compared.right is None:
        shown = f", as {_plural(compared.covers, 'cover shows', 'covers show')}" if compared.covers else ""
        return [f"same: both filter lists permit the same packets{shown}"]
    has, lacks = ("first", "second") if compared.left.permits else ("second", "first")
    packet = [(name, value_text(kind, value)) for value, (name, kind, _) in zip(compared.values, LIST_FIELDS)]
    return [f"other: the {has} filter list permits this packet, and the {lacks} one denies it", *columns(packet, "  "),
            *columns([("first", *_side_words(compared.left, left)), ("second", *_side_words(compared.right, right))], "  ")]


def _side_words(side: ListSide, rules: Optional[Sequence[Rule]]) -> Tuple[str, str]:
    """What a list does with a packet, and by which rule; the rule's text, where the list is given."""
    action = _acts(side.permits, 1)
    if side.rule is None:
        return f"{action} it: no rule contains it", ""
    return f"{action} it by rule {side.rule}", "" if rules is None else f"line {rules[side.rule].line}: {rules[side.rule].text}"


def _hidden_words(number: int, fate: Fate, rules: Optional[Sequence[Rule]]) -> str:
    by = f"by {'rule' if len(fate.hiders) == 1 else 'rules'} {', '.join(map(str, fate.hiders))}"
    if rules is None:
        return by
    permits = rules[number].permits
    others = [str(hider) for hider in fate.hiders if rules[hider].permits != permits]
    if not others:
        return f"{by}, which {_acts(permits, len(fate.hiders))} as it does"
    return f"{by}{'' if permits else ', DANGEROUS'}: it {_acts(permits, 1)}, and {', '.join(others)} {_acts(not permits, len(others))}"


def _acts(permits: bool, count: int) -> str:
    """What one rule does, or several."""
    return {(True, True): "permits", (False, True): "denies", (True, False): "permit", (False, False): "deny"}[permits, count == 1]


# How many parts of a hidden rule are told, and how many numbers of hidden rules.
PARTS, HIDDEN = 100, 20


def _part_lines(fate: Fate, whole: Optional[Ranges]) -> List[str]:
    lines = []
    for part in fate.parts[:PARTS]:
        sides = [f"{name} {range_text(kind, low, high)}" for field, ((low, high), (name, kind, greatest)) in enumerate(zip(part.ranges, LIST_FIELDS))
                 if (low, high) != (whole[field] if whole else (0, greatest))]
        lines.append(f"    rule {part.rule} has {'those with ' + ', '.join(sides) if sides else 'all of its packets'}")
    left = len(fate.parts) - PARTS
    return lines + ([f"    and {left} parts more"] if left > 0 else [])

