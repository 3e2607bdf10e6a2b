"""Reports and walks in words: a summary by end and place, a paragraph for each record, and one record with all that it has."""

from itertools import groupby
from typing import Dict, List, Optional, Sequence, Tuple

from .causes import undecided_lines
from .fields import code_text, kind_of, name_of, position_of, value_text
from .inputs import Job
from .origins import decided_lines
from .packets import columns, named, packet_lines, packet_words
from .records import Cell, Decision, Fields, Path, Pruned, Record, Report, Unexplored
from .shape import Misshaped
from .ways import follow, way

# How many ends the summary has, and how many numbers of records a line of it; from how many on equal decisions are counted.
ENDS, NUMBERS, RUN = 40, 12, 4


def end_words(path: Path) -> str:
    """How a path ends, and where."""
    if path.fault is None:
        return f"{path.end} at {path.last}"
    return f"failed at {path.last}, item {path.site}: {path.message}"


def _plural(count: int, one: str, many: str) -> str:
    return f"{count:,} {one if count == 1 else many}"


def _numbers(numbers: Sequence[int]) -> str:
    more = len(numbers) - NUMBERS
    shown = ", ".join(map(str, numbers[:NUMBERS]))
    return f"{'record' if len(numbers) == 1 else 'records'} {shown}{f' and {more:,} more' if more > 0 else ''}"


def summary(report: Report, with_pruned: bool = False) -> List[str]:
    """How many records there are of each kind, and how many paths end where."""
    paths = report.paths
    untried = sum(isinstance(record, Unexplored) for record in report.records)
    refuted = max(report.refuted, sum(isinstance(record, Pruned) for record in report.records))
    parts = [_plural(len(paths), *(("path", "paths") if report.hops is not None else ("walk", "walks")))]
    parts += [f"{_plural(untried, 'decision', 'decisions')} not tried, since the limit of {report.limit:,} was met"] if untried else []
    if refuted:
        are_listed = any(isinstance(record, Pruned) for record in report.records)
        note = "only counted" if not are_listed else "below, too" if with_pruned else "--pruned shows them"
        parts.append(f"{_plural(refuted, 'refuted side', 'refuted sides')} ({note})")
    ends: Dict[str, List[int]] = {}
    for number, record in enumerate(report.records):
        if isinstance(record, Path):
            ends.setdefault(end_words(record), []).append(number)
    most_first = sorted(ends.items(), key=lambda it: -len(it[1]))
    more = len(most_first) - ENDS
    lines = [f"  {len(numbers):,} {end}: {_numbers(numbers)}" for end, numbers in most_first[:ENDS]]
    return ["; ".join(parts), *lines, *([f"  and {more:,} other ends"] if more > 0 else [])]


def decision_words(decisions: Sequence[Decision]) -> str:
    """The decisions in a line; many equal ones in a row are counted."""
    shown: List[str] = []
    for decision, run in groupby(decisions):
        count = sum(1 for _ in run)
        shown += [f"{count} times {decision}"] if count >= RUN else [str(decision)] * count
    return ", ".join(shown) or "none"


def paragraph(number: int, record: Record, job: Optional[Job] = None) -> List[str]:
    """A record in some lines."""
    if isinstance(record, Pruned):
        return [f"record {number}: refuted, no packet comes here", f"  decisions: {decision_words(record.decisions)}"]
    if isinstance(record, Unexplored):
        return [f"record {number}: not tried", f"  decisions: {decision_words(record.decisions)}"]
    lines = [f"record {number}: {end_words(record)}", f"  way: {way(record.places)}", f"  decisions: {decision_words(record.decisions)}"]
    lines += _part("decided by", decided_lines(job, record))
    if record.undecided is not None:
        return [*lines, f"  undecided: {record.undecided}"]
    return lines if record.values is None else [*lines, f"  packet: {_packet(record, job)}"]


def _packet(path: Path, job: Optional[Job]) -> str:
    if job is None or path.values is None:
        return " ".join(map(str, path.values or ())) or "no values"
    return packet_words(path.values, job, follow(job, path.decisions, path.places).choices) or "no unknown field"


def report_lines(report: Report, with_pruned: bool = False, job: Optional[Job] = None) -> List[str]:
    """The summary, what is undecided, and a paragraph for each record; refuted sides where they are asked for."""
    lines = [*summary(report, with_pruned), *undecided(report, job)]
    for number, record in enumerate(report.records):
        if with_pruned or not isinstance(record, Pruned):
            lines += ["", *paragraph(number, record, job)]
    return lines


# ---------------------------------------------------------------- one record


def record_lines(report: Report, number: int, job: Optional[Job] = None) -> List[str]:
    """All that a record has: its ports, each decision with its instruction, its packet, and what it carries at the end."""
    if not number < len(report.records):
        raise Misshaped(f"there is no record {number}: the last is {len(report.records) - 1}")
    record = report.records[number]
    found = follow(job, record.decisions, record.places if isinstance(record, Path) else ())
    decided = [(str(decision), code_text(found.decided[at]) if at < len(found.decided) else "") for at, decision in enumerate(record.decisions)]
    if not isinstance(record, Path):
        return [paragraph(number, record)[0], *_part("decisions", columns(decided, "    "))]
    lines = [f"record {number}: {end_words(record)}", f"  way: {way(record.places)}", *_part("ports", [f"    {place}" for place in record.places]),
             *_part("decisions", columns(decided, "    ")), *_part("decided by", decided_lines(job, record))]
    if record.undecided is not None:
        lines += undecided_lines([(number, record.undecided, test_words(record, job))], 1, report.cases)
    if record.values is not None:
        lines += _part("packet", packet_lines(record.values, job, "    ", found.choices))
    return lines + _part("carries at the end", columns(carried(record.fields, job, found.choices, record.values), "    "))


def _part(heading: str, lines: List[str]) -> List[str]:
    return [f"  {heading}", *lines] if lines else []


def head_name(fields: Fields, address: int, width: int) -> Tuple[str, str]:
    """The name of the cell at an address, and its reference, by the tags that are there."""
    named = [(name_of(target), target) for target in (f"head {tag}{address - at:+}:{width}" for tag, at in fields.tags) if position_of(target)]
    return named[0] if named else (f"bit {address}", f"head {address}:{width}")


def carried(fields: Fields, job: Optional[Job], choices: Sequence[str], values: Optional[Sequence[int]]) -> List[Tuple[str, str, str, str]]:
    """What is carried at the end: of each top cell its name, its term, its value for the packet, and its reference."""
    rows = []
    for address, cells in fields.heads:
        if cells:
            name, target = head_name(fields, address, cells[-1].width)
            rows.append((name, *_cell_words(cells[-1], kind_of(target), job, choices, values), target))
    for owner, name, cells in fields.metas:
        if cells:
            scope = "global" if owner is None else "local"
            rows.append((f"{scope} {name}{'' if owner is None else f' of {owner}'}", *_cell_words(cells[-1], None, job, choices, values), f"{scope} {name}:{cells[-1].width}"))
    return rows


def _cell_words(cell: Cell, kind: Optional[str], job: Optional[Job], choices: Sequence[str], values: Optional[Sequence[int]]) -> Tuple[str, str]:
    """A cell as a term over the unknown fields, and its value for the packet."""
    if cell.constant is None:
        return "not set", ""
    if not cell.parts:
        return value_text(kind, cell.constant), ""
    full = 1 << cell.width
    terms = [_term(coefficient, full, "symbol " + str(symbol) if job is None else named(job, symbol, choices)[0]) for symbol, coefficient in cell.parts]
    constant = cell.constant if 2 * cell.constant < full else cell.constant - full
    term = "".join([*terms, f" {'+' if constant > 0 else '-'} {abs(constant)}" if constant else ""]).removeprefix(" + ")
    is_known = values is not None and all(symbol < len(values) for symbol, _ in cell.parts)
    value = cell.value(values) if is_known and values is not None else None
    return term, "" if value is None else f"= {value_text(kind, value)}"


def _term(coefficient: int, full: int, name: str) -> str:
    """A part of a sum, with its sign."""
    times = coefficient if 2 * coefficient < full or full == 2 and coefficient == 1 else coefficient - full
    return f" {'-' if times < 0 else '+'} {'' if abs(times) == 1 else f'{abs(times)} * '}{{{name}}}"


def differences(left: Sequence[Path], right: Sequence[Path]) -> List[str]:
    """What the header has where a packet leaves two networks by one port, as far as it differs: a line for each cell."""
    lines = []
    for one in left:
        others = [path for path in right if path.end == "delivered" and path.last == one.last]
        if one.end == "delivered" and len(others) == 1:
            lines += [f"  at {one.last} {name} is {mine} in the first network, and {theirs} in the second" for name, mine, theirs in _unlike(one.fields, others[0].fields)]
    return lines


def _unlike(left: Fields, right: Fields) -> List[Tuple[str, str, str]]:
    """The names of the cells of a header that two walks do not have alike, and what each of them has."""
    found = []
    tops = [{address: cells[-1] for address, cells in fields.heads if cells} for fields in (left, right)]
    for address in sorted({*tops[0], *tops[1]}):
        one, other = (it.get(address) for it in tops)
        if one != other:
            cell = one or other
            name, target = head_name(left if one else right, address, cell.width if cell else 0)
            found.append((name, *(_constant(it, target) for it in (one, other))))
    return found


def _constant(cell: Optional[Cell], target: str) -> str:
    if cell is None:
        return "not there"
    return "not set" if cell.constant is None else value_text(kind_of(target), cell.constant)


# ---------------------------------------------------------------- what is undecided


def undecided(report: Report, job: Optional[Job] = None) -> List[str]:
    """How many paths are undecided by which cause, and what settles them."""
    found = [(number, path.undecided, test_words(path, job)) for number, path in enumerate(report.records) if isinstance(path, Path) and path.undecided]
    return undecided_lines(found, len(report.paths), report.cases)


def test_words(path: Path, job: Optional[Job]) -> str:
    """The words of the test that a path's cause names: the tests of the injection come first, then those of the decisions, in their order."""
    if path.pick is None:
        return ""
    if job is None:
        return f"test {path.pick}"
    if path.pick < len(job.wheres):
        return f"where {job.wheres[path.pick]}"
    tests = [(at, decision) for at, decision in enumerate(path.decisions) if isinstance(decision, str)]
    if path.pick - len(job.wheres) >= len(tests):
        return f"test {path.pick}"
    at, decision = tests[path.pick - len(job.wheres)]
    decided = follow(job, path.decisions, path.places).decided
    return f"decision {at}, {decision}{f' of {code_text(decided[at])}' if at < len(decided) else ''}"
