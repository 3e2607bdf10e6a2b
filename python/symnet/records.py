"""Reports and walks as plain objects, read of what `symnet explore` and `symnet walk` write. Whole numbers keep all their digits; a value above 2^64 - 1, which
is written as a text of digits, becomes a number too."""

import json
from dataclasses import dataclass, field
from typing import Any, Dict, List, Optional, Sequence, Tuple, Union

from .causes import USUAL_CASES
from .packet import JobText, Packet
from .picture import Pictured, Texts
from .library import Text
from .shape import Misshaped, Written, a_count, a_list, a_number, a_place, a_text, a_value, an_object, member, named, one_of, parts_of, some
from .ways import Decision, boxes, follow

FAULTS = {
    1: "no such tag", 2: "address out of range", 3: "no field at the address", 4: "field of another width",
    5: "fields that overlap", 6: "field that is not set", 7: "no such metadata", 8: "constraint not met", 9: "fail",
}
FAIL = 9
ENDS = ("delivered", "stopped", "cut")
CHOSEN = ("then", "else", "pass", "broken")
CAUSES = ("cases", "coupled", "outside")

class NotReport(Exception):
    """The text is no report and no list of walks; the message says where."""


@dataclass(frozen=True)
class Cell:
    """A cell of `width` bits: unset where `constant` is None, else constant + sum of coefficient * symbol, modulo 2^width."""

    width: int
    constant: Optional[int]
    parts: Tuple[Tuple[int, int], ...] = ()

    def value(self, values: Sequence[int]) -> Optional[int]:
        """The number that it holds for the packet with these numbers, one for each symbol."""
        if self.constant is None:
            return None
        total = self.constant + sum(coefficient * values[symbol] for symbol, coefficient in self.parts)
        return total % (1 << self.width)


@dataclass(frozen=True)
class Fields:
    """What is carried at the end: tags with bit addresses, header cells by address, metadata by owner (None: global) and name."""

    tags: Tuple[Tuple[str, int], ...]
    heads: Tuple[Tuple[int, Tuple[Cell, ...]], ...]
    metas: Tuple[Tuple[Optional[str], str, Tuple[Cell, ...]], ...]


@dataclass(frozen=True)
class Path:
    """A path, or a walk of one packet; `values` are those of its least packet, None where it is undecided or a walk. `undecided` is the cause, "cases",
    "coupled" or "outside"; `count` is the number of its choices of cases, or of its coupled values, and `pick` the number of the test that is outside."""

    decisions: Tuple[Decision, ...]
    places: Tuple[str, ...]
    end: str
    fields: Fields
    values: Optional[Tuple[int, ...]] = None
    undecided: Optional[str] = None
    count: Optional[int] = None
    pick: Optional[int] = None
    # Of a path that failed: the number of its fault and that of the item of the text, and why.
    fault: Optional[int] = None
    site: Optional[int] = None
    message: str = ""
    job: Optional[JobText] = field(default=None, repr=False, compare=False)

    @property
    def last(self) -> str:
        """The port where it ends."""
        return self.places[-1] if self.places else "the injection"

    @property
    def packet(self) -> Optional[Packet]:
        """Its least packet by the names of the job; None where it is undecided or a walk."""
        if self.values is None:
            return None
        job = self.job or JobText("")
        return job.packet(self.values, follow(job.job, self.decisions, self.places).choices)

    def row(self) -> Dict[str, Any]:
        """What it is as a plain dict: its end, the port of it, the boxes on its way, its decisions, and its packet by names."""
        ended = {"end": self.end if self.fault is None else "failed", "at": self.last, "message": self.message, "site": self.site}
        way = {"boxes": boxes(self.places), "decisions": list(self.decisions), "undecided": self.undecided}
        return {**ended, **way, **(self.packet.row() if self.packet is not None else {})}


@dataclass(frozen=True)
class Pruned:
    """A side that no packet takes, with the refutation's steps as they are written."""

    decisions: Tuple[Decision, ...]
    refutation: Tuple[List[Any], ...]


@dataclass(frozen=True)
class Unexplored:
    """A decision that was open when the limit was reached."""

    decisions: Tuple[Decision, ...]


Record = Union[Path, Pruned, Unexplored]


@dataclass(frozen=True)
class Report(Pictured):
    """All records in order; `refuted` is how many sides were refuted, so that no packet takes them, and `complete` says that nothing was left unexplored. Walks have
    none of hops, limit and refuted sides. `cases` is the bound on choices of cases, 4,096 where the text says none. `text` is what was read, as `replay` takes it, where it is kept."""

    records: Tuple[Record, ...]
    hops: Optional[int] = None
    limit: Optional[int] = None
    refuted: int = 0
    complete: bool = True
    cases: Optional[int] = None
    text: bytes = field(default=b"", repr=False, compare=False)
    shown: Optional[Texts] = field(default=None, repr=False, compare=False)

    @property
    def paths(self) -> List[Path]:
        return [record for record in self.records if isinstance(record, Path)]

    def rows(self) -> List[Dict[str, Any]]:
        """A plain dict for each path, in their order: the number of its record, and what `Path.row` has."""
        return [{"record": number, **record.row()} for number, record in enumerate(self.records) if isinstance(record, Path)]

    def to_pandas(self) -> Any:
        """The rows as a DataFrame, where pandas is installed."""
        try:
            import pandas
        except ImportError:
            raise ImportError("to_pandas wants pandas, which is not installed; rows() has the same as plain dicts") from None
        return pandas.DataFrame(self.rows())


def _decision(value: object) -> Decision:
    return one_of(value, CHOSEN) if isinstance(value, str) else a_count(value)


def _cell(value: object) -> Cell:
    width, *rest = parts_of(value, 1, 3)
    if not 1 <= a_count(width) <= 128:
        raise Misshaped(f"a cell of {named(width)} bits")
    if not rest:
        return Cell(width, None)
    members = [parts_of(it, 2, 2) for it in a_list(rest[1])] if len(rest) == 2 else []
    return Cell(width, a_value(rest[0]), tuple((a_count(symbol), a_value(coefficient)) for symbol, coefficient in members))


def _cells(value: object) -> Tuple[Cell, ...]:
    return some(_cell, value)


def _tag(value: object) -> Tuple[str, int]:
    name, address = parts_of(value, 2, 2)
    return a_text(name), a_number(address)


def _head(value: object) -> Tuple[int, Tuple[Cell, ...]]:
    address, cells = parts_of(value, 2, 2)
    return a_number(address), _cells(cells)


def _meta(value: object) -> Tuple[Optional[str], str, Tuple[Cell, ...]]:
    owner, name, cells = parts_of(value, 3, 3)
    return None if owner is None else a_text(owner), a_text(name), _cells(cells)


def _fields(value: object) -> Fields:
    whole = an_object(value)
    return Fields(some(_tag, member(whole, "tags")), some(_head, member(whole, "heads")), some(_meta, member(whole, "metas")))


def _failure(end: Written) -> Dict[str, Any]:
    """What a path has of its failure."""
    fault, site = a_count(member(end, "fault")), a_count(member(end, "site"))
    if fault not in FAULTS:
        raise Misshaped(f"{named(fault)} is no fault")
    message = a_text(member(end, "text")) if fault == FAIL else FAULTS[fault]
    return {"end": f"failed at {site}: {message}", "fault": fault, "site": site, "message": message}


def _verdict(value: object) -> Dict[str, Any]:
    """What a path has of its verdict."""
    verdict = an_object(value)
    if "sat" in verdict:
        return {"values": some(a_value, verdict["sat"])}
    why = an_object(member(verdict, "undecided"))
    return {"undecided": one_of(member(why, "cause"), CAUSES), **{key: a_count(why[key]) for key in ("count", "pick") if key in why}}


def _path(record: Written, job: Optional[JobText]) -> Path:
    decisions, places, end = some(_decision, member(record, "decisions")), some(a_place, member(record, "places")), member(record, "end")
    ended = _failure(end) if isinstance(end, dict) else {"end": one_of(end, ENDS)}
    verdict = _verdict(member(record, "verdict")) if "kind" in record else {}
    return Path(decisions, places, fields=_fields(member(record, "fields")), job=job, **ended, **verdict)


def _record(value: object, job: Optional[JobText]) -> Record:
    record = an_object(value)
    kind = one_of(record.get("kind", "path"), ("path", "pruned", "unexplored"))
    if kind == "path":
        return _path(record, job)
    decisions = some(_decision, member(record, "decisions"))
    return Pruned(decisions, some(a_list, member(record, "refutation"))) if kind == "pruned" else Unexplored(decisions)


def read_written(text: Union[str, bytes]) -> Written:
    """The object that a command wrote; NotReport where the text is none."""
    try:
        whole = json.loads(text)
    except RecursionError:
        raise NotReport("no JSON: it is nested too deep") from None
    except UnicodeDecodeError as error:
        raise NotReport(f"no JSON: its byte {error.start} begins no character of UTF-8") from None
    except json.JSONDecodeError as error:
        raise NotReport(f"no JSON: {error}") from None
    except ValueError:
        # Python reads no number of more than some thousand digits
        raise NotReport("no report: it has a number with more digits than any that is written") from None
    version = whole.get("symnet") if isinstance(whole, dict) else None
    if not isinstance(whole, dict) or version != 1 or isinstance(version, (bool, float)):
        raise NotReport("no report: it is no object with the key symnet 1")
    return whole


def read_report(text: Union[str, bytes], job: Optional[Text] = None) -> Report:
    """The report, or the walks, of this text; NotReport where it is neither. The packets of its paths have the names of the job, where it is given."""
    return report_of(read_written(text), None if job is None else JobText(job))


def report_of(whole: Written, job: Optional[JobText] = None) -> Report:
    """The report, or the walks, that this object is."""
    listed = whole.get("records", whole.get("walks"))
    if not isinstance(listed, list):
        raise NotReport("no report: it has neither records nor walks")
    records = tuple(_numbered(number, record, job) for number, record in enumerate(listed))
    if "records" not in whole:
        return Report(records)
    try:
        hops, limit, refuted = (a_count(member(whole, key)) for key in ("hops", "limit", "refuted"))
        cases = a_count(whole.get("cases", USUAL_CASES))
        if cases == 0:
            raise Misshaped("its bound on choices of cases is 0")
        return Report(records, hops, limit, refuted, one_of(member(whole, "state"), ("done", "partial")) == "done", cases)
    except Misshaped as error:
        raise NotReport(f"no report: {error}") from None


def _numbered(number: int, record: object, job: Optional[JobText]) -> Record:
    try:
        return _record(record, job)
    except Misshaped as error:
        raise NotReport(f"record {number} has not the form of one: {error}") from None
