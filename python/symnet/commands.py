"""The commands over texts in memory. docs/questions.md, docs/formats.md and docs/language.md of the repository say what each asks and answers.

A text is `str` or `bytes`; a job may also be a `Net`, which brings its tables. `files` has what a job names in its text, its tables, by those names; nothing is read from the disk. An option that is not
given has the value of the command line, except `cases`: here it is "all". With `cases=None` no bound is said, and the program takes its own, 4,096. Each
command raises `Refusal` where it ends without a whole text.
"""

from dataclasses import dataclass, field, fields, replace
from typing import Dict, Iterable, List, Literal, Mapping, Optional, Sequence, Tuple, Type, TypeVar, Union

from .answers import Answer, Compared, ComparedRules, Fate, Loops, read_asked, read_compared, read_compared_rules, read_loops, read_rules
from .inputs import read_list
from .engine import call
from .jobs import Net
from .library import Ended, Files as AnyFiles, Text, as_bytes
from .packet import JobText
from .picture import Pictured, Texts
from .refusal import PARTIAL, written
from .records import NotReport, Report, read_report, read_written, report_of
from .shape import Misshaped, a_count, a_text, member

Files = Mapping[str, Text]
Job = Union[Text, Net]
# A bound on choices of cases: a number from 1 to 2^64 - 1, or all of them; None is the program's own, 4,096.
Cases = Union[int, Literal["all"]]


@dataclass(frozen=True)
class Asked(Pictured):
    """The answers to a job's questions, in their order; `complete` is False where the exploration ended at its limit of records, so that more of
    them may be unknown: yes and no are right all the same."""

    answers: Tuple[Answer, ...]
    complete: bool = True
    shown: Optional[Texts] = field(default=None, repr=False, compare=False)


@dataclass(frozen=True)
class Rules(Pictured):
    """What becomes of each rule of a filter list, in their order."""

    fates: Tuple[Fate, ...]
    shown: Optional[Texts] = field(default=None, repr=False, compare=False)


@dataclass(frozen=True)
class RefusedPacket:
    """Why a packet of many has no walks: "bad packet" with the kind of status 11, or "too many walks" with their count (docs/statuses.md)."""

    why: str
    number: int


@dataclass(frozen=True)
class Confirmed:
    """How many records of a report were confirmed: paths that a packet takes, undecided paths, refuted sides, decisions that were not tried."""

    sat: int
    undecided: int
    pruned: int
    unexplored: int


@dataclass(frozen=True)
class Grown:
    """The counts of the records of a job that was made from a seed."""

    seed: int
    nodes: int
    sat: int
    undecided: int
    pruned: int
    unexplored: int
    delivered: int
    stopped: int
    failed: int
    cut: int


Counted = TypeVar("Counted", Confirmed, Grown)


def run(words: Sequence[Text], files: Optional[AnyFiles] = None) -> Ended:
    """Runs the words of a command line over these files, and returns the status, the output and what is said for people; raises no Refusal."""
    none: Dict[str, Text] = {}
    return call(words, none if files is None else files)


def _options(**given: Union[int, str, None]) -> List[str]:
    return [f"--{name}={value}" for name, value in given.items() if value is not None]


def _with(files: Optional[Files], **texts: Text) -> Tuple[Dict[str, Text], Dict[str, str]]:
    """The files and these texts, each under a name that no file has, and these names."""
    whole: Dict[str, Text] = {**(files or {})}
    names: Dict[str, str] = {}
    for kind, text in texts.items():
        name = f"the {kind}"
        while name in whole:
            name += "'"
        whole[name], names[kind] = text, name
    return whole, names


def _taken(files: Optional[Files], *jobs: Job) -> Tuple[Dict[str, Text], List[Text]]:
    """The files and the tables of the jobs, and the texts of these."""
    whole: Dict[str, Text] = {**(files or {})}
    for job in jobs:
        for name, text in job.files.items() if isinstance(job, Net) else ():
            if as_bytes(whole.setdefault(name, text)) != as_bytes(text):
                raise ValueError(f"two different files have the name {name}")
    return whole, [job.text if isinstance(job, Net) else job for job in jobs]


def _shown(files: Mapping[str, Text], others: Optional[Mapping[str, Text]] = None) -> Texts:
    return Texts({name: as_bytes(text) for name, text in files.items()}, {name: as_bytes(text) for name, text in (others or {}).items()})


def _counts(text: bytes, made: Type[Counted]) -> Counted:
    """The counts that a command writes: all of its answer besides its form."""
    whole = read_written(text)
    try:
        return made(**{it.name: a_count(member(whole, it.name)) for it in fields(made)})
    except Misshaped as error:
        raise NotReport(f"no counts: {error}") from None


def explore(job: Job, *, files: Optional[Files] = None, hops: Optional[int] = None, limit: Optional[int] = None,
            cases: Optional[Cases] = "all", pruned: Optional[Literal["all", "count"]] = None) -> Report:
    """The report of all packets of a job."""
    taken, [job] = _taken(files, job)
    whole, names = _with(taken, job=job)
    text = written(run(["explore", names["job"], *_options(hops=hops, limit=limit, cases=cases, pruned=pruned)], whole))
    return replace(read_report(text, job), text=text, shown=_shown({"report": text, "job": job}))


def walk(job: Job, packet: Union[Text, Sequence[int]], *, files: Optional[Files] = None, hops: Optional[int] = None,
         limit: Optional[int] = None) -> Report:
    """All walks of one packet: its text, or its numbers, one for each unknown field of the injection and each choice on the way."""
    given = packet if isinstance(packet, (str, bytes)) else "\n".join(map(str, packet))
    taken, [job] = _taken(files, job)
    whole, names = _with(taken, job=job, packet=given)
    text = written(run(["walk", names["job"], names["packet"], *_options(hops=hops, limit=limit)], whole))
    return replace(read_report(text, job), text=text, shown=_shown({"walks": text, "job": job}))


def _packet_line(packet: Union[Text, Sequence[int]]) -> bytes:
    """A packet on one line."""
    if isinstance(packet, str):
        packet = packet.encode()
    return b" ".join(packet.split()) if isinstance(packet, bytes) else " ".join(map(str, packet)).encode()


def _line_answer(line: bytes, job: Text) -> Union[Report, RefusedPacket]:
    whole = read_written(line)
    if "refused" not in whole:
        return replace(report_of(whole, JobText(job)), text=line, shown=_shown({"walks": line, "job": job}))
    try:
        return RefusedPacket(a_text(whole["refused"]), a_count(member(whole, "kind" if "kind" in whole else "count")))
    except Misshaped as error:
        raise NotReport(f"no walks: {error}") from None


def walk_each(job: Job, packets: Iterable[Union[Text, Sequence[int]]], *, files: Optional[Files] = None, hops: Optional[int] = None,
              limit: Optional[int] = None) -> List[Union[Report, RefusedPacket]]:
    """All walks of each of many packets, as of one by `walk`; the job is read once. A packet that is refused does not end it."""
    taken, [job] = _taken(files, job)
    whole, names = _with(taken, job=job, packets=b"".join(_packet_line(it) + b"\n" for it in packets))
    text = written(run(["walk", names["job"], names["packets"], "--packets=lines", *_options(hops=hops, limit=limit)], whole))
    return [_line_answer(line + b"\n", job) for line in text.split(b"\n")[:-1]]


def replay(job: Job, report: Union[Text, Report], *, files: Optional[Files] = None, records: Optional[Literal["each", "whole"]] = None) -> Confirmed:
    """The counts of a report's records, where each was confirmed for the job: of a text, or of what `explore` returned. With `records="whole"`
    it is confirmed, too, that none is missing, so that each walk of each packet has exactly one path among them, whoever made the report."""
    taken, [job] = _taken(files, job)
    whole, names = _with(taken, job=job, report=report.text if isinstance(report, Report) else report)
    return _counts(written(run(["replay", names["job"], names["report"], *_options(records=records)], whole)), Confirmed)


def ask(job: Job, *, files: Optional[Files] = None, hops: Optional[int] = None, limit: Optional[int] = None, cases: Optional[Cases] = "all") -> Asked:
    """The answers to the questions of a job."""
    taken, [job] = _taken(files, job)
    whole, names = _with(taken, job=job)
    ended = run(["ask", names["job"], *_options(hops=hops, limit=limit, cases=cases)], whole)
    text = written(ended)
    named = JobText(job)
    return Asked(tuple(replace(it, job=named) for it in read_asked(read_written(text))), ended.status != PARTIAL, _shown({"answer": text, "job": job}))


def loops(job: Job, *, files: Optional[Files] = None, hops: Optional[int] = None, limit: Optional[int] = None, cases: Optional[Cases] = "all",
          open: Optional[Literal["numbers", "visits"]] = None) -> Loops:
    """Which paths of a job that are cut go round for ever."""
    taken, [job] = _taken(files, job)
    whole, names = _with(taken, job=job)
    ended = run(["loops", names["job"], *_options(hops=hops, limit=limit, cases=cases, open=open)], whole)
    text = written(ended)
    return replace(read_loops(read_written(text)), complete=ended.status != PARTIAL, shown=_shown({"answer": text, "job": job}))


def compare(job: Job, other: Job, *, files: Optional[Files] = None, hops: Optional[int] = None, limit: Optional[int] = None,
            cases: Optional[Cases] = "all", cut: Optional[Literal["omit", "count"]] = None) -> Compared:
    """Whether two jobs deliver the same, or a packet that shows a difference. With `cut="count"` its `cut` says how many paths of each are cut at the bound of hops:
    where none is, the answer holds of walks of any length."""
    taken, [job, other] = _taken(files, job, other)
    whole, names = _with(taken, job=job, other=other)
    text = written(run(["compare", names["job"], names["other"], *_options(hops=hops, limit=limit, cases=cases, cut=cut)], whole))
    return replace(read_compared(read_written(text)), job=JobText(job), shown=_shown({"answer": text, "job": job}, {"job": other}))


def model(kind: Literal["mac", "fib", "click", "acl"], file: Text, *, style: Optional[Literal["chain", "grouped", "egress"]] = None) -> str:
    """The node of a switch's or a router's table or of a filter list, or the nodes and links of a Click configuration, as a job has them."""
    whole, names = _with(None, file=file)
    return written(run(["model", kind, names["file"], *_options(style=style)], whole)).decode()


def rules(file: Text) -> Rules:
    """For each rule of a filter list a packet that it decides, or the earlier rules that hide it."""
    whole, names = _with(None, file=file)
    text = written(run(["rules", names["file"]], whole))
    return Rules(tuple(read_rules(read_written(text), read_list(as_bytes(file).decode()))), _shown({"answer": text, "list.acl": file}))


def compare_rules(file: Text, other: Text) -> ComparedRules:
    """Whether two filter lists permit the same packets, or a packet that one permits and the other denies."""
    whole, names = _with(None, file=file, other=other)
    text = written(run(["rules", names["file"], names["other"]], whole))
    return read_compared_rules(read_written(text), read_list(as_bytes(file).decode()), read_list(as_bytes(other).decode()))


def grow(seed: int, nodes: int) -> Grown:
    """The counts of the records of a job that is made from a seed."""
    return _counts(written(run(["grow", str(seed), str(nodes)])), Grown)
