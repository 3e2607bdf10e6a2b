"""Reads what symnet writes into plain objects, and prints it for people.

    python -m symnet.report WRITTEN [FILE ..] [OPTION ..]
    tools/symnet_report.py WRITTEN [FILE ..] [OPTION ..]      the same, where the package is not installed

WRITTEN is a report of `symnet explore`, the walks of `symnet walk`, or an answer of `symnet ask`, `rules`, `loops` or `compare`; `-` reads it from
standard input. A FILE is what belongs to it: the job (or the two of `compare`, in their order), the filter list of `rules` (or its two), the report whose records
`loops` and `ask` speak of, or the map of a job that was imported (`net.map`), by which the routes and rules that decided are named. Fields are shown by their names and with their values as people write them, where the job is given. Only the standard library is used.

    symnet ask office.sefl | tools/symnet_report.py - office.sefl
    symnet rules border.acl | tools/symnet_report.py - border.acl

    --record N                    all that one record of a report has
    --pruned                      the refuted sides of a report, too
    --narrow                      lines of at most 72 characters; on a terminal they are as wide as it is
    --hops, --limit, --cases N    the bounds that the answer was made under, where they are not the usual ones
    --only-read                   nothing is run
    --expect ANSWERS              of answers of `ask`: what each should be, as yes,no,yes, or a file with yes or no in a line for each question; ends with status 20 where
                                  one is another, or unknown
    --junit FILE                  the same as results of tests, in the XML of JUnit

An answer says no way. Where the job is given, and no report, and the package has something to run, it walks the packets that answers show along the job (`walk`), and
explores the job of an answer of `loops` (`explore`), to tell the boxes.
"""

import argparse
import contextlib
import io
import os
import shutil
import signal
import sys
from dataclasses import dataclass, field, replace
from typing import Callable, Dict, List, NoReturn, Optional, Sequence, Tuple, Union

from .answer_words import Ways, asked_lines, asked_parts, compared_lines, compared_rules_lines, is_round, loops_lines, rules_lines
from .answers import Loops, NotAnswer, is_of_lists, read_asked, read_compared, read_compared_rules, read_loops, read_rules
from .causes import ALL_CASES, COUPLED, OUTSIDE, too_many, undecided_lines
from .expected import fitting, in_words, junit, junit_error, read_expected, verdict
from .inputs import Job, NotInput, Rule, is_list, read_job, read_list
from .origins import Origins, is_map, read_map
from .packets import packet_words
from .plain import laid_out, plain, wrapped
from .records import Cell, Fields, NotReport, Path, Pruned, Record, Report, Unexplored, read_report, read_written, report_of
from .report_words import record_lines, report_lines, test_words, undecided
from .runner import Runner
from .shape import Misshaped

__all__ = ["Cell", "Fields", "Inputs", "NotReport", "Path", "Pruned", "Record", "Report", "Unexplored", "main", "open_lines", "packet_words", "read_report", "read_written",
           "record_lines", "report_lines", "shown", "undecided"]

NARROW = 72
# How the reader ends: where its words have no reading, a file cannot be read or written, a text has not its form, and an answer is not the expected one.
NO_WORDS, NO_FILE, NO_FORM, NOT_AS_EXPECTED = 2, 3, 14, 20
USAGE = ("symnet_report.py WRITTEN [FILE ..] [--record N] [--pruned] [--narrow] [--hops N] [--limit N] [--cases N] [--only-read] [--expect ANSWERS [--junit FILE]]")


def open_lines(report: Report, numbers: Sequence[int], job: Optional[Job] = None) -> List[str]:
    """Why these records leave a question open."""
    if any(number >= len(report.records) for number in numbers):
        raise NotAnswer("a record that leaves a question open is none of the report: the answer is of another job, other hops or another limit")
    listed = [(number, report.records[number]) for number in numbers]
    found = [(number, path.undecided, test_words(path, job)) for number, path in listed if isinstance(path, Path) and path.undecided]
    untried = sum(isinstance(record, Unexplored) for _, record in listed)
    decided = len(listed) - len(found) - untried
    lines = undecided_lines(found, len(listed), report.cases, "record")
    if untried:
        lines.append(f"{untried:,} of {len(listed):,} records {'was' if untried == 1 else 'were'} not tried, since the limit was met; raise --limit")
    if decided:
        verb, them, they = ("is", "it", "it") if decided == 1 else ("are", "them", "they")
        settles = f"{OUTSIDE}, or {COUPLED}" if report.cases == ALL_CASES else f"with the question {they} may have {too_many(None)}; --cases all tries them"
        lines.append(f"{decided:,} of {len(listed):,} records {verb} decided, and the question on {them} is not: {settles}")
    return lines


@dataclass
class Inputs:
    """The files that belong to what was written, as far as they are given, and what runs the commands, if anything does."""

    # Jobs and filter lists in the order in which they are given; of each job its name, too.
    jobs: List[Tuple[str, Job]] = field(default_factory=list)
    lists: List[List[Rule]] = field(default_factory=list)
    report: Optional[Report] = None
    runner: Optional[Runner] = None
    # where the items of the job come from, if it was imported
    origins: Optional[Origins] = None

    def add(self, name: str, data: bytes) -> None:
        """Takes a file for what its text is."""
        text = data.decode("utf-8", "replace")
        if is_map(text):
            self.origins = read_map(text)
        elif text.lstrip().startswith("{"):
            self.report = read_report(text)
        elif is_list(name, text):
            self.lists.append(read_list(text))
        else:
            self.jobs.append((name, read_job(text)))

    @property
    def job(self) -> Optional[Job]:
        return replace(self.jobs[0][1], origins=self.origins) if self.jobs else None

    def list_of(self, at: int) -> Optional[List[Rule]]:
        """The filter list that stands there, where it is given."""
        return self.lists[at] if at < len(self.lists) else None

    def cut_paths(self, loops: Loops) -> Optional[Dict[int, Path]]:
        """The cut paths of the report, by their numbers; where none is given, those of the job as it is explored for them. None where the loops are not among them."""
        if self.report is not None:
            return _cut(self.report)
        made = self.runner.report(self.jobs[0][0]) if self.runner and self.jobs and loops.first else None
        found = {} if made is None else _cut(made)
        are_there = all(number in found for number in loops.open) and all(number in found and is_round(found[number], first) for number, first in loops.first.items())
        return found if made is not None and are_there else None

    def ways(self) -> Optional[Ways]:
        """What tells the paths of a packet that an answer shows: the record of its number, or the walks of the packet."""
        if self.report is not None:
            return self._recorded
        if self.runner is None or not self.jobs:
            return None
        runner, name = self.runner, self.jobs[0][0]
        return lambda _, values: runner.walks(name, values)

    def _recorded(self, number: int, _: Sequence[int]) -> Sequence[Path]:
        records = self.report.records if self.report else ()
        record = records[number] if number < len(records) else None
        if not isinstance(record, Path):
            raise NotAnswer(f"record {number} of the report is no path: the answer is of another job, or was made under other bounds")
        return [record]

    def walks(self, values: Sequence[int]) -> Dict[str, Sequence[Path]]:
        """The walks of a packet in the networks whose jobs are given, the left one first."""
        if self.runner is None:
            return {}
        return {side: self.runner.walks(name, values, is_bound=True) for side, (name, _) in zip(("left", "right"), self.jobs)}

    def why(self) -> Optional[Callable[[Sequence[int]], List[str]]]:
        """Why records of the report leave a question open, where it is given."""
        report, job = self.report, self.job
        return None if report is None else lambda numbers: open_lines(report, numbers, job)


def _cut(report: Report) -> Dict[int, Path]:
    return {number: record for number, record in enumerate(report.records) if isinstance(record, Path) and record.end == "cut"}


def shown_lines(text: Union[str, bytes], inputs: Inputs, with_pruned: bool = False, record: Optional[int] = None) -> List[str]:
    """What is written, in words, line by line; NotReport or NotAnswer where it is nothing that symnet writes, or not of these inputs."""
    whole = read_written(text)
    if record is not None:
        try:
            return record_lines(report_of(whole), record, inputs.job)
        except Misshaped as error:
            raise NotReport(str(error)) from None
    if "answers" in whole:
        return asked_lines(read_asked(whole), inputs.job, inputs.why(), inputs.ways())
    if "rules" in whole:
        return rules_lines(read_rules(whole, inputs.list_of(0)), inputs.list_of(0))
    if "loops" in whole:
        loops = read_loops(whole)
        return loops_lines(loops, inputs.cut_paths(loops), inputs.job)
    if is_of_lists(whole):
        left, right = inputs.list_of(0), inputs.list_of(1)
        return compared_rules_lines(read_compared_rules(whole, left, right), left, right)
    if "answer" in whole:
        compared = read_compared(whole)
        return compared_lines(compared, inputs.job, inputs.walks(compared.values) if compared.answer == "other" else None)
    return report_lines(report_of(whole), with_pruned, inputs.job)


def shown(text: Union[str, bytes], inputs: Inputs, with_pruned: bool = False, record: Optional[int] = None) -> str:
    """What is written, in words, as it may be printed."""
    return laid_out(shown_lines(text, inputs, with_pruned, record))


# ---------------------------------------------------------------- as a program


class _Usage(Exception):
    """The words are none of the reader."""


class _Words(argparse.ArgumentParser):
    def error(self, message: str) -> NoReturn:
        raise _Usage(message)


def _count(word: str) -> int:
    if not (word.isascii() and word.isdigit() and len(word) <= 20):
        raise argparse.ArgumentTypeError(f"{word} is no number")
    return int(word)


def _bound(word: str) -> str:
    return word if word == "all" else str(_count(word))


def _words() -> _Words:
    reader = _Words(usage=USAGE, allow_abbrev=False, add_help=False)
    reader.add_argument("written", metavar="WRITTEN")
    reader.add_argument("files", metavar="FILE", nargs="*")
    reader.add_argument("--record", metavar="N", type=_count)
    for name in ("--pruned", "--narrow", "--only-read"):
        reader.add_argument(name, action="store_true")
    for name in ("--hops", "--limit", "--cases"):
        reader.add_argument(name, metavar="N", type=_bound)
    reader.add_argument("--expect", metavar="ANSWERS")
    reader.add_argument("--junit", metavar="FILE")
    return reader


def _width(is_narrow: bool) -> Optional[int]:
    """How wide lines may be; None where they may have any width, since no terminal shows them."""
    if is_narrow:
        return NARROW
    return shutil.get_terminal_size().columns if sys.stdout.isatty() or os.environ.get("COLUMNS", "").isdigit() else None


def _bytes_of(name: str) -> bytes:
    if name == "-":
        return sys.stdin.buffer.read()
    with open(name, "rb") as file:
        return file.read()


def _print(lines: Sequence[str], width: Optional[int]) -> None:
    """Prints the lines, with a question mark for what the encoding of the output does not have."""
    if isinstance(sys.stdout, io.TextIOWrapper):
        sys.stdout.reconfigure(errors="replace")
    for line in lines:
        print(laid_out(wrapped(plain(line), width)))


def _asked(words: List[str]) -> argparse.Namespace:
    reader = _words()
    try:
        asked = reader.parse_intermixed_args(words)
        if "-" in asked.files:
            raise _Usage("- is what was written, and comes first")
        if asked.expect is None and asked.junit is not None:
            raise _Usage("--junit wants --expect")
        if asked.expect is not None and (asked.record is not None or asked.pruned):
            raise _Usage("--expect is of answers, and --record and --pruned of a report")
        if "-" in (asked.expect, asked.junit):
            raise _Usage("behind --expect and --junit stands the name of a file")
        return asked
    except _Usage as error:
        print(laid_out([*reader.format_usage().strip().split("\n"), f"symnet_report: {error}"]), file=sys.stderr)
        raise


@dataclass
class _Results:
    """What is expected of answers, and where their results go, as the words say."""

    expect: str
    place: Optional[str]
    suite: str

    def put(self, text: str) -> None:
        """Writes the results, where a place is named for them."""
        if self.place is not None:
            with open(self.place, "w", encoding="utf-8", newline="\n") as file:
                file.write(text)

    def wanted(self) -> List[str]:
        """The answers that are expected."""
        listed = in_words(self.expect)
        return read_expected(_bytes_of(self.expect).decode("utf-8", "replace")) if listed is None else listed

    def of(self, text: bytes, wanted: List[str], inputs: Inputs) -> Tuple[List[str], bool]:
        """What is said of the answers, and whether all are as expected."""
        whole = read_written(text)
        if "answers" not in whole:
            raise NotAnswer("it is no answer of ask, and of others nothing can be expected")
        answers = read_asked(whole)
        told = asked_parts(answers, inputs.job, inputs.why(), inputs.ways())
        try:
            fitting(wanted, len(answers))
        except NotInput as error:
            raise NotAnswer(str(error)) from None
        self.put(junit(self.suite, inputs.job, answers, wanted, told))
        return [*(line for lines in told for line in lines), verdict(answers, wanted)], [it.answer for it in answers] == wanted


def main(words: List[str]) -> int:
    if words in (["--help"], ["-h"]):
        print(__doc__.rstrip("\n"))
        return 0
    try:
        asked = _asked(words)
    except _Usage:
        return NO_WORDS
    bounds = [f"--{name}={value}" for name, value in (("hops", asked.hops), ("limit", asked.limit), ("cases", asked.cases)) if value is not None]
    inputs, name = Inputs(runner=None if asked.only_read else Runner(bounds)), asked.written
    results = None if asked.expect is None else _Results(asked.expect, asked.junit, asked.files[0] if asked.files else "symnet ask")
    try:
        for name in asked.files:
            inputs.add(name, _bytes_of(name))
        if results is None:
            name = asked.written
            _print(shown_lines(_bytes_of(name), inputs, asked.pruned, asked.record), _width(asked.narrow))
            return 0
        name = asked.expect
        wanted, name = results.wanted(), asked.written
        lines, are_met = results.of(_bytes_of(name), wanted, inputs)
        _print(lines, _width(asked.narrow))
        return 0 if are_met else NOT_AS_EXPECTED
    except (OSError, NotReport, NotAnswer, NotInput) as error:
        told = f"symnet_report: {error}" if isinstance(error, OSError) else f"symnet_report: {name}: {error}"
        print(plain(told), file=sys.stderr)
        if results is not None:
            # a build server that finds the results of an earlier run would take them for these
            with contextlib.suppress(OSError):
                results.put(junit_error(results.suite, told))
        return NO_FILE if isinstance(error, OSError) else NO_FORM


if __name__ == "__main__":
    # A reader that has seen enough, as `head`, ends this program quietly.
    if hasattr(signal, "SIGPIPE"):
        signal.signal(signal.SIGPIPE, signal.SIG_DFL)
    sys.exit(main(sys.argv[1:]))
