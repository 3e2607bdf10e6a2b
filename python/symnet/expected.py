"""The answers of `ask` beside those that are expected: for tests, and for build servers, which read them as results of tests (JUnit's XML)."""

import html
import re
from dataclasses import dataclass
from typing import List, Optional, Protocol, Sequence, Tuple, Union

from .answers import Answer
from .fields import code_text
from .inputs import Job, NotInput
from .packet import Packet
from .plain import plain

# What may be expected: that an answer is not known is never what it should be.
MAY_BE = ("yes", "no")


class _HasAnswers(Protocol):
    @property
    def answers(self) -> Tuple[Answer, ...]: ...


@dataclass(frozen=True)
class Unmet:
    """An answer that is not the expected one: the number and the text of its question, where the job is known, both words, and the packet that shows the answer."""

    number: int
    question: str
    expected: str
    answer: str
    packet: Optional[Packet] = None

    def __str__(self) -> str:
        of = f"question {self.number}{f', {self.question}' if self.question else ''}"
        return f"{of}: expected {self.expected}, answered {self.answer}{f', shown by the packet {self.packet}' if self.packet is not None else ''}"


class NotExpected(AssertionError):
    """Answers that are not the expected ones: `unmet` has each of them."""

    def __init__(self, unmet: Tuple[Unmet, ...]):
        super().__init__(unmet)
        self.unmet = unmet

    def __str__(self) -> str:
        return plain_lines([str(it) for it in self.unmet])


def plain_lines(lines: Sequence[str]) -> str:
    return "\n".join(map(plain, lines))


def read_expected(text: str) -> List[str]:
    """What a file expects: a line with yes or no for each question, in their order; `#` begins a comment, and empty lines are skipped."""
    found = []
    for number, line in enumerate(text.split("\n"), 1):
        word = line.split("#")[0].strip()
        if word and word not in MAY_BE:
            raise NotInput(f"line {number}: {word[:60]!r} is neither yes nor no")
        found += [word] if word else []
    return found


def in_words(word: str) -> Optional[List[str]]:
    """The answers that a word lists, as yes,no,yes; None where it is no such list."""
    parts = word.split(",")
    return parts if all(it in MAY_BE for it in parts) else None


def fitting(expected: Sequence[str], count: int) -> None:
    """NotInput where so many questions have not each an answer that is expected."""
    if len(expected) != count:
        raise NotInput(f"{len(expected)} answers are expected, and there are {count} questions")


def expect(answers: Union[_HasAnswers, Sequence[Answer]], expected: Sequence[str]) -> None:
    """NotExpected where an answer of `ask` is not the expected one, yes or no, of its question: an unknown answer never is. ValueError where one is expected that cannot be, or
    the questions are more or fewer."""
    given = answers if isinstance(answers, Sequence) else answers.answers
    wrong = [expected] if isinstance(expected, str) else [it for it in expected if it not in MAY_BE]
    if wrong:
        raise ValueError(f"{wrong[0]!r} cannot be expected: a list of 'yes' and 'no' can")
    try:
        fitting(expected, len(given))
    except NotInput as error:
        raise ValueError(str(error)) from None
    unmet = [Unmet(number, _asked(answer, number), wanted, answer.answer, answer.packet) for number, (answer, wanted) in enumerate(zip(given, expected)) if answer.answer != wanted]
    if unmet:
        raise NotExpected(tuple(unmet))


def _asked(answer: Answer, number: int) -> str:
    """The text of a question, where the answer knows its job."""
    job = None if answer.job is None else answer.job.job
    return question_text(job, number) if job is not None and number < len(job.asks) else ""


def question_text(job: Job, number: int) -> str:
    return code_text(job.asks[number].text)


def verdict(answers: Sequence[Answer], expected: Sequence[str]) -> str:
    """How many answers are as expected, and which are not, in a line."""
    unmet = [f"{number} (expected {wanted}, answered {answer.answer})" for number, (answer, wanted) in enumerate(zip(answers, expected)) if answer.answer != wanted]
    if not unmet:
        return f"all {len(answers)} answers are as expected" if len(answers) != 1 else "the answer is as expected"
    return f"NOT AS EXPECTED: {len(unmet)} of {len(answers)} answers, of question{'s' if len(unmet) > 1 else ''} {', '.join(unmet)}"


# ---- results of tests


# What no XML has, besides what is not shown in any case.
_NO_XML = re.compile("[\ufffe\uffff]")


def _text(text: str) -> str:
    """A text as XML has it, between tags or between quotation marks."""
    return html.escape(_NO_XML.sub("?", plain(text)), quote=True)


def _suite(name: str, cases: Sequence[str], failures: int, errors: int) -> str:
    counts = f'tests="{len(cases)}" failures="{failures}" errors="{errors}"'
    return "\n".join(['<?xml version="1.0" encoding="UTF-8"?>', f"<testsuites {counts}>", f'  <testsuite name="{_text(name)}" {counts} skipped="0">', *cases, "  </testsuite>", "</testsuites>", ""])


def names(job: Optional[Job], count: int) -> List[str]:
    """A name for each question: its text, with its number where an earlier one has the same."""
    found: List[str] = []
    for number in range(count):
        text = f"question {number}" if job is None else question_text(job, number)
        found.append(f"{text} (question {number})" if text in found else text)
    return found


def junit(suite: str, job: Optional[Job], answers: Sequence[Answer], expected: Sequence[str], told: Sequence[Sequence[str]]) -> str:
    """The answers as results of tests: a case for each question, by its text, which fails where the answer is not the expected one. `told` has what is said of each answer, in lines."""
    cases, failures = [], 0
    for name, answer, wanted, lines in zip(names(job, len(answers)), answers, expected, told):
        begin, body = f'    <testcase classname="{_text(suite)}" name="{_text(name)}">', "\n".join(map(_text, lines))
        if answer.answer == wanted:
            cases.append(f"{begin}\n      <system-out>{body}</system-out>\n    </testcase>")
        else:
            failures += 1
            cases.append(f'{begin}\n      <failure type="{answer.answer}" message="expected {wanted}, answered {answer.answer}">{body}</failure>\n    </testcase>')
    return _suite(suite, cases, failures, 0)


def junit_error(suite: str, message: str) -> str:
    """That there are no answers, as a test that could not be made."""
    return _suite(suite, [f'    <testcase classname="{_text(suite)}" name="the answers are read">\n      <error message="{_text(message)}"></error>\n    </testcase>'], 0, 1)
