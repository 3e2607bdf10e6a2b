"""Why a path is undecided, in words, and what settles it."""

from typing import Dict, List, Optional, Sequence, Tuple

# The bound on choices of cases where a report says none, and the greatest, `all`, which no count is above.
USUAL_CASES = 4096
ALL_CASES = 2**64 - 1

# What is said where the records and their causes are not at hand.
HINT = "explore prints these records with their causes; where they have more choices of cases than the bound, --cases all tries them"

# What each cause says of a path, and what settles it.
COUPLED = "more than 64 values depend on one another"
OUTSIDE = "a test is past the solver, as a sum of fields or a field wider than 64 bits beside another"
NARROW = "give a field a value, or narrow the injection by where lines"


def too_many(cases: Optional[int]) -> str:
    """More choices of cases than a bound, or than one that is not known."""
    return "more choices of cases than the bound" if cases is None else f"more than {cases:,} choices of cases"


def undecided_lines(found: Sequence[Tuple[int, str, str]], total: int, cases: Optional[int], kind: str = "path") -> List[str]:
    """How many of `total` paths are undecided by each cause, and what settles them. Each path is its number, its cause, and the words of the test that is
    outside, which stand below with the numbers."""
    lines: List[str] = []
    for cause, one, many, settles in (
            ("cases", f"it has {too_many(cases)}", f"they have {too_many(cases)}", "--cases all tries them"),
            ("coupled", COUPLED, COUPLED, NARROW), ("outside", OUTSIDE, OUTSIDE, NARROW)):
        of_cause = [(number, test) for number, its, test in found if its == cause]
        if of_cause:
            verb, why = ("is", one) if len(of_cause) == 1 else ("are", many)
            lines.append(f"{len(of_cause):,} of {total:,} {kind}s {verb} undecided since {why}; {settles}")
        if cause == "outside":
            lines += _tests(of_cause)
    return lines


TESTS, NUMBERS = 20, 10


def _tests(of_cause: Sequence[Tuple[int, str]]) -> List[str]:
    """A line for each test that is outside, with the records that have it."""
    by_test: Dict[str, List[int]] = {}
    for number, test in of_cause:
        by_test.setdefault(test, []).append(number)
    lines = [f"  {test}: {records(numbers)}" for test, numbers in list(by_test.items())[:TESTS]]
    return lines + ([f"  and {len(by_test) - TESTS:,} tests more"] if len(by_test) > TESTS else [])


def records(numbers: Sequence[int]) -> str:
    """The numbers of records, the first of many."""
    more = len(numbers) - NUMBERS
    return f"{'record' if len(numbers) == 1 else 'records'} {', '.join(map(str, numbers[:NUMBERS]))}{f' and {more:,} more' if more > 0 else ''}"


def visit_cause(cause: str) -> str:
    """Why it is undecided whether a cell differed at a visit."""
    return {"cases": f"there are {too_many(None)}; --cases all tries them", "coupled": COUPLED, "outside": OUTSIDE}.get(cause, cause)
