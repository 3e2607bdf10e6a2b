"""Whether values of JSON have the form that is read of them. Each function returns the value where it has, and raises Misshaped, which says what stands there instead."""

import re
from typing import Any, Callable, Collection, Dict, List, Tuple, TypeVar

Made = TypeVar("Made")
# An object of JSON.
Written = Dict[str, Any]

# A value above 2^64 - 1 is written as the text of its digits; the greatest, 2^128 - 1, has 39.
_DIGITS = re.compile("[0-9]{1,39}")
_PLACE = re.compile(r"(in|out) ([A-Za-z_][A-Za-z0-9_]*)\.([0-9]{1,10})")
_LONGEST = 60


class Misshaped(Exception):
    """A value has not its form; the message says which."""


def named(value: object) -> str:
    """A value in a few words, however large it is."""
    if isinstance(value, str):
        return repr(value if len(value) <= _LONGEST else f"{value[:_LONGEST]}..")
    if isinstance(value, list):
        return "a list"
    if isinstance(value, dict):
        return "an object"
    shown = str(value)
    return shown if len(shown) <= _LONGEST else f"{shown[:_LONGEST]}.."


def an_object(value: object) -> Written:
    if isinstance(value, dict):
        return value
    raise Misshaped(f"{named(value)} is no object")


def member(whole: Written, name: str) -> Any:
    """The member of an object."""
    if name not in whole:
        raise Misshaped(f"it has no {name!r}")
    return whole[name]


def a_list(value: object) -> List[Any]:
    if isinstance(value, list):
        return value
    raise Misshaped(f"{named(value)} is no list")


def a_text(value: object) -> str:
    if isinstance(value, str):
        return value
    raise Misshaped(f"{named(value)} is no text")


def a_number(value: object) -> int:
    if isinstance(value, int) and not isinstance(value, bool):
        return value
    raise Misshaped(f"{named(value)} is no number")


def a_count(value: object) -> int:
    """A number from 0 on."""
    if isinstance(value, int) and not isinstance(value, bool) and value >= 0:
        return value
    raise Misshaped(f"{named(value)} is no count")


def a_value(value: object) -> int:
    """A number from 0 to 2^128 - 1, as a number or as its digits."""
    if isinstance(value, str) and _DIGITS.fullmatch(value):
        value = int(value)
    number = a_count(value)
    if number >> 128:
        raise Misshaped(f"{named(value)} has more than 128 bits")
    return number


def one_of(value: object, words: Collection[str]) -> str:
    if isinstance(value, str) and value in words:
        return value
    *others, last = words
    raise Misshaped(f"{named(value)} is none of {', '.join(others)} and {last}")


def a_place(value: object) -> str:
    """A port of a box, as `in r.0`."""
    if isinstance(value, str) and _PLACE.fullmatch(value):
        return value
    raise Misshaped(f"{named(value)} is no port")


def some(read: Callable[[Any], Made], values: object) -> Tuple[Made, ...]:
    """What `read` makes of each member of a list."""
    return tuple(read(value) for value in a_list(values))


def parts_of(value: object, least: int, most: int) -> List[Any]:
    """A list with so many members."""
    parts = a_list(value)
    if least <= len(parts) <= most:
        return parts
    raise Misshaped(f"a list of {len(parts)} where {least if least == most else f'{least} to {most}'} should stand")
