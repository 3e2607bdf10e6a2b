"""Files of what boxes print: their bytes, their lines, and the members of their JSON, each with its place."""

import json
import re
from dataclasses import dataclass
from pathlib import Path
from typing import Any, Iterator, List, Tuple

from .model import Refused, Source

# The most bytes of a file: that of a job.
LARGEST = 64 << 20

_DECODER = json.JSONDecoder()
_BLANKS = re.compile(r"[ \t\r\n]*")
# How much of a line is kept to tell it by.
_TOLD = 160


@dataclass(frozen=True)
class Text:
    """A file that was read: its name from the folder that is imported, and its text."""

    name: str
    text: str

    def source(self, line: int, text: str = "", column: int = 0) -> Source:
        return Source(self.name, line, " ".join(text.split())[:_TOLD], column)

    def lines(self) -> List[Tuple[str, Source]]:
        """Its lines, without what ends them."""
        return [(line, self.source(number, line)) for number, line in enumerate(self.text.replace("\r\n", "\n").split("\n"), 1)]


def read(folder: Path, name: str) -> Text:
    """Reads a file; Refused where it is none that may be read, or none of text."""
    whole = Source(name, 0)
    try:
        with open(folder / name, "rb") as file:
            data = file.read(LARGEST + 1)
    except OSError as error:
        raise Refused(whole, f"it cannot be read: {error.strerror}") from None
    if len(data) > LARGEST:
        raise Refused(whole, f"it has more than {LARGEST:,} bytes, the most that is read of a file")
    try:
        return Text(name, data.decode("utf-8"))
    except UnicodeDecodeError as error:
        raise Refused(Source(name, data.count(b"\n", 0, error.start) + 1), "a byte here is no UTF-8") from None


class _Places:
    """The line and the column of places that are asked for in ascending order."""

    def __init__(self, text: Text):
        self.text, self.at, self.line, self.begin = text, 0, 1, 0

    def source(self, at: int, told: str = "") -> Source:
        self.line += self.text.text.count("\n", self.at, at)
        self.begin = max(self.begin, self.text.text.rfind("\n", self.at, at) + 1)
        self.at = at
        return self.text.source(self.line, told, at - self.begin + 1)


def _value(text: Text, at: int, places: _Places) -> Tuple[Any, int]:
    try:
        return _DECODER.raw_decode(text.text, at)
    except json.JSONDecodeError as error:
        where = places.source(max(error.pos, places.at))
        raise Refused(where, f"no JSON: {error.msg}") from None
    except RecursionError:
        raise Refused(places.source(at), "no JSON that is read: it nests too deep") from None
    except ValueError:
        raise Refused(places.source(at), "no JSON that is read: a number has too many digits") from None


def members(text: Text, key: str = "") -> Iterator[Tuple[Any, Source]]:
    """The members of a list that is the whole file, or of that which stands behind a key of an object that is the whole file, each with its place. Several of them may
    stand one behind another, as where outputs were put into one file."""
    opens = re.compile(rf'\{{\s*"{key}"\s*:\s*\[' if key else r"\[")
    closes = re.compile(r"\]\s*\}" if key else r"\]")
    places, at, count = _Places(text), _skip(text.text, 0), 0
    while at < len(text.text):
        begin = opens.match(text.text, at)
        if not begin:
            raise Refused(places.source(at), f'JSON of the form {{"{key}": [..]}} should stand here' if key else "a JSON list should stand here")
        at, count = _skip(text.text, begin.end()), count + 1
        is_first = True
        while not (end := closes.match(text.text, at)):
            if not is_first:
                if text.text[at:at + 1] != ",":
                    raise Refused(places.source(at), "no JSON: a comma or the end of the list should stand here")
                at = _skip(text.text, at + 1)
            is_first = False
            value, after = _value(text, at, places)
            yield value, places.source(at)
            at = _skip(text.text, after)
        at = _skip(text.text, end.end())
    if not count:
        raise Refused(Source(text.name, 0), "the file is empty")


def _skip(text: str, at: int) -> int:
    found = _BLANKS.match(text, at)
    return found.end() if found else at


def told(source: Source, text: str) -> Source:
    """The place, with what stands there."""
    return source._replace(text=" ".join(text.split())[:_TOLD])


def shaped(value: Any, kind: type, source: Source, what: str) -> Any:
    """The value, where it is of the kind; Refused where it is not."""
    if not isinstance(value, kind) or (kind is int and isinstance(value, bool)):
        raise Refused(source, f"{what} has not the form that the tool writes")
    return value
