"""Tables of worked rows: read, and changed in part. crates/symnet_rows/data/README.md has their lines."""

import re
from dataclasses import dataclass, field
from typing import Dict, List, Optional, Tuple

from checkout import TOP

DATA = TOP / "crates/symnet_rows/data"
PIECES = {"|", ":", "=", "bytes", "from", "times"}
# Behind this the next record, answer, rule or path of a text of JSON begins.
MEMBER = re.compile(r'([\[,])(?={"(?:before|decisions|answer|cover|rule|number)")')


@dataclass
class Row:
    """A row, and the numbers of its lines from 0: by the keys of its lines, and of the pieces of its output, each with its bytes. One that says
    what fails outside or what patterns find is staged."""

    name: str
    words: List[str] = field(default_factory=list)
    files: Dict[str, bytes] = field(default_factory=dict)
    is_staged: bool = False
    status: int = 0
    error: str = ""
    lines: Dict[str, int] = field(default_factory=dict)
    pieces: List[Tuple[int, bytes]] = field(default_factory=list)

    @property
    def output(self) -> bytes:
        return b"".join(text for _, text in self.pieces)


def names() -> List[str]:
    """The names of all tables."""
    return sorted(it.stem for it in DATA.glob("*.rows"))


def lines_of(table: str) -> List[str]:
    return (DATA / f"{table}.rows").read_text().split("\n")


def piece(line: str, texts: Dict[str, bytes]) -> bytes:
    """The bytes of a line of a text, a file or an output."""
    key, _, rest = line.partition(" ")
    if key == "times":
        number, _, inner = rest.partition(" ")
        return int(number) * piece(inner, texts)
    if key == "=":
        return texts[rest]
    if key == "from":
        return (DATA / rest).read_bytes()
    return bytes.fromhex(rest) if key == "bytes" else rest.encode() + (b"\n" if key == "|" else b"")


def read(table: str) -> Dict[str, Row]:
    """The rows of a table by name."""
    return read_lines(lines_of(table))


def read_lines(lines: List[str]) -> Dict[str, Row]:
    texts: Dict[str, bytes] = {}
    rows: Dict[str, Row] = {}
    row: Optional[Row] = None
    # What the next pieces belong to: a dictionary and a key of it, or the row's output.
    place: Optional[Tuple[Dict[str, bytes], str]] = None
    for number, line in enumerate(lines):
        key, _, rest = line.partition(" ")
        if not line or line.startswith("#"):
            continue
        if key in PIECES:
            text = piece(line, texts)
            if place is None:
                row.pieces.append((number, text))
            else:
                place[0][place[1]] += text
            continue
        if key == "text":
            place = (texts, rest)
        elif key == "row":
            row = rows[rest] = Row(rest)
        elif key == "file":
            place = (row.files, rest)
        elif key == "output":
            place = None
        elif key == "words":
            row.words = rest.split(" ") if rest else []
        elif key == "word":
            row.words.append(rest)
        elif key == "status":
            row.status = int(rest)
        elif key == "error":
            row.error = rest
        elif key in {"failing", "bad", "finds"}:
            row.is_staged = True
        if key in {"text", "file"}:
            place[0][rest] = b""
        elif key in {"status", "error", "output"}:
            row.lines[key] = number
    return rows


def pieces(text: bytes) -> List[str]:
    """A text as lines of a table: `|` where a line feed ends one, `:` where nothing does, and `bytes` for what is no UTF-8."""
    try:
        *whole, last = text.decode().split("\n")
    except UnicodeDecodeError:
        return [f"bytes {text.hex(' ')}"]
    found = []
    for line in whole:
        *parts, end = MEMBER.sub("\\1\n", line).split("\n")
        found += [f": {it}" for it in parts] + [f"| {end}" if end else "|"]
    return found + ([f": {it}" for it in MEMBER.sub("\\1\n", last).split("\n")] if last else [])


def change_ending(lines: List[str], row: Row, status: int, error: str, output: bytes) -> None:
    """Changes the lines of a table so that the row ends so, and leaves the lines before the row as they are. Pieces of the old output that begin or
    end the new one stay."""
    first, last = 0, len(row.pieces)
    while first < last and output.startswith(b"".join(text for _, text in row.pieces[:first + 1])):
        first += 1
    begin = len(b"".join(text for _, text in row.pieces[:first]))
    while first < last and output[begin:].endswith(b"".join(text for _, text in row.pieces[last - 1:])):
        last -= 1
    end = len(output) - len(b"".join(text for _, text in row.pieces[last:]))
    head = row.pieces[first - 1][0] if first else row.lines["output"]
    tail = row.pieces[last][0] if last < len(row.pieces) else max([row.lines["output"], *(at for at, _ in row.pieces)]) + 1
    lines[row.lines["status"]] = f"status {status}"
    lines[row.lines["error"]] = f"error {error}" if error else "error"
    # The pieces come last, since the numbers of all lines behind them change.
    lines[head + 1:tail] = pieces(output[begin:end])
