"""Reads what a person writes for symnet, as far as answers are told by it: a job's unknown fields and questions, and filter lists."""

import re
from bisect import bisect_left
from dataclasses import dataclass, field
from typing import TYPE_CHECKING, Dict, List, Optional, Sequence, Tuple, Union

if TYPE_CHECKING:
    from .origins import Origins

RULE_LIMIT = 1024
# The deepest nesting of a job, and a little more.
DEEPEST = 70
LIST_FIELDS = (("protocol", "protocol", 255), ("source address", "ip4", 2**32 - 1), ("destination address", "ip4", 2**32 - 1),
               ("source port", "number", 65535), ("destination port", "number", 65535))

Ranges = Tuple[Tuple[int, int], ...]

_TOKEN = re.compile(r'\s+|//[^\n]*|[A-Za-z_]\w*|0x[0-9A-Fa-f]+|\d+|"[^"]*"|->|\.\.|==|!=|<=|>=|[{}\[\]();:,.=<>+\-$]', re.ASCII)
_PREFIX = re.compile(r"(\d{1,3}(?:\.\d{1,3}){3})/(0|[1-9]\d?)", re.ASCII)
_NUMBERS = re.compile(r"(0|[1-9]\d{0,4})(?:-(0|[1-9]\d{0,4}))?", re.ASCII)


class NotInput(Exception):
    """The text is no job, or no filter list; the message says where."""


@dataclass(frozen=True)
class Ask:
    """A question's text, and the comment lines above it."""

    text: str
    note: str


# The instructions that take a decision, or end the code.
_STEERING = ("if", "constrain", "fork", "forward", "fail")


@dataclass(frozen=True)
class Statement:
    """An instruction: its word, its text without the blocks, and these: two of an If, one of a `for` or of a block that stands by itself."""

    word: str
    text: str
    blocks: Tuple[Tuple["Statement", ...], ...] = ()
    # where it begins in the job's text, from 1
    line: int = field(default=0, compare=False)

    @property
    def steers(self) -> bool:
        """Whether a way depends on it: it decides, chooses or ends."""
        return self.word in _STEERING or self.chosen is not None or any(self.blocks)

    @property
    def chosen(self) -> Optional[str]:
        """What it gives a value that nobody knows; None where it does not."""
        return self.text[len("set "):-len(" = any")] if self.word == "set" and self.text.endswith(" = any") else None


@dataclass(frozen=True)
class Node:
    """A box: the style of its table, where it names one; else where in the text the code of each of its ports begins, as `in 0`."""

    style: Optional[str]
    codes: Dict[str, int]


@dataclass(frozen=True)
class Job:
    """The unknown fields of the injection in order, as references, its `where` lines, the questions, the boxes, and the port that a packet enters by."""

    fields: Tuple[str, ...]
    asks: Tuple[Ask, ...]
    wheres: Tuple[str, ...] = ()
    nodes: Dict[str, Node] = field(default_factory=dict)
    start: str = ""
    # What the lines with `any` set, each once.
    chosen: Tuple[str, ...] = ()
    tokens: Optional["Tokens"] = field(default=None, repr=False, compare=False)
    # where its items come from, where it was imported and the map is given
    origins: Optional["Origins"] = field(default=None, repr=False, compare=False)

    def target(self, symbol: int, choices: Sequence[str] = ()) -> str:
        """What the value number `symbol` of a packet is: a field, or a choice on the way, by what it sets. `choices` are those of the way, where it is known; else
        all lines with `any` have to set the same."""
        if symbol < len(self.fields):
            return self.fields[symbol]
        number = symbol - len(self.fields)
        if number < len(choices):
            return self._again(choices[number], choices[:number].count(choices[number]))
        return self._again(self.chosen[0], number) if len(self.chosen) == 1 else f"choice {number}"

    def _again(self, target: str, earlier: int) -> str:
        """What a choice sets, with a count where the same was chosen before, or is an unknown field."""
        count = earlier + self.fields.count(target)
        return f"{target} ({count + 1})" if count else target

    def code(self, place: str) -> Optional[Tuple[Statement, ...]]:
        """What steers in the code of a port, as `in r.0`; None where the box is that of a table, or is not in the job."""
        side, _, port = place.partition(" ")
        name, _, number = port.partition(".")
        node = self.nodes.get(name)
        if node is None or node.style is not None or self.tokens is None:
            return None
        begin = node.codes.get(f"{side} {number}")
        return () if begin is None else self.tokens.code(begin)


@dataclass(frozen=True)
class Rule:
    """A rule of a filter list: its line from 1, its words, whether it permits, and the least and greatest value of each field."""

    line: int
    text: str
    permits: bool
    ranges: Ranges


@dataclass(frozen=True)
class _Token:
    text: str
    start: int
    end: int
    note: str


def _tokens(text: str) -> List[_Token]:
    found, notes, at, line_begins = [], [], 0, True
    while at < len(text):
        match = _TOKEN.match(text, at)
        if not match:
            raise NotInput(f"no job: an unknown character in line {text.count(chr(10), 0, at) + 1}")
        part, at = match[0], match.end()
        if part.isspace():
            line_begins = line_begins or "\n" in part
        elif part.startswith("//"):
            # A comment on a line of its own is of the next token.
            notes += [part[2:].strip()] if line_begins else []
        else:
            found.append(_Token(part, match.start(), at, " ".join(notes)))
            notes, line_begins = [], False
    return found


class Tokens:
    """The tokens of a job, from front to back."""

    def __init__(self, text: str):
        self.text, self.tokens, self.at = text, _tokens(text), 0
        self.codes: Dict[int, Tuple[Statement, ...]] = {}
        # where the lines end
        self.ends: Optional[List[int]] = None

    def peek(self) -> str:
        return self.tokens[self.at].text if self.at < len(self.tokens) else ""

    def next(self) -> str:
        if self.at >= len(self.tokens):
            raise NotInput("no job: it ends too soon")
        self.at += 1
        return self.tokens[self.at - 1].text

    def line(self) -> int:
        """The line of the last token, from 1."""
        return self.line_of(self.at - 1)

    def line_of(self, token: int) -> int:
        """The line of a token, from 1."""
        if self.ends is None:
            self.ends = [at for at, letter in enumerate(self.text) if letter == "\n"]
        return bisect_left(self.ends, self.tokens[token].start) + 1

    def take(self, wanted: str) -> None:
        found = self.next()
        if found != wanted:
            raise NotInput(f"no job: '{found}' where '{wanted}' should stand, in line {self.line()}")

    def statement(self) -> str:
        """The text up to the next semicolon, which is taken too."""
        first = self.at
        while self.next() != ";":
            pass
        if self.at - 1 == first:
            return ""
        return re.sub(r"\s+", " ", self.text[self.tokens[first].start:self.tokens[self.at - 2].end])

    def block(self) -> None:
        """Skips a block with all that stands in it."""
        self.take("{")
        depth = 1
        while depth > 0:
            depth += {"{": 1, "}": -1}.get(self.next(), 0)

    def between(self, first: int, end: int) -> str:
        """The text from one token up to another, with single blanks."""
        return re.sub(r"\s+", " ", self.text[self.tokens[first].start:self.tokens[end - 1].end]) if first < end else ""

    def code(self, begin: int) -> Tuple[Statement, ...]:
        """What steers in the block that begins there."""
        if begin not in self.codes:
            kept, self.at = self.at, begin
            try:
                self.codes[begin] = self._block(0)
            finally:
                self.at = kept
        return self.codes[begin]

    def _block(self, depth: int) -> Tuple[Statement, ...]:
        if depth > DEEPEST:
            raise NotInput("no job: it nests too deep")
        self.take("{")
        made = []
        while self.peek() != "}":
            step = self._statement(depth)
            made += [step] if step.steers else []
        self.next()
        return tuple(made)

    def _statement(self, depth: int) -> Statement:
        first = self.at
        if self.peek() == "{":
            return Statement("{", "", (self._block(depth + 1),))
        word, line = self.next(), self.line_of(first)
        if word not in ("if", "for"):
            return Statement(word, f"{word} {self.statement()}".rstrip(), line=line)
        while self.peek() != "{" or self.tokens[self.at - 1].text == "in":
            self.next()
        text, blocks = self.between(first, self.at), [self._block(depth + 1)]
        if word == "if":
            self.take("else")
            blocks.append(self._block(depth + 1))
        return Statement(word, text, tuple(blocks), line)


def _node(tokens: Tokens) -> Tuple[str, Node]:
    """A node: its name, and where its codes begin."""
    tokens.take("node")
    name = tokens.next()
    if tokens.peek() == "=":
        return name, Node(tokens.statement().rsplit(" ", 1)[-1], {})
    tokens.next()
    tokens.take("->")
    tokens.next()
    tokens.take("{")
    codes: Dict[str, int] = {}
    while tokens.peek() != "}":
        port = f"{tokens.next()} {tokens.next()}"
        codes.setdefault(port, tokens.at)
        tokens.block()
    tokens.next()
    return name, Node(None, codes)


# The tokens of the longest `set .. = any`.
_LONGEST = 10


def _chosen(tokens: Tokens) -> Tuple[str, ...]:
    """What the lines with `any` set, each once."""
    parts, found = [it.text for it in tokens.tokens], []
    for at in range(1, len(parts)):
        if parts[at] == "any" and parts[at - 1] == "=":
            begin = next((back for back in range(at - 1, max(at - _LONGEST, 0), -1) if parts[back] == "set" and parts[back - 1] in (";", "{", "}")), at)
            found += [tokens.between(begin + 1, at - 1)] if begin < at else []
    return tuple(dict.fromkeys(found))


def read_job(text: str) -> Job:
    """The unknown fields, `where` lines and questions of the job, and where its boxes stand; NotInput where it has not the outline of one."""
    tokens = Tokens(text)
    tokens.take("symnet")
    tokens.statement()
    nodes: Dict[str, Node] = {}
    while tokens.peek() == "node":
        name, node = _node(tokens)
        nodes.setdefault(name, node)
    while tokens.peek() == "link":
        tokens.statement()
    tokens.take("inject")
    start = f"in {tokens.next()}{tokens.next()}{tokens.next()}"
    tokens.take("{")
    fields, asks, wheres = [], [], []
    while tokens.peek() != "}":
        kind = tokens.next()
        line = tokens.statement()
        if kind == "field" and "=" not in line:
            fields.append(line)
        if kind == "where":
            wheres.append(line)
    tokens.take("}")
    while tokens.peek() == "ask":
        note = tokens.tokens[tokens.at].note
        tokens.next()
        asks.append(Ask(tokens.statement(), note))
    return Job(tuple(fields), tuple(asks), tuple(wheres), nodes, start, _chosen(tokens), tokens)


def is_list(name: str, text: str) -> bool:
    """Whether the text is to be read as a filter list: by its file's name, or by the word that its first rule begins with."""
    return name.endswith(".acl") or re.match(r"\s*(?:#[^\n]*\n\s*)*(?:permit|deny)\b", text) is not None


def _prefix(word: str) -> Optional[Tuple[int, int]]:
    found = _PREFIX.fullmatch(word)
    if not found or int(found[2]) > 32:
        return None
    parts = [int(part) for part in found[1].split(".")]
    if max(parts) > 255:
        return None
    free = 32 - int(found[2])
    low = int.from_bytes(bytes(parts), "big") >> free << free
    return low, low + (1 << free) - 1


def _numbers(word: str, greatest: int, may_be_range: bool) -> Optional[Tuple[int, int]]:
    if word == "any":
        return 0, greatest
    found = _NUMBERS.fullmatch(word)
    if not found or (found[2] is not None and not may_be_range):
        return None
    low = int(found[1])
    high = low if found[2] is None else int(found[2])
    return (low, high) if low <= high <= greatest else None


def _ranges(words: List[str], where: str) -> Ranges:
    if words[0] not in ("permit", "deny"):
        raise NotInput(f"{where}: it begins with neither permit nor deny")
    if len(words) != 6:
        raise NotInput(f"{where}: behind permit or deny stand protocol, source, destination, source port and destination port")
    ranges = []
    for word, (name, kind, greatest) in zip(words[1:], LIST_FIELDS):
        found = _prefix(word) if kind == "ip4" else _numbers(word, greatest, kind == "number")
        if found is None:
            raise NotInput(f"{where}: '{word}' is no {name}")
        ranges.append(found)
    return tuple(ranges)


def read_list(text: str) -> List[Rule]:
    """The rules of the filter list in their order (docs/filter-lists.md has the form); NotInput at the first line that breaks it."""
    rules: List[Rule] = []
    lines = text.split("\n")
    for number, line in enumerate(lines, 1):
        if number < len(lines) and line.endswith("\r"):
            line = line[:-1]
        where = f"line {number} of the filter list is no rule"
        if not line.isascii():
            raise NotInput(f"{where}: it is not ASCII")
        words = [word for word in re.split("[ \t]+", line.split("#")[0]) if word]
        if not words:
            continue
        rule = Rule(number, " ".join(words), words[0] == "permit", _ranges(words, where))
        if len(rules) == RULE_LIMIT:
            raise NotInput(f"line {number} of the filter list is past the limit of {RULE_LIMIT} rules")
        rules.append(rule)
    return rules


def has_packet(ranges: Ranges, values: Union[List[int], Tuple[int, ...]]) -> bool:
    return all(low <= value <= high for (low, high), value in zip(ranges, values))


def has_part(ranges: Ranges, part: Ranges) -> bool:
    """Whether the ranges have each packet of the part."""
    return all(low <= first and last <= high for (low, high), (first, last) in zip(ranges, part))
