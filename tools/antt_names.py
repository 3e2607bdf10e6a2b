"""Definitions in files of specs/, and the names that a definition or a clause uses.

A file is read by its layout into definitions, and each term by its binders, so that a name which a binder has taken is no use of a definition. A use is a path as it is
written; what it means is the affair of the module's `use` lines (`definitions.py`).
"""

import re
from dataclasses import dataclass, field
from typing import Callable, Dict, FrozenSet, Iterator, List, Optional, Sequence, Set, Tuple

# A quoted text, an escaped name, punctuation, or a name.
TOKEN = re.compile(r'"(?:[^"\\]|\\.)*"|«[^»]*»|[(){}.;,@]|[^\s(){}.;,@"«»]+')
# Words and signs that are no names of definitions.
KEYWORDS = frozenset("→ × ↦ = | : [ ] λ Type elim let in as record ∀ do _".split())
# What antt's prelude has, which needs no import.
BUILT_IN = frozenset("tt Unit absurd ⊥ ¬ ↔ Path Id refl Prim".split())
# The end of a line behind which a block begins.
HEAD_END = re.compile(r"(?:^|\s)(?:where|mutual)\s*$")
CLOSERS = {"(": ")", "{": "}", "[": "]"}
MARKS = frozenset(("pub", "abbrev", "unfoldable", "opaque", "pattern"))

# A use: the parts of a path as it is written, and whether it stands in a pattern, where only a constructor is a use.
Path = Tuple[str, ...]


class Unread(Exception):
    """A text that has not the form that is expected, or a name that means nothing."""


@dataclass(frozen=True)
class Token:
    text: str
    line: int
    # whether nothing stands between this and the token before it
    is_glued: bool

    @property
    def is_name(self) -> bool:
        return self.text[0] not in '"(){}.;,@' and self.text not in KEYWORDS and not self.text[0].isdigit()

    @property
    def name(self) -> str:
        return self.text.strip("«»")


def without_comment(line: str) -> str:
    """The line up to its comment."""
    if "--" not in line:
        return line
    for found in TOKEN.finditer(line):
        if found[0].startswith("--"):
            return line[: found.start()]
    return line


def tokens(text: str, first: int = 1) -> List[Token]:
    """The tokens of a text whose first line has this number."""
    made = []
    for number, line in enumerate(text.split("\n"), first):
        end = -1
        for found in TOKEN.finditer(without_comment(line)):
            made.append(Token(found[0], number, found.start() == end))
            end = found.end()
    return made


def path_at(items: Sequence[Token], at: int) -> Tuple[Path, int]:
    """The path that begins with the name there, and where it ends."""
    parts = [items[at].name]
    at += 1
    while at + 1 < len(items) and items[at].text == "." and items[at].is_glued and items[at + 1].is_glued and items[at + 1].text[0] not in '(){}.;,"':
        parts.append(items[at + 1].name)
        at += 2
    return tuple(parts), at


def close_of(items: Sequence[Token], at: int) -> int:
    """Where the bracket there is closed."""
    depth = 0
    for end in range(at, len(items)):
        depth += items[end].text in CLOSERS
        depth -= items[end].text in CLOSERS.values()
        if depth == 0:
            return end
    raise Unread(f"line {items[at].line}: {items[at].text} is not closed")


def at_top(items: Sequence[Token], wanted: str, start: int = 0) -> Optional[int]:
    """The first place of the sign outside all brackets."""
    at = start
    while at < len(items):
        if items[at].text == wanted:
            return at
        at = close_of(items, at) + 1 if items[at].text in CLOSERS else at + 1
    return None


def split_top(items: Sequence[Token], sign: str) -> Iterator[Sequence[Token]]:
    """The parts between the signs that stand outside all brackets."""
    start = 0
    while True:
        at = at_top(items, sign, start)
        yield items[start:at]
        if at is None:
            return
        start = at + 1


Scope = FrozenSet[str]


@dataclass
class Reader:
    """Reads terms, and keeps the paths that they use. `is_constructor` says whether a path means a constructor where the text stands."""

    is_constructor: Callable[[Path], bool]
    used: List[Tuple[Path, int]] = field(default_factory=list)

    def use(self, path: Path, line: int, scope: Scope) -> None:
        if path[0] not in scope:
            self.used.append((path, line))

    def term(self, items: Sequence[Token], scope: Scope) -> None:
        """A term, or several that separators part; what a binder takes is in scope up to the next separator."""
        at, inner = 0, scope
        while at < len(items):
            text = items[at].text
            if text in (",", ";", "|"):
                at, inner = at + 1, scope
            elif text == "λ":
                at, inner = self.binders(items, at + 1, inner)
            elif text == "let":
                at, inner = self.bound(items, at + 1, inner)
            elif text == "record":
                at = self.literal(items, at + 1, inner)
            elif text in CLOSERS:
                at, inner = self.group(items, at, inner)
            elif text == "." and items[at].is_glued:
                # a field of what is in brackets
                at += 2
            elif items[at].is_name:
                path, after = path_at(items, at)
                self.use(path, items[at].line, inner)
                at = after
            else:
                at += 1

    def group(self, items: Sequence[Token], at: int, scope: Scope) -> Tuple[int, Scope]:
        """Brackets in a term: binders, a named argument, the cases of an `elim`, or a term; what they bind is in scope behind them."""
        end = close_of(items, at)
        inner = items[at + 1 : end]
        if items[at].text == "[":
            for case in split_top(inner, "|"):
                if case:
                    self.case(case, at_top(case, "↦"), scope)
            return end + 1, scope
        names = binder_names(inner)
        if names is not None:
            self.term(inner[len(names) + 1 :], scope)
            return end + 1, scope | frozenset(names)
        if items[at].text == "{" and len(inner) > 1 and inner[1].text == "=":
            inner = inner[2:]
        self.term(inner, scope)
        return end + 1, scope

    def case(self, items: Sequence[Token], arrow: Optional[int], scope: Scope) -> None:
        if arrow is None:
            raise Unread(f"line {items[0].line}: a case without ↦")
        self.term(items[arrow + 1 :], scope | self.pattern(items[:arrow], scope))

    def binders(self, items: Sequence[Token], at: int, scope: Scope) -> Tuple[int, Scope]:
        """The binders of a λ, up to its dot."""
        taken: Set[str] = set()
        while items[at].text != ".":
            if items[at].text in CLOSERS:
                end = close_of(items, at)
                inner = items[at + 1 : end]
                names = binder_names(inner)
                if names is not None:
                    self.term(inner[len(names) + 1 :], scope | frozenset(taken))
                    taken |= set(names)
                else:
                    taken |= self.pattern(items[at : end + 1], scope)
                at = end + 1
            elif items[at].text == "record":
                at += 1
            else:
                taken.add(items[at].name)
                at += 1
        return at + 1, scope | frozenset(taken)

    def bound(self, items: Sequence[Token], at: int, scope: Scope) -> Tuple[int, Scope]:
        """A `let` up to its `in`: the name or the pattern, its type if there is one, and its value."""
        equals = at_top(items, "=", at)
        end = self.end_of_let(items, at)
        if equals is None or end is None:
            raise Unread(f"line {items[at].line}: a let without = or in")
        colon = at_top(items[:equals], ":", at)
        if colon is not None:
            self.term(items[colon + 1 : equals], scope)
        self.term(items[equals + 1 : end], scope)
        return end + 1, scope | self.pattern(items[at : equals if colon is None else colon], scope)

    @staticmethod
    def end_of_let(items: Sequence[Token], at: int) -> Optional[int]:
        """The `in` of the `let` before this place; those between have their own."""
        depth = 0
        while at < len(items):
            if items[at].text in CLOSERS:
                at = close_of(items, at)
            elif items[at].text == "in" and depth == 0:
                return at
            else:
                depth += (items[at].text == "let") - (items[at].text == "in")
            at += 1
        return None

    def literal(self, items: Sequence[Token], at: int, scope: Scope) -> int:
        """A record's value or type behind the word `record`; a value may begin with another record that it changes."""
        if items[at].text == "(":
            at, _ = self.group(items, at, scope)
            while items[at].text == ".":
                at += 2
        elif items[at].is_name:
            path, after = path_at(items, at)
            self.use(path, items[at].line, scope)
            at = after
        if items[at].text != "{":
            raise Unread(f"line {items[at].line}: a record without fields")
        end = close_of(items, at)
        for part in split_top(items[at + 1 : end], ";"):
            if not part:
                continue
            if len(part) < 2 or part[1].text not in ("=", ":"):
                raise Unread(f"line {part[0].line}: a field without a value")
            self.term(part[2:], scope)
            if part[1].text == ":":
                scope |= {part[0].name}
        return end + 1

    def pattern(self, items: Sequence[Token], scope: Scope) -> FrozenSet[str]:
        """What a pattern binds; its constructors are used."""
        bound: Set[str] = set()
        at = 0
        while at < len(items):
            if items[at].is_name and at + 1 < len(items) and items[at + 1].text == "=":
                # an implicit argument by its name, or a field
                at += 2
            elif items[at].is_name and items[at].text != "_":
                path, after = path_at(items, at)
                if self.is_constructor(path):
                    self.used.append((path, items[at].line))
                elif len(path) == 1:
                    bound.add(path[0])
                else:
                    raise Unread(f"line {items[at].line}: {'.'.join(path)} is no constructor")
                at = after
            else:
                at += 1
        return frozenset(bound)


def binder_names(items: Sequence[Token]) -> Optional[List[str]]:
    """The names before the colon, where these are binders: `x y : T`."""
    names = []
    for it in items:
        if it.text == ":" and names:
            return names
        if not it.is_name:
            return None
        names.append(it.name)
    return None


@dataclass
class Statement:
    """A line at the margin of its block with the deeper lines behind it, and the comment above it."""

    line: int
    text: str
    comment: str

    @property
    def items(self) -> List[Token]:
        """The tokens; of a statement with a block those of its head."""
        return tokens("\n".join(self.text.split("\n")[: self.head_lines]), self.line)

    @property
    def block(self) -> List["Statement"]:
        """The statements of the block behind its head."""
        head = self.head_lines
        return statements(self.text.split("\n")[head:], self.line + head)

    @property
    def head_lines(self) -> int:
        """How many lines its head takes, up to the `where` or `mutual` that ends a line."""
        lines = self.text.split("\n")
        if len(lines) == 1:
            return 1
        return next((at for at, line in enumerate(lines, 1) if HEAD_END.search(without_comment(line))), len(lines))

    @property
    def code_lines(self) -> List[int]:
        """The numbers of its lines that have more than blanks and comments."""
        return [number for number, line in enumerate(self.text.split("\n"), self.line) if without_comment(line).strip()]


def statements(lines: Sequence[str], first: int = 1) -> List[Statement]:
    """The statements of a block, whose margin is that of its first line of code."""
    margin = next((len(it) - len(it.lstrip()) for it in lines if without_comment(it).strip()), 0)
    made: List[Statement] = []
    comment: List[str] = []
    for number, line in enumerate(lines, first):
        text = line.strip()
        if text.startswith("--"):
            comment = [] if text.startswith("-- --") else [*comment, text[2:].strip()]
        elif not text:
            comment = []
        elif len(line) - len(line.lstrip()) <= margin and text[0] not in "})]":
            made.append(Statement(number, line, " ".join(comment)))
            comment = []
        else:
            if not made:
                raise Unread(f"line {number}: a block begins deeper than its margin")
            made[-1].text += "\n" * (number - made[-1].line - made[-1].text.count("\n")) + line
            comment = []
    return made


@dataclass
class Definition:
    """A definition of a file: a function by cases, a record or a data type."""

    name: str
    kind: str
    line: int
    comment: str
    # what it says: its first line, and which lines it has
    says: str
    lines: List[int]
    # its fields or constructors, by name
    members: List[str] = field(default_factory=list)
    # the statements of it with the names that stand for parameters around them: (tokens, names, what the tokens are)
    pieces: List[Tuple[str, Sequence[Token], Scope]] = field(default_factory=list)
    # its clauses, as tokens
    clauses: List[Sequence[Token]] = field(default_factory=list)
    is_public: bool = False


@dataclass
class Source:
    """A file of specs/: its definitions, its `use` lines, and what its first comment says."""

    about: str
    uses: List[Tuple[bool, Sequence[Token]]] = field(default_factory=list)
    modules: List[str] = field(default_factory=list)
    definitions: Dict[str, Definition] = field(default_factory=dict)


def unmarked(items: Sequence[Token]) -> Tuple[Set[str], Sequence[Token]]:
    """The marks before a declaration, and the rest."""
    at = 0
    while at < len(items) and items[at].text in MARKS:
        at += 1
    return {it.text for it in items[:at]}, items[at:]


def parameters(items: Sequence[Token]) -> Tuple[List[Sequence[Token]], FrozenSet[str]]:
    """The binders of a head, each group by itself, and all their names."""
    groups, names, at = [], set(), 0
    while at < len(items):
        if items[at].text in ("(", "{"):
            end = close_of(items, at)
            taken = binder_names(items[at + 1 : end])
            if taken is not None:
                groups.append(items[at : end + 1])
                names |= set(taken)
            at = end
        at += 1
    return groups, frozenset(names)


@dataclass
class SourceReader:
    source: Source

    def block(self, found: Sequence[Statement], around: List[Tuple[str, Sequence[Token], Scope]], scope: Scope) -> None:
        """The declarations of a block with these parameters around it."""
        last: Optional[Definition] = None
        for it in found:
            marks, items = unmarked(it.items)
            word = items[0].text if items else ""
            if word == "use":
                self.source.uses.append(("pub" in marks, items[1:]))
            elif word == "mod":
                self.source.modules.append(items[1].name)
            elif word in ("infix", "infixl", "infixr"):
                continue
            elif word == "module" and it.text.count("\n"):
                groups, names = parameters(items)
                self.block(it.block, [*around, *(("term", group, scope | names) for group in groups)], scope | names)
            elif word == "mutual":
                self.block(it.block, around, scope)
            elif word in ("record", "data"):
                last = self.declared(it, items, "pub" in marks, around, scope)
            elif word == "unfolding":
                self.more_lines(last, it)
            elif at_top(items, ":") is not None and (at_top(items, "=") is None or at_top(items, ":") < at_top(items, "=")):
                last = self.signature(it, items, "pub" in marks, around, scope)
            else:
                self.clause(last, it, items, scope)

    @staticmethod
    def more_lines(last: Optional[Definition], it: Statement) -> Definition:
        if last is None:
            raise Unread(f"line {it.line}: a clause without a signature")
        last.lines += it.code_lines
        return last

    def add(self, made: Definition) -> Definition:
        if made.name in self.source.definitions:
            raise Unread(f"line {made.line}: {made.name} is defined twice")
        self.source.definitions[made.name] = made
        return made

    def signature(self, it: Statement, items: Sequence[Token], is_public: bool, around: List[Tuple[str, Sequence[Token], Scope]], scope: Scope) -> Definition:
        colon = at_top(items, ":")
        # levels may stand between the name and the colon
        name = items[0].name
        made = Definition(name, "function", it.line, it.comment, says_of(it.text), it.code_lines, is_public=is_public)
        made.pieces = [*around, ("term", items[colon + 1 :], scope)]
        return self.add(made)

    def clause(self, last: Optional[Definition], it: Statement, items: Sequence[Token], scope: Scope) -> None:
        made = self.more_lines(last, it)
        made.pieces.append(("clause", items, scope))
        made.clauses.append(items)

    def declared(self, it: Statement, items: Sequence[Token], is_public: bool, around: List[Tuple[str, Sequence[Token], Scope]], scope: Scope) -> Definition:
        """A record or a data type: its parameters, its type, and its fields or constructors."""
        colon = at_top(items, ":")
        groups, names = parameters(items[:colon])
        made = Definition(items[1].name, items[0].text, it.line, it.comment, says_of("\n".join(it.text.split("\n")[: it.head_lines])), it.code_lines, is_public=is_public)
        inner = scope | names
        made.pieces = [*around, *(("term", group, inner) for group in groups), ("term", items[colon + 1 : -1], inner)]
        for part in it.block:
            _, member = unmarked(part.items)
            colon = at_top(member, ":")
            if colon is None:
                raise Unread(f"line {part.line}: a member without a type")
            taken = [token.name for token in member[:colon]]
            made.members += taken
            made.pieces.append(("term", member[colon + 1 :], inner))
            if made.kind == "record":
                inner |= frozenset(taken)
        return self.add(made)


def says_of(text: str) -> str:
    """The signature in one line, without its marks."""
    words = " ".join(without_comment(line).strip() for line in text.split("\n")).split(" ")
    while words and words[0] in MARKS:
        words = words[1:]
    return " ".join(words)


def source_of(text: str) -> Source:
    """What a file of specs/ defines."""
    found = statements(text.split("\n"))
    source = Source(found[0].comment if found else "")
    SourceReader(source).block(found, [], frozenset())
    return source


def uses_of(made: Definition, is_constructor: Callable[[Path], bool]) -> List[Tuple[Path, int]]:
    """The paths that a definition uses, each with its line."""
    reader = Reader(is_constructor)
    for kind, items, scope in made.pieces:
        if kind == "term":
            reader.term(items, scope)
        else:
            read_clause(reader, made.name, items, scope)
    return reader.used


def read_clause(reader: Reader, name: str, items: Sequence[Token], scope: Scope) -> None:
    """A clause: what its patterns bind is in scope of its body. The name that it defines is no constructor and binds nothing."""
    equals = at_top(items, "=")
    if equals is None:
        raise Unread(f"line {items[0].line}: a clause without =")
    parts = set(name.split("◌"))
    left = [it for it in items[:equals] if it.name not in parts] if "◌" in name else items[1:equals]
    bound = reader.pattern(left, scope)
    reader.term(items[equals + 1 :], scope | bound)


def term_uses(text: str, first: int, scope: Scope, is_constructor: Callable[[Path], bool]) -> List[Tuple[Path, int]]:
    """The paths that a term uses."""
    reader = Reader(is_constructor)
    reader.term(tokens(text, first), scope)
    return reader.used
