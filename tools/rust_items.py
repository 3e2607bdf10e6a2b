"""Types, constants and contracts in files of code, as far as clauses speak of them."""

import re
from bisect import bisect_right
from dataclasses import dataclass, field
from typing import Dict, Iterator, List, Tuple

from antt_names import Unread

# What is no code: a comment, the inside of a text, a bracket or a quotation mark between quotes.
NO_CODE = re.compile(r"""//[^\n]*|"(?:[^"\\]|\\.)*"|'(?:\\.|[{}()\[\]"/])'""", re.DOTALL)
COMMENT = re.compile(r"""//[^\n]*|"(?:[^"\\]|\\.)*\"""", re.DOTALL)
ITEM = re.compile(r"(?m)^( *)(pub(?:\([a-z]+\))? )?(?:unsafe )?(struct|enum|trait|const|static|type) ([A-Za-z_]\w*)")
FUNCTION = re.compile(r"(?m)^( *)(pub(?:\([a-z]+\))? )?(?:const )?(?:unsafe )?(?:extern\s+)?fn (\w+)")
IMPL = re.compile(r"(?m)^( *)(?:unsafe )?impl\b([^{;]*?)\{")
CLAUSE = re.compile(r"\s*(requires|ensures|ghost)(\*?)(?:\s+(\w+))?:?\s*\{")
GHOST = re.compile(r"\bghost (\w+)(?:: |\s*= )\{")
GHOST_USE = re.compile(r"\bghost use ([^;]*);")
USE = re.compile(r"(?m)^ *(pub(?:\([a-z]+\))? )?use ([^;]*);")
MOD = re.compile(r"(?m)^ *(pub(?:\([a-z]+\))? )?mod (\w+);")
TYPE_NAME = re.compile(r"(?<![\w'])(?:\w+::)*[A-Z]\w*")
PAIRS = {"{": "}", "(": ")", "[": "]"}


def blanked(pattern: "re.Pattern[str]", text: str, only: str = "") -> str:
    """The text with blanks in place of what matches, where that begins so."""
    return pattern.sub(lambda it: re.sub(r"[^\n]", " ", it[0]) if it[0].startswith(only) else it[0], text)


def close_at(text: str, at: int) -> int:
    """Where the bracket there is closed."""
    depth = 0
    for end in range(at, len(text)):
        depth += text[end] in "{(["
        depth -= text[end] in "})]"
        if depth == 0:
            return end
    raise Unread("a bracket is not closed")


def closes_of(text: str) -> Dict[int, int]:
    """Where each bracket is closed."""
    made: Dict[int, int] = {}
    open_at: List[int] = []
    for it in re.finditer(r"[{}()\[\]]", text):
        if it[0] in PAIRS:
            open_at.append(it.start())
        elif open_at:
            made[open_at.pop()] = it.start()
    return made


@dataclass(frozen=True)
class Term:
    """The text of a clause, or of a ghost member, with the number of its first line."""

    label: str
    text: str
    line: int
    word: str


@dataclass
class Item:
    """A type, a trait or a constant."""

    name: str
    kind: str
    line: int
    comment: str
    says: str
    lines: int
    is_public: bool
    body: str
    generics: List[str]
    variants: List[str] = field(default_factory=list)
    terms: List[Term] = field(default_factory=list)


@dataclass
class Function:
    """A function with its contract; `owner` is the type of its impl or the trait, and `of_trait` the trait of the impl."""

    name: str
    line: int
    comment: str
    is_public: bool
    owner: str
    of_trait: str
    # type parameters with the traits that they keep
    bounds: Dict[str, List[str]]
    names: List[str]
    types: str
    clauses: List[Term]
    ghost_uses: List[str]
    is_empty: bool


@dataclass
class RustFile:
    name: str
    text: str
    uses: Dict[str, Tuple[str, ...]] = field(default_factory=dict)
    public_uses: Dict[str, Tuple[str, ...]] = field(default_factory=dict)
    modules: List[str] = field(default_factory=list)
    public_modules: List[str] = field(default_factory=list)
    items: Dict[str, Item] = field(default_factory=dict)
    # the view of a type: its value, as clauses see it, and the imports of that
    models: Dict[str, Tuple[List[Term], List[str]]] = field(default_factory=dict)
    functions: List[Function] = field(default_factory=list)
    # the imports of a trait's members
    trait_uses: Dict[str, List[str]] = field(default_factory=dict)
    # the ghost members that impls of traits give, with their imports and the type parameters
    members: List[Tuple[str, List[Term], List[str], List[str]]] = field(default_factory=list)
    ghost_uses: List[str] = field(default_factory=list)


def use_paths(text: str) -> Iterator[Tuple[str, Tuple[str, ...]]]:
    """The names that a `use` brings in, each with its path."""
    text = text.strip()
    if "{" in text:
        at = text.index("{")
        head = tuple(it for it in text[:at].split("::") if it)
        depth, start, inner = 0, 0, text[at + 1 : close_at(text, at)] + ","
        for end, sign in enumerate(inner):
            depth += sign in "{"
            depth -= sign in "}"
            if sign == "," and depth == 0:
                if inner[start:end].strip():
                    for name, path in use_paths(inner[start:end]):
                        yield (head[-1] if name == "self" else name), (head if name == "self" else head + path)
                start = end + 1
        return
    path, _, alias = text.partition(" as ")
    parts = tuple(path.strip().split("::"))
    yield alias.strip() or parts[-1], parts


def doc_of(lines: List[str], at: int) -> str:
    """The comment above the line of this place, behind its attributes."""
    while at > 0 and (lines[at - 1].strip().startswith("#[") or lines[at - 1].strip().endswith(")]")):
        at -= 1
    said: List[str] = []
    while at > 0 and lines[at - 1].strip().startswith("///"):
        at -= 1
        said.insert(0, lines[at].strip()[3:].strip())
    return " ".join(said)


class RustReader:
    def __init__(self, name: str, text: str):
        self.made = RustFile(name, text)
        # code alone, and code with its texts
        self.code = blanked(NO_CODE, text)
        self.terms = blanked(COMMENT, text, "//")
        self.lines = text.split("\n")
        self.closes = closes_of(self.code)
        self.starts = [0, *(it.end() for it in re.finditer("\n", text))]

    def close(self, at: int) -> int:
        """Where the bracket there is closed."""
        return self.closes[at]

    def line_at(self, at: int) -> int:
        return bisect_right(self.starts, at)

    def read(self) -> RustFile:
        made = self.made
        for it in USE.finditer(re.sub(r"\bghost use", "ghost_", self.code)):
            for name, path in use_paths(it[2]):
                (made.public_uses if it[1] else made.uses)[name] = path
        for it in MOD.finditer(self.code):
            (made.public_modules if it[1] == "pub " else made.modules).append(it[2])
        blocks = [(it.start(), self.close(it.end() - 1), it[2], it.end()) for it in IMPL.finditer(self.code)]
        for it in ITEM.finditer(self.code):
            if not any(start < it.start() < end for start, end, *_ in blocks) and not it[1]:
                self.item(it)
        traits = [(start, end, it.name) for it, start, end in self.spans if it.kind == "trait"]
        for start, end, name in traits:
            made.trait_uses[name] = [it[1] for it in GHOST_USE.finditer(self.terms, start, end)]
        for start, end, head, inside in blocks:
            self.impl_block(start, end, head, inside)
        inner = [*((start, end) for start, end, *_ in blocks), *((start, end) for start, end, _ in traits)]
        made.ghost_uses = [it[1] for it in GHOST_USE.finditer(self.terms) if not any(start < it.start() < end for start, end in inner)]
        for it in FUNCTION.finditer(self.code):
            self.function(it, blocks, traits)
        return made

    spans: List[Tuple[Item, int, int]]

    def item(self, it: "re.Match[str]") -> None:
        if not hasattr(self, "spans"):
            self.spans = []
        start, kind = it.end(), it[3]
        if kind in ("const", "static", "type"):
            end = self.code.index(";", start)
            body = self.code[start:end]
        else:
            at = next(at for at in range(start, len(self.code)) if self.code[at] in "{(;")
            end = at if self.code[at] == ";" else self.close(at)
            body = self.code[at + 1 : end]
        head = self.code[it.start() : start] + self.code[start:].split("{")[0].split(";")[0]
        first = self.line_at(it.start())
        code_lines = self.code[it.start() : end + 1].split("\n")
        made = Item(it[4], kind, first, doc_of(self.lines, first - 1), " ".join(head.split()), sum(bool(line.strip()) for line in code_lines), bool(it[2]), body,
                    generics_of(self.code, start))
        if kind == "enum":
            made.variants = [part[0] for part in parts_of(body)]
        made.terms = list(self.ghosts(start, end))
        self.made.items[made.name] = made
        self.spans.append((made, it.start(), end))

    def ghosts(self, start: int, end: int) -> Iterator[Term]:
        """The ghost members between these places."""
        for it in GHOST.finditer(self.code, start, end):
            close = self.close(it.end() - 1)
            yield Term(it[1], self.terms[it.end() : close], self.line_at(it.end()), "ghost")

    def impl_block(self, start: int, end: int, head: str, inside: int) -> None:
        of, _, owner = head.rpartition(" for ")
        found = list(self.ghosts(inside, end))
        uses = [it[1] for it in GHOST_USE.finditer(self.terms, inside, end)]
        name = re.match(r"\s*([\w:]+)", without_generics(owner))
        if not of or not name:
            return
        if without_generics(of).strip() == "Model":
            self.made.models[name[1]] = ([it for it in found if it.label == "Value"], uses)
        self.made.members.append((name[1], found, uses, list(bounds_of(head))))

    def function(self, it: "re.Match[str]", blocks: List[Tuple[int, int, str, int]], traits: List[Tuple[int, int, str]]) -> None:
        at = it.end()
        while self.code[at] not in "{;" and not CLAUSE.match(self.code, at):
            at = self.close(at) + 1 if self.code[at] in PAIRS else at + 1
        signature, clauses = self.code[it.end() : at], []
        while True:
            clause = CLAUSE.match(self.code, at)
            if not clause:
                break
            end = self.close(clause.end() - 1)
            clauses.append(Term(clause[3] or "", self.terms[clause.end() : end], self.line_at(clause.end()), clause[1]))
            at = end + 1
        rest = self.code[at:].lstrip()
        owner = of_trait = ""
        uses: List[str] = []
        bounds = bounds_of(signature)
        for start, end, head, inside in blocks:
            if start < it.start() < end:
                of, _, target = head.rpartition(" for ")
                found = re.match(r"\s*&?([\w:]+)", without_generics(target))
                owner, of_trait = found[1] if found else "", without_generics(of).strip()
                uses = [use[1] for use in GHOST_USE.finditer(self.terms, inside, end)]
                bounds.update(bounds_of(head))
        for start, end, name in traits:
            if start < it.start() < end:
                owner = of_trait = name
                uses = self.made.trait_uses[name]
        first = self.line_at(it.start())
        names = re.findall(r"(?:\bmut )?\b([a-z_]\w*)\s*:(?!:)", signature)
        self.made.functions.append(Function(it[3], first, doc_of(self.lines, first - 1), it[2] == "pub ", owner, of_trait, bounds, names, signature, clauses, uses,
                                            bool(re.match(r"\{\s*\}", rest))))


def without_generics(text: str) -> str:
    """The text without what stands in angle brackets."""
    depth, made = 0, ""
    for at, sign in enumerate(text):
        depth += sign == "<"
        if depth == 0:
            made += sign
        depth -= sign == ">" and text[at - 1 : at] != "-"
    return made


def generics_of(code: str, at: int) -> List[str]:
    """The type parameters behind a name."""
    if code[at : at + 1] != "<":
        return []
    depth = 0
    for end in range(at, len(code)):
        depth += code[end] == "<"
        depth -= code[end] == ">" and code[end - 1] != "-"
        if depth == 0:
            return re.findall(r"(?:^|[<,])\s*(?:const )?([A-Z]\w*)", code[at:end])
    raise Unread("a list of type parameters is not closed")


def bounds_of(text: str) -> Dict[str, List[str]]:
    """The type parameters that a signature names, with the traits that they keep."""
    made: Dict[str, List[str]] = {}
    for name, said in re.findall(r"(?<!:)\b([A-Z]\w*)\s*:(?!:)\s*([^,>{(=<]*)", text):
        made.setdefault(name, []).extend(re.findall(r"(?:\w+::)*[A-Z]\w*", said))
    for name in generics_of(text.lstrip(), 0):
        made.setdefault(name, [])
    return made


def parts_of(body: str) -> List[Tuple[str, str]]:
    """The variants of an enum with what they hold."""
    depth, start, made = 0, 0, []
    body = re.sub(r"#\[[^\]]*\]", " ", body) + ","
    for end, sign in enumerate(body):
        depth += sign in "{(["
        depth -= sign in "})]"
        if sign == "," and depth == 0:
            found = re.match(r"\s*([A-Z]\w*)(.*)", body[start:end], re.DOTALL)
            if found:
                made.append((found[1], found[2]))
            start = end + 1
    return made


def types_in(item: Item) -> List[str]:
    """The paths of types that a type's parts name."""
    text = re.sub(r"#\[[^\]]*\]", " ", item.body)
    if item.kind == "enum":
        text = " ".join(it[1] for it in parts_of(item.body))
    text = re.sub(r"\bghost \w+: \{[^}]*\}", " ", text)
    return TYPE_NAME.findall(text)


def read_rust(name: str, text: str) -> RustFile:
    reader = RustReader(name, text)
    reader.spans = []
    return reader.read()
