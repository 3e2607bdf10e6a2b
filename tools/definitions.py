"""What names in definitions and contracts mean: each is followed by the imports of its file to one definition, or the run ends with an error.

A node is a definition of specs/, or a type, a trait or a constant of the code that definitions and contracts speak of. What a kit's library has is outside.
"""

import re
from dataclasses import dataclass, field
from pathlib import Path as File
from typing import Callable, Dict, FrozenSet, Iterator, List, Optional, Sequence, Set, Tuple

from antt_names import BUILT_IN, Path, Scope, Source, Token, Unread, path_at, source_of, split_top, term_uses, tokens, uses_of
from checkout import TOP
from rust_items import Function, Item, RustFile, Term, read_rust, types_in

# Constructors of the kit's libraries whose names begin with a small letter or a sign.
OUTSIDE_CONSTRUCTORS = {
    "std": frozenset("zero suc pos negsuc true false [] ◌∷◌ Some None Ok Err".split()),
    "serde_json": frozenset("null boolean number unsigned negative float string array no_items item object no_members member".split()),
}
# Types of the code that are the library's, in every file.
OUTSIDE_TYPES = frozenset("Vec String Option Result Box Self Some None Ok Err Drop Copy Clone Fn FnMut FnOnce Iterator Send Sync Sized Ord Eq PartialEq".split())


@dataclass(frozen=True)
class Node:
    """A definition: its file from `crates/`, its name, and what stands there."""

    file: str
    name: str
    kind: str
    line: int
    comment: str
    says: str
    lines: int

    @property
    def crate(self) -> str:
        return self.file.split("/")[0]

    @property
    def is_code(self) -> bool:
        return "/src/" in self.file


@dataclass(frozen=True)
class Outside:
    """A name of a library of the kit."""

    library: str
    module: str
    name: str


@dataclass(frozen=True)
class Meaning:
    """What a name means: a node, or a name of a library; and whether as a constructor."""

    of: object
    is_constructor: bool = False


@dataclass
class Names:
    """The names that a file has in scope: items, and modules by their paths."""

    items: Dict[str, Meaning] = field(default_factory=dict)
    modules: Dict[str, Tuple[str, ...]] = field(default_factory=dict)
    # the parts of operators
    signs: Dict[str, Meaning] = field(default_factory=dict)

    def add(self, name: str, meaning: Meaning) -> None:
        self.items[name] = meaning
        if "◌" in name:
            for part in filter(None, name.split("◌")):
                self.signs[part] = meaning


@dataclass(frozen=True)
class Clause:
    """A clause of a contract: the function, its file, and the label."""

    file: str
    function: str
    owner: str
    label: str
    line: int


class Project:
    """The crates of a checkout, read as they are asked for."""

    def __init__(self, top: File = TOP):
        self.crates_folder = top / "crates"
        self.crates = re.findall(r"(?m)^(\w+)(?: staticlib)?:", (top / "crates.txt").read_text())
        listed = {it for said in re.findall(r"(?m)^\w+(?: staticlib)?:(.*)$", (top / "crates.txt").read_text()) for it in said.split()}
        # the libraries of the kit that crates depend on
        self.libraries = sorted(listed - set(self.crates))
        self.sources: Dict[str, Source] = {}
        self.rust: Dict[str, RustFile] = {}
        self.names: Dict[str, Names] = {}
        self.nodes: Dict[Tuple[str, str], Node] = {}
        self.uses: Dict[Node, List[object]] = {}

    # ---- files

    def spec(self, file: str) -> Source:
        if file not in self.sources:
            try:
                self.sources[file] = source_of((self.crates_folder / file).read_text())
            except Unread as fault:
                raise Unread(f"crates/{file}: {fault}") from fault
        return self.sources[file]

    def code(self, file: str) -> RustFile:
        if file not in self.rust:
            self.rust[file] = read_rust(file, (self.crates_folder / file).read_text())
        return self.rust[file]

    def spec_files(self) -> List[str]:
        return [str(it.relative_to(self.crates_folder)) for crate in self.crates for it in sorted((self.crates_folder / crate / "specs").glob("**/*.antt"))]

    def code_files(self, crate: str) -> List[str]:
        return [str(it.relative_to(self.crates_folder)) for it in sorted((self.crates_folder / crate / "src").glob("**/*.rt"))]

    def is_file(self, file: str) -> bool:
        return (self.crates_folder / file).is_file()

    # ---- nodes

    def node(self, file: str, name: str) -> Node:
        if (file, name) not in self.nodes:
            self.nodes[file, name] = self.made_node(file, name)
        return self.nodes[file, name]

    def made_node(self, file: str, name: str) -> Node:
        if "/src/" in file:
            item = self.code(file).items[name]
            return Node(file, name, item.kind, item.line, item.comment, item.says, item.lines)
        it = self.spec(file).definitions[name]
        return Node(file, name, it.kind, it.line, it.comment, it.says, len(it.lines))

    def all_definitions(self) -> List[Node]:
        return [self.node(file, name) for file in self.spec_files() for name in self.spec(file).definitions]

    # ---- what names mean

    def module_item(self, file: str, name: str, seen: FrozenSet[str] = frozenset()) -> Meaning:
        """A name of a module of specs/: its own, a constructor of its own, or one that it passes on."""
        source = self.spec(file)
        if name in source.definitions:
            return Meaning(self.node(file, name))
        owners = [it.name for it in source.definitions.values() if it.kind == "data" and name in it.members]
        if owners:
            if len(owners) > 1:
                raise Unread(f"crates/{file}: {name} is a constructor of {' and '.join(owners)}")
            return Meaning(self.node(file, owners[0]), True)
        found = []
        for is_public, items in source.uses:
            if is_public and file not in seen:
                path, listed, _ = read_use(items)
                for own, alias in listed or []:
                    if alias == name:
                        found.append(self.item(path + own[:-1], own[-1], seen | {file}))
        if len(found) != 1:
            raise Unread(f"crates/{file} has {'no' if not found else 'more than one'} {name}")
        return found[0]

    def item(self, path: Sequence[str], name: str, seen: FrozenSet[str] = frozenset()) -> Meaning:
        """The name of a module, which is written from `Rattle` on."""
        if path[0] != "Rattle":
            return Meaning(Outside(path[0], ".".join(path[1:]), name))
        crate, rest = path[1], tuple(path[2:])
        if crate not in self.crates:
            is_constructor = name in OUTSIDE_CONSTRUCTORS.get(crate, ()) or rest[-1:] == ("TheVariants",)
            return Meaning(Outside(crate, ".".join(rest), name), is_constructor)
        if rest[:2] == ("specs", "contracts"):
            # what the prover made of the contract of a function
            return Meaning(Outside(crate, ".".join(rest), name))
        if rest[:2] == ("specs", "declared"):
            return self.declared(crate, rest[2:], name)
        file = f"{crate}/specs/{'/'.join(rest[1:])}.antt"
        if rest[:1] != ("specs",) or not self.is_file(file):
            raise Unread(f"there is no module {'.'.join(path)}")
        return self.module_item(file, name, seen)

    def declared(self, crate: str, rest: Sequence[str], name: str) -> Meaning:
        """A name that is made of the code: of a type, of its variants, or of a constant."""
        at = next((at for at in range(len(rest), -1, -1) if self.is_file(code_file(crate, rest[:at]))), None)
        if at is None:
            raise Unread(f"{crate} has no code for {'.'.join(rest)}")
        file, left = code_file(crate, rest[:at]), rest[at:]
        items = self.code(file).items
        constants = left[:1] == ("TheConstants",)
        owner = (left[1] if len(left) > 1 else name) if constants else left[0] if left else ""
        if owner not in items:
            raise Unread(f"crates/{file} has no {owner or name}")
        variants = left[1:2] == ("TheVariants",)
        if variants and name not in items[owner].variants:
            raise Unread(f"crates/{file}: {owner} has no variant {name}")
        return Meaning(self.node(file, owner), variants)

    def names_of(self, file: str) -> Names:
        """What a file of specs/ has in scope."""
        if file not in self.names:
            source = self.spec(file)
            made = self.imported([items for _, items in source.uses], f"crates/{file}")
            for name, it in source.definitions.items():
                made.add(name, Meaning(self.node(file, name)))
                if it.kind == "data":
                    for member in it.members:
                        made.add(member, Meaning(self.node(file, name), True))
            self.names[file] = made
        return self.names[file]

    def imported(self, uses: Sequence[Sequence[Token]], where: str) -> Names:
        made = Names()
        for items in uses:
            try:
                path, listed, alias = read_use(items)
                if listed is None:
                    made.modules[alias] = path
                for own, name in listed or []:
                    made.add(name, self.item(path + own[:-1], own[-1]))
            except Unread as fault:
                raise Unread(f"{where}, line {items[0].line}: {fault}") from fault
        return made

    def meaning(self, names: Names, path: Path) -> Optional[Meaning]:
        """What a path means by the names in scope; None for a word of antt's prelude."""
        head = path[0]
        if len(path) > 1 and head in names.modules and not self.is_member(names.items.get(head), path[1]):
            return self.item(names.modules[head], path[1])
        if head in names.items:
            found = names.items[head]
            return Meaning(found.of, True) if len(path) == 2 and self.is_member(found, path[1], True) else found
        bare = head.strip("◌")
        if bare in names.signs:
            return names.signs[bare]
        if bare in BUILT_IN:
            return None
        raise Unread(f"{'.'.join(path)} means nothing there")

    def is_member(self, meaning: Optional[Meaning], name: str, only_constructors: bool = False) -> bool:
        """Whether the name is a constructor or a field of what is meant."""
        if meaning is None or not isinstance(meaning.of, Node):
            return False
        if meaning.of.is_code:
            return name in self.code(meaning.of.file).items[meaning.of.name].variants
        made = self.spec(meaning.of.file).definitions[meaning.of.name]
        return name in made.members and (made.kind == "data" or not only_constructors)

    def is_constructor(self, names: Names) -> Callable[[Path], bool]:
        def told(path: Path) -> bool:
            try:
                found = self.meaning(names, path)
            except Unread:
                return False
            return found is not None and found.is_constructor
        return told

    # ---- what a node uses

    def used_by(self, node: Node) -> List[object]:
        """The nodes and the outside names that a node's text names, each once, in the order of the text."""
        if node not in self.uses:
            found = self.used_by_item(node) if node.is_code else self.used_by_definition(node)
            self.uses[node] = list(dict.fromkeys(it for it in found if it != node))
        return self.uses[node]

    def used_by_definition(self, node: Node) -> Iterator[object]:
        names = self.names_of(node.file)
        made = self.spec(node.file).definitions[node.name]
        try:
            found = uses_of(made, self.is_constructor(names))
        except Unread as fault:
            raise Unread(f"crates/{node.file}, {node.name}: {fault}") from fault
        yield from self.meant(names, found, f"crates/{node.file}, {node.name}")

    def meant(self, names: Names, found: Sequence[Tuple[Path, int]], where: str) -> Iterator[object]:
        for path, line in found:
            try:
                meaning = self.meaning(names, path)
            except Unread as fault:
                raise Unread(f"{where}, line {line}: {fault}") from fault
            if meaning is not None:
                yield meaning.of

    def used_by_item(self, node: Node) -> Iterator[object]:
        """The types that a type's parts have; of a type with a view what its value is; of a trait all that its members and its contract say."""
        file = self.code(node.file)
        item = file.items[node.name]
        if item.kind == "trait":
            members = frozenset(it.label for it in item.terms)
            for term in item.terms:
                yield from self.used_by_term(file, term, members | {"Self"} | frozenset(item.generics), file.trait_uses[node.name])
            for function in file.functions:
                if function.owner == node.name:
                    for clause in function.clauses:
                        yield from self.used_by_clause(file, function, clause)
        elif node.name in file.models:
            terms, uses = file.models[node.name]
            for term in terms:
                yield from self.used_by_term(file, term, frozenset(item.generics), uses)
        elif item.kind in ("struct", "enum", "type"):
            for path in types_in(item):
                found = self.rust_type(file, path, item)
                if found is not None:
                    yield found

    # ---- names of code

    def rust_type(self, file: RustFile, path: str, item: Optional[Item] = None) -> Optional[Node]:
        """The type of the project that a path in the code means; None for one of a library or a type parameter."""
        parts = path.split("::")
        if item is not None and (parts[0] in item.generics or parts[0] == "Self"):
            return None
        if len(parts) == 1 and parts[0] in file.items:
            return self.node(file.name, parts[0])
        imports = {**file.uses, **file.public_uses}
        if parts[0] in imports:
            parts = [*imports[parts[0]], *parts[1:]]
        elif len(parts) == 1:
            if parts[0] in OUTSIDE_TYPES:
                return None
            raise Unread(f"crates/{file.name}: the type {path} is not known")
        return self.rust_path(file.name.split("/")[0], parts, file)

    def rust_path(self, crate: str, parts: Sequence[str], file: Optional[RustFile] = None) -> Optional[Node]:
        """The type that stands behind this path of a crate."""
        if parts[0] == "super" and file is not None:
            folder = file.name.split("/")[2:-1]
            return self.rust_path(crate, ["crate", *folder, *parts[1:]])
        if parts[0] == "crate" or parts[0] in self.crates:
            crate, parts = (crate if parts[0] == "crate" else parts[0]), parts[1:]
        elif file is None or parts[0] not in file.modules + file.public_modules:
            return None
        at = next(at for at in range(len(parts) - 1, -1, -1) if self.is_file(code_file(crate, parts[:at])))
        found = self.code(code_file(crate, parts[:at]))
        left = parts[at:]
        if left[0] in found.items:
            return self.node(found.name, left[0])
        passed = found.public_uses.get(left[0])
        if passed is None:
            raise Unread(f"crates/{found.name} has no type {left[0]}")
        return self.rust_path(crate, passed, found)

    # ---- contracts

    def clause_names(self, file: RustFile, uses: Sequence[str]) -> Names:
        return self.imported([tokens(it) for it in (*file.ghost_uses, *uses)], f"crates/{file.name}")

    def used_by_term(self, file: RustFile, term: Term, scope: Scope, uses: Sequence[str]) -> Iterator[object]:
        names = self.clause_names(file, uses)
        found = term_uses(term.text, term.line, scope, self.is_constructor(names))
        for path, line in found:
            yield from self.meant_in_code(file, names, path, line)

    def meant_in_code(self, file: RustFile, names: Names, path: Path, line: int) -> Iterator[object]:
        """A name of a clause: an import, or else a constant, a type or a variant that the code has there."""
        try:
            meaning = self.meaning(names, path)
            if meaning is not None:
                yield meaning.of
        except Unread as fault:
            found = self.code_name(file, path[0])
            if found is None:
                raise Unread(f"crates/{file.name}, line {line}: {fault}") from fault
            yield found

    def code_name(self, file: RustFile, name: str) -> Optional[object]:
        if name in ("Some", "None", "Ok", "Err") or re.fullmatch(r"[ui](8|16|32|64|128|size)|char|str|bool", name):
            return Outside("std", "code", name)
        if name in file.items or name in {**file.uses, **file.public_uses}:
            return self.rust_type(file, name) or Outside("std", "code", name)
        types = [self.node(file.name, it.name) for it in file.items.values() if name in it.variants]
        for other in {**file.uses, **file.public_uses}:
            if other[0].isupper():
                found = self.rust_type(file, other)
                if found is not None and name in self.code(found.file).items[found.name].variants:
                    types.append(found)
        return types[0] if len(set(types)) == 1 else None

    def used_by_clause(self, file: RustFile, function: Function, clause: Term) -> Iterator[object]:
        """What a clause names, and the traits of the type parameters whose members it has."""
        names = self.clause_names(file, function.ghost_uses)
        scope = frozenset(function.names) | {"self", "result", "Self"}
        if function.owner in file.items:
            owner = file.items[function.owner]
            scope |= frozenset(owner.generics) | (frozenset(it.label for it in owner.terms) if owner.kind == "trait" else frozenset())
        try:
            found = term_uses(clause.text, clause.line, scope, self.is_constructor(names))
        except Unread as fault:
            raise Unread(f"crates/{file.name}, {function.name}: {fault}") from fault
        for path, line in found:
            if path[0] not in function.bounds or path[0] in names.items:
                yield from self.meant_in_code(file, names, path, line)
            else:
                yield from filter(None, (self.rust_type(file, trait) for trait in function.bounds[path[0]]))

    def clauses(self, file: str, only: Optional[Callable[[Function], bool]] = None) -> Iterator[Tuple[Clause, List[object]]]:
        """The clauses of a file's functions, each with what it names."""
        code = self.code(file)
        for function in code.functions:
            if only is None or only(function):
                for it in function.clauses:
                    if it.word != "ghost":
                        found = list(dict.fromkeys(self.used_by_clause(code, function, it)))
                        yield Clause(file, function.name, function.owner, it.label or it.word, it.line), found


def code_file(crate: str, modules: Sequence[str]) -> str:
    """The file of a module of the code."""
    return f"{crate}/src/{'/'.join(modules) or 'lib'}.rt"


def read_use(items: Sequence[Token]) -> Tuple[Tuple[str, ...], Optional[List[Tuple[Tuple[str, ...], str]]], str]:
    """A `use` behind its word: the module's path, the items that are listed with their names here, and the name of the module where none are."""
    path, at = path_at(items, 0)
    if at + 1 < len(items) and items[at].text == "." and items[at + 1].text == "{":
        end = next(place for place in range(at, len(items)) if items[place].text == "}")
        listed = []
        for part in split_top(items[at + 2 : end], ","):
            if part:
                own, after = path_at(part, 0)
                listed.append((own, part[after + 1].name if after + 1 < len(part) and part[after].text == "as" else own[-1]))
        return path, listed, ""
    return path, None, items[at + 1].name if at + 1 < len(items) and items[at].text == "as" else path[-1]


def reach(project: Project, roots: Sequence[object], known: Optional[Set[object]] = None) -> Dict[object, Optional[object]]:
    """All nodes and outside names that the roots lead to, each with the node through which it was come to first; what is known is not gone into."""
    found: Dict[object, Optional[object]] = {}
    waiting: List[Tuple[object, Optional[object]]] = [(it, None) for it in roots]
    at = 0
    while at < len(waiting):
        it, before = waiting[at]
        at += 1
        if it in found or known is not None and it in known:
            continue
        found[it] = before
        if isinstance(it, Node):
            waiting += [(other, it) for other in project.used_by(it) if other not in found]
    return found
