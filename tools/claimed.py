#!/usr/bin/env python3
"""What the contracts of the program and of the library claim, and by which definitions: follows the names from each clause, and writes docs/believe.md.

  tools/claimed.py write          writes docs/believe.md; its section "Words" stays as it is
  tools/claimed.py check          says whether the page is what the sources say
  tools/claimed.py why NAME       says by which definitions a clause comes to NAME; a name that several crates have is written crate:NAME
  tools/claimed.py count          says how many definitions are claimed, by crate; which no clause of a public function comes to; and which only name another one

Claimed is what the contracts of `symnet` and `symnet_call` and the laws that docs/claims.md names come to. `definitions.py` says what a name means.
"""

import re
import sys
from collections import Counter
from dataclasses import dataclass, field
from typing import Dict, Iterator, List, Optional, Sequence, Set, Tuple

from antt_names import Unread
from checkout import TOP
from definitions import Clause, Node, Outside, Project, code_file, reach

PAGE = TOP / "docs/believe.md"
CLAIMS = TOP / "docs/claims.md"
PROGRAM = ("symnet_program/src/program.rt", "symnet")
LIBRARY = ("symnet_c/src/call.rt", "symnet_call")
# What else than a type the code has.
CODE_KINDS = {"const": "constant", "static": "constant", "trait": "trait"}
# How long a comment may be on the page before its first sentence stands for it.
LONG = 260


@dataclass(frozen=True)
class Part:
    """A part of the page: its title, what is said of it, and the definitions that it leads to."""

    title: str
    about: str
    roots: Tuple[str, ...]
    # whether each definition with a comment has a line of its own, also one that only its own crate names
    is_whole: bool = False


PARTS = (
    Part("The walk of one packet",
         "What a net, a box, an instruction and a packet are, when a packet meets the injection, and what its walks are, over plain numbers. `IsWalkOf` is the definition that all others of "
         "this part serve: a walk is one of a packet that meets the injection. `language.md` says the same in words.",
         ("exact_records/specs/Packets.antt:IsWalkOf",), True),
    Part("The headline",
         "What the records of an exploration tell of the walks of all packets: `TellsAll` where nothing was left untried, `TellsSome` where the limit was met.",
         ("explore_command/specs/Headline.antt:TellsAll", "explore_command/specs/Headline.antt:TellsSome"), True),
    Part("The report of `explore`",
         "Which text the records have, what was written where the output failed or memory ended, and that the text is read back as its records (`explore_work`, `TellsWalks`).",
         ("explore_command/specs/Explores.antt:explore_work", "symnet_program/specs/Headline.antt:TellsWalks")),
    Part("The job in its file",
         "Which text a job has, when it is accepted, and how files and tables are loaded and patterns asked: the inputs of a command, from state to state of the outside "
         "(`outside`, `AllOpen`, `FirstFails`).",
         ("command_runs/specs/Outside.antt:outside", "command_runs/specs/Inputs.antt:AllOpen", "command_runs/specs/Inputs.antt:FirstFails")),
    Part("`walk`", "All walks of one packet, as text.", ("walk_command/specs/Walks.antt:WalkComes",)),
    Part("`replay`", "A report that is read, and the own meaning of each of its records.", ("replay_command/specs/Replays.antt:ReplayComes",)),
    Part("`ask`", "Questions, and when an answer is right.", ("ask_command/specs/Asks.antt:AskComes",)),
    Part("`loops`", "When a path goes round for ever.", ("loops_command/specs/Loops.antt:LoopsComes",)),
    Part("`compare`", "When two nets deliver the same.", ("compare_command/specs/Compares.antt:CompareComes",)),
    Part("`model`", "The node of a table or of a filter list, and the net of a Click configuration.",
         ("model_command/specs/Models.antt:ModelComes", "acl_command/specs/Commands.antt:AclComes", "model_command/specs/ClickModels.antt:ClickComes")),
    Part("`rules`", "Which packet a rule of a filter list decides, and when two lists permit the same.",
         ("acl_command/specs/Commands.antt:RulesComes", "acl_command/specs/Commands.antt:BothRulesCome")),
    Part("`grow`", "The job that grows from a seed, and the counts of its records.", ("job_gen/specs/Grown.antt:grown", "grow_command/specs/Grows.antt:GrowComes")),
    Part("The words of a command line", "Which command words give, and which have no reading.", ("command_words/specs/Commands.antt:reading",)),
)
PROGRAM_PART = Part("One run of the program", "What the clauses of `symnet` say beyond that: how a run goes, each status with its cause, and what was put.", ())
LIBRARY_PART = Part("The library", "What the contract of `symnet_call` says beyond that of `symnet`: bytes that are lists, files in memory, patterns by `regex`, and rooms.", ())
LAWS_PART = Part("The laws", "What the laws that `claims.md` names need beyond that. A law says what follows of the definitions above, or what a crate below the program does.", ())


def root(project: Project, text: str) -> Node:
    file, _, name = text.partition(":")
    return project.node(file, name)


# ---- the laws that docs/claims.md names


def blocks(text: str) -> Iterator[str]:
    """The paragraphs, the points of lists and the rows of tables."""
    yield from (it for part in re.split(r"\n\s*\n", text) for it in re.split(r"\n(?=\s*[-|])", part))


@dataclass
class Laws:
    """The functions in modules of laws, by name."""

    project: Project
    functions: Dict[str, Set[str]] = field(default_factory=dict)

    def __post_init__(self) -> None:
        for crate in self.project.crates:
            for file in self.project.code_files(crate):
                if re.search(r"laws[^/]*\.rt$", file):
                    for it in self.public_functions(file):
                        self.functions.setdefault(it, set()).add(file)

    def public_functions(self, file: str) -> List[str]:
        """The functions of a file that answer nothing, and so can only be laws."""
        return [it.name for it in self.project.code(file).functions if it.is_public and not it.owner and it.clauses and "->" not in it.types]

    def named_in(self, block: str) -> Iterator[Tuple[str, str]]:
        """The laws that a block names, each as its file and its name."""
        spans = [(it.start(), re.sub(r"\s+", "", it[1])) for it in re.finditer(r"`([^`]+)`", block)]
        said = " ".join(block.split())
        crates = [name for _, name in spans if name in self.project.crates]
        if re.search(r"functions? of (?:the )?`", said):
            for listed in re.findall(r"functions? of ((?:`\w+`(?:, | and )?)+)", said):
                for module in re.findall(r"`(\w+)`", listed):
                    for crate in crates[:1]:
                        if self.project.is_file(code_file(crate, [module])):
                            yield from ((code_file(crate, [module]), it) for it in self.public_functions(code_file(crate, [module])))
        for _, name in spans:
            module, _, own = name.rpartition("::")
            files = self.functions.get(own, set())
            if module and crates and self.project.is_file(code_file(crates[0], module.split("::"))):
                file = code_file(crates[0], module.split("::"))
                if own in self.public_functions(file):
                    files = {file}
            if module.endswith("laws") and not files:
                raise Unread(f"docs/claims.md names a law {name} that no crate has")
            near = {it for it in files if it.split("/")[0] in crates} or files
            if len(near) > 1:
                raise Unread(f"docs/claims.md: {name} is a law of {', '.join(sorted(near))}; name the crate beside it")
            yield from ((it, own) for it in near)


def named_laws(project: Project, text: Optional[str] = None) -> List[Tuple[str, str]]:
    """The laws that docs/claims.md names, in the order of the crates."""
    laws = Laws(project)
    found = {it for block in blocks(CLAIMS.read_text() if text is None else text) for it in laws.named_in(block)}
    return sorted(found, key=lambda it: (project.crates.index(it[0].split("/")[0]), it))


# ---- what is claimed


@dataclass
class Claimed:
    """The clauses that claim something, and the parts of the page with what each needs first."""

    project: Project
    program: List[Tuple[Clause, List[object]]]
    library: List[Tuple[Clause, List[object]]]
    laws: List[Tuple[Clause, List[object]]]
    parts: List[Tuple[Part, List[object]]] = field(default_factory=list)

    @property
    def clauses(self) -> List[Tuple[Clause, List[object]]]:
        return [*self.program, *self.library, *self.laws]

    @property
    def roots(self) -> List[object]:
        return [it for _, found in self.clauses for it in found]


def claimed(project: Project) -> Claimed:
    laws: Dict[str, Set[str]] = {}
    for file, name in named_laws(project):
        laws.setdefault(file, set()).add(name)
    made = Claimed(project, list(project.clauses(PROGRAM[0], lambda it: it.name == PROGRAM[1])), list(project.clauses(LIBRARY[0], lambda it: it.name == LIBRARY[1])),
                   [it for file, names in laws.items() for it in project.clauses(file, lambda function, names=names: function.name in names and not function.owner)])
    roots = [(part, [root(project, it) for it in part.roots]) for part in PARTS]
    for part, clauses in ((PROGRAM_PART, made.program), (LIBRARY_PART, made.library), (LAWS_PART, made.laws)):
        roots.append((part, [it for _, found in clauses for it in found]))
    known: Set[object] = set()
    for part, begun in roots:
        found = [it for it in reach(project, begun, known)]
        known |= set(found)
        made.parts.append((part, found))
    unclaimed = known - set(reach(project, made.roots))
    if unclaimed:
        raise Unread(f"no clause comes to {', '.join(sorted(it.name for it in unclaimed if isinstance(it, Node)))}, of a part of the page")
    return made


@dataclass(frozen=True)
class Counts:
    definitions: int
    lines: int
    files: int
    crates: int
    types: int

    @staticmethod
    def of(found: Sequence[object]) -> "Counts":
        nodes = [it for it in found if isinstance(it, Node) and not it.is_code]
        return Counts(len(nodes), sum(it.lines for it in nodes), len({it.file for it in nodes}), len({it.crate for it in nodes}),
                      sum(isinstance(it, Node) and it.is_code for it in found))

    def __str__(self) -> str:
        return (f"{counted(self.definitions, 'definition')} in {counted(self.lines, 'line')}, in {counted(self.files, 'file')} of {counted(self.crates, 'crate')}, "
                f"and {counted(self.types, 'type')} of the code")


def counted(number: int, noun: str) -> str:
    return f"{number:,} {noun}{'' if number == 1 else 's'}"


# ---- the page


def shown(text: str) -> str:
    """A comment as markdown shows it: one line, and its first sentence where it is long."""
    text = " ".join(text.split())
    if len(text) > LONG:
        text = re.split(r"(?<=[.;]) ", text)[0].rstrip(";")
    return re.sub(r"(?<!`)([*<\[\]])(?!`)", r"\\\1", text).rstrip(".:;,") + "."


def told(project: Project, node: Node) -> str:
    """What is said of a definition: its comment, or its members, or how its type is written."""
    members = [] if node.is_code else project.spec(node.file).definitions[node.name].members
    if node.comment:
        return shown(node.comment)
    if members:
        return f"{'one of' if node.kind == 'data' else 'with'} {', '.join(f'`{it}`' for it in members)}."
    return f"`{node.says}`."


def link(node: Node, is_file: bool = False) -> str:
    if is_file:
        return f"[`{node.file}`](../crates/{node.file})"
    return f"[`{node.name}`](../crates/{node.file}#L{node.line})"


def in_reading_order(project: Project, nodes: Sequence[Node]) -> List[Tuple[str, List[Node]]]:
    """The nodes by file: crates as in crates.txt, types of the code first, each file behind those that it needs."""
    by_file: Dict[str, List[Node]] = {}
    for it in sorted(nodes, key=lambda it: (project.crates.index(it.crate), not it.is_code, it.file, it.line)):
        by_file.setdefault(it.file, []).append(it)
    needs = {file: sorted({other.file for it in own for other in project.used_by(it) if isinstance(other, Node)} & set(by_file)) for file, own in by_file.items()}
    ordered: List[str] = []

    def visit(file: str) -> None:
        if file not in seen:
            seen.add(file)
            for other in needs[file]:
                if other.split("/")[0] == file.split("/")[0]:
                    visit(other)
            ordered.append(file)

    seen: Set[str] = set()
    for file in by_file:
        visit(file)
    return [(file, by_file[file]) for file in ordered]


def rows_of(project: Project, nodes: Sequence[Node], roots: Set[object]) -> Set[Node]:
    """The nodes that a clause, a root of a part or a definition of another crate names."""
    return {it for it in nodes if it in roots} | {it for other in nodes for it in project.used_by(other) if isinstance(it, Node) and it.crate != other.crate}


def file_lines(project: Project, file: str, nodes: List[Node], is_row: Set[Node], is_whole: bool) -> Iterator[str]:
    """A file of a part: what it is about, a line for each definition that is told by itself, and the others by name or number."""
    about = project.spec(file).about
    yield f"**{link(nodes[0], True)}** ({counted(len(nodes), 'definition')}, {counted(sum(it.lines for it in nodes), 'line')}){': ' + shown(about) if about else ''}"
    yield ""
    rows = [it for it in nodes if it in is_row]
    yield from (f"- {link(it)}: {told(project, it)}" for it in rows)
    others = [it for it in nodes if it not in is_row]
    if others:
        yield f"- With {', '.join(link(it) for it in others) if is_whole else f'{len(others)} more'}."
    yield ""


def part_lines(made: Claimed, number: int, part: Part, found: List[object], is_row: Set[Node]) -> Iterator[str]:
    yield f"## {number}. {part.title}"
    yield ""
    yield f"{linked(made.project, part)} {'It needs' if number == 1 else 'Beyond the parts before it needs'} {Counts.of(found)}."
    yield ""
    nodes = [it for it in found if isinstance(it, Node)]
    if part is LAWS_PART:
        yield from law_lines(made, nodes)
        return
    for crate in made.project.crates:
        own = [it for it in nodes if it.crate == crate]
        if own:
            yield f"### `{crate}`"
            yield ""
            yield from crate_lines(made.project, own, {it for it in own if (it.comment or it.kind != "function" if part.is_whole else it in is_row)}, part.is_whole)


def crate_lines(project: Project, nodes: List[Node], is_row: Set[Node], is_whole: bool) -> Iterator[str]:
    """A crate in a part: the types of its code, its files, and those of which each definition only helps."""
    types = sorted((it for it in nodes if it.is_code), key=lambda it: (it.file, it.line))
    yield from (f"- {link(it)}, a {CODE_KINDS.get(it.kind, 'type')} of the code{': ' + shown(it.comment) if it.comment else '.'}" for it in types if it in is_row)
    folded = [it for it in types if it not in is_row]
    if folded:
        yield f"- Of the code, too: {', '.join(link(it) for it in folded)}."
    if types:
        yield ""
    silent = []
    for file, own in in_reading_order(project, [it for it in nodes if not it.is_code]):
        if is_row & set(own) or is_whole:
            yield from file_lines(project, file, own, is_row, is_whole)
        else:
            silent.append(f"{link(own[0], True)} ({len(own)})")
    if silent:
        yield f"Below these, with how many definitions: {', '.join(silent)}."
        yield ""


def linked(project: Project, part: Part) -> str:
    """What is said of a part, with links to the definitions that it leads to."""
    roots = {it.name: it for it in (root(project, text) for text in part.roots)}
    return re.sub(r"`([^`]+)`", lambda it: link(roots[it[1]]) if it[1] in roots else it[0], part.about)


def clause_rows(project: Project, clauses: Sequence[Tuple[Clause, List[object]]]) -> Iterator[str]:
    for clause, found in clauses:
        it = Counts.of(list(reach(project, found)))
        yield f"| [`{clause.label}`](../crates/{clause.file}#L{clause.line}) of `{clause.function}` | {it.definitions:,} | {it.lines:,} | {it.files} | {it.crates} | {it.types} |"


def libraries(found: Sequence[object]) -> str:
    """How many names of each library are used."""
    names = Counter(it.library for it in found if isinstance(it, Outside))
    return ", ".join(f"`{name}` ({number})" for name, number in sorted(names.items(), key=lambda it: (-it[1], it[0])))


def others_of(project: Project, found: Sequence[object]) -> str:
    """The libraries of the kit that crates depend on, and of which no name is used."""
    names = {it.library for it in found if isinstance(it, Outside)}
    return ", ".join(f"`{it}`" for it in project.libraries if it not in names)


HEAD = """# What you have to believe

`tools/claimed.py write` writes this page from the contracts and from `specs/`, except its last section; the checks behind the gate compare it.

The proofs show that the program meets its contract. What the contract means is not proved: it stands in definitions, and who relies on the program has to read
them. This page has all of them, in an order in which they can be read: the walk of one packet, the headline, each command, the words, one run, the library. Each definition
stands in the first part that needs it, with the first words of its comment and a link to its text. What only helps a proof is not here. `claims.md` says what is claimed by
these definitions, clause by clause.

A name is followed exactly: by the imports of its file to one definition, and no further than that definition needs. `tools/claimed.py why NAME` says by which definitions
a clause comes to a name. In the first two parts each definition stands with its comment, or by its name where it has none. In the others a line is for what a clause or another
crate names; of what only its own crate names the number stands behind each file.
"""

BESIDE = """## What else you have to believe

- **The toolchain**: Rattle's compiler and prover with its logic, and LLVM; and the C library.
- **The libraries of the kit**: the clauses of the ported crates and of std (README, "What is trusted"). Definitions and clauses use names of {names}; code
  alone uses {others}.
- **The adapters and `main`**, which are only tested: that loads and puts reach real files and the real output, what is printed below a status, and the exit status (README, "What is only
  tested").
- **The outside and the model**: that memory and time suffice, what the file system or the terminal does with bytes, and that a model in SEFL is like the real box (README,
  "What is neither").
"""


def page(made: Claimed, words: str) -> str:
    """The whole page."""
    everything = list(dict.fromkeys(it for _, found in made.parts for it in found))
    program = list(reach(made.project, [it for _, found in made.program for it in found]))
    total = len(made.project.all_definitions())
    lines = [HEAD, "## In numbers", "",
             f"`specs/` has {total:,} definitions. The contract of `symnet` needs {Counts.of(program)}; with the library and the laws it is {Counts.of(everything)}.",
             "A line is one of code, without comments and blank lines; traits and constants of the code count as types.", "", "| Part | Definitions | Lines | Files | Crates | Types of the code |", "|---|---:|---:|---:|---:|---:|"]
    for number, (part, found) in enumerate(made.parts, 1):
        it = Counts.of(found)
        lines.append(f"| [{number}. {part.title}](#{anchor(f'{number}. {part.title}')}) | {it.definitions:,} | {it.lines:,} | {it.files} | {it.crates} | {it.types} |")
    lines += ["", "What each clause needs, all parts together:", "", "| Clause | Definitions | Lines | Files | Crates | Types of the code |", "|---|---:|---:|---:|---:|---:|",
              *clause_rows(made.project, [*made.program, *made.library]), "", BESIDE.format(names=libraries(everything), others=others_of(made.project, everything))]
    is_row = rows_of(made.project, [it for it in everything if isinstance(it, Node)], set(made.roots) | {root(made.project, it) for part in PARTS for it in part.roots})
    for number, (part, found) in enumerate(made.parts, 1):
        lines += part_lines(made, number, part, found, is_row)
    return "\n".join(lines).rstrip("\n") + "\n\n" + words


def law_lines(made: Claimed, nodes: List[Node]) -> Iterator[str]:
    """The laws by crate, and the files with what only they need."""
    by_crate: Dict[str, Dict[str, Clause]] = {}
    for clause, _ in made.laws:
        by_crate.setdefault(clause.file.split("/")[0], {}).setdefault(clause.function, clause)
    yield "| Crate | Laws |"
    yield "|---|---|"
    for crate, own in by_crate.items():
        yield f"| `{crate}` | {', '.join(f'[`{name}`](../crates/{it.file}#L{it.line})' for name, it in own.items())} |"
    yield ""
    yield "The files that have what only laws need, with how many definitions:"
    yield ""
    for crate in made.project.crates:
        files = in_reading_order(made.project, [it for it in nodes if it.crate == crate])
        if files:
            yield f"- `{crate}`: {', '.join(f'[`{file.partition(chr(47))[2]}`](../crates/{file}) ({len(own)})' for file, own in files)}."
    yield ""


def anchor(title: str) -> str:
    return re.sub(r"[^\w\- ]", "", title.lower()).replace(" ", "-")


def words_section() -> str:
    """The last section of the page, which is written by hand."""
    _, found, rest = PAGE.read_text().partition("\n## Words\n")
    if not found:
        raise Unread("docs/believe.md has no section Words")
    return f"## Words\n{rest}"


def faults() -> Iterator[str]:
    """What is wrong with the page."""
    try:
        wanted = page(claimed(Project()), words_section())
    except Unread as fault:
        yield f"docs/believe.md cannot be written: {fault}"
        return
    if PAGE.read_text() != wanted:
        yield "docs/believe.md is not what contracts and specs/ say (tools/claimed.py write)"


# ---- why and count


def why(project: Project, name: str) -> Iterator[str]:
    """The chains from clauses to the definitions of this name."""
    crate, _, own = name.rpartition(":")
    made = claimed(project)
    found: Set[Node] = set()
    for clause, begun in made.clauses:
        before = reach(project, begun)
        for it in before:
            if isinstance(it, Node) and it.name.strip("◌") == own.strip("◌") and crate in ("", it.crate) and it not in found:
                found.add(it)
                chain: List[Node] = []
                at: Optional[object] = it
                while isinstance(at, Node):
                    chain.append(at)
                    at = before[at]
                yield f"crates/{clause.file}:{clause.line}: {clause.function}, {clause.label}"
                yield from (f"  crates/{step.file}:{step.line}: {step.name}" for step in reversed(chain))
    if not found:
        yield f"nothing that is claimed comes to {name}"


def is_exported(project: Project, file: str, name: str) -> bool:
    """Whether other crates can name what the file has under this name."""
    crate, _, *folders = file[: -len(".rt")].split("/")
    lib = project.code(code_file(crate, []) if project.is_file(code_file(crate, [])) else f"{crate}/src/main.rt")
    if folders in (["lib"], ["main"]):
        return True
    return folders[0] in lib.public_modules or any(path[-1] == name and path[0] in (folders[0], "crate") for path in lib.public_uses.values())


def public_clauses(project: Project) -> Iterator[Tuple[Clause, List[object]]]:
    """The clauses of all functions that other crates can call, and of what they see of types and traits."""
    for crate in project.crates:
        for file in project.code_files(crate):
            code = project.code(file)
            yield from project.clauses(file, lambda it, file=file: (it.is_public or bool(it.of_trait)) and is_exported(project, file, it.owner or it.name))
            for it in code.items.values():
                if it.kind == "trait" and is_exported(project, file, it.name):
                    yield Clause(file, it.name, it.name, "", it.line), list(project.used_by(project.node(file, it.name)))
            for owner, terms, uses, generics in code.members:
                if is_exported(project, file, owner):
                    for term in terms:
                        yield Clause(file, owner, owner, term.label, term.line), list(project.used_by_term(code, term, frozenset(generics) | {"Self"}, uses))


def aliases(project: Project) -> Iterator[Tuple[Node, str]]:
    """The definitions whose one clause only gives another one its arguments: the same ones, or `view` and the same ones."""
    for node in project.all_definitions():
        clauses = project.spec(node.file).definitions[node.name].clauses
        if len(clauses) == 1 and node.kind == "function":
            said = alias_of([it.text for it in clauses[0]])
            if said:
                yield node, said


def alias_of(items: List[str]) -> str:
    """What a clause `f x y = g x y` or `f x y = g view x y` says, without the arguments; nothing for another clause."""
    if "=" not in items:
        return ""
    at = items.index("=")
    given, body = items[1:at], items[at + 1 :]
    head = len(body) - len(given)
    said = " ".join(body[: max(head, 0)])
    if head < 1 or body[head:] != given or any(it in "(){}" for it in items):
        return ""
    return said.replace(" . ", ".") if re.fullmatch(r"[^\W\d][\w'-]*( \. [\w'-]+)*( view)?", said) else ""


def count(project: Project) -> Iterator[str]:
    made = claimed(project)
    reached = set(reach(project, made.roots))
    every = project.all_definitions()
    public = set(reach(project, [it for _, found in public_clauses(project) for it in found])) | reached
    yield f"{len(every)} definitions in {sum(it.lines for it in every)} lines; claimed: {Counts.of(list(reached))}"
    yield f"{'crate':20} {'all':>5} {'claimed':>8} {'helping':>8} {'of no public clause':>20}   files: claimed, mixed, helping"
    for crate in project.crates:
        own = [it for it in every if it.crate == crate]
        if own:
            files = Counter(file_kind([it in reached for it in own if it.file == file]) for file in {it.file for it in own})
            yield (f"{crate:20} {len(own):5} {sum(it in reached for it in own):8} {sum(it not in reached for it in own):8} {sum(it not in public for it in own):20}   "
                   f"{files['claimed']}, {files['mixed']}, {files['helping']}")
    alone = [it for it in every if it not in public]
    yield f"of no public clause: {len(alone)} definitions in {sum(it.lines for it in alone)} lines"
    yield from (f"  {file}: {', '.join(it.name for it in alone if it.file == file)}" for file in dict.fromkeys(it.file for it in alone))
    named = list(aliases(project))
    yield f"only name another one: {len(named)}, of these at view {sum(said.endswith(' view') for _, said in named)}"
    yield from (f"  {it.file}:{it.line}: {it.name} is {said}{'' if it in reached else ' (helping)'}" for it, said in named)


def file_kind(are_claimed: Sequence[bool]) -> str:
    return "claimed" if all(are_claimed) else "mixed" if any(are_claimed) else "helping"


def main(words: List[str]) -> int:
    try:
        if words == ["write"]:
            PAGE.write_text(page(claimed(Project()), words_section()))
        elif words == ["check"]:
            found = list(faults())
            print("\n".join(found) or "docs/believe.md agrees with contracts and specs/")
            return 1 if found else 0
        elif len(words) == 2 and words[0] == "why":
            print("\n".join(why(Project(), words[1])))
        elif words == ["count"]:
            print("\n".join(count(Project())))
        else:
            print(__doc__)
            return 2
    except Unread as fault:
        print(f"claimed: {fault}")
        return 1
    return 0


if __name__ == "__main__":
    sys.exit(main(sys.argv[1:]))
