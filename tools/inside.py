#!/usr/bin/env python3
"""What a move of helping definitions to specs/inside/ would take: definitions of specs/ that no claimed contract comes to (claimed.py).

  tools/inside.py plan            says what would move, and which definitions have to stay for a reason of the language
  tools/inside.py apply FOLDER    does it in another checkout, which is then to be proved; nothing is proved here

With the word `public` at the end only those move that no clause of a public function comes to.

A file whose definitions all help moves as it is; of another one the helping definitions go to a file of the same name in specs/inside/, which imports what stays. A claimed
definition uses none that only helps, so no module comes to import itself.
"""

import re
import sys
from collections import Counter
from pathlib import Path
from typing import Dict, Iterator, List, Optional, Sequence, Set, Tuple

from antt_names import Statement, statements, unmarked, uses_of, without_comment
from checkout import TOP
from claimed import claimed, counted, public_clauses
from definitions import Node, Project, reach, read_use

USE = re.compile(r"(?m)^( *(?:unfoldable )?(?:pub |ghost )?use )Rattle\.(\w+)\.specs\.(\w+)(?:\.\{([^}]*)\}|( as \w+)?)(;?)$")


class Plan:
    """Which definitions move, and why others stay."""

    def __init__(self, project: Project, is_public: bool = False):
        self.project = project
        every = project.all_definitions()
        reached = set(reach(project, claimed(project).roots))
        if is_public:
            reached |= set(reach(project, [it for _, found in public_clauses(project) for it in found]))
        self.helping = [it for it in every if it not in reached]
        self.moved: Set[Node] = set(self.helping)
        self.stays: Dict[Node, str] = {}
        self.blocks: Dict[str, List[List[str]]] = {}
        self.read: Dict[str, List[Statement]] = {}
        while True:
            found = dict(self.held())
            if not found:
                break
            self.stays.update(found)
            self.moved -= set(found)

    def held(self) -> Iterator[Tuple[Node, str]]:
        """Definitions that cannot move while the others do, each with a reason."""
        whole = {file for file in {it.file for it in self.moved} if all(self.project.node(file, name) in self.moved for name in self.project.spec(file).definitions)}
        for file in sorted({it.file for it in self.moved} - whole):
            source = self.project.spec(file)
            for block in self.mutual_blocks(file):
                names = [self.project.node(file, name) for name in block]
                if any(it in self.moved for it in names) and any(it not in self.moved for it in names):
                    yield from ((it, "a mutual block") for it in names if it in self.moved)
            for it in [it for it in self.moved if it.file == file]:
                made = source.definitions[it.name]
                siblings = [other for other in self.project.used_by(it) if isinstance(other, Node) and other.file == file and other not in self.moved]
                if any(not source.definitions[other.name].is_public for other in siblings):
                    yield it, "a private name"
                elif self.is_in_section(file, it.name) and any(self.is_in_section(file, other.name) == self.is_in_section(file, it.name) for other in siblings):
                    yield it, "a section with parameters"
                elif any(name in source.definitions and self.project.node(file, name) not in self.moved and not self.opens(file, name) for name in self.unfolded(file, made.name)):
                    yield it, "an unfolding line"
        for it in self.helping:
            if it not in self.moved:
                for other in self.project.used_by(it):
                    if other in self.moved:
                        yield other, "what uses it stays"

    def statements(self, file: str) -> List[Statement]:
        """All statements of a file."""
        if file not in self.read:
            self.read[file] = list(flat(statements((self.project.crates_folder / file).read_text().split("\n"))))
        return self.read[file]

    def mutual_blocks(self, file: str) -> List[List[str]]:
        if file not in self.blocks:
            made: List[List[str]] = []
            for it in self.statements(file):
                if unmarked(it.items)[1][0].text == "mutual":
                    made.append([name for name in map(defined_by, it.block) if name])
            self.blocks[file] = made
        return self.blocks[file]

    def is_in_section(self, file: str, name: str) -> Optional[int]:
        """The line of the section with explicit parameters round a definition."""
        for it in self.statements(file):
            head = it.text.split("\n")[0]
            if head.lstrip().startswith("module _") and "(" in head and name in [defined_by(inner) for inner in flat(it.block)]:
                return it.line
        return None

    def unfolded(self, file: str, name: str) -> List[str]:
        """The names on the unfolding lines of a definition."""
        last, found = None, []
        for it in self.statements(file):
            last = defined_by(it) or last
            items = it.items
            if items and items[0].text == "unfolding" and last == name:
                found += [token.name for token in items[1:]]
        return found

    def opens(self, file: str, name: str) -> bool:
        """Whether other modules may unfold a definition."""
        for it in self.statements(file):
            if defined_by(it) == name:
                return bool({"abbrev", "unfoldable"} & unmarked(it.items)[0])
        return True

    def is_moved(self, crate: str, module: str, name: str) -> bool:
        file = f"{crate}/specs/{module}.antt"
        if crate not in self.project.crates or not self.project.is_file(file):
            return False
        if self.is_whole(crate, module):
            # also what it passes on
            return True
        source = self.project.spec(file)
        owner = name if name in source.definitions else next((it.name for it in source.definitions.values() if name in it.members and it.kind == "data"), None)
        return owner is not None and self.project.node(file, owner) in self.moved

    def is_whole(self, crate: str, module: str) -> bool:
        """Whether all of a module moves."""
        file = f"{crate}/specs/{module}.antt"
        found = crate in self.project.crates and self.project.is_file(file) and self.project.spec(file).definitions
        return bool(found) and all(self.project.node(file, name) in self.moved for name in found)


def flat(found: Sequence[Statement]) -> Iterator[Statement]:
    """The statements of a file and of all its blocks of modules and mutual definitions."""
    for it in found:
        yield it
        items = unmarked(it.items)[1]
        if items and items[0].text in ("module", "mutual") and "\n" in it.text:
            yield from flat(it.block)


def defined_by(it: Statement) -> Optional[str]:
    """The name that a statement declares."""
    items = unmarked(it.items)[1]
    if not items or items[0].text in ("use", "mod", "module", "mutual", "unfolding", "infix", "infixl", "infixr"):
        return None
    if items[0].text in ("record", "data"):
        return items[1].name
    signs = [token.text for token in items]
    return items[0].name if ":" in signs and ("=" not in signs or signs.index(":") < signs.index("=")) else None


# ---- the imports that change


def files(top: Path) -> Iterator[Path]:
    for pattern in ("crates/*/specs/*.antt", "crates/*/proofs/**/*.antt", "crates/*/src/**/*.rt"):
        yield from sorted(top.glob(pattern))


def with_imports(plan: Plan, text: str) -> str:
    """The text with each import of a moved name from specs/inside/."""
    renamed: List[Tuple[str, str, str, str]] = []

    def changed(it: "re.Match[str]") -> str:
        head, crate, module, listed, alias, end = it.groups()
        if listed is None:
            name = alias[4:] if alias else module
            if plan.is_whole(crate, module):
                return f"{head}Rattle.{crate}.specs.inside.{module}{alias or ''}{end}"
            renamed.append((crate, module, name, f"{name}_inside"))
            return it[0]
        names = [part.strip() for part in listed.split(",") if part.strip()]
        gone = [part for part in names if plan.is_moved(crate, module, part.split(" as ")[0])]
        if not gone:
            return it[0]
        kept = [part for part in names if part not in gone]
        lines = [f"{head}Rattle.{crate}.specs.{module}.{{{', '.join(kept)}}}{end}"] if kept else []
        return "\n".join([*lines, f"{head}Rattle.{crate}.specs.inside.{module}.{{{', '.join(gone)}}}{end}"])

    made = USE.sub(changed, text)
    for crate, module, name, other in renamed:
        used = {it for it in re.findall(rf"(?<![\w.]){name}\.([\w'-]+)", made) if plan.is_moved(crate, module, it)}
        if used:
            made = re.sub(rf"(?m)^( *(?:ghost )?use )(Rattle\.{crate}\.specs\.){module}( as {name})?(;?)$", rf"\g<0>\n\1\2inside.{module} as {other}\4", made, count=1)
            for it in used:
                made = re.sub(rf"(?<![\w.]){name}\.{re.escape(it)}(?![\w'-])", f"{other}.{it}", made)
    return made


# ---- the files that are split


def units(text: str) -> Tuple[List[str], List[Tuple[int, int, Statement]]]:
    """The lines of a block, and its statements with their first and last line, comments above and clauses included."""
    lines = text.split("\n")
    found = statements(lines)
    starts = []
    for it in found:
        at = it.line - 1
        while at > 0 and lines[at - 1].strip().startswith("--"):
            at -= 1
        starts.append(at)
    return lines, [(start, end, it) for start, end, it in zip(starts, [*starts[1:], len(lines)], found)]


def split_block(text: str, is_moved) -> Tuple[List[str], List[str]]:
    """The lines that stay and those that go."""
    stay: List[str] = []
    go: List[str] = []
    goes, held = False, []
    lines, found = units(text)
    for start, end, it in found:
        items = unmarked(it.items)[1]
        word = items[0].text if items else ""
        own = lines[start:end]
        name = defined_by(it)
        if word in ("use", "mod"):
            continue
        if word in ("infix", "infixl", "infixr"):
            held = own
            continue
        if word in ("module", "mutual"):
            head = own[: it.line - 1 - start + it.head_lines]
            inner = split_block("\n".join(own[len(head):]), is_moved)
            for part, target in zip(inner, (stay, go)):
                if any(without_comment(line).strip() for line in part):
                    target += [*head, *part]
            continue
        if name is not None:
            goes = is_moved(name)
        (go if goes else stay).extend([*held, *own])
        held = []
    return stay, go


def imports_for(plan: Plan, file: str, names: Sequence[str], is_new: bool) -> List[str]:
    """The `use` lines of a half of a file, for what its definitions use."""
    project = plan.project
    crate, module = file.split("/")[0], Path(file).stem
    scope = project.names_of(file)
    used = {path[0].strip("◌") for name in names for path, _ in uses_of(project.spec(file).definitions[name], project.is_constructor(scope))}
    made = []
    for is_public, items in project.spec(file).uses:
        path, listed, alias = read_use(items)
        where = ".".join(path)
        if listed is None:
            if alias in used:
                made.append(f"use {where}{'' if alias == path[-1] else f' as {alias}'}")
            continue
        if is_public and is_new:
            listed = [it for it in listed]
        kept = [it for it in listed if (is_public and not is_new) or {part.strip("◌") for part in [it[1], *it[1].split("◌")]} & used]
        if kept:
            said = ", ".join(".".join(own) + ("" if own[-1] == name else f" as {name}") for own, name in kept)
            made.append(f"{'pub ' if is_public and not is_new else ''}use {where}.{{{said}}}")
    if is_new:
        source = project.spec(file)
        own = [it for it in source.definitions if project.node(file, it) not in plan.moved]
        members = [member for it in own if source.definitions[it].kind == "data" for member in source.definitions[it].members]
        needed = [it for it in [*own, *members] if {part.strip("◌") for part in [it, *it.split("◌")] if part.strip("◌")} & used]
        if needed:
            made.append(f"use Rattle.{crate}.specs.{module}.{{{', '.join(needed)}}}")
    return made


def moved_files(plan: Plan) -> Iterator[Tuple[str, str, str]]:
    """Each file with moved definitions: its name, what stays in it (nothing where all goes), and the new file."""
    for file in sorted({it.file for it in plan.moved}):
        text = (plan.project.crates_folder / file).read_text()
        names = list(plan.project.spec(file).definitions)
        going = [it for it in names if plan.project.node(file, it) in plan.moved]
        if len(going) == len(names):
            yield file, "", text
            continue
        stay, go = split_block(text, lambda name, going=going: name in going)
        about = [f"-- {plan.project.spec(file).about}"] if plan.project.spec(file).about else []
        halves = []
        for own, lines, is_new in (([it for it in names if it not in going], stay, False), (going, go, True)):
            halves.append("\n".join([*about, *imports_for(plan, file, own, is_new), "", *lines]).rstrip("\n") + "\n")
        yield file, halves[0], halves[1]


def apply(plan: Plan, top: Path) -> None:
    """Does the move in another checkout."""
    modules: Dict[str, List[str]] = {}
    made = list(moved_files(plan))
    for file, stay, go in made:
        old = top / "crates" / file
        new = old.parent / "inside" / old.name
        new.parent.mkdir(exist_ok=True)
        new.write_text(with_imports(plan, go))
        modules.setdefault(file.split("/")[0], []).append(old.stem)
        if stay:
            old.write_text(stay)
        else:
            old.unlink()
            lib = old.parent / "Lib.antt"
            lib.write_text(re.sub(rf"(?m)^pub mod {old.stem}\n", "", lib.read_text()))
    for crate, names in modules.items():
        specs = top / "crates" / crate / "specs"
        (specs / "inside/Lib.antt").write_text("-- What only helps proofs.\n" + "".join(f"pub mod {it}\n" for it in names))
        lib = specs / "Lib.antt"
        lib.write_text(lib.read_text().rstrip("\n") + "\npub mod inside\n")
    for file in files(top):
        text = file.read_text()
        changed = with_imports(plan, text)
        if changed != text:
            file.write_text(changed)


def report(plan: Plan) -> Iterator[str]:
    made = list(moved_files(plan))
    yield f"helping: {counted(len(plan.helping), 'definition')} in {counted(sum(it.lines for it in plan.helping), 'line')}, in {counted(len({it.file for it in plan.helping}), 'file')}"
    yield f"would move: {len(plan.moved)}, {sum(not stay for _, stay, _ in made)} files whole and {sum(bool(stay) for _, stay, _ in made)} split"
    yield f"have to stay: {len(plan.stays)}: " + ", ".join(f"{number} for {why}" for why, number in Counter(plan.stays.values()).most_common())
    yield from (f"  {it.file}:{it.line}: {it.name}, for {why}" for it, why in sorted(plan.stays.items(), key=lambda it: (it[0].file, it[0].line)))
    changed = Counter()
    for file in files(TOP):
        text = file.read_text()
        kind = next(it for it in ("specs", "proofs", "src") if f"/{it}/" in str(file))
        changed[kind] += with_imports(plan, text) != text
    yield "files whose imports would change: " + ", ".join(f"{number} of {kind}" for kind, number in changed.items())


def main(words: List[str]) -> int:
    is_public = words[-1:] == ["public"]
    words = words[:-1] if is_public else words
    if words == ["plan"]:
        print("\n".join(report(Plan(Project(), is_public))))
    elif len(words) == 2 and words[0] == "apply" and Path(words[1]).resolve() != TOP:
        apply(Plan(Project(), is_public), Path(words[1]))
    else:
        print(__doc__)
        return 2
    return 0


if __name__ == "__main__":
    sys.exit(main(sys.argv[1:]))
