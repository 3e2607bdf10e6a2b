#!/usr/bin/env python3
"""Tests how names in definitions and contracts are followed: on texts of its own, on two small crates, and on all of the checkout's."""

import sys
import tempfile
from pathlib import Path
from typing import Dict, List, Set

import claimed
from antt_names import Unread, source_of, uses_of
from definitions import Node, Project, reach, read_use
from rust_items import read_rust

FAILED = []
CONSTRUCTORS = {"[]", "∷", "Some", "None", "zero", "kind.Name"}
# Imports of the checkout that no definition needs.
IDLE = {"sefl_grammar/specs/Grammar.antt: NodeTree", "sefl_grammar/specs/Grammar.antt: NetTree", "told_texts/specs/Walks.antt: Fit128",
        "caller_edge/specs/Outside.antt: Bytes", "caller_edge/specs/Outside.antt: NoMemory"}


def expect(what, found, wanted):
    if found != wanted:
        FAILED.append(what)
        print(f"claimed_test: {what}: wanted {wanted!r}, came {found!r}")


def uses(text: str, name: str = "f") -> Set[str]:
    """What a definition of the text uses."""
    made = source_of(text).definitions[name]
    return {".".join(path) for path, _ in uses_of(made, lambda path: ".".join(path) in CONSTRUCTORS)}


def check_terms():
    for what, body, wanted in (
        ("a λ", "f = λ x (y : A). g x y z", {"A", "g", "z"}),
        ("a λ ends with its brackets", "f = g (λ x. x) x", {"g", "x"}),
        ("a λ with a tuple", "f = λ (x, y). g x", {"g"}),
        ("binders of a type", "f = (x y : A) → (z : B x) × P x y z w", {"A", "B", "P", "w"}),
        ("a binder ends with its brackets", "f = g ((x : A) × P x) x", {"g", "A", "P", "x"}),
        ("a let", "f = let x : T = h x in g x", {"T", "h", "x", "g"}),
        ("two lets", "f = let x = (let y = a in y) in let z = x in g z y", {"a", "g", "y"}),
        ("cases", "f = elim (g x) as (λ m. M m) [ Some y ↦ h y | None ↦ y ]", {"g", "x", "M", "Some", "h", "None", "y"}),
        ("a record's value", "f = record { a = b; c = g a }", {"b", "g", "a"}),
        ("a record's value over lines", "f = record {\n  a = b;\n}", {"b"}),
        ("a record's type", "f = record { a : A; b : B a }", {"A", "B"}),
        ("a record with a field changed", "f = record s.t { a = b }", {"s.t", "b"}),
        ("the same of a term", "f = record (g s).t { a = b }", {"g", "s", "b"}),
        ("an implicit argument", "f = g {x = y} {A} (h z).x", {"g", "y", "A", "h", "z"}),
        ("a path", "f = m.g p.0.1 12 \"g h\" -- k", {"m.g", "p.0.1"}),
        ("operators", "f = a + b ∷ []", {"a", "+", "b", "∷", "[]"}),
        ("an escaped name", "f = «from» a", {"from", "a"}),
        ("patterns", "f (x ∷ xs) (Some y) {n = z} [] = g x xs y z n", {"∷", "Some", "[]", "g", "n"}),
        ("a constructor behind a module", "f (kind.Name x) = x", {"kind.Name"}),
        ("an earlier argument is no name of the next clause", "f (Some x) = x\nf y = x", {"Some", "x"}),
    ):
        expect(what, uses(f"abbrev pub f : U\n{body}\n"), wanted | {"U"})


def check_declarations():
    text = """-- What it is.
use M.{a}

-- a number
pub record R (A : Type 0) (n : N) : Type 0 where
  -- the first
  pub x : P A n
  pub y : Q x

pub data D : Type 0 where
  one other : D
  more : R y → D

module _ {V : Type 0} (o : Values V) where
  abbrev mutual
    pub f : V → D
    f x = g o

    pub g : V → E
    g x = f V

infixr 60 ◌⨾◌
-- one, then the other
abbrev pub ◌⨾◌ : S → S
(a ⨾ b) c = a c b
"""
    source = source_of(text)
    expect("what a file is about", source.about, "What it is.")
    expect("definitions", {it.name: (it.kind, it.line, len(it.lines), it.members, it.comment) for it in source.definitions.values()},
           {"R": ("record", 5, 3, ["x", "y"], "a number"), "D": ("data", 10, 3, ["one", "other", "more"], ""), "f": ("function", 16, 2, [], ""),
            "g": ("function", 19, 2, [], ""), "◌⨾◌": ("function", 24, 2, [], "one, then the other")})
    for name, wanted in (("R", {"N", "P", "Q"}), ("D", {"D", "R", "y"}), ("f", {"Values", "D", "g"}), ("g", {"Values", "E", "f"}), ("◌⨾◌", {"S"})):
        expect(f"uses of {name}", uses(text, name), wanted)
    for wrong in ("f = a\n", "pub f : A\npub f : B\n", "pub f : A\nf x\n"):
        try:
            [uses_of(it, lambda path: False) for it in source_of(wrong).definitions.values()]
            expect(f"{wrong!r} is refused", "read", "refused")
        except Unread:
            pass


CODE = """//! A crate.
ghost use Rattle.low.specs.Words.{IsWord as IsGood, ◌⊕◌};
ghost use Rattle.std.specs.Prelude.{◌≡◌};

use low::{Kind, Side};

/// A view.
pub struct Seen { secret: Vec<Kind> }

impl Model for Seen {
    ghost use Rattle.low.specs.Words.{word};

    ghost Value = { word };
}

/// A place.
pub trait Place {
    ghost told: { Self → Kind };

    fn load(&mut self, name: &str) -> Side
        ensures kept { told self.new ≡ told self.old }
        ensures { IsGood name }; // told
}

pub fn run<P: Place, T>(words: &[String], place: &mut P) -> Kind
    requires few { IsGood words.now "}" }
    // a comment {
    ensures told { P.told place.new ⊕ result }
{
    let x = '{';
}

pub fn other() ensures { MOST ≡ MOST } {}
"""


def check_code():
    file = read_rust("high/src/lib.rt", CODE)
    expect("types", {it.name: (it.kind, it.comment) for it in file.items.values()}, {"Seen": ("struct", "A view."), "Place": ("trait", "A place.")})
    expect("functions", [(it.name, it.owner, [(clause.word, clause.label, clause.line) for clause in it.clauses], it.is_empty) for it in file.functions],
           [("load", "Place", [("ensures", "kept", 21), ("ensures", "", 22)], False), ("run", "", [("requires", "few", 26), ("ensures", "told", 28)], False),
            ("other", "", [("ensures", "", 33)], True)])
    expect("bounds", file.functions[1].bounds, {"P": ["Place"], "T": []})
    expect("names", file.functions[1].names, ["words", "place"])
    expect("imports", file.uses, {"Kind": ("low", "Kind"), "Side": ("low", "Side")})


FILES = {
    "crates.txt": "# crates\nlow:\nhigh: low\n",
    "low/src/lib.rt": "mod kind;\npub use kind::{Kind, Side};\n",
    "low/src/kind.rt": "/// A kind.\npub enum Kind { One, Two(Side) }\npub struct Side(pub u8);\npub const MOST: u8 = 3;\n",
    "low/specs/Words.antt": "use Rattle.low.specs.declared.kind.Kind.{Kind}\nuse Rattle.low.specs.declared.kind.Kind.TheVariants as kinds\npub use Rattle.low.specs.Base.{base}\n"
                            "use Rattle.std.specs.Prelude.{◌≡◌}\n\nabbrev pub word : Kind → Kind\nword kinds.One = base\nword x = x\n\nabbrev pub IsWord : Kind → Type 0\nIsWord k = word k ≡ k\n\n"
                            "infixl 5 ◌⊕◌\nabbrev pub ◌⊕◌ : Kind → Kind → Kind\n(a ⊕ b) = a\n",
    "low/specs/Base.antt": "use Rattle.low.specs.declared.kind.TheConstants.{MOST}\n\nabbrev pub base : N\nbase = MOST\n\nabbrev pub unused : N\nunused = base\n\nabbrev pub N : Type 0\nN = Unit {0}\n",
    "high/src/lib.rt": CODE.replace("MOST ≡ MOST", "One"),
    "high/specs/Words.antt": "use Rattle.low.specs.Words.{base}\nuse Rattle.low.specs.Words as low\n\nabbrev pub word : low.IsWord\nword = base\n\nabbrev pub again : low.IsWord\nagain x = word x\n",
}


def project_of(folder: str, files: Dict[str, str]) -> Project:
    for name, text in files.items():
        file = Path(folder) / ("" if name == "crates.txt" else "crates") / name
        file.parent.mkdir(parents=True, exist_ok=True)
        file.write_text(text)
    return Project(Path(folder))


def named(found) -> List[str]:
    return sorted(f"{it.file}:{it.name}" for it in found if isinstance(it, Node))


def check_project():
    with tempfile.TemporaryDirectory() as folder:
        project = project_of(folder, FILES)
        expect("of two words each uses its own", named(project.used_by(project.node("high/specs/Words.antt", "word"))), ["low/specs/Base.antt:base", "low/specs/Words.antt:IsWord"])
        expect("a name beside another crate's", named(project.used_by(project.node("high/specs/Words.antt", "again"))), ["high/specs/Words.antt:word", "low/specs/Words.antt:IsWord"])
        expect("a constructor of the code", named(project.used_by(project.node("low/specs/Words.antt", "word"))), ["low/specs/Base.antt:base", "low/src/kind.rt:Kind"])
        expect("a view hides what is stored", named(project.used_by(project.node("high/src/lib.rt", "Seen"))), ["low/specs/Words.antt:word"])
        clauses = {(it.function, it.label): named(found) for it, found in project.clauses("high/src/lib.rt")}
        expect("clauses", clauses, {("load", "kept"): [], ("load", "ensures"): ["low/specs/Words.antt:IsWord"], ("run", "few"): ["low/specs/Words.antt:IsWord"],
                                    ("run", "told"): ["high/src/lib.rt:Place", "low/specs/Words.antt:◌⊕◌"], ("other", "ensures"): ["low/src/kind.rt:Kind"]})
        found = reach(project, [project.node("high/specs/Words.antt", "again")])
        expect("what is reached", named(found), ["high/specs/Words.antt:again", "high/specs/Words.antt:word", "low/specs/Base.antt:N", "low/specs/Base.antt:base",
                                                "low/specs/Words.antt:IsWord", "low/specs/Words.antt:word", "low/src/kind.rt:Kind", "low/src/kind.rt:MOST", "low/src/kind.rt:Side"])


def check_refusals():
    for what, file, old, new in (("a name without an import", "high/specs/Words.antt", "word = base", "word = bases"), ("a module that is not there", "high/specs/Words.antt", "specs.Words as", "specs.Word as"),
                                 ("an import that is not there", "high/specs/Words.antt", "{base}", "{unused}"), ("a variant that is not there", "low/specs/Words.antt", "kinds.One", "kinds.Three"),
                                 ("a type that is not there", "low/specs/Words.antt", "kind.Kind.{Kind}", "kind.Kinds.{Kinds}")):
        with tempfile.TemporaryDirectory() as folder:
            project = project_of(folder, {**FILES, file: FILES[file].replace(old, new)})
            try:
                for it in project.all_definitions():
                    project.used_by(it)
                expect(what, "read", "refused")
            except Unread:
                pass


def check_small():
    for clause, wanted in (("IsMet = any.IsMet view", "any.IsMet view"), ("f x y = g x y", "g"), ("f x = m.g view x", "m.g view"), ("f x = g x x", ""), ("f x = g", ""), ("f x = x", "")):
        expect(f"alias {clause}", claimed.alias_of(clause.replace(".", " . ").split()), wanted)
    expect("a comment with marks", claimed.shown("so it is: *all*"), "so it is: \\*all\\*.")
    expect("an anchor", claimed.anchor("3. The report of `explore`"), "3-the-report-of-explore")


def check_checkout(project: Project):
    """Each name of each definition has a meaning, each import is used, and each definition that is claimed stands in one part."""
    idle: Set[str] = set()
    for file in project.spec_files():
        names, used = project.names_of(file), set()
        for it in project.spec(file).definitions.values():
            project.used_by(project.node(file, it.name))
            used |= {path[0] for path, _ in uses_of(it, project.is_constructor(names))}
        for is_public, items in project.spec(file).uses:
            path, listed, alias = read_use(items)
            if not is_public and path[1] in project.crates:
                idle |= {f"{file}: {name}" for name in ([alias] if listed is None else [it for _, it in listed]) if not {name, *name.split("◌")} & used}
    expect("imports that no definition uses: the reader misses a use, or the import can go", sorted(idle - IDLE), [])
    made = claimed.claimed(project)
    parts = [it for _, found in made.parts for it in found]
    expect("each definition is counted once", len(parts), len(set(parts)))
    expect("the parts have all that clauses come to", set(parts), set(reach(project, made.roots)))
    expect("the clauses of symnet", [it.label for it, _ in made.program],
           ["folder_kept", "patterns_kept", "out_kept", "usage", "shown", "ran", "told", "exact", "complete"])
    expect("laws of several forms", {("one_list/src/laws.rt", "exact_records_are_one"), ("model_laws/src/tables.rt", "table_run"), ("command_laws/src/laws.rt", "walks_follow_paths")}
           - set(claimed.named_laws(project)), set())


def main():
    check_terms()
    check_declarations()
    check_code()
    check_project()
    check_refusals()
    check_small()
    check_checkout(Project())
    print(f"claimed_test: {len(FAILED)} failed" if FAILED else "claimed_test: all is as it should be")
    return 1 if FAILED else 0


if __name__ == "__main__":
    sys.exit(main())
