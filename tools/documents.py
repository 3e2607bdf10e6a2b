#!/usr/bin/env python3
"""Compares documents with the code that they tell of.

  tools/documents.py check        says what differs: the sentences that the program shows below a status, and docs/statuses.md; the tables of
                                  docs/definitions.md, and what is defined in the files that they name; docs/believe.md, and what contracts and specs/ say; the
                                  list of layers in docs/architecture.md
  tools/documents.py write        writes the words of those tables from the comments in specs/, in each row whose names all have one that can be read by itself,
                                  docs/believe.md, and the list of layers from crates.txt
"""

import re
import sys

import claimed
from checkout import TOP

WORDS = TOP / "crates/fault_words/src"
# The files of sentences that stand in docs/statuses.md between quotation marks.
SENTENCES = ("sentence.rt", "partial.rt", "table.rt", "absent.rt")


def literals(file):
    """The texts between quotation marks of a file of code."""
    code = "\n".join(line for line in file.read_text().splitlines() if not line.lstrip().startswith("//"))
    return re.findall(r'"((?:[^"\\]|\\.)*)"', code)


def status_faults():
    """The sentences of the code that the document lacks, and those of the document's tables that the code lacks."""
    text = (TOP / "docs/statuses.md").read_text()
    said = {it for name in SENTENCES for it in literals(WORDS / name) if " " in it and "{" not in it}
    told = {re.sub(r"\s+", " ", it) for it in re.findall(r'(?<=\| )"([^"]+)"(?= \||;)', text)}
    yield from (f"docs/statuses.md lacks the sentence: {it}" for it in sorted(said) if f'"{it}"' not in re.sub(r"\s+", " ", text))
    yield from (f"docs/statuses.md has a sentence that the program does not say: {it}" for it in sorted(told - said))
    forms = next(it for it in literals(WORDS / "usage.rt") if "\n" in it)
    if "\n".join(f"    {line}" for line in forms.split("\n")) not in text:
        yield "docs/statuses.md has not the commands as the program shows them"


# A comment that cannot be read by itself.
LEANS = re.compile(r"(and|or|so|but|as|its?|they|these|that|those|this|then|the same|all|also|with|without|both|each|not|by|of|r|s|a)\b(?! (?:number|condition|record|path|node|job|packet|report|text|list|set|term|formula))|.{0,14}$", re.IGNORECASE)
# A line of specs/ that defines a name, as a constructor or a field does too.
DEFINES = re.compile(r"\s*(?:(?:pub|abbrev|unfoldable|opaque|data|record|constructor|infix\w*)\s+)*([^\s(){}:,]+)(?=[^:]*\s:(?:\s|$))")


def defined(file):
    """The names that a file of specs/ defines, each with the comment right above it, or nothing."""
    found, comment = {}, []
    for line in file.read_text().splitlines():
        text = line.strip()
        if text.startswith("--"):
            comment = [] if text.startswith("-- --") else [*comment, text[2:].strip()]
            continue
        name = DEFINES.match(line)
        if name:
            found.setdefault(name[1].strip("◌"), " ".join(comment))
        if text and not text.startswith("module "):
            comment = []
    return found


def specs():
    """The files of specs/, by their names from `crates/`."""
    return {str(it.relative_to(TOP / "crates")): it for it in (TOP / "crates").glob("*/specs/*.antt")}


def files_of(cell, section, before, every):
    """The files that a cell names: whole, or by the last part of their names, then of the crates that the section names."""
    found = list(before) if cell.startswith("the same") else []
    for name in re.findall(r"`([^`]+)`", cell):
        named = [it for it in every if it == name or it.startswith(f"{name}/")]
        crates = {it.split("/")[0] for it in found} or set(re.findall(r"`(\w+)[/`]", section))
        found += named or [it for it in every if it.split("/")[0] in crates and it.endswith(f"/{name.split('/')[-1]}")]
    return found


def words_of(comments):
    """The cell of a row, from the comments of its names."""
    text = "; ".join(it.rstrip(".;,") for it in comments).replace("|", "\\|")
    return text[0].upper() + text[1:] + "."


def with_comments(text):
    """docs/definitions.md with the words of each row whose names all have comments that can be read by themselves, and what names are not defined where it says."""
    every, lines, faults = specs(), [], []
    names = {it: defined(file) for it, file in every.items()}
    sections = re.split(r"(?m)^(?=## )", text)
    for section in sections:
        files = []
        for line in section.splitlines():
            lines.append(line)
            cells = [it.strip() for it in re.split(r"(?<!\\)\|", line.strip("|"))]
            if not line.startswith("| `") or ".rt`" in cells[-1]:
                continue
            files = files_of(cells[2] if len(cells) == 3 else section, section, files, every)
            own = [it for it in re.findall(r"`([^`]+)`", cells[0]) if not (TOP / "crates" / it).is_dir()]
            found = {it: [names[file][it] for file in files if it in names[file]] for it in own}
            faults += [f"{section.splitlines()[0][3:]}: `{it}` is not defined in {', '.join(files) or cells[-1]}" for it in own if not found[it]]
            said = [next(filter(None, found[it]), "") for it in own]
            if all(it and not LEANS.match(it) for it in said) and len({*own}) == cells[0].count("`") // 2 and re.fullmatch(r"[`\w, ;◌⨾]*", cells[0]):
                cells[1] = words_of(said)
                lines[-1] = f"| {' | '.join(cells)} |"
    return "\n".join(lines) + "\n", faults


def definition_faults():
    """The names in the tables of docs/definitions.md that no file there defines, and rows that are not what the comments say."""
    text = (TOP / "docs/definitions.md").read_text()
    made, faults = with_comments(text)
    yield from (f"docs/definitions.md, {it}" for it in faults)
    for old, new in zip(text.splitlines(), made.splitlines()):
        if old != new:
            yield f"docs/definitions.md: a row is not what the comments in specs/ say (documents.py write): {old[:80]}"


# The section of docs/architecture.md that lists the crates, up to the next one.
LAYERS = re.compile(r"(?ms)(?<=^## The crates of each layer\n\n).*?(?=^## )")


def layers():
    """The crates of each layer, as crates.txt has them: a list of lists."""
    lines, said = ["From the lowest layer up, as `crates.txt` has them.", ""], ""
    for line in (TOP / "crates.txt").read_text().splitlines()[1:]:
        crate = re.match(r"(\w+)(?: staticlib)?:", line)
        if line.startswith("#   "):
            said = line[4:]
        elif line.startswith("# "):
            lines.append(f"- **{line[2:3].upper()}{line[3:]}**")
        elif crate:
            lines.append(f"  - `{crate[1]}`: {said}")
    return "\n".join(lines) + "\n\n"


def with_layers(text):
    """docs/architecture.md with the crates of each layer as crates.txt has them."""
    return LAYERS.sub(lambda _: layers(), text)


def layer_faults():
    """That the list of crates in docs/architecture.md is not that of crates.txt."""
    text = (TOP / "docs/architecture.md").read_text()
    if not LAYERS.search(text) or with_layers(text) != text:
        yield "docs/architecture.md: the crates of each layer are not those of crates.txt (documents.py write)"


def main(words):
    if words == ["write"]:
        for name, made in (("definitions", lambda text: with_comments(text)[0]), ("architecture", with_layers)):
            file = TOP / f"docs/{name}.md"
            file.write_text(made(file.read_text()))
        return claimed.main(["write"])
    if words != ["check"]:
        print(__doc__)
        return 2
    faults = [*status_faults(), *definition_faults(), *claimed.faults(), *layer_faults()]
    for it in faults:
        print(f"documents: {it}")
    print(f"documents: {len(faults)} faults" if faults else "documents: they agree with the code")
    return 1 if faults else 0


if __name__ == "__main__":
    sys.exit(main(sys.argv[1:]))
