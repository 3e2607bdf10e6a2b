#!/usr/bin/env python3
"""The forms of a command line, read from the text that the program shows of them, and whether words have one of these forms.

    tools/usage_forms.py WORDS      says what the program would say of words without a reading, of a file that is not there, and of words that ask for help, and
                                    ends with the program's status; says nothing, and ends with 0, where the program has to be run

So the script at the top refuses such words before it builds anything. The manual page and the completions of a release are made of the same forms.
"""

import os
import re
import sys
from dataclasses import dataclass, field
from pathlib import Path
from typing import Dict, List, Optional, Tuple

from checkout import TOP

WORDS = TOP / "crates/fault_words/src"
DONE, USAGE, NO_FILE, CANNOT_READ = 0, 2, 3, 4
# The words that ask for help.
HELP = ("--help", "-h")


@dataclass(frozen=True)
class Option:
    """An option: what stands for its value in the forms, the words that it takes, the most that its number may be (0 where it takes none), what it is for, and
    what it is where it is not given."""

    flag: str
    value: str
    words: Tuple[str, ...]
    most: int
    about: str
    usual: str


@dataclass
class Form:
    """A command: its name, of one word or two, what stands behind it, and its options."""

    name: Tuple[str, ...]
    places: List[str] = field(default_factory=list)
    # how many of the places must be there
    least: int = 0
    options: Dict[str, Option] = field(default_factory=dict)


@dataclass(frozen=True)
class Usage:
    """All of it: the text as the program shows it, the commands, the least and the most of places that are numbers, and what holds for all commands."""

    text: str
    forms: List[Form]
    ranges: Dict[str, Tuple[int, int]]
    notes: List[str]


def constant(file: Path, name: str) -> str:
    """The text of a constant of the code."""
    found = re.search(rf'(?s)\bconst {name}: &str =\s*"(.*?)";', file.read_text())
    assert found, f"{file} has no text {name}"
    return found[1]


def number(text: str) -> int:
    return int(text.replace(",", ""))


def described(lines: List[str]) -> Dict[Tuple[str, str], Tuple[int, str, str]]:
    """The most of each option, what it is for, and what it is where it is not given; of an option that has a line of its own for some commands, also by their names."""
    found = {}
    for line in lines:
        read = re.fullmatch(r"(--\w+)[^:]*?(?: of ([\w, ]+))?: (.*?)(?:, 1 to ([\d,]+))? \((\S+)(?: where it is not given)?\)", line)
        if read:
            for name in re.findall(r"\w+", (read[2] or "").replace(" and ", " ")) or [""]:
                found[read[1], name] = number(read[4] or "0"), read[3], read[5]
    return found


def form(line: str, about: Dict[Tuple[str, str], Tuple[int, str, str]]) -> List[Form]:
    """The commands of a line of the forms: several where it has alternatives of the second word."""
    _, name, *rest = re.findall(r"\[[^]]*\]|\S+", line)
    kinds = rest.pop(0).split("|") if rest[0][0].islower() else []
    places, least, options = [], 0, {}
    for it in rest:
        flag, _, value = it.strip("[]").partition(" ")
        if value:
            most, says, usual = about.get((flag, name)) or about[flag, ""]
            options[flag] = Option(flag, value, tuple(word for word in value.split("|") if word != "N"), most, says, usual)
        else:
            places.append(flag)
            least += not it.startswith("[")
    return [Form((name, *kind), places, least, options) for kind in ([(it,) for it in kinds] or [()])]


def usage(text: Optional[str] = None) -> Usage:
    """The forms of a text, or of that of the program."""
    text = constant(WORDS / "usage.rt", "FORMS") if text is None else text
    lines = text.splitlines()
    about = described(lines)
    forms = [it for line in lines if line.startswith("symnet ") for it in form(line, about)]
    ranges = {name: (number(least), number(most)) for name, least, most in re.findall(r"\b([A-Z]+): ([\d,]+) to ([\d,]*\d)", text)}
    notes = [line for line in lines if not line.startswith(("symnet ", "--")) and not any(line.startswith(f"{name}:") for name in ranges)]
    return Usage(text, forms, ranges, notes)


# ---- whether words have a form


# The most characters of a word that are shown, as the program has it.
MOST_LETTERS = 100


class Wrong(Exception):
    """A word, and what is wrong with it; of a long one its beginning is shown."""

    def __init__(self, word: str, why: str) -> None:
        super().__init__(f"`{word[:MOST_LETTERS]}{'..' if len(word) > MOST_LETTERS else ''}`: {why}")


def any_of(words: List[str], last: str = "or") -> str:
    """The words as a sentence has them."""
    return f" {last} ".join(it for it in (", ".join(words[:-1]), words[-1]) if it)


def is_number(word: str, least: int, most: int) -> bool:
    return re.fullmatch("[0-9]{1,20}", word) is not None and least <= int(word) <= most


def takes(option: Option, forms: List[Form]) -> str:
    """What the option takes, in words."""
    if option.most:
        return ", or ".join([f"{option.flag} takes a number from 1 to {option.most:,}", *option.words])
    is_narrow = any(len(it.options[option.flag].words) > len(option.words) for it in forms if option.flag in it.options)
    return f"{option.flag} takes {any_of(list(option.words))}{' here' if is_narrow else ''}"


def check_value(option: Option, word: str, forms: List[Form]) -> None:
    if word not in option.words and not is_number(word, 1, option.most):
        raise Wrong(word, takes(option, forms))


def check_place(place: str, word: str, ranges: Dict[str, Tuple[int, int]]) -> None:
    if place in ranges and not is_number(word, *ranges[place]):
        least, most = ranges[place]
        raise Wrong(word, f"{place} is a number from {least:,} to {most:,}")


def command_of(words: List[str], forms: List[Form]) -> Form:
    """The command that the first words name."""
    named = [it for it in forms if it.name[0] == words[0]]
    if not named:
        raise Wrong(words[0], "there is no such command")
    if len(named[0].name) == 1:
        return named[0]
    kinds = any_of([it.name[1] for it in named])
    if len(words) == 1:
        raise Wrong(words[0], f"behind it stands {kinds}")
    found = next((it for it in named if it.name[1] == words[1]), None)
    if found is None:
        raise Wrong(words[1], f"behind `{words[0]}` stands {kinds}")
    return found


def placed(words: List[str], of: Usage) -> Dict[str, str]:
    """What stands at each place of the command; raises Wrong for the first word that is."""
    command = command_of(words, of.forms)
    found: Dict[str, str] = {}
    given, is_plain = set(), False
    rest = iter(words[len(command.name):])
    for word in rest:
        if not is_plain and word == "--":
            is_plain = True
        elif not is_plain and word.startswith("--"):
            flag, has_value, value = word.partition("=")
            if flag not in command.options:
                raise Wrong(flag, "the command has no such option")
            if flag in given:
                raise Wrong(flag, "the option is given twice")
            given.add(flag)
            value = value if has_value else next(rest, "--")
            if not has_value and value.startswith("--"):
                raise Wrong(flag, "its value is missing")
            check_value(command.options[flag], value, of.forms)
        elif not is_plain and word.startswith("-"):
            raise Wrong(word, "no word begins with one dash; a file of such a name stands behind `--`")
        elif len(found) == len(command.places):
            raise Wrong(word, "the command takes no further file")
        else:
            place = command.places[len(found)]
            check_place(place, word, of.ranges)
            found[place] = word
    if len(found) < command.least:
        raise Wrong(command.name[-1], f"{command.places[len(found)]} is missing behind it")
    return found


def shown(text: str) -> str:
    """A text from outside, as a terminal may be shown it."""
    return "".join(it if it.isprintable() else "?" for it in text)


def refusal(words: List[str]) -> Tuple[int, str]:
    """The status of words for which the program need not be run, and what is shown of them; 0 for all others."""
    of = usage()
    if not words or words[0] in HELP:
        return USAGE, f"symnet: usage\n{of.text}\n"
    try:
        files = {place: name for place, name in placed(words, of).items() if place not in of.ranges}
    except Wrong as wrong:
        return USAGE, f"symnet: usage\n{shown(str(wrong))}\n{of.text}\n"
    for name in files.values():
        if not os.path.exists(name):
            return NO_FILE, f"symnet: no file {shown(name)}\n{constant(WORDS / 'absent.rt', 'OF_WORDS')}\n"
        if os.path.isdir(name):
            return CANNOT_READ, f"symnet: cannot read {shown(name)}\nit is a folder, or its rights do not let it be read\n"
    return DONE, ""


def main(words: List[str]) -> int:
    status, text = refusal(words)
    sys.stderr.write(text)
    return status


if __name__ == "__main__":
    sys.exit(main(sys.argv[1:]))
