"""The texts of a release that are made: the manual page, the completions of three shells, the control file of the Debian package, the script beside the program,
and the file of checksums. What they say of commands and options comes from the forms of usage, the README's table of commands and docs/statuses.md."""

import re
from dataclasses import dataclass
from typing import Dict, List

from checkout import TOP
from usage_forms import Form, Option, Usage

TITLE = "symbolic execution of SEFL network models"
# The script that is called by name: it answers what the program does not know.
WRAPPER = """#!/bin/sh
# Answers --version, and hands all other words to the program.
here=$(dirname "$(readlink -f "$0")")
if [ $# -eq 1 ] && [ "$1" = --version ]; then
    exec cat "$here/../lib/symnet/version"
fi
exec "$here/../lib/symnet/symnet" "$@"
"""


@dataclass(frozen=True)
class Facts:
    """What was proved, and by what: the version, the commit with its day, its author as `NAME <ADDRESS>`, the kit, and the last line of the gate."""

    version: str
    commit: str
    day: str
    author: str
    kit: str
    gate: str

    @property
    def line(self) -> str:
        """What `symnet --version` says."""
        return f"symnet {self.version}, commit {self.commit[:12]}, proved"


# ---- what documents say of commands and statuses


def rows(text: str, heading: str) -> List[List[str]]:
    """The cells of the first table below a heading, without its head."""
    section = text.partition(f"\n## {heading}\n")[2]
    lines = re.search(r"(?m)^\|.*\n(?:\|.*\n)+", section)
    assert lines, f"no table below {heading}"
    return [[it.strip() for it in re.split(r"(?<!\\)\|", line.strip("|"))] for line in lines[0].splitlines()[2:]]


def plain(text: str) -> str:
    """A text without the marks of Markdown."""
    return re.sub(r"\[([^]]*)\]\([^)]*\)", r"\1", text).replace("`", "").replace("\\|", "|")


def summaries() -> Dict[str, str]:
    """What each command writes, by its name; for one with two forms the first."""
    found: Dict[str, str] = {}
    for cells in rows((TOP / "README.md").read_text(), "The commands"):
        for named in re.findall(r"`([^`]+)`", cells[0]):
            found.setdefault(" ".join(it for it in named.split() if it.islower()), plain(cells[1]))
    return found


def first_words(of: Usage) -> Dict[str, str]:
    """The first word of each command, with what it writes."""
    told, found = summaries(), {}
    for form in of.forms:
        texts = [told[" ".join(it.name)] for it in of.forms if it.name[0] == form.name[0]]
        found[form.name[0]] = "; ".join(dict.fromkeys(texts))
    return found


def statuses() -> List[List[str]]:
    """The number of each status, and where it comes, without the words of its text."""
    return [[cells[0], re.sub(r"; [A-Z]+ .*", "", plain(cells[2]))] for cells in rows((TOP / "docs/statuses.md").read_text(), "The statuses")]


# ---- the manual page


def roff(text: str) -> str:
    """A text as a line of a manual page."""
    text = text.replace("\\", "\\e").replace("-", "\\-")
    return f"\\&{text}" if text.startswith((".", "'")) else text


def synopsis(form: Form) -> str:
    """A command with all that may stand behind it."""
    places = [it if number < form.least else f"[{it}]" for number, it in enumerate(form.places)]
    return " ".join(["symnet", *form.name, *places, *(f"[{it.flag} {it.value}]" for it in form.options.values())])


def options(of: Usage) -> List[Option]:
    """Each option once, with the most words that it takes."""
    found: Dict[str, Option] = {}
    for form in of.forms:
        for flag, option in form.options.items():
            if flag not in found or len(found[flag].words) < len(option.words):
                found[flag] = option
    return list(found.values())


def taken(option: Option) -> str:
    """What an option is for, what it takes, and what it is where it is not given."""
    number = [f"a number from 1 to {option.most:,}"] if option.most else []
    return f"{option.about}: {' or '.join([*number, *option.words])}; {option.usual} where it is not given"


def manual(of: Usage, facts: Facts) -> str:
    """The manual page, symnet(1)."""
    told = summaries()
    lines = [f'.TH SYMNET 1 "{facts.day}" "SymNet {facts.version}" "User Commands"', ".SH NAME", f"symnet \\- {roff(TITLE)}", ".SH SYNOPSIS"]
    lines += [it for form in of.forms for it in (f".B {roff(synopsis(form))}", ".br")]
    lines += [".B symnet \\-\\-version", ".SH DESCRIPTION"]
    lines += [roff("symnet executes networks of boxes, which are written in SEFL, for all packets that meet a job's injection. The program is proved: commit "
                   f"{facts.commit[:12]}, by {facts.kit}."), ".SH COMMANDS"]
    for form in of.forms:
        lines += [".TP", f".B {roff(' '.join(form.name))}", roff(f"writes {told[' '.join(form.name)]}.")]
    lines.append(".SH OPTIONS")
    for option in options(of):
        lines += [".TP", f".B {roff(f'{option.flag} {option.value}')}", roff(f"{taken(option)}.")]
    lines += [".TP", ".B \\-\\-version", "says the version and the commit, and that the program is proved."]
    lines += [it for note in of.notes for it in (".PP", roff(f"{note[0].upper()}{note[1:]}."))]
    lines.append(".SH EXIT STATUS")
    for number, where in statuses():
        lines += [".TP", f".B {number}", roff(where)]
    lines += [".SH SEE ALSO", roff("The documents and the examples stand in share/doc/symnet and share/symnet of the release, and the page with the engine inside in share/symnet/symnet.html.")]
    return "\n".join(lines) + "\n"


# ---- completions


def kinds(of: Usage) -> Dict[str, List[str]]:
    """The second words of each command that has some."""
    found: Dict[str, List[str]] = {}
    for form in of.forms:
        if len(form.name) == 2:
            found.setdefault(form.name[0], []).append(form.name[1])
    return found


def bash(of: Usage) -> str:
    """The completion of bash. It splits `--hops=5` at the sign."""
    lines = ["# Completion of symnet for bash.", "_symnet() {", "    local word=${COMP_WORDS[COMP_CWORD]} flag=${COMP_WORDS[COMP_CWORD - 1]} command=${COMP_WORDS[1]} given=",
             "    [ \"$flag\" = = ] && flag=${COMP_WORDS[COMP_CWORD - 2]}", "    [ \"$word\" = = ] && word=", "    COMPREPLY=()",
             "    if [ \"$COMP_CWORD\" -eq 1 ]; then", f"        COMPREPLY=($(compgen -W '{' '.join(first_words(of))} --help --version' -- \"$word\"))", "        return", "    fi"]
    for name, words in kinds(of).items():
        lines += [f"    if [ \"$command\" = {name} ]; then", "        if [ \"$COMP_CWORD\" -eq 2 ]; then", f"            COMPREPLY=($(compgen -W '{' '.join(words)}' -- \"$word\"))",
                  "            return", "        fi", "        command=\"$command ${COMP_WORDS[2]}\"", "    fi"]
    lines.append("    case \"$command $flag\" in")
    for form in of.forms:
        for option in form.options.values():
            lines.append(f"    '{' '.join(form.name)} {option.flag}') COMPREPLY=($(compgen -W '{' '.join(option.words)}' -- \"$word\")); return ;;")
    lines += ["    esac", "    case \"$command\" in"]
    lines += [f"    '{' '.join(form.name)}') given='{' '.join(form.options)}' ;;" for form in of.forms]
    lines += ["    esac", "    case $word in", "    -*) COMPREPLY=($(compgen -W \"$given\" -- \"$word\")) ;;", "    *) COMPREPLY=($(compgen -f -- \"$word\")) ;;", "    esac", "}",
              "complete -o filenames -F _symnet symnet", ""]
    return "\n".join(lines)


def quoted(text: str) -> str:
    """A text between single quotes, for zsh."""
    return "'" + text.replace("'", "'\\''") + "'"


def fish_quoted(text: str) -> str:
    """A text between single quotes, for fish."""
    return "'" + text.replace("\\", "\\\\").replace("'", "\\'") + "'"


def bracketed(text: str) -> str:
    """A text that may stand in a specification of zsh."""
    return re.sub(r"([][:])", r"\\\1", text)


def zsh_words(form: Form) -> List[str]:
    """What _arguments of zsh is given for a command."""
    found = []
    for option in form.options.values():
        says = f"{option.flag}=[{bracketed(option.about)}]:{option.value}:"
        found.append(quoted(f"{says}({' '.join(option.words)})" if option.words else says))
    for number, place in enumerate(form.places):
        found.append(quoted(f"{':' if number < form.least else '::'}{place}:{'' if place in ('SEED', 'NODES') else '_files'}"))
    return found


def zsh(of: Usage) -> str:
    """The completion of zsh."""
    lines = ["#compdef symnet", "_symnet() {", "    local command=$words[2]", "    local -a names", "    if (( CURRENT == 2 )); then", "        names=("]
    for name, told in first_words(of).items():
        lines.append(f"            {quoted(f'{name}:{bracketed(told)}')}")
    lines += ["        )", "        _describe command names", "        return", "    fi"]
    for name, words in kinds(of).items():
        lines += [f"    if [[ $command == {name} ]]; then", "        if (( CURRENT == 3 )); then", f"            compadd {' '.join(words)}", "            return", "        fi",
                  "        command=\"$command $words[3]\"", "        shift words", "        (( CURRENT-- ))", "    fi"]
    lines += ["    shift words", "    (( CURRENT-- ))", "    case $command in"]
    for form in of.forms:
        lines.append(f"    {quoted(' '.join(form.name))}) _arguments {' '.join(zsh_words(form))} ;;")
    lines += ["    esac", "}", "_symnet \"$@\"", ""]
    return "\n".join(lines)


def fish(of: Usage) -> str:
    """The completion of fish."""
    lines = ["# Completion of symnet for fish.", "complete -c symnet -f", "complete -c symnet -n __fish_use_subcommand -l version -d 'the version and the commit'"]
    for name, told in first_words(of).items():
        lines.append(f"complete -c symnet -n __fish_use_subcommand -a {name} -d {fish_quoted(told)}")
    for name, words in kinds(of).items():
        lines.append(f"complete -c symnet -n '__fish_seen_subcommand_from {name}; and not __fish_seen_subcommand_from {' '.join(words)}' -a {fish_quoted(' '.join(words))}")
    for form in of.forms:
        seen = fish_quoted("; and ".join(f"__fish_seen_subcommand_from {it}" for it in form.name))
        for option in form.options.values():
            words = f" -a {fish_quoted(' '.join(option.words))}" if option.words else ""
            lines.append(f"complete -c symnet -n {seen} -l {option.flag[2:]} -x{words} -d {fish_quoted(option.about)}")
        if form.places[0] not in of.ranges:
            lines.append(f"complete -c symnet -n {seen} -F")
    return "\n".join(lines) + "\n"


# ---- the package and the checksums


def control(facts: Facts, kilobytes: int, libc: str) -> str:
    """The control file of the Debian package."""
    return (f"Package: symnet\nVersion: {facts.version}\nArchitecture: amd64\nMaintainer: {facts.author}\nInstalled-Size: {kilobytes}\nDepends: libc6 (>= {libc})\n"
            f"Section: net\nPriority: optional\nDescription: {TITLE}\n The program tells every way that a packet with unknown fields can take through a network of boxes. It is\n"
            f" proved: commit {facts.commit}.\n")


def libc_of(program: bytes) -> str:
    """The version of the C library that a program wants."""
    found = re.findall(rb"GLIBC_(\d+)\.(\d+)", program)
    return ".".join(str(it) for it in max((int(major), int(minor)) for major, minor in found)) if found else "2.2"


def sums(facts: Facts, files: Dict[str, str]) -> str:
    """What was proved, and the sum of each file, as `sha256sum -c` reads it."""
    head = [f"SymNet {facts.version}", f"commit {facts.commit}, {facts.day}", f"proved by {facts.kit}", f"the last line of the gate: {facts.gate}"]
    return "".join([*(f"# {it}\n" for it in head), *(f"{of}  {name}\n" for name, of in files.items())])
