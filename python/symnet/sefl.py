"""The canonical text of jobs and of their parts (docs/grammar.md, "Canonical text"): a text is read by its grammar and printed, as the program prints it.

What a job must keep besides, as the names of boxes and the numbers of ports, is the program's to say.
"""

from typing import Callable, List, Tuple

from .fields import number_of
from .inputs import DEEPEST, NotInput, Tokens
from .shape import Made

_RELATIONS = ("==", "!=", "<=", ">=", "<", ">")
_INDENT = "  "


class Printer:
    """Reads a text from front to back, and returns the lines or the words of each part."""

    def __init__(self, text: str):
        self.tokens, self.depth, self.is_first = Tokens(text), 0, False

    # ------------------------------------------------ words

    def name(self) -> str:
        word = self.tokens.next()
        if not (word.isascii() and word.isidentifier()):
            raise self.fault(f"'{word}' where a name should stand")
        return word

    def number(self) -> str:
        word = self.tokens.next()
        if not word[0].isdigit():
            raise self.fault(f"'{word}' where a number should stand")
        try:
            return str(number_of(word))
        except ValueError:
            raise self.fault("a number that is too long") from None

    def text(self) -> str:
        word = self.tokens.next()
        if not word.startswith('"') or any(letter < " " or letter == "\x7f" for letter in word):
            raise self.fault(f"'{word}' where a text should stand")
        return word

    def one_of(self, *words: str) -> str:
        word = self.tokens.next()
        if word not in words:
            raise self.fault(f"'{word}' where {' or '.join(repr(it) for it in words)} should stand")
        return word

    def fault(self, what: str) -> NotInput:
        return NotInput(f"no job: {what}, in line {self.tokens.line()}")

    def has(self, *words: str) -> bool:
        return self.tokens.peek() in words

    def skip(self, word: str) -> bool:
        """Takes the word, if it is the next one."""
        if self.tokens.peek() != word:
            return False
        self.tokens.next()
        return True

    def nested(self, read: Callable[[], Made]) -> Made:
        """A part inside another one."""
        self.depth += 1
        if self.depth > DEEPEST:
            raise self.fault("it nests too deep")
        try:
            return read()
        finally:
            self.depth -= 1

    # ------------------------------------------------ references, expressions, conditions

    def offset(self) -> str:
        """An offset with its sign."""
        sign = self.tokens.next() if self.has("+", "-") else "+"
        number = self.number()
        return number if sign == "+" or number == "0" else f"-{number}"

    def address(self) -> str:
        if self.has("-") or self.tokens.peek()[:1].isdigit():
            return self.offset()
        name = self.name()
        if not self.has("+", "-"):
            raise self.fault("a tag without an offset")
        offset = self.offset()
        return f"{name}{'' if offset.startswith('-') else '+'}{offset}"

    def target(self) -> str:
        word = self.one_of("head", "global", "local", "$")
        what = f"head {self.address()}" if word == "head" else f"${self.name()}" if word == "$" else f"{word} {self.name()}"
        self.one_of(":")
        return f"{what}:{self.number()}"

    def operand(self) -> Tuple[str, bool]:
        """A part of a sum, and whether it is a sum itself."""
        if not self.skip("("):
            return (self.number() if self.tokens.peek()[:1].isdigit() else self.target()), False
        text, is_sum = self.nested(self.sum)
        self.one_of(")")
        return text, is_sum

    def sum(self) -> Tuple[str, bool]:
        first, is_sum = self.operand()
        if not self.has("+", "-"):
            return first, is_sum
        words = [f"({first})" if is_sum else first]
        while self.has("+", "-"):
            sign = self.tokens.next()
            part, is_sum = self.operand()
            words += [sign, f"({part})" if is_sum else part]
        return " ".join(words), True

    def ranges(self) -> str:
        self.one_of("{")
        found = []
        while not found or self.skip(","):
            low = self.number()
            high = self.number() if self.skip("..") else low
            found.append(low if low == high else f"{low}..{high}")
        self.one_of("}")
        return f"{{{', '.join(found)}}}"

    def condition(self) -> str:
        return self.chain("or")[0]

    def chain(self, word: str) -> Tuple[str, str]:
        """Members with `or` or with `and` between them, and the word of the condition: of its own where it has several members."""
        read = (lambda: self.chain("and")) if word == "or" else self.negation
        members = [read()]
        while self.skip(word):
            members.append(read())
        if len(members) == 1:
            return members[0]
        inner = ("or",) if word == "or" else ("and", "or")
        return f" {word} ".join(f"[{text}]" if kind in inner else text for text, kind in members), word

    def negation(self) -> Tuple[str, str]:
        if self.skip("not"):
            text, kind = self.nested(self.negation)
            return f"not {f'[{text}]' if kind in ('and', 'or') else text}", "not"
        if self.skip("true"):
            return "true", ""
        if self.skip("["):
            text, kind = self.nested(lambda: self.chain("or"))
            self.one_of("]")
            return text, kind
        left, _ = self.sum()
        if self.skip("in"):
            return f"{left} in {self.ranges()}", ""
        relation = self.one_of(*_RELATIONS)
        return f"{left} {relation} {self.sum()[0]}", ""

    # ------------------------------------------------ instructions

    def block(self) -> List[str]:
        """The lines of a block, without its braces."""
        self.one_of("{")
        lines: List[str] = []
        while not self.skip("}"):
            lines += self.nested(self.instruction)
        return [f"{_INDENT}{line}" for line in lines]

    def instruction(self) -> List[str]:
        if self.has("{"):
            return ["{", *self.block(), "}"]
        word = self.tokens.next()
        if word == "if":
            lines = [f"if {self.condition()} {{", *self.block(), "} else {"]
            self.one_of("else")
            return [*lines, *self.block(), "}"]
        if word == "for":
            name = self.name()
            self.one_of("in")
            return [f"for {name} in {self.text()} {{", *self.block(), "}"]
        line = self.statement(word)
        self.one_of(";")
        return [f"{line};"]

    def statement(self, word: str) -> str:
        """An instruction without blocks, behind its word."""
        if word in ("allocate", "deallocate"):
            return f"{word} {self.target()}"
        if word == "set":
            target = self.target()
            self.one_of("=")
            return f"set {target} = {'any' if self.skip('any') else self.sum()[0]}"
        if word in ("tag", "retag"):
            # in a text of version 1 `tag` sets the tag
            name = self.name()
            self.one_of("=")
            return f"{'retag' if self.is_first else word} {name} = {self.address()}"
        if word == "fork":
            return f"fork {self.ports()}".rstrip()
        simple = {"untag": self.name, "constrain": self.condition, "fail": self.text, "forward": self.number}
        if word in simple:
            return f"{word} {simple[word]()}"
        if word == "noop":
            return word
        raise self.fault(f"'{word}' where an instruction should stand")

    def ports(self) -> str:
        found = [self.number()] if not self.has(";") else []
        while found and self.skip(","):
            found.append(self.number())
        return ", ".join(found)

    # ------------------------------------------------ nets and jobs

    def port(self) -> str:
        name = self.name()
        self.one_of(".")
        return f"{name}.{self.number()}"

    def place(self) -> str:
        return f"{self.one_of('in', 'out')} {self.port()}"

    def node(self) -> List[str]:
        self.one_of("node")
        name = self.name()
        if self.skip("="):
            kind, file, style = self.one_of("mac", "fib"), self.text(), self.one_of("chain", "grouped", "egress")
            self.one_of(";")
            return [f"node {name} = {kind} {file} {style};"]
        inputs = self.number()
        self.one_of("->")
        lines = [f"node {name} {inputs} -> {self.number()} {{"]
        self.one_of("{")
        while not self.skip("}"):
            heading = f"{self.one_of('in', 'out')} {self.number()} {{"
            lines += [f"{_INDENT}{line}" for line in (heading, *self.block(), "}")]
        return [*lines, "}"]

    def link(self) -> str:
        self.one_of("link")
        source = self.port()
        self.one_of("->")
        line = f"link {source} -> {self.port()};"
        self.one_of(";")
        return line

    def net(self) -> List[str]:
        lines: List[str] = []
        while self.has("node"):
            lines += self.node()
        while self.has("link"):
            lines.append(self.link())
        return lines

    def injection(self) -> List[str]:
        self.one_of("inject")
        lines = [f"inject {self.port()} {{"]
        self.one_of("{")
        for word, read in (("tag", self.tag), ("field", self.field), ("where", self.condition)):
            while self.skip(word):
                lines.append(f"{_INDENT}{word} {read()};")
                self.one_of(";")
        self.one_of("}")
        return [*lines, "}"]

    def tag(self) -> str:
        name = self.name()
        self.one_of("=")
        return f"{name} = {self.address()}"

    def field(self) -> str:
        target = self.target()
        return f"{target} = {self.number()}" if self.skip("=") else target

    def question(self) -> str:
        """A question, without its `ask` and its semicolon."""
        word = self.one_of("reach", "invariant", "visible")
        if word != "reach":
            target = self.target()
            self.one_of("at")
            return f"{word} {target} at {self.place()}"
        place = self.place()
        test = self.condition() if self.skip("with") else "true"
        return f"reach {place}" if test == "true" else f"reach {place} with {test}"

    def job(self) -> List[str]:
        self.one_of("symnet")
        self.is_first = self.one_of("1", "2") == "1"
        self.one_of(";")
        lines = ["symnet 2;", *self.net(), *self.injection()]
        while self.skip("ask"):
            lines.append(f"ask {self.question()};")
            self.one_of(";")
        return lines

    def end(self) -> None:
        if self.tokens.peek():
            raise self.fault(f"'{self.tokens.next()}' where it should end")


def _whole(text: str, read: Callable[[Printer], List[str]]) -> List[str]:
    printer = Printer(text)
    lines = read(printer)
    printer.end()
    return lines


def canonical(job: str) -> str:
    """The canonical text of a job; NotInput where the text is none by the grammar."""
    return "\n".join([*_whole(job, Printer.job), ""])


def canonical_net(net: str) -> str:
    """The canonical text of nodes and links."""
    return "\n".join([*_whole(net, Printer.net), ""])


def net_lines(net: str) -> Tuple[List[str], List[str]]:
    """The canonical lines of nodes, and those of links."""
    lines = _whole(net, Printer.net)
    count = next((at for at, line in enumerate(lines) if line.startswith("link ")), len(lines))
    return lines[:count], lines[count:]


def code_lines(code: str) -> List[str]:
    """The canonical lines of a port's instructions."""
    return [line[len(_INDENT):] for line in _whole(f"{{{code}\n}}", Printer.block)]


def condition_text(condition: str) -> str:
    return _whole(condition, lambda it: [it.condition()])[0]


def target_text(target: str) -> str:
    return _whole(target, lambda it: [it.target()])[0]


def address_text(address: str) -> str:
    return _whole(address, lambda it: [it.address()])[0]


def place_text(place: str) -> str:
    return _whole(place, lambda it: [it.port()])[0]


def question_text(question: str) -> str:
    return _whole(question, lambda it: [it.question()])[0]


def name_text(name: str) -> str:
    return _whole(name, lambda it: [it.name()])[0]
