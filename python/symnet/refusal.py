"""What is raised where a command does not write its text."""

import re
from typing import List, Optional, Tuple, Type

from .library import Ended

DONE, PARTIAL = 0, 12
_PLACE = re.compile(r"(.*):(\d+):(\d+):?")


class Refusal(Exception):
    """A command ended with a status other than those that write a whole text.

    `status` is its number and `text` its line (docs/statuses.md). `file`, `line` and `column` say where in a text the fault is, as far as the status
    blames a place of one; lines and columns count from 1, columns in bytes. `excerpt` has that line of the text with a caret below it, and `sentence`
    says in words what is wrong and what to do. `written` is what was written all the same, a beginning of the text: nothing as a rule.
    """

    def __init__(self, ended: Ended):
        super().__init__(ended.message.rstrip("\n") or f"status {ended.status}")
        self.ended = ended
        self.status, self.written = ended.status, ended.output
        lines = ended.message.split("\n")
        self.text = lines[0]
        self.file: Optional[str] = None
        self.line: Optional[int] = None
        self.column: Optional[int] = None
        self.excerpt = ""
        self.sentence = "\n".join(self._take_place(lines[1:])).rstrip("\n")

    def __reduce__(self) -> Tuple[Type["Refusal"], Tuple[Ended]]:
        """As it is made, so that it comes out of another process as it went in."""
        return Refusal, (self.ended,)

    def _take_place(self, lines: List[str]) -> List[str]:
        """Takes the place from the first of the lines, where it is one, and returns the others."""
        found = _PLACE.fullmatch(lines[0]) if lines else None
        if not found:
            return lines
        self.file, self.line, self.column = found[1], int(found[2]), int(found[3])
        has_caret = len(lines) > 2 and lines[2].strip() == "^"
        self.excerpt = "\n".join(lines[1:3]) if has_caret else ""
        return lines[3:] if has_caret else lines[1:]


def written(ended: Ended) -> bytes:
    """The whole text that was written; Refusal where there is none."""
    if ended.status in (DONE, PARTIAL):
        return ended.output
    raise Refusal(ended)
