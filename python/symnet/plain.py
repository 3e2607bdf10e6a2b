"""Text as a terminal may show it: what strangers wrote, as comments of a job, messages of a report or names of files, is shown without its control characters."""

import re
import textwrap
from typing import Iterable, List, Optional

# What moves the cursor, ends a line or turns the direction of the text, as the program has it for names (crates/fault_places/src/plain.rt): control characters,
# separators of lines and paragraphs, marks of direction (Unicode, Bidi_Control). Halves of a pair of UTF-16, which JSON may write, are no text.
_UNSEEN = re.compile("[\0-\x1f\x7f-\x9f\u061c\u200e\u200f\u2028-\u202e\u2066-\u2069\ud800-\udfff]")


def plain(text: str) -> str:
    """The text with a question mark for each such character, the line end among them."""
    return _UNSEEN.sub("?", text)


def laid_out(lines: Iterable[str]) -> str:
    """The lines as they are printed: each is plain, and line ends stand between them alone."""
    return "\n".join(map(plain, lines))


def wrapped(line: str, width: Optional[int]) -> List[str]:
    """A line as lines of at most this width, where a word is not wider: those behind the first stand two blanks deeper."""
    if width is None or len(line) <= width:
        return [line]
    begin = line[:len(line) - len(line.lstrip(" "))]
    return textwrap.wrap(line.strip(" "), max(width, len(begin) + 20), initial_indent=begin, subsequent_indent=f"{begin}  ", break_long_words=False, break_on_hyphens=False) or [line]
