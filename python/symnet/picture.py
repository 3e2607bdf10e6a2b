"""The page of viewer/index.html with what was written inside, as a notebook shows it."""

import html
import json
from dataclasses import dataclass
from pathlib import Path
from typing import Dict, Optional

_HERE = Path(__file__).resolve().parent
# Where the page is: beside this file, where an installed package has it, else in a checkout.
PLACES = (_HERE / "page.html", _HERE.parents[1] / "viewer/index.html")
# The comment of the page in whose place a script may stand.
_PLACE = "<!-- desk:"
# How many bytes of text a notebook is given at most, and how high the page is there.
MOST = 4 << 20
HEIGHT = 520


@dataclass(frozen=True)
class Texts:
    """The texts that the page shows together, each under its name, and those of the second network of a comparison."""

    files: Dict[str, bytes]
    others: Dict[str, bytes]

    def size(self) -> int:
        return sum(len(text) for it in (self.files, self.others) for text in it.values())


def page(texts: Texts) -> Optional[str]:
    """The page that shows these texts and reads nothing else; None where the page is not there."""
    place = next((it for it in PLACES if it.is_file()), None)
    whole = "" if place is None else place.read_text(encoding="utf-8")
    begin = whole.find(_PLACE)
    if begin < 0:
        return None
    given = json.dumps([[[name, text.decode(errors="replace")] for name, text in it.items()] for it in (texts.files, texts.others)]).replace("<", "\\u003c")
    return f"{whole[:begin]}<script>showOnly(...{given});</script>{whole[whole.index('-->', begin) + 3:]}"


class Pictured:
    """What a notebook shows as the page does: the boxes and links, each path, and each answer in words."""

    shown: Optional[Texts]

    def _repr_html_(self) -> Optional[str]:
        """The page in a frame; None, so that a notebook shows the object as text, where there is no page or too much to show."""
        whole = page(self.shown) if self.shown is not None and self.shown.size() <= MOST else None
        return None if whole is None else f'<iframe sandbox="allow-scripts" srcdoc="{html.escape(whole)}" style="width: 100%; height: {HEIGHT}px; border: 0"></iframe>'
