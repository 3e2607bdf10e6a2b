"""Where things stand in the checkout, and the built program."""

import re
from pathlib import Path
from typing import Iterator, List, Optional

TOP = Path(__file__).resolve().parent.parent
PROGRAM = TOP / "crates/symnet_cli/out/symnet_cli"


def built(words: List[str], who: str) -> Optional[Path]:
    """The program that the first word names, or the checkout's own; None where it is not built, which is said."""
    program = Path(words[0]).resolve() if words else PROGRAM
    if program.is_file():
        return program
    print(f"{who}: nothing was run, since {program} is not built")
    return None


def sources() -> Iterator[Path]:
    """All that a proved program is made of."""
    yield TOP / "crates.txt"
    for part in ("src", "specs", "proofs"):
        for kind in ("rt", "antt"):
            yield from (TOP / "crates").glob(f"*/{part}/**/*.{kind}")


def is_current(made: Path) -> bool:
    """Whether a file is there, and not older than the sources."""
    return made.is_file() and all(it.stat().st_mtime <= made.stat().st_mtime for it in sources())


def version() -> str:
    """The version, which stands in python/pyproject.toml alone."""
    found = re.search(r'(?m)^version = "(.*)"$', (TOP / "python/pyproject.toml").read_text())
    assert found, "python/pyproject.toml has no version"
    return found[1]
