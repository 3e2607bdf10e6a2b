"""The built program, for where there is no library: words and files go in as bytes, and come out as the library gives them.

It is the one that the environment's SYMNET names, else the one beside this file, else that of a checkout, else `symnet` on the path.
"""

import os
import re
import shutil
import subprocess
import tempfile
import warnings
from pathlib import Path
from typing import List, Mapping, Optional, Sequence

from .library import Ended, NotBuilt

NAME = "symnet_cli"
_HERE = Path(__file__).resolve().parent
PLACES = (_HERE / NAME, _HERE.parents[1] / "crates/symnet_cli/out" / NAME)

# How the line begins in which the checkout's script says, ahead of all else, that its program is not proved.
_NOTICE = "symnet: this program was compiled without its proofs"

# Texts between quotation marks, comments, and what stands between these.
_PARTS = re.compile(rb'"([^"\x00-\x1f\x7f]*)"|//[^\n]*|[^"/]+|["/]')


def place() -> Optional[Path]:
    """Where the program is; None where there is none."""
    named = os.environ.get("SYMNET")
    if named:
        return Path(shutil.which(named) or named)
    on_path = shutil.which("symnet")
    return next((it for it in PLACES if it.is_file()), Path(on_path) if on_path else None)


def leads_out(name: bytes) -> bool:
    """Whether a name leads out of the folder of a run."""
    return name.startswith(b"/") or b".." in name.split(b"/")


def _tables(text: bytes) -> List[bytes]:
    """The files that a text names as tables, where it is a job."""
    names, is_table = [], False
    for part in _PARTS.finditer(text):
        if part[1] is not None:
            names += [part[1]] if is_table else []
            is_table = False
        elif not part[0].startswith(b"//") and part[0].strip(b" \t\r\n"):
            is_table = part[0].strip(b" \t\r\n").endswith((b"mac", b"fib"))
    return names


def _fill(folder: Path, files: Mapping[bytes, bytes]) -> None:
    for name, text in files.items():
        try:
            file = folder / os.fsdecode(name)
            file.parent.mkdir(parents=True, exist_ok=True)
            file.write_bytes(text)
        except (OSError, ValueError) as error:
            raise ValueError(f"the program cannot be given a file of the name {os.fsdecode(name)[:100]!r}: {error}") from None


def run(words: Sequence[bytes], folder: Optional[Path] = None) -> Ended:
    """Runs the program in a folder, or in the current one, over the files of the disk."""
    program = place()
    if program is None:
        raise NotBuilt("there is no program: build it, or name it by SYMNET")
    try:
        ran = subprocess.run([os.fsencode(program.absolute()), *words], cwd=folder, stdin=subprocess.DEVNULL, capture_output=True, check=False)
    except OSError as error:
        raise NotBuilt(f"{program} does not run: {error.strerror}") from None
    if ran.returncode < 0:
        raise RuntimeError(f"{program} was ended by signal {-ran.returncode}")
    return Ended(ran.returncode, ran.stdout, _without_notice(ran.stderr.decode(errors="replace")))


def _without_notice(message: str) -> str:
    """What is said of the run; that the program is not proved becomes a warning."""
    first, _, rest = message.partition("\n")
    if not first.startswith(_NOTICE):
        return message
    warnings.warn(first, stacklevel=2)
    return rest


def call(words: Sequence[bytes], files: Mapping[bytes, bytes]) -> Ended:
    """Runs the program over these files and no others, in a folder of its own. ValueError where it would read another file of the disk, or where a word or a name is
    no text."""
    named = [*words, *files, *(name for text in files.values() for name in _tables(text))]
    outside = next((name for name in named if leads_out(name)), None)
    if outside is not None:
        raise ValueError(f"the program would read {os.fsdecode(outside)[:100]!r} of the disk: only the library takes files by any name")
    for name in [*words, *files]:
        if b"\0" in name or name.decode(errors="replace").encode() != name:
            raise ValueError("a word, or the name of a file, is no UTF-8")
    with tempfile.TemporaryDirectory(prefix="symnet-") as room:
        _fill(Path(room), files)
        return run(words, Path(room))
