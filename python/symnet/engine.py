"""What runs the commands: the library, in the process itself, or the built program.

What the environment names comes first: the library of SYMNET_LIBRARY, then the program of SYMNET. Where nothing is named the library is taken if there is one, and
else the program.
"""

import os
from typing import Dict, List, Optional, Sequence

from . import library, program
from .library import Ended, Files, NotBuilt, Text, as_bytes
from .plain import plain

NO_FILE, CANNOT_READ = 3, 4
# One byte more than the largest file that the program reads, that of a report: what is longer is refused in any case.
MOST = 268_435_457
_ABSENT = "symnet: no file "
NEITHER = "neither the library nor the program is built: run tools/build_library.py in the checkout, or name a program by SYMNET, as the checkout's script symnet"


def is_library() -> bool:
    """Whether the library runs the commands, and not the program; NotBuilt where there is neither."""
    if os.environ.get("SYMNET_LIBRARY"):
        return True
    if os.environ.get("SYMNET"):
        return False
    if library.place() is None and program.place() is None:
        raise NotBuilt(NEITHER)
    return library.place() is not None


def call(words: Sequence[Text], files: Files) -> Ended:
    """Runs the words over these files, and no others. ValueError where a word or a name is no text."""
    if is_library():
        return library.call(words, files)
    return program.call([as_bytes(it) for it in words], {as_bytes(name): as_bytes(text) for name, text in files.items()})


def _missing(ended: Ended, files: Dict[bytes, bytes]) -> Optional[bytes]:
    """The name of the file that a run ended for want of, where it has not been read yet."""
    if ended.status != NO_FILE:
        return None
    name = ended.message.split("\n", 1)[0].removeprefix(_ABSENT).encode()
    return None if name in files else name


def on_disk(words: List[bytes]) -> Ended:
    """Runs the words over the files of the disk. A run of the library that ends for want of a file is made again with that file, so each file that the program would
    open is read once, and no other is."""
    if not is_library():
        return program.run(words)
    files: Dict[bytes, bytes] = {}
    while True:
        ended = library.call(words, files)
        name = _missing(ended, files)
        if name is None:
            return ended
        try:
            with open(name, "rb") as file:
                files[name] = file.read(MOST)
        except FileNotFoundError:
            return ended
        except OSError as error:
            return Ended(CANNOT_READ, b"", f"symnet: cannot read {plain(os.fsdecode(name))}\n{error.strerror}\n")
        except ValueError:
            return ended
