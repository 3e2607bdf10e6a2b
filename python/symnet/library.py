"""The call of the library: words and files go in as bytes, the status, the output and what is said for people come out.

The library is looked for where the environment's SYMNET_LIBRARY says, else beside this file, where an installed package has it, else in a checkout,
where `tools/build_library.py` puts it.
"""

import ctypes
import os
import threading
from dataclasses import dataclass
from pathlib import Path
from typing import Iterable, Iterator, Mapping, Optional, Sequence, Union

Text = Union[str, bytes]
Files = Union[Mapping[str, Text], Mapping[bytes, Text]]

NAME = "libsymnet.so"
_HERE = Path(__file__).resolve().parent
PLACES = (_HERE / NAME, _HERE.parents[1] / "crates/symnet_c/out" / NAME)

NOT_LISTS = 256
# How many bytes of output a call has room for at first, and how many are kept for the next call at most.
_ROOM, _KEPT = 1 << 20, 1 << 26
_MESSAGE = 1 << 14


class NotBuilt(Exception):
    """There is no library; the message says how it is built."""


@dataclass(frozen=True)
class Ended:
    """How a call ended: the status as docs/statuses.md has it, what was written, and what is said for people below the status, in lines."""

    status: int
    output: bytes
    message: str


class _Sizes(ctypes.Structure):
    _fields_ = [("output", ctypes.c_size_t), ("message", ctypes.c_size_t)]


_lock = threading.Lock()
_loaded: Optional[ctypes.CDLL] = None
_rooms = threading.local()


def place() -> Optional[Path]:
    """Where the library is; None where it is not built."""
    named = os.environ.get("SYMNET_LIBRARY")
    if named:
        return Path(named)
    return next((it for it in PLACES if it.is_file()), None)


def _library() -> ctypes.CDLL:
    global _loaded
    with _lock:
        if _loaded is None:
            found = place()
            if found is None:
                raise NotBuilt("the library is not built: run tools/build_library.py in the checkout, and install the package after that")
            opened = ctypes.CDLL(str(found))
            slice_of = [ctypes.c_void_p, ctypes.c_size_t]
            opened.symnet_call.argtypes = slice_of * 4 + [ctypes.POINTER(_Sizes)]
            opened.symnet_call.restype = ctypes.c_uint32
            _loaded = opened
        return _loaded


def as_bytes(text: Text) -> bytes:
    return text.encode() if isinstance(text, str) else bytes(text)


def _listed(parts: Iterable[bytes]) -> bytes:
    """The parts as one list: each behind its length, in eight bytes with the lowest first."""
    return b"".join(piece for part in parts for piece in (len(part).to_bytes(8, "little"), part))


def _parts(files: Files) -> Iterator[bytes]:
    for name, text in files.items():
        yield as_bytes(name)
        yield as_bytes(text)


def _room(size: int) -> "ctypes.Array[ctypes.c_char]":
    """Room for at least this many bytes, which the next call in this thread takes over where it is not too large to be kept."""
    room = getattr(_rooms, "output", None)
    if room is None or len(room) < size:
        room = ctypes.create_string_buffer(max(size, _ROOM))
        _rooms.output = room if len(room) <= _KEPT else None
    return room


def call(words: Sequence[Text], files: Files) -> Ended:
    """Runs the program on the words after its name, over these files and no others. ValueError where a word or a name is no text."""
    run = _library().symnet_call
    given, listed = _listed(map(as_bytes, words)), _listed(_parts(files))
    sizes, output, message = _Sizes(), _room(_ROOM), ctypes.create_string_buffer(_MESSAGE)
    while True:
        # A second call, over the same, with as much room as the first one said: nothing is kept between two calls.
        status = run(given, len(given), listed, len(listed), output, len(output), message, len(message), ctypes.byref(sizes))
        if sizes.output <= len(output) and sizes.message <= len(message):
            break
        output, message = _room(sizes.output), ctypes.create_string_buffer(max(sizes.message, _MESSAGE))
    if status == NOT_LISTS:
        raise ValueError("a word, or the name of a file, is no UTF-8")
    return Ended(status, ctypes.string_at(output, sizes.output), ctypes.string_at(message, sizes.message).decode(errors="replace"))
