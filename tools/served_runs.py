"""Runs of a program for tools/serve: each in a folder of its own and under limits, one for each page, and ended when nobody waits for it."""

import codecs
import json
import os
import signal
import subprocess
import tempfile
import threading
import time
from pathlib import Path
from typing import IO, Callable, Dict, Iterator, List, Optional, Tuple

# The seconds of a processor, the bytes of memory and of output that a run has, and the seconds after which it is ended in any case.
SECONDS, MEMORY, OUTPUT, WAITED = 60, 4 << 30, 256 << 20, 120
# How many runs are at work at one time, for all pages together.
MOST = 4
# The seconds between two looks at who waits for a run, and how long the end of all runs is waited for.
LOOK, CLOSING = 0.1, 10
# The bytes of an output that are held at one time.
PIECE = 1 << 16
ENDED = "the run was ended: it has {} seconds, {} GiB of memory and {} MiB of output\n"


class Refused(Exception):
    """A request that is no run, or a run without an answer, with the reason and the status of HTTP."""

    def __init__(self, reason: str, status: int = 400):
        super().__init__(reason)
        self.status = status


def is_plain(name: str) -> bool:
    """Whether a name stays in the folder of a run."""
    return name != "" and not name.startswith("/") and ".." not in name.split("/") and "\0" not in name


def run_of(text: bytes) -> Tuple[List[str], Dict[str, str]]:
    """The words and the files of a request."""
    try:
        asked = json.loads(text)
        words, files = asked["words"], asked["files"]
        is_run = isinstance(words, list) and isinstance(files, dict) and all(isinstance(it, str) for it in [*words, *files.values()])
    except (ValueError, KeyError, TypeError, RecursionError):
        is_run = False
    if not is_run:
        raise Refused("a run is its words and its files")
    bad = next((it for it in [*words, *files] if not is_plain(it) and it != ""), None)
    if bad is not None:
        raise Refused(f"{bad} leads out of the folder of the run")
    return words, files


def limited(program: str, words: List[str]) -> List[str]:
    """The words that run the program under the limits; `sh` counts memory in KB and files in blocks of 512 bytes."""
    limits = f"ulimit -v {MEMORY >> 10}; ulimit -t {SECONDS}; ulimit -f {OUTPUT >> 9}; ulimit -c 0"
    return ["sh", "-c", f'{limits}; exec "$@"', "sh", program, *words]


def fill(folder: Path, files: Dict[str, str]) -> None:
    """Writes the files into the folder, and lets go of each once it is written."""
    while files:
        name, text = files.popitem()
        try:
            (folder / name).parent.mkdir(parents=True, exist_ok=True)
            (folder / name).write_text(text, newline="", encoding="utf-8", errors="surrogateescape")
        except (OSError, ValueError) as reason:
            raise Refused(f"no file can have the name {name[:100]}: {reason}") from reason


class Run:
    """A run, which any thread may stop."""

    def __init__(self) -> None:
        self.lock = threading.Lock()
        self.process: Optional["subprocess.Popen[bytes]"] = None
        self.why: Optional[Refused] = None

    def stop(self, why: Refused) -> None:
        """Ends the run, also one that has not begun: it has no answer then."""
        with self.lock:
            self.why = self.why or why
            self._kill()

    def _kill(self) -> None:
        if self.process is not None and self.process.poll() is None:
            os.killpg(self.process.pid, signal.SIGKILL)

    def _begin(self, words: List[str], folder: Path, output: IO[bytes], error: IO[bytes]) -> "subprocess.Popen[bytes]":
        with self.lock:
            if self.why:
                raise self.why
            try:
                self.process = subprocess.Popen(words, cwd=folder, stdin=subprocess.DEVNULL, stdout=output, stderr=error, start_new_session=True)
            except (OSError, ValueError) as reason:
                raise Refused(f"the system does not take the words: {reason}") from reason
            return self.process

    def status(self, words: List[str], files: Dict[str, str], is_gone: Callable[[], bool], output: IO[bytes], error: IO[bytes]) -> int:
        """Runs the words in a folder with these files, as long as somebody waits for the answer."""
        with tempfile.TemporaryDirectory(prefix="symnet-run-") as room:
            fill(Path(room), files)
            process = self._begin(words, Path(room), output, error)
            until = time.monotonic() + WAITED
            while True:
                try:
                    status = process.wait(LOOK)
                    break
                except subprocess.TimeoutExpired:
                    if is_gone():
                        self.stop(Refused("the page has gone"))
                    elif time.monotonic() > until:
                        with self.lock:
                            self._kill()
        if self.why:
            raise self.why
        return status


class Runs:
    """The runs of all pages."""

    def __init__(self, program: str):
        self.program = program
        self.at_work: Dict[str, Run] = {}
        self.is_closed = False
        self.changed = threading.Condition()

    def _begin(self, page: str) -> Run:
        """A run for a page, once its earlier one has ended."""
        with self.changed:
            while page in self.at_work:
                self.at_work[page].stop(Refused("the page asked anew", 409))
                self.changed.wait()
            if self.is_closed or len(self.at_work) >= MOST:
                raise Refused("the server ends" if self.is_closed else f"{MOST} runs are at work already: wait for one, or close a page", 503)
            self.at_work[page] = Run()
            return self.at_work[page]

    def status(self, page: str, words: List[str], files: Dict[str, str], is_gone: Callable[[], bool], output: IO[bytes], error: IO[bytes]) -> int:
        """The status of the program for a page, which writes into the two files."""
        run = self._begin(page)
        try:
            return run.status(limited(self.program, words), files, is_gone, output, error)
        finally:
            with self.changed:
                del self.at_work[page]
                self.changed.notify_all()

    def close(self) -> None:
        """Ends all runs, and waits until their folders are removed."""
        with self.changed:
            self.is_closed = True
            for run in self.at_work.values():
                run.stop(Refused("the server ends", 503))
            self.changed.wait_for(lambda: not self.at_work, CLOSING)


def _text(file: IO[bytes]) -> Iterator[bytes]:
    """What a file has, as the inner part of a text of JSON, piece by piece."""
    file.seek(0)
    decoder = codecs.getincrementaldecoder("utf-8")(errors="replace")
    while part := file.read(PIECE):
        yield json.dumps(decoder.decode(part))[1:-1].encode()
    yield json.dumps(decoder.decode(b"", True))[1:-1].encode()


def answer(status: int, output: IO[bytes], error: IO[bytes]) -> Iterator[bytes]:
    """The status and what was written, as JSON, piece by piece: no answer is held whole."""
    yield b'{"status":%d,"error":"' % status
    yield from _text(error)
    if status < 0:
        yield json.dumps(ENDED.format(SECONDS, MEMORY >> 30, OUTPUT >> 20))[1:-1].encode()
    yield b'","output":"'
    yield from _text(output)
    yield b'"}'
