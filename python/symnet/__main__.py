"""The command line: `python -m symnet explore examples/ttl.sefl` works as `symnet explore examples/ttl.sefl` does. `import` runs here, and needs nothing built."""

import os
import sys
from typing import List

from . import engine, program
from .importing import command
from .library import Ended, NotBuilt

USAGE, CANNOT_WRITE = 2, 5


def main(words: List[str]) -> int:
    if words[:1] == ["import"]:
        return command.main(words[1:])
    try:
        if not engine.is_library():
            # the program takes the place of this process, so all that it reads, writes and ends with is its own
            place = str(program.place())
            os.execv(place, [place, *words])
        ended = engine.on_disk([os.fsencode(it) for it in words])
    except ValueError:
        ended = Ended(USAGE, b"", "symnet: usage\n")
    except NotBuilt as error:
        print(f"symnet: {error}", file=sys.stderr)
        return 1
    except OSError as error:
        print(f"symnet: {program.place()} does not run: {error.strerror}", file=sys.stderr)
        return 1
    try:
        sys.stdout.buffer.write(ended.output)
        sys.stdout.flush()
    except OSError:
        # what is left of the output is not tried again at the end of the process
        os.dup2(os.open(os.devnull, os.O_WRONLY), sys.stdout.fileno())
        ended = Ended(CANNOT_WRITE, b"", "symnet: cannot write\n")
    sys.stderr.write(ended.message)
    return ended.status


if __name__ == "__main__":
    sys.exit(main(sys.argv[1:]))
