"""The words of `symnet import`."""

import sys
from pathlib import Path
from typing import Dict, List, Optional

from ..plain import plain
from . import JOB, MAP, Imported, Refused, import_folder

USAGE = "symnet import DIR [--to FOLDER] [--style chain|grouped]"
HELP = f"""{USAGE}
makes a job of what the boxes of a network print: DIR has a folder for each box, and the file `topology`
--to: the folder that the job is written into, with its tables and the map of its items (DIR-job in this folder where it is not given)
--style: how a table of routes becomes code (grouped where it is not given)
docs/import.md has the files that are read, and what is refused"""
DONE, WRONG_WORDS, CANNOT_WRITE, REFUSED = 0, 2, 5, 10
_STYLES = ("chain", "grouped")


def _asked(words: List[str]) -> Optional[Dict[str, str]]:
    """The folder and the options; None where the words have no reading."""
    found: Dict[str, str] = {}
    rest = iter(words)
    for word in rest:
        flag, has_value, value = word.partition("=")
        if flag in ("--to", "--style") and flag not in found:
            found[flag] = value if has_value else next(rest, "")
            if not found[flag] or (flag == "--style" and found[flag] not in _STYLES):
                return None
        elif word.startswith("-") or "DIR" in found:
            return None
        else:
            found["DIR"] = word
    return found if "DIR" in found else None


def told(found: Imported, folder: Path) -> List[str]:
    """What is said of a job that was made."""
    counts = (("box", "boxes", len(found.boxes)), ("host", "hosts", len(found.hosts)), ("question", "questions", found.text.count("\nask ")), ("table", "tables", len(found.files)))
    listed = ", ".join(f"{count} {one if count == 1 else many}" for one, many, count in counts)
    hops = f" --hops {found.hops}" if found.hops > 16 else ""
    return [f"{folder / JOB}: {listed}; {folder / MAP} says where each item comes from",
            *found.notes, f"cd {folder} && symnet ask {JOB} --cases all{hops} | symnet_report.py - {JOB} {MAP}"]


def main(words: List[str]) -> int:
    if words in (["--help"], ["-h"]):
        print(HELP)
        return DONE
    asked = _asked(words)
    if asked is None:
        print(f"symnet: usage\n{HELP}", file=sys.stderr)
        return WRONG_WORDS
    try:
        found = import_folder(asked["DIR"], style=asked.get("--style", "grouped"))
    except Refused as fault:
        where = fault.source
        print(plain(f"symnet: {fault}"), file=sys.stderr)
        if where.line and where.text:
            print(plain(where.text), file=sys.stderr)
        return REFUSED
    folder = Path(asked.get("--to", f"{Path(asked['DIR']).resolve().name}-job"))
    try:
        found.save(folder)
        print("\n".join(plain(line) for line in told(found, folder)), flush=True)
    except OSError as error:
        print(plain(f"symnet: cannot write {error.filename or folder}: {error.strerror}"), file=sys.stderr)
        return CANNOT_WRITE
    return DONE


if __name__ == "__main__":
    sys.exit(main(sys.argv[1:]))
