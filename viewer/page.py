#!/usr/bin/env python3
"""The page: viewer/index.html, joined of the files in viewer/parts, and the same with a desk behind it, the examples, and the data of an engine.
viewer/build writes that into a file, with the engine inside, and tools/serve hands it out, with the built program behind it.

    viewer/page.py write        joins viewer/index.html of its parts
    viewer/page.py check        says whether it is of these parts
"""

import base64
import gzip
import hashlib
import json
import re
import sys
from pathlib import Path

VIEWER = Path(__file__).resolve().parent
sys.path.append(str(VIEWER.parent / "tools"))
import examples  # noqa: E402
from checkout import TOP  # noqa: E402

PARTS, INDEX = VIEWER / "parts", VIEWER / "index.html"
# The scripts of the page, in the order in which they stand there.
SCRIPTS = ("json", "job", "fields", "lists", "tables", "sets", "course", "traffic", "words", "page", "shape", "records", "answers", "record", "origins", "graph", "layout", "picture", "files")
# The comment of index.html in whose place the desk comes.
PLACE = "<!-- desk:"
# The part of the policy of index.html that lets a notebook put a script with its texts there.
ANY_SCRIPT = "script-src 'unsafe-inline'"
# The commands of the desk, and the folder of examples that it opens with.
COMMANDS = {"explore", "ask", "loops", "walk", "compare", "rules"}
FIRST = "branch-office"


def index():
    """The text of viewer/index.html."""
    code = "\n".join((PARTS / f"{name}.js").read_text() for name in SCRIPTS)
    page = (PARTS / "page.html").read_text()
    return page.replace("/* parts: page.css */", f"\n{(PARTS / 'page.css').read_text()}").replace("/* parts: scripts */", f'\n"use strict";\n\n{code}')


def title(folder):
    """The name of a folder of examples, and the heading of its page."""
    page = folder / "README.md"
    return f"{folder.name}: {page.read_text().splitlines()[0].lstrip('# ')}" if page.is_file() else "jobs of one box"


def listed():
    """Each folder of examples: its title, the files that its commands read, and its commands."""
    folders = {}
    for folder, _, words, written in examples.commands():
        given = folders.setdefault(folder, {"title": title(folder), "files": set(), "commands": [], "written": set()})
        given["written"].add(written)
        given["files"].update(examples.files_of(folder, words))
        if words[0] in COMMANDS:
            given["commands"].append(words)
    for folder, given in folders.items():
        files = sorted(given["files"] - given["written"])
        given["files"] = [[str(it.relative_to(folder)), it.read_text()] for it in files]
        del given["written"]
    shown = sorted((it for it in folders if folders[it]["commands"]), key=lambda it: (it.name != FIRST, it.name))
    return [folders[it] for it in shown]


def data(engine, unproved):
    """The data of the desk: its engine, what is said of it, the colours of jobs and the examples."""
    grammar = json.loads((TOP / "tools/sefl.tmLanguage.json").read_text())
    return {"engine": engine, "unproved": unproved, "grammar": grammar, "examples": listed()}


def as_data(value):
    """JSON as it may stand in a script: no text in it ends the script, or begins a comment there."""
    return json.dumps(value, separators=(",", ":")).replace("<", "\\u003c")


def script(identity, kind, text):
    return f'<script id="{identity}" type="{kind}">{text}</script>\n'


def guarded(page):
    """The page with a policy by which its own scripts run and no other one, and a module in a worker."""
    scripts = re.findall(r"<script>(.*?)</script>", page, re.DOTALL)
    sums = " ".join(f"'sha256-{base64.b64encode(hashlib.sha256(it.encode()).digest()).decode()}'" for it in scripts)
    return page.replace(ANY_SCRIPT, f"script-src {sums} 'wasm-unsafe-eval'; worker-src blob:", 1)


def whole(engine, unproved, module=None):
    """The text of the page. `engine` is "module", then its bytes are given, or "served"; `unproved` is the line that says what is not proved."""
    page = index()
    begin = page.index(PLACE)
    end = page.index("-->\n", begin) + len("-->\n")
    parts = f"<style>\n{(VIEWER / 'desk.css').read_text()}</style>\n"
    parts += script("desk-data", "application/json", as_data(data(engine, unproved)))
    if module is not None:
        parts += script("engine-code", "text/plain", (VIEWER / "engine.js").read_text())
        parts += script("engine-module", "text/plain", base64.b64encode(gzip.compress(module, 9, mtime=0)).decode())
    parts += f"<script>\n{(VIEWER / 'desk.js').read_text()}</script>\n"
    return guarded(page[:begin].replace("<title>SymNet report</title>", "<title>SymNet</title>") + parts + page[end:])


def main(words):
    if words == ["write"]:
        INDEX.write_text(index())
        return 0
    if words == ["check"]:
        is_same = INDEX.read_text() == index()
        print(f"page: viewer/index.html is {'as its parts' if is_same else 'not of its parts: viewer/page.py write joins them'}")
        return 0 if is_same else 1
    print(__doc__, file=sys.stderr)
    return 2


if __name__ == "__main__":
    sys.exit(main(sys.argv[1:]))
