"""Tests of the desk for viewer/test: all worked rows through the engine in node, with inputs that are none, and little memory; the page in Chromium,
with the engine inside and behind tools/serve, where a job is typed, run, broken and mended, and given inputs that are none."""

import base64
import contextlib
import http.server
import importlib.machinery
import importlib.util
import json
import shutil
import subprocess
import tempfile
import threading
from functools import partial
from pathlib import Path

import page as desk_page
from browser import PageError
from checkout import PROGRAM, TOP
from picture_test import WIDE
import row_tables

OUT = TOP / "viewer/out"
JOB = """symnet 2;
node r 1 -> 1 {
  in 0 { if head L3+64:8 <= 1 { fail "dead"; } else { forward 0; } }
}
inject r.0 { tag L3 = 112; field head L3+64:8; }
ask reach out r.0 with head L3+64:8 == 1;
"""


def script(name, file):
    """A script without an ending, as a module."""
    loader = importlib.machinery.SourceFileLoader(name, str(file))
    made = importlib.util.module_from_spec(importlib.util.spec_from_loader(name, loader))
    loader.exec_module(made)
    return made


# ---- rows in node


DEEP = 1_000_000
# Inputs that are none: empty, cut off, nested deep, no text, with numbers of any size. Of each the status, its name, and its words, of which "a" is the file.
BAD = (
    (7, "an empty job", b"", "explore a"), (7, "a job that is cut off", JOB[:JOB.index("dead") + 2].encode(), "explore a"), (7, "half of a job", JOB[:len(JOB) // 2].encode(), "ask a"),
    (7, "a million open brackets", f"{JOB[:JOB.index('head')]}{'not [' * DEEP}".encode(), "explore a"), (7, "a million blocks", b"symnet 2; node a 1 -> 1 { in 0 { " + b"if 1 == 1 { " * DEEP, "loops a"),
    (7, "no text", bytes(it * 89 & 255 for it in range(DEEP)), "explore a"), (7, "bytes that are no UTF-8", JOB.replace("dead", "t\udcf4t").encode(errors="surrogateescape"), "explore a"),
    (7, "zeros", b"\0" * DEEP, "explore a"), (7, "a million lines", b"\n" * DEEP, "explore a"), (7, "a huge number", JOB.replace("112", "9" * DEEP).encode(), "explore a"),
    (7, "a huge width", JOB.replace("64:8", "64:4294967297").encode(), "explore a"), (7, "a long name", JOB.replace("node r", f"node {'r' * DEEP}").encode(), "explore a"),
    (2, "huge hops", JOB.encode(), f"explore a --hops {'9' * 60}"), (6, "a file that is too large", b" " * (1 + (64 << 20)), "explore a"),
    (10, "a list that is cut off", b"permit any 0.0.0.0/0", "rules a"), (10, "a list of no text", b"\xff\xfe", "rules a"), (10, "a huge port", b"permit any 0.0.0.0/0 0.0.0.0/0 any " + b"9" * DEEP, "rules a"),
)


def rows():
    """Each worked row that needs no failing outside, each input that is none, and a job that is cut off at each byte, as viewer/engine_rows.js takes them:
    name, words, files, statuses, the line of standard error and the output, or None for any."""
    for table in row_tables.names():
        for row in (it for it in row_tables.read(table).values() if not it.is_staged):
            yield f"{table}: {row.name}", row.words, row.files, [row.status], row.error, row.output
    for status, name, text, words in BAD:
        yield name, words.split(), {"a": text}, [status], None, b""
    for size in range(len(JOB)):
        yield f"the first {size} bytes of a job", ["explore", "a"], {"a": JOB[:size].encode()}, [0, 7, 9], None, None


def give_rows(to):
    """Writes the rows as viewer/engine_rows.js reads them, and returns how many there are, and how many of these are worked rows."""
    count = worked = 0
    with contextlib.suppress(BrokenPipeError), to:
        for name, words, files, statuses, error, output in rows():
            told = {"name": name, "words": words, "files": [[name, len(text)] for name, text in files.items()],
                    "statuses": statuses, "error": error, "output": None if output is None else len(output)}
            text = json.dumps(told).encode()
            for part in (b"%010d" % len(text), text, *files.values(), output or b""):
                to.write(part)
            count += 1
            worked += error is not None
    return count, worked


# Whether WebAssembly has a 64-bit memory, asked of a module that has one and nothing else.
KNOWS = "WebAssembly.validate(Uint8Array.of(0, 97, 115, 109, 1, 0, 0, 0, 5, 3, 1, 4, 1))"


def node_words():
    """The words that call node with a 64-bit memory, which some versions know behind a flag; or why there are none."""
    node = shutil.which("node")
    if node is None:
        return None, "which is not installed"
    for flags in ([], ["--experimental-wasm-memory64"]):
        if subprocess.run([node, *flags, "-e", f"process.exit({KNOWS} ? 0 : 1)"], stdout=subprocess.DEVNULL, stderr=subprocess.DEVNULL, check=False).returncode == 0:
            return [node, *flags], ""
    return None, "which knows no 64-bit memory here"


def in_node(node, name, *words):
    """Starts a script of viewer/ in node."""
    return subprocess.Popen([*node, str(TOP / "viewer" / name), *map(str, words)], stdin=subprocess.PIPE, stdout=subprocess.PIPE, stderr=subprocess.STDOUT)


def test_rows(expect, module, node):
    """Each row ends in the engine as wanted."""
    ran = in_node(node, "engine_rows.js", module)
    said = []
    reader = threading.Thread(target=lambda: said.append(ran.stdout.read().decode(errors="replace")))
    reader.start()
    count, worked = give_rows(ran.stdin)
    reader.join()
    ran.wait()
    *others, last = said[0].rstrip("\n").split("\n")
    for line in others[:20]:
        expect("a row in the engine", line, "")
    expect("rows in the engine", last, f"{count} of {count} rows")
    print(f"viewer: the engine in node: {last}, {worked} of them worked rows")


def test_faults(expect, module, node):
    """What comes of a module that breaks off, and of little memory."""
    *others, last = in_node(node, "engine_faults.js", module, TOP / "examples/fabric/fabric.sefl").communicate()[0].decode(errors="replace").rstrip("\n").split("\n")
    for line in others[:20]:
        expect("a run in node", line, "")
    count = last.split()[0]
    expect("runs with little memory, and of broken modules", last, f"{count} of {count} runs")
    print(f"viewer: the engine in node, with little memory, and broken: {last}")


# ---- the page in Chromium


def chosen(page, what, value):
    """Chooses of a list, and waits for the run."""
    page.value(f"(() => {{ document.body.dataset.ran = 'no'; byId('{what}').value = {json.dumps(value)}; byId('{what}').dispatchEvent(new Event('change')); }})()")
    return page.until("document.body.dataset.ran === 'yes'")


def typed(page, text, begin=None):
    """Types a text over the part of the open file that begins with this one and is as long, or over all of it, and waits for the run."""
    part = "0, byId('text').value.length" if begin is None else f"byId('text').value.indexOf({json.dumps(begin)}), byId('text').value.indexOf({json.dumps(begin)}) + {len(begin)}"
    page.value(f"(() => {{ document.body.dataset.ran = 'no'; byId('text').focus(); byId('text').setSelectionRange({part}); }})()")
    page.type(text)
    return page.until("document.body.dataset.ran === 'yes'")


def test_typing(expect, page, name):
    """A job is written, broken and mended; then its table is missing, comes, and is broken."""
    told = lambda what: page.value(f"byId('{what}') ? byId('{what}').textContent : ''")  # noqa: E731
    page.value("addFiles([['mine.sefl', '']])")
    expect(f"{name}: a job is typed", typed(page, JOB), True)
    expect(f"{name}: nothing is refused", told("refusal"), "")
    expect(f"{name}: its paths", page.value("[...document.querySelectorAll('.record')].map((it) => it.textContent)"), ["1: r \u2014 delivered at out r.0", "0: r; TTL \u2264 1 \u2014 fail \"dead\" (item 3) at in r.0"])
    expect(f"{name}: the way of one is drawn", page.value("[...document.querySelectorAll('#network .box.on')].length"), 1)
    expect(f"{name}: the answer beside its question", page.value("byId('gutter').textContent.split('\\n')[5]"), "no 6")
    expect(f"{name}: it is broken", typed(page, "forward 7;", "forward 0;"), True)
    expect(f"{name}: the line of the caret", page.value("byId('caret') && byId('caret').dataset.line"), "3")
    expect(f"{name}: what is refused", told("refusal").split("\n")[1::3], ["mine.sefl:3:55:", "port 7: box r has 1 output port, numbered from 0"])
    expect(f"{name}: the words at the place", page.value("document.querySelector('#colours .said').textContent"), "port 7: box r has 1 output port, numbered from 0")
    expect(f"{name}: the paths are marked as old", page.value("document.body.classList.contains('stale')"), True)
    expect(f"{name}: it is mended", typed(page, "forward 0;", "forward 7;"), True)
    expect(f"{name}: no caret", page.value("[byId('caret'), document.body.classList.contains('stale')]"), [None, False])
    expect(f"{name}: a table is named", typed(page, 'node t = fib "t.fib" grouped;\nlink r.0 -> t.0;\ninject', "inject"), True)
    expect(f"{name}: it is missing", told("refusal").split("\n")[0], "symnet: no file t.fib")
    page.value("document.body.dataset.ran = 'no'; addFiles([['t.fib', 'ports 1\\n0.0.0.0/0 1\\n']])")
    expect(f"{name}: it came", page.until("document.body.dataset.ran === 'yes'"), True)
    expect(f"{name}: its line is blamed", page.value("[byId('caret') && byId('caret').dataset.line, desk.open, byId('refusal').textContent.split('\\n')[0]]"), ["2", "t.fib", "symnet: bad table t.fib:2 1"])


def run_of(page, expression):
    """Evaluates an expression that begins a run, waits for its end, and returns the first line of what is said of it."""
    page.value(f"(() => {{ document.body.dataset.ran = 'no'; {expression}; }})()")
    return page.until("document.body.dataset.ran === 'yes'") and page.value("byId('refusal').textContent.split('\\n')[0]")


def test_bad_inputs(expect, page, name):
    """Inputs that are none are refused by their status as in the program, the page is at work all the while, and the next run is right."""
    kinds = {2: "symnet: usage", 6: "symnet: too big", 7: "symnet: syntax ", 10: "symnet: bad table "}
    for status, what, text, words in (it for it in BAD if it[3].split()[0] in ("explore", "rules") and len(it[2]) < 16 << 20):
        command, file, *options = words.split()
        ending = "acl" if command == "rules" else "sefl"
        page.value("desk.files.clear()")
        page.value(f"byId('options').value = {json.dumps(' '.join(options))}")
        dropped = f"takeOntoDesk([new File([Uint8Array.from(atob('{base64.b64encode(text).decode()}'), (sign) => sign.charCodeAt(0))], 'bad.{ending}')])"
        found = run_of(page, dropped)
        expect(f"{name}: {what}: {found}", bool(found) and found.startswith(kinds[status]), True)
        expect(f"{name}: {what}: a fault of the page", page.value("byId('message').textContent"), "")
    page.value("byId('options').value = ''")
    expect(f"{name}: a file that is too long to be shown", page.value("desk.files.clear()") or run_of(page, f"addFiles([['long.sefl', {json.dumps(JOB)} + ' '.repeat(400000)]])"), "")
    expect(f"{name}: its paths", page.value("[byId('text').disabled, byId('text').placeholder.includes('too long'), document.querySelectorAll('.record').length]"), [True, True, 2])
    page.value("desk.bytes = 100")
    found = run_of(page, "runSoon(0)")
    expect(f"{name}: more output than is drawn: {found}", bool(found) and found.startswith("the run was ended, since it wrote more than 100 bytes"), True)
    page.value("desk.bytes = 128 << 20")
    expect(f"{name}: a fault of the page", page.value("setTimeout(() => { throw new Error('a trial'); })") and page.until("byId('message').textContent.includes('a trial')"), True)
    expect(f"{name}: the next run", (page.value("desk.files.clear()") or run_of(page, f"addFiles([['mine.sefl', {json.dumps(JOB)}]])"), page.value("byId('message').textContent")), ("", ""))


# The page's own module, in the page.
MODULE = "new Uint8Array(await new Response(new Blob([Uint8Array.from(atob(byId('engine-module').textContent.trim()), (sign) => sign.charCodeAt(0))]).stream().pipeThrough(new DecompressionStream('gzip'))).arrayBuffer())"


def test_broken_engine(expect, page, name):
    """A module that breaks off, or never ends, or has no memory: each is told in a line, and the next run is right."""
    page.value((TOP / "viewer/engine_faults.js").read_text().replace('"use strict";', "", 1) + "; window.brokenModule = brokenModule; window.withMemory = withMemory; 0")
    take = "(async () => { window.whole = window.whole || await desk.engine.module(); desk.engine.compiled = await WebAssembly.compile(%s); })()"
    begun = "runSoon(0)"
    for deed, part in (("trap", "to which no proved run comes"), ("deep", "too little stack")):
        page.value(take % f"brokenModule('{deed}')")
        found = run_of(page, begun)
        expect(f"{name}: {deed}: {found}", bool(found) and found.startswith("the engine broke off, and there is no answer: ") and part in found, True)
    page.value(take % f"withMemory({MODULE}, 0)")
    expect(f"{name}: no memory", run_of(page, begun), "symnet: out of memory")
    page.value(take % "brokenModule('endless')")
    page.value("desk.seconds = 1")
    expect(f"{name}: a run without an end", run_of(page, begun), "the run was ended after 1 seconds: one that the button begins goes on until it is stopped")
    page.value("byId('run').click()")
    expect(f"{name}: one that the button begins", page.until("/ [2-9] s$/.test(byId('ran').textContent)") and page.value("byId('run').textContent"), "stop")
    expect(f"{name}: it is stopped", run_of(page, "byId('run').click()"), "the run was stopped")
    page.value("(() => { desk.seconds = 60; desk.engine.compiled = window.whole; })()")
    expect(f"{name}: the whole engine again", run_of(page, begun), "")


def test_cases(expect, page, name):
    """All choices of cases are tried where no bound on them is said, and what is said goes."""
    for command in ("explore", "ask", "loops"):
        for options, wanted in (("", "--cases all"), ("--hops 8", "--hops 8 --cases all"), ("--cases=7 --hops 8", "--cases=7 --hops 8"), ("--cases 4096", "--cases 4096")):
            page.value("desk.files.clear()")
            page.value(f"byId('options').value = {json.dumps(options)}; byId('command').value = '{command}'")
            expect(f"{name}: {command} {options}", run_of(page, f"addFiles([['mine.sefl', {json.dumps(JOB)}]])"), "")
            expect(f"{name}: {command} {options}: it ran", page.value("byId('ran').textContent").startswith(f"{command} mine.sefl {wanted}"), True)
    page.value("byId('options').value = ''; byId('command').value = 'compare'")
    expect(f"{name}: a comparison", run_of(page, f"addFiles([['other.sefl', {json.dumps(JOB)}]])"), "")
    expect(f"{name}: a comparison: it ran", page.value("byId('ran').textContent").split(":")[0].split(" ", 3)[3], "--cases all")
    page.value("byId('command').value = 'explore'")


def test_stop(expect, page, name):
    """A run is stopped, and the next one goes on as if there had been none."""
    page.value("(() => { byId('example').value = [...byId('example').options].find((it) => it.text.startsWith('ask fabric')).value; byId('example').dispatchEvent(new Event('change')); })()")
    expect(f"{name}: a run is at work", page.until("byId('run').textContent === 'stop'"), True)
    page.value("byId('run').click()")
    expect(f"{name}: it is stopped", (page.until("document.body.dataset.ran === 'yes'"), page.value("byId('refusal').textContent")), (True, "the run was stopped"))
    expect(f"{name}: the next run", (chosen(page, "command", "explore"), page.value("byId('refusal').textContent")), (True, ""))


def test_drop(expect, page, name):
    """A report that is dropped is shown, with its job; other files come onto the desk."""
    drop = "takeOntoDesk(Object.entries(%s).map(([name, text]) => new File([text], name)))"
    report, job = ((TOP / f"examples/ttl.{it}").read_text() for it in ("json", "sefl"))
    page.value(drop % json.dumps({"ttl.json": report, "ttl.sefl": job}))
    expect(f"{name}: the dropped report", page.value("[document.querySelectorAll('.record').length, desk.files.has('ttl.sefl')]"), [2, False])
    page.value("document.body.dataset.ran = 'no'")
    page.value(drop % json.dumps({"list.acl": "permit any 0.0.0.0/0 0.0.0.0/0 any any\n", "notes.txt": ""}))
    expect(f"{name}: the dropped list", (page.until("document.body.dataset.ran === 'yes'"), page.value("[desk.open, byId('command').value, document.querySelectorAll('#rules tr').length]")),
           (True, ["list.acl", "rules", 2]))


# Names that a file may have, and that mean something elsewhere: to HTML, to the command line, to JavaScript, to a terminal, to the file system.
NAMES = ("<img src=x onerror=hit()>.sefl", "'\"><script>hit()</script>.sefl", "--help.sefl", "-.sefl", "a  b \t.sefl", "__proto__.sefl", "constructor.sefl", "one\ntwo.sefl", "left\u202eright.sefl",
         "a:1:2:.sefl", "\u00e9\u4e2d.sefl", "%s.sefl" % ("long" * 50))
CHOSEN_NAMES = ("a  b \t.sefl", "__proto__.sefl")


def test_file_names(expect, page, name):
    """Files of hostile names run as others do; their names are shown as text, without what a browser obeys, and are chosen by what they are."""
    page.value("(() => { window.hits = 0; window.hit = () => { window.hits += 1; }; byId('command').value = 'explore'; })()")
    for given in NAMES:
        file = json.dumps(given)
        expect(f"{name}: {given!r}", (page.value("desk.files.clear()") or run_of(page, f"addFiles([[{file}, {json.dumps(JOB)}], ['other.sefl', '']])"), page.value("document.querySelectorAll('.record').length")), ("", 2))
        expect(f"{name}: {given!r}: a fault of the page", page.value("byId('message').textContent"), "")
        expect(f"{name}: {given!r}: elements and scripts", page.value("[document.querySelectorAll('#desk img, #desk script').length, window.hits]"), [0, 0])
        shown = page.value("[...document.querySelectorAll('#tabs button'), ...document.querySelectorAll('#taken option'), byId('ran')].map((it) => it.textContent).join('')")
        expect(f"{name}: {given!r}: as it is shown", [hex(ord(it)) for it in shown if ord(it) < 32 or 0x7f <= ord(it) < 0xa0 or 0x202a <= ord(it) <= 0x202e], [])
        if given not in CHOSEN_NAMES:
            continue
        page.value("(() => { document.body.dataset.ran = 'no'; const list = document.querySelector('#taken select'); list.value = 'other.sefl'; list.dispatchEvent(new Event('change')); })()")
        expect(f"{name}: {given!r}: another file", page.until("document.body.dataset.ran === 'yes'") and page.value("byId('refusal').textContent !== ''"), True)
        page.value("(() => { document.body.dataset.ran = 'no'; const list = document.querySelector('#taken select'); list.selectedIndex = [...list.options].findIndex((it) => it.text !== 'other.sefl'); list.dispatchEvent(new Event('change')); })()")
        expect(f"{name}: {given!r}: it again", (page.until("document.body.dataset.ran === 'yes'"), page.value("[desk.names[0], byId('refusal').textContent]")), (True, [given, ""]))
    page.value("(() => { desk.files.clear(); byId('options').value = ''; })()")
    dropped = "takeOntoDesk([new File(['permit any 0.0.0.0/0'], '<b>.acl'), new File(['{'], '<i>\\u202e.json')])"
    page.value(dropped)
    expect(f"{name}: a dropped file of a hostile name", page.value("[byId('message').textContent.split(':')[0], document.querySelectorAll('#message *').length]"), ["<b>.acl", 0])
    expect(f"{name}: the next run", run_of(page, f"addFiles([['mine.sefl', {json.dumps(JOB)}]])"), "")


# How far the caret of a refusal is from the character that it is below: to the right, and down.
CARET = """(() => {
  const [line, caret] = byId('refusal').querySelectorAll('span'), place = (text, at) => { const range = document.createRange(); range.setStart(text, at); range.setEnd(text, at + 1); return range.getBoundingClientRect(); };
  const one = place(line.firstChild, line.textContent.indexOf('forward 7')), other = place(caret.firstChild, caret.textContent.indexOf('^'));
  return [other.left - one.left, other.top - one.top];
})()"""


def test_room(expect, page, name):
    """The gutter is as wide as what stands in it, its numbers beside their lines; at the width of a phone nothing sticks out."""
    expect(f"{name}: a job in the gutter", run_of(page, f"desk.files.clear(), addFiles([['mine.sefl', {json.dumps(JOB)}]])"), "")
    gutter = "(() => { const it = byId('gutter'), { left, right, top } = it.getBoundingClientRect(), text = byId('text').getBoundingClientRect(); return [right - left, it.scrollWidth > it.clientWidth, text.left - right, top - text.top]; })()"
    width, is_cut, gap, above = page.value(gutter)
    expect(f"{name}: the gutter with an answer ({width} pixels)", (30 < width < 70, is_cut, gap, above), (True, False, 0, 0))
    answer = page.value("(() => { const range = document.createRange(), word = byId('gutter').querySelector('span'); range.selectNodeContents(word); return (range.getBoundingClientRect().top - byId('gutter').getBoundingClientRect().top - 4) / 18; })()")
    expect(f"{name}: the line of the answer", round(answer) + 1, 6)
    narrow = run_of(page, f"addFiles([['other.sefl', {json.dumps(JOB.split('ask')[0])}]])") or page.value(gutter)[0]
    expect(f"{name}: the gutter without an answer ({narrow} pixels)", narrow < width - 15, True)
    expect(f"{name}: a broken line", run_of(page, f"desk.files.clear(), addFiles([['mine.sefl', {json.dumps(JOB.replace('forward 0;', 'forward 7;'))}]])"), "symnet: refused at 4 3")
    said = page.value("byId('unproved').textContent")
    page.value(f"byId('unproved').textContent = 'Behind this page runs /{'long' * 60}/symnet'")
    for width in (1400, 390):
        page.call("Emulation.setDeviceMetricsOverride", width=width, height=844, deviceScaleFactor=1, mobile=width < 600)
        expect(f"{name}: words that stick out, at {width} pixels", page.value("['unproved', 'ran', 'desk'].filter((it) => byId(it).scrollWidth > byId(it).clientWidth)"), [])
        caret = page.value(CARET)
        expect(f"{name}: the caret below its place, at {width} pixels: {caret}", (abs(caret[0]) < 4, 8 < caret[1] < 25), (True, True))
    expect(f"{name}: at the width of a phone, what sticks out", page.value(WIDE), [False])
    page.value(f"byId('unproved').textContent = {json.dumps(said)}")
    expect(f"{name}: at the width of a phone, the text", page.value("byId('text').getBoundingClientRect().width > 260 && byId('editor').getBoundingClientRect().height > 200"), True)
    page.call("Emulation.clearDeviceMetricsOverride")


# A module with a function `main` that stops at an instruction which no run may reach.
STOPPING = bytes((0, 0x61, 0x73, 0x6D, 1, 0, 0, 0, 1, 7, 1, 0x60, 2, 0x7F, 0x7E, 1, 0x7F, 3, 2, 1, 0, 7, 8, 1, 4, 0x6D, 0x61, 0x69, 0x6E, 0, 0, 10, 5, 1, 3, 0, 0, 0x0B))


def test_policy(expect, page):
    """The policy of the page with an engine inside lets its own scripts, its worker and its module run, and no script that comes later; no data ends a script."""
    whole = desk_page.whole("module", "A stand-in.", STOPPING)
    expect("scripts of the page", (whole.count("<script"), whole.count("</script>")), (5, 5))
    hostile = desk_page.as_data({"a": "</script><script>hit()</script><!--<script>"})
    expect("data in a script", ("<" in hostile, json.loads(hostile)), (False, {"a": "</script><script>hit()</script><!--<script>"}))
    with tempfile.TemporaryDirectory() as folder:
        (Path(folder) / "page.html").write_text(whole)
        page.open(f"file://{folder}/page.html")
        expect("the page with a stand-in: a run", page.until("document.body && document.body.dataset.ran === 'yes'"), True)
        expect("the page with a stand-in: its module ran", "to which no proved run comes" in page.value("byId('refusal').textContent"), True)
        page.value("""(() => {
          window.hits = [];
          document.body.append(Object.assign(document.createElement('script'), { textContent: 'window.hits.push("script")' }));
          document.body.insertAdjacentHTML('beforeend', '<img src="x:" onerror="window.hits.push(1)"><a id="link" href="javascript:window.hits.push(2)">a</a>');
          byId('link').click();
        })()""")
        page.value("fetch('http://127.0.0.1:9/').catch(() => window.hits.push('no network'))")
        expect("the page with a stand-in: scripts that came later, and the network", page.until("window.hits.length > 0", 20) and page.value("window.hits"), ["no network"])


def test_desk(expect, page, name, unproved):
    """Each example runs and is shown; then typing, stopping and dropping."""
    expect(f"{name}: the first example", page.until("document.body && document.body.dataset.ran === 'yes'"), True)
    expect(f"{name}: what is not proved", unproved in (page.value("byId('unproved').textContent") or ""), True)
    for value, words in page.value("[...document.querySelectorAll('#example option')].map((it) => [it.value, it.textContent])"):
        expect(f"{name}: {words}", chosen(page, "example", value), True)
        ran = page.value("byId('ran').textContent")
        expect(f"{name}: {words}: it ran", ran.startswith(words), True)
        expect(f"{name}: {words}: messages", page.value("[byId('message').textContent, document.body.classList.contains('stale')]"), ["", False])
        if words == "compare before.sefl dropped.sefl":
            expect(f"{name}: the walks of the packet in both networks", page.value("[...document.querySelectorAll('#both .side > p')].map((it) => it.textContent)"),
                   ['fail "partner" (item 17) at in filter.0', "delivered at out filter.0"])
    test_typing(expect, page, name)
    test_cases(expect, page, name)
    test_bad_inputs(expect, page, name)
    if page.value("DESK.engine") == "module":
        test_broken_engine(expect, page, name)
    test_file_names(expect, page, name)
    test_room(expect, page, name)
    test_stop(expect, page, name)
    test_drop(expect, page, name)


@contextlib.contextmanager
def handed_out(folder):
    """The address of a server on this machine alone, with the files of a folder."""
    class Quiet(http.server.SimpleHTTPRequestHandler):
        def log_message(self, *_):
            pass

    made = http.server.ThreadingHTTPServer(("127.0.0.1", 0), partial(Quiet, directory=str(folder)))
    threading.Thread(target=made.serve_forever, daemon=True).start()
    try:
        yield f"http://127.0.0.1:{made.server_address[1]}"
    finally:
        made.shutdown()
        made.server_close()


def test_handed_out(expect, page):
    """The page with the engine, as any server hands it out, runs its first example."""
    with handed_out(OUT) as address:
        page.open(f"{address}/tested.html")
        expect("the page by http: the first example", page.until("location.protocol === 'http:' && document.body && document.body.dataset.ran === 'yes'"), True)
        expect("the page by http: its paths", page.value("[document.querySelectorAll('.record').length > 0, byId('refusal').textContent]"), [True, ""])


def test_pages(expect, page, pages):
    """Opens each of these pages: its name, its address and the words by which it says what is not proved."""
    for name, address, unproved in pages:
        if address.startswith("file:") and not page.value(KNOWS):
            print("viewer: the page with the engine is not tested, since this Chromium knows no 64-bit memory")
            continue
        page.open(address)
        try:
            test_desk(expect, page, name, unproved)
            if address.startswith("file:"):
                test_handed_out(expect, page)
        except PageError as error:
            expect(name, f"{error}", "no error")


@contextlib.contextmanager
def served():
    """The address of tools/serve with the built program, at a free port; tools/serve_test.py tests the server itself."""
    made = script("serve", TOP / "tools/serve").Server(PROGRAM, 0)
    threading.Thread(target=made.serve_forever, daemon=True).start()
    try:
        yield made.address
    finally:
        made.shutdown()
        made.close()


def test(expect, browser):
    """All of this, as far as engine, node, Chromium and the built program are there; a line says what is not."""
    build = script("viewer_build", TOP / "viewer/build")
    engine, (node, reason), pages = build.engine(), node_words(), []
    if engine is None:
        print("viewer: the engine is not tested, since viewer/build has not made it of these sources")
    elif node is None:
        print(f"viewer: the engine is not tested in node, {reason}")
    else:
        test_rows(expect, OUT / "symnet.wasm", node)
        test_faults(expect, OUT / "symnet.wasm", node)
    if engine is not None:
        (OUT / "tested.html").write_text(build.page_of(*engine))
        pages.append(("the page with the engine", f"file://{OUT}/tested.html", "proved"))
    if not PROGRAM.is_file():
        print("viewer: tools/serve is not tested, since the program is not built")
    with served() if PROGRAM.is_file() else contextlib.nullcontext() as address:
        if address:
            pages.append(("the page of tools/serve", address, "Behind this page"))
        if browser:
            test_policy(expect, browser)
        if browser and pages:
            test_pages(expect, browser, pages)
            print("viewer: the desk is tested in Chromium")
