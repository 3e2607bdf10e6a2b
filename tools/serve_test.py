"""Tests of tools/serve for python/test, with a small script as its program: who is answered, how a run ends, and what is left behind."""

import contextlib
import http.client
import importlib.machinery
import importlib.util
import io
import json
import os
import signal
import socket
import subprocess
import sys
import tempfile
import threading
import time
import tracemalloc
from pathlib import Path

import served_runs
from checkout import TOP

# A program that tells its process and sleeps, writes more than it may, writes bytes that are no text, or shows its file.
PROGRAM = """#!/bin/sh
case "$1" in
  sleep) echo $$ > "$MARK/$2"; exec sleep 60 ;;
  much) yes | head -c 4000000 ;;
  bytes) printf 'caf\\303\\251 \\377 "\\n' ; echo said >&2; exit 7 ;;
  *) cat -- "$2" ;;
esac
"""
WAIT = 20


def script(name, file):
    """A script without an ending, as a module."""
    loader = importlib.machinery.SourceFileLoader(name, str(file))
    made = importlib.util.module_from_spec(importlib.util.spec_from_loader(name, loader))
    loader.exec_module(made)
    return made


def until(is_so):
    """Whether something comes to be so before long."""
    end = time.monotonic() + WAIT
    while not is_so() and time.monotonic() < end:
        time.sleep(0.01)
    return is_so()


class Asker:
    """Asks a server at an address."""

    def __init__(self, address):
        self.port, self.path = int(address.split(":")[2].split("/")[0]), "/" + address.split("/", 3)[3]

    def ask(self, method, path, body=None, **headers):
        """The status, the text and the headers of an answer."""
        link = http.client.HTTPConnection("127.0.0.1", self.port, timeout=WAIT)
        with contextlib.closing(link):
            link.request(method, path, body, {"Content-Type": "application/json", **{key.replace("_", "-"): value for key, value in headers.items()}})
            answer = link.getresponse()
            return answer.status, answer.read().decode(), answer.headers

    def run(self, page, *words, files=None):
        status, text, _ = self.ask("POST", f"{self.path}{page}/run", json.dumps({"words": words, "files": files or {}}))
        return status, json.loads(text) if status == 200 else text

    def begin(self, page, *words):
        """Begins a run, and returns its connection."""
        body = json.dumps({"words": words, "files": {}}).encode()
        link = socket.create_connection(("127.0.0.1", self.port), timeout=WAIT)
        link.sendall(f"POST {self.path}{page}/run HTTP/1.0\r\nHost: 127.0.0.1:{self.port}\r\nContent-Type: application/json\r\nContent-Length: {len(body)}\r\n\r\n".encode() + body)
        return link


def check_asked(expect, server, asker):
    """Who gets a page and a run."""
    run, port = json.dumps({"words": ["show", "a"], "files": {"a": "text"}}), asker.port
    own = f"{asker.path}1/run"
    for what, path, headers in (
            ("another name of the address", own, {"Host": "example.org"}), ("a text", own, {"Content_Type": "text/plain"}), ("no token", "/run", {}), ("another token", f"/{'x' * 22}/1/run", {}),
            ("a page without a run", f"{asker.path}1/", {}), ("a page of another site", own, {"Origin": "http://example.org"}), ("a page of another port", own, {"Origin": f"http://127.0.0.1:{port + 1}"}),
            ("a page in a sandbox", own, {"Origin": "null"}), ("a request across sites", own, {"Sec_Fetch_Site": "cross-site"}), ("a size that is none", own, {"Content_Length": "\u00b2".encode()}),
            ("a request that is too large", own, {"Content_Length": str(1 << 40)})):
        expect(f"serve: {what}", asker.ask("POST", path, run, **headers)[0], 404)
    for what, path in (("the page without a token", "/"), ("another file", "/README.md"), ("the page with another token", f"/{'x' * 22}/"), ("a run that is got", own)):
        expect(f"serve: {what}", asker.ask("GET", path)[0], 404)
    expect("serve: the page by another name", asker.ask("GET", asker.path, Host="example.org")[0], 404)
    expect("serve: a run", asker.run("1", "show", "a", files={"a": "text"}), (200, {"status": 0, "output": "text", "error": ""}))
    expect("serve: a run of its own page", asker.ask("POST", own, run, Origin=f"http://localhost:{port}", Sec_Fetch_Site="same-origin")[0], 200)
    status, _, headers = asker.ask("GET", f"{asker.path}?report=a")
    expect("serve: a new page", (status, headers["Location"].startswith(asker.path), headers["Location"].endswith("/?report=a")), (303, True, True))
    other = asker.ask("GET", asker.path)[2]["Location"]
    expect("serve: each page has a number", other != headers["Location"].split("?")[0], True)
    status, text, headers = asker.ask("GET", other)
    policy = headers["Content-Security-Policy"]
    expect("serve: the page", (status, "desk-data" in text, policy.count("'sha256-"), "script-src 'unsafe" in policy, "connect-src 'self'" in policy), (200, True, text.count("<script>"), False, True))
    expect("serve: the token stays", (headers["Referrer-Policy"], len(server.token) >= 22), ("no-referrer", True))


def check_refused(expect, asker):
    """Requests that are no runs."""
    for what, body, part in (
            ("no run", "[]", "a run is its words"), ("words that are none", '{"words":{"a":1},"files":{}}', "a run is its words"), ("no JSON", "\xff", "a run is its words"), ("a million brackets", "[" * 1000000, "a run is its words"),
            ("a word that leads out", json.dumps({"words": ["rules", "/etc/passwd"], "files": {}}), "leads out"), ("a file that leads out", json.dumps({"words": [], "files": {"../a": ""}}), "leads out"),
            ("a file that is a folder", json.dumps({"words": [], "files": {"a/b": "", "a": ""}}), "no file"), ("a file without a name", json.dumps({"words": [], "files": {"": ""}}), "no file"),
            ("a name past the system's limit", json.dumps({"words": [], "files": {"a" * 300: ""}}), "no file"), ("a file that is no text", json.dumps({"words": [], "files": {"a": "\ud800"}}), "no file"),
            ("a word past the system's limit", json.dumps({"words": ["a" * 200000], "files": {}}), "does not take"), ("a word that is no text", json.dumps({"words": ["\ud800"], "files": {}}), "does not take")):
        status, text, _ = asker.ask("POST", f"{asker.path}1/run", body.encode("latin-1"))
        expect(f"serve: {what}", (status, part in text), (400, True))


# Names that a file on the desk may have, and that stay in the folder of a run.
NAMES = ("-x", "--hops", "a b", "a\nb", "a\tb", "\x1b[31m", "\u202efdp.exe", "<img src=x onerror=alert(1)>", "'; rm -rf . #", "$(touch x)", "`touch x`", "*", "?", "~", "..a", "a..", "...", "a/b", "./a", "a//b", "a/./b",
         "caf\u00e9", "\U0001f600", "con", "a:b", "a\\b", "%2e%2e", "&amp;", '"', "n" * 255, "d/" * 100 + "a")
# Names that lead out of it, or that no file can have.
NO_NAMES = ("..", "../a", "a/..", "a/../../b", "/a", "//a", "a\0b", ".", "./", "n" * 256, "\u00e9" * 128, "d/" * 3000 + "a")


def check_names(expect, asker, room):
    """Files of hostile names: each is given to the program as it is, or refused, and nothing is written outside of the run's folder."""
    kept, tempfile.tempdir = tempfile.tempdir, str(room)
    for name in NAMES:
        expect(f"serve: a file of the name {name[:40]!r}", asker.run("1", "show", name, files={name: "text"}), (200, {"status": 0, "output": "text", "error": ""}))
    for name in NO_NAMES:
        status, text = asker.run("1", "show", "a", files={name: "text"})
        expect(f"serve: no file of the name {name[:40]!r}", (status, "leads out" in text or "no file can have" in text), (400, True))
    expect("serve: all these names at once", asker.run("1", "show", "a b", files={name: "text" for name in NAMES if name not in ("a/b", "a//b", "a/./b", "./a")})[1]["output"], "text")
    tempfile.tempdir = kept
    expect("serve: nothing else is written", (list(room.rglob("*")), sorted(it.name for it in room.parent.iterdir())), ([], ["marks", "program", "room"]))


def check_written(expect, asker):
    """What comes back of a run."""
    expect("serve: bytes that are no text", asker.run("1", "bytes"), (200, {"status": 7, "output": 'caf\u00e9 \ufffd "\n', "error": "said\n"}))
    usual, served_runs.OUTPUT = served_runs.OUTPUT, 1 << 20
    status, came = asker.run("1", "much")
    served_runs.OUTPUT = usual
    expect("serve: more output than a run may have", (status, came["status"] != 0, len(came["output"]) <= 1 << 20), (200, True, True))
    text = "x\u00e9\u20ac\U0001f600" * 200000
    output = io.BytesIO(text.encode())
    tracemalloc.start()
    size = sum(map(len, served_runs.answer(0, output, io.BytesIO(b""))))
    peak = tracemalloc.get_traced_memory()[1]
    tracemalloc.stop()
    expect(f"serve: an answer of {size} bytes is held in pieces: {peak}", size > 4000000 and peak < 2000000, True)
    expect("serve: no letter is cut", json.loads(b"".join(served_runs.answer(-9, output, io.BytesIO(b"a")))), {"status": -9, "error": "a" + served_runs.ENDED.format(60, 4, 256), "output": text})


def is_at_work(mark):
    """Whether the process that a run told is there."""
    try:
        os.kill(int(mark.read_text()), 0)
        return True
    except (OSError, ValueError):
        return False


def begun(asker, page, mark):
    """Begins a run that sleeps, and waits until it has told its process."""
    link = asker.begin(page, "sleep", mark.name)
    until(lambda: is_at_work(mark))
    return link


def check_ends(expect, server, asker, marks):
    """A run ends when its page has gone, or asks anew; there is one for each page, and a number for all."""
    one = begun(asker, "1", marks / "one")
    expect("serve: a run is at work", is_at_work(marks / "one"), True)
    expect("serve: its page asks anew", asker.run("1", "show", "a", files={"a": "new"})[1], {"status": 0, "output": "new", "error": ""})
    expect("serve: the first run has ended", (is_at_work(marks / "one"), b" 409 " in one.recv(100)), (False, True))
    one.close()
    two = begun(asker, "2", marks / "two")
    expect("serve: other pages go on", asker.run("3", "show", "a", files={"a": ""})[0], 200)
    two.close()
    expect("serve: its page has gone", until(lambda: not is_at_work(marks / "two") and not server.runs.at_work), True)
    links = [begun(asker, f"4{number}", marks / f"four{number}") for number in range(served_runs.MOST)]
    expect("serve: too many runs", asker.run("5", "show", "a", files={"a": ""})[0], 503)
    for link in links:
        link.close()
    expect("serve: all have gone", until(lambda: not server.runs.at_work), True)
    usual, served_runs.WAITED = served_runs.WAITED, 0.2
    status, came = asker.run("6", "sleep", "six")
    served_runs.WAITED = usual
    expect("serve: a run that sleeps too long", (status, came["status"], "the run was ended" in came["error"]), (200, -9, True))


def check_connections(expect, serve, server, asker):
    """A connection that sends nothing ends, and there are not many at one time."""
    usual, serve.ASKING = serve.ASKING, 0.2
    with socket.create_connection(("127.0.0.1", asker.port), timeout=WAIT) as silent:
        silent.sendall(b"POST ")
        expect("serve: a connection that is silent", silent.recv(10), b"")
    serve.ASKING = usual
    held = [socket.create_connection(("127.0.0.1", asker.port), timeout=WAIT) for _ in range(serve.CONNECTIONS + 1)]
    with contextlib.suppress(ConnectionError):
        expect("serve: too many connections", held[-1].recv(10), b"")
    for it in held:
        it.close()
    expect("serve: a connection again", until(lambda: reached(asker)), True)


def reached(asker):
    try:
        return asker.ask("GET", asker.path)[0] == 303
    except (OSError, http.client.HTTPException):
        return False


def check_end(expect, program, marks, room):
    """SIGTERM ends the runs of a server, and its folders are gone."""
    ran = subprocess.Popen([sys.executable, str(TOP / "tools/serve"), "--port", "0", str(program)], stdout=subprocess.PIPE, text=True, env={**os.environ, "TMPDIR": str(room), "MARK": str(marks)})
    asker = Asker(ran.stdout.readline().split()[1])
    link = begun(asker, "1", marks / "last")
    expect("serve: a run has its folder", (is_at_work(marks / "last"), len(list(room.glob("symnet-run-*")))), (True, 1))
    ran.send_signal(signal.SIGTERM)
    expect("serve: it ends by SIGTERM", ran.wait(WAIT), 0)
    expect("serve: nothing is left", (is_at_work(marks / "last"), list(room.glob("symnet-run-*"))), (False, []))
    link.close()
    ran.stdout.close()


def check(expect):
    serve = script("serve", TOP / "tools/serve")
    with tempfile.TemporaryDirectory() as given:
        program, marks, room = (Path(given, it) for it in ("program", "marks", "room"))
        program.write_text(PROGRAM)
        program.chmod(0o755)
        marks.mkdir()
        room.mkdir()
        os.environ["MARK"] = str(marks)
        server = serve.Server(program, 0)
        threading.Thread(target=server.serve_forever, daemon=True).start()
        asker = Asker(server.address)
        try:
            check_asked(expect, server, asker)
            check_refused(expect, asker)
            check_names(expect, asker, room)
            check_written(expect, asker)
            check_ends(expect, server, asker, marks)
            check_connections(expect, serve, server, asker)
        finally:
            server.shutdown()
            server.close()
        check_end(expect, program, marks, room)
