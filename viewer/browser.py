"""A page in headless Chromium, driven over its debugging pipe, for viewer/test."""

import contextlib
import fcntl
import json
import os
import select
import subprocess
import tempfile
import time

FLAGS = ["--headless", "--no-sandbox", "--disable-gpu", "--disable-dev-shm-usage", "--no-first-run", "--disable-background-networking", "--disable-component-update"]
# The seconds after which what does not come is wrong, on the slowest machine.
SECONDS = 300


class PageError(Exception):
    """What the page threw, or that the browser does not answer."""


class Browser:
    """One page: opened at an address, asked for the values of expressions, typed into."""

    def __init__(self, program):
        self.number, self.unread, self.session = 0, b"", None
        self.profile = tempfile.TemporaryDirectory()
        ours_in, theirs_out = os.pipe()
        theirs_in, ours_out = os.pipe()
        # the browser reads from 3 and writes to 4, so neither of the ends to be copied may have these numbers
        ends = [fcntl.fcntl(it, fcntl.F_DUPFD, 10) for it in (theirs_in, theirs_out)]
        take = lambda: (os.dup2(ends[0], 3), os.dup2(ends[1], 4))  # noqa: E731
        words = [program, *FLAGS, "--remote-debugging-pipe", f"--user-data-dir={self.profile.name}", "about:blank"]
        self.ran = subprocess.Popen(words, stdin=subprocess.DEVNULL, stdout=subprocess.DEVNULL, stderr=subprocess.DEVNULL, preexec_fn=take, pass_fds=(3, 4))
        for it in (*ends, theirs_in, theirs_out):
            os.close(it)
        self.input, self.output = ours_in, ours_out
        target = self.call("Target.createTarget", url="about:blank")["targetId"]
        self.session = self.call("Target.attachToTarget", targetId=target, flatten=True)["sessionId"]

    def message(self, until):
        while b"\0" not in self.unread:
            ready, _, _ = select.select([self.input], [], [], max(until - time.monotonic(), 0))
            part = os.read(self.input, 1 << 20) if ready else b""
            if not part:
                raise PageError("the browser does not answer")
            self.unread += part
        text, _, self.unread = self.unread.partition(b"\0")
        return json.loads(text)

    def call(self, method, seconds=SECONDS, **words):
        self.number += 1
        asked = {"id": self.number, "method": method, "params": words, **({"sessionId": self.session} if self.session else {})}
        os.write(self.output, json.dumps(asked).encode() + b"\0")
        until = time.monotonic() + seconds
        while True:
            told = self.message(until)
            if told.get("id") == self.number:
                if "error" in told:
                    raise PageError(told["error"]["message"])
                return told["result"]

    def value(self, expression, seconds=SECONDS):
        """The value of an expression in the page, once it is there where it is a promise."""
        told = self.call("Runtime.evaluate", seconds, expression=expression, awaitPromise=True, returnByValue=True)
        if "exceptionDetails" in told:
            raise PageError(told["exceptionDetails"].get("exception", {}).get("description", "the page threw"))
        return told["result"].get("value")

    def until(self, expression, seconds=SECONDS):
        """Waits until an expression is true, and says whether it came to be."""
        end = time.monotonic() + seconds
        while time.monotonic() < end:
            if self.value(expression):
                return True
            time.sleep(0.05)
        return False

    def open(self, address):
        self.call("Page.navigate", url=address)

    def type(self, text):
        """Types a text where the cursor is."""
        self.call("Input.insertText", text=text)

    def close(self):
        with contextlib.suppress(PageError, OSError, KeyError):
            self.session = None
            self.call("Browser.close", 10)
        try:
            self.ran.wait(10)
        except subprocess.TimeoutExpired:
            self.ran.terminate()
            self.ran.wait()
        for it in (self.input, self.output):
            os.close(it)
        with contextlib.suppress(OSError):
            self.profile.cleanup()
