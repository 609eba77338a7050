"""A headless Chromium that is asked by its DevTools protocol, over two pipes.

`find_browser` names the one that is installed, or None. A `Browser` opens pages, one at a time: `open`, `ask` (an expression of
JavaScript, and what it gives), `picture`; `told` has what pages wrote to the console as errors, and exceptions that they didn't catch.
"""
import base64
import json
import os
import select
import shutil
import subprocess
import tempfile
import time

NAMES = ("chromium-headless-shell", "chromium", "chromium-browser", "google-chrome", "google-chrome-stable")


def find_browser():
    return next(filter(None, map(shutil.which, NAMES)), None)


class Browser:
    def __init__(self, program, limit=120):
        self.limit = limit
        self.number = 0
        self.kept = b""
        self.told = []
        self.events = []
        self.folder = tempfile.mkdtemp()
        flags = ["--headless", "--remote-debugging-pipe", f"--user-data-dir={self.folder}", "--disable-gpu", "--no-first-run"]
        if os.geteuid() == 0:
            flags.append("--no-sandbox")
        read_asked, self.ask_end = os.pipe()
        self.answer_end, write_answer = os.pipe()

        # it reads what is asked from descriptor 3, and answers to descriptor 4
        def wire():
            high = os.dup(read_asked), os.dup(write_answer)
            spare = [os.dup(end) for end in high]
            os.dup2(spare[0], 3)
            os.dup2(spare[1], 4)

        quiet = subprocess.DEVNULL
        self.process = subprocess.Popen(
            [program, *flags, "about:blank"], stdin=quiet, stdout=quiet, stderr=quiet, preexec_fn=wire, pass_fds=(3, 4)
        )
        os.close(read_asked)
        os.close(write_answer)
        self.session = None
        target = self.call("Target.createTarget", url="about:blank")["targetId"]
        self.session = self.call("Target.attachToTarget", targetId=target, flatten=True)["sessionId"]
        for domain in ("Page", "Runtime", "Log"):
            self.call(f"{domain}.enable")

    def close(self):
        self.process.terminate()
        self.process.wait()
        shutil.rmtree(self.folder, ignore_errors=True)

    def message(self, until):
        """The next message of the browser."""
        while b"\0" not in self.kept:
            if not select.select([self.answer_end], [], [], max(0, until - time.monotonic()))[0]:
                raise TimeoutError("the browser doesn't answer")
            given = os.read(self.answer_end, 1 << 20)
            if not given:
                raise EOFError("the browser ended")
            self.kept += given
        text, _, self.kept = self.kept.partition(b"\0")
        return json.loads(text)

    def note(self, message):
        """Keeps the name of an event, and what was told as an error."""
        self.events.append(message["method"])
        if message["method"] == "Runtime.exceptionThrown":
            details = message["params"]["exceptionDetails"]
            self.told.append(details.get("exception", {}).get("description") or details["text"])
        elif message["method"] == "Log.entryAdded" and message["params"]["entry"]["level"] == "error":
            self.told.append(message["params"]["entry"]["text"])

    def call(self, method, **params):
        self.number += 1
        asked = {"id": self.number, "method": method, "params": params}
        if self.session:
            asked["sessionId"] = self.session
        text = json.dumps(asked).encode() + b"\0"
        while text:
            text = text[os.write(self.ask_end, text) :]
        until = time.monotonic() + self.limit
        while True:
            message = self.message(until)
            if message.get("id") == self.number:
                if "error" in message:
                    raise RuntimeError(f"{method}: {message['error']['message']}")
                return message["result"]
            if "method" in message:
                self.note(message)

    def open(self, address):
        """Opens a page, and waits until all of it is there. (The page between loads it anew where only what is behind # differs.)"""
        for wanted in ("about:blank", address):
            self.events.clear()
            self.call("Page.navigate", url=wanted)
            until = time.monotonic() + self.limit
            while "Page.loadEventFired" not in self.events:
                message = self.message(until)
                if "method" in message:
                    self.note(message)

    def ask(self, expression):
        """What an expression of JavaScript gives in the page; a promise is waited for."""
        given = self.call("Runtime.evaluate", expression=expression, awaitPromise=True, returnByValue=True)
        if "exceptionDetails" in given:
            details = given["exceptionDetails"]
            raise RuntimeError(details.get("exception", {}).get("description") or details["text"])
        return given["result"].get("value")

    def size(self, width, height, scale=1):
        self.call("Emulation.setDeviceMetricsOverride", width=width, height=height, deviceScaleFactor=scale, mobile=False)

    def scheme(self, name):
        """`light` or `dark`."""
        self.call("Emulation.setEmulatedMedia", features=[{"name": "prefers-color-scheme", "value": name}])

    def picture(self, path, of=None):
        """A picture of what is seen of the page, or of an element that is seen at its top, as PNG."""
        how = {}
        if of:
            box = self.ask(f"scrollTo(0, 0); (({{x, y, width, height}}) => ({{x, y, width, height}}))({of}.getBoundingClientRect())")
            how = {"clip": box | {"height": int(box["height"]), "scale": 1}}
        data = base64.b64decode(self.call("Page.captureScreenshot", format="png", **how)["data"])
        with open(path, "wb") as file:
            file.write(data)
        return data
