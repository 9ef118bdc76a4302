"""A headless Chromium, controlled through pipes: what it opens, and what its page contains."""
import base64
import json
import os
import shutil
import subprocess
import tempfile

WORDS = [
    "chromium",
    "--headless=new",
    "--no-sandbox",
    "--disable-gpu",
    "--remote-debugging-pipe",
    "--window-size=1400,1000",
]


class Failed(Exception):
    """A page differs from what it must be."""


def must(holds, told):
    if not holds:
        raise Failed(told)


class Browser:
    """One tab of a browser of its own, with a profile that is removed with it."""

    def __init__(self):
        self.profile = tempfile.mkdtemp()
        read, self.to = os.pipe()
        self.back, write = os.pipe()
        self.run = subprocess.Popen(
            [*WORDS, f"--user-data-dir={self.profile}", "about:blank"],
            close_fds=False,
            preexec_fn=lambda: to_3_and_4(read, write),
            stdout=subprocess.DEVNULL,
            stderr=subprocess.DEVNULL,
        )
        os.close(read)
        os.close(write)
        self.asked, self.rest, self.session = 0, b"", {}
        tab = self.ask("Target.createTarget", url="about:blank")["targetId"]
        self.session = {"sessionId": self.ask("Target.attachToTarget", targetId=tab, flatten=True)["sessionId"]}
        self.ask("Page.enable")

    def __enter__(self):
        return self

    def __exit__(self, *_):
        self.run.terminate()
        self.run.wait(20)
        os.close(self.to)
        os.close(self.back)
        shutil.rmtree(self.profile, ignore_errors=True)

    def told(self):
        """The next message of the browser."""
        while b"\0" not in self.rest:
            more = os.read(self.back, 1 << 20)
            if not more:
                raise ConnectionError("the browser has ended")
            self.rest += more
        message, self.rest = self.rest.split(b"\0", 1)
        return json.loads(message)

    def ask(self, method, **params):
        """Sends a request, and returns the answer. The browser's messages before the answer are ignored."""
        self.asked += 1
        request = json.dumps({"id": self.asked, "method": method, "params": params, **self.session}).encode() + b"\0"
        while request:
            request = request[os.write(self.to, request) :]
        while (answer := self.told()).get("id") != self.asked:
            pass
        if "error" in answer:
            raise ValueError(f"{method}: {answer['error']}")
        return answer["result"]

    def open(self, file, step=0):
        """Opens a film at a step, and waits until its script has run."""
        self.ask("Page.navigate", url="about:blank")
        self.ask("Page.navigate", url=f"file://{file}#{step}")
        while self.value("document.readyState + location.protocol") != "completefile:":
            pass

    def value(self, expression):
        """The value of an expression in the page."""
        answer = self.ask("Runtime.evaluate", expression=expression, returnByValue=True, awaitPromise=True)
        if "exceptionDetails" in answer:
            raise ValueError(f"{expression}: {answer['exceptionDetails']}")
        return answer["result"].get("value")

    def press(self, key):
        for kind in ("keyDown", "keyUp"):
            self.ask("Input.dispatchKeyEvent", type=kind, key=key, code=key)

    def size(self, width, height):
        """Gives the window this size, in pixels."""
        self.ask("Emulation.setDeviceMetricsOverride", width=width, height=height, deviceScaleFactor=1, mobile=False)

    def dark(self, on):
        self.ask(
            "Emulation.setEmulatedMedia",
            features=[{"name": "prefers-color-scheme", "value": "dark" if on else "light"}],
        )

    def shot(self):
        """A picture of the page, as PNG."""
        return base64.b64decode(self.ask("Page.captureScreenshot", format="png")["data"])

    def names(self, role):
        """The names that a screen reader finds of elements with this role."""
        nodes = self.ask("Accessibility.getFullAXTree")["nodes"]
        return [node.get("name", {}).get("value", "") for node in nodes if node.get("role", {}).get("value") == role]


def to_3_and_4(read, write):
    """Makes these ends 3 and 4 in the browser's process, which reads from 3 and writes to 4."""
    for end, place in ((read, 103), (write, 104), (103, 3), (104, 4)):
        os.dup2(end, place, inheritable=True)
