"""A headless Chromium that is spoken to through two pipes, with Python's standard library alone."""

import base64
import json
import os
import shutil
import subprocess
import tempfile
import time

NAMES = ("chromium", "chromium-browser", "google-chrome", "chrome")
PROGRAM = next((found for found in map(shutil.which, NAMES) if found), None)
FLAGS = ("--headless", "--no-sandbox", "--disable-gpu", "--hide-scrollbars", "--no-first-run", "--remote-debugging-pipe")


class Browser:
    """One page in a browser of its own."""

    def __init__(self, width=1440, height=1000, dark=False):
        self.folder = tempfile.TemporaryDirectory(ignore_cleanup_errors=True)
        to_browser, self.say = os.pipe()
        self.hear, from_browser = os.pipe()

        def wire():
            for end, number in ((os.dup(to_browser), 3), (os.dup(from_browser), 4)):
                os.dup2(end, number)

        self.running = subprocess.Popen(
            [PROGRAM, *FLAGS, f"--user-data-dir={self.folder.name}", "about:blank"],
            preexec_fn=wire, close_fds=False, stdout=subprocess.DEVNULL, stderr=subprocess.DEVNULL,
        )
        os.close(to_browser)
        os.close(from_browser)
        self.left, self.count, self.session, self.troubles = b"", 0, None, []
        target = next(t for t in self.call("Target.getTargets")["targetInfos"] if t["type"] == "page")
        self.session = self.call("Target.attachToTarget", targetId=target["targetId"], flatten=True)["sessionId"]
        self.call("Runtime.enable")
        self.call("Emulation.setDeviceMetricsOverride", width=width, height=height, deviceScaleFactor=1, mobile=False)
        scheme = {"name": "prefers-color-scheme", "value": "dark" if dark else "light"}
        self.call("Emulation.setEmulatedMedia", features=[scheme])

    def __enter__(self):
        return self

    def __exit__(self, *_):
        self.running.terminate()
        self.running.wait()
        os.close(self.say)
        os.close(self.hear)
        self.folder.cleanup()

    def call(self, method, **params):
        """The result of one command."""
        self.count += 1
        told = {"id": self.count, "method": method, "params": params}
        if self.session:
            told["sessionId"] = self.session
        text = json.dumps(told).encode() + b"\0"
        while text:
            text = text[os.write(self.say, text) :]
        while True:
            heard = self.next_message()
            if heard.get("method") == "Runtime.exceptionThrown":
                self.troubles.append(heard["params"]["exceptionDetails"])
            if heard.get("id") == self.count:
                if "error" in heard:
                    raise RuntimeError(f"{method}: {heard['error']}")
                return heard["result"]

    def next_message(self):
        while b"\0" not in self.left:
            more = os.read(self.hear, 1 << 16)
            if not more:
                raise RuntimeError("the browser ended")
            self.left += more
        message, self.left = self.left.split(b"\0", 1)
        return json.loads(message)

    def open(self, path):
        """Opens a file, and answers after how many seconds it was drawn."""
        start = time.monotonic()
        self.call("Page.navigate", url=f"file://{path}")
        while self.value("location.pathname + document.readyState") != f"{path}complete":
            time.sleep(0.01)
        self.settle()
        return time.monotonic() - start

    def value(self, text):
        """What an expression in the page gives."""
        told = self.call("Runtime.evaluate", expression=text, returnByValue=True, awaitPromise=True)
        if "exceptionDetails" in told:
            raise RuntimeError(told["exceptionDetails"].get("exception", {}).get("description", text))
        return told["result"].get("value")

    def settle(self):
        self.value("new Promise((done) => requestAnimationFrame(() => requestAnimationFrame(done)))")

    def key(self, name, shift=False):
        for kind in ("rawKeyDown", "keyUp"):
            self.call("Input.dispatchKeyEvent", type=kind, key=name, modifiers=8 if shift else 0)
        self.settle()

    def picture(self, path, whole=False):
        told = self.call("Page.captureScreenshot", format="png", captureBeyondViewport=whole)
        with open(path, "wb") as file:
            file.write(base64.b64decode(told["data"]))
