"""A headless Chromium that a test drives through a pipe, by the DevTools protocol. It is no test itself."""
import base64
import json
import os
import shutil
import subprocess
import time

SECONDS = 60
PAUSE = 0.01
# The keys that tests press, by what a page calls them: the number of the key, and the text that it writes.
KEYS = {
    "Enter": (13, "\r"),
    "Escape": (27, ""),
    "PageUp": (33, ""),
    "PageDown": (34, ""),
    "End": (35, ""),
    "Home": (36, ""),
    "ArrowLeft": (37, ""),
    "ArrowUp": (38, ""),
    "ArrowRight": (39, ""),
    "ArrowDown": (40, ""),
    "/": (191, "/"),
}


def chromium():
    """The program, None where it is not installed."""
    return shutil.which("chromium") or shutil.which("chromium-browser") or shutil.which("google-chrome")


class Browser:
    """A browser with one page. Its files are in a folder of its own, and it ends with its `with`."""

    def __init__(self, room):
        words = [chromium(), "--headless", "--no-sandbox", "--disable-gpu", "--remote-debugging-pipe", "--mute-audio"]
        words += ["--user-data-dir=%s" % room, "--hide-scrollbars", "about:blank"]
        commands, self.commands = os.pipe()
        self.answers, answers = os.pipe()
        script = 'exec "${@:3}" 3<&"$1" 4>&"$2"'
        started = ["bash", "-c", script, "bash", str(commands), str(answers), *words]
        quiet = {"stdin": subprocess.DEVNULL, "stdout": subprocess.DEVNULL, "stderr": subprocess.DEVNULL}
        self.process = subprocess.Popen(started, pass_fds=[commands, answers], **quiet)
        os.close(commands)
        os.close(answers)
        self.number, self.session, self.read = 0, None, b""
        target = self.ask("Target.createTarget", url="about:blank")["targetId"]
        self.session = self.ask("Target.attachToTarget", targetId=target, flatten=True)["sessionId"]

    def __enter__(self):
        return self

    def __exit__(self, *_):
        self.session = None
        self.ask("Browser.close")
        self.process.wait(SECONDS)
        os.close(self.commands)
        os.close(self.answers)

    def message(self):
        """The next message of the browser."""
        while b"\0" not in self.read:
            piece = os.read(self.answers, 1 << 20)
            if not piece:
                raise RuntimeError("the browser has ended")
            self.read += piece
        message, _, self.read = self.read.partition(b"\0")
        return json.loads(message)

    def ask(self, method, **params):
        """What the browser answers to a request."""
        self.number += 1
        request = {"id": self.number, "method": method, "params": params}
        if self.session:
            request["sessionId"] = self.session
        os.write(self.commands, json.dumps(request).encode() + b"\0")
        answer = {}
        while answer.get("id") != self.number:
            answer = self.message()
        if "error" in answer:
            raise RuntimeError("%s: %s" % (method, answer["error"]))
        return answer["result"]

    def value(self, script):
        """The value of an expression in the page."""
        answer = self.ask("Runtime.evaluate", expression=script, returnByValue=True, awaitPromise=True)
        if "exceptionDetails" in answer:
            raise RuntimeError("%s: %s" % (script, answer["exceptionDetails"]))
        return answer["result"].get("value")

    def open(self, address, ready):
        """Opens a page, and waits until an expression holds in it."""
        self.ask("Page.navigate", url="about:blank")
        self.ask("Page.navigate", url=address)
        end = time.monotonic() + SECONDS
        while not self.value(ready):
            if time.monotonic() > end:
                raise RuntimeError("%s is not ready" % address)
            time.sleep(PAUSE)

    def press(self, *keys):
        """Presses keys, one after the other."""
        for key in keys:
            code, text = KEYS.get(key, (ord(key.upper()) if len(key) == 1 else 0, key))
            given = {"key": key, "windowsVirtualKeyCode": code}
            self.ask("Input.dispatchKeyEvent", type="keyDown", text=text, **given)
            self.ask("Input.dispatchKeyEvent", type="keyUp", **given)

    def look(self, width, height, scheme):
        """Makes the page so wide and high, light or dark."""
        size = {"width": width, "height": height, "deviceScaleFactor": 1, "mobile": False}
        self.ask("Emulation.setDeviceMetricsOverride", **size)
        self.ask("Emulation.setEmulatedMedia", features=[{"name": "prefers-color-scheme", "value": scheme}])
        self.value("new Promise((done) => requestAnimationFrame(() => requestAnimationFrame(done)))")

    def picture(self):
        """A picture of the page, as a PNG."""
        return base64.b64decode(self.ask("Page.captureScreenshot", format="png")["data"])

    def spoken(self):
        """What a screen reader is told: the nodes of the accessibility tree that are not left out."""
        nodes = self.ask("Accessibility.getFullAXTree")["nodes"]
        return [node for node in nodes if not node["ignored"]]
