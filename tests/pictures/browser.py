"""Debian's chromium without a window, over the pipes of its DevTools protocol.

    tests/pictures/browser.py PAGE PNG WIDTH HEIGHT    # a screenshot of a page
"""

import base64
import json
import os
import select
import shutil
import subprocess
import sys
import tempfile
import time

NAME = "chromium"
SECONDS = 60
# What a page may not do: an exception, or a line of these kinds on the console or in the log.
BAD = ("error", "warning", "assert")


def is_there():
    return shutil.which(NAME) is not None


class Failed(Exception):
    """What the browser said of a command, or that it said nothing."""


class Browser:
    """A browser with one page. What that page complains of is kept."""

    def __init__(self, width=1200, height=1000):
        self.folder = tempfile.mkdtemp(prefix="nbdcheck-")
        to_read, self.to = os.pipe()
        self.answers, to_write = os.pipe()
        self.child = subprocess.Popen(
            ["sh", "-c", f'exec "$@" 3<&{to_read} 4>&{to_write}', "sh", NAME, "--headless=new", "--no-sandbox", "--disable-gpu",
             "--disable-background-networking", "--no-first-run", f"--user-data-dir={self.folder}", f"--window-size={width},{height}",
             "--hide-scrollbars", "--remote-debugging-pipe", "about:blank"],
            pass_fds=(to_read, to_write), stdin=subprocess.DEVNULL, stdout=subprocess.DEVNULL, stderr=subprocess.DEVNULL,
            env={**os.environ, "HOME": self.folder})
        os.close(to_read)
        os.close(to_write)
        self.count, self.held, self.events, self.complaints, self.session = 0, b"", [], [], None
        target = next(found for found in self.send("Target.getTargets")["targetInfos"] if found["type"] == "page")
        self.session = self.send("Target.attachToTarget", targetId=target["targetId"], flatten=True)["sessionId"]
        for domain in ("Page", "Runtime", "Log", "Network", "Accessibility"):
            self.send(f"{domain}.enable")
        self.send("Emulation.setDeviceMetricsOverride", width=width, height=height, deviceScaleFactor=1, mobile=False)

    def __enter__(self):
        return self

    def __exit__(self, *_):
        os.close(self.to)
        try:
            self.child.wait(10)
        except subprocess.TimeoutExpired:
            self.child.kill()
            self.child.wait()
        os.close(self.answers)
        shutil.rmtree(self.folder, ignore_errors=True)

    def _message(self, until):
        """The next message of the browser."""
        while b"\0" not in self.held:
            if not select.select([self.answers], [], [], max(until - time.monotonic(), 0))[0]:
                raise Failed("the browser did not answer")
            part = os.read(self.answers, 1 << 20)
            if not part:
                raise Failed("the browser ended")
            self.held += part
        text, _, self.held = self.held.partition(b"\0")
        return json.loads(text)

    def _keep(self, event):
        """Keeps an event, and what it says of a mistake of the page or of what it asks for."""
        kind, told = event["method"], event.get("params", {})
        self.events.append(kind)
        if kind == "Runtime.exceptionThrown":
            self.complaints.append(told["exceptionDetails"].get("exception", {}).get("description", str(told)))
        elif kind == "Runtime.consoleAPICalled" and told["type"] in BAD:
            self.complaints.append(str(told["args"]))
        elif kind == "Log.entryAdded" and told["entry"]["level"] in BAD:
            self.complaints.append(told["entry"]["text"])
        elif kind == "Network.requestWillBeSent" and not told["request"]["url"].startswith(("file:", "about:")):
            self.complaints.append(f"asks for {told['request']['url'][:80]}")

    def send(self, method, **words):
        """The answer to a command."""
        self.count += 1
        asked = {"id": self.count, "method": method, "params": words, **({"sessionId": self.session} if self.session else {})}
        data = json.dumps(asked).encode() + b"\0"
        while data:
            data = data[os.write(self.to, data) :]
        until = time.monotonic() + SECONDS
        while True:
            message = self._message(until)
            if message.get("id") == self.count:
                if "error" in message:
                    raise Failed(f"{method}: {message['error']['message']}")
                return message["result"]
            if "method" in message:
                self._keep(message)

    def open(self, path):
        """Opens a file, and answers how many seconds it took until it was drawn."""
        self.events.clear()
        begun = time.monotonic()
        self.send("Page.navigate", url=f"file://{path}")
        while "Page.loadEventFired" not in self.events:
            message = self._message(begun + SECONDS)
            if "method" in message:
                self._keep(message)
        self.ask("new Promise((done) => requestAnimationFrame(() => requestAnimationFrame(() => done(1))))")
        return time.monotonic() - begun

    def ask(self, script):
        """What a script in the page gives."""
        found = self.send("Runtime.evaluate", expression=script, awaitPromise=True, returnByValue=True)
        if "exceptionDetails" in found:
            raise Failed(str(found["exceptionDetails"]))
        return found["result"].get("value")

    def press(self, key, text=None):
        """A key that is pressed and let go."""
        more = {"text": text} if text else {}
        self.send("Input.dispatchKeyEvent", type="keyDown", key=key, **more)
        self.send("Input.dispatchKeyEvent", type="keyUp", key=key)

    def click(self, x, y):
        for kind in ("mousePressed", "mouseReleased"):
            self.send("Input.dispatchMouseEvent", type=kind, x=x, y=y, button="left", buttons=1, clickCount=1)

    def drag(self, x, y, step):
        """Moves the mouse so far to the right, with its button held."""
        for kind, at in (("mousePressed", x), ("mouseMoved", x + step / 2), ("mouseMoved", x + step), ("mouseReleased", x + step)):
            self.send("Input.dispatchMouseEvent", type=kind, x=at, y=y, button="left", buttons=1, clickCount=1)

    def turn(self, x, y, step, control):
        """Turns the mouse's wheel, with the control key or without."""
        self.send("Input.dispatchMouseEvent", type="mouseWheel", x=x, y=y, deltaX=0, deltaY=step, modifiers=2 if control else 0)

    def named(self, role, name=None):
        """The names of what has this role for a screen reader; with a name, those that have it."""
        words = {"role": role, **({"accessibleName": name} if name else {})}
        root = self.send("DOM.getDocument")["root"]["nodeId"]
        found = self.send("Accessibility.queryAXTree", nodeId=root, **words)["nodes"]
        return [node["name"]["value"] for node in found if not node["ignored"]]

    def picture(self, path):
        """Writes what is seen as a PNG file."""
        data = self.send("Page.captureScreenshot", format="png")["data"]
        with open(path, "wb") as file:
            file.write(base64.b64decode(data))


def main():
    page, png, width, height = sys.argv[1:]
    with Browser(int(width), int(height)) as shown:
        shown.open(os.path.abspath(page))
        shown.picture(png)


if __name__ == "__main__":
    main()
