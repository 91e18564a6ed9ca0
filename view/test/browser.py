"""A headless Chromium over its debugging pipe: no port and no library.

`Browser()` starts it, or raises NoBrowser where none is installed and none can be by apt. A page is opened by its path, asked by
`js`, which gives the value of an expression, and told what a user does by `key`, `mouse`, `wheel` and `touch`."""
import atexit
import base64
import json
import os
import shutil
import subprocess
import tempfile
import time
import urllib.parse

NAMES = ("chromium-headless-shell", "chromium", "chromium-browser", "google-chrome")
FLAGS = ("--headless", "--no-sandbox", "--disable-gpu", "--hide-scrollbars", "--remote-debugging-pipe")


class NoBrowser(Exception):
    """What was tried for a browser."""


def find():
    """The path of a Chromium, installed by apt where none is there."""
    found = next(filter(None, map(shutil.which, NAMES)), None)
    if found:
        return found
    apt = shutil.which("apt-get")
    if not apt:
        raise NoBrowser("no Chromium is installed, and there is no apt-get to install one")
    quiet = {"stdout": subprocess.DEVNULL, "stderr": subprocess.DEVNULL, "env": dict(os.environ, DEBIAN_FRONTEND="noninteractive")}
    for package in NAMES[:2]:
        # (at its start a machine may be busy with apt itself)
        words = [apt, "-o", "DPkg::Lock::Timeout=300", "install", "-y", "--no-install-recommends", package, "fonts-liberation"]
        if subprocess.run(words, **quiet).returncode == 0 or \
                subprocess.run([apt, "update"], **quiet).returncode == 0 and subprocess.run(words, **quiet).returncode == 0:
            found = next(filter(None, map(shutil.which, NAMES)), None)
            if found:
                return found
    raise NoBrowser("no Chromium is installed, and apt-get can't install chromium-headless-shell or chromium")


class Browser:
    """One browser with one page."""

    def __init__(self):
        program = find()
        their_in, self.to_browser = os.pipe()
        self.from_browser, their_out = os.pipe()
        self.profile = tempfile.mkdtemp(prefix="life-")

        def pipes():
            one, other = os.dup(their_in), os.dup(their_out)
            os.dup2(one, 3)
            os.dup2(other, 4)

        self.process = subprocess.Popen([program, *FLAGS, "--user-data-dir=" + self.profile], preexec_fn=pipes, close_fds=False,
                                        stdout=subprocess.DEVNULL, stderr=subprocess.DEVNULL)
        os.close(their_in)
        os.close(their_out)
        atexit.register(self.close)
        self.number, self.unread, self.session, self.events = 0, b"", None, []
        target = self.call("Target.createTarget", url="about:blank")["targetId"]
        self.session = self.call("Target.attachToTarget", targetId=target, flatten=True)["sessionId"]
        self.call("Page.enable")
        self.call("Runtime.enable")
        self.call("Accessibility.enable")

    def _read(self):
        while b"\0" not in self.unread:
            octets = os.read(self.from_browser, 1 << 20)
            if not octets:
                raise RuntimeError("the browser went away")
            self.unread += octets
        message, self.unread = self.unread.split(b"\0", 1)
        return json.loads(message)

    def call(self, method, **params):
        """The answer to one message of the debugging protocol."""
        self.number += 1
        message = {"id": self.number, "method": method, "params": params}
        if self.session:
            message["sessionId"] = self.session
        os.write(self.to_browser, json.dumps(message).encode() + b"\0")
        while True:
            answer = self._read()
            if answer.get("id") == self.number:
                if "error" in answer:
                    raise RuntimeError(method + ": " + answer["error"]["message"])
                return answer["result"]
            self.events.append(answer)

    def js(self, source):
        """The value of an expression in the page, awaited where it is a promise."""
        answer = self.call("Runtime.evaluate", expression=source, returnByValue=True, awaitPromise=True)
        if "exceptionDetails" in answer:
            raise RuntimeError(json.dumps(answer["exceptionDetails"])[:600])
        return answer["result"].get("value")

    def errors(self):
        """What the page's script threw."""
        thrown = [e["params"]["exceptionDetails"] for e in self.events if e.get("method") == "Runtime.exceptionThrown"]
        return [details.get("exception", {}).get("description", details["text"])[:300] for details in thrown]

    # ---- What is shown ----

    def size(self, width, height=900, scale=1, touch=False):
        self.call("Emulation.setDeviceMetricsOverride", width=width, height=height, deviceScaleFactor=scale, mobile=touch)
        self.call("Emulation.setTouchEmulationEnabled", enabled=touch, maxTouchPoints=2)

    def media(self, kind="", dark=False):
        scheme = {"name": "prefers-color-scheme", "value": "dark" if dark else "light"}
        self.call("Emulation.setEmulatedMedia", media=kind, features=[scheme])

    def open(self, path, fragment=""):
        """Opens a page and waits until its script has come to its end."""
        self.call("Page.navigate", url="about:blank")
        self.call("Page.navigate", url="file://" + urllib.parse.quote(os.path.abspath(path)) + fragment)
        wait = """new Promise(done => { const end = Date.now() + 20000, look = () => {
            if (location.href != 'about:blank' && document.documentElement?.dataset.ready) requestAnimationFrame(() => done(true));
            else if (Date.now() > end) done(false); else setTimeout(look, 5); }; look(); })"""
        if not self.js(wait):
            raise RuntimeError(path + ": the page's script hasn't come to its end in 20 seconds")

    def settle(self, milliseconds=320):
        """Waits until what was done is drawn, and the page has rested."""
        self.js("new Promise(done => setTimeout(() => requestAnimationFrame(() => done(1)), %d))" % milliseconds)

    def picture(self, path, whole=False):
        data = self.call("Page.captureScreenshot", format="png", captureBeyondViewport=whole)["data"]
        with open(path, "wb") as out:
            out.write(base64.b64decode(data))

    # ---- What a user does ----

    def key(self, key):
        self.call("Input.dispatchKeyEvent", type="keyDown", key=key, text=key if len(key) == 1 else "")
        self.call("Input.dispatchKeyEvent", type="keyUp", key=key)

    def mouse(self, kind, x, y, held=0):
        self.call("Input.dispatchMouseEvent", type="mouse" + kind, x=x, y=y, button="left" if kind != "Moved" or held else "none", buttons=held,
                  clickCount=int(kind != "Moved"))

    def click(self, x, y):
        self.mouse("Pressed", x, y, 1)
        self.mouse("Released", x, y)

    def wheel(self, x, y, down):
        self.call("Input.dispatchMouseEvent", type="mouseWheel", x=x, y=y, deltaX=0, deltaY=down)

    def touch(self, kind, *points):
        """Fingers at points: `Start`, `Move` or `End`."""
        self.call("Input.dispatchTouchEvent", type="touch" + kind, touchPoints=[{"x": x, "y": y, "id": i} for i, (x, y) in enumerate(points)])

    def close(self):
        if self.process.poll() is None:
            try:
                self.call("Browser.close")
            except (RuntimeError, OSError):
                self.process.kill()
            self.process.wait(10)
        for _ in range(20):  # its children may still be writing
            shutil.rmtree(self.profile, ignore_errors=True)
            if not os.path.exists(self.profile):
                break
            time.sleep(.1)
