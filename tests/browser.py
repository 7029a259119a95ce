"""Chromium without a window, driven by the DevTools protocol over a pipe: opens pages, clicks, presses keys, reads, and records what a page
asks for and what is logged. The standard library alone."""

import base64
import fcntl
import json
import os
import select
import shutil
import subprocess
import sys
import tempfile
import time

NAMES = ("chromium", "chromium-browser", "google-chrome")
INSTALL = "apt-get install --yes --no-install-recommends chromium"
SECONDS = 120
# A page that does nothing wrong causes none of these but the request of its own file.
RECORDED = (
    "Network.requestWillBeSent", "Network.webSocketCreated", "Log.entryAdded", "Runtime.consoleAPICalled", "Runtime.exceptionThrown",
    "Page.javascriptDialogOpening", "Page.windowOpen", "Page.downloadWillBegin", "Inspector.targetCrashed",
)  # fmt: skip
# What a key event needs beside the name of its key: the code of the key.
KEYS = {"ArrowLeft": 37, "ArrowRight": 39, "Home": 36, "End": 35, "Enter": 13, "Tab": 9, " ": 32, "ArrowUp": 38}


def found():
    """The program of the browser, installed where that is allowed."""
    path = next(filter(None, map(shutil.which, NAMES)), None)
    if path is None and os.geteuid() == 0 and shutil.which("apt-get"):
        quiet = {**os.environ, "DEBIAN_FRONTEND": "noninteractive"}
        for line in ("apt-get update", INSTALL):
            subprocess.run(line.split(), env=quiet, stdout=subprocess.DEVNULL, stderr=subprocess.DEVNULL)
        path = shutil.which("chromium")
    return path or sys.exit(f"there is no {', '.join(NAMES)}; on Debian: sudo {INSTALL}")


def far(descriptor):
    """The same open file under a number that is neither 3 nor 4, where the browser is going to look for its own."""
    moved = fcntl.fcntl(descriptor, fcntl.F_DUPFD, 10)
    os.close(descriptor)
    return moved


class Browser:
    """A browser with one page."""

    def __init__(self):
        self.profile = tempfile.mkdtemp(prefix="page-")
        flags = ["--headless=new", "--remote-debugging-pipe", "--disable-gpu", "--no-first-run", "--disable-background-networking",
                 "--disable-dev-shm-usage", "--hide-scrollbars", f"--user-data-dir={self.profile}"]  # fmt: skip
        if os.geteuid() == 0:
            flags.append("--no-sandbox")
        (to_read, self.asks), (self.answers, to_write) = [tuple(map(far, os.pipe())) for _ in range(2)]
        self.process = subprocess.Popen(
            [found(), *flags, "about:blank"], stdin=subprocess.DEVNULL, stdout=subprocess.DEVNULL, stderr=subprocess.DEVNULL,
            preexec_fn=lambda: (os.dup2(to_read, 3), os.dup2(to_write, 4)), pass_fds=(3, 4),
        )  # fmt: skip
        os.close(to_read)
        os.close(to_write)
        self.buffer, self.asked, self.session, self.events = bytearray(), 0, None, []
        self.attach()

    def attach(self):
        target = self.ask("Target.createTarget", url="about:blank")["targetId"]
        self.session = self.ask("Target.attachToTarget", targetId=target, flatten=True)["sessionId"]
        for domain in ("Page", "Runtime", "Log", "Network"):
            self.ask(f"{domain}.enable")
        self.ask("Page.setLifecycleEventsEnabled", enabled=True)

    def close(self):
        self.ask("Browser.close")
        self.process.wait(SECONDS)
        shutil.rmtree(self.profile, ignore_errors=True)

    # ---- the protocol

    def message(self):
        """The next message of the browser."""
        deadline = time.monotonic() + SECONDS
        while (end := self.buffer.find(0)) < 0:
            if not select.select([self.answers], [], [], max(0, deadline - time.monotonic()))[0]:
                sys.exit(f"{NAMES[0]} does not answer")
            read = os.read(self.answers, 1 << 20)
            if not read:
                sys.exit(f"{NAMES[0]} has ended: {self.process.wait()}")
            self.buffer += read
        told = json.loads(self.buffer[:end])
        del self.buffer[: end + 1]
        return told

    def ask(self, method, **params):
        self.asked += 1
        asked = {"id": self.asked, "method": method, "params": params}
        if self.session:
            asked["sessionId"] = self.session
        os.write(self.asks, json.dumps(asked).encode() + b"\0")
        while (told := self.message()).get("id") != self.asked:
            self.events.append(told)
        if "error" in told:
            sys.exit(f"{method} {params}: {told['error']}")
        return told["result"]

    def await_load(self, loader):
        """Waits until the page that a navigation loads is there."""
        def is_load(event):
            told = event.get("params", {})
            return event.get("method") == "Page.lifecycleEvent" and (told["loaderId"], told["name"]) == (loader, "load")
        while not any(map(is_load, self.events)):
            self.events.append(self.message())

    # ---- a page

    def open(self, path):
        """Opens a file, in place of the page before."""
        self.events.clear()
        self.opened = f"file://{path}"
        self.await_load(self.ask("Page.navigate", url=self.opened)["loaderId"])

    def recorded(self):
        """What happened since the page was opened, but for the request of its own file."""
        seen = [event for event in self.events if event.get("method") in RECORDED]
        return [event for event in seen if event["params"].get("request", {}).get("url") != self.opened]

    def evaluate(self, expression):
        told = self.ask("Runtime.evaluate", expression=expression, returnByValue=True, awaitPromise=True)
        if "exceptionDetails" in told:
            sys.exit(f"{expression}: {told['exceptionDetails']['exception'].get('description')}")
        return told["result"].get("value")

    def click(self, element):
        """Clicks into the middle of an element, which an expression gives."""
        place = self.evaluate(f"(() => {{ const e = {element}; e.scrollIntoView({{block: 'center'}}); const r = e.getBoundingClientRect();"
                              " return [r.x + r.width / 2, r.y + r.height / 2]; })()")  # fmt: skip
        for kind in ("mousePressed", "mouseReleased"):
            self.ask("Input.dispatchMouseEvent", type=kind, x=place[0], y=place[1], button="left", clickCount=1)

    def press(self, key, modifiers=0):
        code = {"key": key, "code": key, "windowsVirtualKeyCode": KEYS[key], "modifiers": modifiers}
        text = {"text": "\r"} if key == "Enter" else {}
        self.ask("Input.dispatchKeyEvent", type="keyDown", **code, **text)
        self.ask("Input.dispatchKeyEvent", type="keyUp", **code)

    def resize(self, width, height):
        self.ask("Emulation.setDeviceMetricsOverride", width=width, height=height, deviceScaleFactor=1, mobile=False)

    def media(self, scheme="light", media=""):
        self.ask("Emulation.setEmulatedMedia", media=media, features=[{"name": "prefers-color-scheme", "value": scheme}])

    def screenshot(self, path):
        data = self.ask("Page.captureScreenshot", format="png", optimizeForSpeed=False)["data"]
        path.write_bytes(base64.b64decode(data))
