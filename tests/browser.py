"""A headless Chromium for tests and benches, led by its DevTools protocol over a pipe.

    with Browser() as browser:
        page = browser.open(path)
        page.value("document.title")

Texts go both ways as JSON with a NUL behind each, by the descriptors 3 and 4 of the browser.
"""

import contextlib
import json
import os
import pathlib
import select
import shutil
import signal
import subprocess
import tempfile
import time

CHROMIUM = shutil.which("chromium")
SECONDS = 60
WORDS = [
    "--headless", "--no-sandbox", "--disable-gpu", "--no-first-run", "--disable-extensions",
    "--disable-background-networking", "--disable-component-update", "--disable-dev-shm-usage",
    "--remote-debugging-pipe",
]
# How a key is told, besides its name.
KEYS = {"Enter": 13, "Tab": 9, "End": 35, "Home": 36, "ArrowUp": 38, "ArrowDown": 40,
        "ArrowLeft": 37, "ArrowRight": 39, "Escape": 27}


class Refused(Exception):
    """What the browser, or a script in the page, says against a call."""


class Browser:
    """A browser with a profile of its own, which is gone at the end."""

    def __enter__(self):
        self.stack = contextlib.ExitStack()
        folder = self.stack.enter_context(tempfile.TemporaryDirectory(ignore_cleanup_errors=True))
        to_browser, self.writer = os.pipe()
        self.reader, from_browser = os.pipe()
        shell = f"exec 3<&{to_browser} 4>&{from_browser}; exec \"$@\""
        self.process = subprocess.Popen(
            ["bash", "-c", shell, "bash", CHROMIUM, *WORDS, f"--user-data-dir={folder}"],
            stdin=subprocess.DEVNULL, stdout=subprocess.DEVNULL, stderr=subprocess.DEVNULL,
            pass_fds=(to_browser, from_browser), start_new_session=True,
        )
        self.stack.callback(self.end)
        os.close(to_browser)
        os.close(from_browser)
        self.rest, self.calls, self.events = b"", 0, []
        return self

    def __exit__(self, *_):
        self.stack.close()

    def end(self):
        os.close(self.writer)
        os.close(self.reader)
        with contextlib.suppress(ProcessLookupError):
            os.killpg(self.process.pid, signal.SIGKILL)
        self.process.wait()

    def message(self, until):
        while b"\0" not in self.rest:
            left = until - time.monotonic()
            if left <= 0 or not select.select([self.reader], [], [], left)[0]:
                raise Refused(f"the browser said nothing for {SECONDS} s")
            part = os.read(self.reader, 1 << 20)
            if not part:
                raise Refused("the browser ended")
            self.rest += part
        text, _, self.rest = self.rest.partition(b"\0")
        return json.loads(text)

    def call(self, method, session=None, **parameters):
        self.calls += 1
        call = {"id": self.calls, "method": method, "params": parameters}
        if session:
            call["sessionId"] = session
        os.write(self.writer, json.dumps(call).encode() + b"\0")
        until = time.monotonic() + SECONDS
        while True:
            message = self.message(until)
            if message.get("id") == call["id"]:
                if "error" in message:
                    raise Refused(f"{method}: {message['error']['message']}")
                return message["result"]
            self.events.append(message)

    def open(self, path, width=1280, height=800, settings=()):
        """A page of its own with a file, once it is loaded."""
        target = self.call("Target.createTarget", url="about:blank")["targetId"]
        found = self.call("Target.attachToTarget", targetId=target, flatten=True)
        page = Page(self, found["sessionId"])
        for domain in ("Page", "Runtime", "Log"):
            page.call(f"{domain}.enable")
        page.call("Emulation.setDeviceMetricsOverride", width=width, height=height,
                  deviceScaleFactor=1, mobile=False)
        page.call("Emulation.setEmulatedMedia",
                  features=[{"name": name, "value": value} for name, value in settings])
        address, _, place = str(path).partition("#")
        page.go(pathlib.Path(address).absolute().as_uri() + (f"#{place}" if place else ""))
        return page


class Page:
    def __init__(self, browser, session):
        self.browser, self.session = browser, session

    def call(self, method, **parameters):
        return self.browser.call(method, self.session, **parameters)

    def go(self, address):
        found = self.call("Page.navigate", url=address)
        if found.get("errorText"):
            raise Refused(f"{address}: {found['errorText']}")
        self.wait_for("Page.loadEventFired")

    def wait_for(self, method):
        until = time.monotonic() + SECONDS
        events = self.browser.events
        while not any(it.get("method") == method and it.get("sessionId") == self.session
                      for it in events):
            events.append(self.browser.message(until))

    def value(self, expression):
        found = self.call("Runtime.evaluate", expression=expression, returnByValue=True,
                          awaitPromise=True)
        if "exceptionDetails" in found:
            raise Refused(str(found["exceptionDetails"])[:500])
        return found["result"].get("value")

    def wait_until(self, expression):
        until = time.monotonic() + SECONDS
        while not self.value(expression):
            if time.monotonic() > until:
                raise Refused(f"it isn't true: {expression}")
            time.sleep(0.02)

    def press(self, key, shift=False):
        code = {"key": key, "code": key, "windowsVirtualKeyCode": KEYS[key],
                "modifiers": 8 if shift else 0}
        if key == "Enter":
            code["text"] = "\r"
        self.call("Input.dispatchKeyEvent", type="keyDown", **code)
        self.call("Input.dispatchKeyEvent", type="keyUp", **code)

    def point(self, x, y, click=False):
        self.call("Input.dispatchMouseEvent", type="mouseMoved", x=x, y=y)
        for kind in ("mousePressed", "mouseReleased") if click else ():
            self.call("Input.dispatchMouseEvent", type=kind, x=x, y=y, button="left", clickCount=1)

    def tap(self, x, y):
        self.call("Emulation.setTouchEmulationEnabled", enabled=True)
        self.call("Input.dispatchTouchEvent", type="touchStart", touchPoints=[{"x": x, "y": y}])
        self.call("Input.dispatchTouchEvent", type="touchEnd", touchPoints=[])
        self.call("Emulation.setTouchEmulationEnabled", enabled=False)

    def type(self, text):
        self.call("Input.insertText", text=text)

    def console(self):
        """What the page wrote to its console, and what was wrong with it."""
        self.value("new Promise((done) => setTimeout(done, 50))")
        wanted = ("Runtime.consoleAPICalled", "Runtime.exceptionThrown", "Log.entryAdded")
        return [it["params"] for it in self.browser.events
                if it.get("method") in wanted and it.get("sessionId") == self.session]

    def picture(self):
        """What is seen, as the text of a PNG in base64."""
        return self.call("Page.captureScreenshot", format="png")["data"]
