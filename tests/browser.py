"""A headless Chromium for the tests of pages. It is driven by the protocol of its developer
tools, over a pipe."""

import base64
import json
import os
import shutil
import subprocess
import tempfile
import time

NAMES = ("chromium", "chromium-browser", "google-chrome")
SECONDS = 120  # for the browser to answer


def browser_path():
    """The path of a browser, or None."""
    return next((path for path in map(shutil.which, NAMES) if path), None)


class Browser:
    """A browser with one page. `said` has the messages on the page's console, and its uncaught
    errors."""

    def __init__(self, width=1280, height=800):
        self.profile = tempfile.mkdtemp()
        to_read, self.to = os.pipe()
        self.back, from_write = os.pipe()

        def pipes():
            """Gives the browser its end of both pipes: it reads descriptor 3 and writes 4."""
            os.dup2(to_read, 63)
            os.dup2(from_write, 64)
            os.dup2(63, 3)
            os.dup2(64, 4)
        words = ["--headless=new", "--no-sandbox", "--disable-gpu", "--disable-dev-shm-usage", "--hide-scrollbars", "--no-first-run",
                 "--remote-debugging-pipe", f"--window-size={width},{height}", f"--user-data-dir={self.profile}", "about:blank"]
        self.process = subprocess.Popen([browser_path(), *words], preexec_fn=pipes, pass_fds=(3, 4, to_read, from_write),
                                        stdin=subprocess.DEVNULL, stdout=subprocess.DEVNULL, stderr=subprocess.DEVNULL)
        os.close(to_read)
        os.close(from_write)
        self.number, self.rest, self.said, self.session = 0, b"", [], None
        target = self.call("Target.createTarget", url="about:blank")["targetId"]
        self.session = self.call("Target.attachToTarget", targetId=target, flatten=True)["sessionId"]
        for domain in ("Page", "Runtime", "Log"):
            self.call(f"{domain}.enable")
        self.call("Emulation.setDeviceMetricsOverride", width=width, height=height, deviceScaleFactor=1, mobile=False)

    def __enter__(self):
        return self

    def __exit__(self, *_):
        self.process.kill()
        self.process.wait()
        os.close(self.to)
        os.close(self.back)
        shutil.rmtree(self.profile, ignore_errors=True)

    def call(self, method, **parameters):
        """Calls a method, and returns its result."""
        self.number += 1
        message = {"id": self.number, "method": method, "params": parameters}
        if self.session:
            message["sessionId"] = self.session
        os.write(self.to, json.dumps(message).encode() + b"\0")
        return self.until(lambda found: found.get("id") == self.number, method)

    def until(self, is_it, what):
        """Reads messages up to the first for which `is_it` holds, and keeps the page's complaints."""
        end = time.monotonic() + SECONDS
        while time.monotonic() < end:
            while b"\0" not in self.rest:
                part = os.read(self.back, 1 << 20)
                if not part:
                    raise RuntimeError(f"the browser ended before {what}")
                self.rest += part
            text, _, self.rest = self.rest.partition(b"\0")
            found = json.loads(text)
            self.listen(found)
            if is_it(found):
                if "error" in found:
                    raise RuntimeError(f"{what}: {found['error']}")
                return found.get("result", found)
        raise RuntimeError(f"the browser says nothing to {what}")

    def listen(self, found):
        """Keeps a message on the console, or an uncaught error, in `said`."""
        if found.get("method") == "Runtime.exceptionThrown":
            self.said.append(found["params"]["exceptionDetails"].get("exception", {}).get("description", "an exception"))
        elif found.get("method") == "Runtime.consoleAPICalled":
            self.said.append(" ".join(str(one.get("value")) for one in found["params"]["args"]))
        elif found.get("method") == "Log.entryAdded":
            self.said.append(found["params"]["entry"]["text"])

    def open(self, path):
        """Opens a file and waits until it is loaded."""
        self.call("Page.navigate", url=f"file://{path}")
        self.until(lambda found: found.get("method") == "Page.loadEventFired", path)

    def value(self, text):
        """The value of an expression of the page."""
        found = self.call("Runtime.evaluate", expression=text, returnByValue=True, awaitPromise=True)
        if "exceptionDetails" in found:
            raise RuntimeError(f"{text}: {found['exceptionDetails']}")
        return found["result"].get("value")

    def mouse(self, kind, x, y, **more):
        """Sends a mouse event: mouseMoved, mousePressed, mouseReleased or mouseWheel."""
        self.call("Input.dispatchMouseEvent", type=kind, x=x, y=y, **more)

    def screenshot(self, path):
        """Writes a picture of the page."""
        with open(path, "wb") as file:
            file.write(base64.b64decode(self.call("Page.captureScreenshot", format="png")["data"]))
