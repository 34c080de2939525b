"""Headless Chromium by its own remote protocol, over two pipes: nothing but Python and the browser is needed."""
import base64
import json
import os
import select
import shutil
import subprocess
import sys
import tempfile
import time

NAMES = ("chromium", "chromium-browser", "google-chrome")
SECONDS = 60


def program():
    """The browser's path, or None."""
    return next((found for it in NAMES if (found := shutil.which(it))), None)


def install():
    """Installs the browser by the system's packages, where this machine has apt and the rights; tells whether it is there."""
    apt = shutil.which("apt-get")
    if program() or not apt or os.geteuid() != 0:
        return program() is not None
    print("installing chromium by apt-get", flush=True)
    quiet = {"stdout": subprocess.DEVNULL, "stderr": subprocess.DEVNULL, "env": {**os.environ, "DEBIAN_FRONTEND": "noninteractive"}}
    words = [apt, "install", "-y", "--no-install-recommends", "chromium", "fonts-dejavu-core"]
    if subprocess.run(words, **quiet).returncode != 0:
        subprocess.run([apt, "update"], **quiet)
        subprocess.run(words, **quiet)
    return program() is not None


class Trouble(Exception):
    """The browser or the page said that something failed."""


class Browser:
    """One page in a browser of its own, with a profile that is removed at the end."""

    def __init__(self, width=1280, height=1000):
        self.profile = tempfile.mkdtemp(prefix="trace-page-")
        to_read, self.write_end = os.pipe()
        self.read_end, to_write = os.pipe()
        words = [
            program(),
            "--headless=new",
            "--no-sandbox",
            "--disable-gpu",
            "--disable-dev-shm-usage",
            "--no-first-run",
            "--disable-extensions",
            "--disable-background-networking",
            "--hide-scrollbars",
            "--remote-debugging-pipe",
            f"--user-data-dir={self.profile}",
            f"--window-size={width},{height}",
            "about:blank",
        ]
        # The browser reads commands from descriptor 3 and answers on 4.
        shell = f'exec 3<&{to_read} 4>&{to_write}; exec "$@"'
        self.process = subprocess.Popen(
            ["sh", "-c", shell, "sh", *words],
            pass_fds=(to_read, to_write),
            stdout=subprocess.DEVNULL,
            stderr=subprocess.DEVNULL,
        )
        os.close(to_read)
        os.close(to_write)
        self.number, self.buffer, self.events, self.session = 0, b"", [], None
        target = next(it for it in self.call("Target.getTargets")["targetInfos"] if it["type"] == "page")
        self.session = self.call("Target.attachToTarget", targetId=target["targetId"], flatten=True)["sessionId"]
        for it in ("Page", "Runtime", "Network", "DOM", "Log"):
            self.call(f"{it}.enable")

    def __enter__(self):
        return self

    def __exit__(self, *_):
        try:
            self.session = None
            self.call("Browser.close")
        except Trouble:
            pass
        try:
            self.process.wait(10)
        except subprocess.TimeoutExpired:
            self.process.kill()
            self.process.wait()
        os.close(self.read_end)
        os.close(self.write_end)
        shutil.rmtree(self.profile, ignore_errors=True)

    def call(self, method, **params):
        """Sends a command and gives its result."""
        self.number += 1
        message = {"id": self.number, "method": method, "params": params}
        if self.session:
            message["sessionId"] = self.session
        data = json.dumps(message).encode() + b"\0"
        while data:
            data = data[os.write(self.write_end, data) :]
        while True:
            answer = self.message()
            if answer.get("id") != self.number:
                self.events.append(answer)
                continue
            if "error" in answer:
                raise Trouble(f"{method}: {answer['error']['message']}")
            return answer["result"]

    def message(self):
        """The next message of the browser."""
        until = time.monotonic() + SECONDS
        while b"\0" not in self.buffer:
            if not select.select([self.read_end], [], [], max(until - time.monotonic(), 0))[0]:
                raise Trouble(f"the browser says nothing for {SECONDS} seconds")
            part = os.read(self.read_end, 1 << 20)
            if not part:
                raise Trouble("the browser ended")
            self.buffer += part
        one, _, self.buffer = self.buffer.partition(b"\0")
        return json.loads(one)

    def open(self, path):
        """Opens a file of this machine as a page."""
        self.call("Page.navigate", url=f"file://{path}")
        self.until("document.readyState === 'complete'")

    def run(self, script):
        """The value of an expression in the page."""
        answer = self.call("Runtime.evaluate", expression=script, returnByValue=True, awaitPromise=True)
        if "exceptionDetails" in answer:
            details = answer["exceptionDetails"]
            raise Trouble(details.get("exception", {}).get("description", details["text"]))
        return answer["result"].get("value")

    def until(self, script):
        """Waits until an expression in the page is true."""
        until = time.monotonic() + SECONDS
        while not self.run(script):
            if time.monotonic() > until:
                raise Trouble(f"the page doesn't come to {script}")
            time.sleep(0.02)

    def give(self, selector, path):
        """Chooses a file in a file field."""
        root = self.call("DOM.getDocument")["root"]["nodeId"]
        node = self.call("DOM.querySelector", nodeId=root, selector=selector)["nodeId"]
        self.call("DOM.setFileInputFiles", files=[str(path)], nodeId=node)

    def press(self, key, code=0):
        """Presses a key, as a person would."""
        text = {"text": key} if len(key) == 1 else {}
        for kind in ("keyDown", "keyUp"):
            self.call("Input.dispatchKeyEvent", type=kind, key=key, windowsVirtualKeyCode=code, **(text if kind == "keyDown" else {}))

    def show(self, width, height, is_dark=False, is_small=False):
        """Sets the size of the screen, and whether the system is dark."""
        self.call("Emulation.setDeviceMetricsOverride", width=width, height=height, deviceScaleFactor=2 if is_small else 1, mobile=is_small)
        self.call("Emulation.setEmulatedMedia", features=[{"name": "prefers-color-scheme", "value": "dark" if is_dark else "light"}])

    def picture(self, path):
        """Writes a screenshot of what is in view."""
        self.run("new Promise((done) => requestAnimationFrame(() => requestAnimationFrame(done)))")
        found = self.call("Page.captureScreenshot", format="png", captureBeyondViewport=False)
        with open(path, "wb") as it:
            it.write(base64.b64decode(found["data"]))

    def complaints(self):
        """What the page said that shows a fault of its own: exceptions, and entries of the log."""
        self.run("1")
        found = []
        for event in self.events:
            if event.get("method") == "Runtime.exceptionThrown":
                found.append(event["params"]["exceptionDetails"].get("exception", {}).get("description", "an exception"))
            if event.get("method") == "Log.entryAdded" and event["params"]["entry"]["level"] in ("error", "warning"):
                found.append(event["params"]["entry"]["text"])
        return found

    def requests(self):
        """The addresses that the page asked for."""
        return [it["params"]["request"]["url"] for it in self.events if it.get("method") == "Network.requestWillBeSent"]


if __name__ == "__main__":
    print("browser:", program() or "none", file=sys.stderr)
