"""A headless Chromium, driven through a pipe by its DevTools protocol, to look at a page as a reader has it."""
import base64
import contextlib
import json
import os
import shutil
import signal
import subprocess
import tempfile
import time

# How long an answer of the browser may take, in seconds.
PATIENCE = 60.0


def installed():
    """The browser's path, or None."""
    return shutil.which("chromium") or shutil.which("chromium-browser")


class Browser:
    """A browser with one page, as a context."""

    def __enter__(self):
        self.folder = tempfile.TemporaryDirectory(prefix="ipmd-test-", ignore_cleanup_errors=True)
        # It reads commands at descriptor 3 and writes answers to 4, each ended by a zero.
        theirs, self.commands = os.pipe()
        self.answers, ours = os.pipe()
        words = [
            installed(), "--headless", "--no-sandbox", "--disable-gpu", "--disable-dev-shm-usage", "--no-first-run", "--remote-debugging-pipe",
            "--disable-background-networking", "--disable-component-update", f"--user-data-dir={self.folder.name}", "about:blank",
        ]
        shell = ["bash", "-c", 'exec 3<&"$0" 4>&"$1"; shift; exec "$@"', str(theirs), str(ours), *words]
        self.child = subprocess.Popen(
            shell, pass_fds=(theirs, ours), start_new_session=True, stdin=subprocess.DEVNULL, stdout=subprocess.DEVNULL, stderr=subprocess.DEVNULL
        )
        os.close(theirs)
        os.close(ours)
        self.got, self.count, self.session = b"", 0, None
        pages = [one for one in self.call("Target.getTargets")["targetInfos"] if one["type"] == "page"]
        self.session = self.call("Target.attachToTarget", targetId=pages[0]["targetId"], flatten=True)["sessionId"]
        self.call("Page.enable")
        return self

    def __exit__(self, *_):
        with contextlib.suppress(ProcessLookupError):
            os.killpg(self.child.pid, signal.SIGKILL)
        self.child.wait()
        os.close(self.commands)
        os.close(self.answers)
        self.folder.cleanup()

    def next(self, end):
        """The next thing that the browser says."""
        while b"\0" not in self.got:
            assert time.monotonic() < end, "the browser doesn't answer"
            more = os.read(self.answers, 1 << 20)
            assert more, "the browser has ended"
            self.got += more
        one, _, self.got = self.got.partition(b"\0")
        return json.loads(one)

    def call(self, method, **params):
        """Has the browser do something, and answers what came of it."""
        self.count += 1
        command = {"id": self.count, "method": method, "params": params}
        if self.session is not None:
            command["sessionId"] = self.session
        os.write(self.commands, json.dumps(command).encode() + b"\0")
        end = time.monotonic() + PATIENCE
        while True:
            said = self.next(end)
            if said.get("id") == self.count:
                assert "error" not in said, said
                return said["result"]

    def open(self, address, width, height=844, scheme="light"):
        """Opens a page in a window of so many pixels, as a phone or not, in a light or dark scheme."""
        self.call("Emulation.setDeviceMetricsOverride", width=width, height=height, deviceScaleFactor=1, mobile=width < 600)
        self.call("Emulation.setEmulatedMedia", features=[{"name": "prefers-color-scheme", "value": scheme}])
        self.call("Page.navigate", url=address)
        end = time.monotonic() + PATIENCE
        while self.next(end).get("method") != "Page.loadEventFired":
            pass

    def value(self, script):
        """What a script's expression is."""
        return self.call("Runtime.evaluate", expression=script, returnByValue=True)["result"].get("value")

    def screenshot(self, path):
        """Writes a picture of the whole page."""
        size = self.call("Page.getLayoutMetrics")["cssContentSize"]
        clip = {"x": 0, "y": 0, "width": size["width"], "height": size["height"], "scale": 1}
        data = self.call("Page.captureScreenshot", format="png", captureBeyondViewport=True, clip=clip)["data"]
        with open(path, "wb") as file:
            file.write(base64.b64decode(data))
