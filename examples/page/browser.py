"""A real browser without a window, driven through a pipe by the DevTools protocol: Python alone, no package."""
import fcntl
import json
import os
import select
import shutil
import subprocess
import tempfile
import time

NAMES = ("chromium", "chromium-browser", "google-chrome", "google-chrome-stable")
WORDS = ["--headless=new", "--no-sandbox", "--disable-gpu", "--no-first-run", "--remote-debugging-pipe", "--window-size=1300,700"]


def installed():
    """The path of a browser, or None."""
    return next((path for path in map(shutil.which, NAMES) if path), None)


class Browser:
    def __init__(self, path):
        ours_in, theirs_out = os.pipe()
        theirs_in, ours_out = os.pipe()
        # above 9, so that the browser's 3 and 4 overwrite none of them; what Python opens is not inherited
        ends = [fcntl.fcntl(end, fcntl.F_DUPFD_CLOEXEC, 10) for end in (theirs_in, theirs_out)]
        self.folder = tempfile.TemporaryDirectory(prefix="page-browser-", ignore_cleanup_errors=True)
        self.process = subprocess.Popen(
            [path, *WORDS, f"--user-data-dir={self.folder.name}"], stdout=subprocess.DEVNULL, stderr=subprocess.DEVNULL, close_fds=False,
            preexec_fn=lambda: (os.dup2(ends[0], 3), os.dup2(ends[1], 4)),
        )
        for end in (theirs_in, theirs_out, *ends):
            os.close(end)
        self.source, self.sink, self.rest, self.count, self.wrong = ours_in, ours_out, b"", 0, []
        target = self.call("Target.createTarget", url="about:blank")["targetId"]
        self.session = self.call("Target.attachToTarget", targetId=target, flatten=True)["sessionId"]
        self.call("Runtime.enable")
        self.call("Page.enable")

    def message(self, until):
        """The next message of the browser. What scripts throw is kept in `wrong`."""
        while b"\0" not in self.rest:
            if not select.select([self.source], [], [], max(0, until - time.monotonic()))[0]:
                raise TimeoutError("the browser does not answer")
            self.rest += os.read(self.source, 1 << 20) or b'{"id":0,"error":"the browser has ended"}\0'
        text, self.rest = self.rest.split(b"\0", 1)
        found = json.loads(text)
        if found.get("method") == "Runtime.exceptionThrown":
            self.wrong.append(found["params"]["exceptionDetails"].get("exception", {}).get("description", "an exception"))
        return found

    def call(self, method, seconds=60, **params):
        self.count += 1
        words = {"id": self.count, "method": method, "params": params}
        if not method.startswith("Target."):
            words["sessionId"] = self.session
        os.write(self.sink, json.dumps(words).encode() + b"\0")
        until = time.monotonic() + seconds
        while True:
            found = self.message(until)
            if "error" in found:
                raise RuntimeError(f"{method}: {found['error']}")
            if found.get("id") == self.count:
                return found["result"]

    def value(self, expression):
        """What a JavaScript expression gives."""
        found = self.call("Runtime.evaluate", expression=expression, returnByValue=True, awaitPromise=True)
        if "exceptionDetails" in found:
            raise RuntimeError(f"{expression}: {found['exceptionDetails']}")
        return found["result"].get("value")

    def open(self, path, seconds=60):
        """Opens a page, and gives in how many milliseconds it was there, as it says itself."""
        self.call("Page.navigate", url=f"file://{path}")
        until = time.monotonic() + seconds
        while time.monotonic() < until:
            loaded = self.value("document.body && document.body.dataset.loaded")
            if loaded and self.value("location.pathname") == path:
                return int(loaded)
            time.sleep(0.05)
        raise TimeoutError(f"{path} was not loaded in {seconds} seconds")

    def mouse(self, kind, x, y, **more):
        self.call("Input.dispatchMouseEvent", type=kind, x=x, y=y, **more)

    def click(self, x, y):
        for kind in ("mousePressed", "mouseReleased"):
            self.mouse(kind, x, y, button="left", buttons=1, clickCount=1)

    def close(self):
        try:
            self.call("Target.closeTarget", targetId=self.call("Target.getTargets")["targetInfos"][0]["targetId"])
        except (RuntimeError, OSError, TimeoutError):
            pass
        self.process.terminate()
        self.process.wait()
        self.folder.cleanup()
