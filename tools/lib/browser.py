"""A page in headless Chromium (Debian: chromium), by its DevTools protocol over two pipes: what stands on it, and a picture of it."""
import base64
import json
import os
import select
import shutil
import subprocess
import time

CHROMIUM = os.environ.get("CHROMIUM") or shutil.which("chromium") or "chromium"
WORDS = ["--headless=new", "--no-sandbox", "--disable-gpu", "--disable-dev-shm-usage", "--no-first-run", "--disable-extensions", "--disable-background-networking",
         "--remote-debugging-pipe"]
# Each table's rows as texts of their cells, by the table's id; and the text of everything else that has one.
READ = """JSON.stringify({
    tables: Object.fromEntries([...document.querySelectorAll("table")].map(t => [t.id, [...t.tBodies[0].rows].map(r => [...r.cells].map(c => c.innerText))])),
    texts: Object.fromEntries([...document.querySelectorAll("[id]:not(table)")].map(e => [e.id, e.innerText]))})"""


class NoBrowser(Exception):
    """It doesn't start, doesn't answer in time, or refuses a command."""


class Refused(NoBrowser):
    """It answers a command with an error, as while a page is being left."""


class Browser:
    """One browser with one page. Its profile goes to the folder."""

    def __init__(self, folder, log, seconds=60):
        self.seconds, self.count, self.rest, self.session = seconds, 0, b"", None
        taken, self.out = os.pipe()
        self.came, given = os.pipe()
        command = ["sh", "-c", f'exec "$@" 3<&{taken} 4>&{given}', "", CHROMIUM, *WORDS, f"--user-data-dir={folder}", "about:blank"]
        self.process = subprocess.Popen(command, pass_fds=(taken, given), stdin=subprocess.DEVNULL, stdout=log, stderr=log, start_new_session=True)
        os.close(taken)
        os.close(given)
        target = self.call("Target.createTarget", {"url": "about:blank"})["targetId"]
        self.session = self.call("Target.attachToTarget", {"targetId": target, "flatten": True})["sessionId"]

    def call(self, method, words):
        """A command's result; what the browser tells meanwhile is passed over."""
        self.count += 1
        asked = {"id": self.count, "method": method, "params": words, **({"sessionId": self.session} if self.session else {})}
        os.write(self.out, json.dumps(asked).encode() + b"\0")
        until = time.monotonic() + self.seconds
        while time.monotonic() < until:
            told = json.loads(self._next(until))
            if told.get("id") == self.count:
                if "error" in told:
                    raise Refused(f"{method}: {told['error']}")
                return told["result"]
        raise NoBrowser(f"{method} has no answer")

    def _next(self, until):
        while b"\0" not in self.rest:
            if not select.select([self.came], [], [], max(0, until - time.monotonic()))[0]:
                raise NoBrowser("the browser doesn't answer")
            piece = os.read(self.came, 1 << 16)
            if not piece:
                raise NoBrowser("the browser ended")
            self.rest += piece
        one, _, self.rest = self.rest.partition(b"\0")
        return one

    def size(self, width, height):
        self.call("Emulation.setDeviceMetricsOverride", {"width": width, "height": height, "deviceScaleFactor": 1, "mobile": False})

    def open(self, url):
        told = self.call("Page.navigate", {"url": url})
        if "errorText" in told:
            raise NoBrowser(f"{url}: {told['errorText']}")

    def read(self):
        """What stands on the page now: (tables, texts), both by id; None while it is being fetched."""
        try:
            told = self.call("Runtime.evaluate", {"expression": READ, "returnByValue": True})
        except Refused:
            return None
        if "exceptionDetails" in told:
            return None
        found = json.loads(told["result"]["value"])
        return found["tables"], found["texts"]

    def picture(self, path):
        with open(path, "wb") as file:
            file.write(base64.b64decode(self.call("Page.captureScreenshot", {"format": "png", "captureBeyondViewport": True})["data"]))

    def end(self):
        self.process.terminate()
        try:
            self.process.wait(10)
        except subprocess.TimeoutExpired:
            self.process.kill()
            self.process.wait()
