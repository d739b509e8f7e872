"""A real browser, driven over WebDriver with the standard library alone."""

import base64
import json
import re
import shutil
import socket
import subprocess
import tempfile
import time
import urllib.error
import urllib.request

HOW = "the page is tried in Chromium: install it and its driver (Debian: apt-get install chromium chromium-driver fonts-dejavu-core)"


def missing():
    """What is not on this machine, and how it is had; nothing where all is there."""
    lacks = [name for name in ("chromium", "chromedriver") if shutil.which(name) is None]
    return "missing: %s; %s" % (" and ".join(lacks), HOW) if lacks else ""


class Browser:
    """A window of a browser. `options` are Chromium's own."""

    def __init__(self, width=1440, height=900, options=()):
        with socket.socket() as free:
            free.bind(("127.0.0.1", 0))
            port = free.getsockname()[1]
        self.folder = tempfile.mkdtemp(prefix="goi-page-")
        self.driver = subprocess.Popen(["chromedriver", "--port=%d" % port], stdout=subprocess.DEVNULL, stderr=subprocess.DEVNULL)
        self.base = "http://127.0.0.1:%d" % port
        self.session = ""
        for _ in range(200):
            try:
                self.call("GET", "/status")
                break
            except OSError:
                time.sleep(0.05)
        given = ["--headless=new", "--no-sandbox", "--disable-gpu", "--hide-scrollbars", "--disable-ipc-flooding-protection",
                 "--window-size=%d,%d" % (width, height), "--user-data-dir=" + self.folder, *options]
        wanted = {"goog:chromeOptions": {"binary": shutil.which("chromium"), "args": given}, "goog:loggingPrefs": {"browser": "ALL"}}
        made = self.call("POST", "/session", {"capabilities": {"alwaysMatch": wanted}})
        self.session = "/session/" + made["sessionId"]
        self.call("POST", "/timeouts", {"script": 120000})
        self.resize(width, height)

    def call(self, method, path, body=None):
        data = None if body is None else json.dumps(body).encode()
        request = urllib.request.Request(self.base + self.session + path, method=method, data=data,
                                         headers={"Content-Type": "application/json"})
        try:
            with urllib.request.urlopen(request, timeout=120) as answer:
                return json.load(answer)["value"]
        except urllib.error.HTTPError as error:
            raise RuntimeError(error.read().decode()[:2000]) from None

    def resize(self, width, height):
        self.call("POST", "/window/rect", {"width": width, "height": height})

    def view(self, width=0, height=0):
        """Gives the page itself so many pixels, however small; without a size, those of its window."""
        metrics = {"width": width, "height": height, "deviceScaleFactor": 0, "mobile": False} if width else {}
        what = "Emulation.setDeviceMetricsOverride" if width else "Emulation.clearDeviceMetricsOverride"
        self.call("POST", "/goog/cdp/execute", {"cmd": what, "params": metrics})

    def open(self, address):
        self.call("POST", "/url", {"url": address})

    def script(self, code, *given):
        """What a function with this body returns in the page."""
        return self.call("POST", "/execute/sync", {"script": code, "args": list(given)})

    def keys(self, text):
        """Presses and lets go each key."""
        actions = [{"type": kind, "value": key} for key in text for kind in ("keyDown", "keyUp")]
        self.call("POST", "/actions", {"actions": [{"type": "key", "id": "keys", "actions": actions}]})

    def log(self):
        """The console's lines since the last call."""
        return self.call("POST", "/se/log", {"type": "browser"})

    def picture(self, path):
        with open(path, "wb") as file:
            file.write(base64.b64decode(self.call("GET", "/screenshot")))

    def sheet(self):
        """The page as it is printed, as PDF."""
        return base64.b64decode(self.call("POST", "/print", {"page": {"width": 21.0, "height": 29.7}}))

    def name(self):
        return re.search(r"Chrome/\S+", self.script("return navigator.userAgent"))[0]

    def close(self):
        try:
            if self.session:
                self.call("DELETE", "")
        finally:
            self.driver.terminate()
            self.driver.wait()
            shutil.rmtree(self.folder, ignore_errors=True)
