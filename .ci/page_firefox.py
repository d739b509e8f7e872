"""Firefox, driven over WebDriver BiDi with the standard library alone: a window with the methods of page_browser.Browser."""

import base64
import json
import os
import re
import shutil
import socket
import struct
import subprocess
import tempfile
import time

HOW = "the page is tried in Firefox where it is installed (Debian: apt-get install firefox-esr)"


def program():
    return shutil.which("firefox-esr") or shutil.which("firefox")


class Socket:
    """A WebSocket to this machine, for texts."""

    def __init__(self, port, path):
        self.stream = socket.create_connection(("127.0.0.1", port), timeout=120)
        key = base64.b64encode(os.urandom(16)).decode()
        head = [f"GET {path} HTTP/1.1", f"Host: 127.0.0.1:{port}", "Upgrade: websocket", "Connection: Upgrade"]
        head += [f"Sec-WebSocket-Key: {key}", "Sec-WebSocket-Version: 13", "", ""]
        self.stream.sendall("\r\n".join(head).encode())
        self.given = b""
        while b"\r\n\r\n" not in self.given:
            self.given += self.stream.recv(4096)
        said, self.given = self.given.split(b"\r\n\r\n", 1)
        if b" 101 " not in said:
            raise OSError(said.decode())

    def take(self, count):
        while len(self.given) < count:
            more = self.stream.recv(1 << 16)
            if not more:
                raise OSError("the socket is closed")
            self.given += more
        taken, self.given = self.given[:count], self.given[count:]
        return taken

    def send(self, text):
        data, mask = text.encode(), os.urandom(4)
        length = len(data)
        if length < 126:
            size = bytes([0x80 | length])
        else:
            size = b"\xfe" + struct.pack(">H", length) if length < 1 << 16 else b"\xff" + struct.pack(">Q", length)
        repeated = mask * (length // 4 + 1)
        masked = int.from_bytes(data, "big") ^ int.from_bytes(repeated[:length], "big")
        self.stream.sendall(b"\x81" + size + mask + masked.to_bytes(length, "big"))

    def text(self):
        """The next text; a ping is left without an answer, since this other end sends none."""
        whole = b""
        while True:
            first, second = self.take(2)
            length = second & 127
            if length > 125:
                length = struct.unpack(">H" if length == 126 else ">Q", self.take(2 if length == 126 else 8))[0]
            data = self.take(length)
            if first & 15 in (0, 1):
                whole += data
            if first & 128 and first & 15 in (0, 1):
                return whole.decode()


class Firefox:
    def __init__(self, width=1440, height=900):
        with socket.socket() as free:
            free.bind(("127.0.0.1", 0))
            port = free.getsockname()[1]
        self.folder = tempfile.mkdtemp(prefix="goi-page-")
        words = [program(), "--headless", "--no-remote", "--remote-debugging-port", str(port), "--profile", self.folder, "about:blank"]
        self.process = subprocess.Popen(words, stdin=subprocess.DEVNULL, stdout=subprocess.DEVNULL, stderr=subprocess.DEVNULL)
        self.number, self.lines = 0, []
        for _ in range(600):
            try:
                self.socket = Socket(port, "/session")
                break
            except OSError:
                time.sleep(0.1)
        self.asked("session.new", capabilities={})
        self.context = self.asked("browsingContext.getTree")["contexts"][0]["context"]
        self.asked("session.subscribe", events=["log.entryAdded"])
        self.resize(width, height)

    def asked(self, method, **params):
        self.number += 1
        self.socket.send(json.dumps({"id": self.number, "method": method, "params": params}))
        while True:
            told = json.loads(self.socket.text())
            if told.get("method") == "log.entryAdded":
                self.lines.append(told["params"])
            elif told.get("id") == self.number:
                if told["type"] == "error":
                    raise RuntimeError(f"{told['error']}: {told['message']}"[:2000])
                return told["result"]

    def open(self, address):
        """Opens a page, and waits until it is the one in which scripts run: that can be a while after Firefox says so. (Where only what is
        behind the # differs the page stays.)"""
        before = self.script("window.isBefore = true; return location.href.split('#')[0]")
        self.asked("browsingContext.navigate", context=self.context, url=address, wait="complete")
        there = "return document.readyState === 'complete' && location.href.split('#')[0] === arguments[0] && (arguments[1] || !window.isBefore)"
        for _ in range(600):
            if self.script(there, address.split("#")[0], "#" in address and before == address.split("#")[0]):
                return
            time.sleep(0.05)

    def script(self, code, *given):
        """What a function with this body returns in the page."""
        body = f"async (given) => JSON.stringify(await (async function() {{ {code} }}).apply(null, JSON.parse(given)) ?? null)"
        found = self.asked("script.callFunction", functionDeclaration=body, awaitPromise=True, target={"context": self.context},
                           arguments=[{"type": "string", "value": json.dumps(given)}])
        if found["type"] == "exception":
            raise RuntimeError(found["exceptionDetails"]["text"][:2000])
        return json.loads(found["result"]["value"])

    def keys(self, text):
        actions = [{"type": kind, "value": key} for key in text for kind in ("keyDown", "keyUp")]
        self.call("POST", "/actions", {"actions": [{"type": "key", "id": "keys", "actions": actions}]})

    def call(self, method, path, body):
        """The actions of WebDriver; nothing else."""
        if (method, path) != ("POST", "/actions"):
            raise ValueError(path)
        self.asked("input.performActions", context=self.context, actions=body["actions"])

    def log(self):
        """The console's lines since the last call; an error is SEVERE."""
        lines, self.lines = self.lines, []
        return [{"level": "SEVERE" if it["level"] == "error" else "INFO", "message": it.get("text") or ""} for it in lines]

    def resize(self, width, height):
        self.asked("browsingContext.setViewport", context=self.context, viewport={"width": width, "height": height})

    def view(self, width=1440, height=900):
        self.resize(width, height)

    def picture(self, path):
        with open(path, "wb") as file:
            file.write(base64.b64decode(self.asked("browsingContext.captureScreenshot", context=self.context)["data"]))

    def name(self):
        return re.search(r"Firefox/\S+", self.script("return navigator.userAgent"))[0]

    def close(self):
        try:
            self.asked("browser.close")
        except (OSError, RuntimeError):
            self.process.terminate()
        self.process.wait(60)
        shutil.rmtree(self.folder, ignore_errors=True)
