"""A page in headless Chromium, by the protocol of its developer tools (https://chromedevtools.github.io/devtools-protocol)."""
import base64
import json
import os
import shutil
import socket
import struct
import subprocess
import tempfile
import time
import urllib.request

WAIT = 60  # seconds


class Socket:
    """A WebSocket (RFC 6455) to a page."""

    def __init__(self, url):
        host, _, path = url.removeprefix("ws://").partition("/")
        name, _, port = host.partition(":")
        self.stream = socket.create_connection((name, int(port)), timeout=4 * WAIT)
        key = base64.b64encode(os.urandom(16)).decode()
        self.stream.sendall(f"GET /{path} HTTP/1.1\r\nHost: {host}\r\nUpgrade: websocket\r\nConnection: Upgrade\r\n"
                            f"Sec-WebSocket-Key: {key}\r\nSec-WebSocket-Version: 13\r\n\r\n".encode())
        self.file = self.stream.makefile("rb")
        while self.file.readline().strip():
            pass

    def send(self, text):
        body, mask = text.encode(), os.urandom(4)
        if len(body) < 126:
            length = bytes([0x80 | len(body)])
        else:
            length = b"\xfe" + struct.pack(">H", len(body)) if len(body) < 65536 else b"\xff" + struct.pack(">Q", len(body))
        repeated = (mask * (len(body) // 4 + 1))[:len(body)]
        masked = (int.from_bytes(body, "big") ^ int.from_bytes(repeated, "big")).to_bytes(len(body), "big")
        self.stream.sendall(b"\x81" + length + mask + masked)

    def message(self):
        whole = b""
        while True:
            first, second = self.file.read(2)
            length = second & 127
            if length == 126:
                length, = struct.unpack(">H", self.file.read(2))
            elif length == 127:
                length, = struct.unpack(">Q", self.file.read(8))
            whole += self.file.read(length)
            if first & 0x80:
                return json.loads(whole)


READY = "document.body && document.body.dataset.ready === 'yes'"  # as this repository's page tells


class Page:
    """A page at an address, which is there when an expression of its own is true. `complaints` are its uncaught errors and what the
    console got of them."""

    def __init__(self, chromium, address, wide=1500, high=940, ready=READY):
        self.room = tempfile.mkdtemp()
        words = [chromium, "--headless=new", "--no-sandbox", "--disable-gpu", "--hide-scrollbars", f"--user-data-dir={self.room}",
                 "--remote-debugging-port=0", f"--window-size={wide},{high}", "about:blank"]
        self.process = subprocess.Popen(words, stdout=subprocess.DEVNULL, stderr=subprocess.DEVNULL)
        try:
            self.begin(address, wide, high, ready)
        except BaseException:
            self.end()
            raise

    def begin(self, address, wide, high, ready):
        self.number, self.complaints = 0, []
        self.socket = Socket(self.target())
        for domain in "Page", "Runtime", "Log":
            self.call(f"{domain}.enable")
        self.resize(wide, high)
        begun = time.monotonic()
        self.call("Page.navigate", url=address)
        self.wait(ready)
        self.loading = time.monotonic() - begun

    def target(self):
        noted = os.path.join(self.room, "DevToolsActivePort")
        end = time.monotonic() + WAIT
        while not (os.path.exists(noted) and os.path.getsize(noted)):
            if time.monotonic() > end:
                raise RuntimeError("chromium doesn't start")
            time.sleep(0.05)
        with open(noted, encoding="utf-8") as file:
            port = file.readline().strip()
        with urllib.request.urlopen(f"http://127.0.0.1:{port}/json") as answer:
            return next(it for it in json.load(answer) if it["type"] == "page")["webSocketDebuggerUrl"]

    def call(self, method, **given):
        self.number += 1
        self.socket.send(json.dumps({"id": self.number, "method": method, "params": given}))
        while True:
            answer = self.socket.message()
            if answer.get("method") in ("Runtime.exceptionThrown", "Log.entryAdded"):
                self.complaints.append(json.dumps(answer["params"])[:400])
            if answer.get("id") == self.number:
                if "error" in answer:
                    raise RuntimeError(answer["error"])
                return answer["result"]

    def value(self, text):
        """What an expression of the page's is."""
        answer = self.call("Runtime.evaluate", expression=text, returnByValue=True, awaitPromise=True)
        if "exceptionDetails" in answer:
            raise RuntimeError(f"{text[:200]}: {json.dumps(answer['exceptionDetails'])[:600]}")
        return answer["result"].get("value")

    def wait(self, text):
        end = time.monotonic() + WAIT
        while not self.value(text):
            if time.monotonic() > end:
                raise RuntimeError(f"never came: {text}; {self.complaints}")
            time.sleep(0.05)

    def key(self, name):
        """Presses a key: one that types a letter, or by its name one that doesn't."""
        codes = {"Enter": 13, "Escape": 27, "ArrowRight": 39, "ArrowDown": 40, "F8": 119, "F9": 120, "F10": 121}
        text = {"text": name} if len(name) == 1 else {}
        self.call("Input.dispatchKeyEvent", type="keyDown", key=name, windowsVirtualKeyCode=codes.get(name, 0), **text)
        self.call("Input.dispatchKeyEvent", type="keyUp", key=name)

    def click(self, x, y):
        for kind in "mousePressed", "mouseReleased":
            self.call("Input.dispatchMouseEvent", type=kind, x=x, y=y, button="left", clickCount=1)

    def resize(self, wide, high, scale=1, is_phone=False):
        self.call("Emulation.setDeviceMetricsOverride", width=wide, height=high, deviceScaleFactor=scale, mobile=is_phone)

    def dark(self, is_dark):
        self.call("Emulation.setEmulatedMedia", features=[{"name": "prefers-color-scheme", "value": "dark" if is_dark else "light"}])

    def shot(self, path):
        answer = self.call("Page.captureScreenshot", format="png")
        with open(path, "wb") as file:
            file.write(base64.b64decode(answer["data"]))

    def end(self):
        self.process.terminate()
        self.process.wait()
        shutil.rmtree(self.room, ignore_errors=True)
