"""A headless Chromium, steered by its own protocol (https://chromedevtools.github.io/devtools-protocol/)."""

import base64
import json
import os
import shutil
import socket
import subprocess
import tempfile
import time
from pathlib import Path
from urllib.request import urlopen

from serving.talk import MOST, wait_for

NAMES = ("chromium", "chromium-browser", "google-chrome")
KEYS = {"Tab": 9, "Enter": 13, "Escape": 27, "ArrowDown": 40, "ArrowUp": 38, " ": 32}
TEXTS = {"Enter": "\r", " ": " "}


def program():
    """The first one that is installed, if any is."""
    return next((name for name in NAMES if shutil.which(name)), None)


class Browser:
    """One page of it, of so many pixels."""

    def __init__(self, width=1280, height=900, dark=False):
        self.folder = tempfile.mkdtemp(prefix="nimchaes-browser-")
        self.run = subprocess.Popen(
            [program(), "--headless=new", "--no-sandbox", "--disable-gpu", "--hide-scrollbars", "--no-first-run",
             "--disable-background-networking", "--remote-debugging-port=0", f"--user-data-dir={self.folder}",
             f"--window-size={width},{height}", "about:blank"], stdout=subprocess.DEVNULL, stderr=subprocess.DEVNULL)
        self.size, self.dark = (width, height), dark
        self.line, self.count, self.events = None, 0, []

    def __enter__(self):
        try:
            self.join()
        except BaseException:
            self.leave()
            raise
        return self

    def __exit__(self, *_):
        self.leave()

    def join(self):
        """Takes its page, and makes it as it is to be."""
        told = Path(self.folder, "DevToolsActivePort")
        wait_for(lambda: told.is_file() and told.read_text().count("\n"), "the browser is there")
        port = int(told.read_text().split()[0])
        wait_for(lambda: self.pages(port), "it has a page")
        self.line = self.joined(port, self.pages(port)[0]["webSocketDebuggerUrl"].partition(f":{port}")[2])
        for domain in ("Page", "Runtime", "Log", "Network"):
            self.ask(f"{domain}.enable")
        self.ask("Emulation.setDeviceMetricsOverride", width=self.size[0], height=self.size[1], deviceScaleFactor=1,
                 mobile=False)
        scheme = {"name": "prefers-color-scheme", "value": "dark" if self.dark else "light"}
        self.ask("Emulation.setEmulatedMedia", features=[scheme])

    def leave(self):
        if self.line:
            self.line.close()
        self.run.terminate()
        self.run.wait()
        shutil.rmtree(self.folder, ignore_errors=True)

    @staticmethod
    def pages(port):
        with urlopen(f"http://127.0.0.1:{port}/json/list", timeout=MOST) as reply:
            return [page for page in json.loads(reply.read()) if page["type"] == "page"]

    @staticmethod
    def joined(port, path):
        """A connection by RFC 6455, whose opening is answered."""
        line = socket.create_connection(("127.0.0.1", port), timeout=MOST)
        key = base64.b64encode(os.urandom(16)).decode()
        line.sendall(f"GET {path} HTTP/1.1\r\nHost: 127.0.0.1:{port}\r\nUpgrade: websocket\r\nConnection: Upgrade\r\n"
                     f"Sec-WebSocket-Key: {key}\r\nSec-WebSocket-Version: 13\r\n\r\n".encode())
        reply = b""
        while not reply.endswith(b"\r\n\r\n"):
            reply += line.recv(1)
        return line

    def send(self, text):
        mask = os.urandom(4)
        head = bytes([0x81, 0xff]) + len(text).to_bytes(8, "big")
        self.line.sendall(head + mask + bytes(byte ^ mask[at % 4] for at, byte in enumerate(text)))

    def exactly(self, size):
        text = bytearray()
        while len(text) < size:
            piece = self.line.recv(min(size - len(text), 1 << 20))
            if not piece:
                raise ConnectionError("the browser has gone")
            text += piece
        return bytes(text)

    def receive(self):
        """The next message, which may come in several pieces."""
        text, is_last = b"", False
        while not is_last:
            first, size = self.exactly(2)
            is_last = bool(first & 0x80)
            if size > 125:
                size = int.from_bytes(self.exactly(2 if size == 126 else 8), "big")
            text += self.exactly(size)
        return json.loads(text)

    def ask(self, method, **parameters):
        """What a command of the protocol gives. What happened meanwhile is kept among the events."""
        self.count += 1
        self.send(json.dumps({"id": self.count, "method": method, "params": parameters}).encode())
        while True:
            told = self.receive()
            if told.get("id") == self.count:
                if "error" in told:
                    raise RuntimeError(f"{method}: {told['error']}")
                return told["result"]
            self.events.append(told)

    def goes(self, url):
        self.ask("Page.navigate", url=url)
        wait_for(lambda: self.value("document.readyState") == "complete", "the page is there")

    def value(self, expression):
        """What an expression has on the page."""
        told = self.ask("Runtime.evaluate", expression=expression, returnByValue=True, awaitPromise=True)
        if "exceptionDetails" in told:
            raise RuntimeError(told["exceptionDetails"])
        return told["result"].get("value")

    def press(self, *keys):
        """Keys as a keyboard has them: a name of KEYS, or a character."""
        for key in keys:
            code = KEYS.get(key, ord(key.upper()[0]))
            text = TEXTS.get(key, "" if key in KEYS else key)
            said = {"key": key, "windowsVirtualKeyCode": code, **({"text": text} if text else {})}
            self.ask("Input.dispatchKeyEvent", type="keyDown", **said)
            self.ask("Input.dispatchKeyEvent", type="keyUp", key=key, windowsVirtualKeyCode=code)

    def picture(self, file):
        time.sleep(0.2)
        told = self.ask("Page.captureScreenshot", format="png")
        Path(file).write_bytes(base64.b64decode(told["data"]))

    def happened(self, method):
        """The events of that name so far."""
        return [event["params"] for event in self.events if event["method"] == method]
